/* Counts its starts: the count is a variable of the store, so it goes on after a reset. */
#include "../cortex-m/semihosting.h"
#include "../ee.h"
#include "flash.h"

enum { STARTS = 1 /* the address of the count */ };

static ee_store store;

static uint32_t count_starts(uint32_t *starts) {
    uint32_t status = ee_start(&store, &file_flash); /* opens the store, or makes it on a new part */
    if (status != EE_OK) return status;
    status = ee_read(&store, STARTS, starts);
    if (status == EE_NOTHING) *starts = 0;
    else if (status != EE_OK) return status;
    return ee_write(&store, STARTS, ++*starts);
}

static void print(const char *what, uint32_t number, const char *then) {
    char line[16], *end = put_decimal(line, number);
    *end = 0;
    ask(SYS_WRITE0, (uintptr_t)what);
    ask(SYS_WRITE0, (uintptr_t)line);
    ask(SYS_WRITE0, (uintptr_t)then);
}

int main(void);

int main(void) {
    uint32_t starts;
    ee_numbers numbers;
    uint32_t status = file_flash_opened() ? count_starts(&starts) : EE_DRIVER;
    if (status != EE_OK || ee_counts(&store, &numbers) != EE_OK) {
        print("status ", status, "\n");
        return 1;
    }
    print("start ", starts, "");
    print(", ", numbers.fill, "");
    print(" of ", numbers.slots, " slots used");
    print(", ", numbers.generation - 1, " moves\n");
    return 0;
}
