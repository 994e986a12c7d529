/* Counts its starts, in the partition `ee_partition` of the device tree. */
#include <stdio.h>

#include "port/zephyr.h"

enum { STARTS = 1 }; /* the address of the count */

zephyr_part ee_part = {ZEPHYR_PARTITION(ee_partition)}; /* nmi_stm32.c gives it to zephyr_nmi */
static ee_flash flash;
static ee_store store;

static uint32_t count_starts(uint32_t *starts) {
    uint32_t status = ee_start(&store, &flash); /* opens the store, or makes it on a new part */
    if (status != EE_OK) return status;
    status = ee_read(&store, STARTS, starts);
    if (status == EE_NOTHING) *starts = 0;
    else if (status != EE_OK) return status;
    return ee_write(&store, STARTS, ++*starts);
}

int main(void) {
    uint32_t starts = 0;
    int error = zephyr_flash(&ee_part, &flash);
    if (error != 0) {
        printf("the partition doesn't fit: %d\n", error);
        return 0;
    }
    uint32_t status = count_starts(&starts);
    if (status == EE_OK) printf("start %u\n", (unsigned)starts);
    else printf("status %u\n", (unsigned)status); /* docs/FAULTS.md says what to do */
    return 0;
}
