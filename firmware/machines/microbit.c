/* The program that `firmware/microbit` runs: it tells the map that a start finds, and then counts on, by writes of one value, lists
 * of two and cleanings, each of which it tells when it is done. */
#include "nrf5.h"

#include "../c/cortex-m/semihosting.h"

enum { COUNT = 1, FIRST = 2, SECOND = 3 };

static nrf5 part = {.flash = (volatile uint32_t *)0x0003f800, .page_words = 64};
static ee_flash flash;
static ee_store store;

/* What link.ld names. */
extern unsigned char data_from[], data_start[], data_end[], bss_start[], bss_end[], stack_top[];

/* A line of a letter and three numbers. */
static void tell(char what, uint32_t a, uint32_t b, uint32_t c) {
    char line[40], *at = line;
    *at++ = what;
    for (int i = 0; i < 3; i++) {
        *at++ = ' ';
        at = put_decimal(at, i == 0 ? a : i == 1 ? b : c);
    }
    *at++ = '\n';
    *at = 0;
    ask(SYS_WRITE0, (uintptr_t)line);
}

void reset(void);

void reset(void) {
    for (unsigned char *at = data_start; at < data_end; at++) *at = data_from[at - data_start];
    for (unsigned char *at = bss_start; at < bss_end; at++) *at = 0;
    flash = nrf5_flash(&part, 1);
    uint32_t status = ee_start(&store, &flash);
    uint32_t count = ee_read_or(&store, COUNT, 0), first = ee_read_or(&store, FIRST, 0), second = ee_read_or(&store, SECOND, ~0u);
    tell(status == EE_OK ? 's' : 'f', count, first, second);
    while (status == EE_OK) {
        status = ee_write(&store, COUNT, ++count);
        if (status == EE_OK) tell('w', count, first, second);
        if (count % 5 == 0 && status == EE_OK) {
            ee_value list[] = {{.address = FIRST, .value = count}, {.address = SECOND, .value = ~count}};
            status = ee_write_all(&store, list, 2);
            first = count, second = ~count;
            if (status == EE_OK) tell('w', count, first, second);
        }
        if (count % 7 == 0 && status == EE_OK && ee_clean(&store) == EE_DRIVER) status = EE_DRIVER;
    }
    tell('f', status, 0, 0);
    for (;;) continue;
}

static void fault(void) {
    tell('f', 99, 0, 0);
    for (;;) continue;
}

__attribute__((section(".vectors"), used)) static const struct {
    unsigned char *stack;
    void (*handlers[15])(void);
} vectors = {stack_top, {reset, fault, fault, fault, fault, fault}};
