/* The sectors 2 and 3 of an STM32F4, and the first 2 KB of each. */
#include "stm32f4.h"

#include "program.h"

static stm32f4 part = {
    .sectors = {{.number = 2, .flash = (volatile uint32_t *)0x08008000}, {.number = 3, .flash = (volatile uint32_t *)0x0800c000}},
    .page_words = 128,
};

ee_flash part_flash(void) { return stm32f4_flash(&part); }

int part_nmi(void) { return 0; }
