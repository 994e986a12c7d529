/* The last four pages of an STM32F103 with 64 KB. */
#include "stm32f1.h"

#include "program.h"

static stm32f1 part = {.registers = 0x40022000, .flash = (volatile uint16_t *)0x0800f000, .page_words = 64};

ee_flash part_flash(void) { return stm32f1_flash(&part, 2); }

int part_nmi(void) { return 0; }
