/* The last two pages of an STM32U575 with 2 MB in two banks, each of which is read at the other's address. */
#include "stm32u5.h"

#include "program.h"

static stm32u5 part;

ee_flash part_flash(void) { return stm32u5_flash(&part, 0x081fc000, 1); }

int part_nmi(void) { return stm32u5_nmi(&part); }
