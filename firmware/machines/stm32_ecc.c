/* The last two pages of a part: of an STM32G474 with 512 KB in two banks, each of which is read at the other's address; of a G0B1
 * with 512 KB in two banks; of an L476 with 1 MB in two banks. */
#include "stm32_ecc.h"

#include "program.h"

#ifdef STM32L4
enum { ADDRESS = 0x080ff000 };
#else
enum { ADDRESS = 0x0807f000 };
#endif

static stm32_ecc part;

ee_flash part_flash(void) { return stm32_ecc_flash(&part, ADDRESS, 1); }

int part_nmi(void) { return stm32_ecc_nmi(&part); }
