/* SPDX-License-Identifier: MIT OR Apache-2.0 */
/* An example of a port: a store in two sectors of the flash of an STM32F2, F4 or F7, which has no error correction, so its words
 * are pairs of numbers. It was tested on a computer against a model of the registers and of the data cache (tests/stm32f4.c,
 * stm32f4_f7.c), and never on a board. Nothing of it is proved. It programs by 32 bits, which takes a supply of 2.7 V at least.
 * Define STM32F4_BITS as 16 for 2.1 V, or as 8 for 1.8 V: a sector of 16 KB takes up to 600 or 800 ms to be erased then. ST's
 * headers define STM32F7; a program without them has -DSTM32F7 on an F7.
 *
 * It supposes this of the part, by memory of the reference manuals (RM0090 of an F4, RM0033 of an F2, RM0385, RM0410, RM0431 of an
 * F7), which no one had at hand. Compare them. "OpenOCD" says that its driver has the same (`firmware/openocd` compares them).
 * - The registers, the keys, PG, SER, SNB, PSIZE, STRT, LOCK and the errors (OpenOCD).
 * - A program of an F2 or an F4 writes what was asked for into the data cache too, and an erase leaves old lines there. So the port
 *   turns the data cache off in FLASH_ACR, and on again when what it wrote was read back and the cache is empty. No interrupt
 *   writes that register during a call. The instruction cache stays as it is, since the sectors hold no code.
 * - An F7's data cache is the core's. The port throws the lines of what it wrote away (DCIMVAC), and reads behind that. The sectors
 *   are read at 0x08000000, and are not written back late: as after a reset, or by an MPU's region that writes through or has no
 *   cache (likely).
 * - An erase clears the cells of its sector before it sets them: its time depends on how many bits are programmed at once,
 *   in the datasheets (likely). So `kind` is EE_PAIRS_CLEARING.
 * - SNB names the sector as it is built, while reads go by the address. The sectors are not those of a part with two banks
 *   that reads each at the other's address (FB_MODE of SYSCFG_MEMRMP; on an F7 SWP_FB).
 *
 * Where an MPU guards the flash, it lets the port write to the sectors. */
#ifndef STM32F4_H
#define STM32F4_H

#include <stdint.h>

#include "ee.h"

#ifdef __cplusplus
extern "C" {
#endif

/* A sector, which holds nothing else. One of 16 KB is erased soonest; the sectors 1, 2 and 3
 * have that, and 0 the vectors. Of most F7 those have 32 KB. */
typedef struct stm32f4_sector {
    uint32_t number;          /* as SNB has it: 0 to 11, and 16 to 27 for the sectors 12 to 23 of a part with two banks */
    volatile uint32_t *flash; /* where it begins */
} stm32f4_sector;

/* The flash of a store: a set is one page, which is the beginning of a sector. */
typedef struct stm32f4 {
    stm32f4_sector sectors[2];
    uint32_t page_words; /* how many words of each sector are taken, 5 to 512: 16 bytes each, so 8 KB at most */
} stm32f4;

/* The flash of the store: two sets of one page. */
ee_flash stm32f4_flash(stm32f4 *part);

#ifdef __cplusplus
}
#endif

#endif
