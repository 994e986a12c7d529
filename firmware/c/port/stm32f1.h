/* SPDX-License-Identifier: MIT OR Apache-2.0 */
/* An example of a port: a store in the flash of an STM32F0, F1 or F3, which has no error correction, so its words are pairs of
 * numbers. It was tested on a computer against a model of the registers (tests/stm32f1.c), and never on a board. Nothing of it is
 * proved. The internal oscillator (HSI) is on while flash is written.
 *
 * It supposes this of the part, by memory of the manuals (PM0075 of an F1, RM0091, RM0360 of an F0, RM0316 of an F3) and of the
 * errata sheets, which no one had at hand. Compare them. "OpenOCD" says that its driver has the same (`firmware/openocd` compares
 * them).
 * - The registers and their bits are the same on the three families (OpenOCD). So they may be on parts that others make after an
 *   F1, as GD32F10x, APM32F103, AT32F403 and CH32F103 (not sure; not on a CH32V, whose erased flash reads as other numbers).
 * - There is no cache. The prefetch buffer is for instructions alone, so a read of data is what the flash has (sure).
 * - A half word is programmed only where it is erased, or with zeros (sure).
 * - An erase may clear the cells of its page before it sets them: no manual says that it does, and none that it doesn't. So
 *   `kind` is EE_PAIRS_CLEARING, which serves both. A bench that cuts many erases can tell.
 * - Flash is written from 2 V on (sure).
 *
 * Where an MPU guards the flash, it lets the port write to the pages. */
#ifndef STM32F1_H
#define STM32F1_H

#include <stdint.h>

#include "ee.h"

#ifdef __cplusplus
extern "C" {
#endif

/* A part of the flash for a store: whole pages of one bank, one behind the other, that hold nothing else. */
typedef struct stm32f1 {
    uint32_t registers;       /* 0x40022000; 0x40022040 for the second bank of an F1 of XL density */
    volatile uint16_t *flash; /* where the first of the pages begins */
    uint32_t page_words;      /* 64 where pages have 1 KB (F1 of low and medium density, some F0), 128 where they have 2 KB */
} stm32f1;

/* The flash of the store: two sets of so many pages. */
ee_flash stm32f1_flash(stm32f1 *part, uint32_t pages);

#ifdef __cplusplus
}
#endif

#endif
