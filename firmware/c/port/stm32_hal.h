/* SPDX-License-Identifier: MIT OR Apache-2.0 */
/* An example of a port: a store in the flash of an STM32, written by ST's HAL (HAL_FLASH_Program, HAL_FLASHEx_Erase). It was
 * tested on a computer against a model of the HAL, of the caches and of the NMI (tests/stm32_hal.c), and compiled against
 * declarations written for that. It was never compiled against ST's own files, and never on a board. Nothing of it is
 * proved.
 *
 * The family's macro, which the HAL's header defines, chooses how the part programs:
 * - STM32G0, STM32G4, STM32L4, STM32WB, STM32WL: double words with ECC. They are the store's coded words;
 *   a product that has a store of words sets `kind` of the `ee_flash` to EE_WORDS.
 * - STM32F2, STM32F4: words of 32 bits, with a supply of 2.7 V at least; with STM32_HAL_BITS 16 from 2.1 V on, with 8 from
 *   1.8 V on. The store's words are pairs of numbers.
 * - STM32F0, STM32F1, STM32F3: half words, while the internal oscillator (HSI) is on. The store's words are pairs of
 *   numbers.
 * An erase of an F2 and an F4 clears the cells first (likely), and of the others no manual says that it doesn't: `kind` is
 * EE_PAIRS_CLEARING. Others don't fit. An L4+ (L4P, L4Q, L4R, L4S) has another ECCR. An F7 and an H7 have a cache before the
 * flash that the port doesn't empty. An L5, a U5 and an H5 have registers of other names.
 *
 * It supposes this of the part and of the HAL, by memory of both, which no one had at hand. Compare them; what the heads of
 * stm32_ecc.h, stm32f1.h and stm32f4.h suppose of errors, banks and supplies holds here too.
 * - ST's files define FLASH_OPTR_DBANK, _DUALBANK, _DUAL_BANK, SYSCFG_MEMRMP_FB_MODE and _UFB_MODE for parts with two banks
 *   alone, and FLASH_SIZE, or FLASHSIZE_BASE. The bank and the page that the HAL is asked for are those as the part is
 *   built, while reads go by the address.
 * - A data cache (DCEN of FLASH_ACR; on a G0 ICEN) may hold old lines behind a program and an erase, whatever the HAL does.
 * - FLASH_ECCR tells the address of an error from the beginning of its bank: by bytes on a G4 and an L4, by double words on
 *   a G0, a WB and a WL. The second bank of a G0 has FLASH_ECC2R.
 * - The HAL refuses to begin while an error of before stands in FLASH_SR. So the port clears it first. The second bank of an
 *   F1 of XL density has a register of its own, which the port doesn't clear.
 *
 * The HAL counts the time of a step by HAL_GetTick, from a loop in flash. On a part with one bank the core stands still on
 * its next read of flash until the step is done, and SysTick with it: nothing feeds a watchdog meanwhile. So its window is
 * longer than the longest step, which is an erase. No interrupt writes FLASH_ACR during a call. On a WB and a WL the second
 * core writes flash too: define EE_MAY_STEP(is_erase) and EE_STEPPED(is_erase) as stm32_ecc.h says it of its
 * own. Where an MPU guards the flash, it lets the port write to the pages. */
#ifndef STM32_HAL_H
#define STM32_HAL_H

#include <stdint.h>

#include "ee.h"

#ifdef __cplusplus
extern "C" {
#endif

/* A part of the flash for a store. It begins as 0, and the port writes it. */
typedef struct stm32_hal {
    const volatile uint32_t *flash; /* where the first of the pages begins */
    uint32_t address;               /* the same as a number */
    uint32_t first_page;            /* its number as the HAL has it: of the page in its bank, or of the sector */
    uint32_t bank;                  /* 0, or 1 for the second bank, as it is built */
    uint32_t page_bytes;            /* how many bytes an erase takes */
    uint32_t pages;                 /* how many pages they are, of both sets */
    volatile uint32_t is_reading;   /* whether `word` reads */
    volatile uint32_t reading;      /* the word that it reads, as ECCR tells an address */
    volatile uint32_t is_stale;     /* whether others met an error since the last read of a word */
    volatile uint32_t error;        /* ECCR at the last error that can't be corrected, with the address of the word read */
    uint32_t faint;                 /* the flags of the last correction that a read here took, and the address of the word */
    uint32_t corrected;             /* ECCR when the flag of a corrected error was last taken away: yours to look at */
    uint64_t run[EE_RUN];           /* the words that were read at once, on a part with ECC */
} stm32_hal;

/* The flash of the store: two sets of so many pages, from an address on that is the beginning of a page or a sector. They hold
 * nothing else. A page of the store has as many words as a page of the part, and 512 at most; the rest of a larger one stays
 * erased. Where they aren't whole pages of one bank, or sectors of one size, the answer has no pages, and a start answers
 * EE_WRONG_SHAPE. It turns the clock of SYSCFG on for a moment, where banks may be exchanged. Of an F2 and an F4 it knows the
 * sectors 0 to 11, while they are not exchanged. */
ee_flash stm32_hal_flash(stm32_hal *part, uint32_t address, uint32_t pages);

/* To be called by NMI_Handler on a part with ECC, as an error raises it that can't be corrected. 1 where one in the store's
 * pages was the cause, or one that came while the port read a word: the handler returns. 0 for any other cause, as an error in
 * the program's own code: no flag was taken away. It is 0 too where the address may be that of a corrected error, whose flag
 * stood before. The flag stands then, and the NMI comes again at once, so the product notes that and resets. On a part without
 * ECC it is 0. */
int stm32_hal_nmi(stm32_hal *part);

#ifdef __cplusplus
}
#endif

#endif
