/* SPDX-License-Identifier: MIT OR Apache-2.0 */
/* An example of a port: a store in the flash of an STM32 that programs 64 bits with ECC, by its registers: G0, G4, L4, WB, WL,
 * and C0, U0. It was tested on a computer against a model of the registers, the caches and the NMI (tests/stm32_ecc.c), and never
 * on a board. Nothing of it is proved. The family is defined for all of the program, as -DSTM32G4: the port includes none of ST's headers.
 *
 * It supposes this of the part, by memory of the reference manuals (RM0444, RM0454 of a G0, RM0440 of a G4, RM0351, RM0394 of an
 * L4, RM0434, RM0471 of a WB, RM0453, RM0461 of a WL, RM0490 of a C0, RM0503 of a U0) and of the errata sheets, which no one had
 * at hand. Compare them. "OpenOCD" says that its driver has the same (`firmware/openocd` compares them).
 * - The registers, PG, PER, STRT, LOCK, PNB, BKER (bit 11; 13 on a G0), BSY and BSY2 (OpenOCD; of a C0 and a U0 likely), and the
 *   errors of SR (sure). A WB and a WL have CFGBSY and PESD too, which read as 0 elsewhere (sure).
 * - The device number, by which the port knows the part (OpenOCD), of a G0 while the clock of DBG is on (likely). Where the size of
 *   the flash stands (OpenOCD; of a C0 likely, of a U0 not sure: a wrong size refuses the pages).
 * - BKER and PNB name the bank as it is built, while reads go by the address. Where FB_MODE of SYSCFG_MEMRMP stands (G4, L4; sure),
 *   or nSWAP_BANK is 0 (G0; likely), each bank is read at the other's address. The second bank of a G4 begins at 0x08040000
 *   whatever the size, that of an L4 and a G0 behind the first; 1 MB of an L4 are two banks whatever DUALBANK says (OpenOCD). PNB
 *   counts the pages of each bank from 0 (OpenOCD; Zephyr's driver of a G0 counts those of the second from 256). Banks are not
 *   swapped while a store is open. Where the product swaps them between two starts, the pages are read at the other address
 *   then, and it gives that one.
 * - The data cache, on a G0, C0 and U0 the one cache, is on after a reset. Neither an erase nor a program takes old lines out of
 *   it (sure; of a G0 that it holds what was read as data is not).
 * - ECCR tells the address of an error from the beginning of its bank: by bytes on a G4 and an L4, by words of 64 bits elsewhere
 *   (likely). It keeps the first one while a flag stands (sure). The second bank of a G0 has ECC2R (sure); which of the two tells
 *   the upper half of a G0B1 or a G0C1 with one bank is open, so pages there are refused. Behind a cut that address may be of
 *   another word (errata of a G4, likely; of the others less sure). So an error that comes while the port reads a word counts as
 *   that word's, also one in the few instructions of the read, or of an interrupt that breaks into it.
 * - A G4 with one bank of pages of 4 KB is read by 128 bits: the address is from the beginning of the flash, and the upper half has
 *   flags of its own, ECCD2 and ECCC2 (likely).
 * - A second read of what the part read last may raise no NMI. The NMI may come some cycles behind the read: the port waits
 *   until the handler has taken the flag.
 * - A word that reads as all ones by a correction can't be programmed (likely). So it counts as torn until an erase.
 * - Words are coded (EE_CODED), since ECC corrects some words that a cut left into others. Two cells of an erased word that a cut
 *   cleared may read with no flag (the manuals' note on virgin words, likely): such a word counts as torn. A product that has a
 *   store of words sets `kind` of the `ee_flash` to EE_WORDS.
 * - Flash is written in voltage range 1 alone (VOS in PWR_CR1; of an L4 sure, of a G4, WB and WL likely, of the others not sure):
 *   the program sees to that.
 * - Whether a C0 has ECC is not known, and of a U0 it is likely. So their words are pairs of numbers, and an error is taken where
 *   one comes. Where your manual says ECC, define STM32_ECC_WORDS: that halves the flash. It is wrong on a part without.
 * - An L4+ (L4P, L4Q, L4R, L4S) has another ECCR, and is refused.
 *
 * The second core of a WB and of a WL5 writes flash too, and its radio can't wait for an erase. Define EE_MAY_STEP(is_erase) and
 * EE_STEPPED(is_erase) as calls of yours. By memory of AN5289 the first takes the semaphores 2 and 7 (CFG_HW_FLASH_SEMID,
 * CFG_HW_BLOCK_FLASH_REQ_BY_CPU2_SEMID), looks that 6 is free, and before an erase calls
 * SHCI_C2_FLASH_EraseActivity(ERASE_ACTIVITY_ON); the second undoes that. The radio's stack has the last pages: SFSA of FLASH_SFR
 * tells where they begin, and the store's end below.
 *
 * So the port reads with the data cache off, and turns it off and on in FLASH_ACR: no interrupt writes that register during
 * a call. The instruction cache stays as it is where it is another one, since the pages hold no code. Where an MPU guards the
 * flash, it lets the port write to the pages. */
#ifndef STM32_ECC_H
#define STM32_ECC_H

#include <stdint.h>

#include "ee.h"

#ifdef __cplusplus
extern "C" {
#endif

/* The program and the port have to be compiled for one family, since a struct's size follows from it. */
#if !defined(STM32C0) && !defined(STM32G0) && !defined(STM32G4) && !defined(STM32L4) && !defined(STM32U0) && !defined(STM32WB) && \
    !defined(STM32WL)
#error "define the family for all of the program, as -DSTM32G4: STM32C0, STM32G0, STM32G4, STM32L4, STM32U0, STM32WB or STM32WL"
#endif
#if (defined(STM32C0) || defined(STM32U0)) && !defined(STM32_ECC_WORDS)
#define STM32_ECC_PAIRS 1
#else
#define STM32_ECC_PAIRS 0
#endif
#define STM32_ECC_RUN (EE_RUN << STM32_ECC_PAIRS)

/* A part of the flash for a store. It begins as 0, and the port writes it. */
typedef struct stm32_ecc {
    volatile uint32_t *flash;     /* where the first of the pages begins */
    uint32_t first_page;          /* the number of that page in its bank */
    uint32_t bank;                /* 0, or 1 for the second bank, as it is built */
    uint32_t page_words;          /* of 64 bits: 256 of a page of 2 KB, 512 of one of 4 KB */
    uint32_t pages;               /* how many they are, of both sets */
    volatile uint32_t is_reading; /* whether `word` reads */
    volatile uint32_t reading;    /* the word that it reads, as ECCR tells an address */
    volatile uint32_t is_stale;   /* whether others met an error since the last read of a word */
    volatile uint32_t error;      /* ECCR at the last error that can't be corrected, with the address of the word read */
    uint32_t faint;               /* the flags of the last correction that a read here took, and the address of the word */
    uint32_t corrected;           /* ECCR when the flag of a corrected error was last taken away: yours to look at */
    uint32_t is_erasing;          /* whether an erase goes on that stm32_ecc_begin_erase began */
    uint32_t acr;                 /* FLASH_ACR before it */
    uint64_t run[STM32_ECC_RUN];  /* the words, or the numbers, that were read at once */
} stm32_ecc;

/* The flash of the store: two sets of so many pages, from an address on that is the beginning of a page. They hold nothing
 * else. Where they aren't whole pages of one bank, or the port doesn't know the part, the answer has no pages, and a start
 * answers EE_WRONG_SHAPE. It turns a clock on for a moment: that of SYSCFG in RCC_APB2ENR on a G4 and an L4 with two banks, that of
 * DBG in RCC_APBENR1 on a G0. */
ee_flash stm32_ecc_flash(stm32_ecc *part, uint32_t address, uint32_t pages);

/* To be called by NMI_Handler, which an error raises that can't be corrected. 1 where one in the store's pages was the cause,
 * or one that came while the port read a word: the handler returns. 0 for any other cause, as an error in the program's own
 * code: no flag was taken away. It is 0 too where the address may be that of a corrected error, whose flag stood
 * before. The flag stands then, and the NMI comes again at once, so the product notes that and resets. */
int stm32_ecc_nmi(stm32_ecc *part);

/* An erase that doesn't block, of a page that waits for it (ee_pending of ee_field.h tells which). 1 where it goes on, and 0
 * where none was begun. The program runs on meanwhile where it stands in the other bank or in RAM. A read of a page in this bank
 * waits for its end, and so does each step; EE_STEPPED is called then. */
int stm32_ecc_begin_erase(stm32_ecc *part, uint32_t page);

/* Whether no such erase goes on. Behind it ee_clean finds the page blank, and goes on to the next one, or erases it again. */
int stm32_ecc_is_done(stm32_ecc *part);

#ifdef __cplusplus
}
#endif

#endif
