/* SPDX-License-Identifier: MIT OR Apache-2.0 */
/* An example of a port: a store in the flash of an STM32U5, H5 or WBA, which programs 128 bits at once, with error correction over
 * them. So each word of the store, which is coded (EE_CODED), takes a unit of 16 bytes, with its complement in the second half; the
 * store knows nothing of that. A product that has a store of words sets `kind` of the `ee_flash` to EE_WORDS. It was tested on a computer against a model of the registers, the cache and the NMI
 * (tests/stm32u5.c), and never on a board. Nothing of it is proved. It uses the registers of a non-secure program. ST's headers
 * define the family, as STM32H5; a program without them has -DSTM32H5 or -DSTM32WBA. Without either it is of a U5.
 *
 * It supposes this of the part, by memory of the reference manuals (RM0456 of a U5, RM0481, RM0492 of an H5, RM0493 of a WBA) and of
 * other drivers, which no one had at hand. Compare them. "OpenOCD" says that its driver has the same (`firmware/openocd` compares
 * them).
 * - The registers of a U5 and their bits (OpenOCD); that a WBA has the same (likely); those of an H5 (likely), its errors by a
 *   register for those that are corrected and one for the others, by units of 128 bits (less sure). Where the size of the
 *   flash stands: of a U5 OpenOCD, of an H5 and a WBA less sure; a wrong size refuses the pages.
 * - DUALBANK, BKER and PNB of a U5, and that 2 MB of a U575 are two banks whatever DUALBANK says (OpenOCD). So without DUALBANK a
 *   part of 128 KB, 256 KB and 1 MB has one bank, and another is refused. An H5 has two banks always, and a WBA of up to 1 MB one
 *   (likely). The number of the bank names it as it is built, while reads go by the address. Where SWAP_BANK stands, each bank is
 *   read at the other's address (sure), and BK_ECC names the bank as it is built (likely). Banks are not swapped while a store
 *   is open. Where the product swaps them between two starts, the pages are read at the other address then, and it gives that one.
 * - The pages of an H5 are no EDATA, by the options: those read at another address, by half words, and an erased one raises the NMI.
 * - With TrustZone on (TZEN) the NMI is the secure program's, unless it set BFHFNMINS of AIRCR (sure): without that the port
 *   refuses. The pages are non-secure then, in the watermark and in the blocks (SECBB): else they read as zeros, with no
 *   error.
 * - ICACHE caches data that are read from the flash, in lines of 16 bytes, and takes a write while it is on for an error. It
 *   is emptied as it is turned off, and BSYENDF tells the end (as ST's HAL waits for it; likely). DCACHE doesn't reach the
 *   flash.
 * - ECCR tells the address of an error in bytes from the beginning of its bank, and keeps the first one while a flag stands.
 *   Behind a cut that address may be of another word (errata of other families; not sure). So an error that comes while the
 *   port reads a word counts as that word's, also one in the few instructions of the read, or of an interrupt that breaks
 *   into it.
 * - A second read of what the cache has, or of what the flash read last, raises no NMI. The NMI may come some cycles behind
 *   the read: the port waits until the handler has taken the flag.
 * - A unit that reads as all ones by a correction can't be programmed (likely). So it counts as torn until an erase.
 * - A U5's flash is not written in voltage range 4 (VOS in PWR_VOSR; likely), a WBA's in range 1 alone (not sure): the program
 *   sees to that.
 *
 * So the port programs and erases with ICACHE off, turns it on again where it was on, and empties it before a read behind an
 * error. No interrupt writes ICACHE_CR during a call. Where an MPU guards the flash, it lets the port write to the pages. */
#ifndef STM32U5_H
#define STM32U5_H

#include <stdint.h>

#include "ee.h"

#ifdef __cplusplus
extern "C" {
#endif

/* A part of the flash for a store. It begins as 0, and the port writes it. */
typedef struct stm32u5 {
    volatile uint32_t *flash;     /* where the first of the pages begins */
    uint32_t first_page;          /* the number of that page in its bank */
    uint32_t bank;                /* 0, or 1 for the second bank, as it is built */
    uint32_t pages;               /* how many they are, of both sets */
    volatile uint32_t is_reading; /* whether `word` reads */
    volatile uint32_t reading;    /* the unit that it reads, as ECCR tells an address */
    volatile uint32_t is_stale;   /* whether an error was met since the cache was emptied */
    volatile uint32_t error;      /* ECCR at the last error that can't be corrected, with the address of the unit read */
    uint32_t faint;               /* the flag of the last correction that a read here took, and the address of the unit */
    uint32_t corrected;           /* ECCR when the flag of a corrected error was last taken away: yours to look at */
    uint64_t run[EE_RUN];         /* the words that were read at once */
} stm32u5;

/* The flash of the store: two sets of so many pages of 8 KB, each of 512 words, from an address on that is the beginning of a
 * page. They hold nothing else. Where they aren't whole pages of one bank, or the NMI isn't the program's, the answer has no
 * pages, and a start answers EE_WRONG_SHAPE. */
ee_flash stm32u5_flash(stm32u5 *part, uint32_t address, uint32_t pages);

/* To be called by NMI_Handler, which an error raises that can't be corrected. 1 where one in the store's pages was the cause,
 * or one that came while the port read a word: the handler returns. 0 for any other cause, as an error in the program's own
 * code: no flag was taken away. It is 0 too where the address may be that of a corrected error, whose flag stood
 * before. The flag stands then, and the NMI comes again at once, so the product notes that and resets. */
int stm32u5_nmi(stm32u5 *part);

#ifdef __cplusplus
}
#endif

#endif
