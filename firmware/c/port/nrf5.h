/* SPDX-License-Identifier: MIT OR Apache-2.0 */
/* An example of a port: a store in the flash of an nRF51 or an nRF52, by its registers (NVMC). It has no error correction, so its
 * words are pairs of numbers. It was tested on a computer against a model of the registers (tests/nrf5.c) and on QEMU's microbit,
 * whose controller others wrote (firmware/microbit), and never on a board. Nothing of it is proved.
 *
 * It supposes this of the part, by memory of the reference manual of an nRF51 and the product specifications of the nRF52832 and
 * the nRF52840, which no one had at hand. Compare them.
 * - READY, CONFIG and ERASEPAGE, and that a write while CONFIG has WEN programs 32 bits (sure; QEMU and OpenOCD have the same).
 * - There is no cache of data: the one of an nRF52 has instructions alone (likely). An nRF53 and an nRF91 have others.
 * - A word of 32 bits may be written twice between two erases of an nRF52840, and 181 times into each 512 bytes of an nRF52832
 *   (likely). A store writes each once, and once more for each cut that left it all ones.
 * - No document says whether an erase clears cells before it sets them. So `kind` is EE_PAIRS_CLEARING, which serves both.
 * - A reset of the core ends a step (likely).
 *
 * While the flash is written the core stands still: an erase takes up to 90 ms, and a radio waits. **With a SoftDevice the
 * registers are its own**: a program asks sd_flash_write and sd_flash_page_erase, and waits for the event that tells the end,
 * before it answers. No interrupt writes NVMC during a call. Where an MPU, BPROT or ACL guards the flash, it lets the port write to
 * the pages. Take none that a bootloader has, whose place UICR tells. */
#ifndef NRF5_H
#define NRF5_H

#include <stdint.h>

#include "ee.h"

#ifdef __cplusplus
extern "C" {
#endif

/* A part of the flash for a store: whole pages, one behind the other, that hold nothing else. */
typedef struct nrf5 {
    volatile uint32_t *flash; /* where the first of the pages begins */
    uint32_t page_words;      /* 64 of an nRF51, whose pages have 1 KB; 256 of an nRF52, whose pages have 4 KB */
} nrf5;

/* The flash of the store: two sets of so many pages. */
ee_flash nrf5_flash(nrf5 *part, uint32_t pages);

#ifdef __cplusplus
}
#endif

#endif
