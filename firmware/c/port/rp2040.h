/* SPDX-License-Identifier: MIT OR Apache-2.0 */
/* An example of a port: a store in the flash of an RP2040's board, which has no error correction, so its words are pairs of
 * numbers. It was tested on a computer against a model of the boot ROM's functions, of the flash and of the XIP cache
 * (tests/rp2040.c), and never on a board: rp2040_find_rom was never run. Nothing of it is proved. A flash chip that has
 * error correction of its own doesn't fit, since 32 numbers are programmed into the same 256 bytes one after the other.
 * `kind` is EE_PAIRS_CLEARING, since many serial flashes clear a sector before they erase it, and which one is on a board no
 * port knows.
 *
 * While flash is written nothing is read from it: the port turns interrupts off, and what runs then stands in RAM, in the
 * section .time_critical, which the linker scripts of the Pico SDK put there. What else reads flash is yours to hold off:
 * the other core, a DMA channel, XIP's own streaming, and an interrupt that is routed to the NMI, which no mask holds. The
 * XIP cache, by which flash is read, is emptied behind each write by the boot ROM's flush_cache (RP2040 Datasheet).
 *
 * Where the core alone was reset in a step, as by a watchdog or a debugger, the chip goes on with it: a status is read in
 * place of data. So the first read asks the chip for its status, until it is ready or a second or two went by, and brings it
 * into its mode for reading. Else `word` answers EE_READ_FAILED, and the call EE_DRIVER: start again. A program that is
 * loaded from flash finds it ready; as to the boot ROM, it may give up behind half a second and wait on USB (not sure). The
 * registers of the SSI and of the select pin, and that flush_cache gives that pin back, are by memory of the datasheet and
 * of the SDK's flash_do_cmd (OpenOCD has their addresses). */
#ifndef RP2040_H
#define RP2040_H

#include <stddef.h>
#include <stdint.h>

#include "ee.h"

#ifdef __cplusplus
extern "C" {
#endif

/* The boot ROM's functions for flash (RP2040 Datasheet, "Flash Access Functions"). An offset is from the beginning of flash. */
typedef struct rp2040_rom {
    void (*connect)(void);
    void (*exit_xip)(void);
    void (*erase)(uint32_t offset, size_t count, uint32_t block_size, uint8_t block_command);
    void (*program)(uint32_t offset, const uint8_t *bytes, size_t count);
    void (*flush_cache)(void);
    void (*enter_xip)(void); /* a faster one may stand here, in RAM: the board's second stage of booting */
} rp2040_rom;

/* A part of the flash for a store: whole sectors of 4 KB, that hold nothing else. It stands in RAM. */
typedef struct rp2040 {
    rp2040_rom rom;
    const volatile uint32_t *flash; /* where the first of the sectors begins, as it is read: from 0x10000000 on */
    uint32_t offset;                /* the same from the beginning of flash */
    uint32_t is_ready;              /* whether the chip was ready; the port writes it */
} rp2040;

/* The boot ROM's functions, as its table has them. */
rp2040_rom rp2040_find_rom(void);

/* The flash of the store: two sets of so many pages of 256 words, each a sector. */
ee_flash rp2040_flash(rp2040 *part, uint32_t pages);

#ifdef __cplusplus
}
#endif

#endif
