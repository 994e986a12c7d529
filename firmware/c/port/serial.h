/* SPDX-License-Identifier: MIT OR Apache-2.0 */
/* An example of a port: a store in serial flash with sectors of 4 KB, by the functions of a vendor: of the Pico SDK (RP2040,
 * RP2350), or of ESP-IDF where that defines ESP_PLATFORM (ESP32, C3, S3 and others). Such flash has no error correction that the
 * program sees, so the store's words are pairs of numbers. It was tested on a computer against a model of these functions
 * (tests/serial.c, serial_esp.c), and compiled against declarations written for that. It was never compiled against those files, and
 * never on a board. Nothing of it is proved.
 *
 * It supposes this, by memory of the documents, which no one had at hand. Compare it.
 * - Many serial flashes clear a sector before they erase it. So `kind` is EE_PAIRS_CLEARING.
 * - A byte that is all ones in a program changes nothing, and bytes of a page of 256 may be programmed one after the other (sure of
 *   common chips; not of one that has error correction of its own).
 * - Pico SDK: flash_safe_execute holds off interrupts and the other core, which called flash_safe_execute_core_init, and answers
 *   PICO_OK alone where it ran the function (sure). flash_range_erase and flash_range_program take offsets from the beginning of
 *   the chip (sure). The port reads past the cache, and on an RP2350 past the translation of partitions too (likely). A chip that goes
 *   on with an erase behind a reset is waited for by no one: rp2040.h does that, without the SDK.
 * - ESP-IDF: a partition of type data, of a subtype of yours, whose functions hold off the other core and the cache, and wait for
 *   the chip (sure). A partition that flash encryption covers doesn't fit, since it is programmed by 16 bytes and not twice: it is
 *   refused. NVS serves there.
 *
 * Brown-out: the chip has its own supply, below which it writes nothing well. */
#ifndef SERIAL_PORT_H
#define SERIAL_PORT_H

#include <stdint.h>

#include "ee.h"

#ifdef ESP_PLATFORM
#include "esp_partition.h"
#endif

#ifdef __cplusplus
extern "C" {
#endif

/* A part of the flash for a store: whole sectors that hold nothing else. It stays where it is. */
typedef struct serial {
#ifdef ESP_PLATFORM
    const esp_partition_t *partition; /* as esp_partition_find_first gives it */
#endif
    uint32_t offset;          /* of the first sector: from the beginning of the chip, or of the partition */
    uint64_t run[2 * EE_RUN]; /* the numbers that were read at once */
} serial;

/* The flash of the store: two sets of so many pages of 256 words, each a sector. Where it doesn't fit, the answer has no pages, and
 * a start answers EE_WRONG_SHAPE. */
ee_flash serial_flash(serial *part, uint32_t pages);

#ifdef __cplusplus
}
#endif

#endif
