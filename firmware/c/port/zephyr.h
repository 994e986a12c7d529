/* SPDX-License-Identifier: MIT OR Apache-2.0 */
/* An example of a port: a store in a partition of Zephyr's flash, by its flash API. It was tested on a computer against a model
 * of that API and of the flash behind it (tests/zephyr.c), and compiled against declarations written for that. It was never
 * compiled against Zephyr's own files, and never on a board. Nothing of it is proved. The names are those of Zephyr 3.2 and
 * later. zephyr/sample is an application over it.
 *
 * The partition is a node of the `fixed-partitions` of the device tree: whole pages of one size, an even number of them, up to
 * 128, that hold nothing else. The first half of them is the first set. `write-block-size` and Kconfig choose what a word of the
 * store is:
 *
 *     1, 2, 4    a pair of numbers
 *     8          with CONFIG_EE_ECC the part's own word, coded (EE_CODED), else a pair of numbers
 *     16, 32     a coded word, its complement and zeros in one block of the part, which has ECC over it
 *
 * A product that has a store of words sets `kind` of the `ee_flash` to EE_WORDS.
 *
 * Pairs are right only on a part without ECC. They are EE_PAIRS_CLEARING, for an erase that may clear cells before it sets
 * them; no driver tells. With CONFIG_EE_ONE_WAY they are EE_PAIRS, for a part whose cut erase is known to clear no cell.
 * CONFIG_EE_ECC is on for an STM32 unless it is turned off: those that write 8 bytes at once have ECC.
 *
 * With ECC the port has to learn which word has an error that can't be corrected. There are three ways:
 *
 *     an NMI       on most STM32. The program's handler calls zephyr_nmi. **Without one the first torn word that is read stops
 *                  Zephyr.** It takes CONFIG_RUNTIME_NMI and z_arm_nmi_set_handler, as zephyr/sample shows.
 *     -EIO         where the driver's flash_read answers that for such a word: CONFIG_EE_TORN_BY_EIO, which is on for an
 *                  STM32H7. That its driver (flash_stm32h7x.c) does so is by memory, and was not looked up: look into that
 *                  of your version.
 *     the program  `is_torn` is a function of its own.
 *
 * Of a block of 16 or 32 bytes the complement tells too. Any other error that flash_read answers is a read that failed, and no
 * torn word: the call answers EE_DRIVER, and nothing is written. So where a driver has a number of its own for a torn word,
 * which `is_torn` doesn't know, the store can't be opened behind a cut that left one, and no value is lost.
 *
 * A data cache may give a torn word that it holds with no new NMI. So the port keeps the last ZEPHYR_TORN words that were
 * noted, until their page is erased. The ports over an STM32's registers turn that cache off instead, and serve under Zephyr
 * too where nothing else writes flash at that time. No answer of flash_read tells that a word which reads as all ones was
 * corrected: where the part then refuses to program it, each write fails that comes to it.
 *
 * The port takes the driver's word for this: flash_read gives what the flash has, with no old line of a cache, and answers 0
 * only then; flash_write programs a block once; and a flash that goes on with an erase while the core restarts is ready before
 * a read is answered. By memory the driver of serial NOR (spi_nor.c) waits so when it starts. One mutex is held around each
 * call of the store, as under any RTOS. A watchdog waits longer than the longest erase. With an MPU flash is written only with
 * CONFIG_MPU_ALLOW_FLASH_WRITE. */
#ifndef ZEPHYR_PORT_H
#define ZEPHYR_PORT_H

#include <stdint.h>
#include <sys/types.h>
#include <zephyr/device.h>
#include <zephyr/drivers/flash.h>
#include <zephyr/storage/flash_map.h>

#include "ee.h"

#ifdef __cplusplus
extern "C" {
#endif

/* How many torn words the port keeps. */
#define ZEPHYR_TORN 8

/* A partition for a store. The members from `unit_bytes` on begin as 0, and the port writes them. It stays where it is. */
typedef struct zephyr_part {
    const struct device *device;
    off_t offset; /* where the partition begins in the flash of the device */
    size_t size;  /* the bytes of the partition */
    /* Where words have ECC: NULL where zephyr_nmi tells which word is torn. Else whether the word at this offset of the device has
     * an error that can't be corrected; `status` is what flash_read just answered. It is the same at each read of the word,
     * and 0 for a read that failed in another way. */
    int (*is_torn)(const struct device *device, off_t offset, int status);
    uint32_t unit_bytes; /* of a word, or of a number */
    uint32_t page_bytes; /* of an erased page */
    uint32_t places;     /* the words or the numbers of a page */
    uint32_t kind;       /* of the flash: EE_CODED, EE_PAIRS or EE_PAIRS_CLEARING */
    volatile uint32_t is_reading, is_noted; /* whether a word is read, and whether the NMI came meanwhile */
    off_t torn[ZEPHYR_TORN]; /* where the last torn words are that were noted, and 0 behind them */
    uint64_t run[2 * EE_RUN]; /* the words or the numbers that were read at once */
} zephyr_part;

/* `is_torn` by Kconfig. */
#ifndef ZEPHYR_IS_TORN
#ifdef CONFIG_EE_TORN_BY_EIO
#define ZEPHYR_IS_TORN zephyr_torn_by_eio
#else
#define ZEPHYR_IS_TORN NULL
#endif
#endif

/* The members of the partition with this node label. */
#define ZEPHYR_PARTITION(label)                                                                                                \
    .device = FIXED_PARTITION_DEVICE(label), .offset = (off_t)FIXED_PARTITION_OFFSET(label),                                   \
    .size = FIXED_PARTITION_SIZE(label), .is_torn = ZEPHYR_IS_TORN

/* Makes the flash of the store. 0; -ENODEV where the device isn't ready; -EINVAL where the partition or the flash doesn't fit;
 * else what flash_get_page_info_by_offs answers. `flash` is written with 0 alone. */
int zephyr_flash(zephyr_part *part, ee_flash *flash);

/* The handler of the NMI calls it where the flash's ECC register tells an error that can't be corrected. 1 where the port was
 * reading a word, which is torn: the handler clears that flag and no other, and returns. 0 where the error is not the store's. */
int zephyr_nmi(zephyr_part *part);

/* `is_torn` of a driver that answers -EIO for a word with an error that can't be corrected. It reads the word once more, so that
 * an error that stood from something else doesn't count. */
int zephyr_torn_by_eio(const struct device *device, off_t offset, int status);

#ifdef __cplusplus
}
#endif

#endif
