/* SPDX-License-Identifier: MIT OR Apache-2.0 */
#include "serial.h"

#include <stddef.h>

#include "ee_port.h"

enum { SECTOR = 4096, PROGRAM = 256 /* the bytes of a program */, NUMBERS = SECTOR / 8, MOST_PAGES = 64 };

#ifdef ESP_PLATFORM

/* What reads, programs 8 bytes and erases a sector; each 0 where it was done. */
static int read_bytes(const serial *part, uint32_t at, void *bytes, uint32_t count) {
    return esp_partition_read(part->partition, part->offset + at, bytes, count) != ESP_OK;
}

static int program_number(const serial *part, uint32_t at, uint64_t value) {
    uint8_t bytes[8];
    for (int i = 0; i < 8; i++) bytes[i] = (uint8_t)(value >> 8 * i);
    return esp_partition_write(part->partition, part->offset + at, bytes, sizeof bytes) != ESP_OK;
}

static int erase_sector(const serial *part, uint32_t at) {
    return esp_partition_erase_range(part->partition, part->offset + at, SECTOR) != ESP_OK;
}

static int fits(const serial *part, uint32_t bytes) {
    const esp_partition_t *all = part->partition;
    return all && !all->encrypted && part->offset <= all->size && bytes <= all->size - part->offset;
}

#else

#include "hardware/flash.h"
#include "pico/flash.h"

/* Where flash is read past the cache, and where there is one past the translation too. A test puts its own in place. */
#ifndef SERIAL_READ_AT
#ifdef XIP_NOCACHE_NOALLOC_NOTRANSLATE_BASE
#define SERIAL_READ_AT(offset) ((const volatile uint8_t *)(uintptr_t)(XIP_NOCACHE_NOALLOC_NOTRANSLATE_BASE + (offset)))
#else
#define SERIAL_READ_AT(offset) ((const volatile uint8_t *)(uintptr_t)(XIP_NOCACHE_NOALLOC_BASE + (offset)))
#endif
#endif

enum { TIMEOUT_MS = 1000 /* for the other core to get out of the way */ };

/* A step: a program of some bytes, or an erase where there are none. */
typedef struct step {
    uint32_t offset;
    const uint8_t *bytes;
} step;

static void make(void *given) {
    const step *it = given;
    if (it->bytes) flash_range_program(it->offset, it->bytes, PROGRAM);
    else flash_range_erase(it->offset, SECTOR);
}

static int read_bytes(const serial *part, uint32_t at, void *bytes, uint32_t count) {
    const volatile uint8_t *from = SERIAL_READ_AT(part->offset + at);
    for (uint32_t i = 0; i < count; i++) ((uint8_t *)bytes)[i] = from[i];
    return 0;
}

static int program_number(const serial *part, uint32_t at, uint64_t value) {
    uint8_t bytes[PROGRAM]; /* those that are all ones leave what stands there */
    step it = {part->offset + at / PROGRAM * PROGRAM, bytes};
    for (uint32_t i = 0; i < PROGRAM; i++) bytes[i] = 0xff;
    for (uint32_t i = 0; i < 8; i++) bytes[at % PROGRAM + i] = (uint8_t)(value >> 8 * i);
    return flash_safe_execute(make, &it, TIMEOUT_MS) != PICO_OK;
}

static int erase_sector(const serial *part, uint32_t at) {
    step it = {part->offset + at, NULL};
    return flash_safe_execute(make, &it, TIMEOUT_MS) != PICO_OK;
}

static int fits(const serial *part, uint32_t bytes) { return part->offset <= 0x1000000 && bytes <= 0x1000000 - part->offset; }

#endif

static uint32_t word(void *context, uint32_t page, uint32_t place, uint64_t *value) {
    uint8_t bytes[8];
    if (read_bytes(context, page * SECTOR + 8 * place, bytes, sizeof bytes) != 0) return EE_READ_FAILED;
    *value = 0;
    for (int i = 7; i >= 0; i--) *value = *value << 8 | bytes[i];
    return 0;
}

/* Reads numbers into the port's room at once. The cores are little endian, as the numbers are. */
static const uint64_t *words(void *context, uint32_t page, uint32_t place, uint32_t count) {
    serial *part = context;
    return read_bytes(part, page * SECTOR + 8 * place, part->run, 8 * count) == 0 ? part->run : NULL;
}

static uint32_t program(void *context, uint32_t page, uint32_t place, uint64_t value) {
    uint64_t found;
    if (!EE_MAY_STEP(0)) return 1;
    int status = program_number(context, page * SECTOR + 8 * place, value);
    EE_STEPPED(0);
    return status != 0 || word(context, page, place, &found) != 0 || found != value;
}

static uint32_t erase(void *context, uint32_t page) {
    uint64_t found;
    if (!EE_MAY_STEP(1)) return 1;
    int is_well = erase_sector(context, page * SECTOR) == 0;
    EE_STEPPED(1);
    for (uint32_t place = 0; place < NUMBERS && is_well; place++) {
        is_well = word(context, page, place, &found) == 0 && found == UINT64_MAX;
    }
    return !is_well;
}

ee_flash serial_flash(serial *part, uint32_t pages) {
    if (pages > MOST_PAGES || part->offset % SECTOR != 0 || !fits(part, 2 * pages * SECTOR)) pages = 0;
    ee_flash flash = {
        .context = part,
        .pages = pages,
        .page_words = NUMBERS / 2,
        .word = word,
        .program = program,
        .erase = erase,
        .kind = EE_PAIRS_CLEARING,
        .words = words,
    };
    return flash;
}
