/* SPDX-License-Identifier: MIT OR Apache-2.0 */
#include "zephyr.h"

#include <errno.h>
#include <string.h>

/* Whether a part that writes 8 bytes at once has ECC over them. A test puts its own in place. */
#ifndef ZEPHYR_HAS_ECC
#ifdef CONFIG_EE_ECC
#define ZEPHYR_HAS_ECC 1
#else
#define ZEPHYR_HAS_ECC 0
#endif
#endif

/* Whether an erase that is cut clears no cell. */
#ifndef ZEPHYR_IS_ONE_WAY
#ifdef CONFIG_EE_ONE_WAY
#define ZEPHYR_IS_ONE_WAY 1
#else
#define ZEPHYR_IS_ONE_WAY 0
#endif
#endif

#include "ee_port.h"

enum { NUMBER_BYTES = 8, MOST_NUMBERS = 4 /* of a unit */, LEAST_WORDS = 5, MOST_WORDS = 512, MOST_PAGES = 64 };

static off_t offset_of(const zephyr_part *part, uint32_t page, uint32_t place) {
    return part->offset + (off_t)(page * part->page_bytes + place * part->unit_bytes);
}

/* What stands in the numbers of a unit for a value: itself, its complement, and zeros. */
static void spread(uint64_t numbers[MOST_NUMBERS], uint64_t value) {
    memset(numbers, 0, MOST_NUMBERS * sizeof *numbers);
    numbers[0] = value;
    numbers[1] = ~value;
}

/* Whether the numbers of a unit are all erased, or stand for a value. */
static int is_whole(const zephyr_part *part, const uint64_t numbers[MOST_NUMBERS]) {
    uint64_t wanted[MOST_NUMBERS];
    if (numbers[0] == UINT64_MAX) memset(wanted, 0xff, sizeof wanted);
    else spread(wanted, numbers[0]);
    return memcmp(numbers, wanted, part->unit_bytes) == 0;
}

/* Where this torn word is kept, or the place for it: a free one, or that of the oldest behind the others. */
static uint32_t place_of(const zephyr_part *part, off_t offset) {
    uint32_t i = 0;
    while (i < ZEPHYR_TORN - 1 && part->torn[i] != 0 && part->torn[i] != offset + 1) i++;
    return i;
}

/* Whether the NMI came in the read of the word at this offset, or in an earlier one: a second read may come from a cache. The
 * word goes to the front of those that are kept. They are kept as one more than the offset, which may be 0. */
static int is_noted(zephyr_part *part, off_t offset) {
    uint32_t i = place_of(part, offset);
    if (!part->is_noted && part->torn[i] != offset + 1) return 0;
    memmove(&part->torn[1], &part->torn[0], i * sizeof part->torn[0]);
    part->torn[0] = offset + 1;
    return 1;
}

/* Forgets the torn words of a page that is to be erased. */
static void forget_torn(zephyr_part *part, off_t from) {
    uint32_t kept = 0;
    for (uint32_t i = 0; i < ZEPHYR_TORN; i++) {
        off_t noted = part->torn[i];
        part->torn[i] = 0;
        if (noted - 1 < from || noted - 1 >= from + (off_t)part->page_bytes) part->torn[kept++] = noted;
    }
}

int zephyr_nmi(zephyr_part *part) {
    if (!part->is_reading) return 0;
    part->is_noted = 1;
    return 1;
}

int zephyr_torn_by_eio(const struct device *device, off_t offset, int status) {
    uint64_t again[MOST_NUMBERS];
    return status == -EIO && flash_read(device, offset, again, flash_get_write_block_size(device)) == -EIO;
}

static uint32_t word(void *context, uint32_t page, uint32_t place, uint64_t *value) {
    zephyr_part *part = context;
    uint64_t numbers[MOST_NUMBERS];
    off_t offset = offset_of(part, page, place);
    part->is_noted = 0;
    part->is_reading = part->kind == EE_CODED;
    EE_BARRIER();
    int status = flash_read(part->device, offset, numbers, part->unit_bytes);
    EE_BARRIER();
    part->is_reading = 0;
    if (part->kind == EE_CODED) {
        if (is_noted(part, offset)) return EE_TORN;
        if (part->is_torn && part->is_torn(part->device, offset, status)) return EE_TORN;
    }
    if (status != 0) return EE_READ_FAILED;
    *value = numbers[0];
    return is_whole(part, numbers) ? 0 : EE_TORN;
}

/* Reads numbers into the port's room at once; words with ECC one by one, up to the first that can't be read. */
static const uint64_t *words(void *context, uint32_t page, uint32_t place, uint32_t count) {
    zephyr_part *part = context;
    if (part->kind != EE_CODED) {
        int status = flash_read(part->device, offset_of(part, page, place), part->run, count * NUMBER_BYTES);
        return status == 0 ? part->run : NULL;
    }
    for (uint32_t i = 0; i < count; i++) {
        if (word(context, page, place + i, &part->run[i]) != 0) return NULL;
    }
    return part->run;
}

static uint32_t program(void *context, uint32_t page, uint32_t place, uint64_t value) {
    const zephyr_part *part = context;
    uint64_t numbers[MOST_NUMBERS], found;
    spread(numbers, value);
    if (!EE_MAY_STEP(0)) return 1;
    int status = flash_write(part->device, offset_of(part, page, place), numbers, part->unit_bytes);
    EE_STEPPED(0);
    return status != 0 || word(context, page, place, &found) != 0 || found != value;
}

static uint32_t erase(void *context, uint32_t page) {
    zephyr_part *part = context;
    uint64_t found;
    if (!EE_MAY_STEP(1)) return 1;
    forget_torn(part, offset_of(part, page, 0));
    int status = flash_erase(part->device, offset_of(part, page, 0), part->page_bytes);
    EE_STEPPED(1);
    if (status != 0) return 1;
    for (uint32_t place = 0; place < part->places; place++) {
        if (word(context, page, place, &found) != 0 || found != UINT64_MAX) return 1;
    }
    return 0;
}

/* Finds the size of a page. 0 where the partition is whole pages of one size. */
static int find_pages(zephyr_part *part) {
    struct flash_pages_info info = {0};
    for (size_t at = 0; at < part->size; at += info.size) {
        int status = flash_get_page_info_by_offs(part->device, part->offset + (off_t)at, &info);
        if (status != 0) return status;
        if (at == 0) part->page_bytes = (uint32_t)info.size;
        if (info.start_offset != part->offset + (off_t)at || info.size != part->page_bytes) return -EINVAL;
        if (info.size == 0 || info.size > part->size - at) return -EINVAL;
    }
    return 0;
}

/* Finds what a word of the store is. 0 where there is one. */
static int find_unit(zephyr_part *part) {
    size_t block = flash_get_write_block_size(part->device);
    int is_paired = block < NUMBER_BYTES || (block == NUMBER_BYTES && !ZEPHYR_HAS_ECC);
    part->kind = !is_paired ? EE_CODED : ZEPHYR_IS_ONE_WAY ? EE_PAIRS : EE_PAIRS_CLEARING;
    part->unit_bytes = is_paired ? NUMBER_BYTES : (uint32_t)block;
    if (block == 0 || block > MOST_NUMBERS * NUMBER_BYTES || part->unit_bytes % block != 0) return -EINVAL;
    if (part->unit_bytes % NUMBER_BYTES != 0) return -EINVAL;
    return flash_get_parameters(part->device)->erase_value == 0xff ? 0 : -EINVAL;
}

int zephyr_flash(zephyr_part *part, ee_flash *flash) {
    if (!device_is_ready(part->device)) return -ENODEV;
    int status = find_pages(part);
    if (status == 0) status = find_unit(part);
    if (status != 0) return status;
    uint32_t all = part->page_bytes == 0 ? 0 : (uint32_t)(part->size / part->page_bytes);
    uint32_t shift = part->kind != EE_CODED; /* a pair has two numbers */
    uint32_t page_words = part->page_bytes / (part->unit_bytes << shift);
    if (page_words > MOST_WORDS) page_words = MOST_WORDS;
    if (all == 0 || all % 2 != 0 || all / 2 > MOST_PAGES || page_words < LEAST_WORDS) return -EINVAL;
    part->places = page_words << shift;
    ee_flash made = {
        .context = part,
        .pages = all / 2,
        .page_words = page_words,
        .word = word,
        .program = program,
        .erase = erase,
        .kind = part->kind,
        .words = words,
    };
    *flash = made;
    return 0;
}
