/* SPDX-License-Identifier: MIT OR Apache-2.0 */
#include "ee_convert.h"

/* The word of a set's first page that commits it. */
enum { COMMITS = 1 };

/* A set as the first one of a flash whose second is blank. The mark that commits it is kept back. */
typedef struct half {
    const ee_flash *flash;
    uint32_t first; /* its first page */
    uint64_t mark;  /* all ones while there is none */
} half;

static bool is_mark(uint32_t page, uint32_t place) { return page == 0 && place == COMMITS; }

static uint32_t half_word(void *context, uint32_t page, uint32_t place, uint64_t *value) {
    const half *set = (const half *)context;
    *value = is_mark(page, place) ? set->mark : UINT64_MAX;
    if (page >= set->flash->pages || *value != UINT64_MAX) return 0;
    return set->flash->word(set->flash->context, set->first + page, place, value);
}

static uint32_t half_program(void *context, uint32_t page, uint32_t place, uint64_t value) {
    half *set = (half *)context;
    if (is_mark(page, place)) set->mark = value;
    if (is_mark(page, place) || page >= set->flash->pages) return page >= set->flash->pages;
    return set->flash->program(set->flash->context, set->first + page, place, value);
}

static uint32_t half_erase(void *context, uint32_t page) {
    const half *set = (const half *)context;
    return page >= set->flash->pages || set->flash->erase(set->flash->context, set->first + page) != 0;
}

/* Erases each page that waits. */
static ee_result cleaned(ee_store *store) {
    ee_result status;
    do status = ee_clean(store);
    while (status == EE_OK);
    return status == EE_NOTHING ? (ee_result)EE_OK : status;
}

/* Writes all values of a store to another, which has none, and a slot for each. */
static ee_result copied(const ee_store *from, ee_store *to) {
    uint16_t address = 0;
    uint32_t value;
    ee_result status;
    while ((status = ee_next(from, &address, &value)) == EE_OK) {
        status = ee_write(to, address, value);
        if (status != EE_OK) return status;
    }
    return status == EE_NOTHING ? (ee_result)EE_OK : status;
}

/* Makes a set of coded words of a store of words. */
static ee_result converted(const ee_flash *flash) {
    half set = {flash, 0, UINT64_MAX};
    ee_flash words = *flash, coded = *flash;
    ee_store old, made;
    uint64_t first;
    words.kind = EE_WORDS;
    words.index = coded.index = 0;
    ee_result status = ee_open(&old, &words);
    if (status == EE_OK) status = cleaned(&old);
    if (status != EE_OK) return status;
    /* The other set is blank, and the live one has a generation in its first word. */
    status = ee_word_of(&words, 0, 0, &first);
    if (status != EE_OK && status != EE_TORN) return status;
    if (status == EE_TORN || first != UINT64_MAX) set.first = flash->pages;
    coded.context = &set, coded.word = half_word, coded.program = half_program, coded.erase = half_erase, coded.words = 0;
    status = ee_format(&made, &coded);
    if (status == EE_OK) status = copied(&old, &made);
    if (status != EE_OK) return status;
    return flash->program(flash->context, set.first, COMMITS, set.mark) == 0 ? EE_OK : EE_DRIVER;
}

ee_result ee_convert(ee_store *store, const ee_flash *flash) {
    ee_result status = flash && flash->kind != EE_CODED ? (ee_result)EE_WRONG_SHAPE : ee_start(store, flash);
    if (status == EE_OTHER_SHAPE) {
        uint32_t pages, page_words;
        if (ee_other_shape(flash, &pages, &page_words) != EE_OK) return EE_DRIVER; /* a read failed, or reads otherwise */
        if (pages == 0) status = converted(flash);
        if (status == EE_OK) status = ee_start(store, flash);
    }
    return status == EE_OK ? cleaned(store) : status;
}
