/* SPDX-License-Identifier: MIT OR Apache-2.0 */
/* What a program in the field may need beside the calls of ee.h: the flash as a text, and which page waits to be erased. Both are
 * made of the functions of an `ee_flash` and of ee_counts: a program that calls neither is the same without them. */
#ifndef EE_FIELD_H
#define EE_FIELD_H

#include "ee.h"

/* Gives the flash as the text of an image, one character after the other, as to a UART: `ee inspect` and `ee run` read it. A torn
 * word is `?`, which no dump of bytes can say. How often pages were erased is not known, and stands as 0. The text has up to
 * 34 * pages * page_words bytes, and a few. EE_OK; EE_DRIVER where a read failed, and the text ends there; EE_NULL and
 * EE_WRONG_SHAPE. */
static inline ee_result ee_dump(const ee_flash *flash, void (*put)(void *context, char character), void *context) {
    uint32_t page, place, part, shape[2];
    uint64_t value;
    if (!flash || !put) return EE_NULL;
    shape[0] = flash->pages, shape[1] = flash->page_words;
    put(context, 'e'), put(context, 'e');
    for (part = 0; part < 2; part++) {
        uint32_t unit = 1;
        while (shape[part] / unit >= 10) unit *= 10;
        put(context, ' ');
        for (; unit > 0; unit /= 10) put(context, (char)('0' + shape[part] / unit % 10));
    }
    for (page = 0; page < 2 * flash->pages; page++) {
        put(context, '\n'), put(context, '0');
        for (place = 0; place < flash->page_words; place++) {
            ee_result status = ee_word_of(flash, page, place, &value);
            if (status != EE_OK && status != EE_TORN) return status;
            put(context, ' ');
            if (status != EE_OK || value == UINT64_MAX) put(context, status == EE_OK ? '-' : '?');
            else for (part = 0; part < 16; part++) put(context, "0123456789abcdef"[value >> (60 - 4 * part) & 15]);
        }
    }
    put(context, '\n');
    return EE_OK;
}

/* The page that ee_clean would erase next, on an open store: for a port that can begin an erase and go on, as
 * stm32_ecc_begin_erase. Behind that ee_clean finds the page blank. EE_OK; EE_NOTHING where none waits, or the flash doesn't say which
 * set is live; EE_DRIVER, and what else ee_counts answers. `page` is written with EE_OK alone. */
static inline ee_result ee_pending(const ee_store *store, const ee_flash *flash, uint32_t *page) {
    ee_numbers numbers;
    uint64_t first = 0, second = 0, value;
    uint32_t at, end, place;
    ee_result status = flash && page ? ee_counts(store, &numbers) : EE_NULL;
    if (status != EE_OK) return status;
    /* The first word of a set has its generation. */
    if (ee_word_of(flash, 0, 0, &first) != EE_OK) first = UINT64_MAX;
    if (ee_word_of(flash, flash->pages, 0, &second) != EE_OK) second = UINT64_MAX;
    if (((uint32_t)first == numbers.generation) == ((uint32_t)second == numbers.generation)) return EE_NOTHING;
    at = (uint32_t)first == numbers.generation ? flash->pages : 0;
    for (end = at + flash->pages; at < end; at++) {
        for (place = 0; place < flash->page_words; place++) {
            status = ee_word_of(flash, at, place, &value);
            if (status == EE_DRIVER) return EE_DRIVER;
            if (status == EE_OK && value == UINT64_MAX) continue;
            *page = at;
            return EE_OK;
        }
    }
    return EE_NOTHING;
}

#endif
