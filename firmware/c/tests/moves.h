/* Moves of a store on a model of a part, with and without power cuts, for the tests of the ports. */
#ifndef MOVES_H
#define MOVES_H

#include <stdint.h>
#include <stdio.h>
#include <stdlib.h>
#include <string.h>

#include "../ee.h"

#define CHECK(holds)                                                                                                           \
    do {                                                                                                                       \
        if (!(holds)) {                                                                                                        \
            fprintf(stderr, "%s:%d: %s\n", __FILE__, __LINE__, #holds);                                                        \
            exit(1);                                                                                                           \
        }                                                                                                                      \
    } while (0)

enum { MOVES = 1000, ADDRESSES = 5 };

/* What a test gives of its model. */
typedef struct model {
    void (*cut)(uint32_t in); /* the step that is cut, 1 for the next; 0 for none */
    int (*is_cut)(void);      /* whether that step came */
    void (*power)(void);      /* power comes back: registers are as after a reset, and caches are empty */
} model;

typedef struct values {
    uint32_t value[ADDRESSES];
    uint32_t is_there[ADDRESSES];
} values;

/* A number below the end that looks random. */
static inline uint32_t below(uint32_t end) {
    static uint64_t dice = 88172645463325252u;
    dice ^= dice << 13;
    dice ^= dice >> 7;
    dice ^= dice << 17;
    return (uint32_t)((dice * 0x9e3779b97f4a7c15u) >> 32) % end;
}

/* Bits that look random: half of them, few, or many. */
static inline uint32_t any_bits(void) {
    uint32_t one = below(UINT32_MAX), other = below(UINT32_MAX), kind = below(3);
    return kind == 0 ? one : kind == 1 ? one & other : one | other;
}

static inline values values_of(const ee_store *store) {
    values found;
    memset(&found, 0, sizeof found);
    for (uint32_t i = 0; i < ADDRESSES; i++) {
        uint32_t status = ee_read(store, (uint16_t)(1 + i), &found.value[i]);
        CHECK(status == EE_OK || status == EE_NOTHING);
        found.is_there[i] = status == EE_OK;
    }
    return found;
}

static inline int is_same(values a, values b) { return memcmp(&a, &b, sizeof a) == 0; }

static inline void put(values *all, uint32_t i, uint32_t value) {
    all->value[i] = value;
    all->is_there[i] = 1;
}

/* Makes a change of one or two values, and notes in `all` what it leaves. */
static inline uint32_t changed(ee_store *store, values *all) {
    uint32_t i = below(ADDRESSES), other = (i + 1) % ADDRESSES, value = any_bits();
    if (below(6) == 0 && all->is_there[i]) {
        all->value[i] = all->is_there[i] = 0;
        return ee_forget(store, (uint16_t)(1 + i));
    }
    put(all, i, value);
    if (below(3) != 0) return ee_write(store, (uint16_t)(1 + i), value);
    ee_value list[2] = {{.address = (uint16_t)(1 + i), .value = value}, {.address = (uint16_t)(1 + other), .value = ~value}};
    put(all, other, ~value);
    return ee_write_all(store, list, 2);
}

/* Some words of the flash at once are what `word` says of each, and are not answered where one of them can't be read. */
static inline void check_run(const ee_flash *flash) {
    uint32_t shift = flash->kind == EE_PAIRS || flash->kind == EE_PAIRS_CLEARING, places = flash->page_words << shift, page = below(2 * flash->pages), place = below(places);
    uint32_t most = (uint32_t)EE_RUN << shift, rest = places - place, count = 1 + below(rest < most ? rest : most);
    const uint64_t *run = flash->words(flash->context, page, place, count);
    uint64_t found[2 * EE_RUN], value;
    int is_torn = 0;
    if (run) memcpy(found, run, count * sizeof *run);
    for (uint32_t i = 0; i < count; i++) {
        if (flash->word(flash->context, page, place + i, &value) != 0) is_torn = 1;
        else CHECK(!run || found[i] == value);
    }
    CHECK(is_torn == !run);
}

/* Power comes back, and the store is opened until no cut comes. */
static inline void start(ee_store *store, const ee_flash *flash, const model *part, int with_cuts) {
    uint32_t status;
    do {
        part->power();
        part->cut(with_cuts && below(3) == 0 ? 1 + below(3) : 0);
        status = ee_start(store, flash);
        CHECK(status == EE_OK || (status == EE_DRIVER && part->is_cut()));
    } while (part->is_cut());
}

/* A thousand moves on a part that is erased, which is read by runs or word by word. EE_DRIVER is answered in a cut alone, and what was stored is there. */
static inline void moves(const ee_flash *given, const model *part, int with_cuts) {
    ee_flash by_word = *given;
    const ee_flash *flash = given;
    ee_store store;
    ee_numbers numbers;
    values before, after;
    memset(&before, 0, sizeof before);
    by_word.words = NULL;
    start(&store, flash, part, with_cuts);
    do {
        after = before;
        part->cut(with_cuts && below(2) ? 1 + below(12) : 0);
        uint32_t status = below(5) ? changed(&store, &after) : ee_clean(&store);
        CHECK(status == EE_OK || status == EE_NOTHING || (status == EE_DRIVER && part->is_cut()));
        int was_cut = part->is_cut();
        if (was_cut || below(50) == 0) {
            flash = below(3) ? given : &by_word;
            start(&store, flash, part, with_cuts);
        }
        check_run(given);
        values found = values_of(&store);
        CHECK(is_same(found, after) || (was_cut && is_same(found, before)));
        before = found;
        CHECK(ee_counts(&store, &numbers) == EE_OK);
    } while (numbers.generation <= MOVES);
}

#endif
