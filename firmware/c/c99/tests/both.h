/* The store twice: the Rust package as ee_*, and ee.c as made_*. */
#ifndef BOTH_H
#define BOTH_H

#include <stdbool.h>
#include <stdint.h>

#include "ee.h"

ee_result made_start(ee_store *store, const ee_flash *flash);
ee_result made_open(ee_store *store, const ee_flash *flash);
ee_result made_format(ee_store *store, const ee_flash *flash);
ee_result made_write(ee_store *store, uint16_t address, uint32_t value);
ee_result made_write_all(ee_store *store, const ee_value *values, uint32_t count);
ee_result made_forget(ee_store *store, uint16_t address);
ee_result made_forget_all(ee_store *store);
ee_result made_clean(ee_store *store);
ee_result made_read(const ee_store *store, uint16_t address, uint32_t *value);
ee_result made_load(const ee_store *store, ee_value *values, uint32_t count, uint32_t *loaded);
ee_result made_next(const ee_store *store, uint16_t *address, uint32_t *value);
ee_result made_counts(const ee_store *store, ee_numbers *numbers);
ee_result made_rescue(ee_store *store, const ee_flash *flash);
ee_result made_bad_words(const ee_flash *flash, uint32_t *count);
ee_result made_other_shape(const ee_flash *flash, uint32_t *pages, uint32_t *page_words);

enum call {
    START, OPEN, FORMAT, WRITE, WRITE_ALL, FORGET, CLEAN, READ, NEXT, COUNTS, CLEAR, RESCUE, BAD_WORDS, LOAD, OTHER_SHAPE, CALLS
};

/* What goes into a call, and what comes out of it. */
struct made_call {
    enum call call;
    uint16_t address;
    uint32_t value;
    const ee_value *list;
    uint32_t count;
};
struct answer {
    ee_result status;
    uint16_t address;
    uint32_t value;
    ee_numbers numbers;
};

/* More than one look through the slots. */
enum { MOST_LOADED = 40 };

/* Makes a call by ee.c, or by the package. */
static inline struct answer make(bool by_made, ee_store *store, const ee_flash *flash,
                                 const struct made_call *it) {
    struct answer out = {0, it->address, it->value, {9, 9, 9, 9, 9, 9}};
    ee_value values[MOST_LOADED];
#define MAKE(name, ...) out.status = by_made ? made_##name(__VA_ARGS__) : ee_##name(__VA_ARGS__)
    switch (it->call) {
    case START: MAKE(start, store, flash); break;
    case OPEN: MAKE(open, store, flash); break;
    case FORMAT: MAKE(format, store, flash); break;
    case WRITE: MAKE(write, store, it->address, it->value); break;
    case WRITE_ALL: MAKE(write_all, store, it->list, it->count); break;
    case FORGET: MAKE(forget, store, it->address); break;
    case CLEAN: MAKE(clean, store); break;
    case READ: MAKE(read, store, it->address, &out.value); break;
    case NEXT: MAKE(next, store, &out.address, &out.value); break;
    case COUNTS: MAKE(counts, store, &out.numbers); break;
    case CLEAR: MAKE(forget_all, store); break;
    case RESCUE: MAKE(rescue, store, flash); break;
    case BAD_WORDS: MAKE(bad_words, flash, &out.value); break;
    case OTHER_SHAPE: MAKE(other_shape, flash, &out.value, &out.numbers.slots); break;
    case LOAD:
        for (uint32_t i = 0; i < MOST_LOADED; i++) {
            values[i] = (ee_value){(uint16_t)(it->address + i), it->value + i};
        }
        MAKE(load, store, values, it->value % (MOST_LOADED + 1), &out.numbers.live);
        for (uint32_t i = 0; i < MOST_LOADED; i++) out.value = out.value * 31 + values[i].value;
        break;
    case CALLS: break;
    }
#undef MAKE
    return out;
}

static inline bool is_same(const struct answer *a, const struct answer *b) {
    const ee_numbers *m = &a->numbers, *n = &b->numbers;
    return a->status == b->status && a->address == b->address && a->value == b->value &&
           m->slots == n->slots && m->fill == n->fill && m->live == n->live && m->torn == n->torn &&
           m->pending == n->pending && m->generation == n->generation;
}

/* A number over all that was done, in order. */
static inline void note(uint64_t *trace, uint64_t what) {
    *trace = (*trace ^ what) * 0x9e3779b97f4a7c15u;
    *trace ^= *trace >> 31;
}

/* The next number of a row that begins with the seed. */
static inline uint64_t next_number(uint64_t *seed) {
    *seed ^= *seed << 13;
    *seed ^= *seed >> 7;
    *seed ^= *seed << 17;
    return *seed * 0x2545f4914f6cdd1du;
}

#endif
