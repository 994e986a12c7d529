/* A part of flash in memory for the tests, of words, of pairs of numbers or of coded words, whose power can be cut in a step. */
#ifndef PART_H
#define PART_H

#include <stdint.h>
#include <stdio.h>
#include <stdlib.h>
#include <string.h>

#include "../ee.h"

/* A test may name others. */
#ifndef MOST_PAGES
#define MOST_PAGES 6
#define MOST_WORDS 16
#endif

enum tear { TEAR_NOTHING, TEAR_DONE, TEAR_TORN, TEAR_MIXED, TEARS };
/* How words are read several at a time: not at all; where they stand; or in a buffer, which the next call of any function
 * spoils, but every third time not. */
enum runs { NO_RUNS, MAPPED, SPOILED, RUN_KINDS };
enum { MOST_IN_A_RUN = 32 };

typedef struct part {
    uint64_t words[MOST_PAGES][2 * MOST_WORDS]; /* or numbers */
    uint8_t torn[MOST_PAGES][2 * MOST_WORDS];   /* it can't be read */
    uint32_t pages, page_words;                 /* of a set, of a page */
    uint32_t pairs;                             /* 1 where it has numbers */
    uint32_t coded;                             /* 1 where it has coded words */
    int clears_first;                           /* an erase of its numbers clears the cells of the page first */
    uint32_t steps;                             /* begun so far */
    uint32_t cut_in;                            /* the step that is cut, 0 for none */
    enum tear tear;
    unsigned long read, programmed, erased;
    unsigned long fails_in; /* the read that fails, 0 for none; the next one is whole */
    int failed;             /* it did: no step may follow */
    enum runs runs;
    uint32_t asked; /* for runs, so far */
    uint64_t buffer[MOST_IN_A_RUN];
} part;

#define CHECK(holds)                                                                                                           \
    do {                                                                                                                       \
        if (!(holds)) {                                                                                                        \
            fprintf(stderr, "%s:%d: %s\n", __FILE__, __LINE__, #holds);                                                        \
            exit(1);                                                                                                           \
        }                                                                                                                      \
    } while (0)

static inline uint32_t places(const part *p) { return p->page_words << p->pairs; }

/* Bits that look random: half of them, few, many, or one. */
static inline uint64_t any_bits(void) {
    static uint64_t dice = 88172645463325252u;
    uint64_t rows[3];
    for (int i = 0; i < 3; i++) {
        dice ^= dice << 13;
        dice ^= dice >> 7;
        dice ^= dice << 17;
        rows[i] = dice * 0x9e3779b97f4a7c15u;
    }
    switch (rows[0] >> 62) {
    case 0: return rows[1];
    case 1: return rows[0] & rows[1] & rows[2];
    case 2: return rows[0] | rows[1] | rows[2];
    default: return (uint64_t)1 << (rows[1] >> 58);
    }
}

/* Whether so many words can be looked at as a run, from a place on: each can be read, and no read of them fails. */
static inline int is_run(const part *p, uint32_t page, uint32_t place, uint32_t count) {
    for (uint32_t i = 0; i < count; i++) {
        if (p->torn[page][place + i]) return 0;
    }
    return p->fails_in <= p->read || p->fails_in > p->read + count;
}

static inline void spoil(part *p) {
    if (p->runs == SPOILED) memset(p->buffer, 0x5a, sizeof p->buffer);
}

static inline const uint64_t *part_words(void *context, uint32_t page, uint32_t place, uint32_t count) {
    part *p = context;
    CHECK(page < 2 * p->pages && place < places(p));
    CHECK(count >= 1u << p->pairs && count <= 16u << p->pairs && count <= places(p) - place);
    spoil(p);
    if (!is_run(p, page, place, count)) return NULL;
    if (p->runs == SPOILED && ++p->asked % 3 == 0) return NULL;
    p->read += count;
    if (p->runs == MAPPED) return &p->words[page][place];
    memcpy(p->buffer, &p->words[page][place], count * sizeof p->buffer[0]);
    return p->buffer;
}

static inline uint32_t part_word(void *context, uint32_t page, uint32_t place, uint64_t *value) {
    part *p = context;
    CHECK(page < 2 * p->pages && place < places(p));
    spoil(p);
    if (++p->read == p->fails_in) {
        p->failed = 1;
        return p->read % 2 ? EE_READ_FAILED : 1; /* any answer but 0 and EE_TORN */
    }
    if (p->torn[page][place]) return EE_TORN;
    *value = p->words[page][place];
    return 0;
}

/* What a step that is cut leaves of a word; of a number the bits that both the old one and the new one have, and so of half the
 * coded words. */
static inline void part_tear(part *p, uint32_t page, uint32_t place, uint64_t new, enum tear tear) {
    uint64_t *word = &p->words[page][place];
    if (tear == TEAR_DONE) *word = new;
    int is_bits = p->pairs || (p->coded && tear >= TEAR_TORN && any_bits() >> 40 & 1);
    if (is_bits && tear >= TEAR_TORN) *word = (*word & new) | any_bits();
    if (!p->pairs && tear != TEAR_NOTHING) p->torn[page][place] = tear == TEAR_TORN && !is_bits;
}

/* What an erase that is cut leaves of a word of two numbers where it clears first: cells that were cleared, or some that were set
 * behind that; and no value that didn't stand there, which is a premise. */
static inline void part_clear(part *p, uint32_t page, uint32_t word, int sets) {
    uint64_t *pair = &p->words[page][2 * word], old[2] = {pair[0], pair[1]};
    for (int i = 0; i < 2; i++) pair[i] = sets ? any_bits() : pair[i] & any_bits();
    int stood = pair[0] == old[0] && pair[1] == old[1];
    if (pair[0] != UINT64_MAX && pair[1] == ~pair[0] && !stood) pair[1] = UINT64_MAX;
    if (pair[0] == 0 && pair[1] == UINT64_MAX && !stood) pair[1] = 0;
}

static inline uint32_t part_program(void *context, uint32_t page, uint32_t place, uint64_t value) {
    part *p = context;
    CHECK(page < 2 * p->pages && place < places(p) && value != UINT64_MAX);
    CHECK(p->words[page][place] == UINT64_MAX && !p->torn[page][place] && !p->failed);
    int cut = ++p->steps == p->cut_in;
    spoil(p);
    p->programmed++;
    part_tear(p, page, place, value, !cut ? TEAR_DONE : p->tear == TEAR_MIXED ? TEAR_TORN : p->tear);
    return cut ? 9 : 0;
}

static inline uint32_t part_erase(void *context, uint32_t page) {
    part *p = context;
    CHECK(page < 2 * p->pages && !p->failed);
    int cut = ++p->steps == p->cut_in;
    spoil(p);
    p->erased++;
    if (cut && p->clears_first && p->tear >= TEAR_TORN) {
        int sets = (int)(any_bits() >> 40 & 1);
        for (uint32_t word = 0; word < p->page_words; word++) part_clear(p, page, word, sets);
        return 1;
    }
    for (uint32_t place = 0; place < places(p); place++) {
        enum tear mixed[3] = {TEAR_NOTHING, TEAR_DONE, TEAR_TORN};
        part_tear(p, page, place, UINT64_MAX, !cut ? TEAR_DONE : p->tear == TEAR_MIXED ? mixed[place % 3] : p->tear);
    }
    return cut ? 1 : 0;
}

static inline void blank(part *p, uint32_t pages, uint32_t page_words) {
    memset(p, 0, sizeof *p);
    memset(p->words, 0xff, sizeof p->words);
    p->pages = pages;
    p->page_words = page_words;
}

/* Whether two parts hold the same. */
static inline int holds_same(const part *a, const part *b) {
    return memcmp(a->words, b->words, sizeof a->words) == 0 && memcmp(a->torn, b->torn, sizeof a->torn) == 0;
}

static inline ee_flash flash_of(part *p) {
    uint32_t kind = p->clears_first ? EE_PAIRS_CLEARING : p->pairs ? EE_PAIRS : p->coded ? EE_CODED : EE_WORDS;
    ee_flash flash = {.context = p, .pages = p->pages, .page_words = p->page_words, .word = part_word, .program = part_program,
                      .erase = part_erase, .kind = kind, .words = p->runs == NO_RUNS ? NULL : part_words};
    return flash;
}

#endif
