/* One call on a store over PAGES pages in a set and WORDS words in a page, for Frama-C's Eva: whatever the words of the flash say,
 * at each look something else, is it asked only for pages and places that it has? And does the call leave a layout from which
 * the next one starts? CALL and WRITES are by_frama's. */
#include "ee.h"
#include "__fc_builtin.h"
#include <stddef.h>

#define PLACES (KIND == 0 ? WORDS : 2 * WORDS)
#define SLOTS (WORDS - 4)

static volatile uint64_t any64;
static volatile uint32_t any32;
static volatile uint16_t any16;
static volatile int any;

static uint32_t word(void *context, uint32_t page, uint32_t place, uint64_t *value) {
    //@ check word_in_range: page < 2 * PAGES && place < PLACES;
    uint32_t status = any32;
    if (any) {
        *value = any64;
        return 0;
    }
    return status == 0 ? EE_READ_FAILED : status;
}

static uint32_t program(void *context, uint32_t page, uint32_t place, uint64_t value) {
    //@ check program_in_range: page < 2 * PAGES && place < PLACES;
    //@ check may_program: WRITES == 1;
    return any32;
}

static uint32_t erase(void *context, uint32_t page) {
    //@ check erase_in_range: page < 2 * PAGES;
    //@ check may_erase: WRITES == 1;
    return any32;
}

/* As many numbers as were asked for, and no more. */
#define MOST (KIND == 0 ? EE_RUN : 2 * EE_RUN)
static uint64_t window[MOST];

static const uint64_t *words(void *context, uint32_t page, uint32_t place, uint32_t count) {
    //@ check words_in_range: page < 2 * PAGES && 1 <= count && place + count <= PLACES;
    //@ check words_at_most: count <= MOST;
    if (any) return NULL;
    for (int at = 0; at < MOST; at++) window[at] = any64;
    return window + (MOST - count);
}

static const ee_flash flash = {.pages = PAGES, .page_words = WORDS, .word = word, .program = program, .erase = erase, .kind = KIND,
    .words = words};
static ee_store store;

/* What a store keeps of its layout: the set, the page in use, and how many slots are used, which end in that page. Where words
 * change from look to look a move may go on behind the first set, in pages of the second. */
static void is_legal(void) {
    const struct ee_layout *const layout = &store.memory.parts.store.known.layout;
    if (store.memory.parts.power.flash == NULL) return;
    //@ check legal_side: layout->side <= 1;
    uint32_t first = layout->side == 0 ? 0 : PAGES;
    //@ check legal_page: first <= layout->current < 2 * PAGES;
    uint32_t page = layout->current - first;
    //@ check legal_fill: layout->fill <= (page + 1) * SLOTS;
    //@ check legal_fill_too: page == 0 || layout->fill > page * SLOTS;
    //@ check legal_generation: 1 <= layout->generation <= 4294967294;
}

void any_start(void) {
    ee_start(&store, &flash);
    is_legal();
}

void any_open(void) {
    ee_open(&store, &flash);
    is_legal();
}

void any_format(void) {
    ee_format(&store, &flash);
    is_legal();
}

void any_rescue(void) {
    ee_rescue(&store, &flash);
    is_legal();
}

void any_look(void) {
    uint32_t count, page, place;
    if (any) ee_bad_words(&flash, &count);
    else ee_foreign_word(&flash, &page, &place);
}

static const ee_value listed[3] = {{1, 1}, {2, 2}, {3, 3}};

static void call_one(void) {
    uint16_t address = any16;
    uint32_t value;
    ee_numbers numbers;
    ee_span span;
    ee_value wanted[2] = {{any16, any32}, {any16, any32}};
    switch (CALL) {
    case 0: ee_write(&store, address, any32); break;
    case 1: ee_write_all(&store, listed, Frama_C_unsigned_int_interval(0, 3)); break;
    case 2: ee_forget(&store, address); break;
    case 3: ee_forget_all(&store); break;
    case 4: ee_clean(&store); break;
    case 5: ee_read(&store, address, &value); break;
    case 6: ee_load(&store, wanted, 2, &value); break;
    case 7: ee_read_span(&store, address, any32, &span); break;
    case 8: ee_next(&store, &address, &value); break;
    default: ee_counts(&store, &numbers); break;
    }
    is_legal();
}

static void call_with(uint32_t side, uint32_t fill, uint32_t generation) {
    struct ee_kept *const kept = &store.memory.parts.store;
    kept->flash.power = &store.memory.parts.power;
    kept->flash.shape.pages = PAGES;
    kept->flash.shape.words = WORDS;
    kept->known.layout.side = side;
    kept->known.layout.generation = generation;
    kept->known.layout.fill = fill;
    kept->known.layout.current = side * PAGES + (fill == 0 ? 0 : (fill - 1) / SLOTS);
    store.memory.parts.power.flash = &flash;
    store.memory.parts.power.idle = &store;
    call_one();
}

void any_call(void) {
    for (uint32_t side = 0; side < 2; side++) {
        for (uint32_t fill = 0; fill <= (2 - side) * PAGES * SLOTS; fill++) {
            call_with(side, fill, Frama_C_unsigned_int_interval(1, UINT32_MAX - 2));
            call_with(side, fill, UINT32_MAX - 1);
        }
    }
}
