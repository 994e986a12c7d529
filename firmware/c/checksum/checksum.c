/* Each call on a store of zeros, and then two and a half thousand calls on flash in an array: writes for the most part, and some of each other call, of ee_write_all
 * but with LISTS 0. One step in
 * fifty or so is cut, torn in some way, and the store opened again. Then each word of the flash is damaged in turn, and a
 * variable is read. With PAIRS the flash has numbers, two for each word, with CODED coded words, and a cut leaves some bits. With MAPPED
 * words are looked at where they stand, but where one of them can't be read. */
#include "checksum.h"

#include "../ee.h"

#ifndef PAIRS
#define PAIRS 0
#endif
#ifndef CODED
#define CODED 0
#endif
#ifndef LISTS
#define LISTS 1
#endif
#ifndef MAPPED
#define MAPPED 0
#endif

enum { SHAPES = 5, CALLS = 500, MOST_WORDS = 256, MOST_ADDRESSES = 100, MOST_LISTED = 6 };

static const struct {
    uint32_t pages, page_words;
} shapes[SHAPES] = {{1, 5}, {1, 6}, {2, 7}, {4, 16}, {1, 128}};

const unsigned char *checksum_frame;
static uint64_t sum, seed;
static uint64_t words[MOST_WORDS << PAIRS];
static uint8_t torn[MOST_WORDS << PAIRS];
static ee_flash flash;
static ee_store store;
static uint32_t steps_left;

#ifdef STORE_CEILING
_Static_assert(sizeof(ee_store) <= STORE_CEILING, "the memory that a store is lent");
#endif

static void add(uint64_t number) {
    sum = (sum ^ number) * 0x9e3779b97f4a7c15u;
    sum ^= sum >> 29;
}

/* A number below the bound: the next one of a row that begins with the seed. */
static uint32_t below(uint32_t bound) {
    seed ^= seed << 13;
    seed ^= seed >> 7;
    seed ^= seed << 17;
    return (uint32_t)(seed >> 32) % bound;
}

/* The place of the first word of a page in the array, or of its first number. */
static uint32_t first_of(uint32_t page) { return page * flash.page_words << PAIRS; }

static uint32_t word(void *context, uint32_t page, uint32_t place, uint64_t *value) {
    uint32_t i = first_of(page) + place;
    (void)context;
    *value = words[i];
    return torn[i] ? EE_TORN : 0;
}

#if MAPPED
static const uint64_t *several(void *context, uint32_t page, uint32_t place, uint32_t count) {
    uint32_t first = first_of(page) + place;
    (void)context;
    for (uint32_t i = first; i < first + count; i++) {
        if (torn[i]) return 0;
    }
    return &words[first];
}
#endif

/* What a cut leaves of a word that was to become `value`. */
static void tear(uint32_t i, uint64_t value) {
    uint32_t left = below(3);
    if (left == 1) {
        words[i] = value;
        torn[i] = 0;
    } else if (left == 2 && (PAIRS || CODED)) {
        words[i] = (words[i] & value) | (uint64_t)below(UINT32_MAX) << below(33);
    } else if (left == 2) {
        torn[i] = 1;
    }
}

static uint32_t program(void *context, uint32_t page, uint32_t place, uint64_t value) {
    uint32_t i = first_of(page) + place;
    (void)context;
    if (steps_left-- == 0) {
        tear(i, value);
        return 1;
    }
    words[i] = value;
    return 0;
}

static uint32_t erase(void *context, uint32_t page) {
    int is_cut = steps_left-- == 0;
    (void)context;
    for (uint32_t i = first_of(page); i < first_of(page + 1); i++) {
        if (is_cut) {
            tear(i, UINT64_MAX);
        } else {
            words[i] = UINT64_MAX;
            torn[i] = 0;
        }
    }
    return (uint32_t)is_cut;
}

enum call { CLEAN, FORGET, FORMAT, OPEN, START, WRITE, WRITE_ALL };

#if LISTS
static ee_value list[MOST_LISTED];

/* A list of so many values, of addresses from this one on. */
static void make_list(uint16_t address, uint32_t count) {
    for (uint32_t i = 0; i < count; i++) list[i] = (ee_value){(uint16_t)(address + i), below(UINT32_MAX)};
}
#endif

static __attribute__((noinline)) uint32_t make(enum call call, uint16_t address, uint32_t value) {
    checksum_frame = __builtin_frame_address(0);
    switch (call) {
    case CLEAN: return ee_clean(&store);
    case FORGET: return ee_forget(&store, address);
    case FORMAT: return ee_format(&store, &flash);
    case OPEN: return ee_open(&store, &flash);
    case START: return ee_start(&store, &flash);
#if LISTS
    case WRITE_ALL: make_list(address, value); return ee_write_all(&store, list, value);
#endif
    default: return ee_write(&store, address, value);
    }
}

/* Makes a call, one in five with a cut to come, and opens the store where it was cut. */
static int change(enum call call, uint16_t address, uint32_t value) {
    steps_left = below(5) == 0 ? below(8) : UINT32_MAX;
    uint32_t status = make(call, address, value);
    add(status);
    steps_left = UINT32_MAX;
    return status != EE_DRIVER || make(OPEN, 0, 0) == EE_OK;
}

static void add_counts(void) {
    ee_numbers numbers;
    add(ee_counts(&store, &numbers));
    add(numbers.slots);
    add(numbers.fill);
    add(numbers.live);
    add(numbers.pending);
    add(numbers.torn);
    add(numbers.generation);
}

static void add_read(uint16_t address) {
    uint32_t value = 0;
    add(ee_read(&store, address, &value));
    add(value);
}

static void add_next(uint16_t address) {
    uint32_t value = 0;
    add(ee_next(&store, &address, &value));
    add(address);
    add(value);
}

static void add_load(uint16_t address, uint32_t value) {
    ee_value wanted[3] = {{address, value}, {1, value}, {(uint16_t)(address + 1), value}};
    uint32_t loaded = 0;
    add(ee_load(&store, wanted, value % 4, &loaded));
    add(loaded);
    for (uint32_t i = 0; i < 3; i++) add(wanted[i].value);
}

static int any_call(uint32_t addresses) {
    uint16_t address = (uint16_t)below(addresses + 1);
    uint32_t value = below(UINT32_MAX);
    switch (below(17)) {
    case 0: add_counts(); return 1;
    case 1: add_next(address); return 1;
    case 2: add_read(address); return 1;
    case 3: return change(CLEAN, 0, 0);
    case 4: return change(FORGET, address, 0);
    case 6: add_load(address, value); return 1;
#if LISTS
    case 5: return change(WRITE_ALL, address, value % (MOST_LISTED + 1));
#endif
    default: return change(WRITE, address, value);
    }
}

/* What a read says where a word is another than the store left, and what an opening says. */
static void read_damaged(uint32_t count) {
    for (uint32_t i = 0; i < count; i++) {
        uint64_t was = words[i];
#ifndef BY_INDEX /* which doesn't look for a value in the slots */
        words[i] = 7;
        add_read(1);
#endif
        words[i] = UINT64_C(1) << 16;
        add(make(OPEN, 0, 0));
        words[i] = was;
        add(make(OPEN, 0, 0));
    }
}

static int run(void) {
    uint32_t slots = flash.pages * (flash.page_words - 4), count = first_of(2 * flash.pages);
    uint32_t addresses = slots < MOST_ADDRESSES ? slots + 1 : MOST_ADDRESSES;
    for (uint32_t i = 0; i < count; i++) {
        words[i] = UINT64_MAX;
        torn[i] = 0;
    }
    steps_left = UINT32_MAX;
    add(make(OPEN, 0, 0));
    for (steps_left = below(3); make(START, 0, 0) != EE_OK;) steps_left = below(4);
    steps_left = UINT32_MAX;
    if (make(FORMAT, 0, 0) != EE_OK) return 0;
    for (uint32_t n = 0; n < CALLS; n++) {
        if (!any_call(addresses)) return 0;
    }
    for (uint32_t i = 0; i < count; i++) add(torn[i] ? 1 : words[i]);
    read_damaged(count);
    return 1;
}

/* Whether each call on a store of zeros answers that it is off. */
static int is_off(void) {
    static ee_store never;
    ee_numbers numbers;
    uint32_t value;
    uint16_t address = 0;
#if LISTS
    if (ee_write_all(&never, list, 2) != EE_NOT_OPEN) return 0;
#endif
    return ee_write(&never, 1, 1) == EE_NOT_OPEN && ee_forget(&never, 1) == EE_NOT_OPEN && ee_clean(&never) == EE_NOT_OPEN &&
           ee_read(&never, 1, &value) == EE_NOT_OPEN && ee_next(&never, &address, &value) == EE_NOT_OPEN &&
           ee_counts(&never, &numbers) == EE_NOT_OPEN;
}

uint64_t checksum(void) {
    if (!is_off()) return 0;
    sum = 0;
    seed = 20261123;
    for (int shape = 0; shape < SHAPES; shape++) {
        flash.pages = shapes[shape].pages, flash.page_words = shapes[shape].page_words;
        flash.word = word, flash.program = program, flash.erase = erase, flash.kind = CODED ? EE_CODED : PAIRS;
#if MAPPED
        flash.words = several;
#endif
        if (!run()) return 0;
    }
    return sum;
}
