/* Lockstep: ee.c and the Rust package make the same calls of their drivers, in the same order, leave
 * the same flash, and answer the same; over random flashes and calls, with cuts and failing reads.
 * With an index, in ee.c alone, other words are read, so reads are neither noted nor do they fail.
 *
 *     lockstep KIND SEED CALLS [index]
 */
#include <stdio.h>
#include <stdlib.h>
#include <string.h>

#include "../../tests/coded.h"
#include "both.h"

enum { MOST_PLACES = 2 * 3 * 2 * 70, MOST_LISTED = 8, READ_FAULT = 2 };

/* A flash: its numbers, which of them can't be read, and the step in which power is cut. */
struct part {
    uint64_t numbers[MOST_PLACES];
    uint8_t torn[MOST_PLACES];
    uint32_t pages, places;
    uint64_t seed, seed_of_reads, trace;
    int64_t steps_left;
    bool is_of_pairs, is_coded, is_cut;
};

static uint64_t seed, calls, cuts, calls_by_index;
static uint32_t kind, pairs, clears_first;
static bool by_index;

static uint64_t below(uint64_t bound) { return next_number(&seed) % bound; }

static void fail(const char *what) {
    printf("lockstep: %s, after %llu calls\n", what, (unsigned long long)calls);
    exit(1);
}

static uint32_t place_of(const struct part *part, uint32_t page, uint32_t at) {
    if (page >= part->pages || at >= part->places) fail("a place that the flash does not have");
    return page * part->places + at;
}

static uint32_t word(void *context, uint32_t page, uint32_t at, uint64_t *value) {
    struct part *part = context;
    if (!by_index) note(&part->trace, 1 + 4 * ((uint64_t)page << 16 | at));
    uint32_t place = place_of(part, page, at);
    *value = part->numbers[place];
    if (part->torn[place] == READ_FAULT) return EE_READ_FAILED;
    return part->torn[place] ? EE_TORN : 0;
}

/* The numbers where they stand, but every third time or so, and where one of them can't be read. */
static const uint64_t *words(void *context, uint32_t page, uint32_t at, uint32_t count) {
    struct part *part = context;
    if (!by_index) note(&part->trace, 4 + 4 * ((uint64_t)page << 32 | (uint64_t)at << 8 | count));
    if (count == 0 || count > (uint32_t)EE_RUN << pairs) fail("another count of words");
    uint32_t first = place_of(part, page, at);
    place_of(part, page, at + count - 1);
    bool is_well = next_number(&part->seed_of_reads) % 3 != 0;
    for (uint32_t i = 0; i < count; i++) is_well = is_well && !part->torn[first + i];
    return is_well ? part->numbers + first : NULL;
}

/* What a cut leaves of a number that was to become `value`: itself, `value`, or what is between. */
static void tear(struct part *part, uint32_t place, uint64_t value) {
    uint64_t left = next_number(&part->seed) % 3;
    bool erases = value == UINT64_MAX;
    if (left == 0) return;
    if (left == 1 && !part->is_of_pairs && !(part->is_coded && next_number(&part->seed) % 2)) {
        part->torn[place] = 1;
        return;
    }
    if (left == 1 && erases && clears_first) value = next_number(&part->seed);
    else if (left == 1) value = (erases ? part->numbers[place] : value) | next_number(&part->seed);
    if (left == 1 && part->is_coded) value ^= (uint64_t)1 << next_number(&part->seed) % 64;
    part->numbers[place] = value;
    part->torn[place] = 0;
}

static uint32_t program(void *context, uint32_t page, uint32_t at, uint64_t value) {
    struct part *part = context;
    note(&part->trace, 2 + 4 * ((uint64_t)page << 16 | at));
    note(&part->trace, value);
    uint32_t place = place_of(part, page, at);
    if (value == UINT64_MAX) fail("a program of all ones");
    if (part->numbers[place] != UINT64_MAX || part->torn[place] == 1) fail("a word written again");
    if (part->steps_left-- == 0) {
        part->is_cut = true;
        tear(part, place, value);
        return 1;
    }
    part->numbers[place] = value;
    return 0;
}

static uint32_t erase(void *context, uint32_t page) {
    struct part *part = context;
    note(&part->trace, 3 + 4 * (uint64_t)page);
    bool is_cut = part->steps_left-- == 0;
    for (uint32_t at = 0; at < part->places; at++) {
        uint32_t place = place_of(part, page, at);
        if (is_cut) {
            tear(part, place, UINT64_MAX);
        } else {
            part->numbers[place] = UINT64_MAX;
            part->torn[place] = 0;
        }
    }
    part->is_cut = part->is_cut || is_cut;
    return is_cut ? 9 : 0;
}

static struct part ours, theirs;
static ee_flash our_flash, their_flash;
static ee_entry entries[96];
static ee_index our_index;
static ee_store our_store, their_store;

/* Makes a call on both, and holds them against each other. */
static ee_result both(const struct made_call *it) {
    ours.trace = theirs.trace = 1;
    struct answer a = make(true, &our_store, &our_flash, it);
    struct answer b = make(false, &their_store, &their_flash, it);
    calls++;
    calls_by_index += by_index && !our_index.is_given_up;
    if (!is_same(&a, &b)) fail("another answer");
    if (ours.trace != theirs.trace || ours.seed != theirs.seed) fail("other calls of the driver");
    if (!by_index && ours.seed_of_reads != theirs.seed_of_reads) fail("other reads");
    if (memcmp(ours.numbers, theirs.numbers, sizeof ours.numbers) != 0) fail("another flash");
    if (memcmp(ours.torn, theirs.torn, sizeof ours.torn) != 0) fail("another flash");
    return a.status;
}

static ee_result call_of(enum call call) {
    struct made_call it = {call, 0, 0, NULL, 0};
    return both(&it);
}

/* A number like those of a store, of one of so many addresses. */
static uint64_t number_at(uint32_t at, uint32_t addresses, bool is_last) {
    uint64_t mark = 0xaaaaaaaaaaaaaaaa, first = 0xaaaaaaaa00000000;
    if (at == 0) return is_last ? 0xaaaaaaaaffffffff - below(4) : first + below(3);
    if (at < 3 && below(4) != 0) return mark;
    if (at > 3 && below(3) != 0) {
        return below(UINT32_MAX) << 32 | (uint64_t)(below(8) == 0) << 16 | (1 + below(addresses));
    }
    return UINT64_MAX;
}

/* Fills a flash with nothing, anything, or what is like a store; of coded words now and then of another shape. */
static void fill(uint32_t addresses, uint32_t page_words) {
    uint64_t with = below(4);
    uint32_t other = below(8) == 0;
    bool is_last = below(2) == 0;
    for (uint32_t i = 0; i < MOST_PLACES; i++) {
        uint32_t at = (i >> pairs) % page_words;
        uint64_t number = UINT64_MAX;
        if (with == 0 && below(8) == 0) number = next_number(&seed);
        if (with == 1) number = number_at(at, addresses, is_last);
        if (with == 1 && kind == EE_CODED && number != UINT64_MAX && below(20) != 0) {
            number = coded_number(number, ours.pages / 2 + other, page_words);
        }
        if (pairs && i % 2 == 1) {
            bool is_blank = ours.numbers[i - 1] == UINT64_MAX || below(16) == 0;
            number = is_blank ? UINT64_MAX : UINT64_MAX - ours.numbers[i - 1];
            /* A word that no store wrote. */
            if (with == 0 && below(99) == 0) number &= next_number(&seed);
        }
        ours.numbers[i] = number;
        ours.torn[i] = !pairs && with == 1 && below(11) == 0;
    }
}

static void begin(uint32_t addresses) {
    uint32_t pages = 1 + (uint32_t)below(3);
    uint32_t page_words = 5 + (uint32_t)below(below(8) == 0 ? 60 : 9);
    memset(&ours, 0, sizeof ours);
    ours.pages = 2 * pages;
    ours.places = page_words << pairs;
    ours.seed = next_number(&seed) | 1;
    ours.seed_of_reads = next_number(&seed) | 1;
    ours.steps_left = -1;
    ours.is_of_pairs = pairs != 0;
    ours.is_coded = kind == EE_CODED;
    fill(addresses, page_words);
    theirs = ours;
    our_flash = (ee_flash){.context = &ours, .pages = pages, .page_words = page_words, .word = word,
                           .program = program, .erase = erase, .kind = kind,
                           .words = below(2) == 0 ? words : NULL};
    their_flash = our_flash;
    their_flash.context = &theirs;
    /* With room for all, or for some. */
    our_index = (ee_index)EE_INDEX_IN(entries);
    if (below(2) == 0) our_index.list.room.len = (uint32_t)below(addresses);
    if (by_index) our_flash.index = &our_index;
}

/* Any call, on one of so many addresses. */
static ee_result any_call(uint32_t addresses) {
    ee_value list[MOST_LISTED];
    static const uint16_t odd[] = {0, 65535};
    struct made_call it = {WRITE, (uint16_t)(1 + below(addresses)), (uint32_t)below(UINT32_MAX),
                           list, (uint32_t)below(MOST_LISTED)};
    if (below(64) == 0) it.address = odd[below(2)];
    uint64_t which = below(24);
    if (which < CALLS) it.call = (enum call)which;
    if ((it.call == FORMAT || it.call == CLEAR) && below(16) != 0) it.call = FORGET;
    if (it.call == RESCUE && below(4) != 0) it.call = WRITE;
    if (it.call == NEXT && below(3) == 0) it.address = 0;
    for (uint32_t i = 0; i < MOST_LISTED; i++) {
        list[i] = (ee_value){(uint16_t)(1 + below(addresses + 2)), (uint32_t)below(UINT32_MAX)};
    }
    return both(&it);
}

/* One read fails as on a bus that isn't up, while a call is made. */
static void call_with_a_fault(uint32_t addresses) {
    uint32_t place = (uint32_t)below(ours.pages * ours.places);
    uint8_t was = ours.torn[place];
    ours.torn[place] = theirs.torn[place] = READ_FAULT;
    any_call(addresses);
    if (ours.torn[place] == READ_FAULT) ours.torn[place] = theirs.torn[place] = was;
    call_of(OPEN);
}

/* A word changes behind the store's back while a variable is read: it may end in an address and say
 * nothing of it. */
static void read_damaged(uint32_t addresses) {
    uint32_t place = (uint32_t)below(ours.pages * ours.places);
    uint64_t was = ours.numbers[place], address = 1 + below(addresses);
    uint64_t number = below(4) << 16 | address;
    if (kind == EE_CODED && below(2)) number = coded_number(number, ours.pages / 2, ours.places);
    ours.numbers[place] = theirs.numbers[place] = number;
    both(&(struct made_call){READ, (uint16_t)address, 0, NULL, 0});
    ours.numbers[place] = theirs.numbers[place] = was;
}

/* Sets so many addresses, and forgets them but for the last: more than a batch has room for. */
static void forget_most(uint32_t addresses) {
    struct made_call next = {NEXT, 0, 0, NULL, 0};
    for (uint32_t address = 1; address <= addresses; address++) {
        both(&(struct made_call){WRITE, (uint16_t)address, 7, NULL, 0});
    }
    for (uint32_t address = 1; address < addresses; address++) {
        both(&(struct made_call){FORGET, (uint16_t)address, 0, NULL, 0});
    }
    both(&next);
}

static void run(void) {
    /* Also more than a batch of a move has room for. */
    uint32_t addresses = 1 + (uint32_t)below(below(3) == 0 ? 80 : 24);
    begin(addresses);
    if (call_of(START) != EE_OK && below(2) == 0) call_of(FORMAT);
    if (below(8) == 0) forget_most(addresses);
    for (uint64_t left = 30 + below(300); left > 0; left--) {
        int64_t steps = (int64_t)below(below(2) == 0 ? 4 : 40);
        ours.steps_left = theirs.steps_left = below(6) == 0 ? steps : -1;
        if (!by_index && below(20) == 0) read_damaged(addresses);
        if (!by_index && below(50) == 0) {
            call_with_a_fault(addresses);
        } else {
            any_call(addresses);
        }
        ours.steps_left = theirs.steps_left = -1;
        if (ours.is_cut) {
            cuts++;
            ours.is_cut = theirs.is_cut = false;
            if (below(8) != 0) call_of(START);
        }
        if (below(100) == 0) {
            ee_store copy = our_store;
            if (made_read(&copy, 1, &(uint32_t){0}) != EE_NOT_OPEN) fail("a copy is on");
        }
    }
}

int main(int argc, char **argv) {
    if (argc != 4 && argc != 5) return 2;
    by_index = argc == 5;
    kind = (uint32_t)atoi(argv[1]);
    clears_first = kind == EE_PAIRS_CLEARING;
    pairs = kind == EE_PAIRS || kind == EE_PAIRS_CLEARING;
    seed = strtoull(argv[2], NULL, 10) * 2 + 1;
    uint64_t wanted = strtoull(argv[3], NULL, 10);
    while (calls < wanted) run();
    if (by_index && calls_by_index < calls / 4) fail("an index that is in use too seldom");
    printf("lockstep%s, kind %u: %llu calls, %llu cuts, the same\n", by_index ? " by an index" : "", (unsigned)kind,
           (unsigned long long)calls, (unsigned long long)cuts);
    return 0;
}
