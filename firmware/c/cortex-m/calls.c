/* Prints how many ticks of the core's timer four calls take: a write into a free slot, a read that looks through all
 * slots, an opening, and a write that moves. The flash is in memory: two sets of one page of 256 words, with 50
 * variables. With PAIRS it has numbers, two for each word, with CODED coded words. With MAPPED words are looked at where they stand. With QEMU's -icount a tick is so many instructions. */
#include "../ee.h"
#include "core.h"

#ifndef PAIRS
#define PAIRS 0
#endif
#ifndef CODED
#define CODED 0
#endif
#ifndef MAPPED
#define MAPPED 0
#endif

enum { PAGE_WORDS = 256, VARIABLES = 50, SLOTS = PAGE_WORDS - 4, PLACES = PAGE_WORDS << PAIRS };

static uint64_t words[2 * PLACES];
static ee_store store;
static char line[64], *line_end;

static uint32_t word(void *context, uint32_t page, uint32_t place, uint64_t *value) {
    (void)context;
    *value = words[page * PLACES + place];
    return 0;
}

#if MAPPED
static const uint64_t *several(void *context, uint32_t page, uint32_t place, uint32_t count) {
    (void)context;
    (void)count;
    return words + page * PLACES + place;
}
#endif

static uint32_t program(void *context, uint32_t page, uint32_t place, uint64_t value) {
    (void)context;
    words[page * PLACES + place] = value;
    return 0;
}

static uint32_t erase(void *context, uint32_t page) {
    (void)context;
    for (uint32_t i = 0; i < PLACES; i++) words[page * PLACES + i] = UINT64_MAX;
    return 0;
}

static const ee_flash flash = {
#if MAPPED
    .words = several,
#endif
    .pages = 1, .page_words = PAGE_WORDS, .word = word, .program = program, .erase = erase, .kind = CODED ? EE_CODED : PAIRS};

static void check(uint32_t status) {
    if (status != EE_OK) end(0);
}

/* Notes the ticks since the timer had this count. */
static void note(uint32_t since) {
    uint32_t ticks = (since - count()) & 0xffffff;
    line_end = put_decimal(line_end, ticks);
    *line_end++ = ' ';
}

static void fill(void) {
    for (uint16_t address = 1; address <= VARIABLES; address++) check(ee_write(&store, address, address));
    for (uint32_t used = VARIABLES; used < SLOTS - 1; used++) check(ee_write(&store, VARIABLES, used));
}

static void measure(void) {
    uint32_t value = 0, since = count();
    check(ee_write(&store, VARIABLES, 1));
    note(since);
    since = count();
    check(ee_read(&store, 1, &value));
    note(since);
    since = count();
    check(ee_open(&store, &flash));
    note(since);
    since = count();
    check(ee_write(&store, VARIABLES, 2));
    note(since);
}

void reset(void) {
    ee_numbers numbers;
    line_end = line;
    start_timer();
    check(ee_format(&store, &flash));
    fill();
    measure();
    check(ee_counts(&store, &numbers));
    *line_end++ = '\n';
    *line_end = 0;
    ask(SYS_WRITE0, (uintptr_t)line);
    end(numbers.generation == 2 && numbers.live == VARIABLES && numbers.fill == VARIABLES);
}
