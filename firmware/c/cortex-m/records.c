/* Prints how many ticks of the core's timer two calls on a record of 24 bytes take: a read, and a write of other bytes. The
 * flash is in memory: two sets of one page of 256 words. The record was written first, then 30 variables, and one of them until
 * as many slots are left as the write takes, so that each look goes through 240 slots and more. With MAPPED words are looked at
 * where they stand. With QEMU's -icount a tick is so many instructions. */
#include "../ee_records.h"
#include "core.h"

#ifndef MAPPED
#define MAPPED 0
#endif

enum { PAGE_WORDS = 256, VARIABLES = 30, SLOTS = PAGE_WORDS - 4, BYTES = 24, CHANGED = BYTES / 4 + 2 };

static uint64_t words[2 * PAGE_WORDS];
static ee_store store;
static char line[64], *line_end;
static const ee_record record = {.base = 100, .words = BYTES / 4};

static uint32_t word(void *context, uint32_t page, uint32_t place, uint64_t *value) {
    (void)context;
    *value = words[page * PAGE_WORDS + place];
    return 0;
}

#if MAPPED
static const uint64_t *several(void *context, uint32_t page, uint32_t place, uint32_t count) {
    (void)context;
    (void)count;
    return words + page * PAGE_WORDS + place;
}
#endif

static uint32_t program(void *context, uint32_t page, uint32_t place, uint64_t value) {
    (void)context;
    words[page * PAGE_WORDS + place] = value;
    return 0;
}

static uint32_t erase(void *context, uint32_t page) {
    (void)context;
    for (uint32_t i = 0; i < PAGE_WORDS; i++) words[page * PAGE_WORDS + i] = UINT64_MAX;
    return 0;
}

static const ee_flash flash = {
#if MAPPED
    .words = several,
#endif
    .pages = 1, .page_words = PAGE_WORDS, .word = word, .program = program, .erase = erase, .kind = EE_WORDS};

static void check(int holds) {
    if (!holds) end(0);
}

/* Notes the ticks since the timer had this count. */
static void note(uint32_t since) {
    uint32_t ticks = (since - count()) & 0xffffff;
    line_end = put_decimal(line_end, ticks);
    *line_end++ = ' ';
}

static void measure(uint8_t *bytes) {
    uint8_t read[BYTES];
    uint32_t length = 0, since = count();
    check(ee_read_bytes(&store, record, read, sizeof read, &length) == EE_OK);
    note(since);
    check(length == BYTES);
    for (uint32_t i = 0; i < BYTES; i++) check(read[i] == bytes[i]);
    for (uint32_t i = 0; i < BYTES; i++) bytes[i] ^= 0xff;
    since = count();
    check(ee_write_bytes(&store, record, bytes, BYTES) == EE_OK);
    note(since);
}

void reset(void) {
    uint8_t bytes[BYTES];
    ee_numbers numbers;
    line_end = line;
    start_timer();
    for (uint32_t i = 0; i < BYTES; i++) bytes[i] = (uint8_t)(i + 1);
    check(ee_format(&store, &flash) == EE_OK && ee_write_bytes(&store, record, bytes, BYTES) == EE_OK);
    for (uint16_t address = 1; address <= VARIABLES; address++) check(ee_write(&store, address, address) == EE_OK);
    for (uint32_t used = CHANGED + VARIABLES; used < SLOTS - CHANGED; used++) check(ee_write(&store, VARIABLES, used) == EE_OK);
    measure(bytes);
    check(ee_counts(&store, &numbers) == EE_OK);
    *line_end++ = '\n';
    *line_end = 0;
    ask(SYS_WRITE0, (uintptr_t)line);
    end(numbers.generation == 1 && numbers.fill == SLOTS);
}
