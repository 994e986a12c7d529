/* SPDX-License-Identifier: MIT OR Apache-2.0 */
#include "sim_ecc.h"

#include <inttypes.h>
#include <stdio.h>
#include <stdlib.h>
#include <string.h>

enum { NUMBER_CELLS = 64, CELLS = 72, CERTAIN = 1024 };

/* Ends the program where a caller broke a rule. */
static void owed(int is_kept, const char *rule, uint32_t page, uint32_t place) {
    if (is_kept) return;
    fprintf(stderr, "sim_ecc: page %" PRIu32 ", word %" PRIu32 ": %s\n", page, place, rule);
    exit(2);
}

/* 64 bits that look random. */
static uint64_t picked(sim_ecc *part) {
    uint64_t row = part->seed += UINT64_C(0x9e3779b97f4a7c15);
    row = (row ^ row >> 30) * UINT64_C(0xbf58476d1ce4e5b9);
    row = (row ^ row >> 27) * UINT64_C(0x94d049bb133111eb);
    return row ^ row >> 31;
}

/* Whether a byte can be a column of a number's bit: it has an odd number of ones, and more than one, which is of a check's bit. */
static int is_column(unsigned byte) {
    unsigned ones = 0;
    for (unsigned rest = byte; rest; rest >>= 1) ones += rest & 1;
    return ones % 2 == 1 && ones > 1;
}

/* Picks 64 different columns. So one wrong cell leaves a column or a single bit, and two leave an even number of ones, which is
 * neither. */
static void pick_columns(sim_ecc *part) {
    uint8_t columns[256] = {0};
    unsigned count = 0;
    for (unsigned byte = 0; byte < 256; byte++)
        if (is_column(byte)) columns[count++] = (uint8_t)byte;
    for (unsigned bit = 0; bit < NUMBER_CELLS; bit++) {
        unsigned from = bit + (unsigned)(picked(part) % (count - bit));
        part->columns[bit] = columns[from];
        columns[from] = columns[bit];
    }
}

/* The check of a number; of all ones it is all ones, as an erased word has it. */
static uint8_t check_of(const sim_ecc *part, uint64_t number) {
    const uint8_t *column = part->columns;
    unsigned check = 0xff;
    for (uint64_t zeros = ~number; zeros; zeros >>= 1, column++)
        if (zeros & 1) check ^= *column;
    return (uint8_t)check;
}

/* Reads a word: 0 with its number, perhaps corrected, or EE_TORN where the code tells an error. */
static uint32_t read_cells(const sim_ecc *part, sim_ecc_word cells, uint64_t *value) {
    unsigned wrong = cells.check ^ check_of(part, cells.number);
    *value = cells.number;
    if (wrong == 0) return 0;
    if (wrong & (wrong - 1)) {
        const uint8_t *column = memchr(part->columns, (int)wrong, NUMBER_CELLS);
        if (!column) return EE_TORN;
        *value ^= (uint64_t)1 << (column - part->columns);
    }
    return *value == UINT64_MAX ? EE_TORN : 0;
}

/* Ones where a step that is cut still reaches the cell. */
static sim_ecc_word reached(sim_ecc *part, uint64_t chance) {
    static const int together[] = {1, 16, CELLS};
    sim_ecc_word cells = {0, 0};
    int is_reached = 0;
    for (int cell = 0; cell < CELLS; cell++) {
        if (cell % together[part->tear] == 0) is_reached = picked(part) % CERTAIN < chance;
        if (!is_reached) continue;
        if (cell < NUMBER_CELLS) cells.number |= (uint64_t)1 << cell;
        else cells.check |= (uint8_t)(1 << (cell - NUMBER_CELLS));
    }
    return cells;
}

/* How surely the step that begins reaches a cell: CERTAIN, or less where power is cut in it. */
static uint64_t chance_of_step(sim_ecc *part) {
    if (part->cut_in == 0 || --part->cut_in > 0) return CERTAIN;
    part->is_on = 0;
    part->cuts++;
    return picked(part) % (CERTAIN + 1);
}

static int is_place(const sim_ecc *part, uint32_t page, uint32_t place) {
    return page < 2 * part->pages && place < part->page_words;
}

static uint32_t word(void *context, uint32_t page, uint32_t place, uint64_t *value) {
    const sim_ecc *part = context;
    owed(is_place(part, page, place), "no such word is there to be read", page, place);
    return read_cells(part, part->words[page][place], value);
}

static uint32_t program(void *context, uint32_t page, uint32_t place, uint64_t value) {
    sim_ecc *part = context;
    owed(is_place(part, page, place), "no such word is there to be programmed", page, place);
    owed(value != UINT64_MAX, "it is programmed as an erased one reads", page, place);
    if (!part->is_on) return 1;
    sim_ecc_word *at = &part->words[page][place];
    owed(at->number == UINT64_MAX && at->check == 0xff, "it is programmed and was not erased", page, place);
    sim_ecc_word cells = reached(part, chance_of_step(part));
    at->number &= value | ~cells.number;
    at->check &= (uint8_t)(check_of(part, value) | ~cells.check);
    return !part->is_on;
}

static uint32_t erase(void *context, uint32_t page) {
    sim_ecc *part = context;
    owed(is_place(part, page, 0), "no such page is there to be erased", page, 0);
    if (!part->is_on) return 1;
    uint64_t chance = chance_of_step(part);
    for (uint32_t place = 0; place < part->page_words; place++) {
        sim_ecc_word cells = reached(part, chance);
        part->words[page][place].number |= cells.number;
        part->words[page][place].check |= cells.check;
    }
    return !part->is_on;
}

void sim_ecc_new(sim_ecc *part, uint32_t pages, uint32_t page_words, uint64_t seed) {
    owed(pages >= 1 && pages <= SIM_ECC_MOST_PAGES, "so many pages a set can't have", pages, 0);
    owed(page_words >= 5 && page_words <= SIM_ECC_MOST_WORDS, "so many words a page can't have", 0, page_words);
    memset(part, 0, sizeof *part);
    for (uint32_t page = 0; page < 2 * pages; page++)
        for (uint32_t place = 0; place < page_words; place++) part->words[page][place] = (sim_ecc_word){UINT64_MAX, 0xff};
    part->pages = pages;
    part->page_words = page_words;
    part->is_on = 1;
    part->seed = seed;
    pick_columns(part);
}

ee_flash sim_ecc_flash(sim_ecc *part) {
    ee_flash flash = {
        .context = part,
        .pages = part->pages,
        .page_words = part->page_words,
        .word = word,
        .program = program,
        .erase = erase,
        .kind = EE_WORDS,
    };
    return flash;
}

void sim_ecc_cut(sim_ecc *part, uint32_t step, sim_ecc_tear leaves) {
    part->cut_in = step;
    part->tear = leaves;
}
