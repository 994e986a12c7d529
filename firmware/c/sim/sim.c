/* SPDX-License-Identifier: MIT OR Apache-2.0 */
#include "sim.h"

#include <inttypes.h>
#include <stdlib.h>
#include <string.h>

/* Ends the program where a caller broke a rule. */
static void owed(int is_kept, const char *rule, uint32_t page, uint32_t place) {
    if (is_kept) return;
    fprintf(stderr, "sim: page %" PRIu32 ", word %" PRIu32 ": %s\n", page, place, rule);
    exit(2);
}

/* The words of a page, or its numbers. */
static uint32_t places(const sim *part) { return part->page_words << part->pairs; }

static int is_place(const sim *part, uint32_t page, uint32_t place) { return page < 2 * part->pages && place < places(part); }

static int is_torn(const sim *part, uint32_t page, uint32_t place) { return !part->pairs && part->torn[page][place]; }

/* Bits that look random: half of them, few, many, or one. */
static uint64_t picked(sim *part) {
    uint64_t rows[2];
    for (int i = 0; i < 2; i++) {
        uint64_t row = part->seed += UINT64_C(0x9e3779b97f4a7c15);
        row = (row ^ row >> 30) * UINT64_C(0xbf58476d1ce4e5b9);
        row = (row ^ row >> 27) * UINT64_C(0x94d049bb133111eb);
        rows[i] = row ^ row >> 31;
    }
    switch (rows[0] & 3) {
    case 0: return rows[1];
    case 1: return rows[0] & rows[1];
    case 2: return rows[0] | rows[1];
    default: return (uint64_t)1 << (rows[1] & 63);
    }
}

/* The lowest bit that a number lacks. */
static uint64_t lowest_zero(uint64_t number) { return ~number & (number + 1); }

static int is_erased_pair(const uint64_t *pair) { return pair[0] == UINT64_MAX && pair[1] == UINT64_MAX; }

static int is_value(const uint64_t *pair) { return pair[0] != UINT64_MAX && pair[1] == ~pair[0]; }

/* What a cut leaves of a number that is programmed: every bit of the one asked for, and others. The first of a pair has lost a
 * bit, and the second keeps one that it is to lose, so that the word is torn. */
static uint64_t half_programmed(sim *part, uint32_t place, uint64_t asked) {
    uint64_t others = ~asked & picked(part);
    if (place % 2 == 0 && others == ~asked) others &= others - 1;
    if (place % 2 == 1 && others == 0) others = lowest_zero(asked);
    return asked | others;
}

/* What a cut leaves of a pair that is erased: each number has every bit that it had, and others, so that the word is torn if it
 * wasn't erased. */
static void erase_half(sim *part, uint64_t *pair) {
    uint64_t first = pair[0], second = pair[1];
    if (is_erased_pair(pair)) return;
    pair[0] |= picked(part);
    pair[1] |= picked(part);
    if (is_value(pair)) pair[0] |= lowest_zero(pair[0]);
    if (!is_erased_pair(pair)) return;
    if (first != UINT64_MAX) pair[0] &= ~lowest_zero(first);
    else pair[1] &= ~lowest_zero(second);
}

/* What a cut leaves of a pair whose cells an erase clears first: some cleared, or all and some set again. No value is made. */
static void clear_half(sim *part, uint64_t *pair, int sets) {
    for (int i = 0; i < 2; i++) pair[i] = sets ? picked(part) : pair[i] & picked(part);
    if (is_value(pair) || is_erased_pair(pair)) pair[0] = pair[1] = 0;
}

/* Whether power is cut in the step that begins. */
static int is_cut(sim *part) {
    if (part->cut_in == 0 || --part->cut_in > 0) return 0;
    part->is_on = 0;
    part->cuts++;
    return 1;
}

static uint32_t word(void *context, uint32_t page, uint32_t place, uint64_t *value) {
    sim *part = context;
    owed(is_place(part, page, place), "no such word is there to be read", page, place);
    part->read++;
    *value = part->words[page][place];
    return is_torn(part, page, place) ? EE_TORN : 0;
}

static uint32_t program(void *context, uint32_t page, uint32_t place, uint64_t value) {
    sim *part = context;
    owed(is_place(part, page, place), "no such word is there to be programmed", page, place);
    owed(value != UINT64_MAX, "it is programmed as an erased one reads", page, place);
    if (!part->is_on) return 1;
    uint64_t *at = &part->words[page][place];
    owed(*at == UINT64_MAX && !is_torn(part, page, place), "it is programmed and was not erased", page, place);
    part->programmed++;
    int cut = is_cut(part);
    if (!cut || part->tear == SIM_DONE) *at = value;
    else if (part->tear != SIM_NOTHING && part->pairs) *at = half_programmed(part, place, value);
    else if (part->tear != SIM_NOTHING) part->torn[page][place] = 1;
    return (uint32_t)cut;
}

/* What a cut leaves of a word of a page that is erased. */
static sim_tear tear_of(const sim *part, uint32_t place) {
    static const sim_tear mixed[3] = {SIM_NOTHING, SIM_DONE, SIM_TORN};
    return part->tear == SIM_MIXED ? mixed[place % 3] : part->tear;
}

/* Leaves a word of a page that is erased so; a torn one where cells are set, or still cleared. */
static void leave(sim *part, uint32_t page, uint32_t place, sim_tear left, int sets) {
    uint64_t *at = &part->words[page][place << part->pairs];
    if (left == SIM_DONE) memset(at, 0xff, sizeof *at << part->pairs);
    if (left == SIM_TORN && part->clears_first) clear_half(part, at, sets);
    else if (left == SIM_TORN && part->pairs) erase_half(part, at);
    else if (left != SIM_NOTHING) part->torn[page][place] = left == SIM_TORN;
}

static uint32_t erase(void *context, uint32_t page) {
    sim *part = context;
    owed(is_place(part, page, 0), "no such page is there to be erased", page, 0);
    if (!part->is_on) return 1;
    part->erased++;
    if (part->wear[page] < UINT64_MAX) part->wear[page]++;
    int cut = is_cut(part);
    int sets = part->clears_first && (picked(part) & 1);
    for (uint32_t place = 0; place < part->page_words; place++)
        leave(part, page, place, cut ? tear_of(part, place) : SIM_DONE, sets);
    return (uint32_t)cut;
}

static void new_part(sim *part, uint32_t pages, uint32_t page_words, uint32_t pairs) {
    owed(pages >= 1 && pages <= SIM_MOST_PAGES, "SIM_MOST_PAGES is less than the pages of a set", pages, 0);
    owed(page_words >= 5, "a page has 5 words at least", 0, page_words);
    owed(page_words <= SIM_MOST_WORDS, "SIM_MOST_WORDS is less than the words of a page", 0, page_words);
    memset(part, 0, sizeof *part);
    memset(part->words, 0xff, sizeof part->words);
    part->pages = pages;
    part->page_words = page_words;
    part->pairs = pairs;
    part->is_on = 1;
    part->tear = SIM_NOTHING;
}

void sim_new(sim *part, uint32_t pages, uint32_t page_words) { new_part(part, pages, page_words, 0); }

void sim_new_pairs(sim *part, uint32_t pages, uint32_t page_words) { new_part(part, pages, page_words, 1); }

ee_flash sim_flash(sim *part) {
    ee_flash flash = {
        .context = part,
        .pages = part->pages,
        .page_words = part->page_words,
        .word = word,
        .program = program,
        .erase = erase,
        .kind = part->clears_first ? EE_PAIRS_CLEARING : part->pairs ? EE_PAIRS : EE_WORDS,
    };
    return flash;
}

void sim_new_clearing(sim *part, uint32_t pages, uint32_t page_words) {
    sim_new_pairs(part, pages, page_words);
    part->clears_first = 1;
}

void sim_cut(sim *part, uint32_t step, sim_tear leaves) {
    part->cut_in = step;
    part->tear = leaves;
}

void sim_power(sim *part) { part->is_on = 1; }

static void write_word(const sim *part, uint32_t page, uint32_t place, FILE *file) {
    const uint64_t *at = &part->words[page][place << part->pairs];
    int erased = part->pairs ? is_erased_pair(at) : *at == UINT64_MAX;
    if (part->pairs ? !erased && !is_value(at) : part->torn[page][place]) fputs(" ?", file);
    else if (erased) fputs(" -", file);
    else fprintf(file, " %016" PRIx64, *at);
}

void sim_write(const sim *part, FILE *file) {
    fprintf(file, "ee %" PRIu32 " %" PRIu32 "\n", part->pages, part->page_words);
    for (uint32_t page = 0; page < 2 * part->pages; page++) {
        fprintf(file, "%" PRIu64, part->wear[page]);
        for (uint32_t place = 0; place < part->page_words; place++) write_word(part, page, place, file);
        putc('\n', file);
    }
}

/* The number that a text is, in a base of at most 16. Whether it is of such digits alone, and no greater. */
static int read_digits(const char *text, unsigned base, uint64_t most, uint64_t *number) {
    static const char digits[] = "0123456789abcdef";
    *number = 0;
    for (const char *at = text; *at; at++) {
        const char *digit = memchr(digits, *at, base);
        if (!digit || *number > (most - (uint64_t)(digit - digits)) / base) return 0;
        *number = *number * base + (uint64_t)(digit - digits);
    }
    return 1;
}

/* Reads a number as an image has it, with no digit too many. Whether there is one, of this range. */
static int read_number(FILE *file, uint64_t least, uint64_t most, uint64_t *number) {
    char text[22];
    if (fscanf(file, "%21s", text) != 1 || (text[0] == '0' && text[1])) return 0;
    return read_digits(text, 10, most, number) && *number >= least;
}

/* Takes a word as its text says. Whether it is one. */
static int read_word(sim *part, uint32_t page, uint32_t place, const char *text) {
    uint64_t *at = &part->words[page][place << part->pairs];
    if (strcmp(text, "-") == 0) return 1;
    if (strcmp(text, "?") != 0) {
        if (strlen(text) != 16 || !read_digits(text, 16, UINT64_MAX - 1, at)) return 0;
        if (part->pairs) at[1] = ~at[0];
    } else if (part->pairs) {
        at[0] = picked(part) >> 1 | 1;
        at[1] = ~at[0] | picked(part) | 1;
    } else part->torn[page][place] = 1;
    return 1;
}

static int read_part(sim *part, FILE *file, uint32_t pairs) {
    char text[18];
    uint64_t pages, page_words;
    if (fscanf(file, "%3s", text) != 1 || strcmp(text, "ee") != 0) return 0;
    if (!read_number(file, 1, SIM_MOST_PAGES, &pages) || !read_number(file, 5, SIM_MOST_WORDS, &page_words)) return 0;
    new_part(part, (uint32_t)pages, (uint32_t)page_words, pairs);
    for (uint32_t page = 0; page < 2 * pages; page++) {
        if (!read_number(file, 0, UINT64_MAX, &part->wear[page])) return 0;
        for (uint32_t place = 0; place < page_words; place++) {
            if (fscanf(file, "%17s", text) != 1 || !read_word(part, page, place, text)) return 0;
        }
    }
    return fscanf(file, "%1s", text) != 1;
}

int sim_read(sim *part, FILE *file) { return read_part(part, file, 0); }

int sim_read_pairs(sim *part, FILE *file) { return read_part(part, file, 1); }
