/* SPDX-License-Identifier: MIT OR Apache-2.0 */
/* A flash in memory, for tests on a computer: it keeps the rules that the store is proved on, and its power can be cut in
 * any step, in each of the ways that a script of `ee run` knows (docs/FORMATS.md, the line `x N T`). C99, and no more. It asks
 * for ee.h, in the same folder or by -I.
 *
 *     sim part;
 *     sim_new(&part, 1, 16);              two sets of one page of 16 words, all erased; sim_new_pairs: of pairs of numbers;
 *                                         sim_new_clearing: of pairs whose erase clears cells first
 *     ee_flash flash = sim_flash(&part);
 *     sim_cut(&part, 3, SIM_TORN);        the third further step is cut, and leaves torn words
 *     ..                                  calls; the one that is cut answers EE_DRIVER
 *     sim_power(&part);                   power comes back: now open the store again
 *
 * A caller that breaks a rule of ee.h, as by programming a word twice, ends the program with a line that says so. */
#ifndef SIM_H
#define SIM_H

#include <stdint.h>
#include <stdio.h>

#include "ee.h"

#ifdef __cplusplus
extern "C" {
#endif

/* The largest part: pages of a set, words of a page. A program may name other numbers, for all of its files. */
#ifndef SIM_MOST_PAGES
#define SIM_MOST_PAGES 8
#endif
#ifndef SIM_MOST_WORDS
#define SIM_MOST_WORDS 512
#endif

/* What the step leaves in which power is cut, by the letter of a script. Of pairs, cells go one way: a number that is programmed
 * keeps every bit of the one asked for, and one that is erased every bit that it had. Where an erase clears first, torn pairs
 * have any bits. Which bits those are is picked. */
typedef enum sim_tear {
    SIM_NOTHING = 'n', /* what was there */
    SIM_DONE = 'd',    /* the whole step */
    SIM_TORN = 't',    /* words that can't be read; a pair that an erase finds erased stays so, unless it clears first */
    SIM_MIXED = 'm'    /* of an erased page the words 0, 3, 6 .. as they were, 1, 4, 7 .. erased and 2, 5, 8 .. torn; else torn */
} sim_tear;

/* A part. A test may look at all of it, and change words, torn and seed. */
typedef struct sim {
    uint32_t pages, page_words; /* of a set; of a page */
    uint32_t pairs;             /* 1: a word is two numbers, those at 2 * place and behind it */
    uint32_t clears_first;      /* 1: an erase clears the cells of its page before it sets them */
    uint64_t words[2 * SIM_MOST_PAGES][2 * SIM_MOST_WORDS]; /* or numbers; all ones: erased, if it isn't torn */
    unsigned char torn[2 * SIM_MOST_PAGES][SIM_MOST_WORDS]; /* 1: it can't be read; of pairs none is */
    uint64_t wear[2 * SIM_MOST_PAGES];                      /* how often each page was erased, cut or not */
    unsigned long read, programmed, erased;                 /* words or numbers read and programmed, and pages erased so far */
    unsigned long cuts;                                     /* how often power was cut */
    int is_on;
    uint32_t cut_in; /* the further step that is cut, 0 for none */
    sim_tear tear;
    uint64_t seed; /* of the bits that are picked */
} sim;

/* A new part: all erased, with no wear, and on. */
void sim_new(sim *part, uint32_t pages, uint32_t page_words);

/* The same without error correction: it has numbers, and its `ee_flash` is of EE_PAIRS. */
void sim_new_pairs(sim *part, uint32_t pages, uint32_t page_words);

/* The same where an erase clears the cells of its page first, as many serial flashes do: EE_PAIRS_CLEARING. */
void sim_new_clearing(sim *part, uint32_t pages, uint32_t page_words);

/* What the store reaches the part by. */
ee_flash sim_flash(sim *part);

/* Cuts power in a further step, the next is 1, in place of a cut that was to come; 0: in none. A step is a word or a number
 * programmed, or a page erased. */
void sim_cut(sim *part, uint32_t step, sim_tear leaves);

/* Power comes back. A cut that was to come, and didn't, still is. */
void sim_power(sim *part);

/* Writes what stands where, as an image that `ee inspect` and the other commands take: a line for each page, with its wear
 * and its words; - is an erased one, and ? a torn one, also two numbers that don't fit each other. */
void sim_write(const sim *part, FILE *file);

/* Makes a part of such a text, on and with no cut to come. 0 where it is none, or of a larger part. */
int sim_read(sim *part, FILE *file);

/* The same of pairs. What a torn word has of bits is picked. */
int sim_read_pairs(sim *part, FILE *file);

#ifdef __cplusplus
}
#endif

#endif
