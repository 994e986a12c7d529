/* SPDX-License-Identifier: MIT OR Apache-2.0 */
/* A flash of words with error correction in memory, down to its cells, for tests on a computer. A word has 64 cells of its number
 * and 8 of a check, by a code that corrects one wrong cell and tells two (SEC-DED, 72 bits of which 64 are data, columns of odd
 * weight). Of more wrong cells it tells some, and *corrects* the others into a number that nobody wrote. A cut program has set some
 * cells to zero, and a cut erase some to one; so it leaves any number of wrong ones. In sim.h such a word is always told.
 *
 * The check matrix is picked by a seed, since makers don't name theirs. Left out: cells that read otherwise from look to look or
 * fade, what a step does to other words, and how a part tells its errors (NMI, flags, caches). C99, and no more.
 *
 *     sim_ecc part;
 *     sim_ecc_new(&part, 1, 16, 7);       two sets of one page of 16 words, all erased, with the seventh matrix
 *     ee_flash flash = sim_ecc_flash(&part);
 *     sim_ecc_cut(&part, 3, SIM_ECC_CELLS);
 *     ..                                  calls; the one that is cut answers EE_DRIVER
 *     part.is_on = 1;                     power comes back: now open the store again
 *
 * A caller that breaks a rule of ee.h ends the program with a line that says so. */
#ifndef SIM_ECC_H
#define SIM_ECC_H

#include <stdint.h>

#include "ee.h"

#ifdef __cplusplus
extern "C" {
#endif

enum { SIM_ECC_MOST_PAGES = 4, SIM_ECC_MOST_WORDS = 256 };

/* Which cells a step that is cut still reaches, by a chance that is picked for that step: each by itself, each half word of 16
 * cells and the check by themselves, or each word as a whole. */
typedef enum sim_ecc_tear { SIM_ECC_CELLS, SIM_ECC_HALVES, SIM_ECC_WHOLE } sim_ecc_tear;

/* The cells of a word, all ones where it is erased. */
typedef struct sim_ecc_word {
    uint64_t number;
    uint8_t check;
} sim_ecc_word;

/* A part. A test may look at all of it, and change words and seed. */
typedef struct sim_ecc {
    uint32_t pages, page_words; /* of a set; of a page */
    uint8_t columns[64];        /* which bits of the check each bit of a number turns */
    sim_ecc_word words[2 * SIM_ECC_MOST_PAGES][SIM_ECC_MOST_WORDS];
    unsigned long cuts; /* how often power was cut */
    int is_on;
    uint32_t cut_in; /* the further step that is cut, 0 for none */
    sim_ecc_tear tear;
    uint64_t seed; /* of what is picked */
} sim_ecc;

/* A new part: all erased, and on. */
void sim_ecc_new(sim_ecc *part, uint32_t pages, uint32_t page_words, uint64_t seed);

/* What the store reaches the part by: words, EE_WORDS; a test may set `kind` to EE_CODED. Its driver says EE_TORN of an error that
 * the code tells, and of all ones that needed a correction. */
ee_flash sim_ecc_flash(sim_ecc *part);

/* Cuts power in a further step, the next is 1, in place of a cut that was to come; 0: in none. */
void sim_ecc_cut(sim_ecc *part, uint32_t step, sim_ecc_tear leaves);

#ifdef __cplusplus
}
#endif

#endif
