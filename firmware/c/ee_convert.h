/* SPDX-License-Identifier: MIT OR Apache-2.0 */
/* From a store of words to one of coded words, in the field: for a product whose firmware was of EE_WORDS and is updated to
 * one of EE_CODED, over the same pages in the same shape. It is made of the calls of ee.h, tested with power cut in each of
 * its steps (tests/convert.c), and not proved. */
#ifndef EE_CONVERT_H
#define EE_CONVERT_H

#include "ee.h"

#ifdef __cplusplus
extern "C" {
#endif

/* The call to make at each start in place of ee_start, on a flash of EE_CODED. Where that holds a store of coded words it is
 * opened. Where it holds one of words, its values are written as coded ones into the other set, which is erased first, and the
 * mark that commits that set is the last word: until it stands the store is one of words, and from then on a coded one, of
 * generation 1. Else it is what ee_start does. Then each page of the old set is erased, so none waits. No rescue is needed
 * behind a cut: call it again.
 *
 * It takes 220 bytes of stack beside those of ee_write. An older firmware can't open what it leaves.
 *
 * EE_OK; what ee_start answers, for the words too; EE_WRONG_SHAPE also for another kind. Where it is not EE_OK no value is lost.
 *
 * Left out: a mark that went bad behind this, before the old set was erased. Then the old values would be taken. And an erase
 * of old words that is cut may leave what reads as a coded one, by a chance of 2^-15 for each: no mark, since that of words has
 * ones which a coded one lacks, so in no set that is opened; a rescue might take it. */
ee_result ee_convert(ee_store *store, const ee_flash *flash);

#ifdef __cplusplus
}
#endif

#endif
