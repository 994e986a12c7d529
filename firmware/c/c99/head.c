/* SPDX-License-Identifier: MIT OR Apache-2.0 */
/* ee: variables in flash, the library of ee.h as one file of C99.
 *
 * Made by firmware/c/to_c of firmware/rust/ee-store, which is made of proved sources, and of parts
 * that are written by hand: the device over the three functions of an `ee_flash`, and the calls
 * of ee.h. Change none of it here. */
#include "ee.h"

#include <stdbool.h>
#include <stddef.h>
#include <stdint.h>

/* By hand. A function that stands in the places where it is called, at every level of optimisation,
 * and one that stands in none of them, so that its stack is not theirs; one that changes nothing, so
 * that a loop asks it once. C99 has no words for it. An
 * interrupt sees what stands before EE_IN_ORDER, and nothing of what stands behind it. */
#if defined(__GNUC__)
#define EE_IN_PLACE static inline __attribute__((always_inline))
#define EE_APART static __attribute__((noinline))
#define EE_PURE static __attribute__((noinline, pure))
#define EE_IN_ORDER() __asm__ volatile("" : : : "memory")
#else
#define EE_IN_PLACE static inline
#define EE_APART static
#define EE_PURE static
#define EE_IN_ORDER() ((void)0)
#endif

/* By hand. Functions that only calls use which are left out have no use. */
#if defined(__GNUC__) && (defined(EE_NO_PAIRS) || defined(EE_NO_CODED) || defined(EE_NO_LISTS) || \
        defined(EE_NO_FORGET) || defined(EE_NO_RESCUE))
#pragma GCC diagnostic ignored "-Wunused-function"
#endif

/* By hand. Whether a flash has numbers, two for each word, and whether it has coded words. */
#ifdef EE_NO_PAIRS
#define EE_IS_OF_PAIRS(flash) ((void)(flash), false)
#elif defined(EE_NO_CODED)
#define EE_IS_OF_PAIRS(flash) ((flash)->kind != EE_WORDS)
#else
#define EE_IS_OF_PAIRS(flash) ((flash)->kind == EE_PAIRS || (flash)->kind == EE_PAIRS_CLEARING)
#endif
#ifdef EE_NO_CODED
#define EE_IS_CODED(flash) ((void)(flash), false)
#else
#define EE_IS_CODED(flash) ((flash)->kind == EE_CODED)
#endif
