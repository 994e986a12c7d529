/* SPDX-License-Identifier: MIT OR Apache-2.0 */
/* Records: bytes of any length in a store of ee.h, each record kept as a whole, with a check. By hand over the calls of ee.h,
 * step by step as the proved crate ee_records does it; docs/FORMATS.md has the layout.
 *
 * A record is written whole or not at all, wherever power is cut, and what is read is what was written: where a word of it went
 * bad, the read says so. It takes 3 + 2 * words addresses: `base`, and those behind it.
 *
 * A write takes a slot for each word of four bytes that changes, one for the check and one for the head. Of more than 60 bytes
 * a word takes one too where another changes that is a multiple of sixteen words away. Where nothing changes it takes none.
 *
 * Each call answers as the calls of ee.h that it makes, one after another; a pointer that is NULL is refused with EE_NULL, and
 * a record with base 0, more than 16383 words, or an address above 65534 with EE_WRONG_NUMBER, before the first of them. */
#ifndef EE_RECORDS_H
#define EE_RECORDS_H

#include "ee.h"

#ifdef __cplusplus
extern "C" {
#endif

/* Where a record stands: its first address, and room for so many words of four bytes. Later firmware may give it more room. */
typedef struct ee_record {
    uint16_t base;
    uint16_t words;
} ee_record;

/* How many addresses a record takes, and the most slots at a move; with ee_trim_bytes behind each write about half of them. */
#define EE_RECORD_ADDRESSES(words) (3u + 2u * (words))

/* Reads a record into `bytes`, which has room for `size` bytes. EE_OK, with its length; EE_NOTHING where there is none;
 * EE_TOO_LONG, with its length, where that is above `size`; EE_HURT; EE_DRIVER. `length` is written with EE_OK and EE_TOO_LONG
 * alone, and `bytes` holds anything where it isn't EE_OK. */
ee_result ee_read_bytes(const ee_store *store, ee_record record, void *bytes, uint32_t size, uint32_t *length);

/* Writes a record: after this call, and after a cut in it too, it has these bytes or is as it was. EE_OK; EE_TOO_LONG, EE_FULL,
 * EE_SPENT: the record and all else read as before; EE_DRIVER. */
ee_result ee_write_bytes(ee_store *store, ee_record record, const void *bytes, uint32_t length);

/* Takes a record away, by one slot. EE_OK; EE_ABSENT, EE_SPENT, EE_DRIVER. Its words stay until ee_trim_bytes. */
ee_result ee_forget_bytes(ee_store *store, ee_record record);

/* Takes away the values that the record doesn't need, each by one slot: its words from before the last write, and of a record
 * that is forgotten all. Each takes a slot at every move while it is there. EE_OK; EE_SPENT, EE_DRIVER. */
ee_result ee_trim_bytes(ee_store *store, ee_record record);

#ifdef __cplusplus
}
#endif

#endif
