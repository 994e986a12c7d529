/* SPDX-License-Identifier: MIT OR Apache-2.0 */
/* Records over the calls of ee.h, by hand: each function as in the proved crate ee_records. */
#include "ee_records.h"

#include <stddef.h>

/* The head has the length in its low 16 bits and the turns of the words, by their numbers modulo 16, in its high ones. Word 0
 * is the check, those behind it the bytes. */
enum { CHECK_WORD = 0, FIRST_OF_BYTES = 1 };

static bool is_record(ee_record record) {
    const uint32_t base = record.base, words = record.words;
    return base != 0 && words < 16384 && base + 2 * words < 65533;
}

static ee_result read_head(const ee_store *store, ee_record record, uint32_t *head) {
    return is_record(record) ? ee_read(store, record.base, head) : (ee_result)EE_WRONG_NUMBER;
}

static uint32_t length_in(uint32_t head) { return head & 0xffff; }

/* How many words a record of so many bytes has. */
static uint32_t words_with(uint32_t length) { return (4 * FIRST_OF_BYTES + length + 3) / 4; }

/* The turn of a word, 0 or 1, by the bits of a head. */
static uint32_t turn_in(uint32_t turns, uint32_t word) { return turns >> (16 + word % 16) & 1; }

/* The address of a word by these turns. */
static uint16_t place(ee_record record, uint32_t word, uint32_t turns) {
    return (uint16_t)(record.base + 1 + 2 * word + turn_in(turns, word));
}

/* A word of a record that is to have this check and these bytes: four of them, the lowest first, with zeros behind the last. */
static uint32_t record_word(const uint8_t *bytes, uint32_t length, uint32_t check, uint32_t word) {
    if (word == CHECK_WORD) return check;
    uint32_t value = 0;
    for (uint32_t end = 4 * word; end-- > 4 * (word - FIRST_OF_BYTES);) value = value << 8 | (end < length ? bytes[end] : 0u);
    return value;
}

/* A remainder of CRC-32, IEEE 802.3, a word further: four bits at a time. */
static uint32_t word_further(uint32_t rest, uint32_t word) {
    static const uint32_t further[16] = {
        0x00000000, 0x1db71064, 0x3b6e20c8, 0x26d930ac, 0x76dc4190, 0x6b6b51f4, 0x4db26158, 0x5005713c,
        0xedb88320, 0xf00f9344, 0xd6d6a3e8, 0xcb61b38c, 0x9b64c2b0, 0x86d3d2d4, 0xa00ae278, 0xbdbdf21c};
    rest ^= word;
    for (uint32_t step = 0; step < 8; step++) rest = rest >> 4 ^ further[rest & 15];
    return rest;
}

static uint32_t check_of(const uint8_t *bytes, uint32_t length) {
    uint32_t rest = word_further(UINT32_MAX, length);
    for (uint32_t word = FIRST_OF_BYTES; word < words_with(length); word++) {
        rest = word_further(rest, record_word(bytes, length, 0, word));
    }
    return ~rest;
}

/* What reads a record: by the last look where that found an address, else by one for all from this address on. */
typedef struct reader {
    const ee_store *store;
    uint32_t at_once;
    ee_span near;
} reader;

static ee_result value_near(reader *it, uint32_t address, uint32_t *value) {
    uint32_t at = (uint16_t)(address - it->near.first);
    if (at >= it->near.count) {
        const ee_result status = ee_read_span(it->store, (uint16_t)address, it->at_once, &it->near);
        if (status != EE_OK) return status;
        at = 0;
    }
    const uint64_t number = it->near.numbers[at];
    *value = (uint32_t)(number >> 32);
    return (uint32_t)number == address ? (ee_result)EE_OK : (ee_result)EE_NOTHING;
}

ee_result ee_read_bytes(const ee_store *store, ee_record record, void *bytes, uint32_t size, uint32_t *length) {
    uint8_t *const space = bytes;
    uint32_t head = 0, check = 0;
    reader it; /* of `near` no more is set than value_near looks at */
    it.store = store;
    it.at_once = EE_RECORD_ADDRESSES(record.words); /* no look goes on for addresses behind the record's */
    it.near.first = 0;
    it.near.count = 0;
    if (space == NULL || length == NULL) return EE_NULL;
    if (!is_record(record)) return EE_WRONG_NUMBER;
    ee_result status = value_near(&it, record.base, &head);
    if (status != EE_OK) return status;
    const uint32_t count = length_in(head);
    if (count > 4u * record.words) return EE_HURT;
    if (count > size) {
        *length = count;
        return EE_TOO_LONG;
    }
    for (uint32_t word = 0; word < words_with(count) && status == EE_OK; word++) {
        uint32_t value = 0;
        status = value_near(&it, place(record, word, head), &value);
        if (word == CHECK_WORD) {
            check = value;
            continue;
        }
        uint32_t at = 4 * (word - FIRST_OF_BYTES);
        for (const uint32_t end = at + 4; at < end && at < count; at++, value >>= 8) space[at] = (uint8_t)value;
    }
    if (status == EE_NOTHING || (status == EE_OK && check != check_of(space, count))) return EE_HURT;
    if (status == EE_OK) *length = count;
    return status;
}

ee_result ee_write_bytes(ee_store *store, ee_record record, const void *bytes, uint32_t length) {
    const uint32_t all = UINT32_C(0xffff0000);
    uint32_t head = all;
    if (bytes == NULL) return EE_NULL;
    const ee_result found = read_head(store, record, &head);
    if (found > EE_NOTHING) return found;
    if (length > 4u * record.words) return EE_TOO_LONG;
    const uint32_t check = check_of(bytes, length);
    /* Which words turn: where there is no head all, else those that change. Then they are written. */
    bool writes = found == EE_NOTHING;
    for (uint32_t turned = writes ? all : 0;; writes = true) {
        for (uint32_t word = 0; word < words_with(length); word++) {
            const uint16_t address = place(record, word, writes ? ~head : head);
            const uint32_t value = record_word(bytes, length, check, word), turn = UINT32_C(0x10000) << word % 16;
            uint32_t old = ~value;
            ee_result status = EE_OK;
            if (!writes) status = ee_read(store, address, &old);
            else if (turned & turn) status = ee_update(store, address, value);
            if (status > EE_NOTHING) return status;
            if (!writes && old != value) turned |= turn;
        }
        if (writes) return ee_update(store, record.base, ((head ^ turned) & all) | length);
        if (turned == 0 && length_in(head) == length) return EE_OK;
    }
}

ee_result ee_forget_bytes(ee_store *store, ee_record record) {
    return is_record(record) ? ee_forget(store, record.base) : (ee_result)EE_WRONG_NUMBER;
}

ee_result ee_trim_bytes(ee_store *store, ee_record record) {
    uint32_t head = 0, needed = 0;
    ee_result status = read_head(store, record, &head);
    if (status == EE_OK) needed = words_with(length_in(head));
    for (uint32_t at = 0; status <= EE_NOTHING && at < 2u * record.words + 2u; at++) {
        const uint32_t word = at / 2, address = record.base + 1u + at;
        if (word < needed && turn_in(head, word) == at % 2) continue;
        status = ee_forget(store, (uint16_t)address);
        if (status == EE_ABSENT) status = EE_OK;
    }
    return status == EE_NOTHING ? (ee_result)EE_OK : status;
}
