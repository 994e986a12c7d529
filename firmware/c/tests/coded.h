/* Coded words, written by docs/FORMATS.md alone, for the tests. */
#ifndef CODED_H
#define CODED_H

#include <stdint.h>

/* The coded word of a value, and of kind and address, which are 17 bits. */
static uint64_t coded_of(uint32_t value, uint32_t low) {
    static const uint8_t rows[] = {0x7f, 0x7b, 0x5b, 0x4f, 0x6d, 0x75, 0x37, 0x3e, 0x1e, 0x5c, 0x78, 0x39, 0x2b, 0x63, 0x66,
                                   0x46, 0x4a, 0x49, 0x0d, 0x2c, 0x34, 0x32, 0x13, 0x03, 0x21, 0x60, 0x50, 0x18, 0x08};
    uint32_t t = value ^ low << 12 ^ value << 1;
    t ^= t << 11, t ^= t >> 9, t ^= t >> 7, t ^= t << 12;
    uint64_t word = (uint64_t)value << 32 | (t >> 21 & 127) << 17 | low;
    unsigned ones = 0;
    for (uint64_t rest = word; rest; rest >>= 1) ones += rest & 1;
    return word | (uint64_t)rows[(ones + 1) / 2] << 25 | (uint64_t)(ones % 2) << 24;
}

/* That of a number of a store of this shape. */
static inline uint64_t coded_number(uint64_t number, uint32_t pages, uint32_t page_words) {
    uint32_t value = (uint32_t)(number >> 32), low = (uint32_t)number;
    if (low < 0x20000 && (low & 0xffff) != 0) return coded_of(value, low);
    return number == UINT64_C(0xaaaaaaaaaaaaaaaa) ? coded_of(pages << 16 | page_words, 0x10000) : coded_of(low, 0);
}

#endif
