/* Starts a core, runs the checksum, and prints it with the bytes of stack that the deepest call took. */
#include "../checksum/checksum.h"
#include "core.h"

enum { UNTOUCHED = 0xa5, LEFT_ALONE = 128 };

/* What link.ld names. */
extern unsigned char bss_start[], bss_end[], stack_low[];

static char *put_hex(char *at, uint64_t number) {
    for (int shift = 60; shift >= 0; shift -= 4) *at++ = "0123456789abcdef"[(number >> shift) & 15];
    return at;
}

static void print(uint64_t sum, uint32_t depth) {
    char line[32], *at = put_hex(line, sum);
    *at++ = ' ';
    at = put_decimal(at, depth);
    *at++ = '\n';
    *at = 0;
    ask(SYS_WRITE0, (uintptr_t)line);
}

/* Marks the stack below this frame, but for a few bytes, so that it shows what is touched. */
static void mark_stack(void) {
    uintptr_t end = (uintptr_t)__builtin_frame_address(0) - LEFT_ALONE;
    for (volatile unsigned char *at = stack_low; (uintptr_t)at < end; at++) *at = UNTOUCHED;
}

void reset(void) {
    for (unsigned char *at = bss_start; at != bss_end; at++) *at = 0;
    mark_stack();
    uint64_t sum = checksum();
    const unsigned char *low = stack_low;
    while (*low == UNTOUCHED) low++;
    print(sum, (uint32_t)((uintptr_t)checksum_frame - (uintptr_t)low));
    end(sum != 0 && low > stack_low);
}
