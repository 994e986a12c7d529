/* Runs the checksum on an AVR, and prints it with the bytes of stack that the deepest call took. */
#include <avr/interrupt.h>
#include <avr/io.h>
#include <avr/sleep.h>

#include "../checksum/checksum.h"

enum { UNTOUCHED = 0xa5, LEFT_ALONE = 64 };

/* The end of all variables, which avr-gcc's linker names. */
extern unsigned char __heap_start[];

static void put(char character) {
    while (!(UCSR0A & _BV(UDRE0))) {
    }
    UDR0 = (uint8_t)character;
}

static void put_hex(uint64_t number) {
    for (int8_t shift = 60; shift >= 0; shift -= 4) put("0123456789abcdef"[(uint8_t)(number >> shift) & 15]);
}

static void put_decimal(uint16_t number) {
    if (number >= 10) put_decimal(number / 10);
    put((char)('0' + number % 10));
}

/* Marks the stack below this frame, but for a few bytes, so that it shows what is touched. */
static void mark_stack(void) {
    uintptr_t end = (uintptr_t)__builtin_frame_address(0) - LEFT_ALONE;
    for (volatile unsigned char *at = __heap_start; (uintptr_t)at < end; at++) *at = UNTOUCHED;
}

int main(void) {
    mark_stack();
    uint64_t sum = checksum();
    const unsigned char *low = __heap_start;
    while (*low == UNTOUCHED) low++;
    UCSR0B = _BV(TXEN0);
    put_hex(sum);
    put(' ');
    put_decimal((uint16_t)((uintptr_t)checksum_frame - (uintptr_t)low));
    put('\n');
    /* simavr ends where a core sleeps that no interrupt wakes. */
    cli();
    sleep_enable();
    sleep_cpu();
    return 0;
}
