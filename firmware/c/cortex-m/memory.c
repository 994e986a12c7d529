/* What ee.c asks of a C library, for a program that has none. */
#include <stddef.h>

void *memcpy(void *restrict to, const void *restrict from, size_t count) {
    unsigned char *at = to;
    const unsigned char *next = from;
    while (count-- > 0) {
        *at++ = *next++;
        __asm__ volatile("" ::: "memory"); /* so that no compiler makes a call of memcpy of it */
    }
    return to;
}

void *memset(void *to, int byte, size_t count) {
    unsigned char *at = to;
    while (count-- > 0) {
        *at++ = (unsigned char)byte;
        __asm__ volatile("" ::: "memory");
    }
    return to;
}

/* What ee.c asks too where it has an index. */
void *memmove(void *to, const void *from, size_t count) {
    unsigned char *at = to;
    const unsigned char *next = from;
    if (at <= next) return memcpy(to, from, count);
    while (count-- > 0) {
        at[count] = next[count];
        __asm__ volatile("" ::: "memory");
    }
    return to;
}
