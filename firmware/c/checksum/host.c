/* Runs the checksum on this computer, on a stack of its own, and prints it with the bytes of stack that the deepest call took. */
#include <inttypes.h>
#include <stdio.h>
#include <string.h>
#include <ucontext.h>

#include "checksum.h"

enum { UNTOUCHED = 0xa5 };

static _Alignas(16) unsigned char stack[65536];
static ucontext_t start, calls;
static uint64_t sum;

static void run(void) { sum = checksum(); }

int main(void) {
    memset(stack, UNTOUCHED, sizeof stack);
    if (getcontext(&calls) != 0) return 1;
    calls.uc_stack.ss_sp = stack;
    calls.uc_stack.ss_size = sizeof stack;
    calls.uc_link = &start;
    makecontext(&calls, run, 0);
    if (swapcontext(&start, &calls) != 0) return 1;
    const unsigned char *low = stack;
    while (*low == UNTOUCHED) low++;
    printf("%016" PRIx64 " %ld\n", sum, (long)(checksum_frame - low));
    return sum == 0;
}
