/* Where a program begins on a core, and what counts its time: a Cortex-M, or the RISC-V of QEMU's board `virt`. */
#ifndef CORE_H
#define CORE_H

#include <stdint.h>

#include "semihosting.h"

void reset(void);

/* What link.ld names. */
extern unsigned char stack_top[];

#ifdef __riscv

/* A count that falls. By QEMU's -icount it is the nanoseconds of virtual time. */
static inline uint32_t count(void) {
    uint32_t done;
    __asm__ volatile(".option push\n\t.option arch, +zicsr\n\tcsrr %0, minstret\n\t.option pop" : "=r"(done));
    return 0 - done;
}

static inline void start_timer(void) {}

__attribute__((aligned(4), used)) static void fault(void) { end(0); }

__attribute__((section(".vectors"), naked, used)) static void begin(void) {
    __asm__ volatile(".option push\n\t.option arch, +zicsr\n\tla sp, stack_top\n\tla t0, fault\n\tcsrw mtvec, t0\n\tj reset\n\t.option pop");
}

#else

/* SysTick: control, reload and the count, which falls through 24 bits. */
static volatile uint32_t *const timer = (volatile uint32_t *)0xe000e010;

static inline uint32_t count(void) { return timer[2]; }

static inline void start_timer(void) {
    timer[1] = 0xffffff;
    timer[0] = 5;
}

static void fault(void) { end(0); }

__attribute__((section(".vectors"), used)) static const struct {
    unsigned char *stack;
    void (*handlers[15])(void);
} vectors = {stack_top, {reset, fault, fault, fault, fault, fault}};

#endif

#endif
