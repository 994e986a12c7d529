/* A call on a store from inside a function of its flash, or from an interrupt that breaks into a call, is refused with EE_BUSY, and
 * changes nothing: the call that it broke into goes on as if it hadn't come. A signal stands for the interrupt. */
#ifndef _GNU_SOURCE
#define _GNU_SOURCE
#endif
#include "part.h"

#include <signal.h>
#include <sys/time.h>

enum { ADDRESSES = 6, STORES = 40, CALLS = 60, TICKS = 3000 };

static part p, same;
static ee_flash inner;
static ee_store store;
static uint64_t dice = 88172645463325252u;
static unsigned long calls_inside;
static int is_inside;
static ee_flash nested, plain; /* the part's functions with calls from inside them, and those of the other part */

static uint32_t below(uint32_t end) {
    dice ^= dice << 13;
    dice ^= dice >> 7;
    dice ^= dice << 17;
    return (uint32_t)(dice >> 20) % end;
}

/* Makes each call from inside. */
static void call_inside(void) {
    static const ee_value list[2] = {{1, 7}, {2, 7}};
    ee_value wanted[2] = {{1, 7}, {2, 7}};
    ee_numbers numbers = {0};
    ee_span span;
    uint32_t value = 99;
    uint16_t address = 0;
    if (is_inside) return;
    is_inside = 1;
    CHECK(ee_write(&store, 1, 7) == EE_BUSY && ee_write_all(&store, list, 2) == EE_BUSY && ee_write_all(&store, list, 1) == EE_BUSY);
    CHECK(ee_forget(&store, 1) == EE_BUSY && ee_forget_all(&store) == EE_BUSY && ee_clean(&store) == EE_BUSY);
    CHECK(ee_read(&store, 1, &value) == EE_BUSY && ee_next(&store, &address, &value) == EE_BUSY);
    CHECK(ee_counts(&store, &numbers) == EE_BUSY && value == 99 && address == 0 && numbers.slots == 0);
    CHECK(ee_load(&store, wanted, 2, &value) == EE_BUSY && value == 99);
    CHECK(ee_read_span(&store, 1, 2, &span) == EE_BUSY);
    CHECK(ee_write(NULL, 1, 7) == EE_NULL);
    calls_inside++;
    is_inside = 0;
}

static uint32_t word(void *context, uint32_t page, uint32_t place, uint64_t *value) {
    call_inside();
    return inner.word(context, page, place, value);
}

static const uint64_t *words(void *context, uint32_t page, uint32_t place, uint32_t count) {
    call_inside();
    return inner.words(context, page, place, count);
}

static uint32_t program(void *context, uint32_t page, uint32_t place, uint64_t value) {
    call_inside();
    return inner.program(context, page, place, value);
}

static uint32_t erase(void *context, uint32_t page) {
    call_inside();
    return inner.erase(context, page);
}

static uint32_t made(ee_store *on, uint32_t kind, uint16_t address, uint32_t value) {
    ee_value list[2] = {{address, value}, {(uint16_t)(address % ADDRESSES + 1), ~value}};
    ee_numbers numbers;
    ee_span span;
    switch (kind) {
    case 0: return ee_forget(on, address);
    case 1: return ee_clean(on);
    case 2: return ee_write_all(on, list, 1 + value % 2);
    case 3: return value % 16 ? ee_write(on, address, value) : ee_forget_all(on);
    case 4: return ee_read(on, address, &value);
    case 5: return ee_next(on, &address, &value);
    case 6: return ee_counts(on, &numbers);
    case 7: return ee_load(on, list, 2, &value);
    case 8: return ee_read_span(on, address, 1 + value % EE_SPAN, &span);
    default: return ee_write(on, address, value);
    }
}

/* The same calls on two parts, of which one has functions that make calls. */
static void from_inside(uint32_t pairs, enum runs runs) {
    ee_store other;
    for (int i = 0; i < STORES; i++) {
        blank(&p, 1 + below(2), 5 + below(4));
        p.pairs = pairs, p.runs = runs;
        same = p;
        inner = nested = flash_of(&p), plain = flash_of(&same);
        nested.word = word, nested.program = program, nested.erase = erase;
        if (inner.words) nested.words = words;
        CHECK(ee_start(&store, &nested) == EE_OK && ee_start(&other, &plain) == EE_OK);
        for (int j = 0; j < CALLS; j++) {
            uint32_t kind = below(12), value = below(UINT32_MAX);
            uint16_t address = (uint16_t)(1 + below(ADDRESSES));
            if (below(8) == 0) p.cut_in = same.cut_in = p.steps + 1 + below(3), same.steps = p.steps;
            uint32_t status = made(&store, kind, address, value);
            CHECK(status == made(&other, kind, address, value) && holds_same(&p, &same));
            p.cut_in = same.cut_in = 0;
            if (status != EE_DRIVER) continue;
            CHECK(ee_write(&store, 1, 1) == EE_NOT_OPEN);
            CHECK(ee_start(&store, &nested) == EE_OK && ee_start(&other, &plain) == EE_OK);
        }
    }
}

static volatile sig_atomic_t ticks, refused;
static volatile uint32_t kept_inside;

/* An interrupt that writes: between two calls it does so, and in one it is refused. */
static void tick(int number) {
    (void)number;
    uint32_t status = ee_write(&store, ADDRESSES + 1, kept_inside + 1);
    CHECK(status == EE_OK || status == EE_BUSY);
    if (status == EE_OK) kept_inside++;
    refused += status == EE_BUSY;
    ticks++;
}

static uint32_t value_of(uint16_t address) {
    uint32_t value = 0, status;
    do {
        status = ee_read(&store, address, &value);
    } while (status == EE_BUSY); /* never: an interrupt's calls end before this one goes on */
    CHECK(status == EE_OK || status == EE_NOTHING);
    return value;
}

/* Writes, while a timer's interrupts write too. What either was answered is there. */
static void from_interrupts(void) {
    static uint32_t kept[ADDRESSES + 1];
    struct itimerval often = {{0, 50}, {0, 50}}, never = {{0, 0}, {0, 0}};
    blank(&p, 2, 16);
    nested = flash_of(&p);
    CHECK(ee_start(&store, &nested) == EE_OK && signal(SIGALRM, tick) != SIG_ERR);
    CHECK(setitimer(ITIMER_REAL, &often, NULL) == 0);
    for (uint32_t i = 1; ticks < TICKS; i++) {
        uint16_t address = (uint16_t)(1 + below(ADDRESSES));
        uint32_t was = kept_inside;
        CHECK(ee_write(&store, address, i) == EE_OK);
        kept[address] = i;
        CHECK(value_of(address) == i && value_of(ADDRESSES + 1) >= was);
    }
    CHECK(setitimer(ITIMER_REAL, &never, NULL) == 0 && signal(SIGALRM, SIG_DFL) != SIG_ERR);
    for (int round = 0; round < 2; round++) {
        for (uint16_t address = 1; address <= ADDRESSES; address++) CHECK(value_of(address) == kept[address]);
        CHECK(value_of(ADDRESSES + 1) == kept_inside && ee_start(&store, &nested) == EE_OK);
    }
    CHECK(refused > 0 && refused < ticks);
}

int main(void) {
    for (uint32_t pairs = 0; pairs < 2; pairs++)
        for (int runs = NO_RUNS; runs < RUN_KINDS; runs++) from_inside(pairs, (enum runs)runs);
    CHECK(calls_inside > 10000);
    from_interrupts();
    printf("%lu times from inside, %d of %d interrupts refused\n", calls_inside, (int)refused, (int)ticks);
    return 0;
}
