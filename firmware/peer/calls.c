/* Prints how many ticks of the core's timer four calls of the peer take, those that ../c/cortex-m/calls.c makes of the store:
 * a write into a free slot, a read that looks through all slots, an opening, and a write that moves. The flash is in memory:
 * two sets of one page of 256 words, with 50 variables. */
#include "peer.h"
#include "../c/cortex-m/semihosting.h"

enum { VARIABLES = 50, SLOTS = PEER_PAGE_WORDS - 4 };

static uint64_t numbers[2 * PEER_NUMBERS];
static peer_store store;
static char line[64], *line_end;

#if !PEER_MAPPED
static uint32_t number(void *context, uint32_t page, uint32_t place, uint64_t *value) {
    (void)context;
    *value = numbers[page * PEER_NUMBERS + place];
    return 0;
}
#endif

static uint32_t program(void *context, uint32_t page, uint32_t place, uint64_t value) {
    (void)context;
    numbers[page * PEER_NUMBERS + place] = value;
    return 0;
}

static uint32_t erase(void *context, uint32_t page) {
    (void)context;
    for (uint32_t i = 0; i < PEER_NUMBERS; i++) numbers[page * PEER_NUMBERS + i] = UINT64_MAX;
    return 0;
}

static const peer_flash flash = {
#if PEER_MAPPED
    .numbers = numbers,
#else
    .number = number,
#endif
    .program = program, .erase = erase};

/* SysTick: control, reload and the count, which falls through 24 bits. */
static volatile uint32_t *const timer = (volatile uint32_t *)0xe000e010;

static void check(uint32_t status) {
    if (status != PEER_OK) end(0);
}

/* Notes the ticks since the timer had this count. */
static void note(uint32_t since) {
    uint32_t ticks = (since - timer[2]) & 0xffffff;
    line_end = put_decimal(line_end, ticks);
    *line_end++ = ' ';
}

static void fill(void) {
    for (uint16_t address = 1; address <= VARIABLES; address++) check(peer_write(&store, address, address));
    for (uint32_t used = VARIABLES; used < SLOTS - 1; used++) check(peer_write(&store, VARIABLES, used));
}

static void measure(void) {
    uint32_t value = 0, since = timer[2];
    check(peer_write(&store, VARIABLES, 1));
    note(since);
    since = timer[2];
    check(peer_read(&store, 1, &value));
    note(since);
    since = timer[2];
    check(peer_open(&store, &flash));
    note(since);
    since = timer[2];
    check(peer_write(&store, VARIABLES, 2));
    note(since);
}

void reset(void);

void reset(void) {
    line_end = line;
    timer[1] = 0xffffff;
    timer[0] = 5;
    check(peer_format(&store, &flash));
    fill();
    measure();
    *line_end++ = '\n';
    *line_end = 0;
    ask(SYS_WRITE0, (uintptr_t)line);
    end(store.live.generation == 2 && store.live.place == VARIABLES + 4);
}

static void fault(void) { end(0); }

extern unsigned char stack_top[];

__attribute__((section(".vectors"), used)) static const struct {
    unsigned char *stack;
    void (*handlers[15])(void);
} vectors = {stack_top, {reset, fault, fault, fault, fault, fault}};
