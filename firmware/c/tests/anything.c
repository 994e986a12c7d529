/* A flash that answers anything: whatever its functions say, the library asks for no page and no word that it doesn't have. A
 * look gives what stands there, or now and then anything that a store might have written, another number, a torn word or
 * a read that failed; a step is made, fails, or does nothing. The argument is how many calls are made, on words, as many on
 * pairs of numbers, and as many on pairs whose erase clears first. */
#define MOST_PAGES 6
#define MOST_WORDS 12
#include "part.h"

static uint64_t dice = 88172645463325252u;
static uint64_t words[MOST_PAGES][2 * MOST_WORDS];
static ee_flash flash;
static uint32_t odds, faults;

static uint64_t next(void) {
    dice ^= dice << 13;
    dice ^= dice >> 7;
    dice ^= dice << 17;
    return dice >> 8;
}

static uint32_t below(uint32_t end) { return (uint32_t)(next() >> 8) % end; }

static int fails(void) { return faults != 0 && below(faults) == 0; }

static uint64_t anything(void) {
    switch (below(8)) {
    case 0:
    case 1: return UINT64_MAX;
    case 2: return 0xaaaaaaaaaaaaaaaa;
    case 3: return 0xaaaaaaaa00000000 + below(4);
    case 4:
    case 5: return next() << 32 | (1 + below(40));
    case 6: return next() << 32 | 1u << 16 | (1 + below(40));
    default: return next() << 16 ^ next();
    }
}

static void check(uint32_t page, uint32_t place) {
    CHECK(page < 2 * flash.pages && place < flash.page_words << (flash.kind != 0));
}

static uint32_t word(void *context, uint32_t page, uint32_t place, uint64_t *value) {
    (void)context;
    check(page, place);
    if (fails()) return below(2) ? EE_READ_FAILED : 1 + below(99);
    *value = below(odds) ? words[page][place] : anything();
    return below(8 * odds) == 0 ? EE_TORN : 0;
}

/* Now and then what stands there, for any place and any count that the flash has. */
static const uint64_t *several(void *context, uint32_t page, uint32_t place, uint32_t count) {
    (void)context;
    CHECK(count >= 1 && count <= 16u << (flash.kind != 0));
    check(page, place);
    check(page, place + count - 1);
    return below(4) ? &words[page][place] : NULL;
}

static uint32_t program(void *context, uint32_t page, uint32_t place, uint64_t value) {
    (void)context;
    check(page, place);
    words[page][place] &= value;
    return fails();
}

static uint32_t erase(void *context, uint32_t page) {
    (void)context;
    check(page, 0);
    if (below(odds)) memset(words[page], 0xff, sizeof words[page]);
    return fails();
}

static uint32_t call(ee_store *store) {
    ee_value values[6];
    ee_numbers numbers;
    uint16_t address = (uint16_t)(1 + below(40));
    uint32_t value = (uint32_t)next(), count = below(7);
    for (uint16_t i = 0; i < count; i++) values[i] = (ee_value){(uint16_t)(address + i), value};
    ee_span span;
    switch (below(12)) {
    case 0: return ee_forget(store, address);
    case 1: return ee_clean(store);
    case 2:
    case 3: return ee_write_all(store, values, count);
    case 4: return ee_read(store, address, &value);
    case 5: return ee_next(store, &address, &value);
    case 6: return ee_counts(store, &numbers);
    case 7: return ee_load(store, values, count, &value);
    case 8: return ee_read_span(store, address, count, &span);
    default: return ee_write(store, address, value);
    }
}

static void run(uint32_t pairs, unsigned long calls) {
    static const uint32_t some_odds[] = {2, 10, 50, 300, 2000}, some_faults[] = {0, 0, 30, 1000};
    ee_store store;
    unsigned long made = 0, opened = 0;
    while (made < calls) {
        memset(words, 0xff, sizeof words);
        flash = (ee_flash){.pages = 1 + below(3), .page_words = 5 + below(6), .word = word, .program = program, .erase = erase,
                           .kind = pairs, .words = below(2) ? several : NULL};
        odds = some_odds[below(5)], faults = some_faults[below(4)];
        for (int round = 0; round < 4; round++) {
            uint32_t how = below(4);
            uint32_t status = how == 0 ? ee_open(&store, &flash) : how == 1 ? ee_format(&store, &flash) : ee_start(&store, &flash);
            opened += status == EE_OK, made++;
            for (int i = 0; i < 100 && status != EE_NOT_OPEN; i++, made++) status = call(&store);
        }
    }
    CHECK(opened > calls / 200);
}

int main(int count, char **argument) {
    unsigned long calls = count > 1 ? strtoul(argument[1], NULL, 10) : 200000;
    run(0, calls);
    run(1, calls);
    run(2, calls);
    return 0;
}
