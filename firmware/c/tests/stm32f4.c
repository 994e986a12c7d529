/* The port for an STM32F4 against a model of its flash: registers, sectors that are programmed by 32 bits, and the data cache.
 * stm32f4_by_16.c and stm32f4_by_8.c make it again for supplies that allow fewer bits at once, stm32f4_f7.c for an F7, whose data
 * cache is the core's. */
#include "moves.h"

static void set(volatile uint32_t *address, uint32_t value);
static uint32_t get(volatile uint32_t *address);
static void set_unit(volatile uint8_t *address, uint32_t value);
static volatile uint32_t *part_at(uint32_t address);
static void barrier(void);
static int may_step(int is_erase);
static void stepped(int is_erase);
#define EE_SET(address, value) set(address, value)
#define EE_GET(address) get(address)
#define EE_AT(address) part_at(address)
#define STM32_SET_UNIT(address, value) set_unit((volatile uint8_t *)(address), value)
#define EE_BARRIER() barrier()
#define EE_MOST_TURNS 1000
#define EE_WAIT() (waited++)
#define EE_MAY_STEP(is_erase) may_step(is_erase)
#define EE_STEPPED(is_erase) stepped(is_erase)
static uint32_t waited; /* turns of the port's loop */
#include "../port/stm32f4.c"

enum { WORDS = 16, SECTOR = 4096, FIRST = 2, CACHE_LINES = 8, NO_LINE = 2 * SECTOR };
#ifdef STM32F7
enum { LINE = 8 /* halves of a line: 32 bytes */, IS_OF_CORE = 1 };
#else
enum { LINE = 4 /* halves of a line: 16 bytes */, IS_OF_CORE = 0 };
#endif
enum fault { NONE, WRITE_PROTECTED, POWER, SILENT, STAYS_BUSY, STAYS_LOCKED, HELD_OFF };
static const uint32_t CACHES_ON = 0x705;

static struct { volatile uint32_t acr, keyr, optkeyr, sr, cr, optcr; } registers;
static _Alignas(32) uint32_t memory[2 * SECTOR];
static stm32f4 part = {
    .sectors = {{.number = FIRST, .flash = memory}, {.number = FIRST + 1, .flash = memory + SECTOR}},
    .page_words = WORDS,
};
static uint32_t keys, steps, fails_in, busy_for, acr_after_reset;
static int is_queued; /* a write to the flash isn't there yet */
static int is_off, is_settled;
static int updates; /* a program writes what was asked for into the data cache too; else it leaves an old line there */
static int clears; /* an erase clears the cells of its sector before it sets them */
static uint32_t cleared; /* cut erases that did */
static enum fault fault;
static uint32_t lines[CACHE_LINES][LINE], line_of[CACHE_LINES], next_line;

static void empty_cache(void) {
    for (int i = 0; i < CACHE_LINES; i++) line_of[i] = NO_LINE;
}

static int is_cached(void) { return IS_OF_CORE ? acr_after_reset != 0 : registers.acr >> 10 & 1; }

/* A read of 32 bits by the cache, or past it. */
static uint32_t fetched(uint32_t half) {
    uint32_t line = half / LINE, i;
    CHECK(is_settled); /* the cache is on or off as it was told */
    if (!is_cached()) return memory[half];
    for (i = 0; i < CACHE_LINES && line_of[i] != line; i++) continue;
    if (i == CACHE_LINES) {
        i = next_line++ % CACHE_LINES;
        line_of[i] = line;
        memcpy(lines[i], memory + line * LINE, sizeof lines[i]);
    }
    return lines[i][half % LINE];
}

static void barrier(void) { is_settled = 1, is_queued = 0; }
static void lock_model(void) { registers.cr |= 1u << 31, keys = 0; }

/* The program lets a step of each kind begin, which ends before the next one. */
static int held; /* 1 of a program, 2 of an erase */
static int may_step(int is_erase) {
    CHECK(held == 0);
    if (fault == HELD_OFF && ++steps >= fails_in) return 0;
    held = 1 + is_erase;
    return 1;
}
static void stepped(int is_erase) {
    CHECK(held == 1 + is_erase);
    held = 0;
}

/* A step begins, and takes some turns. Whether it is the one that fails: behind it power is off, and steps do nothing. */
static int fails(uint32_t turns) {
    CHECK(held == (turns == 7 ? 2 : 1));
    int is_failing = fault != NONE && fault < STAYS_LOCKED && ++steps == fails_in;
    busy_for = is_failing && fault == STAYS_BUSY ? UINT32_MAX : turns;
    if (IS_OF_CORE) (void)fetched(below(2) * SECTOR + below(4 * WORDS)); /* what the core reads before it is asked for */
    if (is_failing && fault == WRITE_PROTECTED) registers.sr |= 1u << 4;
    if (is_off || (is_failing && (fault == POWER || fault == STAYS_BUSY))) registers.sr |= 1u << 1;
    return is_failing;
}

static void erase_sector_of_model(uint32_t number) {
    CHECK(number == FIRST || number == FIRST + 1);
    int is_failing = fails(7);
    if (is_off || (is_failing && fault == WRITE_PROTECTED)) return;
    uint32_t *sector = memory + (number - FIRST) * SECTOR;
    uint32_t kind = is_failing && clears ? below(3) : 0;
    cleared += kind > 0;
    for (uint32_t i = 0; i < SECTOR; i++) {
        if (kind > 0) sector[i] &= kind == 1 ? any_bits() : 0;
        if (kind != 1) sector[i] |= is_failing ? any_bits() : UINT32_MAX;
    }
    is_off = is_failing && fault == POWER;
}

/* A unit is programmed, the lowest bit of it in a half. */
static void set_unit(volatile uint8_t *address, uint32_t value) {
    size_t byte = (size_t)(address - (volatile uint8_t *)memory), i = byte / 4;
    uint32_t shift = (uint32_t)(byte % 4 * 8), ones = UINT32_MAX >> (32 - STM32F4_BITS);
    CHECK(i < 2 * SECTOR && i % SECTOR < 4 * WORDS && byte % (STM32F4_BITS / 8) == 0);
    CHECK(registers.cr == (STM32F4_BITS / 16 << 8 | 1) && busy_for == 0 && (IS_OF_CORE || !is_cached()));
    is_queued = 1;
    int is_failing = fails(3);
    if (is_off || (is_failing && fault == WRITE_PROTECTED)) return;
    CHECK((memory[i] >> shift & ones) == ones && value < ones);
    memory[i] &= (is_failing ? value | any_bits() | (fault == SILENT) : value) << shift | ~(ones << shift);
    for (int k = 0; k < CACHE_LINES && updates; k++) {
        if (line_of[k] == i / LINE) lines[k][i % LINE] = (memory[i] & ~(ones << shift)) | value << shift;
    }
    is_off = is_failing && fault == POWER;
}

static void set_control(uint32_t value) {
    if (registers.cr >> 31) {
        CHECK(value == 1u << 31 || value == 0); /* the port writes to it only when it is unlocked, but for locking it */
        return;
    }
    registers.cr = value & ~(1u << 16);
    if (value >> 31) lock_model();
    if (value >> 16 & 1) {
        CHECK((value & ~(0x1fu << 3)) == (1u << 16 | STM32F4_BITS / 16 << 8 | 1u << 1) && busy_for == 0);
        erase_sector_of_model(value >> 3 & 0x1f);
    }
}

/* The line with an address of the flash is thrown away. */
static void invalidate(uint32_t address) {
    uint32_t line = (address - (uint32_t)(uintptr_t)memory) / 4 / LINE;
    CHECK(IS_OF_CORE && !is_queued && (busy_for == 0 || fault == STAYS_BUSY) && line < 2 * SECTOR / LINE);
    for (int i = 0; i < CACHE_LINES; i++) {
        if (line_of[i] == line) line_of[i] = NO_LINE;
    }
    is_settled = 0;
}

static void set_access(uint32_t value) {
    CHECK(!IS_OF_CORE);
    CHECK(((value ^ registers.acr) & ~(1u << 10 | 1u << 12)) == 0); /* nothing but the data cache */
    if (value >> 12 & 1) {
        CHECK((value >> 10 & 1) == 0 && (registers.acr >> 10 & 1) == 0); /* it is emptied while it is off */
        empty_cache();
    }
    registers.acr = value;
    is_settled = 0;
}

/* Where a register is. */
static volatile uint32_t *part_at(uint32_t address) {
    static uint32_t dcimvac;
    uint32_t place = address - 0x40023c00;
    if (address == 0xe000ef5c) return &dcimvac;
    CHECK(place < sizeof registers);
    return (volatile uint32_t *)&registers + place / 4;
}

static void set(volatile uint32_t *address, uint32_t value) {
    if (address == &registers.keyr) {
        keys = value == 0x45670123 ? 1 : keys == 1 && value == 0xcdef89ab ? 2 : 3;
        if (keys == 2 && fault != STAYS_LOCKED) registers.cr &= ~(1u << 31);
    } else if (address == &registers.sr) {
        registers.sr &= ~value;
    } else if (address == &registers.cr) {
        set_control(value);
    } else if (address == part_at(0xe000ef5c)) {
        invalidate(value);
    } else {
        CHECK(address == &registers.acr);
        set_access(value);
    }
}

static uint32_t get(volatile uint32_t *address) {
    if (address >= memory && address < memory + 2 * SECTOR) {
        CHECK((address - memory) % SECTOR < 4 * WORDS);
        return fetched((uint32_t)(address - memory));
    }
    if (address != &registers.sr) return *address;
    CHECK(!is_queued);
    uint32_t busy = busy_for > 0;
    if (busy_for > 0 && busy_for != UINT32_MAX) busy_for--;
    return registers.sr | busy << 16;
}

/* The product reads the sectors too, by the cache, which holds nothing old. */
static void read_by_others(void) {
    for (uint32_t n = below(6); n > 0; n--) {
        uint32_t half = below(2) * SECTOR + below(4 * WORDS);
        CHECK(fetched(half) == memory[half]);
    }
}

/* The model for moves. */
static void cut(uint32_t in) {
    is_settled = 1;
    read_by_others();
    steps = 0, fails_in = in, fault = in ? POWER : NONE;
}

static int is_cut(void) { return is_off; }

static void power(void) {
    memset((void *)&registers, 0, sizeof registers);
    held = 0;
    registers.acr = acr_after_reset; /* the program turned the caches on */
    lock_model();
    empty_cache();
    busy_for = 0, is_off = 0, is_queued = 0, is_settled = 1, fault = NONE;
}

static ee_flash new_part(uint32_t acr) {
    memset(memory, 0xff, sizeof memory);
    acr_after_reset = acr;
    power();
    return stm32f4_flash(&part);
}

/* Writes go wrong in each of their steps; what was stored before is there. */
static void failing(enum fault kind) {
    for (uint32_t step = 1; step < 200; step++) {
        ee_flash flash = new_part(CACHES_ON);
        ee_store store;
        uint32_t value, n, status = EE_OK;
        CHECK(ee_open(&store, &flash) == EE_UNFORMATTED);
        CHECK(ee_format(&store, &flash) == EE_OK);
        CHECK(ee_write(&store, 9, 90) == EE_OK);
        steps = 0, fails_in = step, fault = kind;
        for (n = 0; n < 600 && status == EE_OK; n++) {
            status = ee_write(&store, 1, n);
            read_by_others();
        }
        if (kind == SILENT && status == EE_OK) continue; /* the cells that were left are those that were asked for */
        CHECK(status == EE_DRIVER && ee_write(&store, 1, 0) == EE_NOT_OPEN);
        fault = NONE, busy_for = 0, is_off = 0;
        CHECK(ee_open(&store, &flash) == EE_OK);
        CHECK(ee_read(&store, 9, &value) == EE_OK && value == 90);
        if (ee_read(&store, 1, &value) == EE_OK) CHECK(value == n - 1 || value == n - 2);
        else CHECK(n == 1);
        CHECK(ee_write(&store, 1, 5) == EE_OK && ee_read(&store, 1, &value) == EE_OK && value == 5);
        CHECK(registers.cr == 1u << 31 && registers.acr == CACHES_ON); /* locked, and no more; the caches are as they were */
    }
}

/* Steps whose cells are others than those that were asked for, with no error of the part, behind a read of them. */
static void read_back(void) {
    ee_flash flash = new_part(CACHES_ON);
    uint64_t value;
    CHECK(flash.word(&part, 0, 5, &value) == 0 && value == UINT64_MAX);
    steps = 0, fails_in = 1, fault = SILENT;
    CHECK(flash.program(&part, 0, 5, 0) != 0 && flash.word(&part, 0, 5, &value) == 0 && value != 0);
    steps = 0;
    CHECK(flash.erase(&part, 0) != 0);
    fault = NONE;
    CHECK(flash.erase(&part, 0) == 0 && flash.word(&part, 0, 5, &value) == 0 && value == UINT64_MAX);
    CHECK(flash.program(&part, 0, 6, 0) == 0 && flash.word(&part, 0, 6, &value) == 0 && value == 0);
}

int main(void) {
    static const model here = {cut, is_cut, power};
    for (int with_cuts = 0; with_cuts < 2; with_cuts++) {
        for (int kind = 0; kind < 3; kind++) {
            updates = kind == 1, clears = kind != 1;
            ee_flash flash = new_part(kind == 2 ? 0 : CACHES_ON);
            moves(&flash, &here, with_cuts);
            CHECK(registers.cr == 1u << 31 && registers.acr == acr_after_reset);
        }
    }
    for (updates = 0; updates < 2; updates++) read_back();
    for (enum fault kind = WRITE_PROTECTED; kind <= HELD_OFF; kind++) failing(kind);
    CHECK(waited > 0 && cleared > 50);
    return 0;
}
