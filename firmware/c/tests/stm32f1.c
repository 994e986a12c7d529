/* The port for an STM32F1 against a model of its flash: registers, and pages of half words. There is no cache of data: the
 * prefetch buffer has instructions alone. stm32f1_f0.c and stm32f1_f3.c make it again with the pages of an F0 and an F3. */
#include "moves.h"

static void set(volatile uint32_t *address, uint32_t value);
static uint32_t get(volatile uint32_t *address);
static void set_half(volatile uint16_t *address, uint16_t value);
static uint16_t get_half(volatile uint16_t *address);
static volatile uint32_t *part_at(uint32_t address);
static void barrier(void);
static int may_step(int is_erase);
static void stepped(int is_erase);
#define EE_SET(address, value) set(address, value)
#define EE_GET(address) get(address)
#define EE_AT(address) part_at(address)
#define STM32_SET_HALF(address, value) set_half(address, value)
#define STM32_GET_HALF(address) get_half(address)
#define EE_BARRIER() barrier()
#define EE_MOST_TURNS 1000
#define EE_WAIT() (waited++)
#define EE_MAY_STEP(is_erase) may_step(is_erase)
#define EE_STEPPED(is_erase) stepped(is_erase)
static uint32_t waited; /* turns of the port's loop */
#include "../port/stm32f1.c"

#ifndef PAGE_WORDS
#define PAGE_WORDS 16
#endif
enum { PAGES = 4, WORDS = PAGE_WORDS, OF_PAGE = WORDS * 2 * HALVES, COUNT = PAGES * OF_PAGE };
enum fault { NONE, WRITE_PROTECTED, POWER, SILENT, STAYS_BUSY, STAYS_LOCKED, HELD_OFF };
static const uint32_t AFTER_RESET = 0x30; /* the prefetch buffer is on */

static struct { volatile uint32_t acr, keyr, optkeyr, sr, cr, ar; } registers;
static uint16_t memory[COUNT];
static stm32f1 part = {.registers = 0x40022000, .flash = memory, .page_words = WORDS};
static uint32_t keys, steps, fails_in, busy_for;
static int is_queued; /* a write to the flash isn't there yet */
static int is_off;
static int clears; /* an erase clears the cells of its page before it sets them */
static uint32_t cleared; /* cut erases that did */
static enum fault fault;

static void barrier(void) { is_queued = 0; }
static void lock_model(void) { registers.cr |= 1u << 7, keys = 0; }

/* The program lets a step of each kind begin, which ends before the next one. */
static int held; /* 1 of a program, 2 of an erase */
static int may_step(int is_erase) {
    CHECK(held == 0);
    if (fault == HELD_OFF && ++steps >= fails_in) return 0;
    held = 1 + is_erase;
    return 1;
}
static void stepped(int is_erase) {
    CHECK(held == 1 + is_erase);
    held = 0;
}

/* A step begins, and takes some turns. Whether it is the one that fails: behind it power is off, and steps do nothing. */
static int fails(uint32_t turns) {
    CHECK(held == (turns == 7 ? 2 : 1));
    int is_failing = fault != NONE && fault < STAYS_LOCKED && ++steps == fails_in;
    busy_for = is_failing && fault == STAYS_BUSY ? UINT32_MAX : turns;
    if (is_failing && fault == WRITE_PROTECTED) registers.sr |= 1u << 4;
    if (is_off || (is_failing && (fault == POWER || fault == STAYS_BUSY))) registers.sr |= 1u << 2;
    return is_failing;
}

static void erase_page_of_model(uint32_t address) {
    uint32_t page = (address - (uint32_t)(uintptr_t)memory) / (OF_PAGE * 2);
    CHECK(page < PAGES && address == (uint32_t)(uintptr_t)(memory + page * OF_PAGE));
    int is_failing = fails(7);
    if (is_off || (is_failing && fault == WRITE_PROTECTED)) return;
    uint32_t kind = is_failing && clears ? below(3) : 0;
    cleared += kind > 0;
    for (uint32_t i = page * OF_PAGE; i < (page + 1) * OF_PAGE; i++) {
        if (kind > 0) memory[i] &= kind == 1 ? (uint16_t)any_bits() : 0;
        if (kind != 1) memory[i] |= is_failing ? (uint16_t)any_bits() : UINT16_MAX;
    }
    is_off = is_failing && fault == POWER;
}

static void set_half(volatile uint16_t *address, uint16_t value) {
    size_t i = (size_t)(address - memory);
    CHECK(i < COUNT && registers.cr == 1 && busy_for == 0);
    is_queued = 1;
    int is_failing = fails(3);
    if (is_off || (is_failing && fault == WRITE_PROTECTED)) return;
    CHECK(memory[i] == UINT16_MAX && value != UINT16_MAX);
    memory[i] = is_failing ? (uint16_t)(value | any_bits()) : value;
    is_off = is_failing && fault == POWER;
}

static uint16_t get_half(volatile uint16_t *address) {
    CHECK(address >= memory && address < memory + COUNT && busy_for == 0);
    return *address;
}

static void set_control(uint32_t value) {
    if (registers.cr >> 7 & 1) {
        CHECK(value == 1u << 7 || value == 0); /* the port writes to it only when it is unlocked, but for locking it */
        return;
    }
    registers.cr = value & ~(1u << 6);
    if (value >> 7 & 1) lock_model();
    if (value >> 6 & 1) {
        CHECK(value == (1u << 6 | 1u << 1) && busy_for == 0);
        erase_page_of_model(registers.ar);
    }
}

/* Where a register is. */
static volatile uint32_t *part_at(uint32_t address) {
    uint32_t place = address - part.registers;
    CHECK(place < sizeof registers);
    return (volatile uint32_t *)&registers + place / 4;
}

static void set(volatile uint32_t *address, uint32_t value) {
    if (address == &registers.keyr) {
        keys = value == 0x45670123 ? 1 : keys == 1 && value == 0xcdef89ab ? 2 : 3;
        if (keys == 2 && fault != STAYS_LOCKED) registers.cr &= ~(1u << 7);
    } else if (address == &registers.sr) {
        registers.sr &= ~value;
    } else if (address == &registers.ar) {
        CHECK(registers.cr == 1u << 1 && busy_for == 0);
        registers.ar = value;
    } else {
        CHECK(address == &registers.cr);
        set_control(value);
    }
}

static uint32_t get(volatile uint32_t *address) {
    if (address != &registers.sr) return *address;
    CHECK(!is_queued);
    uint32_t busy = busy_for > 0;
    if (busy_for > 0 && busy_for != UINT32_MAX) busy_for--;
    return registers.sr | busy;
}

/* The model for moves. */
static void cut(uint32_t in) { steps = 0, fails_in = in, fault = in ? POWER : NONE; }
static int is_cut(void) { return is_off; }

static void power(void) {
    memset((void *)&registers, 0, sizeof registers);
    held = 0;
    registers.acr = AFTER_RESET;
    lock_model();
    busy_for = 0, is_off = 0, is_queued = 0, fault = NONE;
}

static ee_flash new_part(void) {
    memset(memory, 0xff, sizeof memory);
    power();
    return stm32f1_flash(&part, 2);
}

/* Writes go wrong in each of their steps; what was stored before is there. */
static void failing(enum fault kind) {
    for (uint32_t step = 1; step < 300; step += PAGE_WORDS == 16 || step < 20 ? 1 : 17) {
        ee_flash flash = new_part();
        ee_store store;
        uint32_t value, n, status = EE_OK;
        CHECK(ee_open(&store, &flash) == EE_UNFORMATTED);
        CHECK(ee_format(&store, &flash) == EE_OK);
        CHECK(ee_write(&store, 9, 90) == EE_OK);
        steps = 0, fails_in = step, fault = kind;
        for (n = 0; n < 60 * PAGE_WORDS && status == EE_OK; n++) status = ee_write(&store, 1, n);
        if (kind == SILENT && status == EE_OK) continue; /* the cells that were left are those that were asked for */
        CHECK(status == EE_DRIVER && ee_write(&store, 1, 0) == EE_NOT_OPEN);
        fault = NONE, busy_for = 0, is_off = 0;
        CHECK(ee_open(&store, &flash) == EE_OK);
        CHECK(ee_read(&store, 9, &value) == EE_OK && value == 90);
        if (ee_read(&store, 1, &value) == EE_OK) CHECK(value == n - 1 || value == n - 2);
        else CHECK(n == 1);
        CHECK(ee_write(&store, 1, 5) == EE_OK && ee_read(&store, 1, &value) == EE_OK && value == 5);
        CHECK(registers.cr == 1u << 7 && registers.acr == AFTER_RESET); /* locked, and no more */
    }
}

/* Steps whose cells are others than those that were asked for, with no error of the part. */
static void read_back(void) {
    ee_flash flash = new_part();
    uint64_t value;
    steps = 0, fails_in = 1, fault = SILENT;
    CHECK(flash.program(&part, 0, 5, 0) != 0 && flash.word(&part, 0, 5, &value) == 0 && value != 0);
    steps = 0;
    CHECK(flash.erase(&part, 0) != 0);
    fault = NONE;
    CHECK(flash.erase(&part, 0) == 0 && flash.word(&part, 0, 5, &value) == 0 && value == UINT64_MAX);
}

int main(void) {
    static const model here = {cut, is_cut, power};
    for (int with_cuts = 0; with_cuts < 3; with_cuts++) {
        clears = with_cuts == 2;
        part.registers = with_cuts == 1 ? 0x40022040 : 0x40022000; /* the second bank of a part of XL density */
        ee_flash flash = new_part();
        moves(&flash, &here, with_cuts > 0);
        CHECK(registers.cr == 1u << 7 && registers.acr == AFTER_RESET);
    }
    read_back();
    for (enum fault kind = WRITE_PROTECTED; kind <= HELD_OFF; kind++) failing(kind);
    CHECK(waited > 0 && cleared > 50);
    return 0;
}
