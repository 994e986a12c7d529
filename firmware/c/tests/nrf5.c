/* The port for an nRF51 and an nRF52 against a model of its flash: NVMC, and pages of words of 32 bits. */
#include "moves.h"

static void set(volatile uint32_t *address, uint32_t value);
static uint32_t get(volatile uint32_t *address);
static volatile uint32_t *part_at(uint32_t address);
static void barrier(void);
static int may_step(int is_erase);
#define EE_SET(address, value) set(address, value)
#define EE_GET(address) get(address)
#define EE_AT(address) part_at(address)
#define EE_BARRIER() barrier()
#define EE_MOST_TURNS 1000
#define EE_WAIT() (waited++)
#define EE_MAY_STEP(is_erase) may_step(is_erase)
#define EE_STEPPED(is_erase) ((void)0)
static uint32_t waited; /* turns of the port's loop */
#include "../port/nrf5.c"

enum { PAGES = 4, WORDS = 16, OF_PAGE = 4 * WORDS, COUNT = PAGES * OF_PAGE };
enum fault { NONE, GUARDED, POWER, SILENT, STAYS_BUSY, HELD_OFF };

static uint32_t memory[COUNT], ready, config, page_register;
static uint8_t written[COUNT]; /* how often since the last erase */
static nrf5 part = {.flash = memory, .page_words = WORDS};
static uint32_t steps, fails_in, busy_for, cleared;
static int is_off, is_queued, clears;
static enum fault fault;

static void barrier(void) { is_queued = 0; }
static int let; /* 1: a program may begin, 2: an erase */
static int may_step(int is_erase) {
    let = fault == HELD_OFF && ++steps >= fails_in ? 0 : 1 + is_erase;
    return let != 0;
}

static int fails(uint32_t turns) {
    CHECK(busy_for == 0 && let == (turns == 9 ? 2 : 1));
    int is_failing = fault != NONE && fault != HELD_OFF && ++steps == fails_in;
    busy_for = is_failing && fault == STAYS_BUSY ? UINT32_MAX : turns;
    return is_failing;
}

static void erase_page_of_model(uint32_t address) {
    uint32_t page = (address - (uint32_t)(uintptr_t)memory) / (OF_PAGE * 4);
    CHECK(config == 2 && page < PAGES && address == (uint32_t)(uintptr_t)(memory + page * OF_PAGE));
    int is_failing = fails(9);
    if (is_off || (is_failing && fault == GUARDED)) return;
    uint32_t kind = is_failing && clears ? below(3) : 0;
    cleared += kind > 0;
    for (uint32_t i = page * OF_PAGE; i < (page + 1) * OF_PAGE; i++) {
        if (kind > 0) memory[i] &= kind == 1 ? any_bits() : 0;
        if (kind != 1) memory[i] |= is_failing ? any_bits() : UINT32_MAX;
        if (!is_failing) written[i] = 0;
    }
    is_off = is_failing && fault == POWER;
}

static void program_word(uint32_t i, uint32_t value) {
    CHECK(config == 1 && i < COUNT && value != UINT32_MAX);
    int is_failing = fails(3);
    if (is_off || (is_failing && fault == GUARDED)) return;
    CHECK(memory[i] == UINT32_MAX && ++written[i] <= 2 + (is_failing || fault != NONE));
    memory[i] &= is_failing ? value | any_bits() : value;
    is_off = is_failing && fault == POWER;
}

static volatile uint32_t *part_at(uint32_t address) {
    CHECK(address == 0x4001e400 || address == 0x4001e504 || address == 0x4001e508);
    return address == 0x4001e400 ? &ready : address == 0x4001e504 ? &config : &page_register;
}

static void set(volatile uint32_t *address, uint32_t value) {
    CHECK(address != &ready && (!is_queued || address == &config));
    CHECK(!is_off || busy_for == 0 || address == &config);
    is_queued = 1;
    if (address == &config) {
        CHECK(value <= 2 && (busy_for == 0 || fault == STAYS_BUSY));
        config = value;
    } else if (address == &page_register) {
        erase_page_of_model(value);
    } else {
        program_word((uint32_t)(address - memory), value);
    }
}

static uint32_t get(volatile uint32_t *address) {
    if (address != &ready) {
        CHECK(address >= memory && address < memory + COUNT && config == 0 && (busy_for == 0 || fault == STAYS_BUSY));
        return *address;
    }
    CHECK(!is_queued);
    uint32_t is_busy = busy_for > 0;
    if (is_busy && busy_for != UINT32_MAX) busy_for--;
    return !is_busy;
}

/* The model for moves. */
static void cut(uint32_t in) { steps = 0, fails_in = in, fault = in ? POWER : NONE; }
static int is_cut(void) { return is_off; }
static void power(void) { config = 0, busy_for = 0, is_off = 0, is_queued = 0, fault = NONE; }

static ee_flash new_part(void) {
    memset(memory, 0xff, sizeof memory);
    memset(written, 0, sizeof written);
    power();
    return nrf5_flash(&part, 2);
}

/* Writes go wrong in each of their steps; what was stored before is there. */
static void failing(enum fault kind) {
    for (uint32_t step = 1; step < 300; step++) {
        ee_flash flash = new_part();
        ee_store store;
        uint32_t value, n, status = EE_OK;
        CHECK(ee_format(&store, &flash) == EE_OK && ee_write(&store, 9, 90) == EE_OK);
        steps = 0, fails_in = step, fault = kind;
        for (n = 0; n < 600 && status == EE_OK; n++) status = ee_write(&store, 1, n);
        if (kind == SILENT && status == EE_OK) continue; /* the cells that were left are those that were asked for */
        CHECK(status == EE_DRIVER && ee_write(&store, 1, 0) == EE_NOT_OPEN && config == 0);
        power();
        CHECK(ee_open(&store, &flash) == EE_OK);
        CHECK(ee_read(&store, 9, &value) == EE_OK && value == 90);
        if (ee_read(&store, 1, &value) == EE_OK) CHECK(value == n - 1 || value == n - 2);
        else CHECK(n == 1);
        CHECK(ee_write(&store, 1, 5) == EE_OK && ee_read(&store, 1, &value) == EE_OK && value == 5);
    }
}

int main(void) {
    static const model here = {cut, is_cut, power};
    for (int with_cuts = 0; with_cuts < 3; with_cuts++) {
        clears = with_cuts == 2;
        ee_flash flash = new_part();
        moves(&flash, &here, with_cuts > 0);
        CHECK(config == 0);
    }
    for (enum fault kind = GUARDED; kind <= HELD_OFF; kind++) failing(kind);
    CHECK(waited > 0 && cleared > 50);
    return 0;
}
