/* The port for an RP2040 against a model of the boot ROM's functions, of the flash behind them and of the XIP cache. */
#include "moves.h"

static uint32_t get(const volatile uint32_t *address);
static void set(volatile uint32_t *address, uint32_t value);
static uint16_t half_at(uintptr_t address);
#define EE_GET(address) get(address)
#define EE_SET(address, value) set(address, value)
#define EE_AT(address) ((volatile uint32_t *)(uintptr_t)(address))
#define EE_MOST_TURNS 100
#define RP2040_BYTE_TURNS 10
#define RP2040_HALF_AT(address) half_at(address)
#include "../port/rp2040.c"

enum { PAGES = 4, OFFSET = 0x1f0000, WORDS = PAGES * SECTOR / 4 };
enum { SETS = 1024, WAYS = 2, NO_LINE = WORDS / 2 /* a line has 8 bytes */ };
enum fault { NONE, POWER, NOTHING };
/* What reads of flash and its functions find: reads, as after a start; the flash connected; and its commands. */
enum state { READS, CONNECTED, COMMANDS, FLUSHED };

static uint32_t memory[WORDS];
static uint32_t lines[SETS][WAYS][2], line_of[SETS][WAYS];
static enum state state;
static enum fault fault;
static uint32_t steps, fails_in;
static int is_off, sets; /* whether the erase that is cut sets cells, behind clearing them */
static uint32_t busy_for, waits; /* how often the chip says that it is busy, with a step from before the reset */
static uint32_t selected, given, asked; /* the select pin's control; bytes of the chip that wait; those that it was asked for */
static int is_silent; /* nothing comes from the chip */

static void empty_cache(void) {
    for (int set = 0; set < SETS; set++) line_of[set][0] = line_of[set][1] = NO_LINE;
}

static void connect(void) {
    CHECK(state == READS);
    state = CONNECTED;
}

static void exit_xip(void) {
    CHECK(state == CONNECTED);
    state = COMMANDS;
}

/* What a step leaves that is asked for a byte. An erase clears all bytes of its sector first. */
static uint8_t left(uint8_t old, uint8_t asked, int is_erase) {
    if (is_off) return old;
    if (fault == NONE || steps != fails_in) return asked;
    if (fault == NOTHING) return old;
    if (!is_erase) return (uint8_t)(asked | (old & any_bits()));
    return (uint8_t)(sets ? any_bits() : old & any_bits());
}

/* A step of so many bytes, none given where they are erased. Behind the one that is cut power is off, and steps do nothing. */
static void step(uint32_t offset, const uint8_t *given, size_t count) {
    CHECK(state == COMMANDS && offset >= OFFSET && offset + count <= OFFSET + sizeof memory && busy_for == 0);
    uint8_t *bytes = (uint8_t *)memory + (offset - OFFSET);
    steps++, sets = (int)(any_bits() & 1);
    for (size_t i = 0; i < count; i++) bytes[i] = left(bytes[i], given ? bytes[i] & given[i] : 0xff, given == NULL);
    is_off |= fault == POWER && steps == fails_in;
}

static void rom_erase(uint32_t offset, size_t count, uint32_t block_size, uint8_t block_command) {
    CHECK(offset % 4096 == 0 && count == 4096 && block_size == 65536 && block_command == 0xd8);
    step(offset, NULL, count);
}

static void rom_program(uint32_t offset, const uint8_t *given, size_t count) {
    CHECK(offset % 256 == 0 && count == 256);
    step(offset, given, count);
}

static void flush_cache(void) {
    CHECK(state == COMMANDS);
    empty_cache();
    selected &= ~(3u << 8);
    state = FLUSHED;
}

/* The ROM doesn't ask for a cache that is empty. */
static void enter_xip(void) {
    CHECK((state == COMMANDS || state == FLUSHED) && (selected >> 8 & 3) == 0);
    state = READS;
}

/* A read of 32 bits by the cache. */
static uint32_t fetched(uint32_t i) {
    uint32_t line = i / 2, set = line % SETS, way = line_of[set][1] == line ? 1 : line_of[set][0] == line ? 0 : below(WAYS);
    CHECK(state == READS && busy_for == 0);
    if (line_of[set][way] != line) {
        line_of[set][way] = line;
        memcpy(lines[set][way], memory + 2 * line, sizeof lines[set][way]);
    }
    return lines[set][way][i % 2];
}

/* The SSI and the select pin. The chip answers its status to the command 5. */
static void set(volatile uint32_t *address, uint32_t value) {
    CHECK(state == COMMANDS);
    if (address == EE_AT(0x4001800c)) {
        CHECK(((value ^ selected) & ~(3u << 8)) == 0 && given == 0);
        selected = value, asked = 0;
        return;
    }
    CHECK(address == EE_AT(0x18000060) && (selected >> 8 & 3) == 2 && given == 0);
    CHECK(asked == 0 ? value == 5 : asked == 1);
    asked++, given = is_silent ? 0 : 1 + below(3);
}

static uint32_t answered(void) {
    CHECK(given == 1);
    given = 0;
    if (asked < 2) return 0xffffffff;
    waits += busy_for > 0;
    return 0xffffff00 | (busy_for > 0 && busy_for-- > 0 ? 1 : 0);
}

static uint32_t get(const volatile uint32_t *address) {
    if (address == EE_AT(0x4001800c)) return selected;
    if (address == EE_AT(0x18000028)) return given > 1 ? given--, 6 : given == 1 ? 6 | 1u << 3 : 6;
    if (address == EE_AT(0x18000060)) return answered();
    CHECK(address >= memory && address < memory + WORDS);
    return fetched((uint32_t)(address - memory));
}

/* The table of the ROM stands where no computer has memory: the port finds it on the part alone. */
static uint16_t half_at(uintptr_t address) { return (uint16_t)address; }

static rp2040 part = {
    .rom = {connect, exit_xip, rom_erase, rom_program, flush_cache, enter_xip},
    .flash = memory,
    .offset = OFFSET,
};

/* The product reads the sectors too, by the cache, which holds nothing old. */
static void read_by_others(void) {
    for (uint32_t n = busy_for > 0 ? 0 : below(6); n > 0; n--) {
        uint32_t i = below(WORDS);
        CHECK(fetched(i) == memory[i]);
    }
}

/* The model for moves. */
static void cut(uint32_t in) {
    read_by_others();
    steps = 0, fails_in = in, fault = in ? POWER : NONE;
}

static int is_cut(void) { return is_off; }

static void power(void) {
    empty_cache();
    steps = 0, is_off = 0, state = READS, fault = NONE;
    busy_for = below(2) ? 0 : below(50), part.is_ready = 0, selected = 5, given = 0, is_silent = 0;
}

static ee_flash new_part(uint32_t pages) {
    memset(memory, 0xff, sizeof memory);
    power();
    return rp2040_flash(&part, pages);
}

/* Writes go wrong in each of their steps; what was stored before is there. */
static void failing(enum fault kind) {
    for (uint32_t from = 1; from < 1100; from += from < 20 ? 1 : 37) {
        ee_flash flash = new_part(2);
        ee_store store;
        uint32_t value, n, status = EE_OK;
        CHECK(ee_open(&store, &flash) == EE_UNFORMATTED);
        CHECK(ee_format(&store, &flash) == EE_OK);
        CHECK(ee_write(&store, 9, 90) == EE_OK);
        steps = 0, fails_in = from, fault = kind;
        for (n = 0; n < 700 && status == EE_OK; n++) status = ee_write(&store, 1, n);
        CHECK(status == EE_DRIVER && ee_write(&store, 1, 0) == EE_NOT_OPEN);
        power();
        CHECK(ee_open(&store, &flash) == EE_OK);
        CHECK(ee_read(&store, 9, &value) == EE_OK && value == 90);
        if (ee_read(&store, 1, &value) == EE_OK) CHECK(value == n - 1 || value == n - 2);
        else CHECK(n == 1);
        CHECK(ee_write(&store, 1, 5) == EE_OK && ee_read(&store, 1, &value) == EE_OK && value == 5);
    }
}

/* Steps that do nothing, behind a read of what they are to change. */
static void read_back(void) {
    ee_flash flash = new_part(2);
    uint64_t value;
    CHECK(flash.word(&part, 0, 5, &value) == 0 && value == UINT64_MAX);
    CHECK(flash.program(&part, 0, 5, 7) == 0 && flash.word(&part, 0, 5, &value) == 0 && value == 7);
    fails_in = steps + 1, fault = NOTHING;
    CHECK(flash.program(&part, 0, 6, 7) != 0);
    fails_in = steps + 1;
    CHECK(flash.erase(&part, 0) != 0);
    fault = NONE;
    CHECK(flash.erase(&part, 0) == 0 && flash.word(&part, 0, 5, &value) == 0 && value == UINT64_MAX);
}

/* A chip that stays busy, or of which nothing comes, isn't read: no step is made. A later start finds it ready. */
static void busy(void) {
    ee_flash flash = new_part(1);
    ee_store store;
    uint64_t number;
    uint32_t value = 0;
    CHECK(ee_start(&store, &flash) == EE_OK && ee_write(&store, 1, 10) == EE_OK);
    for (int silent = 0; silent < 2; silent++) {
        power();
        busy_for = silent ? 0 : 100000, is_silent = silent;
        CHECK(flash.word(&part, 0, 0, &number) == EE_READ_FAILED && flash.words(&part, 0, 0, 2) == NULL);
        CHECK(ee_start(&store, &flash) == EE_DRIVER && steps == 0 && state == READS);
        busy_for = silent ? 0 : 50, is_silent = 0;
        CHECK(ee_start(&store, &flash) == EE_OK && ee_read(&store, 1, &value) == EE_OK && value == 10);
    }
}

int main(void) {
    static const model here = {cut, is_cut, power};
    for (int with_cuts = 0; with_cuts < 2; with_cuts++) {
        ee_flash flash = new_part(1);
        moves(&flash, &here, with_cuts);
        CHECK(state == READS);
    }
    read_back();
    busy();
    failing(POWER);
    failing(NOTHING);
    CHECK(waits > 1000);
    return 0;
}
