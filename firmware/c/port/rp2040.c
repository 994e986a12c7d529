/* SPDX-License-Identifier: MIT OR Apache-2.0 */
#include "rp2040.h"

/* How often the chip is asked whether it is ready, each time some 100 cycles of at most 133 MHz: a sector takes 400 ms. */
#ifndef EE_MOST_TURNS
#define EE_MOST_TURNS 1000000
#endif
#include "ee_port.h"

/* What a test puts in place of the part, beside what ee_port.h has. */
#ifndef RP2040_HALF_AT
#define RP2040_BYTE_TURNS 1000
#define RP2040_HALF_AT(address) (*(const volatile uint16_t *)(address))
#endif
#ifdef __arm__
#define RP2040_IN_RAM __attribute__((noinline, section(".time_critical.ee")))
/* Turns interrupts off, and gives what it was before. */
static inline uint32_t interrupts_off(void) {
    uint32_t before;
    __asm__ volatile("mrs %0, primask\n\tcpsid i" : "=r"(before) : : "memory");
    return before;
}
static inline void interrupts_as(uint32_t before) { __asm__ volatile("msr primask, %0" : : "r"(before) : "memory"); }
#else
#define RP2040_IN_RAM
static uint32_t interrupts_off(void) { return 0; }
static void interrupts_as(uint32_t before) { (void)before; }
#endif

enum {
    SECTOR = 4096,
    PROGRAM = 256, /* the bytes of a program */
    NUMBERS = SECTOR / 8,
    BLOCK = 65536,
    ERASE_BLOCK = 0xd8,
    ROM_FUNCTIONS = 0x14, /* where the ROM says where its table and its look-up are */
    ROM_LOOKUP = 0x18,
    READ_STATUS = 0x05, /* a command of the chip, and the bit of its answer that tells that it is busy */
    STATUS_WIP = 1 << 0,
    SSI_RFNE = 1 << 3 /* something came */
};
static const uint32_t SSI_SR = 0x18000028, SSI_DR0 = 0x18000060, SELECT = 0x4001800c, OUTOVER = 3u << 8, OUTOVER_LOW = 2u << 8;

typedef uintptr_t (*lookup_call)(const uint16_t *table, uint32_t code); /* no pointer to data: C makes no function of one */

rp2040_rom rp2040_find_rom(void) {
    /* GCC takes a small address that it knows for a mistake. */
    volatile uintptr_t functions = ROM_FUNCTIONS, lookup = ROM_LOOKUP;
    const uint16_t *table = (const uint16_t *)(uintptr_t)RP2040_HALF_AT(functions);
    lookup_call look_up = (lookup_call)(uintptr_t)RP2040_HALF_AT(lookup);
    rp2040_rom rom;
    rom.connect = (void (*)(void))look_up(table, 'I' | 'F' << 8);
    rom.exit_xip = (void (*)(void))look_up(table, 'E' | 'X' << 8);
    rom.erase = (void (*)(uint32_t, size_t, uint32_t, uint8_t))look_up(table, 'R' | 'E' << 8);
    rom.program = (void (*)(uint32_t, const uint8_t *, size_t))look_up(table, 'R' | 'P' << 8);
    rom.flush_cache = (void (*)(void))look_up(table, 'F' | 'C' << 8);
    rom.enter_xip = (void (*)(void))look_up(table, 'C' | 'X' << 8);
    return rom;
}

/* Programs bytes, or erases a sector where there are none. No function of the program is called and nothing is read from flash
 * up to the end. */
RP2040_IN_RAM static void written(const rp2040_rom *rom, uint32_t offset, const uint8_t *bytes) {
    uint32_t before = interrupts_off();
    rom->connect();
    rom->exit_xip();
    if (bytes) rom->program(offset, bytes, PROGRAM);
    else rom->erase(offset, SECTOR, BLOCK, ERASE_BLOCK);
    rom->flush_cache();
    rom->enter_xip();
    interrupts_as(before);
}

/* What the chip says to a byte while it is selected. All ones where nothing comes. */
RP2040_IN_RAM static uint32_t exchanged(uint32_t byte) {
    EE_SET(EE_AT(SSI_DR0), byte);
    for (uint32_t turn = 0; turn < RP2040_BYTE_TURNS; turn++) {
        if (EE_GET(EE_AT(SSI_SR)) & SSI_RFNE) return EE_GET(EE_AT(SSI_DR0)) & 0xff;
    }
    return UINT32_MAX;
}

/* The status of the chip. */
RP2040_IN_RAM static uint32_t status_of_chip(void) {
    volatile uint32_t *select = EE_AT(SELECT);
    uint32_t control = EE_GET(select) & ~OUTOVER;
    EE_SET(select, control | OUTOVER_LOW);
    uint32_t status = exchanged(READ_STATUS) == UINT32_MAX ? UINT32_MAX : exchanged(0);
    EE_SET(select, control | OUTOVER); /* high; the ROM's flush_cache gives it back */
    return status;
}

/* Waits until the chip is ready, and brings it into its mode for reading. Whether that came. */
RP2040_IN_RAM static int is_awaited(const rp2040_rom *rom) {
    uint32_t before = interrupts_off(), status = STATUS_WIP;
    rom->connect();
    rom->exit_xip();
    for (uint32_t turn = 0; turn < EE_MOST_TURNS && (status & STATUS_WIP) != 0 && status != UINT32_MAX; turn++) {
        status = status_of_chip();
    }
    rom->flush_cache();
    rom->enter_xip();
    interrupts_as(before);
    return (status & STATUS_WIP) == 0;
}

/* Whether flash may be read. The first read waits for it. */
static int is_ready(rp2040 *part) {
    if (!part->is_ready) part->is_ready = (uint32_t)is_awaited(&part->rom);
    return part->is_ready != 0;
}

static uint32_t word(void *context, uint32_t page, uint32_t place, uint64_t *value) {
    rp2040 *part = context;
    if (!is_ready(part)) return EE_READ_FAILED;
    const volatile uint32_t *at = part->flash + 2 * (page * NUMBERS + place);
    uint32_t low = EE_GET(&at[0]);
    uint32_t high = EE_GET(&at[1]);
    *value = (uint64_t)high << 32 | low;
    return 0;
}

/* The flash is memory: they stand there. */
static const uint64_t *words(void *context, uint32_t page, uint32_t place, uint32_t count) {
    rp2040 *part = context;
    (void)count;
    if (!is_ready(part)) return NULL;
    return (const uint64_t *)(uintptr_t)(part->flash + 2 * (page * NUMBERS + place));
}

static uint32_t program(void *context, uint32_t page, uint32_t place, uint64_t value) {
    const rp2040 *part = context;
    uint8_t bytes[PROGRAM]; /* those that are all ones leave what stands there */
    uint32_t at = page * SECTOR + place * 8;
    uint64_t found;
    for (uint32_t i = 0; i < PROGRAM; i++) bytes[i] = 0xff;
    for (uint32_t i = 0; i < 8; i++) bytes[at % PROGRAM + i] = (uint8_t)(value >> 8 * i);
    if (!EE_MAY_STEP(0)) return 1;
    written(&part->rom, part->offset + at / PROGRAM * PROGRAM, bytes);
    EE_STEPPED(0);
    return word(context, page, place, &found) != 0 || found != value;
}

static uint32_t erase(void *context, uint32_t page) {
    const rp2040 *part = context;
    uint64_t found;
    if (!EE_MAY_STEP(1)) return 1;
    written(&part->rom, part->offset + page * SECTOR, NULL);
    EE_STEPPED(1);
    for (uint32_t place = 0; place < NUMBERS; place++) {
        if (word(context, page, place, &found) != 0 || found != UINT64_MAX) return 1;
    }
    return 0;
}

ee_flash rp2040_flash(rp2040 *part, uint32_t pages) {
    ee_flash flash = {
        .context = part,
        .pages = pages,
        .page_words = NUMBERS / 2,
        .word = word,
        .program = program,
        .erase = erase,
        .kind = EE_PAIRS_CLEARING,
        .words = words,
    };
    part->is_ready = 0;
    return flash;
}
