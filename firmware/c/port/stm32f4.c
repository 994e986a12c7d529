/* SPDX-License-Identifier: MIT OR Apache-2.0 */
#include "stm32f4.h"

/* What a test puts in place of the part, beside what stm32_part.h has: a unit of the flash. */
#ifndef STM32_SET_UNIT
#define STM32_SET_UNIT(address, value) (*(address) = (value))
#endif
/* A sector of 128 KB takes 2 s to be erased, and a turn of the loop some cycles of at most 216 MHz. */
#ifndef EE_MOST_TURNS
#define EE_MOST_TURNS 100000000
#endif

/* How many bits are programmed at once, by the supply: 32 from 2.7 V on, 16 from 2.1 V on, 8 below that. Yours. */
#ifndef STM32F4_BITS
#define STM32F4_BITS 32
#endif
#if STM32F4_BITS == 32
typedef uint32_t unit;
#elif STM32F4_BITS == 16
typedef uint16_t unit;
#elif STM32F4_BITS == 8
typedef uint8_t unit;
#else
#error "STM32F4_BITS is 8, 16 or 32"
#endif

enum { BASE = 0x40023c00, ACR = 0x00, KEYR = 0x04, SR = 0x0c, SR_CLEAR = SR, CR = 0x10 };
enum {
    SR_EOP = 1 << 0,
    SR_ERRORS = 0x1f2, /* OPERR, WRPERR, PGAERR, PGPERR, PGSERR (ERSERR of an F7), RDERR */
    SR_BUSY = 1 << 16,
    CR_PG = 1 << 0,
    CR_SER = 1 << 1,
    CR_SNB_SHIFT = 3,
    CR_PSIZE = (STM32F4_BITS / 16) << 8, /* 0, 1 or 2 */
    CR_STRT = 1 << 16,
    UNITS = 64 / STM32F4_BITS /* of a number */
};
static const uint32_t CR_LOCK = 1u << 31;

#include "stm32_part.h"

#ifdef STM32F7
/* The core has the data cache. It keeps nothing that the flash doesn't have, so its lines are thrown away behind a step. */
enum { LINE_BYTES = 32 };
static const uint32_t DCIMVAC = 0xe000ef5c;
static uint32_t cache_off(void) { return 0; }
static void cache_as(uint32_t acr) { (void)acr; }
static void forget(volatile uint32_t *from, uint32_t bytes) {
    uint32_t at = (uint32_t)(uintptr_t)from & ~(LINE_BYTES - 1u), end_at = (uint32_t)(uintptr_t)from + bytes;
    EE_BARRIER();
    for (; at < end_at; at += LINE_BYTES) EE_SET(EE_AT(DCIMVAC), at);
    EE_BARRIER();
}
#else
static const uint32_t ACR_DCEN = 1u << 10, ACR_DCRST = 1u << 12;

/* Turns the data cache off: what is read then is what the flash has. What the register was. */
static uint32_t cache_off(void) {
    uint32_t acr = EE_GET(EE_AT(BASE + ACR));
    EE_SET(EE_AT(BASE + ACR), acr & ~ACR_DCEN);
    EE_BARRIER();
    return acr;
}

/* Empties the data cache, which is off, and turns it on where it was on. */
static void cache_as(uint32_t acr) {
    EE_SET(EE_AT(BASE + ACR), (acr & ~ACR_DCEN) | ACR_DCRST);
    EE_SET(EE_AT(BASE + ACR), acr & ~ACR_DCEN);
    EE_SET(EE_AT(BASE + ACR), acr);
    EE_BARRIER();
}

static void forget(volatile uint32_t *from, uint32_t bytes) { (void)from, (void)bytes; }
#endif

static volatile uint32_t *number_at(const stm32f4 *part, uint32_t page, uint32_t place) {
    return part->sectors[page].flash + 2 * place;
}

static uint32_t word(void *context, uint32_t page, uint32_t place, uint64_t *value) {
    volatile uint32_t *at = number_at(context, page, place);
    uint32_t low = EE_GET(&at[0]);
    uint32_t high = EE_GET(&at[1]);
    *value = (uint64_t)high << 32 | low;
    return 0;
}

/* The two steps, from their beginning to their end. Whether there was no error. A unit that is all ones stays erased. */
EE_IN_RAM static int write_units(volatile unit *at, const unit *units) {
    int is_well = 1;
    EE_SET(EE_AT(BASE + CR), CR_PSIZE | CR_PG);
    for (int i = 0; i < UNITS && is_well; i++) {
        if (units[i] == (unit)-1) continue;
        STM32_SET_UNIT(&at[i], units[i]);
        EE_BARRIER(); /* the flash is busy */
        is_well = is_well_done(BASE);
    }
    lock(BASE);
    return is_well;
}

EE_IN_RAM static int erase_sector(uint32_t number) {
    uint32_t which = CR_PSIZE | CR_SER | number << CR_SNB_SHIFT;
    EE_SET(EE_AT(BASE + CR), which);
    EE_SET(EE_AT(BASE + CR), which | CR_STRT);
    EE_BARRIER();
    return end(BASE);
}

/* The flash is memory: they stand there. */
static const uint64_t *words(void *context, uint32_t page, uint32_t place, uint32_t count) {
    (void)count;
    return (const uint64_t *)(uintptr_t)number_at(context, page, place);
}

static uint32_t programmed(stm32f4 *part, uint32_t page, uint32_t place, uint64_t value) {
    volatile unit *at = (volatile unit *)number_at(part, page, place);
    unit units[UNITS];
    uint64_t found;
    for (int i = 0; i < UNITS; i++) units[i] = (unit)(value >> STM32F4_BITS * i);
    if (!EE_MAY_STEP(0)) return 1;
    int is_well = begin(BASE) && write_units(at, units);
    EE_STEPPED(0);
    forget(number_at(part, page, place), sizeof value);
    return !is_well || word(part, page, place, &found) != 0 || found != value;
}

static uint32_t erased(stm32f4 *part, uint32_t page) {
    uint64_t found;
    if (!EE_MAY_STEP(1)) return 1;
    int is_well = begin(BASE) && erase_sector(part->sectors[page].number);
    EE_STEPPED(1);
    forget(part->sectors[page].flash, 16 * part->page_words);
    for (uint32_t place = 0; place < 2 * part->page_words && is_well; place++) {
        is_well = word(part, page, place, &found) == 0 && found == UINT64_MAX;
    }
    return !is_well;
}

/* The cache is off from before the write until it was emptied behind it. */
static uint32_t program(void *context, uint32_t page, uint32_t place, uint64_t value) {
    uint32_t acr = cache_off();
    uint32_t status = programmed(context, page, place, value);
    cache_as(acr);
    return status;
}

static uint32_t erase(void *context, uint32_t page) {
    uint32_t acr = cache_off();
    uint32_t status = erased(context, page);
    cache_as(acr);
    return status;
}

ee_flash stm32f4_flash(stm32f4 *part) {
    ee_flash flash = {
        .context = part,
        .pages = 1,
        .page_words = part->page_words,
        .word = word,
        .program = program,
        .erase = erase,
        .kind = EE_PAIRS_CLEARING,
        .words = words,
    };
    return flash;
}
