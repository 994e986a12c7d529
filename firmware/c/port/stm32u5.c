/* SPDX-License-Identifier: MIT OR Apache-2.0 */
#include "stm32u5.h"

#include <stddef.h>

/* What the families share, and where they differ. */
enum {
    FLASH_BEGIN = 0x08000000,
    BASE = 0x40022000,
    CACHE = 0x40030400,
    CACHE_CR = 0x00,
    CACHE_SR = 0x04,
    CACHE_FCR = 0x0c,
    PAGE_WORDS = 512,
    PARTS = 4, /* of a unit: 32 bits each */
    UNIT_BYTES = 4 * PARTS,
    MOST_PAGES = 64,
    NMI_TURNS = 100 /* in which the NMI has come */
};
static const uint32_t CACHE_EN = 1u << 0, CACHE_CACHEINV = 1u << 1, CACHE_BUSYF = 1u << 0, CACHE_BSYENDF = 1u << 1;
static const uint32_t ECCR_ECCC = 1u << 30, ECCR_ECCD = 1u << 31;

#ifdef STM32H5
/* Flags are cleared in a register of their own, and the two kinds of errors have one each. */
enum { KEYR = 0x04, SR = 0x20, SR_CLEAR = 0x30, CR = 0x28, ECC_CORR = 0x100, ECC_DET = 0x104, OPTR = 0x50, OPTR_2 = 0x70 };
enum {
    SR_BUSY = 1 << 0 | 1 << 1 | 1 << 3, /* BSY, WBNE, DBNE */
    SR_EOP = 1 << 16,
    SR_ERRORS = 0xf << 17, /* WRPERR, PGSERR, STRBERR, INCERR */
    CR_PG = 1 << 1,
    CR_PER = 1 << 2, /* SER */
    CR_STRT = 1 << 5,
    CR_PNB_SHIFT = 6, /* SNB */
    CR_BKER_SHIFT = 31 /* BKSEL */
};
static const uint32_t CR_LOCK = 1u << 0;
static const uint32_t ECCR_ADDR = 0xffff, ECCR_BK = 1u << 22, ECCR_SYSF = 1u << 20 | 1u << 21 | 1u << 23 | 1u << 24;
static const uint32_t ECCR_ECCIE = 1u << 25; /* above: OBK, EDATA, the system's flash, OTP */
enum { FLASH_KB = 0x08fff80c, UNIT = 1 };
#else
enum { KEYR = 0x08, SR = 0x20, SR_CLEAR = SR, CR = 0x28, ECC_CORR = 0x30, ECC_DET = ECC_CORR, OPTR = 0x40 };
enum {
    SR_EOP = 1 << 0,
    SR_ERRORS = 0x20fa, /* OPERR, PROGERR, WRPERR, PGAERR, SIZERR, PGSERR, OPTWERR */
    SR_BUSY = 1 << 16 | 1 << 17, /* BSY, WDW */
    CR_PG = 1 << 0,
    CR_PER = 1 << 1,
    CR_STRT = 1 << 16,
    CR_PNB_SHIFT = 3,
    CR_BKER_SHIFT = 11
};
static const uint32_t CR_LOCK = 1u << 31;
static const uint32_t ECCR_ADDR = 0x1fffff, ECCR_BK = 1u << 21, ECCR_SYSF = 1u << 22, ECCR_ECCIE = 1u << 24;
enum { UNIT = UNIT_BYTES };
#ifdef STM32WBA
enum { FLASH_KB = 0x0bf907a0 };
#else
enum { FLASH_KB = 0x0bfa07a0 };
#endif
#endif

#ifndef STM32_INTERRUPTS_OFF
#ifdef __arm__
/* Turns interrupts off, and gives what it was before. */
static inline uint32_t interrupts_off(void) {
    uint32_t before;
    __asm__ volatile("mrs %0, primask\n\tcpsid i" : "=r"(before) : : "memory");
    return before;
}
static inline void interrupts_as(uint32_t before) { __asm__ volatile("msr primask, %0" : : "r"(before) : "memory"); }
#else
static uint32_t interrupts_off(void) { return 0; }
static void interrupts_as(uint32_t before) { (void)before; }
#endif
#endif

#include "stm32_part.h"

static uint32_t read_at(uint32_t address) { return EE_GET(EE_AT(address)); }

/* The two steps, from their beginning to their end. No interrupt comes between the parts of a unit. */
EE_IN_RAM static int write_unit(volatile uint32_t *at, const uint32_t *parts) {
    EE_SET(EE_AT(BASE + CR), CR_PG);
    uint32_t before = interrupts_off();
    for (int i = 0; i < PARTS; i++) EE_SET(&at[i], parts[i]);
    interrupts_as(before);
    EE_BARRIER(); /* the flash is busy */
    return end(BASE);
}

EE_IN_RAM static int erase_page(uint32_t which) {
    EE_SET(EE_AT(BASE + CR), which);
    EE_SET(EE_AT(BASE + CR), which | CR_STRT);
    EE_BARRIER();
    return end(BASE);
}

/* Waits until some bits of a register of the cache stand as wanted. Whether that came. */
static int comes(uint32_t address, uint32_t bits, uint32_t wanted) {
    for (uint32_t turn = 0; turn < EE_MOST_TURNS; turn++) {
        if ((read_at(address) & bits) == wanted) return 1;
    }
    return 0;
}

/* Empties the cache. Whether that came to its end. As the cache is turned off it is emptied too. */
static int empty_cache(void) {
    if (!comes(CACHE + CACHE_SR, CACHE_BUSYF, 0)) return 0;
    EE_SET(EE_AT(CACHE + CACHE_FCR), CACHE_BSYENDF);
    EE_SET(EE_AT(CACHE + CACHE_CR), read_at(CACHE + CACHE_CR) | CACHE_CACHEINV);
    int is_empty = comes(CACHE + CACHE_SR, CACHE_BUSYF | CACHE_BSYENDF, CACHE_BSYENDF);
    EE_SET(EE_AT(CACHE + CACHE_FCR), CACHE_BSYENDF);
    return is_empty;
}

/* Turns the cache off: what is read then is what the flash has. Whether that came. */
static int cache_off(void) {
    EE_SET(EE_AT(CACHE + CACHE_FCR), CACHE_BSYENDF);
    EE_SET(EE_AT(CACHE + CACHE_CR), read_at(CACHE + CACHE_CR) & ~CACHE_EN);
    return comes(CACHE + CACHE_CR, CACHE_EN, 0);
}

/* Empties the cache, and turns it on where it was on. Whether it is empty: else the next read empties it again. */
static int cache_as(stm32u5 *part, uint32_t cr) {
    int is_empty = empty_cache();
    if (!is_empty) part->is_stale = 1;
    EE_SET(EE_AT(CACHE + CACHE_CR), cr);
    return is_empty;
}

/* Clears those of the flags that stand. A flag is cleared by a 1, so the others are written with 0, and stay. */
static void clear_flags(uint32_t place, uint32_t eccr, uint32_t flags) {
    EE_SET(EE_AT(BASE + place), (eccr & ECCR_ECCIE) | (eccr & flags));
    EE_BARRIER();
}

/* Takes the flag of a corrected error away: while it stands the part tells no other error's address. Whether there was one. */
static int note_corrected(stm32u5 *part, uint32_t eccr) {
    if ((eccr & ECCR_ECCC) == 0) return 0;
    part->corrected = eccr;
    part->is_stale = 1;
    clear_flags(ECC_CORR, eccr, ECCR_ECCC);
    return 1;
}

/* Waits until the handler of the NMI has taken the error of a read. What the register says then. */
static uint32_t settled(void) {
    uint32_t eccr = read_at(BASE + ECC_DET);
    for (uint32_t turn = 0; turn < NMI_TURNS && (eccr & ECCR_ECCD) != 0; turn++) eccr = read_at(BASE + ECC_DET);
    EE_BARRIER();
    return eccr;
}

/* Whether a note is of the unit that was read last. Notes are kept until an erase, since a second read may tell nothing. */
static int is_noted(const stm32u5 *part, uint32_t note, uint32_t flag) {
    return (note & ECCR_ADDR) / UNIT == part->reading / UNIT && (note & flag) != 0;
}

static volatile uint32_t *unit_at(const stm32u5 *part, uint32_t page, uint32_t place) {
    return part->flash + PARTS * (page * PAGE_WORDS + place);
}

/* Reads a word while no flag of a correction stands. It is torn where its unit has an error, or is all ones by a correction, or
 * where the halves are neither both erased nor each other's complement. Where nobody takes the error, nothing is known of it. */
static uint32_t sensed(stm32u5 *part, uint32_t page, uint32_t place, uint64_t *value) {
    volatile uint32_t *at = unit_at(part, page, place);
    uint64_t half[2];
    part->reading = UNIT * ((part->first_page + page) * PAGE_WORDS + place);
    part->is_reading = 1;
    EE_BARRIER(); /* the cache is on or off as it was told */
    for (int i = 0; i < 2; i++) {
        uint32_t low = EE_GET(&at[2 * i]);
        uint32_t high = EE_GET(&at[2 * i + 1]);
        half[i] = (uint64_t)high << 32 | low;
    }
    EE_BARRIER(); /* the reads are done */
    uint32_t eccr = settled();
    part->is_reading = 0;
    if (note_corrected(part, read_at(BASE + ECC_CORR))) part->faint = ECCR_ECCC | part->reading;
    *value = half[0];
    if (eccr & ECCR_ECCD) return EE_READ_FAILED;
    if (is_noted(part, part->error, ECCR_ECCD)) return EE_TORN;
    if (half[0] != UINT64_MAX) return half[1] == ~half[0] ? 0 : EE_TORN;
    return half[1] != UINT64_MAX || is_noted(part, part->faint, ECCR_ECCC) ? EE_TORN : 0;
}

/* Reads a word. Behind an error the unit may be in the cache, or the part may have it from that read, and tell nothing: so another
 * unit is read first, past the cache, which is emptied behind that too. */
static uint32_t word(void *context, uint32_t page, uint32_t place, uint64_t *value) {
    stm32u5 *part = context;
    (void)note_corrected(part, read_at(BASE + ECC_CORR));
    if (part->is_stale) {
        if (!empty_cache()) return EE_READ_FAILED;
        (void)sensed(part, page, place ^ 1, value);
        if (!empty_cache()) return EE_READ_FAILED;
        part->is_stale = 0;
    }
    return sensed(part, page, place, value);
}

/* Reads words into the port's room, up to the first that can't be read. */
static const uint64_t *words(void *context, uint32_t page, uint32_t place, uint32_t count) {
    stm32u5 *part = context;
    uint32_t read = 0;
    while (read < count && word(context, page, place + read, &part->run[read]) == 0) read++;
    return read == count ? part->run : NULL;
}

static uint32_t programmed(stm32u5 *part, uint32_t page, uint32_t place, uint64_t value) {
    const uint32_t parts[PARTS] = {(uint32_t)value, (uint32_t)(value >> 32), (uint32_t)~value, (uint32_t)(~value >> 32)};
    uint64_t found;
    if (!EE_MAY_STEP(0)) return 1;
    int is_well = begin(BASE) && write_unit(unit_at(part, page, place), parts);
    EE_STEPPED(0);
    return !is_well || word(part, page, place, &found) != 0 || found != value;
}

static uint32_t erased(stm32u5 *part, uint32_t page) {
    uint64_t found;
    if (!EE_MAY_STEP(1)) return 1;
    uint32_t number = part->first_page + page;
    int is_well = begin(BASE) && erase_page(CR_PER | number << CR_PNB_SHIFT | part->bank << CR_BKER_SHIFT);
    EE_STEPPED(1);
    if (is_well) part->error = part->faint = 0;
    for (uint32_t place = 0; place < PAGE_WORDS && is_well; place++) {
        is_well = word(part, page, place, &found) == 0 && found == UINT64_MAX;
    }
    return !is_well;
}

/* The cache is off from before the write until it was emptied behind it. */
static uint32_t program(void *context, uint32_t page, uint32_t place, uint64_t value) {
    uint32_t cr = read_at(CACHE + CACHE_CR), status = cache_off() ? programmed(context, page, place, value) : 1;
    return cache_as(context, cr) ? status : 1;
}

static uint32_t erase(void *context, uint32_t page) {
    uint32_t cr = read_at(CACHE + CACHE_CR), status = cache_off() ? erased(context, page) : 1;
    return cache_as(context, cr) ? status : 1;
}

/* How many bytes a bank has, or the flash with one: 0 where the port doesn't know the part, or the NMI isn't ours. */
#ifndef STM32H5
static int is_ours(uint32_t options) { return options >> 31 == 0 || (read_at(0xe000ed0c) >> 13 & 1) != 0; } /* TZEN, BFHFNMINS */
#endif
#if defined(STM32H5)
enum { MOST_BYTES = 2 << 20, TZEN_ON = 0xb4 };
static uint32_t bank_bytes(uint32_t bytes, int *has_two, int *is_swapped) {
    *has_two = 1;
    *is_swapped = read_at(BASE + OPTR) >> 31 != 0;
    int is_ours = read_at(BASE + OPTR_2) >> 24 != TZEN_ON || (read_at(0xe000ed0c) >> 13 & 1) != 0; /* BFHFNMINS */
    return is_ours && bytes <= MOST_BYTES ? bytes / 2 : 0;
}
#elif defined(STM32WBA)
enum { MOST_BYTES = 1 << 20 };
static uint32_t bank_bytes(uint32_t bytes, int *has_two, int *is_swapped) {
    *has_two = *is_swapped = 0;
    return is_ours(read_at(BASE + OPTR)) && bytes <= MOST_BYTES ? bytes : 0;
}
#else
enum { MOST_BYTES = 4 << 20, SWAP_BANK = 1 << 20, DUALBANK = 1 << 21 };
static uint32_t bank_bytes(uint32_t bytes, int *has_two, int *is_swapped) {
    uint32_t options = read_at(BASE + OPTR), kb = bytes / 1024;
    *has_two = (options & DUALBANK) != 0;
    *is_swapped = (options & SWAP_BANK) != 0;
    if (!is_ours(options) || bytes > MOST_BYTES) return 0;
    return *has_two ? bytes / 2 : kb == 128 || kb == 256 || kb == 1024 ? bytes : 0;
}
#endif

/* Finds the bank of the pages and the number of the first. Whether they are whole pages of one bank, and the NMI is ours. */
static int is_placed(stm32u5 *part, uint32_t address, uint32_t pages) {
    int has_two, is_swapped;
    uint32_t all = bank_bytes(1024 * (read_at(FLASH_KB & ~3u) >> 8 * (FLASH_KB & 3) & 0xffff), &has_two, &is_swapped);
    uint32_t offset = address - FLASH_BEGIN;
    int is_second = has_two && offset >= all;
    if (is_second) offset -= all;
    part->first_page = offset / (UNIT_BYTES * PAGE_WORDS);
    part->bank = (uint32_t)(has_two && is_second != is_swapped);
    if (pages > MOST_PAGES || offset % (UNIT_BYTES * PAGE_WORDS) != 0 || offset >= all) return 0;
    return 2 * UNIT_BYTES * PAGE_WORDS * pages <= all - offset;
}

ee_flash stm32u5_flash(stm32u5 *part, uint32_t address, uint32_t pages) {
    if (!is_placed(part, address, pages)) pages = 0;
    ee_flash flash = {
        .context = part,
        .pages = pages,
        .page_words = PAGE_WORDS,
        .word = word,
        .program = program,
        .erase = erase,
        .kind = EE_CODED,
        .words = words,
    };
    part->flash = EE_AT(address);
    part->pages = 2 * pages;
    return flash;
}

/* Whether the address is that of the error. Where the flag of a corrected error stands, that one may have been first, and the
 * error anywhere. */
static int is_its_address(uint32_t eccr) { return (eccr & ECCR_ECCC) == 0; }

/* Whether the error that ECCR tells is in the store's pages. */
static int is_in_pages(const stm32u5 *part, uint32_t eccr) {
    uint32_t page = (eccr & ECCR_ADDR) / (UNIT * PAGE_WORDS) - part->first_page;
    return (eccr & ECCR_SYSF) == 0 && ((eccr & ECCR_BK) != 0) == (part->bank != 0) && page < part->pages;
}

int stm32u5_nmi(stm32u5 *part) {
    uint32_t eccr = read_at(BASE + ECC_DET);
    if ((eccr & ECCR_ECCD) == 0) return 0;
    part->is_stale = 1;
    if (part->is_reading) part->error = (eccr & ~ECCR_ADDR) | part->reading;
    else if (!is_its_address(eccr) || !is_in_pages(part, eccr)) return 0;
    clear_flags(ECC_DET, eccr, ECCR_ECCD);
    return 1;
}
