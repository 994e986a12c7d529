/* SPDX-License-Identifier: MIT OR Apache-2.0 */
#include "stm32_ecc.h"

#include <stddef.h>

/* What the families share, and where they differ. */
enum { ACR = 0x00, KEYR = 0x08, SR = 0x10, SR_CLEAR = SR, CR = 0x14, ECCR = 0x18, ECC2R = 0x1c, OPTR = 0x20 };
enum {
    SR_EOP = 1 << 0,
    SR_ERRORS = 0xc3fa, /* OPERR, PROGERR, WRPERR, PGAERR, SIZERR, PGSERR, MISERR, FASTERR, RDERR, OPTVERR */
    CR_PG = 1 << 0,
    CR_PER = 1 << 1,
    CR_PNB_SHIFT = 3,
    CR_STRT = 1 << 16,
    FLASH_BEGIN = 0x08000000,
    WIDE_PAGE_WORDS = 512, /* of a page of 4 KB */
    MOST_PAGES = 64,
    NMI_TURNS = 100 /* in which the NMI has come */
};
static const uint32_t CR_LOCK = 1u << 31, ECCR_ADDR = 0x7ffff, ECCR_ECCIE = 1u << 24;
/* Stands for a number that can't be read: no word of a store has it, nor its complement. So the pair is torn. */
static const uint64_t NO_NUMBER = 0x5a5a5a5a70425a5a;

#if defined(STM32G0) || defined(STM32C0) || defined(STM32U0)
enum { BASE = 0x40022000, SR_BUSY = 7 << 16 /* BSY1, BSY2, CFGBSY */, CR_BKER_SHIFT = 13, COUNTS_WORDS = 1 };
static const uint32_t CACHE_ON = 1u << 9, CACHE_RESET = 1u << 11; /* ICEN, ICRST */
static const uint32_t ECCR_BK = 0, ECCR_SYSF = 1u << 20;
#elif defined(STM32G4)
enum { BASE = 0x40022000, SR_BUSY = 1 << 16, CR_BKER_SHIFT = 11, COUNTS_WORDS = 0 };
static const uint32_t CACHE_ON = 1u << 10, CACHE_RESET = 1u << 12; /* DCEN, DCRST */
static const uint32_t ECCR_BK = 1u << 21, ECCR_SYSF = 1u << 22;
#else /* STM32L4, STM32WB, STM32WL */
#ifdef STM32L4
enum { BASE = 0x40022000, COUNTS_WORDS = 0 };
#else
enum { BASE = 0x58004000, COUNTS_WORDS = 1 };
#endif
/* BSY; of a WB and a WL CFGBSY, and PESD: the second core holds steps off. */
enum { SR_BUSY = 1 << 16 | 1 << 18 | 1 << 19, CR_BKER_SHIFT = 11 };
static const uint32_t CACHE_ON = 1u << 10, CACHE_RESET = 1u << 12; /* DCEN, DCRST */
static const uint32_t ECCR_BK = COUNTS_WORDS ? 0 : 1u << 19, ECCR_SYSF = 1u << 20;
#endif

/* The flags of an error that was corrected, and of one that can't be: of a word, and of the upper half of 128 bits. */
static const uint32_t ECCR_ECCC = 1u << 30, ECCR_ECCD = 1u << 31;
#ifdef STM32G4
static const uint32_t ECCR_ECCC2 = 1u << 28, ECCR_ECCD2 = 1u << 29;
#else
static const uint32_t ECCR_ECCC2 = 0, ECCR_ECCD2 = 0;
#endif

#include "stm32_part.h"

/* How the flash is laid out. */
typedef struct layout {
    uint32_t bytes;      /* of a bank, or of all: 0 where the port doesn't know the part */
    uint32_t page_bytes; /* of a page */
    uint32_t second;     /* where the second bank begins, 0 where there is none */
    uint32_t is_swapped; /* whether each bank is read at the other's address */
} layout;

static uint32_t read_at(uint32_t address) { return EE_GET(EE_AT(address)); }

/* Reads a register while a clock is on, without which it reads as 0. */
#if defined(STM32G0) || defined(STM32G4) || defined(STM32L4)
static uint32_t read_by_clock(uint32_t clocks, uint32_t clock, uint32_t address) {
    uint32_t before = read_at(clocks);
    EE_SET(EE_AT(clocks), before | clock);
    (void)read_at(clocks); /* the clock is on behind this */
    uint32_t found = read_at(address);
    EE_SET(EE_AT(clocks), before);
    return found;
}
#endif
#if defined(STM32G4) || defined(STM32L4)
enum { IDCODE_OF_M4 = (int32_t)0xe0042000, RCC_APB2ENR = 0x40021060, SYSCFGEN = 1 << 0, SYSCFG_MEMRMP = 0x40010000, FB_MODE = 1 << 8 };
static uint32_t is_exchanged(void) { return (read_by_clock(RCC_APB2ENR, SYSCFGEN, SYSCFG_MEMRMP) & FB_MODE) != 0; }
#endif

#if defined(STM32C0) || defined(STM32U0)
#ifdef STM32C0
enum { FLASH_KB = 0x1fff75a0, MOST_BYTES = 256 << 10 };
#else
enum { FLASH_KB = 0x1fff6ea0, MOST_BYTES = 256 << 10 };
#endif
static layout found_layout(uint32_t bytes) {
    layout found = {bytes <= MOST_BYTES ? bytes : 0, 2048, 0, 0};
    return found;
}
#elif defined(STM32G0)
enum { G03_G04 = 0x466, G05_G06 = 0x456, G07_G08 = 0x460, G0B_G0C = 0x467, FLASH_KB = 0x1fff75e0, MOST_BYTES = 512 << 10 };
enum { IDCODE = 0x40015800, RCC_APBENR1 = 0x4002103c, DBGEN = 1 << 27, NSWAP_BANK = 1 << 20, DUAL_BANK = 1 << 21 };
static layout found_layout(uint32_t bytes) {
    uint32_t device = read_by_clock(RCC_APBENR1, DBGEN, IDCODE) & 0xfff, options = read_at(BASE + OPTR);
    layout found = {0, 2048, 0, (options & NSWAP_BANK) == 0};
    if (bytes > MOST_BYTES) return found;
    if (device == G03_G04 || device == G05_G06 || device == G07_G08) found.bytes = bytes;
    if (device != G0B_G0C) return found;
    found.bytes = bytes / 2; /* with one bank the upper half is left out */
    if (options & DUAL_BANK) found.second = bytes / 2;
    return found;
}
#elif defined(STM32G4)
enum { G43_G44 = 0x468, G47_G48 = 0x469, G49_G4A = 0x479, FLASH_KB = 0x1fff75e0, MOST_BYTES = 512 << 10, DBANK = 1 << 22 };
static layout found_layout(uint32_t bytes) {
    uint32_t device = read_at((uint32_t)IDCODE_OF_M4) & 0xfff;
    layout found = {0, 2048, 0, 0};
    if (bytes > MOST_BYTES || (device != G43_G44 && device != G47_G48 && device != G49_G4A)) return found;
    found.bytes = bytes;
    if (device != G47_G48) return found;
    if ((read_at(BASE + OPTR) & DBANK) == 0) {
        found.page_bytes = 4096;
        return found;
    }
    found.bytes = bytes / 2;
    found.second = MOST_BYTES / 2;
    found.is_swapped = is_exchanged();
    return found;
}
#elif defined(STM32L4)
enum { L43_L44 = 0x435, L45_L46 = 0x462, L41_L42 = 0x464, L47_L48 = 0x415, L49_L4A = 0x461 };
enum { FLASH_KB = 0x1fff75e0, MOST_BYTES = 1 << 20, DUALBANK = 1 << 21 };
static layout found_layout(uint32_t bytes) {
    uint32_t device = read_at((uint32_t)IDCODE_OF_M4) & 0xfff;
    layout found = {0, 2048, 0, 0};
    if (bytes > MOST_BYTES) return found;
    if (device == L43_L44 || device == L45_L46 || device == L41_L42) found.bytes = bytes;
    if (device != L47_L48 && device != L49_L4A) return found;
    found.bytes = bytes;
    if (bytes != MOST_BYTES && (read_at(BASE + OPTR) & DUALBANK) == 0) return found;
    found.bytes = found.second = bytes / 2;
    found.is_swapped = is_exchanged();
    return found;
}
#else
enum { WB1 = 0x494, WB5 = 0x495, WB3 = 0x496, WL = 0x497, FLASH_KB = 0x1fff75e0, MOST_BYTES = 1 << 20 };
static layout found_layout(uint32_t bytes) {
    uint32_t device = read_at(0xe0042000) & 0xfff;
    layout found = {0, device == WB5 || device == WB3 ? 4096 : 2048, 0, 0};
#ifdef STM32WB
    if (bytes <= MOST_BYTES && (device == WB1 || device == WB5 || device == WB3)) found.bytes = bytes;
#else
    if (bytes <= MOST_BYTES && device == WL) found.bytes = bytes;
#endif
    return found;
}
#endif

/* The two steps. No function of the program is called and nothing is read from flash up to their end. */
EE_IN_RAM static int write_word(volatile uint32_t *at, uint32_t low, uint32_t high) {
    EE_SET(EE_AT(BASE + CR), CR_PG);
    EE_SET(&at[0], low);
    EE_SET(&at[1], high);
    EE_BARRIER(); /* the flash is busy */
    return end(BASE);
}

EE_IN_RAM static void start_erase(uint32_t which) {
    EE_SET(EE_AT(BASE + CR), which);
    EE_SET(EE_AT(BASE + CR), which | CR_STRT);
    EE_BARRIER();
}

EE_IN_RAM static int erase_page(uint32_t which) {
    start_erase(which);
    return end(BASE);
}

/* Turns the cache off: what is read then is what the flash has. What the register was. */
static uint32_t cache_off(void) {
    uint32_t acr = read_at(BASE + ACR);
    EE_SET(EE_AT(BASE + ACR), acr & ~CACHE_ON);
    return acr;
}

/* Empties the cache, which is off, for whoever else reads the pages, and turns it on where it was on. */
static void cache_as(uint32_t acr) {
    EE_SET(EE_AT(BASE + ACR), (acr & ~CACHE_ON) | CACHE_RESET);
    EE_SET(EE_AT(BASE + ACR), acr & ~CACHE_ON);
    EE_SET(EE_AT(BASE + ACR), acr);
    EE_BARRIER();
}

/* The register that tells the errors of the bank. */
static volatile uint32_t *eccr_of(const stm32_ecc *part) {
#ifdef STM32G0
    if (part->bank) return EE_AT(BASE + ECC2R);
#endif
    (void)part;
    return EE_AT(BASE + ECCR);
}

/* Clears those of the flags that stand. A flag is cleared by a 1, so the others are written with 0, and stay. */
static void clear_flags(const stm32_ecc *part, uint32_t eccr, uint32_t flags) {
    EE_SET(eccr_of(part), (eccr & ECCR_ECCIE) | (eccr & flags));
    EE_BARRIER();
}

/* Takes the flag of a corrected error away: while it stands the part tells no other error's address. Whether there was one. */
static int note_corrected(stm32_ecc *part, uint32_t eccr) {
    if ((eccr & (ECCR_ECCC | ECCR_ECCC2)) == 0) return 0;
    part->corrected = eccr;
    clear_flags(part, eccr, ECCR_ECCC | ECCR_ECCC2);
    return 1;
}

/* Waits until the handler of the NMI has taken the error of a read. What the register says then. */
static uint32_t settled(stm32_ecc *part) {
    uint32_t eccr = EE_GET(eccr_of(part));
    for (uint32_t turn = 0; turn < NMI_TURNS && (eccr & (ECCR_ECCD | ECCR_ECCD2)) != 0; turn++) eccr = EE_GET(eccr_of(part));
    EE_BARRIER();
    return eccr;
}

/* Whether the flash is read by 128 bits. */
static int is_wide(const stm32_ecc *part) { return ECCR_ECCD2 != 0 && part->page_words == WIDE_PAGE_WORDS; }

/* A number of words as ECCR counts them. */
static uint32_t told(uint32_t words) { return COUNTS_WORDS ? words : 8 * words; }

/* Whether a note is of the word that was read last: one flag is of a word, or of the lower half of 128 bits, and the other of
 * the upper half. Notes are kept until an erase, since a second read may tell nothing. */
static int is_noted(const stm32_ecc *part, uint32_t note, uint32_t flag, uint32_t upper_flag) {
    uint32_t line = ECCR_ADDR & ~(is_wide(part) ? told(2) - 1 : told(1) - 1), is_upper = is_wide(part) && (part->reading & 8) != 0;
    return (note & line) == (part->reading & line) && (note & (is_upper ? upper_flag : flag)) != 0;
}

static volatile uint32_t *word_at(const stm32_ecc *part, uint32_t page, uint32_t place) {
    return part->flash + 2 * (page * part->page_words + place);
}

/* Reads a word while the cache is off and no flag of a correction stands. It is torn where it has an error, or is all ones
 * by a correction. Where nobody takes the error, nothing is known of the word. */
static uint32_t sensed(stm32_ecc *part, uint32_t page, uint32_t place, uint64_t *value) {
    volatile uint32_t *at = word_at(part, page, place);
    part->reading = told((part->first_page + page) * part->page_words + place);
    part->is_reading = 1;
    EE_BARRIER(); /* the cache is off */
    uint32_t low = EE_GET(&at[0]);
    uint32_t high = EE_GET(&at[1]);
    EE_BARRIER(); /* the reads are done */
    uint32_t eccr = settled(part);
    part->is_reading = 0;
    if (note_corrected(part, eccr)) part->faint = (eccr & (ECCR_ECCC | ECCR_ECCC2)) | part->reading;
    *value = (uint64_t)high << 32 | low;
    if (eccr & (ECCR_ECCD | ECCR_ECCD2)) return EE_READ_FAILED;
    if (is_noted(part, part->error, ECCR_ECCD, ECCR_ECCD2)) return EE_TORN;
    return *value == UINT64_MAX && is_noted(part, part->faint, ECCR_ECCC, ECCR_ECCC2) ? EE_TORN : 0;
}

/* Reads a word while the cache is off. Behind an error that others met, the part may have this word from their read, and
 * tell nothing: so it reads another one first. */
static uint32_t look(stm32_ecc *part, uint32_t page, uint32_t place, uint64_t *value) {
    if (note_corrected(part, EE_GET(eccr_of(part))) || part->is_stale) {
        part->is_stale = 0;
        (void)sensed(part, page, place ^ 2, value);
    }
    uint32_t status = sensed(part, page, place, value);
    if (!STM32_ECC_PAIRS || status != EE_TORN) return status;
    *value = NO_NUMBER;
    return 0;
}

static uint32_t word(void *context, uint32_t page, uint32_t place, uint64_t *value) {
    uint32_t acr = cache_off();
    uint32_t status = look(context, page, place, value);
    EE_SET(EE_AT(BASE + ACR), acr);
    return status;
}

/* Reads words into the port's room, up to the first that can't be read. */
static const uint64_t *words(void *context, uint32_t page, uint32_t place, uint32_t count) {
    stm32_ecc *part = context;
    uint32_t acr = cache_off(), read = 0;
    while (read < count && look(part, page, place + read, &part->run[read]) == 0) read++;
    EE_SET(EE_AT(BASE + ACR), acr);
    return read == count ? part->run : NULL;
}

static uint32_t programmed(stm32_ecc *part, uint32_t page, uint32_t place, uint64_t value) {
    uint64_t found;
    if (!EE_MAY_STEP(0)) return 1;
    int is_well = begin(BASE) && write_word(word_at(part, page, place), (uint32_t)value, (uint32_t)(value >> 32));
    EE_STEPPED(0);
    return !is_well || look(part, page, place, &found) != 0 || found != value;
}

/* What the control register gets for the erase of a page. What is noted of torn words ends with it. */
static uint32_t erase_of(stm32_ecc *part, uint32_t page) {
    part->error = part->faint = 0;
    part->is_stale = 1;
    return CR_PER | (part->first_page + page) << CR_PNB_SHIFT | part->bank << CR_BKER_SHIFT;
}

static uint32_t erased(stm32_ecc *part, uint32_t page) {
    uint64_t found;
    if (!EE_MAY_STEP(1)) return 1;
    int is_well = begin(BASE) && erase_page(erase_of(part, page));
    EE_STEPPED(1);
    for (uint32_t place = 0; place < part->page_words && is_well; place++) {
        is_well = look(part, page, place, &found) == 0 && found == UINT64_MAX;
    }
    return !is_well;
}

/* Ends an erase that was begun, once the flash is ready or gives no end. */
static void finish(stm32_ecc *part) {
    if (!part->is_erasing) return;
    (void)end(BASE);
    part->is_erasing = 0;
    cache_as(part->acr);
    EE_STEPPED(1);
}

/* The cache is off from before the write until it was emptied behind it. */
static uint32_t program(void *context, uint32_t page, uint32_t place, uint64_t value) {
    finish(context);
    uint32_t acr = cache_off();
    uint32_t status = programmed(context, page, place, value);
    cache_as(acr);
    return status;
}

static uint32_t erase(void *context, uint32_t page) {
    finish(context);
    uint32_t acr = cache_off();
    uint32_t status = erased(context, page);
    cache_as(acr);
    return status;
}

int stm32_ecc_begin_erase(stm32_ecc *part, uint32_t page) {
    finish(part);
    if (page >= part->pages || !EE_MAY_STEP(1)) return 0;
    part->acr = cache_off();
    part->is_erasing = 1;
    if (begin(BASE)) start_erase(erase_of(part, page));
    else finish(part);
    return part->is_erasing != 0;
}

int stm32_ecc_is_done(stm32_ecc *part) {
    if (part->is_erasing && (read_at(BASE + SR) & SR_BUSY) != 0) return 0;
    finish(part);
    return 1;
}

/* Finds the bank of the pages and the number of the first. Whether they are whole pages of one bank of a part that is known. */
static int is_placed(stm32_ecc *part, uint32_t address, uint32_t pages) {
    layout all = found_layout(1024 * (read_at(FLASH_KB) & 0xffff));
    uint32_t offset = address - FLASH_BEGIN, is_second = all.second != 0 && offset >= all.second;
    if (is_second) offset -= all.second;
    part->page_words = all.page_bytes / 8;
    part->first_page = offset / all.page_bytes;
    part->bank = all.second != 0 && is_second != all.is_swapped;
    if (offset % all.page_bytes != 0 || pages > MOST_PAGES) return 0;
    return offset < all.bytes && 2 * all.page_bytes * pages <= all.bytes - offset;
}

ee_flash stm32_ecc_flash(stm32_ecc *part, uint32_t address, uint32_t pages) {
    if (!is_placed(part, address, pages)) pages = 0;
    ee_flash flash = {
        .context = part,
        .pages = pages,
        .page_words = part->page_words >> STM32_ECC_PAIRS,
        .word = word,
        .program = program,
        .erase = erase,
        .kind = STM32_ECC_PAIRS ? EE_PAIRS_CLEARING : EE_CODED,
        .words = words,
    };
    part->flash = EE_AT(address);
    part->pages = 2 * pages;
    return flash;
}

/* Whether the address is that of the error. Where the flag of a corrected error stands, that one may have been first, and the
 * error anywhere. */
static int is_its_address(uint32_t eccr) { return (eccr & (ECCR_ECCC | ECCR_ECCC2)) == 0; }

/* Whether the error that ECCR tells is in the store's pages. */
static int is_in_pages(const stm32_ecc *part, uint32_t eccr) {
    if (part->pages == 0 || (eccr & ECCR_SYSF) != 0) return 0;
    uint32_t page = (eccr & ECCR_ADDR) / told(part->page_words) - part->first_page;
    int is_in_bank = ECCR_BK == 0 || is_wide(part) || ((eccr & ECCR_BK) != 0) == (part->bank != 0);
    return is_in_bank && page < part->pages;
}

int stm32_ecc_nmi(stm32_ecc *part) {
    uint32_t eccr = EE_GET(eccr_of(part));
    if ((eccr & (ECCR_ECCD | ECCR_ECCD2)) == 0) return 0;
    if (part->is_reading) {
        part->error = (eccr & ~ECCR_ADDR) | part->reading;
    } else {
        part->is_stale = 1;
        if (!is_its_address(eccr) || !is_in_pages(part, eccr)) return 0;
    }
    clear_flags(part, eccr, ECCR_ECCD | ECCR_ECCD2);
    return 1;
}
