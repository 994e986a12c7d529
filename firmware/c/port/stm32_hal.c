/* SPDX-License-Identifier: MIT OR Apache-2.0 */
#include "stm32_hal.h"

#include <stddef.h>

#ifndef STM32_HAL_HEADER
#define STM32_HAL_HEADER "main.h" /* of a project by CubeMX: it takes in the HAL of the family */
#endif
#include STM32_HAL_HEADER

/* How many bits the part programs at once. With 64 it has ECC over them. An F2 and an F4 program 32 from 2.7 V on; for 2.1 V
 * define it as 16, for 1.8 V as 8. */
#if defined(STM32L4) && defined(FLASH_ECCR_ECCD2)
#error "an L4+ has another ECCR: the port doesn't fit"
#elif defined(STM32G0) || defined(STM32G4) || defined(STM32L4) || defined(STM32WB) || defined(STM32WL)
#define STM32_HAL_BITS 64
#elif defined(STM32F2) || defined(STM32F4)
#define HAS_SECTORS
#ifndef STM32_HAL_BITS
#define STM32_HAL_BITS 32
#endif
#elif defined(STM32F0) || defined(STM32F1) || defined(STM32F3)
#define STM32_HAL_BITS 16
#else
#error "the port knows no such family"
#endif

/* A part with two banks by the HAL, of which ST's files don't name what tells how they are read, isn't guessed at. */
#ifdef FLASH_BANK_2
#if defined(STM32G4) && !(defined(FLASH_OPTR_DBANK) && defined(SYSCFG_MEMRMP_FB_MODE)) || \
    defined(STM32L4) && !(defined(FLASH_OPTR_DUALBANK) && defined(SYSCFG_MEMRMP_FB_MODE)) || \
    defined(STM32G0) && !(defined(FLASH_OPTR_DUAL_BANK) && defined(FLASH_OPTR_nSWAP_BANK)) || \
    defined(HAS_SECTORS) && !defined(SYSCFG_MEMRMP_UFB_MODE)
#error "the port doesn't know how this part exchanges its banks"
#endif
#endif

#include "ee_port.h"

enum { WORD_BYTES = STM32_HAL_BITS == 64 ? 8 : 16, MOST_WORDS = 512, MOST_PAGES = 64 };

/* The flags of FLASH_SR that are cleared by a 1, and how the HAL names what is programmed and the supply. */
#if STM32_HAL_BITS == 64
enum { SR_FLAGS = 0xc3fb, PROGRAMMED = FLASH_TYPEPROGRAM_DOUBLEWORD };
#elif !defined(HAS_SECTORS)
enum { SR_FLAGS = 0x34, PROGRAMMED = FLASH_TYPEPROGRAM_HALFWORD };
#elif STM32_HAL_BITS == 32
enum { SR_FLAGS = 0x1f3, PROGRAMMED = FLASH_TYPEPROGRAM_WORD, SUPPLY = FLASH_VOLTAGE_RANGE_3 };
#elif STM32_HAL_BITS == 16
enum { SR_FLAGS = 0x1f3, PROGRAMMED = FLASH_TYPEPROGRAM_HALFWORD, SUPPLY = FLASH_VOLTAGE_RANGE_2 };
#elif STM32_HAL_BITS == 8
enum { SR_FLAGS = 0x1f3, PROGRAMMED = FLASH_TYPEPROGRAM_BYTE, SUPPLY = FLASH_VOLTAGE_RANGE_1 };
#else
#error "STM32_HAL_BITS is 8, 16 or 32"
#endif

/* The cache that data come from, where there is one. */
#if defined(FLASH_ACR_DCEN)
static const uint32_t CACHE_ON = FLASH_ACR_DCEN, CACHE_RESET = FLASH_ACR_DCRST;
#elif defined(FLASH_ACR_ICEN)
static const uint32_t CACHE_ON = FLASH_ACR_ICEN, CACHE_RESET = FLASH_ACR_ICRST;
#else
#define HAS_NO_CACHE
#endif

/* Turns the cache off: what is read then is what the flash has. What the register was. */
static uint32_t cache_off(void) {
#ifdef HAS_NO_CACHE
    return 0;
#else
    uint32_t acr = EE_GET(&FLASH->ACR);
    EE_SET(&FLASH->ACR, acr & ~CACHE_ON);
    EE_BARRIER();
    return acr;
#endif
}

/* Empties the cache, which is off, and turns it on where it was on. */
static void cache_as(uint32_t acr) {
#ifdef HAS_NO_CACHE
    (void)acr;
#else
    EE_SET(&FLASH->ACR, (acr & ~CACHE_ON) | CACHE_RESET);
    EE_SET(&FLASH->ACR, acr & ~CACHE_ON);
    EE_SET(&FLASH->ACR, acr);
    EE_BARRIER();
#endif
}

/* How large the flash is, as the part tells. */
#ifdef FLASH_SIZE
#define FLASH_BYTES ((uint32_t)(FLASH_SIZE))
#else
#define FLASH_BYTES (1024 * (EE_GET(EE_AT(FLASHSIZE_BASE & ~3u)) >> 8 * (FLASHSIZE_BASE & 2) & 0xffff))
#endif

static uint32_t page_words(const stm32_hal *part) {
    uint32_t words = part->page_bytes / WORD_BYTES;
    return words < MOST_WORDS ? words : MOST_WORDS;
}

/* Where a word stands, or a number. */
static const volatile uint32_t *at(const stm32_hal *part, uint32_t page, uint32_t place) {
    return part->flash + page * (part->page_bytes / 4) + 2 * place;
}

static uint64_t bits_at(const volatile uint32_t *from) {
    uint32_t low = EE_GET(&from[0]);
    uint32_t high = EE_GET(&from[1]);
    return (uint64_t)high << 32 | low;
}

#if STM32_HAL_BITS == 64

#if defined(STM32G4) || defined(STM32L4)
enum { ADDRESS_BYTES = 1 }; /* what ECCR counts the address by */
#else
enum { ADDRESS_BYTES = 8 };
#endif
/* Flags of the upper half, where the flash is read by 128 bits, and the flag of the second bank. */
#ifdef FLASH_ECCR_ECCD2
static const uint32_t CORRECTIONS = FLASH_ECCR_ECCC | FLASH_ECCR_ECCC2, DETECTIONS = FLASH_ECCR_ECCD | FLASH_ECCR_ECCD2;
#else
static const uint32_t CORRECTIONS = FLASH_ECCR_ECCC, DETECTIONS = FLASH_ECCR_ECCD;
#endif
#ifdef FLASH_ECCR_BK_ECC
static const uint32_t SECOND_BANK = FLASH_ECCR_BK_ECC;
#else
static const uint32_t SECOND_BANK = 0;
#endif
static const uint32_t ECCIE = 1u << 24, ADDRESS = 0x7ffff; /* what some of ST's files give has bits too few */
enum { NMI_TURNS = 100 /* in which the NMI has come */ };

/* Where the register stands that tells the errors of the bank. */
static volatile uint32_t *eccr_of(const stm32_hal *part) {
#if defined(STM32G0) && defined(FLASH_BANK_2)
    if (part->bank) return &FLASH->ECC2R;
#endif
    (void)part;
    return &FLASH->ECCR;
}

/* Clears those of the flags that stand. A flag is cleared by a 1, so the others are written with 0, and stay. */
static void clear_flags(const stm32_hal *part, uint32_t eccr, uint32_t flags) {
    EE_SET(eccr_of(part), (eccr & ECCIE) | (eccr & flags));
    EE_BARRIER();
}

/* Takes the flag of a corrected error away: while it stands the part tells no other error's address. Whether there was one. */
static int note_corrected(stm32_hal *part, uint32_t eccr) {
    if ((eccr & CORRECTIONS) == 0) return 0;
    part->corrected = eccr;
    clear_flags(part, eccr, CORRECTIONS);
    return 1;
}

/* Waits until the handler of the NMI has taken the error of a read. What the register says then. */
static uint32_t settled(stm32_hal *part) {
    uint32_t eccr = EE_GET(eccr_of(part));
    for (uint32_t turn = 0; turn < NMI_TURNS && (eccr & DETECTIONS) != 0; turn++) eccr = EE_GET(eccr_of(part));
    EE_BARRIER();
    return eccr;
}

/* Whether the flash is read by 128 bits: on a G4 with one bank, of pages of 4 KB. */
static int is_wide(const stm32_hal *part) { return DETECTIONS != FLASH_ECCR_ECCD && part->page_bytes == 4096; }

/* Whether a note is of the word that was read last: of two flags one is of a word, or of the lower half of 128 bits, and the
 * other of the upper half. Notes are kept until an erase, since a second read may tell nothing. */
static int is_noted(const stm32_hal *part, uint32_t note, uint32_t flag, uint32_t flags) {
    uint32_t line = is_wide(part) ? 16 : 8, reading = ADDRESS_BYTES * part->reading;
    uint32_t wanted = is_wide(part) && reading % 16 != 0 ? flags & ~flag : flag;
    return ADDRESS_BYTES * (note & ADDRESS) / line == reading / line && (note & wanted) != 0;
}

/* Reads a word while the cache is off and no flag of a correction stands. It is torn where it has an error, or is all ones by a
 * correction. Where nobody takes the error, nothing is known of the word. */
static uint32_t sensed(stm32_hal *part, uint32_t page, uint32_t place, uint64_t *value) {
    part->reading = ((part->first_page + page) * part->page_bytes + 8 * place) / ADDRESS_BYTES;
    part->is_reading = 1;
    EE_BARRIER(); /* the cache is off */
    *value = bits_at(at(part, page, place));
    EE_BARRIER(); /* the reads are done */
    uint32_t eccr = settled(part);
    part->is_reading = 0;
    if (note_corrected(part, eccr)) part->faint = (eccr & CORRECTIONS) | part->reading;
    if (eccr & DETECTIONS) return EE_READ_FAILED;
    if (is_noted(part, part->error, FLASH_ECCR_ECCD, DETECTIONS)) return EE_TORN;
    return *value == UINT64_MAX && is_noted(part, part->faint, FLASH_ECCR_ECCC, CORRECTIONS) ? EE_TORN : 0;
}

/* Reads a word while the cache is off. Behind an error that others met, the part may have this word from their read, and tell
 * nothing: so it reads another one first. */
static uint32_t look(stm32_hal *part, uint32_t page, uint32_t place, uint64_t *value) {
    if (note_corrected(part, EE_GET(eccr_of(part))) || part->is_stale) {
        part->is_stale = 0;
        (void)sensed(part, page, place ^ 2, value);
    }
    return sensed(part, page, place, value);
}

static uint32_t word(void *context, uint32_t page, uint32_t place, uint64_t *value) {
    uint32_t acr = cache_off();
    uint32_t status = look(context, page, place, value);
    EE_SET(&FLASH->ACR, acr);
    return status;
}

/* Reads words into the port's room, up to the first that can't be read. */
static const uint64_t *words(void *context, uint32_t page, uint32_t place, uint32_t count) {
    stm32_hal *part = context;
    uint32_t acr = cache_off(), read = 0;
    while (read < count && look(part, page, place + read, &part->run[read]) == 0) read++;
    EE_SET(&FLASH->ACR, acr);
    return read == count ? part->run : NULL;
}

/* Whether the address is that of the error. Where the flag of a corrected error stands, that one may have been first, and the
 * error anywhere. */
static int is_its_address(uint32_t eccr) { return (eccr & CORRECTIONS) == 0; }

/* Whether the error that the register tells is in the store's pages. */
static int is_in_pages(const stm32_hal *part, uint32_t eccr) {
    if (part->pages == 0) return 0;
    uint32_t page = ADDRESS_BYTES * (eccr & ADDRESS) / part->page_bytes - part->first_page;
    int is_in_bank = SECOND_BANK == 0 || is_wide(part) || ((eccr & SECOND_BANK) != 0) == (part->bank != 0);
    return (eccr & FLASH_ECCR_SYSF_ECC) == 0 && is_in_bank && page < part->pages;
}

int stm32_hal_nmi(stm32_hal *part) {
    uint32_t eccr = EE_GET(eccr_of(part));
    if ((eccr & DETECTIONS) == 0) return 0;
    if (part->is_reading) {
        part->error = (eccr & ~ADDRESS) | part->reading;
    } else {
        part->is_stale = 1;
        if (!is_its_address(eccr) || !is_in_pages(part, eccr)) return 0;
    }
    clear_flags(part, eccr, DETECTIONS);
    return 1;
}

#else

static uint32_t look(stm32_hal *part, uint32_t page, uint32_t place, uint64_t *value) {
    *value = bits_at(at(part, page, place));
    return 0;
}

static uint32_t word(void *context, uint32_t page, uint32_t place, uint64_t *value) {
    return look(context, page, place, value);
}

/* The flash is memory: they stand there. */
static const uint64_t *words(void *context, uint32_t page, uint32_t place, uint32_t count) {
    (void)count;
    return (const uint64_t *)(uintptr_t)at(context, page, place);
}

int stm32_hal_nmi(stm32_hal *part) {
    (void)part;
    return 0;
}

#endif

/* Takes the errors of before away, and unlocks the flash. */
static int begin(void) {
    if (HAL_FLASH_Unlock() != HAL_OK) return 0;
    EE_SET(&FLASH->SR, (uint32_t)SR_FLAGS);
    return 1;
}

/* Programs a word or a number by parts of so many bits, but for those that stay erased. Whether there was no error. */
static int program_parts(uint32_t address, uint64_t value) {
    const uint64_t ones = UINT64_MAX >> (64 - STM32_HAL_BITS);
    for (uint32_t bit = 0; bit < 64; bit += STM32_HAL_BITS) {
        uint64_t bits = value >> bit & ones;
        if (bits != ones && HAL_FLASH_Program(PROGRAMMED, address + bit / 8, bits) != HAL_OK) return 0;
    }
    return 1;
}

/* Asks the HAL for the erase of a page. */
static int erase_page(const stm32_hal *part, uint32_t page) {
    FLASH_EraseInitTypeDef which = {0};
    uint32_t failed = 0;
#ifdef HAS_SECTORS
    which.TypeErase = FLASH_TYPEERASE_SECTORS;
    which.Sector = part->first_page + page;
    which.NbSectors = 1;
    which.VoltageRange = SUPPLY;
#elif STM32_HAL_BITS == 16
    which.TypeErase = FLASH_TYPEERASE_PAGES;
    which.PageAddress = part->address + page * part->page_bytes;
    which.NbPages = 1;
#else
    which.TypeErase = FLASH_TYPEERASE_PAGES;
    which.Page = part->first_page + page;
    which.NbPages = 1;
#endif
#if (defined(STM32G0) || defined(STM32G4) || defined(STM32L4)) && defined(FLASH_BANK_1)
    which.Banks = FLASH_BANK_1;
#ifdef FLASH_BANK_2
    if (part->bank) which.Banks = FLASH_BANK_2;
#endif
#endif
    return HAL_FLASHEx_Erase(&which, &failed) == HAL_OK;
}

static uint32_t programmed(stm32_hal *part, uint32_t page, uint32_t place, uint64_t value) {
    uint64_t found;
    if (!EE_MAY_STEP(0)) return 1;
    int is_well = begin() && program_parts(part->address + page * part->page_bytes + 8 * place, value);
    int is_locked = HAL_FLASH_Lock() == HAL_OK;
    EE_STEPPED(0);
    return !is_well || !is_locked || look(part, page, place, &found) != 0 || found != value;
}

static uint32_t erased(stm32_hal *part, uint32_t page) {
    uint64_t found;
    if (!EE_MAY_STEP(1)) return 1;
    int is_well = begin() && erase_page(part, page), is_locked = HAL_FLASH_Lock() == HAL_OK;
    EE_STEPPED(1);
    if (!is_well || !is_locked) return 1;
    part->error = part->faint = 0;
    for (uint32_t place = 0; place < page_words(part) * (STM32_HAL_BITS == 64 ? 1 : 2); place++) {
        if (look(part, page, place, &found) != 0 || found != UINT64_MAX) return 1;
    }
    return 0;
}

/* The cache is off from before the write until it was emptied behind it. */
static uint32_t program(void *context, uint32_t page, uint32_t place, uint64_t value) {
    uint32_t acr = cache_off();
    uint32_t status = programmed(context, page, place, value);
    cache_as(acr);
    return status;
}

static uint32_t erase(void *context, uint32_t page) {
    uint32_t acr = cache_off();
    uint32_t status = erased(context, page);
    cache_as(acr);
    return status;
}

#ifdef HAS_SECTORS

/* Finds the sector that begins at an offset of the flash: four of 16 KB, one of 64 KB, and others of 128 KB. Of a part with two
 * banks the first is known, unless each is read at the other's address. */
static int is_placed(stm32_hal *part, uint32_t offset, uint32_t pages) {
    uint32_t end = offset < 0x10000 ? 0x10000 : offset < 0x20000 ? 0x20000 : 0x100000;
    part->page_bytes = offset < 0x10000 ? 0x4000 : offset < 0x20000 ? 0x10000 : 0x20000;
    part->first_page = offset < 0x10000 ? offset / 0x4000 : 4 + offset / 0x20000;
#ifdef SYSCFG_MEMRMP_UFB_MODE
    int is_on = __HAL_RCC_SYSCFG_IS_CLK_ENABLED();
    __HAL_RCC_SYSCFG_CLK_ENABLE();
    uint32_t mode = EE_GET(&SYSCFG->MEMRMP);
    if (!is_on) __HAL_RCC_SYSCFG_CLK_DISABLE();
    if (mode & SYSCFG_MEMRMP_UFB_MODE) return 0;
#endif
#ifdef FLASH_OPTCR_DB1M
    if (FLASH_BYTES <= 0x100000 && (EE_GET(&FLASH->OPTCR) & FLASH_OPTCR_DB1M) != 0) end = end < 0x80000 ? end : 0x80000;
#endif
    if (end > FLASH_BYTES) end = FLASH_BYTES;
    return offset % part->page_bytes == 0 && offset < end && 2 * pages * part->page_bytes <= end - offset;
}

#else

/* How the flash is laid out: by banks of so many bytes, the second of which begins somewhere, and whether each is read at the
 * other's address. */
typedef struct banks {
    uint32_t count, bytes, second;
    int is_swapped;
} banks;

#if defined(STM32G4) && defined(FLASH_OPTR_DBANK)
static int has_two(void) { return (EE_GET(&FLASH->OPTR) & FLASH_OPTR_DBANK) != 0; }
#elif defined(STM32L4) && defined(FLASH_OPTR_DUALBANK)
static int has_two(void) { return FLASH_BYTES == 0x100000 || (EE_GET(&FLASH->OPTR) & FLASH_OPTR_DUALBANK) != 0; }
#elif defined(STM32G0) && defined(FLASH_OPTR_DUAL_BANK)
static int has_two(void) { return (EE_GET(&FLASH->OPTR) & FLASH_OPTR_DUAL_BANK) != 0; }
#else
static int has_two(void) { return 0; }
#endif

/* SYSCFG reads as 0 while its clock is off. */
static int is_swapped(void) {
#if defined(STM32G0) && defined(FLASH_OPTR_nSWAP_BANK)
    return (EE_GET(&FLASH->OPTR) & FLASH_OPTR_nSWAP_BANK) == 0;
#elif defined(SYSCFG_MEMRMP_FB_MODE)
    int is_on = __HAL_RCC_SYSCFG_IS_CLK_ENABLED();
    __HAL_RCC_SYSCFG_CLK_ENABLE();
    uint32_t mode = EE_GET(&SYSCFG->MEMRMP);
    if (!is_on) __HAL_RCC_SYSCFG_CLK_DISABLE();
    return (mode & SYSCFG_MEMRMP_FB_MODE) != 0;
#else
    return 0;
#endif
}

static banks banks_of(void) {
    banks found = {.count = has_two() ? 2 : 1, .bytes = FLASH_BYTES, .second = FLASH_BYTES, .is_swapped = 0};
    if (found.count == 2) {
        found.bytes = FLASH_BYTES / 2;
        found.second = FLASH_BYTES / 2;
        found.is_swapped = is_swapped();
#ifdef STM32G4
        found.second = 0x40000; /* whatever the size */
#endif
    }
#if defined(STM32G0) && defined(FLASH_OPTR_DUAL_BANK)
    found.bytes = FLASH_BYTES / 2; /* with one bank no one knows which register tells errors in the second half */
#endif
    return found;
}

/* Finds the bank of an offset of the flash, and the number of the page there. Whether the pages are whole ones of one bank. */
static int is_placed(stm32_hal *part, uint32_t offset, uint32_t pages) {
    banks all = banks_of();
    int is_second = all.count == 2 && offset >= all.second;
    part->page_bytes = FLASH_PAGE_SIZE;
#if defined(STM32G4) && defined(FLASH_OPTR_DBANK)
    part->page_bytes = all.count == 2 ? 2048 : 4096;
#endif
    if (is_second) offset -= all.second;
    part->first_page = offset / part->page_bytes;
    part->bank = (uint32_t)(is_second != all.is_swapped);
    return offset % part->page_bytes == 0 && offset < all.bytes && 2 * pages * part->page_bytes <= all.bytes - offset;
}

#endif

ee_flash stm32_hal_flash(stm32_hal *part, uint32_t address, uint32_t pages) {
    if (!is_placed(part, address - FLASH_BASE, pages <= MOST_PAGES ? pages : 0) || pages > MOST_PAGES) pages = 0;
    ee_flash flash = {
        .context = part,
        .pages = pages,
        .page_words = page_words(part),
        .word = word,
        .program = program,
        .erase = erase,
        .kind = STM32_HAL_BITS == 64 ? EE_CODED : EE_PAIRS_CLEARING,
        .words = words,
    };
    part->flash = EE_AT(address);
    part->address = address;
    part->pages = 2 * pages;
    return flash;
}
