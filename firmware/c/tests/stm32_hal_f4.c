/* The port over ST's HAL, for parts without ECC, against a model of the HAL, of sectors or pages, and of the data cache. This one
 * is of an F4; stm32_hal_f1.c makes it again for an F1, which has half words and no cache, and stm32_hal_f4_by_8.c and its
 * neighbour for supplies that allow fewer bits at once. */
#include "moves.h"

static void set(volatile uint32_t *address, uint32_t value);
static uint32_t get(const volatile uint32_t *address);
static const volatile uint32_t *memory_at(uint32_t address);
#ifndef STM32F1
static void barrier(void);
#endif
#define EE_SET(address, value) set(address, value)
#define EE_GET(address) get(address)
#define EE_AT(address) memory_at(address)
#define EE_BARRIER() barrier()
#define STM32_HAL_HEADER "tests/declared/stm32_hal/main.h"
#ifndef STM32F1
#define STM32F4
#endif
#include "../port/stm32_hal.c"

#ifdef STM32F1
enum { AFTER_RESET = 0x30, CACHE = 0, EMPTYING = 0, ERRORS = 0x14 };
#else
enum { AFTER_RESET = 0x705, CACHE = 1 << 10, EMPTYING = 1 << 12, ERRORS = 0x1f2 };
#endif
#ifdef STM32F1
enum { PAGE = 1024, PAGES = 2, BASE = 0x0801f000 };
#else
enum { PAGE = 16384, PAGES = 1, BASE = 0x08008000 };
#endif
enum { UNIT = STM32_HAL_BITS, FIRST = 2, COUNT = 2 * PAGES * PAGE / 4 };
enum { CACHE_LINES = 8, LINE = 4 /* halves of a line */, NO_LINE = COUNT };
enum fault { NONE, WRITE_PROTECTED, POWER, SILENT, LAZY, STAYS_BUSY, STAYS_LOCKED, IN_USE };

FLASH_TypeDef flash_registers;
SYSCFG_TypeDef syscfg_registers;
int syscfg_is_on;
uint32_t flash_bytes;
static uint32_t memory[COUNT];
static stm32_hal part;
static uint32_t flash_kb, is_exchanged;
static uint32_t steps, fails_in;
static int is_unlocked, is_off, is_settled;
static int updates; /* a program writes what was asked for into the data cache too; else it leaves an old line there */
static int clears; /* an erase clears the cells of its page before it sets them */
static uint32_t cleared; /* cut erases that did */
static enum fault fault;
static uint32_t lines[CACHE_LINES][LINE], line_of[CACHE_LINES], next_line;

/* How many halves a page has, and how many of them the store takes. */
static uint32_t of_page(void) { return part.page_bytes / 4; }
static uint32_t taken(void) { return part.page_bytes >= 8192 ? 2048 : of_page(); }

static void empty_cache(void) {
    for (int i = 0; i < CACHE_LINES; i++) line_of[i] = NO_LINE;
}

/* A read of 32 bits by the cache, or past it. */
static uint32_t fetched(uint32_t half) {
    uint32_t line = half / LINE, i;
    CHECK(is_settled); /* the cache is on or off as it was told */
    if ((flash_registers.ACR & CACHE) == 0) return memory[half];
    for (i = 0; i < CACHE_LINES && line_of[i] != line; i++) continue;
    if (i == CACHE_LINES) {
        i = next_line++ % CACHE_LINES;
        line_of[i] = line;
        memcpy(lines[i], memory + line * LINE, sizeof lines[i]);
    }
    return lines[i][half % LINE];
}

#ifndef STM32F1
static void barrier(void) { is_settled = 1; }
#endif

static void set(volatile uint32_t *address, uint32_t value) {
    if (address == &flash_registers.SR) {
        flash_registers.SR &= ~value;
        return;
    }
    CHECK(address == &flash_registers.ACR && CACHE != 0);
    CHECK(((value ^ flash_registers.ACR) & ~(uint32_t)(CACHE | EMPTYING)) == 0); /* nothing but the data cache */
    if (value & EMPTYING) {
        CHECK(((value | flash_registers.ACR) & CACHE) == 0); /* it is emptied while it is off */
        empty_cache();
    }
    flash_registers.ACR = value;
    is_settled = 0;
}

/* Where an address of the part is: the pages are memory, and the size of the flash stays a number. */
static const volatile uint32_t *memory_at(uint32_t address) {
    uint32_t offset = address - BASE;
    return offset < sizeof memory ? memory + offset / 4 : (const volatile uint32_t *)(uintptr_t)address;
}

static uint32_t get(const volatile uint32_t *address) {
    if (address == memory_at(0x1ffff7e0)) return 0xffff0000 | flash_kb;
    if (address == &syscfg_registers.MEMRMP) return syscfg_is_on ? is_exchanged << 8 : 0; /* it reads as 0 while its clock is off */
    if (address < memory || address >= memory + COUNT) return *address;
    CHECK((uint32_t)(address - memory) % of_page() < taken());
    return fetched((uint32_t)(address - memory));
}

/* A step begins. Whether it is the one that fails: behind it power is off, and steps do nothing. */
static int fails(void) { return fault != NONE && fault < STAYS_LOCKED && ++steps == fails_in; }

/* What the HAL answers where it isn't its turn, or where an error of before stands, which it takes away; else HAL_OK. */
static HAL_StatusTypeDef begun(void) {
    CHECK(is_settled && (flash_registers.ACR & CACHE) == 0);
    if (fault == IN_USE) return HAL_BUSY;
    if ((flash_registers.SR & ERRORS) == 0 && is_unlocked && !is_off) return HAL_OK;
    flash_registers.SR = 0;
    return HAL_ERROR;
}

/* What it answers behind a step. */
static HAL_StatusTypeDef ended(int is_failing) {
    is_off = is_failing && fault == POWER;
    if (!is_failing || fault == SILENT || fault == LAZY) return HAL_OK;
    flash_registers.SR |= 1u << 4;
    return fault == STAYS_BUSY ? HAL_TIMEOUT : HAL_ERROR;
}

HAL_StatusTypeDef HAL_FLASH_Unlock(void) {
    is_unlocked = fault != STAYS_LOCKED;
    return is_unlocked ? HAL_OK : HAL_ERROR;
}

HAL_StatusTypeDef HAL_FLASH_Lock(void) {
    is_unlocked = 0;
    return HAL_OK;
}

HAL_StatusTypeDef HAL_FLASH_Program(uint32_t TypeProgram, uint32_t Address, uint64_t Data) {
    uint32_t byte = Address - BASE, i = byte / 4, shift = byte % 4 * 8, ones = UINT32_MAX >> (32 - UNIT);
    CHECK(TypeProgram == UNIT / 16); /* FLASH_TYPEPROGRAM_BYTE, _HALFWORD, _WORD */
    CHECK(i < COUNT && byte % (UNIT / 8) == 0 && Data < ones);
    HAL_StatusTypeDef status = begun();
    if (status != HAL_OK) return status;
    CHECK((memory[i] >> shift & ones) == ones);
    int is_failing = fails();
    uint32_t value = (uint32_t)Data, left = !is_failing ? value : fault == LAZY ? ones : value | any_bits() | (fault == SILENT);
    if (is_failing && fault == WRITE_PROTECTED) return ended(is_failing);
    memory[i] = (memory[i] & ~(ones << shift)) | (left & ones) << shift;
    for (int k = 0; k < CACHE_LINES && updates; k++) {
        if (line_of[k] == i / LINE) lines[k][i % LINE] = (memory[i] & ~(ones << shift)) | value << shift;
    }
    return ended(is_failing);
}

HAL_StatusTypeDef HAL_FLASHEx_Erase(FLASH_EraseInitTypeDef *pEraseInit, uint32_t *PageError) {
#ifdef STM32F1
    uint32_t page = (pEraseInit->PageAddress - BASE) / part.page_bytes;
    CHECK(pEraseInit->TypeErase == FLASH_TYPEERASE_PAGES && pEraseInit->NbPages == 1);
    CHECK(pEraseInit->PageAddress == BASE + page * PAGE);
#else
    uint32_t page = pEraseInit->Sector - FIRST;
    CHECK(pEraseInit->TypeErase == FLASH_TYPEERASE_SECTORS && pEraseInit->NbSectors == 1);
    CHECK(pEraseInit->VoltageRange == UNIT / 16); /* FLASH_VOLTAGE_RANGE_1, _2, _3 */
#endif
    CHECK(page < part.pages);
    *PageError = page;
    HAL_StatusTypeDef status = begun();
    if (status != HAL_OK) return status;
    int is_failing = fails();
    uint32_t kind = is_failing && clears && fault == POWER ? below(3) : 0;
    cleared += kind > 0;
    for (uint32_t i = page * of_page(); i < (page + 1) * of_page() && !(is_failing && fault == WRITE_PROTECTED); i++) {
        if (kind > 0) memory[i] &= kind == 1 ? any_bits() : 0;
        if (kind != 1) memory[i] |= !is_failing ? UINT32_MAX : fault == LAZY ? 0 : any_bits();
    }
    return ended(is_failing);
}

/* The product reads the flash too, by the cache, which holds nothing old. */
static void read_by_others(void) {
    for (uint32_t n = below(6); n > 0; n--) {
        uint32_t half = below(part.pages) * of_page() + below(taken());
        CHECK(fetched(half) == memory[half]);
    }
}

/* The model for moves. */
static void cut(uint32_t in) {
    is_settled = 1;
    read_by_others();
    if (below(4) == 0) flash_registers.SR |= 1u << 4; /* the product's own write went wrong */
    steps = 0, fails_in = in, fault = in ? POWER : NONE;
}

static int is_cut(void) { return is_off; }

static void power(void) {
    memset(&flash_registers, 0, sizeof flash_registers);
    flash_registers.ACR = AFTER_RESET; /* the program turned the caches on */
    empty_cache();
    is_unlocked = 0, is_off = 0, is_settled = 1, syscfg_is_on = 0, fault = NONE;
}

static ee_flash new_part(void) {
    memset(memory, 0xff, sizeof memory);
    flash_kb = 128, flash_bytes = 1u << 20, is_exchanged = 0;
    power();
    ee_flash flash = stm32_hal_flash(&part, BASE, PAGES);
    CHECK(flash.pages == PAGES && flash.page_words == taken() / 4 && flash.kind == EE_PAIRS_CLEARING && stm32_hal_nmi(&part) == 0);
    CHECK(part.page_bytes == PAGE && !syscfg_is_on);
    return flash;
}

/* An address and so many pages of a set; whether they fit, and then the number and the size of the first page. */
static void placed(uint32_t address, uint32_t pages, int fits, uint32_t first, uint32_t bytes) {
    ee_store store;
    ee_flash flash = stm32_hal_flash(&part, address, pages);
    CHECK(flash.pages == (fits ? pages : 0));
    if (fits) CHECK(part.first_page == first && part.page_bytes == bytes);
    else CHECK(ee_start(&store, &flash) == EE_WRONG_SHAPE);
}

/* Where pages are, by the size of the flash. */
static void places(void) {
    new_part();
#ifdef STM32F1
    placed(0x0801f800, 1, 1, 126, 1024);
    placed(0x0801fc00, 1, 0, 0, 0); /* over the end */
    placed(0x0801f900, 1, 0, 0, 0); /* no page begins there */
    placed(0x08020000, 1, 0, 0, 0);
    placed(0x08000000, 64, 1, 0, 1024);
    placed(0x08000000, 65, 0, 0, 0);
    flash_kb = 64;
    placed(0x0801f800, 1, 0, 0, 0);
#else
    placed(0x08000000, 2, 1, 0, 0x4000);
    placed(0x08008000, 1, 1, 2, 0x4000);
    placed(0x0800c000, 1, 0, 0, 0); /* sectors of two sizes */
    placed(0x08008400, 1, 0, 0, 0);
    placed(0x08010000, 1, 0, 0, 0); /* one of 64 KB alone */
    placed(0x08020000, 1, 1, 5, 0x20000);
    placed(0x080c0000, 1, 1, 10, 0x20000);
    placed(0x080e0000, 1, 0, 0, 0); /* over the end */
    placed(0x08100000, 1, 0, 0, 0);
    placed(0x07ff8000, 1, 0, 0, 0);
    placed(0x08000000, UINT32_MAX, 0, 0, 0);
    flash_registers.OPTCR = 1u << 30; /* two banks */
    placed(0x080c0000, 1, 0, 0, 0);
    placed(0x08040000, 1, 1, 6, 0x20000);
    placed(0x08060000, 1, 0, 0, 0); /* over two banks */
    flash_registers.OPTCR = 0;
    flash_bytes = 1u << 21;
    placed(0x080c0000, 1, 1, 10, 0x20000);
    placed(0x08100000, 1, 0, 0, 0); /* the second bank */
    is_exchanged = 1;
    placed(0x08008000, 1, 0, 0, 0);
    is_exchanged = 0, flash_bytes = 1u << 17;
    placed(0x08020000, 1, 0, 0, 0);
#endif
}

static int is_as_before(void) { return !is_unlocked && flash_registers.ACR == AFTER_RESET; }

/* Writes go wrong in each of their steps; what was stored before is there. */
static void failing(enum fault kind) {
    for (uint32_t step = 1; step < 60; step++) {
        ee_flash flash = new_part();
        ee_store store;
        uint32_t value, n, status = EE_OK;
        CHECK(ee_open(&store, &flash) == EE_UNFORMATTED);
        CHECK(ee_format(&store, &flash) == EE_OK);
        CHECK(ee_write(&store, 9, 90) == EE_OK);
        steps = 0, fails_in = step, fault = kind;
        for (n = 0; n < 1200 && status == EE_OK; n++) status = ee_write(&store, 1, n);
        if (kind == SILENT && status == EE_OK) continue; /* the cells that were left are those that were asked for */
        CHECK(status == EE_DRIVER && ee_write(&store, 1, 0) == EE_NOT_OPEN);
        fault = NONE, is_off = 0;
        CHECK(ee_open(&store, &flash) == EE_OK);
        CHECK(ee_read(&store, 9, &value) == EE_OK && value == 90);
        if (ee_read(&store, 1, &value) == EE_OK) CHECK(value == n - 1 || value == n - 2);
        else CHECK(n == 1);
        CHECK(ee_write(&store, 1, 5) == EE_OK && ee_read(&store, 1, &value) == EE_OK && value == 5);
        CHECK(is_as_before());
    }
}

/* Steps whose cells are others than those that were asked for, with no error of the HAL, behind a read of them. */
static void read_back(void) {
    ee_flash flash = new_part();
    uint64_t value;
    CHECK(flash.word(&part, 0, 5, &value) == 0 && value == UINT64_MAX);
    steps = 0, fails_in = 1, fault = SILENT;
    CHECK(flash.program(&part, 0, 5, 0) != 0 && flash.word(&part, 0, 5, &value) == 0 && value != 0);
    steps = 0;
    CHECK(flash.erase(&part, 0) != 0);
    fault = NONE;
    CHECK(flash.erase(&part, 0) == 0 && flash.word(&part, 0, 5, &value) == 0 && value == UINT64_MAX);
    CHECK(flash.program(&part, 0, taken() / 2 - 1, 0) == 0 && flash.word(&part, 0, taken() / 2 - 1, &value) == 0 && value == 0);
    steps = 0, fault = LAZY;
    CHECK(flash.erase(&part, 0) != 0); /* all but the last number are erased */
    fault = NONE;
}

int main(void) {
    static const model here = {cut, is_cut, power};
    for (int with_cuts = 0; with_cuts < 2; with_cuts++) {
        for (updates = 0; updates < 2; updates++) {
            clears = with_cuts && updates;
            ee_flash flash = new_part();
            moves(&flash, &here, with_cuts);
            CHECK(is_as_before());
        }
    }
    for (updates = 0; updates < 2; updates++) read_back();
    places();
    for (enum fault kind = WRITE_PROTECTED; kind <= IN_USE; kind++) failing(kind);
    CHECK(cleared > 30);
    return 0;
}
