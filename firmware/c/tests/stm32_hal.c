/* The port over ST's HAL, for parts with ECC, against a model of the HAL, of pages, of the cache, of the addresses of errors, and
 * of the NMI. This one is of a G4; stm32_hal_l4.c and its neighbours make it again for other families. */
#include "moves.h"

static void set(volatile uint32_t *address, uint32_t value);
static uint32_t get(const volatile uint32_t *address);
static const volatile uint32_t *memory_at(uint32_t address);
static void barrier(void);
static int may_step(int is_erase);
static void stepped(int is_erase);
#define EE_SET(address, value) set(address, value)
#define EE_GET(address) get(address)
#define EE_AT(address) memory_at(address)
#define EE_BARRIER() barrier()
#define EE_MAY_STEP(is_erase) may_step(is_erase)
#define EE_STEPPED(is_erase) stepped(is_erase)
#define STM32_HAL_HEADER "tests/declared/stm32_hal/main.h"
#include "../port/stm32_hal.c"

enum { FIRST = 126, MOST_CELLS = 1024, LATEST = 6, CACHE_LINES = 8, CACHE_WORDS = 4 /* of a line: 32 bytes */ };
enum fault { NONE, WRITE_PROTECTED, POWER, SILENT, LAZY, STAYS_BUSY, STAYS_LOCKED, IN_USE, HELD_OFF };
enum state { FINE, CORRECTED, TORN }; /* of a double word */
#ifdef STM32G0
static const uint32_t AFTER_RESET = 0x40600, CACHE = FLASH_ACR_ICEN, EMPTYING = FLASH_ACR_ICRST;
#else
static const uint32_t AFTER_RESET = 0x600, CACHE = FLASH_ACR_DCEN, EMPTYING = FLASH_ACR_DCRST;
#endif
#ifdef STM32WB
enum { TWO = 0, HAL_PAGE = 4096 }; /* whether there may be two banks */
#else
enum { TWO = 1, HAL_PAGE = 2048 };
#endif
static const uint32_t FLAGS = 0xfu << 28;
static const uint32_t REGISTER_ERRORS = 0xc3fa, PGSERR = 1u << 7, WRPERR = 1u << 4, PROGERR = 1u << 3;

FLASH_TypeDef flash_registers;
SYSCFG_TypeDef syscfg_registers;
int syscfg_is_on;
uint32_t flash_bytes;
static uint32_t memory[2 * MOST_CELLS];
static uint8_t states[MOST_CELLS];
static stm32_hal part;
/* What the part is: whether it has two banks, and each is read at the other's address; where the model's pages begin, and the
 * bank that they are built in. */
static uint32_t has_both, is_exchanged, base, bank;
static uint32_t steps, fails_in, others, lies, faints;
static int is_unlocked, held;
static int is_off, is_settled, is_in_nmi;
static uint32_t raised_for; /* an NMI comes so many accesses later, or at a barrier; 0 where none is raised */
static int is_late; /* it doesn't come at a barrier */
static int is_lying; /* the address of an error may be any other one */
static int updates; /* a program writes what was asked for into the data cache too; else it leaves an old line there */
static int hides;   /* while a flag stands no other error is told; else its flag is, with the address of before */
static enum fault fault;

/* The data cache, and what the flash read last with the cache off: a second read of either raises no NMI. */
static uint32_t lines[CACHE_LINES][2 * CACHE_WORDS], line_of[CACHE_LINES], next_line, buffer[4], buffer_of;
enum { NO_LINE = UINT16_MAX };

static uint32_t words_of_page(void) { return part.page_bytes / 8; }

static int is_read_by_128(void) {
#ifdef STM32G4
    return part.page_bytes == 4096;
#else
    return 0;
#endif
}

static void empty_caches(void) {
    for (int i = 0; i < CACHE_LINES; i++) line_of[i] = NO_LINE;
    buffer_of = NO_LINE;
}

/* The register of the bank's errors. */
static volatile uint32_t *ecc(void) {
#ifdef STM32G0
    if (bank) return &flash_registers.ECC2R;
#endif
    return &flash_registers.ECCR;
}

/* What stands in it for a word of the bank. */
static uint32_t told_of(uint32_t number) {
#if defined(STM32G4)
    return bank << 21 | 8 * number;
#elif defined(STM32L4)
    return bank << 19 | 8 * number;
#else
    return number;
#endif
}

/* An error with its flag, and where no flag stands its address, or another one. */
static void tell(uint32_t told, uint32_t flag) {
    static uint32_t kept;
    if ((*ecc() & FLAGS & ~flag) != 0 && hides && kept != told) return;
    if ((*ecc() & FLAGS) == 0) {
        uint32_t other = is_lying && below(4) == 0 ? told_of(below(1 << 16)) & 0x3fffff : told;
        kept = told, lies += other != told;
        *ecc() = (*ecc() & 1u << 24) | other;
    }
    *ecc() |= flag;
    if ((flag & DETECTIONS) != 0 && raised_for == 0) raised_for = 1 + (is_late ? below(LATEST) : 0);
}

/* The flash reads one double word, or two, and tells what is wrong. */
static void sense(uint32_t i) {
    uint32_t count = is_read_by_128() ? 2 : 1;
    uint32_t from = i / count * count, told = told_of(FIRST * words_of_page() + from);
    for (uint32_t k = 0; k < count; k++) {
        if (states[from + k] == CORRECTED) tell(told, k ? 1u << 28 : 1u << 30);
        if (states[from + k] == TORN) tell(told, k ? 1u << 29 : 1u << 31);
    }
}

/* A read of 32 bits by the cache, or past it. */
static uint32_t fetched(uint32_t half) {
    uint32_t line = half / (2 * CACHE_WORDS), wide = is_read_by_128() ? 4 : 2, i;
    CHECK(is_settled); /* the cache is on or off as it was told */
    if ((flash_registers.ACR & CACHE) == 0) {
        if (buffer_of != half / wide) {
            sense(half / 2);
            buffer_of = half / wide;
            memcpy(buffer, memory + buffer_of * wide, wide * sizeof *buffer);
        }
        return buffer[half % wide];
    }
    for (i = 0; i < CACHE_LINES && line_of[i] != line; i++) continue;
    if (i == CACHE_LINES) {
        i = next_line++ % CACHE_LINES;
        for (uint32_t k = 0; k < CACHE_WORDS; k++) sense(line * CACHE_WORDS + k);
        buffer_of = (line + 1) * 2 * CACHE_WORDS / wide - 1; /* what the flash read last */
        memcpy(buffer, memory + buffer_of * wide, wide * sizeof *buffer);
        line_of[i] = line;
        memcpy(lines[i], memory + line * 2 * CACHE_WORDS, sizeof lines[i]);
    }
    return lines[i][half % (2 * CACHE_WORDS)];
}

/* An access goes by, or a barrier: an NMI that is raised comes nearer. */
static void pass(int is_barrier) {
    if (raised_for == 0 || is_in_nmi || (is_late ? --raised_for > 0 : !is_barrier)) return;
    raised_for = 0, is_in_nmi = 1;
    others += stm32_hal_nmi(&part) == 0; /* the product's own handler */
    CHECK(is_settled); /* the flag is down when the handler returns */
    is_in_nmi = 0;
}

static void barrier(void) {
    is_settled = 1;
    pass(1);
}

/* The second core lets a step of each kind begin, which ends before the next one. */
static int may_step(int is_erase) {
    CHECK(held == 0);
    if (fault == HELD_OFF && ++steps >= fails_in) return 0;
    held = 1 + is_erase;
    return 1;
}

static void stepped(int is_erase) {
    CHECK(held == 1 + is_erase && !is_unlocked);
    held = 0;
}

/* A step begins. Whether it is the one that fails: behind it power is off, and steps do nothing. */
static int fails(void) {
    int is_failing = fault != NONE && fault < STAYS_LOCKED && ++steps == fails_in;
    buffer_of = NO_LINE;
    return is_failing;
}

/* What a step that fails leaves of a double word: nothing done, done, done and read with a correction, all ones by a correction,
 * or torn. */
static void leave(uint32_t i, uint32_t low, uint32_t high, int is_failing) {
    uint32_t kind = !is_failing ? 1 : fault == LAZY ? 0 : fault == SILENT ? 4 : below(7);
    if (kind == 0) return;
    memory[2 * i] = kind < 3 ? low : kind == 3 ? UINT32_MAX : low | any_bits();
    memory[2 * i + 1] = kind < 3 ? high : kind == 3 ? UINT32_MAX : high | any_bits();
    states[i] = kind == 1 ? FINE : kind < 4 ? CORRECTED : TORN;
    faints += states[i] == CORRECTED && (memory[2 * i] & memory[2 * i + 1]) == UINT32_MAX;
}

/* What the HAL answers where it isn't its turn, or where an error of before stands, which it takes away; else HAL_OK. */
static HAL_StatusTypeDef begun(void) {
    CHECK(is_settled && (flash_registers.ACR & CACHE) == 0);
    if (fault == IN_USE) return HAL_BUSY;
    if ((flash_registers.SR & REGISTER_ERRORS) == 0 && is_unlocked && !is_off) return HAL_OK;
    flash_registers.SR = 0;
    return HAL_ERROR;
}

/* What it answers behind a step. */
static HAL_StatusTypeDef ended(int is_failing) {
    is_off = is_failing && fault == POWER;
    if (!is_failing || fault == SILENT || fault == LAZY) return HAL_OK;
    flash_registers.SR |= WRPERR;
    return fault == STAYS_BUSY ? HAL_TIMEOUT : HAL_ERROR;
}

HAL_StatusTypeDef HAL_FLASH_Unlock(void) {
    is_unlocked = fault != STAYS_LOCKED;
    return is_unlocked ? HAL_OK : HAL_ERROR;
}

HAL_StatusTypeDef HAL_FLASH_Lock(void) {
    is_unlocked = 0;
    return HAL_OK;
}

HAL_StatusTypeDef HAL_FLASH_Program(uint32_t TypeProgram, uint32_t Address, uint64_t Data) {
    uint32_t i = (Address - base) / 8, low = (uint32_t)Data, high = (uint32_t)(Data >> 32);
    CHECK(TypeProgram == FLASH_TYPEPROGRAM_DOUBLEWORD && i < part.pages * words_of_page() && Address % 8 == 0 && held == 1);
    HAL_StatusTypeDef status = begun();
    if (status != HAL_OK) return status;
    if (states[i] == CORRECTED) { /* no cell is programmed, but the word was */
        flash_registers.SR |= PROGERR;
        return HAL_ERROR;
    }
    CHECK(memory[2 * i] == UINT32_MAX && memory[2 * i + 1] == UINT32_MAX && states[i] != TORN);
    int is_failing = fails();
    if (!is_failing || fault != WRITE_PROTECTED) leave(i, low, high, is_failing);
    for (int k = 0; k < CACHE_LINES && updates; k++) {
        if (line_of[k] != i / CACHE_WORDS) continue;
        lines[k][2 * i % (2 * CACHE_WORDS)] = low;
        lines[k][2 * i % (2 * CACHE_WORDS) + 1] = high;
    }
    return ended(is_failing);
}

HAL_StatusTypeDef HAL_FLASHEx_Erase(FLASH_EraseInitTypeDef *pEraseInit, uint32_t *PageError) {
    uint32_t page = pEraseInit->Page - FIRST;
    CHECK(pEraseInit->TypeErase == FLASH_TYPEERASE_PAGES && pEraseInit->NbPages == 1 && page < part.pages && held == 2);
#ifndef STM32WB
    CHECK(pEraseInit->Banks == (bank ? FLASH_BANK_2 : FLASH_BANK_1));
#endif
    *PageError = page;
    HAL_StatusTypeDef status = begun();
    if (status != HAL_OK) return status;
    int is_failing = fails();
    for (uint32_t i = 0; i < words_of_page() && !(is_failing && fault == WRITE_PROTECTED); i++) {
        leave(page * words_of_page() + i, UINT32_MAX, UINT32_MAX, is_failing);
    }
    return ended(is_failing);
}

static void set_access(uint32_t value) {
    CHECK(((value ^ flash_registers.ACR) & ~(CACHE | EMPTYING)) == 0); /* nothing but the cache */
    if (value & EMPTYING) {
        CHECK(((value | flash_registers.ACR) & CACHE) == 0); /* it is emptied while it is off */
        for (int i = 0; i < CACHE_LINES; i++) line_of[i] = NO_LINE;
    }
    flash_registers.ACR = value;
}

static const volatile uint32_t *memory_at(uint32_t address) {
    uint32_t offset = address - base;
    return offset < sizeof memory ? memory + offset / 4 : NULL;
}

static void set(volatile uint32_t *address, uint32_t value) {
    is_settled = 0;
    pass(0);
    if (address == &flash_registers.SR) {
        flash_registers.SR &= ~value;
        is_settled = 1;
    } else if (address == &flash_registers.ACR) {
        set_access(value);
    } else {
        CHECK(address == ecc());
        CHECK(!is_in_nmi || (value & CORRECTIONS) == 0); /* the handler leaves the flags of corrected errors */
        *ecc() = (*ecc() & ~(value & FLAGS) & ~(1u << 24)) | (value & 1u << 24);
    }
}

static uint32_t get(const volatile uint32_t *address) {
    pass(0);
    if (address == &syscfg_registers.MEMRMP) return syscfg_is_on ? is_exchanged << 8 : 0; /* it reads as 0 while its clock is off */
    if (address < memory || address >= memory + 2 * MOST_CELLS) return *address;
    CHECK(address < memory + 2 * part.pages * words_of_page());
    return fetched((uint32_t)(address - memory));
}

/* The product reads the first words of the pages too, by the cache, which holds nothing old. */
static void read_by_others(uint32_t most) {
    CHECK(others == 0);
    for (uint32_t n = below(6); n > 0; n--) {
        uint32_t half = below(2 * most);
        barrier();
        CHECK(fetched(half) == memory[half]);
        do barrier();
        while (raised_for > 0);
        if (others) *ecc() &= ~FLAGS, others = 0; /* beside one that was corrected: the product's own handler */
    }
}

/* The model for moves. */
static void cut(uint32_t in) {
    read_by_others(part.pages * words_of_page());
    if (below(4) == 0) flash_registers.SR |= PGSERR; /* the product's own write went wrong */
    steps = 0, fails_in = in, fault = in ? POWER : NONE;
}
static int is_cut(void) { return is_off; }

static void power(void) {
    memset(&flash_registers, 0, sizeof flash_registers);
    flash_registers.ACR = AFTER_RESET;
    flash_registers.ECCR = flash_registers.ECC2R = 1u << 24;
#if defined(STM32G4)
    flash_registers.OPTR = 0xffaff8aa | has_both << 22;
#else
    flash_registers.OPTR = 0xffcff8aa | has_both << 21 | (is_exchanged ^ 1) << 20;
#endif
    empty_caches();
    syscfg_is_on = 0, is_unlocked = 0, held = 0, others = 0, is_off = 0, raised_for = 0, is_settled = 0, fault = NONE;
    part.error = part.faint = part.corrected = part.is_stale = 0;
}

/* A part of 512 KB with one bank or two, exchanged or not, whose pages 126 on of a bank are the store's. */
static ee_flash new_part(uint32_t both, uint32_t exchanged, uint32_t is_second, uint32_t pages) {
    memset(memory, 0xff, sizeof memory);
    memset(states, FINE, sizeof states);
    flash_bytes = 1u << 19, has_both = both, is_exchanged = exchanged, bank = is_second ^ exchanged;
    base = 0x08000000 + is_second * 0x40000 + FIRST * HAL_PAGE;
#ifdef STM32G4
    if (!both) base = 0x08000000 + FIRST * 4096;
#endif
    power();
    ee_flash flash = stm32_hal_flash(&part, base, pages);
    CHECK(flash.pages == pages && !syscfg_is_on);
    return flash;
}

/* All that the team has is as it was: the caches, the interrupt of a corrected error, and no other NMI. */
static int is_as_before(void) {
    return !is_unlocked && flash_registers.ACR == AFTER_RESET && (*ecc() & 1u << 24) != 0 && others == 0;
}

/* Writes go wrong in each of their steps; what was stored before is there. */
static void failing(enum fault kind) {
    for (uint32_t step = 1; step < 1100; step += step < 20 ? 1 : 61) {
        ee_flash flash = new_part(TWO, TWO & step % 2, TWO, 1);
        ee_store store;
        uint32_t value, n, status = EE_OK;
        CHECK(ee_open(&store, &flash) == EE_UNFORMATTED);
        CHECK(ee_format(&store, &flash) == EE_OK);
        CHECK(ee_write(&store, 9, 90) == EE_OK);
        steps = 0, fails_in = step, fault = kind;
        for (n = 0; n < 1200 && status == EE_OK; n++) status = ee_write(&store, 1, n);
        CHECK(status == EE_DRIVER && ee_write(&store, 1, 0) == EE_NOT_OPEN);
        fault = NONE, is_off = 0;
        CHECK(ee_open(&store, &flash) == EE_OK);
        CHECK(ee_read(&store, 9, &value) == EE_OK && value == 90);
        if (ee_read(&store, 1, &value) == EE_OK) CHECK(value == n - 1 || value == n - 2);
        else CHECK(n == 1);
        CHECK(ee_write(&store, 1, 5) == EE_OK && ee_read(&store, 1, &value) == EE_OK && value == 5);
        CHECK(is_as_before());
    }
}

/* An error that the register tells, and what the handler answers; the flags that stand afterwards. */
static void raised(uint32_t told, int is_claimed, uint32_t flags) {
    *ecc() = 1u << 24 | told;
    is_settled = 1, is_in_nmi = 1;
    CHECK(stm32_hal_nmi(&part) == is_claimed && is_settled);
    is_in_nmi = 0;
    CHECK((*ecc() & FLAGS) == flags && (*ecc() & 1u << 24) != 0);
    *ecc() = 1u << 24;
}

/* The handler takes the errors in the store's pages alone, and while the port reads each. */
static void addresses(void) {
    uint32_t words = HAL_PAGE / 8, begin = FIRST * words, end = begin + 2 * words, d = 1u << 31, c = 1u << 30;
    memset(&part, 0, sizeof part);
    bank = 0;
    raised(d, 0, d); /* before there is a store */
    new_part(TWO, 0, TWO, 1);
    raised(d | told_of(begin), 1, 0);
    raised(d | told_of(end - 1), 1, 0);
    raised(d | c | told_of(begin), 0, d | c); /* the address may be that of the corrected one, and the error anywhere */
    part.is_reading = 1;
    raised(d | c | told_of(begin), 1, c);
    raised(d, 1, 0);
    part.is_reading = 0;
    raised(c | told_of(begin), 0, c); /* another cause */
    raised(told_of(begin), 0, 0);
    uint32_t far[] = {0, begin - 1, end, 0x1ffff};
    for (int i = 0; i < 4; i++) raised(d | (told_of(far[i]) & ~FLAGS), 0, d);
    raised(d | FLASH_ECCR_SYSF_ECC | told_of(begin), 0, d);
    if (SECOND_BANK != 0) raised(d | (SECOND_BANK ^ told_of(begin)), 0, d); /* the other bank */
#ifdef STM32G4
    uint32_t d2 = 1u << 29;
    new_part(0, 0, 0, 1);
    raised(d2 | told_of(2 * begin), 1, 0);
    raised(d2 | c | told_of(2 * begin), 0, d2 | c);
    part.is_reading = 1;
    raised(d2 | c | told_of(2 * begin), 1, c); /* both in one read */
    part.is_reading = 0;
#endif
}

/* An address and so many pages of a set; whether they fit, and then the bank and the number of the first page. */
static void placed(uint32_t address, uint32_t pages, int fits, uint32_t in_bank, uint32_t first) {
    ee_store store;
    ee_flash flash = stm32_hal_flash(&part, address, pages);
    CHECK(flash.pages == (fits ? pages : 0));
    if (fits) CHECK(part.bank == in_bank && part.first_page == first);
    else CHECK(ee_start(&store, &flash) == EE_WRONG_SHAPE && ee_format(&store, &flash) == EE_WRONG_SHAPE);
}

/* Where pages are, by the size of the flash, the options and the exchange of the banks. */
static void places(void) {
    uint32_t last = 0x40000 / HAL_PAGE - 2;
    for (uint32_t swaps = 0; swaps < 1 + TWO; swaps++) {
        new_part(TWO, swaps, 0, 1);
        placed(0x08080000 - 2 * HAL_PAGE, 1, 1, TWO ^ swaps, last + (TWO ? 0 : 0x40000 / HAL_PAGE));
        placed(0x08040000 - 2 * HAL_PAGE, 1, 1, swaps, last);
        placed(0x08040000 - HAL_PAGE, 1, !TWO, 0, last + 1); /* over two banks */
        placed(0x08080000 - HAL_PAGE, 1, 0, 0, 0);           /* over the end */
        placed(0x0807f400, 1, 0, 0, 0);                      /* no page begins there */
        placed(0x08080000, 1, 0, 0, 0);
        placed(0x08000000 - 2 * HAL_PAGE, 1, 0, 0, 0);
        placed(0x08080000 - 2 * HAL_PAGE, 65, 0, 0, 0);
        placed(0x08080000 - 2 * HAL_PAGE, UINT32_MAX, 0, 0, 0);
    }
#ifdef STM32G4
    new_part(1, 0, 0, 1);
    flash_bytes = 1u << 18; /* the second bank begins where it does on a part of 512 KB */
    placed(0x0805f000, 1, 1, 1, 62);
    placed(0x08020000, 1, 0, 0, 0);
    new_part(0, 0, 0, 1); /* pages have 4 KB */
    placed(0x0807e000, 1, 1, 0, 126);
    placed(0x0807f000, 1, 0, 0, 0);
#elif defined(STM32L4)
    new_part(0, 0, 0, 1);
    placed(0x0807f000, 1, 1, 0, 254);
    flash_bytes = 1u << 20; /* two banks, whatever stands in the options */
    placed(0x080ff000, 1, 1, 1, 254);
#elif defined(STM32G0)
    new_part(0, 0, 0, 1);
    placed(0x0803f000, 1, 1, 0, 126);
    placed(0x0807f000, 1, 0, 0, 0); /* whose register tells its errors is open */
#endif
}

/* Each read of a torn word tells it, and reads of its neighbours do not; so it is behind a corrected error in the program. */
static void torn(uint32_t both) {
    ee_flash flash = new_part(both, 0, 0, 1);
    uint64_t value;
    for (uint32_t i = 0; i < 8; i++) CHECK(flash.program(&part, 0, i, 7 + i) == 0);
    states[3] = states[4] = states[5] = TORN;
    states[6] = states[9] = states[11] = CORRECTED; /* 9 and 11 are all ones */
    for (uint32_t n = 0; n < 4000; n++) {
        uint32_t place = below(12), is_torn = (place >= 3 && place <= 5) || place == 9 || place == 11;
        if (below(4) == 0) tell(told_of(below(100)), 1u << 30);
        if (below(4) == 0) empty_caches(), read_by_others(12);
        for (uint32_t again = below(3); again < 3; again++) {
            uint32_t status = flash.word(&part, 0, place, &value);
            CHECK(status == (is_torn ? EE_TORN : 0));
            CHECK(status != 0 || value == (place < 8 ? 7 + place : UINT64_MAX));
            CHECK((*ecc() & DETECTIONS) == 0);
        }
    }
    tell(told_of(6), 1u << 30);
    uint32_t stood = *ecc();
    CHECK(flash.word(&part, 0, 0, &value) == 0 && part.corrected == stood);
    CHECK(is_as_before());
    steps = 0, fails_in = 1, fault = SILENT;
    CHECK(flash.erase(&part, 0) != 0); /* with no flag of the part */
    fault = NONE;
    for (uint32_t place = 0; place < 12; place++) {
        if (place == 0) CHECK(flash.erase(&part, 0) == 0);
        CHECK(flash.word(&part, 0, place, &value) == 0 && value == UINT64_MAX && is_as_before());
    }
}

/* An error that nobody takes is no torn word: nothing is known of it. */
static void untaken(void) {
    ee_flash flash = new_part(TWO, 0, TWO, 1);
    ee_store store;
    uint64_t value;
    CHECK(ee_start(&store, &flash) == EE_OK);
    states[3] = TORN, is_in_nmi = 1; /* as in a handler of more weight */
    CHECK(flash.word(&part, 0, 3, &value) == EE_READ_FAILED);
    steps = 0, fails_in = UINT32_MAX, fault = POWER;
    CHECK(ee_start(&store, &flash) == EE_DRIVER && steps == 0);
    raised_for = 0, is_in_nmi = 0;
}

int main(void) {
    static const model here = {cut, is_cut, power};
    for (int with_cuts = 0; with_cuts < 2; with_cuts++) {
        for (updates = 0; updates < 2; updates++) {
            hides = is_late = updates, is_lying = !updates;
            ee_flash both = new_part(TWO, TWO & (uint32_t)updates, TWO, 1);
            moves(&both, &here, with_cuts);
            CHECK(is_as_before());
        }
        is_late = is_lying = 1;
        ee_flash one = new_part(0, 0, 0, 1); /* read by 128 bits on a G4 */
        moves(&one, &here, with_cuts);
        CHECK(is_as_before());
    }
    for (int kind = 0; kind < 8; kind++) hides = kind & 1, is_late = kind >> 1 & 1, is_lying = kind >> 2, torn(0), torn(TWO);
    hides = is_late = is_lying = 0;
    addresses();
    places();
    for (enum fault kind = WRITE_PROTECTED; kind <= HELD_OFF; kind++) failing(kind);
    untaken();
    CHECK(lies > 1000 && faints > 1000);
    return 0;
}
