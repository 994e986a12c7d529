/* The port for an STM32U5 against a model of its flash: registers, pages of units of 128 bits, ICACHE, addresses of errors, and
 * the NMI. stm32u5_h5.c and stm32u5_wba.c make it again for an H5 and a WBA. */
#include "moves.h"

static void set(volatile uint32_t *address, uint32_t value);
static uint32_t get(volatile uint32_t *address);
static volatile uint32_t *part_at(uint32_t address);
static void barrier(void);
static uint32_t interrupts_off(void);
static void interrupts_as(uint32_t before);
static int may_step(int is_erase);
static void stepped(int is_erase);
#define EE_SET(address, value) set(address, value)
#define EE_GET(address) get(address)
#define EE_AT(address) part_at(address)
#define EE_BARRIER() barrier()
#define STM32_INTERRUPTS_OFF
#define EE_MOST_TURNS 1000
#define EE_WAIT() (waited++)
#define EE_MAY_STEP(is_erase) may_step(is_erase)
#define EE_STEPPED(is_erase) stepped(is_erase)
static uint32_t waited; /* turns of the port's loop */
#include "../port/stm32u5.c"

enum { PAGES = 4, WORDS = 512, FIRST = 20, UNITS = PAGES * WORDS, NO_UNIT = UNITS, LATEST = 6 };
enum fault { NONE, WRITE_PROTECTED, POWER, SILENT, STAYS_BUSY, STAYS_LOCKED, CACHE_STAYS_BUSY, HELD_OFF };
enum state { FINE, CORRECTED, TORN }; /* of a unit */
static const uint32_t CORRECTION = 1u << 30, DETECTION = 1u << 31, CACHE_ON = 0x30005;

/* What a family has: where its registers, flags and bits are, how its errors count, and how large its flash is. */
#if defined(STM32H5)
enum { KEYS = 0x04, STATUS = 0x20, CLEARS = 0x30, CONTROL = 0x28, CORR = 0x100, DET = 0x104, OPTIONS = 0x50, SIZE = 0x08fff80c };
enum { STARTS = 5, ERASES = 2, PROGRAMS = 1, NUMBER = 6, SECOND = 31, LOCKS = 0, BUSY = 0, WAITS = 1, BY = 1, IE = 25, SYS = 23 };
static const uint32_t PROGERR = 1u << 20, PGSERR = 1u << 18, WRPERR = 1u << 17, OPERR = 1u << 19, IN = 1u << 22;
enum { HAS_BANKS = 1, KB = 2048 };
#else
enum { KEYS = 0x08, STATUS = 0x20, CLEARS = 0x20, CONTROL = 0x28, CORR = 0x30, DET = 0x30, OPTIONS = 0x40 };
enum { STARTS = 16, ERASES = 1, PROGRAMS = 0, NUMBER = 3, SECOND = 11, LOCKS = 31, BUSY = 16, WAITS = 17, BY = 16, IE = 24, SYS = 22 };
static const uint32_t PROGERR = 1u << 3, PGSERR = 1u << 7, WRPERR = 1u << 4, OPERR = 1u << 1, IN = 1u << 21;
#ifdef STM32WBA
enum { HAS_BANKS = 0, KB = 1024, SIZE = 0x0bf907a0 };
#else
enum { HAS_BANKS = 1, KB = 2048, SIZE = 0x0bfa07a0 };
#endif
#endif

static uint32_t registers[0x110 / 4];
#define R(offset) registers[(offset) / 4]
static struct { volatile uint32_t cr, sr, ier, fcr; } cache;
static uint32_t memory[4 * UNITS];
static uint8_t states[UNITS];
static stm32u5 part;
/* What the part is: the size of its flash, its options, where the model's pages begin, and the bank that they are built in. */
static uint32_t flash_kb, options, trust, aircr, base, bank;
static uint32_t keys, asked[3], filled, steps, fails_in, busy_for, cache_busy_for, cache_rests_for, off_for;
static uint32_t others, lies, faints, late, untold; /* counts */
static int is_queued; /* a write to the flash isn't there yet */
static int is_off, is_settled, is_in_nmi, is_masked, held;
static uint32_t raised_for; /* an NMI comes so many accesses later, or at a barrier; 0 where none is raised */
static int is_late;  /* it doesn't come at a barrier; and the cache tells late that it is off, and that it is busy */
static int is_lying; /* the address of an error may be any other one */
static int empties; /* the cache is emptied as it is turned off */
static int is_virgin; /* two cells of an erased unit that a cut program cleared are not told, and three may be taken for one */
static int hides;   /* while a flag stands no other error is told; else its flag is, with the address of before */
static enum fault fault;

/* ICACHE, with a line for each unit, and what the flash read last: a second read of either raises no NMI. */
static uint32_t lines[4 * UNITS], buffer[4], buffer_of;
static uint8_t is_cached[UNITS];

static void empty(void) {
    memset(is_cached, 0, sizeof is_cached);
    cache_busy_for = fault == CACHE_STAYS_BUSY && ++steps >= fails_in ? UINT32_MAX : 9;
    cache_rests_for = is_late ? below(4) : 0;
}

/* The register that tells errors of a kind. */
static uint32_t *ecc(uint32_t flag) { return flag == CORRECTION ? &R(CORR) : &R(DET); }

/* An error with its flag, and where no flag stands its address, or another one. */
static void tell(uint32_t address, uint32_t flag) {
    uint32_t *eccr = ecc(flag);
    if ((*eccr & (CORRECTION | DETECTION)) != 0 && hides) return;
    if ((*eccr & (CORRECTION | DETECTION)) == 0) {
        uint32_t told = is_lying && below(4) == 0 ? BY * below(1 << 16) : address;
        lies += told != address;
        *eccr = (*eccr & 1u << IE) | bank * IN | told;
    }
    *eccr |= flag;
    if (flag == DETECTION && raised_for == 0) raised_for = 1 + (is_late ? below(LATEST) : 0);
}

/* The flash reads a unit, and tells what is wrong, but for what it has from the last read. */
static void sense(uint32_t unit) {
    if (buffer_of == unit) return;
    if (states[unit] == CORRECTED) tell(BY * (FIRST * WORDS + unit), CORRECTION);
    if (states[unit] == TORN) tell(BY * (FIRST * WORDS + unit), DETECTION);
    buffer_of = unit;
    memcpy(buffer, memory + 4 * unit, sizeof buffer);
}

/* A read of 32 bits by the cache, or past it where it is off or being emptied. */
static uint32_t fetched(uint32_t quarter) {
    uint32_t unit = quarter / 4;
    CHECK(is_settled); /* the cache is on or off as it was told */
    if ((cache.cr & 1) != 0 && cache_busy_for == 0) {
        if (is_cached[unit] && below(16) != 0) return lines[quarter];
        sense(unit);
        is_cached[unit] = 1;
        memcpy(lines + 4 * unit, buffer, sizeof buffer);
    } else {
        sense(unit);
    }
    return buffer[quarter % 4];
}

/* An access goes by, or a barrier: an NMI that is raised comes nearer. */
static void pass(int is_barrier) {
    if (raised_for == 0 || is_in_nmi || (is_late ? --raised_for > 0 : !is_barrier)) return;
    raised_for = 0, is_in_nmi = 1;
    others += stm32u5_nmi(&part) == 0; /* the product's own handler */
    is_settled = 1;
    is_in_nmi = 0;
}

static void barrier(void) {
    is_settled = 1, is_queued = 0;
    pass(1);
}

static uint32_t interrupts_off(void) {
    CHECK(!is_masked);
    is_masked = 1;
    return 5;
}

static void interrupts_as(uint32_t before) {
    CHECK(is_masked && before == 5 && filled == 0);
    is_masked = 0;
}

static void lock_model(void) { R(CONTROL) |= 1u << LOCKS, keys = 0; }

/* The program lets a step of each kind begin, which ends before the next one. */
static int may_step(int is_erase) {
    CHECK(held == 0);
    if (fault == HELD_OFF && ++steps >= fails_in) return 0;
    held = 1 + is_erase;
    return 1;
}
static void stepped(int is_erase) {
    CHECK(held == 1 + is_erase);
    held = 0;
}

/* A step begins, which no error of before may stand against. Whether it is the one that fails: behind it power is off, and steps
 * do nothing. */
static int fails(uint32_t turns) {
    CHECK((is_off || (R(STATUS) & SR_ERRORS) == 0) && held == (turns == 7 ? 2 : 1));
    int is_failing = fault >= WRITE_PROTECTED && fault <= STAYS_BUSY && ++steps == fails_in;
    buffer_of = NO_UNIT;
    busy_for = is_failing && fault == STAYS_BUSY ? UINT32_MAX : turns;
    if (is_failing && fault == WRITE_PROTECTED) R(STATUS) |= WRPERR;
    if (is_off || (is_failing && (fault == POWER || fault == STAYS_BUSY))) R(STATUS) |= OPERR;
    return is_failing;
}

/* Some of the cells of an erased unit that a program clears, so few that no flag tells it: as they are, or beside one that the part
 * takes for wrong and sets right. */
static void leave_virgin(uint32_t *unit, const uint32_t *new) {
    for (uint32_t n = 2 + below(2); n > 0; n--) {
        uint32_t i = below(4), cells = ~new[i], bit = below(32);
        while ((cells >> bit & 1) == 0) i = below(4), cells = ~new[i], bit = below(32);
        unit[i] &= ~(1u << bit);
    }
    if (below(2)) unit[below(4)] ^= 1u << below(32);
    untold++;
}

/* What a step that fails leaves of a unit: nothing done, done, done and read with a correction, all ones by a correction, or
 * torn. */
static void leave(uint32_t unit, const uint32_t *new, int is_failing) {
    uint32_t kind = !is_failing ? 1 : fault == SILENT ? 4 : below(7), all = UINT32_MAX;
    if (kind == 0) return;
    if (kind > 3 && is_virgin && (new[0] & new[1] & new[2] & new[3]) != UINT32_MAX) {
        leave_virgin(memory + 4 * unit, new);
        return;
    }
    for (int i = 0; i < 4; i++) {
        memory[4 * unit + i] = kind == 3 ? UINT32_MAX : kind < 5 ? new[i] : new[i] | any_bits();
        all &= memory[4 * unit + i];
    }
    states[unit] = kind == 1 ? FINE : kind < 4 ? CORRECTED : TORN;
    faints += states[unit] == CORRECTED && all == UINT32_MAX;
}

static void erase_page_of_model(uint32_t page) {
    static const uint32_t blank[4] = {UINT32_MAX, UINT32_MAX, UINT32_MAX, UINT32_MAX};
    CHECK(page < part.pages && busy_for == 0 && (cache.cr & 1) == 0);
    int is_failing = fails(7);
    if (is_off || (is_failing && fault == WRITE_PROTECTED)) return;
    for (uint32_t i = 0; i < WORDS; i++) leave(page * WORDS + i, blank, is_failing);
    is_off = is_failing && fault == POWER;
}

static void program_unit(uint32_t i, uint32_t last) {
    uint32_t *unit = memory + 4 * i, new[4] = {asked[0], asked[1], asked[2], last};
    int is_failing = fails(3);
    if (is_off || (is_failing && fault == WRITE_PROTECTED)) return;
    if (states[i] == CORRECTED) { /* no cell is programmed, but the unit was */
        R(STATUS) |= PROGERR;
        return;
    }
    CHECK((unit[0] & unit[1] & unit[2] & unit[3]) == UINT32_MAX && states[i] != TORN);
    leave(i, new, is_failing);
    is_off = is_failing && fault == POWER;
}

static void set_control(uint32_t value) {
    if (R(CONTROL) >> LOCKS & 1) {
        CHECK(value == 1u << LOCKS || value == 0); /* the port writes to it only when it is unlocked, but for locking it */
        return;
    }
    R(CONTROL) = value & ~(1u << STARTS);
    if (value >> LOCKS & 1) lock_model();
    if (value >> STARTS & 1) {
        CHECK((value >> ERASES & 1) != 0 && (value >> SECOND & 1) == bank);
        erase_page_of_model((value >> NUMBER & 0x7f) - FIRST);
    }
}

static void set_cache(uint32_t value) {
    uint32_t before = cache.cr;
    CHECK(((value ^ before) & ~3u) == 0);
    CHECK((value & ~before & 1) == 0 || cache_busy_for == 0 || cache_busy_for == UINT32_MAX); /* it is turned on when it is empty */
    cache.cr = value & ~2u;
    off_for = is_late && (before & ~value & 1) != 0 ? below(4) : 0;
    if (cache_busy_for > 0) return; /* it is being emptied */
    if (value >> 1 & 1 || (empties && (before & ~value & 1) != 0)) empty();
}

/* Where an address of the part is: the pages are memory, and registers beside those of the flash stay numbers. */
static volatile uint32_t *part_at(uint32_t address) {
    uint32_t offset = address - base, place = address - 0x40022000, of_cache = address - 0x40030400;
    if (place < sizeof registers) return registers + place / 4;
    if (of_cache < sizeof cache) return (volatile uint32_t *)&cache + of_cache / 4;
    return offset < sizeof memory ? memory + offset / 4 : (volatile uint32_t *)(uintptr_t)address;
}

static void set(volatile uint32_t *address, uint32_t value) {
    is_settled = 0;
    pass(0);
    if (address == &R(KEYS)) {
        keys = value == 0x45670123 ? 1 : keys == 1 && value == 0xcdef89ab ? 2 : 3;
        if (keys == 2 && fault != STAYS_LOCKED) R(CONTROL) &= ~(1u << LOCKS);
    } else if (address == &R(CLEARS)) {
        R(STATUS) &= ~value;
    } else if (address == ecc(CORRECTION) || address == ecc(DETECTION)) {
        CHECK(!is_in_nmi || (value & CORRECTION) == 0); /* the handler leaves the flag of a corrected error */
        *address = (*address & ~(value & (CORRECTION | DETECTION)) & ~(1u << IE)) | (value & 1u << IE);
    } else if (address == &cache.cr) {
        set_cache(value);
    } else if (address == &cache.fcr) {
        cache.sr &= ~value;
    } else if (address == &R(CONTROL)) {
        set_control(value);
    } else {
        size_t i = (size_t)(address - memory);
        CHECK(address >= memory && is_masked && i < 4 * part.pages * WORDS && R(CONTROL) == 1u << PROGRAMS && i % 4 == filled);
        CHECK(busy_for == 0 && (cache.cr & 1) == 0 && off_for == 0); /* a write while the cache is on is an error of the cache */
        is_queued = 1;
        if (filled < 3) {
            asked[filled++] = value;
        } else {
            filled = 0;
            program_unit((uint32_t)(i / 4), value);
        }
    }
}

/* Whether something is busy, for which a turn goes by. */
static uint32_t turn(uint32_t *left) {
    uint32_t is_busy = *left > 0;
    if (is_busy && *left != UINT32_MAX) --*left;
    return is_busy;
}

static uint32_t get(volatile uint32_t *address) {
    pass(0);
    if (address == part_at(SIZE)) return 0xffff0000 | flash_kb;
    if (address == part_at(0xe000ed0c)) return 0xfa050000 | aircr;
    if (address == &cache.cr) return cache.cr | turn(&off_for);
    if (address >= memory && address < memory + 4 * UNITS) {
        CHECK(address < memory + 4 * part.pages * WORDS);
        return fetched((uint32_t)(address - memory));
    }
    if (address == &cache.sr) {
        if (cache_rests_for > 0) {
            cache_rests_for--, late++;
            return cache.sr & ~1u; /* it will be busy */
        }
        uint32_t is_busy = turn(&cache_busy_for);
        if (is_busy && cache_busy_for == 0) cache.sr |= 2;
        return (cache.sr & ~1u) | is_busy;
    }
    if (address != &R(STATUS)) return *address;
    CHECK(!is_queued);
    return R(STATUS) | turn(&busy_for) << BUSY | (filled > 0 ? 1u << WAITS : 0);
}

/* The product reads the first units of the pages too, by the cache, which holds nothing old. */
static void read_by_others(uint32_t most) {
    CHECK(others == 0);
    for (uint32_t n = below(6); n > 0; n--) {
        uint32_t quarter = below(4 * most);
        barrier();
        CHECK(fetched(quarter) == memory[quarter]);
        do barrier();
        while (raised_for > 0);
        if (others) *ecc(CORRECTION) &= ~CORRECTION, *ecc(DETECTION) &= ~DETECTION, others = 0; /* beside one that was corrected: the product's own handler */
    }
}

/* The model for moves. */
static void cut(uint32_t in) {
    read_by_others(part.pages * WORDS);
    if (below(4) == 0) R(STATUS) |= PGSERR; /* the product's own write went wrong */
    steps = 0, fails_in = in, fault = in ? POWER : NONE;
}

static int is_cut(void) { return is_off; }
static uint32_t cache_after_reset = CACHE_EN;

static void power(void) {
    memset(registers, 0, sizeof registers);
    memset((void *)&cache, 0, sizeof cache);
    memset(is_cached, 0, sizeof is_cached);
    R(CORR) = 1u << IE;
    R(OPTIONS) = options;
    if (CORR != DET) R(0x70) = trust;
    cache.cr = cache_after_reset; /* the program turned it on */
    lock_model();
    buffer_of = NO_UNIT;
    busy_for = 0, cache_busy_for = 0, cache_rests_for = 0, off_for = 0, filled = 0, others = 0, fault = NONE;
    is_off = 0, raised_for = 0, is_queued = 0, is_settled = 0, held = 0;
    part.error = part.faint = part.corrected = part.is_stale = 0;
}

/* A part with two banks, exchanged or not, or with one, whose pages 20 on of a bank are the store's. */
static ee_flash new_part(uint32_t cache_register, uint32_t exchanged, uint32_t is_second, uint32_t pages) {
    memset(memory, 0xff, sizeof memory);
    memset(states, FINE, sizeof states);
    cache_after_reset = cache_register;
    if (!HAS_BANKS) exchanged = is_second = 0;
    flash_kb = KB, aircr = 0, bank = is_second ^ exchanged, trust = 0xc3000000;
    options = CORR == DET ? 0x1fcff8aa | 1u << 21 | exchanged << 20 : 0x2030edf8 | exchanged << 31;
    base = 0x08000000 + is_second * 0x100000 + FIRST * 8192;
    power();
    ee_flash flash = stm32u5_flash(&part, base, pages);
    CHECK(flash.pages == pages);
    return flash;
}

/* All that the team has is as it was: the cache, the interrupt of a corrected error, and no other NMI. */
static int is_as_before(void) {
    int is_cache = cache.cr == cache_after_reset && (cache.sr & ~2u) == 0 && !is_masked;
    return is_cache && R(CONTROL) == 1u << LOCKS && (R(CORR) & 1u << IE) != 0 && others == 0 && held == 0;
}

/* Writes go wrong in each of their steps; what was stored before is there. */
static void failing(enum fault kind) {
    for (uint32_t step = 1; step < 400; step += step < 6 ? 1 : 37) {
        ee_flash flash = new_part(CACHE_ON, 0, 1, 2);
        ee_store store;
        uint32_t value, n, status = EE_OK;
        CHECK(ee_open(&store, &flash) == EE_UNFORMATTED);
        CHECK(ee_format(&store, &flash) == EE_OK);
        CHECK(ee_write(&store, 9, 90) == EE_OK);
        steps = 0, fails_in = step, fault = kind;
        for (n = 0; n < 1200 && status == EE_OK; n++) status = ee_write(&store, 1, n);
        CHECK(status == EE_DRIVER && ee_write(&store, 1, 0) == EE_NOT_OPEN);
        fault = NONE, busy_for = 0, is_off = 0;
        R(STATUS) |= PGSERR;
        if (kind == CACHE_STAYS_BUSY) {
            CHECK(cache.cr == CACHE_ON && ee_open(&store, &flash) == EE_DRIVER); /* it is on, and nobody knows what it holds */
            cache_busy_for = 0;
        }
        CHECK(ee_open(&store, &flash) == EE_OK);
        CHECK(ee_read(&store, 9, &value) == EE_OK && value == 90);
        if (ee_read(&store, 1, &value) == EE_OK) CHECK(value == n - 1 || value == n - 2);
        else CHECK(n == 1);
        CHECK(ee_write(&store, 1, 5) == EE_OK && ee_read(&store, 1, &value) == EE_OK && value == 5);
        CHECK(is_as_before());
    }
}

/* An error that the part tells, and what the handler answers; the flags that stand afterwards. A flag of a correction has a
 * register of its own on an H5. */
static void raised(uint32_t eccr, int is_claimed, uint32_t flags) {
    R(CORR) = 0, R(DET) = 0;
    *ecc(CORRECTION) |= 1u << IE | (CORR == DET ? 0 : eccr & CORRECTION);
    *ecc(DETECTION) |= CORR == DET ? eccr : eccr & ~CORRECTION;
    is_in_nmi = 1;
    CHECK(stm32u5_nmi(&part) == is_claimed);
    is_in_nmi = 0;
    CHECK(((R(CORR) | R(DET)) & (CORRECTION | DETECTION)) == flags && (R(CORR) & 1u << IE) != 0);
    R(DET) = 0, R(CORR) = 1u << IE;
}

/* The handler takes the errors in the store's pages alone. */
static void addresses(void) {
    uint32_t page = WORDS * BY, begin = FIRST * page, end = begin + 4 * page, both = CORRECTION | DETECTION;
    memset(&part, 0, sizeof part);
    raised(DETECTION, 0, DETECTION); /* before there is a store */
    new_part(CACHE_ON, 0, 1, 2);
    uint32_t in = bank * IN;
    raised(DETECTION | in | begin, 1, 0);
    raised(DETECTION | in | (end - BY), 1, 0);
    if (CORR == DET) raised(both | in | begin, 0, both); /* the address may be that of the corrected one, and the error anywhere */
    else raised(both | in | begin, 1, CORRECTION);
    part.is_reading = 1;
    raised(both | in | begin, 1, CORRECTION);
    raised(DETECTION, 1, 0);
    part.is_reading = 0;
    raised(CORRECTION | in | begin, 0, CORRECTION); /* another cause */
    raised(in | begin, 0, 0);
    uint32_t far[] = {0, begin - BY, end, 0xfff0};
    for (int i = 0; i < 4; i++) raised(DETECTION | in | far[i], 0, DETECTION);
    raised(DETECTION | (in ^ IN) | begin, 0, DETECTION);        /* the other bank */
    raised(DETECTION | 1u << SYS | in | begin, 0, DETECTION); /* the system's flash */
}

/* An address and so many pages of a set; whether they fit, and then the bank and the number of the first page. */
static void placed(uint32_t address, uint32_t pages, int fits, uint32_t in_bank, uint32_t first) {
    ee_store store;
    ee_flash flash = stm32u5_flash(&part, address, pages);
    CHECK(flash.pages == (fits ? pages : 0));
    if (fits) CHECK(part.bank == in_bank && part.first_page == first);
    else CHECK(ee_start(&store, &flash) == EE_WRONG_SHAPE && ee_format(&store, &flash) == EE_WRONG_SHAPE);
}

/* Places in a part of 2 MB with two banks. */
static void two_banks(uint32_t swaps) {
    placed(0x081fc000, 1, 1, 1 ^ swaps, 126);
    placed(0x080fc000, 1, 1, swaps, 126);
    placed(0x080fe000, 1, 0, 0, 0); /* over two banks */
    placed(0x081fe000, 1, 0, 0, 0); /* over the end */
    placed(0x081fd000, 1, 0, 0, 0); /* no page begins there */
    placed(0x08200000, 1, 0, 0, 0);
    placed(0x07ffc000, 1, 0, 0, 0);
    placed(0x0c1fc000, 1, 0, 0, 0); /* the secure program's */
    placed(0x08100000, 64, 1, 1 ^ swaps, 0);
    placed(0x08100000, 65, 0, 0, 0);
    placed(0x081fc000, UINT32_MAX, 0, 0, 0);
}

/* Places by the size of the flash, with two banks and with one. */
static void sizes(uint32_t swaps) {
    uint32_t all[] = {128, 256, 512, 1024, 2048, 4096}, unknown[] = {0, 8192, 0xffff};
    for (int i = 0; i < 6; i++) {
        uint32_t kb = flash_kb = all[i], last = 0x08000000 + 1024 * kb - 0x4000, half = 0x08000000 + 512 * kb - 0x4000;
        int has_size = CORR == DET ? HAS_BANKS || kb <= 1024 : kb <= 2048, has_one = kb <= 256 || kb == 1024 || !HAS_BANKS;
        options |= CORR == DET ? 1u << 21 : 0;
        power();
        placed(last, 1, has_size, 1 ^ swaps, kb / 16 - 2);
        if (HAS_BANKS) placed(half, 1, has_size, swaps, kb / 16 - 2), placed(half + 0x2000, 1, 0, 0, 0);
        if (CORR != DET) continue;
        options &= ~(1u << 21);
        power();
        placed(last, 1, has_size && has_one, 0, kb / 8 - 2);
        placed(half + 0x2000, 1, has_size && has_one, 0, kb / 16 - 1);
    }
    for (int i = 0; i < 3; i++) flash_kb = unknown[i], options |= 1u << 21, power(), placed(0x08080000, 1, 0, 0, 0);
}

/* Where pages are, by the size of the flash and the options. */
static void places(void) {
    for (uint32_t swaps = 0; swaps <= HAS_BANKS; swaps++) {
        new_part(CACHE_ON, swaps, 0, 1);
        if (HAS_BANKS) two_banks(swaps);
        if (CORR == DET) options |= 1u << 31; /* with TrustZone the NMI is the secure program's, unless that gave it away */
        else trust = 0xb4000000;
        power();
        placed(0x080fc000, 1, 0, 0, 0);
        aircr = 1u << 13;
        placed(0x080fc000, 1, 1, swaps, 126);
        if (HAS_BANKS) sizes(swaps);
    }
    if (HAS_BANKS) return;
    flash_kb = 512, placed(0x0807c000, 1, 1, 0, 62), placed(0x0807e000, 1, 0, 0, 0);
    flash_kb = 2048, placed(0x080fc000, 1, 0, 0, 0); /* a WBA6 with two banks */
}

/* Each read of a torn word tells it, and reads of its neighbours do not; so it is behind a corrected error in the program. */
static void torn(uint32_t cache_register) {
    ee_flash flash = new_part(cache_register, 0, 1, 1);
    uint64_t value;
    for (uint32_t i = 0; i < 8; i++) CHECK(flash.program(&part, 0, i, 7 + i) == 0);
    states[3] = states[4] = states[5] = TORN;
    states[6] = states[9] = states[11] = CORRECTED; /* 9 and 11 are all ones */
    for (uint32_t n = 0; n < 1500; n++) {
        uint32_t place = below(12), is_torn = (place >= 3 && place <= 5) || place == 9 || place == 11;
        if (below(4) == 0) tell(below(100) * BY, CORRECTION);
        if (below(4) == 0) read_by_others(12);
        for (uint32_t again = below(3); again < 3; again++) {
            uint32_t status = flash.word(&part, 0, place, &value);
            CHECK(status == (is_torn ? EE_TORN : 0));
            CHECK(status != 0 || value == (place < 8 ? 7 + place : UINT64_MAX));
            CHECK((R(DET) & DETECTION) == 0);
        }
    }
    tell(6 * BY, CORRECTION);
    uint32_t stood = R(CORR);
    CHECK(flash.word(&part, 0, 0, &value) == 0 && part.corrected == stood);
    CHECK(is_as_before());
    steps = 0, fails_in = 1, fault = SILENT;
    CHECK(flash.erase(&part, 0) != 0); /* with no flag of the part */
    fault = NONE;
    for (uint32_t place = 0; place < 12; place++) {
        if (place == 0) CHECK(flash.erase(&part, 0) == 0);
        CHECK(flash.word(&part, 0, place, &value) == 0 && value == UINT64_MAX && is_as_before());
    }
}

/* An error that nobody takes is no torn word: nothing is known of it. So it is where the cache isn't emptied. */
static void untaken(void) {
    ee_flash flash = new_part(CACHE_ON, 0, 1, 1);
    ee_store store;
    uint64_t value;
    CHECK(ee_start(&store, &flash) == EE_OK);
    states[3] = TORN, is_in_nmi = 1; /* as in a handler of more weight */
    CHECK(flash.word(&part, 0, 3, &value) == EE_READ_FAILED);
    steps = 0, fails_in = UINT32_MAX, fault = POWER;
    CHECK(ee_start(&store, &flash) == EE_DRIVER && steps == 0);
    raised_for = 0, is_in_nmi = 0;
    power();
    CHECK(flash.word(&part, 0, 3, &value) == EE_TORN);
    fails_in = steps, fault = CACHE_STAYS_BUSY;
    CHECK(flash.word(&part, 0, 3, &value) == EE_READ_FAILED && flash.word(&part, 0, 4, &value) == EE_READ_FAILED);
}

/* A unit whose halves don't fit each other is torn, with no error of the part. */
static void halves(void) {
    ee_flash flash = new_part(0, 0, 1, 2);
    ee_store store;
    ee_numbers numbers;
    uint32_t value;
    CHECK(ee_format(&store, &flash) == EE_OK && ee_write(&store, 1, 10) == EE_OK && ee_write(&store, 1, 11) == EE_OK);
    memory[4 * 5 + 3] ^= 1;
    CHECK(ee_open(&store, &flash) == EE_OK && ee_read(&store, 1, &value) == EE_OK && value == 10);
    CHECK(ee_counts(&store, &numbers) == EE_OK && numbers.torn == 1);
    memory[4 * 6 + 2] = 0;
    CHECK(ee_open(&store, &flash) == EE_OK && ee_counts(&store, &numbers) == EE_OK && numbers.torn == 2);
}

/* Cuts that leave a unit which no flag tells: its halves do, so each start is well, and nothing is lost. */
static void virgin(void) {
    is_virgin = 1;
    for (uint32_t n = 0; n < 1000; n++) {
        ee_flash flash = new_part(CACHE_ON, 0, 1, 1);
        ee_store store;
        uint32_t value, wanted = any_bits();
        CHECK(ee_start(&store, &flash) == EE_OK && ee_write(&store, 9, 90) == EE_OK && ee_write(&store, 1, ~wanted) == EE_OK);
        steps = 0, fails_in = 1, fault = POWER;
        CHECK(ee_write(&store, 1, wanted) != EE_NOTHING);
        power();
        CHECK(ee_start(&store, &flash) == EE_OK && ee_read(&store, 9, &value) == EE_OK && value == 90);
        CHECK(ee_read(&store, 1, &value) == EE_OK && (value == wanted || value == ~wanted));
    }
    is_virgin = 0;
}

int main(void) {
    static const model here = {cut, is_cut, power};
    for (int with_cuts = 0; with_cuts < 2; with_cuts++) {
        for (int on = 0; on < 2; on++) {
            empties = hides = with_cuts ^ on, is_late = on, is_lying = 1;
            ee_flash flash = new_part(on ? CACHE_ON : 0, (uint32_t)with_cuts, 1, 1);
            moves(&flash, &here, with_cuts);
            CHECK(is_as_before());
        }
    }
    for (int kind = 0; kind < 8; kind++) hides = kind & 1, is_late = kind >> 1 & 1, is_lying = kind >> 2, torn(0), torn(CACHE_ON);
    hides = is_late = is_lying = 0;
    halves();
    addresses();
    places();
    for (enum fault kind = WRITE_PROTECTED; kind <= HELD_OFF; kind++) failing(kind);
    untaken();
    virgin();
    CHECK(untold > 100 && waited > 0 && lies > 1000 && faints > 1000 && late > 1000);
    return 0;
}
