/* The port for an STM32 that programs 64 bits with ECC against a model of its flash: registers, pages, the cache, addresses of
 * errors, and the NMI. stm32_ecc_g0.c and others make it again for other families than a G4. */
#if !defined(STM32C0) && !defined(STM32G0) && !defined(STM32L4) && !defined(STM32WB)
#define STM32G4
#endif
#include "moves.h"

static void set(volatile uint32_t *address, uint32_t value);
static uint32_t get(volatile uint32_t *address);
static volatile uint32_t *part_at(uint32_t address);
static void barrier(void);
static int may_step(int is_erase);
static void stepped(int is_erase);
#define EE_SET(address, value) set(address, value)
#define EE_GET(address) get(address)
#define EE_AT(address) part_at(address)
#define EE_BARRIER() barrier()
#define EE_MOST_TURNS 1000
#define EE_WAIT() (waited++)
#define EE_MAY_STEP(is_erase) may_step(is_erase)
#define EE_STEPPED(is_erase) stepped(is_erase)
static uint32_t waited; /* turns of the port's loop */
#include "../port/stm32_ecc.c"

enum { FIRST = 60, MOST_WORDS = 1024, LATEST = 6, CACHE_LINES = 8, CACHE_WORDS = 4 /* of a line: 32 bytes */ };
enum fault { NONE, WRITE_PROTECTED, POWER, SILENT, LAZY, STAYS_BUSY, STAYS_LOCKED, HELD_OFF };
enum state { FINE, CORRECTED, TORN }; /* of a double word */
static const uint32_t PROGERR = 1u << 3, PGSERR = 1u << 7, ECCC = 1u << 30, ECCD = 1u << 31;

/* What a family has: a part whose banks can be exchanged, or the only kind; where its flags and registers are. */
#if defined(STM32G0)
enum { PART = 0x467, OTHER = 0x467, HAS_BANKS = 1, ON = 9, BKER = 13, BK = 32, SYSF = 20, CLOCKS = 0x4002103c, CLOCKS_ON = 0x10000000 };
static const uint32_t REGISTERS = 0x40022000, DEVICE = 0x40015800, SIZE = 0x1fff75e0, OPTIONS = 0xffcffeaa;
#elif defined(STM32C0)
enum { PART = 0, OTHER = 0, HAS_BANKS = 0, ON = 9, BKER = 13, BK = 32, SYSF = 20, CLOCKS = 4, CLOCKS_ON = 0 };
static const uint32_t REGISTERS = 0x40022000, DEVICE = 8, SIZE = 0x1fff75a0, OPTIONS = 0xffffffaa;
#elif defined(STM32L4)
enum { PART = 0x415, OTHER = 0x435, HAS_BANKS = 1, ON = 10, BKER = 11, BK = 19, SYSF = 20, CLOCKS = 0x40021060, CLOCKS_ON = 0x4000 };
static const uint32_t REGISTERS = 0x40022000, DEVICE = 0xe0042000, SIZE = 0x1fff75e0, OPTIONS = 0xffcff8aa;
#elif defined(STM32WB)
enum { PART = 0x494, OTHER = 0x495, HAS_BANKS = 0, ON = 10, BKER = 11, BK = 32, SYSF = 20, CLOCKS = 4, CLOCKS_ON = 0 };
static const uint32_t REGISTERS = 0x58004000, DEVICE = 0xe0042000, SIZE = 0x1fff75e0, OPTIONS = 0xffffffaa;
#else
enum { PART = 0x469, OTHER = 0x469, HAS_BANKS = 1, ON = 10, BKER = 11, BK = 21, SYSF = 22, CLOCKS = 0x40021060, CLOCKS_ON = 0x4000 };
static const uint32_t REGISTERS = 0x40022000, DEVICE = 0xe0042000, SIZE = 0x1fff75e0, OPTIONS = 0xffaff8aa;
#endif
/* Whether its words have to be pairs, since it may have no ECC. */
#ifdef STM32C0
enum { IS_PAIRED = 1 };
#else
enum { IS_PAIRED = 0 };
#endif
#ifdef STM32G4
static const uint32_t ECCC2 = 1u << 28, ECCD2 = 1u << 29;
#else
static const uint32_t ECCC2 = 0, ECCD2 = 0;
#endif
static const uint32_t AFTER_RESET = 0x40600 & ~(1u << (19 - ON)) /* the other cache's bit is none of the port's */;

static struct { volatile uint32_t acr, other, keyr, optkeyr, sr, cr, eccr, ecc2r, optr; } registers;
static uint32_t memory[2 * MOST_WORDS];
static uint8_t states[MOST_WORDS];
static stm32_ecc part;
/* What the part is: its number, its flash, where the model's pages begin in it, and the bank that they are built in. */
static uint32_t device, flash_kb, has_two, exchanges, clocks, base, bank;
static uint32_t keys, first_half, steps, fails_in, busy_for, others, lies, faints, untold;
static int is_queued; /* a write to the flash isn't there yet */
static int is_off, is_settled, is_in_nmi;
static uint32_t raised_for; /* the NMI is raised: 1 where it comes at the next barrier, more where it comes accesses later */
static int updates; /* a program writes what was asked for into the cache too; else it leaves an old line there */
/* How the part may be wrong. Each is off and on below. */
static int hides; /* while a flag stands an error elsewhere is not told; else its flag is, with the address of before */
static int is_late; /* the NMI doesn't come at a barrier */
static int is_lying; /* the address of an error may be any other one */
static int has_ecc = 1; /* else what a cut left reads as it is */
static int is_virgin; /* two cells of an erased word that a cut program cleared are not told, and three may be taken for one */
static int held; /* the second core lets a step begin: 1 of a program, 2 of an erase */
static enum fault fault;

/* The cache, and what the flash read last with the cache off: a second read of either raises no NMI. */
static uint32_t lines[CACHE_LINES][2 * CACHE_WORDS], line_of[CACHE_LINES], next_line, buffer[4], buffer_of;
enum { NO_LINE = UINT16_MAX };

static int is_of_128(void) { return ECCD2 != 0 && part.page_words == 512; }
static int is_cached(void) { return registers.acr >> ON & 1; }

/* The register of the bank's errors. The other bank's stays as it is. */
static volatile uint32_t *ecc(void) {
#ifdef STM32G0
    if (bank) return &registers.ecc2r;
#endif
    return &registers.eccr;
}

/* Where the register of errors says that an error in a word of its bank is. */
static uint32_t told_of(uint32_t number) {
#if defined(STM32G4) || defined(STM32L4)
    return 8 * number;
#else
    return number;
#endif
}
static uint32_t in_bank(void) { return BK < 32 ? bank << (BK % 32) : 0; }

static void empty_caches(void) {
    for (int i = 0; i < CACHE_LINES; i++) line_of[i] = NO_LINE;
    buffer_of = NO_LINE;
}

/* An error with its flag, and where no flag stands its address, or another one. */
static void tell(uint32_t address, uint32_t flag) {
    static uint32_t kept;
    if ((*ecc() & (ECCC | ECCC2 | ECCD | ECCD2) & ~flag) != 0 && hides && kept != address) return;
    if ((*ecc() & (ECCC | ECCC2 | ECCD | ECCD2)) == 0) {
        kept = address;
        uint32_t told = is_lying && below(4) == 0 ? told_of(below(1 << 16)) : address;
        lies += told != address;
        *ecc() = (*ecc() & 1u << 24) | in_bank() | told;
    }
    *ecc() |= flag;
    if ((flag & (ECCD | ECCD2)) != 0 && raised_for == 0) raised_for = 1 + (is_late ? below(LATEST) : 0);
}

/* The flash reads one double word, or two, and tells what is wrong. */
static void sense(uint32_t i) {
    uint32_t count = is_of_128() ? 2 : 1, from = i / count * count, address = told_of(FIRST * part.page_words + from);
    for (uint32_t k = 0; k < count; k++) {
        if (states[from + k] == CORRECTED) tell(address, k ? ECCC2 : ECCC);
        if (states[from + k] == TORN) tell(address, k ? ECCD2 : ECCD);
    }
}

/* A read of 32 bits by the cache, or past it. */
static uint32_t fetched(uint32_t half) {
    uint32_t line = half / (2 * CACHE_WORDS), wide = is_of_128() ? 4 : 2, i;
    CHECK(is_settled); /* the cache is on or off as it was told */
    if (!is_cached()) {
        if (buffer_of != half / wide) {
            sense(half / 2);
            buffer_of = half / wide;
            memcpy(buffer, memory + buffer_of * wide, wide * sizeof *buffer);
        }
        return buffer[half % wide];
    }
    for (i = 0; i < CACHE_LINES && line_of[i] != line; i++) continue;
    if (i == CACHE_LINES) {
        i = next_line++ % CACHE_LINES;
        for (uint32_t k = 0; k < CACHE_WORDS; k++) sense(line * CACHE_WORDS + k);
        buffer_of = (line + 1) * 2 * CACHE_WORDS / wide - 1; /* what the flash read last */
        memcpy(buffer, memory + buffer_of * wide, wide * sizeof *buffer);
        line_of[i] = line;
        memcpy(lines[i], memory + line * 2 * CACHE_WORDS, sizeof lines[i]);
    }
    return lines[i][half % (2 * CACHE_WORDS)];
}

/* An access goes by, or a barrier: an NMI that is raised comes nearer. */
static void pass(int is_barrier) {
    if (raised_for == 0 || is_in_nmi || (is_late ? --raised_for > 0 : !is_barrier)) return;
    raised_for = 0, is_in_nmi = 1;
    others += stm32_ecc_nmi(&part) == 0; /* the product's own handler */
    CHECK(is_settled); /* the flag is down when the handler returns */
    is_in_nmi = 0;
}

static void barrier(void) {
    is_settled = 1, is_queued = 0;
    pass(1);
}

static void lock_model(void) { registers.cr |= 1u << 31, keys = 0; }

/* The program lets a step of each kind begin, which ends before the next one. */
static int may_step(int is_erase) {
    CHECK(held == 0);
    if (fault == HELD_OFF && ++steps >= fails_in) return 0;
    held = 1 + is_erase;
    return 1;
}
static void stepped(int is_erase) {
    CHECK(held == 1 + is_erase);
    held = 0;
}

/* A step begins, which no error of before may stand against. Whether it is the one that fails: behind it power is off, and steps
 * do nothing. */
static int fails(uint32_t turns) {
    CHECK((is_off || (registers.sr & SR_ERRORS) == 0) && held == (turns == 7 ? 2 : 1));
    int is_failing = fault != NONE && fault < STAYS_LOCKED && ++steps == fails_in;
    buffer_of = NO_LINE;
    busy_for = is_failing && fault == STAYS_BUSY ? UINT32_MAX : turns;
    if (is_failing && fault == WRITE_PROTECTED) registers.sr |= 1u << 4;
    if (is_off || (is_failing && (fault == POWER || fault == STAYS_BUSY))) registers.sr |= 1u << 1;
    return is_failing;
}

/* Some of the cells of an erased word that a program clears, so few that no flag tells it: as they are, or beside one that the
 * part takes for wrong and sets right. */
static void leave_virgin(uint32_t i, uint32_t low, uint32_t high) {
    uint64_t cells = ~((uint64_t)high << 32 | low), kept = 0;
    for (uint32_t n = 2 + below(2); n > 0 && cells != 0; n--) {
        uint64_t cell = cells & (~cells + 1);
        for (uint32_t turn = below(20); turn > 0 && (cells & ~(2 * cell - 1)) != 0; turn--) {
            uint64_t rest = cells & ~(2 * cell - 1);
            cell = rest & (~rest + 1);
        }
        kept |= cell, cells &= ~cell;
    }
    if (below(2)) kept ^= (uint64_t)1 << below(64);
    memory[2 * i] = (uint32_t)~kept;
    memory[2 * i + 1] = (uint32_t)(~kept >> 32);
    states[i] = FINE;
    untold++;
}

/* What a step that fails leaves of a double word: nothing done, done, done and read with a correction, all ones by a correction,
 * or torn. Where there is no ECC the cells are read as they are, and an erase may clear them first. */
static void leave(uint32_t i, uint32_t low, uint32_t high, int is_failing) {
    uint32_t kind = !is_failing ? 1 : fault == LAZY ? 0 : fault == SILENT ? 4 : below(7);
    int is_erase = (low & high) == UINT32_MAX;
    if (kind == 0) return;
    if (kind > 3 && is_virgin && !is_erase && fault == POWER) {
        leave_virgin(i, low, high);
        return;
    }
    memory[2 * i] = kind < 3 ? low : kind == 3 ? UINT32_MAX : !has_ecc && is_erase ? any_bits() : low | any_bits();
    memory[2 * i + 1] = kind < 3 ? high : kind == 3 ? UINT32_MAX : !has_ecc && is_erase ? any_bits() : high | any_bits();
    states[i] = kind == 1 || !has_ecc ? FINE : kind < 4 ? CORRECTED : TORN;
    faints += states[i] == CORRECTED && (memory[2 * i] & memory[2 * i + 1]) == UINT32_MAX;
}

static void erase_page_of_model(uint32_t page) {
    CHECK(page < part.pages && busy_for == 0);
    int is_failing = fails(7);
    if (is_off || (is_failing && fault == WRITE_PROTECTED)) return;
    for (uint32_t i = 0; i < part.page_words; i++) leave(page * part.page_words + i, UINT32_MAX, UINT32_MAX, is_failing);
    is_off = is_failing && fault == POWER;
}

static void program_word(uint32_t i, uint32_t low, uint32_t high) {
    int is_failing = fails(3);
    if (is_off || (is_failing && fault == WRITE_PROTECTED)) return;
    if (states[i] == CORRECTED) { /* no cell is programmed, but the word was */
        registers.sr |= PROGERR;
        return;
    }
    CHECK(memory[2 * i] == UINT32_MAX && memory[2 * i + 1] == UINT32_MAX && states[i] != TORN);
    leave(i, low, high, is_failing);
    for (int k = 0; k < CACHE_LINES && updates; k++) {
        if (line_of[k] != i / CACHE_WORDS) continue;
        lines[k][2 * i % (2 * CACHE_WORDS)] = low;
        lines[k][2 * i % (2 * CACHE_WORDS) + 1] = high;
    }
    is_off = is_failing && fault == POWER;
}

static void set_access(uint32_t value) {
    CHECK(((value ^ registers.acr) & ~(5u << ON)) == 0); /* nothing but the cache */
    if (value >> (ON + 2) & 1) {
        CHECK((value >> ON & 1) == 0 && !is_cached()); /* it is emptied while it is off */
        for (int i = 0; i < CACHE_LINES; i++) line_of[i] = NO_LINE;
    }
    registers.acr = value;
}

static void set_control(uint32_t value) {
    if (registers.cr >> 31) {
        CHECK(value == 1u << 31 || value == 0); /* the port writes to it only when it is unlocked, but for locking it */
        return;
    }
    registers.cr = value & ~(1u << 16);
    if (value >> 31) lock_model();
    if (value >> 16 & 1) {
        CHECK((value & 2) != 0 && (value >> BKER & 1) == bank && !is_cached());
        erase_page_of_model((value >> 3 & 0x7f) - FIRST);
    }
}

/* Where an address of the part is: the pages are memory, and registers beside those of the flash stay numbers. */
static volatile uint32_t *part_at(uint32_t address) {
    uint32_t offset = address - base, place = address - REGISTERS;
    if (place < sizeof registers) return (volatile uint32_t *)&registers + place / 4;
    return offset < sizeof memory ? memory + offset / 4 : (volatile uint32_t *)(uintptr_t)address;
}

static void set(volatile uint32_t *address, uint32_t value) {
    is_settled = 0;
    pass(0);
    if (address == part_at(CLOCKS)) {
        clocks = value;
    } else if (address == &registers.keyr) {
        keys = value == 0x45670123 ? 1 : keys == 1 && value == 0xcdef89ab ? 2 : 3;
        if (keys == 2 && fault != STAYS_LOCKED) registers.cr &= ~(1u << 31);
    } else if (address == &registers.sr) {
        registers.sr &= ~value;
    } else if (address == ecc()) {
        CHECK(!is_in_nmi || (value & (ECCC | ECCC2)) == 0); /* the handler leaves the flags of corrected errors */
        *ecc() = (*ecc() & ~(value & (ECCC | ECCC2 | ECCD | ECCD2)) & ~(1u << 24)) | (value & 1u << 24);
    } else if (address == &registers.acr) {
        set_access(value);
    } else if (address == &registers.cr) {
        set_control(value);
    } else {
        size_t i = (size_t)(address - memory);
        CHECK(address >= memory && i < 2 * part.pages * part.page_words && registers.cr == 1);
        CHECK(busy_for == 0 && !is_cached());
        is_queued = 1;
        if (i % 2 == 0) first_half = value;
        else program_word((uint32_t)(i / 2), first_half, value);
    }
}

/* The bits of the status that tell that the flash is busy. */
static uint32_t busy_bits(void) {
#if defined(STM32G0) || defined(STM32C0)
    return 1u << (below(2) ? 18 : 16 + bank);
#elif defined(STM32WB)
    return 1u << (16 + below(2) * (2 + below(2)));
#else
    return 1u << 16;
#endif
}

static uint32_t get(volatile uint32_t *address) {
    pass(0);
    if (address == part_at(DEVICE)) return CLOCKS == 0x4002103c && clocks >> 27 == 2 ? 0 : 0x20010000 | device;
    if (address == part_at(SIZE)) return 0xffff0000 | flash_kb;
    if (address == part_at(CLOCKS)) return clocks;
    if (address == part_at(0x40010000)) return (clocks & 1) != 0 ? exchanges << 8 : 0; /* it reads as 0 while its clock is off */
    if (address >= memory && address < memory + 2 * MOST_WORDS) {
        CHECK(address < memory + 2 * part.pages * part.page_words);
        if (busy_for > 0 && busy_for != UINT32_MAX) busy_for = 0; /* the read waits */
        return fetched((uint32_t)(address - memory));
    }
    if (address != &registers.sr) return *address;
    CHECK(!is_queued);
    uint32_t busy = busy_for > 0 ? busy_bits() : 0;
    if (busy_for > 0 && busy_for != UINT32_MAX) busy_for--;
    return registers.sr | busy;
}

/* The product reads the first words of the pages too, by the cache, which holds nothing old. */
static void read_by_others(uint32_t most) {
    CHECK(others == 0);
    for (uint32_t n = below(6); n > 0; n--) {
        uint32_t half = below(2 * most);
        barrier();
        CHECK(fetched(half) == memory[half]);
        do barrier();
        while (raised_for > 0);
        if (others) *ecc() &= ~(ECCC | ECCC2 | ECCD | ECCD2), others = 0; /* beside one that was corrected: the product's own handler */
    }
}

/* The model for moves. */
static void cut(uint32_t in) {
    read_by_others(part.pages * part.page_words);
    if (below(4) == 0) registers.sr |= PGSERR; /* the product's own write went wrong */
    steps = 0, fails_in = in, fault = in ? POWER : NONE;
}
static int is_cut(void) { return is_off; }

static void power(void) {
    memset((void *)&registers, 0, sizeof registers);
    registers.acr = AFTER_RESET;
    registers.eccr = registers.ecc2r = 1u << 24;
    registers.optr = OPTIONS | has_two << (BK == 21 ? 22 : 21);
    if (BKER == 13) registers.optr |= (exchanges ^ 1) << 20;
    clocks = CLOCKS_ON;
    lock_model();
    empty_caches();
    busy_for = 0, others = 0, is_off = 0, raised_for = 0, is_queued = 0, is_settled = 0, held = 0, fault = NONE;
    part.error = part.faint = part.corrected = part.is_stale = part.is_erasing = 0;
}

/* How large a page of a part is. */
static uint32_t page_bytes(uint32_t number, uint32_t two_banks) {
    return number == 0x495 || (number == 0x469 && !two_banks) ? 4096 : 2048;
}

/* A part of 512 KB with a device number, whose pages 60 on of a bank, or of all, are the store's. */
static ee_flash new_part(uint32_t number, uint32_t two_banks, uint32_t exchanged, uint32_t is_second, uint32_t pages) {
    memset(memory, 0xff, sizeof memory);
    memset(states, FINE, sizeof states);
    device = number, flash_kb = HAS_BANKS ? 512 : 256, has_two = two_banks, exchanges = exchanged;
    bank = is_second ^ (two_banks & exchanged);
    base = 0x08000000 + is_second * 0x40000 + FIRST * page_bytes(number, two_banks);
    power();
    ee_flash flash = stm32_ecc_flash(&part, base, pages);
    CHECK(flash.pages == pages && clocks == CLOCKS_ON);
    return flash;
}

/* All that the team has is as it was: the caches, the interrupt of a corrected error, and no other NMI. */
static int is_as_before(void) {
    volatile uint32_t *other = ecc() == &registers.eccr ? &registers.ecc2r : &registers.eccr;
    return registers.cr == 1u << 31 && registers.acr == AFTER_RESET && (*ecc() & 1u << 24) != 0 && *other == 1u << 24 &&
           others == 0 && clocks == CLOCKS_ON && held == 0;
}

/* Writes go wrong in each of their steps; what was stored before is there. */
static void failing(enum fault kind) {
    for (uint32_t step = 1; step < 1100; step += step < 20 ? 1 : 61) {
        ee_flash flash = new_part(PART, HAS_BANKS, HAS_BANKS & step, HAS_BANKS, 2);
        ee_store store;
        uint32_t value, n, status = EE_OK;
        CHECK(ee_open(&store, &flash) == EE_UNFORMATTED);
        CHECK(ee_format(&store, &flash) == EE_OK);
        CHECK(ee_write(&store, 9, 90) == EE_OK);
        steps = 0, fails_in = step, fault = kind;
        for (n = 0; n < 1200 && status == EE_OK; n++) status = ee_write(&store, 1, n);
        CHECK(status == EE_DRIVER && ee_write(&store, 1, 0) == EE_NOT_OPEN);
        fault = NONE, busy_for = 0, is_off = 0;
        registers.sr |= PGSERR;
        CHECK(ee_open(&store, &flash) == EE_OK);
        CHECK(ee_read(&store, 9, &value) == EE_OK && value == 90);
        if (ee_read(&store, 1, &value) == EE_OK) CHECK(value == n - 1 || value == n - 2);
        else CHECK(n == 1);
        CHECK(ee_write(&store, 1, 5) == EE_OK && ee_read(&store, 1, &value) == EE_OK && value == 5);
        CHECK(is_as_before());
    }
}

/* An error that the register tells, and what the handler answers; the flags that stand afterwards. */
static void raised(uint32_t eccr, int is_claimed, uint32_t flags) {
    *ecc() = 1u << 24 | eccr;
    is_settled = 1, is_in_nmi = 1;
    CHECK(stm32_ecc_nmi(&part) == is_claimed && is_settled);
    is_in_nmi = 0;
    CHECK((*ecc() & (ECCC | ECCC2 | ECCD | ECCD2)) == flags && (*ecc() & 1u << 24) != 0);
    *ecc() = 1u << 24;
}

/* The handler takes the errors in the store's pages alone, and while the port reads each. */
static void addresses(uint32_t number, uint32_t two_banks, uint32_t is_second) {
    memset(&part, 0, sizeof part);
    bank = 0;
    raised(ECCD, 0, ECCD); /* before there is a store */
    new_part(number, two_banks, 0, is_second, 1);
    uint32_t begin = FIRST * part.page_words, end = begin + 2 * part.page_words, in = is_of_128() ? 0 : in_bank();
    raised(ECCD | in | told_of(begin), 1, 0);
    raised(ECCD | in | told_of(end - 1), 1, 0);
    raised(ECCD | ECCC | in | told_of(begin), 0, ECCD | ECCC); /* the address may be that of the corrected one, and the error anywhere */
    if (ECCD2) raised(ECCD2 | ECCC2 | in | told_of(begin), 0, ECCD2 | ECCC2);
    part.is_reading = 1;
    raised(ECCD | ECCC | in | told_of(begin), 1, ECCC);
    if (ECCD2) raised(ECCD2 | ECCC2 | in | told_of(begin), 1, ECCC2);
    raised(ECCD, 1, 0);
    part.is_reading = 0;
    raised(ECCC | in | told_of(begin), 0, ECCC); /* another cause */
    raised(in | told_of(begin), 0, 0);
    uint32_t far[] = {0, begin - 1, end, 0x7fff};
    for (int i = 0; i < 4; i++) raised(ECCD | in | told_of(far[i]), 0, ECCD);
    raised(ECCD | 1u << SYSF | in | told_of(begin), 0, ECCD); /* the system's flash */
    if (BK < 32 && two_banks) raised(ECCD | (in ^ 1u << (BK % 32)) | told_of(begin), 0, ECCD); /* the other bank */
    *(ecc() == &registers.eccr ? &registers.ecc2r : &registers.eccr) = ECCD | told_of(begin);
    raised(0, 0, 0); /* the other bank's own register */
    if (is_of_128()) raised(ECCD2 | told_of(begin), 1, 0), raised(ECCD2 | 16, 0, ECCD2);
}

/* An address and so many pages of a set; whether they fit, and then the bank and the number of the first page. */
static void placed(uint32_t address, uint32_t pages, int fits, uint32_t in, uint32_t first) {
    ee_store store;
    ee_flash flash = stm32_ecc_flash(&part, address, pages);
    CHECK(flash.pages == (fits ? pages : 0));
    if (fits) CHECK(part.bank == in && part.first_page == first);
    else CHECK(ee_start(&store, &flash) == EE_WRONG_SHAPE && ee_format(&store, &flash) == EE_WRONG_SHAPE);
}

/* Each of some device numbers, for which an address fits or not. */
static void numbers(const uint32_t *given, int count, uint32_t address, int fits, uint32_t first) {
    uint32_t before = device;
    for (int i = 0; i < count; i++) device = given[i], placed(address, 1, fits, 0, first);
    device = before;
}

/* What holds of each part with two banks. */
static void two_banks(uint32_t swaps) {
    new_part(PART, 1, swaps, 0, 1);
    placed(0x0807f000, 1, 1, 1 ^ swaps, 126);
    placed(0x0803f000, 1, 1, swaps, 126);
    placed(0x0803f800, 1, 0, 0, 0); /* over two banks */
    placed(0x0807f800, 1, 0, 0, 0); /* over the end */
    placed(0x0807f400, 1, 0, 0, 0); /* no page begins there */
    placed(0x08080000, 1, 0, 0, 0);
    placed(0x07fff000, 1, 0, 0, 0);
    placed(0x0007f000, 1, 0, 0, 0);
    placed(0x08040000, 64, 1, 1 ^ swaps, 0);
    placed(0x08040000, 65, 0, 0, 0);
    placed(0x0807f000, UINT32_MAX, 0, 0, 0);
}

/* Where pages are, by the part's number, its size, its options and the exchange of its banks. */
static void places(void) {
    static const uint32_t sizes[] = {0, 2048, 0xffff}, unknown[] = {0, 0x420, 0x470, 0x471, 0xfff};
    for (uint32_t swaps = 0; swaps <= HAS_BANKS; swaps++) {
        if (HAS_BANKS) two_banks(swaps);
        else new_part(PART, 0, 0, 0, 1);
        if (PART) numbers(unknown, 5, 0x0801f000, 0, 0);
#if defined(STM32G4)
        static const uint32_t ones[] = {0x479, 0x468};
        flash_kb = 256; /* the second bank begins where it does on a part of 512 KB */
        placed(0x0805f000, 1, 1, 1 ^ swaps, 62);
        placed(0x0801f000, 1, 1, swaps, 62);
        placed(0x08020000, 1, 0, 0, 0);
        placed(0x08060000, 1, 0, 0, 0);
        numbers(ones, 2, 0x0803f000, 1, 126); /* have one bank, whatever stands in the options */
        has_two = 0, flash_kb = 512;
        power();
        placed(0x0807e000, 1, 1, 0, 126);
        placed(0x0807f000, 1, 0, 0, 0);
        placed(0x0807e800, 1, 0, 0, 0);
#elif defined(STM32G0)
        static const uint32_t ones[] = {0x456, 0x460, 0x466};
        flash_kb = 128; /* the second bank begins behind the first */
        placed(0x0801f000, 1, 1, 1 ^ swaps, 30);
        placed(0x0800f000, 1, 1, swaps, 30);
        placed(0x0804f000, 1, 0, 0, 0);
        numbers(ones, 3, 0x0801f000, 1, 62); /* have one bank, whatever stands in the options */
        has_two = 0;
        power();
        placed(0x0800f000, 1, 1, 0, 30);
        placed(0x0801f000, 1, 0, 0, 0); /* whose register tells its errors is open */
#elif defined(STM32L4)
        static const uint32_t ones[] = {0x435, 0x462, 0x464}, radios[] = {0x494, 0x495, 0x496, 0x497, 0x469};
        numbers(radios, 5, 0x0803f000, 0, 0);
        numbers(ones, 3, 0x0803f000, 1, 126); /* have one bank */
        device = 0x461, flash_kb = 256;       /* the second bank begins behind the first */
        placed(0x0803f000, 1, 1, 1 ^ swaps, 62);
        placed(0x0801f000, 1, 1, swaps, 62);
        placed(0x0805f000, 1, 0, 0, 0);
        has_two = 0;
        power();
        placed(0x0803f000, 1, 1, 0, 126);
        flash_kb = 1024; /* has two banks, whatever stands in the options */
        placed(0x080ff000, 1, 1, 1 ^ swaps, 254);
#elif defined(STM32WB)
        static const uint32_t wide[] = {0x495, 0x496}, none[] = {0x497, 0x415};
        numbers(none, 2, 0x0801f000, 0, 0);
        numbers(wide, 2, 0x0803e000, 1, 62);
        numbers(wide, 2, 0x0803f000, 0, 0);
        placed(0x0803f000, 1, 1, 0, 126);
#else
        placed(0x0803f000, 1, 1, 0, 126);
        placed(0x0803f800, 1, 0, 0, 0);
#endif
        for (int i = 0; i < 3; i++) flash_kb = sizes[i], placed(0x0803f000, 1, 0, 0, 0);
    }
}

/* Each read of a torn word tells it, and reads of its neighbours do not; so it is behind a corrected error in the program. */
static void torn(uint32_t number, uint32_t banks, uint32_t is_second) {
    ee_flash flash = new_part(number, banks, 0, is_second, 1);
    uint64_t value;
    for (uint32_t i = 0; i < 8; i++) CHECK(flash.program(&part, 0, i, 7 + i) == 0);
    states[3] = states[4] = states[5] = TORN;
    states[6] = states[9] = states[11] = CORRECTED; /* 9 and 11 are all ones */
    for (uint32_t n = 0; n < 1500; n++) {
        uint32_t place = below(12), is_torn = (place >= 3 && place <= 5) || place == 9 || place == 11;
        if (below(4) == 0) tell(told_of(below(100)), ECCC);
        if (below(4) == 0) empty_caches(), read_by_others(12);
        for (uint32_t again = below(3); again < 3; again++) {
            uint32_t status = flash.word(&part, 0, place, &value);
            CHECK(status == (is_torn && !IS_PAIRED ? EE_TORN : 0));
            CHECK(status != 0 || value == (is_torn ? NO_NUMBER : place < 8 ? 7 + place : UINT64_MAX));
            CHECK((*ecc() & (ECCD | ECCD2)) == 0);
        }
    }
    tell(told_of(6), ECCC);
    uint32_t stood = *ecc();
    CHECK(flash.word(&part, 0, 0, &value) == 0 && part.corrected == stood);
    CHECK(is_as_before());
    steps = 0, fails_in = 1, fault = SILENT;
    CHECK(flash.erase(&part, 0) != 0); /* with no flag of the part */
    fault = NONE;
    for (uint32_t place = 0; place < 12; place++) {
        if (place == 0) CHECK(flash.erase(&part, 0) == 0);
        CHECK(flash.word(&part, 0, place, &value) == 0 && value == UINT64_MAX && is_as_before());
    }
}

/* An error that nobody takes is no torn word: nothing is known of it. */
static void untaken(void) {
    ee_flash flash = new_part(PART, HAS_BANKS, 0, HAS_BANKS, 1);
    ee_store store;
    uint64_t value;
    CHECK(ee_start(&store, &flash) == EE_OK);
    empty_caches();
    states[3] = TORN, is_in_nmi = 1; /* as in a handler of more weight */
    CHECK(flash.word(&part, 0, 3, &value) == EE_READ_FAILED);
    steps = 0, fails_in = UINT32_MAX, fault = POWER;
    CHECK(ee_start(&store, &flash) == EE_DRIVER && steps == 0);
    raised_for = 0, is_in_nmi = 0;
}

/* An erase that is begun: the program goes on, each step waits for its end, and it may be held off or cut. */
static void begun(void) {
    ee_flash flash = new_part(PART, HAS_BANKS, 0, HAS_BANKS, 1);
    uint64_t value;
    for (int kind = 0; kind < 3; kind++) {
        CHECK(flash.program(&part, 1, 5, 55) == 0 && stm32_ecc_is_done(&part));
        CHECK(stm32_ecc_begin_erase(&part, 1) && held == 2);
        uint32_t turns = 0;
        if (kind == 0) while (!stm32_ecc_is_done(&part)) CHECK(++turns < 100);
        if (kind == 0) CHECK(turns > 2);
        if (kind == 1) CHECK(flash.program(&part, 0, 5, 55) == 0);
        if (kind == 2) CHECK(flash.erase(&part, 0) == 0);
        CHECK(stm32_ecc_is_done(&part) && is_as_before());
        CHECK(flash.word(&part, 1, 5, &value) == 0 && value == UINT64_MAX);
    }
    CHECK(!stm32_ecc_begin_erase(&part, 2)); /* no page of the store */
    fault = HELD_OFF, fails_in = 0;
    CHECK(!stm32_ecc_begin_erase(&part, 1) && is_as_before());
    fault = STAYS_LOCKED;
    CHECK(!stm32_ecc_begin_erase(&part, 1) && is_as_before());
    fault = NONE;
    states[part.page_words + 3] = TORN;
    CHECK(flash.word(&part, 1, 3, &value) == (IS_PAIRED ? 0 : EE_TORN) && stm32_ecc_begin_erase(&part, 1));
    while (!stm32_ecc_is_done(&part)) continue;
    CHECK(flash.word(&part, 1, 3, &value) == 0 && value == UINT64_MAX && is_as_before());
}

/* Cuts that leave a word which no flag tells: its check does, and nothing is lost that was stored before. */
static void virgin(void) {
    is_virgin = 1;
    for (uint32_t n = 0; n < 1000; n++) {
        ee_flash flash = new_part(PART, HAS_BANKS, 0, HAS_BANKS, 1);
        ee_store store;
        uint32_t value, wanted = any_bits();
        CHECK(ee_start(&store, &flash) == EE_OK && ee_write(&store, 9, 90) == EE_OK && ee_write(&store, 1, ~wanted) == EE_OK);
        steps = 0, fails_in = 1 + below(2), fault = POWER;
        uint32_t status = ee_write(&store, 1, wanted);
        CHECK(status == EE_OK || status == EE_DRIVER);
        power();
        status = ee_start(&store, &flash);
        CHECK(status == EE_OK);
        CHECK(ee_read(&store, 9, &value) == EE_OK && value == 90);
        CHECK(ee_read(&store, 1, &value) == EE_OK && (value == wanted || value == ~wanted));
    }
    is_virgin = 0;
    CHECK(untold > 100);
}

int main(void) {
    static const model here = {cut, is_cut, power};
    for (int with_cuts = 0; with_cuts < 2; with_cuts++) {
        for (updates = 0; updates < 2; updates++) {
            hides = is_late = updates, is_lying = !updates;
            ee_flash two = new_part(PART, HAS_BANKS, HAS_BANKS & (uint32_t)updates, HAS_BANKS, 1);
            moves(&two, &here, with_cuts);
            CHECK(is_as_before());
        }
        is_late = is_lying = 1, has_ecc = !IS_PAIRED;
        ee_flash one = new_part(OTHER, 0, 0, 0, 1);
        moves(&one, &here, with_cuts);
        CHECK(is_as_before());
        has_ecc = 1;
    }
    for (int kind = 0; kind < 8; kind++) {
        hides = kind & 1, is_late = kind >> 1 & 1, is_lying = kind >> 2;
        torn(OTHER, 0, 0), torn(PART, HAS_BANKS, 0), torn(PART, HAS_BANKS, HAS_BANKS);
    }
    hides = is_late = is_lying = 0;
    addresses(PART, HAS_BANKS, HAS_BANKS), addresses(PART, HAS_BANKS, 0), addresses(OTHER, 0, 0);
    places();
    for (enum fault kind = WRITE_PROTECTED; kind <= HELD_OFF; kind++) failing(kind);
    untaken();
    begun();
    virgin();
    CHECK(waited > 0 && lies > 1000 && faints > 1000);
    return 0;
}
