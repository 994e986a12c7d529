/* Counts the words that each call reads, the words that it programs and the pages that it erases, and holds them to the table
 * of ee.h: random calls on parts of several shapes, of words, of pairs of numbers and of coded words, with cuts, many forgettings, and sets
 * with a value in each slot. */
#define MOST_PAGES 16
#define MOST_WORDS 40
#include "part.h"

enum { SHAPES = 5, CALLS = 3000 };
enum kind { START, OPEN, FORMAT, WRITE, WRITE_ALL, FORGET, CLEAR, CLEAN, READ, LOAD, READ_SPAN, NEXT, COUNTS, RESCUE, BAD_WORDS };

static const uint32_t shapes[SHAPES][2] = {{1, 5}, {1, 40}, {2, 7}, {3, 20}, {8, 5}};
static part device;
static ee_flash flash;
static ee_store store;
static uint64_t dice = 88172645463325252u;
static unsigned long most_read;
static ee_value list[MOST_PAGES / 2 * (MOST_WORDS - 4) + 2];
static uint32_t listed;

static uint32_t below(uint32_t end) {
    dice ^= dice << 13;
    dice ^= dice >> 7;
    dice ^= dice << 17;
    return (uint32_t)(dice >> 20) % end;
}

/* A list of addresses from this one on, rising: short for the most part, else up to one more than there are slots. */
static void make_list(uint16_t address, uint32_t slots) {
    listed = below(2) ? below(4) : below(slots + 2);
    for (uint32_t i = 0; i < listed; i++) list[i] = (ee_value){(uint16_t)(address + i), i};
}

static uint32_t made(enum kind kind, uint16_t address) {
    uint32_t value = address;
    ee_span span;
    ee_numbers numbers;
    switch (kind) {
    case START: return ee_start(&store, &flash);
    case OPEN: return ee_open(&store, &flash);
    case FORMAT: return ee_format(&store, &flash);
    case WRITE: return ee_write(&store, address, value);
    case WRITE_ALL: return ee_write_all(&store, list, listed);
    case FORGET: return ee_forget(&store, address);
    case CLEAR: return ee_forget_all(&store);
    case CLEAN: return ee_clean(&store);
    case READ: return ee_read(&store, address, &value);
    case LOAD: return ee_load(&store, list, listed, &value);
    case READ_SPAN: return ee_read_span(&store, address, EE_SPAN, &span);
    case NEXT: return ee_next(&store, &address, &value);
    case COUNTS: return ee_counts(&store, &numbers);
    case RESCUE: return ee_rescue(&store, &flash);
    default: return ee_bad_words(&flash, &value);
    }
}

/* How many words of the flash are torn. */
static uint32_t torn_words(void) {
    uint32_t torn = 0;
    for (uint32_t page = 0; page < 2 * device.pages; page++) {
        for (uint32_t at = 0; at < device.page_words; at++) {
            const uint64_t *numbers = &device.words[page][2 * at];
            int is_erased = numbers[0] == UINT64_MAX && numbers[1] == UINT64_MAX;
            int is_held = numbers[0] != UINT64_MAX && numbers[1] == ~numbers[0];
            torn += device.pairs ? !is_erased && !is_held : device.coded || device.torn[page][at];
        }
    }
    return torn;
}

/* Makes a call, and sees that it stays below the table. */
static uint32_t counted(enum kind kind, uint16_t address, int is_room) {
    uint32_t p = device.pages, s = p * (device.page_words - 4), w = 2 * p * device.page_words, n = s * (s / 28 + 1);
    if (kind == WRITE_ALL || kind == LOAD) make_list(address, s);
    const uint32_t most[][3] = {
        [START] = {3 * w, 2 * p, 2 * p}, [OPEN] = {3 * w, 2 * p, 0},
        [FORMAT] = {w + 2 * p + 2, 2, 2 * p},
        [WRITE] = {is_room ? 2 : 2 * n + 2 * w, is_room ? 3 : s + 3 * p + 1, is_room ? 0 : p},
        [WRITE_ALL] = {2 * n + 2 * w + listed * s, s + 3 * p + 1, p},
        [FORGET] = {is_room ? s + 2 : n + 2 * w, is_room ? 3 : s + 3 * p + 1, is_room ? 0 : p},
        [CLEAR] = {2 * w, p + 2, p},     [CLEAN] = {w / 2 + p, 0, 1},
        [READ_SPAN] = {s, 0, 0},
        [READ] = {s, 0, 0},              [LOAD] = {s * (listed / 32 + 1), 0, 0},
        [NEXT] = {n, 0, 0},
        [COUNTS] = {n + w, 0, 0},        [RESCUE] = {n + 3 * w, s + 3 * p + 1, p},
        [BAD_WORDS] = {2 * w, 0, 0}};
    uint32_t looked_at = !device.pairs || kind >= FORMAT ? 0 : kind == START ? 2 * w : w;
    if (device.coded) looked_at = 4 + (kind == START ? w : 0);
    if (kind <= OPEN) looked_at += 17 * torn_words();
    device.read = device.programmed = device.erased = 0;
    uint32_t status = made(kind, address);
    CHECK(device.read <= (most[kind][0] + looked_at) << device.pairs);
    CHECK(device.programmed <= most[kind][1] << device.pairs && device.erased <= most[kind][2]);
    if (device.read > most_read) most_read = device.read;
    return status;
}

/* Opens the store again after a cut, or formats again. */
static void opened_again(enum kind kind) {
    device.cut_in = 0;
    if (kind == FORMAT) CHECK(counted(FORMAT, 0, 0) == EE_OK);
    else CHECK(counted(below(3) == 0 ? RESCUE : below(2) ? OPEN : START, 0, 0) == EE_OK);
}

/* Whether a slot is free, of a store that is on. */
static int is_room(void) {
    ee_numbers numbers;
    return ee_counts(&store, &numbers) == EE_OK && numbers.fill < numbers.slots;
}

static void run(uint32_t pages, uint32_t page_words, uint32_t addresses, uint32_t kind) {
    blank(&device, pages, page_words);
    device.pairs = kind == EE_PAIRS;
    device.coded = kind == EE_CODED;
    device.runs = (enum runs)below(RUN_KINDS);
    flash = flash_of(&device);
    CHECK(counted(OPEN, 0, 0) == EE_UNFORMATTED && counted(START, 0, 0) == EE_OK);
    for (int i = 0; i < CALLS; i++) {
        enum kind kind = below(50) == 0 ? FORMAT : below(4) == 0 ? (enum kind)below(BAD_WORDS + 1) : below(3) ? WRITE : below(3) ? FORGET : WRITE_ALL;
        device.steps = 0;
        device.cut_in = below(4) == 0 ? 1 + below(12) : 0;
        device.tear = (enum tear)below(TEARS);
        if (counted(kind, (uint16_t)(1 + below(addresses)), is_room()) == EE_DRIVER) {
            opened_again(kind);
        }
        device.cut_in = 0;
    }
}

int main(void) {
    for (int i = 0; i < SHAPES; i++) {
        uint32_t slots = shapes[i][0] * (shapes[i][1] - 4);
        for (uint32_t kind = EE_WORDS; kind <= EE_CODED; kind++) {
            if (kind == EE_PAIRS_CLEARING) continue;
            run(shapes[i][0], shapes[i][1], slots + 1, kind);
            run(shapes[i][0], shapes[i][1], 3 * slots, kind);
        }
    }
    return most_read == 0;
}
