/* Random writes by the peer and by the C library, each on a flash of its own and cut in the same steps in the same way: both
 * have every value that was answered, and the same words in headers; in slots too where the move goes by scans. Each opens what
 * the other left, and both open or refuse the same damaged flashes.
 *
 *     random SEEDS WRITES */
#include "../c/ee.h"
#include "peer.h"

#include <stdio.h>
#include <stdlib.h>
#include <string.h>

enum { SLOTS = PEER_PAGES * (PEER_PAGE_WORDS - 4), HEADER = 4 << PEER_PAIRS, PAGES = 2 * PEER_PAGES };
enum { MOST = SLOTS < 12 ? SLOTS : 12, ADDRESSES = PEER_ADDRESSES < MOST ? PEER_ADDRESSES : MOST }; /* that are read */

#define ERASED UINT64_MAX
#define MARK UINT64_C(0xaaaaaaaaaaaaaaaa)
#define RECEIVE UINT64_C(0xaaaaaaaa00000000)

#define CHECK(holds)                                                                                                           \
    do {                                                                                                                       \
        if (!(holds)) {                                                                                                        \
            fprintf(stderr, "%s:%d: %s, seed %u\n", __FILE__, __LINE__, #holds, (unsigned)seed);                               \
            exit(1);                                                                                                           \
        }                                                                                                                      \
    } while (0)

static uint32_t seed;
static uint64_t dice;
static uint32_t written; /* addresses that are written */

static uint64_t rolled(uint64_t *from) {
    *from ^= *from << 13;
    *from ^= *from >> 7;
    *from ^= *from << 17;
    return *from * UINT64_C(0x9e3779b97f4a7c15);
}

static uint32_t below(uint32_t end) { return (uint32_t)(rolled(&dice) >> 32) % end; }

/* What a cut leaves. Of a page that is erased MIXED leaves each third number as it was, erased and torn. */
enum tear { NOTHING, DONE, TORN, MIXED, TEARS };

typedef struct part {
    uint64_t numbers[PAGES][PEER_NUMBERS];
    uint8_t torn[PAGES][PEER_NUMBERS]; /* of words: it can't be read, and the number is 0 */
    uint64_t dice;                     /* for the bits that a cut leaves of a number */
    uint32_t cut_in;                   /* the further step that is cut, 0 for none */
    enum tear tear;
    int is_off;
} part;

/* Bits that look random: half of them, few, many, or one. */
static uint64_t any_bits(uint64_t *from) {
    uint64_t kind = rolled(from) >> 62, a = rolled(from), b = rolled(from), c = rolled(from);
    return kind == 0 ? a : kind == 1 ? (a & b & c) : kind == 2 ? (a | b | c) : UINT64_C(1) << (a >> 58);
}

static void leave(part *p, uint32_t page, uint32_t place, uint64_t new, enum tear tear) {
    uint64_t *number = &p->numbers[page][place];
    if (tear == NOTHING) return;
    p->torn[page][place] = !PEER_PAIRS && tear == TORN;
    *number = tear == DONE ? new : PEER_PAIRS ? ((*number & new) | any_bits(&p->dice)) : 0;
}

static int begins_a_cut(part *p) {
    CHECK(!p->is_off);
    p->is_off = p->cut_in > 0 && --p->cut_in == 0;
    return p->is_off;
}

static uint32_t number(void *context, uint32_t page, uint32_t place, uint64_t *value) {
    part *p = context;
    CHECK(page < PAGES && place < PEER_NUMBERS);
    *value = p->torn[page][place] ? 1 : p->numbers[page][place];
    return p->torn[page][place] ? EE_TORN : 0;
}

static uint32_t program(void *context, uint32_t page, uint32_t place, uint64_t value) {
    part *p = context;
    CHECK(page < PAGES && place < PEER_NUMBERS && value != ERASED && p->numbers[page][place] == ERASED);
    int is_cut = begins_a_cut(p);
    leave(p, page, place, value, !is_cut ? DONE : p->tear == MIXED ? TORN : p->tear);
    return (uint32_t)is_cut;
}

static uint32_t erase(void *context, uint32_t page) {
    static const enum tear thirds[3] = {NOTHING, DONE, TORN};
    part *p = context;
    CHECK(page < PAGES);
    int is_cut = begins_a_cut(p);
    for (uint32_t place = 0; place < PEER_NUMBERS; place++) {
        leave(p, page, place, ERASED, !is_cut ? DONE : p->tear == MIXED ? thirds[place % 3] : p->tear);
    }
    return (uint32_t)is_cut;
}

static peer_flash peer_flash_of(part *p) {
    return (peer_flash){
        .context = p,
#if PEER_MAPPED
        .numbers = &p->numbers[0][0],
#else
        .number = number,
#endif
        .program = program,
        .erase = erase,
    };
}

static ee_flash ee_flash_of(part *p) {
    return (ee_flash){.context = p, .pages = PEER_PAGES, .page_words = PEER_PAGE_WORDS, .word = number, .program = program,
                      .erase = erase, .kind = PEER_PAIRS};
}

/* The values of a store; of an address that has none `there` is 0. */
typedef struct map {
    uint32_t values[ADDRESSES], there[ADDRESSES];
} map;

static map held_by_peer(const peer_store *store) {
    map m = {{0}, {0}};
    for (uint32_t i = 0; i < ADDRESSES; i++) {
        uint32_t status = peer_read(store, (uint16_t)(i + 1), &m.values[i]);
        CHECK(status == PEER_OK || status == PEER_NOTHING);
        m.there[i] = status == PEER_OK;
    }
    return m;
}

static map held_by_ee(const ee_store *store) {
    map m = {{0}, {0}};
    for (uint32_t i = 0; i < ADDRESSES; i++) {
        uint32_t status = ee_read(store, (uint16_t)(i + 1), &m.values[i]);
        CHECK(status == EE_OK || status == EE_NOTHING);
        m.there[i] = status == EE_OK;
    }
    return m;
}

static int same(const map *a, const map *b) { return memcmp(a, b, sizeof *a) == 0; }

/* Whether two parts have the same words: those of headers, and those of slots too where both moved in the same order. */
static int alike(const part *a, const part *b) {
    uint32_t count = PEER_SCANS ? PEER_NUMBERS : HEADER;
    for (uint32_t page = 0; page < PAGES; page++) {
        if (memcmp(a->numbers[page], b->numbers[page], count * sizeof a->numbers[page][0]) != 0) return 0;
        if (memcmp(a->torn[page], b->torn[page], count) != 0) return 0;
    }
    return 1;
}

/* Both stores, and the values that they were given. */
static part mine, theirs;
static peer_flash my_flash;
static ee_flash their_flash;
static peer_store peer;
static ee_store ee;
static map given;
static unsigned long cuts, moves;

/* The next call is cut in this further step, 0 for none. */
static void cut_in(uint32_t step) {
    mine.cut_in = theirs.cut_in = step;
    mine.tear = theirs.tear = (enum tear)below(TEARS);
}

/* How many slots are used. */
static uint32_t fill_of(const peer_set *set) { return (set->page - set->first) * (PEER_PAGE_WORDS - 4) + set->place - 4; }

static void check_all(void) {
    map a = held_by_peer(&peer), b = held_by_ee(&ee);
    ee_numbers numbers;
    CHECK(same(&a, &given) && same(&b, &given));
    CHECK(alike(&mine, &theirs));
    CHECK(ee_counts(&ee, &numbers) == EE_OK);
    CHECK(numbers.generation == peer.live.generation && numbers.fill == fill_of(&peer.live));
}

/* Power comes back, and may be cut in opening. */
static void open_both(void) {
    for (;;) {
        mine.is_off = theirs.is_off = 0;
        cut_in(below(4) == 0 ? 1 + below(3) : 0);
        uint32_t status = peer_open(&peer, &my_flash), other = ee_open(&ee, &their_flash);
        CHECK(alike(&mine, &theirs));
        if (status == PEER_OK && other == EE_OK) break;
        CHECK(status == PEER_DRIVER && other == EE_DRIVER && mine.is_off && theirs.is_off);
        cuts++;
    }
    cut_in(0);
}

/* After a cut in a write of a value: both found the write, or neither did. */
static void find_write(uint32_t address, uint32_t value) {
    uint32_t found, status = peer_read(&peer, (uint16_t)address, &found);
    if (status == PEER_OK && found == value) given.values[address - 1] = value, given.there[address - 1] = 1;
}

static void write_both(void) {
    uint32_t address = 1 + below(written), value = (uint32_t)rolled(&dice), generation = peer.live.generation;
    cut_in(below(6) > 0 ? 0 : 1 + below(below(2) ? 3 : 3 * SLOTS));
    uint32_t status = peer_write(&peer, (uint16_t)address, value), other = ee_write(&ee, (uint16_t)address, value);
    if (status == PEER_OK) {
        CHECK(other == EE_OK);
        cut_in(0);
        given.values[address - 1] = value, given.there[address - 1] = 1;
        moves += peer.live.generation != generation;
        if (below(8) == 0) check_all();
        return;
    }
    CHECK(status == PEER_DRIVER && other == EE_DRIVER && mine.is_off && theirs.is_off);
    CHECK(peer_write(&peer, 1, 0) == PEER_OFF);
    cuts++;
    open_both();
    find_write(address, value);
    check_all();
}

/* A flash that held anything. */
static void format_both(void) {
    memset(&mine, 0, sizeof mine);
    mine.dice = rolled(&dice);
    for (uint32_t page = 0; page < PAGES; page++) {
        for (uint32_t place = 0; place < PEER_NUMBERS; place++) {
            mine.numbers[page][place] = page == 0 ? ERASED : rolled(&dice);
        }
    }
    theirs = mine;
    for (;;) {
        mine.is_off = theirs.is_off = 0;
        cut_in(below(2) ? 1 + below(PAGES + 1) : 0);
        uint32_t status = peer_format(&peer, &my_flash), other = ee_format(&ee, &their_flash);
        CHECK((status == PEER_OK) == (other == EE_OK));
        if (status == PEER_OK) break;
        CHECK(status == PEER_DRIVER && other == EE_DRIVER);
    }
    cut_in(0);
    memset(&given, 0, sizeof given);
    check_all();
}

/* The peer opens what the library left, and has these values. */
static void open_theirs(part *p, const map *values) {
    peer_flash my = peer_flash_of(p);
    peer_store store;
    CHECK(peer_open(&store, &my) == PEER_OK);
    map found = held_by_peer(&store);
    CHECK(same(&found, values));
}

/* The library opens what the peer left, and takes no step for it. It writes until it moved, and the peer opens that. */
static void exchange(void) {
    part p = mine;
    ee_flash flash = ee_flash_of(&p);
    ee_store store;
    ee_numbers numbers = {0};
    CHECK(ee_open(&store, &flash) == EE_OK && memcmp(&p, &mine, sizeof p) == 0);
    map m = held_by_ee(&store);
    CHECK(same(&m, &given));
    while (numbers.generation <= peer.live.generation) {
        uint32_t address = 1 + below(written), value = (uint32_t)rolled(&dice);
        CHECK(ee_write(&store, (uint16_t)address, value) == EE_OK && ee_counts(&store, &numbers) == EE_OK);
        m.values[address - 1] = value, m.there[address - 1] = 1;
        if (below(SLOTS) < 4) open_theirs(&p, &m);
    }
    open_theirs(&p, &m);
}

static void set_word(part *p, uint32_t page, uint32_t place, uint64_t word) {
    uint64_t *numbers = &p->numbers[page][place << PEER_PAIRS];
    numbers[0] = word;
    p->torn[page][place] = 0;
    if (PEER_PAIRS) numbers[1] = word == ERASED ? ERASED : ~word;
}

/* Both open a part, or neither does, and then they have the same values and leave the same marks. */
static void open_damaged(const part *damaged) {
    part a = *damaged, b = *damaged;
    peer_flash my = peer_flash_of(&a);
    ee_flash their = ee_flash_of(&b);
    peer_store my_store;
    ee_store their_store;
    uint32_t status = peer_open(&my_store, &my), other = ee_open(&their_store, &their);
    CHECK((status == PEER_OK) == (other == EE_OK));
    CHECK(memcmp(&a, &b, sizeof a) == 0);
    if (status != PEER_OK) return;
    map m = held_by_peer(&my_store), n = held_by_ee(&their_store);
    CHECK(same(&m, &n));
}

/* Whether the library takes a word for a slot's and the peer doesn't: an address too high for it, or a forgetting. */
static int is_for_ee_alone(uint64_t word) { return (uint32_t)word > PEER_ADDRESSES && (uint32_t)word < 0x20000; }

/* Words are others, one after another: erased, torn, a mark, a receive word, an element, or anything. Those of headers and some
 * of slots. */
static void damage(void) {
    uint64_t receive = RECEIVE + peer.live.generation, one = (uint64_t)below(9) << 32 | 1;
    uint64_t words[] = {ERASED, MARK, receive, receive + 1, RECEIVE + UINT32_MAX, one, rolled(&dice) | 0x20000};
    for (uint32_t page = 0; page < PAGES; page++) {
        for (uint32_t place = 0; place < PEER_PAGE_WORDS; place += place < 8 ? 1 : 1 + below(PEER_PAGE_WORDS / 8)) {
            for (uint32_t i = 0; i < sizeof words / sizeof words[0]; i++) {
                part p = mine;
                if (place >= 4 && is_for_ee_alone(words[i])) continue;
                set_word(&p, page, place, words[i]);
                open_damaged(&p);
            }
            part p = mine;
            leave(&p, page, place << PEER_PAIRS, p.numbers[page][place << PEER_PAIRS] & any_bits(&dice), TORN);
            open_damaged(&p);
        }
    }
}

static void start_anew(uint32_t generation) {
    memset(&mine, 0, sizeof mine);
    memset(mine.numbers, 0xff, sizeof mine.numbers);
    set_word(&mine, 0, 0, RECEIVE + generation);
    set_word(&mine, 0, 1, MARK);
    CHECK(peer_open(&peer, &my_flash) == PEER_OK);
}

/* What a write is refused for, with all values as before. */
static void refusals(void) {
    uint32_t value = 0;
    start_anew(1);
    CHECK(peer_write(&peer, 0, 1) == PEER_WRONG_ADDRESS && peer_read(&peer, 0, &value) == PEER_WRONG_ADDRESS);
    CHECK(peer_write(&peer, (uint16_t)(PEER_ADDRESSES + 1), 1) == PEER_WRONG_ADDRESS);
#if !PEER_SCANS
    for (uint32_t i = 1; i <= SLOTS; i++) CHECK(peer_write(&peer, (uint16_t)i, i) == PEER_OK);
    CHECK(peer_write(&peer, SLOTS + 1, 7) == PEER_FULL);
    CHECK(peer_write(&peer, 1, 1) == PEER_OK && peer.live.generation == 2);
    CHECK(peer_write(&peer, SLOTS + 1, 7) == PEER_FULL);
    CHECK(peer_open(&peer, &my_flash) == PEER_OK);
    for (uint32_t i = 1; i <= SLOTS; i++) CHECK(peer_read(&peer, (uint16_t)i, &value) == PEER_OK && value == i);
#endif
    start_anew(4294967294);
    for (uint32_t i = 0; i < SLOTS; i++) CHECK(peer_write(&peer, 1, i) == PEER_OK);
    CHECK(peer_write(&peer, 1, 9) == PEER_SPENT);
    CHECK(peer_read(&peer, 1, &value) == PEER_OK && value == SLOTS - 1);
}

int main(int count, char **words) {
    uint32_t seeds = count > 1 ? (uint32_t)atoi(words[1]) : 10, writes = count > 2 ? (uint32_t)atoi(words[2]) : 2000;
    my_flash = peer_flash_of(&mine), their_flash = ee_flash_of(&theirs);
    refusals();
    for (seed = 1; seed <= seeds; seed++) {
        dice = seed * UINT64_C(0x9e3779b97f4a7c15);
        written = 1 + below(ADDRESSES);
        format_both();
        for (uint32_t i = 0; i < writes; i++) {
            write_both();
            if (below(100) == 0) exchange();
        }
        if (seed % 8 == 1) damage();
    }
    printf("%lu cuts, %lu moves\n", cuts, moves);
    return writes > SLOTS && (cuts == 0 || moves == 0);
}
