/* A store in plain C in AN4894's manner, with the words of flash and the order of marks that the store of ../c has: a measure
 * of what such a store takes that no one proved. See README.md. */
#include "peer.h"

#include <stddef.h>

/* What words hold. A word that a cut left torn counts as 0, which no store writes. */
#define ERASED UINT64_MAX
#define TORN UINT64_C(0)
#define MARK UINT64_C(0xaaaaaaaaaaaaaaaa)
#define RECEIVE UINT64_C(0xaaaaaaaa00000000) /* and a generation in its low half */

#define GREATEST_GENERATION UINT32_C(4294967294)

/* The places of a page: those of its header, and the first of its slots. */
enum { IN_RECEIVE, IN_ACTIVE, IN_VALID, IN_ERASING, FIRST_SLOT };

#if PEER_SCANS && PEER_ADDRESSES > PEER_PAGES * (PEER_PAGE_WORDS - 4)
#error "a set has fewer slots than there are addresses"
#endif

static uint64_t number_at(const peer_flash *flash, uint32_t page, uint32_t place) {
#if PEER_MAPPED
    return flash->numbers[page * PEER_NUMBERS + place];
#else
    uint64_t value;
    return flash->number(flash->context, page, place, &value) == 0 ? value : TORN;
#endif
}

static uint64_t word_at(const peer_flash *flash, uint32_t page, uint32_t place) {
#if PEER_PAIRS
    uint64_t number = number_at(flash, page, 2 * place), check = number_at(flash, page, 2 * place + 1);
    if (number == ERASED) return check == ERASED ? ERASED : TORN;
    return check == ~number ? number : TORN;
#else
    return number_at(flash, page, place);
#endif
}

static uint32_t program_number(const peer_flash *flash, uint32_t page, uint32_t place, uint64_t value) {
    return flash->program(flash->context, page, place, value) == 0 ? PEER_OK : PEER_DRIVER;
}

static uint32_t program(const peer_flash *flash, uint32_t page, uint32_t place, uint64_t word) {
#if PEER_PAIRS
    uint32_t status = program_number(flash, page, 2 * place, word);
    return status == PEER_OK ? program_number(flash, page, 2 * place + 1, ~word) : status;
#else
    return program_number(flash, page, place, word);
#endif
}

/* Programs a word of a header, unless something stands there. */
static uint32_t mark(const peer_flash *flash, uint32_t page, uint32_t place, uint64_t word) {
    return word_at(flash, page, place) == ERASED ? program(flash, page, place, word) : PEER_OK;
}

static int is_blank(const peer_flash *flash, uint32_t page) {
    for (uint32_t place = 0; place < PEER_NUMBERS; place++) {
        if (number_at(flash, page, place) != ERASED) return 0;
    }
    return 1;
}

/* Erases those of so many pages that are not blank. */
static uint32_t clear(const peer_flash *flash, uint32_t first, uint32_t count) {
    for (uint32_t page = first; page < first + count; page++) {
        if (!is_blank(flash, page) && flash->erase(flash->context, page) != 0) return PEER_DRIVER;
    }
    return PEER_OK;
}

/* The first page of the other set. */
static uint32_t other_than(uint32_t first) { return PEER_PAGES - first; }

static uint64_t element(uint32_t address, uint32_t value) { return (uint64_t)value << 32 | address; }

/* Whether a slot may hold this: an element, which has its address in the low half, or a torn word. */
static int is_slot(uint64_t word) { return (uint32_t)word - 1 < PEER_ADDRESSES || word == TORN; }

/* Looks for the newest element of an address in a set. */
static int find(const peer_flash *flash, const peer_set *set, uint32_t address, uint32_t *value) {
    uint32_t place = set->place;
    for (uint32_t page = set->page;; page--) {
        while (place > FIRST_SLOT) {
            place--;
            if ((uint32_t)number_at(flash, page, place << PEER_PAIRS) != address) continue;
            uint64_t word = word_at(flash, page, place);
            if (word == TORN) continue; /* the other number doesn't fit */
            *value = (uint32_t)(word >> 32);
            return 1;
        }
        if (page == set->first) return 0;
        place = PEER_PAGE_WORDS;
    }
}

static int is_used_up(const peer_set *set) {
    return set->place == PEER_PAGE_WORDS && set->page == set->first + PEER_PAGES - 1;
}

/* Programs a word into the next slot of the page in use. */
static uint32_t push(const peer_flash *flash, peer_set *set, uint64_t word) {
    return program(flash, set->page, set->place++, word);
}

/* Appends to the live set, which isn't used up. */
static uint32_t append(const peer_flash *flash, peer_set *live, uint64_t word) {
    if (live->place == PEER_PAGE_WORDS) {
        uint32_t status = mark(flash, live->page, IN_VALID, MARK);
        if (status == PEER_OK) status = mark(flash, live->page + 1, IN_ACTIVE, MARK);
        if (status != PEER_OK) return status;
        live->page++;
        live->place = FIRST_SLOT;
    }
    return push(flash, live, word);
}

/* Appends to the set that a move fills. */
static uint32_t stage(const peer_flash *flash, peer_set *new, uint64_t word) {
    if (is_used_up(new)) return PEER_FULL;
    if (new->place == PEER_PAGE_WORDS) {
        uint32_t status = mark(flash, new->page + 1, IN_RECEIVE, RECEIVE + new->generation);
        if (status != PEER_OK) return status;
        new->page++;
        new->place = FIRST_SLOT;
    }
    return push(flash, new, word);
}

#if PEER_SCANS
/* Fills a new set: the word of a write, and then the values of all other addresses, by rising address. */
static uint32_t fill(const peer_flash *flash, const peer_set *live, peer_set *new, uint64_t written) {
    uint32_t status = stage(flash, new, written);
    for (uint32_t address = 1; address <= PEER_ADDRESSES && status == PEER_OK; address++) {
        uint32_t value;
        if (address == (uint32_t)written || !find(flash, live, address, &value)) continue;
        status = stage(flash, new, element(address, value));
    }
    return status;
}
#else
/* Fills a new set: the word of a write, and then each element, the newest first, whose address it doesn't have yet. */
static uint32_t fill(const peer_flash *flash, const peer_set *live, peer_set *new, uint64_t written) {
    uint32_t status = stage(flash, new, written), place = live->place;
    if (status != PEER_OK) return status;
    for (uint32_t page = live->page;; page--) {
        while (place > FIRST_SLOT) {
            uint64_t word = word_at(flash, page, --place);
            uint32_t value;
            if (word == TORN || find(flash, new, (uint32_t)word, &value)) continue;
            status = stage(flash, new, word);
            if (status != PEER_OK) return status;
        }
        if (page == live->first) return PEER_OK;
        place = PEER_PAGE_WORDS;
    }
}
#endif

/* Sets the marks that a move or a cut left to set. */
static uint32_t finish(const peer_flash *flash, const peer_set *live) {
    uint32_t status = PEER_OK, other = other_than(live->first);
    for (uint32_t page = live->first; page < live->page && status == PEER_OK; page++) {
        status = mark(flash, page, IN_VALID, MARK);
    }
    if (status == PEER_OK) status = mark(flash, live->page, IN_ACTIVE, MARK);
    for (uint32_t page = other; page < other + PEER_PAGES && status == PEER_OK; page++) {
        if (!is_blank(flash, page)) status = mark(flash, page, IN_ERASING, MARK);
    }
    return status;
}

/* Moves all values to the other set, with the word of a write. The active mark makes that set the live one. */
static uint32_t move(const peer_flash *flash, peer_set *live, uint64_t written) {
    if (live->generation == GREATEST_GENERATION) return PEER_SPENT;
    uint32_t first = other_than(live->first);
    peer_set new = {live->generation + 1, first, first, FIRST_SLOT};
    uint32_t status = clear(flash, first, PEER_PAGES);
    if (status == PEER_OK) status = mark(flash, first, IN_RECEIVE, RECEIVE + new.generation);
    if (status == PEER_OK) status = fill(flash, live, &new, written);
    if (status == PEER_OK) status = mark(flash, first, IN_ACTIVE, MARK);
    if (status != PEER_OK) return status;
    *live = new;
    return finish(flash, live);
}

/* The generation of a set, 0 where the set isn't committed. */
static uint32_t generation_of(const peer_flash *flash, uint32_t first) {
    uint64_t generation = word_at(flash, first, IN_RECEIVE) - RECEIVE;
    return word_at(flash, first, IN_ACTIVE) == MARK && generation <= GREATEST_GENERATION ? (uint32_t)generation : 0;
}

/* Whether each word of a header of the live set may stand there; behind an erased slot none may. */
static int is_header(const peer_flash *flash, const peer_set *live, uint32_t page, int is_behind) {
    for (uint32_t place = 0; place < FIRST_SLOT; place++) {
        uint64_t word = word_at(flash, page, place), whole = place == IN_RECEIVE ? RECEIVE + live->generation : MARK;
        if (word == ERASED) continue;
        if (is_behind || place == IN_ERASING || (word != TORN && word != whole)) return 0;
    }
    return 1;
}

/* Finds how far the live set is used. 0 where a word of it may not stand in its place. */
static int scan(const peer_flash *flash, peer_set *live) {
    int is_behind = 0;
    for (uint32_t page = live->first; page < live->first + PEER_PAGES; page++) {
        if (!is_header(flash, live, page, is_behind)) return 0;
        for (uint32_t place = FIRST_SLOT; place < PEER_PAGE_WORDS; place++) {
            uint64_t word = word_at(flash, page, place);
            if (word == ERASED) {
                is_behind = 1;
                continue;
            }
            if (is_behind || !is_slot(word)) return 0;
            live->page = page;
            live->place = place + 1;
        }
    }
    return 1;
}

#if PEER_PAIRS
/* Whether the two numbers of some word sum to less than all ones, which no cut leaves: then no store wrote them. */
static int has_low(const peer_flash *flash) {
    for (uint32_t page = 0; page < 2 * PEER_PAGES; page++) {
        for (uint32_t place = 0; place < PEER_NUMBERS; place += 2) {
            if (number_at(flash, page, place + 1) < ~number_at(flash, page, place)) return 1;
        }
    }
    return 0;
}
#endif

uint32_t peer_open(peer_store *store, const peer_flash *flash) {
    store->flash = NULL;
#if PEER_PAIRS
    if (has_low(flash)) return PEER_FOREIGN;
#endif
    uint32_t generation = generation_of(flash, 0), second = generation_of(flash, PEER_PAGES), first = 0;
    if (generation == second) return PEER_NO_LIVE_SET; /* two of one generation, or none */
    if (generation < second) generation = second, first = PEER_PAGES;
    peer_set live = {generation, first, first, FIRST_SLOT};
    if (!scan(flash, &live)) return PEER_FOREIGN;
    uint32_t status = finish(flash, &live);
    if (status == PEER_OK) *store = (peer_store){flash, live};
    return status;
}

uint32_t peer_format(peer_store *store, const peer_flash *flash) {
    store->flash = NULL;
    uint32_t status = clear(flash, 0, 2 * PEER_PAGES);
    if (status == PEER_OK) status = mark(flash, 0, IN_RECEIVE, RECEIVE + 1);
    if (status == PEER_OK) status = mark(flash, 0, IN_ACTIVE, MARK);
    if (status == PEER_OK) *store = (peer_store){flash, {1, 0, 0, FIRST_SLOT}};
    return status;
}

static int is_address(uint32_t address) { return address - 1 < PEER_ADDRESSES; }

uint32_t peer_read(const peer_store *store, uint16_t address, uint32_t *value) {
    if (!is_address(address)) return PEER_WRONG_ADDRESS;
    if (store->flash == NULL) return PEER_OFF;
    return find(store->flash, &store->live, address, value) ? PEER_OK : PEER_NOTHING;
}

uint32_t peer_write(peer_store *store, uint16_t address, uint32_t value) {
    if (!is_address(address)) return PEER_WRONG_ADDRESS;
    if (store->flash == NULL) return PEER_OFF;
    uint64_t word = element(address, value);
    peer_set *live = &store->live;
    uint32_t status = is_used_up(live) ? move(store->flash, live, word) : append(store->flash, live, word);
    if (status == PEER_DRIVER) store->flash = NULL;
    return status;
}
