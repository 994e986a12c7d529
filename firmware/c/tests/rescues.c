/* One word of a store goes bad: it can't be read, or no store wrote it, or it reads as a set's first word, or one bit of a pair of
 * numbers falls or rises. Where the next start refuses the flash a rescue gives every value but one at the most, and all of them
 * where two sets are live. It gives the same where power is cut in each of its steps, in every way, before it is made again; of a
 * word that commits a set, where no page waited to be erased. Where such a word reads as erased an older set may be rescued. */
#include "coded.h"
#include "part.h"

enum { ADDRESSES = 5, STORES = 40, CALLS = 30 };
enum damage { UNREADABLE, FOREIGN, RECEIVE, FALLS, RISES, DAMAGES };

typedef struct map {
    uint32_t values[ADDRESSES];
    uint8_t there[ADDRESSES];
} map;

static uint64_t dice = 88172645463325252u;
static unsigned long rescued, lost, cuts, two_live;

static uint32_t below(uint32_t end) {
    dice ^= dice << 13;
    dice ^= dice >> 7;
    dice ^= dice << 17;
    return (uint32_t)(dice >> 20) % end;
}

static map held(const ee_store *store) {
    map m;
    memset(&m, 0, sizeof m);
    for (int i = 0; i < ADDRESSES; i++) {
        uint32_t status = ee_read(store, (uint16_t)(i + 1), &m.values[i]);
        CHECK(status == EE_OK || status == EE_NOTHING);
        m.there[i] = status == EE_OK;
    }
    return m;
}

static int differing(const map *a, const map *b) {
    int count = 0;
    for (int i = 0; i < ADDRESSES; i++) count += a->there[i] != b->there[i] || a->values[i] != b->values[i];
    return count;
}

/* Spoils a word of a part. Whether it is another one then. */
static int made_bad(part *p, uint32_t page, uint32_t place, enum damage damage) {
    uint32_t at = (place << p->pairs) + (p->pairs ? below(2) : 0);
    uint64_t *word = &p->words[page][at], old = *word, bit = (uint64_t)1 << below(64);
    if (p->torn[page][at]) return 0;
    switch (damage) {
    case UNREADABLE: return !p->pairs && (p->torn[page][at] = 1);
    case FOREIGN:
        p->words[page][place << p->pairs] = 0; /* the word 0 is no store's; as a pair it has an erased one as its second */
        if (p->pairs) p->words[page][at | 1u] = UINT64_MAX;
        return 1;
    case RECEIVE: /* of a generation about that of the live set */
        p->words[page][place << p->pairs] = UINT64_C(0xaaaaaaaa00000000) + below(4) + (uint32_t)p->words[page / p->pages * p->pages][0];
        if (p->coded) *word = coded_number(UINT64_C(0xaaaaaaaa00000000) + below(4) + (uint16_t)p->words[page / p->pages * p->pages][0], 1, 5);
        if (p->pairs) p->words[page][at | 1u] = ~p->words[page][at & ~1u];
        return 1;
    case FALLS: *word &= ~bit; return (p->pairs || p->coded) && *word != old;
    default: *word |= bit; return (p->pairs || p->coded) && *word != old;
    }
}

/* Cuts a rescue of a part in each step in each way, and makes it again. */
static void cut_everywhere(const part *before, const map *whole) {
    for (uint32_t step = 1;; step++) {
        for (int tear = 0; tear < TEARS; tear++) {
            part p = *before;
            ee_flash flash = flash_of(&p);
            ee_store store;
            p.steps = 0, p.cut_in = step, p.tear = (enum tear)tear;
            uint32_t status = ee_rescue(&store, &flash);
            if (status == EE_OK) return;
            CHECK(status == EE_DRIVER && ee_clean(&store) == EE_NOT_OPEN);
            cuts++;
            p.cut_in = 0;
            if (ee_start(&store, &flash) != EE_OK) CHECK(ee_rescue(&store, &flash) == EE_OK);
            map m = held(&store);
            CHECK(differing(&m, whole) == 0);
        }
    }
}

/* A part with a word that went bad, of which this set was live. */
static void rescue(part *p, const map *m, const ee_numbers *numbers, uint32_t page, uint32_t place) {
    ee_flash flash = flash_of(p);
    ee_store store;
    part spoilt = *p;
    uint32_t bad = 0, live = (numbers->generation - 1) % 2, status = ee_start(&store, &flash);
    if (status == EE_OK) return;
    *p = spoilt;
    CHECK(ee_bad_words(&flash, &bad) == EE_OK && holds_same(p, &spoilt));
    CHECK(bad > 0 || page / p->pages != live);
    CHECK(ee_rescue(&store, &flash) == EE_OK);
    map now = held(&store);
    CHECK(differing(&now, m) <= (status == EE_TWO_LIVE ? 0 : 1));
    two_live += status == EE_TWO_LIVE;
    rescued++, lost += differing(&now, m) == 1;
    while (ee_clean(&store) == EE_OK) {}
    CHECK(ee_start(&store, &flash) == EE_OK);
    map later = held(&store);
    CHECK(differing(&later, &now) == 0);
    CHECK(ee_bad_words(&flash, &bad) == EE_OK && bad == 0);
    /* Of a word that commits a set while a page waits, and of pairs in a page that is erased, nothing is promised behind a cut. */
    if (page / p->pages == live && (page % p->pages != 0 || place > 1 || numbers->pending == 0)) cut_everywhere(&spoilt, &now);
}

static void play(part *p, ee_store *store) {
    uint16_t address = (uint16_t)(1 + below(ADDRESSES));
    uint32_t kind = below(8), status;
    if (kind == 0) status = ee_clean(store);
    else if (kind == 1) status = ee_forget(store, address);
    else status = ee_write(store, address, below(UINT32_MAX));
    CHECK(status == EE_OK || status == EE_NOTHING || status == EE_ABSENT || status == EE_FULL);
    ee_numbers numbers;
    CHECK(ee_counts(store, &numbers) == EE_OK);
    map m = held(store);
    for (uint32_t page = 0; page < 2 * p->pages; page++) {
        for (uint32_t place = 0; place < p->page_words; place++) {
            for (int damage = 0; damage < DAMAGES; damage++) {
                part copy = *p;
                if (!made_bad(&copy, page, place, (enum damage)damage)) continue;
                rescue(&copy, &m, &numbers, page, place);
            }
        }
    }
}

static void run(uint32_t kind) {
    rescued = lost = cuts = two_live = 0;
    for (int i = 0; i < STORES; i++) {
        part p;
        blank(&p, 1 + below(2), 5 + below(3));
        p.pairs = kind == EE_PAIRS || kind == EE_PAIRS_CLEARING, p.clears_first = kind == EE_PAIRS_CLEARING;
        p.coded = kind == EE_CODED;
        ee_flash flash = flash_of(&p);
        ee_store store;
        CHECK(ee_format(&store, &flash) == EE_OK);
        for (int j = 0; j < CALLS; j++) play(&p, &store);
    }
    printf("%lu rescued, %lu of them from two live sets, %lu lost a value, %lu cuts\n", rescued, two_live, lost, cuts);
    /* A slot of coded words that went bad is torn, and refuses no start. */
    CHECK(rescued > 5000 && lost > (kind == EE_CODED ? 50 : 500) && cuts > 50000 && two_live > 20);
}

/* What no promise covers: the word that commits the live set reads as erased. The older set is rescued where it waits, and none
 * where it was cleaned. */
static void commit_word_erased(int is_cleaned) {
    part p;
    uint32_t value = 0;
    blank(&p, 1, 16);
    ee_flash flash = flash_of(&p);
    ee_store store;
    CHECK(ee_format(&store, &flash) == EE_OK);
    for (uint32_t i = 1; i <= 13; i++) CHECK(ee_write(&store, 1, i) == EE_OK); /* the last one moves: there are 12 slots */
    if (is_cleaned) CHECK(ee_clean(&store) == EE_OK);
    p.words[1][1] = UINT64_MAX;
    part spoilt = p;
    CHECK(ee_start(&store, &flash) == (is_cleaned ? EE_NO_LIVE_SET : EE_FOREIGN));
    CHECK(ee_rescue(&store, &flash) == (is_cleaned ? EE_NOTHING : EE_OK));
    if (is_cleaned) CHECK(holds_same(&p, &spoilt));
    else CHECK(ee_read(&store, 1, &value) == EE_OK && value == 12);
}

int main(void) {
    commit_word_erased(0);
    commit_word_erased(1);
    for (uint32_t kind = EE_WORDS; kind <= EE_CODED; kind++) run(kind);
    return 0;
}
