/* What an image means, said anew: this shares no code with ee.c, with what makes it, or with the tests.
 *
 * `see` reads the flash of flash.h into words. A word is torn, or it has a number; all ones is an erased one. */
#define SLOTS (PAGES * (WORDS - 4))
#define MARK_OF_A_PAGE UINT64_C(0xAAAAAAAAAAAAAAAA)
#define GENERATION_0 UINT64_C(0xAAAAAAAA00000000)
#define LAST_GENERATION UINT32_C(0xFFFFFFFE)

static uint64_t number[2 * PAGES][WORDS]; /* all ones of a torn one */
static _Bool torn[2 * PAGES][WORDS];
static _Bool has_low; /* a pair that sums to less than all ones, which no store wrote */
static uint32_t low_page, low_place; /* the first one */

static void see(void) {
    has_low = 0;
    for (uint32_t page = 0; page < 2 * PAGES; page++) {
        for (uint32_t place = 0; place < WORDS; place++) {
            const uint64_t first = cell[page][PER_WORD * place], second = cell[page][PER_WORD * place + PER_WORD - 1];
            if (KIND == EE_WORDS) {
                torn[page][place] = unreadable[page][place];
            } else {
                torn[page][place] = first == ONES ? second != ONES : second != ~first;
                if (!has_low && second < ONES - first) has_low = 1, low_page = page, low_place = place;
            }
            number[page][place] = torn[page][place] ? ONES : first;
        }
    }
}

static _Bool is_erased(uint32_t page, uint32_t place) { return !torn[page][place] && number[page][place] == ONES; }
static _Bool is_mark(uint32_t page, uint32_t place) { return number[page][place] == MARK_OF_A_PAGE; }
static _Bool may_be_marked(uint32_t page, uint32_t place) { return number[page][place] == ONES || is_mark(page, place); }

/* The generation that a set is committed with; 0: it isn't. */
static uint32_t generation_of(uint32_t side) {
    const uint64_t first = number[side * PAGES][0];
    if (!is_mark(side * PAGES, 1) || first <= GENERATION_0 || first > GENERATION_0 + LAST_GENERATION) return 0;
    return (uint32_t)(first - GENERATION_0);
}

/* The slots of a set, in the order in which they are used. */
static uint32_t page_of(uint32_t side, uint32_t at) { return side * PAGES + at / (WORDS - 4); }
static uint64_t slot(uint32_t side, uint32_t at) { return number[page_of(side, at)][4 + at % (WORDS - 4)]; }
static _Bool slot_torn(uint32_t side, uint32_t at) { return torn[page_of(side, at)][4 + at % (WORDS - 4)]; }

static _Bool is_change(uint64_t what) {
    const uint16_t address = (uint16_t)what;
    return address != 0 && address != 65535 && (uint16_t)(what >> 16) <= 1;
}

/* The live set of an image, its generation, and how many slots are used; whether the image is legal, and the first word of the live
 * set that may not stand there: 0, 0 where there is none, since that one commits the set. Where `with_bad`, a used slot may hold any
 * number. */
typedef struct meaning {
    _Bool legal;
    uint32_t side, generation, fill, page, place;
} meaning;

/* Whether a word of the live set may stand in its place. */
static _Bool may_stand(const meaning *it, uint32_t in_set, uint32_t place) {
    const uint32_t page = it->side * PAGES + in_set, slots_before = in_set * (WORDS - 4);
    const _Bool begun = it->fill >= slots_before, commits = in_set == 0 && place < 2;
    if (is_erased(page, place) || commits) return 1;
    if (place >= 4) return slots_before + place - 4 < it->fill;
    if (place == 0) return begun && (torn[page][0] || number[page][0] == GENERATION_0 + it->generation);
    return place < 3 && begun && may_be_marked(page, place);
}

static meaning means(_Bool with_bad) {
    meaning it = {0, 0, 0, 0, 0, 0};
    see();
    const uint32_t first = generation_of(0), second = generation_of(1);
    if (first == second) return it;
    it.side = second > first;
    it.generation = it.side ? second : first;
    while (it.fill < SLOTS && (slot_torn(it.side, it.fill) || is_change(slot(it.side, it.fill)) ||
                               (with_bad && slot(it.side, it.fill) != ONES)))
        it.fill++;
    _Bool fits = 1;
    for (uint32_t in_set = 0; in_set < PAGES; in_set++)
        for (uint32_t place = 0; place < WORDS; place++)
            if (fits && !may_stand(&it, in_set, place)) fits = 0, it.page = it.side * PAGES + in_set, it.place = place;
    it.legal = fits && (with_bad || !(KIND == EE_PAIRS && has_low));
    return it;
}

/* What an address has: no value, or one. */
typedef struct said {
    _Bool some;
    uint32_t value;
} said;

static _Bool is_same(said one, said other) { return one.some == other.some && (!one.some || one.value == other.value); }

/* Whether a slot says what an address has, if none behind it does. */
static _Bool counts(const meaning *it, uint32_t at) {
    return at < it->fill && !slot_torn(it->side, at) && is_change(slot(it->side, at));
}

static said says(const meaning *it, uint16_t address) {
    said found = {0, 0};
    for (uint32_t at = 0; at < SLOTS; at++) {
        const uint64_t what = slot(it->side, at);
        if (counts(it, at) && (uint16_t)what == address) {
            found.some = (uint16_t)(what >> 16) == 0;
            found.value = found.some ? (uint32_t)(what >> 32) : 0;
        }
    }
    return found;
}

/* How many addresses have a value. */
static uint32_t live_in(const meaning *it) {
    uint32_t live = 0;
    for (uint32_t at = 0; at < SLOTS; at++) {
        const uint64_t what = slot(it->side, at);
        _Bool newest = counts(it, at) && (uint16_t)(what >> 16) == 0;
        for (uint32_t behind = at + 1; behind < SLOTS; behind++)
            newest &= !(counts(it, behind) && (uint16_t)slot(it->side, behind) == (uint16_t)what);
        live += newest;
    }
    return live;
}

static uint32_t torn_in(const meaning *it) {
    uint32_t count = 0;
    for (uint32_t at = 0; at < SLOTS; at++) count += slot_torn(it->side, at);
    return count;
}

/* How many words of the live set can't be read, or stand in a used slot and are no change. */
static uint32_t bad_in(const meaning *it) {
    uint32_t count = 0;
    for (uint32_t page = 0; page < PAGES; page++)
        for (uint32_t place = 0; place < WORDS; place++) count += torn[it->side * PAGES + page][place];
    for (uint32_t at = 0; at < SLOTS; at++) count += at < it->fill && !slot_torn(it->side, at) && !is_change(slot(it->side, at));
    return count;
}

/* How many pages of the other set wait to be erased. */
static uint32_t pending_in(const meaning *it) {
    uint32_t pending = 0;
    for (uint32_t page = 0; page < PAGES; page++) {
        _Bool blank = 1;
        for (uint32_t place = 0; place < WORDS; place++) blank &= is_erased((1 - it->side) * PAGES + page, place);
        pending += !blank;
    }
    return pending;
}

/* Whether there is no store yet, by ee.h: no set is committed, and each word behind a header is erased or torn; on pairs all is
 * erased but the first two words of page 0, and where an erase clears first but page 0, which has no value. */
static _Bool is_startable(void) {
    see();
    _Bool is_so = generation_of(0) == 0 && generation_of(1) == 0 && !(KIND == EE_PAIRS && has_low);
    for (uint32_t page = 0; page < 2 * PAGES; page++)
        for (uint32_t place = 0; place < WORDS; place++) {
            const _Bool may_hold = KIND == EE_WORDS ? place < 4 : page == 0 && place < (KIND == EE_PAIRS ? 2 : 4);
            const _Bool may_be_torn = KIND == EE_WORDS || (KIND == EE_PAIRS_CLEARING && page == 0);
            is_so &= may_hold || number[page][place] == ONES;
            is_so &= may_hold || may_be_torn || !torn[page][place];
        }
    return is_so;
}
