/* Any image of a small flash and one call that breaks anywhere: does the map follow, and is the image legal then?
 *
 * CALL is looked at on the flash of flash.h. Where it is a call on a store the image is any legal one of which set SIDE is live and
 * FILL slots are used. The call leaves such an image and such a store again, if not of the same SIDE and FILL: so what holds of one
 * call holds of any number of them. */
#include "ee.h"
#include <stddef.h>
#include "flash.h"
#include "meaning.h"

static const ee_flash flash = {.pages = PAGES, .page_words = WORDS, .word = the_word, .program = the_program, .erase = the_erase,
    .kind = KIND, .words = WINDOW ? the_words : NULL};
static ee_store store;

static uint32_t page_in_use(const meaning *it) { return it->side * PAGES + (it->fill == 0 ? 0 : (it->fill - 1) / (WORDS - 4)); }

static void any_flash(void) {
    for (uint32_t page = 0; page < 2 * PAGES; page++)
        for (uint32_t place = 0; place < NUMBERS; place++) {
            cell[page][place] = nondet_u64();
            unreadable[page][place] = KIND == EE_WORDS && nondet_bool();
        }
    until_break = BREAKS == NOTHING ? 0 : nondet_u32();
}

/* The store as an opening leaves it: `opens` shows that it does, and each other call that it stays so. */
static void make_store(const meaning *it) {
    struct ee_kept *const kept = &store.memory.parts.store;
    kept->flash.power = &store.memory.parts.power;
    kept->flash.shape.pages = PAGES;
    kept->flash.shape.words = WORDS;
    kept->known.layout.side = it->side;
    kept->known.layout.generation = it->generation;
    kept->known.layout.fill = it->fill;
    kept->known.layout.current = page_in_use(it);
    store.memory.parts.power.flash = &flash;
    store.memory.parts.power.idle = &store;
}

static void stands(const meaning *it) {
    const struct ee_kept *const kept = &store.memory.parts.store;
    const struct ee_power *const power = &store.memory.parts.power;
    HOLDS(kept->flash.power == power && power->flash == &flash && power->idle == &store, "the store is on, and takes a call");
    HOLDS(kept->flash.shape.pages == PAGES && kept->flash.shape.words == WORDS, "it has the shape");
    HOLDS(kept->known.layout.side == it->side && kept->known.layout.generation == it->generation, "it has the live set");
    HOLDS(kept->known.layout.fill == it->fill && kept->known.layout.current == page_in_use(it), "it has the used slots");
}

static void is_off(void) {
    HOLDS(store.memory.parts.power.flash == NULL && store.memory.parts.power.idle != &store, "the store is off");
}

static void has_status(ee_result status, ee_result expected) {
    HOLDS(status == (is_on ? expected : (ee_result)EE_DRIVER), "the status is the one of ee.h");
    HOLDS(!is_on || expected == EE_OK || (programs == 0 && erases == 0), "a refusal writes nothing");
}

static void takes_at_most(uint32_t most_programs, uint32_t most_erases) {
    HOLDS(programs <= PER_WORD * most_programs && erases <= most_erases, "no more steps than ee.h says");
}
#define MOVE_PROGRAMS (SLOTS + 3 * PAGES + 1)

/* The addresses that are watched: any one, and those of the call. */
#define WATCHED 3
static uint16_t watched[WATCHED];
static said before[WATCHED], behind[WATCHED];

/* The call makes this of an address. */
static void becomes(uint16_t address, said what) {
    for (int at = 0; at < WATCHED; at++)
        if (watched[at] == address) behind[at] = what;
}

/* A call on a store ended: where it was done the map is what it made, where it was refused what it was, and where it broke one of
 * these as a whole. */
static void ended(ee_result status, ee_result expected, _Bool with_bad) {
    has_status(status, expected);
    const meaning it = means(with_bad && !(is_on && expected == EE_OK && KIND == EE_WORDS));
    HOLDS(it.legal, "the image is legal");
    if (is_on && (!with_bad || expected == EE_OK)) stands(&it);
    else is_off();
    _Bool as_before = 1, as_behind = 1;
    for (int at = 0; at < WATCHED; at++) {
        const said now = says(&it, watched[at]);
        as_before &= is_same(now, before[at]);
        as_behind &= is_same(now, behind[at]);
    }
    HOLDS(!is_on ? as_before || as_behind : expected == EE_OK ? as_behind : as_before, "the map is what the call says");
}

/* A call that only reads ended. Whether it answered. */
static _Bool looked(ee_result status, ee_result expected) {
    has_status(status, expected);
    takes_at_most(0, 0);
    if (!is_on) is_off();
    return is_on && status == EE_OK;
}

static _Bool is_empty(const meaning *it) { return it->legal && it->side == 0 && it->generation == 1 && it->fill == 0; }

/* ---- The calls on any image. */

/* Why an image that isn't legal is refused. */
static ee_result refusal(void) {
    _Bool blank = 1;
    for (uint32_t page = 0; page < 2 * PAGES; page++)
        for (uint32_t place = 0; place < WORDS; place++) blank &= is_erased(page, place);
    if (KIND == EE_PAIRS && has_low) return EE_FOREIGN;
    if (blank) return EE_UNFORMATTED;
    if (generation_of(0) != generation_of(1)) return EE_FOREIGN;
    return generation_of(0) == 0 ? EE_NO_LIVE_SET : EE_TWO_LIVE;
}

static void format(void) {
    has_status(ee_format(&store, &flash), EE_OK);
    takes_at_most(2, 2 * PAGES);
    const meaning it = means(0);
    HOLDS(!is_on || is_empty(&it), "the store is empty");
    if (is_on) stands(&it);
    else is_off();
}

/* Where there is no store yet; one that broke is started again. */
static void first_start(void) {
    ASSUME(is_startable());
    has_status(ee_start(&store, &flash), EE_OK);
    takes_at_most(2 * PAGES, 2 * PAGES);
    const meaning it = means(0);
    HOLDS(is_empty(&it) || (!is_on && is_startable()), "the store is empty, or can be started");
    if (is_on) stands(&it);
    else is_off();
}

static void refused(void) {
    const meaning it = means(0);
    ASSUME(!it.legal);
    has_status(ee_open(&store, &flash), refusal());
    takes_at_most(0, 0);
    is_off();
}

/* Whatever the flash holds. */
static void rescue_any(void) {
    const ee_result status = ee_rescue(&store, &flash);
    HOLDS(is_on || status == EE_DRIVER, "what failed is told");
    HOLDS(status == EE_OK || status == EE_NOTHING || status == EE_SPENT || status == EE_DRIVER, "the status is one of ee.h");
    HOLDS(status == EE_OK || status == EE_DRIVER || (programs == 0 && erases == 0), "a refusal writes nothing");
    takes_at_most(MOVE_PROGRAMS, PAGES);
    const meaning it = means(1);
    HOLDS(status != EE_OK || it.legal, "the image is legal");
    if (status == EE_OK) stands(&it);
    else is_off();
}

/* Which word an opening is refused for, if for one. */
static void foreign_word(void) {
    const meaning it = means(0);
    const _Bool low = KIND == EE_PAIRS && has_low, is_told = !it.legal && refusal() == EE_FOREIGN;
    uint32_t page = 98, place = 99;
    const ee_result status = ee_foreign_word(&flash, &page, &place);
    has_status(status, is_told ? EE_OK : EE_NOTHING);
    takes_at_most(0, 0);
    HOLDS(reads <= PER_WORD * 3 * 2 * PAGES * WORDS, "no more reads than ee.h says");
    if (!is_on || !is_told) HOLDS(page == 98 && place == 99, "it writes nothing otherwise");
    else if (low) HOLDS(page == low_page && place == low_place, "it is the first that no store wrote");
    else HOLDS(page == it.page && place == it.place, "it is the first that may not stand there");
}

/* ---- The calls on a legal image. */

static void opens(void) {
    ended(nondet_bool() ? ee_open(&store, &flash) : ee_start(&store, &flash), EE_OK, 0);
    takes_at_most(2 * PAGES, 0);
}

/* A used slot may hold any number: that costs what it held. */
static void rescue(const meaning *it) {
    ended(ee_rescue(&store, &flash), it->generation == LAST_GENERATION ? EE_SPENT : EE_OK, 1);
    takes_at_most(MOVE_PROGRAMS, PAGES);
}

static void bad_words(const meaning *it) {
    const uint32_t bad = bad_in(it);
    uint32_t found;
    const ee_result status = ee_bad_words(&flash, &found);
    has_status(status, EE_OK);
    takes_at_most(0, 0);
    HOLDS(!is_on || found == bad, "it counts the bad words");
}

static _Bool is_wrong(uint16_t address) { return address == 0 || address == 65535; }

static void read(const meaning *it) {
    ASSUME(!is_wrong(watched[1]));
    uint32_t found = 7;
    const ee_result status = ee_read(&store, watched[1], &found);
    const _Bool answered = looked(status, before[1].some ? EE_OK : EE_NOTHING);
    HOLDS(found == (answered ? before[1].value : 7), "it gives the value, and writes none otherwise");
    HOLDS(reads <= PER_WORD * SLOTS, "no more reads than ee.h says");
}

/* Two values, also of one address. */
static void load(const meaning *it) {
    ee_value values[2] = {{watched[1], 7}, {watched[2], 8}};
    uint32_t loaded = 9;
    const ee_result expected = is_wrong(watched[1]) || is_wrong(watched[2]) ? EE_WRONG_NUMBER : EE_OK;
    const ee_result status = ee_load(&store, values, 2, &loaded);
    const _Bool answered = looked(status, expected);
    for (uint32_t at = 0; at < 2; at++) {
        const said wanted = before[at + 1];
        HOLDS(values[at].value == (answered && wanted.some ? wanted.value : 7 + at), "it gives what has a value that, and no more");
    }
    HOLDS(loaded == (answered ? (uint32_t)before[1].some + before[2].some : 9), "it counts them");
    HOLDS(reads <= PER_WORD * SLOTS, "no more reads than ee.h says");
}

static void next(const meaning *it) {
    uint16_t at = watched[1];
    uint32_t found;
    const ee_result status = ee_next(&store, &at, &found);
    if (watched[1] == 65535) HOLDS(status == EE_WRONG_NUMBER, "65535 is no address");
    const said now = says(it, at);
    const _Bool later = before[0].some && watched[0] > watched[1];
    if (looked(status, status == EE_OK ? EE_OK : watched[1] == 65535 ? EE_WRONG_NUMBER : EE_NOTHING)) {
        HOLDS(at > watched[1] && now.some && now.value == found, "the next one has that value");
        HOLDS(!(later && watched[0] < at), "none is between");
    } else {
        HOLDS(!is_on || watched[1] == 65535 || !later, "there is none");
    }
}

static void count(const meaning *it) {
    const uint32_t live = live_in(it), torn_ones = torn_in(it), pending = pending_in(it);
    ee_numbers found;
    if (!looked(ee_counts(&store, &found), EE_OK)) return;
    HOLDS(found.slots == SLOTS && found.fill == it->fill && found.generation == it->generation, "slots, fill, generation");
    HOLDS(found.live == live && found.torn == torn_ones && found.pending == pending, "live, torn, pending");
}

static void clean(const meaning *it) {
    ended(ee_clean(&store), pending_in(it) > 0 ? EE_OK : EE_NOTHING, 0);
    takes_at_most(0, 1);
}

static void write(const meaning *it, uint32_t value) {
    const _Bool is_full = it->fill == SLOTS;
    ee_result expected = EE_OK;
    if (is_wrong(watched[1])) expected = EE_WRONG_NUMBER;
    else if (is_full && !before[1].some && live_in(it) == SLOTS) expected = EE_FULL;
    else if (is_full && it->generation == LAST_GENERATION) expected = EE_SPENT;
    becomes(watched[1], (said){1, value});
    ended(ee_write(&store, watched[1], value), expected, 0);
    takes_at_most(is_full ? MOVE_PROGRAMS : 3, is_full ? PAGES : 0);
    HOLDS(is_full || reads <= PER_WORD * 2, "no more reads than ee.h says");
}

/* A list of two values. */
static void write_all(const meaning *it, uint32_t value) {
    const ee_value list[2] = {{watched[1], value}, {watched[2], nondet_u32()}};
    ee_result expected = EE_OK;
    if (is_wrong(watched[1]) || is_wrong(watched[2])) expected = EE_WRONG_NUMBER;
    else if (watched[1] == watched[2]) expected = EE_DUPLICATE;
    else if (live_in(it) + !before[1].some + !before[2].some > SLOTS) expected = EE_FULL;
    else if (it->generation == LAST_GENERATION) expected = EE_SPENT;
    becomes(watched[1], (said){1, value});
    becomes(watched[2], (said){1, list[1].value});
    ended(ee_write_all(&store, list, 2), expected, 0);
    takes_at_most(MOVE_PROGRAMS, PAGES);
}

static void forget(const meaning *it) {
    const _Bool is_full = it->fill == SLOTS;
    ee_result expected = EE_OK;
    if (is_wrong(watched[1])) expected = EE_WRONG_NUMBER;
    else if (!before[1].some) expected = EE_ABSENT;
    else if (is_full && it->generation == LAST_GENERATION) expected = EE_SPENT;
    becomes(watched[1], (said){0, 0});
    ended(ee_forget(&store, watched[1]), expected, 0);
    takes_at_most(is_full ? MOVE_PROGRAMS : 3, is_full ? PAGES : 0);
}

static void forget_all(const meaning *it) {
    for (int at = 0; at < WATCHED; at++) behind[at] = (said){0, 0};
    ended(ee_forget_all(&store), it->fill > 0 && it->generation == LAST_GENERATION ? EE_SPENT : EE_OK, 0);
    takes_at_most(PAGES + 2, PAGES);
}

/* ---- The call that is looked at, by its number in `checked`. */

static void any_legal_image(_Bool with_bad, meaning *it) {
    *it = means(with_bad);
    ASSUME(it->legal && it->side == SIDE && it->fill == FILL);
    it->side = SIDE; /* so that these are constants */
    it->fill = FILL;
    for (int at = 0; at < WATCHED; at++) {
        watched[at] = nondet_u16();
        behind[at] = before[at] = says(it, watched[at]);
    }
}

int main(void) {
    any_flash();
    if (CALL == 0) format();
    if (CALL == 1) first_start();
    if (CALL == 2) refused();
    if (CALL == 3) rescue_any();
    if (CALL == 4) foreign_word();
    if (CALL < 5) return 0;
    meaning it;
    any_legal_image(CALL == 6 || CALL == 7, &it);
    if (CALL > 7) make_store(&it);
    const uint32_t value = nondet_u32();
    switch (CALL) {
    case 5: opens(); break;
    case 6: rescue(&it); break;
    case 7: bad_words(&it); break;
    case 8: read(&it); break;
    case 9: load(&it); break;
    case 10: next(&it); break;
    case 11: count(&it); break;
    case 12: clean(&it); break;
    case 13: write(&it, value); break;
    case 14: write_all(&it, value); break;
    case 15: forget(&it); break;
    default: forget_all(&it); break;
    }
    return 0;
}
