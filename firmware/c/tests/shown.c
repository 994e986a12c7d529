/* The two functions that README.md shows, as they stand there: a start that rescues, and a write that leaves a slot behind which
 * can't be programmed; with flashes that aren't ready, lie of an erase, or have a bad word. */
#include "part.h"

enum { SPARE = 9, ADDRESSES = 4, WRITES = 200 };

static part p;
static ee_flash inner;
static ee_store store;
static unsigned waits, unready, lies;     /* pauses; the reads that fail until then; whether an erase does nothing and says 0 */
static uint32_t stuck_page, stuck_place; /* the slot that takes no program, place 0 for none */

static void wait_a_while(void) {
    waits++;
    if (unready > 0) unready--;
}

ee_result opened(ee_store *on, const ee_flash *flash);
ee_result kept(ee_store *on, const ee_flash *flash, uint16_t address, uint32_t value);

#include "shown.inc"

static uint32_t word(void *context, uint32_t page, uint32_t place, uint64_t *value) {
    return unready > 0 ? 3 : inner.word(context, page, place, value);
}

static uint32_t program(void *context, uint32_t page, uint32_t place, uint64_t value) {
    if (stuck_place != 0 && page == stuck_page && place == stuck_place) return 1;
    return inner.program(context, page, place, value);
}

static uint32_t erase(void *context, uint32_t page) { return lies ? 0 : inner.erase(context, page); }

static ee_flash a_part(uint32_t pairs) {
    blank(&p, 2, 16);
    p.pairs = pairs;
    waits = unready = lies = stuck_place = 0;
    inner = flash_of(&p);
    ee_flash flash = inner;
    flash.word = word, flash.program = program, flash.erase = erase;
    return flash;
}

static uint32_t value_of(uint16_t address) {
    uint32_t value = 0;
    CHECK(ee_read(&store, address, &value) == EE_OK);
    return value;
}

/* A flash that isn't ready is asked again. One that has a word that no store wrote is rescued, and its pages are clean then. An
 * erase that lies ends it too. */
static void starts(void) {
    for (uint32_t pairs = 0; pairs < 2; pairs++) {
        ee_flash flash = a_part(pairs);
        ee_numbers numbers;
        CHECK(opened(&store, &flash) == EE_OK && waits == 0);
        for (uint16_t address = 1; address <= ADDRESSES; address++) CHECK(ee_write(&store, address, address) == EE_OK);
        unready = 3;
        CHECK(opened(&store, &flash) == EE_OK && waits == 3);
        p.words[0][15 << pairs] = 7 << 16;
        if (pairs) p.words[0][31] = 6;
        part before = p;
        CHECK(ee_start(&store, &flash) == EE_FOREIGN && opened(&store, &flash) == EE_OK);
        CHECK(ee_counts(&store, &numbers) == EE_OK && numbers.pending == 0 && numbers.live == ADDRESSES);
        for (uint16_t address = 1; address <= ADDRESSES; address++) CHECK(value_of(address) == address);
        p = before, lies = 1;
        ee_result status = opened(&store, &flash);
        CHECK(status == EE_OK || status == EE_DRIVER);
    }
}

/* Whether a value is written as firmware may, by a write that is made again behind a start. */
static int plainly_kept(const ee_flash *flash, uint16_t address, uint32_t value) {
    for (int round = 0; round < 3; round++) {
        if (ee_write(&store, address, value) == EE_OK) return 1;
        CHECK(ee_start(&store, flash) == EE_OK);
    }
    return 0;
}

/* A slot that takes no program: nearly each write fails for good, but not one that ends in a move. */
static void stuck_slots(void) {
    for (uint32_t place = 4 + ADDRESSES + 1; place < 16; place++) {
        unsigned failed = 0;
        for (int by_move = 0; by_move < 2; by_move++) {
            ee_flash flash = a_part(0);
            CHECK(opened(&store, &flash) == EE_OK);
            stuck_place = place, stuck_page = 0;
            for (uint32_t i = 0; i < WRITES; i++) {
                uint16_t address = (uint16_t)(1 + i % ADDRESSES);
                if (by_move) CHECK(kept(&store, &flash, address, i) == EE_OK && value_of(address) == i);
                else failed += !plainly_kept(&flash, address, i);
            }
        }
        CHECK(failed == WRITES - (place - 4));
    }
}

/* An erased slot that reads as torn, since its all ones needed a correction: a write passes over the next one, and a start behind
 * one further on is a rescue. No value is lost. */
static void corrected(void) {
    unsigned refused = 0;
    for (uint32_t used = 0; used < 24; used++) {
        for (uint32_t slot = used; slot < 24; slot++) {
            ee_flash flash = a_part(0);
            CHECK(opened(&store, &flash) == EE_OK);
            for (uint32_t i = 0; i < used; i++) CHECK(ee_write(&store, (uint16_t)(1 + i % ADDRESSES), i) == EE_OK);
            p.torn[slot / 12][4 + slot % 12] = 1;
            refused += ee_start(&store, &flash) == EE_FOREIGN;
            CHECK(opened(&store, &flash) == EE_OK);
            for (uint32_t i = used > ADDRESSES ? used - ADDRESSES : 0; i < used; i++) CHECK(value_of((uint16_t)(1 + i % ADDRESSES)) == i);
            for (uint32_t i = 0; i < 30; i++) CHECK(ee_write(&store, (uint16_t)(1 + i % ADDRESSES), i) == EE_OK);
        }
    }
    CHECK(refused > 200);
}

int main(void) {
    starts();
    corrected();
    stuck_slots();
    return 0;
}
