/* What the library refuses, and what it answers where nothing is refused. The argument is how many first starts on pairs of
 * numbers are cut. */
#include "part.h"

static part p;
static ee_store store;
static uint32_t value;
static uint16_t address;
static ee_numbers numbers;
static ee_value wanted[] = {{1, 70}, {2, 71}, {65534, 72}, {1, 73}, {0, 74}};
static uint32_t loaded;
static const ee_value list[] = {{1, 20}, {65534, 21}, {1, 22}, {0, 23}, {65535, 24}, {4, 25}, {5, 26}};

/* A store of zeros, on which nothing was opened: each call is refused. */
static void zeros(void) {
    static ee_store never;
    for (int round = 0; round < 2; round++) {
        value = 99, address = 1;
        CHECK(ee_read(&never, 1, &value) == EE_NOT_OPEN && ee_next(&never, &address, &value) == EE_NOT_OPEN);
        CHECK(ee_counts(&never, &numbers) == EE_NOT_OPEN && value == 99 && address == 1);
        CHECK(ee_write(&never, 1, 1) == EE_NOT_OPEN && ee_forget(&never, 1) == EE_NOT_OPEN && ee_clean(&never) == EE_NOT_OPEN);
        CHECK(ee_write_all(&never, list, 2) == EE_NOT_OPEN && ee_write_all(&never, list, 0) == EE_NOT_OPEN);
        CHECK(ee_forget_all(&never) == EE_NOT_OPEN && ee_load(&never, wanted, 4, &loaded) == EE_NOT_OPEN);
        /* So is one whose opening was refused. */
        ee_flash flash = flash_of(&p);
        CHECK(ee_open(&never, &flash) == EE_UNFORMATTED);
    }
}

/* A copy of an open store is off, and the store goes on; the copy can be opened. */
static void copies(void) {
    ee_flash flash = flash_of(&p);
    ee_store copy;
    CHECK(ee_start(&store, &flash) == EE_OK && ee_write(&store, 1, 10) == EE_OK);
    copy = store;
    value = 99, address = 0;
    CHECK(ee_read(&copy, 1, &value) == EE_NOT_OPEN && ee_next(&copy, &address, &value) == EE_NOT_OPEN);
    CHECK(ee_counts(&copy, &numbers) == EE_NOT_OPEN && value == 99 && address == 0);
    CHECK(ee_write(&copy, 1, 11) == EE_NOT_OPEN && ee_forget(&copy, 1) == EE_NOT_OPEN && ee_clean(&copy) == EE_NOT_OPEN);
    CHECK(ee_write_all(&copy, list, 2) == EE_NOT_OPEN && ee_forget_all(&copy) == EE_NOT_OPEN);
    CHECK(ee_load(&copy, wanted, 4, &loaded) == EE_NOT_OPEN && wanted[0].value == 70);
    CHECK(ee_read(&store, 1, &value) == EE_OK && value == 10);
    CHECK(ee_open(&copy, &flash) == EE_OK && ee_read(&copy, 1, &value) == EE_OK && value == 10);
}

static void nulls(void) {
    ee_span span;
    ee_flash flash = flash_of(&p), lacking;
    CHECK(ee_open(NULL, &flash) == EE_NULL);
    CHECK(ee_open(&store, NULL) == EE_NULL);
    CHECK(ee_format(NULL, NULL) == EE_NULL);
    CHECK(ee_start(NULL, &flash) == EE_NULL && ee_start(&store, NULL) == EE_NULL);
    lacking = flash, lacking.word = NULL;
    CHECK(ee_open(&store, &lacking) == EE_NULL);
    lacking = flash, lacking.program = NULL;
    CHECK(ee_format(&store, &lacking) == EE_NULL);
    lacking = flash, lacking.erase = NULL;
    CHECK(ee_format(&store, &lacking) == EE_NULL);
    CHECK(ee_rescue(NULL, &flash) == EE_NULL && ee_rescue(&store, NULL) == EE_NULL && ee_rescue(&store, &lacking) == EE_NULL);
    CHECK(ee_bad_words(NULL, &value) == EE_NULL && ee_bad_words(&flash, NULL) == EE_NULL);
    CHECK(ee_bad_words(&lacking, &value) == EE_NULL);
    CHECK(ee_write(&store, 1, 1) == EE_NOT_OPEN);
    CHECK(ee_read(&store, 1, &value) == EE_NOT_OPEN);
    CHECK(ee_forget_all(&store) == EE_NOT_OPEN && ee_forget_all(NULL) == EE_NULL);
    CHECK(ee_write(NULL, 1, 1) == EE_NULL);
    CHECK(ee_write_all(&store, list, 2) == EE_NOT_OPEN && ee_write_all(&store, list, 0) == EE_NOT_OPEN);
    CHECK(ee_write_all(NULL, list, 2) == EE_NULL);
    CHECK(ee_forget(NULL, 1) == EE_NULL);
    CHECK(ee_clean(NULL) == EE_NULL);
    CHECK(ee_read(NULL, 1, &value) == EE_NULL);
    CHECK(ee_next(NULL, &address, &value) == EE_NULL && ee_load(NULL, wanted, 4, &loaded) == EE_NULL);
    CHECK(ee_counts(NULL, &numbers) == EE_NULL);
    CHECK(ee_format(&store, &flash) == EE_OK);
    CHECK(ee_write_all(&store, NULL, 2) == EE_NULL && ee_write_all(&store, NULL, 0) == EE_NULL);
    CHECK(ee_read(&store, 1, NULL) == EE_NULL);
    CHECK(ee_next(&store, NULL, &value) == EE_NULL);
    CHECK(ee_next(&store, &address, NULL) == EE_NULL);
    CHECK(ee_load(&store, NULL, 4, &loaded) == EE_NULL && ee_load(&store, wanted, 4, NULL) == EE_NULL);
    CHECK(ee_counts(&store, NULL) == EE_NULL);
    CHECK(ee_read_span(&store, 1, 2, NULL) == EE_NULL && ee_read_span(NULL, 1, 2, &span) == EE_NULL);
    CHECK(ee_read_span(&store, 1, 0, &span) == EE_WRONG_NUMBER && ee_read_span(&store, 0, 1, &span) == EE_WRONG_NUMBER);
    CHECK(ee_read_span(&store, 65534, 2, &span) == EE_OK && span.count == 1 && (uint32_t)span.numbers[0] != 65534);
}

static void shapes(void) {
    static const uint32_t wrong[][2] = {{0, 6}, {65, 6}, {1, 4}, {1, 513}, {UINT32_MAX, 6}, {1, UINT32_MAX}};
    for (size_t i = 0; i < sizeof wrong / sizeof *wrong; i++) {
        ee_flash flash = flash_of(&p);
        flash.pages = wrong[i][0];
        flash.page_words = wrong[i][1];
        CHECK(ee_open(&store, &flash) == EE_WRONG_SHAPE);
        CHECK(ee_format(&store, &flash) == EE_WRONG_SHAPE && ee_rescue(&store, &flash) == EE_WRONG_SHAPE);
        CHECK(ee_bad_words(&flash, &value) == EE_WRONG_SHAPE);
        CHECK(ee_write(&store, 1, 1) == EE_NOT_OPEN);
    }
    ee_flash flash = flash_of(&p);
    for (flash.kind = 4; flash.kind != 0; flash.kind <<= 1) {
        CHECK(ee_start(&store, &flash) == EE_WRONG_SHAPE && ee_format(&store, &flash) == EE_WRONG_SHAPE);
    }
    flash.kind = EE_CODED + 2;
    CHECK(ee_start(&store, &flash) == EE_WRONG_SHAPE && ee_rescue(&store, &flash) == EE_WRONG_SHAPE);
}

static void statuses(void) {
    ee_flash flash = flash_of(&p);
    CHECK(ee_format(&store, &flash) == EE_OK);
    CHECK(ee_write(&store, 0, 1) == EE_WRONG_NUMBER);
    CHECK(ee_forget(&store, 65535) == EE_WRONG_NUMBER);
    CHECK(ee_read(&store, 0, &value) == EE_WRONG_NUMBER);
    CHECK(ee_forget(&store, 1) == EE_ABSENT);
    value = 99;
    CHECK(ee_read(&store, 1, &value) == EE_NOTHING && value == 99);
    CHECK(ee_write(&store, 1, 10) == EE_OK && ee_write(&store, 65534, UINT32_MAX) == EE_OK);
    CHECK(ee_write(&store, 3, 1) == EE_FULL);
    CHECK(ee_write(&store, 1, 11) == EE_OK);
    CHECK(ee_counts(&store, &numbers) == EE_OK);
    CHECK(numbers.slots == 2 && numbers.fill == 2 && numbers.live == 2);
    CHECK(numbers.pending == 1 && numbers.generation == 2);
    CHECK(ee_clean(&store) == EE_OK && ee_clean(&store) == EE_NOTHING);
    address = 0;
    CHECK(ee_next(&store, &address, &value) == EE_OK && address == 1 && value == 11);
    CHECK(ee_next(&store, &address, &value) == EE_OK && address == 65534 && value == UINT32_MAX);
    CHECK(ee_next(&store, &address, &value) == EE_NOTHING && address == 65534);
    address = 65535;
    CHECK(ee_next(&store, &address, &value) == EE_WRONG_NUMBER);
    loaded = 99;
    CHECK(ee_load(&store, wanted, 5, &loaded) == EE_WRONG_NUMBER && loaded == 99 && wanted[0].value == 70);
    CHECK(ee_load(&store, wanted, 0, &loaded) == EE_OK && loaded == 0 && ee_load(&store, wanted, 4, &loaded) == EE_OK);
    CHECK(loaded == 3 && wanted[0].value == 11 && wanted[1].value == 71 && wanted[2].value == UINT32_MAX && wanted[3].value == 11);
    CHECK(ee_forget(&store, 1) == EE_OK && ee_read(&store, 1, &value) == EE_NOTHING);
    CHECK(ee_load(&store, wanted, 2, &loaded) == EE_OK && loaded == 0 && wanted[0].value == 11 && wanted[1].value == 71);
}

/* The refusals of a list, each of which leaves the flash as it was; and a list that is written. */
static void lists(void) {
    blank(&p, 1, 6);
    ee_flash flash = flash_of(&p);
    CHECK(ee_format(&store, &flash) == EE_OK && ee_write(&store, 5, 10) == EE_OK);
    part before = p;
    CHECK(ee_write_all(&store, list, 0) == EE_OK);
    CHECK(ee_write_all(&store, list, 3) == EE_DUPLICATE && ee_write_all(&store, list, 2) == EE_FULL);
    CHECK(ee_write_all(&store, list, 4) == EE_WRONG_NUMBER && ee_write_all(&store, list + 4, 1) == EE_WRONG_NUMBER);
    CHECK(holds_same(&before, &p));
    CHECK(ee_write_all(&store, list + 5, 2) == EE_OK && p.words[1][4] == 0x0000001900000004);
    CHECK(ee_counts(&store, &numbers) == EE_OK && numbers.live == 2 && numbers.fill == 2 && numbers.pending == 1);
    CHECK(ee_start(&store, &flash) == EE_OK && ee_read(&store, 4, &value) == EE_OK && value == 25);
    CHECK(ee_read(&store, 5, &value) == EE_OK && value == 26);
}

static void no_store(void) {
    ee_flash flash = flash_of(&p);
    blank(&p, 1, 6);
    CHECK(ee_open(&store, &flash) == EE_UNFORMATTED);
    p.words[0][0] = 0xaaaaaaaa00000001;
    CHECK(ee_open(&store, &flash) == EE_NO_LIVE_SET);
    p.words[0][1] = 0xaaaaaaaaaaaaaaaa;
    CHECK(ee_open(&store, &flash) == EE_OK);
    p.words[0][4] = 0;
    CHECK(ee_open(&store, &flash) == EE_FOREIGN);
    CHECK(ee_read(&store, 1, &value) == EE_NOT_OPEN);
    p.words[1][0] = 0xaaaaaaaa00000001;
    p.words[1][1] = 0xaaaaaaaaaaaaaaaa;
    CHECK(ee_open(&store, &flash) == EE_TWO_LIVE);
    blank(&p, 1, 6);
    p.words[0][0] = 0xaaaaaaaafffffffe;
    p.words[0][1] = 0xaaaaaaaaaaaaaaaa;
    p.words[0][4] = p.words[0][5] = 0x0000000a00000001;
    CHECK(ee_open(&store, &flash) == EE_OK);
    CHECK(ee_write(&store, 1, 1) == EE_SPENT && ee_forget(&store, 1) == EE_SPENT);
    CHECK(ee_write_all(&store, list, 2) == EE_SPENT && ee_write_all(&store, list, 1) == EE_SPENT);
    part before = p;
    CHECK(ee_forget_all(&store) == EE_SPENT && ee_rescue(&store, &flash) == EE_SPENT && holds_same(&before, &p));
    CHECK(ee_read(&store, 1, &value) == EE_NOT_OPEN);
    p.words[0][4] = p.words[0][5] = UINT64_MAX;
    CHECK(ee_open(&store, &flash) == EE_OK && ee_forget_all(&store) == EE_OK);
    blank(&p, 1, 6);
    CHECK(ee_rescue(&store, &flash) == EE_NOTHING && ee_forget_all(&store) == EE_NOT_OPEN);
    value = 99;
    CHECK(ee_bad_words(&flash, &value) == EE_OK && value == 0);
}

/* A first start is cut in each of its steps in each way, again and again, and ends with an empty store. */
static void first_starts(void) {
    ee_flash flash = flash_of(&p);
    blank(&p, 1, 6);
    for (uint32_t round = 0; round < 12; round++) {
        p.steps = 0, p.cut_in = 1 + round % 3, p.tear = (enum tear)(round % TEARS);
        uint32_t status = ee_start(&store, &flash);
        if (status == EE_OK) blank(&p, 1, 6);
        else CHECK(status == EE_DRIVER && ee_read(&store, 1, &value) == EE_NOT_OPEN);
    }
    p.cut_in = 0;
    CHECK(ee_start(&store, &flash) == EE_OK);
    CHECK(ee_counts(&store, &numbers) == EE_OK && numbers.live == 0 && numbers.fill == 0);
    CHECK(ee_write(&store, 1, 10) == EE_OK && ee_start(&store, &flash) == EE_OK);
    CHECK(ee_read(&store, 1, &value) == EE_OK && value == 10);
    p.torn[0][1] = 1;
    part before = p;
    CHECK(ee_start(&store, &flash) == EE_NO_LIVE_SET && holds_same(&before, &p));
}

/* So it is on pairs of numbers, of which a cut leaves any bits that it may. */
static void first_starts_on_pairs(unsigned long cuts, int clears_first) {
    unsigned long made = 0;
    blank(&p, 2, 6);
    p.pairs = 1, p.clears_first = clears_first;
    ee_flash flash = flash_of(&p);
    while (cuts > 0) {
        p.steps = 0, p.cut_in = 1 + (uint32_t)(any_bits() >> 40) % 7, p.tear = (enum tear)((any_bits() >> 40) % TEARS);
        uint32_t status = ee_start(&store, &flash);
        if (status == EE_DRIVER) {
            cuts--;
            continue;
        }
        CHECK(status == EE_OK && ee_counts(&store, &numbers) == EE_OK && numbers.live == 0 && numbers.generation == 1);
        made++;
        blank(&p, 2, 6);
        p.pairs = 1, p.clears_first = clears_first;
    }
    CHECK(made > 100);
}

static void failing(void) {
    ee_flash flash = flash_of(&p);
    blank(&p, 1, 6);
    CHECK(ee_format(&store, &flash) == EE_OK);
    p.steps = 0, p.cut_in = 1, p.tear = TEAR_TORN;
    CHECK(ee_write(&store, 1, 10) == EE_DRIVER);
    CHECK(ee_write(&store, 1, 10) == EE_NOT_OPEN && ee_clean(&store) == EE_NOT_OPEN && ee_forget(&store, 1) == EE_NOT_OPEN);
    CHECK(ee_write_all(&store, list, 2) == EE_NOT_OPEN);
    CHECK(ee_counts(&store, &numbers) == EE_NOT_OPEN && ee_next(&store, &address, &value) != EE_OK);
    CHECK(ee_open(&store, &flash) == EE_OK && ee_read(&store, 1, &value) == EE_NOTHING);
    CHECK(ee_counts(&store, &numbers) == EE_OK && numbers.fill == 1 && numbers.torn == 1);
}

/* Numbers of which no store made words are refused, wherever they stand, and nothing is written; a format takes them. */
static void foreign_numbers(void) {
    for (uint32_t page = 0; page < 4; page++) {
        for (uint32_t place = 0; place < 12; place++) {
            blank(&p, 2, 6);
            p.pairs = 1;
            ee_flash flash = flash_of(&p);
            p.words[page][place] = 5;
            p.words[page][place ^ 1] = UINT64_MAX - 6;
            part before = p;
            CHECK(ee_open(&store, &flash) == EE_FOREIGN && ee_start(&store, &flash) == EE_FOREIGN);
            CHECK(ee_write(&store, 1, 1) == EE_NOT_OPEN && holds_same(&before, &p));
            p.steps = 0, p.cut_in = 1, p.tear = TEAR_TORN;
            CHECK(ee_format(&store, &flash) == EE_DRIVER && ee_write(&store, 1, 1) == EE_NOT_OPEN);
            p.cut_in = 0, p.erased = 0;
            CHECK(ee_format(&store, &flash) == EE_OK && p.erased == 1);
            CHECK(ee_write(&store, 1, 10) == EE_OK && ee_start(&store, &flash) == EE_OK);
            CHECK(ee_read(&store, 1, &value) == EE_OK && value == 10);
        }
    }
}

/* Where an erase clears first they are what a cut leaves in the set that waits: it opens, and is cleaned. So in page 0 before a
 * first start; in any other page they are no store's. In a slot of the live set one is torn. */
static void low_numbers(void) {
    for (uint32_t page = 0; page < 4; page++) {
        blank(&p, 2, 6);
        p.pairs = 1, p.clears_first = 1;
        ee_flash flash = flash_of(&p);
        for (uint32_t place = 0; place < 12; place++) p.words[page][place] = 5 + place;
        CHECK(ee_start(&store, &flash) == (page == 0 ? EE_OK : EE_NO_LIVE_SET));
    }
    for (uint32_t page = 0; page < 4; page++) {
        blank(&p, 2, 6);
        p.pairs = 1, p.clears_first = 1;
        ee_flash flash = flash_of(&p);
        CHECK(ee_start(&store, &flash) == EE_OK && ee_write(&store, 1, 10) == EE_OK);
        for (uint32_t place = page == 0 ? 10 : 0; place < 12; place++) p.words[page][place] = 5 + place;
        flash.kind = EE_PAIRS;
        CHECK(ee_start(&store, &flash) == EE_FOREIGN);
        flash.kind = EE_PAIRS_CLEARING;
        if (page == 1) CHECK(ee_start(&store, &flash) != EE_OK && ee_rescue(&store, &flash) == EE_OK);
        else CHECK(ee_start(&store, &flash) == EE_OK && ee_counts(&store, &numbers) == EE_OK);
        if (page == 0) CHECK(numbers.torn == 1);
        while (ee_clean(&store) == EE_OK) {}
        CHECK(ee_read(&store, 1, &value) == EE_OK && value == 10);
        flash.kind = EE_PAIRS;
        CHECK(ee_start(&store, &flash) == (page == 0 ? EE_FOREIGN : EE_OK));
    }
}

/* Values of a store of words or of coded words all of which stand in page 0 are no first start's, whatever shape the pairs have;
 * nothing is written. With another word in the place of its mark it is what a cut erase may leave. */
static void other_kinds(void) {
    for (uint32_t round = 0; round < 400; round++) {
        uint32_t calls = round / 6 % 13;
        blank(&p, 1 + round % 3, 16);
        p.coded = round % 2;
        ee_flash flash = flash_of(&p);
        CHECK(ee_start(&store, &flash) == EE_OK);
        for (uint32_t call = 0; call < calls; call++) CHECK(ee_write(&store, 1 + call % 3, (uint32_t)any_bits()) == EE_OK);
        p.pairs = 1, p.coded = 0, p.clears_first = 1, p.page_words = round % 5 < 3 ? 8 : 16;
        flash = flash_of(&p);
        part before = p;
        CHECK(ee_open(&store, &flash) == EE_NO_LIVE_SET && ee_start(&store, &flash) == (calls == 0 ? EE_OK : EE_NO_LIVE_SET));
        if (calls == 0) continue;
        CHECK(ee_write(&store, 1, 1) == EE_NOT_OPEN && holds_same(&before, &p) && p.steps == before.steps);
        p.words[0][1] ^= (uint64_t)1 << round % 64;
        CHECK(ee_start(&store, &flash) == EE_OK && ee_write(&store, 1, 10) == EE_OK && ee_start(&store, &flash) == EE_OK);
    }
}

/* What looks like no store at all is refused too, if a first start didn't leave it, and nothing is written: data all of whose
 * numbers have the top bit set, and a store of words with great values. */
static void data(void) {
    for (int round = 0; round < 2100; round++) {
        blank(&p, 2, 6);
        p.pairs = 1;
        ee_flash flash = flash_of(&p);
        if (round < 2000) {
            for (uint32_t i = 0; i < 48; i++) p.words[i / 12][i % 12] = any_bits() | (uint64_t)1 << 63;
        } else {
            p.words[0][0] = 0xaaaaaaaa00000001, p.words[0][1] = 0xaaaaaaaaaaaaaaaa;
            for (int i = 0; i <= round % 8; i++) p.words[0][4 + i] = 0xf000000000000001 + any_bits() % 99;
        }
        part before = p;
        uint32_t status = ee_start(&store, &flash);
        CHECK(status == EE_NO_LIVE_SET || status == EE_FOREIGN);
        CHECK(ee_write(&store, 1, 1) == EE_NOT_OPEN && holds_same(&before, &p) && p.steps == 0);
    }
    for (uint32_t i = 0; i < 48; i++) {
        blank(&p, 2, 6);
        p.pairs = 1;
        ee_flash flash = flash_of(&p);
        p.words[i / 12][i % 12] = (uint64_t)1 << 63;
        CHECK(ee_start(&store, &flash) == (i < 4 ? EE_OK : EE_NO_LIVE_SET));
    }
}

/* A read that fails is no torn word: it ends an opening, which writes nothing, and each call, also one that only reads. */
static void failed_reads(void) {
    for (uint32_t pairs = 0; pairs < 2; pairs++) {
        blank(&p, 1, 6);
        p.pairs = pairs;
        ee_flash flash = flash_of(&p);
        CHECK(ee_start(&store, &flash) == EE_OK && ee_write(&store, 1, 10) == EE_OK && ee_write(&store, 2, 20) == EE_OK);
        part before = p;
        for (uint32_t call = 0; call < 11; call++) {
            unsigned long last = 0;
            for (unsigned long read = 1; read != last; read++) {
                p = before;
                CHECK(ee_open(&store, &flash) == EE_OK);
                p.read = 0, p.fails_in = read, address = 0;
                uint32_t status = call == 0   ? ee_open(&store, &flash)
                                  : call == 1 ? ee_start(&store, &flash)
                                  : call == 2 ? ee_format(&store, &flash)
                                  : call == 3 ? ee_read(&store, 1, &value)
                                  : call == 4 ? ee_next(&store, &address, &value)
                                  : call == 5 ? ee_counts(&store, &numbers)
                                  : call == 6 ? ee_write_all(&store, list, 1)
                                  : call == 7 ? ee_forget(&store, 2)
                                  : call == 8 ? ee_forget_all(&store)
                                  : call == 9 ? ee_load(&store, wanted, 3, &loaded)
                                              : ee_rescue(&store, &flash);
                if (!p.failed) last = read + 1;
                else CHECK(status == EE_DRIVER && ee_read(&store, 1, &value) == EE_NOT_OPEN && ee_clean(&store) == EE_NOT_OPEN);
            }
            CHECK(last > 3 || call == 3 || call == 9);
        }
    }
}

static uint32_t no_word(void *context, uint32_t page, uint32_t place, uint64_t *word) {
    (void)page, (void)place, (void)word;
    return *(uint32_t *)context;
}

/* A driver that answers a status of its own for every word, as the HAL's for an error: no call makes a step, and nothing is lost. */
static void statuses_of_drivers(void) {
    static uint32_t answers[] = {1, 2, 3, EE_READ_FAILED, EE_READ_FAILED + 1, EE_TORN - 1, EE_TORN + 1, UINT32_MAX};
    for (size_t i = 0; i < sizeof answers / sizeof *answers; i++) {
        for (uint32_t kind = 0; kind < 4; kind++) {
            blank(&p, 1, 6);
            p.pairs = kind == 1 || kind == 2, p.clears_first = kind == 2, p.coded = kind == 3;
            ee_flash flash = flash_of(&p), failing = flash;
            CHECK(ee_start(&store, &flash) == EE_OK && ee_write(&store, 1, 10) == EE_OK);
            part before = p;
            failing.word = no_word, failing.context = &answers[i];
            for (int round = 0; round < 4; round++) CHECK(ee_start(&store, &failing) == EE_DRIVER && ee_clean(&store) == EE_NOT_OPEN);
            CHECK(ee_open(&store, &failing) == EE_DRIVER && ee_rescue(&store, &failing) == EE_DRIVER);
            CHECK(ee_format(&store, &failing) == EE_DRIVER && ee_bad_words(&failing, &value) == EE_DRIVER);
            CHECK(holds_same(&before, &p) && p.steps == before.steps);
            CHECK(ee_start(&store, &flash) == EE_OK && ee_read(&store, 1, &value) == EE_OK && value == 10);
        }
    }
}

/* A word is two numbers, and one that lacks its other half is torn. The word 0 has an erased one as its second. */
static void halves(void) {
    blank(&p, 1, 6);
    p.pairs = 1;
    ee_flash flash = flash_of(&p);
    CHECK(ee_start(&store, &flash) == EE_OK && ee_write(&store, 1, 10) == EE_OK);
    CHECK(p.words[0][8] == 0x0000000a00000001 && p.words[0][9] == ~p.words[0][8]);
    p.words[0][9] |= 1;
    CHECK(ee_start(&store, &flash) == EE_OK && ee_read(&store, 1, &value) == EE_NOTHING);
    CHECK(ee_counts(&store, &numbers) == EE_OK && numbers.torn == 1 && numbers.fill == 1);
    p.words[0][10] = 0;
    CHECK(ee_start(&store, &flash) == EE_FOREIGN);
}

/* A number that can't be read is no part of a value, and its word is not programmed. */
static void unreadable_numbers(void) {
    for (uint32_t place = 8; place < 12; place++) {
        blank(&p, 1, 6);
        p.pairs = 1;
        ee_flash flash = flash_of(&p);
        CHECK(ee_format(&store, &flash) == EE_OK && ee_write(&store, 1, 10) == EE_OK);
        p.torn[0][place] = 1;
        CHECK(ee_read(&store, 1, &value) == (place < 10 ? EE_NOTHING : EE_OK) && value == 10);
        uint32_t status = ee_start(&store, &flash);
        CHECK(status == EE_FOREIGN || status == EE_OK);
        p.torn[0][place] = 0;
        CHECK(ee_start(&store, &flash) == EE_OK && ee_read(&store, 1, &value) == EE_OK && value == 10);
    }
}

int main(int count, char **argument) {
    blank(&p, 1, 6);
    zeros();
    copies();
    blank(&p, 1, 6);
    nulls();
    shapes();
    statuses();
    lists();
    no_store();
    first_starts();
    first_starts_on_pairs(count > 1 ? strtoul(argument[1], NULL, 10) : 20000, 0);
    first_starts_on_pairs(20000, 1);
    low_numbers();
    other_kinds();
    blank(&p, 1, 6);
    failing();
    foreign_numbers();
    data();
    failed_reads();
    statuses_of_drivers();
    halves();
    unreadable_numbers();
    return 0;
}
