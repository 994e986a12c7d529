/* What a noted flash says of a step or a read that failed, and where ee_foreign_word finds the word for which a start is refused. */
#include "part.h"

enum { CODE = 77, CALLS = 40 };

static part p;
static ee_flash inner, failing;
static ee_noted noted;
static ee_store store;
static uint32_t until_failure;
static ee_error expected;
static int is_expected;

/* Whether what begins here fails: then it is what has to be told. */
static int fails(uint32_t step, uint32_t page, uint32_t place) {
    if (until_failure == 0 || --until_failure > 0) return 0;
    expected = (ee_error){step, page, inner.kind == EE_WORDS ? place : place / 2, CODE + step};
    is_expected = 1;
    return 1;
}

static uint32_t word(void *context, uint32_t page, uint32_t place, uint64_t *value) {
    CHECK(!is_expected);
    return fails(EE_STEP_READ, page, place) ? CODE + EE_STEP_READ : inner.word(context, page, place, value);
}

static uint32_t program(void *context, uint32_t page, uint32_t place, uint64_t value) {
    CHECK(!is_expected);
    return fails(EE_STEP_PROGRAM, page, place) ? CODE + EE_STEP_PROGRAM : inner.program(context, page, place, value);
}

static uint32_t erase(void *context, uint32_t page) {
    CHECK(!is_expected);
    return fails(EE_STEP_ERASE, page, 0) ? CODE + EE_STEP_ERASE : inner.erase(context, page);
}

static void begin(uint32_t pairs) {
    const ee_flash *flash;
    blank(&p, 2, 6);
    p.pairs = pairs;
    inner = failing = flash_of(&p);
    failing.word = word;
    failing.program = program;
    failing.erase = erase;
    is_expected = 0;
    until_failure = 0;
    flash = ee_note_errors(&noted, &failing);
    CHECK(flash == &noted.flash && ee_start(&store, flash) == EE_OK);
}

/* Writes until something fails in turn, and asks what did. */
static unsigned failed_in(uint32_t turn) {
    ee_error error = {9, 9, 9, 9};
    until_failure = turn;
    for (uint32_t at = 0; at < CALLS; at++) {
        ee_result status = ee_write(&store, (uint16_t)(1 + at % 3), at);
        CHECK(status == (is_expected ? EE_DRIVER : EE_OK));
        CHECK(ee_last_error(&noted, &error) == (is_expected ? EE_OK : EE_NOTHING));
        if (!is_expected) continue;
        CHECK(memcmp(&error, &expected, sizeof error) == 0);
        /* It stays until another step fails, and a new beginning forgets it. */
        is_expected = 0;
        CHECK(ee_start(&store, &noted.flash) == EE_OK && ee_last_error(&noted, &error) == EE_OK && error.code == expected.code);
        return 1u << error.step;
    }
    CHECK(error.step == 9);
    return 0;
}

static void what_failed(uint32_t pairs) {
    unsigned seen = 0;
    for (uint32_t turn = 1; turn < 300; turn++) {
        begin(pairs);
        seen |= failed_in(turn);
    }
    CHECK(seen == (1u << EE_STEP_READ | 1u << EE_STEP_PROGRAM | 1u << EE_STEP_ERASE));
}

/* Puts a number into each word of the live set, and one that no store wrote into each pair. */
static void where_it_stands(uint32_t pairs) {
    uint32_t page, at, found = 0;
    for (uint32_t in = 0; in < 2 * p.pages; in++) {
        for (uint32_t place = 0; place < p.page_words; place++) {
            begin(pairs);
            for (uint32_t i = 0; i < 3; i++) CHECK(ee_write(&store, 1, i) == EE_OK);
            page = at = 99;
            CHECK(ee_foreign_word(&noted.flash, &page, &at) == EE_NOTHING && page == 99 && at == 99);
            p.words[in][place << pairs] = UINT64_C(5) << 16;
            if (pairs) p.words[in][2 * place + 1] = 5;
            uint32_t programmed = (uint32_t)p.programmed;
            ee_result answer = ee_foreign_word(&noted.flash, &page, &at);
            CHECK(p.programmed == programmed);
            CHECK((answer == EE_OK) == (ee_start(&store, &noted.flash) == EE_FOREIGN));
            if (answer == EE_OK) CHECK(page == in && at == place);
            else CHECK(answer == EE_NOTHING && page == 99 && at == 99);
            found += answer == EE_OK;
            until_failure = 1;
            CHECK(ee_foreign_word(&noted.flash, &page, &at) == EE_DRIVER);
        }
    }
    CHECK(found >= p.pages * p.page_words - 2);
}

static void refused(void) {
    ee_error error;
    ee_flash none = failing;
    uint32_t page, at;
    none.erase = NULL;
    CHECK(ee_note_errors(NULL, &failing) == NULL && ee_note_errors(&noted, NULL) == NULL);
    CHECK(ee_start(&store, ee_note_errors(&noted, &none)) == EE_NULL);
    CHECK(ee_last_error(NULL, &error) == EE_NULL && ee_last_error(&noted, NULL) == EE_NULL);
    CHECK(ee_foreign_word(NULL, &page, &at) == EE_NULL && ee_foreign_word(&failing, NULL, &at) == EE_NULL);
    CHECK(ee_foreign_word(&failing, &page, NULL) == EE_NULL);
}

int main(void) {
    for (uint32_t pairs = 0; pairs < 2; pairs++) {
        what_failed(pairs);
        where_it_stands(pairs);
    }
    refused();
    return 0;
}
