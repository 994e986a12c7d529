/* Coded words: what stands in the flash, by a coder that was written of docs/FORMATS.md alone; that a number which is no coded word
 * is torn, and refuses nothing; that no opening, first start or rescue takes a store of another shape for one of its own, or one of
 * words, and no opening or first start data; and that none writes there. */
#include "coded.h"
#include "part.h"

#define MARK UINT64_C(0xaaaaaaaaaaaaaaaa)
enum { SHAPES = 9, STORES = 60 };

static part p;
static ee_store store;
static ee_numbers numbers;

static void vectors(void) {
    static const uint64_t rows[][2] = {{0x0000000a00000001, 0x0000000a9ea80001}, {0xffffffff0000fffe, 0xffffffffa18efffe},
                                       {0x0000000a00010001, 0x0000000aebbb0001}, {0xaaaaaaaa00000001, 0xaaaaaaaa73560001},
                                       {0xaaaaaaaafffffffe, 0xfffffffe94100000}, {MARK, 0x000101009eb10000}};
    for (size_t i = 0; i < sizeof rows / sizeof *rows; i++) CHECK(coded_number(rows[i][0], 1, 256) == rows[i][1]);
}

/* What a store writes of words is what it writes coded. */
static void written(void) {
    blank(&p, 1, 8);
    part plain = p;
    p.coded = 1;
    ee_store of_words;
    ee_flash flash = flash_of(&p), words = flash_of(&plain);
    for (uint32_t call = 0; call < 40; call++) {
        uint32_t value = (uint32_t)any_bits();
        if (call == 0) CHECK(ee_start(&store, &flash) == EE_OK && ee_start(&of_words, &words) == EE_OK);
        else if (call % 7 == 3) CHECK(ee_forget(&store, 1 + call % 3) == ee_forget(&of_words, 1 + call % 3));
        else CHECK(ee_write(&store, 1 + call % 3, value) == EE_OK && ee_write(&of_words, 1 + call % 3, value) == EE_OK);
        for (uint32_t at = 0; at < 16; at++) {
            uint64_t number = plain.words[at / 8][at % 8], word = number == UINT64_MAX ? number : coded_number(number, 1, 8);
            CHECK(p.words[at / 8][at % 8] == word);
        }
    }
}

/* Each bit of a slot turned, a number of the store that isn't coded, and 0: torn, and told. */
static void torn(void) {
    for (int bit = 0; bit < 66; bit++) {
        uint32_t value, bad;
        blank(&p, 1, 8);
        p.coded = 1;
        ee_flash flash = flash_of(&p);
        CHECK(ee_start(&store, &flash) == EE_OK && ee_write(&store, 1, 10) == EE_OK && ee_write(&store, 1, 11) == EE_OK);
        p.words[0][5] = bit == 64 ? 0x0000000b00000001 : bit == 65 ? 0 : p.words[0][5] ^ (uint64_t)1 << bit;
        CHECK(ee_read(&store, 1, &value) == EE_OK && value == 10);
        CHECK(ee_open(&store, &flash) == EE_OK && ee_read(&store, 1, &value) == EE_OK && value == 10);
        CHECK(ee_counts(&store, &numbers) == EE_OK && numbers.torn == 1 && numbers.fill == 2);
        CHECK(ee_bad_words(&flash, &bad) == EE_OK && bad == 1);
        CHECK(ee_write(&store, 1, 12) == EE_OK && ee_start(&store, &flash) == EE_OK);
        CHECK(ee_read(&store, 1, &value) == EE_OK && value == 12);
    }
}

/* Each bit of the mark turned, that also where only some cells were programmed, no coded word, and 0: no set is live, and a rescue
 * has the value. */
static void torn_mark(void) {
    for (int turn = 0; turn < 4000; turn++) {
        uint32_t value, found[2] = {9, 9};
        blank(&p, 1 + turn % 2, 8);
        p.coded = 1;
        ee_flash flash = flash_of(&p);
        CHECK(ee_start(&store, &flash) == EE_OK && ee_write(&store, 1, 10) == EE_OK);
        uint64_t *mark = &p.words[0][1], whole = *mark;
        if (turn >= 64) *mark |= any_bits();
        *mark ^= (uint64_t)1 << turn % 64;
        if (turn % 64 == 63) *mark = turn % 128 == 63 ? 0 : whole ^ MARK;
        if (*mark == whole) continue;
        CHECK(ee_open(&store, &flash) == EE_NO_LIVE_SET && ee_start(&store, &flash) == EE_NO_LIVE_SET);
        CHECK(ee_other_shape(&flash, &found[0], &found[1]) == EE_NOTHING && found[0] == 9 && found[1] == 9);
        CHECK(ee_rescue(&store, &flash) == EE_OK && ee_read(&store, 1, &value) == EE_OK && value == 10);
    }
}

/* Whether each word is erased that a flash has. */
static int is_blank(const ee_flash *flash) {
    for (uint32_t at = 0; at < 2 * flash->pages * flash->page_words; at++)
        if (p.words[at / flash->page_words][at % flash->page_words] != UINT64_MAX) return 0;
    return 1;
}

/* Under this flash nothing opens, and nothing is written; but where all that it sees is blank, it is a new one. Whether it answers
 * EE_OTHER_SHAPE, with the shape: that of a store of coded words, or 0 and 0. */
static unsigned refused(ee_flash flash, uint32_t pages, uint32_t page_words) {
    part before = p;
    uint32_t found[2] = {9, 9}, count;
    ee_result opened = ee_open(&store, &flash);
    if (is_blank(&flash)) {
        CHECK(opened == EE_UNFORMATTED);
        return 0;
    }
    CHECK(opened != EE_OK && ee_read(&store, 1, found) == EE_NOT_OPEN && ee_start(&store, &flash) == opened);
    unsigned is_other = opened == EE_OTHER_SHAPE;
    if (pages != 0 || is_other) CHECK(ee_rescue(&store, &flash) == (is_other ? (ee_result)EE_OTHER_SHAPE : (ee_result)EE_NOTHING));
    CHECK((ee_bad_words(&flash, &count) == EE_OTHER_SHAPE) == is_other);
    CHECK((ee_foreign_word(&flash, &count, &count) == EE_OTHER_SHAPE) == is_other);
    CHECK(ee_other_shape(&flash, &found[0], &found[1]) == (is_other ? (ee_result)EE_OK : (ee_result)EE_NOTHING));
    CHECK(is_other ? found[0] == pages && found[1] == page_words : found[0] == 9 && found[1] == 9);
    CHECK(holds_same(&p, &before) && p.steps == before.steps);
    return is_other;
}

/* A store with values, cut or not, under each other shape. */
static void other_shapes(void) {
    static const uint32_t shapes[SHAPES][2] = {{1, 5}, {1, 6}, {1, 16}, {2, 6}, {2, 8}, {2, 16}, {3, 5}, {3, 8}, {3, 16}};
    unsigned told = 0, openings = 0;
    for (int i = 0; i < SHAPES * STORES; i++) {
        const uint32_t *own = shapes[i % SHAPES];
        blank(&p, own[0], own[1]);
        p.coded = 1;
        ee_flash flash = flash_of(&p);
        CHECK(ee_start(&store, &flash) == EE_OK);
        for (uint64_t calls = 3 + any_bits() % 60; calls > 0; calls--) CHECK(ee_write(&store, 1 + calls % 2, (uint32_t)calls) <= EE_FULL);
        if (i % 3 == 0) while (ee_clean(&store) == EE_OK) {}
        for (int j = 0; j < SHAPES; j++) {
            if (shapes[j] == own) continue;
            p.pages = 3; /* as far as another shape may ask */
            p.page_words = MOST_WORDS;
            ee_flash other = flash;
            other.pages = shapes[j][0], other.page_words = shapes[j][1];
            told += refused(other, own[0], own[1]);
            openings++;
        }
        CHECK(ee_start(&store, &flash) == EE_OK);
        flash.kind = EE_WORDS;
        part before = p;
        CHECK(ee_start(&store, &flash) != EE_OK && holds_same(&p, &before));
    }
    printf("%u openings under another shape, %u told it\n", openings, told);
    CHECK(told > openings / 2);
}

/* Data: a first start makes nothing there. */
static void data(void) {
    for (int round = 0; round < 1000; round++) {
        blank(&p, 2, 6);
        ee_flash coded = flash_of(&p);
        coded.kind = EE_CODED;
        uint64_t at = any_bits() % 22;
        p.words[(at + 2) / 6][(at + 2) % 6] = any_bits() >> 1;
        CHECK(refused(coded, 0, 0) == 0);
        CHECK(ee_format(&store, &coded) == EE_OK && ee_write(&store, 1, 10) == EE_OK && ee_start(&store, &coded) == EE_OK);
    }
}

/* A store of words is told where one of its marks is word 1 of a set, and so under its own shape; but not by reads that fail. */
static void of_words(void) {
    static const uint32_t others[][2] = {{1, 6}, {2, 8}, {3, 6}};
    for (int round = 0; round < 300; round++) {
        blank(&p, 2, 6);
        ee_flash flash = flash_of(&p);
        CHECK(ee_start(&store, &flash) == EE_OK);
        for (uint64_t calls = any_bits() % 60; calls > 0; calls--) CHECK(ee_write(&store, 1 + calls % 2, (uint32_t)calls) == EE_OK);
        for (uint64_t calls = any_bits() % 3; calls > 0; calls--) CHECK(ee_clean(&store) <= EE_NOTHING);
        flash.kind = EE_CODED;
        CHECK(refused(flash, 0, 0) == 1);
        for (unsigned long read = 1; read <= 3; read++) {
            uint32_t found[2];
            p.fails_in = p.read + read;
            CHECK(ee_open(&store, &flash) == (read <= 2 ? EE_DRIVER : EE_OTHER_SHAPE));
            p.fails_in = p.read + read;
            CHECK(ee_other_shape(&flash, &found[0], &found[1]) == (read <= 2 ? EE_DRIVER : EE_OK));
            p.fails_in = p.failed = 0;
        }
        for (int i = 0; i < 3; i++) {
            ee_flash other = flash;
            p.pages = MOST_PAGES / 2, p.page_words = MOST_WORDS;
            other.pages = others[i][0], other.page_words = others[i][1];
            uint32_t second = other.pages;
            CHECK(refused(other, 0, 0) == (p.words[0][1] == MARK || p.words[second][1] == MARK));
        }
    }
}

int main(void) {
    vectors();
    written();
    torn();
    torn_mark();
    other_shapes();
    data();
    of_words();
    return 0;
}
