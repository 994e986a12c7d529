/* Tests the flash in memory of sim/ where it has pairs: what a cut leaves of a number, by its bits, and how its words read. */
#include "../sim/sim.c"

#define CHECK(holds)                                                                                                           \
    do {                                                                                                                       \
        if (!(holds)) {                                                                                                        \
            fprintf(stderr, "%s:%d: %s\n", __FILE__, __LINE__, #holds);                                                        \
            exit(1);                                                                                                           \
        }                                                                                                                      \
    } while (0)

enum { WORDS = 12, RUNS = 20000 };

static sim part, before, again;
static unsigned lows, seen[2]; /* whether some number of a torn pair was left as it was, and some was done */

static int is_torn_pair(const uint64_t *pair) { return !is_erased_pair(pair) && !is_value(pair); }

/* Programs the two numbers of a word, and cuts power in one of them. */
static void cut_program(sim_tear tear, uint64_t value) {
    uint64_t *pair = &part.words[1][4];
    uint32_t number = (uint32_t)(picked(&part) & 1), cut = 0;
    ee_flash flash = sim_flash(&part);
    sim_cut(&part, 1 + number, tear);
    for (uint32_t i = 0; i < 2 && !cut; i++) cut = flash.program(&part, 1, 4 + i, i ? ~value : value);
    uint64_t asked = number ? ~value : value, left = pair[number];
    CHECK(cut && part.cuts == 1 && (left & asked) == asked && pair[1 - number] == (number ? value : UINT64_MAX));
    if (tear == SIM_NOTHING) CHECK(left == UINT64_MAX);
    if (tear == SIM_DONE) CHECK(left == asked);
    if (tear != SIM_NOTHING && tear != SIM_DONE) CHECK(is_torn_pair(pair));
    seen[0] |= tear == SIM_TORN && left == UINT64_MAX;
    seen[1] |= tear == SIM_TORN && left == asked;
}

/* Fills a page with words, torn ones and erased ones, erases it, and cuts power in that. */
static void cut_erase(sim_tear tear) {
    static const sim_tear mixed[3] = {SIM_NOTHING, SIM_DONE, SIM_TORN};
    static const uint64_t almost_erased[2][2] = {{UINT64_MAX, UINT64_MAX - 32}, {UINT64_MAX - 1, UINT64_MAX - 32}};
    ee_flash flash = sim_flash(&part);
    for (uint32_t place = 0; place < WORDS; place++) {
        static const char *const texts[4] = {"-", "?", "0000000000000001", "fffffffffffffffe"};
        CHECK(read_word(&part, 1, place, texts[picked(&part) & 3]));
    }
    memcpy(&part.words[1][2 * 8], almost_erased[0], sizeof almost_erased[0]);
    memcpy(&part.words[1][2 * 11], almost_erased[1], sizeof almost_erased[1]);
    before = part;
    sim_cut(&part, 1, tear);
    CHECK(flash.erase(&part, 1) != 0 && part.wear[1] == 1);
    for (uint32_t place = 0; place < WORDS; place++) {
        const uint64_t *pair = &part.words[1][2 * place], *old = &before.words[1][2 * place];
        sim_tear left = tear == SIM_MIXED ? mixed[place % 3] : tear;
        if (!part.clears_first) CHECK((pair[0] & old[0]) == old[0] && (pair[1] & old[1]) == old[1]);
        if (left == SIM_NOTHING) CHECK(pair[0] == old[0] && pair[1] == old[1]);
        if (left == SIM_DONE) CHECK(is_erased_pair(pair));
        if (left == SIM_TORN) CHECK(is_erased_pair(old) && !part.clears_first ? is_erased_pair(pair) : is_torn_pair(pair));
        lows += pair[0] + pair[1] < pair[0] ? 0 : pair[0] + pair[1] != UINT64_MAX;
    }
}

/* Its image is read as a part with the same image. */
static void check_image(void) {
    char texts[2][4096] = {{0}, {0}};
    FILE *file = tmpfile();
    CHECK(file != NULL);
    for (int i = 0; i < 2; i++) {
        rewind(file);
        sim_write(i ? &again : &part, file);
        rewind(file);
        CHECK(fread(texts[i], 1, sizeof texts[i] - 1, file) > 0);
        rewind(file);
        CHECK(sim_read_pairs(&again, file));
    }
    CHECK(strcmp(texts[0], texts[1]) == 0 && strchr(texts[0], '?') != NULL);
    fclose(file);
}

/* What is no image, and what is. */
static void check_texts(void) {
    static const struct {
        int is_image;
        const char *text;
    } texts[] = {
        {1, "ee 1 5\n0 - ? 0000000000000012 - -\n18446744073709551615 - - - - fffffffffffffffe\n"},
        {0, "ee 1 5\n0 - - 12zz - -\n0 - - - - -\n"},
        {0, "ee 1 5\n0 - - -1 - -\n0 - - - - -\n"},
        {0, "ee 1 5\n0 - - 12 - -\n0 - - - - -\n"},
        {0, "ee 1 5\n0 - - 00000000000000012 - -\n0 - - - - -\n"},
        {0, "ee 1 5\n0 - - 000000000000001A - -\n0 - - - - -\n"},
        {0, "ee 1 5\n0 - - ffffffffffffffff - -\n0 - - - - -\n"},
        {0, "ee 1 5\n-1 - - - - -\n0 - - - - -\n"},
        {0, "ee 1 5\n18446744073709551616 - - - - -\n0 - - - - -\n"},
        {0, "ee 1 5\n01 - - - - -\n0 - - - - -\n"},
        {0, "ee 4294967297 5\n0 - - - - -\n0 - - - - -\n"},
        {0, "ee 1 4294967301\n0 - - - - -\n0 - - - - -\n"},
        {0, "ee 1 5\n0 - - - - -\n0 - - - -\n"},
        {0, "ee 1 5\n0 - - - - -\n0 - - - - - -\n"},
        {0, "eee 1 5\n0 - - - - -\n0 - - - - -\n"},
    };
    for (size_t i = 0; i < sizeof texts / sizeof *texts; i++) {
        FILE *file = tmpfile();
        CHECK(file != NULL && fputs(texts[i].text, file) >= 0);
        for (int pairs = 0; pairs < 2; pairs++) {
            rewind(file);
            CHECK((pairs ? sim_read_pairs(&again, file) : sim_read(&again, file)) == texts[i].is_image);
        }
        fclose(file);
    }
}

int main(void) {
    static const sim_tear ways[4] = {SIM_NOTHING, SIM_DONE, SIM_TORN, SIM_MIXED};
    for (uint64_t run = 0; run < RUNS; run++) {
        sim_new_pairs(&part, 1, WORDS);
        part.seed = run, part.clears_first = run / 8 % 2;
        if (run % 2) cut_erase(ways[run / 2 % 4]);
        else cut_program(ways[run / 2 % 4], run % 3 ? picked(&part) | 1 : UINT64_MAX - ((uint64_t)1 << run % 64));
    }
    CHECK(seen[0] && seen[1] && lows > RUNS / 4);
    sim_new_pairs(&part, 1, WORDS);
    cut_erase(SIM_TORN);
    check_image();
    check_texts();
    return 0;
}
