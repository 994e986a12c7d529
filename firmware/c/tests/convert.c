/* A store of words becomes one of coded words, over flash with error correction: power is cut in each step of that, in each way, and
 * again and again at random, or a read fails, and each time all values are there; then the store is used, with cuts. */
#include "../ee_convert.c"
#include "../sim/sim_ecc.c"

#define CHECK(holds)                                                                                                           \
    do {                                                                                                                       \
        if (!(holds)) {                                                                                                        \
            fprintf(stderr, "%s:%d: %s\n", __FILE__, __LINE__, #holds);                                                        \
            exit(1);                                                                                                           \
        }                                                                                                                      \
    } while (0)

enum { ADDRESSES = 12 };

static sim_ecc part;
static ee_flash words, coded;
static ee_store store;
static uint32_t values[ADDRESSES + 1];
static unsigned long cuts, commits; /* behind so many of these cuts the store was coded */

static uint32_t below(uint32_t limit) {
    static uint64_t dice;
    dice = dice * UINT64_C(6364136223846793005) + 1442695040888963407u;
    return (uint32_t)(dice >> 33) % limit;
}

/* A new part, as words and as coded ones. */
static void new_part(uint32_t pages, uint32_t page_words, uint64_t seed) {
    sim_ecc_new(&part, pages, page_words, seed);
    words = coded = sim_ecc_flash(&part);
    coded.kind = EE_CODED;
}

/* A store of words with some moves behind it, and values for at most a slot each. */
static void make_words(uint32_t pages, uint32_t page_words, uint64_t seed) {
    uint32_t slots = pages * (page_words - 4), most = slots < ADDRESSES ? slots : ADDRESSES;
    new_part(pages, page_words, seed);
    memset(values, 0, sizeof values);
    CHECK(ee_start(&store, &words) == EE_OK);
    for (uint32_t call = below(4 * slots); call > 0; call--) {
        uint32_t address = 1 + below(most);
        if (below(9) == 0) {
            CHECK(ee_forget(&store, (uint16_t)address) <= EE_ABSENT);
            values[address] = 0;
        } else {
            values[address] = 1 | below(UINT32_MAX);
            CHECK(ee_write(&store, (uint16_t)address, values[address]) == EE_OK);
        }
    }
    if (below(2)) while (ee_clean(&store) == EE_OK) continue;
}

static void check_values(void) {
    uint32_t value, count = 0;
    for (uint16_t address = 0; ee_next(&store, &address, &value) == EE_OK; count++) CHECK(address <= ADDRESSES && values[address] == value);
    for (int address = 1; address <= ADDRESSES; address++) count -= values[address] != 0;
    CHECK(count == 0);
}

/* What is left is coded, and no page waits. */
static void check_converted(void) {
    ee_numbers numbers;
    CHECK(ee_counts(&store, &numbers) == EE_OK && numbers.pending == 0);
    check_values();
    CHECK(ee_open(&store, &coded) == EE_OK);
    check_values();
}

/* What a cut left of a conversion is a store of coded words, or one of words, which none takes for coded ones. */
static void check_left(void) {
    sim_ecc left = part;
    uint32_t pages, page_words;
    if (ee_open(&store, &coded) == EE_OK) {
        commits++;
        check_values();
    } else {
        CHECK(ee_start(&store, &coded) == EE_OTHER_SHAPE && ee_rescue(&store, &coded) == EE_OTHER_SHAPE);
        CHECK(ee_other_shape(&coded, &pages, &page_words) == EE_OK && pages == 0 && page_words == 0);
        CHECK(memcmp(&part, &left, sizeof part) == 0);
    }
    part = left;
}

/* Cuts of a conversion, so many further ones behind one in this step. 0 where it ended before. */
static int cut_in(uint32_t step, sim_ecc_tear tear, uint32_t more) {
    sim_ecc_cut(&part, step, tear);
    for (ee_result status; (status = ee_convert(&store, &coded)) != EE_OK; more -= more > 0) {
        CHECK(status == EE_DRIVER && !part.is_on && ee_clean(&store) == EE_NOT_OPEN);
        part.is_on = 1, cuts++;
        check_left();
        sim_ecc_cut(&part, more ? 1 + below(step + 3) : 0, tear);
    }
    int was_cut = part.cut_in == 0;
    sim_ecc_cut(&part, 0, tear);
    check_converted();
    return was_cut;
}

static uint32_t read_that_fails, (*word_of_part)(void *, uint32_t, uint32_t, uint64_t *);

static uint32_t word_or_failure(void *context, uint32_t page, uint32_t place, uint64_t *value) {
    if (read_that_fails != 0 && --read_that_fails == 0) return 77;
    return word_of_part(context, page, place, value);
}

/* Each read of a conversion fails in turn: it ends there, and one that follows goes on. */
static uint32_t fail_in_reads(void) {
    const sim_ecc before = part;
    for (uint32_t read = 1;; read++) {
        part = before, word_of_part = coded.word;
        coded.word = word_or_failure, read_that_fails = read;
        const ee_result status = ee_convert(&store, &coded);
        const int failed = read_that_fails == 0;
        coded.word = word_of_part, read_that_fails = 0;
        CHECK(status == (failed ? EE_DRIVER : EE_OK) && (!failed || ee_clean(&store) == EE_NOT_OPEN));
        CHECK(ee_convert(&store, &coded) == EE_OK);
        check_converted();
        if (!failed) return read - 1;
    }
}

/* The store goes on, with cuts. */
static void use(sim_ecc_tear tear) {
    for (int call = 0; call < 60; call++) {
        uint32_t address = 1 + below(4), value = 1 | below(UINT32_MAX);
        sim_ecc_cut(&part, below(2) ? 1 + below(9) : 0, tear);
        ee_result status = ee_write(&store, (uint16_t)address, value);
        if (status == EE_DRIVER) {
            uint32_t found = 0;
            part.is_on = 1, cuts++;
            sim_ecc_cut(&part, 0, tear);
            CHECK(ee_convert(&store, &coded) == EE_OK);
            CHECK(ee_read(&store, (uint16_t)address, &found) <= EE_NOTHING);
            if (found == value) values[address] = value;
        } else if (status == EE_OK) values[address] = value;
        else CHECK(status == EE_FULL);
    }
    sim_ecc_cut(&part, 0, tear);
    check_values();
}

int main(void) {
    static const uint32_t shapes[][2] = {{1, 5}, {1, 6}, {1, 24}, {2, 8}, {3, 7}};
    unsigned long failures = 0;
    for (uint64_t seed = 0; seed < 60; seed++) {
        const uint32_t *shape = shapes[seed % 5];
        make_words(shape[0], shape[1], seed);
        sim_ecc before = part;
        failures += fail_in_reads();
        uint32_t kept[ADDRESSES + 1];
        memcpy(kept, values, sizeof kept);
        for (int tear = SIM_ECC_CELLS; tear <= SIM_ECC_WHOLE; tear++)
            for (uint32_t more = 0; more < 4; more += 3)
                for (uint32_t step = 1, was_cut = 1; was_cut; step++) {
                    part = before, part.seed += step;
                    memcpy(values, kept, sizeof kept);
                    was_cut = (uint32_t)cut_in(step, (sim_ecc_tear)tear, more);
                    use((sim_ecc_tear)tear);
                }
    }
    CHECK(ee_convert(&store, &words) == EE_WRONG_SHAPE && ee_convert(&store, NULL) == EE_NULL && ee_convert(NULL, &coded) == EE_NULL);
    new_part(1, 8, 1);
    CHECK(ee_convert(&store, &coded) == EE_OK && ee_write(&store, 1, 10) == EE_OK);
    coded.page_words = 7;
    CHECK(ee_convert(&store, &coded) == EE_OTHER_SHAPE);
    printf("%lu cuts, %lu of them behind the commit; %lu failed reads\n", cuts, commits, failures);
    return cuts < 10000 || commits < 500 || failures < 2000;
}
