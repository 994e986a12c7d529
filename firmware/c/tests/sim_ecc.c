/* Tests the flash with error correction of sim/: what its code corrects, tells and miscorrects, and what a cut leaves. Then a store
 * over it, cut in random steps, of which it counts what a product would see. Over words a cut can make a number that nobody wrote: the
 * test fails where the flash doesn't show that, since then it would show nothing of coded words either, over which no opening may be
 * refused and no value wrong. With a file the image that each cut of coded words left is written there, as docs/FORMATS.md has
 * images, and what the store says behind its opening, for a decoder that was written apart (`decode`). `sim_ecc [CUTS [FILE]]` */
#include "../sim/sim_ecc.c"

#define CHECK(holds)                                                                                                           \
    do {                                                                                                                       \
        if (!(holds)) {                                                                                                        \
            fprintf(stderr, "%s:%d: %s\n", __FILE__, __LINE__, #holds);                                                        \
            exit(1);                                                                                                           \
        }                                                                                                                      \
    } while (0)

enum { MATRICES = 20, ADDRESSES = 6, FEW = 10000 };

static sim_ecc part;
static ee_flash flash;
static ee_store store;
static uint64_t dice;
static FILE *images; /* where images are written, or null */

static uint32_t below(uint32_t limit) {
    dice = dice * UINT64_C(6364136223846793005) + 1442695040888963407u;
    return (uint32_t)(dice >> 33) % limit;
}

static void turn(sim_ecc_word *cells, int cell) {
    if (cell < NUMBER_CELLS) cells->number ^= (uint64_t)1 << cell;
    else cells->check ^= (uint8_t)(1 << (cell - NUMBER_CELLS));
}

/* One wrong cell is corrected and two are told, wherever they are; of three some pass as another number. How many did. */
static unsigned check_code(uint64_t seed) {
    unsigned passed = 0;
    sim_ecc_new(&part, 1, 5, seed);
    uint64_t number = seed % 4 ? picked(&part) : 0, value;
    sim_ecc_word whole = {number, check_of(&part, number)};
    CHECK(read_cells(&part, whole, &value) == 0 && value == number);
    for (int first = 0; first < CELLS; first++) {
        sim_ecc_word cells = whole;
        turn(&cells, first);
        CHECK(read_cells(&part, cells, &value) == 0 && value == number);
        for (int second = first + 1; second < CELLS; second++) {
            turn(&cells, second);
            CHECK(read_cells(&part, cells, &value) == EE_TORN);
            turn(&cells, (second + 1) % CELLS);
            passed += read_cells(&part, cells, &value) == 0 && value != number;
            turn(&cells, (second + 1) % CELLS);
            turn(&cells, second);
        }
    }
    return passed;
}

/* An erased word of which a cell was set reads as all ones by a correction, and is told as torn. */
static void check_erased(void) {
    for (int cell = 0; cell < CELLS; cell++) {
        uint64_t value;
        sim_ecc_word cells = {UINT64_MAX, 0xff};
        CHECK(read_cells(&part, cells, &value) == 0 && value == UINT64_MAX);
        turn(&cells, cell);
        CHECK(read_cells(&part, cells, &value) == EE_TORN);
    }
}

/* What a cut leaves of a program, and of an erase behind it: cells go one way, and together as they should. */
static void check_cut(sim_ecc_tear tear) {
    for (uint64_t seed = 0; seed < 500; seed++) {
        sim_ecc_new(&part, 1, 5, seed);
        flash = sim_ecc_flash(&part);
        uint64_t asked = picked(&part) >> 1, left, together = tear == SIM_ECC_HALVES ? 0xffff : UINT64_MAX;
        sim_ecc_cut(&part, 1, tear);
        CHECK(flash.program(&part, 0, 3, asked) != 0 && part.cuts == 1 && !part.is_on);
        left = part.words[0][3].number;
        CHECK((left & asked) == asked && (part.words[0][3].check | check_of(&part, asked)) == part.words[0][3].check);
        for (int half = 0; tear != SIM_ECC_CELLS && half < 64; half += 16) {
            uint64_t cells = together << half;
            CHECK((left & cells) == (asked & cells) || (left & cells) == cells);
        }
        part.is_on = 1;
        sim_ecc_cut(&part, 1, tear);
        CHECK(flash.erase(&part, 0) != 0 && part.cuts == 2);
        CHECK((part.words[0][3].number & left) == left && part.words[0][2].number == UINT64_MAX);
    }
}

/* The values that addresses 1 to ADDRESSES have, by their number; 0 for none. */
typedef struct values {
    uint32_t of[ADDRESSES + 1];
} values;

/* Opens the store, or makes one of what its slots say. */
typedef ee_result opening(ee_store *, const ee_flash *);

/* Makes a call, and says what it makes of the values where it is done, and how the store is opened where it is cut. */
static ee_result call(values *made, opening **next) {
    uint16_t address = (uint16_t)(1 + below(ADDRESSES)), other = (uint16_t)(1 + address % ADDRESSES);
    uint32_t value = 1 | (below(2) ? below(100) : (uint32_t)(dice >> 32));
    *next = ee_start;
    switch (below(16)) {
    case 0: return ee_clean(&store);
    case 1: *next = ee_rescue; return ee_rescue(&store, &flash);
    case 2: {
        ee_value list[2] = {{.address = address, .value = value}, {.address = other, .value = value ^ 2}};
        made->of[address] = value, made->of[other] = value ^ 2;
        return ee_write_all(&store, list, 2);
    }
    case 3:
        made->of[address] = 0;
        return ee_forget(&store, address);
    default: made->of[address] = value; return ee_write(&store, address, value);
    }
}

/* Whether the store has these values, and no others. */
static int has(const values *wanted) {
    uint32_t value, count = 0;
    for (uint16_t address = 0; ee_next(&store, &address, &value) == EE_OK; count++)
        if (address > ADDRESSES || wanted->of[address] != value) return 0;
    for (int address = 1; address <= ADDRESSES; address++) count -= wanted->of[address] != 0;
    return count == 0;
}

/* Writes what the device reads as. */
static void write_image(void) {
    fprintf(images, "ee %" PRIu32 " %" PRIu32 "\n", part.pages, part.page_words);
    for (uint32_t page = 0; page < 2 * part.pages; page++) {
        fprintf(images, "0"); /* its wear, which nothing counts here */
        for (uint32_t place = 0; place < part.page_words; place++) {
            uint64_t value;
            uint32_t status = flash.word(&part, page, place, &value);
            if (status == 0 && value != UINT64_MAX) fprintf(images, " %016" PRIx64, value);
            else fprintf(images, status == 0 ? " -" : " ?");
        }
        fprintf(images, "\n");
    }
}

/* Writes each address that has a value with that, as the store says. */
static void write_values(void) {
    uint32_t value;
    fprintf(images, "values");
    for (uint16_t address = 0; ee_next(&store, &address, &value) == EE_OK;) fprintf(images, " %d %" PRIu32, address, value);
    fprintf(images, "\n");
}

/* Calls of a kind, rescues too, a cut in each few steps: how many openings behind a cut answered EE_FOREIGN or refused otherwise,
 * and how many found a value that is neither the one before the call nor the one that it gives. Behind each a new part is taken. */
static void check_store(uint32_t kind, sim_ecc_tear tear, unsigned long cuts, unsigned long counts[3]) {
    values before = {{0}}, made;
    part.is_on = 0;
    for (unsigned long cut = 0; cut < cuts; cut++) {
        if (!part.is_on) {
            sim_ecc_new(&part, 1 + cut % 2, 24, cut);
            flash = sim_ecc_flash(&part);
            flash.kind = kind;
            CHECK(ee_start(&store, &flash) == EE_OK);
            memset(&before, 0, sizeof before);
        }
        ee_result status = EE_OK;
        opening *next;
        sim_ecc_cut(&part, 1 + below(12), tear);
        while (made = before, status = call(&made, &next), part.is_on)
            if (status == EE_OK) before = made;
        CHECK(status == EE_DRIVER);
        part.is_on = 1;
        if (images && kind == EE_CODED) write_image();
        status = next(&store, &flash);
        if (images && kind == EE_CODED) write_values();
        int is_before = status == EE_OK && has(&before), is_made = status == EE_OK && has(&made);
        if (is_made && !is_before) before = made;
        counts[0] += status == EE_FOREIGN;
        counts[1] += status != EE_OK && status != EE_FOREIGN;
        counts[2] += status == EE_OK && !is_before && !is_made;
        part.is_on = is_before || is_made;
    }
}

int main(int argc, char **argv) {
    static const char *const names[] = {"cells", "half words", "words"}, *const kinds[] = {"words", "coded words"};
    unsigned long cuts = argc > 1 ? strtoul(argv[1], NULL, 10) : FEW;
    unsigned passed = 0;
    if (argc > 2) CHECK((images = fopen(argv[2], "w")) != NULL);
    for (uint64_t seed = 0; seed < MATRICES; seed++) passed += check_code(seed);
    CHECK(passed > MATRICES * 1000);
    check_erased();
    for (int tear = SIM_ECC_CELLS; tear <= SIM_ECC_WHOLE; tear++) {
        check_cut((sim_ecc_tear)tear);
        for (int is_coded = 0; is_coded < 2; is_coded++) {
            unsigned long counts[3] = {0};
            check_store(is_coded ? EE_CODED : EE_WORDS, (sim_ecc_tear)tear, cuts, counts);
            printf("%s, cut by %s: of %lu cuts %lu EE_FOREIGN, %lu refused otherwise, %lu with a wrong value\n", kinds[is_coded],
                   names[tear], cuts, counts[0], counts[1], counts[2]);
            if (is_coded || tear == SIM_ECC_WHOLE) CHECK(counts[0] + counts[1] + counts[2] == 0);
            if (!is_coded && tear == SIM_ECC_CELLS) CHECK(counts[0] > cuts / 20 && counts[2] > 0);
        }
    }
    if (images) CHECK(fclose(images) == 0);
    return 0;
}
