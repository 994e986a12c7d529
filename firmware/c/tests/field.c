/* ee_dump, ee_pending and the calls under a lock, on the flash in memory, of words and both kinds of pairs, with cuts. */
static int depth, locks; /* how often the lock is held, and was */
#define EE_LOCK() (depth++, locks++)
#define EE_UNLOCK() (depth--)
#include "../ee_field.h"
#include "../ee_locked.h"
#include "../sim/sim.c"

#define CHECK(holds)                                                                                                           \
    do {                                                                                                                       \
        if (!(holds)) {                                                                                                        \
            fprintf(stderr, "%s:%d: %s\n", __FILE__, __LINE__, #holds);                                                        \
            exit(1);                                                                                                           \
        }                                                                                                                      \
    } while (0)

typedef struct text {
    char bytes[20000];
    size_t length;
} text;

static void put(void *context, char character) {
    text *to = context;
    CHECK(to->length < sizeof to->bytes);
    to->bytes[to->length++] = character;
}

/* What ee_dump says is what the flash in memory writes of itself, but for the wear. */
static void check_dump(const sim *part, const ee_flash *flash) {
    static text dumped;
    static sim without_wear;
    char written[20000];
    FILE *file = tmpfile();
    dumped.length = 0;
    without_wear = *part;
    memset(without_wear.wear, 0, sizeof without_wear.wear);
    CHECK(ee_dump(flash, put, &dumped) == EE_OK && file);
    sim_write(&without_wear, file);
    rewind(file);
    CHECK(fread(written, 1, sizeof written, file) == dumped.length && memcmp(written, dumped.bytes, dumped.length) == 0);
    fclose(file);
}

static uint32_t below(uint32_t end) {
    static uint64_t dice = 88172645463325252u;
    dice ^= dice << 13, dice ^= dice >> 7, dice ^= dice << 17;
    return (uint32_t)((dice * 0x9e3779b97f4a7c15u) >> 32) % end;
}

/* The page that ee_pending names is the one that ee_clean erases, which had something; and there is one where there is another. */
static void check_pending(ee_store *store, sim *part, const ee_flash *flash) {
    uint32_t page = 99;
    uint64_t wear[2 * 64];
    ee_numbers numbers;
    CHECK(ee_locked_counts(store, &numbers) == EE_OK);
    ee_result status = ee_pending(store, flash, &page);
    CHECK(status == (numbers.pending > 0 ? EE_OK : EE_NOTHING));
    memcpy(wear, part->wear, sizeof part->wear < sizeof wear ? sizeof part->wear : sizeof wear);
    CHECK(ee_locked_clean(store) == status);
    for (uint32_t i = 0; i < 2 * flash->pages; i++) CHECK(part->wear[i] == wear[i] + (status == EE_OK && i == page));
}

static void runs(sim *part, uint32_t pages) {
    ee_flash flash = sim_flash(part);
    ee_store store;
    uint32_t page = 0, named = 0;
    CHECK(ee_locked_start(&store, &flash) == EE_OK && ee_pending(&store, &flash, &page) == EE_NOTHING);
    for (int n = 0; n < 400; n++) {
        ee_value list[] = {{.address = 1, .value = below(9)}, {.address = 2, .value = below(9)}};
        if (below(4) == 0) sim_cut(part, 1 + below(20), (sim_tear)below(4));
        ee_result status = below(2) ? ee_locked_update(&store, (uint16_t)(1 + below(5)), below(1000)) : ee_locked_write_all(&store, list, 2);
        CHECK(status == EE_OK || status == EE_DRIVER);
        sim_power(part);
        sim_cut(part, 0, (sim_tear)0);
        CHECK(ee_locked_start(&store, &flash) == EE_OK);
        check_dump(part, &flash);
        if (ee_pending(&store, &flash, &page) == EE_OK) named++;
        if (below(3) == 0) check_pending(&store, part, &flash);
    }
    CHECK(named > 50 && page < 2 * pages && depth == 0 && locks > 800);
    CHECK(ee_pending(&store, &flash, NULL) == EE_NULL && ee_dump(NULL, put, NULL) == EE_NULL);
    memset(&store, 0, sizeof store);
    CHECK(ee_pending(&store, &flash, &page) == EE_NOT_OPEN);
}

int main(void) {
    static sim part;
    for (uint32_t pages = 1; pages < 4; pages++) {
        sim_new(&part, pages, 12), runs(&part, pages);
        sim_new_pairs(&part, pages, 10), runs(&part, pages);
        sim_new_clearing(&part, pages, 10), runs(&part, pages);
    }
    return 0;
}
