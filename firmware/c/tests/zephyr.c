/* The port over Zephyr's flash API, and the sample over it, against a model of that API and of the flash behind it: write blocks
 * of 1 to 32 bytes, pages, errors that a read answers or an NMI notes, and each way in which a call can fail. */
#include "../port/zephyr.h"

static int has_ecc, is_one_way;
static int (*told)(const struct device *device, off_t offset, int status);
#define ZEPHYR_HAS_ECC has_ecc
#define ZEPHYR_IS_ONE_WAY is_one_way
#include "../port/zephyr.c"

#include "moves.h"

enum { BEFORE = 16384, MOST_BYTES = 65536, PAGES = 4, MOST_BLOCKS = MOST_BYTES, CACHED = 4, SAMPLE_PAGE = 512 };
enum fault { NONE, REFUSED, POWER, SILENT, LAZY, BUSY };
enum state { FINE, TORN };
/* How the port learns of a torn word. */
enum way { BY_NMI, BY_EIO, BY_PROGRAM };

/* The sample, whose partition is the model's too. */
#define ee_partition_device partition_device
#define ee_partition_offset BEFORE
#define ee_partition_size (PAGES * SAMPLE_PAGE)
static const struct device partition_device = {"flash"};
static off_t partition_offset = BEFORE;
static size_t partition_size;
#define main sample_main
#include "../zephyr/sample/src/main.c"
#undef main
static uint8_t memory[MOST_BYTES]; /* of the partition */
static uint8_t states[MOST_BLOCKS];
static struct flash_parameters parameters = {.write_block_size = 8, .erase_value = 0xff};
static size_t page_bytes, odd_page; /* of each page, but that one has twice as many; SIZE_MAX / 2 for none */
static int is_on = 1, is_cut_off, reads_fail, stale_errors;
static uint32_t steps, fails_in, calls, fails_read_in;
static enum fault fault;
static enum way way;
static zephyr_part part, *used = &part;
static size_t cached[CACHED]; /* torn blocks that a cache holds, one more than each */

static size_t block(void) { return parameters.write_block_size; }

bool device_is_ready(const struct device *dev) { return dev == &partition_device && is_on; }
size_t flash_get_write_block_size(const struct device *dev) { return dev == &partition_device ? block() : 0; }
const struct flash_parameters *flash_get_parameters(const struct device *dev) { return dev ? &parameters : NULL; }

int flash_get_page_info_by_offs(const struct device *dev, off_t offset, struct flash_pages_info *info) {
    CHECK(dev == &partition_device);
    if (offset < 0 || offset >= BEFORE + MOST_BYTES) return -EINVAL;
    info->index = (uint32_t)((size_t)offset / page_bytes);
    if (info->index == odd_page + 1) info->index--;
    info->start_offset = (off_t)(info->index * page_bytes);
    info->size = page_bytes * (info->index == odd_page ? 2 : 1);
    return 0;
}

/* Where bytes stand in the partition, which holds them all. */
static size_t at(off_t offset, size_t length) {
    CHECK(offset >= partition_offset && (size_t)(offset - partition_offset) + length <= partition_size);
    return (size_t)(offset - partition_offset);
}

/* A torn block is read: the NMI comes, but for one that a cache holds, of which it may or may not. */
static void raise_nmi(size_t torn_block) {
    for (uint32_t i = 0; i < CACHED; i++) {
        if (cached[i] == torn_block + 1 && below(2)) return;
    }
    cached[below(CACHED)] = torn_block + 1;
    CHECK(zephyr_nmi(used) == 1);
}

/* A torn block reads as anything. */
int flash_read(const struct device *dev, off_t offset, void *data, size_t len) {
    size_t from = at(offset, len);
    CHECK(dev == &partition_device);
    if (reads_fail || (fails_read_in != 0 && ++calls >= fails_read_in)) return way == BY_EIO ? -ETIMEDOUT : -EIO;
    memcpy(data, memory + from, len);
    for (size_t i = from / block(); i < (from + len) / block(); i++) {
        if (states[i] != TORN) continue;
        for (size_t k = 0; k < len; k++) ((uint8_t *)data)[k] = (uint8_t)below(256);
        if (way == BY_NMI) raise_nmi(i);
        else return way == BY_EIO ? -EIO : -EILSEQ;
    }
    if (stale_errors > 0) return stale_errors--, -EIO; /* of something before */
    return 0;
}

/* What the program tells of a word, by what flash_read answered. */
static int is_torn(const struct device *dev, off_t offset, int status) {
    CHECK(dev == &partition_device && (size_t)(offset - partition_offset) % block() == 0);
    return status == -EILSEQ;
}

/* A step begins. Whether it is the one that fails: behind it power is off, and steps do nothing. */
static int fails(void) { return fault != NONE && ++steps == fails_in; }

/* What a step that fails leaves of a block: nothing done, done, or torn; without ECC some of the bits. */
static void leave(size_t from, const uint8_t *new, int is_failing) {
    uint32_t kind = !is_failing ? 1 : fault == LAZY ? 0 : fault == SILENT ? 2 : below(3);
    uint8_t *old = memory + from;
    for (size_t i = 0; i < block() && kind != 0; i++) {
        if (kind == 1) old[i] = new ? new[i] : 0xff;
        else if (used->kind == EE_PAIRS_CLEARING && new == NULL) old[i] = (uint8_t)any_bits(); /* the erase cleared cells first */
        else if (used->kind) old[i] = (uint8_t)(new ? new[i] | any_bits() : old[i] | any_bits());
    }
    if (kind != 0) states[from / block()] = kind == 2 && !used->kind ? TORN : FINE;
}

static int ended(int is_failing) {
    is_cut_off = is_cut_off || (is_failing && fault == POWER);
    return !is_failing || fault == SILENT || fault == LAZY ? 0 : fault == BUSY ? -EBUSY : -EIO;
}

int flash_write(const struct device *dev, off_t offset, const void *data, size_t len) {
    size_t from = at(offset, len);
    CHECK(dev == &partition_device && from % block() == 0 && len % block() == 0);
    for (size_t i = 0; i < len; i++) CHECK(memory[from + i] == 0xff && states[(from + i) / block()] == FINE);
    if (is_cut_off) return -EIO;
    int is_failing = fails();
    for (size_t i = 0; i < len && !(is_failing && (fault == REFUSED || fault == BUSY)); i += block()) {
        leave(from + i, (const uint8_t *)data + i, is_failing);
    }
    return ended(is_failing);
}

int flash_erase(const struct device *dev, off_t offset, size_t size) {
    size_t from = at(offset, size);
    CHECK(dev == &partition_device && from % page_bytes == 0 && size == page_bytes);
    memset(cached, 0, sizeof cached);
    if (is_cut_off) return -EIO;
    int is_failing = fails();
    for (size_t i = 0; i < size && !(is_failing && (fault == REFUSED || fault == BUSY)); i += block()) {
        leave(from + i, NULL, is_failing);
    }
    return ended(is_failing);
}

/* The model for moves. */
static void cut(uint32_t in) { steps = 0, fails_in = in, fault = in ? POWER : NONE; }
static int is_cut(void) { return is_cut_off; }
static void power(void) {
    is_cut_off = 0, fault = NONE;
    memset(cached, 0, sizeof cached);
    memset(used->torn, 0, sizeof used->torn);
}

/* A blank flash, whose blocks have ECC where they have more than 8 bytes. */
static void blank(size_t write_block, int with_ecc, size_t bytes) {
    memset(memory, 0xff, sizeof memory);
    memset(states, FINE, sizeof states);
    parameters.write_block_size = write_block;
    page_bytes = bytes, odd_page = SIZE_MAX / 2, has_ecc = with_ecc;
    partition_size = PAGES * page_bytes;
    told = way == BY_NMI ? NULL : way == BY_EIO ? zephyr_torn_by_eio : is_torn;
    power();
}

static uint32_t pairs(void) { return is_one_way ? EE_PAIRS : EE_PAIRS_CLEARING; }

static int made(size_t write_block, int with_ecc, size_t bytes, ee_flash *flash) {
    blank(write_block, with_ecc, bytes);
    zephyr_part fresh = {ZEPHYR_PARTITION(partition)};
    part = fresh;
    part.is_torn = told;
    return zephyr_flash(&part, flash);
}

/* Writes go wrong in each of their steps; what was stored before is there. */
static void failing(enum fault kind, size_t write_block, int with_ecc) {
    for (uint32_t step = 1; step < 60; step++) {
        ee_flash flash;
        ee_store store;
        uint32_t value, n, status = EE_OK;
        CHECK(made(write_block, with_ecc, write_block < 16 ? 128 : 256, &flash) == 0);
        CHECK(ee_open(&store, &flash) == EE_UNFORMATTED && ee_format(&store, &flash) == EE_OK);
        CHECK(ee_write(&store, 9, 90) == EE_OK);
        steps = 0, fails_in = step, fault = kind;
        for (n = 0; n < 600 && status == EE_OK; n++) status = ee_write(&store, 1, n);
        if (kind == SILENT && status == EE_OK) continue; /* the cells that were left are those that were asked for */
        CHECK(status == EE_DRIVER && ee_write(&store, 1, 0) == EE_NOT_OPEN);
        power();
        CHECK(ee_open(&store, &flash) == EE_OK && ee_read(&store, 9, &value) == EE_OK && value == 90);
        if (ee_read(&store, 1, &value) == EE_OK) CHECK(value == n - 1 || value == n - 2);
        else CHECK(n == 1);
        CHECK(ee_write(&store, 1, 5) == EE_OK && ee_read(&store, 1, &value) == EE_OK && value == 5);
    }
}

/* A read that fails is no torn word: the call says so, writes nothing, and the store opens again with all that it had. */
static void reading(size_t write_block, int with_ecc) {
    ee_flash flash;
    ee_store store;
    uint32_t value;
    static uint8_t before[sizeof memory];
    CHECK(made(write_block, with_ecc, 512, &flash) == 0 && ee_start(&store, &flash) == EE_OK);
    CHECK(ee_write(&store, 1, 10) == EE_OK);
    memcpy(before, memory, sizeof memory);
    for (uint32_t in = 1; in < 40; in++) {
        calls = 0, fails_read_in = in;
        uint32_t status = ee_start(&store, &flash);
        CHECK(status == (calls < in ? EE_OK : EE_DRIVER) && memcmp(before, memory, sizeof memory) == 0);
    }
    fails_read_in = 0, reads_fail = 1;
    CHECK(ee_start(&store, &flash) == EE_DRIVER && ee_format(&store, &flash) == EE_DRIVER);
    CHECK(memcmp(before, memory, sizeof memory) == 0);
    reads_fail = 0;
    CHECK(ee_start(&store, &flash) == EE_OK && ee_read(&store, 1, &value) == EE_OK && value == 10);
}

/* What stands in the flash, and steps whose cells are others than those that were asked for, with no error of the driver. */
static void cells(size_t write_block, int with_ecc) {
    ee_flash flash;
    uint64_t value, numbers[4];
    CHECK(made(write_block, with_ecc, 512, &flash) == 0);
    uint32_t last = (flash.page_words << (flash.kind != EE_CODED)) - 1, unit = flash.kind != EE_CODED ? 8 : (uint32_t)write_block;
    CHECK(flash.program(&part, 1, last, 5) == 0 && flash.word(&part, 1, last, &value) == 0 && value == 5);
    memcpy(numbers, memory + 512 + last * unit, unit);
    CHECK(numbers[0] == 5 && (unit < 16 || numbers[1] == ~(uint64_t)5) && (unit < 32 || (numbers[2] | numbers[3]) == 0));
    steps = 0, fails_in = 1, fault = LAZY;
    CHECK(flash.erase(&part, 1) != 0); /* the others are erased */
    steps = 0;
    CHECK(flash.program(&part, 0, 0, 5) != 0);
    fault = NONE;
    CHECK(flash.erase(&part, 1) == 0 && flash.word(&part, 1, last, &value) == 0 && value == UINT64_MAX);
    for (uint32_t byte = 8; byte < unit; byte++) {
        memset(memory, 0xff, sizeof memory);
        memory[byte] = 0; /* part of a unit, and no error is told */
        CHECK(flash.word(&part, 0, 0, &value) != 0);
    }
}

/* What doesn't fit is refused, and `flash` isn't written. */
static void refusals(void) {
    ee_flash flash = {.pages = 77};
    CHECK(made(3, 0, 512, &flash) == -EINVAL && made(0, 0, 512, &flash) == -EINVAL && made(64, 1, 512, &flash) == -EINVAL);
    CHECK(made(4, 0, 64, &flash) == -EINVAL); /* of four pairs a page */
    CHECK(made(8, 1, 512, &flash) == 0 && flash.pages == PAGES / 2 && flash.page_words == 64 && flash.kind == EE_CODED);
    CHECK(made(8, 0, 512, &flash) == 0 && flash.page_words == 32 && flash.kind == pairs());
    flash.pages = 77, parameters.erase_value = 0;
    CHECK(zephyr_flash(&part, &flash) == -EINVAL);
    parameters.erase_value = 0xff, is_on = 0;
    CHECK(zephyr_flash(&part, &flash) == -ENODEV);
    is_on = 1, odd_page = BEFORE / 512 + 2;
    CHECK(zephyr_flash(&part, &flash) == -EINVAL);
    odd_page = SIZE_MAX / 2;
    static const size_t sizes[] = {0, 100, 512, 3 * 512, 130 * 512, 4 * 512 + 8};
    for (size_t i = 0; i < sizeof sizes / sizeof *sizes; i++) {
        part.size = sizes[i];
        CHECK(zephyr_flash(&part, &flash) == -EINVAL);
    }
    part.size = 4 * 512, part.offset = BEFORE + 8;
    CHECK(zephyr_flash(&part, &flash) == -EINVAL);
    part.offset = BEFORE + MOST_BYTES;
    CHECK(zephyr_flash(&part, &flash) == -EINVAL && flash.pages == 77);
    CHECK(made(4, 0, 256, &flash) == 0 && flash.page_words == 16);
    part.size = 130 * 256;
    CHECK(zephyr_flash(&part, &flash) == -EINVAL);
    part.size = 128 * 256;
    CHECK(zephyr_flash(&part, &flash) == 0 && flash.pages == 64);
    CHECK(made(4, 0, 16384, &flash) == 0 && flash.page_words == 512);
    CHECK(made(32, 1, 16384, &flash) == 0 && flash.page_words == 512);
}

/* Each answer of flash_read for a torn word, for a read that failed and for an error that stood from before. */
static void answers(size_t write_block) {
    ee_flash flash;
    uint64_t value;
    CHECK(made(write_block, 1, 512, &flash) == 0 && zephyr_nmi(&part) == 0);
    CHECK(flash.program(&part, 1, 3, 5) == 0 && flash.word(&part, 1, 3, &value) == 0 && value == 5);
    if (way == BY_EIO) {
        stale_errors = 1;
        CHECK(flash.word(&part, 1, 3, &value) == EE_READ_FAILED && stale_errors == 0); /* the second read was well */
    }
    for (uint32_t place = 0; place < 2 * ZEPHYR_TORN; place++) states[(512 + place * write_block) / write_block] = TORN;
    for (uint32_t place = 0; place < ZEPHYR_TORN; place++) {
        for (uint32_t again = 0; again < 20; again++) CHECK(flash.word(&part, 1, place, &value) == EE_TORN);
    }
    for (uint32_t round = 0; round < 20; round++) {
        for (uint32_t place = 0; place < ZEPHYR_TORN; place++) CHECK(flash.word(&part, 1, place, &value) == EE_TORN);
    }
    CHECK(flash.words(&part, 1, 0, EE_RUN) == NULL && flash.words(&part, 0, 0, EE_RUN) != NULL);
    CHECK(flash.erase(&part, 1) == 0 && flash.word(&part, 1, 3, &value) == 0 && value == UINT64_MAX);
    /* A driver's own number for a torn word, which nothing knows: the read failed. */
    enum way before = way;
    states[512 / write_block] = TORN, way = BY_PROGRAM, part.is_torn = NULL;
    CHECK(flash.word(&part, 1, 0, &value) == EE_READ_FAILED);
    way = before;
}

/* The sample as it stands: its second and third starts find what the first left, also behind a cut in its write. */
static void sampled(size_t write_block, int with_ecc) {
    uint32_t value;
    used = &ee_part;
    blank(write_block, with_ecc, SAMPLE_PAGE);
    memset(&store, 0, sizeof store);
    for (uint32_t starts = 1; starts <= 3; starts++) {
        CHECK(sample_main() == 0 && ee_read(&store, STARTS, &value) == EE_OK && value == starts);
    }
    CHECK(flash.kind == (write_block < 8 || !with_ecc ? pairs() : EE_CODED));
    fault = POWER, steps = 0, fails_in = 1;
    CHECK(sample_main() == 0 && is_cut_off);
    power();
    CHECK(sample_main() == 0 && ee_read(&store, STARTS, &value) == EE_OK && (value == 4 || value == 5));
    used = &part;
}

/* A write block, and what is said of it. */
typedef struct block_kind {
    size_t bytes;
    int with_ecc, is_one_way;
    enum way way;
} block_kind;

int main(void) {
    static const model here = {cut, is_cut, power};
    static const block_kind kinds[] = {
        {1, 0, 0, BY_NMI}, {2, 0, 1, BY_NMI}, {4, 0, 0, BY_NMI},     {8, 0, 0, BY_NMI},  {8, 0, 1, BY_NMI},  {8, 1, 0, BY_NMI},
        {8, 1, 0, BY_EIO}, {8, 1, 0, BY_PROGRAM}, {16, 1, 0, BY_NMI}, {16, 1, 0, BY_EIO}, {32, 1, 0, BY_NMI},
    };
    for (size_t i = 0; i < sizeof kinds / sizeof *kinds; i++) {
        const block_kind *kind = &kinds[i];
        way = kind->way, is_one_way = kind->is_one_way;
        for (int with_cuts = 0; with_cuts < 2; with_cuts++) {
            ee_flash flash;
            CHECK(made(kind->bytes, kind->with_ecc, kind->bytes < 16 ? 256 : 512, &flash) == 0);
            moves(&flash, &here, with_cuts);
        }
        for (enum fault failure = REFUSED; failure <= BUSY; failure++) failing(failure, kind->bytes, kind->with_ecc);
        reading(kind->bytes, kind->with_ecc);
        cells(kind->bytes, kind->with_ecc);
        if (kind->with_ecc) answers(kind->bytes);
        if (kind->way == BY_NMI) sampled(kind->bytes, kind->with_ecc);
    }
    refusals();
    return 0;
}
