/* The port for serial flash against a model of the Pico SDK's functions; serial_esp.c makes it again over those of ESP-IDF. */
#include "moves.h"

static int may_step(int is_erase);
#define EE_MAY_STEP(is_erase) may_step(is_erase)
#define EE_STEPPED(is_erase) ((void)0)
#ifdef ESP_PLATFORM
#include "declared/esp/esp_partition.h"
#else
static const volatile uint8_t *read_at(uint32_t offset);
#define SERIAL_READ_AT(offset) read_at(offset)
#endif
#include "../port/serial.c"

enum { PAGES = 2, OFFSET = 0x3000, END = OFFSET + PAGES * SECTOR };
enum fault { NONE, POWER, NOTHING, REFUSED, HELD_OFF };

static uint8_t memory[END];
static uint32_t steps, fails_in, cleared, reads_fail_in;
static int is_off;
static enum fault fault;
static serial part = {.offset = OFFSET};

static int may_step(int is_erase) {
    (void)is_erase;
    return !(fault == HELD_OFF && ++steps >= fails_in);
}

static int fails(void) { return fault != NONE && fault < HELD_OFF && ++steps == fails_in; }

/* What a program and an erase do, and what is left of one that fails. Whether they were done. */
static int program_bytes(uint32_t at, const uint8_t *bytes, size_t count) {
    int is_failing = fails();
    CHECK(at >= OFFSET && at + count <= END);
    if (is_off || (is_failing && fault != POWER)) return fault == NOTHING;
    for (size_t i = 0; i < count; i++) {
        CHECK(bytes[i] == 0xff || memory[at + i] == 0xff);
        memory[at + i] &= is_failing ? bytes[i] | (uint8_t)any_bits() : bytes[i];
    }
    is_off = is_failing;
    return !is_failing;
}

static int erase_bytes(uint32_t at, size_t count) {
    int is_failing = fails();
    CHECK(at >= OFFSET && at % SECTOR == 0 && count == SECTOR && at + count <= END);
    if (is_off || (is_failing && fault != POWER)) return fault == NOTHING;
    uint32_t kind = is_failing ? below(3) : 0;
    cleared += kind > 0;
    for (size_t i = at; i < at + count; i++) {
        if (kind > 0) memory[i] &= kind == 1 ? (uint8_t)any_bits() : 0;
        if (kind != 1) memory[i] |= is_failing ? (uint8_t)any_bits() : 0xff;
    }
    is_off = is_failing;
    return !is_failing;
}

#ifdef ESP_PLATFORM
static esp_partition_t partition = {.size = END};
esp_err_t esp_partition_read(const esp_partition_t *from, size_t at, void *bytes, size_t count) {
    CHECK(from == &partition && at >= OFFSET && at + count <= END);
    if (reads_fail_in > 0 && (reads_fail_in -= reads_fail_in > 1) == 1) return 0x105;
    memcpy(bytes, memory + at, count);
    return ESP_OK;
}
esp_err_t esp_partition_write(const esp_partition_t *to, size_t at, const void *bytes, size_t count) {
    CHECK(to == &partition && count == 8);
    return program_bytes((uint32_t)at, bytes, count) ? ESP_OK : 0x107;
}
esp_err_t esp_partition_erase_range(const esp_partition_t *of, size_t at, size_t count) {
    CHECK(of == &partition);
    return erase_bytes((uint32_t)at, count) ? ESP_OK : 0x107;
}
#else
static int is_safe; /* nothing else runs */
static const volatile uint8_t *read_at(uint32_t offset) {
    CHECK(!is_safe && offset >= OFFSET && offset < END);
    return memory + offset;
}
int flash_safe_execute(void (*func)(void *), void *given, uint32_t timeout) {
    CHECK(!is_safe && timeout >= 400);
    if (fault == REFUSED && fails()) return -4; /* the other core isn't ready for it */
    is_safe = 1;
    func(given);
    is_safe = 0;
    return PICO_OK;
}
void flash_range_program(uint32_t at, const uint8_t *bytes, size_t count) {
    CHECK(is_safe && at % FLASH_PAGE_SIZE == 0 && count == FLASH_PAGE_SIZE);
    (void)program_bytes(at, bytes, count);
}
void flash_range_erase(uint32_t at, size_t count) {
    CHECK(is_safe);
    (void)erase_bytes(at, count);
}
#endif

/* The model for moves. */
static void cut(uint32_t in) { steps = 0, fails_in = in, fault = in ? POWER : NONE; }
static int is_cut(void) { return is_off; }
static void power(void) { is_off = 0, fault = NONE; }

static ee_flash new_part(void) {
    memset(memory, 0xff, sizeof memory);
#ifdef ESP_PLATFORM
    part.partition = &partition;
#endif
    power();
    return serial_flash(&part, 1);
}

/* Writes go wrong in each of their steps; what was stored before is there. */
static void failing(enum fault kind) {
    for (uint32_t step = 1; step < 700; step += step < 20 ? 1 : 37) {
        ee_flash flash = new_part();
        ee_store store;
        uint32_t value, n, status = EE_OK;
        CHECK(ee_format(&store, &flash) == EE_OK && ee_write(&store, 9, 90) == EE_OK);
        steps = 0, fails_in = step, fault = kind;
        for (n = 0; n < 900 && status == EE_OK; n++) status = ee_write(&store, 1, n);
        CHECK(status == EE_DRIVER && ee_write(&store, 1, 0) == EE_NOT_OPEN);
        power();
        CHECK(ee_open(&store, &flash) == EE_OK);
        CHECK(ee_read(&store, 9, &value) == EE_OK && value == 90);
        if (ee_read(&store, 1, &value) == EE_OK) CHECK(value == n - 1 || value == n - 2);
        else CHECK(n == 1);
        CHECK(ee_write(&store, 1, 5) == EE_OK && ee_read(&store, 1, &value) == EE_OK && value == 5);
    }
}

/* What doesn't fit is refused. */
static void shapes(void) {
    ee_store store;
    ee_flash flash = serial_flash(&part, 65);
    CHECK(ee_start(&store, &flash) == EE_WRONG_SHAPE);
    serial other = part;
    other.offset += 256;
    flash = serial_flash(&other, 1);
    CHECK(ee_start(&store, &flash) == EE_WRONG_SHAPE);
#ifdef ESP_PLATFORM
    flash = serial_flash(&part, 2); /* past the end */
    CHECK(ee_start(&store, &flash) == EE_WRONG_SHAPE);
    partition.encrypted = true;
    flash = serial_flash(&part, 1);
    CHECK(ee_start(&store, &flash) == EE_WRONG_SHAPE);
    partition.encrypted = false;
    flash = new_part();
    CHECK(ee_start(&store, &flash) == EE_OK && ee_write(&store, 1, 1) == EE_OK);
    reads_fail_in = 2;
    CHECK(ee_start(&store, &flash) == EE_DRIVER);
    reads_fail_in = 0;
    CHECK(ee_start(&store, &flash) == EE_OK);
#endif
}

int main(void) {
    static const model here = {cut, is_cut, power};
    for (int with_cuts = 0; with_cuts < 2; with_cuts++) {
        ee_flash flash = new_part();
        moves(&flash, &here, with_cuts);
    }
    for (enum fault kind = POWER; kind <= HELD_OFF; kind++) failing(kind);
    shapes();
    CHECK(cleared > 20 && reads_fail_in == 0);
    return 0;
}
