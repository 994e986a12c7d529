/* The helpers of ee.h: a value that is there already takes no slot, defaults, and values that stand for other things. */
#include "part.h"

#include <float.h>
#include <math.h>

static part p;
static ee_store store;

static uint32_t fill(void) {
    ee_numbers numbers;
    CHECK(ee_counts(&store, &numbers) == EE_OK);
    return numbers.fill;
}

static void updates(void) {
    uint32_t value;
    CHECK(ee_update(&store, 1, 0) == EE_OK && fill() == 1); /* it had none, and 0 is a value */
    CHECK(ee_update(&store, 1, 0) == EE_OK && fill() == 1);
    CHECK(ee_update(&store, 1, 5) == EE_OK && fill() == 2);
    CHECK(ee_update(&store, 1, 5) == EE_OK && fill() == 2);
    CHECK(ee_read(&store, 1, &value) == EE_OK && value == 5);
    CHECK(ee_forget(&store, 1) == EE_OK && fill() == 3);
    CHECK(ee_update(&store, 1, 5) == EE_OK && fill() == 4);
    CHECK(ee_update(&store, 0, 5) == EE_WRONG_NUMBER && ee_update(NULL, 1, 5) == EE_NULL);
    for (uint16_t address = 2; address <= 12; address++) CHECK(ee_update(&store, address, 1) == EE_OK);
    CHECK(ee_update(&store, 12, 1) == EE_OK && ee_update(&store, 13, 1) == EE_FULL);
}

static void defaults(void) {
    CHECK(ee_read_or(&store, 1, 7) == 5 && ee_read_or(&store, 13, 7) == 7);
    CHECK(ee_read_or(&store, 0, 7) == 7 && ee_read_or(NULL, 1, 7) == 7);
}

/* All ones, as an address that has no value has no number either. */
static void others(void) {
    static const int32_t numbers[] = {0, 1, -1, INT32_MIN, INT32_MAX};
    static const float floats[] = {0.0f, -0.0f, 1.5f, -FLT_MAX, FLT_MIN, INFINITY};
    for (size_t i = 0; i < sizeof numbers / sizeof *numbers; i++) {
        int32_t found = 0;
        CHECK(ee_write(&store, 2, ee_int(numbers[i])) == EE_OK && ee_read_int(&store, 2, &found) == EE_OK);
        CHECK(found == numbers[i] && ee_as_int(ee_int(numbers[i])) == numbers[i]);
    }
    for (size_t i = 0; i < sizeof floats / sizeof *floats; i++) {
        float found = 2.0f;
        CHECK(ee_write(&store, 2, ee_float(floats[i])) == EE_OK && ee_read_float(&store, 2, &found) == EE_OK);
        CHECK(memcmp(&found, &floats[i], sizeof found) == 0);
    }
    CHECK(ee_float(1.0f) == 0x3f800000 && ee_int(-1) == UINT32_MAX && ee_bool(true) == 1 && ee_bool(false) == 0);
    CHECK(isnan(ee_as_float(0x7fc00001)) && ee_as_bool(2) && !ee_as_bool(0));
}

/* What is read into keeps its default where there is no value. */
static void kept(void) {
    int32_t number = -3;
    float real = 0.5f;
    bool truth = true;
    CHECK(ee_read_int(&store, 20, &number) == EE_NOTHING && number == -3);
    CHECK(ee_read_float(&store, 20, &real) == EE_NOTHING && ee_float(real) == ee_float(0.5f));
    CHECK(ee_read_bool(&store, 20, &truth) == EE_NOTHING && truth);
    CHECK(ee_read_int(&store, 1, NULL) == EE_NULL && ee_read_float(&store, 1, NULL) == EE_NULL);
    CHECK(ee_read_bool(&store, 1, NULL) == EE_NULL && ee_read_int(NULL, 1, &number) == EE_NULL);
    CHECK(ee_write(&store, 2, ee_bool(false)) == EE_OK && ee_read_bool(&store, 2, &truth) == EE_OK && !truth);
}

/* No two statuses have one text. */
static void texts(void) {
    for (uint32_t a = EE_OK; a <= EE_HURT + 1; a++)
        for (uint32_t b = EE_OK; b < a; b++) CHECK(strcmp(ee_status_text(a), ee_status_text(b)) != 0);
    CHECK(strcmp(ee_status_text(EE_HURT + 1), ee_status_text(UINT32_MAX)) == 0);
}

/* A read that fails: the store is off, and what was made of a default isn't written. */
static void failed(void) {
    p.read = 0, p.fails_in = 1;
    CHECK(ee_read_or(&store, 1, 0) == 0 && ee_write(&store, 1, 1) == EE_NOT_OPEN && ee_update(&store, 1, 1) == EE_NOT_OPEN);
    p.failed = 0, p.fails_in = 0;
}

int main(void) {
    char version[32];
    blank(&p, 1, 16);
    ee_flash flash = flash_of(&p);
    CHECK(ee_update(&store, 1, 5) == EE_NOT_OPEN && ee_read_or(&store, 1, 7) == 7 && ee_read_int(&store, 1, NULL) == EE_NOT_OPEN);
    CHECK(ee_start(&store, &flash) == EE_OK);
    updates();
    defaults();
    others();
    kept();
    failed();
    CHECK(ee_start(&store, &flash) == EE_OK && ee_read_or(&store, 1, 0) == 5);
    texts();
    snprintf(version, sizeof version, "%d.%d.%d", EE_VERSION_MAJOR, EE_VERSION_MINOR, EE_VERSION_PATCH);
    CHECK(strcmp(version, EE_VERSION) == 0);
    return 0;
}
