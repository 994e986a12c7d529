/* The application of example/, with power cut in each step of each thing that it does: the next start finds the old values or the
 * new ones. And a step that fails while power is on: the change is made all the same. */
#include "../example/application.c"
#include "../sim/sim.c"

#include <stdlib.h>

#define CHECK(holds)                                                                                                           \
    do {                                                                                                                       \
        if (!(holds)) {                                                                                                        \
            fprintf(stderr, "%s:%d: %s\n", __FILE__, __LINE__, #holds);                                                        \
            exit(1);                                                                                                           \
        }                                                                                                                      \
    } while (0)

static const float gains[GAIN_COUNT] = {0.5f, 1.0f, 1.5f, 2.0f, 2.5f, 3.0f};
static const sim_tear tears[] = {SIM_NOTHING, SIM_DONE, SIM_TORN, SIM_MIXED};
static sim part;
static ee_flash flash, failing;
static application device;
static unsigned fails_in;      /* the step that fails while power is on, 0 for none */
static unsigned fails_read_in; /* the read that does */
static uint32_t stuck;         /* the place of a slot of page 0 that takes no program, 0 for none */

/* A part as firmware 1 left it: some changes from full, so that the moves come in each place. */
static void old_part(unsigned used) {
    ee_store store;
    sim_new(&part, 1, 32);
    flash = sim_flash(&part);
    CHECK(ee_start(&store, &flash) == EE_OK && ee_write(&store, LAYOUT, 1) == EE_OK);
    for (unsigned i = 0; i <= used; i++) CHECK(ee_write(&store, VOLUME, i < used ? i : 70) == EE_OK);
}

/* What is cut. */
static ee_result begin(void) { return application_start(&device, &flash); }
static ee_result louder(void) { return set_volume(&device, 99); }
static ee_result mute(void) { return set_muted(&device, true); }
static ee_result colder(void) { return set_offset(&device, -40); }
static ee_result gauge(void) { return calibrate(&device, gains); }
static ee_result reset(void) { return reset_settings(&device); }
static ee_result (*const deeds[])(void) = {begin, louder, mute, colder, gauge, reset};
enum { DEEDS = 6 };

/* Whether all gains are those that were measured; else none is. */
static bool has_gains(void) {
    float found[GAIN_COUNT];
    bool is_calibrated = read_gains(&device, found);
    for (int i = 0; i < GAIN_COUNT; i++) CHECK(found[i] == (is_calibrated ? gains[i] : 1.0f));
    return is_calibrated;
}

/* The device holds what it had behind so many of its deeds. */
static bool holds(int done) {
    bool was_reset = done == DEEDS;
    return volume(&device) == (was_reset ? 5 : done > 1 ? 10 : 7) && is_muted(&device) == (done > 2 && !was_reset) &&
           offset(&device) == (done > 3 && !was_reset ? -40 : -3) && has_gains() == (done > 4);
}

/* Cuts power in a step of a deed, and starts again. Whether the cut came. */
static bool cut(int deed, unsigned used, unsigned step, sim_tear tear) {
    old_part(used);
    for (int i = 0; i < deed; i++) CHECK(deeds[i]() == EE_OK);
    uint32_t before = deed == 0 ? 0 : starts(&device);
    sim_cut(&part, step, tear);
    ee_result status = deeds[deed]();
    bool was_cut = part.cuts > 0;
    CHECK(was_cut || status == EE_OK);
    sim_cut(&part, 0, tear);
    sim_power(&part);
    CHECK(application_start(&device, &flash) == EE_OK && (holds(deed) || holds(deed + 1)));
    CHECK(starts(&device) == before + 1 || (deed == 0 && starts(&device) == before + 2));
    if (status == EE_OK) CHECK(holds(deed + 1));
    return was_cut;
}

/* The flash with a step that fails. */
static uint32_t failing_program(void *context, uint32_t page, uint32_t place, uint64_t value) {
    if (fails_in != 0 && --fails_in == 0) return 1;
    if (stuck != 0 && page == 0 && place == stuck) return 1;
    return flash.program(context, page, place, value);
}

static uint32_t failing_word(void *context, uint32_t page, uint32_t place, uint64_t *value) {
    if (fails_read_in != 0 && --fails_read_in == 0) return EE_READ_FAILED;
    return flash.word(context, page, place, value);
}

/* A read that fails is taken for no default: what is made of it isn't kept. */
static void unread(void) {
    for (unsigned read = 1; fails_read_in == 0; read++) {
        old_part(3);
        failing = flash;
        failing.word = failing_word;
        fails_read_in = read;
        (void)application_start(&device, &failing);
        (void)set_muted(&device, false);
        if (fails_read_in != 0) break;
        CHECK(application_start(&device, &flash) == EE_OK && holds(1) && starts(&device) <= 2);
    }
    fails_read_in = 0;
}

/* A slot that takes no program stops no change. */
static void left_behind(void) {
    for (stuck = 20; stuck < 32; stuck++) {
        old_part(3);
        failing = flash;
        failing.program = failing_program;
        CHECK(application_start(&device, &failing) == EE_OK);
        for (uint32_t i = 0; i < 100; i++) CHECK(set_volume(&device, i % 10) == EE_OK && volume(&device) == i % 10);
        CHECK(application_start(&device, &failing) == EE_OK && volume(&device) == 9);
    }
    stuck = 0;
}

static void refused(void) {
    for (unsigned step = 1; step < 20; step++) {
        old_part(step);
        failing = flash;
        failing.program = failing_program;
        CHECK(application_start(&device, &failing) == EE_OK);
        fails_in = step % 8 + 1;
        CHECK(calibrate(&device, gains) == EE_OK && has_gains() && volume(&device) == 7);
        fails_in = 0;
    }
    old_part(0);
    flash.page_words = 4;
    CHECK(application_start(&device, &flash) == EE_WRONG_SHAPE); /* the device runs on its defaults */
    CHECK(volume(&device) == 5 && !is_muted(&device) && offset(&device) == -3 && !has_gains());
    CHECK(set_volume(&device, 3) == EE_WRONG_SHAPE && volume(&device) == 5);
}

int main(void) {
    for (int deed = 0; deed < DEEDS; deed++)
        for (unsigned used = 0; used < 30; used++)
            for (unsigned tear = 0; tear < 4; tear++)
                for (unsigned step = 1; cut(deed, used, step, tears[tear]); step++) continue;
    refused();
    left_behind();
    unread();
    sim_new(&part, 1, 32); /* a new part */
    flash = sim_flash(&part);
    CHECK(application_start(&device, &flash) == EE_OK && starts(&device) == 1 && volume(&device) == 5 && offset(&device) == -3);
    CHECK(ee_write(&device.store, LAYOUT, 3) == EE_OK && ee_write(&device.store, VOLUME, 70) == EE_OK); /* a later firmware */
    CHECK(application_start(&device, &flash) == EE_OK && volume(&device) == 5 && ee_read_or(&device.store, VOLUME, 0) == 70);
    return 0;
}
