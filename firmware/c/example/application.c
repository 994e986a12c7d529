#include "application.h"

enum { DEFAULT_VOLUME = 5, DEFAULT_OFFSET = -3, MOST_OLD_VOLUME = 100 };

/* Writes one value, if it is another one, or some at once. */
static ee_result written(ee_store *store, const ee_value *values, uint32_t count) {
    return count == 1 ? ee_update(store, values[0].address, values[0].value) : ee_write_all(store, values, count);
}

/* The same by a list of two at least, which moves all values to the other set. */
static ee_result moved(ee_store *store, const ee_value *values, uint32_t count) {
    const ee_value two[] = {values[0], {.address = SPARE, .value = 0}};
    return count == 1 ? ee_write_all(store, two, 2) : ee_write_all(store, values, count);
}

/* The one place that changes the store, and so the one that meets its refusals. Where the flash failed, as a brown-out makes it,
 * the store is off: it is opened, and the change is made once more. If that fails too a slot may be bad, which a move leaves behind.
 * The old values or the new ones are there in any case. No other refusal gets better by trying. */
static ee_result kept(application *device, const ee_value *values, uint32_t count) {
    ee_result status = written(&device->store, values, count);
    for (int i = 0; i < 2 && (status == EE_DRIVER || status == EE_NOT_OPEN); i++) {
        status = ee_start(&device->store, device->flash);
        if (status == EE_OK) status = (i == 0 ? written : moved)(&device->store, values, count);
    }
    return status;
}

static ee_result kept_one(application *device, uint16_t address, uint32_t value) {
    const ee_value one = {.address = address, .value = value};
    return kept(device, &one, 1);
}

/* Brings what firmware 1 left up to date: the new volume and the new layout come together, so no cut leaves one alone. A value
 * that is made of another is read by ee_read: a read that fails is no default. */
static ee_result updated(application *device) {
    uint32_t old = DEFAULT_VOLUME * MOST_OLD_VOLUME / MOST_VOLUME;
    ee_result status = ee_read(&device->store, VOLUME, &old);
    if (status != EE_OK && status != EE_NOTHING) return status;
    const ee_value values[] = {
        {.address = VOLUME, .value = old * MOST_VOLUME / MOST_OLD_VOLUME},
        {.address = LAYOUT, .value = LAYOUT_NOW},
    };
    return kept(device, values, 2);
}

/* A part with no layout is new: its values are the defaults, and none has to be written. A layout of a later firmware is left
 * alone. */
static ee_result brought_up_to_date(application *device) {
    uint32_t layout = 0;
    ee_result status = ee_read(&device->store, LAYOUT, &layout);
    if (status == EE_NOTHING) return kept_one(device, LAYOUT, LAYOUT_NOW);
    return status == EE_OK && layout < LAYOUT_NOW ? updated(device) : status;
}

/* The store is never formatted here: a flash that holds something else may hold values, and it is for service to judge. */
ee_result application_start(application *device, const ee_flash *flash) {
    uint32_t count = 0;
    device->flash = flash;
    ee_result status = ee_start(&device->store, flash);
    if (status == EE_OK) status = brought_up_to_date(device);
    if (status != EE_OK) return status;
    status = ee_read(&device->store, STARTS, &count);
    if (status != EE_OK && status != EE_NOTHING) return status;
    return kept_one(device, STARTS, count + 1);
}

uint32_t volume(const application *device) {
    uint32_t found = ee_read_or(&device->store, VOLUME, DEFAULT_VOLUME);
    return found <= MOST_VOLUME ? found : DEFAULT_VOLUME;
}

bool is_muted(const application *device) { return ee_as_bool(ee_read_or(&device->store, MUTED, ee_bool(false))); }

int32_t offset(const application *device) {
    return ee_as_int(ee_read_or(&device->store, OFFSET, ee_int(DEFAULT_OFFSET)));
}

uint32_t starts(const application *device) { return ee_read_or(&device->store, STARTS, 0); }

bool read_gains(const application *device, float gains[GAIN_COUNT]) {
    bool is_calibrated = true;
    for (uint16_t i = 0; i < GAIN_COUNT; i++) {
        gains[i] = 1.0f;
        if (ee_read_float(&device->store, (uint16_t)(GAINS + i), &gains[i]) != EE_OK) is_calibrated = false;
    }
    return is_calibrated;
}

ee_result set_volume(application *device, uint32_t wanted) {
    return kept_one(device, VOLUME, wanted < MOST_VOLUME ? wanted : MOST_VOLUME);
}

ee_result set_muted(application *device, bool wanted) { return kept_one(device, MUTED, ee_bool(wanted)); }

ee_result set_offset(application *device, int32_t degrees) { return kept_one(device, OFFSET, ee_int(degrees)); }

ee_result calibrate(application *device, const float gains[GAIN_COUNT]) {
    ee_value values[GAIN_COUNT];
    for (uint16_t i = 0; i < GAIN_COUNT; i++) {
        values[i].address = (uint16_t)(GAINS + i);
        values[i].value = ee_float(gains[i]);
    }
    return kept(device, values, GAIN_COUNT);
}

ee_result reset_settings(application *device) {
    const ee_value values[] = {
        {.address = VOLUME, .value = DEFAULT_VOLUME},
        {.address = MUTED, .value = ee_bool(false)},
        {.address = OFFSET, .value = ee_int(DEFAULT_OFFSET)},
    };
    return kept(device, values, 3);
}
