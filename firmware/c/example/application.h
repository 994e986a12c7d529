/* What a device keeps by the store: settings, a counter and a calibration. It knows neither board nor part; the flash is the
 * caller's, so the same code runs in a unit test. */
#ifndef APPLICATION_H
#define APPLICATION_H

#include "../ee.h"

#ifdef __cplusplus
extern "C" {
#endif

/* The addresses. Each has one meaning for good: a later firmware gives a new thing a new one. */
enum {
    LAYOUT = 1, /* which firmware's meaning the values have */
    VOLUME = 2, /* 0 to 10; with layout 1 it was 0 to 100 */
    MUTED = 3,  /* a bool */
    OFFSET = 4, /* degrees, a signed number */
    STARTS = 5,
    SPARE = 6, /* means nothing: a list of two has it beside one value */
    GAINS = 10 /* a float, and the next ones in the addresses behind it */
};
enum { GAIN_COUNT = 6, MOST_VOLUME = 10, LAYOUT_NOW = 2 };

/* The device, of which each call takes the one that was started. */
typedef struct application {
    const ee_flash *flash;
    ee_store store;
} application;

/* To be called at each start: opens the store or makes the first one, brings what an older firmware left up to date, and counts
 * the start. EE_OK; else the device runs on, and all below give what they can: a default, or a refusal. */
ee_result application_start(application *device, const ee_flash *flash);

/* The settings, or their defaults. */
uint32_t volume(const application *device);
bool is_muted(const application *device);
int32_t offset(const application *device);
uint32_t starts(const application *device);

/* The calibration. Whether the device has one; each of `gains` is 1 where it has none. */
bool read_gains(const application *device, float gains[GAIN_COUNT]);

/* Changes. EE_OK once they are kept. Each leaves the old value or the new one wherever power is cut, `calibrate` and
 * `reset_settings` all of their values or none. */
ee_result set_volume(application *device, uint32_t volume); /* above MOST_VOLUME it is MOST_VOLUME */
ee_result set_muted(application *device, bool is_muted);
ee_result set_offset(application *device, int32_t degrees);
ee_result calibrate(application *device, const float gains[GAIN_COUNT]);
ee_result reset_settings(application *device); /* to their defaults; the counter and the calibration stay */

#ifdef __cplusplus
}
#endif

#endif
