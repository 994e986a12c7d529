/* What port/zephyr.c takes from Zephyr's <zephyr/device.h>, declared for the tests. It is no file of Zephyr. */
#ifndef ZEPHYR_DEVICE_H
#define ZEPHYR_DEVICE_H

#include <stdbool.h>
#include <stddef.h>
#include <stdint.h>

struct device {
    const char *name;
};

#ifdef __cplusplus
extern "C" {
#endif
bool device_is_ready(const struct device *dev);
#ifdef __cplusplus
}
#endif

#endif
