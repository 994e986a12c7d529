/* What port/zephyr.c takes from Zephyr's <zephyr/drivers/flash.h>, declared for the tests. It is no file of Zephyr. */
#ifndef ZEPHYR_DRIVERS_FLASH_H
#define ZEPHYR_DRIVERS_FLASH_H

#include <sys/types.h>
#include <zephyr/device.h>

struct flash_parameters {
    size_t write_block_size;
    uint8_t erase_value;
};

struct flash_pages_info {
    off_t start_offset;
    size_t size;
    uint32_t index;
};

#ifdef __cplusplus
extern "C" {
#endif
int flash_read(const struct device *dev, off_t offset, void *data, size_t len);
int flash_write(const struct device *dev, off_t offset, const void *data, size_t len);
int flash_erase(const struct device *dev, off_t offset, size_t size);
int flash_get_page_info_by_offs(const struct device *dev, off_t offset, struct flash_pages_info *info);
size_t flash_get_write_block_size(const struct device *dev);
const struct flash_parameters *flash_get_parameters(const struct device *dev);
#ifdef __cplusplus
}
#endif

#endif
