/* What port/zephyr.h takes from Zephyr's <zephyr/storage/flash_map.h>, declared for the tests. It is no file of Zephyr: there
 * the device tree gives these. */
#ifndef ZEPHYR_STORAGE_FLASH_MAP_H
#define ZEPHYR_STORAGE_FLASH_MAP_H

#define FIXED_PARTITION_DEVICE(label) (&label##_device)
#define FIXED_PARTITION_OFFSET(label) (label##_offset)
#define FIXED_PARTITION_SIZE(label) (label##_size)

#endif
