/* What port/serial.c takes from ESP-IDF, declared for the tests by its documentation. This is no file of that. */
#ifndef ESP_PARTITION_H
#define ESP_PARTITION_H
#include <stdbool.h>
#include <stddef.h>
#include <stdint.h>
typedef int esp_err_t;
#define ESP_OK 0
typedef struct {
    uint32_t address, size;
    char label[17];
    bool encrypted;
} esp_partition_t;
esp_err_t esp_partition_read(const esp_partition_t *partition, size_t src_offset, void *dst, size_t size);
esp_err_t esp_partition_write(const esp_partition_t *partition, size_t dst_offset, const void *src, size_t size);
esp_err_t esp_partition_erase_range(const esp_partition_t *partition, size_t offset, size_t size);
#endif
