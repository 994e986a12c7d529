/* The port for serial flash over ESP-IDF. */
#define ESP_PLATFORM
#include "serial.c"
