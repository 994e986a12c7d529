/* The port over ST's HAL for a family with ECC, the G0. */
#define STM32G0
#include "stm32_hal.c"
