/* The port over ST's HAL for an F4 that programs 8 bits at once. */
#define STM32_HAL_BITS 8
#include "stm32_hal_f4.c"
