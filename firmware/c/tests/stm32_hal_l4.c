/* The port over ST's HAL for a family with ECC, the L4. */
#define STM32L4
#include "stm32_hal.c"
