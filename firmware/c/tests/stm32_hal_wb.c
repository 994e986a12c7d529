/* The port over ST's HAL for a family with ECC, the WB. */
#define STM32WB
#include "stm32_hal.c"
