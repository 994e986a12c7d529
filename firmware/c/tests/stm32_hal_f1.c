/* The port over ST's HAL for a family of half words without ECC, the F1. */
#define STM32F1
#include "stm32_hal_f4.c"
