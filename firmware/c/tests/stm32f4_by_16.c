/* The port for an STM32F4 that programs 16 bits at once. */
#define STM32F4_BITS 16
#include "stm32f4.c"
