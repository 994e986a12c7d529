/* The port for an STM32F4 that programs 8 bits at once. */
#define STM32F4_BITS 8
#include "stm32f4.c"
