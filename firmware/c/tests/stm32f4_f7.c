/* The port for an STM32F7. */
#define STM32F7
#include "stm32f4.c"
