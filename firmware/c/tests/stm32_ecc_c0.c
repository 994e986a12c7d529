/* The port for an STM32C0. */
#define STM32C0
#include "stm32_ecc.c"
