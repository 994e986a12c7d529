/* The port for an STM32G0. */
#define STM32G0
#include "stm32_ecc.c"
