/* The port for an STM32L4. */
#define STM32L4
#include "stm32_ecc.c"
