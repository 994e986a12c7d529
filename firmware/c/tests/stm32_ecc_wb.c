/* The port for an STM32WB. */
#define STM32WB
#include "stm32_ecc.c"
