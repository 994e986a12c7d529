/* The port for an STM32H5. */
#define STM32H5
#include "stm32u5.c"
