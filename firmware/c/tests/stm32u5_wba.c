/* The port for an STM32WBA. */
#define STM32WBA
#include "stm32u5.c"
