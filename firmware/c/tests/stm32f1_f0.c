/* The port for an STM32F0, whose registers are those of an F1, with pages of 1 KB. */
#define PAGE_WORDS 64
#include "stm32f1.c"
