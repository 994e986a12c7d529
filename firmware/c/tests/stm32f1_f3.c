/* The port for an STM32F3, whose registers are those of an F1, with pages of 2 KB. */
#define PAGE_WORDS 128
#include "stm32f1.c"
