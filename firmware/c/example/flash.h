/* The flash of the examples: two sets of one page, kept in a file of the computer that runs QEMU; flash.bin with pages of 16
 * words, where the Makefile names no other. On a part this is what reaches its flash controller, as ../port has it for an
 * STM32G4. */
#ifndef FLASH_H
#define FLASH_H

#include "../ee.h"

extern const ee_flash file_flash;

/* Opens the file, or makes that of a new part. Whether that went well. */
int file_flash_opened(void);

#endif
