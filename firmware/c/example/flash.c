#include "flash.h"

#include "../cortex-m/semihosting.h"

#ifndef FLASH_FILE
#define FLASH_FILE "flash.bin"
#define FLASH_PAGE_WORDS 16
#endif

enum { PAGE_WORDS = FLASH_PAGE_WORDS, WORDS = 2 * PAGE_WORDS, READ_AND_WRITE = 3 /* "r+b" */, MAKE = 7 /* "w+b" */ };

static const char name[] = FLASH_FILE;
static int file;

static int opened(int mode) {
    const uintptr_t words[] = {(uintptr_t)name, (uintptr_t)mode, sizeof name - 1};
    file = ask(SYS_OPEN, (uintptr_t)words);
    return file != -1;
}

/* Reads or writes one word of the file. Whether that went well. */
static int moved(int operation, uint32_t at, uint64_t *value) {
    const uintptr_t place[] = {(uintptr_t)file, 8 * at}, words[] = {(uintptr_t)file, (uintptr_t)value, sizeof *value};
    return ask(SYS_SEEK, (uintptr_t)place) == 0 && ask(operation, (uintptr_t)words) == 0;
}

static uint32_t word(void *context, uint32_t page, uint32_t place, uint64_t *value) {
    (void)context;
    return moved(SYS_READ, page * PAGE_WORDS + place, value) ? 0 : EE_READ_FAILED;
}

static uint32_t program(void *context, uint32_t page, uint32_t place, uint64_t value) {
    uint64_t found = 0;
    (void)context;
    if (!moved(SYS_WRITE, page * PAGE_WORDS + place, &value)) return 1;
    return word(context, page, place, &found) != 0 || found != value;
}

static uint32_t erase(void *context, uint32_t page) {
    uint64_t erased = UINT64_MAX;
    (void)context;
    for (uint32_t place = 0; place < PAGE_WORDS; place++) {
        if (!moved(SYS_WRITE, page * PAGE_WORDS + place, &erased)) return 1;
    }
    return 0;
}

const ee_flash file_flash = {.pages = 1, .page_words = PAGE_WORDS, .word = word, .program = program, .erase = erase};

int file_flash_opened(void) {
    return opened(READ_AND_WRITE) || (opened(MAKE) && erase(0, 0) == 0 && erase(0, 1) == 0);
}
