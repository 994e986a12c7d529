/* Makes calls of the C library on images, and prints the steps that each asks the flash for, in their order.
 *
 * A call is words of standard input: its letter, the pages and the words of a page, the words of an image, how many numbers
 * follow, and those. Of each comes a line: the steps of the opening, `|`, those of the call, and its status. A step is PAGE of an
 * erase, PAGE:PLACE:WORD of a program. Calls that open the store themselves have no `|`. */
#include "../firmware/c/ee.h"

#include <inttypes.h>
#include <stdio.h>
#include <stdlib.h>
#include <string.h>

enum { WORDS = 256, NUMBERS = 16 };

static char cells[WORDS][20];
static ee_flash flash;
static ee_store store;
static unsigned long numbers[NUMBERS];
static unsigned count;

static char *cell(uint32_t page, uint32_t place) {
    return cells[page * flash.page_words + place];
}

static uint32_t word(void *context, uint32_t page, uint32_t place, uint64_t *value) {
    const char *text = cell(page, place);
    (void)context;
    *value = *text == '-' ? UINT64_MAX : strtoull(text, NULL, 16);
    return *text == '?' ? EE_TORN : 0;
}

static uint32_t program(void *context, uint32_t page, uint32_t place, uint64_t value) {
    (void)context;
    sprintf(cell(page, place), "%016" PRIx64, value);
    printf("%" PRIu32 ":%" PRIu32 ":%s ", page, place, cell(page, place));
    return 0;
}

static uint32_t erase(void *context, uint32_t page) {
    (void)context;
    for (uint32_t place = 0; place < flash.page_words; place++) strcpy(cell(page, place), "-");
    printf("%" PRIu32 " ", page);
    return 0;
}

/* A call on an open store. */
static ee_result made(char call) {
    ee_value values[NUMBERS / 2];
    switch (call) {
    case 'w': return ee_write(&store, (uint16_t)numbers[0], (uint32_t)numbers[1]);
    case 'f': return ee_forget(&store, (uint16_t)numbers[0]);
    case 'c': return ee_clean(&store);
    case 'z': return ee_forget_all(&store);
    default:
        for (unsigned at = 0; at < count / 2; at++) {
            values[at].address = (uint16_t)numbers[2 * at];
            values[at].value = (uint32_t)numbers[2 * at + 1];
        }
        return ee_write_all(&store, values, count / 2);
    }
}

static ee_result called(char call) {
    switch (call) {
    case 'o': return ee_open(&store, &flash);
    case 's': return ee_start(&store, &flash);
    case 'n': return ee_format(&store, &flash);
    case 'r': return ee_rescue(&store, &flash);
    default:
        if (ee_open(&store, &flash) != EE_OK) return EE_NOT_OPEN;
        printf("| ");
        return made(call);
    }
}

int main(void) {
    char call;
    flash.word = word;
    flash.program = program;
    flash.erase = erase;
    while (scanf(" %c %" SCNu32 " %" SCNu32, &call, &flash.pages, &flash.page_words) == 3) {
        uint32_t size = 2 * flash.pages * flash.page_words;
        if (size > WORDS) return 2;
        for (uint32_t at = 0; at < size; at++)
            if (scanf("%19s", cells[at]) != 1) return 2;
        if (scanf("%u", &count) != 1 || count > NUMBERS) return 2;
        for (unsigned at = 0; at < count; at++)
            if (scanf("%lu", &numbers[at]) != 1) return 2;
        printf("%" PRIu32 "\n", called(call));
    }
    return 0;
}
