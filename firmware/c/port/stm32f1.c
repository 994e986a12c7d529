/* SPDX-License-Identifier: MIT OR Apache-2.0 */
#include "stm32f1.h"

/* What a test puts in place of the part, beside what stm32_part.h has: half words of the flash. */
#ifndef STM32_SET_HALF
#define STM32_SET_HALF(address, value) (*(address) = (value))
#define STM32_GET_HALF(address) (*(address))
#endif

enum { KEYR = 0x04, SR = 0x0c, SR_CLEAR = SR, CR = 0x10, AR = 0x14 };
enum {
    SR_BUSY = 1 << 0,
    SR_ERRORS = 1 << 2 | 1 << 4, /* PGERR, WRPRTERR */
    SR_EOP = 1 << 5,
    CR_PG = 1 << 0,
    CR_PER = 1 << 1,
    CR_STRT = 1 << 6,
    CR_LOCK = 1 << 7,
    HALVES = 4 /* of a number */
};

#include "stm32_part.h"

static volatile uint16_t *number_at(const stm32f1 *part, uint32_t page, uint32_t place) {
    return part->flash + HALVES * (2 * part->page_words * page + place);
}

static uint32_t word(void *context, uint32_t page, uint32_t place, uint64_t *value) {
    volatile uint16_t *at = number_at(context, page, place);
    *value = 0;
    for (int i = HALVES - 1; i >= 0; i--) *value = *value << 16 | STM32_GET_HALF(&at[i]);
    return 0;
}

/* The flash is memory: they stand there. */
static const uint64_t *words(void *context, uint32_t page, uint32_t place, uint32_t count) {
    (void)count;
    return (const uint64_t *)(uintptr_t)number_at(context, page, place);
}

/* The two steps, from their beginning to their end. Whether there was no error. A half word that is all ones stays erased. */
EE_IN_RAM static int write_halves(uint32_t base, volatile uint16_t *at, const uint16_t *halves) {
    int is_well = 1;
    EE_SET(EE_AT(base + CR), CR_PG);
    for (int i = 0; i < HALVES && is_well; i++) {
        if (halves[i] == UINT16_MAX) continue;
        STM32_SET_HALF(&at[i], halves[i]);
        EE_BARRIER(); /* the flash is busy */
        is_well = is_well_done(base);
    }
    lock(base);
    return is_well;
}

EE_IN_RAM static int erase_page(uint32_t base, uint32_t address) {
    EE_SET(EE_AT(base + CR), CR_PER);
    EE_SET(EE_AT(base + AR), address);
    EE_SET(EE_AT(base + CR), CR_PER | CR_STRT);
    EE_BARRIER();
    return end(base);
}

static uint32_t program(void *context, uint32_t page, uint32_t place, uint64_t value) {
    stm32f1 *part = context;
    uint16_t halves[HALVES];
    uint64_t found;
    for (int i = 0; i < HALVES; i++) halves[i] = (uint16_t)(value >> 16 * i);
    if (!EE_MAY_STEP(0)) return 1;
    int is_well = begin(part->registers) && write_halves(part->registers, number_at(part, page, place), halves);
    EE_STEPPED(0);
    return !is_well || word(context, page, place, &found) != 0 || found != value;
}

static uint32_t erase(void *context, uint32_t page) {
    stm32f1 *part = context;
    uint64_t found;
    if (!EE_MAY_STEP(1)) return 1;
    int is_well = begin(part->registers) && erase_page(part->registers, (uint32_t)(uintptr_t)number_at(part, page, 0));
    EE_STEPPED(1);
    for (uint32_t place = 0; place < 2 * part->page_words && is_well; place++) {
        is_well = word(context, page, place, &found) == 0 && found == UINT64_MAX;
    }
    return !is_well;
}

ee_flash stm32f1_flash(stm32f1 *part, uint32_t pages) {
    ee_flash flash = {
        .context = part,
        .pages = pages,
        .page_words = part->page_words,
        .word = word,
        .program = program,
        .erase = erase,
        .kind = EE_PAIRS_CLEARING,
        .words = words,
    };
    return flash;
}
