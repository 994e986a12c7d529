/* SPDX-License-Identifier: MIT OR Apache-2.0 */
#include "nrf5.h"

#include "ee_port.h"

enum { NVMC = 0x4001e000, READY = 0x400, CONFIG = 0x504, ERASEPAGE = 0x508, REN = 0, WEN = 1, EEN = 2 };

/* Whether the flash ends what it does. */
EE_IN_RAM static int is_ready(void) {
    for (uint32_t turn = 0; turn < EE_MOST_TURNS; turn++) {
        if (EE_GET(EE_AT(NVMC + READY)) & 1) return 1;
        EE_WAIT();
    }
    return 0;
}

/* Lets the flash be read, written or erased. */
EE_IN_RAM static void allow(uint32_t what) {
    EE_SET(EE_AT(NVMC + CONFIG), what);
    EE_BARRIER();
}

/* The two steps, from their beginning to their end. Whether it came. A half that is all ones stays erased. */
EE_IN_RAM static int write_number(volatile uint32_t *at, uint32_t low, uint32_t high) {
    int is_well = is_ready();
    allow(WEN);
    if (is_well && low != UINT32_MAX) EE_SET(&at[0], low);
    EE_BARRIER(); /* the flash is busy */
    is_well = is_well && is_ready();
    if (is_well && high != UINT32_MAX) EE_SET(&at[1], high);
    EE_BARRIER();
    is_well = is_well && is_ready();
    allow(REN);
    return is_well;
}

EE_IN_RAM static int erase_page(uint32_t address) {
    int is_well = is_ready();
    allow(EEN);
    if (is_well) EE_SET(EE_AT(NVMC + ERASEPAGE), address);
    EE_BARRIER();
    is_well = is_well && is_ready();
    allow(REN);
    return is_well;
}

static volatile uint32_t *number_at(const nrf5 *part, uint32_t page, uint32_t place) {
    return part->flash + 2 * (2 * part->page_words * page + place);
}

static uint32_t word(void *context, uint32_t page, uint32_t place, uint64_t *value) {
    volatile uint32_t *at = number_at(context, page, place);
    uint32_t low = EE_GET(&at[0]);
    uint32_t high = EE_GET(&at[1]);
    *value = (uint64_t)high << 32 | low;
    return 0;
}

/* The flash is memory: they stand there. */
static const uint64_t *words(void *context, uint32_t page, uint32_t place, uint32_t count) {
    (void)count;
    return (const uint64_t *)(uintptr_t)number_at(context, page, place);
}

static uint32_t program(void *context, uint32_t page, uint32_t place, uint64_t value) {
    uint64_t found;
    if (!EE_MAY_STEP(0)) return 1;
    int is_well = write_number(number_at(context, page, place), (uint32_t)value, (uint32_t)(value >> 32));
    EE_STEPPED(0);
    return !is_well || word(context, page, place, &found) != 0 || found != value;
}

static uint32_t erase(void *context, uint32_t page) {
    const nrf5 *part = context;
    uint64_t found;
    if (!EE_MAY_STEP(1)) return 1;
    int is_well = erase_page((uint32_t)(uintptr_t)number_at(part, page, 0));
    EE_STEPPED(1);
    for (uint32_t place = 0; place < 2 * part->page_words && is_well; place++) {
        is_well = word(context, page, place, &found) == 0 && found == UINT64_MAX;
    }
    return !is_well;
}

ee_flash nrf5_flash(nrf5 *part, uint32_t pages) {
    ee_flash flash = {
        .context = part,
        .pages = pages,
        .page_words = part->page_words,
        .word = word,
        .program = program,
        .erase = erase,
        .kind = EE_PAIRS_CLEARING,
        .words = words,
    };
    return flash;
}
