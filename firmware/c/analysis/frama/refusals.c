/* Flashes and stores that each call has to refuse without a call of the flash's functions, for Frama-C's Eva. */
#include "ee.h"
#include "__fc_builtin.h"
#include <stddef.h>

/* Each read of one gives any value. */
static volatile uint64_t any64;
static volatile uint32_t any32;
static volatile int any;

/* More entries than a set has slots, and than there are addresses. */
#define MOST_VALUES 100000
extern const ee_value values[MOST_VALUES];

static uint32_t not_called_word(void *given, uint32_t page, uint32_t place, uint64_t *value) {
    //@ check not_called: \false;
    return 0;
}

static uint32_t not_called_program(void *given, uint32_t page, uint32_t place, uint64_t value) {
    //@ check not_called: \false;
    return 0;
}

static uint32_t not_called_erase(void *given, uint32_t page) {
    //@ check not_called: \false;
    return 0;
}

static const uint64_t *not_called_words(void *given, uint32_t page, uint32_t place, uint32_t count) {
    //@ check not_called: \false;
    return NULL;
}

static void is_refused(const ee_flash *flash) {
    ee_store store;
    uint32_t count, place;
    ee_store *const given = any ? &store : NULL;
    ee_result status;
    switch (Frama_C_interval(0, 5)) {
    case 0: status = ee_start(given, flash); break;
    case 1: status = ee_open(given, flash); break;
    case 2: status = ee_format(given, flash); break;
    case 3: status = ee_rescue(given, flash); break;
    case 4: status = ee_foreign_word(flash, any ? &count : NULL, any ? &place : NULL); break;
    default: status = ee_bad_words(flash, any ? &count : NULL); break;
    }
    //@ check refused: status == EE_NULL || status == EE_WRONG_SHAPE;
}

/* One member at least is wrong, and the others are anything. */
void refused_flash(void) {
    ee_flash flash = {
        .context = NULL,
        .pages = any32,
        .page_words = any32,
        .word = any ? not_called_word : NULL,
        .program = any ? not_called_program : NULL,
        .erase = any ? not_called_erase : NULL,
        .kind = any32,
        .words = any ? not_called_words : NULL,
    };
    switch (Frama_C_interval(0, 8)) {
    case 0: is_refused(NULL); break;
    case 1: flash.word = NULL; is_refused(&flash); break;
    case 2: flash.program = NULL; is_refused(&flash); break;
    case 3: flash.erase = NULL; is_refused(&flash); break;
    case 4: flash.pages = 0; is_refused(&flash); break;
    case 5: flash.pages = Frama_C_unsigned_int_interval(65, UINT32_MAX); is_refused(&flash); break;
    case 6: flash.page_words = Frama_C_unsigned_int_interval(0, 4); is_refused(&flash); break;
    case 7: flash.page_words = Frama_C_unsigned_int_interval(513, UINT32_MAX); is_refused(&flash); break;
    default: flash.kind = Frama_C_unsigned_int_interval(4, UINT32_MAX); is_refused(&flash); break;
    }
}

/* Each call on the store answers this, and asks the flash for nothing. */
static void is_refused_by(ee_store *store, ee_result answer) {
    uint16_t address = Frama_C_unsigned_int_interval(1, 65534);
    uint32_t value;
    ee_numbers numbers;
    ee_result status;
    ee_value wanted = { address, any32 };
    ee_span span;
    switch (Frama_C_interval(0, 9)) {
    case 0: status = ee_write(store, address, any32); break;
    case 1: status = ee_write_all(store, values, Frama_C_unsigned_int_interval(0, MOST_VALUES)); break;
    case 2: status = ee_forget(store, address); break;
    case 3: status = ee_forget_all(store); break;
    case 4: status = ee_clean(store); break;
    case 5: status = ee_read(store, address, &value); break;
    case 6: status = ee_next(store, &address, &value); break;
    case 7: status = ee_load(store, &wanted, 1, &value); break;
    case 8: status = ee_read_span(store, address, 1, &span); break;
    default: status = ee_counts(store, &numbers); break;
    }
    //@ check is_refused: status == answer;
}

/* A copy of a store that is on and a store of zeros are off; one in a call is busy. */
void stores_that_are_off(void) {
    const ee_flash flash = {
        .context = NULL,
        .pages = Frama_C_unsigned_int_interval(1, 64),
        .page_words = Frama_C_unsigned_int_interval(5, 512),
        .word = not_called_word,
        .program = not_called_program,
        .erase = not_called_erase,
        .kind = Frama_C_unsigned_int_interval(0, 3),
        .words = any ? not_called_words : NULL,
    };
    ee_store store, copy, zeros = {0};
    for (unsigned at = 0; at < sizeof store / sizeof(uintptr_t); at++) store.memory.words[at] = (uintptr_t)any64;
    store.memory.parts.store.flash.power = &store.memory.parts.power;
    store.memory.parts.power.flash = &flash;
    store.memory.parts.power.idle = &store;
    copy = store;
    is_refused_by(any ? &copy : &zeros, EE_NOT_OPEN);
    store.memory.parts.power.idle = NULL;
    is_refused_by(&store, EE_BUSY);
}
