/* SPDX-License-Identifier: MIT OR Apache-2.0 */
/* The calls of ee.h, each between EE_LOCK() and EE_UNLOCK(), for a program of several threads. Define these two and include this
 * in place of ee.h. All stores in one flash, and whatever else writes there, share the lock. No call is made from an interrupt.
 *
 *     FreeRTOS    extern SemaphoreHandle_t ee_mutex;                  made by xSemaphoreCreateMutex() before the first call
 *                 #define EE_LOCK() xSemaphoreTake(ee_mutex, portMAX_DELAY)
 *                 #define EE_UNLOCK() xSemaphoreGive(ee_mutex)
 *     Zephyr      extern struct k_mutex ee_mutex;                     K_MUTEX_DEFINE(ee_mutex); in one file
 *                 #define EE_LOCK() k_mutex_lock(&ee_mutex, K_FOREVER)
 *                 #define EE_UNLOCK() k_mutex_unlock(&ee_mutex)
 *     CMSIS-RTOS2 #define EE_LOCK() osMutexAcquire(ee_mutex, osWaitForever)
 *                 #define EE_UNLOCK() osMutexRelease(ee_mutex)
 *
 * A mutex with priority inheritance, as those of both are: a call waits for an erase, 20 to 40 ms on many parts. The helpers of
 * ee.h are not locked as a whole: ee_locked_update is. */
#ifndef EE_LOCKED_H
#define EE_LOCKED_H

#include "ee.h"

#ifndef EE_LOCK
#error "define EE_LOCK() and EE_UNLOCK()"
#endif

/* What a call answers, made while the lock is held. */
#define EE_UNDER_LOCK(call)                                                                                                    \
    do {                                                                                                                       \
        ee_result status;                                                                                                      \
        (void)EE_LOCK();                                                                                                       \
        status = (call);                                                                                                       \
        (void)EE_UNLOCK();                                                                                                     \
        return status;                                                                                                         \
    } while (0)

static inline ee_result ee_locked_start(ee_store *store, const ee_flash *flash) { EE_UNDER_LOCK(ee_start(store, flash)); }
static inline ee_result ee_locked_open(ee_store *store, const ee_flash *flash) { EE_UNDER_LOCK(ee_open(store, flash)); }
static inline ee_result ee_locked_format(ee_store *store, const ee_flash *flash) { EE_UNDER_LOCK(ee_format(store, flash)); }
static inline ee_result ee_locked_rescue(ee_store *store, const ee_flash *flash) { EE_UNDER_LOCK(ee_rescue(store, flash)); }
static inline ee_result ee_locked_bad_words(const ee_flash *flash, uint32_t *count) { EE_UNDER_LOCK(ee_bad_words(flash, count)); }
static inline ee_result ee_locked_write(ee_store *store, uint16_t address, uint32_t value) {
    EE_UNDER_LOCK(ee_write(store, address, value));
}
static inline ee_result ee_locked_update(ee_store *store, uint16_t address, uint32_t value) {
    EE_UNDER_LOCK(ee_update(store, address, value));
}
static inline ee_result ee_locked_write_all(ee_store *store, const ee_value *values, uint32_t count) {
    EE_UNDER_LOCK(ee_write_all(store, values, count));
}
static inline ee_result ee_locked_forget(ee_store *store, uint16_t address) { EE_UNDER_LOCK(ee_forget(store, address)); }
static inline ee_result ee_locked_forget_all(ee_store *store) { EE_UNDER_LOCK(ee_forget_all(store)); }
static inline ee_result ee_locked_clean(ee_store *store) { EE_UNDER_LOCK(ee_clean(store)); }
static inline ee_result ee_locked_read(const ee_store *store, uint16_t address, uint32_t *value) {
    EE_UNDER_LOCK(ee_read(store, address, value));
}
static inline ee_result ee_locked_load(const ee_store *store, ee_value *values, uint32_t count, uint32_t *loaded) {
    EE_UNDER_LOCK(ee_load(store, values, count, loaded));
}
static inline ee_result ee_locked_read_span(const ee_store *store, uint16_t first, uint32_t count, ee_span *span) {
    EE_UNDER_LOCK(ee_read_span(store, first, count, span));
}
static inline ee_result ee_locked_next(const ee_store *store, uint16_t *address, uint32_t *value) {
    EE_UNDER_LOCK(ee_next(store, address, value));
}
static inline ee_result ee_locked_counts(const ee_store *store, ee_numbers *numbers) {
    EE_UNDER_LOCK(ee_counts(store, numbers));
}

#undef EE_UNDER_LOCK

#endif
