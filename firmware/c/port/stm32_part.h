/* SPDX-License-Identifier: MIT OR Apache-2.0 */
/* What the ports to the registers of an STM32's flash share: the frame of a step. A port includes it behind its constants: the
 * offsets KEYR, SR, SR_CLEAR and CR, the bits SR_BUSY, SR_ERRORS, SR_EOP and CR_LOCK. */
#ifndef STM32_PART_H
#define STM32_PART_H

#include "ee_port.h"

enum { KEY_1 = 0x45670123, KEY_2 = (int32_t)0xcdef89ab };

/* Whether the flash ends what it does. */
EE_IN_RAM static int is_ready(uint32_t base) {
    for (uint32_t turn = 0; turn < EE_MOST_TURNS; turn++) {
        if ((EE_GET(EE_AT(base + SR)) & SR_BUSY) == 0) return 1;
        EE_WAIT();
    }
    return 0;
}

/* Takes the errors of before away, which hold a step off, and unlocks the control register. */
static int begin(uint32_t base) {
    if (!is_ready(base)) return 0;
    EE_SET(EE_AT(base + SR_CLEAR), SR_ERRORS | SR_EOP);
    if (EE_GET(EE_AT(base + CR)) & CR_LOCK) {
        EE_SET(EE_AT(base + KEYR), (uint32_t)KEY_1);
        EE_SET(EE_AT(base + KEYR), (uint32_t)KEY_2);
    }
    return (EE_GET(EE_AT(base + CR)) & CR_LOCK) == 0;
}

/* Whether what was begun ended with no error. */
EE_IN_RAM static int is_well_done(uint32_t base) {
    return is_ready(base) && (EE_GET(EE_AT(base + SR)) & SR_ERRORS) == 0;
}

/* Locks the control register. */
EE_IN_RAM static void lock(uint32_t base) {
    EE_SET(EE_AT(base + CR), 0);
    EE_SET(EE_AT(base + CR), CR_LOCK);
}

/* Waits for the end, and locks. Whether there was no error. */
EE_IN_RAM static int end(uint32_t base) {
    int is_well = is_well_done(base);
    lock(base);
    return is_well;
}

#endif
