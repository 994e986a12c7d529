/* The last two sectors of a board with 2 MB of flash. */
#include "rp2040.h"

#include "program.h"

static rp2040 part = {.flash = (const volatile uint32_t *)0x101fe000, .offset = 0x1fe000};

ee_flash part_flash(void) {
    part.rom = rp2040_find_rom();
    return rp2040_flash(&part, 1);
}

int part_nmi(void) { return 0; }
