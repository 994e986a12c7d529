/* SPDX-License-Identifier: MIT OR Apache-2.0 */
/* What the ports share: how they reach registers, and what is yours to define. */
#ifndef EE_PORT_H
#define EE_PORT_H

#include <stdint.h>

/* What a test puts in place of the part. On the part these are plain reads and writes, and a barrier behind which all of them
 * are done. */
#ifndef EE_SET
#define EE_SET(address, value) (*(address) = (value))
#define EE_GET(address) (*(address))
#define EE_AT(address) ((volatile uint32_t *)(uintptr_t)(address))
#ifdef __arm__
#define EE_BARRIER() __asm__ volatile("dsb\n\tisb" : : : "memory")
#else
#define EE_BARRIER() ((void)0)
#endif
#endif

/* How many turns of some cycles a step may take. A page takes 20 to 90 ms to be erased, at 170 MHz or less. */
#ifndef EE_MOST_TURNS
#define EE_MOST_TURNS 4000000
#endif

/* Yours: what is done in each turn of the loop that waits for a step's end. A core that runs from the bank of the pages stands
 * still on its next read of flash until the step is done, and turns begin behind that. So a watchdog is fed here only where the
 * loop and what this calls stand in RAM, or the program in the other bank. */
#ifndef EE_WAIT
#define EE_WAIT() ((void)0)
#endif

/* Yours: where what runs during a step stands. In RAM, if this is as __attribute__((noinline, section(".ramfunc"))), and the
 * linker script places that section, as port/ee.ld does. */
#ifndef EE_IN_RAM
#define EE_IN_RAM
#endif

/* Yours, around each step: whether it may begin, and that it ended. Where the first answers 0 nothing was begun, the store's call
 * answers EE_DRIVER, and the next start finds the store as it was. So a product looks here whether the supply lasts for the step
 * (PVDO, or a voltage that it measures), and asks a second core. */
#ifndef EE_MAY_STEP
#define EE_MAY_STEP(is_erase) 1
#define EE_STEPPED(is_erase) ((void)0)
#endif

#endif
