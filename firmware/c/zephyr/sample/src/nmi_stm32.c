/* The handler of the NMI on an STM32 whose ECC errors stand in FLASH_ECCR, as on G0, G4, L4, U5, WB and WL; an H5 has other
 * registers. The names are those of Zephyr and of ST's headers by memory, and this file was compiled against declarations written
 * for that alone. */
#include <soc.h>
#include <zephyr/arch/arm/nmi.h>
#include <zephyr/init.h>
#include <zephyr/sys/reboot.h>

#include "port/zephyr.h"

#ifdef FLASH_ECCR_ECCD
extern zephyr_part ee_part;

/* A second bank, or the upper half of a line of 128 bits, has flags of its own on some parts. */
#ifdef FLASH_ECCR_ECCD2
#define UNCORRECTED (FLASH_ECCR_ECCD | FLASH_ECCR_ECCD2)
#else
#define UNCORRECTED FLASH_ECCR_ECCD
#endif
#ifdef FLASH_ECCR_ECCC2
#define CORRECTED (FLASH_ECCR_ECCC | FLASH_ECCR_ECCC2)
#else
#define CORRECTED FLASH_ECCR_ECCC
#endif

static void nmi(void) {
    uint32_t eccr = FLASH->ECCR;
    int is_torn = (eccr & UNCORRECTED) != 0 && zephyr_nmi(&ee_part);
    if (!is_torn) sys_reboot(SYS_REBOOT_COLD); /* an error in the program's code, or another NMI: the product's own way */
    FLASH->ECCR = eccr & ~CORRECTED; /* a flag goes where a one is written */
}

static int take_nmi(void) {
    z_arm_nmi_set_handler(nmi);
    return 0;
}

SYS_INIT(take_nmi, PRE_KERNEL_1, CONFIG_KERNEL_INIT_PRIORITY_DEFAULT);
#endif
