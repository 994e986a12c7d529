/* What a part gives to the program of `firmware/machine`, and what that asks of the tester. */
#ifndef PROGRAM_H
#define PROGRAM_H

#include "ee.h"

/* The flash of the port. */
ee_flash part_flash(void);

/* The port's part of the NMI: whether an error in the store's pages was its cause. */
int part_nmi(void);

#endif
