/* The same calls on every target, and one number over all that they answer and leave. */
#ifndef CHECKSUM_H
#define CHECKSUM_H

#include <stdint.h>

/* Makes the calls; 0 where one answers what it may not. It needs no C library. */
uint64_t checksum(void);

/* The frame from which the calls were made. What was touched of the stack below it is what the deepest call took. */
extern const unsigned char *checksum_frame;

#endif
