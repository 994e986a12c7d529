/* Starts a Cortex-M: what a part's own startup file does. */
#include "../cortex-m/semihosting.h"

int main(void);
void reset(void);

/* What link.ld names. */
extern unsigned char bss_start[], bss_end[], stack_top[];

void reset(void) {
    for (volatile unsigned char *at = bss_start; at != bss_end; at++) *at = 0;
    end(main() == 0);
}

static void fault(void) { end(0); }

__attribute__((section(".vectors"), used)) static const struct {
    unsigned char *stack;
    void (*handlers[15])(void);
} vectors = {stack_top, {reset, fault, fault, fault, fault, fault}};
