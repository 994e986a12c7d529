/* A first test with the flash in memory: power is cut in each step of a few writes, in each way, and the store opened again.
 * Each variable then has the value before the write that was cut, or the one behind it. So it is of words, of coded words, of
 * pairs, and of pairs whose erase clears cells first. */
#include <stdlib.h>

#include "sim.h"

enum { WRITES = 5, KINDS = 4, CODED = 1 };

static const struct {
    uint16_t address;
    uint32_t value;
} writes[WRITES] = {{1, 10}, {1, 11}, {2, 20}, {1, 12}, {2, 21}};

static sim part;
static ee_flash flash;
static ee_store store;

static void check(int holds, const char *what) {
    if (holds) return;
    printf("%s\n", what);
    sim_write(&part, stdout);
    exit(1);
}

/* What an address has, 0 for nothing. */
static uint32_t value_of(uint16_t address) {
    uint32_t value = 0;
    ee_read(&store, address, &value);
    return value;
}

/* What an address has after so many of the writes. */
static uint32_t wanted(uint16_t address, int count) {
    uint32_t value = 0;
    for (int i = 0; i < count; i++)
        if (writes[i].address == address) value = writes[i].value;
    return value;
}

static int is_as_after(int count) { return value_of(1) == wanted(1, count) && value_of(2) == wanted(2, count); }

/* Makes the writes on a new part with room for two changes, and cuts power in one step. How many were made before that. */
static int writes_made(int kind, uint32_t step, sim_tear leaves) {
    int made = 0;
    static void (*const made_new[KINDS])(sim *, uint32_t, uint32_t) = {sim_new, sim_new, sim_new_pairs, sim_new_clearing};
    made_new[kind](&part, 1, 6);
    part.seed = step;
    flash = sim_flash(&part);
    if (kind == CODED) flash.kind = EE_CODED;
    check(ee_start(&store, &flash) == EE_OK, "a new part was not started");
    sim_cut(&part, step, leaves);
    while (made < WRITES && ee_write(&store, writes[made].address, writes[made].value) == EE_OK) made++;
    return made;
}

/* Cuts power in each step in a way. How many steps there are. */
static unsigned cut_each_step(int kind, sim_tear leaves) {
    for (uint32_t step = 1;; step++) {
        int made = writes_made(kind, step, leaves);
        if (part.cuts == 0) return step - 1;
        sim_power(&part);
        check(ee_start(&store, &flash) == EE_OK, "the store was not opened after a cut");
        check(is_as_after(made) || is_as_after(made + 1), "a value was lost");
    }
}

int main(void) {
    static const sim_tear ways[4] = {SIM_NOTHING, SIM_DONE, SIM_TORN, SIM_MIXED};
    unsigned cuts[KINDS] = {0};
    for (int kind = 0; kind < KINDS; kind++)
        for (int way = 0; way < 4; way++) cuts[kind] += cut_each_step(kind, ways[way]);
    printf("%u cuts of words, %u of coded words, %u of pairs and %u where erases clear first, and no value was lost\n", cuts[0],
           cuts[CODED], cuts[2], cuts[3]);
    writes_made(0, 9, SIM_TORN);
    printf("power cut in the ninth step of words, which left this:\n");
    sim_write(&part, stdout);
    sim_power(&part);
    check(ee_start(&store, &flash) == EE_OK, "the store was not opened");
    printf("opened again, address 1 has %u and address 2 has %u:\n", (unsigned)value_of(1), (unsigned)value_of(2));
    sim_write(&part, stdout);
    return 0;
}
