/* Random calls against an array, lists of values and clears among them, each with power cut in every step and in every way,
 * and some with a read that fails, each in turn, on flashes of words, of pairs of numbers, of pairs whose erase clears first, and
 * of coded words. They are read one at a time, and also in runs in two ways. On each of those that are read one at a
 * time it asks the library more than a million calls, and on the others a share of that; with an argument on all of them. */
#include "part.h"

/* So many reads fail of each store at least. By an index there are fewer. */
#ifdef BY_INDEX
#define FAILURES 40u
#else
#define FAILURES 110u
#endif

enum { ADDRESSES = 8, STORES = 150, MANY = 160, SHARE = 30, CALLS = 60, LOADED = 70 };

typedef struct map {
    uint32_t values[ADDRESSES];
    uint8_t there[ADDRESSES];
} map;

static uint64_t dice = 88172645463325252u;
static unsigned long calls; /* that change something, or look at each address */

static uint32_t below(uint32_t end) {
    dice ^= dice << 13;
    dice ^= dice >> 7;
    dice ^= dice << 17;
    return (uint32_t)(dice >> 20) % end;
}

static uint32_t live_in(const map *m) {
    uint32_t count = 0;
    for (int i = 0; i < ADDRESSES; i++) count += m->there[i];
    return count;
}

static map held(const ee_store *store) {
    map m;
    calls += ADDRESSES;
    memset(&m, 0, sizeof m);
    for (int i = 0; i < ADDRESSES; i++) {
        uint32_t status = ee_read(store, (uint16_t)(i + 1), &m.values[i]);
        CHECK(status == EE_OK || status == EE_NOTHING);
        m.there[i] = status == EE_OK;
    }
    return m;
}

static int same(const map *a, const map *b) { return memcmp(a, b, sizeof *a) == 0; }

typedef struct call {
    enum { WRITE, FORGET, CLEAN, WRITE_ALL, CLEAR } kind;
    uint16_t address;
    uint32_t value;
    uint32_t count;
    ee_value values[ADDRESSES];
} call;

static call drawn(void) {
    call c = {.kind = below(32) ? below(CLEAR) : CLEAR, .address = (uint16_t)(1 + below(ADDRESSES)), .value = below(UINT32_MAX)};
    if (c.kind == WRITE_ALL) c.count = below(2) ? below(4) : below(ADDRESSES + 1);
    uint16_t step = (uint16_t)(2 * below(ADDRESSES / 2) + 1);
    for (uint32_t i = 0; i < c.count; i++) {
        uint16_t address = (uint16_t)((c.address + i * step) % ADDRESSES + 1);
        c.values[i] = (ee_value){address, below(UINT32_MAX)};
    }
    if (c.count > 1 && below(8) == 0) c.values[c.count - 1].address = c.values[below(c.count - 1)].address;
    return c;
}

static uint32_t made(ee_store *store, call c) {
    calls++;
    switch (c.kind) {
    case WRITE: return ee_write(store, c.address, c.value);
    case FORGET: return ee_forget(store, c.address);
    case CLEAN: return ee_clean(store);
    case CLEAR: return ee_forget_all(store);
    default: return ee_write_all(store, c.values, c.count);
    }
}

static void put(map *m, uint16_t address, uint32_t value) { m->there[address - 1] = 1, m->values[address - 1] = value; }

/* The map with the values of a list, and whether each of its addresses is another. */
static int with_list(map *m, const call *c) {
    map seen;
    memset(&seen, 0, sizeof seen);
    for (uint32_t i = 0; i < c->count; i++) {
        put(&seen, c->values[i].address, 1);
        put(m, c->values[i].address, c->values[i].value);
    }
    return live_in(&seen) == c->count;
}

static uint32_t expected(const call *c, const map *old, uint32_t slots, uint32_t pending) {
    map new = *old;
    int there = old->there[c->address - 1];
    switch (c->kind) {
    case WRITE: return there || live_in(old) < slots ? EE_OK : EE_FULL;
    case FORGET: return there ? EE_OK : EE_ABSENT;
    case CLEAN: return pending > 0 ? EE_OK : EE_NOTHING;
    case CLEAR: return EE_OK;
    default: return !with_list(&new, c) ? EE_DUPLICATE : live_in(&new) > slots ? EE_FULL : EE_OK;
    }
}

/* The map after a call that nothing refuses. */
static map after(map m, const call *c) {
    if (c->kind == WRITE) put(&m, c->address, c->value);
    if (c->kind == FORGET) m.there[c->address - 1] = 0, m.values[c->address - 1] = 0;
    if (c->kind == WRITE_ALL) with_list(&m, c);
    if (c->kind == CLEAR) memset(&m, 0, sizeof m);
    return m;
}

static unsigned long cuts;

/* Plays a call on copies of the part, cut in each step in each way. */
static void cut_everywhere(const part *before, const map *old, call c, const map *new) {
    for (uint32_t step = 1;; step++) {
        for (int tear = 0; tear < TEARS; tear++) {
            part p = *before;
            ee_flash flash = flash_of(&p);
            ee_store store;
            CHECK(ee_open(&store, &flash) == EE_OK);
            p.steps = 0, p.cut_in = step, p.tear = (enum tear)tear;
            if (made(&store, c) != EE_DRIVER) return;
            cuts++;
            CHECK(ee_clean(&store) == EE_NOT_OPEN);
            p.cut_in = 0;
            CHECK(ee_open(&store, &flash) == EE_OK);
            map m = held(&store);
            CHECK(same(&m, old) || same(&m, new));
        }
    }
}

static unsigned long failures, plays;

/* Plays a call on copies of the part, of which each read fails in turn. */
static void fail_everywhere(const part *before, const map *old, call c, const map *new) {
    for (unsigned long read = 1;; read++) {
        part p = *before;
        ee_flash flash = flash_of(&p);
        ee_store store;
        CHECK(ee_open(&store, &flash) == EE_OK);
        p.read = 0, p.fails_in = read;
        uint32_t status = made(&store, c);
        if (!p.failed) return;
        failures++;
        CHECK(status == EE_DRIVER && ee_clean(&store) == EE_NOT_OPEN);
        p.failed = 0;
        CHECK(ee_open(&store, &flash) == EE_OK);
        map m = held(&store);
        CHECK(same(&m, old) || same(&m, new));
    }
}

/* A clear leaves no slot used, in the next generation; where none was used it took no step. */
static void emptied(const ee_store *store, const ee_numbers *before, int moved) {
    ee_numbers numbers;
    CHECK(ee_counts(store, &numbers) == EE_OK && numbers.fill == 0 && numbers.live == 0);
    CHECK(moved == (before->fill > 0) && numbers.generation == before->generation + (uint32_t)moved);
}

/* A load gives each address its value, and leaves that of one that has none as it was. */
static void loads(const ee_store *store, const map *m) {
    ee_value values[LOADED];
    uint32_t count = (uint32_t)plays % (LOADED + 1), loaded = UINT32_MAX, there = 0;
    for (uint32_t i = 0; i < count; i++) values[i] = (ee_value){(uint16_t)(1 + i * 5 % ADDRESSES), ~i};
    CHECK(ee_load(store, values, count, &loaded) == EE_OK);
    for (uint32_t i = 0; i < count; i++) {
        uint16_t place = (uint16_t)(values[i].address - 1);
        CHECK(values[i].value == (m->there[place] ? m->values[place] : ~i));
        there += m->there[place];
    }
    CHECK(loaded == there);
}

/* A look gives each of its addresses the value that it has, and takes one of them at least. */
static void spans(const ee_store *store, const map *m) {
    uint32_t count = 1 + (uint32_t)plays % (EE_SPAN + 2);
    for (uint16_t first = 1; first <= ADDRESSES; first++) {
        ee_span span;
        CHECK(ee_read_span(store, first, count, &span) == EE_OK && span.first == first);
        CHECK(span.count >= 1 && span.count <= count && span.count <= EE_SPAN);
        for (uint32_t i = 0; i < span.count; i++) {
            uint32_t place = first - 1u + i, there = place < ADDRESSES && m->there[place];
            CHECK(((uint32_t)span.numbers[i] == first + i) == there && (!there || span.numbers[i] >> 32 == m->values[place]));
        }
    }
}

static void play(part *p, ee_store *store, map *m) {
    call c = drawn();
    ee_numbers numbers;
    CHECK(ee_counts(store, &numbers) == EE_OK && numbers.live == live_in(m));
    uint32_t status = expected(&c, m, numbers.slots, numbers.pending);
    map next = status == EE_OK ? after(*m, &c) : *m;
    cut_everywhere(p, m, c, &next);
    if (++plays % 4 == 0) fail_everywhere(p, m, c, &next);
    unsigned long steps = p->steps;
    CHECK(made(store, c) == status);
    *m = held(store);
    CHECK(same(m, &next));
    if (c.kind == CLEAR) emptied(store, &numbers, p->steps != steps);
    uint16_t address = 0;
    uint32_t value, listed = 0;
    while (ee_next(store, &address, &value) == EE_OK) {
        CHECK(m->there[address - 1] && m->values[address - 1] == value);
        listed++;
    }
    CHECK(listed == live_in(m));
    loads(store, m);
    spans(store, m);
}

static void run(uint32_t kind, enum runs runs, int stores) {
    cuts = failures = calls = 0;
    for (int i = 0; i < stores; i++) {
        part p;
        blank(&p, 1 + below(3), 5 + below(4));
        p.pairs = kind == EE_PAIRS || kind == EE_PAIRS_CLEARING, p.clears_first = kind == EE_PAIRS_CLEARING;
        p.coded = kind == EE_CODED, p.runs = runs;
        ee_flash flash = flash_of(&p);
        ee_store store;
        CHECK(ee_format(&store, &flash) == EE_OK);
        map m = held(&store);
        for (int j = 0; j < CALLS; j++) play(&p, &store, &m);
    }
    CHECK(cuts > 450u * (unsigned)stores && failures > FAILURES * (unsigned)stores);
    if (stores != SHARE) CHECK(calls > 1000000);
}

int main(int count, char **argument) {
    (void)argument;
    for (uint32_t kind = EE_WORDS; kind <= EE_CODED; kind++) {
        for (int runs = NO_RUNS; runs < RUN_KINDS; runs++) {
            run(kind, (enum runs)runs, runs == NO_RUNS ? STORES : count > 1 ? MANY : SHARE);
        }
    }
    return 0;
}
