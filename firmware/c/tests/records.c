/* Random calls on records and values beside them, against copies in memory, on flashes of words, of pairs, and of pairs whose
 * erase clears first. Calls are cut in each step in each way, or have each read fail in turn: a record reads as before then or
 * as it was written, and all else as before. Then words go bad, one at a time: behind a rescue a record is one that was written,
 * none, or told as hurt. It does as the proved ones, by a checksum that firmware/rust/ee-store/tests/records.rs has too. An
 * argument is how many calls are made on each kind of flash. */
#define MOST_PAGES 8
#define MOST_WORDS 100
#include "part.h"

#include "../ee_records.c"

enum { RECORDS = 3, SINGLES = 3, MOST_BYTES = 100, SHAPES = 4, DAMAGES = 1000, LOCKSTEP = 3000 };

static const ee_record records[RECORDS] = {{1, 6}, {20, 25}, {1000, 2}};
static const uint16_t singles[SINGLES] = {19, 90, 2000};
static const uint32_t shapes[SHAPES][2] = {{1, 100}, {2, 60}, {4, 24}, {1, 50}};

/* What a reader sees. */
typedef struct seen {
    uint32_t status[RECORDS], length[RECORDS];
    uint8_t bytes[RECORDS][MOST_BYTES];
    uint8_t there[SINGLES];
    uint32_t values[SINGLES];
} seen;

typedef struct call {
    enum { WRITE, FORGET, TRIM, SINGLE, FORGET_SINGLE, CLEAN, FORGET_ALL } kind;
    uint32_t which, length, value;
    uint8_t bytes[MOST_BYTES];
} call;

static uint64_t dice;
static unsigned long calls, cuts, failures, refused;

static uint32_t below(uint32_t end) {
    dice ^= dice << 13;
    dice ^= dice >> 7;
    dice ^= dice << 17;
    return (uint32_t)(dice >> 32) % end;
}

static seen held(const ee_store *store) {
    seen s;
    memset(&s, 0, sizeof s);
    for (uint32_t i = 0; i < RECORDS; i++) {
        uint8_t space[MOST_BYTES];
        s.status[i] = ee_read_bytes(store, records[i], space, sizeof space, &s.length[i]);
        CHECK(s.status[i] == EE_OK || s.status[i] == EE_NOTHING || s.status[i] == EE_HURT);
        if (s.status[i] == EE_OK) memcpy(s.bytes[i], space, s.length[i]);
    }
    for (uint32_t i = 0; i < SINGLES; i++) {
        uint32_t status = ee_read(store, singles[i], &s.values[i]);
        CHECK(status == EE_OK || status == EE_NOTHING);
        s.there[i] = status == EE_OK;
    }
    return s;
}

static int same(const seen *a, const seen *b) { return memcmp(a, b, sizeof *a) == 0; }

static void empty(seen *s, uint32_t which) {
    s->status[which] = EE_NOTHING, s->length[which] = 0;
    memset(s->bytes[which], 0, MOST_BYTES);
}

static seen after(seen s, const call *c) {
    if (c->kind == WRITE) {
        empty(&s, c->which);
        s.status[c->which] = EE_OK, s.length[c->which] = c->length;
        memcpy(s.bytes[c->which], c->bytes, c->length);
    }
    if (c->kind == FORGET) empty(&s, c->which);
    if (c->kind == SINGLE) s.there[c->which] = 1, s.values[c->which] = c->value;
    if (c->kind == FORGET_SINGLE) s.there[c->which] = 0, s.values[c->which] = 0;
    for (uint32_t i = 0; c->kind == FORGET_ALL && i < RECORDS; i++) empty(&s, i);
    if (c->kind == FORGET_ALL) memset(s.there, 0, sizeof s.there), memset(s.values, 0, sizeof s.values);
    return s;
}

static uint32_t made(ee_store *store, const call *c) {
    switch (c->kind) {
    case WRITE: return ee_write_bytes(store, records[c->which], c->bytes, c->length);
    case FORGET: return ee_forget_bytes(store, records[c->which]);
    case TRIM: return ee_trim_bytes(store, records[c->which]);
    case SINGLE: return ee_write(store, singles[c->which], c->value);
    case FORGET_SINGLE: return ee_forget(store, singles[c->which]);
    case CLEAN: return ee_clean(store);
    default: return ee_forget_all(store);
    }
}

/* A call: most often a write, of other bytes or of those of the record with some changed. */
static call drawn(const seen *s) {
    call c;
    memset(&c, 0, sizeof c);
    c.which = below(RECORDS);
    uint32_t kind = below(24);
    c.kind = kind == 0 ? FORGET : kind < 3 ? TRIM : kind < 6 ? SINGLE : kind == 6 ? FORGET_SINGLE : kind == 7 ? CLEAN : WRITE;
    if (kind == 8 && below(8) == 0) c.kind = FORGET_ALL;
    c.value = below(3);
    if (kind < 14) {
        c.length = below(4u * records[c.which].words + 1);
        for (uint32_t i = 0; i < c.length; i++) c.bytes[i] = (uint8_t)below(256);
        return c;
    }
    c.length = s->length[c.which];
    memcpy(c.bytes, s->bytes[c.which], c.length);
    for (uint32_t i = below(4); i > 0 && c.length > 0; i--) {
        uint32_t at = below(c.length);
        c.bytes[at] = (uint8_t)below(256);
    }
    return c;
}

/* Opens what is left, and looks: as before or as after the call. */
static void is_one_of(part *p, const ee_flash *flash, ee_store *store, const seen *old, const seen *new) {
    p->cut_in = 0, p->failed = 0;
    CHECK(ee_open(store, flash) == EE_OK);
    seen s = held(store);
    CHECK(same(&s, old) || same(&s, new));
}

/* Plays a call on copies of the part, cut in each step in each way. One of them goes on, now and then. */
static void cut_everywhere(part *before, const seen *old, const call *c, const seen *new) {
    part next = *before;
    for (uint32_t step = 1;; step++) {
        for (int tear = 0; tear < TEARS; tear++) {
            part p = *before;
            ee_flash flash = flash_of(&p);
            ee_store store;
            CHECK(ee_open(&store, &flash) == EE_OK);
            p.steps = 0, p.cut_in = step, p.tear = (enum tear)tear;
            uint32_t status = made(&store, c);
            if (p.steps < step) {
                *before = next;
                return;
            }
            uint32_t length;
            CHECK(status == EE_DRIVER && ee_read_bytes(&store, records[0], &p, 0, &length) == EE_NOT_OPEN);
            cuts++;
            is_one_of(&p, &flash, &store, old, new);
            if (below(64) == 0) next = p;
        }
    }
}

/* Plays it on copies of which each read fails in turn. */
static void fail_everywhere(const part *before, const seen *old, const call *c, const seen *new) {
    for (unsigned long read = 1;; read++) {
        part p = *before;
        ee_flash flash = flash_of(&p);
        ee_store store;
        CHECK(ee_open(&store, &flash) == EE_OK);
        p.read = 0, p.fails_in = read;
        uint32_t status = made(&store, c);
        if (!p.failed) return;
        failures++;
        CHECK(status == EE_DRIVER && ee_clean(&store) == EE_NOT_OPEN);
        is_one_of(&p, &flash, &store, old, new);
    }
}

/* No more slots than a word each, the check and the head: of a record whose words have turns of their own. */
static void takes_few_slots(const call *c, const seen *old, uint32_t slots) {
    uint32_t words = 0;
    for (uint32_t at = 0; at < c->length; at += 4) {
        int is_whole = old->status[c->which] == EE_OK && at + 4 <= old->length[c->which] && at + 4 <= c->length;
        words += !is_whole || memcmp(&old->bytes[c->which][at], &c->bytes[at], 4) != 0;
    }
    CHECK(slots <= words + 2);
}

/* Makes a call; whether it was refused, which leaves all as it was. */
static uint32_t play(ee_store *store, const call *c, const seen *old) {
    ee_numbers before, then;
    CHECK(ee_counts(store, &before) == EE_OK);
    uint32_t status = made(store, c);
    CHECK(status == EE_OK || status == EE_FULL || status == EE_ABSENT || status == EE_NOTHING);
    CHECK(ee_counts(store, &then) == EE_OK);
    CHECK(status != EE_FULL || then.live == then.slots);
    if (c->kind == WRITE && c->length <= 60 && status == EE_OK && then.generation == before.generation) {
        takes_few_slots(c, old, then.fill - before.fill);
    }
    calls++, refused += status != EE_OK;
    return status;
}

static void begin(part *p, const uint32_t shape[2], uint32_t kind, ee_store *store, ee_flash *flash) {
    blank(p, shape[0], shape[1]);
    p->pairs = kind > 0, p->clears_first = kind == 2;
    *flash = flash_of(p);
    CHECK(ee_start(store, flash) == EE_OK);
}

/* Random calls, of which one in `share` is cut everywhere. */
static void run(uint32_t kind, const uint32_t shape[2], unsigned long count, uint32_t share) {
    static part p;
    ee_flash flash;
    ee_store store;
    begin(&p, shape, kind, &store, &flash);
    for (unsigned long i = 0; i < count; i++) {
        seen old = held(&store);
        call c = drawn(&old);
        part before = p;
        uint32_t status = play(&store, &c, &old);
        seen new = status == EE_OK ? after(old, &c) : old, now = held(&store);
        CHECK(same(&now, &new));
        if (below(share) != 0) continue;
        if (below(8) == 0) fail_everywhere(&before, &old, &c, &new);
        cut_everywhere(&before, &old, &c, &new);
        if (below(2) == 0) continue;
        p = before;
        CHECK(ee_open(&store, &flash) == EE_OK);
    }
}

/* All records that were written, to tell a mix from one of them. */
typedef struct history {
    uint32_t count[RECORDS], length[RECORDS][64];
    uint8_t bytes[RECORDS][64][MOST_BYTES];
} history;

static int was_written(const history *h, uint32_t which, const seen *s) {
    for (uint32_t i = 0; i < h->count[which]; i++) {
        if (h->length[which][i] != s->length[which]) continue;
        if (memcmp(h->bytes[which][i], s->bytes[which], s->length[which]) == 0) return 1;
    }
    return 0;
}

static int is_as_before(const seen *a, const seen *b, uint32_t which) {
    return a->status[which] == b->status[which] && memcmp(a->bytes[which], b->bytes[which], MOST_BYTES) == 0 &&
           a->length[which] == b->length[which];
}

/* Each word of a part goes bad in turn, and a rescue follows. */
static unsigned long hurt, older, none;

static void damage(const part *whole, const seen *old, const history *h) {
    for (uint32_t page = 0; page < 2 * whole->pages; page++) {
        for (uint32_t place = 4; place < whole->page_words; place++) {
            if (whole->words[page][place] == UINT64_MAX && !whole->torn[page][place]) continue;
            part p = *whole;
            ee_flash flash = flash_of(&p);
            ee_store store;
            if (below(2) == 0) p.torn[page][place] = 1;
            p.words[page][place] = UINT64_C(0x123456780000ffff);
            CHECK(ee_rescue(&store, &flash) == EE_OK);
            seen s = held(&store);
            uint32_t lost = 0;
            for (uint32_t i = 0; i < RECORDS; i++) {
                int is = is_as_before(&s, old, i);
                lost += !is;
                hurt += !is && s.status[i] == EE_HURT, none += !is && s.status[i] == EE_NOTHING;
                if (is || s.status[i] != EE_OK) continue;
                CHECK(was_written(h, i, &s)); /* and no mix */
                older++;
            }
            for (uint32_t i = 0; i < SINGLES; i++) lost += s.there[i] != old->there[i] || s.values[i] != old->values[i];
            CHECK(lost <= 1);
            calls++;
        }
    }
}

static void damages(void) {
    static part p;
    static history h;
    ee_flash flash;
    ee_store store;
    begin(&p, shapes[below(2)], 0, &store, &flash);
    memset(&h, 0, sizeof h);
    for (uint32_t i = 20 + below(40); i > 0; i--) {
        seen old = held(&store);
        call c = drawn(&old);
        if (made(&store, &c) != EE_OK || c.kind != WRITE) continue;
        uint32_t at = h.count[c.which]++;
        h.length[c.which][at] = c.length;
        memcpy(h.bytes[c.which][at], c.bytes, c.length);
    }
    seen old = held(&store);
    damage(&p, &old, &h);
}

/* A sum of what the store has behind each call of a run. The proved one has the same. */
static uint64_t lockstep(void) {
    static part p;
    ee_flash flash;
    ee_store store;
    uint64_t sum = 0;
    dice = UINT64_C(0x123456789abcdef1);
    begin(&p, shapes[1], 0, &store, &flash);
    for (uint32_t i = 0; i < LOCKSTEP; i++) {
        seen old = held(&store);
        call c = drawn(&old);
        ee_numbers numbers;
        uint32_t status = made(&store, &c), value = 0;
        CHECK(ee_counts(&store, &numbers) == EE_OK);
        sum = (sum ^ (status == EE_OK) ^ numbers.fill) * UINT64_C(0x9e3779b97f4a7c15);
        uint16_t address = 0;
        while (ee_next(&store, &address, &value) == EE_OK) {
            sum = (sum ^ address ^ (uint64_t)value << 16) * UINT64_C(0x9e3779b97f4a7c15);
        }
    }
    return sum;
}

static void refusals(void) {
    static part p;
    ee_flash flash;
    ee_store store;
    uint8_t bytes[8] = {1, 2, 3, 4, 5, 6, 7, 8};
    uint32_t length = 7;
    begin(&p, shapes[3], 0, &store, &flash);
    const ee_record record = records[2], smaller = {1000, 1};
    CHECK(ee_write_bytes(&store, record, bytes, 9) == EE_TOO_LONG && ee_write_bytes(&store, record, NULL, 0) == EE_NULL);
    CHECK(ee_forget_bytes(&store, record) == EE_ABSENT && ee_trim_bytes(&store, record) == EE_OK);
    CHECK(ee_read_bytes(&store, record, bytes, 8, &length) == EE_NOTHING && length == 7);
    CHECK(ee_write_bytes(&store, record, bytes, 8) == EE_OK);
    CHECK(ee_read_bytes(&store, record, bytes, 7, &length) == EE_TOO_LONG && length == 8);
    CHECK(ee_read_bytes(&store, record, NULL, 8, &length) == EE_NULL);
    CHECK(ee_read_bytes(&store, record, bytes, 8, NULL) == EE_NULL);
    CHECK(ee_read_bytes(&store, smaller, bytes, 8, &length) == EE_HURT);
    const ee_record wrong[] = {{0, 1}, {65535, 0}, {65533, 0}, {65500, 17}, {1, 16384}};
    for (uint32_t i = 0; i < sizeof wrong / sizeof wrong[0]; i++) {
        CHECK(ee_read_bytes(&store, wrong[i], bytes, 8, &length) == EE_WRONG_NUMBER);
        CHECK(ee_write_bytes(&store, wrong[i], bytes, 0) == EE_WRONG_NUMBER);
        CHECK(ee_forget_bytes(&store, wrong[i]) == EE_WRONG_NUMBER && ee_trim_bytes(&store, wrong[i]) == EE_WRONG_NUMBER);
    }
    const ee_record last[] = {{65532, 0}, {65500, 16}};
    CHECK(ee_write_bytes(&store, last[0], bytes, 0) == EE_OK && ee_write_bytes(&store, last[1], bytes, 8) == EE_OK);
}

int main(int count, char **argument) {
    refusals();
    CHECK(lockstep() == UINT64_C(0xe103bd45bc488622));
    calls = 0;
    for (uint32_t kind = 0; kind < 3; kind++) {
        for (uint32_t shape = 0; shape < SHAPES; shape++) {
            dice = 88172645463325252u + kind + 3 * shape;
            run(kind, shapes[shape], count > 1 ? strtoul(argument[1], NULL, 10) / SHAPES : 100, count > 1 ? 1000 : 3);
        }
    }
    printf("%lu calls, %lu refused, %lu cuts, %lu failures\n", calls, refused, cuts, failures);
    for (calls = 0; calls < DAMAGES || (count > 1 && calls < 100000);) damages();
    printf("%lu words went bad: %lu records hurt, %lu older, %lu none, no mix\n", calls, hurt, older, none);
    return 0;
}
