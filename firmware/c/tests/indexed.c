/* A store with an index beside one without, by the same random calls, with cuts: each call answers the same and leaves the same
 * words, whether the index has room for all variables or not. */
#include "../ee.h"
#include "part.h"

enum { ADDRESSES = 8, STORES = 1200, CALLS = 80 };

static uint64_t dice = 88172645463325252u;
static unsigned long given_up, came_back, cuts;

static uint32_t below(uint32_t end) {
    dice ^= dice << 13;
    dice ^= dice >> 7;
    dice ^= dice << 17;
    return (uint32_t)(dice >> 20) % end;
}

/* A store without an index, and one with it, each on a part of its own. */
static part one, other;
static ee_store plain;
static ee_store indexed;
static ee_entry entries[ADDRESSES];
static ee_index index_of_it;

static void start(uint32_t room) {
    ee_flash flash = flash_of(&one), same = flash_of(&other);
    static ee_flash kept[2];
    index_of_it = (ee_index)EE_INDEX_IN(entries);
    index_of_it.list.room.len = room;
    same.index = &index_of_it;
    kept[0] = flash, kept[1] = same;
    CHECK(ee_start(&plain, &kept[0]) == ee_start(&indexed, &kept[1]));
}

static int is_on(void) {
    ee_numbers numbers;
    return ee_counts(&indexed, &numbers) == EE_OK;
}

static int is_in_use(void) { return !index_of_it.is_given_up; }

static int are_alike(void) { return memcmp(one.words, other.words, sizeof one.words) == 0 && memcmp(one.torn, other.torn, sizeof one.torn) == 0; }

/* Both say the same, and the index is in use where it has room for what lives; behind a change alone it may be given up. */
static void look(uint32_t room) {
    ee_numbers a, b;
    CHECK(ee_counts(&plain, &a) == EE_OK && ee_counts(&indexed, &b) == EE_OK && memcmp(&a, &b, sizeof a) == 0);
    int is_used = is_in_use();
    for (uint16_t address = 1; address <= ADDRESSES; address++) {
        uint32_t value = 0, same = 0;
        other.read = 0;
        CHECK(ee_read(&plain, address, &value) == ee_read(&indexed, address, &same) && value == same);
        CHECK(!is_used || other.read <= 1u << other.pairs);
    }
    uint16_t address = 0, beside = 0;
    uint32_t value = 0, same = 0, status;
    ee_value loaded[ADDRESSES], like[ADDRESSES];
    for (uint16_t i = 0; i < ADDRESSES; i++) loaded[i] = like[i] = (ee_value){(uint16_t)(i + 1), i};
    CHECK(ee_load(&plain, loaded, ADDRESSES, &value) == EE_OK && ee_load(&indexed, like, ADDRESSES, &same) == EE_OK);
    CHECK(value == a.live && same == b.live);
    for (uint32_t i = 0; i < ADDRESSES; i++) CHECK(loaded[i].value == like[i].value);
    do {
        other.read = 0;
        status = ee_next(&plain, &address, &value);
        CHECK(ee_next(&indexed, &beside, &same) == status && address == beside && value == same);
        CHECK(!is_used || other.read <= 1u << other.pairs);
    } while (status == EE_OK);
    CHECK(b.live <= room || !is_in_use());
    CHECK(b.fill > b.live || b.live > room || is_in_use());
}

/* At most so many words are read in a change by a store that has its index: in a free slot, and with a move. */
static unsigned long most(int moves) {
    uint32_t slots = other.pages * (other.page_words - 4), words = 2 * other.pages * other.page_words;
    return (unsigned long)(moves ? 2 * slots + 2 * words : 3) << other.pairs;
}

static void call(uint32_t kind, uint16_t address, uint32_t value, const ee_value *list, uint32_t count) {
    uint32_t status, same, fill = 0;
    ee_numbers numbers;
    int is_used = is_in_use();
    if (ee_counts(&plain, &numbers) == EE_OK) fill = numbers.fill;
    int moves = kind == 1 || kind == 2 || kind == 3 || fill == other.pages * (other.page_words - 4);
    other.read = 0;
    switch (kind) {
    case 0: status = ee_forget(&plain, address), same = ee_forget(&indexed, address); break;
    case 1: status = ee_clean(&plain), same = ee_clean(&indexed); break;
    case 2: status = ee_write_all(&plain, list, count), same = ee_write_all(&indexed, list, count); break;
    case 3: status = ee_forget_all(&plain), same = ee_forget_all(&indexed); break;
    default: status = ee_write(&plain, address, value), same = ee_write(&indexed, address, value); break;
    }
    CHECK(status == same && are_alike());
    CHECK(!is_used || !is_in_use() || other.read <= most(moves));
}

int main(void) {
    for (uint32_t i = 0; i < STORES; i++) {
        uint32_t room = below(ADDRESSES + 1);
        blank(&one, 1 + below(3), 5 + below(4));
        one.pairs = below(2), one.runs = (enum runs)below(RUN_KINDS);
        other = one;
        start(room);
        for (uint32_t j = 0; j < CALLS; j++) {
            ee_value list[3];
            uint32_t kind = below(32) ? below(3) + 4 * (below(3) > 0) : 3, count = 2 + below(2);
            uint16_t address = (uint16_t)(1 + below(ADDRESSES));
            for (uint32_t k = 0; k < count; k++) list[k] = (ee_value){(uint16_t)((address + k) % ADDRESSES + 1), below(1000)};
            if (below(8) == 0) {
                one.cut_in = other.cut_in = one.steps + 1 + below(6);
                one.tear = other.tear = (enum tear)below(one.pairs ? TEAR_TORN : TEAR_MIXED); /* which leaves the same in both */
            }
            int was = is_in_use();
            call(kind, address, below(UINT32_MAX), list, count);
            one.cut_in = other.cut_in = 0;
            if (!is_on()) {
                cuts++;
                start(room);
            } else {
                int is = is_in_use();
                given_up += was && !is, came_back += !was && is;
            }
            look(room);
        }
    }
    CHECK(given_up > STORES / 4 && came_back > STORES / 4 && cuts > STORES);
    printf("%lu given up, %lu came back, %lu cuts\n", given_up, came_back, cuts);
    return 0;
}
