/* Every image of sets of one slot that calls and cuts reach, up to a generation: ee.c and the
 * Rust package do the same from each.
 *
 *     images PAIRS GENERATION
 *
 * A cut in a program leaves the word as it was, torn, or whole; a cut in an erase leaves each word of
 * the page in one of these ways. Of numbers, the erase stops at one of them, which has some of its
 * bits then. */
#include <stdio.h>
#include <stdlib.h>
#include <string.h>

#include "both.h"

enum { PAGES = 2, WORDS = 5, MOST_PLACES = 2 * WORDS, PLACES_OF_ALL = PAGES * MOST_PLACES };
enum { TABLE = 1 << 20, WAYS = 243 };

struct image {
    uint64_t numbers[PLACES_OF_ALL];
    uint8_t torn[PLACES_OF_ALL];
};

struct part {
    struct image image;
    uint64_t trace;
    int steps_left, way;
    bool is_cut, in_erase;
};

/* What is left of an image on which a store was started: the part before it and behind it, and the store. */
struct started {
    struct part fresh, part;
    ee_store store;
    struct answer answer;
};

/* By ee.c and by the package: the part, its driver and the store, and what a call goes on from. */
static struct part parts[2];
static ee_flash flashes[2];
static ee_store stores[2];
static struct started started[2];

static struct image *images;
static uint32_t *table; /* of an image by its hash, one more than its place in `images` */
static size_t found;
static uint32_t pairs, places, last_generation;
static uint64_t runs, cuts;

static const ee_value list_of_two[] = {{1, 5}, {2, 6}}, list_of_three[] = {{1, 5}, {2, 6}, {3, 7}};
static const struct made_call made_calls[] = {
    {START, 0, 0, NULL, 0},          {OPEN, 0, 0, NULL, 0},   {WRITE, 1, 1, NULL, 0},
    {WRITE, 1, 2, NULL, 0},          {WRITE, 2, 3, NULL, 0},  {FORGET, 1, 0, NULL, 0},
    {FORGET, 2, 0, NULL, 0},         {CLEAN, 0, 0, NULL, 0},  {READ, 1, 9, NULL, 0},
    {READ, 2, 9, NULL, 0},           {NEXT, 0, 9, NULL, 0},   {NEXT, 1, 9, NULL, 0},
    {COUNTS, 0, 0, NULL, 0},         {FORMAT, 0, 0, NULL, 0}, {WRITE_ALL, 0, 0, list_of_two, 2},
    {WRITE_ALL, 0, 0, list_of_two, 1}, {WRITE_ALL, 0, 0, list_of_three, 3},
    {CLEAR, 0, 0, NULL, 0},          {RESCUE, 0, 0, NULL, 0}, {BAD_WORDS, 0, 9, NULL, 0},
    {LOAD, 1, 2, NULL, 0},
};

static void fail(const char *what) {
    printf("images: %s\n", what);
    exit(1);
}

/* Notes an image, unless it was met before. */
static void meet(const struct image *image) {
    uint64_t hash = 1;
    for (uint32_t i = 0; i < PLACES_OF_ALL; i++) note(&hash, image->numbers[i] + image->torn[i]);
    uint32_t at = (uint32_t)hash % TABLE;
    for (; table[at] != 0; at = (at + 1) % TABLE) {
        if (memcmp(&images[table[at] - 1], image, sizeof *image) == 0) return;
    }
    if (found == TABLE / 2) fail("more images than there is room for");
    images[found++] = *image;
    table[at] = (uint32_t)found;
}

static uint32_t place_of(uint32_t page, uint32_t at) {
    if (page >= PAGES || at >= places) fail("a place that the flash does not have");
    return page * places + at;
}

static uint32_t word(void *context, uint32_t page, uint32_t at, uint64_t *value) {
    struct part *part = context;
    uint32_t place = place_of(page, at);
    note(&part->trace, 1 + 4 * place);
    if (part->image.torn[place]) return EE_TORN;
    *value = part->image.numbers[place];
    return 0;
}

/* Makes a number `value`, or leaves it as a cut may, in one of three ways. */
static void leave(struct part *part, uint32_t place, uint64_t value, int way) {
    struct image *image = &part->image;
    if (way == 0) return;
    if (way == 2) {
        image->numbers[place] = value;
        image->torn[place] = 0;
    } else if (pairs) {
        image->numbers[place] = (value == UINT64_MAX ? image->numbers[place] : value) | 0xff00ff;
    } else {
        image->numbers[place] = 0;
        image->torn[place] = 1;
    }
}

static uint32_t program(void *context, uint32_t page, uint32_t at, uint64_t value) {
    struct part *part = context;
    uint32_t place = place_of(page, at);
    note(&part->trace, 2 + 4 * place);
    note(&part->trace, value);
    if (part->image.torn[place] || part->image.numbers[place] != UINT64_MAX) fail("written again");
    bool is_cut = part->steps_left-- == 0;
    leave(part, place, value, is_cut ? part->way % 3 : 2);
    part->is_cut = part->is_cut || is_cut;
    return is_cut;
}

static uint32_t erase(void *context, uint32_t page) {
    struct part *part = context;
    note(&part->trace, 3 + 4 * page);
    bool is_cut = part->steps_left-- == 0;
    int way = part->way;
    for (int at = 0; at < (int)places; at++, way /= 3) {
        int left = pairs ? (at < part->way / 2 ? 2 : at > part->way / 2 ? 0 : part->way % 2) : way % 3;
        leave(part, place_of(page, (uint32_t)at), UINT64_MAX, is_cut ? left : 2);
    }
    part->in_erase = is_cut;
    part->is_cut = part->is_cut || is_cut;
    return is_cut;
}

/* Whether an image is of a generation that is looked at. */
static bool is_within(const struct image *image) {
    for (uint32_t page = 0; page < PAGES; page++) {
        uint64_t number = image->numbers[page * places];
        bool opens = number >> 32 == 0xaaaaaaaa && !image->torn[page * places];
        if (opens && (uint32_t)number > last_generation) return false;
    }
    return true;
}

/* Makes a call on a part. */
static struct answer make_on(int which, const struct made_call *it) {
    ee_flash *flash = &flashes[which];
    *flash = (ee_flash){.context = &parts[which], .pages = 1, .page_words = WORDS, .word = word,
                        .program = program, .erase = erase, .kind = pairs};
    return make(which == 0, &stores[which], flash, it);
}

/* Starts a store on an image by both, from which `run_both` goes on. */
static void start_both(const struct image *from) {
    static const struct made_call start = {START, 0, 0, NULL, 0};
    for (int which = 0; which < 2; which++) {
        struct started *it = &started[which];
        it->fresh = parts[which] = (struct part){*from, 1, -1, 0, false, false};
        it->answer = make_on(which, &start);
        it->part = parts[which];
        it->store = stores[which];
    }
}

/* Makes a call of the store that was started, or on the image that it was started on, with a cut in a step. */
static struct answer run_one(int which, const struct made_call *it, int cut, int way) {
    bool is_opening = it->call == START || it->call == OPEN || it->call == FORMAT;
    parts[which] = is_opening ? started[which].fresh : started[which].part;
    stores[which] = started[which].store;
    if (!is_opening && started[which].answer.status != EE_OK) return started[which].answer;
    parts[which].steps_left = cut;
    parts[which].way = way;
    return make_on(which, it);
}

/* Makes a call by both, with a cut in a step. Says what became of the flash. */
static struct part run_both(const struct made_call *it, int cut, int way) {
    struct answer answers[2];
    for (int which = 0; which < 2; which++) answers[which] = run_one(which, it, cut, way);
    runs++;
    cuts += parts[0].is_cut;
    if (!is_same(&answers[0], &answers[1])) fail("another answer");
    if (parts[0].trace != parts[1].trace) fail("other calls of the driver");
    if (memcmp(&parts[0].image, &parts[1].image, sizeof parts[0].image) != 0) fail("another flash");
    return parts[0];
}

/* All that a call may leave of the image: whole, and cut in each step in each way. */
static void go_on(const struct made_call *it) {
    struct part left = run_both(it, -1, 0);
    if (is_within(&left.image)) meet(&left.image);
    for (int cut = 0;; cut++) {
        int ways = 3;
        for (int way = 0; way < ways; way++) {
            left = run_both(it, cut, way);
            if (!left.is_cut) return;
            if (left.in_erase) ways = pairs ? 2 * (int)places : WAYS;
            if (is_within(&left.image)) meet(&left.image);
        }
    }
}

int main(int argc, char **argv) {
    if (argc != 3) return 2;
    pairs = (uint32_t)atoi(argv[1]);
    last_generation = (uint32_t)atoi(argv[2]);
    places = (uint32_t)WORDS << pairs;
    images = malloc(TABLE / 2 * sizeof *images);
    table = calloc(TABLE, sizeof *table);
    if (images == NULL || table == NULL) return 2;
    struct image blank;
    memset(&blank, 0, sizeof blank);
    for (uint32_t i = 0; i < PAGES * places; i++) blank.numbers[i] = UINT64_MAX;
    meet(&blank);
    for (size_t at = 0; at < found; at++) {
        struct image from = images[at];
        start_both(&from);
        for (size_t i = 0; i < sizeof made_calls / sizeof *made_calls; i++) go_on(&made_calls[i]);
    }
    printf("images, pairs %u: all %zu up to generation %u, %llu runs, %llu cuts, the same\n",
           (unsigned)pairs, found, (unsigned)last_generation, (unsigned long long)runs,
           (unsigned long long)cuts);
    free(images);
    free(table);
    return 0;
}
