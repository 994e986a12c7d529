/* The flash of any_image.c: 2 * PAGES pages of WORDS words, of the kind KIND. Every bit of it is free at first. One step is cut,
 * or one read fails, as BREAKS says; what a cut leaves is free too, within the rules of ee.h.
 *
 * ee.c is looked at with these functions in the place of looks at the members of an `ee_flash`. */
#define PER_WORD (KIND == EE_WORDS ? 1 : 2)
#define NUMBERS (PER_WORD * WORDS)
#define ONES UINT64_MAX
/* What may break: nothing, any step, a step that programs, one that erases, a read. */
#define NOTHING 0
#define STEPS 1
#define PROGRAMS 2
#define ERASES 3
#define READS 4

uint64_t nondet_u64(void);
uint32_t nondet_u32(void);
uint16_t nondet_u16(void);
_Bool nondet_bool(void);
#define ASSUME(what) __CPROVER_assume(what)
#define HOLDS(what, name) __CPROVER_assert(what, name)

static uint64_t cell[2 * PAGES][NUMBERS];
static _Bool unreadable[2 * PAGES][NUMBERS]; /* with ECC alone */
static _Bool is_on = 1;                      /* until a step was cut or a read failed */
static uint32_t until_break;                 /* the step or the read that breaks; 0: none */
static uint32_t reads, programs, erases;

/* Each place in turn: a solver takes a choice of constants better than an index. */
#define AT(page, place)                                                                                                       \
    for (uint32_t a = 0; a < 2 * PAGES; a++)                                                                                  \
        for (uint32_t b = 0; b < NUMBERS; b++)                                                                                \
            if (a == (page) && b == (place))

/* Whether what begins here is the one that breaks. */
static _Bool breaks(_Bool may) {
    if (!may || until_break == 0) return 0;
    until_break--;
    if (until_break == 0) is_on = 0;
    return until_break == 0;
}

uint32_t the_word(void *context, uint32_t page, uint32_t place, uint64_t *value) {
    HOLDS(page < 2 * PAGES && place < NUMBERS, "no word is read that the flash hasn't");
    HOLDS(is_on, "no word is read behind what failed");
    reads++;
    if (breaks(BREAKS == READS)) {
        const uint32_t status = nondet_u32();
        ASSUME(status != 0 && status != EE_TORN);
        return status;
    }
    _Bool torn = 0;
    AT(page, place) {
        torn = unreadable[a][b];
        if (!torn) *value = cell[a][b];
    }
    return torn ? EE_TORN : 0;
}

/* Several numbers in a buffer, or NULL where one can't be read, and wherever else it likes. */
static uint64_t window[2 * EE_RUN];

const uint64_t *the_words(void *context, uint32_t page, uint32_t place, uint32_t count) {
    HOLDS(page < 2 * PAGES && place < NUMBERS && count <= NUMBERS - place, "no words are read that the flash hasn't");
    HOLDS(count >= 1 && count <= PER_WORD * EE_RUN, "no more words than EE_RUN at once");
    HOLDS(is_on, "no words are read behind what failed");
    _Bool gives = nondet_bool();
    for (uint32_t a = 0; a < 2 * PAGES; a++)
        for (uint32_t b = 0; b < NUMBERS; b++)
            if (a == page && b >= place && b - place < count) {
                gives &= !unreadable[a][b];
                window[b - place] = cell[a][b];
            }
    return gives ? window : NULL;
}

/* What a cut leaves of a number. With ECC it is what was there, what was to be, or can't be read. Without, it is any number with
 * the bits that it keeps, which are those of `keeps`; where an erase clears first it keeps none, and see `no_value_by_chance`. */
static void is_left(uint32_t a, uint32_t b, uint64_t wanted, uint64_t keeps) {
    if (KIND != EE_WORDS) cell[a][b] = keeps | nondet_u64();
    else if (nondet_bool()) unreadable[a][b] = 1;
    else if (nondet_bool()) unreadable[a][b] = 0, cell[a][b] = wanted;
}

/* The premise of ee.h where an erase clears first: no two numbers of a word are left as a value and its complement that weren't. */
static void no_value_by_chance(uint32_t a, uint32_t b, uint64_t first, uint64_t second) {
    const _Bool was = first == cell[a][b] && second == cell[a][b + 1];
    ASSUME(was || cell[a][b] == ONES || cell[a][b + 1] != ~cell[a][b]);
}

uint32_t the_program(void *context, uint32_t page, uint32_t place, uint64_t value) {
    HOLDS(page < 2 * PAGES && place < NUMBERS, "no word is programmed that the flash hasn't");
    HOLDS(is_on, "no word is programmed behind what failed");
    programs++;
    const _Bool cut = breaks(BREAKS == STEPS || BREAKS == PROGRAMS);
    AT(page, place) {
        HOLDS(!unreadable[a][b] && cell[a][b] == ONES && value != ONES, "a word that is programmed is erased");
        if (cut) is_left(a, b, value, value);
        else cell[a][b] = value;
    }
    return cut;
}

static void erase_cut(uint32_t a) {
    for (uint32_t b = 0; b < NUMBERS; b += PER_WORD) {
        const uint64_t first = cell[a][b], second = cell[a][b + PER_WORD - 1];
        is_left(a, b, ONES, KIND == EE_PAIRS ? first : 0);
        if (KIND != EE_WORDS) is_left(a, b + PER_WORD - 1, ONES, KIND == EE_PAIRS ? second : 0);
        if (KIND == EE_PAIRS_CLEARING) no_value_by_chance(a, b, first, second);
    }
}

uint32_t the_erase(void *context, uint32_t page) {
    HOLDS(page < 2 * PAGES, "no page is erased that the flash hasn't");
    HOLDS(is_on, "no page is erased behind what failed");
    erases++;
    const _Bool cut = breaks(BREAKS == STEPS || BREAKS == ERASES);
    for (uint32_t a = 0; a < 2 * PAGES; a++) {
        if (a != page) continue;
        if (cut) erase_cut(a);
        else
            for (uint32_t b = 0; b < NUMBERS; b++) unreadable[a][b] = 0, cell[a][b] = ONES;
    }
    return cut;
}
