/* Answers scripts of `ee run` by the library, on the flash in memory, with a word for an argument on one of pairs; `compare`
 * holds the answers to the worked examples and to the proved program. Each line of standard input names an image and a script,
 * with a tab between them. The image is replaced by what the script leaves, and the answers go into the file that has the
 * script's name and `.answers` behind it. */
#include <inttypes.h>
#include <stdlib.h>
#include <string.h>

#include "sim.h"

static sim part;
static ee_flash flash;
static ee_store store;
static unsigned long moves;

/* Of pairs, since a script counts words: the further word or page that is cut, 0 for none, how, and the part's own functions. */
static uint32_t cut_in;
static sim_tear tear;
static ee_flash numbers;

static void needed(int holds, const char *what) {
    if (holds) return;
    fprintf(stderr, "%s\n", what);
    exit(1);
}

static FILE *opened(const char *name, const char *mode) {
    FILE *file = fopen(name, mode);
    needed(file != NULL, name);
    return file;
}

/* Whether power is cut in the word or page that begins. */
static int is_cut(void) { return part.is_on && cut_in > 0 && --cut_in == 0; }

/* Programs a number. A word that is cut is cut in one of its two. */
static uint32_t program(void *context, uint32_t page, uint32_t place, uint64_t value) {
    static const struct {
        uint32_t number;
        sim_tear leaves;
    } torn[4] = {{1, SIM_TORN}, {1, SIM_DONE}, {2, SIM_NOTHING}, {2, SIM_TORN}};
    if (place % 2 == 0 && is_cut()) {
        if (tear == SIM_NOTHING) sim_cut(&part, 1, SIM_NOTHING);
        else if (tear == SIM_DONE) sim_cut(&part, 2, SIM_DONE);
        else sim_cut(&part, torn[part.programmed % 4].number, torn[part.programmed % 4].leaves);
    }
    return numbers.program(context, page, place, value);
}

/* Erases a page. Bits leave an erased word as it is where a script has a torn one: so a test puts it there. */
static uint32_t erase(void *context, uint32_t page) {
    int cut = is_cut();
    if (cut) sim_cut(&part, 1, tear);
    uint32_t failed = numbers.erase(context, page);
    for (uint32_t place = 0; cut && place < part.page_words; place++) {
        uint64_t *pair = &part.words[page][2 * place];
        int torn = tear == SIM_TORN || (tear == SIM_MIXED && place % 3 == 2);
        if (torn && pair[0] == UINT64_MAX && pair[1] == UINT64_MAX) pair[0] = 1;
    }
    return failed;
}

/* The flash of the part that was read. */
static void take_flash(void) {
    flash = numbers = sim_flash(&part);
    cut_in = 0;
    if (!part.pairs) return;
    flash.program = program;
    flash.erase = erase;
}

static void cut(uint32_t step, sim_tear leaves) {
    if (!part.pairs) sim_cut(&part, step, leaves);
    cut_in = step;
    tear = leaves;
}

static uint32_t generation(void) {
    ee_numbers numbers;
    return ee_counts(&store, &numbers) == EE_OK ? numbers.generation : 0;
}

/* The word for a status of a change, a clean step or a reading. */
static const char *answer(uint32_t status) {
    switch (status) {
    case EE_OK: return "ok";
    case EE_FULL: return "full";
    case EE_SPENT: return "spent";
    case EE_ABSENT: return "absent";
    case EE_DRIVER: return "cut";
    case EE_NOT_OPEN: return "off";
    default: return "refused";
    }
}

/* The word for a change that was begun in a generation. */
static const char *changed(uint32_t status, uint32_t before) {
    int is_moved = status == EE_OK && generation() != before;
    moves += (unsigned long)is_moved;
    return is_moved ? "moved" : answer(status);
}

static void clean(FILE *answers) {
    uint32_t status = ee_clean(&store);
    fprintf(answers, "%s\n", status == EE_OK ? "clean" : status == EE_NOTHING ? "idle" : answer(status));
}

static void read_one(FILE *answers, uint16_t address) {
    uint32_t value, status = ee_read(&store, address, &value);
    if (status == EE_OK) fprintf(answers, "%" PRIu32 "\n", value);
    else fprintf(answers, "%s\n", status == EE_NOTHING ? "none" : answer(status));
}

static void answer_line(FILE *answers, const char *line) {
    uint16_t address;
    uint32_t value, before = generation();
    char letter;
    if (sscanf(line, "w %" SCNu16 " %" SCNu32, &address, &value) == 2) {
        fprintf(answers, "%s\n", changed(ee_write(&store, address, value), before));
    } else if (sscanf(line, "f %" SCNu16, &address) == 1) {
        fprintf(answers, "%s\n", changed(ee_forget(&store, address), before));
    } else if (sscanf(line, "r %" SCNu16, &address) == 1) {
        read_one(answers, address);
    } else if (sscanf(line, "x %" SCNu32 " %c", &value, &letter) == 2) {
        cut(value, (sim_tear)letter);
        fputs("armed\n", answers);
    } else if (strcmp(line, "c\n") == 0) {
        clean(answers);
    } else {
        needed(strcmp(line, "p\n") == 0, "a script has a line that is none");
        sim_power(&part);
        uint32_t status = ee_open(&store, &flash);
        fprintf(answers, "%s\n", status == EE_OK ? "open" : answer(status));
    }
}

static void end(FILE *answers) {
    ee_numbers n;
    if (ee_counts(&store, &n) == EE_OK)
        fprintf(answers, "end fill %" PRIu32 " room %" PRIu32 " live %" PRIu32 " pending %" PRIu32, n.fill, n.slots - n.fill, n.live,
                n.pending);
    else fputs("end off", answers);
    fprintf(answers, " transfers %lu\n", moves);
}

/* What an image holds that holds no store. */
static const char *fault(uint32_t status) {
    switch (status) {
    case EE_UNFORMATTED: return "unformatted";
    case EE_NO_LIVE_SET: return "no live set";
    case EE_TWO_LIVE: return "two live sets";
    default: return "foreign word";
    }
}

static void answer_lines(FILE *answers, const char *script) {
    char line[64];
    FILE *lines = opened(script, "r");
    moves = 0;
    while (fgets(line, sizeof line, lines)) answer_line(answers, line);
    end(answers);
    fclose(lines);
}

static void play(const char *image, const char *script, int pairs) {
    char name[4096];
    FILE *file = opened(image, "r");
    needed(pairs ? sim_read_pairs(&part, file) : sim_read(&part, file), "an image is none");
    fclose(file);
    needed((size_t)snprintf(name, sizeof name, "%s.answers", script) < sizeof name, "a name is too long");
    FILE *answers = opened(name, "w");
    take_flash();
    uint32_t status = ee_open(&store, &flash);
    if (status == EE_OK) answer_lines(answers, script);
    else fprintf(answers, "image %s\n", fault(status));
    fclose(answers);
    if (status != EE_OK) return;
    file = opened(image, "w");
    sim_write(&part, file);
    fclose(file);
}

int main(int words, char **given) {
    (void)given;
    char line[8192];
    while (fgets(line, sizeof line, stdin)) {
        line[strcspn(line, "\n")] = 0;
        char *script = strchr(line, '\t');
        needed(script != NULL, "a line names no script");
        *script++ = 0;
        play(line, script, words > 1);
    }
    return 0;
}
