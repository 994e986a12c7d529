/* SPDX-License-Identifier: MIT OR Apache-2.0 */
/* ee: variables in flash, after ST's AN4894. The store for firmware: ee.c, made from proved sources, see README.md.
 *
 * The flash is two sets of `pages` pages (1 to 64), each of `page_words` words of 64 bits (5 to 512). Pages are numbered
 * from 0, those of the first set first, and the words of a page from 0. A set has pages * (page_words - 4) slots: as many
 * variables can have a value. A variable has 32 bits, and an address of 1 to 65534.
 *
 * `kind` says what stands in a word. A part with error correction (ECC) takes EE_CODED, where each has a check of 15 bits: a word
 * that a cut left, and that the ECC then corrects into another number, is told by it. One without gives numbers of 64 bits, and a
 * word is two of them, a value beside its complement, which takes twice the flash.
 *
 * The library allocates nothing. It keeps what it knows in the `ee_store` that the caller lends, and reads and writes the
 * flash by the three functions of an `ee_flash`. Whatever these answer, none is asked for a page or a word that the flash does
 * not have.
 *
 * Every call answers a status: one of its own list below, or, before these, EE_NULL, EE_NOT_OPEN, EE_BUSY, EE_WRONG_SHAPE or
 * EE_WRONG_NUMBER, by which a call refuses its pointers, its store, its flash or an address. Pointers that are NULL are refused
 * with EE_NULL. All others must be good, and aligned as C has it for their types; so must be what `words` answers.
 *
 * One call is made on a store at a time. A call from inside one of the three functions, or from an interrupt that breaks into a
 * call on the same store, is refused with EE_BUSY. That is not so of the calls that take an `ee_flash`: make none of them there.
 * Threads hold one mutex around each call, for all stores and drivers of one flash controller. No two stores are on one flash.
 *
 * Nothing here calls itself, no memory is asked for, and each loop has an end. At most so many words are read, words
 * programmed and pages erased in a call, with P pages in a set, S = P * (page_words - 4) slots, L addresses with a value behind
 * the call, which are S at most, W = 2 * P * page_words words of the flash, and N = S * (S / 28 + 1). What is programmed and
 * erased is proved of the sources; what is read is counted by a test:
 *
 *                                       words read       programmed       erased
 *     ee_start                          3 * W            2 * P            2 * P
 *     ee_open                           3 * W            2 * P            0
 *     ee_format                         W + 2 * P + 2    2                2 * P
 *     ee_write   where a slot is free   2                3                0
 *                else                   2 * N + 2 * W    L + 3 * P + 1    P
 *     ee_write_all   of n values        2 * N + 2 * W    L + 3 * P + 1    P
 *                                       + n * S
 *     ee_forget  where a slot is free   S + 2            3                0
 *                else                   N + 2 * W        L + 3 * P + 1    P
 *     ee_forget_all                     2 * W            P + 2            P
 *     ee_clean                          W / 2 + P        0                1
 *     ee_read                           S                0                0
 *     ee_load        of n values        S * (n / 32 + 1)    0             0
 *     ee_read_span                      S                0                0
 *     ee_next                           N                0                0
 *     ee_counts                         N + W            0                0
 *     ee_rescue                         N + 3 * W        L + 3 * P + 1    P
 *     ee_bad_words                      2 * W            0                0
 *     ee_foreign_word                   3 * W            0                0
 *     ee_other_shape                    4                0                0
 *     ee_word_of                        1                0                0
 *
 * On pairs a word read or programmed is two numbers, ee_open reads W words more, and ee_start 2 * W. On coded words ee_start reads
 * W words more, and all that answer EE_OTHER_SHAPE four. For each torn word, which a cut left half written, ee_start and ee_open
 * read 17 words more.
 *
 * A watchdog waits longer than the longest step, which is an erase. On a part with one bank the core stalls in a step, on a fetch
 * from the flash that is erased: no loop runs there, nor SysTick, unless it stands in RAM. So feed the watchdog in your three
 * functions, before each step and in `word`. Between two calls of the three the library does some hundred instructions; but
 * ee_write_all first compares each two addresses of its list, and ee_load each 16 words with 32 addresses.
 *
 * ee.c leaves calls out where these are defined, for a program that makes none of them: EE_NO_LISTS ee_write_all, EE_NO_FORGET
 * ee_forget and ee_forget_all, EE_NO_RESCUE ee_rescue, ee_bad_words, ee_foreign_word, ee_word_of and ee_other_shape, EE_NO_OPEN
 * ee_open and ee_format. With EE_NO_PAIRS it takes no pairs, with EE_NO_CODED no coded words. With EE_INDEX it takes an index
 * (ee_index).
 *
 * The stack that a call takes, beside what the three functions take, is in README.md and ../RESULTS.md.
 */
#ifndef EE_H
#define EE_H

#include <stdbool.h>
#include <stdint.h>

/* The version of the library. */
#define EE_VERSION_MAJOR 0
#define EE_VERSION_MINOR 2
#define EE_VERSION_PATCH 0
#define EE_VERSION "0.2.0"

#ifdef __GNUC__
#define EE_COPY __builtin_memcpy /* takes no header, and no call */
#else
#include <string.h>
#define EE_COPY memcpy
#endif

#ifdef __cplusplus
extern "C" {
#endif

/* What a call answers: one of the EE_ numbers below, of EE_OK to EE_HURT. */
typedef uint32_t ee_result;

/* What a flash has. */
enum {
    /* Words with no check. They rest on a part whose ECC tells every word that a cut left. */
    EE_WORDS = 0,
    /* Numbers, for a part without error correction: `word` and `program` are asked for numbers, of which a page has
     * 2 * page_words. A number may be programmed by parts, in any order.
     *
     * This is what the part owes: cells go one way, from one to zero while a number is programmed and from zero to one while a
     * page is erased. So a cut in `program` leaves a number with every bit of the one asked for, and a cut in `erase` leaves each
     * number of the page with every bit that it had. A number reads the same until it is written.
     *
     * Where `word` answers EE_TORN that number counts as 0, which stands in no word of a store: the word is torn, or is none of the
     * store's, and the next opening may say EE_FOREIGN. */
    EE_PAIRS = 1,
    /* The same where an erase may clear the cells of its page first, as many serial flashes do. A cut in `program` leaves what it
     * leaves there, and a cut in `erase` any numbers. That no two of a word are a value and its complement that weren't is a
     * premise: chance makes them of 64 bits, and of a word that a cut `program` tore of the few that it lacks. */
    EE_PAIRS_CLEARING = 2,
    /* Coded words, for a part whose reads may correct a bit: as EE_WORDS, but bits 31 to 17 of each are a check. Whatever a cut
     * leaves of a word reads as that word or as torn, also with any one bit turned. A word that no store wrote is torn.
     *
     * This is what the part owes: cells go one way, as of EE_PAIRS, and a word reads as its cells, with one bit turned, or EE_TORN.
     * A cut erase makes no word whole that an earlier cut had left torn, and leaves an erased word erased: so a first start that
     * was cut is made again. */
    EE_CODED = 3
};

/* An index, in memory that the caller lends: for each variable the slot in which it stands, four bytes a variable. So a read looks
 * at one word of the flash, and a move copies without looking for what is live. It takes an ee.c that was compiled with EE_INDEX;
 * any other does as without one. EE_INDEX_IN(entries) makes one of an array of entries, one for each variable. It is the store's
 * as long as that is used.
 *
 * Where more addresses have a value than there are entries, the store gives the index up, and looks through the slots as without
 * one; an opening does so too. `is_given_up` tells. So no call is refused for want of entries. A move behind which all have room
 * brings the index back, and so does ee_forget_all. Behind ee_rescue it is made anew. */
typedef struct ee_entry {
    uint16_t first, second; /* private */
} ee_entry;
typedef struct ee_index {
    struct ee_list {
        struct ee_room {
            ee_entry *items;
            uint32_t len;
        } room;
        uint32_t count;
    } list; /* private */
    bool is_given_up;
} ee_index;
#define EE_INDEX_IN(entries) {{{(entries), (uint32_t)(sizeof(entries) / sizeof((entries)[0]))}, 0}, true}

/* A flash. It stays where it is, and as it is, while a store is open on it; it may be a constant. */
typedef struct ee_flash {
    void *context; /* given to each of the three functions; the library does not look at it */
    /* Give the same two at each start. EE_CODED stores them, and answers EE_OTHER_SHAPE to others. Else the flash doesn't, and
     * ee_start may answer EE_OK with no values, or with older ones. */
    uint32_t pages;      /* of one set, 1 to 64: the flash has twice as many */
    uint32_t page_words; /* 5 to 512 */
    /* Reads a word. 0, and the word in `value`: all ones is an erased word. EE_TORN where the word can't be read: an uncorrectable
     * ECC error, and also all ones that needed a correction, since a part may not program such a word. Any other number where the
     * read itself failed, as on a bus that isn't up: nothing is known of the word, so the call makes no step after that and answers
     * EE_DRIVER, and the store is off. Such a number is EE_READ_FAILED, or a status of the driver's own. Never
     * EE_TORN for a read that failed: ee_start would take each word for torn and, of EE_WORDS, erase all values.
     *
     * A word reads the same until it is written. Before the first read the flash is ready and in its mode for reading; until then
     * the read fails. */
    uint32_t (*word)(void *context, uint32_t page, uint32_t place, uint64_t *value);
    /* Programs a word that is erased, with a value that is not all ones. 0 once it reads back; any other number where it
     * failed. */
    uint32_t (*program)(void *context, uint32_t page, uint32_t place, uint64_t value);
    /* Erases a page. 0 once every word of it reads as erased; any other number where it failed. */
    uint32_t (*erase)(void *context, uint32_t page);
    /* What the flash has: EE_WORDS, EE_PAIRS, EE_PAIRS_CLEARING or EE_CODED. Any other is refused with EE_WRONG_SHAPE. */
    uint32_t kind;
    /* NULL, or for speed alone: where `count` words of a page stand in memory, from a place on; all are in the page. They are 1
     * to EE_RUN, on pairs 2 to 2 * EE_RUN numbers. Each reads as by `word`: all ones is an erased one. NULL as an answer where one
     * of them can't be read, where a read failed, or where they stand in no memory: then `word` is asked for each. They are looked
     * at before one of these functions is called again, so they may stand in a buffer, the same each time. */
    const uint64_t *(*words)(void *context, uint32_t page, uint32_t place, uint32_t count);
    /* NULL, or for speed alone: an index of this flash and of no other. */
    ee_index *index;
} ee_flash;

/* The most words that `words` is asked for at once; of numbers twice as many. */
#define EE_RUN 16

/* What `word` answers where the word can't be read: an uncorrectable ECC error. */
#define EE_TORN UINT32_C(0x00ee7042)

/* What it may answer where the read itself failed. Every other answer but 0 and EE_TORN says the same. */
#define EE_READ_FAILED UINT32_C(0x00ee00ee)

/* Private: what a store keeps. */
struct ee_shape {
    uint32_t pages;
    uint32_t words;
};
struct ee_power {
    const ee_flash *flash; /* NULL while the store is off */
    const void *idle;      /* the store's own place while no call is made on it, NULL in a call */
};
struct ee_device {
    struct ee_power *power; /* where it stands in the store */
    struct ee_shape shape;
};
struct ee_layout {
    uint32_t side;
    uint32_t generation;
    uint32_t fill;
    uint32_t current;
};
struct ee_known {
    struct ee_layout layout;
    struct ee_index *lookup; /* of the flash */
};
struct ee_kept {
    struct ee_device flash;
    struct ee_known known;
};

/* A store, in memory that the caller lends, which stays where it is. ee_start, ee_open, ee_format or ee_rescue comes before every
 * other call on it. One of zeros is off, and so is a copy of one. A copy that is put where the store stood isn't told from it, and
 * may be an older one: open it before any other call. Open a copy whose store is gone, too, before any other call: that would
 * compare the address of what is gone, which C99 leaves undefined (6.2.4). */
typedef struct ee_store {
    /* Private. The members are those of ee.c. */
    union {
        uintptr_t words[10];
        struct {
            struct ee_kept store;
            struct ee_power power;
        } parts;
    } memory;
} ee_store;

enum {
    EE_OK = 0,             /* done */
    EE_NOTHING = 1,        /* there is nothing: no value, no next variable, no page to be erased */
    /* Refusals of a change. Nothing was written. */
    EE_FULL = 2,           /* more addresses would have a value than there are slots */
    EE_SPENT = 3,          /* a move is needed, and the generation is the greatest, 4294967294 */
    EE_ABSENT = 4,         /* the address has no value to be forgotten */
    /* The flash holds no store, as it reads. Nothing was written. */
    EE_UNFORMATTED = 5,    /* every word is erased */
    EE_NO_LIVE_SET = 6,    /* no set is live */
    EE_TWO_LIVE = 7,       /* both sets are; one word that went bad can make that, and ee_rescue keeps all values then */
    EE_FOREIGN = 8,        /* a word of the live set is not the store's; on pairs, a word of either set */
    /* A function of the flash failed, and the store is off: a change was made or was not, a list of values as a whole, and all
     * else is as before. Also where words that changed from look to look led to a page that the flash does not have. */
    EE_DRIVER = 9,
    /* The store is off, or was never opened. Open it. It comes before all refusals but that of `store` as a NULL pointer; so does
     * EE_BUSY. */
    EE_NOT_OPEN = 10,
    /* Refusals of the call itself. Nothing was written. */
    EE_WRONG_SHAPE = 11,   /* `pages`, `page_words` or `kind` is out of range */
    EE_WRONG_NUMBER = 12,  /* the address is 0 or 65535 */
    EE_NULL = 13,          /* a pointer is NULL */
    /* Another refusal of a change. Nothing was written. */
    EE_DUPLICATE = 14,     /* an address stands twice in the list */
    /* Another call on the store is being made, as where an interrupt breaks into it: this one did nothing. */
    EE_BUSY = 15,
    /* Of EE_CODED: the flash holds a store of coded words of other `pages` or `page_words`, or one of EE_WORDS, by the mark in the
     * first page of a set. It comes before all else that an opening says of the flash. Nothing was written. */
    EE_OTHER_SHAPE = 16,
    /* Of records (ee_records.h): there are more bytes than the record, or the space that is lent, has room for. */
    EE_TOO_LONG = 17,
    /* A word of the record went bad: its bytes and its check don't agree. A write gives it new bytes. */
    EE_HURT = 18
};

/* A value that an address gets. */
typedef struct ee_value {
    uint16_t address;
    uint32_t value;
} ee_value;

/* Addresses that follow one another, with their values. */
enum { EE_SPAN = 16 };
typedef struct ee_span {
    uint16_t first;
    uint32_t count;            /* `first` and `count` - 1 behind it */
    uint64_t numbers[EE_SPAN]; /* the low 32 bits of number i are `first + i` where that has a value; the high 32 are the value */
} ee_span;

/* How a store stands. */
typedef struct ee_numbers {
    uint32_t slots;      /* of a set: as many changes as it takes */
    uint32_t fill;       /* how many of them are used, torn ones too */
    uint32_t live;       /* how many addresses have a value */
    uint32_t pending;    /* how many pages wait to be erased */
    uint32_t torn;       /* how many of the slots are torn: power was cut while they were programmed, or they went bad */
    uint32_t generation; /* of the live set: 1 to 4294967294, one more with each move */
} ee_numbers;

/* How often a page was erased follows from the generation. An empty store has generation 1, so it made `generation - 1` moves,
 * and each set's pages are erased for every second move. So since the store was made no page was erased more often than
 * `generation / 2` times, and once more for each power cut in a move. Hold that against the cycles that the part's datasheet
 * tells. What was erased before the store was made, and by ee_format, is not in it. */

/* The call to make at each start, as others mount a file system. Opens the store that the flash holds, as ee_open, or makes the
 * first one: where no set is live and each word behind a page's header is erased or torn. On EE_CODED and EE_PAIRS that is where
 * every word is erased but the first two of page 0, and on EE_PAIRS_CLEARING where page 0 holds no value and all else is blank:
 * whatever else stands in that page is formatted over. But where its second number is the mark of a store of words, or (not with
 * EE_NO_CODED) of coded words, it is as on EE_PAIRS, so no value of such a store is erased. A first start in which power was cut is
 * made again; no value of this kind is erased. EE_OK; EE_OTHER_SHAPE, EE_NO_LIVE_SET, EE_TWO_LIVE, EE_FOREIGN, EE_DRIVER. */
ee_result ee_start(ee_store *store, const ee_flash *flash);

/* Opens the store that the flash holds. Where power was cut it sets the marks that were left to set, else it writes nothing.
 * EE_OK; EE_OTHER_SHAPE, EE_UNFORMATTED, EE_NO_LIVE_SET, EE_TWO_LIVE, EE_FOREIGN, EE_DRIVER. */
ee_result ee_open(ee_store *store, const ee_flash *flash);

/* Makes a store with nothing in it, whatever the flash held: each page that is not blank is erased. Where it is cut on a flash
 * that held values, that may hold no store, or one with a part of those values, or with older ones: format again. EE_OK;
 * EE_DRIVER. */
ee_result ee_format(ee_store *store, const ee_flash *flash);

/* Gives an address a value. Where no slot is free all variables move to the other set. EE_OK; EE_FULL, EE_SPENT, EE_DRIVER. */
ee_result ee_write(ee_store *store, uint16_t address, uint32_t value);

/* Gives addresses their values at once, each address once: wherever this call is cut, all of them are there afterwards or none.
 * The list has `count` entries, stays the caller's and may be a constant. For two and more all variables move to the other set,
 * whether a slot is free or not; a list of one is as ee_write, and an empty one changes nothing. The first that applies:
 * EE_DUPLICATE, EE_FULL, EE_SPENT, EE_DRIVER; or EE_OK. */
ee_result ee_write_all(ee_store *store, const ee_value *values, uint32_t count);

/* Takes the value of an address away. EE_OK; EE_ABSENT, EE_SPENT, EE_DRIVER. */
ee_result ee_forget(ee_store *store, uint16_t address);

/* Takes the values of all addresses away at once, as for a factory reset: wherever this call is cut, each address has its value
 * afterwards or none has one. Where a slot is used it makes the other set the live one, with nothing in it; else it writes
 * nothing. The old values' words stay in the flash until their set is erased: call ee_clean until it answers EE_NOTHING, at most
 * `pages` times. EE_OK; EE_SPENT, EE_DRIVER. */
ee_result ee_forget_all(ee_store *store);

/* Erases one page that waits for it, so that a later move finds less to do. EE_OK, EE_NOTHING; EE_DRIVER. */
ee_result ee_clean(ee_store *store);

/* The value of an address. EE_OK, EE_NOTHING; EE_DRIVER. `value` is written with EE_OK alone. */
ee_result ee_read(const ee_store *store, uint16_t address, uint32_t *value);

/* Gives each of `count` values the value of its address, as ee_read would, but by one look through the slots for each 32,
 * also with an index: the call with which a program that has settings starts. A value whose address has none keeps what
 * stands in it, its default; an address may stand there more than once. `*loaded` becomes how many got a value. EE_OK, also
 * where `count` is 0; EE_DRIVER, where the values up to a multiple of 32 may have been loaded, and `*loaded` isn't written. */
ee_result ee_load(const ee_store *store, ee_value *values, uint32_t count, uint32_t *loaded);

/* The values of `count` addresses, `first` and those behind it, or of fewer: of EE_SPAN at the most, of one by an index. It looks
 * through the slots once, from the newest down until all are found. A count of 0 is refused with EE_WRONG_NUMBER. EE_OK;
 * EE_DRIVER. `span` is to be used with EE_OK alone. */
ee_result ee_read_span(const ee_store *store, uint16_t first, uint32_t count, ee_span *span);

/* The next address above `*address` that has a value, with the value; the first of all where `*address` is 0. EE_OK,
 * EE_NOTHING; EE_DRIVER. Both are written with EE_OK alone. */
ee_result ee_next(const ee_store *store, uint16_t *address, uint32_t *value);

/* How the store stands. EE_OK; EE_DRIVER. `numbers` is written with EE_OK alone. */
ee_result ee_counts(const ee_store *store, ee_numbers *numbers);

/* The two calls behind an opening that is refused, since a word of the flash went bad. A program that calls neither has no
 * byte of them.
 *
 * Makes a store of what the slots still say, whatever the flash holds: the values move to the other set, as in a write that
 * finds no free slot, and that set is erased first. Two questions come before. Are shape and kind those of the firmware that wrote
 * the flash? By others words are taken for values that are none, and values are erased. And is the flash ready? So call ee_start
 * again, with pauses, before this.
 *
 * One word that went bad costs the value that it held, and no more: its address has an older value then, or none. That holds where
 * the words 0 and 1 of the live set's first page are not erased. If word 1 reads as all ones, and the other set has its whole erase
 * mark, the older set is taken. docs/PROMISES.md says of which words it holds, and where nothing is promised.
 *
 * A slot that went bad may refuse no opening: it counts as torn, and its address has an older value, or none, at each start. A
 * program that has to know notes how many slots are torn (ee_counts), or writes a sum over its values with them, in one list.
 *
 * Where it is cut or a step fails, call it again. The values are there still, but where the word went bad that commits the set:
 * then older ones may be. None is lost so where no page waited to be erased when the word went bad. So call ee_clean behind each
 * move until it answers EE_NOTHING.
 *
 * On pairs two numbers that no store wrote are a bad word too. Then call ee_clean behind this one too, at most `pages` times:
 * where they stand in the other set, ee_start and ee_open refuse the flash until that page is erased. Of a page that has such
 * numbers nothing is promised if power is cut in its erase.
 *
 * EE_OK; EE_OTHER_SHAPE, EE_NOTHING where no set is begun, EE_SPENT, EE_DRIVER. All but EE_OK and EE_DRIVER leave the flash as it
 * was. */
ee_result ee_rescue(ee_store *store, const ee_flash *flash);

/* How many words are bad of the set that a rescue would take: they can't be read, or may not stand where they stand. 0 where
 * no set is begun. A word in whose step power was cut is one of them too, and refuses no opening. It takes no store and writes
 * nothing. EE_OK; EE_OTHER_SHAPE, EE_DRIVER, or EE_NULL and EE_WRONG_SHAPE. `count` is written with EE_OK alone. */
ee_result ee_bad_words(const ee_flash *flash, uint32_t *count);

/* Where the first word stands for which ee_start and ee_open answer EE_FOREIGN: its page, and its place there, of the words, also
 * on pairs. It takes no store and writes nothing. EE_OK; EE_NOTHING where a start doesn't answer that; EE_OTHER_SHAPE, EE_DRIVER,
 * or EE_NULL and EE_WRONG_SHAPE. Both are written with EE_OK alone. A program that doesn't call it has no byte of it. */
ee_result ee_foreign_word(const ee_flash *flash, uint32_t *page, uint32_t *word);

/* What the store takes a word of a flash for: EE_OK, and its number, all ones for an erased one; EE_TORN; EE_DRIVER where a read
 * failed, EE_WRONG_NUMBER where there is no such word, EE_NULL and EE_WRONG_SHAPE. It takes no store and writes nothing. */
ee_result ee_word_of(const ee_flash *flash, uint32_t page, uint32_t word, uint64_t *number);

/* The shape for which ee_start and the like answer EE_OTHER_SHAPE: 0 and 0 where the flash holds a store of EE_WORDS. It takes no
 * store and writes nothing. EE_OK; EE_NOTHING where they don't answer that; EE_DRIVER, or EE_NULL and EE_WRONG_SHAPE. Both are
 * written with EE_OK alone. */
ee_result ee_other_shape(const ee_flash *flash, uint32_t *pages, uint32_t *page_words);

/* Helpers, made of the calls above. A program that calls none of them is the same as without them, byte by byte. */

/* Gives an address a value as ee_write, but writes nothing where it has that value already: this saves a slot, and takes the
 * time of an ee_read. What ee_write answers; where the value can't be read, what ee_read answers. */
static inline ee_result ee_update(ee_store *store, uint16_t address, uint32_t value) {
    uint32_t found = 0;
    ee_result status = ee_read(store, address, &found);
    if (status == EE_OK && found == value) return EE_OK;
    if (status != EE_OK && status != EE_NOTHING) return status;
    return ee_write(store, address, value);
}

/* The value of an address, or `otherwise` where it has none. It is `otherwise` too where the call was refused or a read
 * failed; ee_read tells these apart. After a read that failed the store is off, so a write of what was made of `otherwise`
 * is refused with EE_NOT_OPEN. */
static inline uint32_t ee_read_or(const ee_store *store, uint16_t address, uint32_t otherwise) {
    uint32_t value = otherwise;
    return ee_read(store, address, &value) == EE_OK ? value : otherwise;
}

/* The 32 bits that stand for a signed number, a float or a bool: a value for any call above. */
static inline uint32_t ee_int(int32_t number) { return (uint32_t)number; }

static inline uint32_t ee_float(float number) {
    uint32_t value;
    EE_COPY(&value, &number, sizeof value);
    return value;
}

static inline uint32_t ee_bool(bool truth) { return truth ? 1u : 0u; }

typedef char ee_float_has_32_bits[sizeof(float) == sizeof(uint32_t) ? 1 : -1];

/* What a value stands for, the other way round. Of a bool each value but 0 is true. */
static inline int32_t ee_as_int(uint32_t value) {
    int32_t number;
    EE_COPY(&number, &value, sizeof number);
    return number;
}

static inline float ee_as_float(uint32_t value) {
    float number;
    EE_COPY(&number, &value, sizeof number);
    return number;
}

static inline bool ee_as_bool(uint32_t value) { return value != 0; }

/* Read what stands for a signed number, a float or a bool. They answer as ee_read, and write the last with EE_OK alone: so it
 * may hold a default before. */
static inline ee_result ee_read_int(const ee_store *store, uint16_t address, int32_t *number) {
    uint32_t value = 0;
    ee_result status = ee_read(store, address, number ? &value : 0);
    if (status == EE_OK) *number = ee_as_int(value);
    return status;
}

static inline ee_result ee_read_float(const ee_store *store, uint16_t address, float *number) {
    uint32_t value = 0;
    ee_result status = ee_read(store, address, number ? &value : 0);
    if (status == EE_OK) *number = ee_as_float(value);
    return status;
}

static inline ee_result ee_read_bool(const ee_store *store, uint16_t address, bool *truth) {
    uint32_t value = 0;
    ee_result status = ee_read(store, address, truth ? &value : 0);
    if (status == EE_OK) *truth = ee_as_bool(value);
    return status;
}

/* What failed: a step of the driver's, or a read. */
typedef struct ee_error {
    uint32_t step; /* EE_STEP_READ, EE_STEP_PROGRAM or EE_STEP_ERASE; 0 where nothing failed yet */
    uint32_t page;
    uint32_t word; /* in the page, also where the flash has numbers; 0 of an erase */
    uint32_t code; /* what the driver's function answered */
} ee_error;

enum { EE_STEP_READ = 1, EE_STEP_PROGRAM = 2, EE_STEP_ERASE = 3 };

/* A flash before the driver's own, which notes what fails there. Call ee_note_errors, and open the store on what it gives. It stays
 * where it is, as an `ee_flash`. Each call of the driver's functions goes through one more. */
typedef struct ee_noted {
    ee_flash flash;
    const ee_flash *driver;
    ee_error last;
} ee_noted;

static inline uint32_t ee_noted_step(ee_noted *noted, uint32_t step, uint32_t page, uint32_t place, uint32_t code) {
    if (code != 0) {
        noted->last.step = step;
        noted->last.page = page;
        noted->last.word = noted->flash.kind == EE_PAIRS || noted->flash.kind == EE_PAIRS_CLEARING ? place / 2 : place;
        noted->last.code = code;
    }
    return code;
}

static inline uint32_t ee_noted_word(void *context, uint32_t page, uint32_t place, uint64_t *value) {
    ee_noted *noted = (ee_noted *)context;
    uint32_t code = noted->driver->word(noted->driver->context, page, place, value);
    return code == EE_TORN ? code : ee_noted_step(noted, EE_STEP_READ, page, place, code);
}

static inline uint32_t ee_noted_program(void *context, uint32_t page, uint32_t place, uint64_t value) {
    ee_noted *noted = (ee_noted *)context;
    uint32_t code = noted->driver->program(noted->driver->context, page, place, value);
    return ee_noted_step(noted, EE_STEP_PROGRAM, page, place, code);
}

static inline uint32_t ee_noted_erase(void *context, uint32_t page) {
    ee_noted *noted = (ee_noted *)context;
    return ee_noted_step(noted, EE_STEP_ERASE, page, 0, noted->driver->erase(noted->driver->context, page));
}

static inline const uint64_t *ee_noted_words(void *context, uint32_t page, uint32_t place, uint32_t count) {
    ee_noted *noted = (ee_noted *)context;
    return noted->driver->words(noted->driver->context, page, place, count);
}

/* The flash to open a store on, so that what fails on the driver's is noted. NULL where a pointer is. */
static inline const ee_flash *ee_note_errors(ee_noted *noted, const ee_flash *driver) {
    if (!noted || !driver) return 0;
    noted->flash = *driver;
    noted->flash.context = noted;
    if (driver->word) noted->flash.word = ee_noted_word;
    if (driver->program) noted->flash.program = ee_noted_program;
    if (driver->erase) noted->flash.erase = ee_noted_erase;
    if (driver->words) noted->flash.words = ee_noted_words;
    noted->driver = driver;
    noted->last.step = noted->last.page = noted->last.word = noted->last.code = 0;
    return &noted->flash;
}

/* What failed last, behind EE_DRIVER. EE_OK; EE_NOTHING where nothing failed since ee_note_errors; EE_NULL. Behind EE_FOREIGN
 * ask ee_foreign_word. */
static inline ee_result ee_last_error(const ee_noted *noted, ee_error *error) {
    if (!noted || !error) return EE_NULL;
    if (noted->last.step == 0) return EE_NOTHING;
    *error = noted->last;
    return EE_OK;
}

/* A few words on a status, for a log. */
static inline const char *ee_status_text(ee_result status) {
    switch (status) {
    case EE_OK: return "done";
    case EE_NOTHING: return "there is nothing";
    case EE_FULL: return "more addresses than slots";
    case EE_SPENT: return "the last generation is used";
    case EE_ABSENT: return "the address has no value";
    case EE_UNFORMATTED: return "the flash is erased";
    case EE_NO_LIVE_SET: return "no set is live";
    case EE_TWO_LIVE: return "two sets are live";
    case EE_FOREIGN: return "a word is not the store's";
    case EE_DRIVER: return "the flash failed, and the store is off";
    case EE_NOT_OPEN: return "the store is off";
    case EE_WRONG_SHAPE: return "pages, page_words or kind is out of range, or the address is none of a port's";
    case EE_WRONG_NUMBER: return "the address is 0 or 65535";
    case EE_NULL: return "a pointer is NULL";
    case EE_DUPLICATE: return "an address stands twice in the list";
    case EE_BUSY: return "another call on the store is being made";
    case EE_OTHER_SHAPE: return "the store has other pages or page_words, or is of words";
    case EE_TOO_LONG: return "there are more bytes than the record or the space has room for";
    case EE_HURT: return "a word of the record went bad";
    default: return "no status of ee";
    }
}

#undef EE_COPY

#ifdef __cplusplus
}
#endif

#endif
