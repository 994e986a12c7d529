/* SPDX-License-Identifier: MIT OR Apache-2.0 */
/* ee: variables in flash, the library of ee.h as one file of C99.
 *
 * Made by firmware/c/to_c of firmware/rust/ee-store, which is made of proved sources, and of parts
 * that are written by hand: the device over the three functions of an `ee_flash`, and the calls
 * of ee.h. Change none of it here. */
#include "ee.h"

#include <stdbool.h>
#include <stddef.h>
#include <stdint.h>

/* By hand. A function that stands in the places where it is called, at every level of optimisation,
 * and one that stands in none of them, so that its stack is not theirs; one that changes nothing,
 * so that a loop asks it once. C99 has no words for it. An interrupt sees what stands before
 * EE_IN_ORDER, and nothing of what stands behind it. */
#if defined(__GNUC__)
#define EE_IN_PLACE static inline __attribute__((always_inline))
#define EE_APART static __attribute__((noinline))
#define EE_PURE static __attribute__((noinline, pure))
#define EE_IN_ORDER() __asm__ volatile("" : : : "memory")
#else
#define EE_IN_PLACE static inline
#define EE_APART static
#define EE_PURE static
#define EE_IN_ORDER() ((void)0)
#endif

/* By hand. Functions that only calls use which are left out have no use. */
#if defined(__GNUC__) && (defined(EE_NO_PAIRS) || defined(EE_NO_CODED) || defined(EE_NO_LISTS) || \
        defined(EE_NO_FORGET) || defined(EE_NO_RESCUE))
#pragma GCC diagnostic ignored "-Wunused-function"
#endif

/* By hand. Whether a flash has numbers, two for each word, and whether it has coded words. */
#ifdef EE_NO_PAIRS
#define EE_IS_OF_PAIRS(flash) ((void)(flash), false)
#elif defined(EE_NO_CODED)
#define EE_IS_OF_PAIRS(flash) ((flash)->kind != EE_WORDS)
#else
#define EE_IS_OF_PAIRS(flash) ((flash)->kind == EE_PAIRS || (flash)->kind == EE_PAIRS_CLEARING)
#endif
#ifdef EE_NO_CODED
#define EE_IS_CODED(flash) ((void)(flash), false)
#else
#define EE_IS_CODED(flash) ((flash)->kind == EE_CODED)
#endif

/* How many words a loop over a page asks its flash for at once. */
#define RUN 16u

/* What stands in the room for a run before that is read: any number. Its halves are alike, since
 * cores of 32 bits write such a number with less code. */
#define UNREAD UINT64_C(0x100000001)

/* The mark: what the header words that say active, valid and erasing hold once they are
 * programmed. */
#define MARK UINT64_C(0xAAAAAAAAAAAAAAAA)

/* Eight bits for each number of ones: the row of half of it, rounded up, and its lowest bit. A row
 * has a one that the next lacks, and two that each later one lacks. */
static const uint8_t WEIGHTS[57] = {
    0xfe, 0xf7, 0xf6, 0xb7, 0xb6, 0x9f, 0x9e, 0xdb, 0xda, 0xeb, 0xea, 0x6f, 0x6e, 0x7d, 0x7c, 0x3d,
    0x3c, 0xb9, 0xb8, 0xf1, 0xf0, 0x73, 0x72, 0x57, 0x56, 0xc7, 0xc6, 0xcd, 0xcc, 0x8d, 0x8c, 0x95,
    0x94, 0x93, 0x92, 0x1b, 0x1a, 0x59, 0x58, 0x69, 0x68, 0x65, 0x64, 0x27, 0x26, 0x07, 0x06, 0x43,
    0x42, 0xc1, 0xc0, 0xa1, 0xa0, 0x31, 0x30, 0x11, 0x10
};

/* Both halves of the mark, and the high half of all that stands in a header. */
#define HEADER_HALF UINT32_C(0xAAAAAAAA)

/* How many addresses a span has at the most. */
#define SPAN 16u

/* A number that says nothing, of an address. */
#define UNSAID UINT64_C(0x20001)

/* The words of a page's header, below its slots. */
#define HEADER_WORDS 4u

/* What a receive word is without its generation. */
#define RECEIVE UINT64_C(0xAAAAAAAA00000000)

/* The greatest generation of a set. */
#define GREATEST_GENERATION UINT32_C(4294967294)

/* How many addresses a batch has room for. */
#define BATCH 28u

/* How many words are asked for at once. */
#define STRETCH 16u

/* How many words commit a set: the first ones of its first page. */
#define COMMITTING 2u

/* What a word of flash holds, as it reads.
 *
 * Source: words of 64 bits, some of them unreadable, AN4894; the rest is ours. */
typedef uint8_t WordTag;
enum {
    /* Nothing was programmed since the page was erased. */
    Word_Erased,
    /* A programmed number, which is below `u64::MAX` on every device. */
    Word_Held,
    /* An uncorrectable ECC error: the word reads as unreadable. */
    Word_Torn
};

typedef struct Word {
    WordTag tag;
    uint64_t held; /* of Held */
} Word;

/* How large a device is: the pages of each of its two sets, 1 to 64, and the words of a page, 5 to
 * 512.
 *
 * Source: two sets of as many pages, AN4894; the limits are ours. */
typedef struct ee_shape Shape;

/* The name of a variable: a number of 1 to 65534. Addresses are ordered by number. */
typedef uint16_t Address;

/* What a header word says in the place of a mark. */
typedef uint8_t MarkRead;
enum {
    /* Nothing was programmed yet. */
    MarkRead_Absent,
    /* The mark is there. */
    MarkRead_Present,
    /* A torn word: a mark was begun. */
    MarkRead_Broken,
    /* Another number. */
    MarkRead_Foreign
};

/* What a word says in the place of a slot. */
typedef uint8_t SlotTag;
enum {
    /* Nothing was programmed yet. */
    Slot_Free,
    /* A torn word: it holds nothing and can't be programmed again. */
    Slot_Spoiled,
    /* The address has the value from here on. */
    Slot_Element,
    /* The address has no value from here on. The value is the one forgotten, and means nothing. */
    Slot_Forgotten,
    /* A number that spells neither. */
    Slot_Foreign
};

typedef struct Slot {
    SlotTag tag;
    Address address; /* of Element and Forgotten */
    uint32_t value; /* of Element and Forgotten */
} Slot;

/* One of the two sets of pages.
 *
 * Source: two sets, AN4894. */
typedef uint32_t Side;
enum {
    /* The pages from 0 on. */
    Side_First,
    /* The pages behind those. */
    Side_Second
};

/* A word of a page's header that can be programmed. */
typedef uint8_t MarkTag;
enum {
    /* The set has this generation, 1 to 4294967294, and takes elements. */
    Mark_Receive,
    /* The page takes new elements. */
    Mark_Active,
    /* The page is full. */
    Mark_Valid,
    /* The page's elements were transferred. */
    Mark_Erasing
};

typedef struct Mark {
    MarkTag tag;
    uint32_t receive; /* of Receive */
} Mark;

/* The places of a live set, by what may stand in them. */
typedef uint8_t TablePlace;
enum {
    /* The first page's receive and active words, which commit the set. */
    TablePlace_Committing,
    /* The receive word of a further page. */
    TablePlace_Receiving,
    /* A further page's active word, and any page's valid word. */
    TablePlace_Marking,
    /* Any page's erasing word. */
    TablePlace_Erasing,
    /* Any word behind a header. */
    TablePlace_InSlot
};

/* Where the live set of a legal image is and how far it is used. */
typedef struct ee_layout Layout;

/* Why an image is not legal. */
typedef uint8_t ScanFault;
enum {
    /* Every word of the device is erased. */
    ScanFault_Unformatted = EE_UNFORMATTED,
    /* No set is committed. */
    ScanFault_NoLiveSet = EE_NO_LIVE_SET,
    /* Both sets are committed, with equal generations. */
    ScanFault_TwoLive = EE_TWO_LIVE,
    /* The first word of the live set, by page and then place, that may not stand there. The page
     * is its number in the device. */
    ScanFault_Foreign = EE_FOREIGN
};

/* Addresses with their values, up to `BATCH`, in the value itself. While it is filled an address
 * may stand in it that has no value. */
typedef struct Batch {
    /* The words of elements and forgettings, in the order of their addresses. */
    uint64_t numbers[BATCH];
    uint32_t len;
} Batch;

typedef struct MaybeAddress {
    bool some;
    Address value;
} MaybeAddress;

/* The live addresses of a stretch of addresses, with their values: as many as are found in one
 * look through the slots. */
typedef struct LiveBatch {
    /* By rising address. */
    Batch found;
    /* Behind them no address up to this one is live, or none at all. */
    MaybeAddress through;
} LiveBatch;

typedef struct MaybeU32 {
    bool some;
    uint32_t value;
} MaybeU32;

/* An address whose value is wanted, and the value that a load finds. */
typedef struct Wanted {
    /* The address. */
    Address address;
    /* Its value, `None` if it has none. */
    MaybeU32 value;
} Wanted;

/* Addresses that follow one another, at least one and up to `SPAN`, with their values. */
typedef ee_span Span;

/* A value that an address gets. It is laid out as in C, so that a list of C's can be one of
 * these. */
typedef ee_value Put;

/* A change of the map. */
typedef uint8_t ChangeTag;
enum {
    /* The address has the value from here on. */
    Change_Put,
    /* The address has no value from here on. The value is the one forgotten. */
    Change_Forget
};

typedef struct Change {
    ChangeTag tag;
    Address address; /* of Put and Forget */
    uint32_t value; /* of Put and Forget */
} Change;

/* Goes over the live addresses of a set, by rising address. It looks through the slots
 * once for each batch. */
typedef struct Cursor {
    LiveBatch batch;
    /* How many of the batch it gave. */
    uint32_t given;
} Cursor;

/* How far a set is filled. A transfer goes on from place to place, so that no word takes a
 * division. */
typedef struct CopyingPlace {
    /* How many slots are filled, which is the number of the next one, counted from 0. */
    uint32_t slot;
    /* The page of the last of them, the set's first page where none is, counted from the device's
     * first. */
    uint32_t page;
    /* The place behind that slot in this page. */
    uint32_t at;
} CopyingPlace;

/* Why nothing is written, the first cause that applies. All but `Cut` leave the device as it
 * was. */
typedef uint8_t WriteFault;
enum {
    /* The device is off. */
    WriteFault_Off = EE_NOT_OPEN,
    /* The address has no value, and as many addresses have one as there are slots. */
    WriteFault_Full = EE_FULL,
    /* Every slot is used, and the generation is the greatest, 4294967294. */
    WriteFault_Spent = EE_SPENT,
    /* Memory ran out, in a store that keeps an index, for an address that has no value. */
    WriteFault_Memory = EE_FULL,
    /* Power failed in this call. The device is off; the change is held or not, and nothing else
     * changed for any reader. */
    WriteFault_Cut = EE_DRIVER
};

/* Why no value of a list is written, the first cause that applies. All but `Cut` leave
 * the device as it was. */
typedef uint8_t WriteAllFault;
enum {
    /* The device is off. */
    WriteAllFault_Off = EE_NOT_OPEN,
    /* An address is listed twice: the first entry, counted from 0, whose address an earlier one
     * has. */
    WriteAllFault_Twice = EE_DUPLICATE,
    /* More addresses would have a value than there are slots. */
    WriteAllFault_Full = EE_FULL,
    /* The generation is the greatest, 4294967294; of a list of one, and every slot is used. */
    WriteAllFault_Spent = EE_SPENT,
    /* Memory ran out, in a store that keeps an index, for an address that has no value. */
    WriteAllFault_Memory = EE_FULL,
    /* Power failed in this call. The device is off; all values of the list are held or none, and
     * nothing else changed for any reader. */
    WriteAllFault_Cut = EE_DRIVER
};

/* Why nothing is forgotten, the first cause that applies. All but `Cut` leave the device as it
 * was. */
typedef uint8_t ForgetFault;
enum {
    /* The device is off. */
    ForgetFault_Off = EE_NOT_OPEN,
    /* The address has no value. */
    ForgetFault_Absent = EE_ABSENT,
    /* Every slot is used, and the generation is the greatest, 4294967294. */
    ForgetFault_Spent = EE_SPENT,
    /* Power failed in this call. The device is off; the address has its value still or has none,
     * and nothing else changed for any reader. */
    ForgetFault_Cut = EE_DRIVER
};

/* Why nothing is cleared, the first cause that applies. All but `Cut` leave the device as it
 * was. */
typedef uint8_t ClearFault;
enum {
    /* The device is off. */
    ClearFault_Off = EE_NOT_OPEN,
    /* A slot is used, and the generation is the greatest, 4294967294. */
    ClearFault_Spent = EE_SPENT,
    /* Power failed in this call. The device is off; each address has its value still, or none has
     * one. */
    ClearFault_Cut = EE_DRIVER
};

/* By hand. The device that the store works on, of words, of numbers or of coded words, and where
 * the index stands that it finds values by, NULL if it has none. */
typedef struct ee_device Device, Numbers, EccNumbers;
typedef struct ee_index *Lookup;

/* What a store keeps in memory beside its device. */
typedef struct ee_known Known;

/* Variables in a flash device. It keeps in memory where the live set is and how far it is used,
 * and finds values by a look-up: `Slots` keeps nothing, and reads all else from the flash.
 *
 * Source: two sets, of which one takes the writes, AN4894; the rest is ours. */
typedef struct ee_kept Store;

/* Why a device can't be opened, the first cause that applies. */
typedef uint8_t OpenFault;
enum {
    /* Power failed in setting a mark. The device is off; its variables are as before. */
    OpenFault_Cut = EE_DRIVER
};

typedef struct ee_room RoomOfEntry;

/* Addresses with their slots, counted from 0, by rising address. They stand first in the room. */
typedef struct ee_list LentList;

typedef ee_entry Entry;

typedef struct ListOfEntry {
    const Entry *items;
    uint32_t len;
} ListOfEntry;

/* Goes over the live addresses by an index. A hidden address, which has no value
 * yet, is passed over. */
typedef struct IndexCursor {
    /* The entries that are left. */
    ListOfEntry entries;
    /* The address given last. */
    MaybeAddress after;
    /* How many slots are used. */
    uint32_t fill;
} IndexCursor;

/* Goes over the live addresses by an index, or through the slots if it is given up. */
typedef uint8_t LentCursorTag;
enum {
    LentCursor_ByIndex,
    LentCursor_BySlots
};

typedef struct LentCursor {
    LentCursorTag tag;
    IndexCursor by_index; /* of ByIndex */
    Cursor by_slots; /* of BySlots */
} LentCursor;

/* Finds values by an index in lent memory: the slot in which each live address stands. An address
 * for which it has no room makes it give itself up, and then the store looks through the slots. A
 * transfer or a clear brings it back, if there is room for all addresses that have a value then.
 *
 * A store that is on has it given up only where the lent memory was too small. Behind some of the
 * used slots, counted from the first, more addresses had a value then than the memory has entries.
 * So whoever lends an entry for each address that ever has a value doesn't lose the index. Where
 * it is not given up, the memory has an entry for each address that has a value. */
typedef struct ee_index LentIndex;

/* The place of a word whose two numbers sum to less than `u64::MAX`: no store wrote it. */
typedef struct LowPair {
    /* Its page, counted from 0, those of the first set first. */
    uint32_t page;
    /* Its place in the page, counted from 0, in words of two numbers. */
    uint32_t word;
} LowPair;

/* The shape of the store that a flash holds, where that is none of coded words of the device's
 * shape. Both are 0 of a store of plain words, whose mark says no shape. */
typedef struct OtherShape {
    /* The pages of each set, 1 to 64. */
    uint32_t pages;
    /* The words of a page, 5 to 512. */
    uint32_t words;
} OtherShape;

typedef struct MaybeShape {
    bool some;
    Shape value;
} MaybeShape;

typedef struct ListOfU64 {
    const uint64_t *items;
    uint32_t len;
} ListOfU64;

typedef struct RoomOfU64 {
    uint64_t *items;
    uint32_t len;
} RoomOfU64;

typedef struct MaybeOtherShape {
    bool some;
    OtherShape value;
} MaybeOtherShape;

typedef struct MaybeU64 {
    bool some;
    uint64_t value;
} MaybeU64;

/* Whether a step, or a call of several, ended as it should, or was cut. */
typedef enum Step {
    DONE,
    CUT
} Step;

typedef struct U32AndU32 {
    uint32_t first;
    uint32_t second;
} U32AndU32;

typedef struct MaybeSaidValue {
    bool some;
    MaybeU32 value;
} MaybeSaidValue;

typedef struct Live {
    Address first;
    uint32_t second;
} Live;

typedef struct MaybeLive {
    bool some;
    Live value;
} MaybeLive;

typedef struct RoomOfWanted {
    Wanted *items;
    uint32_t len;
} RoomOfWanted;

typedef struct ReadResult {
    bool ok;
    MaybeU32 value;
} ReadResult;

typedef struct CleanResult {
    bool ok;
    bool value;
    WriteFault error;
} CleanResult;

typedef struct BoolOrCut {
    bool ok;
    bool value;
} BoolOrCut;

typedef struct MaybeIndex {
    bool some;
    uint32_t value;
} MaybeIndex;

typedef struct ListOfPut {
    const Put *items;
    uint32_t len;
} ListOfPut;

typedef struct IndexPair {
    uint32_t first;
    uint32_t second;
} IndexPair;

typedef struct MaybeLowPair {
    bool some;
    LowPair value;
} MaybeLowPair;

typedef struct MaybeSide {
    bool some;
    Side value;
} MaybeSide;

typedef struct LiveSet {
    Side first;
    uint32_t second;
} LiveSet;

typedef struct LiveSetResult {
    bool ok;
    LiveSet value;
    ScanFault error;
} LiveSetResult;

typedef struct FrontResult {
    bool ok;
    IndexPair value;
    IndexPair error;
} FrontResult;

typedef struct PlaceResult {
    bool ok;
    uint32_t value;
    uint32_t error;
} PlaceResult;

typedef struct Shown {
    Entry first;
    ListOfEntry second;
} Shown;

typedef struct MaybeShown {
    bool some;
    Shown value;
} MaybeShown;

typedef struct Placed {
    Address first;
    uint32_t second;
} Placed;

typedef struct MaybePlaced {
    bool some;
    Placed value;
} MaybePlaced;

/* What makes a value of a type with a tag. */
static inline MaybeAddress maybe_address_none(void) {
    return (MaybeAddress){ .some = false, .value = 0u };
}

static inline MaybeAddress maybe_address_some(Address value) {
    return (MaybeAddress){ .some = true, .value = value };
}

static inline MaybeShape maybe_shape_some(Shape value) {
    return (MaybeShape){ .some = true, .value = value };
}

static inline MaybeShape maybe_shape_none(void) {
    return (MaybeShape){ .some = false, .value = { .pages = 0u, .words = 0u } };
}

static inline MaybeOtherShape maybe_other_shape_none(void) {
    return (MaybeOtherShape){ .some = false, .value = { .pages = 0u, .words = 0u } };
}

static inline MaybeOtherShape maybe_other_shape_some(OtherShape value) {
    return (MaybeOtherShape){ .some = true, .value = value };
}

static inline MaybeU64 maybe_u64_some(uint64_t value) {
    return (MaybeU64){ .some = true, .value = value };
}

static inline Word word_torn(void) {
    return (Word){ .tag = Word_Torn, .held = 0u };
}

static inline Word word_held(uint64_t held) {
    return (Word){ .tag = Word_Held, .held = held };
}

static inline Word word_erased(void) {
    return (Word){ .tag = Word_Erased, .held = 0u };
}

static inline MaybeSaidValue maybe_said_value_none(void) {
    return (MaybeSaidValue){ .some = false, .value = { .some = false, .value = 0u } };
}

static inline MaybeU32 maybe_u32_some(uint32_t value) {
    return (MaybeU32){ .some = true, .value = value };
}

static inline MaybeSaidValue maybe_said_value_some(MaybeU32 value) {
    return (MaybeSaidValue){ .some = true, .value = value };
}

static inline MaybeU32 maybe_u32_none(void) {
    return (MaybeU32){ .some = false, .value = 0u };
}

static inline ReadResult read_result_err(void) {
    return (ReadResult){ .ok = false, .value = { .some = false, .value = 0u } };
}

static inline ReadResult read_result_ok(MaybeU32 value) {
    return (ReadResult){ .ok = true, .value = value };
}

static inline CleanResult clean_result_err(WriteFault error) {
    return (CleanResult){ .ok = false, .value = false, .error = error };
}

static inline CleanResult clean_result_ok(bool value) {
    return (CleanResult){ .ok = true, .value = value, .error = EE_OK };
}

static inline BoolOrCut bool_or_cut_ok(bool value) {
    return (BoolOrCut){ .ok = true, .value = value };
}

static inline BoolOrCut bool_or_cut_err(void) {
    return (BoolOrCut){ .ok = false, .value = false };
}

static inline MaybeIndex maybe_index_some(uint32_t value) {
    return (MaybeIndex){ .some = true, .value = value };
}

static inline MaybeIndex maybe_index_none(void) {
    return (MaybeIndex){ .some = false, .value = 0u };
}

static inline Mark mark_erasing(void) {
    return (Mark){ .tag = Mark_Erasing, .receive = 0u };
}

static inline Mark mark_valid(void) {
    return (Mark){ .tag = Mark_Valid, .receive = 0u };
}

static inline Mark mark_active(void) {
    return (Mark){ .tag = Mark_Active, .receive = 0u };
}

static inline Mark mark_receive(uint32_t receive) {
    return (Mark){ .tag = Mark_Receive, .receive = receive };
}

static inline Change change_forget(Address address, uint32_t value) {
    return (Change){ .tag = Change_Forget, .address = address, .value = value };
}

static inline WriteAllFault write_all_fault_twice(uint32_t twice) {
    (void)twice;
    return WriteAllFault_Twice;
}

static inline Change change_put(Address address, uint32_t value) {
    return (Change){ .tag = Change_Put, .address = address, .value = value };
}

static inline MaybeLive maybe_live_some(Live value) {
    return (MaybeLive){ .some = true, .value = value };
}

static inline MaybeLive maybe_live_none(void) {
    return (MaybeLive){ .some = false, .value = { .first = 0u, .second = 0u } };
}

static inline MaybeLowPair maybe_low_pair_some(LowPair value) {
    return (MaybeLowPair){ .some = true, .value = value };
}

static inline MaybeLowPair maybe_low_pair_none(void) {
    return (MaybeLowPair){ .some = false, .value = { .page = 0u, .word = 0u } };
}

static inline Slot slot_free(void) {
    return (Slot){ .tag = Slot_Free, .address = 0u, .value = 0u };
}

static inline Slot slot_spoiled(void) {
    return (Slot){ .tag = Slot_Spoiled, .address = 0u, .value = 0u };
}

static inline Slot slot_element(Address address, uint32_t value) {
    return (Slot){ .tag = Slot_Element, .address = address, .value = value };
}

static inline Slot slot_forgotten(Address address, uint32_t value) {
    return (Slot){ .tag = Slot_Forgotten, .address = address, .value = value };
}

static inline Slot slot_foreign(void) {
    return (Slot){ .tag = Slot_Foreign, .address = 0u, .value = 0u };
}

static inline MaybeSide maybe_side_none(void) {
    return (MaybeSide){ .some = false, .value = Side_First };
}

static inline MaybeSide maybe_side_some(Side value) {
    return (MaybeSide){ .some = true, .value = value };
}

static inline OpenFault open_fault_scan(ScanFault scan) {
    return scan;
}

static inline ScanFault scan_fault_foreign(uint32_t page, uint32_t at) {
    (void)page;
    (void)at;
    return ScanFault_Foreign;
}

static inline FrontResult front_result_err(IndexPair error) {
    return (FrontResult){ .ok = false, .value = { .first = 0u, .second = 0u }, .error = error };
}

static inline FrontResult front_result_ok(IndexPair value) {
    return (FrontResult){ .ok = true, .value = value, .error = { .first = 0u, .second = 0u } };
}

static inline PlaceResult place_result_err(uint32_t error) {
    return (PlaceResult){ .ok = false, .value = 0u, .error = error };
}

static inline PlaceResult place_result_ok(uint32_t value) {
    return (PlaceResult){ .ok = true, .value = value, .error = 0u };
}

static inline LiveSetResult live_set_result_err(ScanFault error) {
    return (LiveSetResult){ .ok = false, .value = { .first = Side_First, .second = 0u },
            .error = error };
}

static inline LiveSetResult live_set_result_ok(LiveSet value) {
    return (LiveSetResult){ .ok = true, .value = value, .error = EE_OK };
}

#ifdef EE_INDEX
static inline MaybeShown maybe_shown_some(Shown value) {
    return (MaybeShown){ .some = true, .value = value };
}

static inline MaybeShown maybe_shown_none(void) {
    return (MaybeShown){ .some = false, .value = { .first = { .first = 0u, .second = 0u },
            .second = { .items = NULL, .len = 0u } } };
}

static inline MaybePlaced maybe_placed_none(void) {
    return (MaybePlaced){ .some = false, .value = { .first = 0u, .second = 0u } };
}

static inline MaybePlaced maybe_placed_some(Placed value) {
    return (MaybePlaced){ .some = true, .value = value };
}
#endif

static inline bool open_fault_is_scan(OpenFault fault) {
    return fault != OpenFault_Cut;
}

/* By hand. The difference, 0 where it would be less. */
static inline uint32_t u32_saturating_sub(uint32_t a, uint32_t b) {
    return a > b ? a - b : 0u;
}

/* By hand. The difference, modulo 2 to the power of 32. */
static inline uint32_t u32_wrapping_sub(uint32_t a, uint32_t b) {
    return a - b;
}

/* By hand. The sum, modulo 2 to the power of 32. */
static inline uint32_t u32_wrapping_add(uint32_t a, uint32_t b) {
    return a + b;
}

/* By hand. The difference, modulo 2 to the power of 16. */
static inline uint16_t u16_wrapping_sub(uint16_t a, uint16_t b) {
    return (uint16_t)((uint32_t)a - b);
}

/* By hand. How many ones a number has: of each two bits and each four of both halves, and of
 * all. */
EE_IN_PLACE uint32_t fours_of(uint32_t half) {
    const uint32_t twos = half - ((half >> 1u) & UINT32_C(0x55555555));
    return (twos & UINT32_C(0x33333333)) + ((twos >> 2u) & UINT32_C(0x33333333));
}

EE_IN_PLACE uint32_t u64_count_ones(uint64_t number) {
    const uint32_t fours = fours_of((uint32_t)(number >> 32u)) + fours_of((uint32_t)number);
    const uint32_t eights = (fours & UINT32_C(0x0f0f0f0f)) + ((fours >> 4u) & UINT32_C(0x0f0f0f0f));
    return eights * UINT32_C(0x01010101) >> 24u;
}

/* By hand. The lesser of two numbers. */
static inline uint32_t u32_least(uint32_t a, uint32_t b) {
    return a < b ? a : b;
}

/* The functions below, by their sources. */
static uint64_t word_number(Word self);
EE_IN_PLACE MaybeShape shape_new(uint32_t pages, uint32_t words);
static uint32_t shape_slots(Shape self);
EE_IN_PLACE MaybeAddress address_new(uint16_t number);
static uint64_t receive_word(uint32_t generation);
EE_IN_PLACE MaybeU32 read_receive(Word word);
static MarkRead read_mark(Word word);
static uint64_t element_word(Address address, uint32_t value);
static uint64_t forget_word(Address address, uint32_t value);
static Slot read_slot(Word word);
static Slot read_held(uint64_t number);
EE_IN_PLACE ListOfU64 run_from(const Device *flash, uint32_t page, uint32_t at, uint32_t end,
        uint64_t *room);
static Side side_other(Side self);
static uint32_t first_page(const Device *flash, Side side);
static Word set_word(const Device *flash, Side side, uint32_t page, uint32_t at);
static Word page_slot(const Device *flash, Side side, uint32_t page, uint32_t slot);
#ifdef EE_INDEX
static Word set_slot(const Device *flash, Side side, uint32_t slot);
static uint64_t page_number(const Device *flash, Side side, uint32_t page, uint32_t slot);
static uint64_t set_number(const Device *flash, Side side, uint32_t slot);
#endif
static MaybeU32 committed(const Device *flash, Side side);
EE_IN_PLACE bool state_is_blank(const Device *flash, uint32_t page);
static uint32_t blank_to(const Device *flash, uint32_t page, uint32_t from);
EE_APART bool is_erased(const uint64_t *readings_items, uint32_t readings_len);
static uint32_t erased_in(const uint64_t *readings_items, uint32_t readings_len);
static bool state_is_written(Word word);
static bool is_torn(Word word);
static bool is_slot(uint64_t number);
static uint16_t address_in(uint64_t number);
static bool says_something(uint64_t number);
static bool gives_value(uint64_t number);
static TablePlace place_of(uint32_t page, uint32_t at);
EE_IN_PLACE bool fits(uint32_t generation, TablePlace place, Word word);
static bool fits_header(uint32_t generation, uint32_t at, Word word);
static ScanFault scan(const Device *flash, Layout *made);
static bool is_unformatted(const Device *flash);
static LiveSetResult live_set(const Device *flash);
static FrontResult front_of(const Device *flash, Side side, uint32_t generation);
static PlaceResult used_of_page(const Device *flash, Side side, uint32_t generation, uint32_t page,
        bool full);
static PlaceResult unused_from(const Device *flash, Side side, uint32_t generation, uint32_t page,
        bool full);
static MaybeIndex foreign_in_header(const Device *flash, Side side, uint32_t generation,
        uint32_t page);
static uint32_t first_told(uint32_t page);
EE_APART uint32_t used_to(const Device *flash, uint32_t page);
static uint32_t slots_in(const Device *flash, const uint64_t *readings_items,
        uint32_t readings_len);
static void batch_new(Batch *made);
EE_IN_PLACE MaybeLive batch_get(const Batch *self, uint32_t place);
static void batch_take_out(Batch *self);
EE_IN_PLACE bool batch_note_any(Batch *self, uint64_t number);
static bool batch_put(Batch *self, uint64_t number);
static uint32_t batch_place_through(const Batch *self, uint16_t address);
static bool batch_has(const Batch *self, uint32_t place, uint16_t address);
static void batch_set(Batch *self, uint32_t place, uint64_t number);
static void batch_insert(Batch *self, uint32_t place, uint64_t number);
EE_IN_PLACE MaybeAddress batch_last_if_full(const Batch *self);
static uint16_t batch_greatest(const Batch *self);
static void batch_keep_living(Batch *self);
static uint32_t one_more(uint32_t count);
static uint32_t batch_items_place_in(const uint64_t *rising_items, uint32_t rising_len,
        uint16_t address);
static void batch_items_put_in(uint64_t *list_items, uint32_t list_len, uint32_t place,
        uint32_t end, uint64_t number);
static uint32_t keep(uint64_t *numbers_items, uint32_t numbers_len, uint32_t count);
EE_APART void live_batch_new(LiveBatch *made);
static void next_batch(const Device *flash, const Layout *layout, MaybeAddress after,
        LiveBatch *batch);
static uint16_t number_of(MaybeAddress after);
static void gather(const Device *flash, Side side, uint16_t above, Batch *nearest);
static void gather_page(const Device *flash, Side side, uint32_t page, uint16_t above,
        Batch *nearest);
EE_APART uint32_t note_all(const Device *flash, uint16_t above, uint32_t span,
        const uint64_t *readings_items, uint32_t readings_len, Batch *nearest);
static uint32_t note_within(const Device *flash, uint16_t above, uint32_t span, uint64_t reading,
        Batch *nearest);
static uint32_t span_of(const Batch *nearest, uint16_t above);
static bool is_within(uint16_t address, uint16_t above, uint32_t span);
#ifdef EE_INDEX
static Word slot_word(const Device *flash, const Layout *layout, uint32_t slot);
static uint32_t slot_value(const Device *flash, const Layout *layout, uint32_t slot);
#endif
static MaybeU32 latest(const Device *flash, const Layout *layout, Address address);
static MaybeLive next_live(const Device *flash, const Layout *layout, MaybeAddress after);
static uint32_t live_count(const Device *flash, const Layout *layout);
static uint32_t torn_slots(const Device *flash, const Layout *layout);
static uint32_t torn_through(const Device *flash, Side side, uint32_t page, uint32_t before);
static MaybeSaidValue said_in_page(const Device *flash, Side side, uint32_t page, uint32_t used,
        Address address);
EE_APART uint32_t ending_in(const uint64_t *readings_items, uint32_t readings_len, Address address);
EE_IN_PLACE MaybeSaidValue said_by(const Device *flash, uint64_t reading);
EE_IN_PLACE MaybeSaidValue said(uint64_t number);
static void load(const Device *flash, const Layout *layout, Wanted *entries_items,
        uint32_t entries_len);
static void clear_values(Wanted *entries_items, uint32_t entries_len);
static void loading_tell_page(const Device *flash, Side side, uint32_t page, Wanted *entries_items,
        uint32_t entries_len);
static void loading_tell_run(const Device *flash, const uint64_t *readings_items,
        uint32_t readings_len, Wanted *entries_items, uint32_t entries_len);
static MaybeSaidValue said_in(const Device *flash, const uint64_t *readings_items,
        uint32_t readings_len, Address address);
static void span_new(Address first, uint32_t count, Span *made);
static void span_of_one(Address address, MaybeU32 value, Span *made);
static void span_note(Span *self, const Device *flash, uint64_t reading);
static uint32_t span_said_from(const Span *self, uint32_t before);
static void read_span(const Device *flash, const Layout *layout, Address first, uint32_t count,
        Span *made);
static uint32_t span_tell_page(const Device *flash, Side side, uint32_t page, uint32_t used,
        Span *span, uint32_t before);
static void span_tell_run(const Device *flash, const uint64_t *readings_items,
        uint32_t readings_len, Span *span);
static Step marking_mark(Device *flash, uint32_t page, Mark mark);
static MaybeSide rescued_side(const Device *flash);
static uint32_t named_generation(const Device *flash, Side side);
static uint32_t bad_words(const Device *flash);
static uint32_t bad_in_set(const Device *flash, Side side);
static uint32_t bad_in_page(const Device *flash, Side side, uint32_t generation, uint32_t written,
        uint32_t page);
static bool is_bad(Shape shape, uint32_t generation, uint32_t written, uint32_t page, uint32_t at,
        Word word);
static uint32_t written_front(const Device *flash, Side side);
static uint32_t front_in_page(const Device *flash, Side side, uint32_t page);
static bool fails_to_commit(uint32_t page, uint32_t at, Word word);
EE_IN_PLACE MaybeSide only(bool first, bool second);
static bool has_begun(const Device *flash, Side side);
static bool is_left_behind(const Device *flash, Side side);
static uint64_t change_word(Change self);
static bool has_put(const Put *puts_items, uint32_t puts_len, Address address);
static ListOfPut values_put(const Put *puts_items, uint32_t puts_len, bool forgets);
static MaybeIndex first_twice(const Put *puts_items, uint32_t puts_len);
static uint32_t live_with(const Device *flash, const Layout *layout, const Put *puts_items,
        uint32_t puts_len);
static Step finish(Device *flash, const Layout *layout);
static Step mark_live_set(Device *flash, const Layout *layout);
static Step mark_old_set(Device *flash, const Layout *layout);
static Step mark_live(Device *flash, const Layout *layout, uint32_t page, Mark kind);
static Step mark_old(Device *flash, const Layout *layout, uint32_t page);
static BoolOrCut cleaning_clean(Device *flash, const Layout *layout);
static Step erase_other(Device *flash, Side side, uint32_t page);
static MaybeIndex first_pending(const Device *flash, Side side);
static uint32_t count_pending(const Device *flash, Side side);
static void cursor_new(const Device *flash, const Layout *layout, Cursor *made);
static void cursor_unread(Cursor *made);
static void cursor_begin(Cursor *self, const Device *flash, const Layout *layout);
static MaybeLive cursor_next(Cursor *self, const Device *flash, const Layout *layout);
static MaybeLive next_given(const Device *flash, const Layout *layout, LiveBatch *batch,
        uint32_t *given);
static Step fill_set(Device *flash, const Layout *layout, const Put *puts_items, uint32_t puts_len,
        bool forgets, Cursor *cursor, CopyingPlace *made);
#ifdef EE_INDEX
static Step fill_set_lent_cursor(Device *flash, const Layout *layout, const Put *puts_items,
        uint32_t puts_len, bool forgets, LentCursor *cursor, CopyingPlace *made);
#endif
static Step put_all(Device *flash, const Layout *layout, const Put *puts_items, uint32_t puts_len,
        CopyingPlace *made);
static Step copy_others(Device *flash, const Layout *layout, const Put *puts_items,
        uint32_t puts_len, CopyingPlace place, Cursor *cursor, CopyingPlace *made);
#ifdef EE_INDEX
static Step copy_others_lent_cursor(Device *flash, const Layout *layout, const Put *puts_items,
        uint32_t puts_len, CopyingPlace place, LentCursor *cursor, CopyingPlace *made);
#endif
static Step copy_one(Device *flash, const Layout *layout, bool passed, CopyingPlace *place,
        Address address, uint32_t value);
EE_APART Step stage_put(Device *flash, const Layout *layout, CopyingPlace *place, Address address,
        uint32_t value);
static Step stage(Device *flash, const Layout *layout, CopyingPlace place, Change change);
static Step receive(Device *flash, const Layout *layout, CopyingPlace place);
static Step copying_put_in(Device *flash, const Layout *layout, CopyingPlace place, Change change);
static CopyingPlace first_place(const Device *flash, const Layout *layout);
static CopyingPlace next_place(const Device *flash, const Layout *layout, CopyingPlace place);
static Step transfer(Device *flash, Layout *layout, const Put *puts_items, uint32_t puts_len,
        bool forgets, Cursor *cursor);
#ifdef EE_INDEX
static Step transfer_lent_cursor(Device *flash, Layout *layout, const Put *puts_items,
        uint32_t puts_len, bool forgets, LentCursor *cursor);
#endif
static Step transfer_by_slots(Device *flash, Layout *layout, const Put *puts_items,
        uint32_t puts_len, bool forgets);
static Step move_map(Device *flash, const Layout *layout, const Put *puts_items, uint32_t puts_len,
        bool forgets, Cursor *cursor, CopyingPlace *made);
#ifdef EE_INDEX
static Step move_map_lent_cursor(Device *flash, const Layout *layout, const Put *puts_items,
        uint32_t puts_len, bool forgets, LentCursor *cursor, CopyingPlace *made);
#endif
static Step transfer_nothing(Device *flash, Layout *layout);
static Step move_nothing(Device *flash, const Layout *layout);
static Step clear(Device *flash, const Layout *layout);
EE_IN_PLACE Step open_set(Device *flash, const Layout *layout);
EE_IN_PLACE Step commit(Device *flash, const Layout *layout);
EE_IN_PLACE Step append_change(Device *flash, Layout *layout, Change change);
EE_IN_PLACE IndexPair free_slot(const Device *flash, const Layout *layout);
EE_IN_PLACE Step open_page(Device *flash, const Layout *layout, uint32_t page);
EE_IN_PLACE Step push(Device *flash, const Layout *layout, uint32_t page, uint32_t at,
        Change change);
static Step move_unindexed(Device *flash, Layout *layout, const Put *puts_items, uint32_t puts_len,
        bool forgets);
#ifdef EE_INDEX
static Step move_changes_lent_cursor(Device *flash, Layout *layout, const Put *puts_items,
        uint32_t puts_len, bool forgets, LentCursor *cursor);
#endif
static Step empty(Device *flash, Layout *layout);
EE_IN_PLACE MaybeU32 slots_value_of(const Device *flash, const Layout *layout, Address address);
EE_IN_PLACE uint32_t slots_live_count(const Device *flash, const Layout *layout);
EE_IN_PLACE uint32_t slots_live_with(const Device *flash, const Layout *layout,
        const Put *puts_items, uint32_t puts_len);
EE_IN_PLACE MaybeLive slots_next_live(const Device *flash, const Layout *layout,
        MaybeAddress after);
EE_IN_PLACE Step slots_make_ready(const Device *_flash, const Layout *_layout, Put _put);
EE_IN_PLACE Step slots_make_room(const Device *_flash, const Layout *_layout,
        const Put *_puts_items, uint32_t _puts_len);
EE_IN_PLACE void slots_find_nothing(void);
EE_IN_PLACE Step slots_append(Device *flash, Layout *layout, Change change);
EE_IN_PLACE Step slots_transfer(Device *flash, Layout *layout, const Put *puts_items,
        uint32_t puts_len, bool forgets);
static ReadResult known_read(const Known *self, const Device *flash, Address address);
EE_IN_PLACE WriteFault known_write(Known *self, Device *flash, Address address, uint32_t value);
EE_IN_PLACE ForgetFault known_forget(Known *self, Device *flash, Address address);
static CleanResult known_clean_step(const Known *self, Device *flash);
EE_IN_PLACE WriteFault known_append_value(Known *self, Device *flash, Address address,
        uint32_t value);
EE_IN_PLACE WriteFault known_move_value(Known *self, Device *flash, Address address,
        uint32_t value);
static bool known_has_no_place(const Known *self, const Device *flash, Address address);
static uint32_t store_torn_slots(const Store *self);
static Step store_load(const Store *self, Wanted *entries_items, uint32_t entries_len);
static WriteAllFault store_write_one(Store *self, Put put);
EE_APART WriteAllFault store_write_several(Store *self, const Put *puts_items, uint32_t puts_len);
static bool store_is_full_for_all(const Store *self, const Put *puts_items, uint32_t puts_len);
static bool store_is_last(const Store *self);
static uint32_t store_slots(const Store *self);
static ReadResult store_read(const Store *self, Address address);
EE_APART WriteFault store_write(Store *self, Address address, uint32_t value);
static WriteAllFault store_write_all(Store *self, const Put *changes_items, uint32_t changes_len);
static ForgetFault store_forget(Store *self, Address address);
static ClearFault store_clear(Store *self);
static CleanResult store_clean_step(Store *self);
static uint32_t store_pending(const Store *self);
static uint32_t store_fill(const Store *self);
static uint32_t store_generation(const Store *self);
static uint32_t store_live_count(const Store *self);
static MaybeLive store_next_live(const Store *self, MaybeAddress after);
static Step write_format(Device *flash, Layout *made);
static Step erase_all(Device *flash);
static OpenFault open_on(Device *flash, Layout *made);
static OpenFault start_on(Device *flash, Layout *made);
static bool is_startable(const Device *flash, ScanFault fault);
static bool holds_none(const Device *flash);
static bool page_holds(const Device *flash, uint32_t page);
static OpenFault start_anew(Device *flash, Layout *made);
static Step rescue_set(Device *flash, Side side, uint32_t generation, Layout *made);
#ifdef EE_INDEX
static void renumber(Entry *entries_items, uint32_t entries_len, const Put *puts_items,
        uint32_t puts_len);
static IndexPair next_number(uint32_t number, const Put *puts_items, uint32_t puts_len,
        Address address);
static MaybeIndex entries_place_in(const Put *puts_items, uint32_t puts_len, Address address);
static uint32_t lent_list_capacity(const LentList *self);
static void lent_list_clear(LentList *self);
static ListOfEntry lent_list_entries(const LentList *self);
static PlaceResult lent_list_find(const LentList *self, Address address);
static Step lent_list_insert(LentList *self, Address address, uint32_t number);
static void lent_list_remove(LentList *self, Address address);
static void lent_list_renumber(LentList *self, const Put *puts_items, uint32_t puts_len);
static void lent_list_put_in(Entry *room_items, uint32_t room_len, uint32_t count, uint32_t place,
        Entry entry);
static void take_out(Entry *room_items, uint32_t room_len, uint32_t count, uint32_t place);
static Step enter_slots(LentList *list, const Device *flash, const Layout *layout);
static Step enter(LentList *list, uint32_t number, Slot said_2);
EE_IN_PLACE MaybeIndex slot_in(const LentList *list, Address address);
static bool has(const LentList *list, Address address);
static ListOfEntry entries_above(const LentList *list, MaybeAddress after);
static uint32_t place_above(const LentList *list, Address address);
static uint32_t count_new(const LentList *list, const Put *puts_items, uint32_t puts_len);
static uint32_t value_in(const Device *flash, const Layout *layout, uint32_t number);
static MaybeU32 value_indexed(const LentList *list, const Device *flash, const Layout *layout,
        Address address);
EE_IN_PLACE MaybePlaced first_above(const LentList *list, MaybeAddress after);
static MaybeLive next_indexed(const LentList *list, const Device *flash, const Layout *layout,
        MaybeAddress after);
static IndexCursor index_cursor_new(const LentList *list, uint32_t fill);
EE_IN_PLACE MaybeLive index_cursor_next(IndexCursor *self, const Device *flash,
        const Layout *layout);
EE_IN_PLACE MaybeShown next_shown(const Entry *entries_items, uint32_t entries_len, uint32_t fill);
static void lent_cursor_begin(LentCursor *self, const Device *flash, const Layout *layout);
EE_IN_PLACE MaybeLive lent_cursor_next(LentCursor *self, const Device *flash, const Layout *layout);
static Step enter_hidden(LentList *list, const Put *puts_items, uint32_t puts_len, uint32_t fill);
static Step enter_new(LentList *list, Address address, uint32_t number);
static void follow(LentList *list, const Put *puts_items, uint32_t puts_len, bool forgets);
static void leave_all(LentList *list, const Put *puts_items, uint32_t puts_len);
static void leave(LentList *list, Address address);
static void leave_forgotten(LentList *list, const Change *change);
static void lent_index_read(LentIndex *self, const Device *flash, const Layout *layout);
static void lent_index_cursor(const LentIndex *self, const Device *_flash, const Layout *layout,
        LentCursor *made);
static void lent_index_follow(LentIndex *self, const Device *flash, const Layout *layout,
        const Put *puts_items, uint32_t puts_len, bool forgets);
static MaybeU32 lent_index_value_of(const LentIndex *self, const Device *flash,
        const Layout *layout, Address address);
static uint32_t lent_index_live_count(const LentIndex *self, const Device *flash,
        const Layout *layout);
static uint32_t lent_index_live_with(const LentIndex *self, const Device *flash,
        const Layout *layout, const Put *puts_items, uint32_t puts_len);
static MaybeLive lent_index_next_live(const LentIndex *self, const Device *flash,
        const Layout *layout, MaybeAddress after);
static Step lent_index_make_ready(LentIndex *self, const Device *_flash, const Layout *layout,
        Put put);
static Step lent_index_make_room(LentIndex *self, const Device *_flash, const Layout *layout,
        const Put *puts_items, uint32_t puts_len);
static void lent_index_read_anew(LentIndex *self, const Device *flash, const Layout *layout);
static void lent_index_find_nothing(LentIndex *self);
static Step lent_index_append(LentIndex *self, Device *flash, Layout *layout, Change change);
static Step lent_index_transfer(LentIndex *self, Device *flash, Layout *layout,
        const Put *puts_items, uint32_t puts_len, bool forgets);
#endif
static Word word_of(uint64_t number, uint64_t check);
static uint64_t complement_of(uint64_t number);
static Word pairs_word(const Numbers *self, uint32_t page, uint32_t at);
static ListOfU64 pairs_run(const Numbers *self, uint32_t page, uint32_t at, uint64_t *room_items,
        uint32_t room_len);
static Step pairs_program(Numbers *self, uint32_t page, uint32_t at, uint64_t value);
static void nor_runs_fill_run(const Numbers *nor, uint32_t page, uint32_t at, uint64_t *room_items,
        uint32_t room_len);
EE_APART void fill_from_window(const uint64_t *numbers_items, uint32_t numbers_len,
        uint64_t *room_items, uint32_t room_len);
static void fill_by_reading(const Numbers *nor, uint32_t page, uint32_t at, uint64_t *room_items,
        uint32_t room_len);
static uint64_t number_of_pair(uint64_t number, uint64_t check);
EE_IN_PLACE bool is_whole(uint64_t number, uint64_t check);
static U32AndU32 halves(uint64_t number);
static MaybeLowPair first_low(const Numbers *nor);
static MaybeIndex first_low_in(const Numbers *nor, uint32_t page);
static MaybeIndex first_low_from(const Numbers *nor, uint32_t page, uint32_t from, uint32_t count);
static MaybeIndex low_in_window(const uint64_t *numbers_items, uint32_t numbers_len,
        uint32_t count);
static MaybeIndex low_read(const Numbers *nor, uint32_t page, uint32_t from, uint32_t count);
static bool is_low(uint64_t number, uint64_t check);
static uint32_t low_half(uint32_t low, uint32_t value);
static uint32_t parity_bits(uint32_t value, uint32_t low);
static uint32_t weight_of(uint32_t ones);
static uint64_t words_coded_number(Shape shape, uint64_t number);
static Word word_of_reading(Shape shape, MaybeU64 reading);
static Word erased_or_torn(uint64_t number);
static uint64_t without_check(uint64_t number);
static Word header_word(Shape shape, uint32_t low, uint32_t value);
EE_IN_PLACE U32AndU32 payload_of(Shape shape, uint64_t number);
static bool is_slot_half(uint32_t low);
static uint32_t mark_value(Shape shape);
EE_IN_PLACE MaybeOtherShape other_shape(const EccNumbers *nor);
EE_APART uint32_t value_held(const EccNumbers *nor);
static uint32_t value_named(uint64_t number);
EE_IN_PLACE MaybeShape shape_of_mark(uint64_t number);
static uint64_t coded_number(const EccNumbers *self, uint64_t reading);
static uint64_t coded_in_clear(const EccNumbers *self, uint64_t reading);
static Step coded_program(EccNumbers *self, uint32_t page, uint32_t at, uint64_t value);

/* ---- By hand: the device over the three functions of an `ee_flash`. It is on while the pointer to
 * its flash, which stands in the memory that the caller lends, isn't NULL. */

static bool device_is_on(const Device *device) { return device->power->flash != NULL; }

/* A step ended with this number: where it failed the device is off from here on. */
EE_IN_PLACE Step step_ended(const Device *device, uint32_t failed) {
    if (failed == 0u) { return DONE; }
    device->power->flash = NULL;
    return CUT;
}

/* Reads a word, or a number of one. Whether it can be read: else it is 0, and where the read itself
 * failed the device is off. */
EE_IN_PLACE bool is_read(const Device *device, const ee_flash *flash, uint32_t page, uint32_t at,
        uint64_t *number) {
    const uint32_t failed = flash->word(flash->context, page, at, number);
    if (failed == 0u) { return true; }
    *number = 0u;
    if (failed != EE_TORN) { device->power->flash = NULL; }
    return false;
}

/* The flash, while it is on and has this page; else NULL, and the device is off. The page is asked
 * for with a page's first place alone: slots and pages are looked through within the shape, and
 * only a move goes on from page to page, as far as words say that change from look to look. */
EE_IN_PLACE const ee_flash *flash_with(const Device *device, uint32_t page, uint32_t at) {
    const ee_flash *const flash = device->power->flash;
    if (flash != NULL && (at != 0u || page < 2u * flash->pages)) { return flash; }
    device->power->flash = NULL;
    return NULL;
}

/* A number of a flash of numbers. One that can't be read is 0: no word of a store is 0, so none is
 * made of it. No read follows one that failed. */
EE_APART uint64_t numbers_read(const Numbers *numbers, uint32_t page, uint32_t at) {
    const ee_flash *const flash = numbers->power->flash;
    uint64_t number;
    return flash != NULL && is_read(numbers, flash, page, at, &number) ? number : 0u;
}

/* So many words or numbers of a page from a place on, where C has them in memory; else no items. */
EE_IN_PLACE ListOfU64 numbers_window(const Numbers *numbers, uint32_t page, uint32_t at,
        uint32_t count) {
    const ee_flash *const flash = numbers->power->flash;
    const bool may_be = flash != NULL && flash->words != NULL;
    const uint64_t *const items = may_be ? flash->words(flash->context, page, at, count) : NULL;
    return (ListOfU64){ .items = items, .len = count };
}

/* `device_program` alone leads here, and sees before that the device is on and has the page. */
EE_IN_PLACE Step numbers_program(const Numbers *numbers, uint32_t page, uint32_t at,
        uint64_t number) {
    const ee_flash *const flash = numbers->power->flash;
    return step_ended(numbers, flash->program(flash->context, page, at, number));
}

/* The same of a flash of coded words. */
EE_IN_PLACE Step ecc_numbers_program(const EccNumbers *numbers, uint32_t page, uint32_t at,
        uint64_t number) {
    return numbers_program(numbers, page, at, number);
}

/* One that can't be read is none, and so is 0, which is no coded word either. */
EE_IN_PLACE MaybeU64 ecc_numbers_read(const EccNumbers *numbers, uint32_t page, uint32_t at) {
    const uint64_t number = numbers_read(numbers, page, at);
    return (MaybeU64){ .some = number != 0u, .value = number };
}

/* What a reading of a run says. Of words and of pairs it is the number of the word; of a device
 * that is off it counts for nothing. */
#ifdef EE_NO_CODED
#define device_number(device, reading) ((void)(device), (reading))
#define device_in_clear(device, reading) ((void)(device), (reading))
#else
EE_APART uint64_t device_number(const Device *device, uint64_t reading) {
    const ee_flash *const flash = device->power->flash;
    return flash != NULL && EE_IS_CODED(flash) ? coded_number(device, reading) : reading;
}

/* Which bits of a reading stand in clear: asked once for all of a run. */
EE_PURE uint64_t clear_bits(const Device *device) {
    const ee_flash *const flash = device->power->flash;
    return flash != NULL && EE_IS_CODED(flash) ? coded_in_clear(device, UINT64_MAX) : UINT64_MAX;
}

EE_IN_PLACE uint64_t device_in_clear(const Device *device, uint64_t reading) {
    return reading & clear_bits(device);
}
#endif

/* What a word holds. One that reads as all ones is erased, and one that can't be read is torn. So
 * is one of the number 0 where words are coded: no coded word has it. */
static Word device_word(const Device *device, uint32_t page, uint32_t at) {
    const ee_flash *const flash = flash_with(device, page, at);
    if (flash == NULL) { return word_torn(); }
    if (EE_IS_OF_PAIRS(flash)) { return pairs_word(device, page, at); }
    uint64_t number = 0u;
    if (!is_read(device, flash, page, at, &number)) { return word_torn(); }
    if (EE_IS_CODED(flash)) {
        number = device_number(device, number);
        if (number == 0u) { return word_torn(); }
    }
    return number == UINT64_MAX ? word_erased() : word_held(number);
}

/* Nothing is read any more, and what a run gives then counts for nothing: it is the same each
 * time. */
EE_APART void fill_unread(uint64_t *items, uint32_t len) {
    for (uint32_t at = 0u; at < len; at++) { items[at] = UNREAD; }
}

/* Asks for each word of a run. No read follows one that failed. */
static void device_fill(const Device *device, const ee_flash *flash, uint32_t page, uint32_t at,
        uint64_t *items, uint32_t len) {
    for (uint64_t *const end = &items[len]; items != end; items++, at++) {
        if (!is_read(device, flash, page, at, items) && device->power->flash == NULL) {
            fill_unread(items, (uint32_t)(end - items));
            return;
        }
    }
}

/* Readings of the words from a place on, as many as there is room for: all ones of an erased word,
 * 0 of one that can't be read. They stand in the room, or where C has them. */
EE_APART const uint64_t *run_at(const Device *device, uint32_t page, uint32_t at, uint64_t *items,
        uint32_t len) {
    const ee_flash *const flash = flash_with(device, page, at);
    if (flash == NULL) {
        fill_unread(items, len);
    } else if (EE_IS_OF_PAIRS(flash)) {
        pairs_run(device, page, at, items, len);
    } else {
        const uint64_t *const seen = numbers_window(device, page, at, len).items;
        if (seen != NULL) { return seen; }
        device_fill(device, flash, page, at, items, len);
    }
    return items;
}

/* The same as a list, which has the room's length: in place, so that no list goes through
 * memory. */
EE_IN_PLACE ListOfU64 device_run(const Device *device, uint32_t page, uint32_t at, RoomOfU64 room) {
    return (ListOfU64){ .items = run_at(device, page, at, room.items, room.len), .len = room.len };
}

static Step device_program(Device *device, uint32_t page, uint32_t at, uint64_t value) {
    const ee_flash *const flash = flash_with(device, page, 0u);
    if (flash == NULL) { return CUT; }
    if (EE_IS_CODED(flash)) { return coded_program(device, page, at, value); }
    return EE_IS_OF_PAIRS(flash) ? pairs_program(device, page, at, value)
            : numbers_program(device, page, at, value);
}

/* A page is erased the same whatever it has. */
static Step device_erase(const Device *device, uint32_t page) {
    const ee_flash *const flash = flash_with(device, page, 0u);
    return flash == NULL ? CUT : step_ended(device, flash->erase(flash->context, page));
}

#ifdef EE_INDEX
#ifdef __GNUC__
#define EE_MOVE __builtin_memmove /* takes no header */
#else
#include <string.h>
#define EE_MOVE memmove
#endif

/* By hand. The place of the entry of an address, or in an error the place where one would stand. */
static PlaceResult search(const Entry *entries, uint32_t count, Address address) {
    uint32_t from = 0u;
    uint32_t to = count;
    while (from < to) {
        const uint32_t middle = (from + to) / 2u;
        if (entries[middle].first == address) {
            return place_result_ok(middle);
        }
        if (entries[middle].first < address) {
            from = middle + 1u;
        } else {
            to = middle;
        }
    }
    return place_result_err(from);
}

/* By hand. Moves the entries from a place up to another, so that they begin at a third. */
static void copy_within(Entry *entries, uint32_t from, uint32_t end, uint32_t to) {
    EE_MOVE(&entries[to], &entries[from], (size_t)(end - from) * sizeof(Entry));
}
#endif

/* How a store finds values: by the index that its flash lends, if ee.c was compiled with
 * EE_INDEX and there is one; else it looks through its slots. */
EE_IN_PLACE MaybeU32 lookup_value_of(const Lookup *self, const Device *flash, const Layout *layout,
        Address address) {
#ifdef EE_INDEX
    if (*self != NULL) {
        return lent_index_value_of(*self, flash, layout, address);
    }
#endif
    (void)self;
    return slots_value_of(flash, layout, address);
}

EE_IN_PLACE uint32_t lookup_live_count(const Lookup *self, const Device *flash,
        const Layout *layout) {
#ifdef EE_INDEX
    if (*self != NULL) {
        return lent_index_live_count(*self, flash, layout);
    }
#endif
    (void)self;
    return slots_live_count(flash, layout);
}

EE_IN_PLACE uint32_t lookup_live_with(const Lookup *self, const Device *flash,
        const Layout *layout, const Put *puts_items, uint32_t puts_len) {
#ifdef EE_INDEX
    if (*self != NULL) {
        return lent_index_live_with(*self, flash, layout, puts_items, puts_len);
    }
#endif
    (void)self;
    return slots_live_with(flash, layout, puts_items, puts_len);
}

EE_IN_PLACE MaybeLive lookup_next_live(const Lookup *self, const Device *flash,
        const Layout *layout, MaybeAddress after) {
#ifdef EE_INDEX
    if (*self != NULL) {
        return lent_index_next_live(*self, flash, layout, after);
    }
#endif
    (void)self;
    return slots_next_live(flash, layout, after);
}

EE_IN_PLACE Step lookup_make_ready(Lookup *self, const Device *_flash, const Layout *layout,
        Put put) {
#ifdef EE_INDEX
    if (*self != NULL) {
        return lent_index_make_ready(*self, _flash, layout, put);
    }
#endif
    (void)self;
    return slots_make_ready(_flash, layout, put);
}

EE_IN_PLACE Step lookup_make_room(Lookup *self, const Device *_flash, const Layout *layout,
        const Put *puts_items, uint32_t puts_len) {
#ifdef EE_INDEX
    if (*self != NULL) {
        return lent_index_make_room(*self, _flash, layout, puts_items, puts_len);
    }
#endif
    (void)self;
    return slots_make_room(_flash, layout, puts_items, puts_len);
}

EE_IN_PLACE Step lookup_append(Lookup *self, Device *flash, Layout *layout, Change change) {
#ifdef EE_INDEX
    if (*self != NULL) {
        return lent_index_append(*self, flash, layout, change);
    }
#endif
    (void)self;
    return slots_append(flash, layout, change);
}

EE_IN_PLACE Step lookup_transfer(Lookup *self, Device *flash, Layout *layout,
        const Put *puts_items, uint32_t puts_len, bool forgets) {
#ifdef EE_INDEX
    if (*self != NULL) {
        return lent_index_transfer(*self, flash, layout, puts_items, puts_len, forgets);
    }
#endif
    (void)self;
    return slots_transfer(flash, layout, puts_items, puts_len, forgets);
}

EE_IN_PLACE void lookup_find_nothing(Lookup *self) {
#ifdef EE_INDEX
    if (*self != NULL) {
        lent_index_find_nothing(*self);
        return;
    }
#endif
    (void)self;
    slots_find_nothing();
}

/* ---- ee_flash/word.rs: A word of flash as it reads: erased, held or torn. */

/* Its number: `u64::MAX` where it is erased, and 0 where it is torn. */
static uint64_t word_number(Word self) {
    switch (self.tag) {
    case Word_Erased:
        return UINT64_MAX;
    case Word_Held:
        return self.held;
    case Word_Torn:
    default:
        return 0u;
    }
}

/* ---- ee_flash/shape.rs: How large a device is: two sets of as many pages, and each page a
 * header and slots. */

/* The shape of this many pages in each set and words in each page, `None` outside the limits. */
EE_IN_PLACE MaybeShape shape_new(uint32_t pages, uint32_t words) {
    if (pages >= 1u && pages <= 64u && words >= 5u && words <= 512u) {
        return maybe_shape_some((Shape){ .pages = pages, .words = words });
    }
    return maybe_shape_none();
}

/* The slots of a set, 1 to 32512: the words of its pages, less the four of each page's header. */
static uint32_t shape_slots(Shape self) {
    return self.pages * (self.words - HEADER_WORDS);
}

/* ---- ee_codec/address.rs: The name of a variable: any number of 16 bits but the least and the
 * greatest. */

/* The address of this number, or `None` if it is 0 or 65535. */
EE_IN_PLACE MaybeAddress address_new(uint16_t number) {
    if (number == 0u || number == UINT16_MAX) {
        return maybe_address_none();
    }
    return maybe_address_some(number);
}

/* ---- ee_codec/header.rs: The words of a page's header: the receive word, which names a
 * generation, and the mark. */

/* The word that opens a set of this generation for taking elements. */
static uint64_t receive_word(uint32_t generation) {
    return RECEIVE + (uint64_t)generation;
}

/* Reads a word in the place of a receive word: the inverse of `receive_word`, and nothing else
 * reads. */
EE_IN_PLACE MaybeU32 read_receive(Word word) {
    if (word.tag == Word_Held && word.held > RECEIVE &&
            word.held < RECEIVE + UINT64_C(0xFFFFFFFF)) {
        const uint64_t number = word.held;
        return maybe_u32_some((uint32_t)(number - RECEIVE));
    }
    return maybe_u32_none();
}

/* Reads a word in the place of a mark: only `MARK` is one. */
static MarkRead read_mark(Word word) {
    if (word.tag == Word_Erased) {
        return MarkRead_Absent;
    }
    if (word.tag == Word_Torn) {
        return MarkRead_Broken;
    }
    if (word.tag == Word_Held && word.held == MARK) {
        return MarkRead_Present;
    }
    return MarkRead_Foreign;
}

/* ---- ee_codec/slot.rs: The words of a slot: an address has a value from there on, or has none. */

/* The word that says that `address` has `value`: the value in the high 32 bits, zero in the middle
 * 16, the address in the low 16. Ours, as is every word of this crate. */
static uint64_t element_word(Address address, uint32_t value) {
    return ((uint64_t)value << 32u) | (uint64_t)address;
}

/* The word that says that `address` has no value. It keeps the `value` forgotten in its high 32
 * bits, and has 1 in the middle 16. */
static uint64_t forget_word(Address address, uint32_t value) {
    return element_word(address, value) + (UINT64_C(1) << 16u);
}

/* Reads a word in the place of a slot: the inverse of `element_word` and `forget_word`, and
 * nothing else reads as an element or a forgetting. */
static Slot read_slot(Word word) {
    switch (word.tag) {
    case Word_Erased:
        return slot_free();
    case Word_Torn:
        return slot_spoiled();
    case Word_Held:
    default: {
        const uint64_t number = word.held;
        return read_held(number);
    }
    }
}

/* Reads a number in the place of a slot. */
static Slot read_held(uint64_t number) {
    const uint32_t value = (uint32_t)(number >> 32u);
    const uint64_t kind = (number >> 16u) & 0xFFFFu;
    const uint16_t address = (uint16_t)(number & 0xFFFFu);
    const MaybeAddress maybe_new = address_new(address);
    if (maybe_new.some && kind == 0u) {
        const Address address_2 = maybe_new.value;
        return slot_element(address_2, value);
    }
    if (maybe_new.some && kind == 1u) {
        const Address address_2 = maybe_new.value;
        return slot_forgotten(address_2, value);
    }
    return slot_foreign();
}

/* ---- ee_pages/runs.rs: The words of a page, several at a time. */

/* Readings of the words of a page from a place on: up to `RUN` of them, all before
 * `end`, and at least one. */
EE_IN_PLACE ListOfU64 run_from(const Device *flash, uint32_t page, uint32_t at, uint32_t end,
        uint64_t *room) {
    const uint32_t count = u32_least(RUN, end - at);
    return device_run(flash, page, at, (RoomOfU64){ .items = room, .len = count });
}

/* ---- ee_pages/side.rs: The two sets of a device, and the places of their pages, words and
 * slots. */

/* The other of the two sets. */
static Side side_other(Side self) {
    if (self == Side_First) {
        return Side_Second;
    }
    return Side_First;
}

/* The number, in the device, of a set's first page. */
static uint32_t first_page(const Device *flash, Side side) {
    if (side == Side_First) {
        return 0u;
    }
    return flash->shape.pages;
}

/* The word at a place of a page of a set. */
static Word set_word(const Device *flash, Side side, uint32_t page, uint32_t at) {
    return device_word(flash, first_page(flash, side) + page, at);
}

/* The slot of this number of a page of a set, both counted from 0. */
static Word page_slot(const Device *flash, Side side, uint32_t page, uint32_t slot) {
    return set_word(flash, side, page, HEADER_WORDS + slot);
}

#ifdef EE_INDEX
/* The slot of this number of a set, counted from 0. */
static Word set_slot(const Device *flash, Side side, uint32_t slot) {
    const uint32_t slots = flash->shape.words - HEADER_WORDS;
    return page_slot(flash, side, slot / slots, slot % slots);
}

/* The number of the slot of this number of a page of a set, both counted from 0: it says
 * what the slot says. */
static uint64_t page_number(const Device *flash, Side side, uint32_t page, uint32_t slot) {
    uint64_t room[1u];
    for (uint32_t at = 0u; at < 1u; at++) {
        room[at] = 0u;
    }
    const ListOfU64 run = device_run(flash, first_page(flash, side) + page, HEADER_WORDS + slot,
            (RoomOfU64){ .items = room, .len = 1u });
    return device_number(flash, run.items[0u]);
}

/* The number of the slot of this number of a set, counted from 0: it says what the slot says. */
static uint64_t set_number(const Device *flash, Side side, uint32_t slot) {
    const uint32_t slots = flash->shape.words - HEADER_WORDS;
    return page_number(flash, side, slot / slots, slot % slots);
}
#endif

/* The generation with which a set is committed. */
static MaybeU32 committed(const Device *flash, Side side) {
    uint64_t room[COMMITTING];
    for (uint32_t at = 0u; at < COMMITTING; at++) {
        room[at] = 1u;
    }
    const ListOfU64 run = device_run(flash, first_page(flash, side), 0u,
            (RoomOfU64){ .items = room, .len = COMMITTING });
    /* The number of a torn word is 0, of an erased one all ones: no mark and no receive word. */
    if (device_number(flash, run.items[1u]) == MARK) {
        return read_receive(word_held(device_number(flash, run.items[0u])));
    }
    return maybe_u32_none();
}

/* ---- ee_pages/state.rs: What a page's header says: the last word of it that is written names
 * the state. */

/* Whether every word of a page is erased. Pages are numbered as for `state_of`. */
EE_IN_PLACE bool state_is_blank(const Device *flash, uint32_t page) {
    return blank_to(flash, page, 0u) == flash->shape.words;
}

/* The place, from one on, of a page's first word that is written; as many as it has
 * words where none is. Pages are numbered as for `state_of`. */
static uint32_t blank_to(const Device *flash, uint32_t page, uint32_t from) {
    const uint32_t words = flash->shape.words;
    uint64_t room[RUN];
    uint32_t at = from;
    /* The first run has one word, since that is written in most pages that aren't blank. */
    uint32_t end = from + 1u;
    while (at < words) {
        const ListOfU64 run = run_from(flash, page, at, end, room);
        /* Asked first, since most runs are, and it is a shorter loop than one that counts. */
        if (!is_erased(run.items, run.len)) {
            return at + erased_in(run.items, run.len);
        }
        at += run.len;
        end = words;
    }
    return words;
}

/* Whether all readings are all ones. */
EE_APART bool is_erased(const uint64_t *readings_items, uint32_t readings_len) {
    const ListOfU64 readings = { .items = readings_items, .len = readings_len };
    uint64_t all = UINT64_MAX;
    if (readings.len != 0u) {
        const uint64_t *reading = readings.items;
        const uint64_t *const reading_end = reading + readings.len;
        do {
            all &= *reading;
            reading++;
        } while (reading != reading_end);
    }
    return all == UINT64_MAX;
}

/* How many readings, from the first on, are all ones. */
static uint32_t erased_in(const uint64_t *readings_items, uint32_t readings_len) {
    const ListOfU64 readings = { .items = readings_items, .len = readings_len };
    if (readings.len != 0u) {
        const uint64_t *reading = readings.items;
        const uint64_t *const reading_end = reading + readings.len;
        do {
            if (*reading != UINT64_MAX) {
                return (uint32_t)(reading - readings.items);
            }
            reading++;
        } while (reading != reading_end);
    }
    return readings.len;
}

/* Whether something was programmed into the word, whole or torn. */
static bool state_is_written(Word word) {
    return word.tag != Word_Erased;
}

/* Whether a program of the word, or an erase of its page, was cut. */
static bool is_torn(Word word) {
    return word.tag == Word_Torn;
}

/* ---- ee_pages/number.rs: What the number of a word says in the place of a slot. */

/* Whether a number is that of an element or a forgetting. */
static bool is_slot(uint64_t number) {
    /* One comparison for an address that is neither 0 nor 65535, since 0 wraps. */
    return u16_wrapping_sub(address_in(number), 1u) < (uint16_t)((uint32_t)UINT16_MAX - 1u) &&
            says_something(number);
}

/* The address in the number of an element or a forgetting. */
static uint16_t address_in(uint64_t number) {
    return (uint16_t)(number & 0xFFFFu);
}

/* Whether a number with an address is that of an element or a forgetting. */
static bool says_something(uint64_t number) {
    return (((uint32_t)number >> 16u) & 0xFFFFu) < 2u;
}

/* Whether the number of an element or a forgetting gives its address a value. */
static bool gives_value(uint64_t number) {
    return (((uint32_t)number >> 16u) & 0xFFFFu) == 0u;
}

/* ---- ee_pages/table.rs: Which word may stand in which place of a live set: what makes an image
 * legal. */

/* The place of a word of a set. */
static TablePlace place_of(uint32_t page, uint32_t at) {
    if (at > 3u) {
        return TablePlace_InSlot;
    }
    if (at == 3u) {
        return TablePlace_Erasing;
    }
    if (at == 2u) {
        return TablePlace_Marking;
    }
    if (page == 0u) {
        return TablePlace_Committing;
    }
    if (at == 1u) {
        return TablePlace_Marking;
    }
    return TablePlace_Receiving;
}

/* Whether the word may stand in the place of a live set of this generation. It stands in
 * each of its callers, so that an opening has the same code in firmware whether bad words
 * are counted or not. */
EE_IN_PLACE bool fits(uint32_t generation, TablePlace place, Word word) {
    switch (place) {
    case TablePlace_Committing:
        return true;
    case TablePlace_Receiving: {
        if (word.tag == Word_Held) {
            const uint64_t number = word.held;
            return number == receive_word(generation);
        }
        return true;
    }
    case TablePlace_Marking: {
        const MarkRead mark_read = read_mark(word);
        return mark_read != MarkRead_Foreign;
    }
    case TablePlace_Erasing:
        return !state_is_written(word);
    case TablePlace_InSlot:
    default: {
        const Slot slot = read_slot(word);
        return slot.tag != Slot_Foreign;
    }
    }
}

/* Whether the word may stand in this place of the header of a page of a live set of this
 * generation, but for the two that commit the set. It does so exactly where `fits` does. */
static bool fits_header(uint32_t generation, uint32_t at, Word word) {
    uint64_t expected;
    if (at == 0u) {
        expected = receive_word(generation);
    } else {
        expected = MARK;
    }
    switch (word.tag) {
    case Word_Erased:
        return true;
    case Word_Torn:
        return at < 3u;
    case Word_Held:
    default: {
        const uint64_t number = word.held;
        return at < 3u && number == expected;
    }
    }
}

/* ---- ee_pages/find.rs: The scan: where the live set of a legal image is and how far it is
 * used, or why an image isn't legal. */

/* Finds the live set of a legal image. It reads each word of the live set at most twice, and
 * behind each torn slot once more the words that stood in one run with it, up to 15.
 *
 * Source: one of two sets takes the writes, AN4894; the rest is ours.
 *
 * Errors:
 *
 * The first `ScanFault` that applies, exactly where the image is not legal. */
static ScanFault scan(const Device *flash, Layout *made) {
    if (is_unformatted(flash)) {
        return ScanFault_Unformatted;
    }
    const LiveSetResult live_set_result = live_set(flash);
    if (!live_set_result.ok) {
        return live_set_result.error;
    }
    const LiveSet side_and_generation = live_set_result.value;
    const Side side = side_and_generation.first;
    const uint32_t generation = side_and_generation.second;
    const uint32_t start = first_page(flash, side);
    const FrontResult front_of_result = front_of(flash, side, generation);
    if (!front_of_result.ok) {
        const uint32_t page = front_of_result.error.first;
        const uint32_t at = front_of_result.error.second;
        return scan_fault_foreign(start + page, at);
    }
    const uint32_t fill = front_of_result.value.first;
    const uint32_t page = front_of_result.value.second;
    *made = (Layout){ .side = side, .generation = generation, .fill = fill,
            .current = start + page };
    return EE_OK;
}

/* Whether every word of the device is erased. */
static bool is_unformatted(const Device *flash) {
    for (uint32_t page = 0u, end = 2u * flash->shape.pages; page < end; page++) {
        if (!state_is_blank(flash, page)) {
            return false;
        }
    }
    return true;
}

/* The live set and its generation. */
static LiveSetResult live_set(const Device *flash) {
    const MaybeU32 maybe_committed = committed(flash, Side_First);
    const MaybeU32 maybe_committed_2 = committed(flash, Side_Second);
    if (!maybe_committed.some && !maybe_committed_2.some) {
        return live_set_result_err(ScanFault_NoLiveSet);
    }
    if (maybe_committed.some && !maybe_committed_2.some) {
        const uint32_t first = maybe_committed.value;
        return live_set_result_ok((LiveSet){ .first = Side_First, .second = first });
    }
    if (!maybe_committed.some && maybe_committed_2.some) {
        const uint32_t second = maybe_committed_2.value;
        return live_set_result_ok((LiveSet){ .first = Side_Second, .second = second });
    }
    const uint32_t first = maybe_committed.value;
    const uint32_t second = maybe_committed_2.value;
    if (first == second) {
        return live_set_result_err(ScanFault_TwoLive);
    }
    if (second < first) {
        return live_set_result_ok((LiveSet){ .first = Side_First, .second = first });
    }
    return live_set_result_ok((LiveSet){ .first = Side_Second, .second = second });
}

/* How many slots of a live set are used, and the page of the last of them, the first page where
 * none is; or the first word, by page and then place, that may not stand there. Pages are counted
 * from the set's first. */
static FrontResult front_of(const Device *flash, Side side, uint32_t generation) {
    const Shape shape = flash->shape;
    const uint32_t slots = shape.words - HEADER_WORDS;
    uint32_t used = 0u;
    uint32_t last = 0u;
    for (uint32_t page = 0u, end = shape.pages; page < end; page++) {
        const PlaceResult used_of_page_result = used_of_page(flash, side, generation, page,
                used == page * slots);
        if (!used_of_page_result.ok) {
            const uint32_t at = used_of_page_result.error;
            return front_result_err((IndexPair){ .first = page, .second = at });
        }
        const uint32_t here = used_of_page_result.value;
        if (here > 0u) {
            last = page;
        }
        used += here;
    }
    return front_result_ok((IndexPair){ .first = used, .second = last });
}

/* How many slots of a page of a live set are used, none where not all before them are; or the
 * first word of the page that may not stand there. */
static PlaceResult used_of_page(const Device *flash, Side side, uint32_t generation, uint32_t page,
        bool full) {
    const PlaceResult from_result = unused_from(flash, side, generation, page, full);
    if (!from_result.ok) {
        return place_result_err(from_result.error);
    }
    const uint32_t from = from_result.value;
    /* From there on all have to be erased, the next slot first of all. */
    const uint32_t written = blank_to(flash, first_page(flash, side) + page, from);
    if (written < flash->shape.words) {
        return place_result_err(written);
    }
    return place_result_ok(u32_saturating_sub(from, HEADER_WORDS));
}

/* The place in a page of a live set from which on all has to be erased: behind its used slots, or
 * its first word where not all slots before it are used. Or the first word of its header that
 * doesn't fit its place. */
static PlaceResult unused_from(const Device *flash, Side side, uint32_t generation, uint32_t page,
        bool full) {
    if (!full) {
        return place_result_ok(0u);
    }
    const MaybeIndex maybe_foreign_in_header = foreign_in_header(flash, side, generation, page);
    if (maybe_foreign_in_header.some) {
        return place_result_err(maybe_foreign_in_header.value);
    }
    return place_result_ok(used_to(flash, first_page(flash, side) + page));
}

/* The first word of the header of a page of a live set that doesn't fit its place. */
static MaybeIndex foreign_in_header(const Device *flash, Side side, uint32_t generation,
        uint32_t page) {
    for (uint32_t at = first_told(page); at < HEADER_WORDS; at++) {
        if (!fits_header(generation, at, set_word(flash, side, page, at))) {
            return maybe_index_some(at);
        }
    }
    return maybe_index_none();
}

/* The place from which on the words of a header have to fit: those that commit the
 * set are told apart. */
static uint32_t first_told(uint32_t page) {
    if (page == 0u) {
        return 2u;
    }
    return 0u;
}

/* The place of a page's first slot that is neither torn nor has an element or a forgetting;
 * as many as the page has words where each is or has. It stays out of the opening, whose
 * stack is deep without it. */
EE_APART uint32_t used_to(const Device *flash, uint32_t page) {
    const uint32_t words = flash->shape.words;
    uint64_t room[RUN];
    uint32_t at = HEADER_WORDS;
    while (at < words) {
        const ListOfU64 run = run_from(flash, page, at, words, room);
        const uint32_t slots = slots_in(flash, run.items, run.len);
        const bool all = slots == run.len;
        at += slots;
        if (!all) {
            if (!is_torn(device_word(flash, page, at))) {
                return at;
            }
            at += 1u;
        }
    }
    return words;
}

/* How many words of these readings, from the first on, each are torn or have an element or a
 * forgetting. The next has neither, and may be torn. */
static uint32_t slots_in(const Device *flash, const uint64_t *readings_items,
        uint32_t readings_len) {
    const ListOfU64 readings = { .items = readings_items, .len = readings_len };
    if (readings.len != 0u) {
        const uint64_t *reading = readings.items;
        const uint64_t *const reading_end = reading + readings.len;
        do {
            if (!is_slot(device_in_clear(flash, *reading))) {
                return (uint32_t)(reading - readings.items);
            }
            reading++;
        } while (reading != reading_end);
    }
    return readings.len;
}

/* ---- ee_pages/batch_items.rs: The room of a batch: up to `BATCH` addresses with their values,
 * and while it is filled some with none. */

/* An empty batch. */
static void batch_new(Batch *made) {
    /* Any number of an address serves where there is none yet. */
    for (uint32_t at = 0u; at < BATCH; at++) {
        made->numbers[at] = 1u;
    }
    made->len = 0u;
}

/* The address at this place, counted from 0, with its value. `None` behind the last. */
EE_IN_PLACE MaybeLive batch_get(const Batch *self, uint32_t place) {
    if (place >= self->len) {
        return maybe_live_none();
    }
    const uint64_t number = self->numbers[place];
    const MaybeAddress maybe_address = address_new(address_in(number));
    if (!maybe_address.some) {
        return maybe_live_none();
    }
    const Address address = maybe_address.value;
    return maybe_live_some((Live){ .first = address, .second = (uint32_t)(number >> 32u) });
}

/* Takes all addresses out. */
static void batch_take_out(Batch *self) {
    self->len = 0u;
}

/* Notes what a number with an address says of it, over what was noted of it, if it is that of
 * an element or a forgetting. Where there is no room the last address falls out. Says whether
 * there may be another last address, or one more, than before. It stands in the loop over a
 * run, so that no number of an address that has a place takes a call. */
EE_IN_PLACE bool batch_note_any(Batch *self, uint64_t number) {
    return says_something(number) && batch_put(self, number);
}

/* The same for an element or a forgetting. */
static bool batch_put(Batch *self, uint64_t number) {
    const uint16_t address = address_in(number);
    const uint32_t through = batch_place_through(self, address);
    if (through > 0u && batch_has(self, through - 1u, address)) {
        batch_set(self, through - 1u, number);
        return false;
    }
    if (through < BATCH) {
        batch_insert(self, through, number);
    }
    return true;
}

/* How many of the addresses, which rise, are no greater than this one. */
static uint32_t batch_place_through(const Batch *self, uint16_t address) {
    return batch_items_place_in(self->numbers, self->len, address);
}

/* Whether this address stands at this place. */
static bool batch_has(const Batch *self, uint32_t place, uint16_t address) {
    return place < self->len && address_in(self->numbers[place]) == address;
}

/* Notes of the address at this place what a number says of it. */
static void batch_set(Batch *self, uint32_t place, uint64_t number) {
    self->numbers[place] = number;
}

/* Puts a number in at this place. Where there is no room the last one falls out. */
static void batch_insert(Batch *self, uint32_t place, uint64_t number) {
    const uint32_t end = one_more(self->len);
    batch_items_put_in(self->numbers, BATCH, place, end, number);
    self->len = end;
}

/* The last address, where there is no room for one more. */
EE_IN_PLACE MaybeAddress batch_last_if_full(const Batch *self) {
    if (self->len < BATCH) {
        return maybe_address_none();
    }
    return address_new(address_in(self->numbers[BATCH - 1u]));
}

/* The greatest address that has a place in it: the last one, where there is no room for one
 * more. */
static uint16_t batch_greatest(const Batch *self) {
    if (self->len < BATCH) {
        return (uint16_t)((uint32_t)UINT16_MAX - 1u);
    }
    return address_in(self->numbers[BATCH - 1u]);
}

/* Keeps those that have a value. */
static void batch_keep_living(Batch *self) {
    self->len = keep(self->numbers, BATCH, self->len);
}

/* One more, up to the room of a batch. */
static uint32_t one_more(uint32_t count) {
    if (count < BATCH) {
        return count + 1u;
    }
    return BATCH;
}

/* How many of these addresses, which rise, are no greater than this one. It looks from the last
 * down, since most addresses are above all. */
static uint32_t batch_items_place_in(const uint64_t *rising_items, uint32_t rising_len,
        uint16_t address) {
    const ListOfU64 rising = { .items = rising_items, .len = rising_len };
    uint32_t place = rising.len;
    const uint64_t *last = rising.items + place;
    while (place > 0u && address < address_in(*--last)) {
        place -= 1u;
    }
    return place;
}

/* Puts a number in at this place of a list, and moves what stands from there on to before `end`
 * one further; the last of these falls out. */
static void batch_items_put_in(uint64_t *list_items, uint32_t list_len, uint32_t place,
        uint32_t end, uint64_t number) {
    const RoomOfU64 list = { .items = list_items, .len = list_len };
    uint64_t carried = number;
    for (uint32_t at = place; at < end; at++) {
        const uint64_t next = list.items[at];
        list.items[at] = carried;
        carried = next;
    }
}

/* Moves those of the first `count` that give a value to the front, and says how many there are. */
static uint32_t keep(uint64_t *numbers_items, uint32_t numbers_len, uint32_t count) {
    const RoomOfU64 numbers = { .items = numbers_items, .len = numbers_len };
    uint32_t kept = 0u;
    for (uint32_t place = 0u; place < count; place++) {
        const uint64_t number = numbers.items[place];
        if (gives_value(number)) {
            numbers.items[kept] = number;
            kept += 1u;
        }
    }
    return kept;
}

/* ---- ee_pages/batch.rs: The next live addresses, as many as are found in one look through the
 * slots. */

/* One with no addresses. It stays out of the calls that begin with one, since it is long. */
EE_APART void live_batch_new(LiveBatch *made) {
    batch_new(&made->found);
    made->through = maybe_address_none();
}

/* Puts the next live addresses above `after`, or the first of all if `after` is `None`, into a
 * batch, with their values, in place of what it held: up to `BATCH`, from one look through the
 * slots. There may be none, and more behind `through`, where addresses were forgotten. The
 * layout is the image's. */
static void next_batch(const Device *flash, const Layout *layout, MaybeAddress after,
        LiveBatch *batch) {
    batch_take_out(&batch->found);
    gather(flash, layout->side, number_of(after), &batch->found);
    batch->through = batch_last_if_full(&batch->found);
    batch_keep_living(&batch->found);
}

/* The number above which a batch begins. */
static uint16_t number_of(MaybeAddress after) {
    if (!after.some) {
        return 0u;
    }
    const Address address = after.value;
    return address;
}

/* Puts in the next addresses above this one of which a slot says something, each with
 * what the last one says. */
static void gather(const Device *flash, Side side, uint16_t above, Batch *nearest) {
    for (uint32_t page = 0u, end = flash->shape.pages; page < end; page++) {
        gather_page(flash, side, page, above, nearest);
    }
}

/* Notes what the slots of a page say, behind those of the pages before. */
static void gather_page(const Device *flash, Side side, uint32_t page, uint16_t above,
        Batch *nearest) {
    const uint32_t here = first_page(flash, side) + page;
    const uint32_t words = flash->shape.words;
    uint32_t span = span_of(nearest, above);
    uint64_t room[RUN];
    uint32_t at = HEADER_WORDS;
    while (at < words) {
        const ListOfU64 run = run_from(flash, here, at, words, room);
        at += run.len;
        span = note_all(flash, above, span, run.items, run.len, nearest);
    }
}

/* Notes what the words of these readings say, of so many addresses above this one, which are those
 * that have a place in the batch. Gives how many have one then. */
EE_APART uint32_t note_all(const Device *flash, uint16_t above, uint32_t span,
        const uint64_t *readings_items, uint32_t readings_len, Batch *nearest) {
    const ListOfU64 readings = { .items = readings_items, .len = readings_len };
    if (readings.len != 0u) {
        const uint64_t *reading = readings.items;
        const uint64_t *const reading_end = reading + readings.len;
        do {
            span = note_within(flash, above, span, *reading, nearest);
            reading++;
        } while (reading != reading_end);
    }
    return span;
}

/* Notes what the word of a reading says, if it is of one of so many addresses above this one. */
static uint32_t note_within(const Device *flash, uint16_t above, uint32_t span, uint64_t reading,
        Batch *nearest) {
    /* Asked first, since most words are of an address that has no place in a batch. */
    const uint16_t address = address_in(reading);
    if (!is_within(address, above, span)) {
        return span;
    }
    const uint64_t number = device_number(flash, reading);
    if (address_in(number) != address) {
        return span;
    }
    if (batch_note_any(nearest, number)) {
        return span_of(nearest, above);
    }
    return span;
}

/* How many addresses above this one have a place in a batch. */
static uint32_t span_of(const Batch *nearest, uint16_t above) {
    return (uint32_t)(uint16_t)((uint32_t)batch_greatest(nearest) - above);
}

/* Whether an address is one of so many above another one. */
static bool is_within(uint16_t address, uint16_t above, uint32_t span) {
    /* One comparison, since what is no greater than `above` wraps. */
    return u32_wrapping_sub((uint32_t)address, (uint32_t)above + 1u) < span;
}

#ifdef EE_INDEX
/* ---- ee_pages/read.rs: What the slots of a live set say: values, the next live address, how
 * many are live, how many torn. */

/* The word in a slot of the live set, by the slot's number, counted from 0 and below the capacity.
 * The layout is the image's. */
static Word slot_word(const Device *flash, const Layout *layout, uint32_t slot) {
    return set_slot(flash, layout->side, slot);
}

/* The value that a slot of the live set says, by the slot's number, counted from 0 and below the
 * capacity; any number where the slot says none. The layout is the image's. */
static uint32_t slot_value(const Device *flash, const Layout *layout, uint32_t slot) {
    return (uint32_t)(set_number(flash, layout->side, slot) >> 32u);
}
#endif

/* The value of an address, `None` if it has none. It reads the slots in runs from the
 * newest down, each once, to the run with the first that says something of the address. The
 * layout is the image's.
 *
 * Source: the last element written for an address is its value, AN4894; a forgetting is ours. */
static MaybeU32 latest(const Device *flash, const Layout *layout, Address address) {
    /* Page by page, since finding a slot by its number takes a division. */
    const uint32_t slots = flash->shape.words - HEADER_WORDS;
    const uint32_t last = layout->current - first_page(flash, layout->side);
    uint32_t left = layout->fill;
    for (uint32_t page_end = last + 1u; page_end > 0u; page_end--) {
        const uint32_t page = page_end - 1u;
        const uint32_t before = page * slots;
        const MaybeSaidValue maybe_said = said_in_page(flash, layout->side, page, left - before,
                address);
        if (maybe_said.some) {
            return maybe_said.value;
        }
        left = before;
    }
    return maybe_u32_none();
}

/* The next live address above `after`, or of all if `after` is `None`, with its value. `None` if
 * there is none. It looks through the slots once, and once more for each batch of addresses that
 * were all forgotten. The layout is the image's. */
static MaybeLive next_live(const Device *flash, const Layout *layout, MaybeAddress after) {
    MaybeAddress behind = after;
    LiveBatch batch;
    live_batch_new(&batch);
    for (;;) {
        next_batch(flash, layout, behind, &batch);
        const MaybeLive maybe_found = batch_get(&batch.found, 0u);
        if (maybe_found.some) {
            return maybe_live_some(maybe_found.value);
        }
        if (!batch.through.some) {
            return maybe_live_none();
        }
        const Address through = batch.through.value;
        behind = maybe_address_some(through);
    }
}

/* How many addresses have a value, 0 to the capacity. It looks through the slots once for each
 * batch of live addresses. The layout is the image's. */
static uint32_t live_count(const Device *flash, const Layout *layout) {
    uint32_t count = 0u;
    MaybeAddress after = maybe_address_none();
    LiveBatch batch;
    live_batch_new(&batch);
    for (;;) {
        next_batch(flash, layout, after, &batch);
        count += batch.found.len;
        if (!batch.through.some) {
            return count;
        }
        const Address through = batch.through.value;
        after = maybe_address_some(through);
    }
}

/* How many slots of the live set are torn, 0 to its fill. It reads each slot once. The
 * layout is the image's. */
static uint32_t torn_slots(const Device *flash, const Layout *layout) {
    uint32_t torn = 0u;
    for (uint32_t page = 0u, end = flash->shape.pages; page < end; page++) {
        torn = torn_through(flash, layout->side, page, torn);
    }
    return torn;
}

/* How many slots are torn up to the end of a page of a set, where this many are torn before it.
 * Page by page, since finding a slot by its number takes a division. */
static uint32_t torn_through(const Device *flash, Side side, uint32_t page, uint32_t before) {
    uint32_t torn = before;
    for (uint32_t slot = 0u, end = flash->shape.words - HEADER_WORDS; slot < end; slot++) {
        if (is_torn(page_slot(flash, side, page, slot))) {
            torn += 1u;
        }
    }
    return torn;
}

/* What the first `used` slots of a page of a set say of an address: the newest that says something
 * counts. */
static MaybeSaidValue said_in_page(const Device *flash, Side side, uint32_t page, uint32_t used,
        Address address) {
    const uint32_t here = first_page(flash, side) + page;
    uint64_t room[RUN];
    uint32_t left = used;
    while (left > 0u) {
        const uint32_t count = u32_least(RUN, left);
        left -= count;
        const ListOfU64 run = device_run(flash, here, HEADER_WORDS + left,
                (RoomOfU64){ .items = room, .len = count });
        const uint32_t ends = ending_in(run.items, run.len, address);
        if (ends > 0u) {
            const MaybeSaidValue maybe_said = said_by(flash, run.items[ends - 1u]);
            if (maybe_said.some) {
                return maybe_said_value_some(maybe_said.value);
            }
            left += ends - 1u;
        }
    }
    return maybe_said_value_none();
}

/* How many of these readings stand up to the last that ends in an address, 0 where none does. It
 * does no more than that, since most end in another one. */
EE_APART uint32_t ending_in(const uint64_t *readings_items, uint32_t readings_len,
        Address address) {
    const ListOfU64 readings = { .items = readings_items, .len = readings_len };
    uint32_t left = readings.len;
    const uint64_t *last = readings.items + left;
    while (left > 0u && address_in(*--last) != address) {
        left -= 1u;
    }
    return left;
}

/* What the word of a reading says of the address that this ends in. */
EE_IN_PLACE MaybeSaidValue said_by(const Device *flash, uint64_t reading) {
    const uint64_t number = device_number(flash, reading);
    /* Another one ends in another address, as 0 does, the number of a torn word. */
    if (address_in(number) != address_in(reading)) {
        return maybe_said_value_none();
    }
    return said(number);
}

/* What a number says of the address that it ends in: nothing, or that it has a value
 * or none from here on. */
EE_IN_PLACE MaybeSaidValue said(uint64_t number) {
    if (!says_something(number)) {
        return maybe_said_value_none();
    }
    if (gives_value(number)) {
        return maybe_said_value_some(maybe_u32_some((uint32_t)(number >> 32u)));
    }
    return maybe_said_value_some(maybe_u32_none());
}

/* ---- ee_pages/loading.rs: The values of a list of addresses, by one look through the slots. */

/* Gives each entry of a list the value of its address, as `latest` does. It reads each slot of the
 * pages that are in use once, however long the list is. The layout is the image's.
 *
 * Source: the last element written for an address is its value, AN4894; the rest is ours. */
static void load(const Device *flash, const Layout *layout, Wanted *entries_items,
        uint32_t entries_len) {
    const RoomOfWanted entries = { .items = entries_items, .len = entries_len };
    const uint32_t last = layout->current - first_page(flash, layout->side);
    clear_values(entries.items, entries.len);
    for (uint32_t page = 0u, end = last + 1u; page < end; page++) {
        loading_tell_page(flash, layout->side, page, entries.items, entries.len);
    }
}

/* Takes the value of each entry away. */
static void clear_values(Wanted *entries_items, uint32_t entries_len) {
    const RoomOfWanted entries = { .items = entries_items, .len = entries_len };
    if (entries.len != 0u) {
        uint32_t at = 0u;
        do {
            entries.items[at].value = maybe_u32_none();
            at++;
        } while (at != entries.len);
    }
}

/* Gives the entries what the slots of a page say, which stand behind those of the pages before. */
static void loading_tell_page(const Device *flash, Side side, uint32_t page, Wanted *entries_items,
        uint32_t entries_len) {
    const RoomOfWanted entries = { .items = entries_items, .len = entries_len };
    const uint32_t here = first_page(flash, side) + page;
    const uint32_t words = flash->shape.words;
    uint64_t room[RUN];
    uint32_t at = HEADER_WORDS;
    while (at < words) {
        const ListOfU64 run = run_from(flash, here, at, words, room);
        at += run.len;
        loading_tell_run(flash, run.items, run.len, entries.items, entries.len);
    }
}

/* Gives the entries what the words of these readings say. */
static void loading_tell_run(const Device *flash, const uint64_t *readings_items,
        uint32_t readings_len, Wanted *entries_items, uint32_t entries_len) {
    const ListOfU64 readings = { .items = readings_items, .len = readings_len };
    const RoomOfWanted entries = { .items = entries_items, .len = entries_len };
    if (entries.len != 0u) {
        uint32_t at = 0u;
        do {
            const MaybeSaidValue maybe_said = said_in(flash, readings.items, readings.len,
                    entries.items[at].address);
            if (maybe_said.some) {
                const MaybeU32 said_2 = maybe_said.value;
                entries.items[at].value = said_2;
            }
            at++;
        } while (at != entries.len);
    }
}

/* What the words of these readings say of an address: the last that says something counts. */
static MaybeSaidValue said_in(const Device *flash, const uint64_t *readings_items,
        uint32_t readings_len, Address address) {
    const ListOfU64 readings = { .items = readings_items, .len = readings_len };
    uint32_t left = readings.len;
    while (left > 0u) {
        left -= 1u;
        if (address_in(readings.items[left]) == address) {
            const MaybeSaidValue said_2 = said_by(flash, readings.items[left]);
            if (said_2.some) {
                return said_2;
            }
        }
    }
    return maybe_said_value_none();
}

/* ---- ee_pages/span.rs: The values of addresses that follow one another, by one look through
 * the slots. */

/* So many addresses from this one on, or fewer, of which nothing is said. */
static void span_new(Address first, uint32_t count, Span *made) {
    const uint32_t behind = (uint32_t)(uint16_t)((uint32_t)UINT16_MAX - first);
    made->first = first;
    made->count = u32_least(u32_least(count, SPAN), behind);
    for (uint32_t at = 0u; at < SPAN; at++) {
        made->numbers[at] = UNSAID;
    }
}

/* The one address with this value, `None` if it has none. */
static void span_of_one(Address address, MaybeU32 value, Span *made) {
    span_new(address, 1u, made);
    if (value.some) {
        const uint32_t value_2 = value.value;
        made->numbers[0u] = element_word(address, value_2);
    }
}

/* Notes what the word of a reading says, if it is of one of the addresses, of which nothing is
 * said. */
static void span_note(Span *self, const Device *flash, uint64_t reading) {
    const uint16_t address = address_in(reading);
    const uint32_t at = (uint32_t)u16_wrapping_sub(address, self->first);
    if (at < self->count && !said(self->numbers[at]).some) {
        const uint64_t number = device_number(flash, reading);
        if (address_in(number) == address) {
            self->numbers[at] = number;
        }
    }
}

/* Of how many of the first addresses something is said, where it is of so many. */
static uint32_t span_said_from(const Span *self, uint32_t before) {
    uint32_t said_to = before;
    while (said_to < self->count && said(self->numbers[said_to]).some) {
        said_to += 1u;
    }
    return said_to;
}

/* The values of so many addresses from this one on, or of fewer. It reads the slots in runs from
 * the newest down, each once, to one at which all have been found. The layout is the image's.
 *
 * Source: the last element written for an address is its value, AN4894; the rest is ours. */
static void read_span(const Device *flash, const Layout *layout, Address first, uint32_t count,
        Span *made) {
    const uint32_t slots = flash->shape.words - HEADER_WORDS;
    const uint32_t last = layout->current - first_page(flash, layout->side);
    span_new(first, count, made);
    uint32_t said_to = 0u;
    uint32_t left = layout->fill;
    for (uint32_t page_end = last + 1u; page_end > 0u; page_end--) {
        const uint32_t page = page_end - 1u;
        const uint32_t before = page * slots;
        said_to = span_tell_page(flash, layout->side, page, left - before, made, said_to);
        left = before;
    }
}

/* Notes what the first `used` slots of a page say, which stand before those noted, unless
 * something is said of all addresses. Something is said of the first `before`; gives of how
 * many. */
static uint32_t span_tell_page(const Device *flash, Side side, uint32_t page, uint32_t used,
        Span *span, uint32_t before) {
    const uint32_t here = first_page(flash, side) + page;
    uint64_t room[RUN];
    uint32_t said_to = before;
    uint32_t left = used;
    while (left > 0u && said_to < span->count) {
        const uint32_t count = u32_least(RUN, left);
        left -= count;
        const ListOfU64 run = device_run(flash, here, HEADER_WORDS + left,
                (RoomOfU64){ .items = room, .len = count });
        span_tell_run(flash, run.items, run.len, span);
        said_to = span_said_from(span, said_to);
    }
    return said_to;
}

/* Notes what the words of these readings say, which stand before those noted. */
static void span_tell_run(const Device *flash, const uint64_t *readings_items,
        uint32_t readings_len, Span *span) {
    const ListOfU64 readings = { .items = readings_items, .len = readings_len };
    uint32_t left = readings.len;
    while (left > 0u) {
        left -= 1u;
        span_note(span, flash, readings.items[left]);
    }
}

/* ---- ee_pages/marking.rs: A mark as a step: none where its word is written. */

/* Programs a mark, unless its word is written, torn or not: then it takes no step. Pages are
 * numbered from 0, those of the first set first.
 *
 * Errors:
 *
 * `Cut`, only with the device off afterwards: power failed in this step, or was off before it and
 * nothing changed. */
static Step marking_mark(Device *flash, uint32_t page, Mark mark) {
    uint32_t at;
    uint64_t number;
    switch (mark.tag) {
    case Mark_Receive: {
        const uint32_t generation = mark.receive;
        at = 0u;
        number = receive_word(generation);
        break;
    }
    case Mark_Active:
        at = 1u;
        number = MARK;
        break;
    case Mark_Valid:
        at = 2u;
        number = MARK;
        break;
    case Mark_Erasing:
    default:
        at = 3u;
        number = MARK;
        break;
    }
    if (state_is_written(device_word(flash, page, at))) {
        return DONE;
    }
    return device_program(flash, page, at, number);
}

/* ---- ee_pages/rescue.rs: Which set of a device with any words whatever is rescued, and how
 * many of its words are bad. */

/* The set that is rescued, of any device. `None` where no set is begun. */
static MaybeSide rescued_side(const Device *flash) {
    const bool first = has_begun(flash, Side_First);
    const bool second = has_begun(flash, Side_Second);
    if (!(first || second)) {
        return maybe_side_none();
    }
    const MaybeSide maybe_side = only(first, second);
    if (maybe_side.some) {
        return maybe_side_some(maybe_side.value);
    }
    const bool first_left = is_left_behind(flash, Side_First);
    const bool second_left = is_left_behind(flash, Side_Second);
    const MaybeSide maybe_side_2 = only(!first_left, !second_left);
    if (maybe_side_2.some) {
        return maybe_side_some(maybe_side_2.value);
    }
    const bool first_commits = committed(flash, Side_First).some;
    const bool second_commits = committed(flash, Side_Second).some;
    const MaybeSide maybe_side_3 = only(first_commits, second_commits);
    if (maybe_side_3.some) {
        return maybe_side_some(maybe_side_3.value);
    }
    const uint32_t first_generation = named_generation(flash, Side_First);
    const uint32_t second_generation = named_generation(flash, Side_Second);
    if (first_generation < second_generation) {
        return maybe_side_some(Side_Second);
    }
    return maybe_side_some(Side_First);
}

/* The generation that a set names, of any device: that of its first receive word that can be read,
 * by page, and 1 where none can. */
static uint32_t named_generation(const Device *flash, Side side) {
    for (uint32_t page = 0u, end = flash->shape.pages; page < end; page++) {
        const MaybeU32 maybe_generation = read_receive(set_word(flash, side, page, 0u));
        if (maybe_generation.some) {
            return maybe_generation.value;
        }
    }
    return 1u;
}

/* How many words of the set that is rescued are bad: they can't be read, or may not stand where
 * they stand. 0 to the words of a set, and 0 where no set is begun. */
static uint32_t bad_words(const Device *flash) {
    const MaybeSide maybe_rescued_side = rescued_side(flash);
    if (!maybe_rescued_side.some) {
        return 0u;
    }
    const Side side = maybe_rescued_side.value;
    return bad_in_set(flash, side);
}

/* How many words of a set are bad. */
static uint32_t bad_in_set(const Device *flash, Side side) {
    const uint32_t generation = named_generation(flash, side);
    const uint32_t written = written_front(flash, side);
    uint32_t bad = 0u;
    for (uint32_t page = 0u, end = flash->shape.pages; page < end; page++) {
        bad += bad_in_page(flash, side, generation, written, page);
    }
    return bad;
}

/* How many words of a page of a set are bad. */
static uint32_t bad_in_page(const Device *flash, Side side, uint32_t generation, uint32_t written,
        uint32_t page) {
    const Shape shape = flash->shape;
    uint32_t bad = 0u;
    for (uint32_t at = 0u, end = shape.words; at < end; at++) {
        if (is_bad(shape, generation, written, page, at, set_word(flash, side, page, at))) {
            bad += 1u;
        }
    }
    return bad;
}

/* Whether a word of a set can't be read, or may not stand in its place: `written` slots stand
 * before the first erased one. */
static bool is_bad(Shape shape, uint32_t generation, uint32_t written, uint32_t page, uint32_t at,
        Word word) {
    const uint32_t before = page * (shape.words - HEADER_WORDS) + u32_saturating_sub(at,
            HEADER_WORDS);
    const bool allowed = fits(generation, place_of(page, at), word) && (!state_is_written(word) ||
            before <= written);
    return is_torn(word) || !allowed || fails_to_commit(page, at, word);
}

/* How many slots of a set stand before the first erased one. Page by page, since finding a slot by
 * its number takes a division. */
static uint32_t written_front(const Device *flash, Side side) {
    const Shape shape = flash->shape;
    const uint32_t slots = shape.words - HEADER_WORDS;
    for (uint32_t page = 0u, end = shape.pages; page < end; page++) {
        const uint32_t front = front_in_page(flash, side, page);
        if (front < slots) {
            return page * slots + front;
        }
    }
    return shape_slots(shape);
}

/* How many slots of a page of a set stand before the first erased one of them. */
static uint32_t front_in_page(const Device *flash, Side side, uint32_t page) {
    const uint32_t slots = flash->shape.words - HEADER_WORDS;
    for (uint32_t slot = 0u; slot < slots; slot++) {
        if (!state_is_written(page_slot(flash, side, page, slot))) {
            return slot;
        }
    }
    return slots;
}

/* Whether the word stands in one of the two places that commit a set, and doesn't do so. */
static bool fails_to_commit(uint32_t page, uint32_t at, Word word) {
    if (page != 0u) {
        return false;
    }
    if (at == 0u) {
        return !read_receive(word).some;
    }
    if (at == 1u) {
        const MarkRead mark_read = read_mark(word);
        return mark_read != MarkRead_Present;
    }
    return false;
}

/* The one of the two sets of which this holds, if it holds of one alone. */
EE_IN_PLACE MaybeSide only(bool first, bool second) {
    if (first == second) {
        return maybe_side_none();
    }
    if (first) {
        return maybe_side_some(Side_First);
    }
    return maybe_side_some(Side_Second);
}

/* Whether something was programmed where the mark that commits the set stands. */
static bool has_begun(const Device *flash, Side side) {
    return state_is_written(set_word(flash, side, 0u, 1u));
}

/* Whether a page of the set has the whole mark that it may be erased. */
static bool is_left_behind(const Device *flash, Side side) {
    for (uint32_t page = 0u, end = flash->shape.pages; page < end; page++) {
        const MarkRead mark_read = read_mark(set_word(flash, side, page, 3u));
        if (mark_read == MarkRead_Present) {
            return true;
        }
    }
    return false;
}

/* ---- ee_core/change.rs: A change of the map, and the word that spells it; a value that is put
 * with others. */

/* The number of the word that spells it, below `u64::MAX`. */
static uint64_t change_word(Change self) {
    if (self.tag == Change_Put) {
        const Address address = self.address;
        const uint32_t value = self.value;
        return element_word(address, value);
    }
    const Address address = self.address;
    const uint32_t value = self.value;
    return forget_word(address, value);
}

/* ---- ee_core/puts.rs: Lists of values that are put at once: which addresses they have, and
 * whether one has an address twice. */

/* Whether one of the values is put at the address. */
static bool has_put(const Put *puts_items, uint32_t puts_len, Address address) {
    const ListOfPut puts = { .items = puts_items, .len = puts_len };
    if (puts.len != 0u) {
        const Put *put = puts.items;
        const Put *const put_end = put + puts.len;
        do {
            if (put->address == address) {
                return true;
            }
            put++;
        } while (put != put_end);
    }
    return false;
}

/* Of what a transfer carries the values that are put: none, where their addresses are forgotten. */
static ListOfPut values_put(const Put *puts_items, uint32_t puts_len, bool forgets) {
    const ListOfPut puts = { .items = puts_items, .len = puts_len };
    if (forgets) {
        return (ListOfPut){ .items = NULL, .len = 0u };
    }
    return puts;
}

/* The first entry, counted from 0, whose address an earlier one has. */
static MaybeIndex first_twice(const Put *puts_items, uint32_t puts_len) {
    const ListOfPut puts = { .items = puts_items, .len = puts_len };
    if (puts.len != 0u) {
        uint32_t place = 0u;
        do {
            if (has_put(puts.items, place, puts.items[place].address)) {
                return maybe_index_some(place);
            }
            place++;
        } while (place != puts.len);
    }
    return maybe_index_none();
}

/* How many addresses have a value with these values, each of which is of an address of its own. */
static uint32_t live_with(const Device *flash, const Layout *layout, const Put *puts_items,
        uint32_t puts_len) {
    const ListOfPut puts = { .items = puts_items, .len = puts_len };
    uint32_t count = live_count(flash, layout);
    if (puts.len != 0u) {
        const Put *put = puts.items;
        const Put *const put_end = put + puts.len;
        do {
            if (!latest(flash, layout, put->address).some) {
                count += 1u;
            }
            put++;
        } while (put != put_end);
    }
    return count;
}

/* ---- ee_core/marking.rs: The marks that a transfer or a cut left to set: pages used up, the
 * page in use, pages to be erased. */

/* Sets the marks that a transfer or a cut left to set: in the live set the pages before the last
 * used one become valid and that one active, in the other set each page that is not blank becomes
 * one that may be erased. A mark whose word is written already takes no step. */
static Step finish(Device *flash, const Layout *layout) {
    if (mark_live_set(flash, layout) == CUT) {
        return CUT;
    }
    if (mark_old_set(flash, layout) == CUT) {
        return CUT;
    }
    return DONE;
}

/* Marks the pages of the live set: those before the last used one, and that one. */
static Step mark_live_set(Device *flash, const Layout *layout) {
    const uint32_t first = first_page(flash, layout->side);
    for (uint32_t page = first, end = layout->current; page < end; page++) {
        if (mark_live(flash, layout, page, mark_valid()) == CUT) {
            return CUT;
        }
    }
    if (mark_live(flash, layout, layout->current, mark_active()) == CUT) {
        return CUT;
    }
    return DONE;
}

/* Marks the pages of the other set that are not blank. */
static Step mark_old_set(Device *flash, const Layout *layout) {
    const uint32_t first = first_page(flash, side_other(layout->side));
    for (uint32_t page = first, end = first + flash->shape.pages; page < end; page++) {
        if (!state_is_blank(flash, page)) {
            if (mark_old(flash, layout, page) == CUT) {
                return CUT;
            }
        }
    }
    return DONE;
}

/* Sets an active or valid mark of a page of the live set, behind written slots. */
static Step mark_live(Device *flash, const Layout *layout, uint32_t page, Mark kind) {
    (void)layout;
    if (marking_mark(flash, page, kind) == CUT) {
        return CUT;
    }
    return DONE;
}

/* Marks a page of the other set, which is not blank, as one that may be erased. */
static Step mark_old(Device *flash, const Layout *layout, uint32_t page) {
    (void)layout;
    if (marking_mark(flash, page, mark_erasing()) == CUT) {
        return CUT;
    }
    return DONE;
}

/* ---- ee_core/cleaning.rs: The set that isn't live: how many of its pages wait to be erased,
 * and the erasing of one. */

/* Erases the lowest page of the other set that is not blank. `false` if there is none. */
static BoolOrCut cleaning_clean(Device *flash, const Layout *layout) {
    const MaybeIndex maybe_page = first_pending(flash, side_other(layout->side));
    if (!maybe_page.some) {
        return bool_or_cut_ok(false);
    }
    const uint32_t page = maybe_page.value;
    if (erase_other(flash, layout->side, page) == CUT) {
        return bool_or_cut_err();
    }
    return bool_or_cut_ok(true);
}

/* Erases a page, which is not blank, of the other set, whatever stands in either. */
static Step erase_other(Device *flash, Side side, uint32_t page) {
    (void)side;
    if (device_erase(flash, page) == CUT) {
        return CUT;
    }
    return DONE;
}

/* The lowest page of a set that is not blank, by its number in the device. */
static MaybeIndex first_pending(const Device *flash, Side side) {
    const uint32_t first = first_page(flash, side);
    for (uint32_t page = first, end = first + flash->shape.pages; page < end; page++) {
        if (!state_is_blank(flash, page)) {
            return maybe_index_some(page);
        }
    }
    return maybe_index_none();
}

/* How many pages of a set are not blank, 0 to 64. Those of the set that is not live wait to be
 * erased. */
static uint32_t count_pending(const Device *flash, Side side) {
    const uint32_t first = first_page(flash, side);
    uint32_t count = 0u;
    for (uint32_t page = first, end = first + flash->shape.pages; page < end; page++) {
        if (!state_is_blank(flash, page)) {
            count += 1u;
        }
    }
    return count;
}

/* ---- ee_core/copying.rs: The copying of a transfer: the map after its change, written into the
 * other set word by word. */

/* Before the first. */
static void cursor_new(const Device *flash, const Layout *layout, Cursor *made) {
    cursor_unread(made);
    cursor_begin(made, flash, layout);
}

/* With nothing read yet, before it begins. */
static void cursor_unread(Cursor *made) {
    live_batch_new(&made->batch);
    made->given = 0u;
}

/* Begins before the first address of a live set. */
static void cursor_begin(Cursor *self, const Device *flash, const Layout *layout) {
    self->given = 0u;
    next_batch(flash, layout, maybe_address_none(), &self->batch);
}

/* The next live address, with its value. `None` if there is none. */
static MaybeLive cursor_next(Cursor *self, const Device *flash, const Layout *layout) {
    return next_given(flash, layout, &self->batch, &self->given);
}

/* The next live address behind those that were given of a batch. Where all were, the batch becomes
 * the next one with an address. */
static MaybeLive next_given(const Device *flash, const Layout *layout, LiveBatch *batch,
        uint32_t *given) {
    for (;;) {
        const MaybeLive maybe_live = batch_get(&batch->found, *given);
        if (maybe_live.some) {
            const Live live = maybe_live.value;
            *given += 1u;
            return maybe_live_some(live);
        }
        if (!batch->through.some) {
            return maybe_live_none();
        }
        const Address through = batch->through.value;
        next_batch(flash, layout, maybe_address_some(through), batch);
        *given = 0u;
    }
}

/* Fills the other set, which was opened, with the map after changes: the values that are put come
 * first, in their order, and then each other live address, rising. Where they are forgotten, their
 * addresses are left out alone. Gives how far that fills it. */
static Step fill_set(Device *flash, const Layout *layout, const Put *puts_items, uint32_t puts_len,
        bool forgets, Cursor *cursor, CopyingPlace *made) {
    const ListOfPut puts = { .items = puts_items, .len = puts_len };
    CopyingPlace first;
    const ListOfPut puts_2 = values_put(puts.items, puts.len, forgets);
    if (put_all(flash, layout, puts_2.items, puts_2.len, &first) == CUT) {
        return CUT;
    }
    if (copy_others(flash, layout, puts.items, puts.len, first, cursor, made) == CUT) {
        return CUT;
    }
    return DONE;
}

#ifdef EE_INDEX
/* Fills the other set, which was opened, with the map after changes: the values that are put come
 * first, in their order, and then each other live address, rising. Where they are forgotten, their
 * addresses are left out alone. Gives how far that fills it. */
static Step fill_set_lent_cursor(Device *flash, const Layout *layout, const Put *puts_items,
        uint32_t puts_len, bool forgets, LentCursor *cursor, CopyingPlace *made) {
    const ListOfPut puts = { .items = puts_items, .len = puts_len };
    CopyingPlace first;
    const ListOfPut puts_2 = values_put(puts.items, puts.len, forgets);
    if (put_all(flash, layout, puts_2.items, puts_2.len, &first) == CUT) {
        return CUT;
    }
    if (copy_others_lent_cursor(flash, layout, puts.items, puts.len, first, cursor, made) == CUT) {
        return CUT;
    }
    return DONE;
}
#endif

/* Writes values into the first slots of the other set, in their order. Gives how far that fills
 * it. */
static Step put_all(Device *flash, const Layout *layout, const Put *puts_items, uint32_t puts_len,
        CopyingPlace *made) {
    const ListOfPut puts = { .items = puts_items, .len = puts_len };
    *made = first_place(flash, layout);
    if (puts.len != 0u) {
        const Put *put = puts.items;
        const Put *const put_end = put + puts.len;
        do {
            const Address address = put->address;
            const uint32_t value = put->value;
            if (stage_put(flash, layout, made, address, value) == CUT) {
                return CUT;
            }
            put++;
        } while (put != put_end);
    }
    return DONE;
}

/* Copies each live address but those of the changes to the other set, from this place on. Gives
 * how far it is filled then. */
static Step copy_others(Device *flash, const Layout *layout, const Put *puts_items,
        uint32_t puts_len, CopyingPlace place, Cursor *cursor, CopyingPlace *made) {
    const ListOfPut puts = { .items = puts_items, .len = puts_len };
    *made = place;
    for (;;) {
        const MaybeLive maybe_address_and_value = cursor_next(cursor, flash, layout);
        if (!maybe_address_and_value.some) {
            break;
        }
        const Address address = maybe_address_and_value.value.first;
        const uint32_t value = maybe_address_and_value.value.second;
        const bool carries = has_put(puts.items, puts.len, address);
        if (copy_one(flash, layout, carries, made, address, value) == CUT) {
            return CUT;
        }
    }
    return DONE;
}

#ifdef EE_INDEX
/* Copies each live address but those of the changes to the other set, from this place on. Gives
 * how far it is filled then. */
static Step copy_others_lent_cursor(Device *flash, const Layout *layout, const Put *puts_items,
        uint32_t puts_len, CopyingPlace place, LentCursor *cursor, CopyingPlace *made) {
    const ListOfPut puts = { .items = puts_items, .len = puts_len };
    *made = place;
    for (;;) {
        const MaybeLive maybe_address_and_value = lent_cursor_next(cursor, flash, layout);
        if (!maybe_address_and_value.some) {
            break;
        }
        const Address address = maybe_address_and_value.value.first;
        const uint32_t value = maybe_address_and_value.value.second;
        const bool carries = has_put(puts.items, puts.len, address);
        if (copy_one(flash, layout, carries, made, address, value) == CUT) {
            return CUT;
        }
    }
    return DONE;
}
#endif

/* Copies a live address to the next slot of the other set, which is filled up to this place, unless
 * it is passed over. The place follows. */
static Step copy_one(Device *flash, const Layout *layout, bool passed, CopyingPlace *place,
        Address address, uint32_t value) {
    if (passed) {
        return DONE;
    }
    if (stage_put(flash, layout, place, address, value) == CUT) {
        return CUT;
    }
    return DONE;
}

/* Writes an address with its value into the next slot of the other set, which is filled up to this
 * place, as `stage` does a change. The place follows. Both callers hand these over in registers,
 * which makes firmware smaller. */
EE_APART Step stage_put(Device *flash, const Layout *layout, CopyingPlace *place, Address address,
        uint32_t value) {
    const CopyingPlace next = next_place(flash, layout, *place);
    if (stage(flash, layout, next, change_put(address, value)) == CUT) {
        return CUT;
    }
    *place = (CopyingPlace){ .slot = next.slot + 1u, .page = next.page, .at = next.at + 1u };
    return DONE;
}

/* Writes a change into this place of the other set, its first free slot. A further page gets its
 * receive word first. */
static Step stage(Device *flash, const Layout *layout, CopyingPlace place, Change change) {
    if (place.at == HEADER_WORDS) {
        if (receive(flash, layout, place) == CUT) {
            return CUT;
        }
    }
    if (copying_put_in(flash, layout, place, change) == CUT) {
        return CUT;
    }
    return DONE;
}

/* Gives the page of this place of the other set the receive word, if it has none. */
static Step receive(Device *flash, const Layout *layout, CopyingPlace place) {
    if (marking_mark(flash, place.page, mark_receive(layout->generation + 1u)) == CUT) {
        return CUT;
    }
    return DONE;
}

/* Programs a change into this place of the other set, its first free slot. */
static Step copying_put_in(Device *flash, const Layout *layout, CopyingPlace place, Change change) {
    (void)layout;
    if (device_program(flash, place.page, place.at, change_word(change)) == CUT) {
        return CUT;
    }
    return DONE;
}

/* How far a set is filled that was opened. */
static CopyingPlace first_place(const Device *flash, const Layout *layout) {
    return (CopyingPlace){ .slot = 0u, .page = first_page(flash, side_other(layout->side)),
            .at = HEADER_WORDS };
}

/* The place of the next slot of the other set, which is filled up to this place: one further in
 * the page, or the first one of the next page. */
static CopyingPlace next_place(const Device *flash, const Layout *layout, CopyingPlace place) {
    (void)layout;
    if (place.at == flash->shape.words) {
        return (CopyingPlace){ .slot = place.slot, .page = place.page + 1u, .at = HEADER_WORDS };
    }
    return place;
}

/* ---- ee_core/moving.rs: A transfer: the other set is erased, opened and filled, and one mark
 * makes it the live one. */

/* Moves the map, with values that are put or without their addresses, where these are forgotten,
 * to the other set, and makes that one live. The cursor, which is before the first, goes over the
 * live addresses. Of the layout it takes the set, in which any words may stand, and its
 * generation, no smaller than the one that the set is committed with. The layout follows. */
static Step transfer(Device *flash, Layout *layout, const Put *puts_items, uint32_t puts_len,
        bool forgets, Cursor *cursor) {
    const ListOfPut puts = { .items = puts_items, .len = puts_len };
    CopyingPlace filled;
    if (move_map(flash, layout, puts.items, puts.len, forgets, cursor, &filled) == CUT) {
        return CUT;
    }
    *layout = (Layout){ .side = side_other(layout->side), .generation = layout->generation + 1u,
            .fill = filled.slot, .current = filled.page };
    if (finish(flash, layout) == CUT) {
        return CUT;
    }
    return DONE;
}

#ifdef EE_INDEX
/* Moves the map, with values that are put or without their addresses, where these are forgotten,
 * to the other set, and makes that one live. The cursor, which is before the first, goes over the
 * live addresses. Of the layout it takes the set, in which any words may stand, and its
 * generation, no smaller than the one that the set is committed with. The layout follows. */
static Step transfer_lent_cursor(Device *flash, Layout *layout, const Put *puts_items,
        uint32_t puts_len, bool forgets, LentCursor *cursor) {
    const ListOfPut puts = { .items = puts_items, .len = puts_len };
    CopyingPlace filled;
    if (move_map_lent_cursor(flash, layout, puts.items, puts.len, forgets, cursor,
            &filled) == CUT) {
        return CUT;
    }
    *layout = (Layout){ .side = side_other(layout->side), .generation = layout->generation + 1u,
            .fill = filled.slot, .current = filled.page };
    if (finish(flash, layout) == CUT) {
        return CUT;
    }
    return DONE;
}
#endif

/* Moves the map as `transfer` does. It looks for the live addresses in the slots. */
static Step transfer_by_slots(Device *flash, Layout *layout, const Put *puts_items,
        uint32_t puts_len, bool forgets) {
    const ListOfPut puts = { .items = puts_items, .len = puts_len };
    Cursor cursor;
    cursor_new(flash, layout, &cursor);
    if (transfer(flash, layout, puts.items, puts.len, forgets, &cursor) == CUT) {
        return CUT;
    }
    return DONE;
}

/* Moves the map, with what it is to carry, to the other set, and makes that one live. Gives how
 * far that fills it. */
static Step move_map(Device *flash, const Layout *layout, const Put *puts_items, uint32_t puts_len,
        bool forgets, Cursor *cursor, CopyingPlace *made) {
    const ListOfPut puts = { .items = puts_items, .len = puts_len };
    if (clear(flash, layout) == CUT) {
        return CUT;
    }
    if (open_set(flash, layout) == CUT) {
        return CUT;
    }
    if (fill_set(flash, layout, puts.items, puts.len, forgets, cursor, made) == CUT) {
        return CUT;
    }
    if (commit(flash, layout) == CUT) {
        return CUT;
    }
    return DONE;
}

#ifdef EE_INDEX
/* Moves the map, with what it is to carry, to the other set, and makes that one live. Gives how
 * far that fills it. */
static Step move_map_lent_cursor(Device *flash, const Layout *layout, const Put *puts_items,
        uint32_t puts_len, bool forgets, LentCursor *cursor, CopyingPlace *made) {
    const ListOfPut puts = { .items = puts_items, .len = puts_len };
    if (clear(flash, layout) == CUT) {
        return CUT;
    }
    if (open_set(flash, layout) == CUT) {
        return CUT;
    }
    if (fill_set_lent_cursor(flash, layout, puts.items, puts.len, forgets, cursor, made) == CUT) {
        return CUT;
    }
    if (commit(flash, layout) == CUT) {
        return CUT;
    }
    return DONE;
}
#endif

/* Makes the other set the live one with nothing in it, as `transfer` does with a map in which
 * nothing has a value. The layout follows. */
static Step transfer_nothing(Device *flash, Layout *layout) {
    if (move_nothing(flash, layout) == CUT) {
        return CUT;
    }
    *layout = (Layout){ .side = side_other(layout->side), .generation = layout->generation + 1u,
            .fill = 0u, .current = first_page(flash, side_other(layout->side)) };
    if (finish(flash, layout) == CUT) {
        return CUT;
    }
    return DONE;
}

/* Makes the other set the live one with nothing in it, but for the marks of its pages and of those
 * that it leaves. */
static Step move_nothing(Device *flash, const Layout *layout) {
    if (clear(flash, layout) == CUT) {
        return CUT;
    }
    if (open_set(flash, layout) == CUT) {
        return CUT;
    }
    if (commit(flash, layout) == CUT) {
        return CUT;
    }
    return DONE;
}

/* Erases each page of the other set that is not blank, by rising page. */
static Step clear(Device *flash, const Layout *layout) {
    const uint32_t first = first_page(flash, side_other(layout->side));
    for (uint32_t page = first, end = first + flash->shape.pages; page < end; page++) {
        if (!state_is_blank(flash, page)) {
            if (erase_other(flash, layout->side, page) == CUT) {
                return CUT;
            }
        }
    }
    return DONE;
}

/* Gives the first page of the other set, which is blank, the receive word of the next generation.
 * Like the one below it stands in both of its callers, where it takes less code than a call. */
EE_IN_PLACE Step open_set(Device *flash, const Layout *layout) {
    const uint32_t first = first_page(flash, side_other(layout->side));
    if (marking_mark(flash, first, mark_receive(layout->generation + 1u)) == CUT) {
        return CUT;
    }
    return DONE;
}

/* Makes the other set, which is filled, the live one. */
EE_IN_PLACE Step commit(Device *flash, const Layout *layout) {
    const uint32_t first = first_page(flash, side_other(layout->side));
    if (marking_mark(flash, first, mark_active()) == CUT) {
        return CUT;
    }
    return DONE;
}

/* ---- ee_core/writing.rs: The appending of a change: where its slot begins a further page, two
 * marks come first. */

/* Makes a change to which no refusal applies in the first free slot. If that slot is the first of a
 * further page, the page before it is marked valid and that one active first. The layout
 * follows. */
EE_IN_PLACE Step append_change(Device *flash, Layout *layout, Change change) {
    const IndexPair page_and_at = free_slot(flash, layout);
    const uint32_t page = page_and_at.first;
    const uint32_t at = page_and_at.second;
    if (open_page(flash, layout, page) == CUT) {
        return CUT;
    }
    if (push(flash, layout, page, at, change) == CUT) {
        return CUT;
    }
    layout->current = page;
    layout->fill += 1u;
    return DONE;
}

/* The page of the first free slot, and the slot's place in it. The layout has the page in use, so
 * that this takes no division. */
EE_IN_PLACE IndexPair free_slot(const Device *flash, const Layout *layout) {
    const uint32_t slots = flash->shape.words - HEADER_WORDS;
    const uint32_t used = layout->fill - (layout->current - first_page(flash,
            layout->side)) * slots;
    if (used == slots) {
        return (IndexPair){ .first = layout->current + 1u, .second = HEADER_WORDS };
    }
    return (IndexPair){ .first = layout->current, .second = HEADER_WORDS + used };
}

/* Marks the page of the first free slot, which is this one, as the one that is used, if it is a
 * further one, and the page before it as used up. */
EE_IN_PLACE Step open_page(Device *flash, const Layout *layout, uint32_t page) {
    if (page == layout->current) {
        return DONE;
    }
    if (mark_live(flash, layout, layout->current, mark_valid()) == CUT) {
        return CUT;
    }
    if (mark_live(flash, layout, layout->current + 1u, mark_active()) == CUT) {
        return CUT;
    }
    return DONE;
}

/* Programs a change into the first free slot of the live set, which stands in this
 * place of this page. */
EE_IN_PLACE Step push(Device *flash, const Layout *layout, uint32_t page, uint32_t at,
        Change change) {
    (void)layout;
    if (device_program(flash, page, at, change_word(change)) == CUT) {
        return CUT;
    }
    return DONE;
}

/* ---- ee_core/changing.rs: The making of changes that nothing refuses with a transfer. */

/* Makes changes to which no refusal applies with a transfer that they need, as
 * `move_changes` does, in a store without an index: it looks for the live addresses in the
 * slots. The layout follows. */
static Step move_unindexed(Device *flash, Layout *layout, const Put *puts_items, uint32_t puts_len,
        bool forgets) {
    const ListOfPut puts = { .items = puts_items, .len = puts_len };
    if (transfer_by_slots(flash, layout, puts.items, puts.len, forgets) == CUT) {
        return CUT;
    }
    return DONE;
}

#ifdef EE_INDEX
/* Makes changes to which no refusal applies with a transfer that they need: values that are put,
 * or the forgettings of their addresses. The cursor, which is before the first, goes over the live
 * addresses. The layout follows. */
static Step move_changes_lent_cursor(Device *flash, Layout *layout, const Put *puts_items,
        uint32_t puts_len, bool forgets, LentCursor *cursor) {
    const ListOfPut puts = { .items = puts_items, .len = puts_len };
    if (transfer_lent_cursor(flash, layout, puts.items, puts.len, forgets, cursor) == CUT) {
        return CUT;
    }
    return DONE;
}
#endif

/* Makes a clear to which no refusal applies. The layout follows. */
static Step empty(Device *flash, Layout *layout) {
    if (transfer_nothing(flash, layout) == CUT) {
        return CUT;
    }
    return DONE;
}

/* ---- ee_core/lookup.rs: How a store finds values, and makes the changes that nothing refuses:
 * each kind of store has a look-up of its own. */

/* The value of an address, `None` if it has none. */
EE_IN_PLACE MaybeU32 slots_value_of(const Device *flash, const Layout *layout, Address address) {
    return latest(flash, layout, address);
}

/* How many addresses have a value. */
EE_IN_PLACE uint32_t slots_live_count(const Device *flash, const Layout *layout) {
    return live_count(flash, layout);
}

/* How many addresses have a value with these values, each of which is of an
 * address of its own. */
EE_IN_PLACE uint32_t slots_live_with(const Device *flash, const Layout *layout,
        const Put *puts_items, uint32_t puts_len) {
    const ListOfPut puts = { .items = puts_items, .len = puts_len };
    return live_with(flash, layout, puts.items, puts.len);
}

/* The next live address above `after`, or of all if `after` is `None`, with its value. */
EE_IN_PLACE MaybeLive slots_next_live(const Device *flash, const Layout *layout,
        MaybeAddress after) {
    return next_live(flash, layout, after);
}

/* Makes ready for a value in the first free slot. An `Err`, which only a new address meets,
 * leaves it as it was. */
EE_IN_PLACE Step slots_make_ready(const Device *_flash, const Layout *_layout, Put _put) {
    (void)_flash;
    (void)_layout;
    (void)_put;
    return DONE;
}

/* Makes room for a transfer with these values. An `Err`, which only a new address meets,
 * leaves it as it was. */
EE_IN_PLACE Step slots_make_room(const Device *_flash, const Layout *_layout,
        const Put *_puts_items, uint32_t _puts_len) {
    (void)_flash;
    (void)_layout;
    (void)_puts_items;
    (void)_puts_len;
    return DONE;
}

/* Follows a clear: it finds nothing from here on. */
EE_IN_PLACE void slots_find_nothing(void) {
}

/* Makes a change to which no refusal applies in the first free slot. The layout and
 * the look-up follow. */
EE_IN_PLACE Step slots_append(Device *flash, Layout *layout, Change change) {
    return append_change(flash, layout, change);
}

/* Makes changes to which no refusal applies with a transfer that they need. The layout and
 * the look-up follow. */
EE_IN_PLACE Step slots_transfer(Device *flash, Layout *layout, const Put *puts_items,
        uint32_t puts_len, bool forgets) {
    const ListOfPut puts = { .items = puts_items, .len = puts_len };
    return move_unindexed(flash, layout, puts.items, puts.len, forgets);
}

/* ---- ee_core/known.rs: What a store keeps in memory beside its device, and the calls that
 * stand on it. */

/* `Variables::read` on the device of which this is known. */
static ReadResult known_read(const Known *self, const Device *flash, Address address) {
    if (!device_is_on(flash)) {
        return read_result_err();
    }
    return read_result_ok(lookup_value_of(&self->lookup, flash, &self->layout, address));
}

/* `Variables::write` on the device of which this is known. */
EE_IN_PLACE WriteFault known_write(Known *self, Device *flash, Address address, uint32_t value) {
    if (!device_is_on(flash)) {
        return WriteFault_Off;
    }
    if (self->layout.fill < shape_slots(flash->shape)) {
        return known_append_value(self, flash, address, value);
    }
    return known_move_value(self, flash, address, value);
}

/* `Variables::forget` on the device of which this is known. */
EE_IN_PLACE ForgetFault known_forget(Known *self, Device *flash, Address address) {
    if (!device_is_on(flash)) {
        return ForgetFault_Off;
    }
    const MaybeU32 maybe_value = lookup_value_of(&self->lookup, flash, &self->layout, address);
    if (!maybe_value.some) {
        return ForgetFault_Absent;
    }
    const uint32_t value = maybe_value.value;
    if (self->layout.fill < shape_slots(flash->shape)) {
        const Change change = change_forget(address, value);
        const Step append_result = lookup_append(&self->lookup, flash, &self->layout, change);
        if (append_result == DONE) {
            return EE_OK;
        }
        return ForgetFault_Cut;
    }
    if (self->layout.generation == GREATEST_GENERATION) {
        return ForgetFault_Spent;
    }
    const Put put = (Put){ .address = address, .value = value };
    const Step transfer_result = lookup_transfer(&self->lookup, flash, &self->layout, &put, 1u,
            true);
    if (transfer_result == DONE) {
        return EE_OK;
    }
    return ForgetFault_Cut;
}

/* `Variables::clean_step` on the device of which this is known. */
static CleanResult known_clean_step(const Known *self, Device *flash) {
    if (!device_is_on(flash)) {
        return clean_result_err(WriteFault_Off);
    }
    const BoolOrCut clean_result = cleaning_clean(flash, &self->layout);
    if (clean_result.ok) {
        return clean_result_ok(clean_result.value);
    }
    return clean_result_err(WriteFault_Cut);
}

/* Writes a value into the first free slot. */
EE_IN_PLACE WriteFault known_append_value(Known *self, Device *flash, Address address,
        uint32_t value) {
    const Put put = (Put){ .address = address, .value = value };
    const Step make_ready_result = lookup_make_ready(&self->lookup, flash, &self->layout, put);
    if (make_ready_result != DONE) {
        return WriteFault_Memory;
    }
    const Change change = change_put(address, value);
    const Step append_result = lookup_append(&self->lookup, flash, &self->layout, change);
    if (append_result == DONE) {
        return EE_OK;
    }
    return WriteFault_Cut;
}

/* Writes a value with the transfer that it needs, since every slot is used. */
EE_IN_PLACE WriteFault known_move_value(Known *self, Device *flash, Address address,
        uint32_t value) {
    if (known_has_no_place(self, flash, address)) {
        return WriteFault_Full;
    }
    if (self->layout.generation == GREATEST_GENERATION) {
        return WriteFault_Spent;
    }
    Put puts[1] = {(Put){ .address = address, .value = value }};
    const Step make_room_result = lookup_make_room(&self->lookup, flash, &self->layout, puts, 1u);
    if (make_room_result != DONE) {
        return WriteFault_Memory;
    }
    const Step transfer_result = lookup_transfer(&self->lookup, flash, &self->layout, puts, 1u,
            false);
    if (transfer_result == DONE) {
        return EE_OK;
    }
    return WriteFault_Cut;
}

/* Whether the address has no value and there is no slot for one more. */
static bool known_has_no_place(const Known *self, const Device *flash, Address address) {
    const uint32_t slots = shape_slots(flash->shape);
    const MaybeU32 maybe_value_of = lookup_value_of(&self->lookup, flash, &self->layout, address);
    if (maybe_value_of.some) {
        return false;
    }
    return lookup_live_count(&self->lookup, flash, &self->layout) == slots;
}

/* ---- ee_core/store.rs: The store: it knows where the live set is and how far it is used, and
 * finds values by a look-up. */

/* How many slots of the live set are torn, 0 to its fill: words in whose step power was cut.
 * It reads each slot once. */
static uint32_t store_torn_slots(const Store *self) {
    return torn_slots(&self->flash, &self->known.layout);
}

/* Gives each entry of a list the value of its address, as `read` would, by one look through
 * the slots. An address may stand in the list more than once.
 *
 * Errors:
 *
 * The store is off. The list is as it was. */
static Step store_load(const Store *self, Wanted *entries_items, uint32_t entries_len) {
    const RoomOfWanted entries = { .items = entries_items, .len = entries_len };
    if (!device_is_on(&self->flash)) {
        return CUT;
    }
    load(&self->flash, &self->known.layout, entries.items, entries.len);
    return DONE;
}

/* Writes the one value of a list. */
static WriteAllFault store_write_one(Store *self, Put put) {
    const WriteFault write_fault = store_write(self, put.address, put.value);
    if (write_fault == EE_OK) {
        return EE_OK;
    }
    if (write_fault == WriteFault_Off) {
        return WriteAllFault_Off;
    }
    if (write_fault == WriteFault_Full) {
        return WriteAllFault_Full;
    }
    if (write_fault == WriteFault_Spent) {
        return WriteAllFault_Spent;
    }
    if (write_fault == WriteFault_Cut) {
        return WriteAllFault_Cut;
    }
    return WriteAllFault_Memory;
}

/* Writes two values or more, with a transfer. */
EE_APART WriteAllFault store_write_several(Store *self, const Put *puts_items, uint32_t puts_len) {
    const ListOfPut puts = { .items = puts_items, .len = puts_len };
    const MaybeIndex maybe_place = first_twice(puts.items, puts.len);
    if (maybe_place.some) {
        return write_all_fault_twice(maybe_place.value);
    }
    if (store_is_full_for_all(self, puts.items, puts.len)) {
        return WriteAllFault_Full;
    }
    if (store_is_last(self)) {
        return WriteAllFault_Spent;
    }
    const Step make_room_result = lookup_make_room(&self->known.lookup, &self->flash,
            &self->known.layout, puts.items, puts.len);
    if (make_room_result != DONE) {
        return WriteAllFault_Memory;
    }
    const Step transfer_result = lookup_transfer(&self->known.lookup, &self->flash,
            &self->known.layout, puts.items, puts.len, false);
    if (transfer_result == DONE) {
        return EE_OK;
    }
    return WriteAllFault_Cut;
}

/* Whether more addresses would have a value than there are slots, with these values, each of
 * which is of an address of its own. */
static bool store_is_full_for_all(const Store *self, const Put *puts_items, uint32_t puts_len) {
    const ListOfPut puts = { .items = puts_items, .len = puts_len };
    const uint32_t slots = shape_slots(self->flash.shape);
    return puts.len > slots || lookup_live_with(&self->known.lookup, &self->flash,
            &self->known.layout, puts.items, puts.len) > slots;
}

/* Whether no generation is left for a transfer. */
static bool store_is_last(const Store *self) {
    return self->known.layout.generation == GREATEST_GENERATION;
}

/* The slots of a set, 1 to 32512: as many changes as it takes, and as many
 * addresses can have a value. */
static uint32_t store_slots(const Store *self) {
    return shape_slots(self->flash.shape);
}

/* The value of an address, `None` if it has none.
 *
 * Errors:
 *
 * `Off`: the device is off. */
static ReadResult store_read(const Store *self, Address address) {
    return known_read(&self->known, &self->flash, address);
}

/* Writes a value, also one that the address has already.
 *
 * Errors:
 *
 * The first `WriteFault` that applies. */
EE_APART WriteFault store_write(Store *self, Address address, uint32_t value) {
    return known_write(&self->known, &self->flash, address, value);
}

/* Writes these values at once: after this call, and after a cut in it too, the map has all of
 * them or is as it was. A list of one is written as by `write`; for more the live set moves to
 * the other set, whether a slot is free or not.
 *
 * Errors:
 *
 * The first `WriteAllFault` that applies. */
static WriteAllFault store_write_all(Store *self, const Put *changes_items, uint32_t changes_len) {
    const ListOfPut changes = { .items = changes_items, .len = changes_len };
    if (!device_is_on(&self->flash)) {
        return WriteAllFault_Off;
    }
    if (changes.len == 0u) {
        return EE_OK;
    }
    if (changes.len == 1u) {
        return store_write_one(self, changes.items[0u]);
    }
    return store_write_several(self, changes.items, changes.len);
}

/* Takes the value of an address away.
 *
 * Errors:
 *
 * The first `ForgetFault` that applies. */
static ForgetFault store_forget(Store *self, Address address) {
    return known_forget(&self->known, &self->flash, address);
}

/* Takes the values of all addresses away at once: after this call, and after a cut in it too,
 * none has a value or all have theirs. `false` if no slot is used: then it takes no step. Else
 * the other set becomes the live one with nothing in it. The words of the old values stay in
 * the flash until their set is erased.
 *
 * Errors:
 *
 * The first `ClearFault` that applies. */
static ClearFault store_clear(Store *self) {
    if (!device_is_on(&self->flash)) {
        return ClearFault_Off;
    }
    if (self->known.layout.fill == 0u) {
        return EE_OK;
    }
    if (store_is_last(self)) {
        return ClearFault_Spent;
    }
    const Step empty_result = empty(&self->flash, &self->known.layout);
    if (empty_result == DONE) {
        lookup_find_nothing(&self->known.lookup);
        return EE_OK;
    }
    return ClearFault_Cut;
}

/* Erases the lowest page of the other set that is not blank. `false` if there is none.
 *
 * Errors:
 *
 * `WriteFault::Off` or `WriteFault::Cut`, and no other. */
static CleanResult store_clean_step(Store *self) {
    return known_clean_step(&self->known, &self->flash);
}

/* How many pages of the other set are not blank, 0 to 64. */
static uint32_t store_pending(const Store *self) {
    return count_pending(&self->flash, side_other(self->known.layout.side));
}

/* How many slots are used, torn ones too: 0 to the slots. */
static uint32_t store_fill(const Store *self) {
    return self->known.layout.fill;
}

/* The generation of the live set, 1 to 4294967294: one more with each transfer. */
static uint32_t store_generation(const Store *self) {
    return self->known.layout.generation;
}

/* How many addresses have a value, 0 to the slots. */
static uint32_t store_live_count(const Store *self) {
    return lookup_live_count(&self->known.lookup, &self->flash, &self->known.layout);
}

/* The next address above `after`, or of all if `after` is `None`, that has a value, with the
 * value. `None` if there is none. */
static MaybeLive store_next_live(const Store *self, MaybeAddress after) {
    return lookup_next_live(&self->known.lookup, &self->flash, &self->known.layout, after);
}

/* ---- ee_core/formatting.rs: A store with nothing in it: what is written is erased, and the
 * first set becomes the live one. */

/* Erases what is not blank, makes the first set the live one with generation 1, and gives the
 * layout. */
static Step write_format(Device *flash, Layout *made) {
    if (erase_all(flash) == CUT) {
        return CUT;
    }
    if (marking_mark(flash, 0u, mark_receive(1u)) == CUT) {
        return CUT;
    }
    if (marking_mark(flash, 0u, mark_active()) == CUT) {
        return CUT;
    }
    *made = (Layout){ .side = Side_First, .generation = 1u, .fill = 0u, .current = 0u };
    return DONE;
}

/* Erases each page that is not blank, by rising page. */
static Step erase_all(Device *flash) {
    for (uint32_t page = 0u, end = 2u * flash->shape.pages; page < end; page++) {
        if (!state_is_blank(flash, page)) {
            if (device_erase(flash, page) == CUT) {
                return CUT;
            }
        }
    }
    return DONE;
}

/* ---- ee_core/opening.rs: How a store comes to be: opened from a legal image, or made anew on
 * any device. */

/* `open` in place: the layout of the store that the device becomes. */
static OpenFault open_on(Device *flash, Layout *made) {
    const ScanFault scan_fault = scan(flash, made);
    if (scan_fault != EE_OK) {
        return open_fault_scan(scan_fault);
    }
    const Step finish_result = finish(flash, made);
    if (finish_result == DONE) {
        return EE_OK;
    }
    return OpenFault_Cut;
}

/* ---- ee_core/first_start.rs: The call for whenever a device is switched on: it opens the
 * store, or makes the first one. */

/* `start` in place: the layout of the store that the device becomes. */
static OpenFault start_on(Device *flash, Layout *made) {
    OpenFault fault;
    const OpenFault open_on_fault = open_on(flash, made);
    if (open_on_fault == EE_OK) {
        return EE_OK;
    }
    fault = open_on_fault;
    if (!open_fault_is_scan(fault)) {
        return fault;
    }
    const ScanFault scan_2 = fault;
    if (!is_startable(flash, scan_2)) {
        return fault;
    }
    return start_anew(flash, made);
}

/* Whether a device of which a scan says this can be started. */
static bool is_startable(const Device *flash, ScanFault fault) {
    switch (fault) {
    case ScanFault_Unformatted:
        return true;
    case ScanFault_NoLiveSet:
        return holds_none(flash);
    case ScanFault_TwoLive:
        return false;
    case ScanFault_Foreign:
    default:
        return false;
    }
}

/* Whether each word behind a page's header is erased or torn. */
static bool holds_none(const Device *flash) {
    for (uint32_t page = 0u, end = 2u * flash->shape.pages; page < end; page++) {
        if (page_holds(flash, page)) {
            return false;
        }
    }
    return true;
}

/* Whether a word behind the header of a page can be read. */
static bool page_holds(const Device *flash, uint32_t page) {
    for (uint32_t at = HEADER_WORDS, end = flash->shape.words; at < end; at++) {
        const Word word = device_word(flash, page, at);
        if (word.tag == Word_Held) {
            return true;
        }
    }
    return false;
}

/* Makes the first store. */
static OpenFault start_anew(Device *flash, Layout *made) {
    const Step write_format_result = write_format(flash, made);
    if (write_format_result == DONE) {
        return EE_OK;
    }
    return OpenFault_Cut;
}

/* ---- ee_core/rescuing.rs: A rescue: the map that a set says is moved to the other set,
 * whatever stands in either. */

/* Moves the map that a set says to the other set, in the generation above this one, which is no
 * smaller than the one that the set is committed with. Gives the layout there. */
static Step rescue_set(Device *flash, Side side, uint32_t generation, Layout *made) {
    *made = (Layout){ .side = side, .generation = generation, .fill = 0u, .current = 0u };
    if (transfer_by_slots(flash, made, NULL, 0u, false) == CUT) {
        return CUT;
    }
    return DONE;
}

#ifdef EE_INDEX
/* ---- ee_index/entries.rs: The entries of an index: addresses with the slots in which they
 * stand, by rising address. */

/* Gives entries the slots in which a transfer puts their addresses: the values that it puts stand
 * first, in their order, and behind them the others, by rising address. */
static void renumber(Entry *entries_items, uint32_t entries_len, const Put *puts_items,
        uint32_t puts_len) {
    const RoomOfEntry entries = { .items = entries_items, .len = entries_len };
    const ListOfPut puts = { .items = puts_items, .len = puts_len };
    uint32_t number = puts.len;
    if (entries.len != 0u) {
        uint32_t place = 0u;
        do {
            const Address address = entries.items[place].first;
            const IndexPair slot_and_next = next_number(number, puts.items, puts.len, address);
            const uint32_t slot = slot_and_next.first;
            const uint32_t next = slot_and_next.second;
            entries.items[place] = (Entry){ .first = address, .second = (uint16_t)slot };
            number = next;
            place++;
        } while (place != entries.len);
    }
}

/* The slot of the next address, and the number that the next other one gets: an address that is
 * put has its place in the list, and each other takes a number. */
static IndexPair next_number(uint32_t number, const Put *puts_items, uint32_t puts_len,
        Address address) {
    const ListOfPut puts = { .items = puts_items, .len = puts_len };
    const MaybeIndex maybe_place_in = entries_place_in(puts.items, puts.len, address);
    if (maybe_place_in.some) {
        const uint32_t place = maybe_place_in.value;
        return (IndexPair){ .first = place, .second = number };
    }
    return (IndexPair){ .first = number, .second = number + 1u };
}

/* The place of an address in a list, counted from 0. */
static MaybeIndex entries_place_in(const Put *puts_items, uint32_t puts_len, Address address) {
    const ListOfPut puts = { .items = puts_items, .len = puts_len };
    if (puts.len != 0u) {
        uint32_t place = 0u;
        do {
            if (puts.items[place].address == address) {
                return maybe_index_some(place);
            }
            place++;
        } while (place != puts.len);
    }
    return maybe_index_none();
}

/* ---- ee_index/lent_list.rs: A list in memory that the caller lends, which has room for so many
 * addresses. */

/* How many addresses there is room for. */
static uint32_t lent_list_capacity(const LentList *self) {
    return self->room.len;
}

/* Takes all addresses from it. */
static void lent_list_clear(LentList *self) {
    self->count = 0u;
}

/* The addresses with their slots, by rising address. */
static ListOfEntry lent_list_entries(const LentList *self) {
    return (ListOfEntry){ .items = self->room.items, .len = self->count };
}

/* The place of an address, counted from 0. An `Err` has the place where it would stand. */
static PlaceResult lent_list_find(const LentList *self, Address address) {
    const ListOfEntry entries = lent_list_entries(self);
    return search(entries.items, entries.len, address);
}

/* Gives an address the slot of this number. An `Err`, which only a new address meets, leaves
 * the list as it was. Where its room is known, that is full then. */
static Step lent_list_insert(LentList *self, Address address, uint32_t number) {
    const Entry entry = (Entry){ .first = address, .second = (uint16_t)number };
    const PlaceResult find_result = lent_list_find(self, address);
    if (find_result.ok) {
        const uint32_t place = find_result.value;
        self->room.items[place] = entry;
        return DONE;
    }
    const uint32_t place = find_result.error;
    if (self->count == self->room.len) {
        return CUT;
    }
    const RoomOfEntry room = self->room;
    lent_list_put_in(room.items, room.len, self->count, place, entry);
    self->count += 1u;
    return DONE;
}

/* Takes an address from it. */
static void lent_list_remove(LentList *self, Address address) {
    const PlaceResult place_result = lent_list_find(self, address);
    if (place_result.ok) {
        const uint32_t place = place_result.value;
        const RoomOfEntry room = self->room;
        take_out(room.items, room.len, self->count, place);
        self->count -= 1u;
    }
}

/* Gives its addresses, which are those that are live behind a transfer, the slots in which the
 * transfer put them: the values that it put stand first, in their order, and behind them the
 * others, by rising address. It takes no memory and doesn't look at the flash. */
static void lent_list_renumber(LentList *self, const Put *puts_items, uint32_t puts_len) {
    const ListOfPut puts = { .items = puts_items, .len = puts_len };
    renumber(self->room.items, self->count, puts.items, puts.len);
}

/* Puts an entry in at a place among so many, behind which there is room. */
static void lent_list_put_in(Entry *room_items, uint32_t room_len, uint32_t count, uint32_t place,
        Entry entry) {
    const RoomOfEntry room = { .items = room_items, .len = room_len };
    copy_within(room.items, place, count, place + 1u);
    room.items[place] = entry;
}

/* Takes the entry at a place out of so many. */
static void take_out(Entry *room_items, uint32_t room_len, uint32_t count, uint32_t place) {
    const RoomOfEntry room = { .items = room_items, .len = room_len };
    copy_within(room.items, place + 1u, count, place);
}

/* ---- ee_index/entering.rs: What used slots say goes into an index. */

/* Makes a list with no address the index of a live set: one look at each used slot. An `Err`
 * leaves some addresses in it, and tells that its room, if that is known, is too small. */
static Step enter_slots(LentList *list, const Device *flash, const Layout *layout) {
    for (uint32_t number = 0u, end = layout->fill; number < end; number++) {
        if (enter(list, number, read_slot(slot_word(flash, layout, number))) == CUT) {
            return CUT;
        }
    }
    return DONE;
}

/* Enters what the slot of this number says. */
static Step enter(LentList *list, uint32_t number, Slot said_2) {
    switch (said_2.tag) {
    case Slot_Element: {
        const Address address = said_2.address;
        if (lent_list_insert(list, address, number) == CUT) {
            return CUT;
        }
        break;
    }
    case Slot_Forgotten: {
        const Address address = said_2.address;
        lent_list_remove(list, address);
        break;
    }
    default:
        break;
    }
    return DONE;
}

/* ---- ee_index/reading.rs: What is read by an index. */

/* The slot of an address, if a list has it. */
EE_IN_PLACE MaybeIndex slot_in(const LentList *list, Address address) {
    const PlaceResult find_result = lent_list_find(list, address);
    if (find_result.ok) {
        const uint32_t place = find_result.value;
        const ListOfEntry entries_read = lent_list_entries(list);
        const Entry *const maybe_get = place < entries_read.len ? &entries_read.items[place] : NULL;
        if (maybe_get != NULL) {
            const Entry *const entry = maybe_get;
            return maybe_index_some((uint32_t)entry->second);
        }
        return maybe_index_none();
    }
    return maybe_index_none();
}

/* Whether a list has an address. */
static bool has(const LentList *list, Address address) {
    return lent_list_find(list, address).ok;
}

/* The entries of the addresses above `after`, or all if `after` is `None`. */
static ListOfEntry entries_above(const LentList *list, MaybeAddress after) {
    const ListOfEntry entries = lent_list_entries(list);
    if (!after.some) {
        return entries;
    }
    const Address address = after.value;
    const uint32_t from = place_above(list, address);
    return (ListOfEntry){ .items = &entries.items[from], .len = entries.len - from };
}

/* The place of the first entry of an address above this one, counted from 0. */
static uint32_t place_above(const LentList *list, Address address) {
    const PlaceResult find_result = lent_list_find(list, address);
    if (find_result.ok) {
        const uint32_t place = find_result.value;
        return place + 1u;
    }
    return find_result.error;
}

/* How many of these values, each of which is of an address of its own, are of addresses that an
 * index doesn't have. */
static uint32_t count_new(const LentList *list, const Put *puts_items, uint32_t puts_len) {
    const ListOfPut puts = { .items = puts_items, .len = puts_len };
    uint32_t count = 0u;
    if (puts.len != 0u) {
        const Put *put = puts.items;
        const Put *const put_end = put + puts.len;
        do {
            count += (uint32_t)!has(list, put->address);
            put++;
        } while (put != put_end);
    }
    return count;
}

/* The value that the slot of this number says, any number if it says none. */
static uint32_t value_in(const Device *flash, const Layout *layout, uint32_t number) {
    return slot_value(flash, layout, number);
}

/* The value of an address, by an index of the live set. `None` if it has none. */
static MaybeU32 value_indexed(const LentList *list, const Device *flash, const Layout *layout,
        Address address) {
    const MaybeIndex maybe_slot_in = slot_in(list, address);
    if (!maybe_slot_in.some) {
        return maybe_u32_none();
    }
    const uint32_t number = maybe_slot_in.value;
    return maybe_u32_some(value_in(flash, layout, number));
}

/* The first address of an index above `after`, or of all if `after` is `None`, with its slot. */
EE_IN_PLACE MaybePlaced first_above(const LentList *list, MaybeAddress after) {
    const ListOfEntry entries_above_read = entries_above(list, after);
    if (entries_above_read.len == 0u) {
        return maybe_placed_none();
    }
    const Entry *const entry = entries_above_read.items;
    return maybe_placed_some((Placed){ .first = entry->first, .second = (uint32_t)entry->second });
}

/* The next live address above `after`, or the first of all if `after` is `None`, with its value,
 * by an index of the live set. */
static MaybeLive next_indexed(const LentList *list, const Device *flash, const Layout *layout,
        MaybeAddress after) {
    const MaybePlaced maybe_address_and_number = first_above(list, after);
    if (!maybe_address_and_number.some) {
        return maybe_live_none();
    }
    const Address address = maybe_address_and_number.value.first;
    const uint32_t number = maybe_address_and_number.value.second;
    return maybe_live_some((Live){ .first = address, .second = value_in(flash, layout, number) });
}

/* Before the first. */
static IndexCursor index_cursor_new(const LentList *list, uint32_t fill) {
    return (IndexCursor){ .entries = lent_list_entries(list), .after = maybe_address_none(),
            .fill = fill };
}

/* The next live address, with its value. `None` if there is none. */
EE_IN_PLACE MaybeLive index_cursor_next(IndexCursor *self, const Device *flash,
        const Layout *layout) {
    const MaybeShown maybe_entry_and_rest = next_shown(self->entries.items, self->entries.len,
            self->fill);
    if (!maybe_entry_and_rest.some) {
        return maybe_live_none();
    }
    const Entry entry = maybe_entry_and_rest.value.first;
    const ListOfEntry rest = maybe_entry_and_rest.value.second;
    self->entries = rest;
    self->after = maybe_address_some(entry.first);
    return maybe_live_some((Live){ .first = entry.first, .second = value_in(flash, layout,
            (uint32_t)entry.second) });
}

/* The next entry whose slot is one of those used, of which there are so many, and
 * what is left behind it. */
EE_IN_PLACE MaybeShown next_shown(const Entry *entries_items, uint32_t entries_len, uint32_t fill) {
    const ListOfEntry entries = { .items = entries_items, .len = entries_len };
    ListOfEntry left = entries;
    for (;;) {
        if (left.len == 0u) {
            break;
        }
        const Entry *const entry = left.items;
        const ListOfEntry rest = (ListOfEntry){ .items = &left.items[1], .len = left.len - 1u };
        if ((uint32_t)entry->second < fill) {
            return maybe_shown_some((Shown){ .first = *entry, .second = rest });
        }
        left = rest;
    }
    return maybe_shown_none();
}

/* ---- ee_index/lent_cursor.rs: What a transfer copies by, where an index may be given up. */

/* Begins before the first address. It begins where it stands, since a cursor over
 * the slots is large. */
static void lent_cursor_begin(LentCursor *self, const Device *flash, const Layout *layout) {
    if (self->tag == LentCursor_ByIndex) {
    } else {
        Cursor *const cursor = &self->by_slots;
        cursor_begin(cursor, flash, layout);
    }
}

/* The next live address, with its value. `None` if there is none. */
EE_IN_PLACE MaybeLive lent_cursor_next(LentCursor *self, const Device *flash,
        const Layout *layout) {
    if (self->tag == LentCursor_ByIndex) {
        IndexCursor *const cursor = &self->by_index;
        return index_cursor_next(cursor, flash, layout);
    }
    Cursor *const cursor = &self->by_slots;
    return cursor_next(cursor, flash, layout);
}

/* ---- ee_index/index_changing.rs: Changes with an index: room in it is made before the first
 * step, and it follows without memory. */

/* Enters each new address of these values with this number. An `Err`, which only a new address
 * meets, leaves some of them entered. Where the room is known, it was too small for them all. */
static Step enter_hidden(LentList *list, const Put *puts_items, uint32_t puts_len, uint32_t fill) {
    const ListOfPut puts = { .items = puts_items, .len = puts_len };
    if (puts.len != 0u) {
        const Put *put = puts.items;
        const Put *const put_end = put + puts.len;
        do {
            if (enter_new(list, put->address, fill) == CUT) {
                return CUT;
            }
            put++;
        } while (put != put_end);
    }
    return DONE;
}

/* Enters an address with this number, if it is new. An `Err`, which only a new address meets,
 * leaves the index as it was. Where its room is known, that is full then. */
static Step enter_new(LentList *list, Address address, uint32_t number) {
    if (has(list, address)) {
        return DONE;
    }
    if (lent_list_insert(list, address, number) == CUT) {
        return CUT;
    }
    return DONE;
}

/* Lets an index follow a transfer: the addresses that are forgotten leave it, and the others get
 * the slots in which the transfer put them. */
static void follow(LentList *list, const Put *puts_items, uint32_t puts_len, bool forgets) {
    const ListOfPut puts = { .items = puts_items, .len = puts_len };
    const ListOfPut put = values_put(puts.items, puts.len, forgets);
    /* Where values are put none is forgotten, and the other way round. */
    const ListOfPut forgotten = values_put(puts.items, puts.len, !forgets);
    leave_all(list, forgotten.items, forgotten.len);
    lent_list_renumber(list, put.items, put.len);
}

/* Takes the addresses of these values from an index. */
static void leave_all(LentList *list, const Put *puts_items, uint32_t puts_len) {
    const ListOfPut puts = { .items = puts_items, .len = puts_len };
    if (puts.len != 0u) {
        const Put *put = puts.items;
        const Put *const put_end = put + puts.len;
        do {
            leave(list, put->address);
            put++;
        } while (put != put_end);
    }
}

/* Takes an address from an index. */
static void leave(LentList *list, Address address) {
    lent_list_remove(list, address);
}

/* Takes an address that is forgotten from an index. */
static void leave_forgotten(LentList *list, const Change *change) {
    const Change address = *change;
    if (address.tag == Change_Forget) {
        const Address address_2 = address.address;
        leave(list, address_2);
    }
}

/* ---- ee_index/lent_index.rs: Values are found by an index in memory that the caller lends, as
 * long as it has room for them. */

/* Reads the index anew, one look at each used slot. It gives itself up where there is no room
 * for an address. */
static void lent_index_read(LentIndex *self, const Device *flash, const Layout *layout) {
    lent_list_clear(&self->list);
    self->is_given_up = enter_slots(&self->list, flash, layout) == CUT;
}

/* What a transfer copies by. It has not begun. */
static void lent_index_cursor(const LentIndex *self, const Device *_flash, const Layout *layout,
        LentCursor *made) {
    (void)_flash;
    if (self->is_given_up) {
        made->tag = LentCursor_BySlots;
        cursor_unread(&made->by_slots);
        return;
    }
    made->tag = LentCursor_ByIndex;
    made->by_index = index_cursor_new(&self->list, layout->fill);
}

/* Follows a transfer. Where the index is given up, it is read anew if there is room. Else more
 * slots are used than there is room for addresses. */
static void lent_index_follow(LentIndex *self, const Device *flash, const Layout *layout,
        const Put *puts_items, uint32_t puts_len, bool forgets) {
    const ListOfPut puts = { .items = puts_items, .len = puts_len };
    if (!self->is_given_up) {
        follow(&self->list, puts.items, puts.len, forgets);
        return;
    }
    /* Each used slot is that of a value. */
    if (layout->fill <= lent_list_capacity(&self->list)) {
        lent_index_read(self, flash, layout);
    }
}

/* The value of an address, `None` if it has none. */
static MaybeU32 lent_index_value_of(const LentIndex *self, const Device *flash,
        const Layout *layout, Address address) {
    if (self->is_given_up) {
        return slots_value_of(flash, layout, address);
    }
    return value_indexed(&self->list, flash, layout, address);
}

/* How many addresses have a value. */
static uint32_t lent_index_live_count(const LentIndex *self, const Device *flash,
        const Layout *layout) {
    if (self->is_given_up) {
        return slots_live_count(flash, layout);
    }
    return lent_list_entries(&self->list).len;
}

/* How many addresses have a value with these values, each of which is of an
 * address of its own. */
static uint32_t lent_index_live_with(const LentIndex *self, const Device *flash,
        const Layout *layout, const Put *puts_items, uint32_t puts_len) {
    const ListOfPut puts = { .items = puts_items, .len = puts_len };
    if (self->is_given_up) {
        return slots_live_with(flash, layout, puts.items, puts.len);
    }
    return lent_list_entries(&self->list).len + count_new(&self->list, puts.items, puts.len);
}

/* The next live address above `after`, or of all if `after` is `None`, with its value. */
static MaybeLive lent_index_next_live(const LentIndex *self, const Device *flash,
        const Layout *layout, MaybeAddress after) {
    if (self->is_given_up) {
        return slots_next_live(flash, layout, after);
    }
    return next_indexed(&self->list, flash, layout, after);
}

/* Makes ready for a value in the first free slot. An `Err`, which only a new address meets,
 * leaves it as it was. */
static Step lent_index_make_ready(LentIndex *self, const Device *_flash, const Layout *layout,
        Put put) {
    (void)_flash;
    if (self->is_given_up) {
        return DONE;
    }
    self->is_given_up = lent_list_insert(&self->list, put.address, layout->fill) == CUT;
    return DONE;
}

/* Makes room for a transfer with these values. An `Err`, which only a new address meets,
 * leaves it as it was. */
static Step lent_index_make_room(LentIndex *self, const Device *_flash, const Layout *layout,
        const Put *puts_items, uint32_t puts_len) {
    (void)_flash;
    const ListOfPut puts = { .items = puts_items, .len = puts_len };
    if (self->is_given_up) {
        return DONE;
    }
    self->is_given_up = enter_hidden(&self->list, puts.items, puts.len, layout->fill) == CUT;
    return DONE;
}

/* Reads anew what it keeps in lent memory. It takes no more memory than it has. */
static void lent_index_read_anew(LentIndex *self, const Device *flash, const Layout *layout) {
    lent_index_read(self, flash, layout);
}

/* Follows a clear: it finds nothing from here on. */
static void lent_index_find_nothing(LentIndex *self) {
    lent_list_clear(&self->list);
    self->is_given_up = false;
}

/* Makes a change to which no refusal applies in the first free slot. The layout and
 * the look-up follow. */
static Step lent_index_append(LentIndex *self, Device *flash, Layout *layout, Change change) {
    if (append_change(flash, layout, change) == CUT) {
        return CUT;
    }
    /* What stands in an index that is given up is never read. */
    leave_forgotten(&self->list, &change);
    return DONE;
}

/* Makes changes to which no refusal applies with a transfer that they need. The layout and
 * the look-up follow. */
static Step lent_index_transfer(LentIndex *self, Device *flash, Layout *layout,
        const Put *puts_items, uint32_t puts_len, bool forgets) {
    const ListOfPut puts = { .items = puts_items, .len = puts_len };
    LentCursor cursor;
    lent_index_cursor(self, flash, layout, &cursor);
    lent_cursor_begin(&cursor, flash, layout);
    if (move_changes_lent_cursor(flash, layout, puts.items, puts.len, forgets, &cursor) == CUT) {
        return CUT;
    }
    lent_index_follow(self, flash, layout, puts.items, puts.len, forgets);
    return DONE;
}
#endif

/* ---- ee_nor/pairs.rs: A device of words on a flash of numbers. */

/* The word that two numbers are: erased where both are `u64::MAX`, held where the second is the
 * complement of the first, which is below `u64::MAX`; else torn. */
static Word word_of(uint64_t number, uint64_t check) {
    if (!is_whole(number, check)) {
        return word_torn();
    }
    if (number == UINT64_MAX) {
        return word_erased();
    }
    return word_held(number);
}

/* The number that has a one where this one has a zero. */
static uint64_t complement_of(uint64_t number) {
    return UINT64_MAX - number;
}

/* What a word holds, whether power is on or off. */
static Word pairs_word(const Numbers *self, uint32_t page, uint32_t at) {
    const uint64_t number = numbers_read(self, page, 2u * at);
    const uint64_t check = numbers_read(self, page, 2u * at + 1u);
    return word_of(number, check);
}

/* Readings of the words from a place on, as many as there is room for, whether power is on or
 * off. They stand in the room, or where the device has them. An erased word alone reads as
 * `u64::MAX`, and a slot's number as one that ends in the same 16 bits. */
static ListOfU64 pairs_run(const Numbers *self, uint32_t page, uint32_t at, uint64_t *room_items,
        uint32_t room_len) {
    const RoomOfU64 room = { .items = room_items, .len = room_len };
    nor_runs_fill_run(self, page, at, room.items, room.len);
    return (ListOfU64){ .items = room.items, .len = room.len };
}

/* Programs an erased word with any number below `u64::MAX`.
 * The complement of 0 is what an erased place reads as. */
static Step pairs_program(Numbers *self, uint32_t page, uint32_t at, uint64_t value) {
    if (numbers_program(self, page, 2u * at, value) == CUT) {
        return CUT;
    }
    const uint64_t check = complement_of(value);
    if (check == UINT64_MAX) {
        return DONE;
    }
    return numbers_program(self, page, 2u * at + 1u, check);
}

/* ---- ee_nor/runs.rs: The numbers of words one behind another, each of two numbers of the
 * flash. */

/* Puts the numbers of as many words as there is room for into the room, from a place of a page on:
 * those that the flash has in memory are not read one by one. */
static void nor_runs_fill_run(const Numbers *nor, uint32_t page, uint32_t at, uint64_t *room_items,
        uint32_t room_len) {
    const RoomOfU64 room = { .items = room_items, .len = room_len };
    const ListOfU64 maybe_window = numbers_window(nor, page, 2u * at, 2u * room.len);
    if (maybe_window.items != NULL) {
        const ListOfU64 numbers = maybe_window;
        fill_from_window(numbers.items, numbers.len, room.items, room.len);
    } else {
        fill_by_reading(nor, page, at, room.items, room.len);
    }
}

/* The same of numbers in memory, two of each word. */
EE_APART void fill_from_window(const uint64_t *numbers_items, uint32_t numbers_len,
        uint64_t *room_items, uint32_t room_len) {
    const ListOfU64 numbers = { .items = numbers_items, .len = numbers_len };
    const RoomOfU64 room = { .items = room_items, .len = room_len };
    if (room.len != 0u) {
        uint32_t word = 0u;
        do {
            room.items[word] = number_of_pair(numbers.items[2u * word],
                    numbers.items[2u * word + 1u]);
            word++;
        } while (word != room.len);
    }
}

/* The same of numbers that are read. */
static void fill_by_reading(const Numbers *nor, uint32_t page, uint32_t at, uint64_t *room_items,
        uint32_t room_len) {
    const RoomOfU64 room = { .items = room_items, .len = room_len };
    if (room.len != 0u) {
        uint64_t *number = room.items;
        uint64_t *const number_end = number + room.len;
        do {
            const uint32_t first = 2u * (at + (uint32_t)(number - room.items));
            const uint64_t number_2 = numbers_read(nor, page, first);
            const uint64_t check = numbers_read(nor, page, first + 1u);
            *number = number_of_pair(number_2, check);
            number++;
        } while (number != number_end);
    }
}

/* The number of the word that two numbers are: `u64::MAX` of an erased word, 0 of a torn one. It
 * looks at halves of 32 bits, as `is_whole` does, and first whether the word is held, as most
 * are. */
static uint64_t number_of_pair(uint64_t number, uint64_t check) {
    const U32AndU32 low_and_high = halves(number);
    const uint32_t low = low_and_high.first;
    const uint32_t high = low_and_high.second;
    const U32AndU32 check_low_and_check_high = halves(check);
    const uint32_t check_low = check_low_and_check_high.first;
    const uint32_t check_high = check_low_and_check_high.second;
    if ((u32_wrapping_add(low, check_low) & u32_wrapping_add(high, check_high)) == UINT32_MAX) {
        if (check != 0u) {
            return number;
        }
        return 0u;
    }
    if ((((low & high) & check_low) & check_high) == UINT32_MAX) {
        return UINT64_MAX;
    }
    return 0u;
}

/* Whether two numbers are a word that isn't torn. It looks at halves of 32 bits, which is shorter
 * on the cores of firmware. */
EE_IN_PLACE bool is_whole(uint64_t number, uint64_t check) {
    const U32AndU32 low_and_high = halves(number);
    const uint32_t low = low_and_high.first;
    const uint32_t high = low_and_high.second;
    const U32AndU32 check_low_and_check_high = halves(check);
    const uint32_t check_low = check_low_and_check_high.first;
    const uint32_t check_high = check_low_and_check_high.second;
    if ((low & high) == UINT32_MAX) {
        return (check_low & check_high) == UINT32_MAX;
    }
    return (u32_wrapping_add(low, check_low) & u32_wrapping_add(high, check_high)) == UINT32_MAX;
}

/* The lower and the upper 32 bits of a number. */
static U32AndU32 halves(uint64_t number) {
    return (U32AndU32){ .first = (uint32_t)(number & UINT64_C(0xFFFFFFFF)),
            .second = (uint32_t)(number >> 32u) };
}

/* ---- ee_nor/low_pair.rs: The first word of a flash of numbers whose numbers sum to less than
 * all ones. */

/* The first word whose numbers sum to less than all ones. */
static MaybeLowPair first_low(const Numbers *nor) {
    for (uint32_t page = 0u, end = 2u * nor->shape.pages; page < end; page++) {
        const MaybeIndex maybe_word = first_low_in(nor, page);
        if (maybe_word.some) {
            const uint32_t word = maybe_word.value;
            return maybe_low_pair_some((LowPair){ .page = page, .word = word });
        }
    }
    return maybe_low_pair_none();
}

/* The first such word of a page. */
static MaybeIndex first_low_in(const Numbers *nor, uint32_t page) {
    const uint32_t words = nor->shape.words;
    uint32_t from = 0u;
    while (from < words) {
        const uint32_t count = u32_least(STRETCH, words - from);
        const MaybeIndex maybe_word = first_low_from(nor, page, from, count);
        if (maybe_word.some) {
            return maybe_index_some(maybe_word.value);
        }
        from += count;
    }
    return maybe_index_none();
}

/* The first such word of so many of a page, from this one on. */
static MaybeIndex first_low_from(const Numbers *nor, uint32_t page, uint32_t from, uint32_t count) {
    const ListOfU64 maybe_window = numbers_window(nor, page, 2u * from, 2u * count);
    if (maybe_window.items != NULL) {
        const ListOfU64 numbers = maybe_window;
        const MaybeIndex maybe_low_in_window = low_in_window(numbers.items, numbers.len, count);
        if (maybe_low_in_window.some) {
            const uint32_t word = maybe_low_in_window.value;
            return maybe_index_some(from + word);
        }
        return maybe_index_none();
    }
    return low_read(nor, page, from, count);
}

/* The first such word of so many whose numbers stand in memory, two of each. */
static MaybeIndex low_in_window(const uint64_t *numbers_items, uint32_t numbers_len,
        uint32_t count) {
    const ListOfU64 numbers = { .items = numbers_items, .len = numbers_len };
    for (uint32_t word = 0u; word < count; word++) {
        if (is_low(numbers.items[2u * word], numbers.items[2u * word + 1u])) {
            return maybe_index_some(word);
        }
    }
    return maybe_index_none();
}

/* The first such word of so many that are read. */
static MaybeIndex low_read(const Numbers *nor, uint32_t page, uint32_t from, uint32_t count) {
    for (uint32_t word = from, end = from + count; word < end; word++) {
        const uint64_t number = numbers_read(nor, page, 2u * word);
        const uint64_t check = numbers_read(nor, page, 2u * word + 1u);
        if (is_low(number, check)) {
            return maybe_index_some(word);
        }
    }
    return maybe_index_none();
}

/* Whether two numbers sum to less than `u64::MAX`, as those of no word do that a store wrote. */
static bool is_low(uint64_t number, uint64_t check) {
    return check < UINT64_MAX - number;
}

/* ---- coded/code.rs: The check of a payload, which is one number of 49 bits: a value of 32,
 * below it a kind of one bit, below it an address of 16. In a coded word the check of 15 bits
 * stands between the value and the kind, so all three can be read where they stand. */

/* The low half of the word of a value and the 17 bits below it, which stand as they are in it. */
static uint32_t low_half(uint32_t low, uint32_t value) {
    const uint32_t rest = parity_bits(value, low) * UINT32_C(0x20000) + low;
    const uint32_t ones = u64_count_ones((uint64_t)value * UINT64_C(0x100000000) + (uint64_t)rest);
    return weight_of(ones) * UINT32_C(0x1000000) + rest;
}

/* Seven bits of parity: each bit of the payload alone turns others of them, and two or more. */
static uint32_t parity_bits(uint32_t value, uint32_t low) {
    const uint32_t mixed = (value ^ (low << 12u)) ^ (value << 1u);
    const uint32_t mixed_2 = mixed ^ (mixed << 11u);
    const uint32_t mixed_3 = mixed_2 ^ (mixed_2 >> 9u);
    const uint32_t mixed_4 = mixed_3 ^ (mixed_3 >> 7u);
    const uint32_t mixed_5 = mixed_4 ^ (mixed_4 << 12u);
    return (mixed_5 >> 21u) & 127u;
}

/* The row of half a number of ones, rounded up, and the number's lowest bit. */
static uint32_t weight_of(uint32_t ones) {
    return (uint32_t)WEIGHTS[(uint32_t)ones];
}

/* ---- coded/words.rs: A number of a store as a coded word, and the word that a number of the
 * flash is. */

/* The coded word of a number on a device of this shape: of a number that a store writes, else of
 * some other. The mark says the shape. */
static uint64_t words_coded_number(Shape shape, uint64_t number) {
    const U32AndU32 low_and_value = payload_of(shape, number);
    const uint32_t low = low_and_value.first;
    const uint32_t value = low_and_value.second;
    return (uint64_t)value * UINT64_C(0x100000000) + (uint64_t)low_half(low, value);
}

/* The word that a reading is on a device of this shape: torn where there is none, erased where it
 * is `u64::MAX`, held where it is the coded word of a number; else torn, as the mark of another
 * shape is. */
static Word word_of_reading(Shape shape, MaybeU64 reading) {
    if (!reading.some) {
        return word_torn();
    }
    const uint64_t number = reading.value;
    const uint32_t value = (uint32_t)(number >> 32u);
    const uint32_t low = (uint32_t)(number & UINT64_C(0xFFFFFFFF));
    const uint32_t rest = low & UINT32_C(0x1FFFF);
    if (low_half(rest, value) != low) {
        return erased_or_torn(number);
    }
    /* A slot's number stands in its word as it is, so nothing more is asked of it. */
    if ((rest & 0xFFFFu) > 0u) {
        return word_held(without_check(number));
    }
    return header_word(shape, rest, value);
}

/* The word of a number that isn't coded. */
static Word erased_or_torn(uint64_t number) {
    if (number == UINT64_MAX) {
        return word_erased();
    }
    return word_torn();
}

/* A number of the flash with zeros where a coded word has its check. */
static uint64_t without_check(uint64_t number) {
    return number - (number & UINT64_C(0xFFFFFFFF)) + (number & UINT64_C(0x1FFFF));
}

/* The word of a payload with no address, which is a value and the 17 bits below it: held where it
 * is a number's. */
static Word header_word(Shape shape, uint32_t low, uint32_t value) {
    if (low > 0u) {
        if (value == mark_value(shape)) {
            return word_held(MARK);
        }
        return word_torn();
    }
    if (is_slot_half(value) || value == HEADER_HALF) {
        return word_torn();
    }
    return word_held((uint64_t)HEADER_HALF * UINT64_C(0x100000000) + (uint64_t)value);
}

/* The payload of a number: the 17 bits below its value, and the value. */
EE_IN_PLACE U32AndU32 payload_of(Shape shape, uint64_t number) {
    const uint32_t low = (uint32_t)(number & UINT64_C(0xFFFFFFFF));
    if (is_slot_half(low)) {
        return (U32AndU32){ .first = low, .second = (uint32_t)(number >> 32u) };
    }
    if (low == HEADER_HALF) {
        return (U32AndU32){ .first = UINT32_C(0x10000), .second = mark_value(shape) };
    }
    return (U32AndU32){ .first = 0u, .second = low };
}

/* Whether a number is a slot's, by its low half. */
static bool is_slot_half(uint32_t low) {
    return low < UINT32_C(0x20000) && (low & 0xFFFFu) > 0u;
}

/* The value of the mark. */
static uint32_t mark_value(Shape shape) {
    return (uint32_t)shape.pages * UINT32_C(0x10000) + (uint32_t)shape.words;
}

/* ---- coded/shapes.rs: The store that a flash holds, where it is none of coded words of the
 * device's shape. */

/* The other shape of the store that a flash holds. */
EE_IN_PLACE MaybeOtherShape other_shape(const EccNumbers *nor) {
    const uint32_t held = value_held(nor);
    if (held == mark_value(nor->shape)) {
        return maybe_other_shape_none();
    }
    return maybe_other_shape_some((OtherShape){ .pages = (uint32_t)(held >> 16u),
            .words = (uint32_t)(held & 0xFFFFu) });
}

/* The value of the mark of the other store that a flash holds, 0 of one of plain words, whose mark
 * has none; the value of the device's own where it holds no other. */
EE_APART uint32_t value_held(const EccNumbers *nor) {
    const uint32_t own = mark_value(nor->shape);
    const MaybeU64 maybe_read = ecc_numbers_read(nor, 0u, 1u);
    const uint64_t first = maybe_read.some ? maybe_read.value : 0u;
    const MaybeU64 maybe_read_2 = ecc_numbers_read(nor, nor->shape.pages, 1u);
    const uint64_t second = maybe_read_2.some ? maybe_read_2.value : 0u;
    const uint32_t named = value_named(first);
    const uint32_t named_second = value_named(second);
    if (named > 0u && named != own) {
        return named;
    }
    if (named_second > 0u) {
        return named_second;
    }
    /* Of each coded mark three ones or more are no ones of the plain one: no cut of one makes
     * it. */
    if (named == 0u && (first == MARK || second == MARK)) {
        return 0u;
    }
    return own;
}

/* The value of the mark that a number of the flash is, 0 where it is none. */
static uint32_t value_named(uint64_t number) {
    const MaybeShape maybe_shape_of_mark = shape_of_mark(number);
    if (maybe_shape_of_mark.some) {
        const Shape shape = maybe_shape_of_mark.value;
        return mark_value(shape);
    }
    return 0u;
}

/* The shape whose mark a number of the flash is. */
EE_IN_PLACE MaybeShape shape_of_mark(uint64_t number) {
    const uint32_t value = (uint32_t)(number >> 32u);
    if ((uint64_t)low_half(UINT32_C(0x10000), value) != (number & UINT64_C(0xFFFFFFFF))) {
        return maybe_shape_none();
    }
    return shape_new((uint32_t)(value >> 16u), (uint32_t)(value & 0xFFFFu));
}

/* ---- coded/coded.rs: A device of words on a flash of coded numbers. */

/* The number of the word that reads so: `u64::MAX` of an erased word, 0 of a torn one. `word`
 * tells a torn word from one that holds 0. */
static uint64_t coded_number(const EccNumbers *self, uint64_t reading) {
    return word_number(word_of_reading((*self).shape, maybe_u64_some(reading)));
}

/* What stands in a reading with no check. Of a word that holds a slot's number it is that
 * number; where it is one that ends in less than 65535, the word holds it or is torn. */
static uint64_t coded_in_clear(const EccNumbers *self, uint64_t reading) {
    (void)self;
    return without_check(reading);
}

/* Programs an erased word with a number below `u64::MAX`, one of those that a store writes.
 *
 * Errors:
 *
 * `Cut`, only with the device off afterwards: power failed in this step, or was off before it
 * and nothing changed. */
static Step coded_program(EccNumbers *self, uint32_t page, uint32_t at, uint64_t value) {
    const uint64_t number = words_coded_number((*self).shape, value);
    return ecc_numbers_program(self, page, at, number);
}

/* ---- By hand: the calls of ee.h. A store stays in the memory that the caller lends. */

/* What says whether a store can take a call. It is written in a call that only reads, too: a store
 * that was opened is no constant. */
static struct ee_power *power_of(const ee_store *memory) {
    return &((ee_store *)memory)->memory.parts.power;
}

/* What a call that changes it takes of a store. */
static Store *store_of(ee_store *memory) { return &memory->memory.parts.store; }

/* Begins a call on a store, with an address of it; of a call that has none it is 1. EE_OK, or why
 * not. A copy of a store has the place of that store, and is off. */
static ee_result begun(const ee_store *memory, uint16_t address) {
    if (memory == NULL) { return EE_NULL; }
    struct ee_power *const power = power_of(memory);
    if (power->idle != memory) {
        return power->idle == NULL &&
                power->flash != NULL ? (ee_result)EE_BUSY : (ee_result)EE_NOT_OPEN;
    }
    if (!address_new(address).some) { return EE_WRONG_NUMBER; }
    power->idle = NULL;
    EE_IN_ORDER();
    return EE_OK;
}

/* The same of a call with another pointer, which is refused before the address. */
static ee_result begun_with(const ee_store *memory, uint16_t address, const void *other) {
    const ee_result status = begun(memory, other == NULL ? 0u : address);
    return status == EE_WRONG_NUMBER && other == NULL ? (ee_result)EE_NULL : status;
}

/* Ends a call that answered this, and gives its status: the store takes a call again. What it says
 * counts only where its flash didn't fail. */
static ee_result ended(ee_result status, const ee_store *memory) {
    struct ee_power *const power = power_of(memory);
    if (power->flash == NULL) { return EE_DRIVER; }
    EE_IN_ORDER();
    power->idle = memory;
    return status;
}

/* The same of a call that gives a number, which is written where the status is EE_OK. */
static ee_result told(ee_result status, const ee_store *memory, uint32_t found, uint32_t *number) {
    const ee_result answer = ended(status, memory);
    if (answer == EE_OK) { *number = found; }
    return answer;
}

/* Begins a call with a list, each of whose addresses has to be one. */
static ee_result begun_with_list(const ee_store *memory, const ee_value *values, uint32_t count) {
    ee_result status = begun_with(memory, 1u, values);
    for (uint32_t at = 0u; status == EE_OK && at < count; at++) {
        if (!address_new(values[at].address).some) { status = ended(EE_WRONG_NUMBER, memory); }
    }
    return status;
}

/* Makes the device of a flash, on where the members of that are in range; else says why not. */
static ee_result device_in(ee_store *memory, const ee_flash *flash) {
    if (memory == NULL) { return EE_NULL; }
    struct ee_power *const power = power_of(memory);
    *power = (struct ee_power){ .flash = NULL, .idle = NULL };
    if (flash == NULL || flash->word == NULL || flash->program == NULL || flash->erase == NULL) {
        return EE_NULL;
    }
    const MaybeShape shape = shape_new(flash->pages, flash->page_words);
    const bool is_kind = flash->kind == EE_WORDS || EE_IS_OF_PAIRS(flash) || EE_IS_CODED(flash);
    if (!shape.some || !is_kind) { return EE_WRONG_SHAPE; }
    power->flash = flash;
    store_of(memory)->flash = (Device){ .power = power, .shape = shape.value };
    return EE_OK;
}

/* An opening ends with this status: the store is off unless it is EE_OK. */
EE_APART ee_result opening_ended(ee_result status, ee_store *memory) {
    struct ee_power *const power = power_of(memory);
    Store *const store = store_of(memory);
    store->known.lookup = NULL;
#ifdef EE_INDEX
    if (status == EE_OK && power->flash != NULL && power->flash->index != NULL) {
        store->known.lookup = power->flash->index;
        lent_index_read_anew(store->known.lookup, &store->flash, &store->known.layout);
    }
#endif
    const ee_result answer = ended(status, memory);
    if (answer != EE_OK) { *power = (struct ee_power){ .flash = NULL, .idle = NULL }; }
    return answer;
}

/* The same of a flash that may hold a store: coded words are of this shape, or of none. */
#ifdef EE_NO_CODED
#define known_in device_in
#else
EE_APART ee_result known_in(ee_store *memory, const ee_flash *flash) {
    const ee_result status = device_in(memory, flash);
    if (status != EE_OK || !EE_IS_CODED(flash)) { return status; }
    return other_shape(&store_of(memory)->flash).some ? opening_ended(EE_OTHER_SHAPE,
            memory) : status;
}
#endif

/* Where no words are coded no number is looked at for their mark. */
#ifdef EE_NO_CODED
#define value_named(number) 0u
#endif

/* Whether a word is written that a first start which was cut doesn't leave: any but the first two
 * of page 0. Where an erase clears first a cut one leaves anything in that page, but by no likely
 * chance the mark of a store of another kind as its second number: where that stands all is looked
 * at. */
EE_APART bool holds_more(const Device *device, bool clears_first) {
    const uint64_t second = clears_first ? numbers_read(device, 0u, 1u) : MARK;
    const uint32_t from = second == MARK || value_named(second) > 0u ? 2u : device->shape.words;
    bool found = blank_to(device, 0u, from) != device->shape.words;
    for (uint32_t page = 1u; !found && page < 2u * device->shape.pages; page++) {
        found = !state_is_blank(device, page);
    }
    return found;
}

/* Opens a store, or makes the first one where that may be. A flash of numbers is looked through
 * before, unless its erases clear first: EE_FOREIGN where a word is no store's. Where numbers or
 * coded words hold more than a first start leaves it is opened, and no first store made there. */
static ee_result started(ee_store *memory, const ee_flash *flash, bool may_be_new) {
    const ee_result refused = known_in(memory, flash);
    if (refused != EE_OK) { return refused; }
    Device *const device = &store_of(memory)->flash;
    Layout *const layout = &store_of(memory)->known.layout;
    if (EE_IS_OF_PAIRS(flash) || EE_IS_CODED(flash)) {
        const bool clears_first = flash->kind == EE_PAIRS_CLEARING;
        const bool is_looked_through = EE_IS_OF_PAIRS(flash) && !clears_first;
        if (is_looked_through && first_low(device).some) { return opening_ended(EE_FOREIGN,
                memory); }
        may_be_new = may_be_new && !holds_more(device, clears_first);
    }
    return opening_ended(may_be_new ? start_on(device, layout) : open_on(device, layout), memory);
}

ee_result ee_start(ee_store *store, const ee_flash *flash) { return started(store, flash, true); }

#ifndef EE_NO_OPEN
ee_result ee_open(ee_store *store, const ee_flash *flash) { return started(store, flash, false); }

/* A format itself erases each page that isn't blank, by rising page. */
ee_result ee_format(ee_store *store, const ee_flash *flash) {
    const ee_result refused = device_in(store, flash);
    if (refused != EE_OK) { return refused; }
    Store *const kept = store_of(store);
    const Step step = write_format(&kept->flash, &kept->known.layout);
    return opening_ended(step == DONE ? EE_OK : EE_DRIVER, store);
}
#endif

#ifndef EE_NO_RESCUE
/* A pair of numbers that no store wrote is torn here, where an opening refuses it. */
ee_result ee_rescue(ee_store *store, const ee_flash *flash) {
    const ee_result refused = known_in(store, flash);
    if (refused != EE_OK) { return refused; }
    Store *const kept = store_of(store);
    const MaybeSide side = rescued_side(&kept->flash);
    if (!side.some) { return opening_ended(EE_NOTHING, store); }
    const uint32_t generation = named_generation(&kept->flash, side.value);
    if (generation == GREATEST_GENERATION) { return opening_ended(EE_SPENT, store); }
    const Step step = rescue_set(&kept->flash, side.value, generation, &kept->known.layout);
    return opening_ended(step == DONE ? EE_OK : EE_DRIVER, store);
}

ee_result ee_bad_words(const ee_flash *flash, uint32_t *count) {
    ee_store looked;
    const ee_result refused = known_in(&looked, count == NULL ? NULL : flash);
    if (refused != EE_OK) { return refused; }
    return told(EE_OK, &looked, bad_words(&looked.memory.parts.store.flash), count);
}

/* It looks for what an opening is refused for. */
ee_result ee_foreign_word(const ee_flash *flash, uint32_t *page, uint32_t *word) {
    ee_store looked;
    ee_result status = known_in(&looked, page == NULL || word == NULL ? NULL : flash);
    if (status != EE_OK) { return status; }
    const Device *const device = &looked.memory.parts.store.flash;
    MaybeLowPair found = { .some = false };
    if (EE_IS_OF_PAIRS(flash) && flash->kind == EE_PAIRS) { found = first_low(device); }
    const LiveSetResult live = live_set(device);
    if (!found.some && live.ok) {
        const FrontResult front = front_of(device, live.value.first, live.value.second);
        found.some = !front.ok;
        found.value.page = first_page(device, live.value.first) + front.error.first;
        found.value.word = front.error.second;
    }
    status = told(found.some ? EE_OK : EE_NOTHING, &looked, found.value.word, word);
    if (status == EE_OK) { *page = found.value.page; }
    return status;
}

ee_result ee_word_of(const ee_flash *flash, uint32_t page, uint32_t word, uint64_t *number) {
    ee_store looked;
    const ee_result status = device_in(&looked, number == NULL ? NULL : flash);
    if (status != EE_OK) { return status; }
    if (page >= 2u * flash->pages || word >= flash->page_words) { return EE_WRONG_NUMBER; }
    const Word found = device_word(&looked.memory.parts.store.flash, page, word);
    if (looked.memory.parts.power.flash == NULL) { return EE_DRIVER; }
    if (found.tag == Word_Torn) { return EE_TORN; }
    *number = found.tag == Word_Held ? found.held : UINT64_MAX;
    return EE_OK;
}

ee_result ee_other_shape(const ee_flash *flash, uint32_t *pages, uint32_t *page_words) {
    ee_store looked;
    ee_result status = device_in(&looked, pages == NULL || page_words == NULL ? NULL : flash);
    if (status != EE_OK) { return status; }
    MaybeOtherShape found = { .some = false };
    if (EE_IS_CODED(flash)) { found = other_shape(&looked.memory.parts.store.flash); }
    status = told(found.some ? EE_OK : EE_NOTHING, &looked, found.value.pages, pages);
    if (status == EE_OK) { *page_words = found.value.words; }
    return status;
}
#endif

ee_result ee_write(ee_store *store, uint16_t address, uint32_t value) {
    const ee_result refused = begun(store, address);
    return refused != EE_OK ? refused : ended(store_write(store_of(store), address, value), store);
}

#ifndef EE_NO_LISTS
ee_result ee_write_all(ee_store *store, const ee_value *values, uint32_t count) {
    const ee_result refused = begun_with_list(store, values, count);
    return refused != EE_OK ? refused : ended(store_write_all(store_of(store), values, count),
            store);
}
#endif

#ifndef EE_NO_FORGET
ee_result ee_forget(ee_store *store, uint16_t address) {
    const ee_result refused = begun(store, address);
    return refused != EE_OK ? refused : ended(store_forget(store_of(store), address), store);
}

ee_result ee_forget_all(ee_store *store) {
    const ee_result refused = begun(store, 1u);
    return refused != EE_OK ? refused : ended(store_clear(store_of(store)), store);
}
#endif

ee_result ee_clean(ee_store *store) {
    const ee_result refused = begun(store, 1u);
    if (refused != EE_OK) { return refused; }
    return ended(store_clean_step(store_of(store)).value ? EE_OK : EE_NOTHING, store);
}

ee_result ee_read(const ee_store *store, uint16_t address, uint32_t *value) {
    const ee_result refused = begun_with(store, address, value);
    if (refused != EE_OK) { return refused; }
    const MaybeU32 found = store_read(&store->memory.parts.store, address).value;
    return told(found.some ? EE_OK : EE_NOTHING, store, found.value, value);
}

/* For how many addresses a look through the slots is made. */
#define EE_WANTED 32u

ee_result ee_load(const ee_store *store, ee_value *values, uint32_t count, uint32_t *loaded) {
    const ee_result refused = begun_with_list(store, loaded == NULL ? NULL : values, count);
    if (refused != EE_OK) { return refused; }
    uint32_t found = 0u;
    uint32_t some = 0u;
    for (uint32_t from = 0u; from < count && power_of(store)->flash != NULL; from += some) {
        Wanted wanted[EE_WANTED];
        ee_value *const here = &values[from];
        some = u32_least(count - from, EE_WANTED);
        for (uint32_t at = 0u; at < some; at++) { wanted[at] = (Wanted){ .address =
                here[at].address }; }
        (void)store_load(&store->memory.parts.store, wanted, some);
        for (uint32_t at = 0u; power_of(store)->flash != NULL && at < some; at++) {
            here[at].value = wanted[at].value.some ? wanted[at].value.value : here[at].value;
            found += wanted[at].value.some ? 1u : 0u;
        }
    }
    return told(EE_OK, store, found, loaded);
}

/* By an index it is of the first address alone, since another look takes no more there. */
ee_result ee_read_span(const ee_store *store, uint16_t first, uint32_t count, ee_span *span) {
    const ee_result refused = begun_with(store, count == 0u ? 0u : first, span);
    if (refused != EE_OK) { return refused; }
    const Store *const it = &store->memory.parts.store;
    const Layout *const layout = &it->known.layout;
    if (it->known.lookup != NULL && !it->known.lookup->is_given_up) {
        span_of_one(first, lookup_value_of(&it->known.lookup, &it->flash, layout, first), span);
    } else {
        read_span(&it->flash, layout, first, count, span);
    }
    return ended(EE_OK, store);
}

ee_result ee_next(const ee_store *store, uint16_t *address, uint32_t *value) {
    const uint16_t after = address == NULL ? 0u : *address;
    ee_result status = begun_with(store, after == 0u ? 1u : after, address == NULL ? NULL : value);
    if (status != EE_OK) { return status; }
    const MaybeLive found = store_next_live(&store->memory.parts.store, address_new(after));
    status = told(found.some ? EE_OK : EE_NOTHING, store, found.value.second, value);
    if (status == EE_OK) { *address = found.value.first; }
    return status;
}

ee_result ee_counts(const ee_store *store, ee_numbers *numbers) {
    ee_result status = begun_with(store, 1u, numbers);
    if (status != EE_OK) { return status; }
    const Store *const it = &store->memory.parts.store;
    ee_numbers found = { .slots = store_slots(it), .fill = store_fill(it),
            .generation = store_generation(it) };
    found.live = store_live_count(it);
    found.torn = store_torn_slots(it);
    found.pending = store_pending(it);
    status = ended(EE_OK, store);
    if (status == EE_OK) { *numbers = found; }
    return status;
}
