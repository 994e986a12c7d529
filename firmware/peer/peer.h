/* A peer of the store in plain C: it is here to be measured beside the store, and for no product. README.md says what it is,
 * and what it leaves out.
 *
 * The flash is two sets of PEER_PAGES pages (1 to 64), each of PEER_PAGE_WORDS words of 64 bits (5 to 512). Pages are numbered
 * from 0, those of the first set first, and the words of a page from 0. With PEER_PAIRS a word is two numbers of 64 bits, a
 * value beside its complement, for a part without error correction. A variable has 32 bits, and an address of 1 to
 * PEER_ADDRESSES. All of these are fixed when peer.c is compiled. */
#ifndef PEER_H
#define PEER_H

#include <stdint.h>

#ifndef PEER_PAGES
#define PEER_PAGES 1
#endif
#ifndef PEER_PAGE_WORDS
#define PEER_PAGE_WORDS 256
#endif
#ifndef PEER_PAIRS
#define PEER_PAIRS 0
#endif
#ifndef PEER_ADDRESSES
#define PEER_ADDRESSES 65534
#endif
/* 1: the flash is read through a pointer. 0: a function is asked for each number. */
#ifndef PEER_MAPPED
#define PEER_MAPPED 1
#endif
/* How a move finds what it copies. 0: in one pass through the slots. 1: by a scan for each address of 1 to PEER_ADDRESSES, of
 * which there may be no more than slots. */
#ifndef PEER_SCANS
#define PEER_SCANS 0
#endif

/* The numbers of a page: one for each word, or two. */
#define PEER_NUMBERS (PEER_PAGE_WORDS << PEER_PAIRS)

/* A flash. It stays where it is while a store is open on it. */
typedef struct peer_flash {
    void *context; /* given to each of the functions */
#if PEER_MAPPED
    /* PEER_NUMBERS for each page; all ones is an erased one. Where one can't be read (an uncorrectable ECC error), it reads
     * as 0: on STM32 the NMI's handler can program it so, as that of X-CUBE-EEPROM does. */
    const uint64_t *numbers;
#else
    /* Reads a number. 0, and the number in `value`; any other answer where it can't be read. */
    uint32_t (*number)(void *context, uint32_t page, uint32_t place, uint64_t *value);
#endif
    /* Programs a number that is erased. 0 once it reads back. */
    uint32_t (*program)(void *context, uint32_t page, uint32_t place, uint64_t value);
    /* Erases a page. 0 once each of its numbers reads as erased. */
    uint32_t (*erase)(void *context, uint32_t page);
} peer_flash;

/* A set of pages, as far as it is used. */
typedef struct peer_set {
    uint32_t generation;
    uint32_t first; /* its first page */
    uint32_t page;  /* its last used page; the first where no slot is used */
    uint32_t place; /* the place in that page behind the last used slot */
} peer_set;

typedef struct peer_store {
    const peer_flash *flash; /* NULL while the store is off */
    peer_set live;
} peer_store;

enum {
    PEER_OK = 0,
    PEER_NOTHING = 1,      /* the address has no value */
    PEER_FULL = 2,         /* more addresses would have a value than there are slots; the values are as before */
    PEER_SPENT = 3,        /* a move is needed, and no generation is left */
    PEER_NO_LIVE_SET = 4,  /* the flash holds no store */
    PEER_FOREIGN = 5,      /* it holds a word that no peer left there */
    PEER_DRIVER = 6,       /* a function of the flash failed, and the store is off; the write was made or was not */
    PEER_OFF = 7,          /* the store is off: open it */
    PEER_WRONG_ADDRESS = 8 /* it is none of 1 to PEER_ADDRESSES */
};

/* Makes an empty store, whatever the flash held. Where power is cut in it, format again. */
uint32_t peer_format(peer_store *store, const peer_flash *flash);

/* Opens the store that the flash holds, and sets the marks that a cut left to set. */
uint32_t peer_open(peer_store *store, const peer_flash *flash);

/* The value of an address. */
uint32_t peer_read(const peer_store *store, uint16_t address, uint32_t *value);

/* Gives an address a value. Where no slot is free all values move to the other set. */
uint32_t peer_write(peer_store *store, uint16_t address, uint32_t value);

#endif
