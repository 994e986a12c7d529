/* The calls of ee.h by a store with an index, for programs that were written for a store without one: each store has room for
 * ROOM entries beside it. Compile with `-include tests/by_index.h`, and ee.c with EE_INDEX. */
#include "../ee.h"

#define BY_INDEX

#ifndef ROOM
#define ROOM 512
#endif

typedef ee_store plain_store;

typedef struct store_by_index {
    ee_store store;
    ee_flash flash;
    ee_index index;
    ee_entry entries[ROOM];
} store_by_index;

/* The flash with an index beside the store. */
static inline const ee_flash *with_index(store_by_index *store, const ee_flash *flash) {
    if (!store || !flash) return flash;
    store->index = (ee_index)EE_INDEX_IN(store->entries);
    store->flash = *flash;
    store->flash.index = &store->index;
    return &store->flash;
}

static inline ee_result start_by_index(store_by_index *store, const ee_flash *flash) { return ee_start((plain_store *)store, with_index(store, flash)); }
static inline ee_result open_by_index(store_by_index *store, const ee_flash *flash) { return ee_open((plain_store *)store, with_index(store, flash)); }
static inline ee_result format_by_index(store_by_index *store, const ee_flash *flash) { return ee_format((plain_store *)store, with_index(store, flash)); }
static inline ee_result rescue_by_index(store_by_index *store, const ee_flash *flash) { return ee_rescue((plain_store *)store, with_index(store, flash)); }

#define ee_store store_by_index
#define ee_start start_by_index
#define ee_open open_by_index
#define ee_format format_by_index
#define ee_rescue rescue_by_index
#define ee_write(store, address, value) ee_write((plain_store *)(store), address, value)
#define ee_write_all(store, values, count) ee_write_all((plain_store *)(store), values, count)
#define ee_forget(store, address) ee_forget((plain_store *)(store), address)
#define ee_forget_all(store) ee_forget_all((plain_store *)(store))
#define ee_clean(store) ee_clean((plain_store *)(store))
#define ee_read(store, address, value) ee_read((const plain_store *)(store), address, value)
#define ee_load(store, values, count, loaded) ee_load((const plain_store *)(store), values, count, loaded)
#define ee_read_span(store, first, count, span) ee_read_span((const plain_store *)(store), first, count, span)
#define ee_next(store, address, value) ee_next((const plain_store *)(store), address, value)
#define ee_counts(store, numbers) ee_counts((const plain_store *)(store), numbers)
