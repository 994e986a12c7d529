#ifdef EE_INDEX
#ifdef __GNUC__
#define EE_MOVE __builtin_memmove /* takes no header */
#else
#include <string.h>
#define EE_MOVE memmove
#endif

/* By hand. The place of the entry of an address, or in an error the place where one would stand. */
static PlaceResult search(const Entry *entries, uint32_t count, Address address) {
    uint32_t from = 0u;
    uint32_t to = count;
    while (from < to) {
        const uint32_t middle = (from + to) / 2u;
        if (entries[middle].first == address) {
            return place_result_ok(middle);
        }
        if (entries[middle].first < address) {
            from = middle + 1u;
        } else {
            to = middle;
        }
    }
    return place_result_err(from);
}

/* By hand. Moves the entries from a place up to another, so that they begin at a third. */
static void copy_within(Entry *entries, uint32_t from, uint32_t end, uint32_t to) {
    EE_MOVE(&entries[to], &entries[from], (size_t)(end - from) * sizeof(Entry));
}
#endif
