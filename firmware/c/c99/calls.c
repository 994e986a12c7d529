/* ---- By hand: the calls of ee.h. A store stays in the memory that the caller lends. */

/* What says whether a store can take a call. It is written in a call that only reads, too: a store
 * that was opened is no constant. */
static struct ee_power *power_of(const ee_store *memory) {
    return &((ee_store *)memory)->memory.parts.power;
}

/* What a call that changes it takes of a store. */
static Store *store_of(ee_store *memory) { return &memory->memory.parts.store; }

/* Begins a call on a store, with an address of it; of a call that has none it is 1. EE_OK, or why
 * not. A copy of a store has the place of that store, and is off. */
static ee_result begun(const ee_store *memory, uint16_t address) {
    if (memory == NULL) { return EE_NULL; }
    struct ee_power *const power = power_of(memory);
    if (power->idle != memory) {
        return power->idle == NULL && power->flash != NULL ? (ee_result)EE_BUSY : (ee_result)EE_NOT_OPEN;
    }
    if (!address_new(address).some) { return EE_WRONG_NUMBER; }
    power->idle = NULL;
    EE_IN_ORDER();
    return EE_OK;
}

/* The same of a call with another pointer, which is refused before the address. */
static ee_result begun_with(const ee_store *memory, uint16_t address, const void *other) {
    const ee_result status = begun(memory, other == NULL ? 0u : address);
    return status == EE_WRONG_NUMBER && other == NULL ? (ee_result)EE_NULL : status;
}

/* Ends a call that answered this, and gives its status: the store takes a call again. What it says
 * counts only where its flash didn't fail. */
static ee_result ended(ee_result status, const ee_store *memory) {
    struct ee_power *const power = power_of(memory);
    if (power->flash == NULL) { return EE_DRIVER; }
    EE_IN_ORDER();
    power->idle = memory;
    return status;
}

/* The same of a call that gives a number, which is written where the status is EE_OK. */
static ee_result told(ee_result status, const ee_store *memory, uint32_t found, uint32_t *number) {
    const ee_result answer = ended(status, memory);
    if (answer == EE_OK) { *number = found; }
    return answer;
}

/* Begins a call with a list, each of whose addresses has to be one. */
static ee_result begun_with_list(const ee_store *memory, const ee_value *values, uint32_t count) {
    ee_result status = begun_with(memory, 1u, values);
    for (uint32_t at = 0u; status == EE_OK && at < count; at++) {
        if (!address_new(values[at].address).some) { status = ended(EE_WRONG_NUMBER, memory); }
    }
    return status;
}

/* Makes the device of a flash, on where the members of that are in range; else says why not. */
static ee_result device_in(ee_store *memory, const ee_flash *flash) {
    if (memory == NULL) { return EE_NULL; }
    struct ee_power *const power = power_of(memory);
    *power = (struct ee_power){ .flash = NULL, .idle = NULL };
    if (flash == NULL || flash->word == NULL || flash->program == NULL || flash->erase == NULL) {
        return EE_NULL;
    }
    const MaybeShape shape = shape_new(flash->pages, flash->page_words);
    const bool is_kind = flash->kind == EE_WORDS || EE_IS_OF_PAIRS(flash) || EE_IS_CODED(flash);
    if (!shape.some || !is_kind) { return EE_WRONG_SHAPE; }
    power->flash = flash;
    store_of(memory)->flash = (Device){ .power = power, .shape = shape.value };
    return EE_OK;
}

/* An opening ends with this status: the store is off unless it is EE_OK. */
EE_APART ee_result opening_ended(ee_result status, ee_store *memory) {
    struct ee_power *const power = power_of(memory);
    Store *const store = store_of(memory);
    store->known.lookup = NULL;
#ifdef EE_INDEX
    if (status == EE_OK && power->flash != NULL && power->flash->index != NULL) {
        store->known.lookup = power->flash->index;
        lent_index_read_anew(store->known.lookup, &store->flash, &store->known.layout);
    }
#endif
    const ee_result answer = ended(status, memory);
    if (answer != EE_OK) { *power = (struct ee_power){ .flash = NULL, .idle = NULL }; }
    return answer;
}

/* The same of a flash that may hold a store: coded words are of this shape, or of none. */
#ifdef EE_NO_CODED
#define known_in device_in
#else
EE_APART ee_result known_in(ee_store *memory, const ee_flash *flash) {
    const ee_result status = device_in(memory, flash);
    if (status != EE_OK || !EE_IS_CODED(flash)) { return status; }
    return other_shape(&store_of(memory)->flash).some ? opening_ended(EE_OTHER_SHAPE, memory) : status;
}
#endif

/* Where no words are coded no number is looked at for their mark. */
#ifdef EE_NO_CODED
#define value_named(number) 0u
#endif

/* Whether a word is written that a first start which was cut doesn't leave: any but the first two of
 * page 0. Where an erase clears first a cut one leaves anything in that page, but by no likely chance
 * the mark of a store of another kind as its second number: where that stands all is looked at. */
EE_APART bool holds_more(const Device *device, bool clears_first) {
    const uint64_t second = clears_first ? numbers_read(device, 0u, 1u) : MARK;
    const uint32_t from = second == MARK || value_named(second) > 0u ? 2u : device->shape.words;
    bool found = blank_to(device, 0u, from) != device->shape.words;
    for (uint32_t page = 1u; !found && page < 2u * device->shape.pages; page++) {
        found = !state_is_blank(device, page);
    }
    return found;
}

/* Opens a store, or makes the first one where that may be. A flash of numbers is looked through
 * before, unless its erases clear first: EE_FOREIGN where a word is no store's. Where numbers or
 * coded words hold more than a first start leaves it is opened, and no first store made there. */
static ee_result started(ee_store *memory, const ee_flash *flash, bool may_be_new) {
    const ee_result refused = known_in(memory, flash);
    if (refused != EE_OK) { return refused; }
    Device *const device = &store_of(memory)->flash;
    Layout *const layout = &store_of(memory)->known.layout;
    if (EE_IS_OF_PAIRS(flash) || EE_IS_CODED(flash)) {
        const bool clears_first = flash->kind == EE_PAIRS_CLEARING;
        const bool is_looked_through = EE_IS_OF_PAIRS(flash) && !clears_first;
        if (is_looked_through && first_low(device).some) { return opening_ended(EE_FOREIGN, memory); }
        may_be_new = may_be_new && !holds_more(device, clears_first);
    }
    return opening_ended(may_be_new ? start_on(device, layout) : open_on(device, layout), memory);
}

ee_result ee_start(ee_store *store, const ee_flash *flash) { return started(store, flash, true); }

#ifndef EE_NO_OPEN
ee_result ee_open(ee_store *store, const ee_flash *flash) { return started(store, flash, false); }

/* A format itself erases each page that isn't blank, by rising page. */
ee_result ee_format(ee_store *store, const ee_flash *flash) {
    const ee_result refused = device_in(store, flash);
    if (refused != EE_OK) { return refused; }
    Store *const kept = store_of(store);
    const Step step = write_format(&kept->flash, &kept->known.layout);
    return opening_ended(step == DONE ? EE_OK : EE_DRIVER, store);
}
#endif

#ifndef EE_NO_RESCUE
/* A pair of numbers that no store wrote is torn here, where an opening refuses it. */
ee_result ee_rescue(ee_store *store, const ee_flash *flash) {
    const ee_result refused = known_in(store, flash);
    if (refused != EE_OK) { return refused; }
    Store *const kept = store_of(store);
    const MaybeSide side = rescued_side(&kept->flash);
    if (!side.some) { return opening_ended(EE_NOTHING, store); }
    const uint32_t generation = named_generation(&kept->flash, side.value);
    if (generation == GREATEST_GENERATION) { return opening_ended(EE_SPENT, store); }
    const Step step = rescue_set(&kept->flash, side.value, generation, &kept->known.layout);
    return opening_ended(step == DONE ? EE_OK : EE_DRIVER, store);
}

ee_result ee_bad_words(const ee_flash *flash, uint32_t *count) {
    ee_store looked;
    const ee_result refused = known_in(&looked, count == NULL ? NULL : flash);
    if (refused != EE_OK) { return refused; }
    return told(EE_OK, &looked, bad_words(&looked.memory.parts.store.flash), count);
}

/* It looks for what an opening is refused for. */
ee_result ee_foreign_word(const ee_flash *flash, uint32_t *page, uint32_t *word) {
    ee_store looked;
    ee_result status = known_in(&looked, page == NULL || word == NULL ? NULL : flash);
    if (status != EE_OK) { return status; }
    const Device *const device = &looked.memory.parts.store.flash;
    MaybeLowPair found = { .some = false };
    if (EE_IS_OF_PAIRS(flash) && flash->kind == EE_PAIRS) { found = first_low(device); }
    const LiveSetResult live = live_set(device);
    if (!found.some && live.ok) {
        const FrontResult front = front_of(device, live.value.first, live.value.second);
        found.some = !front.ok;
        found.value.page = first_page(device, live.value.first) + front.error.first;
        found.value.word = front.error.second;
    }
    status = told(found.some ? EE_OK : EE_NOTHING, &looked, found.value.word, word);
    if (status == EE_OK) { *page = found.value.page; }
    return status;
}

ee_result ee_word_of(const ee_flash *flash, uint32_t page, uint32_t word, uint64_t *number) {
    ee_store looked;
    const ee_result status = device_in(&looked, number == NULL ? NULL : flash);
    if (status != EE_OK) { return status; }
    if (page >= 2u * flash->pages || word >= flash->page_words) { return EE_WRONG_NUMBER; }
    const Word found = device_word(&looked.memory.parts.store.flash, page, word);
    if (looked.memory.parts.power.flash == NULL) { return EE_DRIVER; }
    if (found.tag == Word_Torn) { return EE_TORN; }
    *number = found.tag == Word_Held ? found.held : UINT64_MAX;
    return EE_OK;
}

ee_result ee_other_shape(const ee_flash *flash, uint32_t *pages, uint32_t *page_words) {
    ee_store looked;
    ee_result status = device_in(&looked, pages == NULL || page_words == NULL ? NULL : flash);
    if (status != EE_OK) { return status; }
    MaybeOtherShape found = { .some = false };
    if (EE_IS_CODED(flash)) { found = other_shape(&looked.memory.parts.store.flash); }
    status = told(found.some ? EE_OK : EE_NOTHING, &looked, found.value.pages, pages);
    if (status == EE_OK) { *page_words = found.value.words; }
    return status;
}
#endif

ee_result ee_write(ee_store *store, uint16_t address, uint32_t value) {
    const ee_result refused = begun(store, address);
    return refused != EE_OK ? refused : ended(store_write(store_of(store), address, value), store);
}

#ifndef EE_NO_LISTS
ee_result ee_write_all(ee_store *store, const ee_value *values, uint32_t count) {
    const ee_result refused = begun_with_list(store, values, count);
    return refused != EE_OK ? refused : ended(store_write_all(store_of(store), values, count), store);
}
#endif

#ifndef EE_NO_FORGET
ee_result ee_forget(ee_store *store, uint16_t address) {
    const ee_result refused = begun(store, address);
    return refused != EE_OK ? refused : ended(store_forget(store_of(store), address), store);
}

ee_result ee_forget_all(ee_store *store) {
    const ee_result refused = begun(store, 1u);
    return refused != EE_OK ? refused : ended(store_clear(store_of(store)), store);
}
#endif

ee_result ee_clean(ee_store *store) {
    const ee_result refused = begun(store, 1u);
    if (refused != EE_OK) { return refused; }
    return ended(store_clean_step(store_of(store)).value ? EE_OK : EE_NOTHING, store);
}

ee_result ee_read(const ee_store *store, uint16_t address, uint32_t *value) {
    const ee_result refused = begun_with(store, address, value);
    if (refused != EE_OK) { return refused; }
    const MaybeU32 found = store_read(&store->memory.parts.store, address).value;
    return told(found.some ? EE_OK : EE_NOTHING, store, found.value, value);
}

/* For how many addresses a look through the slots is made. */
#define EE_WANTED 32u

ee_result ee_load(const ee_store *store, ee_value *values, uint32_t count, uint32_t *loaded) {
    const ee_result refused = begun_with_list(store, loaded == NULL ? NULL : values, count);
    if (refused != EE_OK) { return refused; }
    uint32_t found = 0u;
    uint32_t some = 0u;
    for (uint32_t from = 0u; from < count && power_of(store)->flash != NULL; from += some) {
        Wanted wanted[EE_WANTED];
        ee_value *const here = &values[from];
        some = u32_least(count - from, EE_WANTED);
        for (uint32_t at = 0u; at < some; at++) { wanted[at] = (Wanted){ .address = here[at].address }; }
        (void)store_load(&store->memory.parts.store, wanted, some);
        for (uint32_t at = 0u; power_of(store)->flash != NULL && at < some; at++) {
            here[at].value = wanted[at].value.some ? wanted[at].value.value : here[at].value;
            found += wanted[at].value.some ? 1u : 0u;
        }
    }
    return told(EE_OK, store, found, loaded);
}

/* By an index it is of the first address alone, since another look takes no more there. */
ee_result ee_read_span(const ee_store *store, uint16_t first, uint32_t count, ee_span *span) {
    const ee_result refused = begun_with(store, count == 0u ? 0u : first, span);
    if (refused != EE_OK) { return refused; }
    const Store *const it = &store->memory.parts.store;
    const Layout *const layout = &it->known.layout;
    if (it->known.lookup != NULL && !it->known.lookup->is_given_up) {
        span_of_one(first, lookup_value_of(&it->known.lookup, &it->flash, layout, first), span);
    } else {
        read_span(&it->flash, layout, first, count, span);
    }
    return ended(EE_OK, store);
}

ee_result ee_next(const ee_store *store, uint16_t *address, uint32_t *value) {
    const uint16_t after = address == NULL ? 0u : *address;
    ee_result status = begun_with(store, after == 0u ? 1u : after, address == NULL ? NULL : value);
    if (status != EE_OK) { return status; }
    const MaybeLive found = store_next_live(&store->memory.parts.store, address_new(after));
    status = told(found.some ? EE_OK : EE_NOTHING, store, found.value.second, value);
    if (status == EE_OK) { *address = found.value.first; }
    return status;
}

ee_result ee_counts(const ee_store *store, ee_numbers *numbers) {
    ee_result status = begun_with(store, 1u, numbers);
    if (status != EE_OK) { return status; }
    const Store *const it = &store->memory.parts.store;
    ee_numbers found = { .slots = store_slots(it), .fill = store_fill(it),
            .generation = store_generation(it) };
    found.live = store_live_count(it);
    found.torn = store_torn_slots(it);
    found.pending = store_pending(it);
    status = ended(EE_OK, store);
    if (status == EE_OK) { *numbers = found; }
    return status;
}
