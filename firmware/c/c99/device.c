/* ---- By hand: the device over the three functions of an `ee_flash`. It is on while the pointer to
 * its flash, which stands in the memory that the caller lends, isn't NULL. */

static bool device_is_on(const Device *device) { return device->power->flash != NULL; }

/* A step ended with this number: where it failed the device is off from here on. */
EE_IN_PLACE Step step_ended(const Device *device, uint32_t failed) {
    if (failed == 0u) { return DONE; }
    device->power->flash = NULL;
    return CUT;
}

/* Reads a word, or a number of one. Whether it can be read: else it is 0, and where the read itself
 * failed the device is off. */
EE_IN_PLACE bool is_read(const Device *device, const ee_flash *flash, uint32_t page, uint32_t at,
        uint64_t *number) {
    const uint32_t failed = flash->word(flash->context, page, at, number);
    if (failed == 0u) { return true; }
    *number = 0u;
    if (failed != EE_TORN) { device->power->flash = NULL; }
    return false;
}

/* The flash, while it is on and has this page; else NULL, and the device is off. The page is asked
 * for with a page's first place alone: slots and pages are looked through within the shape, and only
 * a move goes on from page to page, as far as words say that change from look to look. */
EE_IN_PLACE const ee_flash *flash_with(const Device *device, uint32_t page, uint32_t at) {
    const ee_flash *const flash = device->power->flash;
    if (flash != NULL && (at != 0u || page < 2u * flash->pages)) { return flash; }
    device->power->flash = NULL;
    return NULL;
}

/* A number of a flash of numbers. One that can't be read is 0: no word of a store is 0, so none is
 * made of it. No read follows one that failed. */
EE_APART uint64_t numbers_read(const Numbers *numbers, uint32_t page, uint32_t at) {
    const ee_flash *const flash = numbers->power->flash;
    uint64_t number;
    return flash != NULL && is_read(numbers, flash, page, at, &number) ? number : 0u;
}

/* So many words or numbers of a page from a place on, where C has them in memory; else no items. */
EE_IN_PLACE ListOfU64 numbers_window(const Numbers *numbers, uint32_t page, uint32_t at,
        uint32_t count) {
    const ee_flash *const flash = numbers->power->flash;
    const bool may_be = flash != NULL && flash->words != NULL;
    const uint64_t *const items = may_be ? flash->words(flash->context, page, at, count) : NULL;
    return (ListOfU64){ .items = items, .len = count };
}

/* `device_program` alone leads here, and sees before that the device is on and has the page. */
EE_IN_PLACE Step numbers_program(const Numbers *numbers, uint32_t page, uint32_t at, uint64_t number) {
    const ee_flash *const flash = numbers->power->flash;
    return step_ended(numbers, flash->program(flash->context, page, at, number));
}

/* The same of a flash of coded words. */
EE_IN_PLACE Step ecc_numbers_program(const EccNumbers *numbers, uint32_t page, uint32_t at,
        uint64_t number) {
    return numbers_program(numbers, page, at, number);
}

/* One that can't be read is none, and so is 0, which is no coded word either. */
EE_IN_PLACE MaybeU64 ecc_numbers_read(const EccNumbers *numbers, uint32_t page, uint32_t at) {
    const uint64_t number = numbers_read(numbers, page, at);
    return (MaybeU64){ .some = number != 0u, .value = number };
}

/* What a reading of a run says. Of words and of pairs it is the number of the word; of a device that
 * is off it counts for nothing. */
#ifdef EE_NO_CODED
#define device_number(device, reading) ((void)(device), (reading))
#define device_in_clear(device, reading) ((void)(device), (reading))
#else
EE_APART uint64_t device_number(const Device *device, uint64_t reading) {
    const ee_flash *const flash = device->power->flash;
    return flash != NULL && EE_IS_CODED(flash) ? coded_number(device, reading) : reading;
}

/* Which bits of a reading stand in clear: asked once for all of a run. */
EE_PURE uint64_t clear_bits(const Device *device) {
    const ee_flash *const flash = device->power->flash;
    return flash != NULL && EE_IS_CODED(flash) ? coded_in_clear(device, UINT64_MAX) : UINT64_MAX;
}

EE_IN_PLACE uint64_t device_in_clear(const Device *device, uint64_t reading) {
    return reading & clear_bits(device);
}
#endif

/* What a word holds. One that reads as all ones is erased, and one that can't be read is torn. So is
 * one of the number 0 where words are coded: no coded word has it. */
static Word device_word(const Device *device, uint32_t page, uint32_t at) {
    const ee_flash *const flash = flash_with(device, page, at);
    if (flash == NULL) { return word_torn(); }
    if (EE_IS_OF_PAIRS(flash)) { return pairs_word(device, page, at); }
    uint64_t number = 0u;
    if (!is_read(device, flash, page, at, &number)) { return word_torn(); }
    if (EE_IS_CODED(flash)) {
        number = device_number(device, number);
        if (number == 0u) { return word_torn(); }
    }
    return number == UINT64_MAX ? word_erased() : word_held(number);
}

/* Nothing is read any more, and what a run gives then counts for nothing: it is the same each time. */
EE_APART void fill_unread(uint64_t *items, uint32_t len) {
    for (uint32_t at = 0u; at < len; at++) { items[at] = UNREAD; }
}

/* Asks for each word of a run. No read follows one that failed. */
static void device_fill(const Device *device, const ee_flash *flash, uint32_t page, uint32_t at,
        uint64_t *items, uint32_t len) {
    for (uint64_t *const end = &items[len]; items != end; items++, at++) {
        if (!is_read(device, flash, page, at, items) && device->power->flash == NULL) {
            fill_unread(items, (uint32_t)(end - items));
            return;
        }
    }
}

/* Readings of the words from a place on, as many as there is room for: all ones of an erased word, 0
 * of one that can't be read. They stand in the room, or where C has them. */
EE_APART const uint64_t *run_at(const Device *device, uint32_t page, uint32_t at, uint64_t *items,
        uint32_t len) {
    const ee_flash *const flash = flash_with(device, page, at);
    if (flash == NULL) {
        fill_unread(items, len);
    } else if (EE_IS_OF_PAIRS(flash)) {
        pairs_run(device, page, at, items, len);
    } else {
        const uint64_t *const seen = numbers_window(device, page, at, len).items;
        if (seen != NULL) { return seen; }
        device_fill(device, flash, page, at, items, len);
    }
    return items;
}

/* The same as a list, which has the room's length: in place, so that no list goes through memory. */
EE_IN_PLACE ListOfU64 device_run(const Device *device, uint32_t page, uint32_t at, RoomOfU64 room) {
    return (ListOfU64){ .items = run_at(device, page, at, room.items, room.len), .len = room.len };
}

static Step device_program(Device *device, uint32_t page, uint32_t at, uint64_t value) {
    const ee_flash *const flash = flash_with(device, page, 0u);
    if (flash == NULL) { return CUT; }
    if (EE_IS_CODED(flash)) { return coded_program(device, page, at, value); }
    return EE_IS_OF_PAIRS(flash) ? pairs_program(device, page, at, value)
            : numbers_program(device, page, at, value);
}

/* A page is erased the same whatever it has. */
static Step device_erase(const Device *device, uint32_t page) {
    const ee_flash *const flash = flash_with(device, page, 0u);
    return flash == NULL ? CUT : step_ended(device, flash->erase(flash->context, page));
}
