"""Mistakes in ee.c that are no undefined behaviour. Name -> what is replaced, a regular expression
that fits one place; what is put there; what that is; the case of by_cbmc that has to find it."""

PLANTS = {
    "oldest-first": (
        r"(while \(left > 0u && address_in\([^;{]*\) != address\) \{\n        left -= 1u;\n    \}\n)",
        r"\1    for (uint32_t at = 0u; at < left; at++) {\n"
        r"        if (address_in(numbers.items[at]) == address) {\n            return at + 1u;\n"
        r"        }\n    }\n",
        "a read takes the oldest slot of an address", "read-words-1x6-0-2-nothing"),
    "torn-ends": (
        r"if \(ends > 0u\) (\{\n            const MaybeSaidValue maybe_said)", r"if (ends == count) \1",
        "a read sees the newest slot alone", "read-words-1x6-0-2-nothing"),
    "high-half": (
        r"maybe_u32_some\(\(uint32_t\)\(number >> 32u\)\)",
        "maybe_u32_some((uint32_t)(number >> 32u) & 0x7FFFFFFFu)",
        "one value in two loses its top bit", "read-words-1x5-0-1-nothing"),
    "commits-first": (
        r"(    if \(fill_set\([^;{]*\{\n[^}]*\}\n)(    if \(commit\([^}]*\}\n)", r"\2\1",
        "a move commits its set before that is filled", "write-words-1x5-0-1-steps"),
    "erases-live": (
        r"first_page\(flash, side_other\(layout->side\)\)(;\n[^}]*?erase_other\()",
        r"first_page(flash, layout->side)\1",
        "a move erases the live set", "forget_all-words-1x5-0-1-steps"),
    "no-full": (
        r"(return \w*live_count\([^;]*&self->layout\)) == slots;", r"\1 > slots;",
        "a full store takes one more address", "write-words-1x5-0-1-steps"),
    "spent-late": (
        r"(GREATEST_GENERATION UINT32_C)\(4294967294\)", r"\1(4294967295)",
        "a move to a generation that no set can name", "forget_all-words-1x5-0-1-steps"),
    "erased-not-asked": (
        r"return at < 3u( && number == expected)", r"return at < 2u\1",
        "an opening refuses a page that is marked valid", "opens-words-1x5-0-1-steps"),
    "equal-is-second": (
        r"if \(second < first\)( \{\n        return live_set_result_ok)", r"if (first < second)\1",
        "an opening takes the older of two sets", "opens-words-1x5-0-1-steps"),
    "read-goes-on": (
        r"(if \(failed != EE_TORN\)) \{ device->power->flash = NULL; \}", r"\1 { (void)device; }",
        "a read that failed isn't noted", "bad_words-words-1x5-0-1-reads"),
    "fill-goes-on": (
        r"(fill_unread\(items, \(uint32_t\)[^;]*;\n)            return;\n", r"\1",
        "words are read behind a read that failed", "count-words-1x5-1-1-reads"),
    "stays-on": (
        r"(\{ return DONE; \}\n)    device->power->flash = NULL;\n(    return CUT;)", r"\1\2",
        "a step that failed isn't noted", "write-words-1x5-0-0-steps"),
    "stays-on-page": (
        r"    layout->current = page;\n(    layout->fill \+= 1u;)", r"\1",
        "a write that begins a page leaves the one before as last", "write-words-2x5-0-1-steps"),
    "older-moves": (
        r"        batch_set\(self, through - 1u, number\);\n", r"",
        "a move takes the oldest slot of an address", "write-words-1x6-1-2-steps"),
    "half-compared": (
        r"\(\((u32_wrapping_add\(low, check_low\)) & u32_wrapping_add\(high, check_high\)\) == ",
        r"(\1 == ", "of a value and its complement the low halves alone are compared",
        "read-pairs-1x5-0-1-nothing"),
    "half-written": (
        r"return numbers_program\(self, page, 2u \* at \+ 1u, check\);", r"return DONE;",
        "a value is written without its complement", "write-pairs-1x5-0-1-programs"),
    "rescues-older": (
        r"first_generation < second_generation", r"first_generation > second_generation",
        "a rescue takes the older of two sets", "rescue-words-1x5-1-1-steps"),
    "loads-older": (
        r"(if \(maybe_said\.some)(\) \{\s+const MaybeU32 said_2)",
        r"\1 && !entries.items[at].value.some\2",
        "a load takes the value of an older page", "load-words-2x5-0-2-nothing"),
    "loads-unasked": (
        r"(here\[at\]\.value = )wanted\[at\]\.value\.some \? (wanted\[at\]\.value\.value) : [^;]*;",
        r"\1\2;", "a load writes over a default", "load-pairs-1x5-0-1-nothing"),
    "told-of-set": (
        r"found\.value\.page = first_page\(device, live\.value\.first\) \+ ", r"found.value.page = ",
        "the page of a foreign word is counted from its set's first",
        "foreign_word-words-1x5-nothing"),
    "low-untold": (
        r"(\{ found = )first_low\(device\)(; \})", r"\1(MaybeLowPair){ .some = false }\2",
        "a pair that no store wrote isn't told", "foreign_word-pairs-1x5-nothing"),
    "window-behind": (
        r"numbers_window\(device, page, at, len\)", r"numbers_window(device, page, at - 1u, len)",
        "several words at once are looked at a place before", "read-words-1x5-0-1-nothing-window"),
}
