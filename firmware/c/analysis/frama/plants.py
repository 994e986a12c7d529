"""Undefined behaviour planted in ee.c, and what asks for a place that the flash hasn't. Name ->
what is replaced, a regular expression that fits one place; what is put there; what that is; the
analysis of by_frama that has to find it."""

PLANTS = {
    "slot-one-further": (
        r"\.second = HEADER_WORDS \+ used \};", ".second = HEADER_WORDS + used + 1u };",
        "a slot behind the page is programmed", "write-words-1x5"),
    "index-from-flash": (
        r"(const uint64_t next = list\.items\[at\];\n\s+list\.items\[)at(\] = carried;)",
        r"\1(uint16_t)number\2", "an index that a word of the flash says", "next-words-1x5"),
    "half-of-a-pair": (
        r"(numbers_read\(self, page, 2u \* at \+ )1u(\);)", r"\g<1>2u\2",
        "a number behind the page is read", "start-pairs-1x5"),
    "recursion": (
        r"(static bool is_torn\(Word word\) \{\n    return word\.tag == Word_Torn);",
        r"\1 || (word.tag == Word_Held && is_torn(word_torn()));",
        "a function calls itself", "start-words-1x5"),
    "no-null-of-erase": (
        r" \|\| flash->erase == NULL\) \{", r") {",
        "a function of the flash that is NULL is let in", "refused"),
    "no-shape": (
        r"words >= 5u && words <= 512u", "words >= 3u && words <= 512u",
        "pages of 3 words are let in", "refused"),
    "not-busy": (
        r"if \(power->idle != memory\) (\{\n        return power->idle)",
        r"if (power->idle != memory && power->idle != NULL) \1",
        "a call inside a call is let in", "off"),
    "shift-by-64": (
        r"return \(\(uint64_t\)value << 32u\) \| \(uint64_t\)address;",
        "return ((uint64_t)value << 64u) | (uint64_t)address;", "a shift by 64", "write-words-1x5"),
    "shift-of-32-bits": (
        r"return \(\(uint64_t\)value << 32u\) \| \(uint64_t\)address;",
        "return (value << 32u) | (uint64_t)address;",
        "a shift of 32 bits by 32", "write-words-1x5"),
    "shift-by-a-word": (
        r"(maybe_u32_some\(\(uint32_t\)\(number >> )32u\)\)", r"\1(number & 0x7Fu)))",
        "a shift by what a word of the flash says", "read-words-1x5"),
    "keeps-through": (
        r"while \(place > 0u && (address < address_in\(\*--last\)\) \{)", r"while (\1",
        "a loop without its lower end", "next-words-1x5"),
    "searches-through": (
        r"while \(left > 0u && (address_in\(\*--last\) != address\) \{)", r"while (\1",
        "a search without its lower end", "read-words-1x5"),
    "window-of-numbers": (
        r"(numbers_window\(nor, page, 2u \* at, )2u( \* room\.len\))", r"\g<1>4u\2",
        "twice the run is asked for", "read-pairs-1x5"),
    "divides": (
        r"(const uint32_t before = page \* \(shape\.words - HEADER_WORDS\))",
        r"\1 / (shape.words - 5u)", "a division by 0 where a page has 5 words", "look-words-1x5"),
    "header-behind-page": (
        r"(uint32_t span = span_of\(nearest, above\);[^{]*while \(at) < words", r"\1 <= words",
        "a run behind the page is asked for", "next-words-1x5"),
    "unread": (
        r"    \*number = 0u;\n(    if \(failed != EE_TORN\))", r"\1",
        "a number that the driver left unwritten is read", "read-words-1x5"),
    "off-unasked": (
        r"(static Word device_word\([^}]*?)    if \(flash == NULL\) \{ return word_torn\(\); \}\n",
        r"\1", "the flash of a store that is off is taken", "start-words-1x5"),
    "page-unasked": (
        r"flash != NULL && \(at != 0u \|\| page < 2u \* flash->pages\)", "flash != NULL",
        "a move goes on behind the last page", "write-words-1x5"),
    "list-one-too-far": (
        r"status == EE_OK && at < count; at\+\+", "status == EE_OK && at <= count; at++",
        "an entry behind the caller's list is read", "load-words-1x5"),
    "batch-unwritten": (
        r"made->numbers\[at\] = 1u;", "(void)at;",
        "a batch that was never written is read", "next-words-1x5"),
    "wraps": (
        r"return a > b \? a - b : 0u;", "return a - b;",
        "a difference below 0", "look-words-1x5"),
}
