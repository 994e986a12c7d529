"""What bench/test tries of dumps: bytes and Intel HEX of random parts, of words, pairs and coded
words, written by `ee` and by this file, read by `ee`, by this file and by objcopy where there is
one; pairs and coded words that a cut left, and others; dumps read as another kind; broken lines; and
a HEX text as long as may be read, with its time. Coded words are those of docs/coded.py."""
import random
import re
import subprocess
import time
from collections import namedtuple
from itertools import product

from docs import coded
from tools import trying, worked

# The sizes that are tried: the least, one page of 2 KiB, and the greatest.
PAGES, WORDS = 64, 512
SIZES = [(1, 5), (1, 6), (2, 7), (1, 256), (PAGES, WORDS)]
BASES = [0, 8, 0xFFF8, 0x10000, 0x0807F000]
ALL_ONES = b"\xff" * 8
MARK = 0xAAAAAAAAAAAAAAAA
MOST_NUMBER = (1 << 64) - 1
# The most bytes that are read of a file, and the seconds that this may take.
MOST_BYTES = 1 << 24
MOST_SECONDS = 4
MUTATIONS = 300


def expect(place, words, wanted):
    """Runs a command, which is to end with this status and to print this."""
    trying.expect(wanted, place.told(words), words)


def tells_shape(number, at):
    """Whether a word at this place of its page tells that another shape wrote it: an element or a
    forgetting in a header, but for what a cut receive word may be, or a mark in a slot."""
    if at > 3:
        return number == MARK
    may_be_cut = at == 0 and all(number >> 32 >> bit & 1 for bit in range(1, 32, 2))
    return number >> 17 & 0x7FFF == 0 and 0 < number & 0xFFFF < 0xFFFF and not may_be_cut


def is_stores(number):
    """Whether a store may write this number: a slot's or a header's."""
    return number >> 17 & 0x7FFF == 0 and number & 0xFFFF or number >> 32 == 0xAAAAAAAA


def random_dump(chance, pages, words, anywhere=False, stores=False):
    """The bytes of a part: words with bytes of every kind, and erased ones. Only with `anywhere`
    they may tell another shape; with `stores` all numbers are a store's."""

    def word(at):
        while True:
            kinds = [ALL_ONES, chance.randbytes(8), bytes([chance.randrange(256)]) * 8]
            if stores:
                slot = chance.randbytes(2) + bytes([chance.randrange(2), 0]) + chance.randbytes(4)
                kinds = [ALL_ONES, slot, chance.randbytes(4) + b"\xaa" * 4, b"\xaa" * 8]
            if anywhere and chance.randrange(12) == 0:
                kinds = [MARK.to_bytes(8, "little"), b"\x05\x00\x01\x00" + chance.randbytes(4)]
            drawn = chance.choice(kinds)
            number = int.from_bytes(drawn, "little")
            if stores and drawn != ALL_ONES and not is_stores(number):
                continue
            if anywhere or not tells_shape(number, at):
                return drawn

    return b"".join(word(at % words) for at in range(2 * pages * words))


def plain(dump, pages, words):
    """The bytes of a part that has these words as they are."""
    return bytes(dump)


def paired(dump, pages, words):
    """The bytes of a part without ECC that has these words: each number and its complement, or all
    ones."""
    numbers = (dump[at : at + 8] for at in range(0, len(dump), 8))
    return b"".join(
        2 * ALL_ONES if number == ALL_ONES else number + bytes(255 - byte for byte in number)
        for number in numbers
    )


def encoded(dump, pages, words):
    """The bytes of a part of coded words that has these words, each a number of a store or all
    ones."""
    numbers = (dump[at : at + 8] for at in range(0, len(dump), 8))
    return b"".join(
        number
        if number == ALL_ONES
        else coded.written(int.from_bytes(number, "little"), pages, words).to_bytes(8, "little")
        for number in numbers
    )


def image_text(texts, pages, words):
    """The image of words with these texts, whose pages were never erased."""
    rows = [["0", *texts[at : at + words]] for at in range(0, 2 * pages * words, words)]
    return worked.image_of(pages, words, rows)


def image_of(dump, pages, words):
    """The image of these bytes."""
    word = lambda at: "-" if dump[at : at + 8] == ALL_ONES else dump[at : at + 8][::-1].hex()
    return image_text([word(at) for at in range(0, len(dump), 8)], pages, words)


def image_of_pairs(dump, pages, words):
    """The image of these bytes of a part without ECC, or the page and the place of the first two
    numbers that are too low."""
    texts = []
    for at in range(0, len(dump), 16):
        number, other = (int.from_bytes(dump[it : it + 8], "little") for it in (at, at + 8))
        if number + other < MOST_NUMBER:
            return "pair", *divmod(at // 16, words)
        whole = number + other == MOST_NUMBER and number != MOST_NUMBER
        texts.append("-" if number == other == MOST_NUMBER else f"{number:016x}" if whole else "?")
    return image_text(texts, pages, words)


def image_of_codes(dump, pages, words):
    """The image of these bytes of a part of coded words."""
    texts = []
    for at in range(0, len(dump), 8):
        number = int.from_bytes(dump[at : at + 8], "little")
        found = coded.read(number, pages, words)
        texts.append("-" if number == MOST_NUMBER else "?" if found is None else f"{found:016x}")
    return image_text(texts, pages, words)


# A form of a dump: what stands behind the commands' names, the bytes of a part with these words,
# the image of such bytes, how many a word has, and whether it has codes for a store's numbers alone.
Form = namedtuple("Form", "flag written read size stores")
FORMS = [
    Form("", plain, image_of, 8, False),
    Form(" --pairs", paired, image_of_pairs, 16, False),
    Form(" --coded", encoded, image_of_codes, 8, True),
]


def kind_in(half):
    """What the mark of a set tells, if it has one: the flag and the words of the line."""
    first, second, third = (int.from_bytes(half[at : at + 8], "little") for at in (8, 16, 24))
    if first == MARK:
        return "", "words"
    if second == MARK and third == MOST_NUMBER - MARK:
        return " --pairs", "pairs"
    pages, words = first >> 48, first >> 32 & 0xFFFF
    if 1 <= pages <= PAGES and 5 <= words <= WORDS and first == coded.word_of(first >> 32, 1 << 16):
        return " --coded", f"coded words {pages} {words}"
    return None


def other_kind(flag, dump, pages, words):
    """What the first set whose mark is of another kind than a part of this form and shape tells."""
    asked = f"coded words {pages} {words}"
    for half in (dump[: len(dump) // 2], dump[len(dump) // 2 :]):
        told = kind_in(half)
        if told and (told[0] != flag or flag == " --coded" and told[1] != asked):
            return told[1]
    return None


def found_in(flag, read, dump, pages, words):
    """What an import finds in these bytes: another kind, a word that is wrong, or an image."""
    return other_kind(flag, dump, pages, words) or judged(read(dump, pages, words))


def judged(found):
    """What was found, or the first word of an image that tells another shape."""
    if not isinstance(found, bytes):
        return found
    for page, line in enumerate(found.decode().splitlines()[1:]):
        for at, text in enumerate(line.split()[1:]):
            if text not in "-?" and tells_shape(int(text, 16), at):
                return "shape", page, at
    return found


def told_of(found):
    """What an import says where this was found: an image, a bad line, another kind, or what is wrong
    with a word of this page and place."""
    if isinstance(found, bytes):
        return 0, "imported\n"
    if isinstance(found, str):
        return 3, f"ee: dump of {found}\n"
    wrong = "line {}".format(found) if isinstance(found, int) else "{} {} {}".format(*found)
    return 3, f"ee: dump {wrong}\n"


def record(address, kind, data):
    body = bytes([len(data), address >> 8, address & 255, kind]) + data
    return b":" + (body + bytes([-sum(body) & 255])).hex().upper().encode() + b"\n"


def hex_of(dump, base, row=16):
    """An Intel HEX text of these bytes."""
    parts, upper, at = [], None, 0
    while at < len(dump):
        place = base + at
        if place >> 16 != upper:
            upper = place >> 16
            parts.append(record(0, 4, upper.to_bytes(2, "big")))
        count = min(row, 0x10000 - (place & 0xFFFF), len(dump) - at)
        parts.append(record(place & 0xFFFF, 0, dump[at : at + count]))
        at += count
    return b"".join(parts) + record(0, 1, b"")


def sparse_of(dump, base, size):
    """A text of the words of these bytes that aren't erased, in runs."""
    end, parts, run = record(0, 1, b""), [], b""
    for at in range(0, len(dump) + size, size):
        word = dump[at : at + size]
        if word.strip(b"\xff"):
            run += word
        else:
            parts.append(hex_of(run, base + at - len(run)).removesuffix(end))
            run = b""
    return b"".join(parts) + end


def record_of(line):
    """The address, the type and the data of a line, if it is a record's."""
    if not re.fullmatch(rb":(?:[0-9a-fA-F]{2}){5,}\r?", line):
        return None
    body = bytes.fromhex(line[1:].strip().decode())
    address, kind, data = body[1] << 8 | body[2], body[3], body[4:-1]
    length = {1: 0, 2: 2, 3: 4, 4: 2, 5: 4}.get(kind, body[0] if kind == 0 else None)
    is_whole = len(data) == body[0] == length and not sum(body) & 255
    return (address, kind, data) if is_whole and (kind or address + length <= 0x10000) else None


def read_hex(text, base, size):
    """The bytes that a text says of a part, or the number of its first bad line."""
    lines, upper, said = text.split(b"\n"), 0, {}
    for number, line in enumerate(lines[:-1], 1):
        found = record_of(line)
        if not found:
            return number
        address, kind, data = found
        if kind == 1 and lines[number:] != [b""]:
            return number + 1
        if kind == 1:
            return bytes(said.get(base + at, 255) for at in range(size))
        if kind in (2, 4):
            upper = int.from_bytes(data, "big") << (4 if kind == 2 else 16)
        elif kind == 0:
            for place, byte in enumerate(data, upper + address):
                if base <= place < base + size and said.setdefault(place, byte) != byte:
                    return number
    return len(lines)


def part_of(chance, form, pages, words):
    """The bytes of a random part of this form, of which no mark tells another kind."""
    while True:
        dump = random_dump(chance, pages, words, False, form.stores)
        dump = form.written(dump, pages, words)
        if not other_kind(form.flag, dump, pages, words):
            return dump


def bytes_and_texts(place):
    """A part and its image, its bytes and its text are each other's."""
    chance = random.Random(1)
    for form, (pages, words) in product(FORMS, SIZES):
        flag, size, dump = form.flag, form.size, part_of(chance, form, pages, words)
        image = form.read(dump, pages, words)
        place.put("image", image)
        expect(place, f"export{flag} image dump", (0, "exported\n"))
        place.same("dump", dump, f"export{flag} {pages} {words}")
        expect(place, f"import{flag} {pages} {words} dump again", (0, "imported\n"))
        place.same("again", image, f"import{flag} {pages} {words}")
        for base in BASES:
            for fill, text in ("", sparse_of(dump, base, size)), (" --fill", hex_of(dump, base)):
                line = f"export-hex{flag}{fill} image {base:08x} hex{fill.strip()}"
                expect(place, line, (0, "exported\n"))
                place.same(f"hex{fill.strip()}", text, f"{line}, {pages} {words}")
            rows = chance.choice([1, 7, 32, 255] if words < WORDS else [32, 255])
            place.put("rows", hex_of(dump, base, rows))
            for name in ("hex", "hex--fill", "rows"):
                line = f"import-hex{flag} {pages} {words} {base:08X} {name} again"
                expect(place, line, (0, "imported\n"))
                place.same("again", image, f"import-hex{flag} {pages} {words} {base:x} of {name}")


def objcopy(place):
    """What objcopy writes is read, and it reads what is written."""
    chance, base = random.Random(2), 0x0807F000
    copy = lambda *words: subprocess.run(["objcopy", *words], cwd=place.folder, check=True)
    for form, (pages, words) in product(FORMS, SIZES):
        flag, dump = form.flag, part_of(chance, form, pages, words)
        place.put("image", form.read(dump, pages, words))
        expect(place, f"export{flag} image dump", (0, "exported\n"))
        copy("-I", "binary", "-O", "ihex", "--change-addresses", hex(base), "dump", "theirs")
        line = f"import-hex{flag} {pages} {words} {base:08x} theirs again"
        expect(place, line, (0, "imported\n"))
        place.same("again", place.get("image"), f"objcopy's HEX{flag}, {pages} {words}")
        expect(place, f"export-hex{flag} --fill image {base:08x} ours", (0, "exported\n"))
        copy("-I", "ihex", "-O", "binary", "ours", "back")
        place.same("back", dump, f"what objcopy reads{flag}, {pages} {words}")


def changed(chance, line):
    """A line with one thing about it changed."""
    at = chance.randrange(len(line))
    address, kind, data = record_of(line.rstrip()) or (0, 0, b"")
    records = [
        (address ^ 16, kind, data),
        (address, chance.randrange(7), data),
        (address, kind, data + b"\x01"),
        (address, kind, data[::-1]),
    ]
    letter = bytes([chance.choice(b"0123456789ABCDEF:\n\r x")])
    others = [line.rstrip() + b"\r\n", line.swapcase(), line[:at] + letter + line[at + 1 :]]
    return chance.choice([*others, record(*chance.choice(records))])


def mutated(chance, text):
    """A text with one thing about it changed."""
    lines = text.splitlines(True)
    at = chance.randrange(len(lines))
    how = chance.randrange(7)
    if how == 0:
        return text[: chance.randrange(len(text))]
    if how == 1:
        del lines[at]
    elif how == 2:
        lines.insert(at, chance.choice(lines))
    else:
        lines[at] = changed(chance, lines[at])
    return b"".join(lines)


def broken_texts(place):
    """Changed texts are read as this file reads them, or have the bad line that it finds."""
    chance, base = random.Random(3), 0xFFD0
    for (flag, written, read, _, stores), number in product(FORMS, range(MUTATIONS)):
        dump = written(random_dump(chance, 1, 6, chance.randrange(3) == 0, stores), 1, 6)
        text = hex_of(dump, base, chance.choice([5, 16, 32]))
        for _ in range(chance.randrange(1, 3)):
            text = mutated(chance, text) or b"\n"
        place.put("hex", text)
        found = read_hex(text, base, len(dump))
        if isinstance(found, bytes):
            found = found_in(flag, read, found, 1, 6)
        expect(place, f"import-hex{flag} 1 6 {base:08x} hex image", told_of(found))
        if isinstance(found, bytes):
            place.same("image", found, f"text{flag} {number}")


def damaged(chance, dump):
    """Pairs with bits that a cut may leave there, and in every second part with some taken away, as
    none does."""
    takes, cuts, pairs = chance.randrange(2), chance.choice([3, 60]), []
    for at in range(0, len(dump), 16):
        bits = int.from_bytes(dump[at : at + 16], "little")
        if chance.randrange(cuts) == 0:
            bits |= chance.choice([chance.getrandbits(128), MOST_NUMBER, MOST_NUMBER << 64])
        if takes and chance.randrange(6) == 0:
            bits &= chance.getrandbits(128)
        pairs.append(bits.to_bytes(16, "little"))
    return b"".join(pairs)


def told_of_torn(image):
    """What an export says of an image: its first torn word, if it has one."""
    for page, line in enumerate(image.split(b"\n")[1:]):
        if b"?" in line:
            return 4, f"ee: torn word {page} {line.split().index(b'?') - 1}\n"
    return 0, "exported\n"


def damaged_pairs(place):
    """Pairs that a cut left are imported as torn words, which have no dump; the first that is too
    low is named, and a length goes before it."""
    chance, base = random.Random(5), 0xFF40
    for number in range(MUTATIONS):
        pages, words = chance.choice(SIZES[:3])
        dump = random_dump(chance, pages, words, number % 4 == 0)
        dump = damaged(chance, paired(dump, pages, words))
        found = found_in(" --pairs", image_of_pairs, dump, pages, words)
        place.put("dump", dump)
        place.put("hex", hex_of(dump, base))
        expect(place, f"import --pairs {pages} {words} dump image", told_of(found))
        expect(place, f"import-hex --pairs {pages} {words} {base:08x} hex again", told_of(found))
        if isinstance(found, bytes):
            for name in ("image", "again"):
                place.same(name, found, f"pairs {number}")
            expect(place, "export --pairs image back", told_of_torn(found))
            expect(place, f"export-hex --pairs image {base:08x} back", told_of_torn(found))
        place.put("dump", chance.choice([dump[:-1], dump + dump[-1:], dump[: len(dump) // 2], b""]))
        expect(place, f"import --pairs {pages} {words} dump image", (3, "ee: dump length\n"))


def damaged_codes(place):
    """Coded words with some bits turned are imported as torn words, or as what they are."""
    chance = random.Random(6)
    for number in range(MUTATIONS):
        pages, words = chance.choice(SIZES[:3])
        dump = random_dump(chance, pages, words, number % 4 == 0, True)
        dump = bytearray(encoded(dump, pages, words))
        for _ in range(chance.randrange(4)):
            dump[chance.randrange(len(dump))] ^= 1 << chance.randrange(8)
        found = found_in(" --coded", image_of_codes, dump, pages, words)
        place.put("dump", dump)
        expect(place, f"import --coded {pages} {words} dump image", told_of(found))
        if isinstance(found, bytes):
            place.same("image", found, f"coded words {number}")
            expect(place, "export --coded image back", told_of_torn(found))


def other_kinds(place):
    """A dump with a mark is read as no other kind, and as coded words in no other shape."""
    chance = random.Random(7)
    for wrote, asked in product(FORMS, FORMS):
        for (pages, words), (others, many) in product(SIZES[:4], SIZES[:4]):
            dump = bytearray(random_dump(chance, pages, words, False, True))
            half = chance.randrange(2) * pages * words * 8
            dump[half + 8 : half + 16] = b"\xaa" * 8
            dump = wrote.written(dump, pages, words)
            if len(dump) != 2 * asked.size * others * many:
                continue
            found = found_in(asked.flag, asked.read, dump, others, many)
            place.put("dump", dump)
            expect(place, f"import{asked.flag} {others} {many} dump image", told_of(found))
            differs = wrote != asked or wrote.stores and (pages, words) != (others, many)
            trying.expect(differs, isinstance(found, str), f"{wrote.flag} as{asked.flag}")


def greatest_texts(place):
    for form in FORMS:
        greatest_text(place, form)


def greatest_text(place, form):
    """A text as long as may be read says the greatest part over and over; one that is longer isn't
    read."""
    dump = part_of(random.Random(4), form, PAGES, WORDS)
    rows = hex_of(dump, 0)
    end = record(0, 1, b"")
    rows = rows.removesuffix(end)
    text = rows * ((MOST_BYTES - len(end)) // len(rows)) + end
    # Lines that say nothing fill it up.
    nothing = record(0, 0, b"")
    text = nothing * ((MOST_BYTES - len(text)) // len(nothing)) + text
    place.put("hex", text)
    began = time.monotonic()
    line = f"import-hex{form.flag} {PAGES} {WORDS} 00000000 hex"
    expect(place, f"{line} image", (0, "imported\n"))
    seconds = time.monotonic() - began
    print(f"import-hex{form.flag} of {len(text)} bytes took {seconds:.2f} seconds", flush=True)
    place.same("image", form.read(dump, PAGES, WORDS), f"the greatest text{form.flag}")
    if seconds > MOST_SECONDS:
        raise trying.Wrong(f"the greatest text{form.flag} took {seconds:.2f} seconds")
    place.put("hex", text + b" " * (MOST_BYTES + 1 - len(text)))
    expect(place, f"{line} never", (3, "ee: dump too long\n"))


def checks(program, folder, tally):
    """Makes each check in a folder of its own. Gives its name and what was found, if anything."""
    tried = [
        (bytes_and_texts,),
        (broken_texts,),
        (damaged_pairs,),
        (damaged_codes,),
        (other_kinds,),
        (greatest_texts,),
    ]
    if not tally.lacks("HEX by objcopy", ["objcopy"], "apt-get install binutils"):
        tried.append((objcopy,))
    return trying.faults(tried, lambda: trying.Place(program, folder))
