"""The cases of bench/test: the worked examples, texts at the limits, and random cases."""
import os
import random
import re
import sys
from collections import namedtuple

sys.path.insert(0, os.path.dirname(os.path.dirname(os.path.abspath(__file__))))
from tools import worked  # noqa: E402

# Scripts that are answered one after another, each on the image that the one before it left.
Case = namedtuple("Case", "name image scripts")

MARK = "a" * 16
LAST_GENERATION = 4294967294
MOST_WEAR = 2**64 - 1
IMAGE_BYTES = 4194304
SCRIPT_BYTES = 16777216
# Numbers at some limit.
LIMITS = [
    0,
    1,
    4,
    5,
    6,
    64,
    65,
    512,
    513,
    *range(65534, 65538),
    2**32 - 1,
    2**32,
    2**64 - 1,
    2**64,
]
LIMITS += [10**19, 10**20, 10**40]


def script_text(*lines):
    return "".join(line + "\n" for line in lines).encode()


def values_script():
    """Writes the values 0 to 99999 and the greatest at one address, and reads each."""
    return script_text(*(f"w 1 {value}\nr 1" for value in [*range(100000), 2**32 - 1]))


def full_script(slots):
    """Fills as many slots with a variable each, and moves them all two times."""
    lines = (f"w {address} {2**32 - 1 - address}" for address in range(1, slots + 1))
    return script_text(*lines, "w 1 0", f"w 2 {2**32 - 1}")


# A new part.
SIX = worked.formatted(1, 6)


def limits():
    """Texts as long as they may be, and a byte longer; long texts with nothing in them; every value
    up to a hundred thousand, and the greatest image full."""
    reads, too_long = b"r 1\n" * (SCRIPT_BYTES // 4), SIX + bytes(IMAGE_BYTES + 1 - len(SIX))
    return [
        Case("each value", worked.formatted(1, 512), [values_script()]),
        Case("the greatest image", worked.formatted(64, 512), [full_script(64 * 508)]),
        Case("no line end", SIX, [b"w 1 1"]),
        Case("the longest script", SIX, [reads]),
        Case("a script too long", SIX, [reads + b"\n"]),
        Case("zeros for a script", SIX, [bytes(SCRIPT_BYTES)]),
        Case("line feeds for a script", SIX, [b"\n" * SCRIPT_BYTES]),
        Case("zeros for an image", bytes(IMAGE_BYTES), [b""]),
        Case("an image too long", too_long, [b""]),
        Case("a long first line", b"ee 1 " + b"6" * (IMAGE_BYTES - 6) + b"\n", [b""]),
    ]


def examples():
    """The worked examples, and the limits."""
    runs = worked.runs()
    return [Case(run.name, worked.text_of(run.start), [run.script]) for run in runs] + limits()


def random_size(dice):
    kind = dice.random()
    if kind < 0.001:
        return 64, 512
    if kind < 0.03:
        return dice.choice([(1, 512), (64, 5), (3, 100), (1, 300), (20, 8), (2, 512)])
    return dice.randrange(1, 5), dice.randrange(5, 14)


def random_addresses(dice, slots):
    """The addresses that a case is about: fewer than there are slots, as many, or some more."""
    count = dice.choice([1, 2, max(1, slots // 2), max(1, slots - 1), slots, slots + 2])
    if dice.random() < 0.7:
        return list(range(1, count + 1))
    return dice.sample(range(1, 65535), count) + dice.sample([1, 64, 65, 128, 256, 65533, 65534], 2)


def random_value(dice):
    return dice.choice([0, 1, 4294967295, dice.randrange(2**32), dice.randrange(1000)])


def random_wear(dice):
    return dice.choice([0, 0, 1, 2, dice.randrange(2**64), MOST_WEAR - 1, MOST_WEAR])


def odd_word(dice):
    """A word that stands in few places, or in none; seldom one that no image may have."""
    value, address = random_value(dice), dice.randrange(65536)
    lows = ["00000000", "0000ffff", f"0001{address:04x}", f"0002{address:04x}"]
    fixed = [*"-?-?", MARK, "0" * 16, "f" * 15 + dice.choice("0eeeef")]
    drawn = [f"aaaaaaaa{dice.randrange(2 ** 32):08x}", f"{dice.randrange(MOST_WEAR):016x}"]
    return dice.choice([*fixed, *drawn, *(f"{value:08x}{low}" for low in lows)])


def random_slots(dice, count, addresses):
    words = []
    for _ in range(count):
        kind = dice.random()
        word = f"{random_value(dice):08x}{int(kind < 0.2):04x}{dice.choice(addresses):04x}"
        words.append("?" if kind < 0.05 else word)
    return words


def written_set(dice, pages, words, generation, addresses):
    """The pages of a set as lists of words, so many of its slots used; marks may be left to set."""
    per_page = words - 4
    slots = pages * per_page
    fill = dice.choice([0, slots, dice.randrange(slots + 1), max(0, slots - dice.randrange(4))])
    row = random_slots(dice, fill, addresses) + ["-"] * (slots - fill)
    receive = f"aaaaaaaa{generation:08x}"
    result = []
    for page in range(pages):
        header = [*(dice.choice(["-", "?", mark]) for mark in (receive, MARK, MARK)), "-"]
        if page == 0:
            header[:2] = [receive, MARK]
        elif page * per_page > fill or (page * per_page == fill and dice.random() < 0.7):
            header = ["-"] * 4
        result.append(header + row[page * per_page :][:per_page])
    return result


def other_set(dice, pages, words, generation, addresses):
    """The pages of the set that isn't live: blank, left, being filled, or anything."""
    kind = dice.random()
    if kind < 0.3:
        return [["-"] * words for _ in range(pages)]
    if kind < 0.6:
        result = written_set(dice, pages, words, max(1, generation - 1), addresses)
        erasing = dice.choice(["-", "?", MARK])
        result = [page[:3] + [erasing] + page[4:] for page in result]
    elif kind < 0.8:
        result = written_set(dice, pages, words, min(generation + 1, LAST_GENERATION), addresses)
        result[0][1] = dice.choice("-?")
    else:
        result = [[odd_word(dice) for _ in range(words)] for _ in range(pages)]
    for page, row in enumerate(result):
        fate = dice.random()
        if fate < 0.2:
            result[page] = ["-"] * words
        elif fate < 0.35:
            result[page] = [dice.choice([word, "-", "?"]) for word in row]
    return result


def random_image(dice, pages, words, addresses):
    kind = dice.random()
    generation = dice.randrange(1, 9)
    if kind < 0.15:
        generation = LAST_GENERATION - dice.randrange(4)
    elif kind < 0.2:
        generation = dice.randrange(1, LAST_GENERATION + 1)
    sets = [drawn(dice, pages, words, generation, addresses) for drawn in (written_set, other_set)]
    if dice.random() < 0.5:
        sets.reverse()
    rows = sets[0] + sets[1]
    if dice.random() < 0.08:
        row = dice.choice(rows)
        written = [at for at, word in enumerate(row) if word != "-"]
        row[dice.choice(written or range(words))] = odd_word(dice)
    return worked.image_of(pages, words, [[str(random_wear(dice)), *row] for row in rows])


def random_command(dice, kind, addresses):
    address = dice.choice(addresses) if dice.random() < 0.97 else dice.randrange(1, 65535)
    if kind == "w":
        return f"w {address} {random_value(dice)}"
    if kind in "fr":
        return f"{kind} {address}"
    if kind == "x":
        drawn = [dice.randrange(1, 13), dice.randrange(1, 41), dice.choice([10, 2**64 - 1])]
        return f"x {dice.choice([1, 1, 2, 3, *drawn])} {dice.choice('ndtm')}"
    return kind


def drawn_kinds(dice, kinds, weights, count):
    """So many kinds of lines, each as often as its weight says."""
    weights = list(map(int, weights.split()))
    return dice.choices(kinds[: len(weights)], weights, k=count)


def random_script(dice, addresses):
    """Mostly changes; with cuts or without."""
    weights = dice.choice(
        ["60 10 20 10", "50 12 10 8 12 8", "40 10 6 14 15 15", "25 25 20 10 10 10"]
    )
    count = dice.choice([0, 1, 2, 5, 10, 10, 30, 30, 80, 200])
    kinds = drawn_kinds(dice, "wfrcxp", weights, count)
    return script_text(*(random_command(dice, kind, addresses) for kind in kinds))


def change_bytes(dice, text):
    """The text with a few bytes changed, deleted or inserted."""
    for _ in range(dice.choice([1, 1, 1, 2, 3])):
        at = dice.randrange(len(text) + 1)
        byte = bytes([dice.choice(b"0123456789abcdef -?\n\r\t\0AFgwrfcxp\xff")])
        if dice.random() < 0.1:
            byte = bytes([dice.randrange(256)])
        text = text[:at] + dice.choice([byte + text[at + 1 :], text[at + 1 :], byte + text[at:]])
    return text


def change_number(dice, text):
    """The text with a number replaced: one at a limit, or one that isn't spelled so."""
    places = list(re.finditer(rb"(?<![0-9a-f])[0-9]+(?![0-9a-f])", text))
    if not places:
        return text
    place = dice.choice(places)
    number = dice.choice(LIMITS)
    others = ["", "+1", "-1", "00", "1.0", "0x1", "0" + place[0].decode()]
    spelled = dice.choice([str(number), str(number), *others])
    return text[: place.start()] + spelled.encode() + text[place.end() :]


def change_lines(dice, text):
    """The text with a line twice, left out, or in another's place."""
    lines = text.splitlines(keepends=True)
    if not lines:
        return b"\n"
    at, to = dice.randrange(len(lines)), dice.randrange(len(lines))
    kind = dice.randrange(3)
    if kind == 0:
        lines.insert(to, lines[at])
    elif kind == 1:
        del lines[at]
    else:
        lines[at], lines[to] = lines[to], lines[at]
    return b"".join(lines)


def lengthen(dice, text):
    """The text with one byte many times over, somewhere."""
    at = dice.randrange(len(text) + 1)
    byte = dice.choice([b"0", b"1", b"9", b" ", b"-", b"?", b" -", b"a", b"\n", b"\0"])
    return text[:at] + byte * dice.choice([20, 30, 300, 70000, 200000]) + text[at:]


def spell_elsewhere(dice, text):
    """The text as another system would have it."""
    replaced = [(b"\n", b"\r\n"), (b"\n", b"\r"), (b" ", b"\t")]
    others = [b"\xef\xbb\xbf" + text, text.decode("latin-1").encode("utf-16"), text + b"\x1a"]
    return dice.choice([*(text.replace(*change) for change in replaced), *others])


# How a text is damaged: each up to this share of all.
DAMAGES = [
    (0.5, change_bytes),
    (0.65, change_number),
    (0.75, lambda dice, text: text[: dice.randrange(len(text) + 1)]),
    (0.85, change_lines),
    (0.92, spell_elsewhere),
    (0.98, lengthen),
]


def damaged(dice, text):
    kind = dice.random()
    for most, change in DAMAGES:
        if kind < most:
            return change(dice, text)
    return dice.randbytes(dice.choice([1, 10, 100, 5000]))


def spread_addresses(dice, count):
    """So many addresses: side by side, each alone among 256, in groups, or anywhere."""
    kind = dice.randrange(4)
    if kind == 0:
        first = dice.randrange(1, 65535 - count)
        return list(range(first, first + count))
    if kind == 1 and count <= 255:
        return [256 * row + dice.randrange(1, 255) for row in dice.sample(range(255), count)]
    if kind == 2:
        rows = dice.sample(range(256), min(256, max(1, count // 10)))
        among = [it for row in rows for it in range(256 * row, 256 * row + 256) if 0 < it < 65535]
        return dice.sample(among, count)
    return dice.sample(range(1, 65535), count)


def long_script(dice, addresses, lines):
    """Many lines, some addresses more often than others; with no cut, or with cuts that come early,
    late, or in the midst alone."""
    weights = dice.choice(["90 10", "50 45 5", "5 95", "45 10 45", "30 60 5 5"])
    often = dice.sample(addresses, max(1, len(addresses) // 16))
    among = [dice.choice([addresses, often]) for _ in range(7)]
    apart = dice.choice([0, 0, 25, 60, 300])
    near = dice.choice([10, 60, 400])
    cuts = range(lines // 3, 2 * lines // 3) if dice.random() < 0.4 else range(lines)
    script = []
    for line, kind in enumerate(drawn_kinds(dice, "wrfc", weights, lines)):
        if apart and line in cuts and line % apart == apart - 1:
            cut = [f"x {dice.randrange(1, near)} {dice.choice('ndtm')}", "p"]
            script += cut if dice.random() < 0.7 else cut[::-1]
        script.append(random_command(dice, kind, dice.choice(among)))
    return script_text(*script, *dice.choice([[], ["p"]]))


def reads_of_the_newest(dice, addresses):
    """A line that writes an address and many that read it, which a store without an index finds at
    once."""
    address, count = dice.choice(addresses), dice.choice([100, 400, 2000])
    return script_text(f"w {address} {random_value(dice)}", *[f"r {address}"] * count)


def choosing_script(dice, addresses):
    """A script in which an index may be made, given back and made again."""
    parts = []
    for _ in range(dice.choice([1, 1, 2, 3])):
        parts.append(long_script(dice, addresses, dice.choice([50, 400, 1500, 4000])))
        parts += dice.choice([[], [reads_of_the_newest(dice, addresses)]])
    return b"".join(parts)


def choosing_case(seed, number):
    """Case `number` of a seed in which `ee run` has reason to make an index, or hardly none, and to
    give it back: about as many live addresses as are counted sooner by one, sets that are full of
    them or hardly used, and scripts on both sides of when looking has cost enough."""
    dice = random.Random(f"{seed} choosing {number}")
    shapes = [(1, 54), (1, 250), (1, 260), (4, 68), (1, 512), (5, 132), (2, 512), (8, 512)]
    pages, words = dice.choice(shapes)
    slots = pages * (words - 4)
    counts = [2, 17, 50, 100, 240, 256, 600, 623, 624, 625, slots - 1, slots]
    addresses = spread_addresses(dice, min(slots, dice.choice(counts)))
    filled = script_text(*(f"w {address} {random_value(dice)}" for address in addresses))
    again = filled * dice.choice([1, 1, 2])
    scripts = [choosing_script(dice, addresses) for _ in range(dice.choice([1, 1, 2]))]
    name = f"seed {seed} choosing {number}"
    return Case(name, worked.formatted(pages, words), [again, *scripts])


def random_case(seed, number):
    """Case `number` of a seed, always the same one."""
    dice = random.Random(f"{seed} {number}")
    pages, words = random_size(dice)
    addresses = random_addresses(dice, pages * (words - 4))
    image = random_image(dice, pages, words, addresses)
    scripts = [random_script(dice, addresses) for _ in range(dice.choice([1, 1, 1, 2, 2, 3]))]
    kind = dice.random()
    if kind < 0.12:
        image = damaged(dice, image)
    elif kind < 0.24:
        scripts[-1] = damaged(dice, scripts[-1])
    return Case(f"seed {seed} case {number}", image, scripts)
