"""Coded words by FORMATS.md alone: what a number of a store is in flash, and what is read of it.

Beside the page it takes nothing: its digits are those of the page."""
import os
import re
import sys

sys.path.insert(0, os.path.dirname(os.path.dirname(os.path.abspath(__file__))))
from tools.places import text_of  # noqa: E402

PAGE = text_of("docs", "FORMATS.md").split("\n## Coded words\n")[1].split("\n## ")[0]
ROWS = bytes.fromhex("".join(re.search(r"`((?:[0-9a-f]{2}\s){28}[0-9a-f]{2})`", PAGE)[1].split()))
HALF = 0xAAAAAAAA
MARK = HALF << 32 | HALF


def word_of(value, low):
    """The word of a value and the 17 bits of kind and address."""
    mixed = value ^ low << 12 ^ value << 1
    for by in (11, -9, -7, 12):
        mixed &= 0xFFFFFFFF
        mixed ^= mixed << by if by > 0 else mixed >> -by
    parity = mixed >> 21 & 127
    ones = sum(bin(part).count("1") for part in (value, low, parity))
    return value << 32 | ROWS[(ones + 1) // 2] << 25 | (ones & 1) << 24 | parity << 17 | low


def written(number, pages, words):
    """The coded word of a number, in a store of this shape."""
    value, low = number >> 32, number & 0xFFFFFFFF
    if low >> 17 == 0 and low & 0xFFFF:
        return word_of(value, low)
    return word_of(pages << 16 | words, 1 << 16) if number == MARK else word_of(low, 0)


def read(word, pages, words):
    """The number that a word is, in a store of this shape, or None where it is torn."""
    value, low = word >> 32, word & 0x1FFFF
    header = {0: HALF << 32 | value, 1 << 16: MARK}
    number = header.get(low, value << 32 | low)
    return number if written(number, pages, words) == word else None


def wrong_words():
    """The rows of the page that say another word than it has, of all, and whether a bit that is
    turned, another shape, or a header word spelled otherwise makes them torn; whether the
    definitions have its rows; and whether each shape's mark has three ones more than the plain."""
    rows = re.findall(r"\| `([0-9a-f]{16})`(?:, (\d+) × (\d+))? \| `([0-9a-f]{16})` \|", PAGE)
    wrong = [f"docs/FORMATS.md has {len(rows)} coded words, and not 5"] * (len(rows) < 5)
    for number, pages, words, word in rows:
        shape = int(pages or 1), int(words or 5)
        number, word = int(number, 16), int(word, 16)
        others = [word ^ 1 << bit for bit in range(64)]
        if written(number, *shape) != word or read(word, *shape) != number:
            wrong.append(f"docs/FORMATS.md has another word of {number:016x} than it says")
        if any(read(other, *shape) is not None for other in others):
            wrong.append(f"docs/FORMATS.md has a number one bit from that of {number:016x}")
        if (read(word, shape[0] + 1, shape[1]) is None) != (number == MARK):
            wrong.append(f"docs/FORMATS.md: {number:016x} in a store of another shape")
    if any(read(word_of(value, 0), 1, 256) is not None for value in (1, HALF)):
        wrong.append("docs/FORMATS.md has two words of a number")
    marks = (written(MARK, pages, words) for pages in range(1, 65) for words in range(5, 513))
    if min(bin(mark & ~MARK).count("1") for mark in marks) < 3:
        wrong.append("docs/FORMATS.md has a coded mark that may come to read as the plain one")
    spec = text_of("crates", "ee_nor", "specs", "Coded", "Code.antt")
    if bytes(int(row, 16) for row in re.findall(r"0x([0-9a-f]{2})\s+∷", spec)) != ROWS:
        wrong.append("docs/FORMATS.md has other rows than the definitions")
    return wrong, 3 * len(rows) + 4
