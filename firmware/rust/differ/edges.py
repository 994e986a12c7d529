"""Images at the edges of what a store may be, each with a script: the cases that random ones seldom meet."""
import sys
from pathlib import Path

sys.dont_write_bytecode = True
sys.path.insert(0, str(Path(__file__).resolve().parents[3] / "bench"))
import cases  # noqa: E402

MARK = cases.MARK
LAST = "aaaaaaaafffffffe"
ELEMENT, OTHER = "0000000a00000001", "0000000b00000002"


def live(*slots, receive="aaaaaaaa00000005", active=MARK, valid="-", erasing="-"):
    """The words of a first page of a live set."""
    return [receive, active, valid, erasing, *slots]


def case(name, *pages, script="r 1, r 2, w 1 1, w 1 2, w 1 3, r 1, c, c"):
    """A case of these pages, with blank ones behind them, and each page given as its words."""
    words = len(pages[0])
    count = (len(pages) + 1) // 2
    image = cases.worked.image_of(count, words, [["0", *page] for page in pages])
    return cases.Case(name, image, [cases.script_text(*script.split(", "))])


def slot_cases():
    """What may stand in a slot, and where."""
    for name, word in [("address 0", "0000000a00000000"), ("address 65535", "0000000a0000ffff"),
                       ("address 65534", "0000000a0000fffe"), ("kind 1", "0000000a00010001"),
                       ("kind 2", "0000000a00020001"), ("kind 32768", "0000000a80000001"), ("zero", "0" * 16),
                       ("a mark", MARK), ("a receive word", LAST), ("torn", "?")]:
        yield case(f"a slot with {name}", live(word, "-"), ["-"] * 6)
        yield case(f"a slot with {name}, behind one", live(ELEMENT, word), ["-"] * 6)
        yield case(f"a slot with {name}, behind an erased one", live("-", word), ["-"] * 6)


def header_cases():
    """What may stand in a header of a set that is live, or might be."""
    for word in ("aaaaaaaa00000000", "aaaaaaaa00000001", LAST, "aaaaaaaaffffffff", "aaaaaaab00000001",
                 "aaaaaaa900000001", ELEMENT, "?", "-"):
        yield case(f"receive {word}", live(ELEMENT, "-", receive=word), ["-"] * 6)
        yield case(f"receive {word} beside a live set", live(ELEMENT, "-"), live("-", "-", receive=word))
        for place in range(1, 4):
            first = live(ELEMENT, OTHER)
            first[place] = word
            yield case(f"{word} at {place}", first, ["-"] * 6)
        first[3] = "-"
        for place in range(4):
            second = ["-"] * 6
            second[place] = word
            pages = [live(ELEMENT, OTHER, valid=MARK), second, ["-"] * 6, ["-"] * 6]
            yield case(f"{word} at {place} of a second page", *pages)


def set_cases():
    """Two sets that are live, or partly."""
    generations = ("aaaaaaaa00000001", "aaaaaaaa00000004", "aaaaaaaa00000005", "aaaaaaaa00000006", LAST)
    for first in generations:
        for second in generations:
            pages = live(ELEMENT, "-", receive=first), live(OTHER, OTHER, receive=second)
            yield case(f"{first} and {second}", *pages)
    yield case("the last generation, full", live(ELEMENT, OTHER, receive=LAST), ["-"] * 6)
    yield case("a transfer that stands before its mark", live(ELEMENT, OTHER),
               live(ELEMENT, OTHER, receive="aaaaaaaa00000006", active="-"))
    for at in range(6):
        other = ["-"] * 6
        other[at] = "?"
        yield case(f"a torn word at {at} of the other set", live(ELEMENT, OTHER), other, script="c, c, w 1 2, c, c, r 1")


def many(addresses, words):
    """A store with so many addresses, some forgotten, whose batches end in all places."""
    writes = [f"w {n} {n}" for n in range(1, addresses + 1)]
    forgets = [f"f {n}" for n in range(1, addresses + 1, 3)]
    script = cases.script_text(*writes, *forgets, *writes[5:40], *forgets[2:], *(f"r {n}" for n in range(addresses + 2)
                                                                              if n > 0))
    return cases.Case(f"{addresses} addresses", cases.worked.formatted(2, words), [script, script])


def sparse(kept):
    """A move over 48 addresses, of which those of the second sixteen are forgotten but for some."""
    writes = [f"w {n} {n}" for n in range(1, 49)]
    forgets = [f"f {n}" for n in range(17, 33) if n not in kept]
    more = [f"w 1 {n}" for n in range(40)]
    script = cases.script_text(*writes, *forgets, *more, *(f"r {n}" for n in range(1, 50)))
    return cases.Case(f"sparse, with {kept}", cases.worked.formatted(2, 45), [script, script])


def all_cases():
    return [*slot_cases(), *header_cases(), *set_cases(),
            *(sparse(kept) for kept in ((), (17,), (20,), (32,), (17, 32))),
            *(many(count, 45) for count in (14, 15, 16, 17, 31, 32, 33, 48, 64, 80, 82, 83))]
