"""What cli/compare tries of TOML: random texts, most of which are TOML, and texts at its limits.

`ee header` tells of a text whether it is TOML, the first entry that is no setting, and all settings
where each is one. A text with a form of TOML 1.1 may be refused by the plain program alone, since
its library may be older. More than half of the texts must be TOML."""
import random
import tempfile
from collections import Counter
from functools import partial
from multiprocessing import Pool

import tables
from tools.trying import Place

NO_TOML = (3, b"", b"ee: settings text\n")
EDGES = tables.edges() + [text.encode() for text in tables.DATES]


def tried(plain, proved, seed, number):
    """How a text is read: alike as TOML, alike as none, otherwise for a new form, or otherwise."""
    text, new = EDGES[-number - 1] if number < 0 else b"", set()
    if number >= 0:
        text, new = tables.document(random.Random(f"tables {seed} {number}"))
    with tempfile.TemporaryDirectory() as name:
        files = {"text": text}
        places = [Place(it, f"{name}/{at}", files) for at, it in enumerate((plain, proved))]
        ours, theirs = (place.run("header text", timeout=60) for place in places)
    if ours == theirs:
        return "no TOML to both" if ours == NO_TOML else "read alike", None
    if ours == NO_TOML and new:
        return "TOML 1.1 to the proved program alone", None
    if text.decode("utf-8", "replace") in tables.DATES and ours[:2] == theirs[:2] == NO_TOML[:2]:
        return "a date that there isn't", None
    return "otherwise", f"{text!r:.100}: {ours!r:.200}, where it should be {theirs!r:.200}"


def checks(plain, proved, words):
    """Tries the texts at the limits and N random ones. Gives of each its name and what is wrong
    with it, if something is."""
    numbers = range(-len(EDGES), words.cases)
    with Pool(2) as pool:
        found = pool.map(partial(tried, plain, proved, words.seed), numbers, chunksize=8)
    counts = Counter(kind for kind, _ in found)
    print(", ".join(f"{kind}: {count}" for kind, count in sorted(counts.items())))
    few = None if 2 * counts["read alike"] > len(found) else "too few of the texts are TOML"
    told = [(f"text {number}", what) for number, (_, what) in zip(numbers, found)]
    return [*told, ("how many are TOML", few)]
