"""Compares plain Rust with the proved sources that it was made of, token by token.

Two fingers go over the two texts. Where a known form begins in the source, the left finger passes over it, and the
form is counted; everywhere else both texts have the same token, but for the head of a path, which names a crate
in the source and that crate's module in the other, and for what a `Package` says. At the end both fingers are at the
end. Comments are tokens, and only white space is passed over. Then the test of the test: one token of the plain Rust is
taken away, doubled, exchanged with its neighbour or replaced, and each such damage must be refused.

It shares no code with the crate `strip`, which made the files.
"""
import argparse
import random
import re
import sys
from collections import Counter
from dataclasses import dataclass, field
from functools import cache
from pathlib import Path

sys.path.insert(0, str(Path(__file__).resolve().parent.parent))
from tools.places import CRATES, TOP  # noqa: E402
from tools.tally import Tally  # noqa: E402


@dataclass(frozen=True)
class Package:
    """What may differ between the sources and the files of one package."""

    # The program that made the files, and where they are, both from the top of the repository.
    maker: str
    folder: str
    # Each crate, with the modules that the package has not.
    absent: dict
    # The tokens that stand for the head of a path that leads out of these crates.
    heads: dict = field(default_factory=dict)
    # Tokens of a source, one behind the other, and those that stand for them.
    instead: tuple = ()
    # Patterns within a text or a comment, and what stands for what they find.
    words: tuple = ()
    # The tokens that each file has behind what its head says.
    opening: tuple = ()
    # Attributes, names in a `derive` and crates in a `use` that the package has not.
    attributes: frozenset = frozenset({"tactic"})
    derives: frozenset = frozenset({"Drop"})
    uses: frozenset = frozenset()
    # Whether it has no paragraph of a doc comment that begins with `Source: ours`.
    hides_origins: bool = False
    # Says of a source and a place what stands there otherwise: its name, how many tokens it takes, and those that stand for
    # them. `None` where nothing does.
    added: object = None

    @property
    def plain(self):
        return TOP / self.folder


SIGNS = "..= <<= :: -> => .. == != <= >= && || << += -= *= /= %= |= &= ^=".split()
# A comment, a text, a letter between quotes, a word or a lifetime, or a sign.
TOKEN = re.compile(
    r"""//[^\n]*|"(?:\\.|[^"\\])*"|'\\.[^']*'|'.'|'?\w+|%s|\S""" % "|".join(map(re.escape, SIGNS)),
    re.DOTALL,
)
CLOSING = {"{": "}", "(": ")", "[": "]", "<": ">"}


class Different(Exception):
    """The texts differ in something that no form allows."""


def scan(text):
    """The tokens of a text, each with its line."""
    found, line, end = [], 1, 0
    for token in TOKEN.finditer(text):
        line += text.count("\n", end, token.start())
        end = token.start()
        found.append((token[0], line))
    return found


def tokens(text):
    """The tokens of a text alone."""
    return [token for token, _ in scan(text)]


def is_word(text):
    return text[:1].isalpha() or text[:1] == "_"


class Source:
    """The tokens of a proved source, and the forms in it that plain Rust has not."""

    def __init__(self, package, crate, path):
        self.package, self.crate, self.name = package, crate, (crate, path.stem)
        self.absent, self.tokens = package.absent[crate], scan(path.read_text())
        jumps = zip(self.tokens, self.tokens[1:])
        self.named = {label for (word, _), (label, _) in jumps if word in ("break", "continue")}

    def text(self, place):
        return self.tokens[place][0] if 0 <= place < len(self.tokens) else ""

    def reads(self, place, first, *others):
        # Most are told by the first.
        return self.text(place) == first and all(
            self.text(place + count) == text for count, text in enumerate(others, 1)
        )

    def closed(self, place):
        """The place behind the bracket that closes this one, whatever stands between."""
        opening, depth = self.text(place), 0
        if opening not in CLOSING:
            raise Different(f"no bracket at {self.tokens[place:][:1] or 'the end'}")
        while place < len(self.tokens):
            depth += {opening: 1, CLOSING[opening]: -1}.get(self.text(place), 0)
            place += 1
            if depth == 0:
                return place
        raise Different(f"`{opening}` is not closed")

    def behind(self, place, text):
        for at in range(place, len(self.tokens)):
            if self.text(at) == text:
                return at + 1
        raise Different(f"no `{text}` up to the end")

    @cache
    def form(self, place):
        """The name of the form that begins here and the place behind it, or None."""
        return next(filter(None, (look(self, place) for look in self.FORMS)), None)

    def ghost(self, place):
        if self.text(place) != "ghost":
            return None
        if self.text(place + 1) == "use":
            return "ghost uses", self.behind(place, ";")
        is_group = self.text(place + 2) in (":", "=") and self.text(place + 3) == "{"
        if is_word(self.text(place + 1)) and is_group:
            end = self.closed(place + 3)
            if self.text(end) == ";":
                return "ghost members", end + 1
            if self.text(end) == "," and self.text(place + 2) == ":" and self.in_struct(place):
                return "ghost fields", end + 1
        return None

    def in_struct(self, place):
        """Whether the innermost brace that is open here opens the fields of a struct."""
        depth = 0
        while place > 0 and depth >= 0:
            place -= 1
            depth += {"}": 1, "{": -1}.get(self.text(place), 0)
        while place > 0 and self.text(place - 1) not in (";", "}"):
            place -= 1
            if self.text(place) == "struct":
                return True
        return False

    def clause(self, place):
        """One `requires` or `ensures`, which stands behind a function's head or behind another one."""
        word = self.text(place)
        if word not in ("requires", "ensures"):
            return None
        group = place + 2 if is_word(self.text(place + 1)) else place + 1
        if self.text(group) != "{":
            return None
        end = self.closed(group)
        after = self.past_comments(end)
        return (word, end) if self.text(after) in ("requires", "ensures", "{", ";") else None

    def attribute(self, place):
        inner = place + 2 if self.reads(place, "#", "!") else place + 1
        name = self.text(inner + 1)
        if self.text(place) == "#" and self.text(inner) == "[" and name in self.package.attributes:
            return f"{name} attributes", self.closed(inner)
        if self.reads(place, "#", "[", "doc", "(", "hidden", ")", "]") and self.module(place + 7):
            return "hidings of modules", place + 7
        return None

    def derived(self, at):
        """A name in a `derive` that the package has not, or a `derive` of such names alone."""
        if self.reads(at, "#", "[", "derive", "("):
            end = self.closed(at + 1)
            names = {self.text(now) for now in range(at + 4, end - 2)} - {","}
            return ("derives", end) if names and names <= self.package.derives else None
        name, other, place = self.text(at), self.text(at + 1), at
        is_first = name in self.package.derives and other == "," and self.text(at - 1) == "("
        is_later = name == "," and other in self.package.derives and self.text(at + 2) in (",", ")")
        if not is_first and not is_later:
            return None
        while self.text(place - 1) not in ("(", "", "{", ";"):
            place -= 1
        return ("derives", at + 2) if self.text(place - 2) == "derive" else None

    def bound(self, place):
        if self.reads(place, "+", "Drop") and self.text(place + 2) in (">", ",", "+", "{", "="):
            return "bounds of Drop", place + 2
        return None

    def model(self, place):
        if self.text(place) != "impl":
            return None
        name = self.closed(place + 1) if self.text(place + 1) == "<" else place + 1
        if not self.reads(name, "Model", "for"):
            return None
        body = self.behind(name, "{")
        end = self.closed(body - 1)
        while body < end - 1:
            member = self.ghost(self.past_comments(body))
            if not member:
                return None
            body = member[1]
        return "impls of Model", end

    def module(self, place):
        """A `mod` or a `use` of a module that the package has not, with what makes it public."""
        if self.text(place) == "pub":
            place = self.closed(place + 1) if self.text(place + 1) == "(" else place + 1
        if self.text(place + 1) not in self.absent:
            return None
        if self.text(place) == "mod" and self.text(place + 2) == ";":
            return "modules", place + 3
        if self.text(place) == "use" and self.text(place + 2) == "::":
            return "uses of modules", self.behind(place, ";")
        return None

    def ghost_of_std(self, place):
        if self.reads(place, "use", "std", "::", "marker", "::", "Model", ";"):
            return "uses of Model", place + 7
        return None

    def use_of_crate(self, place):
        crate = self.text(place + 1)
        if crate in self.package.uses and self.reads(place, "use", crate, "::"):
            return "uses of crates", self.behind(place, ";")
        return None

    def proof(self, place):
        """A `prove!(..);`, which stands as a statement."""
        before = place - 1
        while self.text(before).startswith("//"):
            before -= 1
        if self.reads(place, "prove", "!", "(") and self.text(before) in (";", "{", "}"):
            end = self.closed(place + 2)
            return ("proofs", end + 1) if self.text(end) == ";" else None
        return None

    def label(self, place):
        text = self.text(place)
        is_label = text[:1] == "'" and self.text(place + 1) == ":" and text not in self.named
        labelled = self.text(place + 2) in ("for", "while", "loop", "{")
        return ("labels", place + 2) if is_label and labelled else None

    def origin(self, place):
        """The empty line of a doc comment, and the paragraph below it, where that says that the source is ours."""
        is_ours = self.text(place + 1).startswith("/// Source: ours")
        if self.text(place) != "///" or not is_ours or not self.package.hides_origins:
            return None
        place += 1
        while self.text(place).startswith("/// "):
            place += 1
        return "notes that it is ours", place

    # What may begin at a place, in the order in which it is looked for.
    FORMS = (ghost, clause, attribute, derived, bound, model, module, ghost_of_std, use_of_crate)
    FORMS += (label, proof, origin)
    # Forms that stand on a line of their own or within one: a comment before is not on them.
    ALONE = ("labels", "derives", "bounds of Drop", "hidings of modules")

    def past_comments(self, place):
        while self.text(place).startswith("//"):
            place += 1
        return place

    @cache
    def comments_on_form(self, place):
        """The place behind the comments that begin here and stand on a form, or between clauses."""
        end = self.past_comments(place)
        found = self.form(end)
        if end == place or self.text(place).startswith("//!") or not found:
            return None
        if found[0] in self.ALONE or found[0].endswith(" attributes"):
            return None
        # Comments stand on what follows if no line lies between.
        lines = [line for _, line in self.tokens[place : end + 1]]
        return end if all(b - a == 1 for a, b in zip(lines, lines[1:])) else None

    @cache
    def head(self, place):
        """The tokens that stand in the other text for the path that begins here, or None."""
        text = self.text(place)
        if self.text(place + 1) != "::" or self.text(place - 1) == "::":
            return None
        if text == "crate":
            return ["crate", "::", self.crate]
        if text in self.package.absent:
            return ["crate", "::", text]
        return self.package.heads.get(text)

    @cache
    def other(self, place):
        """The name of what is said otherwise here, how many tokens it takes, and those that stand for them."""
        added = self.package.added and self.package.added(self, place)
        if added:
            return added
        for tokens, new in self.package.instead:
            if self.reads(place, *tokens):
                return "said otherwise", len(tokens), new
        head = self.head(place)
        if head:
            return "heads of paths", 1, head
        own = text = self.text(place)
        for pattern, new in self.package.words if text[0] in '/"' else ():
            own = re.sub(pattern, new, own)
        return "words of its own" if own != text else None, 1, [own]


def walk(source, plain, counts):
    """Goes over both texts. Raises `Different` at the first place where they part."""
    left, right = 0, 0
    opening = list(source.package.opening)
    while left < len(source.tokens):
        text = source.text(left)
        if opening and not text.startswith("//!") and not source.reads(left, "#", "!"):
            expect(source, left, plain, right, opening)
            right, opening = right + len(opening), []
        end = source.comments_on_form(left)
        if end:
            counts["comments on those"] += end - left
            left = end
        if form := source.form(left):
            counts[form[0]] += 1
            left = form[1]
            continue
        name, taken, expected = source.other(left)
        if name:
            counts[name] += 1
        expect(source, left, plain, right, expected)
        left += taken
        right += len(expected)
    if right != len(plain):
        raise Different(f"`{plain[right][0]}` at line {plain[right][1]}, where the source ends")


def expect(source, left, plain, right, expected):
    """Raises `Different` where other tokens stand in the plain text."""
    found = [token for token, _ in plain[right : right + len(expected)]]
    if found != list(expected):
        line = plain[right][1] if right < len(plain) else "the end"
        wanted = f"`{' '.join(expected)}` at line {source.tokens[left][1]}"
        raise Different(f"`{' '.join(found)}` at line {line}, where the source has {wanted}")


def pairs(package):
    """Each source that the package has, with the file that stands for it."""
    for crate, absent in package.absent.items():
        folder = CRATES / crate / "src"
        for path in sorted(folder.rglob("*.rt")):
            name = path.relative_to(folder).with_suffix(".rs")
            if not {*name.with_suffix("").parts} & {*absent}:
                is_top = str(name) in ("lib.rs", "main.rs")
                yield crate, path, package.plain / crate / ("mod.rs" if is_top else name)


def plain_tokens(package, path, source):
    """The tokens of a file of plain Rust, behind its first line, which names its source."""
    first, _, rest = path.read_text().partition("\n")
    licence, _, rest = rest.partition("\n")
    made = f"// Made by {package.maker} from crates/{source.relative_to(CRATES)}."
    if not first.startswith(made):
        raise Different("the first line does not name its source")
    if licence != "// SPDX-License-Identifier: MIT OR Apache-2.0":
        raise Different("the second line does not name the licence")
    return scan(rest)


def damaged(tokens, chance):
    """The tokens with one of them damaged, such that the list is another. Comments are left alone."""
    code = [place for place, (text, _) in enumerate(tokens) if not text.startswith("//")]
    while True:
        new, place = list(tokens), chance.choice(code)
        kind = chance.choice(("taken away", "doubled", "exchanged", "replaced"))
        if kind == "taken away":
            del new[place]
        elif kind == "doubled":
            new.insert(place, new[place])
        elif kind == "exchanged" and place + 1 < len(new):
            new[place], new[place + 1] = new[place + 1], new[place]
        elif kind == "replaced":
            new[place] = (tokens[chance.choice(code)][0], new[place][1])
        if [text for text, _ in new] != [text for text, _ in tokens]:
            return new, f"`{tokens[place][0]}` at line {tokens[place][1]} {kind}"


def compare(package, counts):
    """Compares all files. Gives the comparisons that passed, and what is wrong with the others."""
    good, wrong, seen = [], [], set()
    for crate, path, plain_path in pairs(package):
        seen.add(plain_path)
        try:
            source = Source(package, crate, path)
            plain = plain_tokens(package, plain_path, path)
            walk(source, plain, counts)
            good.append((source, plain, plain_path))
        except (Different, OSError) as cause:
            wrong.append(f"{plain_path.relative_to(TOP)}: {cause}")
    files = (
        path for crate in package.absent for path in sorted((package.plain / crate).rglob("*"))
    )
    others = [path for path in files if path.is_file() and path not in seen]
    return good, wrong + [f"{path.relative_to(TOP)}: stands for no source" for path in others]


def damage(good, number, seed):
    """Damages files at random. Gives how many damages were refused, and those that were not."""
    chance, refused, let_through = random.Random(seed), 0, []
    weights = [len(plain) for _, plain, _ in good]
    for source, plain, path in chance.choices(good, weights, k=number):
        new, what = damaged(plain, chance)
        try:
            walk(source, new, Counter())
            let_through.append(f"{path.relative_to(TOP)}: {what}, and was not refused")
        except Different:
            refused += 1
    return refused, let_through


def main(package, usage, more=None):
    """Compares the files of a package, and then what `more` compares and counts."""
    parser = argparse.ArgumentParser(
        description=usage, formatter_class=argparse.RawDescriptionHelpFormatter
    )
    parser.add_argument("--damages", type=int, default=4000)
    parser.add_argument("--seed", type=int, default=1)
    words, counts, tally = parser.parse_args(), Counter(), Tally(package.folder)
    good, wrong = compare(package, counts)
    print(f"{len(good)} files; missing in them, or written anew:")
    for form, count in counts.most_common():
        print(f"  {count:5} {form}")
    refused, let_through = damage(good, words.damages, words.seed) if good else (0, [])
    tally.hold(wrong, len(good) + len(wrong))
    tally.hold(let_through, refused + len(let_through))
    if more:
        more(tally)
    print(f"{len(good)} files compared, {refused} damages refused")
    return tally.close()
