"""What `ee explain` says of a fault, by the sources of ee_program, held to the rows of FAULTS.md."""
import os
import re
import sys

sys.path.insert(0, os.path.dirname(os.path.dirname(os.path.abspath(__file__))))
from tools.places import text_of  # noqa: E402

TEXTS = {
    "cause": "crates/ee_program/src/explain/meanings.rt",
    "remedy": "crates/ee_program/src/explain/remedies.rt",
}
# The faults whose remedy stands behind no name of theirs: those of certificates have the last one,
# and a bad line has one for each file.
UNNAMED = {"WrongStart", "NotRising", "WrongFrom", "NotForced", "BadLine"}


def fault_forms():
    """The name of each `Fault`, and what `cause` says of it, which is its line behind `ee: `, with
    `{}` for each number and file."""
    source = text_of("crates/ee_interface/specs/Fault.antt")
    for name, text in re.findall(r"^cause \(?(\w+).* =\s+(.*(?:\n    .*)*)", source, re.M):
        text = re.sub(r"(?:decimal|file_name) \w+", "{}", re.sub(r'codes "([^"]*)"', r"\1", text))
        yield name, re.sub(r"\s\+\+ ", "", re.sub(r"\n +", "\n", text))


def texts_of(path):
    """Each fault that a source of `explain` names, with its text."""
    arms = r'((?:\|\s*)?Fault::[^="]*?)\s*=>\s*\{?\s*"((?:[^"\\]|\\.)*)"'
    for faults, text in re.findall(arms, text_of(path)):
        yield from ((name, text) for name in re.findall(r"Fault::(\w+)", faults))


def words_of(text):
    """The beginnings of a text's words of four letters or more, and its numbers."""
    words = {word[:5] for word in re.findall(r"[a-z]{4,}|\d{2,}", text.lower())}
    return words - {"that", "from", "with", "this"}


def rows():
    """The rows of FAULTS.md: the forms of their lines, and their words. One that has the cause of
    another has the words of that one too."""
    found, by_form = [], {}
    told = re.findall(r"(?m)^\| \d \| (`ee: [^|]*)\| (.*) \|$", text_of("docs", "FAULTS.md"))
    for lines, cause in told:
        forms = re.sub(r"\b(?:FILE|[A-Z]+)\b", "{}", lines)
        row = {*re.findall(r"`ee: ([^`]*)`", forms)}, words_of(lines + cause)
        other = re.search(r"for the cause of `(\w+)`", cause)
        if other:
            row[1].update(by_form[other[1]][1])
        elif "the same" in cause[:25]:
            row[1].update(found[-1][1])
        found.append(row)
        by_form |= dict.fromkeys(row[0], row)
    return found


def wrong_texts():
    """The faults of which `explain` has no text or one that has not the words of their row in
    FAULTS.md, the rows that are no fault's, and how many causes there are. A cause has them where
    half its words stand in the row, and in no other row more; each number stands in the page."""
    forms, told, page = dict(fault_forms()), rows(), text_of("docs", "FAULTS.md")
    known = {form.replace("{}", name, 1) for form in forms.values() for name in ("{}", "image")}
    wrong = [
        f"docs/FAULTS.md has a line that no fault has: ee: {form}"
        for lines, _ in told
        for form in sorted(lines - known - {"bad command line"})
    ]
    for what, path in TEXTS.items():
        texts = list(texts_of(path))
        named = {name for name, _ in texts} | (UNNAMED if what == "remedy" else set())
        wrong += [f"{path} has not the {what} of {name}" for name in sorted({*forms} ^ named)]
        strange = ((name, it) for name, text in texts for it in re.findall(r"\d{2,}", text))
        wrong += [
            f"{path}: FAULTS.md has no {it} of {name}" for name, it in strange if it not in page
        ]
    causes = [(name, text) for name, text in texts_of(TEXTS["cause"]) if name in forms]
    for name, text in causes:
        words, own = words_of(text), {forms[name], forms[name].replace("{}", "image", 1)}
        shared = [(len(words & row), bool(lines & own)) for lines, row in told]
        most = max((count for count, is_own in shared if is_own), default=0)
        if most < max(shared)[0] or 2 * most < len(words):
            wrong.append(f"docs/FAULTS.md gives another cause of {name} than `ee explain`: {text}")
    return wrong, len(causes)
