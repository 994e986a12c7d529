"""The contracts of crates/: each function with its crate, its module, its type, its comment and the
names of its clauses."""
import os
import re
from collections import namedtuple

from tools.places import CRATES, TOP, in_crates

# The crates that are no part of the product.
NO_PRODUCT = {"ee_cases", "ee_fakes", "ee_tests"}
# A function: its crate, its file below `src`, the type or trait whose it is or "", the trait that it
# is of or "", its name, whether others may call it, its comment, and the names of its clauses, ""
# for one that has none.
Function = namedtuple("Function", "crate file owner of name public comment clauses")

OWNER = re.compile(
    r"(?:pub )?(?:unsafe )?(?:impl\b(?:<(?:[^<>]|<[^<>]*>)*>)? (?:(?:\w+::)*(\w+).* for )?"
    r"(?:\w+::)*(\w+)|trait (\w+))"
)
HEAD = re.compile(r"\s*(pub(?:\(\w+\))? )?(?:const )?(?:unsafe )?(?:extern \"C\" )?fn (\w+)")


def functions_of(crate, path):
    """The functions of a source file, in their order."""
    file = os.path.relpath(path, CRATES / crate / "src")
    owner, of, comment, found, in_head = "", "", [], [], False
    with open(path, encoding="utf-8") as opened:
        lines = opened.read().splitlines()
    for line in lines:
        block, head = OWNER.match(line), HEAD.match(line)
        if block:
            owner, of = block[2] or block[3], block[1] or block[3] or ""
        elif line == "}":
            owner, of = "", ""
        if head:
            public = (head[1] or "").strip() == "pub" or bool(of)
            found.append(Function(crate, file, owner, of, head[2], public, " ".join(comment), []))
            in_head = True
        elif in_head and re.fullmatch(r"\s*\{\}?", line):
            in_head = False
        clause = re.match(r"\s*ensures(?: (\w+))? \{", line) or re.match(
            r"\s*ensures(?: (\w+))?$", line
        )
        if clause and found and in_head:
            found[-1].clauses.append(clause[1] or "")
        told = re.match(r"\s*/// ?(.*)", line)
        comment = (
            comment + [told[1]] if told else [] if not re.match(r"\s*(#\[|//)", line) else comment
        )
    return found


def functions():
    """The functions of all crates."""
    paths = in_crates("*/src/**/*.rt")
    return [one for path in paths for one in functions_of(path.split("/")[1], TOP / path)]


def public_contracts(left_out=()):
    """The public functions that have a contract, but for those of some crates. One of a trait has
    the trait's comment where it has none of its own."""
    found = functions()
    told = {(one.of, one.name): one.comment for one in found if one.of and one.owner == one.of}
    return [
        one._replace(comment=one.comment or told.get((one.of, one.name), ""))
        for one in found
        if one.public and one.clauses and one.crate not in left_out
    ]
