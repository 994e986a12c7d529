"""The tokens of the sources, and the nodes that are made of them."""
import re
from collections import namedtuple


class Refused(Exception):
    """A form of the sources that isn't known, with file and line."""


# What a form that isn't known may end in, where nothing refuses it before.
UNKNOWN = (AttributeError, IndexError, KeyError, TypeError, ValueError)


class Node:
    """A piece of the sources: its kind, and what that kind has."""

    def __init__(self, kind, **fields):
        self.kind = kind
        self.__dict__.update(fields)

    def __repr__(self):
        return self.kind


Token = namedtuple("Token", "kind text line")

TOKEN = re.compile(r"""
  (?P<space>\s+)
| (?P<comment>//[^\n]*)
| (?P<life>'[a-z_]\w*)
| (?P<number>0x[0-9a-fA-F_]+|\d[\d_]*)
| (?P<name>[A-Za-z_]\w*!?(?=\()|[A-Za-z_]\w*)
| (?P<sign>\.\.=|\.\.|::|->|=>|==|!=|<=|>=|&&|\|\||<<|>>|\+=|-=|&=|[-+*/%&|^!=<>.,;:(){}\[\]?#@_])
""", re.X)


def tokens_of(text, path):
    """The tokens of a text, and the comments before each: their lists by the place of the token."""
    tokens, notes, pending = [], {}, []
    at, line = 0, 1
    while at < len(text):
        found = TOKEN.match(text, at)
        if not found:
            raise Refused(f"{path}:{line}: {text[at:at + 20]!r}")
        if found.lastgroup == "comment":
            pending.append(found[0])
        elif found.lastgroup != "space":
            if pending:
                notes[len(tokens)] = pending
                pending = []
            tokens.append(Token(found.lastgroup, found[0], line))
        line += found[0].count("\n")
        at = found.end()
    tokens.append(Token("end", "", line))
    return tokens, notes
