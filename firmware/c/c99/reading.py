"""Goes over the tokens of a source: what items and expressions are read by."""
from .lexing import Refused, tokens_of


class Reader:
    """Where a reading of a source stands."""

    def __init__(self, text, path):
        self.path = path
        self.tokens, self.notes = tokens_of(text, path)
        self.place = 0

    @property
    def line(self):
        return self.tokens[self.place].line

    def fail(self, what="unknown form"):
        raise Refused(f"{self.path}:{self.line}: {what} at {self.peek()!r}")

    def peek(self, ahead=0):
        return self.tokens[min(self.place + ahead, len(self.tokens) - 1)].text

    def at(self, *texts):
        return all(self.peek(ahead) == text for ahead, text in enumerate(texts))

    def take(self, text=None):
        if text is not None and self.peek() != text:
            self.fail(f"wanted {text}")
        if self.tokens[self.place].kind == "end":
            self.fail("the end")
        self.place += 1
        return self.tokens[self.place - 1].text

    def maybe(self, text):
        if self.peek() == text:
            self.place += 1
            return True
        return False

    def listed(self, end, read):
        """What `read` gives, again and again, with commas between, up to an end."""
        found = []
        while not self.maybe(end):
            found.append(read())
            if not self.maybe(",") and not self.at(end):
                self.fail("wanted ,")
        return found

    def closes(self):
        """Whether a list of types ends here; `>>` closes two."""
        if self.peek() == ">>":
            self.tokens[self.place] = self.tokens[self.place]._replace(text=">")
            return True
        return self.maybe(">")

    def note(self):
        """The comments before the next token."""
        return self.notes.get(self.place, [])

    def is_life(self):
        """Goes over the name of a lifetime, which C hasn't."""
        if self.tokens[self.place].kind == "life":
            self.take()
            return True
        return False

    # Types: a tuple of a name, the types that it has, and for an array its size.
    def type(self):
        if self.maybe("&"):
            self.is_life()
            return ("refmut" if self.maybe("mut") else "ref", [self.type()])
        if self.maybe("("):
            return ("tuple", self.listed(")", self.type))
        if self.maybe("["):
            inner = self.type()
            size = self.take() if self.maybe(";") else None
            self.take("]")
            return ("array", [inner], size) if size else ("slice", [inner])
        if self.tokens[self.place].kind != "name":
            self.fail("no type")
        name = self.take()
        while self.maybe("::"):
            name = self.take()
        return (name, self.type_arguments())

    def type_arguments(self):
        found = []
        if self.maybe("<"):
            while not self.closes():
                if not self.is_life():
                    found.append(self.type())
                self.maybe(",")
        return found

    def generics(self):
        """The bound of each parameter. A default counts for nothing: here a bound is one type."""
        bounds = {}
        if self.maybe("<"):
            while not self.closes():
                if self.is_life():
                    self.maybe(",")
                    continue
                name = self.take()
                self.take(":")
                bounds[name] = self.take()
                if self.maybe("="):
                    self.take()
                self.maybe(",")
        return bounds
