"""Reads a source: its uses, constants, types and functions."""
from .expressions import Expressions
from .lexing import Node

# Functions that are written by hand, since C has no words for what they call of Rust's own.
BY_HAND = {"search"}
# How a method takes what it is of, but for the names of lifetimes.
RECEIVERS = (["self"], ["&", "self"], ["&", "mut", "self"])


class Source(Expressions):
    """Reads the subset of Rust that the proved sources use."""

    def items(self):
        """All items of the source."""
        found = []
        while self.peek() != "":
            found += self.item()
        return found

    def item(self):
        doc = self.note()
        words = self.attributes()
        self.visibility()
        if self.at("const") and self.peek(1) == "fn":
            self.take()
        word = self.take()
        read = getattr(self, "item_" + word, None)
        if read is None:
            self.place -= 1
            self.fail()
        found = read(doc, "Copy" in words)
        if word == "fn":
            found[0].inline = next((mark for mark in ("always", "never") if mark in words), None)
        return found

    def attributes(self):
        """The words of the attributes before an item."""
        words = []
        while self.maybe("#"):
            self.maybe("!")
            self.take("[")
            depth = 1
            while depth:
                word = self.take()
                words.append(word)
                depth += (word == "[") - (word == "]")
        return words

    def visibility(self):
        if self.maybe("pub") and self.maybe("("):
            while self.take() != ")":
                pass

    def item_use(self, _doc, _copies):
        names = []
        self.use_tree([], names)
        self.take(";")
        return [Node("use", names=names)]

    def use_tree(self, prefix, found):
        if self.maybe("{"):
            self.listed("}", lambda: self.use_tree(prefix, found))
            return
        name = self.take()
        if self.maybe("::"):
            self.use_tree(prefix + [name], found)
            return
        alias = self.take() if self.maybe("as") else name
        found.append((alias, prefix + [name]))

    def item_const(self, doc, _copies):
        name = self.take()
        self.take(":")
        of_type = self.type()
        self.take("=")
        value = self.expression()
        self.take(";")
        return [Node("const", name=name, ty=of_type, value=value, doc=doc)]

    def item_type(self, _doc, _copies):
        name = self.take()
        self.take("=")
        of_type = self.type()
        self.take(";")
        return [Node("type", name=name, ty=of_type)]

    def field(self):
        doc = self.note()
        self.visibility()
        name = self.take()
        self.take(":")
        return (name, self.type(), doc)

    def item_struct(self, doc, copies):
        name, bounds = self.take(), self.generics()
        fields = []
        if self.maybe("{"):
            fields = self.listed("}", self.field)
        else:
            self.take(";")
        return [Node("struct", name=name, bounds=bounds, fields=fields, doc=doc, copy=copies)]

    def item_enum(self, doc, copies):
        name = self.take()
        self.generics()
        self.take("{")
        variants = self.listed("}", self.variant)
        return [Node("enum", name=name, variants=variants, doc=doc, copy=copies)]

    def variant(self):
        doc, name, fields = self.note(), self.take(), []
        if self.maybe("("):
            fields = [(None, self.type())]
            self.take(")")
        elif self.maybe("{"):
            fields = [(field, of_type) for field, of_type, _ in self.listed("}", self.field)]
        return (name, fields, doc)

    def functions(self):
        self.take("{")
        found = []
        while not self.maybe("}"):
            found += self.item()
        return found

    def item_trait(self, _doc, _copies):
        name = self.take()
        return [Node("trait", name=name, fns=self.functions())]

    def item_impl(self, _doc, _copies):
        bounds = self.generics()
        of_type, trait = self.type(), None
        if self.maybe("for"):
            trait, of_type = of_type, self.type()
        return [Node("impl", ty=of_type, trait=trait, fns=self.functions(), bounds=bounds)]

    def item_fn(self, doc, _copies):
        line = self.line
        name = self.take()
        bounds = self.generics()
        self.take("(")
        receiver = self.receiver()
        params = self.listed(")", self.parameter)
        gives = self.type() if self.maybe("->") else ("tuple", [])
        body = None
        if name in BY_HAND:
            self.skip_body()
        elif not self.maybe(";"):
            body = self.block()
        return [Node("fn", name=name, bounds=bounds, receiver=receiver, params=params, ret=gives,
                     body=body, doc=doc, line=line)]

    def skip_body(self):
        """Goes over a body that isn't written."""
        depth = 0
        while True:
            word = self.take()
            depth += (word == "{") - (word == "}")
            if depth == 0:
                return

    def receiver(self):
        begin = [it for it in self.tokens[self.place:self.place + 4] if it.kind != "life"]
        words = [it.text for it in begin]
        if not any(words[:len(form)] == form for form in RECEIVERS):
            return None
        kind = "value"
        if self.maybe("&"):
            self.is_life()
            kind = "refmut" if self.maybe("mut") else "ref"
        self.take("self")
        self.maybe(",")
        return kind

    def parameter(self):
        self.maybe("mut")
        name = self.take()
        self.take(":")
        return (name, self.type())
