"""Reads statements, expressions and patterns."""
from .lexing import Node
from .reading import Reader

LEVELS = [("||",), ("&&",), ("==", "!=", "<", ">", "<=", ">="), ("|",), ("^",), ("&",),
          ("<<", ">>"), ("+", "-"), ("*", "/", "%")]
# Expressions that end a statement without a `;`.
BLOCKS = {"if", "match", "loop", "while", "for", "iflet", "whilelet", "block"}


class Expressions(Reader):
    """Reads what a function does."""

    def block(self):
        self.take("{")
        stmts, tail = [], None
        while not self.at("}"):
            note = self.note()
            if self.maybe("let"):
                stmts.append(self.let(note))
                continue
            it = self.expression(statement=True)
            if self.maybe(";"):
                stmts.append(Node("expr", e=it, note=note, semi=True))
            elif self.at("}"):
                it.note = note
                tail = it
            elif it.kind in BLOCKS:
                stmts.append(Node("expr", e=it, note=note, semi=False))
            else:
                self.fail("wanted ;")
        if self.note():
            self.fail("a comment at the end of a block")
        self.take("}")
        return Node("block", stmts=stmts, tail=tail)

    def let(self, note):
        line = self.line
        pattern = self.pattern()
        if self.at(":"):
            self.fail("a type of a local")
        self.take("=")
        value = self.expression()
        other = self.block() if self.maybe("else") else None
        self.take(";")
        return Node("let", pat=pattern, value=value, other=other, note=note, line=line)

    # `struct`: whether a name and a brace may make a value; not before a body.
    def expression(self, struct=True, statement=False):
        line = self.line
        if self.maybe("return"):
            nothing = self.at(";") or self.at(",") or self.at("}")
            return Node("return", e=None if nothing else self.expression(struct), line=line)
        left = self.range(struct, statement)
        if self.peek() in ("=", "+=", "-=", "&="):
            sign = self.take()
            return Node("assign", op=sign, to=left, e=self.expression(struct), line=line)
        return left

    def range(self, struct, statement):
        line = self.line
        if self.maybe(".."):
            return Node("range", low=None, high=self.binary(0, struct), line=line)
        left = self.binary(0, struct, statement)
        if self.maybe(".."):
            high = None if self.at("]") or self.at(")") else self.binary(0, struct)
            return Node("range", low=left, high=high, line=line)
        return left

    def binary(self, level, struct, statement=False):
        if level == len(LEVELS):
            return self.cast(struct, statement)
        left = self.binary(level + 1, struct, statement)
        if statement and left.kind in BLOCKS:
            return left
        while self.peek() in LEVELS[level]:
            line, sign = self.line, self.take()
            left = Node("binary", op=sign, a=left, b=self.binary(level + 1, struct), line=line)
        return left

    def cast(self, struct, statement):
        it = self.unary(struct, statement)
        while self.maybe("as"):
            it = Node("cast", e=it, ty=self.type(), line=self.line)
        return it

    def unary(self, struct, statement):
        line = self.line
        if self.maybe("!"):
            return Node("not", e=self.unary(struct, False), line=line)
        if self.maybe("*"):
            return Node("deref", e=self.unary(struct, False), line=line)
        if self.maybe("&"):
            changes = self.maybe("mut")
            return Node("addr", mut=changes, e=self.unary(struct, False), line=line)
        return self.postfix(struct, statement)

    def postfix(self, struct, statement):
        it = self.primary(struct)
        if statement and it.kind in BLOCKS:
            return it
        while True:
            line = self.line
            if self.maybe("?"):
                it = Node("try", e=it, line=line)
            elif self.maybe("."):
                name = self.take()
                if self.maybe("("):
                    args = self.listed(")", self.expression)
                    it = Node("method", e=it, name=name, args=args, line=line)
                else:
                    it = Node("field", e=it, name=name, line=line)
            elif self.maybe("("):
                it = Node("call", f=it, args=self.listed(")", self.expression), line=line)
            elif self.maybe("["):
                it = Node("index", e=it, at=self.expression(), line=line)
                self.take("]")
            else:
                return it

    WORDS = {"(": "tuple", "[": "array", "if": "if", "match": "match", "loop": "loop",
             "while": "while", "for": "for", "matches!": "matches"}

    def primary(self, struct):
        token = self.tokens[self.place]
        if token.kind == "number":
            return Node("int", text=self.take(), line=token.line)
        if token.text == "{":
            it = self.block()
            it.line = token.line
            return it
        if token.text in self.WORDS:
            self.take()
            it = getattr(self, "read_" + self.WORDS[token.text])()
            it.line = token.line
            return it
        if token.kind != "name":
            self.fail()
        path = self.path_of()
        if struct and self.at("{") and path[-1][0].isupper():
            self.take()
            return Node("struct", path=path, fields=self.listed("}", self.given), line=token.line)
        return Node("path", path=path, line=token.line)

    def path_of(self):
        path = [self.take()]
        while self.maybe("::"):
            path.append(self.take())
        return path

    def given(self):
        """A field of a value that is made."""
        line, name = self.line, self.take()
        if self.maybe(":"):
            return (name, self.expression())
        return (name, Node("path", path=[name], line=line))

    def read_tuple(self):
        parts, comma = [], False
        while not self.maybe(")"):
            parts.append(self.expression())
            comma = self.maybe(",")
        if len(parts) == 1 and not comma:
            return parts[0]
        return Node("tuple", parts=parts)

    def read_array(self):
        if self.maybe("]"):
            return Node("list", parts=[])
        first = self.expression()
        if self.maybe(";"):
            size = self.expression()
            self.take("]")
            return Node("repeat", e=first, size=size)
        self.maybe(",")
        return Node("list", parts=[first, *self.listed("]", self.expression)])

    def read_match(self):
        it = self.expression(struct=False)
        self.take("{")
        arms = []
        while not self.maybe("}"):
            note, pattern = self.note(), self.pattern()
            guard = self.expression() if self.maybe("if") else None
            self.take("=>")
            body = self.expression(statement=True)
            self.maybe(",")
            arms.append(Node("arm", pat=pattern, guard=guard, body=body, note=note))
        return Node("match", e=it, arms=arms)

    def read_loop(self):
        return Node("loop", body=self.block())

    def read_while(self):
        if self.maybe("let"):
            pattern = self.pattern()
            self.take("=")
            it = self.expression(struct=False)
            return Node("whilelet", pat=pattern, e=it, body=self.block())
        condition = self.expression(struct=False)
        return Node("while", c=condition, body=self.block())

    def read_for(self):
        names = self.listed(")", self.take) if self.maybe("(") else [self.take()]
        self.take("in")
        it = self.expression(struct=False)
        # The name of a place stands before that of what stands there.
        place = names.pop(0) if len(names) == 2 else None
        if len(names) != 1:
            self.fail("other names of a loop")
        return Node("for", name=names[0], place=place, e=it, body=self.block())

    def read_matches(self):
        self.take("(")
        it = self.expression()
        self.take(",")
        pattern = self.pattern()
        self.take(")")
        return Node("matches", e=it, pat=pattern)

    def read_if(self):
        pattern = None
        if self.maybe("let"):
            pattern = self.pattern()
            self.take("=")
        condition, line = self.expression(struct=False), self.line
        then, other = self.block(), None
        if self.maybe("else"):
            other = self.otherwise()
        if pattern is not None:
            return Node("iflet", pat=pattern, e=condition, then=then, other=other, line=line)
        return Node("if", c=condition, then=then, other=other, line=line)

    def otherwise(self):
        return self.read_if() if self.maybe("if") else self.block()

    # Patterns
    def pattern(self):
        first = self.one_pattern()
        if not self.at("|"):
            return first
        others = [first]
        while self.maybe("|"):
            others.append(self.one_pattern())
        return Node("por", parts=others)

    def one_pattern(self):
        token = self.tokens[self.place]
        if self.maybe("_"):
            return Node("wild")
        if token.kind == "number":
            return Node("pint", text=self.take())
        if self.maybe("("):
            return Node("ptuple", parts=self.listed(")", self.pattern))
        if self.maybe("mut"):
            return Node("bind", name=self.take(), mut=True)
        path = self.path_of()
        if self.maybe("("):
            return Node("pvariant", path=path, parts=self.listed(")", self.pattern), named=None)
        if self.maybe("{"):
            named = [x for x in self.listed("}", self.named) if x]
            return Node("pvariant", path=path, parts=None, named=named)
        if len(path) == 1 and path[0][0].islower():
            return Node("bind", name=path[0], mut=False)
        return Node("pvariant", path=path, parts=[], named=None)

    def named(self):
        if self.maybe(".."):
            return None
        name = self.take()
        return (name, self.pattern() if self.maybe(":") else Node("bind", name=name, mut=False))
