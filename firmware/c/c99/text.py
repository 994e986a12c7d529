"""The lines of a function as they are written, and the names of its locals."""
import re

from .c_types import comment_of, snake, spaced
from .lexing import Node, Refused
from .types import known

KEYWORDS = {"default", "switch", "case", "int", "short", "long", "char", "register", "do", "void",
            "double", "float", "signed", "unsigned", "static", "const", "volatile", "auto"}
# Members of nodes that point to what is elsewhere.
ELSEWHERE = {"target", "item", "const", "local", "variant", "ty"}


def nodes_of(it):
    """Each node of a tree."""
    if isinstance(it, Node):
        yield it
        for name, value in vars(it).items():
            if name not in ELSEWHERE:
                yield from nodes_of(value)
    elif isinstance(it, (list, tuple)):
        for part in it:
            yield from nodes_of(part)


class Text:
    """What a function is written into."""

    spaced = staticmethod(spaced)
    comment = staticmethod(comment_of)

    def __init__(self, writer, fn, ret):
        self.writer, self.fn, self.ret = writer, fn, ret
        self.program, self.types = writer.program, writer.types
        self.lines, self.depth, self.scopes, self.called = [], 1, [set()], set()
        self.is_void = self.types.is_unit(ret)
        # The local that the function gives, if it has a list; and a call that makes such a value,
        # with the place for it.
        self.given, self.place = None, (None, None)

    def fail(self, it, what):
        line = getattr(it, "line", self.fn.node.line)
        path = self.program.paths[self.fn.module]
        raise Refused(f"{path}:{line}: in {self.fn.name}: {what}")

    def emit(self, text):
        self.lines.append("    " * self.depth + text)

    def note(self, doc):
        self.lines += comment_of(doc, "    " * self.depth)

    @staticmethod
    def words_of(text):
        return set(re.findall(r"\w+", text))

    @staticmethod
    def targets(it):
        """The functions that a piece calls."""
        return [n.target for n in nodes_of(it) if getattr(n, "target", None) is not None]

    def open(self):
        self.depth += 1
        self.scopes.append(set())

    def close(self):
        self.depth -= 1
        self.scopes.pop()

    def fresh(self, name):
        """A name that stands in no open scope."""
        taken = set().union(*self.scopes) | self.called | KEYWORDS
        found, count = name, 2
        while found in taken:
            found, count = f"{name}_{count}", count + 1
        self.scopes[-1].add(found)
        return found

    def declaration(self, of_type, name):
        """A declaration of what doesn't change."""
        return f"{of_type}const {name}" if of_type.endswith("*") else f"const {of_type} {name}"

    def bind(self, local, value):
        """Declares a local with a value."""
        if self.types.is_unit(local.ty):
            return
        if local.name == value and local.mut and value in self.scopes[-1]:
            local.cname = value
            return
        local.cname = self.fresh(local.name)
        of_type = self.types.name(local.ty)
        declared = spaced(of_type, local.cname)
        if not local.mut:
            declared = self.declaration(of_type, local.cname)
        self.emit(f"{declared} = {value};")

    def temporary(self, hint, of_type, value):
        name = self.fresh(hint)
        self.emit(f"{self.declaration(self.types.name(of_type), name)} = {value};")
        return name

    def hint(self, it, pattern=None):
        """A name for what an expression gives."""
        names = [n.name for n in nodes_of(pattern) if n.kind == "bind"] if pattern else []
        of_type = known(it.ty)
        base = "_and_".join(names)
        if not base and it.kind in ("call", "method"):
            base = it.f.path[-1] if it.kind == "call" else it.name
        base = base or "it"
        if of_type.name == "Option":
            return "maybe_" + base
        if of_type.name == "Result":
            is_fault = self.types.is_told(of_type) and self.types.good(of_type) == "EE_OK"
            return base + ("_fault" if is_fault else "_result")
        if not names and self.program.item_of(of_type) is not None:
            return snake(of_type.name)
        return base + ("_read" if not names and it.kind in ("call", "method") else "")
