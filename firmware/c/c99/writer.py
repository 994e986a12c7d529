"""Writes all functions that the roots need: their names, their queue, and what accessors are."""
import copy

from .c_types import Types, snake
from .inference import Inference
from .statements import Statements
from .text import nodes_of
from .types import is_slice, known, referred
from .values import ASKING

# What the hand-written part has for a device: a field for a method, and functions.
FIELDS = {("Device", "shape"): "shape", ("Numbers", "shape"): "shape",
          ("EccNumbers", "shape"): "shape"}
# Names that C libraries have, or the calls of ee.h.
RESERVED = {"open", "remove", "read", "write", "close", "start", "format", "mark", "clean"}


# Functions, by their names in C, that stand in place there or apart, whatever rustc is told. Apart
# gcc keeps both halves of a word in registers, of which an M0+ has few, a write and a list of
# values have one body of a move; in place no struct goes
# through memory.
INLINE = {"state_is_blank": "always", "is_erased": "never", "fill_from_window": "never",
          "known_move_value": "always", "store_write": "never", "store_write_several": "never",
          "next_shown": "always", "index_cursor_next": "always", "lent_cursor_next": "always",
          "said_by": "always", "payload_of": "always", "value_held": "never", "other_shape": "always"}
# The sources' marks of where a function's code stands, in C.
MARKS = {"always": "EE_IN_PLACE", "never": "EE_APART", None: "static"}
LOOPS = {"for", "while", "whilelet", "loop"}


# Types by which no name of a function is longer.
USUAL = {"Cursor"}


class Writer:
    """The functions that were asked for, by function and the types that it is made for."""

    def __init__(self, program):
        self.program, self.types = program, Types(program)
        self.names, self.done, self.queue, self.consts = {}, {}, [], {}
        functions = list(program.fns.values())
        count = {}
        for fn in functions:
            count[fn.name] = count.get(fn.name, 0) + 1
        methods = {f"{snake(owner)}_{name}": fn for (owner, name), fn in program.methods.items()}
        for fn in functions:
            alone = count[fn.name] == 1 and fn.name not in RESERVED and fn.name not in methods
            self.names[fn] = fn.name if alone else f"{self.stem(fn)}_{fn.name}"
        self.names.update({fn: name for name, fn in methods.items()})

    def stem(self, fn):
        return snake(fn.module)

    def request(self, fn, given):
        """The name of a function in C. It is written too, unless that is done by hand."""
        args = tuple(self.types.word(t) for t in given.values())
        name = self.names[fn] + "".join("_" + snake(a) for a in args if a not in USUAL)
        if fn.node.body is not None and (fn, args) not in self.done:
            self.done[fn, args] = None
            self.queue.append((fn, args, {k: known(t) for k, t in given.items()}, name))
        return name

    def run(self):
        """Writes what was asked for, and what that asks for."""
        while self.queue:
            fn, args, given, name = self.queue.pop()
            own = copy.copy(fn)
            own.node = copy.deepcopy(fn.node)
            inferred = Inference(self.program, own, given)
            self.done[fn, args] = FunctionWriter(self, own, inferred, name).write()

    def accessor(self, target):
        """The field that a method gives and does no more, None for another."""
        if target.owner and (target.owner.name, target.name) in FIELDS:
            return FIELDS[target.owner.name, target.name]
        body = target.node.body
        plain = target.node.receiver and body and not body.stmts and not target.node.params
        if plain and body.tail and body.tail.kind == "field" and body.tail.e.kind == "path":
            return body.tail.name if body.tail.e.path == ["self"] else None
        return None

    def const(self, const):
        self.consts[const.name] = const
        return const.name

    def asks_device(self, target):
        """Whether a call of this function may ask the device."""
        return self.accessor(target) is None


class FunctionWriter(Statements):
    """Writes one function."""

    def __init__(self, writer, fn, inferred, name):
        super().__init__(writer, fn, inferred.ret)
        self.params, self.name = inferred.params, name
        # No local hides a function.
        self.called = set(writer.names.values())

    def write(self):
        """Its head, its comment and its lines. A slice is handed over as two parameters, since gcc
        puts a struct of 8 bytes into memory."""
        params, heads = [], {}
        for local in self.params:
            if not self.types.is_unit(local.ty):
                local.cname = self.fresh(local.name)
                of_type, name = self.types.name(local.ty), local.cname
                if is_slice(local.ty):
                    params += [self.spaced(self.types.items(local.ty), f"{name}_items"),
                               f"uint32_t {name}_len"]
                    heads[name] = f"    const {of_type} {name} = " \
                                  f"{{ .items = {name}_items, .len = {name}_len }};"
                else:
                    params.append(self.spaced(of_type, name))
        gives = self.types.name(self.ret)
        if self.types.is_large(self.ret):
            params.append(self.spaced(gives + " *", "made"))
            if self.fresh("made") != "made":
                self.fail(self.fn.node, "a parameter of this name")
            gives, tail = "void", self.fn.node.body.tail
            self.given = tail.local if tail.kind == "path" else None
        if self.types.is_placed(self.ret):
            params.append(self.spaced(self.types.name(known(self.ret).args[0]) + " *", "made"))
            if self.fresh("made") != "made":
                self.fail(self.fn.node, "a parameter of this name")
            given = [node.args[0].local for node in nodes_of(self.fn.node.body)
                     if node.kind == "call" and node.what == "Ok" and node.args[0].kind == "path"]
            self.given = given[0] if given else None
        inline = INLINE.get(self.name, self.fn.node.inline)
        mark = MARKS[inline or ("always" if self.is_short() else None)]
        head = f"{mark} {self.spaced(gives, self.name)}({', '.join(params) or 'void'})"
        self.block(self.fn.node.body, ("discard",) if self.is_void else ("return",))
        if self.lines[-1:] == ["    return;"]:
            self.lines.pop()
        words = self.words_of("\n".join(self.lines))
        lists = [line for name, line in heads.items() if name in words]
        return head, self.comment(self.fn.node.doc, ""), self.unused() + lists + self.lines

    def is_short(self):
        """Whether it gives an Option, which C passes through memory, and does little for it."""
        kinds = {node.kind for node in nodes_of(self.fn.node.body)}
        asks = any(referred(local.ty).name in ASKING for local in self.params)
        return known(self.ret).name == "Option" and not asks and not kinds & LOOPS

    def unused(self):
        """Lines for parameters that the function has no use for."""
        words = self.words_of("\n".join(self.lines))
        names = []
        for local in self.params:
            if local.cname and local.cname not in words:
                parts = ("_items", "_len") if is_slice(local.ty) else ("",)
                names += [local.cname + part for part in parts]
        return [f"    (void){name};" for name in names]
