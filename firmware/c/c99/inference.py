"""Finds the type of each expression of a function, by making types that meet the same."""
from .lexing import UNKNOWN, Refused
from .program import BOUNDS, BY_VALUE, GIVEN_BY_CALLS, Local
from .types import (BOOL, NEVER, NUMBERS, UNIT, USIZE, Type, Unknown, is_named, is_ref, known,
                    referred)
from .matching import Patterns

OPTIONS = ("Some", "None")
RESULTS = ("Ok", "Err")


class Inference(Patterns):
    """The types of a function: each expression gets its own in `ty`."""

    def __init__(self, program, fn, given):
        self.program, self.fn, self.given = program, fn, given
        self.scopes, self.nodes = [{}], []
        self.ret = self.type(fn.node.ret)
        self.params = [self.declare("self", self.receiver())] if fn.node.receiver else []
        for name, of_type in fn.node.params:
            self.params.append(self.declare(name, self.type(of_type), True))
        self.check(fn.node.body, self.ret)
        for it in self.nodes:
            left = known(it.ty)
            if isinstance(left, Unknown):
                if not left.number:
                    self.fail(it, "no type")
                left.to = USIZE

    def receiver(self):
        kind, owner = self.fn.node.receiver, self.fn.owner
        # A value that can be copied is given as it is.
        copies = getattr(self.program.item_of(owner), "copy", False)
        return Type(kind, [owner]) if kind == "refmut" or kind == "ref" and not copies else owner

    def type(self, written, it=None):
        fn = self.fn
        try:
            return self.program.type(written, fn.module, fn.bounds, fn.owner, self.given)
        except KeyError as error:
            return self.fail(it or fn.node, str(error))

    def fail(self, it, what):
        line = getattr(it, "line", self.fn.node.line)
        path = self.program.paths[self.fn.module]
        raise Refused(f"{path}:{line}: in {self.fn.name}: {what}: {it.kind}")

    def declare(self, name, of_type, changes=False):
        self.scopes[-1][name] = local = Local(name, of_type, changes)
        return local

    def unify(self, a, b, it):
        """Makes two types the same."""
        a, b = known(a), known(b)
        if a is b:
            return
        if isinstance(a, Unknown):
            if isinstance(b, Type) and a.number and b.name not in NUMBERS:
                self.fail(it, f"a number is no {b}")
            if isinstance(b, Unknown):
                b.number = b.number or a.number
            a.to = b
            return
        if isinstance(b, Unknown):
            self.unify(b, a, it)
            return
        lists = {a.name, b.name} == {"array", "slice"}
        if not lists and not (is_ref(a) and is_ref(b)):
            if a.name != b.name or len(a.args) != len(b.args):
                self.fail(it, f"{a} is no {b}")
        for x, y in zip(a.args, b.args):
            self.unify(x, y, it)

    def check(self, it, want):
        """Finds the type of an expression, which has to be this one."""
        got, want = known(self.infer(it, want)), known(want)
        if is_named(got, "never"):
            return
        if is_ref(want) and is_ref(got):
            if is_named(want.args[0], "slice") and is_named(got.args[0], "array"):
                it.to_slice = want
            if is_named(want, "ref") and is_named(got, "refmut"):
                it.only_read = is_named(got.args[0], "slice")
        self.unify(got, want, it)

    def infer(self, it, want=None):
        of_kind = getattr(self, "type_of_" + it.kind, None)
        if of_kind is None:
            self.fail(it, "unknown form")
        try:
            it.ty = of_kind(it, want)
        except UNKNOWN as error:
            self.fail(it, f"unknown form, {error}")
        self.nodes.append(it)
        return it.ty

    def type_of_block(self, it, want):
        self.scopes.append({})
        never = False
        for s in it.stmts:
            if s.kind == "let":
                self.let(s)
            else:
                never = is_named(self.infer(s.e, None if s.semi else UNIT), "never")
        found = NEVER if never else UNIT
        if it.tail:
            if want is not None:
                self.check(it.tail, want)
                found = known(it.tail.ty)
            else:
                found = self.infer(it.tail)
        self.scopes.pop()
        return found

    def let(self, s):
        of_type = self.infer(s.value)
        if s.other:
            self.check(s.other, NEVER)
        self.pattern(s.pat, of_type)

    def type_of_int(self, _it, _want):
        return Unknown(True)

    def type_of_path(self, it, _want):
        name = it.path[-1]
        if len(it.path) > 1:
            if it.path[0] in NUMBERS and name == "MAX":
                return Type(it.path[0])
            item = self.item(it, it.path[0])
            if "::".join(it.path) not in BY_VALUE:
                it.variant = item
            return Type(item.cname)
        for scope in reversed(self.scopes):
            if name in scope:
                it.local = scope[name]
                return it.local.ty
        if name in ("true", "false"):
            return BOOL
        if name == "None":
            return Type("Option", [Unknown()])
        const = self.program.find(self.program.consts, name, self.fn.module)
        if const:
            it.const = const
            return self.type(const.ty)
        return Type(self.item(it, name).cname)

    def item(self, it, name):
        """The struct or enum of this name."""
        if name == "Self":
            return self.program.item_of(self.fn.owner)
        found = self.program.find(self.program.types, name, self.fn.module)
        if found is None:
            self.fail(it, f"no {name}")
        return found

    def type_of_call(self, it, want):
        if it.f.kind != "path":
            self.fail(it, "a call of a value")
        path = it.f.path
        name = path[-1]
        if len(path) == 1 and name in ("Some", "Ok", "Err"):
            return self.wrapped(it, name, want)
        if len(path) == 2 and path[0] in NUMBERS and name == "from":
            it.what = "from"
            self.infer(it.args[0])
            return Type(path[0])
        if len(path) == 2:
            item = self.item(it, path[0])
            if name[0].isupper():
                it.what, it.item = "variant", item
                (_, of_type), = self.program.variant_fields(item, name)
                self.check(it.args[0], of_type)
                return Type(item.cname)
            target = self.program.methods.get((item.cname, name))
        else:
            target = self.program.find(self.program.fns, name, self.fn.module)
        if target is None:
            self.fail(it, f"no function {name}")
        return self.call(it, target)

    def wrapped(self, it, name, want):
        it.what = name
        want = known(want) if want is not None else None
        if is_named(want, "Option", "Result"):
            args = want.args
        else:
            args = [Unknown() for _ in range(1 if name == "Some" else 2)]
        self.check(it.args[0], args[name == "Err"])
        return Type("Option" if name == "Some" else "Result", args)

    def call(self, it, target):
        """The type of a call of this function."""
        it.what, it.target = "fn", target
        bounds = target.bounds
        it.given = {name: Unknown() for name, bound in bounds.items() if bound in GIVEN_BY_CALLS}
        unknown = set(bounds.values()) - {*GIVEN_BY_CALLS, *BOUNDS}
        if unknown:
            self.fail(it, f"the bound {unknown.pop()}")

        def of(written):
            return self.program.type(written, target.module, bounds, target.owner, it.given)

        if len(target.node.params) != len(it.args):
            self.fail(it, "another number of arguments")
        for arg, (_, of_type) in zip(it.args, target.node.params):
            self.check(arg, of(of_type))
        return of(target.node.ret)

    def type_of_method(self, it, _want):
        of_type = referred(self.infer(it.e))
        it.what = "builtin"
        found = self.builtin(it, of_type)
        if found is not None:
            return found
        target = self.program.methods.get((of_type.name, it.name))
        if target is None:
            self.fail(it, f"no method {it.name} of {of_type}")
        return self.call(it, target)

    def builtin(self, it, of_type):
        """The type of a method of Rust's own, None for others."""
        name = it.name
        if of_type.name == "range" and name == "rev":
            return Type("rev", of_type.args)
        if of_type.name == "Option" and name in ("is_some", "is_none"):
            return BOOL
        if of_type.name == "Option" and name == "unwrap_or":
            self.check(it.args[0], of_type.args[0])
            return of_type.args[0]
        if of_type.name in ("slice", "array") and name in ("len", "is_empty"):
            return USIZE if name == "len" else BOOL
        if of_type.name in ("slice", "array") and name in ("iter", "iter_mut"):
            return Type("ref" if name == "iter" else "refmut", [Type("slice", of_type.args[:1])])
        if of_type.name == "Result" and name in ("is_ok", "is_err"):
            return BOOL
        if of_type.name == "slice" and name in ("split_first", "get", "copy_within"):
            return self.of_slice(it, of_type)
        if of_type.name == "slice" and name == "enumerate":
            it.what = "same"
            return it.e.ty
        if of_type.name in ("slice", "array") and name == "first":
            return Type("Option", [Type("ref", [of_type.args[0]])])
        if of_type.name == "u64" and name == "count_ones":
            return Type("u32")
        if of_type.name in ("u16", "u32") and name == "wrapping_sub" or (
                of_type.name == "u32" and name == "wrapping_add") or (
                of_type.name == "usize" and name in ("saturating_sub", "min")):
            self.check(it.args[0], of_type)
            return of_type
        return None

    def of_slice(self, it, of_type):
        """The type of a method of a slice that looks at its items, or moves them."""
        item = Type("ref", [of_type.args[0]])
        if it.name == "split_first":
            return Type("Option", [Type("tuple", [item, Type("ref", [of_type])])])
        self.check(it.args[-1], USIZE)
        if it.name == "get":
            return Type("Option", [item])
        self.infer(it.args[0])
        return UNIT

    def type_of_field(self, it, _want):
        of_type = referred(self.infer(it.e))
        if of_type.name == "tuple":
            return of_type.args[int(it.name)]
        item = self.program.item_of(of_type)
        for name, field, _ in self.program.field_types(item) if item else []:
            if name == it.name:
                return field
        self.fail(it, f"no field {it.name}")

    def type_of_index(self, it, _want):
        of_type = referred(self.infer(it.e))
        at = self.infer(it.at)
        if is_named(at, "range"):
            return Type("slice", of_type.args)
        self.unify(at, USIZE, it)
        return of_type.args[0]

    def type_of_range(self, it, _want):
        for end in (it.low, it.high):
            if end is not None:
                self.check(end, USIZE)
        return Type("range", [USIZE])

    def type_of_binary(self, it, _want):
        if it.op in ("&&", "||"):
            self.check(it.a, BOOL)
            self.check(it.b, BOOL)
            return BOOL
        a, b = self.infer(it.a), self.infer(it.b)
        if it.op in ("<<", ">>"):
            if isinstance(known(b), Unknown):
                self.unify(b, Type("u32"), it)
            return a
        self.unify(a, b, it)
        return BOOL if it.op in ("==", "!=", "<", ">", "<=", ">=") else a

    def type_of_cast(self, it, _want):
        self.infer(it.e)
        return self.type(it.ty, it)

    def type_of_not(self, it, _want):
        self.check(it.e, BOOL)
        return BOOL

    def type_of_deref(self, it, _want):
        return known(self.infer(it.e)).args[0]

    def type_of_addr(self, it, _want):
        return Type("refmut" if it.mut else "ref", [self.infer(it.e)])

    def type_of_tuple(self, it, want):
        want = known(want) if want is not None else None
        if is_named(want, "tuple") and len(want.args) == len(it.parts):
            for part, of_type in zip(it.parts, want.args):
                self.check(part, of_type)
            return want
        return Type("tuple", [self.infer(part) for part in it.parts])

    def type_of_list(self, it, _want):
        of_type = Unknown()
        for part in it.parts:
            self.check(part, of_type)
        return Type("array", [of_type], str(len(it.parts)))

    def type_of_repeat(self, it, _want):
        self.check(it.size, USIZE)
        return Type("array", [self.infer(it.e)], it.size)

    def type_of_struct(self, it, _want):
        it.variant = it.path[1] if len(it.path) == 2 else None
        it.item = item = self.item(it, it.path[0])
        if it.variant:
            fields = dict(self.program.variant_fields(item, it.variant))
        else:
            fields = {name: of_type for name, of_type, _ in self.program.field_types(item)}
        for name, value in it.fields:
            self.check(value, fields[name])
        return Type(item.cname)

    def type_of_if(self, it, want):
        self.check(it.c, BOOL)
        return self.branches([it.then] + ([it.other] if it.other else []), want, bool(it.other))

    def type_of_iflet(self, it, want):
        of_type = self.infer(it.e)
        self.scopes.append({})
        self.pattern(it.pat, of_type)
        if it.other:
            self.fail(it, "if let with else")
        found = self.branches([it.then], want, False)
        self.scopes.pop()
        return found

    def branches(self, bodies, want, covers):
        """The type of bodies of which one is done; all cases are there where they cover."""
        found = want
        for body in bodies:
            if found is None:
                got = self.infer(body)
                found = None if is_named(got, "never") else got
            else:
                self.check(body, found)
        if covers and all(is_named(body.ty, "never") for body in bodies):
            return NEVER
        return found if found is not None else UNIT

    def type_of_match(self, it, want):
        of_type = self.infer(it.e)
        found = want
        for arm in it.arms:
            self.scopes.append({})
            self.pattern(arm.pat, of_type)
            if arm.guard:
                self.check(arm.guard, BOOL)
            if found is None:
                got = self.infer(arm.body)
                found = None if is_named(got, "never") else got
            else:
                self.check(arm.body, found)
            self.scopes.pop()
        return found if found is not None else NEVER

    def type_of_matches(self, it, _want):
        self.pattern(it.pat, self.infer(it.e))
        return BOOL
