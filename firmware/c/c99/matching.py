"""Finds the types of patterns, loops and jumps."""
from .types import NEVER, UNIT, USIZE, Type, Unknown, is_ref, known, referred


class Patterns:
    """What `Inference` has for patterns, loops and jumps."""

    def pattern(self, it, of_type):
        """Gives a pattern the type of what it is held against."""
        getattr(self, "pattern_" + it.kind)(it, of_type)

    def pattern_wild(self, _it, _type):
        pass

    def pattern_bind(self, it, of_type):
        it.local = self.declare(it.name, of_type, it.mut)

    def pattern_pint(self, it, of_type):
        self.unify(Unknown(True), of_type, it)
        it.ty = of_type

    def pattern_ptuple(self, it, of_type):
        it.ty = known(of_type)
        for part, of_part in zip(it.parts, it.ty.args):
            self.pattern(part, of_part)

    def pattern_por(self, it, of_type):
        for part in it.parts:
            self.pattern(part, of_type)

    def pattern_pvariant(self, it, of_type):
        it.ty, name = of_type, it.path[-1]
        if len(it.path) > 1:
            self.pattern_of_variant(it, of_type)
        elif name in ("Some", "None", "Ok", "Err"):
            args = [Unknown()] if name in ("Some", "None") else [Unknown(), Unknown()]
            self.unify(of_type, Type("Option" if len(args) == 1 else "Result", args), it)
            it.what = name
            for part in it.parts:
                self.pattern(part, args[name == "Err"])
        else:
            self.pattern_of_name(it, of_type)

    def pattern_of_name(self, it, of_type):
        """A constant, or a struct without fields."""
        const = self.program.find(self.program.consts, it.path[0], self.fn.module)
        if const:
            it.what, it.const = "const", const
            return
        if it.named is not None:
            self.fail(it, "a struct's pattern")
        it.what = "unit"
        self.unify(of_type, Type(self.item(it, it.path[0]).cname), it)

    def pattern_of_variant(self, it, of_type):
        it.what, it.item = "variant", self.item(it, it.path[0])
        self.unify(referred(of_type), Type(it.item.cname), it)
        fields = self.program.variant_fields(it.item, it.path[-1])
        if is_ref(of_type):
            # What stands in a variant that a reference is to is named by references.
            fields = [(name, Type(known(of_type).name, [part])) for name, part in fields]
        if it.named is not None:
            for name, part in it.named:
                self.pattern(part, dict(fields)[name])
        else:
            for part, (_, of_part) in zip(it.parts, fields):
                self.pattern(part, of_part)

    def type_of_loop(self, it, _want):
        self.check(it.body, UNIT)
        return NEVER

    def type_of_while(self, it, _want):
        self.check(it.c, Type("bool"))
        self.check(it.body, UNIT)
        return UNIT

    def type_of_whilelet(self, it, _want):
        of_type = self.infer(it.e)
        self.scopes.append({})
        self.pattern(it.pat, of_type)
        self.check(it.body, UNIT)
        self.scopes.pop()
        return UNIT

    def type_of_for(self, it, _want):
        of_type = known(self.infer(it.e))
        if (it.place is not None) != (it.e.kind == "method" and it.e.name == "enumerate"):
            self.fail(it, "a loop with places")
        self.scopes.append({})
        if of_type.name in ("range", "rev"):
            item = USIZE
        else:
            of_ref = of_type.name if of_type.name == "refmut" else "ref"
            item = Type(of_ref, [referred(of_type).args[0]])
        it.local = self.declare(it.name, item)
        it.local_place = self.declare(it.place, USIZE) if it.place else None
        self.check(it.body, UNIT)
        self.scopes.pop()
        return UNIT

    def type_of_return(self, it, _want):
        if it.e:
            self.check(it.e, self.ret)
        return NEVER

    def type_of_try(self, it, _want):
        of_type, ret = known(self.infer(it.e)), known(self.ret)
        if of_type.name != ret.name:
            self.fail(it, f"a {of_type} in what gives {ret}")
        if of_type.name == "Result":
            self.unify(of_type.args[1], ret.args[1], it)
        return of_type.args[0]

    def type_of_assign(self, it, _want):
        self.check(it.e, self.infer(it.to))
        return UNIT
