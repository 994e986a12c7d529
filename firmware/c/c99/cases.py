"""What patterns ask of a value, and what they name of it."""
import re

from .c_types import snake
from .program import INNER, is_flat
from .text import Text
from .types import is_ref, is_slice, known


# What a function makes where its caller keeps it.
GIVEN = "(*made)"


class First(str):
    """A list of which a pattern takes the first and what is behind it."""


def member(held, field):
    """A member of a value, or of what a reference is to."""
    behind = re.fullmatch(r"\(\*(.*)\)", held)
    return f"{behind[1]}->{field}" if behind else f"{held}.{field}"


class Cases(Text):
    """What `FunctionWriter` has for patterns: their conditions, and their locals with values."""

    def pattern(self, it, held, of_type):
        return getattr(self, "case_of_" + it.kind)(it, held, known(of_type))

    def case_of_wild(self, _it, _held, _type):
        return [], []

    def case_of_bind(self, it, held, _type):
        return [], [(it.local, held)]

    def case_of_pint(self, it, held, of_type):
        return [f"{held} == {self.number(it, of_type)}"], []

    def case_of_por(self, it, held, of_type):
        found = [self.pattern(part, held, of_type) for part in it.parts]
        if any(binds or len(conditions) != 1 for conditions, binds in found):
            self.fail(it, "a pattern of several that names something")
        alternatives = " || ".join(conditions[0] for conditions, _ in found)
        return [f"({alternatives})"], []

    def case_of_ptuple(self, it, held, of_type):
        parts = held if isinstance(held, list) else [f"{held}.first", f"{held}.second"]
        conditions, binds = [], []
        for part, text, of_part in zip(it.parts, parts, of_type.args):
            more, named = self.pattern(part, text, of_part)
            conditions, binds = conditions + more, binds + named
        return conditions, binds

    def case_of_pvariant(self, it, held, of_type):
        if it.what == "unit":
            return [], []
        if it.what == "const":
            return [f"{held} == {self.writer.const(it.const)}"], []
        if it.what in ("Some", "None"):
            return self.case_of_option(it, held, of_type)
        if it.what in ("Ok", "Err"):
            return self.case_of_result(it, held, of_type)
        return self.case_of_variant(it, held, of_type)

    def case_of_option(self, it, held, of_type):
        """A reference that may be none is a pointer."""
        if isinstance(held, First):
            return self.case_of_first(it, held, of_type)
        pointer = is_ref(of_type.args[0])
        first = f"{held}.items" if pointer and is_slice(of_type.args[0]) else held
        if it.what == "None":
            return [f"{first} == NULL" if pointer else f"!{held}.some"], []
        value, there = (held, f"{first} != NULL") if pointer else (f"{held}.value", f"{held}.some")
        more, binds = self.pattern(it.parts[0], value, of_type.args[0])
        return [there, *more], binds

    def case_of_first(self, it, held, of_type):
        """What `split_first` gives of a list."""
        if it.what == "None":
            return [f"{held}.len == 0u"], []
        (first, rest), (of_first, of_rest) = it.parts[0].parts, known(of_type.args[0]).args
        behind = f"({self.types.name(of_rest)}){{ .items = &{held}.items[1], " \
                 f".len = {held}.len - 1u }}"
        binds = self.pattern(first, f"{held}.items", of_first)[1]
        return [f"{held}.len != 0u"], binds + self.pattern(rest, behind, of_rest)[1]

    def case_of_result(self, it, held, of_type):
        good = it.what == "Ok"
        if self.types.is_step(of_type):
            return [f"{held} == {'DONE' if good else 'CUT'}"], []
        if self.types.is_told(of_type):
            value = (GIVEN if self.types.is_placed(of_type) else "") if good else held
            more, binds = self.pattern(it.parts[0], value, of_type.args[not good])
            sign = "==" if good else "!="
            return more or [f"{held} {sign} {self.types.good(of_type)}"], binds
        field = "value" if good else "error"
        more, binds = self.pattern(it.parts[0], f"{held}.{field}", of_type.args[not good])
        return [f"{held}.ok" if good else f"!{held}.ok", *more], binds

    def case_of_variant(self, it, held, of_type):
        item, name = it.item, it.path[-1]
        if (item.name, name) in INNER:
            test = f"{snake(item.cname)}_is_{snake(name)}"
            others = [f"{item.cname}_{of[0]}" for of in item.variants if of[0] != name]
            self.types.tests[test] = item.cname, " && ".join(f"fault != {it}" for it in others)
            inner = self.pattern(it.parts[0], held, self.program.variant_fields(item, name)[0][1])
            return [f"{test}({held})", *inner[0]], inner[1]
        tag = held if is_flat(item) else member(held, "tag")
        conditions, binds = [f"{tag} == {item.cname}_{name}"], []
        fields = self.program.variant_fields(item, name)
        if it.named is not None:
            parts = [(part, member(held, field), dict(fields)[field]) for field, part in it.named]
        else:
            parts = [(part, member(held, snake(name)), of_part)
                     for part, (_, of_part) in zip(it.parts, fields)]
        if is_ref(of_type):
            parts = [(part, "&" + text, of_part) for part, text, of_part in parts]
        for part, text, of_part in parts:
            more, named = self.pattern(part, text, of_part)
            conditions, binds = conditions + more, binds + named
        return conditions, binds

    def negated(self, it, conditions):
        if len(conditions) != 1:
            self.fail(it, "a pattern of several parts that may not hold")
        condition = conditions[0]
        if re.fullmatch(r"!?[\w.>\-]+(\(\w+\))?", condition):
            return condition[1:] if condition.startswith("!") else "!" + condition
        for sign, other in ((" == ", " != "), (" != ", " == ")):
            if sign in condition:
                return condition.replace(sign, other)
        return f"!({condition})"
