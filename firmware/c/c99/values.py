"""Writes expressions."""
import re

from .c_types import ALIASES, C_NUMBERS, HAND, snake
from .cases import GIVEN, Cases, First
from .lexing import UNKNOWN
from .program import BY_VALUE, is_flat
from .text import nodes_of
from .types import NUMBERS, Type, is_named, is_ref, is_slice, known, referred

LEVEL = {"||": 1, "&&": 2, "|": 3, "^": 4, "&": 5, "==": 6, "!=": 6, "<": 7, ">": 7, "<=": 7,
         ">=": 7, "<<": 8, ">>": 8, "+": 9, "-": 9, "*": 10, "/": 10, "%": 10}
AND, EQUAL = LEVEL["&&"], LEVEL["=="]
# A choice binds least, what is called or indexed most.
CHOICE, UNARY, POSTFIX = 0, 11, 12
# Methods of Rust's own on numbers, by their names in C.
OWN = {"saturating_sub": "saturating_sub", "wrapping_sub": "wrapping_sub", "wrapping_add": "wrapping_add",
       "min": "least", "count_ones": "count_ones"}
# Types of the hand-written part over the driver.
DEVICES = {"Device", "Numbers", "EccNumbers"}
# What asks the device.
ASKING = HAND | {"Pairs", "Coded", "Store"}


class Piece:
    """A text of C, and how strongly it binds."""

    def __init__(self, text, level=POSTFIX):
        self.text, self.level = text, level

    def at(self, level):
        return self.text if self.level >= level else f"({self.text})"


def member_of(piece, field):
    """A field of a value."""
    return Piece(f"made->{field}" if piece.text == GIVEN else f"{piece.at(POSTFIX)}.{field}")


class Values(Cases):
    """What `FunctionWriter` has for expressions."""

    def value(self, it, hint=None):
        """An expression. What has to be done before it is written at once."""
        of_kind = getattr(self, "value_of_" + it.kind, None)
        if of_kind is None:
            return self.hoisted(it)
        try:
            piece = of_kind(it, hint) if it.kind == "try" else of_kind(it)
        except UNKNOWN as error:
            self.fail(it, f"unknown form, {error}")
        if hasattr(it, "to_slice") and it.kind != "addr":
            self.fail(it, "an array as a slice")
        if getattr(it, "only_read", False):
            if it.kind != "path":
                self.fail(it, "a list that is given on to be read")
            held = piece.at(POSTFIX)
            of_type = Type("ref", known(it.ty).args)
            return self.literal(of_type, [f".items = {held}.items", f".len = {held}.len"])
        return piece

    def whole(self, it):
        """The value itself, also where the expression is a reference to it."""
        piece = self.value(it)
        if is_ref(it.ty) and not is_named(known(it.ty).args[0], "slice"):
            return Piece("*" + piece.at(UNARY), UNARY)
        return piece

    def pointer(self, it):
        """A pointer to the value of a place."""
        return self.value(it) if is_ref(it.ty) else self.address_of(self.value(it))

    @staticmethod
    def address_of(piece):
        if piece.text == GIVEN:
            return Piece("made")
        if re.fullmatch(r"\*\w+(->\w+)?", piece.text):
            return Piece(piece.text[1:])
        return Piece("&" + piece.at(POSTFIX), UNARY)

    def hoisted(self, it):
        name = self.fresh("it")
        self.emit(self.spaced(self.types.name(it.ty), name) + ";")
        self.to(it, ("assign", [name]))
        return Piece(name)

    def stable(self, it, pattern=None):
        """A text that reads a value again and again, or texts for the parts of a tuple."""
        if it.kind == "tuple":
            return [self.stable(part) for part in it.parts]
        if it.kind == "method" and it.what == "builtin" and it.name == "split_first":
            return First(self.stable(it.e))
        inner = it
        while inner.kind == "field":
            inner = inner.e
        if inner.kind == "path" and getattr(inner, "local", None) is not None:
            return self.whole(it).at(POSTFIX)
        return self.temporary(self.hint(it, pattern), it.ty, self.whole(it).text)

    def number(self, it, of_type):
        number = int(it.text.replace("_", ""), 0)
        digits = f"0x{number:X}" if it.text.startswith("0x") else str(number)
        if number > 0xffff:
            return f"UINT{64 if known(of_type).name == 'u64' else 32}_C({digits})"
        return digits + "u"

    def literal(self, of_type, fields):
        return Piece(f"({self.types.name(of_type)}){{ {', '.join(fields)} }}")

    def made(self, of_type, word, flag, fields=()):
        """The value of a type with a tag: by a function that makes it."""
        in_c = self.types.name(of_type)
        name = f"{snake(in_c)}_{snake(word)}"
        self.types.makers.setdefault(name, (in_c, flag, [field for field, _ in fields]))
        return Piece(f"{name}({', '.join(text for _, text in fields)})")

    def value_of_int(self, it):
        return Piece(self.number(it, it.ty))

    def value_of_path(self, it):
        if getattr(it, "local", None) is not None:
            return Piece("" if self.types.is_unit(it.local.ty) else it.local.cname)
        if getattr(it, "const", None) is not None:
            return Piece(self.writer.const(it.const))
        if it.path in (["true"], ["false"]):
            return Piece(it.path[0])
        if it.path == ["None"] and not is_ref(known(it.ty).args[0]):
            return self.made(it.ty, "none", ("some", "false"))
        if it.path[-1] == "MAX" and it.path[0] in NUMBERS:
            return Piece(C_NUMBERS[it.path[0]].upper().replace("_T", "_MAX"))
        item = getattr(it, "variant", None)
        if item is None:
            return Piece(BY_VALUE.get("::".join(it.path), ""))
        name = f"{item.cname}_{it.path[-1]}"
        return Piece(name) if is_flat(item) else self.made(it.ty, it.path[-1], ("tag", name))

    def asks(self, it):
        """Whether an expression asks the device."""
        for node in nodes_of(it):
            target = getattr(node, "target", None)
            if target is not None and self.writer.asks_device(target):
                args = ([node.e] if node.kind == "method" else []) + node.args
                if any(referred(arg.ty).name in ASKING for arg in args):
                    return True
        return False

    def arguments(self, it):
        """The arguments of a call. What asks the device is asked in order."""
        several = sum(self.asks(arg) for arg in it.args) > 1
        found = []
        for arg, (name, _) in zip(it.args, it.target.node.params):
            piece = self.value(arg)
            if several and self.asks(arg):
                piece = Piece(self.temporary(name, arg.ty, piece.text))
            of_type = getattr(arg, "to_slice", None) or arg.ty
            if is_slice(of_type) and not self.is_of_device(it.target):
                found += self.items_and_length(piece, name, of_type)
            elif not self.types.is_unit(arg.ty):
                found.append(piece.text)
        return found

    @staticmethod
    def is_of_device(target):
        """Whether a function is written by hand over the driver."""
        return target.owner is not None and target.owner.name in DEVICES

    def items_and_length(self, piece, name, of_type):
        """A list as two arguments."""
        made = re.fullmatch(r"\(\w+\)\{ \.items = (.*), \.len = (.*) \}", piece.text)
        if made:
            return [made[1], made[2]]
        held = piece.text
        if not re.fullmatch(r"\w+((\.|->)\w+)*", held):
            held = self.temporary(name, of_type, held)
        return [f"{held}.items", f"{held}.len"]

    def in_order(self, it, parts):
        """C says not in which order parts are done: one alone may ask the device."""
        if sum(self.asks(part) for part in parts) > 1:
            self.fail(it, "two parts that ask the device")

    def value_of_call(self, it):
        if it.what == "from":
            return self.cast(it.ty, it.args[0])
        if it.what in ("Some", "Ok", "Err"):
            return self.wrapped(it)
        if it.what == "variant":
            name = it.f.path[-1]
            value = self.value(it.args[0]).text
            return self.made(it.ty, name, ("tag", f"{it.item.cname}_{name}"),
                             [(snake(name), value)])
        return self.called_with(it, self.arguments(it))

    def called_with(self, it, args):
        if self.types.is_large(it.ty):
            made_by, place = self.place
            if made_by is not it:
                self.fail(it, "a list that is copied")
            args = [*args, place]
        if self.types.is_placed(it.ty):
            made_by, place = self.place
            if made_by is not it and not self.types.is_placed(self.ret):
                self.fail(it, "what is made in the place of no caller")
            args = [*args, place if made_by is it else "made"]
        return Piece(f"{self.writer.request(it.target, it.given)}({', '.join(args)})")

    def wrapped(self, it):
        of_type, value = known(it.ty), self.value(it.args[0]).text
        good = it.what != "Err"
        if self.types.is_told(of_type):
            return self.told(it, of_type, value)
        if self.types.is_step(of_type):
            if value:
                self.emit(f"(void){value};")
            return Piece("DONE" if good else "CUT")
        flag = ("some" if it.what == "Some" else "ok", "true" if good else "false")
        if self.types.is_unit(of_type.args[not good]):
            return self.made(of_type, it.what, flag)
        return self.made(of_type, it.what, flag, [("value" if good else "error", value)])

    def told(self, it, of_type, value):
        """A Result that is a number. Its value is made where the caller says, if it is kept."""
        if self.types.name(of_type) != self.types.name(self.ret):
            self.fail(it, "a Result of another function")
        if it.what == "Err":
            return Piece("CUT" if self.types.is_unit(of_type.args[1]) else value)
        if self.types.is_placed(of_type) and value != GIVEN:
            self.emit(f"*made = {value};")
        return Piece(self.types.good(of_type))

    def value_of_method(self, it):
        if it.what in ("builtin", "same"):
            return self.builtin(it)
        field = self.writer.accessor(it.target)
        if field is not None:
            return self.field_of(it.e, field)
        args = self.arguments(it)
        if self.types.is_unit(it.e.ty):
            return self.called_with(it, args)
        receiver = it.target.node.receiver
        copies = getattr(self.program.item_of(it.target.owner), "copy", False)
        by_value = receiver == "value" or receiver == "ref" and copies
        me = self.whole(it.e) if by_value else self.pointer(it.e)
        return self.called_with(it, [me.text, *args])

    def builtin(self, it):
        """A method of Rust's own."""
        if it.name == "unwrap_or":
            held = self.stable(it.e)
            return Piece(f"{held}.some ? {held}.value : {self.value(it.args[0]).text}", CHOICE)
        if it.name in ("iter", "iter_mut", "enumerate"):
            return self.value(it.e)
        if it.name in OWN:
            name = f"{known(it.e.ty).name}_{OWN[it.name]}"
            name = name.replace("usize", "u32")
            args = ", ".join(self.value(part).text for part in (it.e, *it.args))
            return Piece(f"{name}({args})")
        if it.name in ("is_ok", "is_err"):
            return self.is_good(it)
        if it.name == "get":
            held, at = self.stable(it.e), self.stable(it.args[0])
            return Piece(f"{at} < {held}.len ? &{held}.items[{at}] : NULL", CHOICE)
        if it.name == "copy_within":
            held, (span, to) = self.stable(it.e), it.args
            parts = ", ".join(self.value(part).text for part in (span.low, span.high, to))
            return Piece(f"copy_within({held}.items, {parts})")
        if it.name == "first":
            held = self.temporary("list", it.e.ty, self.value(it.e).text)
            return Piece(f"{held}.len > 0u ? &{held}.items[0] : NULL", CHOICE)
        held = self.whole(it.e).at(POSTFIX)
        if it.name == "is_some":
            return Piece(f"{held}.some")
        if it.name == "is_none":
            return Piece(f"!{held}.some", UNARY)
        if is_named(referred(it.e.ty), "array"):
            self.fail(it, "the length of an array")
        if it.name == "len":
            return Piece(f"{held}.len")
        return Piece(f"{held}.len == 0u", EQUAL)

    def is_good(self, it):
        """Whether a Result is a good one, or isn't."""
        held, good = self.value(it.e), it.name == "is_ok"
        if self.types.is_step(it.e.ty):
            return Piece(f"{held.at(EQUAL + 1)} == {'DONE' if good else 'CUT'}", EQUAL)
        return Piece(f"{'' if good else '!'}{held.at(POSTFIX)}.ok", POSTFIX if good else UNARY)

    def field_of(self, it, field):
        """A field of a value, or of what a reference is to."""
        if ALIASES.get(referred(it.ty).name) == field:
            return self.whole(it)
        piece = self.value(it)
        if not is_ref(it.ty):
            return member_of(piece, field)
        if piece.text.startswith("&"):
            return Piece(f"{piece.text[1:]}.{field}")
        return Piece(f"{piece.at(POSTFIX)}->{field}")

    def value_of_field(self, it):
        return self.field_of(it.e, {"0": "first", "1": "second"}.get(it.name, it.name))

    def value_of_index(self, it):
        if getattr(it, "by", None):
            return Piece(it.by, UNARY)
        if is_named(it.ty, "slice"):
            self.fail(it, "a slice without a reference")
        items = ".items" if is_named(referred(it.e.ty), "slice") else ""
        return Piece(f"{self.value(it.e).at(POSTFIX)}{items}[{self.value(it.at).text}]")

    def value_of_binary(self, it):
        self.check_binary(it)
        a = self.low_part(it) or self.value(it.a)
        mark = len(self.lines)
        b = self.value(it.b)
        if len(self.lines) > mark and it.op in ("&&", "||"):
            self.fail(it, "a second operand that takes statements")
        level = LEVEL[it.op]
        if is_named(it.a.ty, "u8", "u16") and level >= LEVEL["+"]:
            # In 32 bits, since C would do it in an int.
            of_type = C_NUMBERS[known(it.a.ty).name]
            text = f"(uint32_t){a.at(UNARY)} {it.op} {b.at(UNARY)}"
            return Piece(f"({of_type})({text})", UNARY)
        left = self.side(it, a, level)
        if it.op == "<<" and it.a.kind == "int":
            left = f"UINT{64 if is_named(it.a.ty, 'u64') else 32}_C({it.a.text})"
        return Piece(f"{left} {it.op} {self.side(it, b, level + 1)}", level)

    def low_part(self, it):
        """A part of a number of 64 bits that is compared, and stands in its low 32: it is taken of
        those, since a shift of 64 bits is several of most processors."""
        part = it.a
        if LEVEL[it.op] not in (EQUAL, LEVEL["<"]) or part.kind != "binary" or part.op != "&":
            return None
        shift, mask = part.a, part.b
        if mask.kind != "int" or shift.kind != "binary" or shift.op != ">>":
            return None
        if shift.b.kind != "int" or not is_named(shift.a.ty, "u64"):
            return None
        if int(shift.b.text, 0) + int(mask.text, 0).bit_length() > 32:
            return None
        low = f"(uint32_t){self.value(shift.a).at(UNARY)}"
        return Piece(f"({low} >> {shift.b.text}u) & {self.number(mask, mask.ty)}", LEVEL["&"])

    @staticmethod
    def side(it, piece, least):
        """An operand, in brackets too where C's readers are easily wrong."""
        strict = it.op in ("|", "&", "^", "<<", ">>")
        if strict and piece.level < UNARY or it.op == "||" and piece.level == AND:
            return f"({piece.text})"
        return piece.at(least)

    def check_binary(self, it):
        """Refuses what C would do in another way."""
        of_type = known(it.a.ty)
        if it.op not in LEVEL:
            self.fail(it, f"the sign {it.op}")
        if of_type.name in ("u8", "u16") and it.op in ("<<", ">>"):
            self.fail(it, f"{it.op} of {of_type}, which C does in an int")
        if it.op in ("==", "!=") and of_type.name not in (*NUMBERS, *ALIASES, "bool"):
            if not is_flat(self.program.item_of(of_type)):
                self.fail(it, f"{it.op} of {of_type}")
        if it.op not in ("&&", "||"):
            self.in_order(it, [it.a, it.b])

    def cast(self, of_type, inner):
        return Piece(f"({C_NUMBERS[known(of_type).name]}){self.value(inner).at(UNARY)}", UNARY)

    def value_of_cast(self, it):
        return self.cast(it.ty, it.e)

    def value_of_not(self, it):
        piece = self.value(it.e)
        if piece.level == EQUAL and piece.text.count(" == ") == 1:
            return Piece(piece.text.replace(" == ", " != "), piece.level)
        return Piece("!" + piece.at(UNARY), UNARY)

    def value_of_deref(self, it):
        return Piece("*" + self.value(it.e).at(UNARY), UNARY)

    def value_of_addr(self, it):
        inner = it.e
        if inner.kind == "index" and inner.at.kind == "range":
            return self.part_of(it, inner)
        if inner.kind == "deref" and is_slice(inner.e.ty):
            return self.value(inner.e)
        if getattr(it, "to_slice", None) is not None:
            return self.list_of(it, inner)
        if is_named(inner.ty, "array"):
            # The name of an array is a pointer to its first.
            return self.value(inner)
        return self.address_of(self.value(inner))

    def part_of(self, it, inner):
        """The first of an array or a list, or what is left of a list from a place on."""
        low, high = inner.at.low, inner.at.high
        is_array = is_named(referred(inner.e.ty), "array")
        if (low is None) == (high is None) or low is not None and is_array:
            self.fail(it, "a slice that starts within")
        if low is not None:
            held, at = self.stable(inner.e), self.temporary("from", low.ty, self.value(low).text)
            return self.literal(it.ty, [f".items = &{held}.items[{at}]", f".len = {held}.len - {at}"])
        items, count = self.value(inner.e), self.value(high).text
        first = items.text if is_array else items.at(POSTFIX) + ".items"
        return self.literal(it.ty, [f".items = {first}", f".len = {count}"])

    def list_of(self, it, inner):
        """An array as a list."""
        if inner.kind == "list":
            if not inner.parts:
                return self.literal(it.to_slice, [".items = NULL", ".len = 0u"])
            if len(inner.parts) == 1 and inner.parts[0].kind == "path":
                only = self.value(inner.parts[0]).text
                return self.literal(it.to_slice, [f".items = &{only}", ".len = 1u"])
            self.fail(it, "a list")
        size = known(inner.ty).size
        if not isinstance(size, str):
            size = size.text if size.kind == "int" else size.path[-1]
        const = self.program.find(self.program.consts, size, self.fn.module)
        if const is None and not size.isdigit():
            self.fail(it, "an array of no constant's size")
        count = self.writer.const(const) if const else f"{size}u"
        return self.literal(it.to_slice, [f".items = {self.value(inner).text}", f".len = {count}"])

    def value_of_tuple(self, it):
        self.in_order(it, it.parts)
        fields = [f".{field} = {self.value(part).text}"
                  for field, part in zip(("first", "second"), it.parts)
                  if not self.types.is_unit(part.ty)]
        return self.literal(it.ty, fields) if it.parts else Piece("")

    def value_of_struct(self, it, into=None):
        if it.item.cname in ALIASES:
            return self.value(it.fields[0][1])
        fields = [(name, part) for name, part in it.fields if not self.types.is_unit(part.ty)]
        self.in_order(it, [part for _, part in fields])
        if self.types.is_large(it.ty):
            return self.made_in_place(it, into or self.fresh("made"), fields)
        if it.variant:
            return self.made(it.ty, it.variant, ("tag", f"{it.item.cname}_{it.variant}"),
                             [(name, self.value(part).text) for name, part in fields])
        return self.literal(it.ty, [f".{name} = {self.value(part).text}" for name, part in fields])

    def made_in_place(self, it, name, fields):
        """A struct with a list: it is made where it stays."""
        if name != GIVEN:
            self.emit(f"{self.types.name(it.ty)} {name};")
        for field, part in fields:
            member = member_of(Piece(name), field).text
            if part.kind == "repeat":
                self.same_in_all(member, part)
            elif self.types.is_large(part.ty):
                self.call_into(part, f"&{member}")
            else:
                self.emit(f"{member} = {self.value(part).text};")
        return Piece(name)

    def call_into(self, it, place):
        """A call of a function that makes a struct with a list in a place of its caller."""
        if it.kind not in ("call", "method"):
            self.fail(it, "a list that is copied")
        self.place = it, place
        self.emit(self.value(it).text + ";")
        self.place = None, None

    def give_in_place(self, it):
        """Makes what the function gives where its caller keeps it, unless it stands there."""
        if it.kind == "struct":
            self.value_of_struct(it, GIVEN)
        elif it.kind == "call" and it.what == "variant":
            self.variant_in_place(it)
        elif it.kind != "path" or it.local.cname != GIVEN:
            self.call_into(it, "made")
        self.emit("return;")

    def variant_in_place(self, it):
        """A variant with one field, made where the caller keeps it."""
        name, (part,) = it.f.path[-1], it.args
        self.emit(f"made->tag = {it.item.cname}_{name};")
        if self.types.is_large(part.ty):
            self.call_into(part, f"&made->{snake(name)}")
        else:
            self.emit(f"made->{snake(name)} = {self.value(part).text};")

    def other_uses(self, local):
        """The uses of a local but as a room that is handed over to be filled."""
        runs = [call for call in nodes_of(self.fn.node.body) if call.kind in ("call", "method")
                and getattr(call, "target", None) is not None
                and call.target.node.name in ("run", "run_from")]
        rooms = [node for call in runs for node in nodes_of(call.args[-1])]
        return [node for node in nodes_of(self.fn.node.body) if node.kind == "path"
                and getattr(node, "local", None) is local and node not in rooms]

    def array(self, it, name, local):
        """A local that is an array of one value again and again. One of UNREAD is only read where
        `run` filled it."""
        of_item = self.types.name(known(it.ty).args[0])
        self.emit(f"{of_item} {name}[{self.value(it.size).text}];")
        is_room = self.value(it.e).text == "UNREAD"
        if not is_room:
            self.same_in_all(name, it)
        for other in self.other_uses(local) if is_room else ():
            self.fail(other, "an array of UNREAD that is more than a room for runs")

    def listed(self, it, name):
        """A local that is an array of one value."""
        if len(it.parts) != 1:
            self.fail(it, "a list")
        of_item = self.types.name(known(it.ty).args[0])
        self.emit(f"{of_item} {name}[1] = {{{self.value(it.parts[0]).text}}};")

    def same_in_all(self, name, it):
        """Puts one value into each place of an array."""
        at, size = self.fresh("at"), self.value(it.size).text
        self.emit(f"for (uint32_t {at} = 0u; {at} < {size}; {at}++) {{")
        self.emit(f"    {name}[{at}] = {self.value(it.e).text};")
        self.emit("}")
        self.scopes[-1].discard(at)

    def value_of_matches(self, it):
        held = self.stable(it.e)
        conditions, _ = self.pattern(it.pat, held, it.e.ty)
        text = " && ".join(conditions)
        if len(conditions) > 1:
            return Piece(text, AND)
        return Piece(text, POSTFIX if text.startswith("(") else EQUAL)

    def value_of_try(self, it, hint=None):
        inner, held = it.e, None
        if self.types.is_step(inner.ty):
            condition = f"{self.value(inner).at(EQUAL + 1)} == CUT"
        elif self.types.is_told(inner.ty):
            self.fail(it, "? of a Result that is a number")
        else:
            name = hint or self.hint(inner).replace("_result", "").replace("maybe_", "")
            prefix, suffix = ("maybe_", "") if is_named(inner.ty, "Option") else ("", "_result")
            held = self.temporary(prefix + name + suffix, inner.ty, self.value(inner).text)
            condition = f"!{held}.{'some' if prefix else 'ok'}"
        self.emit(f"if ({condition}) {{")
        self.emit(f"    return {self.handed_on(held)};")
        self.emit("}")
        return Piece("" if self.types.is_unit(it.ty) else f"{held}.value")

    def handed_on(self, held):
        """What the function gives where `?` ends it."""
        ret = known(self.ret)
        if self.types.is_step(ret):
            return "CUT"
        if self.types.is_told(ret):
            return "CUT" if self.types.is_unit(ret.args[1]) else f"{held}.error"
        if ret.name == "Option":
            return self.made(ret, "none", ("some", "false")).text
        fault = [] if self.types.is_unit(ret.args[1]) else [("error", f"{held}.error")]
        return self.made(ret, "err", ("ok", "false"), fault).text
