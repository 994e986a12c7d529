"""The types of C that the functions need, and what makes values of them."""
import re

from .program import FAULTS, INNER, STATUSES, is_flat
from .lexing import Refused
from .types import NUMBERS, UNIT, Type, is_ref, known

C_NUMBERS = {"u8": "uint8_t", "u16": "uint16_t", "u32": "uint32_t", "u64": "uint64_t",
             "usize": "uint32_t"}
# Structs that are the type of their one field, by its name.
ALIASES = {"Address": "number", "Pairs": "nor", "Coded": "nor"}
# Structs that stand in ee.h, with their names there and their fields.
IN_HEADER = {"Shape": ("struct ee_shape", ["pages", "words"]),
             "Layout": ("struct ee_layout", ["side", "generation", "fill", "current"]),
             "Known": ("struct ee_known", ["layout", "lookup"]),
             "LentList": ("struct ee_list", ["room", "count"]),
             "LentIndex": ("struct ee_index", ["list", "is_given_up"]),
             "Store": ("struct ee_kept", ["flash", "known"]),
             "Span": ("ee_span", ["first", "count", "numbers"]),
             "Put": ("ee_value", ["address", "value"])}
# An enum is a number of 8 bits, whatever size a compiler gives an enum; in one of those of 32.
IN_STORE = {"Side"}
# Shorter names of types that are made of others.
SHORT = {
    "AddressAndMaybeU32": "Said", "MaybeAddressAndMaybeU32": "MaybeSaid",
    "MaybeMaybeU32": "MaybeSaidValue", "AddressAndU32": "Live", "MaybeAddressAndU32": "MaybeLive",
    "IndexAndIndex": "IndexPair", "IndexAndIndexOrIndexAndIndex": "FrontResult",
    "IndexOrIndex": "PlaceResult", "UnitOrIndexAndIndex": "BlankResult",
    "SideAndU32": "LiveSet", "SideAndU32OrScanFault": "LiveSetResult",
    "LayoutOrScanFault": "ScanResult", "DeviceAndOpenFault": "OpenRefusal",
    "StoreOrDeviceAndOpenFault": "OpenResult", "DeviceAndCut": "FormatRefusal",
    "StoreOrDeviceAndCut": "FormatResult", "MaybeU32OrOff": "ReadResult",
    "WrittenOrWriteFault": "WriteResult", "WrittenOrWriteAllFault": "WriteAllResult",
    "WrittenOrForgetFault": "ForgetResult", "BoolOrWriteFault": "CleanResult",
    "BoolOrClearFault": "ClearResult", "StoreAndIndex": "RescuedStore",
    "DeviceAndRescueFault": "RescueRefusal", "StoreAndIndexOrDeviceAndRescueFault": "RescueResult",
    "AddressAndU16": "Entry", "MaybeAddressAndU16AndListOfEntry": "MaybeShown",
    "AddressAndU16AndListOfEntry": "Shown", "MaybeAddressAndIndex": "MaybePlaced",
    "AddressAndIndex": "Placed",
}
# What a call that may fail makes where its caller says, and what no caller asks for.
PLACED, DROPPED = {"Layout", "CopyingPlace"}, {"Written"}
# Types that are written by hand.
HAND = {"Device", "Numbers", "EccNumbers", "Lookup"}
# Names of those in ee.h that no item has: a tuple, and a list of such.
ALSO_IN_HEADER = {"AddressAndU16": "ee_entry", "RoomOfEntry": "struct ee_room"}


def snake(name):
    return re.sub(r"(?<!^)(?=[A-Z])", "_", name).lower()


def spaced(of_type, name):
    """A declaration of a name."""
    return f"{of_type}{'' if of_type.endswith('*') else ' '}{name}"


def comment_of(doc, indent=""):
    """Comments of the sources as one of C's, as lines."""
    lines = [re.sub(r"^//+!? ?", "", x) for x in doc if not x.startswith(("//!", "// Made by", "// SPDX"))]
    if not lines:
        return []
    lines = [re.sub(r"^# (.*)", r"\1:", x).replace("*/", "* /") for x in lines]
    made = [f"{indent}/* {lines[0]}"] + [f"{indent} * {x}".rstrip() for x in lines[1:]]
    made[-1] += " */"
    return made


class Types:
    """The C types that are asked for, each with its lines and the types that stand before it."""

    def __init__(self, program):
        self.program = program
        self.used, self.makers, self.tests = {}, {}, {}

    def is_unit(self, it):
        """Whether a type has one value alone, so that nothing of it is kept."""
        it = known(it)
        if is_ref(it):
            return self.is_unit(it.args[0])
        if it.name == "tuple":
            return not it.args
        item = self.program.item_of(it)
        return item is not None and item.kind == "struct" and not item.fields

    def is_step(self, it):
        it = known(it)
        return it.name == "Result" and all(self.is_unit(a) for a in it.args)

    def is_told(self, it):
        """Whether a Result is a number: why it isn't good, EE_OK where it is; DONE or CUT where a
        cut alone can be why."""
        it = known(it)
        if it.name != "Result" or self.is_step(it):
            return False
        fault, good = self.program.item_of(known(it.args[1])), known(it.args[0])
        is_fault = self.is_unit(it.args[1]) or fault is not None and fault.name in FAULTS
        dropped = good.name in DROPPED or fault is not None and fault.name == "ClearFault"
        return is_fault and (self.is_unit(good) or good.name in PLACED or dropped)

    def is_placed(self, it):
        """Whether the value of such a Result is made where the caller says."""
        return self.is_told(it) and known(known(it).args[0]).name in PLACED

    def good(self, it):
        """The number of a good one."""
        return "DONE" if self.is_unit(known(it).args[1]) else "EE_OK"

    def is_large(self, it):
        """Whether a list stands in a type: such a value is made where it stays."""
        it = known(it)
        item = self.program.item_of(it)
        if it.name == "array" or item is None:
            return it.name == "array"
        if item.kind == "enum":
            return any(self.is_large(f) for name, _, _ in item.variants
                       for _, f in self.program.variant_fields(item, name))
        return any(self.is_large(f) for _, f, _ in self.program.field_types(item))

    def word(self, it):
        """A type within the name of another."""
        it = known(it)
        if it.name in NUMBERS or it.name == "bool":
            return {"usize": "Index", "bool": "Bool"}.get(it.name, it.name.upper())
        if it.name == "tuple":
            return "And".join(self.word(a) for a in it.args) or "Unit"
        if it.name == "Option":
            return "Maybe" + self.word(it.args[0])
        if it.name == "Result":
            return "Or".join(self.word(a) for a in it.args)
        if is_ref(it) and known(it.args[0]).name == "slice":
            return self.list_name(it)
        return it.name

    def name(self, it):
        """The name of a type in C; the type is asked for."""
        it = known(it)
        if it.name in C_NUMBERS:
            return C_NUMBERS[it.name]
        if it.name in ("bool", *HAND):
            return it.name
        if self.is_told(it):
            if known(it.args[0]).name in PLACED:
                self.name(it.args[0])
            return self.name(Type("Result", [UNIT, it.args[1]])) if self.is_unit(it.args[1]) \
                else self.name(it.args[1])
        if it.name in ("Pairs", "Coded"):
            return "Numbers" if it.name == "Pairs" else "EccNumbers"
        if is_ref(it):
            return self.pointer(it)
        if it.name == "tuple" and not it.args:
            return "void"
        if it.name == "Option" and is_ref(it.args[0]):
            return self.name(it.args[0])
        word = self.word(it)
        name = "Step" if self.is_step(it) else SHORT.get(word, word)
        if name not in self.used:
            self.used[name] = None
            self.used[name] = self.definition(name, it)
        return name

    def pointer(self, it):
        inner = known(it.args[0])
        if inner.name == "array":
            return ("const " if it.name == "ref" else "") + self.name(inner.args[0]) + " *"
        if inner.name == "slice":
            name = self.list_name(it)
            if name in ALSO_IN_HEADER:
                self.used[name] = ([f"typedef {ALSO_IN_HEADER[name]} {name};"], [])
            elif name not in self.used:
                lines = [f"typedef struct {name} {{", f"    {spaced(self.items(it), 'items')};",
                         "    uint32_t len;", f"}} {name};"]
                self.used[name] = (lines, [self.name(inner.args[0])])
            return name
        return ("const " if it.name == "ref" else "") + self.name(inner) + " *"

    def list_name(self, it):
        """The name of the type of a slice."""
        word = self.word(known(it.args[0]).args[0])
        return ("ListOf" if it.name == "ref" else "RoomOf") + SHORT.get(word, word)

    def items(self, it):
        """The pointer to the items of a slice."""
        const = "const " if known(it).name == "ref" else ""
        return f"{const}{self.name(known(known(it).args[0]).args[0])} *"

    def member(self, it, name, needs):
        """A member of a struct. What stands in it is added to `needs`."""
        it = known(it)
        if it.name == "array":
            needs.append(self.name(it.args[0]))
            return f"    {self.name(it.args[0])} {name}[{it.size}];"
        of_type = self.name(it)
        if not is_ref(it) or known(it.args[0]).name == "slice":
            needs.append(of_type)
        return f"    {spaced(of_type, name)};"

    def definition(self, name, it):
        """The lines of a type, and the types that stand in it."""
        if name == "Step":
            return ["/* Whether a step, or a call of several, ended as it should, or was cut. */",
                    "typedef enum Step {", "    DONE,", "    CUT", "} Step;"], []
        if self.word(it) in ALSO_IN_HEADER:
            return [f"typedef {ALSO_IN_HEADER[self.word(it)]} {name};"], []
        parts = {"Option": ("some", ["value"]), "Result": ("ok", ["value", "error"]),
                 "tuple": (None, ["first", "second"])}.get(it.name)
        if parts is None:
            return self.item_definition(name, self.program.by_cname[name])
        if len(it.args) > len(parts[1]):
            raise Refused(f"a tuple of three: {it}")
        needs, body = [], [f"    bool {parts[0]};"] if parts[0] else []
        for inner, field in zip(it.args, parts[1]):
            if not self.is_unit(inner):
                body.append(self.member(inner, field, needs))
        return [f"typedef struct {name} {{", *body, f"}} {name};"], needs

    def item_definition(self, name, item):
        doc = comment_of(item.doc)
        if name in IN_HEADER:
            return self.header_definition(name, item, doc)
        if name in ALIASES:
            (_, inner, _), = self.program.field_types(item)
            return [*doc, f"typedef {self.name(inner)} {name};"], [self.name(inner)]
        if item.kind == "enum":
            return self.enum_definition(name, item, doc)
        needs, lines = [], [*doc, f"typedef struct {name} {{"]
        for field, inner, field_doc in self.program.field_types(item):
            if not self.is_unit(inner):
                lines += comment_of(field_doc, "    ")
                lines.append(self.member(inner, field, needs))
        return [*lines, f"}} {name};"], needs

    def header_definition(self, name, item, doc):
        """A type that ee.h has: its fields there have to be those of the sources."""
        in_c, wanted = IN_HEADER[name]
        fields = [(f, t) for f, t, _ in self.program.field_types(item) if not self.is_unit(t)]
        if [f for f, _ in fields] != wanted:
            raise Refused(f"{self.program.paths[item.module]}: {name} of ee.h has {wanted}")
        needs = []
        for field, inner in fields:
            self.member(inner, field, needs)
        return [*doc, f"typedef {in_c} {name};"], needs

    def enum_definition(self, name, item, doc):
        tag = name if is_flat(item) else name + "Tag"
        width = 32 if name in IN_STORE else 8
        lines = [*doc, f"typedef uint{width}_t {tag};", "enum {"]
        variants = [it for it in item.variants if (item.name, it[0]) not in INNER]
        for place, (variant, _, variant_doc) in enumerate(variants):
            lines += comment_of(variant_doc, "    ")
            value = f" = {STATUSES[variant]}" if item.name in FAULTS else ""
            lines.append(f"    {name}_{variant}{value}{',' if place + 1 < len(variants) else ''}")
        lines.append("};")
        if is_flat(item):
            return lines, []
        members, needs = {}, []
        for variant, _, _ in item.variants:
            for field, inner in self.program.variant_fields(item, variant):
                field = field or snake(variant)
                known_type, variants = members.setdefault(field, (inner, []))
                variants.append(variant)
                if self.name(known_type) != self.name(inner):
                    raise Refused(f"{self.program.paths[item.module]}: two types of {field}")
        lines += ["", f"typedef struct {name} {{", f"    {tag} tag;"]
        for field, (inner, variants) in members.items():
            lines.append(self.member(inner, field, needs) + f" /* of {' and '.join(variants)} */")
        return [*lines, f"}} {name};"], needs

    def fields_of(self, name):
        """The members of a struct of this name, with their types, as its lines have them."""
        lines = self.used[name][0]
        lines = lines[lines.index(f"typedef struct {name} {{") + 1:]
        found = (re.match(r" +(\w.*[ *])(\w+);", line) for line in lines)
        return {it[2]: it[1].strip() for it in found if it}
