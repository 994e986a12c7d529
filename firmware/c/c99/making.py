"""Makes ee.c: the types and functions that the calls of ee.h need, and the parts by hand."""
import re
import textwrap
from pathlib import Path

from .c_types import C_NUMBERS, HAND, IN_HEADER, comment_of
from .items import Source
from .lexing import Refused
from .program import FAULTS, INNER, Module, Program, is_flat
from .writer import INLINE, Writer

HERE = Path(__file__).resolve().parent
WIDTH, FURTHER = 100, " " * 8
# What stands in ee.c only with an index.
WITH_INDEX, WITHOUT = "#ifdef EE_INDEX", "#endif"
# The sources in the order in which they stand in ee.c.
ORDER = {
    "ee_flash": "word shape device",
    "ee_codec": "address header slot",
    "ee_pages": "runs side state number table find batch_items batch read loading span marking rescue",
    "ee_core": "change puts marking cleaning live_cursor copying moving writing changing lookup "
               "variables known store formatting opening first_start rescuing",
    "ee_index": "entries listing lent_list entering reading lent_cursor index_changing lent_index",
    "ee_nor": "nor pairs runs low_pair wiping",
    "ee_nor/coded": "ecc_nor code words runs shapes wiping coded",
}
LOOKUPS = "value_of live_count live_with next_live make_ready make_room append transfer find_nothing".split()
# What the parts by hand call.
ROOTS = [
    ("opening", "open_on"), ("formatting", "write_format"), ("first_start", "start_on"),
    ("rescue", "rescued_side"), ("rescue", "named_generation"), ("rescuing", "rescue_set"),
    ("rescue", "bad_words"), ("low_pair", "first_low"),
    *[("Slots", name) for name in LOOKUPS],
    *[("Store", name) for name in "write write_all forget clear clean_step read load next_live slots fill "
      "generation live_count pending torn_slots".split()],
    ("span", "read_span"), ("Span", "of_one"),
    ("Pairs", "word"), ("Pairs", "run"), ("Pairs", "program"),
    ("Coded", "number"), ("Coded", "in_clear"), ("Coded", "program"), ("shapes", "other_shape"),
    ("state", "is_blank"), ("state", "blank_to"),
    ("Shape", "new"), ("Address", "new"),
]
# What they call with an index.
INDEX_ROOTS = [("LentIndex", name) for name in [*LOOKUPS, "read_anew"]]
# Methods of Rust's own, where a source uses them.
HELPERS = {
    "u32_saturating_sub": ["/* By hand. The difference, 0 where it would be less. */",
                           "static inline uint32_t u32_saturating_sub(uint32_t a, uint32_t b) {",
                           "    return a > b ? a - b : 0u;", "}"],
    "u32_wrapping_sub": ["/* By hand. The difference, modulo 2 to the power of 32. */",
                         "static inline uint32_t u32_wrapping_sub(uint32_t a, uint32_t b) {",
                         "    return a - b;", "}"],
    "u32_wrapping_add": ["/* By hand. The sum, modulo 2 to the power of 32. */",
                         "static inline uint32_t u32_wrapping_add(uint32_t a, uint32_t b) {",
                         "    return a + b;", "}"],
    "u16_wrapping_sub": ["/* By hand. The difference, modulo 2 to the power of 16. */",
                         "static inline uint16_t u16_wrapping_sub(uint16_t a, uint16_t b) {",
                         "    return (uint16_t)((uint32_t)a - b);", "}"],
    "u64_count_ones": ["/* By hand. How many ones a number has: of each two bits and each four of both halves, and of all. */",
                       "EE_IN_PLACE uint32_t fours_of(uint32_t half) {",
                       "    const uint32_t twos = half - ((half >> 1u) & UINT32_C(0x55555555));",
                       "    return (twos & UINT32_C(0x33333333)) + ((twos >> 2u) & UINT32_C(0x33333333));", "}", "",
                       "EE_IN_PLACE uint32_t u64_count_ones(uint64_t number) {",
                       "    const uint32_t fours = fours_of((uint32_t)(number >> 32u)) + fours_of((uint32_t)number);",
                       "    const uint32_t eights = (fours & UINT32_C(0x0f0f0f0f)) + ((fours >> 4u) & UINT32_C(0x0f0f0f0f));",
                       "    return eights * UINT32_C(0x01010101) >> 24u;", "}"],
    "u32_least": ["/* By hand. The lesser of two numbers. */",
                  "static inline uint32_t u32_least(uint32_t a, uint32_t b) {",
                  "    return a < b ? a : b;", "}"],
}


def sources(folder_of_all):
    """The sources, read. Each of them has a place, but for those of an index."""
    modules, names = [], set()
    for folder, ordered in ORDER.items():
        own = folder_of_all / folder
        there = {p.stem for p in own.glob("*.rs") if not p.with_suffix("").is_dir()} - {"mod", "inner"}
        if there != set(ordered.split()):
            odd = ", ".join(sorted(there ^ set(ordered.split())))
            raise Refused(f"{own}: no place for, or no file: {odd}")
        for stem in ordered.split():
            path = own / f"{stem}.rs"
            # Two folders have a module `marking`: the second is named by its folder too.
            name = stem if stem not in names else f"{own.name.removeprefix('ee_')}_{stem}"
            names.add(name)
            modules.append(Module(own.name, name, Source(path.read_text(encoding="utf-8"),
                                                       path).items(), path))
    return modules


def part(name):
    """A part that is written by hand."""
    return (HERE / name).read_text(encoding="utf-8").rstrip("\n").split("\n") + [""]


def wrapped(line, further=None):
    """A line of C in lines that are not too long."""
    if len(line) <= WIDTH or line.lstrip().startswith(("/*", "* ", "*/")):
        return [line]
    further = further or re.match(r" *", line)[0] + FURTHER
    at = max(line.rfind(", ", 0, WIDTH) + 1, line.rfind(" && ", 0, WIDTH) + 3,
             line.rfind(" || ", 0, WIDTH) + 3)
    if at < 4:
        at = line.rfind("= ", 0, WIDTH) + 1
    if at < 2:
        return [line]
    return [line[:at], *wrapped(further + line[at + 1:], further)]


def filled(lines):
    """Comments with a line that is too long, in lines that are not."""
    out = []
    for line in lines:
        start = re.match(r"( *)(/\* | \* )(?=\S)", line)
        went_on = out and len(out[-1]) > WIDTH and start and start[2] == " * "
        if went_on:
            line = out.pop() + " " + line[len(start[0]):]
        out.append(line)
    return [each for line in out for each in cut(line)]


def cut(line):
    """A line of a comment in lines that are not too long."""
    start = re.match(r"( *)(/\* | \* )(?=\S)", line)
    if not start or len(line) <= WIDTH:
        return [line]
    own = line[len(start[0]):].replace(" */", "\0*/")
    first, *others = textwrap.wrap(own, WIDTH - len(start[1]) - 3, break_long_words=False,
                                   break_on_hyphens=False)
    lines = [start[0] + first, *(f"{start[1]} * {other}" for other in others)]
    return [each.replace("\0", " ") for each in lines]


class Making:
    """The text of ee.c."""

    def __init__(self, folder):
        self.program = Program(sources(folder))
        self.writer = Writer(self.program)
        self.types = self.writer.types
        self.write(ROOTS, folder)
        self.always = set(self.writer.done) | set(self.types.makers)
        self.write(INDEX_ROOTS, folder)
        found = sorted((fn.order, args, fn, done) for (fn, args), done in self.writer.done.items())
        self.found = [(fn, args, done) for _, args, fn, done in found]
        heads = " ".join(head for _, _, (head, _, _) in self.found)
        for name in INLINE:
            if f"{name}(" not in heads:
                raise Refused(f"{HERE / 'writer.py'}: INLINE has {name}, which is no function")

    def write(self, roots, folder):
        """Writes these functions, and what they call."""
        for owner, name in roots:
            table = self.program.methods if owner[0].isupper() else self.program.fns
            if (owner, name) not in table:
                raise Refused(f"{folder}: no {owner}::{name}")
            self.writer.request(table[owner, name], {})
        self.writer.run()

    def text(self):
        functions = self.functions()
        lines = part("head.c") + self.constants() + self.type_lines() + self.makers()
        for name, helper in HELPERS.items():
            if any(name in line for line in functions):
                lines += [*helper, ""]
        lines += ["/* The functions below, by their sources. */"]
        lines += [line for fn, args, (head, _, _) in self.found
                  for line in self.conditional((fn, args), [head + ";"])] + [""]
        lines += part("device.c") + part("lookup.c") + self.lookups() + functions + part("calls.c")
        lines = self.joined(lines)
        lines = [more for line in lines for more in wrapped(line)]
        return "\n".join(filled(lines)).rstrip("\n") + "\n"

    def constants(self):
        lines = []
        for name, const in self.writer.consts.items():
            if const.value.kind == "list":
                items = ", ".join(part.text for part in const.value.parts)
                of_item = C_NUMBERS[const.ty[1][0][0]]
                lines += [*comment_of(const.doc), f"static const {of_item} {name}[{const.ty[2]}] = {{"]
                lines += [*textwrap.wrap(items, WIDTH, initial_indent="    ", subsequent_indent="    "), "};", ""]
                continue
            digits = const.value.text.replace("_", "")
            width = 64 if const.ty[0] == "u64" else 32
            value = f"{digits}u" if int(digits, 0) <= 0xffff else f"UINT{width}_C({digits})"
            lines += [*comment_of(const.doc), f"#define {name} {value}", ""]
        return lines

    def type_lines(self):
        """The types, each behind those that stand in it."""
        lines, stated = [], set()

        def state(name):
            if name == "Device" and name not in stated:
                stated.add(name)
                state("Shape")
                lines.extend(part("types.c"))
            if name in stated or name not in self.types.used:
                return
            stated.add(name)
            own, needs = self.types.used[name]
            for need in needs:
                state("Device" if need in HAND else need)
            lines.extend([*own, ""])

        for item in sorted(self.program.types.values(), key=lambda item: item.order):
            if item.cname in self.types.used:
                state(item.cname)
        for name in list(self.types.used):
            state(name)
        return lines

    def zero(self, of_type):
        """What a member has that its variant doesn't use."""
        item = self.program.by_cname.get(of_type)
        if of_type in FAULTS:
            return "EE_OK"
        if of_type == "bool":
            return "false"
        if of_type.endswith("*"):
            return "NULL"
        if of_type.startswith("uint") or of_type == "Address":
            return "0u"
        if is_flat(item):
            return f"{of_type}_{item.variants[0][0]}"
        if of_type == "Device":
            return "{ .power = NULL, .shape = { .pages = 0u, .words = 0u } }"
        inner = []
        for field, member in self.members(of_type, item).items():
            tag = field == "tag"
            value = f"{of_type}_{item.variants[0][0]}" if tag else self.zero(member)
            inner.append(f".{field} = {value}")
        return "{ " + ", ".join(inner) + " }"

    def members(self, of_type, item):
        """The members of a struct, with their types."""
        if of_type == "Entry":
            return {"first": "Address", "second": "uint16_t"}
        if of_type not in IN_HEADER:
            return self.types.fields_of(of_type)
        return {field: self.types.name(inner)
                for field, inner, _ in self.program.field_types(item)
                if not self.types.is_unit(inner)}

    def makers(self):
        """What makes a value of a type with a tag. Each member is said."""
        lines = ["/* What makes a value of a type with a tag. */"]
        for name, (in_c, (flag, value), params) in self.types.makers.items():
            if in_c in FAULTS:
                lines += self.conditional(name, self.fault_maker(name, in_c, value, params))
                continue
            members = self.types.fields_of(in_c)
            typed = ", ".join(self.declared(members[field], field) for field in params) or "void"
            fields = [(flag, value)]
            fields += [(field, field if field in params else self.zero(member))
                       for field, member in members.items() if field != flag]
            said = ", ".join(f".{field} = {text}" for field, text in fields)
            lines += self.conditional(name, [f"static inline {in_c} {name}({typed}) {{",
                                             f"    return ({in_c}){{ {said} }};", "}", ""])
        for name, (in_c, condition) in self.types.tests.items():
            lines += [f"static inline bool {name}({in_c} fault) {{", f"    return {condition};", "}", ""]
        return lines

    def fault_maker(self, name, in_c, value, params):
        """What makes a fault of what isn't kept of it, or of one that stands in it."""
        item, variant = self.program.by_cname[in_c], value.rsplit("_", 1)[1]
        fields = self.program.variant_fields(item, variant)
        typed = [self.declared(self.types.name(of_type), field or param)
                 for (field, of_type), param in zip(fields, params)]
        inner = (item.name, variant) in INNER
        return [f"static inline {in_c} {name}({', '.join(typed)}) {{",
                *([] if inner else [f"    (void){param};" for param in params]),
                f"    return {params[0] if inner else value};", "}", ""]

    @staticmethod
    def declared(of_type, name):
        return f"{of_type} {name}"

    def functions(self):
        lines, module = [], None
        for fn, args, (head, doc, body) in self.found:
            title = []
            if fn.module != module:
                module = fn.module
                path = self.program.paths[module]
                text = path.read_text(encoding="utf-8").split("\n")
                said = " ".join(line[4:] for line in text if line.startswith("//!"))
                title = f"/* ---- {path.parent.name}/{path.name}: {said}"
                *upper, last = textwrap.wrap(title, WIDTH - 3, subsequent_indent=" * ")
                title = [*upper, f"{last} */", ""]
            function = [*title, *doc, head + " {", *body, "}", ""]
            lines += self.conditional((fn, args), function)
        return lines

    def lookups(self):
        """How a store finds values: a function for each that the two kinds of look-up have."""
        heads = {fn.name: (head, fn) for fn, _, (head, _, _) in self.found
                 if fn.owner and fn.owner.name == "LentIndex"}
        lines = ["/* How a store finds values: by the index that its flash lends, if ee.c was compiled with",
                 " * EE_INDEX and there is one; else it looks through its slots. */"]
        for name in LOOKUPS:
            head, fn = heads[name]
            gives, params = re.fullmatch(r"\S+ (.*?)lent_index_\w+\((.*)\)", head).groups()
            its, *others = params.split(", ")
            args = [re.search(r"\w+$", param)[0] for param in others]
            its = its.replace("LentIndex", "Lookup")
            result = "" if gives == "void " else "return "
            lines += [f"EE_IN_PLACE {gives}lookup_{name}({', '.join([its, *others])}) {{", WITH_INDEX,
                      "    if (*self != NULL) {",
                      f"        {result}lent_index_{name}({', '.join(['*self', *args])});",
                      *([] if result else ["        return;"]), "    }", WITHOUT, "    (void)self;",
                      f"    {result}slots_{name}({', '.join(args)});", "}", ""]
        return lines

    def conditional(self, what, lines):
        """Lines that stand only where there is an index, if what they make is a part of it alone."""
        return lines if what in self.always else [WITH_INDEX, *lines, WITHOUT]

    @staticmethod
    def joined(lines):
        """Conditions that follow one another as one, with empty lines between them and the rest."""
        found = []
        for line in lines:
            if line == WITH_INDEX and found[-1:] == [WITHOUT]:
                found.pop()
                continue
            if found[-2:] == ["", WITHOUT]:
                found[-2:] = [WITHOUT, ""]
            found.append(line)
        return found

