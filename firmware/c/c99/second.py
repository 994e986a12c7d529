"""A second look at ee.c, which shares no code with what makes it.

It goes over each function of the plain Rust and of ee.c, brings both to six rows - calls, numbers
and constants, operators, loops, answers made, and variants - and asks that they are the same, in
the same order. `rust_rows` and `c_rows` say what each text's tokens count as. What stands in ee.c
by hand is no part of it."""
import re
from collections import namedtuple

TOKEN = re.compile(r"0x[0-9a-fA-F_]+|\d[\d_]*|[A-Za-z_]\w*|\.\.|::|->|=>|==|!=|<=|>=|&&|\|\||<<|>>"
                   r"|\+\+|--|\+=|-=|[^\s\w]")
FOLDERS = ("ee_flash", "ee_codec", "ee_pages", "ee_core", "ee_index", "ee_nor",
           "ee_nor/coded")
OPERATORS = {"&&", "||", "+", "-", "*", "/", "%", "<<", ">>", "&", "|", "^", "+=", "-=", "<", "<=", ">",
             ">="}
# Signs behind which `&`, `*` and `-` have one operand.
BEFORE = {"", "(", ",", "=", "{", "}", ";", "return", "&&", "||", "=>", "!", "in", ":", "?", "[",
          "if", "match", "const", "mut", "==", *OPERATORS}
# Methods of the device, which are written by hand in ee.c, and Rust's own.
DEVICE = {f"{owner}_{name}": name for owner in ("device", "numbers", "ecc_numbers")
          for name in ("word", "run", "number", "in_clear", "read", "window", "program", "erase", "is_on")}
OWN = {"u32_saturating_sub": "saturating_sub", "u32_wrapping_sub": "wrapping_sub",
       "u32_wrapping_add": "wrapping_add", "u16_wrapping_sub": "wrapping_sub", "u32_least": "min",
       "u64_count_ones": "count_ones",
       "copy_within": "copy_within", "get": "get"}
# Methods that give a field, where they have no argument.
FIELDS = {"shape", "pages", "words", "get", "len", "count"}
# Calls of the sources that C writes as a number.
AS_NUMBERS = {"LEAST": 1}

Rows = namedtuple("Rows", "calls numbers operators loops made variants")


def without_comments(text):
    return re.sub(r"/\*.*?\*/", " ", re.sub(r"//[^\n]*", "", text), flags=re.S)


def matching(tokens, at):
    """The place of the bracket that closes this one."""
    close, depth = {"(": ")", "{": "}", "[": "]"}[tokens[at]], 0
    for place in range(at, len(tokens)):
        depth += (tokens[place] == tokens[at]) - (tokens[place] == close)
        if depth == 0:
            return place
    raise ValueError("a bracket that nothing closes")


def number(token):
    return int(token.replace("_", "").rstrip("u"), 0)


def snake(name):
    return re.sub(r"(?<!^)(?=[A-Z])", "_", name).lower()


def has_one_operand(tokens, at):
    """Whether a sign stands before its only operand."""
    return tokens[at] in ("&", "*", "-") and (tokens[at - 1] if at else "") in BEFORE


class Rust:
    """The functions of the sources, and the variants of their enums."""

    def __init__(self, folder_of_all):
        self.fns, self.variants, self.names = {}, {}, {}
        for folder in FOLDERS:
            for path in sorted(set((folder_of_all / folder).glob("*.rs")) - {folder_of_all / folder / "inner.rs"}):
                self.read(path)
        for key in self.fns:
            stem, owner, name = key
            folder = stem.split("/")[0].removeprefix("ee_")
            module = stem.split("/")[1]
            if owner:
                called = {f"{snake(owner)}_{name}"}
            else:
                called = {name, f"{module}_{name}", f"{folder}_{module}_{name}"}
            for it in called:
                self.names.setdefault(it, []).append(key)
        self.known = {name for _, _, name in self.fns} | set(DEVICE.values()) | {"next"}
        self.known |= set(OWN.values())

    def read(self, path):
        text = without_comments(path.read_text(encoding="utf-8"))
        # The one name that a source gives another function.
        tokens = TOKEN.findall(text.replace("page_is_blank", "is_blank"))
        at, owner, end = 0, None, -1
        while at < len(tokens):
            owner = owner if at <= end else None
            word = tokens[at]
            if word == "trait":
                at = matching(tokens, tokens.index("{", at))
            elif word == "impl" and owner is None:
                body = tokens.index("{", at)
                owner, end, at = self.owner(tokens[at + 1:body]), matching(tokens, body), body
            elif word == "enum":
                at = self.read_enum(tokens, at)
            elif word == "fn":
                at = self.read_fn(tokens, at, path, owner)
            at += 1

    @staticmethod
    def owner(head):
        """The type that an `impl` is of."""
        if head[0] == "<":
            head = head[head.index(">") + 1:]
        return head[head.index("for") + 1] if "for" in head else head[0]

    def read_enum(self, tokens, at):
        body = tokens.index("{", at)
        end, depth = matching(tokens, body), 0
        for place in range(body, end):
            depth += (tokens[place] in ("(", "{", "[")) - (tokens[place] in (")", "}", "]"))
            if depth == 1 and tokens[place][0].isupper() and tokens[place - 1] in ("{", ","):
                self.variants.setdefault(tokens[at + 1], []).append(tokens[place])
        return end

    def read_fn(self, tokens, at, path, owner):
        params = tokens.index("(", at)
        body = tokens.index("{", at)
        if ";" in tokens[matching(tokens, params):body]:
            return at
        end = matching(tokens, body)
        key = (f"{path.parent.name}/{path.stem}", owner, tokens[at + 1])
        self.fns.setdefault(key, tokens[body + 1:end])
        return end

    @staticmethod
    def patterns(tokens):
        """The places of what stands in patterns."""
        found = set()
        for at, token in enumerate(tokens):
            if token == "=>":
                begin = arm_begin(tokens, at)
                end = next((k for k in range(begin, at) if tokens[k] == "if"), at)
                found |= set(range(begin, end))
            elif token == "let":
                found |= set(range(at, tokens.index("=", at)))
            elif token == "matches" and tokens[at + 1] == "!":
                found.add(matching(tokens, at + 2) - 1)
        return found

    def rows(self, key):
        tokens = self.fns[key]
        patterns, rows = self.patterns(tokens), Rows([], [], [], [], [], [])
        for at, token in enumerate(tokens):
            after = tokens[at + 1] if at + 1 < len(tokens) else ""
            before = tokens[at - 1] if at else ""
            if at not in patterns:
                self.count_value(tokens, at, rows, (before, after))
            if at in patterns and token == "," and before.isdigit() and after.isdigit():
                # C asks for one number, and then for the other.
                rows.operators.append("&&")
            if token[0].isdigit() and before != ".":
                rows.numbers.append(number(token))
            elif token == "is_empty":
                rows.numbers.append(0)
            elif token == "MAX":
                rows.numbers.append("MAX" + tokens[at - 2])
            elif token in AS_NUMBERS:
                rows.numbers.append(AS_NUMBERS[token])
            elif token.isupper() and len(token) > 1:
                rows.numbers.append(token)
            if token in ("for", "while", "loop"):
                rows.loops.append("for" if token == "for" else "while")
            if after == "::" and tokens[at + 2] in self.variants.get(token, []):
                rows.variants.append((token, tokens[at + 2]))
        calls = [name for _, name in sorted(rows.calls)]
        return rows._replace(calls=calls)

    def count_value(self, tokens, at, rows, around):
        """Counts a token outside of patterns."""
        token, (before, after) = tokens[at], around
        if token in ("Some", "Ok", "Err", "None"):
            # `None => None, Some(..` and `let Some(it) = .. else { return None; }` are as `?`.
            if tokens[at - 2:at + 3] != ["None", "=>", "None", ",", "Some"] and not is_tried(tokens, at):
                rows.made.append(token)
        elif after == "(" and token in self.known and token != "is_empty":
            if not (before == "." and token in FIELDS and tokens[at + 2] == ")"):
                rows.calls.append((matching(tokens, at + 1), token))
        if token in OPERATORS and not has_one_operand(tokens, at):
            in_pattern = token == "|" and "matches" in tokens and before in ("}", ")")
            rows.operators.append("||" if in_pattern else token)


def is_tried(tokens, at):
    """Whether a `None` is what a `let` of one name gives where there is none."""
    if tokens[at - 3:at + 2] != ["else", "{", "return", "None", ";"]:
        return False
    begin = at - tokens[at::-1].index("let")
    return tokens[begin + 1:begin + 3] == ["Some", "("] and tokens[begin + 4:begin + 6] == [")", "="]


def arm_begin(tokens, at):
    """Where the pattern before a `=>` begins."""
    place, depth = at - 1, 0
    while place >= 0:
        token = tokens[place]
        behind = tokens[place + 1]
        if token in (")", "}") and (token == ")" or place == at - 1 or depth > 0
                                    or behind in (",", ")", "if")):
            depth += 1
        elif token in ("(", "{") and depth > 0:
            depth -= 1
        elif depth == 0 and token in ("{", ",", "}"):
            break
        place -= 1
    return place + 1


# Forms of C, and what they are in the words of both.
FORMS = [
    (r"for \(uint32_t (\w+) = ([^;]*?), (\w+) = ([^;]*?); \1 < \3; \1\+\+\)",
     r"for__ \2 range__ \4 "),
    (r"for \(uint32_t (\w+) = ([^;,]*?); \1 > 0u; \1--\) \{\s*const uint32_t \w+ = \1 - 1u;",
     r"for__ 0u \2 {"),
    (r"uint64_t (\w+)\[(\w+)\]; +for \(uint32_t (\w+) = 0u; \3 < \2; \3\+\+\) \{\s*"
     r"\1\[\3\] = ([^;]*);\s*\}", r"\1 = \4; \2;"),
    (r"for \(uint32_t (\w+) = 0u; \1 < (\w+); \1\+\+\) \{\s*(made(?:\.|->)\w+\[\1\] = [^;]*);\s*\}",
     r"\3; \2;"),
    (r"for \(uint32_t (\w+) = ([^;,]*?); \1 < ([^;]*?); \1\+\+\)", r"for__ \2 range__ \3 "),
    (r"list\.len > 0u \? &list\.items\[0\] : NULL", ""),
    (r"for \(;;\)", "while__"),
    (r",\s*\.len = BATCH \}", " }"),
    (r"\{ \.items = &?(\w+),\s*\.len = 1u \}", r"{ \1 }"),
    (r"(\w+)\[1\] = \{\((\w+)\)(\{.*?\})\};", r"\1 = (\2)\3;"),
    (r"\{ \.items = NULL,\s*\.len = 0u \}", "{ }"),
    # Lists that are handed over.
    (r"(&\w+|puts), 1u(?=[,)])", r"\1"),
    (r"NULL, 0u(?=[,)])", ""),
    (r", BATCH(?=[,)])", ""),
    # An array that runs fill alone.
    (r"uint64_t (\w+)\[RUN\];", r"\1 = UNREAD; RUN;"),
    # The first of a list and what is behind it, and an item that may not be there.
    (r"(\w+)\.len [!=]= 0u(?=\) \{ (?:break;|return maybe_\w+_none\(\);))", r"\1"),
    (r"\{ \.items = &(\w+)\.items\[1\], +\.len = \1\.len - 1u \}", r"\1"),
    (r"(\w+) < (\w+)\.len \? &\2\.items\[\1\] : NULL", r"get(\1)"),
    (r"\{ \.items = &(\w+)\.items\[(\w+)\], +\.len = \1\.len - \2 \}", r"\1, \2"),
    # A pointer that falls with a count.
    (r"const \w+ \*(\w+) = ([\w.>-]+)\.items \+ (\w+);\s*while \((\3 > 0u && .*?)\*--\1",
     r"while (\4\2[\3 - 1u]"),
    (r"UINT(?:32|64)_C\((\w+)\)", r"\1"),
    (r"\(uint16_t\)\(\(uint32_t\)", "("),
    # `?`
    (r"(\w+|\))( == CUT\)) \{\s*return (?:CUT|\w+_err\(\));\s*\}", r"\1 TRY);"),
    (r"if \(!(\w+_result)\.ok\) \{\s*return (?:CUT|\1\.error|\w+_err\((?:\1\.error)?\));\s*\}", ""),
    (r"if \(!([\w.>-]+)\.some\) \{\s*return \w+_none\(\);\s*\}\s*const \w+ \w+ = \1\.value;",
     "TRY_OPTION"),
    # Parts of a pattern that C asks for one by one.
    (r"!?[\w.>-]+\.some &&\s+(?=!?[\w.>-]+\.some|kind == )", ""),
    (r"(\w+\.tag == \w+) && ", r"\1, "),
    (r"!?\w+\.ok && ", ""),
]
MAKER = re.compile(r"static inline (\w+) (\w+)\(([^)]*)\) \{\s*return \((\w+)\)\{ (.*?) \};\s*\}",
                   re.S)
# A loop over a list: its head, and its end by the names of the pointer and of where it ends.
LIST_LOOP = re.compile(r"if \(([\w.>-]+)\.len != 0u\) \{\s*(?:const )?\w+ \*(\w+) = \1\.items;\s*"
                       r"(?:const )?\w+ \*const (\w+) = \2 \+ \1\.len;\s*do \{")
LIST_LOOP_END = r"\b{0}\+\+;\s*\}} while \({0} != {1}\);\s*\}}"
# The same of a loop over its places.
PLACE_LOOP = re.compile(r"if \(([\w.>-]+\.len) != 0u\) \{\s*uint32_t (\w+) = 0u;\s*do \{")
# A list as two parameters and as two arguments.
PAIRED = re.compile(r"\{ \.items = (\w+)_items, \.len = (\w+)_len \}"
                    r"|([\w.>-]+)\.items,\s+([\w.>-]+)\.len\b(?! [-+*/])")
FUNCTION = re.compile(r"(?m)^(?:static|EE_IN_PLACE|EE_APART) (?:const )?(\w+) \*?(\w+)"
                      r"\(([^;{]*)\) \{\n(.*?)^\}\n", re.S)
# What makes a fault of what isn't kept of it, or of one that stands in it; and what tells the latter.
FAULT_MAKER = re.compile(r"static inline (\w+Fault) (\w+)\((\w+ \w+(?:, \w+ \w+)*)\) "
                         r"\{(?:\s*\(void\)\w+;)*\s*return (\w+);\s*\}")
FAULT_TEST = re.compile(r"static inline bool (\w+)_is_(\w+)\((\w+Fault) fault\) "
                        r"\{\s*return ([^;]*);\s*\}")
FLAGS = {("some", "true"): "Some", ("some", "false"): "None", ("ok", "true"): "Ok",
         ("ok", "false"): "Err"}


class C:
    """The functions of ee.c."""

    def __init__(self, text, rust):
        self.text, self.rust = without_comments(text), rust
        self.makers, self.faults = {}, []
        for found in MAKER.finditer(self.text):
            self.add_maker(found)
        for found in FAULT_MAKER.finditer(self.text):
            self.add_fault_maker(*found.groups())
        for found in FAULT_TEST.finditer(self.text):
            self.add_fault_test(*found.groups())

    def add_maker(self, found):
        """What a maker makes; it has to give each argument to the member of its name."""
        of_type, name, params, made, body = found.groups()
        flag, value = re.match(r"\.(\w+) = (\w+)", body).groups()
        given = dict(re.findall(r"\.(\w+) = (\w+)(?=[,\s]|$)", body))
        names = [] if params == "void" else [x.split()[-1].lstrip("*") for x in params.split(",")]
        if flag == "tag":
            kind = ("variant", tuple(value.split("_")))
            ending = snake(value.split("_")[1])
        else:
            kind = ("made", FLAGS.get((flag, value)))
            ending = str(kind[1]).lower()
        if any(given.get(x) != x for x in names) or made != of_type \
                or not name.endswith("_" + ending):
            self.faults.append((name, "makes another value than it is named for"))
        self.makers[name] = kind

    def add_fault_maker(self, of_type, name, params, made):
        """Such a maker gives the variant that it is named for, or its one parameter."""
        variant = name.removeprefix(snake(of_type) + "_").title().replace("_", "")
        if made not in (f"{of_type}_{variant}", snake(variant)) or "," in params and made in params:
            self.faults.append((name, "makes another value than it is named for"))
        self.makers[name] = ("variant", (of_type, variant))

    def add_fault_test(self, owner, variant, of_type, condition):
        """Such a test asks that it is none of the others."""
        name = variant.title().replace("_", "")
        others = [it for it in self.rust.variants.get(of_type, []) if it != name]
        if owner != snake(of_type) or condition != " && ".join(f"fault != {of_type}_{it}"
                                                                for it in others):
            self.faults.append((f"{owner}_is_{variant}", "asks for another than it is named for"))
        self.makers[f"{owner}_is_{variant}"] = ("variant", (of_type, name))

    def functions(self, begin, end):
        """The name and the body of each function between two texts, and whether it gives a fault."""
        text = self.text[self.text.index(begin):self.text.index(end)]
        return [(it[2], it[4], it[1].endswith("Fault")) for it in FUNCTION.finditer(text)]

    def keys(self, name):
        """The functions of the sources that a name of C may be."""
        keys = self.rust.names.get(name)
        return keys or self.rust.names.get(re.sub(r"_(bool|live|address_and_u32|lent_cursor)$", "", name), [])

    def rows(self, body, gives_fault):
        body = re.sub(r"\n\s+", " ", body)
        if any(it[1] != it[2] or it[3] != it[4] for it in PAIRED.finditer(body)):
            return None
        body = self.with_list_loops(body)
        for form, other in FORMS:
            body = re.sub(form, other, body)
        tokens, rows = TOKEN.findall(body), Rows([], [], [], [], [], [])
        if "for" in tokens:
            return None
        for at, token in enumerate(tokens):
            after = tokens[at + 1] if at + 1 < len(tokens) else ""
            before = tokens[at - 1] if at else ""
            if token in ("for__", "while__", "while"):
                rows.loops.append("for" if token == "for__" else "while")
            elif after == "(" and re.match(r"[a-z]", token):
                self.count_call(tokens, at, rows)
            elif token in ("DONE", "CUT") and before == "return":
                rows.made.append("Ok" if token == "DONE" else "Err")
            elif token == "EE_OK":
                rows.made.extend(["Ok"] if before == "return" else [])
            elif token == "return" and gives_fault:
                # What another function answers is given on.
                is_call = tokens[at + 2] == "(" and after not in self.makers
                rows.made.extend([] if is_call or after == "EE_OK" else ["Err"])
            else:
                self.count_number(token, before, rows)
            if token in OPERATORS and not self.is_mark(tokens, at):
                rows.operators.append(token)
        return rows._replace(calls=[name for _, name in sorted(rows.calls)])

    @staticmethod
    def with_list_loops(body):
        """The loops over lists in one word each, where head and end are of the same names."""
        for found in reversed(list(LIST_LOOP.finditer(body))):
            items, name, last = found.groups()
            inner = body[found.end():]
            end = re.search(LIST_LOOP_END.format(name, last), inner)
            if end:
                inner = inner[:end.start()] + "}" + inner[end.end():]
                inner = inner.replace(f"(uint32_t)({name} - {items}.items)", "place__")
                body = body[:found.start()] + f"for__ {items} {{" + inner
        for found in reversed(list(PLACE_LOOP.finditer(body))):
            length, name = found.groups()
            inner = body[found.end():]
            end = re.search(LIST_LOOP_END.format(name, re.escape(length)), inner)
            if end:
                inner = inner[:end.start()] + "}" + inner[end.end():]
                body = body[:found.start()] + f"for__ 0u range__ {length} {{" + inner
        return body

    def count_call(self, tokens, at, rows):
        token = tokens[at]
        if token in self.makers:
            kind, what = self.makers[token]
            (rows.made if kind == "made" else rows.variants).append(what)
        elif token not in ("if", "switch", "return", "while", "sizeof"):
            keys = self.keys(token)
            real = DEVICE.get(token) or OWN.get(token) or self.of_lookup(token)
            real = real or (keys[0][2] if keys else "?" + token)
            rows.calls.append((matching(tokens, at + 1), real))

    def of_lookup(self, token):
        """The method of the look-up that a function by hand is."""
        name = token.removeprefix("lookup_")
        return name if name != token and name in self.rust.known else None

    def count_number(self, token, before, rows):
        if re.match(r"\d", token) and before != ".":
            rows.numbers.append(number(token))
        elif re.fullmatch(r"UINT\d+_MAX", token):
            rows.numbers.append("MAXu" + token[4:6])
        elif re.fullmatch(r"[A-Z][A-Z_]+", token) and token not in ("DONE", "CUT", "NULL", "TRY",
                                                                    "TRY_OPTION"):
            rows.numbers.append(token)
        found = re.fullmatch(r"([A-Z]\w+)_([A-Z]\w+)", token)
        if found:
            name = found[1] if found[1] in self.rust.variants else found[1].replace("Table", "")
            if found[2] in self.rust.variants.get(name, []):
                rows.variants.append((name, found[2]))

    @staticmethod
    def is_mark(tokens, at):
        """Whether a sign is of a type or of one operand."""
        before, after = tokens[at - 1], tokens[at + 1]
        of_type = re.fullmatch(r"[A-Z]\w*[a-z]\w*|uint\d+_t", before)
        return has_one_operand(tokens, at) or tokens[at] == "*" and (of_type or after == "const")


def is_part(row, whole):
    """Whether a row stands in another one, in order."""
    it = iter(whole)
    return all(x in it for x in row)


def differences(rust, c):
    """What differs between a function's rows."""
    found = []
    for name in ("calls", "numbers", "operators", "loops", "made"):
        ours, theirs = getattr(rust, name), getattr(c, name)
        if ours != theirs:
            found.append(f"{name}: {ours} / {theirs}")
    # The pattern of a last arm isn't asked for.
    if not is_part(c.variants, rust.variants):
        found.append(f"variants: {rust.variants} / {c.variants}")
    return found


def look(folder_of_all, text):
    """How many functions were looked at, and what differs."""
    rust = Rust(folder_of_all)
    c = C(text, rust)
    faults, count = list(c.faults), 0
    for name, body, gives_fault in c.functions("EE_IN_PLACE void lookup_find_nothing(Lookup *self) {",
                                               "static struct ee_power *power_of"):
        if name == "lookup_find_nothing":
            continue
        count += 1
        rows, keys = c.rows(body, gives_fault), c.keys(name)
        if rows is None or not keys:
            faults.append((name, "a form that isn't known" if keys else "no such function"))
            continue
        found = [differences(rust.rows(key), rows) for key in keys]
        if all(found):
            faults.append((name, "; ".join(found[0])))
    return count, faults
