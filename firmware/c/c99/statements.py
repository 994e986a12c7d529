"""Writes statements: where a value goes is `return`, `discard`, or names that it is assigned to."""
import re

from .cases import member
from .lexing import UNKNOWN
from .program import is_flat
from .text import nodes_of
from .types import is_named, is_ref, is_slice, known, referred
from .values import AND, GIVEN, POSTFIX, Values


class Statements(Values):
    """What `FunctionWriter` has for statements."""

    def block(self, body, to):
        """Writes a body, whose value goes to `to`."""
        if body.kind != "block":
            self.to(body, to)
            return
        for s in body.stmts:
            self.note(s.note)
            if s.kind == "let":
                self.let(s)
            else:
                self.to(s.e, ("discard",))
        if body.tail is not None:
            self.note(getattr(body.tail, "note", []))
            self.to(body.tail, to)

    def scoped(self, body, to):
        self.open()
        self.block(body, to)
        self.close()

    def let(self, s):
        if s.other:
            self.let_else(s)
        elif s.pat.kind == "bind":
            self.let_name(s)
        elif s.pat.kind == "ptuple":
            self.let_tuple(s)
        else:
            self.fail(s, "a let of this pattern")

    def let_else(self, s):
        held = self.stable(s.value, s.pat)
        conditions, binds = self.pattern(s.pat, held, s.value.ty)
        self.emit(f"if ({self.negated(s, conditions)}) {{")
        self.scoped(s.other, ("discard",) if self.is_void else ("return",))
        self.emit("}")
        for local, value in binds:
            self.bind(local, value)

    def declare(self, local):
        """Declares a local that gets its value behind."""
        local.cname = self.fresh(local.name)
        self.emit(self.spaced(self.types.name(local.ty), local.cname) + ";")

    def let_name(self, s):
        value, local = s.value, s.pat.local
        if local is self.given and self.types.is_placed(self.ret):
            self.let_placed(local, value)
        elif value.kind == "try" and self.types.is_placed(value.e.ty):
            self.declare(local)
            self.tried_into(value.e, f"&{local.cname}")
        elif value.kind in ("match", "if"):
            self.declare(local)
            self.to(value, ("assign", [local.cname]))
        elif value.kind == "repeat":
            local.cname = self.fresh(s.pat.name)
            self.array(value, local.cname, local)
        elif value.kind == "list":
            local.cname = self.fresh(s.pat.name)
            self.listed(value, local.cname)
        elif self.types.is_large(value.ty):
            self.let_large(local, value)
        else:
            self.bind(local, self.value(value, hint=s.pat.name).text)

    def let_placed(self, local, value):
        """The local that the function gives in a Result stands where its caller says."""
        local.cname = GIVEN
        if value.kind == "match" and self.types.is_placed(value.e.ty):
            held, (first, other) = self.stable(value.e), value.arms
            if first.pat.what != "Ok" or first.body.kind != "path" or first.pat.parts[0].kind != "bind" \
                    or first.body.local is not first.pat.parts[0].local:
                self.fail(value, "a Result that isn't taken as it is")
            conditions, binds = self.pattern(other.pat, held, value.e.ty)
            self.emit(f"if ({' && '.join(conditions)}) {{")
            self.bound(other.body, binds, ("return",), other.note)
            self.emit("}")
        elif value.kind == "try" and self.types.is_placed(value.e.ty):
            self.tried_into(value.e, "made")
        elif value.kind in ("struct", "call", "path"):
            self.emit(f"*made = {self.value(value).text};")
        else:
            self.fail(value, "what isn't made in the place of the caller")

    def tried_into(self, call, place):
        """`?` behind a call of a function that makes its value in a place of its caller."""
        if not self.types.is_unit(known(call.ty).args[1]):
            self.fail(call, "? of a Result that is a number")
        self.place = call, place
        self.emit(f"if ({self.value(call).text} == CUT) {{")
        self.place = None, None
        self.emit(f"    return {self.handed_on(None)};")
        self.emit("}")

    def let_large(self, local, value):
        """A local with a list in it; that which the function gives stands with its caller."""
        local.cname = GIVEN if local is self.given else self.fresh(local.name)
        if value.kind == "struct":
            self.value_of_struct(value, local.cname)
        elif local is self.given:
            self.call_into(value, "made")
        else:
            self.emit(f"{self.types.name(local.ty)} {local.cname};")
            self.call_into(value, f"&{local.cname}")

    def let_tuple(self, s):
        value = s.value
        locals_ = [part.local if part.kind == "bind" else None for part in s.pat.parts]
        if value.kind == "match" and all(locals_):
            # Each arm gives a pair, which is taken apart at once.
            for local in locals_:
                self.declare(local)
            self.to(value, ("assign", [local.cname for local in locals_]))
        elif value.kind == "tuple" and all(locals_):
            for local, part in zip(locals_, value.parts):
                self.bind(local, self.value(part).text)
        else:
            held = self.stable(value, s.pat)
            for local, text in self.pattern(s.pat, held, value.ty)[1]:
                self.bind(local, text)

    def give(self, it, to):
        """Writes a plain expression's value to where it goes."""
        if to[0] == "discard":
            text = self.value(it).text
            if text:
                self.emit(text + ";")
        elif to[0] == "return" and self.types.is_large(self.ret):
            self.give_in_place(it)
        elif to[0] == "return":
            self.emit(f"return {self.value(it).text};")
        elif len(to[1]) == 1:
            self.emit(f"{to[1][0]} = {self.value(it).text};")
        elif it.kind == "tuple":
            for name, part in zip(to[1], it.parts):
                self.emit(f"{name} = {self.value(part).text};")
        else:
            held = self.stable(it)
            for name, field in zip(to[1], ("first", "second")):
                self.emit(f"{name} = {held}.{field};")

    def to(self, it, to):
        try:
            getattr(self, "to_" + it.kind, self.give)(it, to)
        except UNKNOWN as error:
            self.fail(it, f"unknown form, {error}")

    def to_block(self, it, to):
        self.block(it, to)

    def to_return(self, it, _to):
        if it.e is None:
            self.emit("return;")
        else:
            self.to(it.e, ("return",))

    def to_assign(self, it, _to):
        if it.e.kind == "struct" and is_named(it.to.ty, "LiveBatch"):
            self.fail(it, "a list that is assigned")
        place = self.value(it.to)
        self.emit(f"{place.text} {it.op} {self.value(it.e).text};")

    def ends(self, body, to):
        """Whether nothing goes on behind a body."""
        return to[0] == "return" or is_named(body.ty, "never")

    def to_if(self, it, to):
        self.emit(f"if ({self.value(it.c).text}) {{")
        self.scoped(it.then, to)
        if it.other is None:
            self.emit("}")
        elif self.ends(it.then, to):
            self.emit("}")
            self.block(it.other, to)
        else:
            # What the other needs before it stands in its own block.
            inner = self.apart(lambda: self.scoped(it.other, to))
            self.emit("} else {")
            self.lines += inner
            self.emit("}")

    def apart(self, write):
        """The lines that are written, taken out again."""
        mark = len(self.lines)
        write()
        inner = self.lines[mark:]
        del self.lines[mark:]
        return inner

    def to_iflet(self, it, _to):
        held = self.stable(it.e, it.pat)
        conditions, binds = self.pattern(it.pat, held, it.e.ty)
        self.emit(f"if ({' && '.join(conditions)}) {{")
        self.bound(it.then, binds, ("discard",))
        self.emit("}")

    def bound(self, body, binds, to, note=()):
        """A body in a block of its own, behind what a pattern names."""
        self.open()
        self.note(note)
        self.name_parts(body, binds)
        self.block(body, to)
        self.close()

    def name_parts(self, body, binds):
        """Declares what a pattern names, but where the body does no more than give it on."""
        for local, value in binds:
            if self.gives_on(body):
                local.cname = value
            else:
                self.bind(local, value)

    def gives_on(self, it):
        """Whether an expression is a local, or made of such alone."""
        if it.kind == "block" and len(it.stmts) + (it.tail is not None) == 1:
            return self.gives_on(it.tail or it.stmts[0])
        if it.kind in ("expr", "return") and it.e is not None:
            return self.gives_on(it.e)
        if it.kind == "call" and it.what in ("Some", "Ok", "Err", "variant"):
            return all(self.gives_on(arg) for arg in it.args)
        return it.kind == "path" and getattr(it, "local", None) is not None

    def to_match(self, it, to):
        held = self.stable(it.e)
        item = self.program.item_of(referred(it.e.ty))
        plain = all(arm.guard is None and self.is_plain(arm.pat) for arm in it.arms)
        if not isinstance(held, list) and plain and len(it.arms) > 2:
            if item is not None and item.kind == "enum":
                self.switch(it, to, held, item)
                return
        opened = False
        for place, arm in enumerate(it.arms):
            opened = self.arm(it, arm, held, to, (place + 1 == len(it.arms), opened))

    def arm(self, it, arm, held, to, stands):
        """Writes an arm as an `if`. Says whether that is open still."""
        last, opened = stands
        conditions, binds = self.pattern(arm.pat, held, it.e.ty)
        if arm.guard:
            for local, value in binds:
                local.cname = value
            conditions.append(self.value(arm.guard).at(AND))
        if last or not conditions:
            if not opened:
                self.note(arm.note)
                self.name_parts(arm.body, binds)
                self.block(arm.body, to)
                return False
            self.emit("} else {")
        else:
            self.emit(("} else if (" if opened else "if (") + " && ".join(conditions) + ") {")
        self.bound(arm.body, binds, to, arm.note)
        if last or self.ends(arm.body, to):
            self.emit("}")
            return False
        return True

    def is_plain(self, it):
        """Whether a pattern asks for a variant alone."""
        if it.kind == "wild":
            return True
        if it.kind != "pvariant" or it.what != "variant":
            return False
        parts = (it.parts or []) + [part for _, part in it.named or []]
        return all(part.kind in ("bind", "wild") for part in parts)

    def switch(self, it, to, held, item):
        self.emit(f"switch ({held if is_flat(item) else member(held, 'tag')}) {{")
        for place, arm in enumerate(it.arms):
            self.note(arm.note)
            _, binds = self.pattern(arm.pat, held, it.e.ty)
            head = "default:"
            if arm.pat.kind != "wild":
                head = f"case {item.cname}_{arm.pat.path[-1]}:"
                if place + 1 == len(it.arms):
                    self.emit(head)
                    head = "default:"
            inner = self.apart(lambda body=arm.body, binds=binds: self.case(body, binds, to))
            declares = any(re.match(r"\s*(const |\w+ \*?(const )?\w+ = )", x) for x in inner)
            self.emit(head + (" {" if declares else ""))
            self.lines += inner
            if declares:
                self.emit("}")
        self.emit("}")

    def case(self, body, binds, to):
        self.bound(body, binds, to)
        if not self.ends(body, to):
            self.emit("    break;")

    def to_loop(self, it, _to):
        self.emit("for (;;) {")
        self.scoped(it.body, ("discard",))
        self.emit("}")

    def to_while(self, it, _to):
        self.follow_down(it)
        mark = len(self.lines)
        condition = self.value(it.c).text
        if len(self.lines) > mark:
            self.fail(it, "a loop's condition that takes statements")
        self.emit(f"while ({condition}) {{")
        self.scoped(it.body, ("discard",))
        self.emit("}")

    def follow_down(self, it):
        """Where a loop lowers a count past the last of a list, as in
        `while count > 0 && is_erased(list[count - 1]) { count -= 1; }`, a pointer falls with it."""
        local = self.counted_down(it)
        if local is None or any(getattr(node, "op", None) == "||" for node in nodes_of(it.c.b)):
            return
        reads = [node for node in nodes_of(it.c.b) if node.kind == "index"
                 and self.one_more(node.at) is local]
        if len(reads) == 1 and is_named(referred(reads[0].e.ty), "slice"):
            items, name = self.stable(reads[0].e), self.fresh("last")
            self.emit(f"{self.types.items(reads[0].e.ty)}{name} = {items}.items + {local.cname};")
            reads[0].by = f"*--{name}"

    def counted_down(self, it):
        """The count that a loop lowers by one and does no more, while it is above 0; else None."""
        stmts = it.body.stmts
        if it.c.kind != "binary" or it.c.op != "&&" or len(stmts) != 1 or it.body.tail:
            return None
        above, step = it.c.a, stmts[0].e
        if above.kind != "binary" or above.op != ">" or step.kind != "assign" or step.op != "-=":
            return None
        is_zero = above.b.kind == "int" and above.b.text == "0"
        is_one = step.e.kind == "int" and step.e.text == "1"
        local = getattr(above.a, "local", None)
        return local if is_zero and is_one and getattr(step.to, "local", None) is local else None

    @staticmethod
    def one_more(it):
        """The local that an expression is one less than, None for another."""
        if it.kind != "binary" or it.op != "-" or it.b.kind != "int" or it.b.text != "1":
            return None
        return getattr(it.a, "local", None)

    def to_whilelet(self, it, _to):
        self.emit("for (;;) {")
        self.open()
        held = self.stable(it.e, it.pat)
        conditions, binds = self.pattern(it.pat, held, it.e.ty)
        self.emit(f"if ({self.negated(it, conditions)}) {{")
        self.emit("    break;")
        self.emit("}")
        for local, value in binds:
            self.bind(local, value)
        self.block(it.body, ("discard",))
        self.close()
        self.emit("}")

    def to_for(self, it, _to):
        self.scopes.append(set())
        kind = known(it.e.ty).name
        if kind == "range" and self.is_over_list(it.e):
            self.for_each_place(it)
        elif kind in ("rev", "range"):
            (self.for_down if kind == "rev" else self.for_up)(it)
            self.scoped(it.body, ("discard",))
            self.emit("}")
        else:
            self.for_each(it)
        self.scopes.pop()

    def for_down(self, it):
        span = it.e.e
        if not (span.kind == "range" and span.low.kind == "int" and span.low.text == "0"):
            self.fail(it, "a range down to another number than 0")
        high = self.value(span.high).text
        end = self.fresh(it.name + "_end")
        name = it.local.cname = self.fresh(it.name)
        self.emit(f"for (uint32_t {end} = {high}; {end} > 0u; {end}--) {{")
        self.emit(f"    const uint32_t {name} = {end} - 1u;")

    def for_up(self, it):
        low, high = self.value(it.e.low), self.value(it.e.high)
        name = it.local.cname = self.fresh(it.name)
        begin, end = f"uint32_t {name} = {low.text}", high.text
        if it.e.high.kind not in ("path", "int"):
            end = self.fresh("end")
            begin += f", {end} = {high.text}"
        self.emit(f"for ({begin}; {name} < {end}; {name}++) {{")

    @staticmethod
    def is_over_list(span):
        """Whether a range is of all places of a list."""
        high = span.high
        is_length = high.kind == "method" and high.name == "len" and high.what == "builtin"
        return is_length and span.low.kind == "int" and span.low.text == "0" and is_slice(high.e.ty)

    def for_each_place(self, it):
        """The condition stands at its end, as that of a loop over items."""
        length, name = self.value(it.e.high).text, self.fresh(it.name)
        it.local.cname = name
        self.emit(f"if ({length} != 0u) {{")
        self.open()
        self.emit(f"uint32_t {name} = 0u;")
        self.emit("do {")
        self.scoped(it.body, ("discard",))
        self.emit(f"    {name}++;")
        self.emit(f"}} while ({name} != {length});")
        self.close()
        self.emit("}")

    def for_each(self, it):
        if not is_ref(it.e.ty):
            self.fail(it, "a loop over this")
        over = it.e
        while over.kind == "method" and over.name in ("iter", "iter_mut", "enumerate"):
            over = over.e
        items, name = self.stable(over), self.fresh(it.name)
        end, of_type = self.fresh(it.name + "_end"), self.types.name(it.local.ty)
        it.local.cname = name
        if it.local_place:
            it.local_place.cname = f"(uint32_t)({name} - {items}.items)"
        # An empty list may be NULL, to which nothing may be added. gcc -Os turns no loop, so its
        # condition stands at its end.
        self.emit(f"if ({items}.len != 0u) {{")
        self.open()
        self.emit(f"{of_type}{name} = {items}.items;")
        self.emit(f"{of_type}const {end} = {name} + {items}.len;")
        self.emit("do {")
        self.scoped(it.body, ("discard",))
        self.emit(f"    {name}++;")
        self.emit(f"}} while ({name} != {end});")
        self.close()
        self.emit("}")
