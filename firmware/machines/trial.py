"""Changes of a store on a part, with power cut behind any instruction of them."""
import random

from core import CLEAN, ERASE, FORGET, FREE, LOOK, PROGRAM, RAM_SIZE, READ, START, WORD, WRITE
from core import WRITE_ALL, Broken, Core, Program, check
from parts import ONES

ADDRESSES = range(1, 6)
OK, NOTHING = 0, 1
# What is tried, one after the other. `fill` takes all slots that are free, so that the next write moves; `restart` is the start
# behind a cut of the change before, which is cut too.
CHANGES = "start restart write write forget list restart fill write restart clean list fill list"
CHANGES = f"{CHANGES} restart write restart".split()
# How many instructions behind a write of a register or of the flash are cut more often than others.
NEAR = 8
# How many cuts a change has at most in each third.
ROOM = 9


class Watcher:
    """Counts the instructions of a change, and cuts power behind some. A third of the cuts come while a step is under way, a
    third just behind a write to the part, and a third elsewhere. In each third one instruction is as likely as the other.
    """

    def __init__(self, part, dice):
        self.part, self.dice, self.is_on, self.delay, self.instructions = part, dice, False, 0, 0

    def start(self):
        """A change begins, of which as many cuts are kept in each third."""
        self.is_on, self.since, self.kept, self.seen = True, NEAR, ([], [], []), [0, 0, 0]

    def stop(self):
        self.is_on = False

    def cuts(self):
        """What was kept: where, whether in a step, and the cells."""
        return self.kept[0] + self.kept[1] + self.kept[2]

    def is_taken(self):
        """Whether an NMI that is raised is taken now: some instructions later, and at a barrier at the latest, unless it is late."""
        most = 60 if self.part.is_late else 6
        self.delay = self.delay - 1 if self.delay else self.dice.randrange(most)
        return self.delay == 0

    def step(self, place):
        """An instruction is done, and the one at this place comes next."""
        if self.is_on:
            self.count(place)
        if self.part.is_away(place):
            check(self.part.stalls, "an instruction is read from flash while it is written")
            self.part.stood += 1
            self.part.settle()

    def count(self, place):
        """Counts an instruction, and keeps what a cut leaves there, or not."""
        self.instructions += 1
        self.since += 1
        if self.part.is_touched:
            self.since, self.part.is_touched = 0, False
        third = 0 if self.part.step else 1 if self.since < NEAR else 2
        kept = self.kept[third]
        self.seen[third] += 1
        if len(kept) < ROOM:
            kept.append((place, third == 0, self.part.cut()))
        elif self.dice.random() * self.seen[third] < ROOM:
            kept[self.dice.randrange(ROOM)] = place, third == 0, self.part.cut()


class Trial:
    """The trial of a port."""

    def __init__(self, port, path, core, model, stalls=False):
        self.port, self.core_name, self.dice = port, core, random.Random(port)
        program = Program(path, core)
        self.part, self.next_part = model(self.dice), model(self.dice)
        self.part.stalls = self.next_part.stalls = stalls
        self.watcher = Watcher(self.part, self.dice)
        self.core = Core(program, self.part, self.watcher)
        self.next_core = Core(program, self.next_part)
        # Some starts behind a cut are watched too, so that an NMI may be late in them.
        self.late_core = Core(program, self.next_part, Watcher(self.next_part, self.dice))
        self.passed = self.failed = self.cuts = self.under_way = self.before = self.after = 0

    def junk(self):
        """What the memory has when power comes."""
        return self.dice.randbytes(RAM_SIZE)

    def looks(self):
        """The product reads its pages by itself, by the cache, which holds nothing old."""
        for _ in range(3):
            offset = self.part.any_place()
            wanted = self.part.expected(offset)
            _, found = yield LOOK, self.part.FLASH + offset, 0
            check(wanted is None or found == wanted, f"old data at {self.part.FLASH + offset:#x}")

    def values(self):
        """The map that the store has."""
        found = {}
        for address in ADDRESSES:
            status, value = yield READ, address, 0
            check(status in (OK, NOTHING), f"a read answers {status}")
            if status == OK:
                found[address] = value
        return found

    def started(self):
        status, _ = yield START, 0, 0
        check(status == OK, f"the start answers {status}")

    def next_start(self, cells):
        """The map that the next start finds, and what it leaves."""
        found = {}

        def plan():
            yield from self.started()
            found.update((yield from self.values()))
            if self.dice.random() < 0.1:
                status, _ = yield WRITE, 7, 70
                check(status == OK and (yield READ, 7, 0) == (OK, 70), "a write behind a cut")
                check((yield FORGET, 7, 0)[0] == OK, "a removal behind a cut")

        self.next_part.power(cells)
        self.dice.choice((self.late_core, *[self.next_core] * 7)).run(plan(), self.junk())
        check(self.next_part.is_at_rest(), "the next start leaves the part in another state")
        return found, self.next_part.cells

    def asked(self, kind, before):
        """The call of a change, and the map behind it."""
        address, value = self.dice.choice(ADDRESSES), self.dice.getrandbits(32)
        other = address % len(ADDRESSES) + 1
        if kind == "write":
            return (WRITE, address, value), {**before, address: value}
        if kind == "list":
            both = {address: value, other: value ^ ONES}
            return (WRITE_ALL, address | other << 16, value), {**before, **both}
        if kind == "forget" and before:
            address = self.dice.choice(list(before))
            return (FORGET, address, 0), {it: before[it] for it in before if it != address}
        if kind == "clean":
            return (CLEAN, 0, 0), before
        return (START, 0, 0), before

    def watched(self, asked, after):
        """Makes a change that is watched, and sees what it left."""
        if asked[0] != START:
            yield from self.started()
            yield from self.looks()
        self.watcher.start()
        status, _ = yield asked
        self.watcher.stop()
        is_idle = (status, asked[0]) == (NOTHING, CLEAN)
        check(status == OK or is_idle, f"the change answers {status}")
        check(self.part.is_at_rest(), "the change leaves the part in another state")
        yield from self.looks()
        check((yield from self.values()) == after, "the change left another map")

    def change(self, kind, cells, before):
        """Makes a change and cuts it. The cells and the map that it left, and of each cut the cells, those that the next start
        left, and their map."""
        asked, after = self.asked(kind, before)
        self.part.power(cells)
        self.core.run(self.watched(asked, after), self.junk())
        left = []
        for place, is_under_way, cut in self.watcher.cuts():
            try:
                found, opened = self.next_start(cut)
                told = f"the next start has {found}, which is neither {before} nor {after}"
                check(found in (before, after), told)
            except Broken as fault:
                raise Broken(f"{kind} cut at {place:#x}: {fault}") from None
            self.cuts += 1
            self.under_way += is_under_way
            if before != after:
                self.before += found == before
                self.after += found == after
            left.append((cut, opened.copy(), found))
        return self.part.cells.copy(), after, left

    def fill(self, _, cells, before):
        """Takes the slots that are free. What it left, as of a change with no cuts."""
        after = dict(before)

        def plan():
            yield from self.started()
            _, free = yield FREE, 0, 0
            for _ in range(free):
                address, value = self.dice.choice(ADDRESSES), self.dice.getrandbits(32)
                check((yield WRITE, address, value)[0] == OK, "a write where a slot is free")
                after[address] = value

        self.next_part.power(cells)
        self.next_core.run(plan(), self.junk())
        return self.next_part.cells.copy(), after, []

    def calls(self):
        """The port's own calls: a word is programmed once, and a second program is refused and leaves it as it was."""

        def plan():
            check((yield WORD, 3, 0)[0] == OK, "an erased word")
            check((yield PROGRAM, 3, 0x12345678)[0] == OK, "a program")
            check((yield WORD, 3, 0) == (OK, 0x12345678), "what was programmed")
            check((yield PROGRAM, 3, 0x87654321)[0] != OK, "a second program is refused")
            check(self.part.is_at_rest(), "a refused program leaves the part in another state")
            check((yield ERASE, 0, 0)[0] == OK, "an erase")
            check((yield WORD, 3, 0) == (OK, ONES), "what was erased")
            check((yield PROGRAM, 1 << 16 | 5, 5)[0] == OK, "a program in the second page")
            check((yield WORD, 1 << 16 | 5, 0) == (OK, 5), "what was programmed in the second page")
            check(self.part.is_at_rest(), "a call leaves the part in another state")

        self.part.power(self.part.blank())
        self.core.run(plan(), self.junk())

    def tried(self, what, call, *given):
        """What a call gives, which is counted; False where it failed."""
        try:
            found = call(*given)
        except Broken as fault:
            self.say(f"{self.port}, {what}: {fault}", flush=True)
            self.failed += 1
            return False
        self.passed += 1
        return found

    def run(self, count, say):
        """Makes so many cuts, in rounds of all changes. Faults are told by `say`."""
        self.say = say
        is_well = self.tried("the port's own calls", self.calls) is not False
        while is_well and self.cuts < count:
            is_well = self.round()

    def round(self):
        """Makes each change once. Whether all went well."""
        cells, values, left = self.part.blank(), {}, []
        for kind in CHANGES:
            if kind == "restart" and left:
                cells, _, values = self.dice.choice(left)
            make = self.fill if kind == "fill" else self.change
            changed = self.tried(kind, make, kind, cells, values)
            if not changed:
                return False
            cells, values, left = changed
            if left and kind != "restart" and self.dice.random() < 0.3:
                _, cells, values = self.dice.choice(left)
        return True

    def row(self):
        """What is told of it."""
        taken = self.part.taken + self.next_part.taken
        name = "Cortex-" + self.core_name[len("cortex-") :].replace("plus", "+").upper()
        stood = f"; the core stood still in {self.part.stood} steps" if self.part.stalls else ""
        return (
            f"{self.port} on a {name}: {self.cuts} cuts, {self.under_way} in a step under way; {self.before} left the map "
            f"before the change, {self.after} the one after it; {self.watcher.instructions} instructions, {taken} NMIs{stood}"
        )
