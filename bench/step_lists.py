"""The list of steps of each call, written from docs/MODEL.md ("The steps of a call") and from no
code of the store, and what scripts make of a device by these lists alone, cuts included."""
from collections import namedtuple
from functools import lru_cache

from tools.worked import image_of

MARK, HEADER, LAST_GENERATION, MOST_WEAR = "a" * 16, 4, 4294967294, 2**64 - 1
# Which word of a header is which mark.
RECEIVE, ACTIVE, VALID, ERASING = range(HEADER)

# A word that is programmed; or, with no place, a page that is erased.
Step = namedtuple("Step", "page place word", defaults=(None, None))
# The words of each page, as an image spells them, and how often each page was erased.
Device = namedtuple("Device", "pages wears")
# Where a script stands: whether a store is open, and the fuse: how many steps pass, and the tear.
Desk = namedtuple("Desk", "device is_open fuse", defaults=(True, None))


def device_of(text):
    rows = [line.split() for line in text.decode().splitlines()[1:]]
    return Device(tuple(tuple(row[1:]) for row in rows), tuple(int(row[0]) for row in rows))


def text_of(device):
    rows = [[str(wear), *page] for page, wear in zip(*device)]
    return image_of(len(rows) // 2, len(device.pages[0]), rows)


def generation_of(word):
    """The generation of a receive word, 0 of any other one."""
    number = int(word[8:], 16) if word[:8] == MARK[:8] else 0
    return number if number <= LAST_GENERATION else 0


def said_by(word):
    """The address of an element or a forgetting, with its value or None, if the word is one."""
    if word in "-?":
        return None
    value, middle, address = int(word[:8], 16), int(word[8:12], 16), int(word[12:], 16)
    is_proper = middle < 2 and 0 < address < 65535
    return (address, None if middle else value) if is_proper else None


class Live:
    """The live set of a device, or its first or second one: its first page, its generation, its
    slots and their meaning."""

    def __init__(self, device, side=None):
        pages = device.pages
        self.pages, self.size, self.room = pages, len(pages) // 2, len(pages[0]) - HEADER
        firsts = pages[0], pages[self.size]
        named = [generation_of(it[RECEIVE]) if it[ACTIVE] == MARK else 0 for it in firsts]
        side = named.index(max(named)) if side is None else side
        self.generation, self.first = named[side], side * self.size
        self.other = self.size - self.first
        self.words = sum((page[HEADER:] for page in self.own()), ())
        self.slots, self.fill = len(self.words), len(self.words) - self.words.count("-")
        held = dict(filter(None, map(said_by, self.words)))
        self.values = {name: value for name, value in sorted(held.items()) if value is not None}

    def own(self):
        return self.pages[self.first :][: self.size]

    def written(self, first):
        """The pages of the set that begins there which aren't blank."""
        return [at for at in range(first, first + self.size) if set(self.pages[at]) != {"-"}]


def element(address, value):
    return f"{value:08x}{address:08x}"


def words_with(live, puts):
    """What a move copies: the values that are put, in their order, then the others, rising."""
    rest = {name: value for name, value in live.values.items() if name not in dict(puts)}
    return [element(*put) for put in [*puts, *rest.items()]]


class Lists:
    """The steps of each call, as a list that the device before it determines."""

    def mark(self, live, page, place):
        """A mark is a step where its word is erased."""
        return [Step(page, place, MARK)] if live.pages[page][place] == "-" else []

    def retire(self, live, first):
        return sum((self.mark(live, page, ERASING) for page in live.written(first)), [])

    def append(self, live, word):
        page, place = divmod(live.fill, live.room)
        page, turns = live.first + page, page > 0 and place == 0
        before = self.mark(live, page - 1, VALID) + self.mark(live, page, ACTIVE) if turns else []
        return before + [Step(page, HEADER + place, word)]

    def transfer(self, live, words):
        receive = f"{MARK[:8]}{live.generation + 1:08x}"
        steps = [Step(page) for page in live.written(live.other)]
        for slot in range(max(len(words), 1)):
            page, place = divmod(slot, live.room)
            steps += [Step(live.other + page, RECEIVE, receive)] if place == 0 else []
            steps += [Step(live.other + page, HEADER + place, word) for word in words[slot:][:1]]
        steps += [Step(live.other, ACTIVE, MARK)]
        steps += [Step(before, VALID, MARK) for before in range(live.other, live.other + page)]
        steps += [Step(live.other + page, ACTIVE, MARK)] if page > 0 else []
        return steps + self.retire(live, live.first)

    def write(self, live, address, value):
        if live.fill < live.slots:
            return self.append(live, element(address, value))
        return self.transfer(live, words_with(live, [(address, value)]))

    def write_all(self, live, puts):
        """Of two values or more."""
        return self.transfer(live, words_with(live, puts))

    def forget(self, live, address):
        values = dict(live.values)
        word = element(address, values.pop(address))
        if live.fill < live.slots:
            return self.append(live, f"{word[:8]}0001{word[12:]}")
        return self.transfer(live, [element(*each) for each in values.items()])

    def clear(self, live):
        return self.transfer(live, []) if live.fill > 0 else []

    def rescue(self, live):
        return self.transfer(live, words_with(live, []))

    def clean(self, live):
        return [Step(page) for page in live.written(live.other)[:1]]

    def open(self, live):
        last = live.first + max(live.fill - 1, 0) // live.room
        valid = [self.mark(live, page, VALID) for page in range(live.first, last)]
        ready = sum(valid, []) + self.mark(live, last, ACTIVE)
        return ready + self.retire(live, live.other)

    def format(self, live):
        blank = [Step(page) for page, words in enumerate(live.pages) if set(words) != {"-"}]
        return blank + [Step(0, RECEIVE, f"{MARK[:8]}{1:08x}"), Step(0, ACTIVE, MARK)]


def torn(at, word, tear):
    """What a cut erase leaves of a word."""
    return {"n": word, "d": "-", "t": "?", "m": (word, "-", "?")[at % 3]}[tear]


def after(device, step, tear="d"):
    """The device behind a step: a whole one, or one in which power was cut with this tear."""
    pages, wears = list(device.pages), list(device.wears)
    words = list(pages[step.page])
    if step.place is None:
        words = [torn(at, word, tear) for at, word in enumerate(words)]
        wears[step.page] = min(wears[step.page] + 1, MOST_WEAR)
    elif tear != "n":
        words[step.place] = step.word if tear == "d" else "?"
    pages[step.page] = tuple(words)
    return Device(tuple(pages), tuple(wears))


def left_by(device, steps):
    """The device behind steps."""
    for step in steps:
        device = after(device, step)
    return device


def taken(desk, steps):
    """The desk behind a call of these steps, and whether power was cut in it."""
    device, fuse = desk.device, desk.fuse
    for step in steps:
        if fuse and fuse[0] == 0:
            return Desk(after(device, step, fuse[1]), False), True
        device, fuse = after(device, step), fuse and (fuse[0] - 1, fuse[1])
    return Desk(device, True, fuse), False


def call_of(lists, live, kind, numbers):
    """What a line of an open store answers, and its steps."""
    is_full = live.fill == live.slots
    is_spent, moved = is_full and live.generation == LAST_GENERATION, ("ok", "moved")[is_full]
    if kind == "w":
        if numbers[0] not in live.values and len(live.values) == live.slots:
            return "full", []
        return ("spent", []) if is_spent else (moved, lists.write(live, *numbers))
    if kind == "f":
        if numbers[0] not in live.values:
            return "absent", []
        return ("spent", []) if is_spent else (moved, lists.forget(live, *numbers))
    if kind == "c":
        steps = lists.clean(live)
        return ("clean" if steps else "idle"), steps
    return str(live.values.get(numbers[0], "none")), []


@lru_cache(maxsize=4096)
def answered(lists, desk, line):
    """The desk behind a line, its answer, and how many steps the line takes where none is cut."""
    kind, *words = line.split()
    if kind == "x":
        return desk._replace(fuse=(int(words[0]) - 1, words[1])), "armed", 0
    if not desk.is_open and kind != "p":
        return desk, "off", 0
    if kind == "p":
        answer, steps = "open", [] if desk.is_open else lists.open(Live(desk.device))
    else:
        answer, steps = call_of(lists, Live(desk.device), kind, [int(word) for word in words])
    desk, was_cut = taken(desk, steps)
    return desk, "cut" if was_cut else answer, len(steps)


def played(lists, device, script):
    """What a script leaves of a device, and its report."""
    desk, _ = taken(Desk(device), lists.open(Live(device)))
    start, answers = Live(desk.device), []
    made, begun, stretches = 0, start.fill, []
    for line in script:
        desk, answer, _ = answered(lists, desk, line)
        answers.append(answer)
        made += answer in ("ok", "moved")
        if answer == "moved":
            stretches.append(f"to {made} from {begun}")
            begun = Live(desk.device).fill
    live, moves = Live(desk.device), f"transfers {len(stretches)}"
    stands = f"fill {live.fill} room {live.slots - live.fill} live {len(live.values)} "
    stands += f"pending {len(live.written(live.other))}"
    head = f"slots {start.slots} fill {start.fill} live {len(start.values)} writes {made}"
    tail = ["no certificate"] if "cut" in answers else [head, *stretches, moves]
    end = f"end {stands if desk.is_open else 'off'} {moves}"
    return desk.device, "\n".join([*answers, end, *tail, ""]).encode()
