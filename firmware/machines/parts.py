"""What the models of parts share: a flash with a step that is under way, and the lock of an STM32's controller."""
from core import check

ONES = 0xFFFFFFFF
KEYS = (0x45670123, 0xCDEF89AB)


def part_of(word, offset, width):
    """The bytes of a word of 32 bits that a read takes."""
    return word >> 8 * (offset % 4) & (1 << 8 * width) - 1


class Cache:
    """Lines of a cache, of which the oldest makes room for one more."""

    def __init__(self, size, most=1 << 16):
        self.size, self.most, self.lines = size, most, {}

    def read(self, at, fetch):
        """What stands in a line from a place on. `fetch` reads one that isn't here."""
        line, rest = divmod(at, self.size)
        if line not in self.lines:
            found = fetch(line * self.size)
            if len(self.lines) == self.most:
                del self.lines[next(iter(self.lines))]
            self.lines[line] = found
        return self.lines[line][rest:]

    def write(self, at, values):
        """Puts values into a line that is here."""
        line, rest = divmod(at, self.size)
        if line in self.lines:
            self.lines[line][rest : rest + len(values)] = values


class Part:
    """A part with its flash as `cells`. The model of a family says what its registers do, and what a cut leaves."""

    # Whether the core stands still on a read of the flash in a step, as with one bank; else it may read none then. And how often it did.
    stalls, stood = False, 0

    def __init__(self, dice):
        self.dice, self.taken = dice, 0
        self.cells = self.blank()
        self.power(self.cells)

    def power(self, cells):
        """Power comes: the cells are as they were left, and all else as after a reset."""
        self.cells = cells.copy()
        self.is_raised = self.is_touched = False
        # An NMI may come behind a barrier.
        self.is_late = self.dice.random() < 0.5
        self.reset()

    def any_bits(self):
        """Bits that look random: half of them, few, or many."""
        one, other = self.dice.getrandbits(32), self.dice.getrandbits(32)
        return self.dice.choice((one, one & other, one | other))

    def any_place(self):
        """The offset of 32 bits of the store's pages."""
        return self.dice.randrange(0, self.SIZE, 4)

    def hook(self, core):
        """Where the model wants to be called."""

    def barrier(self):
        """All writes are done."""

    def is_of_others(self):
        """Whether an error that the product meets as it reads the pages by itself may be one for its own handler, which ends it."""
        return False

    def is_away(self, _):
        """Whether no instruction can be read at a place now."""
        return False


class Stm32(Part):
    """The controller of an STM32's flash: keys and lock, errors, and a step that takes a while."""

    # Of a family: where the registers of keys, status and control stand, and their bits.
    KEYR, SR, CR = 8, 16, 20
    LOCK, PG, STRT, BSY = 1 << 31, 1, 1 << 16, 1 << 16
    ERASE, ERROR = 2, 1 << 3  # what asks for an erase; a program over what stands

    def reset(self):
        self.cr, self.keys, self.busy, self.step = self.LOCK, 0, 0, None
        self.is_queued = self.is_settled = False
        # An error of before stands.
        self.sr = self.dice.choice((0, self.ERROR))
        self.others = dict(self.AFTER_RESET)
        self.forget()

    def barrier(self):
        self.is_settled, self.is_queued = True, False

    def regions(self):
        return [
            (self.BASE, 0x1000, self.read_register, self.write_register),
            (self.FLASH, self.SIZE, self.read_flash, self.write_flash),
        ]

    def read_register(self, offset, width):
        check(width == 4, "a register that is not read whole")
        offset -= self.PLACE
        if offset == self.SR:
            check(not self.is_queued, "the status is read before a write has come")
            if self.busy:
                self.busy -= 1
                if self.busy:
                    return self.sr | self.BSY
                self.finish()
            return self.sr
        check(offset == self.CR or offset in self.others, "another register is read")
        return self.cr if offset == self.CR else self.others[offset]

    def write_register(self, offset, width, value):
        check(width == 4, "a register that is not written whole")
        offset -= self.PLACE
        self.is_touched, self.is_settled = True, False
        if offset == self.KEYR:
            self.unlock(value)
        elif offset == self.SR:
            self.sr &= ~value
        elif offset == self.CR:
            self.control(value)
        else:
            self.set(offset, value)

    def unlock(self, value):
        """Two keys open the control register. A wrong one closes it until the next reset."""
        right = self.keys < 2 and value == KEYS[self.keys]
        self.keys = self.keys + 1 if right else 3
        if self.keys == 2:
            self.cr &= ~self.LOCK

    def control(self, value):
        if self.cr & self.LOCK:
            check(value in (0, self.LOCK), "the control register is written while it is locked")
            return
        check(not self.busy, "the control register is written while the flash is busy")
        self.cr = value & ~self.STRT
        if value & self.LOCK:
            self.keys = 0
        if value & self.STRT:
            check(value & self.ERASE, "what is started is no erase")
            self.begin(self.erased(value), 40)

    def control_cache(self, offset, value, on, empty):
        """The cache of data is turned on or off, or emptied."""
        before = self.others[self.ACR]
        check(offset == self.ACR and not (value ^ before) & ~(on | empty), "another bit is written")
        if value & empty:
            check(not (value | before) & on, "the cache is emptied while it is on")
            self.cache.lines.clear()
        self.others[offset] = value

    def begin(self, step, most):
        """A step begins, which is busy for a few looks at the status."""
        check(not self.sr & self.ERROR, "a step begins while an error of before stands")
        self.step, self.busy = step, self.dice.randint(2, most)

    def finish(self):
        self.busy, step, self.step = 0, self.step, None
        self.forget()
        for at, values in step:
            self.leave(self.cells, at, values)

    def settle(self):
        """A read of the flash waits until the step is done."""
        if self.busy:
            self.finish()

    def cut(self):
        """What a cut of power leaves now."""
        cells = self.cells.copy()
        for at, values in self.step or ():
            self.tear(cells, at, values)
        return cells

    def is_away(self, place):
        """The flash gives no instruction in a step."""
        return self.busy and place >> 24 == 0x08

    def forget(self):
        """What the part read last isn't known to it any more."""

    def is_at_rest(self):
        """Whether a call left the controller locked, and nothing else changed."""
        return self.cr == self.LOCK and not self.busy and self.others == self.AFTER_RESET
