"""Models of parts with error correction over units of two or four times 32 bits: STM32G0, L4, G4 and U5."""
from core import check
from parts import ONES, Cache, Stm32

FINE, CORRECTED, TORN = range(3)


class Units:
    """Units of some times 32 bits, each with a state."""

    def __init__(self, count, parts):
        self.parts, self.values, self.states = parts, [ONES] * (count * parts), bytearray(count)

    def copy(self):
        other = Units(0, self.parts)
        other.values, other.states = self.values[:], self.states[:]
        return other


class EccFlash(Stm32):
    """A controller with error correction, the address of an error, and its NMI."""

    BASE, PLACE = 0x40022000, 0
    # Where the bank stands in the control register, what stands beside the address of an error, by how many a unit counts there,
    # and the bit of the status while a unit isn't given whole.
    BANK_SHIFT, BESIDE, UNIT, WAITS = 11, 1 << 21, 8, 0
    ECCIE, CORRECTION, DETECTION = 1 << 24, 1 << 30, 1 << 31
    # Registers elsewhere that tell what the part is: pages of addresses with the values of their words.
    TOLD = {}
    FLAGS = CORRECTION | DETECTION

    def blank(self):
        return Units(self.COUNT, self.PARTS)

    def forget(self):
        self.buffer = None

    def reset(self):
        super().reset()
        self.filled = []
        # While a flag stands no other error is told; else its flag is, with the address of before.
        self.hides = self.dice.random() < 0.5
        # The address of an error may be any other one.
        self.is_lying, self.has_lied = self.dice.random() < 0.5, False

    def regions(self):
        told = self.TOLD.items()
        others = [(base, 0x1000, self.told_by(it), self.take_clock(it)) for base, it in told]
        return super().regions() + others

    def told_by(self, words):
        return lambda offset, _: words.get(offset, 0)

    def take_clock(self, words):
        """Clocks that are turned on and off again: what stands behind them reads as well without."""

        def write(offset, _, value):
            is_clock = offset in words and not (value ^ words[offset]) & ~self.CLOCK
            check(is_clock, "another register is written")

        return write

    def leave(self, cells, at, values):
        cells.values[at * self.PARTS : (at + 1) * self.PARTS] = values
        cells.states[at] = FINE

    def tear(self, cells, at, values):
        """Nothing done, done, done and read with a correction, all ones by a correction, or torn. What is erased stays so in an
        erase, since cells go one way."""
        kind, stands = self.dice.randrange(7), cells.values[at * self.PARTS : (at + 1) * self.PARTS]
        is_erased = cells.states[at] == FINE and list(stands) == list(values) == [
            ONES for _ in values
        ]
        if kind == 0 or is_erased:
            return
        if kind >= 3:
            values = [ONES if kind == 3 else self.any_bits() for _ in values]
        self.leave(cells, at, values)
        cells.states[at] = FINE if kind == 1 else CORRECTED if kind < 4 else TORN

    def tell(self, unit, flag):
        """An error with its flag, and where no flag stands its address, or another one."""
        eccr, address = self.others[self.ECCR], self.UNIT * (self.FIRST_UNIT + unit)
        if eccr & self.FLAGS & ~flag and self.hides:
            return
        if not eccr & self.FLAGS:
            if self.is_lying and self.dice.random() < 0.25:
                address, self.has_lied = self.UNIT * self.dice.randrange(1 << 15), True
            eccr = (eccr & self.ECCIE) | self.BESIDE | address
        self.others[self.ECCR] = eccr | flag
        self.is_raised |= flag == self.DETECTION

    def sense(self, unit):
        """The flash reads a unit, but for the one that it read last, and tells what is wrong."""
        if self.buffer == unit:
            return
        self.buffer = unit
        state = self.cells.states[unit]
        if state != FINE:
            self.tell(unit, self.CORRECTION if state == CORRECTED else self.DETECTION)

    def write_flash(self, offset, width, value):
        at, i = divmod(offset // 4, self.PARTS)
        check(width == 4, "a write of the flash that is not of 32 bits")
        check(not self.busy and not self.is_cached(), "a write while the flash is busy or cached")
        self.is_queued = self.is_touched = True
        is_asked = self.cr == self.PG and i == len(self.filled)
        check(is_asked, "a write of the flash that nothing asked for, or in another order")
        self.filled.append(value)
        if len(self.filled) < self.PARTS:
            return
        values, self.filled = self.filled, []
        stands = self.cells.values[at * self.PARTS : (at + 1) * self.PARTS]
        if stands != [ONES] * self.PARTS or self.cells.states[at] != FINE:
            self.sr |= self.ERROR  # a second program
        else:
            self.begin([(at, values)], 9)

    def erased(self, value):
        page = (value >> 3 & self.PAGES_MASK) - self.FIRST_PAGE
        is_own = value >> self.BANK_SHIFT & 1 == self.BANK and 0 <= page < self.PAGES
        check(is_own, "an erase of another page")
        check(not self.is_cached(), "an erase while the cache is on")
        units = self.COUNT // self.PAGES
        return [(at, [ONES] * self.PARTS) for at in range(page * units, (page + 1) * units)]

    def read_register(self, offset, width):
        waits = self.WAITS if offset == self.SR and self.filled else 0
        return super().read_register(offset, width) | waits

    def set_eccr(self, value):
        flags = self.others[self.ECCR] & ~(value & self.FLAGS) & ~self.ECCIE
        self.others[self.ECCR] = flags | (value & self.ECCIE)

    def is_by_cache(self):
        return self.is_cached()

    def read_flash(self, offset, width):
        check(width == 4 and self.is_settled, "a read before the cache is on or off as it was told")
        self.settle()
        at = offset // 4
        if self.is_by_cache():
            return self.cache.read(at, self.fetch)[0]
        self.sense(at // self.PARTS)
        return self.cells.values[at]

    def fetch(self, at):
        """A line for the cache."""
        for unit in range(at // self.PARTS, (at + self.LINE) // self.PARTS):
            self.sense(unit)
        return self.cells.values[at : at + self.LINE]

    def is_of_others(self):
        """So it is beside a corrected one, which may have been first: the address may be that of either. So it is where the address
        is of another word."""
        flags = self.others[self.ECCR] & self.FLAGS
        self.others[self.ECCR] &= ~self.FLAGS
        return flags == self.FLAGS or self.has_lied

    def is_at_rest(self):
        flags = self.others[self.ECCR]
        self.others[self.ECCR] = self.AFTER_RESET[self.ECCR]
        is_well = super().is_at_rest() and flags & self.ECCIE
        self.others[self.ECCR] = flags
        return is_well and not flags & self.DETECTION

    def expected(self, offset):
        """What 32 bits of the flash have, None in a torn unit."""
        half = offset // 4
        return None if self.cells.states[half // self.PARTS] == TORN else self.cells.values[half]


class DoubleWords(EccFlash):
    """Two pages of 2 KB of units of 64 bits, and a cache of data: eight lines of 32 bytes."""

    SIZE, PARTS, PAGES, COUNT, LINES, LINE = 0x1000, 2, 2, 512, 8, 8

    def reset(self):
        self.cache = Cache(self.LINE, self.LINES)
        # A program writes what was asked for into the data cache too; else it leaves an old line there.
        self.updates = self.dice.random() < 0.5
        super().reset()

    def is_cached(self):
        return self.others[self.ACR] & self.ON

    def leave(self, cells, at, values):
        super().leave(cells, at, values)
        if self.updates and cells is self.cells and values != [ONES, ONES]:
            self.cache.write(2 * at, values)

    def set(self, offset, value):
        if offset == self.ECCR:
            self.set_eccr(value)
        else:
            self.control_cache(offset, value, self.ON, self.EMPTY)


class Stm32g4(DoubleWords):
    """The last two pages of the first bank of 256 KB, which is read at the address of the second."""

    FLASH, FIRST_PAGE, BANK, BESIDE, PAGES_MASK = 0x0807F000, 126, 0, 0, 0x7F
    FIRST_UNIT = FIRST_PAGE * 256
    ACR, ECCR, OPTR, ON, EMPTY = 0, 24, 32, 1 << 10, 1 << 12
    AFTER_RESET = {ACR: 0x40600, ECCR: EccFlash.ECCIE, OPTR: 0xFFEFF8AA}
    TOLD = {0xE0042000: {0: 0x20010469}, 0x1FFF7000: {0x5E0: 512}}
    TOLD |= {0x40021000: {0x60: 0}, 0x40010000: {0: 1 << 8}}
    CLOCK = 1


class Stm32g0(DoubleWords):
    """The last two pages of the second bank of 256 KB. That bank has a register of errors for itself."""

    FLASH, FIRST_PAGE, BANK, PAGES_MASK = 0x0807F000, 126, 1, 0x3FF
    FIRST_UNIT = FIRST_PAGE * 256
    BANK_SHIFT, BESIDE, UNIT, WAITS = 13, 0, 1, 1 << 18
    ACR, ECCR, OPTR, ON, EMPTY = 0, 28, 32, 1 << 9, 1 << 11
    AFTER_RESET = {ACR: 0x40600, 24: 0, ECCR: EccFlash.ECCIE, OPTR: 0xFFFFFEAA}
    TOLD = {0x40015000: {0x800: 0x10000467}, 0x1FFF7000: {0x5E0: 512}, 0x40021000: {0x3C: 0}}
    CLOCK = 1 << 27


class Stm32l4(DoubleWords):
    """The last two pages of the second bank of 512 KB."""

    FLASH, FIRST_PAGE, BANK, PAGES_MASK = 0x080FF000, 254, 1, 0xFF
    FIRST_UNIT, BESIDE = FIRST_PAGE * 256, 1 << 19
    ACR, ECCR, OPTR, ON, EMPTY = 0, 24, 32, 1 << 10, 1 << 12
    AFTER_RESET = {ACR: 0x600, ECCR: EccFlash.ECCIE, OPTR: 0xFFEFF8AA}
    TOLD = {0xE0042000: {0: 0x10000415}, 0x1FFF7000: {0x5E0: 1024}}
    TOLD |= {0x40021000: {0x60: 0}, 0x40010000: {0: 0}}
    CLOCK = 1


class Stm32u5(EccFlash):
    """The last two pages of 8 KB of the first bank, which is read at the address of the second, and ICACHE: a line for each unit
    of 16 bytes."""

    FLASH, SIZE, PARTS, LINE, PAGES, COUNT = 0x081FC000, 0x4000, 4, 4, 2, 1024
    FIRST_PAGE, BANK, PAGES_MASK = 126, 0, 0xFF
    FIRST_UNIT, UNIT, BESIDE = FIRST_PAGE * 512, 16, 0
    SR, CR, ECCR, OPTR = 32, 40, 48, 64
    CACHE, CACHE_CR, CACHE_SR, CACHE_FCR = 0x40030000, 0x400, 0x404, 0x40C
    AFTER_RESET = {ECCR: EccFlash.ECCIE, OPTR: 0x1FFFF8AA, CACHE_CR: 0x30005}
    TOLD = {0x0BFA0000: {0x7A0: 2048}}
    WAITS = 1 << 17

    def regions(self):
        return [*super().regions(), (self.CACHE, 0x1000, self.read_cache, self.write_cache)]

    def reset(self):
        self.cache, self.cache_busy, self.is_ended = Cache(self.LINE), 0, False
        # The cache is emptied as it is turned off.
        self.empties = self.dice.random() < 0.5
        super().reset()

    def is_cached(self):
        return self.others[self.CACHE_CR] & 1

    def is_by_cache(self):
        return self.is_cached() and not self.cache_busy

    def set(self, offset, value):
        check(offset == self.ECCR, "another register is written")
        self.set_eccr(value)

    def read_cache(self, offset, _):
        if offset == self.CACHE_CR:
            return self.others[offset]
        check(offset == self.CACHE_SR, "another register of the cache is read")
        if self.cache_busy:
            self.cache_busy -= 1
            self.is_ended = self.cache_busy == 0
            return 1
        self.is_settled = True
        return 2 * self.is_ended

    def write_cache(self, offset, _, value):
        self.is_touched = True
        if offset == self.CACHE_FCR:
            self.is_ended &= not value & 2
            return
        self.is_settled, before = False, self.others[self.CACHE_CR]
        is_known = offset == self.CACHE_CR and not (value ^ before) & ~3
        check(is_known, "another bit of the cache is written")
        is_early = value & ~before & 1 and self.cache_busy
        check(not is_early, "the cache is turned on before it is empty")
        self.others[self.CACHE_CR] = value & ~2
        if self.cache_busy:
            return
        if value & 2 or (self.empties and before & ~value & 1):
            self.cache, self.cache_busy = Cache(self.LINE), 9

    def is_at_rest(self):
        return super().is_at_rest() and not self.is_ended
