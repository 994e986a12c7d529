"""Models of parts without error correction: STM32F1, STM32F4, and the flash beside an RP2040. An erase may clear the cells of its
page first."""
from unicorn import arm_const as arm

from core import check
from parts import ONES, Cache, Part, Stm32, part_of


class OneWay(Stm32):
    """A controller of cells that a program only clears and an erase sets, and at times clears first."""

    KEYR, SR, CR, ACR = 4, 12, 16, 0

    def blank(self):
        return [(1 << self.BITS) - 1] * self.COUNT

    def leave(self, cells, at, value):
        cells[at] = value

    def tear(self, cells, at, value):
        """Any of the bits that the step changes are changed."""
        bits = self.dice.choice((0, ONES, self.any_bits()))
        cells[at] ^= (cells[at] ^ value) & bits

    def cut(self):
        """Of an erase that clears first some cells are cleared, or all and some set again."""
        kind = self.dice.randrange(3) if self.step and len(self.step) > 1 else 0
        if kind == 0:
            return super().cut()
        cells = self.cells.copy()
        for at, value in self.step:
            cells[at] = self.any_bits() & (cells[at] if kind == 1 else value)
        return cells


class Stm32f1(OneWay):
    """Four pages of 1 KB of half words. There is no cache of data."""

    BASE, PLACE, FLASH, SIZE, BITS, COUNT, PAGES = 0x40022000, 0, 0x0800F000, 0x1000, 16, 2048, 4
    LOCK, STRT, BSY, ERROR, AR = 1 << 7, 1 << 6, 1, 1 << 2, 20
    AFTER_RESET = {OneWay.ACR: 0x30, AR: 0}

    def set(self, offset, value):
        is_page = offset == self.AR and self.cr == self.ERASE and not self.busy
        check(is_page, "another register is written")
        self.others[offset] = value

    def read_flash(self, offset, width):
        self.settle()
        return part_of(self.expected(offset & ~3), offset, width)

    def write_flash(self, offset, width, value):
        half = offset // 2
        check(width == 2 and not self.busy, "a write of no half word, or of a busy flash")
        self.is_queued = self.is_touched = True
        check(self.cr == self.PG, "a write of the flash that nothing asked for")
        if self.cells[half] != 0xFFFF:
            self.sr |= self.ERROR  # a second program
        else:
            self.begin([(half, value)], 9)

    def erased(self, value):
        page, rest = divmod(self.others[self.AR] - self.FLASH, 1024)
        is_own = value == self.STRT | self.ERASE and 0 <= page < self.PAGES and rest == 0
        check(is_own, "an erase of another page")
        return [(half, 0xFFFF) for half in range(page * 512, (page + 1) * 512)]

    def is_at_rest(self):
        self.others[self.AR] = 0
        return super().is_at_rest()

    def expected(self, offset):
        return self.cells[offset // 2] | self.cells[offset // 2 + 1] << 16


class Stm32f4(OneWay):
    """The first 2 KB of two sectors, and the data cache: eight lines of 16 bytes."""

    BASE, PLACE, FLASH, BITS, COUNT, SECTOR = 0x40023000, 0xC00, 0x08008000, 32, 1024, 0x4000
    SIZE = 2 * SECTOR
    ERROR, BY_32, DCEN, DCRST, LINES, LINE = 1 << 7, 2 << 8, 1 << 10, 1 << 12, 8, 4
    AFTER_RESET = {OneWay.ACR: 0x705}

    def reset(self):
        self.cache = Cache(self.LINE, self.LINES)
        # A program writes what was asked for into the data cache too; else it leaves an old line there.
        self.updates = self.dice.random() < 0.5
        super().reset()
        self.is_settled = True

    def write_register(self, offset, width, value):
        was_settled = self.is_settled
        super().write_register(offset, width, value)
        self.is_settled = was_settled and offset - self.PLACE != self.ACR

    def set(self, offset, value):
        self.control_cache(offset, value, self.DCEN, self.DCRST)

    def any_place(self):
        return self.dice.randrange(2) * self.SECTOR + self.dice.randrange(0, 2048, 4)

    def at(self, offset):
        """The place of 32 bits among the cells."""
        sector, rest = divmod(offset, self.SECTOR)
        check(rest < 2048, "the rest of a sector is not the store's")
        return sector * self.COUNT // 2 + rest // 4

    def read_flash(self, offset, width):
        check(self.is_settled, "a read before the cache is on or off as it was told")
        self.settle()
        half = self.at(offset)
        if not self.others[self.ACR] & self.DCEN:
            return part_of(self.cells[half], offset, width)
        fetch = lambda half: self.cells[half : half + self.LINE]
        return part_of(self.cache.read(half, fetch)[0], offset, width)

    def write_flash(self, offset, width, value):
        half = self.at(offset)
        check(width == 4 and not self.busy, "a write that is not of 32 bits, or of a busy flash")
        self.is_queued = self.is_touched = True
        check(self.cr == self.BY_32 | self.PG, "a write of the flash that nothing asked for")
        self.begin([(half, self.cells[half] & value)], 9)
        if self.updates:
            self.cache.write(half, [value])

    def erased(self, value):
        sector = (value >> 3 & 0x1F) - 2
        is_erase = value & ~(0x1F << 3) == self.STRT | self.BY_32 | self.ERASE
        check(is_erase and sector in (0, 1), "an erase of another sector")
        halves = range(sector * self.COUNT // 2, (sector + 1) * self.COUNT // 2)
        return [(half, ONES) for half in halves]

    def expected(self, offset):
        return self.cells[self.at(offset)]


class Rp2040(Part):
    """Two sectors of 4 KB behind the XIP cache, the functions of the boot ROM, and the status of the chip by the SSI."""

    FLASH, OFFSET, SIZE = 0x101FE000, 0x1FE000, 0x2000
    TABLE, LOOKUP, FUNCTIONS, END = 0x100, 0x200, 0x300, 6
    # The functions by their codes, and how many turns each takes.
    NAMES = {
        "IF": ("connect", 2),
        "EX": ("leave_xip", 5),
        "RE": ("erase", 200),
        "RP": ("program", 60),
        "FC": ("flush", 5),
        "CX": ("enter_xip", 5),
    }

    def blank(self):
        return bytearray(b"\xff" * self.SIZE)

    def hook(self, core):
        """The ROM: a look-up, and functions that wait a while and return."""
        rom = bytearray(0x1000)
        rom[0x14:0x16] = self.TABLE.to_bytes(2, "little")
        rom[0x18:0x1A] = (self.LOOKUP | 1).to_bytes(2, "little")
        rom[self.LOOKUP : self.LOOKUP + 2] = bytes.fromhex("7047")  # bx lr
        core.hook(self.LOOKUP, self.look_up)
        for i, (name, turns) in enumerate(self.NAMES.values()):
            place = self.FUNCTIONS + 16 * i
            # movs r3, #turns; 1: subs r3, #1; bne 1b; bx lr
            rom[place : place + 8] = bytes([turns]) + bytes.fromhex("23013bfdd17047")
            core.hook(place, getattr(self, name))
            core.hook(place + self.END, self.end)
        core.uc.mem_map(0, 0x1000)
        core.uc.mem_write(0, bytes(rom))

    def regions(self):
        return [
            (self.FLASH, self.SIZE, self.read_flash, self.no_write),
            (0x18000000, 0x1000, self.read_chip, self.write_chip),
            (0x40018000, 0x1000, self.read_select, self.write_select),
        ]

    def reset(self):
        self.state, self.step, self.is_erase, self.cache = "reads", None, False, Cache(8)
        # The chip may be busy with a step from before the reset.
        self.busy = self.dice.choice((0, self.dice.randrange(20)))
        self.select, self.asked, self.given = 5, 0, False

    def read_select(self, offset, _):
        check(offset == 12, "another pin")
        return self.select

    def write_select(self, offset, _, value):
        is_known = offset == 12 and not (value ^ self.select) & ~0x300
        check(is_known and self.state == "commands", "another bit of the pin is written")
        self.select, self.asked = value, 0

    def write_chip(self, offset, _, value):
        is_ours = offset == 0x60 and self.state == "commands" and self.select >> 8 & 3 == 2
        check(is_ours, "a byte to a chip that is not selected")
        check(self.asked == 1 or (self.asked == 0 and value == 5), "another command")
        self.asked, self.given = self.asked + 1, True

    def read_chip(self, offset, _):
        """Whether a byte came, and that byte: the second one is the status."""
        if offset == 0x28:
            return 8 * self.given
        check(offset == 0x60 and self.given, "a byte that did not come")
        self.given = False
        if self.asked == 1:
            return 0xFF
        self.busy -= self.busy > 0
        return int(self.busy > 0)

    def look_up(self, core):
        table, code = self.registers(core, 2)
        name = chr(code & 0xFF) + chr(code >> 8)
        is_known = table == self.TABLE and name in self.NAMES
        check(is_known, "another function of the ROM is looked up")
        place = self.FUNCTIONS + 16 * list(self.NAMES).index(name)
        core.uc.reg_write(arm.UC_ARM_REG_R0, place | 1)

    def registers(self, core, count):
        """What a function of the ROM is given."""
        return map(core.uc.reg_read, (getattr(arm, f"UC_ARM_REG_R{it}") for it in range(count)))

    def goes(self, core, state, *before):
        """The ROM is called in one of some states, while interrupts are off and the program stands in RAM."""
        caller = core.uc.reg_read(arm.UC_ARM_REG_LR)
        told = f"the ROM's function for {state} is called while flash {self.state}"
        check(self.state in before, told)
        is_quiet = core.uc.reg_read(arm.UC_ARM_REG_PRIMASK) == 1
        check(is_quiet, "interrupts are on while flash is written")
        is_in_ram = 0x20000000 <= caller < 0x20004000
        check(is_in_ram, "the program stands in flash while flash is written")
        self.state, self.is_touched = state, True

    def connect(self, core):
        self.goes(core, "connected", "reads")

    def leave_xip(self, core):
        self.goes(core, "commands", "connected")

    def flush(self, core):
        self.goes(core, "flushed", "commands")
        self.cache, self.select = Cache(8), self.select & ~0x300

    def enter_xip(self, core):
        self.goes(core, "reads", "commands", "flushed")
        check(not self.select & 0x300, "the chip's pin is not given back")

    def erase(self, core):
        self.goes(core, "commands", "commands")
        offset, *how = self.registers(core, 4)
        at, count = offset - self.OFFSET, 4096
        check(at in (0, 4096) and how == [count, 65536, 0xD8], "an erase of other sectors")
        self.step, self.is_erase = [(i, 0xFF) for i in range(at, at + count)], True

    def program(self, core):
        self.goes(core, "commands", "commands")
        offset, source, count = self.registers(core, 3)
        at = offset - self.OFFSET
        check(0 <= at < self.SIZE and at % 256 == 0 and count == 256, "a program of another place")
        given = core.uc.mem_read(source, count)
        self.step = [(at + i, self.cells[at + i] & given[i]) for i in range(count)]
        self.is_erase = False

    def end(self, _):
        """A function of the ROM returns."""
        self.is_touched = True
        for at, value in self.step or ():
            self.cells[at] = value
        self.step = None

    def cut(self):
        """What a cut of power leaves now: of a program any of the bits that it changes are changed, of an erase some cleared,
        or all and some set again."""
        cells = self.cells.copy()
        if self.step and self.is_erase:
            kept = self.dice.choice((0, 0xFF))
            for at, _ in self.step:
                cells[at] = (cells[at] | kept) & self.dice.randrange(256)
            return cells
        for at, value in self.step or ():
            cells[at] ^= (cells[at] ^ value) & self.dice.choice((0, 0xFF, self.any_bits() & 0xFF))
        return cells

    def read_flash(self, offset, width):
        check(self.state == "reads" and not self.busy, "flash is read while it is written")
        found = self.cache.read(offset, lambda at: bytes(self.cells[at : at + 8]))
        return int.from_bytes(found[:width], "little")

    def no_write(self, *_):
        check(False, "flash is written as memory is")

    def is_away(self, place):
        return self.state != "reads" and place >> 24 == 0x10

    def is_at_rest(self):
        return self.state == "reads"

    def expected(self, offset):
        return int.from_bytes(self.cells[offset : offset + 4], "little")
