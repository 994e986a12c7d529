"""A Cortex-M in Unicorn, with a part behind its addresses. Unicorn has no NVIC, so the NMI is taken here by hand: its frame is
pushed, the vector table is followed, and the return is undone."""
import struct
import subprocess

from tools.places import said_by
from unicorn import UC_ARCH_ARM, UC_HOOK_CODE, UC_MODE_MCLASS, UC_MODE_THUMB, Uc, UcError
from unicorn import arm_const as arm

RAM, RAM_SIZE = 0x20000000, 0x4000
TESTER, PAGE = 0x60000000, 0x1000
CALL, ADDRESS, VALUE, ANSWER, STATUS, STRAY = range(0, 24, 4)
END, START, READ, WRITE, FORGET, WRITE_ALL, CLEAN, FREE, LOOK, WORD, PROGRAM, ERASE = range(12)
MODELS = {
    "cortex-m0plus": arm.UC_CPU_ARM_CORTEX_M0,
    "cortex-m3": arm.UC_CPU_ARM_CORTEX_M3,
    "cortex-m4": arm.UC_CPU_ARM_CORTEX_M4,
    "cortex-m33": arm.UC_CPU_ARM_CORTEX_M33,
}
# What is pushed where an exception is taken, but for the return address and the flags.
FRAME = [getattr(arm, f"UC_ARM_REG_{name}") for name in "R0 R1 R2 R3 R12 LR".split()]
NMI, RETURN, WAS_ODD, SECONDS = 2, 0xFFFFFFF9, 1 << 9, 120


class Broken(Exception):
    """A rule of the part or of the store that the program broke."""


def check(holds, what):
    """Ends a run where the program breaks a rule."""
    if not holds:
        raise Broken(what)


class Program:
    """A program as the linker made it."""

    def __init__(self, path, core):
        self.core, code = core, path.with_suffix(".bin")
        subprocess.run(["arm-none-eabi-objcopy", "-O", "binary", path, code], check=True)
        names = (line.split() for line in said_by("arm-none-eabi-nm", path).splitlines())
        self.names = {it[2]: int(it[0], 16) for it in names if len(it) == 3}
        # Where it stands in flash, which its vectors begin, and its bytes.
        self.base, self.code = self.names["vectors"], code.read_bytes()
        self.barriers, self.conditional = [], set()
        self.read(said_by("arm-none-eabi-objdump", "-d", path).splitlines())

    def read(self, lines):
        """Notes where barriers stand, and which instructions stand behind one that makes them conditional."""
        left = 0
        for line in lines:
            words = line.split("\t")
            if len(words) < 3:
                continue
            place, name = int(words[0].rstrip(":"), 16), words[2].strip()
            if left:
                self.conditional.add(place)
                left -= 1
            if name.startswith("it") and set(name[1:]) <= {"t", "e"}:
                left = len(name) - 1
            if name == "dsb":
                self.barriers.append(place)


class Core:
    """Runs a program on a part. `watcher`, where there is one, is called before each instruction."""

    def __init__(self, program, part, watcher=None):
        self.program, self.part, self.watcher = program, part, watcher
        self.uc = uc = Uc(UC_ARCH_ARM, UC_MODE_THUMB | UC_MODE_MCLASS)
        uc.ctl_set_cpu_model(MODELS[program.core])
        uc.mem_map(program.base & ~(PAGE - 1), 0x8000)
        uc.mem_write(program.base, program.code)
        uc.mem_map(RAM, RAM_SIZE)
        self.map(TESTER, PAGE, self.ask, self.tell)
        for base, size, read, write in part.regions():
            self.map(base, size, read, write)
        for place in program.barriers:
            uc.hook_add(UC_HOOK_CODE, self.at_barrier, begin=place, end=place)
        part.hook(self)
        if watcher:
            uc.hook_add(UC_HOOK_CODE, self.guarded(self.at_each))

    def map(self, base, size, read, write):
        """Puts registers at an address. What they object to ends the run."""
        read, write = self.guarded(read), self.guarded(write)
        reads = lambda _, offset, width, __: read(offset, width)
        writes = lambda _, offset, width, value, __: write(offset, width, value)
        self.uc.mmio_map(base, size, reads, None, writes, None)

    def hook(self, place, call):
        """Has a call made where an instruction stands, before it is done."""
        made = self.guarded(lambda *_: call(self))
        self.uc.hook_add(UC_HOOK_CODE, made, begin=place, end=place)

    def guarded(self, call):
        """A call that ends the run by what it objects to, and gives 0 then."""

        def made(*given):
            try:
                return call(*given)
            except Broken as fault:
                self.fault = self.fault or fault
                self.uc.emu_stop()
                return 0

        return made

    def ask(self, offset, _):
        """The program asks what to do."""
        if offset == CALL:
            try:
                self.asked = self.plan.send(self.told)
            except StopIteration:
                self.asked, self.is_over = (END, 0, 0), True
        return self.asked[offset // 4]

    def tell(self, offset, _, value):
        """The program tells what a call answered."""
        if offset == ANSWER:
            self.answer = value
        elif offset == STATUS:
            self.told = value, self.answer
        else:
            is_of_others = self.asked[0] == LOOK and self.part.is_of_others()
            check(is_of_others, f"an NMI that is not the port's, in call {self.asked[0]}")

    def at_barrier(self, *_):
        self.part.barrier()
        if self.part.is_raised and self.frame is None and not (self.watcher and self.part.is_late):
            self.is_taken = True
            self.uc.emu_stop()

    def at_each(self, _, place, *__):
        may_take = self.part.is_raised and self.frame is None
        if may_take and place not in self.program.conditional and self.watcher.is_taken():
            self.is_taken = True
            self.uc.emu_stop()
        else:
            self.watcher.step(place)

    def run(self, plan, ram):
        """Starts the program with its memory as given, which does what the plan asks for. The plan is a generator: it gives a
        call with its address and value, and gets what the program tells of it."""
        self.plan, self.told, self.answer, self.asked = plan, None, 0, None
        self.fault, self.frame, self.is_over = None, None, False
        self.uc.mem_write(RAM, ram)
        vectors = self.program.names["vectors"]
        stack, place = struct.unpack("<2I", self.uc.mem_read(vectors, 8))
        self.uc.reg_write(arm.UC_ARM_REG_SP, stack)
        self.uc.reg_write(arm.UC_ARM_REG_PRIMASK, 0)
        done = self.program.names["done"] & ~1
        while True:
            self.is_taken = False
            place = self.go(place | 1, done)
            if place == done:
                check(self.is_over, "the program took a fault")
                return
            place = self.leave() if place >= 0xFFFFFF00 else self.enter(place, vectors)

    def go(self, place, done):
        """Runs from a place. Where it came to a halt."""
        try:
            self.uc.emu_start(place, done, timeout=SECONDS * 1000000)
        except UcError as fault:
            place = self.uc.reg_read(arm.UC_ARM_REG_PC)
            if self.fault is None and (place < 0xFFFFFF00 or self.frame is None):
                raise Broken(f"{fault} at {place:#x}") from None
        if self.fault:
            raise self.fault
        place = self.uc.reg_read(arm.UC_ARM_REG_PC)
        is_well = place == done or place >= 0xFFFFFF00 or self.is_taken
        check(is_well, f"no end after {SECONDS} s, at {place:#x}")
        return place

    def enter(self, place, vectors):
        """Takes the NMI: where its handler begins."""
        uc, stack = self.uc, self.uc.reg_read(arm.UC_ARM_REG_SP)
        flags, is_odd = uc.reg_read(arm.UC_ARM_REG_XPSR), stack & 4
        stack = (stack & ~7) - 32
        flags = (flags & ~WAS_ODD) | (WAS_ODD if is_odd else 0)
        words = [*map(uc.reg_read, FRAME), place, flags]
        uc.mem_write(stack, struct.pack("<8I", *words))
        uc.reg_write(arm.UC_ARM_REG_SP, stack)
        uc.reg_write(arm.UC_ARM_REG_LR, RETURN)
        self.frame, self.part.is_raised = stack, False
        self.part.taken += 1
        return struct.unpack("<I", uc.mem_read(vectors + 4 * NMI, 4))[0]

    def leave(self):
        """Returns from the NMI: where the program goes on."""
        uc, stack = self.uc, self.uc.reg_read(arm.UC_ARM_REG_SP)
        check(stack == self.frame, "the handler of the NMI leaves another stack")
        *words, place, flags = struct.unpack("<8I", uc.mem_read(stack, 32))
        for register, word in zip(FRAME, words):
            uc.reg_write(register, word)
        uc.reg_write(arm.UC_ARM_REG_XPSR, flags & ~WAS_ODD)
        uc.reg_write(arm.UC_ARM_REG_SP, stack + 32 + (4 if flags & WAS_ODD else 0))
        self.frame = None
        return place
