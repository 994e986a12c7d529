"""What `targets`, `peer` and the machines share: a tally with a folder for what is built, and how a
program is built for a part."""
import sys
from pathlib import Path

HERE = Path(__file__).resolve().parent
LIBRARY = HERE / "c"
sys.path.insert(0, str(HERE.parent))
from tools import tally  # noqa: E402
from tools.places import run_of  # noqa: E402

FOR_PARTS = (
    "arm-none-eabi-gcc -std=c11 -Wall -Wextra -Werror -Os -ffreestanding -nostdlib -mthumb"
    " -ffunction-sections -Tmachines/link.ld -Ic c/cortex-m/memory.c c/ee.c"
).split()


def build_for_part(core, code, path, *words):
    """Builds a program with the store for a part whose core is this one and whose code stands at
    this address."""
    at = f"-Wl,--defsym=code={code:#x},--gc-sections,-z,noexecstack"
    status, said = run_of(*FOR_PARTS, f"-mcpu={core}", at, *words, "-lgcc", "-o", path, cwd=HERE)
    if status != 0:
        raise SystemExit(f"{said}0 passed, 1 failed, 0 skipped")


class Tally(tally.Tally):
    """What was tried in a temporary folder, and how it ended."""

    def __init__(self, folder, part="firmware/targets"):
        super().__init__(part)
        self.folder, self.sums = Path(folder), {}

    def run(self, what, *words, folder=LIBRARY):
        """What a command prints, None where it fails, which is counted."""
        status, said = run_of(*words, cwd=folder)
        if status != 0:
            self.count(what, False, said)
            return None
        return said
