"""What a part of the tests tried, and how it ended: passed, failed, and skipped for want of
something.

A part says of each skip `skipped: WHAT: what is missing (how to install it)`, and its last line is
`N passed, M failed, K skipped`. What is skipped is counted on its own, and never passed."""
import re
import subprocess

from tools.places import is_here

CLOSING = re.compile(r"(\d+) passed, (\d+) failed(?:, (\d+) skipped)?")


class Tally:
    """The counts of a part. A failure is told as it comes, and so is what is skipped."""

    def __init__(self, part):
        self.part, self.passed, self.failed, self.skipped = part, 0, 0, 0

    def count(self, what, is_well, said=""):
        """Counts a test, and tells of one that failed. Gives whether it passed."""
        self.passed += bool(is_well)
        self.failed += not is_well
        if not is_well:
            print(f"{self.part}, {what} failed\n{said}".rstrip(), flush=True)
        return is_well

    def check(self, what, found, wanted):
        """Counts whether what was found is what was wanted."""
        return self.count(what, found == wanted, f"  found  {found!r}\n  wanted {wanted!r}")

    def faults(self, found):
        """Counts tests by their names, each with its fault or None."""
        for what, fault in found:
            self.count(what, fault is None, f"  {fault}")

    def hold(self, wrong, made):
        """Counts so many checks, and as failed those of which something wrong is told."""
        for line in wrong:
            self.count(line, False)
        self.passed += max(0, made - len(wrong))

    def skip(self, what, missing):
        """Counts what can't be tried, and says what is missing and how to get it."""
        self.skipped += 1
        print(f"skipped: {self.part}, {what}: {missing}", flush=True)

    def lacks(self, what, programs, how):
        """Skips what takes programs that aren't here. Gives whether any of them is missing."""
        missing = [name for name in programs if not is_here(name)]
        if missing:
            self.skip(what, f"no {' or '.join(missing)} ({how})")
        return bool(missing)

    def run(self, what, *words, **how):
        """Counts a command by its status. What it prints is shown as it comes, or told of a failure
        where it is captured."""
        done = subprocess.run([str(word) for word in words], check=False, text=True, **how)
        return self.count(what, done.returncode == 0, (done.stdout or "") + (done.stderr or ""))

    def add(self, what, status, lines):
        """Adds up what another part said: its status and its lines, the last of which closes it.
        One that closes otherwise, or that ends badly with no failure counted, is a failure."""
        closing = CLOSING.fullmatch(lines[-1].strip()) if lines else None
        passed, failed, skipped = map(int, closing.groups("0")) if closing else (0, 0, 0)
        if not closing or (status != 0 and failed == 0):
            end = (
                f"was stopped by signal {-status}" if status < 0 else f"ended with status {status}"
            )
            print(f"{what} {end} and no word of what failed", flush=True)
            passed, failed, skipped = 0, 1, 0
        self.passed, self.failed = self.passed + passed, self.failed + failed
        self.skipped += skipped

    def close(self):
        """Prints the last line. Gives the status: 1 where anything failed."""
        print(f"{self.passed} passed, {self.failed} failed, {self.skipped} skipped", flush=True)
        return int(self.failed > 0)
