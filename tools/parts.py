"""The parts of the tests: what each shows, how it is tested, made and compared, and which of them a
run takes."""
import os
import signal
import subprocess
import sys
import tempfile
from collections import namedtuple

from tools.places import KIT, RUST, TOP, is_here, program
from tools.tally import Tally

# A part: what it is, and the words that test it, make what is committed of it, and compare that
# with its sources.
Part = namedtuple("Part", "told test make compare", defaults=((), (), ()))
# One that a run takes: its name, more words behind those that test it, and how it runs.
Turn = namedtuple("Turn", "part words beside", defaults=((), False))

PARTS = """
sources: the tests in crates/, before any proof: tools/sources
tools: the tools themselves, their format and their lints: tools/test: tools/test --format
docs: the documents, held to the code: docs/test: docs/pictures/draw
typed: the documents and worked examples, typed: docs/typed
first: the first program in C: make -C firmware/c/sim run
rust: the package in Rust: firmware/rust/test: cargo run --manifest-path strip/Cargo.toml -- firmware: firmware/rust/check
c: the C library: firmware/c/test: firmware/c/to_c: firmware/c/to_c --compare
lockstep: ee.c beside the package in Rust: firmware/c/c99/test
shown: what firmware/README.md shows of the C library: firmware/shown
cbmc: ee.c by a model checker: firmware/c/analysis/by_cbmc
frama: ee.c by an analyser: firmware/c/analysis/by_frama
peer: a store in plain C beside ee.c: firmware/peer/test
machine: the ports as machine code, in Unicorn: firmware/machine
microbit: the port for an nRF5 in QEMU, stopped in its steps: firmware/microbit
openocd: offsets and bits of the ports beside OpenOCD's: firmware/openocd
targets: code, stack and answers on other cores, in QEMU and simavr: firmware/targets: firmware/targets --write
cli: the program in plain Rust, its completion and its page: cli/test: cli/shells: cli/check
page: the sum of the sources of web/ee.html: web/build --current: web/build: web/build --compare
web: web/ee.html in browsers: web/test: web/test pictures
bench: the program against a plain one: bench/test: bench/tables --write
steps: every short script, by the lists of steps alone: bench/steps
lasting: how long a part lasts, by trying: bench/lasting
"""
PARTS = {
    name: Part(told, *map(str.split, does))
    for name, told, *does in (line.split(": ") for line in PARTS.strip().splitlines())
}


def turns(text):
    """The turns of a run, one behind the other by commas. Those with a `&` run beside the others."""
    rows = (row.split() for row in text.split(","))
    return [Turn(row[0], [it for it in row[1:] if it != "&"], "&" in row) for row in rows]


FIRMWARE = turns("rust, machine, microbit, openocd, cbmc, frama, shown, c, lockstep, peer")
# What takes no proof, in some four minutes on four processors (./test), and what the gate runs
# behind the proofs.
QUICK = turns("sources &, rust 20000 &, c &, first, tools, docs, typed, page, bench --cases 300")
QUICK += turns("steps --lines 2, lasting --cases 200, cli 100")
GATE = turns("tools, docs, typed") + FIRMWARE
GATE += turns("cli, page --compare, bench, steps, lasting")
# The runs by the words that ask for them, each with whether a failure ends it.
RUNS = {"": (QUICK, False), "--gate": (GATE, True), "firmware": (FIRMWARE, False)}
# Parts that are skipped whole where something is missing: the programs that they take, and how to
# get them. `ee` is built by cargo where it wasn't proved.
COMPILER = ([os.environ.get("CC", "cc")], "apt-get install gcc")
NEEDS = {
    "sources": (["rt"], KIT),
    "first": (["cc", "make"], "apt-get install gcc make"),
    "c": COMPILER,
    "lockstep": COMPILER,
    "peer": COMPILER,
}
TAKE_PROGRAM = {"typed", "bench", "steps", "lasting"}
NO_PROGRAM = f"no program (cargo and rustc 1.89 by {RUST}, its crates by .ci/install)"
# A part that counts nothing of its own: its status says all.
UNCOUNTED = {"first"}


class Begun:
    """A part that runs, in a session of its own. What it prints beside others is kept for its turn."""

    def __init__(self, turn):
        self.turn, self.name = turn, " ".join([turn.part, *turn.words])
        self.kept = tempfile.TemporaryFile("w+") if turn.beside else None
        how = {"cwd": TOP, "stderr": subprocess.STDOUT, "text": True, "start_new_session": True}
        words = [*PARTS[turn.part].test, *turn.words]
        self.process = subprocess.Popen(words, stdout=self.kept or subprocess.PIPE, **how)

    def shown(self):
        """Shows what it prints, to its end, and gives the lines."""
        print(f"== {self.name}", flush=True)
        if self.kept:
            self.process.wait()
            self.kept.seek(0)
        lines = []
        for line in self.kept or self.process.stdout:
            print(line, end="", flush=True)
            lines.append(line.rstrip("\n"))
        self.process.wait()
        return lines

    def end(self):
        if self.process.poll() is None:
            os.killpg(self.process.pid, signal.SIGTERM)


class Run:
    """A run of several parts, with the sum of their counts and what was skipped."""

    def __init__(self):
        self.tally, self.skipped, self.begun, self.is_sought = Tally("all"), set(), [], False

    def begin(self, turn):
        """Begins a part, or skips it for what is missing. The program is sought, and built, behind
        the first one."""
        if self.begun and not self.is_sought:
            os.environ |= {"EE": found} if (found := program()) else {}
            self.is_sought = True
        wants = missing(turn.part)
        if wants:
            self.skipped.add(f"skipped: {turn.part}, all of it: {wants}")
            self.tally.skipped += 1
        else:
            self.begun.append(Begun(turn))

    def finish(self, part):
        """Waits for a part, and adds up what it said."""
        lines, status = part.shown(), part.process.returncode
        self.skipped.update(line for line in lines if line.startswith("skipped: "))
        if part.turn.part in UNCOUNTED:
            self.tally.count(part.name, status == 0)
        else:
            self.tally.add(part.name, status, lines)

    def all(self, turns, stops):
        for turn in turns:
            self.begin(turn)
            if not turn.beside and self.begun and self.begun[-1].turn is turn:
                self.finish(self.begun[-1])
            if stops and self.tally.failed:
                return
        for part in self.begun:
            if part.turn.beside:
                self.finish(part)


def missing(part):
    """What a part is skipped for, if it is."""
    programs, how = NEEDS.get(part, ([], ""))
    absent = [name for name in programs if not is_here(name)]
    if absent:
        return f"no {' or '.join(absent)} ({how})"
    return NO_PROGRAM if part in TAKE_PROGRAM and not os.environ.get("EE") else None


def run(turns, stops=False):
    """Runs parts: those that may run beside the others in the background. The last lines say what
    was skipped and why, and add their counts up. With `stops` the first part that fails ends the
    run. Gives the status.
    """
    for number in (signal.SIGINT, signal.SIGTERM, signal.SIGHUP):
        signal.signal(number, lambda *_: sys.exit(1))
    whole = Run()
    try:
        whole.all(turns, stops)
    finally:
        for part in whole.begun:
            part.end()
    print("==", *sorted(whole.skipped), sep="\n")
    return whole.tally.close()
