"""Measures the peer as firmware/targets measures the store, which calls this: code, and the instructions of four calls, in QEMU.

Each row is a target, what the flash has, how it is read, how a move finds what it copies, bytes of code and constants, and the
instructions of calls.c: a write into a free slot, a read through all slots, an opening, and a move."""
import itertools
from pathlib import Path

HERE = Path(__file__).resolve().parent
CORES = {"cortex-m4": "Cortex-M4", "cortex-m0plus": "Cortex-M0+"}
KINDS, READ_BY, MOVES = (
    ("words", "pairs"),
    ("function", "pointer"),
    ("one pass", "a scan a variable"),
)
FOUR_CALLS = ("A write", "A read", "An opening", "A move")
COLUMNS = ("Target", "Flash", "Read by", "The move is", "Code", *FOUR_CALLS)
RATIO_COLUMNS = ("Target", "Library", "Flash", "Read by", "The peer reads by", *FOUR_CALLS)
# The variables of calls.c, which a move by scans goes through.
VARIABLES = 50
CALLS = ["peer_format", "peer_open", "peer_read", "peer_write"]


def four_calls(tally, targets, what, core, flags):
    """The instructions of the four calls on a core, None where they fail."""
    board, tick, for_linker = targets.BOARDS[core]
    program = tally.folder / "peer.elf"
    linked = [*for_linker, "-nostdlib", "-Tcortex-m/link.ld", "-Wl,--gc-sections,-z,noexecstack"]
    sources = [HERE / "calls.c", HERE / "peer.c", "cortex-m/memory.c", "-lgcc", "-o", program]
    built = ["arm-none-eabi-gcc", *flags, *linked, *sources]
    if tally.run(f"the program for {what}", *built) is None:
        return None
    words = ["qemu-system-arm", "-M", *board, *targets.COUNTED, *targets.QEMU, program]
    ticks = tally.run(what, *words)
    return ticks and [round(int(it) * tick / targets.INSTRUCTION) for it in ticks.split()]


def figures(tally, targets, core, choice):
    """Bytes of code and the four calls of one of the peers, None where it fails."""
    pairs, mapped, scans = choice
    what = f"the peer on {CORES[core]}, {KINDS[pairs]}, {READ_BY[mapped]}, {MOVES[scans]}"
    flags = [*targets.STRICT, *"-std=c99 -Os -ffreestanding -mthumb".split(), f"-mcpu={core}"]
    flags += [f"-DPEER_{it}={value}" for it, value in zip(("PAIRS", "MAPPED", "SCANS"), choice)]
    flags += [f"-DPEER_ADDRESSES={VARIABLES}"] * scans
    compiled = tally.folder / "peer.o"
    words = [
        *"arm-none-eabi-gcc -ffunction-sections -c -o".split(),
        compiled,
        HERE / "peer.c",
        *flags,
    ]
    if tally.run(f"the object for {what}", *words) is None:
        return None
    code, data = targets.size_of(tally, core, [compiled], CALLS)
    counts = four_calls(tally, targets, what, core, flags)
    tally.count(f"variables of {what}", data == 0, f"{data} bytes")
    return counts and [code, *counts]


def measured(tally, targets):
    """Code and the four calls of each peer, by its core, its flash, how that is read, and its move."""
    peers = {}
    for core, pairs, mapped, scans in itertools.product(CORES, (0, 1), (1, 0), (0, 1)):
        found = figures(tally, targets, core, (pairs, mapped, scans))
        if found:
            peers[CORES[core], KINDS[pairs], READ_BY[mapped], MOVES[scans]] = found
    return peers


def lines(peers):
    """The cells of a table of peers."""
    return [[*which, *found] for which, found in peers.items()]


def ratios(peers, rows):
    """The cells of a table of the store's four calls over those of the peer with a move of one pass. A row of the store has its
    core, library, flash, how that is read, and the calls. A peer with a pointer has more than a store that asks a function.
    """
    cells = []
    for row in rows:
        for read_by in READ_BY[READ_BY.index(row.read_by) :]:
            peer = peers.get((row.core, row.kind, read_by, MOVES[0]))
            if peer:
                over = [f"{its / mine:.2f}" for its, mine in zip(row.calls, peer[1:])]
                cells.append([*row[:4], read_by, *over])
    return cells
