"""What bench/test tries at the limits: each command with as many values, variables, settings,
changes and words as there may be, with ample memory, and its whole answer compared with one that is
counted here. No clause says that memory is wanted only where the system refuses it, so a command
that gives up at some size or at some value is seen here alone. What `run` reports of the same
scripts the cases of the same names hold to a plain program."""
import shutil

import cases
from tools import trying

PAGES, WORDS = 64, 512
SLOTS = PAGES * (WORDS - 4)
MOST_ADDRESS = 65534
# What full_script leaves.
FULL = {address: 2**32 - 1 - address for address in range(1, SLOTS + 1)} | {1: 0, 2: 2**32 - 1}


def expect(place, words, wanted, **how):
    """Runs a command, which is to print this and to end well."""
    status, printed, said = place.run(words, **how)
    trying.expect((0, b""), (status, said), words)
    found, wanted = printed.decode().splitlines(True), list(wanted)
    if found != wanted:
        at = next((it for it, pair in enumerate(zip(found, wanted)) if len({*pair}) > 1), None)
        trying.expect(wanted[at:][:1], found[at:][:1], f"{words}, line {at}")


def reported(place, pages, words, script):
    """The lines that a script prints on a new image, by either store and by `try`. It leaves the
    image."""
    place.put("script", script)
    expect(place, f"format {pages} {words} image", ["formatted\n"])
    report = place.run("run image script")[1].decode().splitlines(True)
    expect(place, f"try {pages} {words}", report, input=script)
    expect(place, f"format {pages} {words} image", ["formatted\n"])
    expect(place, "run --indexed image script", report)
    return report


def values(place):
    """A script that writes the values 0 to 99999 and the greatest, and reads each."""
    reported(place, 1, WORDS, cases.values_script())


def ledger(wears):
    pages = [f"page {page} wear {wear}\n" for page, wear in enumerate(wears)]
    return [*pages, f"total {sum(wears)} least {min(wears)} greatest {max(wears)}\n"]


def variables(place):
    """As many variables as there may be, and each command on the greatest image."""
    report = reported(place, PAGES, WORDS, cases.full_script(SLOTS))
    certificate = report[next(at for at, line in enumerate(report) if line[:6] == "slots ") :]
    shutil.copy(place.path("image"), place.path("before"))
    expect(place, "list image", [f"{address} {value}\n" for address, value in FULL.items()])
    # The last page of the set that takes the writes is the one in use, however full it is.
    states = ["VALID"] * (PAGES - 1) + ["ACTIVE"] + ["ERASING"] * PAGES
    expect(place, "states image", [f"page {page} {it}\n" for page, it in enumerate(states)])
    expect(place, "wear image", ledger([1] * PAGES + [0] * PAGES))
    expect(place, "wear image before", ledger([0] * 2 * PAGES))
    expect(place, "clean image", [f"cleaned {PAGES}\n"])
    expect(place, "wear image before", ledger([0] * PAGES + [1] * PAGES))
    expect(place, "format 64 512 image", ["formatted\n"])
    expect(place, "plan image script", certificate)
    place.put("certificate", "".join(certificate))
    expect(place, "check image script certificate", ["proved 2\n"])


def settings(place):
    """As many settings as there are addresses, on the greatest image with as many variables as it
    takes."""
    reported(place, PAGES, WORDS, cases.full_script(SLOTS))
    most, addresses = 1 << 31, range(1, MOST_ADDRESS + 1)
    fields = f"min = 0\nmax = {most}\ndefault = 5\n"
    place.put("settings", "".join(f"[s{it:05}]\naddress = {it}\n{fields}" for it in addresses))
    stale = {address: "stale " for address, value in FULL.items() if value > most}
    told = [f"{it} {FULL.get(it, 'default 5')} {stale.get(it, '')}s{it:05}\n" for it in addresses]
    expect(place, "list image settings", told)
    expect(place, "stale image settings", [f"s{it:05} {FULL[it]}\n" for it in stale])
    expect(place, f"get image settings s{SLOTS + 1}", ["5 default\n"])
    expect(place, "tidy image settings", ["tidied 0\n"])
    expect(place, f"set image settings s{SLOTS} 7", ["set\n"])
    expect(place, f"get image settings s{SLOTS}", ["7 stored\n"])


def moves_of(changes, slots, live):
    """Where a trace that writes so many addresses in turn has to move the map."""
    at, moves = slots + 1, []
    while at <= changes:
        moves.append(at)
        at += slots - min(at, live) + 1
    return moves


def sizes_of(count, live, cycles):
    """What `size` says of so many changes of so many addresses, for each number of pages."""
    for pages in range(1, 65):
        slots = pages * (WORDS - 4)
        if slots < live:
            yield f"pages {pages} slots {slots} not fitting {slots + 1}\n"
            continue
        moves = len(moves_of(count, slots, live))
        erases, least, limit = (moves + 1) // 2, moves // 2, -(count // (-2 * pages * WORDS)) - 1
        worn = "worn for any" if limit > cycles else "worn for all" if least > cycles else "worn"
        told = f"transfers {moves} erases {erases} least {least} limit {limit}"
        yield f"pages {pages} slots {slots} {told} {'enough' if erases <= cycles else worn}\n"


def changes(place):
    """A trace of 200000 changes of 1000 addresses, which is planned, checked and sized."""
    count, live, cycles, runs, slots = 200000, 1000, 1000, 10, 4 * (WORDS - 4)
    lines = (f"w {number % live + 1} {number}" for number in range(count))
    place.put("script", cases.script_text(*lines))
    expect(place, "format 4 512 image", ["formatted\n"])
    moves = moves_of(count, slots, live)
    certificate = [f"slots {slots} fill 0 live 0 writes {count}\n"]
    certificate += [f"to {at} from {0 if at == moves[0] else live}\n" for at in moves]
    certificate += [f"transfers {len(moves)}\n"]
    expect(place, "plan image script", certificate)
    place.put("certificate", "".join(certificate))
    expect(place, "check image script certificate", [f"proved {len(moves)}\n"])
    sizes = list(sizes_of(count * runs, live, cycles))
    fewest = [line.split()[1] for line in sizes if line.endswith(" enough\n")][:1]
    sizes += [f"fewest pages {pages}\n" for pages in fewest]
    expect(place, f"size {WORDS} script {cycles} {runs}", sizes)


def checks(program, folder, _tally):
    """Makes each check in a folder of its own. Gives its name and what was found, if anything."""
    tried = [(values,), (variables,), (settings,), (changes,)]
    return trying.faults(tried, lambda: trying.Place(program, folder))
