"""What cli/compare tries of memory: the plain program gets less and less of it, says so and leaves
its files as they were, or does its work.

Each command runs under limits from next to nothing up to what it needs. It must end with status 5
and its one line at some of them, with its usual answer at others, and never otherwise."""
import random
import tempfile

from bench import cases
from tools.trying import Place

STEP = 64 * 1024
COMMANDS = [
    "run image script",
    "run --indexed image script",
    "plan image script",
    "check image script certificate",
    "list image",
    "list image settings",
    "header settings",
    "set image settings a 7",
    "apply image settings values",
    "stale image settings",
    "tidy image settings",
    "inspect image",
    "wear image",
    "wear image image",
    "states image",
    "clean image",
    "export image new",
    "export-hex image 00000000 new",
    "import-hex 64 512 00000000 hex new",
    "format 64 512 new",
    "size 512 script 10000 1000",
    "plan full short",
]


def files_of():
    """A large part with many values, and all that the commands read."""
    dice = random.Random("memory")
    pages, words = 64, 512
    addresses = list(range(1, 6000))
    script = cases.script_text(*(f"w {address} {dice.randrange(2 ** 32)}" for address in addresses))
    settings = "".join(
        f"{name} = {{ address = {at}, min = 0, max = 10, default = 5 }}\n"
        for at, name in enumerate(["a"] + [f"n{at}" for at in range(2000)], 1)
    )
    # A set whose slots are all used, each by an address of its own.
    full = [
        ["0", "aaaaaaaa00000001", "a" * 16 if page == 0 else "-", "-", "-"] for page in range(pages)
    ]
    for at in range(pages * (words - 4)):
        full[at // (words - 4)].append(f"000000070000{at + 1:04x}")
    return {
        "image": cases.worked.formatted(pages, words),
        "script": script,
        "settings": settings,
        "values": "".join(f"n{at} = 3\n" for at in range(2000)),
        "full": cases.worked.image_of(pages, words, full),
        "short": "w 1 1\n",
    }


def ended(place, words, limit):
    """How a command ends under a limit."""
    # No shell and no thread lies between, so that the limit is the program's alone.
    return place.run(words, ["prlimit", f"--as={limit}" if limit else "--as"])


def least_start(place):
    """The least limit, in steps, under which the program starts, and a step for its stack, which
    grows under the same limit."""
    limit = STEP
    while ended(place, "--version", limit)[0] != 0:
        limit += STEP
    return limit + STEP


def tried(fresh, words, least):
    """What is wrong with a command, and how often it wanted for memory."""
    usual = ended(fresh(), words, 0)
    if usual[0] != 0:
        return f"{words}: {usual!r:.200}", 0
    place, refused, limit = fresh(), 0, least
    before = place.left()
    while True:
        found = ended(place, words, limit)
        if found == usual:
            return None if refused else f"{words}: it never wanted for memory", refused
        if found != (5, b"", b"ee: out of memory\n"):
            return f"{words} with {limit} bytes: {found!r:.200}", refused
        if place.left() != before:
            return f"{words} with {limit} bytes: the files changed", refused
        refused += 1
        limit += STEP * (1 + refused // 8)


def checks(program, _proved, _words):
    """Tries each command. Gives its name and what is wrong with it, if something is."""
    total = 0
    with tempfile.TemporaryDirectory() as name:
        folder, files = f"{name}/place", files_of()
        place = Place(program, folder, files)
        # Files that the commands read, made by the program itself.
        place.run("run image script")
        place.run("export-hex image 00000000 hex")
        files |= {path: place.get(path) for path in ("hex", "image")}
        files["certificate"] = place.run("plan image script")[1]
        least = least_start(place)
        for words in COMMANDS:
            what, refused = tried(lambda: Place(program, folder, files), words, least)
            total += refused
            yield words, what
    print(f"refused {total} times, from {least} bytes on")
