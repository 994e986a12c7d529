"""What bench/test tries of the files that `ee` reads and writes: an image is written whole or not
at all, and only while it is what was read, links and modes stay, and inputs are read before
anything is written."""
import errno
import fcntl
import os
import pty
import re
import resource
import signal
import stat
import subprocess
import time
from itertools import product

from cases import worked
from dumps import hex_of
from tools import trying
from tools.places import is_here
from tools.trying import Wrong, expect

SAVING = "image.ee-saving-"
# The worked example all-live, which begins with the image that two moves leave, and its tight
# certificate.
ALL_LIVE = worked.example("all-live")
MOVED = ALL_LIVE.files["image"]
PAIRS = worked.example("pairs").files["dump"]
CODED = worked.example("coded").files["dump"]
INPUTS = {
    "image": MOVED,
    "script": ALL_LIVE.files["script"],
    "settings": worked.example("second-schema").files["settings"],
    "certificate": next(it.printed for it in ALL_LIVE.steps if it.words == "cat certificate"),
    "bad": b"w 2 6\nw 2 6 \n",
    "before": MOVED,
    "values": b"volume = 9\n",
    "dump": worked.example("dumps").files["dump"],
    "hex": worked.example("hex").files["part"],
    "pairs": PAIRS,
    "pairs-hex": hex_of(PAIRS, 0x0807F000),
    "coded": CODED,
    "xcube": worked.example("xcube").files["dump"],
}
# The commands that write an image, and those that don't. Each of the first changes the image.
WRITERS = {
    "run": "run image script",
    "run --indexed": "run --indexed image script",
    "format": "format 2 8 image",
    "set": "set image settings volume 10",
    "import": "import 1 6 dump image",
    "import --pairs": "import --pairs 1 6 pairs image",
    "import --coded": "import --coded 1 6 coded image",
    "import-xcube": "import-xcube 1 8 xcube image",
    "import-hex": "import-hex 1 6 0807f000 hex image",
    "import-hex --pairs": "import-hex --pairs 1 6 0807f000 pairs-hex image",
    "unset": "unset image settings volume",
    "apply": "apply image settings values",
    "clean": "clean image",
    "rescue": "rescue image",
    "forget-all": "forget-all --force image",
    "tidy": "tidy image settings",
}
READERS = {
    "get": "get image settings volume",
    "plan": "plan image script",
    "check": "check image script certificate",
    "wear": "wear image before",
    "states": "states image",
    "stale": "stale image settings",
    "inspect": "inspect image",
    "header": "header settings",
}
REFUSED = {
    "a bad script": "run image bad",
    "a bad script, indexed": "run --indexed image bad",
    "no script": "run image none",
    "no image": "run settings script",
    "a folder for a script": "run image .",
    "an unknown name": "set image settings treble 1",
    "out of range": "set image settings volume 11",
    "no settings": "tidy image script",
}
CANNOT_WRITE_IMAGE = (3, b"", b"ee: cannot write image\n")
IMAGE_CHANGED = (3, b"", b"ee: image changed\n")
OUTPUT_IS_WRITTEN = (4, None, b"ee: output is the file to write\n")
# How often two runs are started at once.
ROUNDS = 100


class Place(trying.Place):
    """A folder with the inputs in it. `more` are the other files that are to be there."""

    def __init__(self, program, folder):
        super().__init__(program, folder, INPUTS)
        self.more = []

    def mode(self, name="image"):
        return oct(stat.S_IMODE(os.stat(self.path(name)).st_mode))

    def link(self, target, name="link"):
        os.symlink(target, self.path(name))
        self.more.append(name)

    def stands(self, text, what, image="image"):
        """The image has this text, and no file is there that is not to be."""
        expect(text, self.get(image), f"the image {what}")
        expect(sorted([*INPUTS, *self.more]), self.names(), f"files {what}")

    def ends(self, wanted, words, text, what="", image="image", **how):
        """A command ends so, or with this status, and leaves this image."""
        ended = self.run(words, **how)
        expect(wanted, ended if isinstance(wanted, tuple) else ended[0], f"the end {what}")
        self.stands(text, what, image)

    def written(self, writer):
        """The words of a command, and the image that it writes where nothing hinders it."""
        expect(0, self.run(WRITERS[writer])[0], "status")
        text = self.get("image")
        if text == MOVED:
            raise Wrong("the image is as before")
        self.stands(text, "")
        self.put("image", MOVED)
        return WRITERS[writer], text


def over(words, image):
    """The words with another image."""
    return [image if word == "image" else word for word in words.split()]


def other_user(program, folder):
    """What runs a program as a user who may not write what is root's; None if there is no way."""
    if os.getuid() != 0:
        return {}
    options = {"user": 65534, "group": 65534, "extra_groups": []}
    try:
        words, quiet = [program, "no", "command"], subprocess.DEVNULL
        done = subprocess.run(words, cwd=folder, stderr=quiet, check=False, **options)
    except OSError:
        return None
    return options if done.returncode == 2 else None


def limited(size, ignored):
    """Lets a child write files of so many bytes. A signal tells it where it doesn't ignore that."""

    def prepare():
        signal.signal(signal.SIGXFSZ, signal.SIG_IGN if ignored else signal.SIG_DFL)
        resource.setrlimit(resource.RLIMIT_CORE, (0, 0))
        resource.setrlimit(resource.RLIMIT_FSIZE, (size, size))

    return prepare


def no_room(place, writer):
    """Where the new image doesn't fit the old one stands, and the next run is as ever."""
    words, new = place.written(writer)
    for size, ignored in product((0, 1, len(new) // 2, len(new) - 1), (False, True)):
        what = f"after {size} bytes of {len(new)}"
        ended = place.run(words, preexec_fn=limited(size, ignored))
        is_killed = not ignored and ended[0] == -signal.SIGXFSZ
        if not is_killed:
            expect(CANNOT_WRITE_IMAGE, ended, f"the end {what}")
        place.more = [SAVING + "0"] * is_killed
        place.stands(MOVED, what)
        place.more = []
        place.ends(0, words, new, "of the run behind it")
        place.put("image", MOVED)
    place.ends(0, words, new, "where it just fits", preexec_fn=limited(len(new), False))


def links(place, writer):
    """A link stays one, and the file that it leads to has the new text and its old mode."""
    words, new = place.written(writer)
    os.mkdir(place.path("there"))
    place.put("there/image", MOVED)
    place.more = ["there"]
    place.link("there/image", "two")
    whole = place.path("there/image")
    for target in ("image", "there/image", "two", whole):
        real = "image" if target == "image" else "there/image"
        place.put(real, MOVED, 0o640)
        place.link(target)
        linked, what = over(words, "link"), f"behind a link to {target}"
        full = limited(1, True)
        place.ends(CANNOT_WRITE_IMAGE, linked, MOVED, what + ", no room", real, preexec_fn=full)
        place.ends(0, linked, new, what, real)
        expect(target, os.readlink(place.path("link")), "the link")
        expect(oct(0o640), place.mode(real), f"mode of the image {what}")
        expect(["image"], os.listdir(place.path("there")), "files there")
        os.unlink(place.path("link"))
        place.more.remove("link")


def modes(place, writer):
    """An image keeps its mode."""
    words, new = place.written(writer)
    for mode in (0o600, 0o644, 0o666, 0o755):
        place.put("image", MOVED, mode)
        place.ends(0, words, new)
        expect(oct(mode), place.mode(), "mode")


def leftover(place, writer):
    """What a run that died left behind is taken away."""
    words, new = place.written(writer)
    for text in (b"", b"ee 1", 3 * new):
        place.put(SAVING + "0", text, 0o600)
        place.ends(0, words, new)
        expect(oct(0o644), place.mode(), "mode")
        place.put("image", MOVED)


def second_name(place, writer):
    """A second name of the old image's file goes on having it."""
    words, new = place.written(writer)
    os.link(place.path("image"), place.path("second"))
    place.more = ["second"]
    place.ends(0, words, new)
    place.stands(MOVED, "of the second name", "second")


def taken(place, writer):
    """What another run is writing stays, and so does what is no plain file; with none of a hundred
    names free nothing is written."""
    words, new = place.written(writer)
    place.link("script", SAVING + "0")
    os.mkdir(place.path(SAVING + "1"))
    names = [SAVING + str(number) for number in range(2, 100)]
    place.more += [SAVING + "1", *names]
    written = []
    for name in names:
        place.put(name, b"another's")
        written.append(open(place.path(name), "rb"))
        fcntl.flock(written[-1], fcntl.LOCK_EX)
    place.ends(CANNOT_WRITE_IMAGE, words, MOVED, "with no name free")
    for name in names:
        expect(b"another's", place.get(name), name)
    written.pop().close()
    place.more.pop()
    place.ends(0, words, new, "with one free")
    for file in written:
        file.close()


def held(place, writer):
    """Where another has the image's lock nothing is written; a lock is gone with who had it."""
    words, new = place.written(writer)
    with open(place.path("image"), "rb") as file:
        fcntl.flock(file, fcntl.LOCK_EX)
        place.ends(IMAGE_CHANGED, words, MOVED)
    place.ends(0, words, new, "of the run behind it")


class Waiting:
    """A run of a command that writes a value at an address, by a script that comes by a pipe."""

    def __init__(self, place, command, address, value):
        self.script, self.line = f"script-{address}", f"w {address} {value}\n".encode()
        self.path, words = place.path(self.script), [place.program, *command.split()]
        if not os.path.exists(self.path):
            os.mkfifo(self.path)
            place.more.append(self.script)
        how = {"stdin": subprocess.DEVNULL, "stdout": subprocess.PIPE, "stderr": subprocess.PIPE}
        self.run = subprocess.Popen([*words, "image", self.script], cwd=place.folder, **how)

    def begun(self):
        """The pipe to the script, once the run opens it, which comes behind its image."""
        for _ in range(20000):
            try:
                return os.fdopen(os.open(self.path, os.O_WRONLY | os.O_NONBLOCK), "wb")
            except OSError as error:
                if error.errno != errno.ENXIO:
                    raise
                time.sleep(0.001)
        raise Wrong(f"nobody opens {self.script}")

    def end(self):
        printed, told = self.run.communicate(timeout=60)
        return self.run.returncode, printed, told


def meanwhile(place, command, change):
    """An image that another program changes, or takes away, while a run reads its script stays as
    that left it."""
    run, changed = Waiting(place, command, 1, 10), MOVED.replace(b"0000000c", b"0000000d")
    with run.begun() as pipe:
        if change == "gone":
            os.unlink(place.path("image"))
        else:
            place.put("image", changed)
        pipe.write(run.line)
    expect(IMAGE_CHANGED, run.end(), "the end")
    left = sorted({*INPUTS, *place.more} - ({"image"} if change == "gone" else set()))
    expect(left, place.names(), "files")
    if change != "gone":
        place.stands(changed, "")


def at_once(place, _):
    """Two runs at once on one image, many times: what a run that ended with 0 wrote stands in the
    image, and each other said that the image changed. In every second round both have read the
    image before either goes on: then it is one of them that writes. In the others they go as they
    come."""
    expect(0, place.run("format 2 64 image")[0], "status")
    wanted = {}
    for number in range(ROUNDS):
        commands = (("run", 1), ("run --indexed", 2))
        runs = {address: Waiting(place, command, address, number) for command, address in commands}
        pipes = ((run, run.begun()) for run in runs.values())
        for run, pipe in list(pipes) if number % 2 else pipes:
            with pipe:
                pipe.write(run.line)
        ended = {address: run.end() for address, run in runs.items()}
        done = [address for address, end in ended.items() if end[0] == 0]
        for address in ended.keys() - done:
            expect(IMAGE_CHANGED, ended[address], f"the end of a run of round {number}")
        if not done or len(done) == 2 and number % 2:
            raise Wrong(f"round {number}: {len(done)} runs ended with 0")
        wanted |= dict.fromkeys(done, number)
        lines = place.run("list image")[1].splitlines()
        found = dict(map(int, line.split()) for line in lines)
        expect(wanted, found, f"the image behind round {number}")
    expect(sorted([*INPUTS, *place.more]), place.names(), "files")


def lost_output(place, name):
    """Standard output is full, or a pipe that nobody reads: the image was written before."""
    words, new = place.written(name) if name in WRITERS else (READERS[name], MOVED)
    reading, writing = os.pipe()
    os.close(reading)
    end = (3, None, b"ee: cannot write output\n")
    with open("/dev/full", "wb") as full, os.fdopen(writing, "wb") as closed:
        for what, output in (("a full device", full), ("a closed pipe", closed)):
            place.put("image", MOVED)
            place.ends(end, words, new, f"with {what}", stdout=output)


def in_place(place, writer, options):
    """Where no file may be made beside it, or none may replace it, an image is written in its
    place."""
    words, new = place.written(writer)
    for mode in (0o555, 0o1777) if options else (0o555,):
        place.put("image", MOVED, 0o666)
        os.chmod(place.folder, mode)
        before = os.stat(place.path("image")).st_ino
        ended = place.run(words, **options)
        os.chmod(place.folder, 0o755)
        expect((0, b""), ended[::2], "the end")
        expect(before, os.stat(place.path("image")).st_ino, "which file it is")
        place.stands(new, "")


def owner(place, writer):
    """An image keeps its owner, whoever writes it."""
    words, new = place.written(writer)
    os.chown(place.path("image"), 65533, 65532)
    place.ends(0, words, new)
    found = os.stat(place.path("image"))
    expect((65533, 65532), (found.st_uid, found.st_gid), "the owner")


# Fills a small file system that is mounted on `there`, and tells what a command leaves of an image
# in it.
FILLING = """mount -t tmpfs -o size=8k none there && cp image there || exit
cat /dev/zero > there/fill 2> /dev/null; "$@"; echo "status $?"; cat there/image; ls there"""


def full_system(place, writer):
    """Where a file system is full the old image stands."""
    os.mkdir(place.path("there"))
    words = "format 64 100 image" if writer == "format" else WRITERS[writer]
    prefix = ["unshare", "-m", "sh", "-c", FILLING, "sh"]
    ended = place.run(over(words, "there/image"), prefix)
    left = b"status 3\n" + MOVED + b"fill\nimage\n"
    expect((0, left, b"ee: cannot write image\n"), ended, "the end")


def full_device(place, _, options):
    """A full device is no plain file: it stays what it is, and so does a link to it."""
    place.link("/dev/full")
    for image in ("/dev/full", "link"):
        place.ends(CANNOT_WRITE_IMAGE, ["format", "1", "6", image], MOVED, image, **options)
        too_long = (3, b"", b"ee: image too long\n")
        place.ends(too_long, ["run", image, "script"], MOVED, f"of a run on {image}", **options)
    expect("/dev/full", os.readlink(place.path("link")), "the link")
    expect(True, stat.S_ISCHR(os.stat("/dev/full").st_mode), "/dev/full is a device")


def output_as_image(place, _):
    """An image can go to standard output, where that is a pipe."""
    expect(0, place.run("format 1 6 image")[0], "status")
    text = place.get("image")
    place.link("/proc/self/fd/1")
    place.ends((0, text + b"formatted\n", b""), "format 1 6 link", text)


def output_to_image(place, writer):
    """Where standard output goes to the image, whatever leads there, nothing is written."""
    place.link("image")
    for output, image in product(("image", "link"), repeat=2):
        if (output, image) != ("image", "link"):
            with open(place.path(output), "ab") as file:
                words = over(WRITERS[writer], image)
                place.ends(OUTPUT_IS_WRITTEN, words, MOVED, stdout=file)


def new_image(place, _):
    """`format` makes a file that wasn't there, also where a link leads to none."""
    expect(0, place.run("format 1 6 image")[0], "status")
    wanted = place.get("image")
    place.link("second")
    for image, real in (("first", "first"), ("link", "second")):
        place.more.append(real)
        words = ["format", "1", "6", image]
        place.ends((0, b"formatted\n", b""), words, wanted, f"with {image}", real, umask=0o027)
        expect(oct(0o640), place.mode(real), "mode")
    expect("second", os.readlink(place.path("link")), "the link")


def typed(place, words, *given):
    """What a terminal shows of a run that is given this there: what is typed, and what is said."""
    child, terminal = pty.fork()
    if child == 0:
        os.chdir(place.folder)
        os.execv(place.program, [place.program, *words])
    os.write(terminal, b"".join(given))
    shown = b""
    try:
        while piece := os.read(terminal, 4096):
            shown += piece
    except OSError:  # how Linux tells the end
        pass
    os.close(terminal)
    return os.waitstatus_to_exitcode(os.waitpid(child, 0)[1]), shown.decode().replace("\r", "")


def at_a_terminal(place, _):
    """Who is to type a script there is told that, and how it ends. A refusal is explained. No one is
    told that by a pipe."""
    status, shown = typed(place, [], b"w 1 10\n", b"\x04")
    waits = "ee: reads a script, a command a line, as w 1 10; Ctrl-D ends it\n"
    expect((0, True, True), (status, waits in shown, "\nok\n" in shown), shown)
    status, shown = typed(place, ["run", "image", "bad"])
    expect((3, True), (status, 'ee: script line 2\n  the line is "w 2 6 "\n' in shown), shown)
    expect((0, b""), place.run([], input=b"w 1 10\n")[::2], "by a pipe")


def refused(place, cause):
    """A refused command leaves the file as it was: its text, its time and its place."""

    def seen():
        found = [os.stat(place.path(name)) for name in ("image", "script")]
        return [(it.st_ino, it.st_mtime_ns, it.st_mode) for it in found]

    before, ended = seen(), place.run(REFUSED[cause])
    expect((True, b""), (ended[0] in (3, 4), ended[1]), "the end")
    expect(before, seen(), "the files")
    place.stands(MOVED, "")


# What a call that opens a file is for, by the first of its flags.
OPENS = [
    ("O_CREAT|O_TRUNC", "write"),
    ("O_WRONLY|O_RDWR", "hold"),
    ("O_DIRECTORY|O_PATH", "folder"),
    ("", "open"),
]
CALLS = {"flock": "lock", "read": "read", "pread64": "read", "readv": "read", "creat": "write"}
TRACED = "open,openat,rename,renameat,renameat2,truncate," + ",".join(CALLS)


def calls_of(place, words):
    """The system calls of a run that open, lock, read, write beside standard output, or rename:
    each a kind and a path."""
    for name, operands, answer, _ in place.calls(words, TRACED)[1]:
        if name in ("open", "openat") and answer[0] != "-":
            kind = next(kind for flags, kind in OPENS if re.search(flags, operands))
            yield kind, re.search(r'"(.*?)"', operands)[1]
        elif answer[0] != "-":
            path = re.search(r"<(.*?)>", operands)
            yield CALLS.get(name, "write"), path[1] if path else operands


def system_calls(place, name):
    """Each input is opened once and read, then the image is opened for writing and locked, and read
    once more; and only then is anything made."""
    words = {**WRITERS, **READERS, **REFUSED}[name]
    calls = list(calls_of(place, words))
    at = lambda wanted: [number for number, (kind, _) in enumerate(calls) if kind == wanted]
    opened = [path for kind, path in calls if kind == "open"]
    expect([], sorted({it for it in opened if opened.count(it) > 1}), "opened more than once")
    inputs = [place.path(it) for it in words.split() if it in INPUTS and name != "format"]
    reads = [number for number in at("read") if calls[number][1] in inputs]
    writes, holds, image = at("write"), at("hold"), place.path("image")
    expect(bool(inputs), bool(reads), "inputs are read")
    expect(name in WRITERS, bool(writes), "something is written")
    if reads and writes and writes[0] < reads[-1]:
        raise Wrong(f"{calls[writes[0]]} comes before the last read of an input")
    expect(int(name in WRITERS), len(holds), "how often a file is opened for writing that is there")
    if holds:
        locked = calls[holds[0] : holds[0] + 2]
        expect([("hold", image), ("lock", image)], locked, "the lock")
        behind = {calls[number][1] for number in reads if number > holds[0]}
        expect(set(), behind - {image}, "what is read behind it")


def can_mount(folder):
    """Whether a file system can be mounted where no other program sees it."""
    words = ["unshare", "-m", "mount", "-t", "tmpfs", "none", folder]
    quiet = subprocess.DEVNULL
    return is_here(words[0]) and not subprocess.run(words, stderr=quiet, check=False).returncode


# The checks that can be made everywhere: a function, and the names that it is given.
USUAL = {
    **dict.fromkeys((no_room, links, modes, leftover, second_name, held, output_to_image), WRITERS),
    lost_output: [*WRITERS, *(name for name in READERS if name != "stale")],
    refused: REFUSED,
    taken: ["run"],
    **dict.fromkeys((output_as_image, new_image, at_once, at_a_terminal), [""]),
}


def all_checks(program, folder, tally):
    """Each check: a function, the name that it is given, and what else."""
    functions = USUAL | ({owner: WRITERS} if os.getuid() == 0 else {})
    if can_mount(folder):
        functions[full_system] = WRITERS
    else:
        tally.skip("a full file system", "none can be mounted (run it as root)")
    if not tally.lacks("the calls on files", ["strace"], "apt-get install strace"):
        functions[system_calls] = [*WRITERS, *READERS, *REFUSED]
    for function, names in functions.items():
        yield from ((function, name) for name in names)
    for command, change in product(("run", "run --indexed"), ("changed", "gone")):
        yield meanwhile, command, change
    options = other_user(program, folder)
    if options is None:
        tally.skip("folders that may not be written", "another user can't run the program")
    else:
        yield from ((in_place, name, options) for name in WRITERS)
        yield full_device, "format", options


def checks(program, folder, tally):
    """Makes each check in a folder of its own. Gives its name and what was found, if anything."""
    os.makedirs(folder, exist_ok=True)
    place = os.path.join(folder, "place")
    return trying.faults(all_checks(program, folder, tally), lambda: Place(program, place))
