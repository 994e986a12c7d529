"""What cli/compare tries of files: what both programs do to them, call by call of the system.

Each case is a folder, a command and what stands in its way. `strace` lists the calls that open,
lock, write, name and remove files, and what they answer: both programs must make the same ones, and
leave the same."""
import os
import re
import shlex
import subprocess
import tempfile

from tools.trying import Place

# Calls that do the same by another name, with or without the folder that a path begins at.
ALIKE = {
    "open": "openat",
    "renameat": "rename",
    "renameat2": "rename",
    "unlinkat": "unlink",
    "fchmodat": "chmod",
    "fchownat": "chown",
    "fdatasync": "fsync",
}
# The others that are compared, and those that are listed with them.
OTHERS = (
    "creat,flock,write,writev,pwrite64,ftruncate,truncate,fchmod,fchown,lchown,link,linkat,symlink"
)
CALLS = ",".join([*ALIKE, *set(ALIKE.values()), OTHERS])
# What tells nothing of a call: a folder that is this one, and flags. O_NOCTTY matters where a file
# is a terminal alone: only the proved program asks for it (README.md, What differs).
NOTHING = (
    r"^AT_FDCWD(?:<[^>]*>)?, |, AT_FDCWD(?:<[^>]*>)?(?=, )|\|O_CLOEXEC|O_CLOEXEC\|?|\|O_LARGEFILE"
    r"|\|O_NOCTTY|, (?:0|RENAME_NOREPLACE)$"
)
FILES = {
    "settings": "a = { address = 1, min = 0, max = 10, default = 5 }\n",
    "script": "w 1 10\nw 1 11\nw 1 12\n",
    "bad": "w 1\n",
    "dump": "old",
}
# What is tried: the name of a way, what a shell does before in the folder, the words in front of the
# program, and the commands. In an odd folder, whose name is no text, lie the image and a link; beside
# a long name none can be made.
TABLE = r"""
nothing :: :: :: NEW; FORMAT; SET; run image script; run image bad; export image new
nothing more :: :: :: DUMP; GET; clean image; set image settings a 99
another owner :: chown 1:1 image; chmod 640 image :: :: SET; FORMAT
a link :: mv image real; ln -s real image :: :: SET; FORMAT
a link to nothing :: rm image; ln -s real image :: :: FORMAT; SET
a name that is taken :: printf another > image.ee-saving-0 :: :: SET
all names taken :: for n in $(seq 0 99); do echo > image.ee-saving-$n; done :: :: SET
a lock :: :: flock -o image :: SET; FORMAT; GET
no image :: rm image :: :: SET; FORMAT; format 1 6 none/image
a folder :: rm image; mkdir image :: :: SET; FORMAT
a device :: rm image; ln -s /dev/full image :: :: FORMAT; export dump image
a long name :: mv image LONG; ln -s LONG image :: :: SET; FORMAT
a longer text :: printf %200s >> image; mv image LONG; ln -s LONG image :: :: FORMAT; format 1 5 image
no room :: :: prlimit --fsize=40 :: SET; FORMAT; NEW; DUMP
an odd folder :: mkdir "$ODD"; mv image "$ODD"; ln -s ../settings "$ODD" :: sh -c 'cd "$ODD" && exec "$@"' sh :: SET; FORMAT; NEW
a full output :: :: sh -c 'exec "$@" > /dev/full' sh :: SET; NEW; GET
no output :: :: :: GET; NEW
an odd word :: :: sh -c 'exec "$@" "$ODD"' sh :: list image; format 1 6
"""
SHORT = {
    "SET": "set image settings a 7",
    "FORMAT": "format 1 6 image",
    "NEW": "format 1 6 new",
    "GET": "get image settings a",
    "DUMP": "export image dump",
}
LINES = TABLE.replace("LONG", "i" * 250).strip().splitlines()
CASES = [re.split(r"\s*::\s*", line) for line in LINES]
ENV = {**os.environb, b"ODD": b"\xff"}


def in_one_form(calls, folder):
    """The calls on files of the folder, each in one form."""
    for name, words, answer, error in calls:
        words = re.sub(NOTHING, "", words)
        words = re.sub(r"\b\d+<([^>]*)>", r"<\1>", words).replace(folder, ".")
        words = re.sub(r"<pipe:\[\d+\]>", "<pipe>", words)
        if not re.search(r'/proc/|"/(?:lib|etc|sys|usr)', words):
            name = ALIKE.get(name, name)
            is_made = name == "openat" and not error
            yield f"{name}({words}) {error or ('a file' if is_made else answer)}"


def outcome(program, way, before, prefix, words):
    """What a program says, does to files and leaves."""
    with tempfile.TemporaryDirectory() as name:
        place = Place(program, os.path.realpath(os.path.join(name, "place")), FILES)
        place.run("format 1 6 image")
        subprocess.run(["sh", "-c", before], cwd=place.folder, env=ENV, check=True)
        reader, output = os.pipe()
        # Signals of Python stay as they are, so that a file with no room is an error and not the
        # end.
        how = {"restore_signals": False, "env": ENV}
        how |= {"stdout": output} if way == "no output" else {}
        os.close(reader)
        ended, calls = place.calls(words, CALLS, shlex.split(prefix), **how)
        os.close(output)
        return ended, list(in_one_form(calls, place.folder)), place.left()


def difference(ours, theirs):
    """What differs between two outcomes, if anything."""
    if ours == theirs:
        return None
    lines = [f"{ours[0]!r:.200} and {theirs[0]!r:.200}"]
    calls = zip(ours[1] + ["nothing"] * 99, theirs[1] + ["nothing"] * 99)
    differing = [f"{mine}\n  where it should be {it}" for mine, it in calls if mine != it]
    lines += differing[:1]
    if ours[2] != theirs[2]:
        lines.append(f"left {ours[2]!r:.400}\n  where it should be {theirs[2]!r:.400}")
    return "\n  ".join(lines)


def checks(plain, proved, _words):
    """Tries each command in each way. Gives its name and what differs, if anything."""
    for way, before, prefix, commands in CASES:
        for words in (SHORT.get(it, it) for it in commands.split("; ")):
            ours, theirs = (outcome(it, way, before, prefix, words) for it in (plain, proved))
            yield f"{way}, ee {words}", difference(ours, theirs)
