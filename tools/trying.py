"""A program tried in a folder of its own."""
import os
import re
import shutil
import subprocess
import tempfile
from pathlib import Path

# Where files are written in memory alone, if there is such a folder.
MEMORY = "/dev/shm" if os.access("/dev/shm", os.W_OK) else None


class Wrong(Exception):
    """What a check found."""


def expect(wanted, found, what):
    if wanted != found:
        raise Wrong(f"{what}: wanted {wanted!r}, found {found!r}")


class Place:
    """A folder of its own, in which a program is run."""

    def __init__(self, program, folder, files=()):
        shutil.rmtree(folder, ignore_errors=True)
        os.makedirs(folder)
        self.program, self.folder = program, folder
        for name, data in dict(files).items():
            self.put(name, data)

    def path(self, name):
        return os.path.join(self.folder, name)

    def put(self, name, data, mode=0o644):
        with open(self.path(name), "wb") as file:
            file.write(data.encode("latin-1") if isinstance(data, str) else data)
        os.chmod(self.path(name), mode)

    def get(self, name):
        with open(self.path(name), "rb") as file:
            return file.read()

    def names(self):
        return sorted(os.listdir(self.folder))

    def left(self):
        """What stands in the folder: of each name its mode, its owner, and its text or where it
        leads."""
        found = {}
        for path in sorted(Path(self.folder).rglob("*")):
            at, is_link = path.lstat(), path.is_symlink()
            text = os.readlink(path) if is_link else path.read_bytes() if path.is_file() else None
            found[str(path.relative_to(self.folder))] = at.st_mode, at.st_uid, at.st_gid, text
        return found

    def run(self, words, prefix=(), **how):
        """The status, or that there was no end; what was printed, and said on standard error."""
        words = words.split() if isinstance(words, str) else words
        how = {"stdout": subprocess.PIPE, "stderr": subprocess.PIPE, "timeout": 120, **how}
        how |= {} if "input" in how else {"stdin": subprocess.DEVNULL}
        words = [*prefix, self.program, *words]
        try:
            done = subprocess.run(words, cwd=self.folder, check=False, **how)
        except subprocess.TimeoutExpired:
            return f"no end within {how['timeout']} seconds", b"", b""
        return done.returncode, done.stdout, done.stderr

    def told(self, words):
        """The status, and what was printed and said, as one text."""
        status, printed, said = self.run(words)
        return status, (printed + said).decode()

    def calls(self, words, names, prefix=(), **how):
        """How a command ends, and its system calls of these names: the name, the operands, the
        answer and the error of each."""
        with tempfile.NamedTemporaryFile() as log:
            tracing = ["strace", "-f", "-y", "-s", "64", "-e", f"trace={names}", "-o", log.name]
            ended = self.run(words, [*tracing, *prefix], **how)
            text = log.read().decode("utf-8", "replace")
        line = r"(?m)^(?:\d+ +)?(\w+)\((.*)\) += (-?\w+)(?: ?<[^>]*>)?(?: (E\w+))?"
        return ended, re.findall(line, text)

    def same(self, name, wanted, what):
        if self.get(name) != wanted:
            raise Wrong(f"{what}: {name} isn't what was wanted")


def faults(checks, make_place):
    """Makes each check, a function and what it is given behind a place. Gives its name and what was
    found, if anything."""
    for check, *given in checks:
        place = make_place()
        name = ", ".join([check.__name__, *given[:1]])
        try:
            check(place, *given)
        except (Wrong, OSError, subprocess.SubprocessError) as found:
            yield name, str(found)
        else:
            yield name, None
        shutil.rmtree(place.folder, ignore_errors=True)
