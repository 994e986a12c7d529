"""Where things lie, and which of the compilers and programs are here."""
import argparse
import os
import re
import shutil
import subprocess
import sys
from pathlib import Path

TOP = Path(__file__).resolve().parent.parent
CRATES = TOP / "crates"
PROVED = CRATES / "ee" / "out" / "ee"
RUST = "https://rustup.rs"
KIT = "the Rattle toolchain: README.md"


def text_of(*path):
    """The text of a file of the repository."""
    return (TOP / Path(*path)).read_text(encoding="utf-8")


def in_crates(*patterns):
    """The files and folders of crates/ that have these forms, as paths from the top."""
    found = (path for pattern in patterns for path in sorted(CRATES.glob(pattern)))
    return [str(path.relative_to(TOP)) for path in found]


def with_change(text, old, new):
    """A text with what stands there once in another form, as a test plants a fault."""
    if text.count(old) != 1:
        raise ValueError(f"{old!r} stands {text.count(old)} times and not once")
    return text.replace(old, new)


def is_here(*programs):
    """Whether all of these programs can be run."""
    return all(map(shutil.which, programs))


def said_by(*words):
    """What a command prints, or nothing where it can't be run or fails."""
    try:
        done = subprocess.run(words, capture_output=True, text=True, check=True)
    except (OSError, subprocess.CalledProcessError):
        return ""
    return done.stdout.strip()


def run_of(*words, **how):
    """The status of a command, and what it prints on both streams."""
    done = subprocess.run(
        [str(word) for word in words],
        stdin=subprocess.DEVNULL,
        stdout=subprocess.PIPE,
        stderr=subprocess.STDOUT,
        text=True,
        check=False,
        **how,
    )
    return done.returncode, done.stdout


def has_rust(minor):
    """Whether cargo and rustc are here, in this version of Rust 1 or a later one."""
    found = re.match(r"rustc 1\.(\d+)\.", said_by("rustc", "--version"))
    return found is not None and int(found[1]) >= minor and is_here("cargo")


def program(*how):
    """The program `ee` to test with, or None: EE, else what `.ci/program` says to these words."""
    found = os.environ.get("EE") or said_by(TOP / ".ci" / "program", *how)
    return os.path.abspath(found) if found and os.access(found, os.X_OK) else None


def words_of(told, **numbers):
    """The words of a command of which this is told: numbers by their names, each with its usual
    value and what it is, and the program `ee` in `--program`, which must be there."""
    parser = argparse.ArgumentParser(description=told.split("\n\n")[0])
    for name, (usual, what) in numbers.items():
        parser.add_argument(f"--{name}", type=int, default=usual, help=f"{what} ({usual})")
    ee = os.environ.get("EE") or str(PROVED)
    told = "where ee is (EE, or crates/ee/out/ee)"
    parser.add_argument("--program", type=os.path.abspath, default=ee, help=told)
    words = parser.parse_args()
    if not os.access(words.program, os.X_OK):
        sys.exit(f"no {words.program}: ./prove makes crates/ee/out/ee")
    return words


def built_by_rustc(source, made):
    """Builds a program of one crate. Gives its path."""
    made.parent.mkdir(exist_ok=True)
    subprocess.run(["rustc", "-O", "--edition", "2021", source, "-o", made], check=True)
    return str(made)
