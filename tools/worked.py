"""The worked examples of crates/ee_cases/data, for the tests that are no crates. What an example
is, and how its transcript is written, stands at the head of crates/ee_cases/src/main.rt."""
import os
import re
from collections import namedtuple

from tools.places import TOP

DATA = os.path.join(TOP, "crates", "ee_cases", "data")

# An example: its name, the bytes of its files by name, its transcript, and the steps of that.
Example = namedtuple("Example", "name files transcript steps")
# A command as it is typed, what it prints on both streams, and its status.
Step = namedtuple("Step", "words printed status")
# A script on an image: the name of both, the pages and words of a new device or the image's text,
# the script, and the step of `ee run`.
Run = namedtuple("Run", "name start script step")

# The commands that change the image that they name first.
CHANGERS = ("run", "clean", "rescue", "forget-all", "set", "unset", "apply", "tidy")
IMPORTS = ("import", "import-hex", "import-xcube")


def steps_of(transcript):
    steps = []
    for block in re.split(r"(?m)^\$ ", transcript)[1:]:
        words, _, told = block.partition("\n")
        printed, status = re.fullmatch(r"(?s)(.*?)(?:^\[(\d+)\]\n)?", told, re.M).groups()
        steps.append(Step(words, printed, int(status or "0")))
    return steps


def example(name):
    folder = os.path.join(DATA, name)
    files = {}
    for file in sorted(os.listdir(folder)):
        with open(os.path.join(folder, file), "rb") as opened:
            files[file] = opened.read()
    transcript = files.pop("transcript").decode()
    return Example(name, files, transcript, steps_of(transcript))


def examples():
    return [example(name) for name in sorted(os.listdir(DATA))]


def image_of(pages, words, rows=()):
    """An image of these pages, each its wear and its words, with blank ones behind them."""
    blank = ["0" + " -" * words] * (2 * pages - len(rows))
    return "\n".join([f"ee {pages} {words}", *map(" ".join, rows), *blank, ""]).encode()


def formatted(pages, words):
    """The text of a formatted device."""
    first = ["0", "aaaaaaaa00000001", "a" * 16, *["-"] * (words - 2)]
    return image_of(pages, words, [first])


def text_of(start):
    """The image of a run's start."""
    return formatted(*start) if isinstance(start, tuple) else start


def runs_of(worked):
    """Each run of an example whose image is known: formatted, a file, or shown since it was last
    written."""
    images = dict(worked.files)
    for step in worked.steps:
        words = step.words.split()
        if words[:2] == ["ee", "format"] and step.status == 0:
            images[words[4]] = (int(words[2]), int(words[3]))
        elif words[0] == "cat":
            images[words[1]] = step.printed.encode()
        elif words[:2] == ["ee", "run"] and len(words) == 4:
            start, script = images.get(words[2]), images.get(words[3])
            if start is not None and script is not None:
                yield Run(f"{worked.name}, {words[3]} on {words[2]}", start, script, step)
        if step.status == 0 and words[0] == "ee" and words[1] in CHANGERS:
            images[words[2]] = None
        elif step.status == 0 and words[:2] in [["ee", name] for name in IMPORTS]:
            images[words[-1]] = None


def runs():
    return [run for worked in examples() for run in runs_of(worked)]
