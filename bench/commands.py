"""What bench/test tries of the commands: the words that each row of `ee --help` shows. Python's
argparse is told the rows, and takes and refuses lines of words, some of which lack a word, have one
more, or have a number at its bounds or spelled otherwise. The program is to take and to refuse the
same. No clause says that the help shows what the program takes."""
import argparse
import re
from collections import namedtuple

from tools.trying import Place

REFUSED = (2, b"ee: bad command line\n")
GREATEST = 4294967295
BOUNDS = {"P": (1, 64), "W": (5, 512), "VALUE": (0, GREATEST)}
BOUNDS |= dict.fromkeys(("CYCLES", "RUNS"), (1, GREATEST))
BASES = ["0807f000", "0807F000", "0807f004", "807f000", "00807f000", "0x807f00", "0807g000", ""]
# What stands for a word where another one is tried. A path is its own name, and there is no such
# file.
USUAL = {
    "LINE": "ee: spent",
    "P": "2",
    "W": "6",
    "BASE": "08000000",
    "VALUE": "7",
    "CYCLES": "100",
    "RUNS": "5",
}

# A command: its flags, and its other words by name, of which the last ones may be left out.
Command = namedtuple("Command", "flags words least")


class Refused(Exception):
    """What argparse says of words that it doesn't take."""


class Parser(argparse.ArgumentParser):
    def error(self, message):
        raise Refused(message)


def number(least, most):
    """A number within bounds, in decimal, with no sign and no zero in front."""

    def read(word):
        if not re.fullmatch("0|[1-9][0-9]*", word) or not least <= int(word) <= most:
            raise ValueError
        return int(word)

    return read


def base(word):
    """A base: eight hexadecimal digits, a multiple of 8."""
    if not re.fullmatch("[0-9a-fA-F]{8}", word) or int(word, 16) % 8:
        raise ValueError
    return int(word, 16)


KINDS = {"BASE": base, **{word: number(*bounds) for word, bounds in BOUNDS.items()}}


def commands_of(text):
    """The commands by name, of the rows of the help. A row that ends in dots shows a flag alone,
    and one in capitals shows words. `import[-hex]` are two commands."""
    flags, words = {}, {}
    for row in re.findall(r"^  ee (\S.*?)  ", text, re.MULTILINE):
        name, *shown = row.split(" < ")[0].split(" ")
        if not any(word.strip("[]").isupper() for word in shown):
            continue
        short, bracket, _ = name.partition("[")
        for one in [short, re.sub(r"[\[\]]", "", name)] if bracket else [name]:
            flags.setdefault(one, set()).update(word.strip("[]") for word in shown if "--" in word)
            if shown[-1] != "...":
                words[one] = [word for word in shown if "--" not in word]
    found = {}
    for name, shown in words.items():
        least = sum("[" not in word for word in shown)
        found[name] = Command(sorted(flags[name]), [word.strip("[]") for word in shown], least)
    return found


def parser_of(command):
    parser = Parser(add_help=False, allow_abbrev=False)
    for flag in command.flags:
        parser.add_argument(flag, action="store_true")
    for place, word in enumerate(command.words):
        count = "?" if place >= command.least else None
        parser.add_argument(word, type=KINDS.get(word, str), nargs=count)
    return parser


def tried(word):
    """What is tried in the place of a word: a number at its bounds and past them, and spelled
    otherwise."""
    if word not in BOUNDS:
        return BASES if word == "BASE" else []
    least, most = BOUNDS[word]
    inside = [str(number) for number in (least - 1, least, most, most + 1)]
    return [*inside, f"+{most}", f"0{most}", f"{most} ", hex(most), ""]


def lines_of(command):
    """Lines of words behind the command's name."""
    usual = [USUAL.get(word, word.lower()) for word in command.words]
    for flag in [[], *([flag] for flag in command.flags)]:
        for count in range(command.least - 1, len(usual) + 1):
            yield [*flag, *usual[:count]]
        yield [*flag, *usual, "more"]
        for place, word in enumerate(command.words):
            for other in tried(word):
                yield [*flag, *usual[:place], other, *usual[place + 1 :]]


def is_taken(parser, line):
    try:
        parser.parse_args(line)
    except Refused:
        return False
    return True


def takes(place, words):
    """Whether the program takes these words, or says that they are a bad command line."""
    status, _, said = place.run(words)
    if (status == REFUSED[0]) != (said == REFUSED[1]):
        raise ValueError(f"{words}: status {status}, {said!r}")
    return status != REFUSED[0]


def fault_of(place, name, command):
    """What is wrong with a command, if anything is."""
    parser = parser_of(command)
    taken = {True: 0, False: 0}
    for line in lines_of(command):
        wanted = is_taken(parser, line)
        taken[wanted] += 1
        if takes(place, [name, *line]) != wanted:
            return f"{name} {line}: argparse {'takes' if wanted else 'refuses'} it"
    missing = [word for word, count in zip(("taken", "refused"), taken.values()) if not count]
    return f"{name}: no line is {missing[0]}" if missing else None


def checks(program, folder, _tally):
    """Tries each command, and gives for each its name and what is wrong with it."""
    place = Place(program, folder)
    commands = commands_of(place.run("--help")[1].decode())
    yield "rows", None if commands else "the help shows no command"
    for name, command in commands.items():
        try:
            yield name, fault_of(place, name, command)
        except ValueError as fault:
            yield name, str(fault)
    for words in (["nothing"], ["Inspect", "image"], [""]):
        yield "no command", f"{words} is taken" if takes(place, words) else None
