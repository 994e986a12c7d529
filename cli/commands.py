"""What cli/compare tries of random commands on random files. Each case is a folder of files and
some commands that are made in it one after another, by both programs. What they print, their
statuses, and the names, texts and modes of all files must be the same."""
import random
import tempfile
from collections import Counter
from functools import partial
from multiprocessing import Pool

import tables
from bench import cases
from tools.trying import Place

NUMBERS = [0, 1, 4, 5, 6, 8, 64, 65, 512, 513, 65534, 65535, 2**32 - 1, 2**32]
FILES = "image other script settings values certificate dump hex new none".split()
# The commands, those that change an image twice. Words in capitals are drawn, and so is, seldom, a
# file.
COMMANDS = """\
run image script
run image script
run --indexed image script
try P W

format P W new
export image dump
import P W dump new
export-hex image BASE hex
export-hex --fill image BASE hex
import-hex P W BASE hex new
import-xcube P W dump new
export --pairs image dump
import --pairs P W dump new
export-hex --pairs image BASE hex
import-hex --pairs P W BASE hex new
export --coded image dump
import --coded P W dump new
export-hex --coded image BASE hex
import-hex --coded P W BASE hex new
list image
list image settings
get image settings NAME
set image settings NAME VALUE
set image settings NAME VALUE
unset image settings NAME
--dry-run unset image settings NAME
apply image settings values
apply image settings values
--dry-run apply image settings values
verify image settings values
header settings
header --rust settings
stale image settings
tidy image settings
plan image script
plan image script
check image script certificate
size W script CYCLES RUNS
inspect image
wear image
wear image other
states image
--json plan image script
--json size W script CYCLES RUNS
--json wear image other
--json states image
--json inspect image
--json clean image
clean image
rescue image
forget-all image
forget-all --force image
"""
BASES = ["00000000", "08000000", "0807F000", "fffffff8", "00000004", "0"]


def number(dice, usual):
    """Mostly one of these, else one at a limit or none at all."""
    fate = dice.random()
    if fate >= 0.99:
        return dice.choice(["", "x", "01", "-1", "+1", "1 "])
    return str(dice.choice(usual if fate < 0.93 else NUMBERS))


def drawn(dice, word, size, names):
    """What stands for a word of a command."""
    numbers = {
        "P": size[:1],
        "W": size[1:],
        "VALUE": [0, 1, 5, 7, 100, dice.randrange(2**32)],
        "CYCLES": [10, 10000],
        "RUNS": [1, 1000, 100000],
    }
    if word in numbers:
        return number(dice, numbers[word])
    if word == "BASE":
        return dice.choice(BASES)
    if word == "NAME":
        return dice.choice(names if dice.random() < 0.9 else ["", "x", "no.name", "NAME"])
    return dice.choice(FILES) if word in FILES and dice.random() < 0.05 else word


def command(dice, size, names):
    """The words of a command, of which some are no command."""
    line = dice.choice(COMMANDS.splitlines())
    words = [drawn(dice, word, size, names) for word in line.split()]
    if dice.random() < 0.03:
        other = dice.choice(["--pairs", "--coded", "--rust", "x", "", "image"])
        words.insert(dice.randrange(len(words) + 1), other)
    if dice.random() < 0.02 and words:
        del words[dice.randrange(len(words))]
    return words


def damaged(dice, text):
    fate = dice.random()
    if fate < 0.1:
        return cases.change_bytes(dice, text)
    return cases.change_number(dice, text) if fate < 0.15 else text


def case_of(seed, number_of_case):
    """The files of a case and its commands, each with its input."""
    dice = random.Random(f"desk {seed} {number_of_case}")
    pages, words = cases.random_size(dice)
    addresses = cases.random_addresses(dice, pages * (words - 4))
    image = cases.random_image(dice, pages, words, addresses)
    if dice.random() < 0.3:
        image = cases.worked.formatted(pages, words)
    script = cases.random_script(dice, addresses)
    if dice.random() < 0.5:
        script = b"".join(line for line in script.splitlines(True) if line[:1] not in b"xp")
    names = tables.random_names(dice)
    files = {
        "image": image,
        "other": cases.random_image(dice, pages, words, addresses),
        "script": script,
        "settings": tables.settings(dice, names, addresses),
        "values": tables.values(dice, names),
        "certificate": b"slots 2 fill 0 live 0 writes 5\nto 3 from 0\nto 5 from 1\ntransfers 2\n",
    }
    files = {name: damaged(dice, text) for name, text in files.items()}
    commands = [
        (command(dice, (pages, words), names), damaged(dice, script))
        for _ in range(dice.choice([2, 3, 4]))
    ]
    return files, commands, dice.choice([0o644, 0o600, 0o640, 0o444])


def outcome(program, case):
    """What a program prints and leaves."""
    files, commands, mode = case
    with tempfile.TemporaryDirectory() as name:
        place = Place(program, f"{name}/place", files)
        place.put("image", files["image"], mode)
        said = []
        for words, script in commands:
            said.append(place.run(words, input=script, timeout=60))
            # What a certificate proves is asked where there is one.
            if words[:1] == ["plan"] and said[-1][0] == 0:
                place.put("certificate", said[-1][1])
        return said, place.left()


def tried(plain, proved, seed, number_of_case):
    """What is wrong with a case, if something is, and the statuses that it had."""
    case = case_of(seed, number_of_case)
    ours, theirs = outcome(plain, case), outcome(proved, case)
    statuses = [status for status, _, _ in theirs[0]]
    if ours == theirs:
        return None, statuses
    wrong = f"the files differ behind {case[1]!r:.300}"
    for (words, _), mine, wanted in reversed([*zip(case[1], ours[0], theirs[0])]):
        if mine != wanted:
            wrong = f"ee {' '.join(words)}: {mine!r:.300}, where it should be {wanted!r:.300}"
    return wrong, statuses


def checks(plain, proved, words):
    """Tries N cases, or one alone. Gives of each its name and what is wrong with it, if something
    is."""
    numbers = range(words.cases) if words.case is None else [words.case]
    with Pool(2) as pool:
        found = pool.map(partial(tried, plain, proved, words.seed), numbers, chunksize=8)
    statuses = Counter(status for _, all_of_case in found for status in all_of_case)
    told = ", ".join(f"{status}: {count}" for status, count in sorted(statuses.items(), key=str))
    print(f"commands by status: {told}")
    return [(f"case {number}", what) for number, (what, _) in zip(numbers, found)]
