"""What bench/test tries of `ee rescue` and `ee forget-all`: random images, with words that no store
wrote among theirs, against the rule of docs/MODEL.md in plain Python. All that a rescue leaves is
forgotten behind it, once refused without `--force`."""
import random

import cases
from step_lists import ACTIVE, ERASING, HEADER, LAST_GENERATION, MARK, RECEIVE, Lists, Live
from step_lists import device_of, generation_of, left_by, said_by, text_of
from tools.trying import Place

# How many images are rescued.
IMAGES = 400


def is_begun(old):
    return old.own()[0][ACTIVE] != "-"


def is_left_behind(old):
    return any(page[ERASING] == MARK for page in old.own())


def named(old):
    """The generation that a set names, 1 where it names none."""
    return next(filter(None, (generation_of(page[RECEIVE]) for page in old.own())), 1)


def is_bad(old, page, at):
    """Whether a word of a set is none that a store wrote there."""
    word = old.own()[page][at]
    before = page * old.room + max(at - HEADER, 0)
    front = old.words.index("-") if "-" in old.words else old.slots
    if word == "?" or (word != "-" and before > front):
        return True
    if page == 0 and at == RECEIVE:
        return not generation_of(word)
    if page == 0 and at == ACTIVE:
        return word != MARK
    if word == "-" or at >= HEADER:
        return word != "-" and said_by(word) is None
    return word != (f"{MARK[:8]}{named(old):08x}", MARK, MARK, None)[at]


def rescued_set(sets):
    """Which of two sets is rescued, of which one is begun."""
    for test in (is_begun, lambda it: not is_left_behind(it), lambda it: it.generation):
        first, second = (bool(test(each)) for each in sets)
        if first != second:
            return int(second)
    return int(named(sets[0]) < named(sets[1]))


def rescue(device):
    """Rescues, if that is possible: what is printed, the status, and the device behind it."""
    sets = [Live(device, side) for side in range(2)]
    if not any(map(is_begun, sets)):
        return "ee: nothing to rescue\n", 4, device
    old = sets[rescued_set(sets)]
    old.generation = named(old)
    if old.generation == LAST_GENERATION:
        return "ee: spent\n", 4, device
    places = [(page, at) for page in range(old.size) for at in range(HEADER + old.room)]
    bad = [place for place in places if is_bad(old, *place)]
    told = "".join(
        f"bad {old.first + page} {at} {'header' if at < HEADER else 'slot'}\n" for page, at in bad
    )
    told += f"rescued live {len(old.values)} bad {len(bad)}\n"
    return told, 0, left_by(device, Lists().rescue(old))


def forget_all(device, force=False):
    """Forgets all that a rescue left: what is printed, the status, and the device behind it."""
    old = Live(device)
    if old.values and not force:
        return "ee: holds values, --force forgets them\n", 4, device
    if old.values and old.generation == LAST_GENERATION:
        return "ee: spent\n", 4, device
    steps = Lists().clear(old) if old.values else []
    return f"forgotten {len(old.values)}\n", 0, left_by(device, steps)


def spoilt(dice, device):
    """A device with some words changed to others."""
    marks = [f"{MARK[:8]}{generation:08x}" for generation in (1, 2, LAST_GENERATION)]
    words = [*"-?", MARK, *marks, "0000000000000007", f"{dice.randrange(9):08x}00000001"]
    pages = list(map(list, device.pages))
    for _ in range(dice.choice([0, 1, 1, 2, 5])):
        page = dice.choice(pages)
        page[dice.randrange(min(len(page), 9))] = dice.choice(words)
    # No word holds all ones.
    changed = (tuple("?" if word == "f" * 16 else word for word in page) for page in pages)
    return device._replace(pages=tuple(changed))


def tried(place, number):
    """Rescues a random image, and forgets what that leaves: what differs, if anything."""
    dice = random.Random(f"rescue {number}")
    pages, words = dice.choice([1, 1, 2, 3]), dice.choice([5, 6, 7, 9])
    addresses = cases.random_addresses(dice, pages * (words - HEADER))
    device = spoilt(dice, device_of(cases.random_image(dice, pages, words, addresses)))
    place.put("image", text_of(device))
    for name, rule in (
        ("rescue", rescue),
        ("forget-all", forget_all),
        ("forget-all --force", lambda it: forget_all(it, True)),
    ):
        said, status, behind = rule(device)
        wanted = status, said, text_of(behind)
        found = *place.told(f"{name} image"), place.get("image")
        if found != wanted:
            return f"{name}: wanted {wanted}, found {found} on {text_of(device)}"
        if status and name == "rescue":
            return None
        device = behind
    return None


def checks(program, folder, _tally):
    """Tries each image, and gives its number and what differs, if anything."""
    place = Place(program, folder)
    for number in range(IMAGES):
        yield str(number), tried(place, number)
