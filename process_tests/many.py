"""Many lines by chance: trees beside plain models, and lists beside trees.

Each text is made with the replies that are to come, by a model or, where that is plain, at once.
"""

from functools import partial
from random import Random

from models import Keys, Segments, Sets, replies
from processes import Outcome, answered, by_file, lines

MANY = 1_000_000
FEWER = 50_000
SEED = 20

# Every so many lines all is cleared.
CLEARED = 240_000

RANGE = -10240, 15360


def keys_by_chance(count):
    """Commands of keys that expire, at times that mostly don't go back."""
    chance = Random(SEED).random
    time, texts = -100_000, []
    for at in range(count):
        pick, key = chance(), int(chance() * 60_001) - 30_000
        time += pick < 0.1
        if at % CLEARED == CLEARED - 1:
            texts.append("clear")
        elif pick < 0.5:
            expiration = time - 2 + int(chance() * 10_000)
            texts.append(f"insert {key} {expiration} {at} {time - (pick < 0.01)}")
        elif pick < 0.75:
            texts.append(f"less {time - (pick < 0.51)} -1 {key}")
        else:
            texts.append(f"leq {time} -2 {key}")
    return texts, replies(Keys(), texts)


def set_by_chance(count):
    """Commands of a set whose keys come and go."""
    chance = Random(SEED).random
    names = ["insert"] * 4 + ["delete"] * 3 + ["find"] * 2 + ["before"]
    texts = [f"{names[int(chance() * 10)]} {int(chance() * 60_001) - 30_000}" for _ in range(count)]
    return texts, replies(Sets(), texts)


def segments_by_chance(count):
    """Commands of segments that live for a short time, some outside the range."""
    chance = Random(SEED).random
    time, texts = -100_000, []
    for at in range(count):
        pick, low = chance(), int(chance() * 25_700) - 10_260
        high = low + int(chance() * chance() * chance() * 4_000)
        time += pick < 0.2
        if at % CLEARED == CLEARED - 1:
            texts.append("clear")
        elif pick < 0.5:
            texts.append(f"insert {low} {high} {time - 1 + int(chance() * 20)} {at}")
        else:
            texts.append(f"query {low} {high} {time - (pick < 0.51)}")
    return texts, replies(Segments(*RANGE), texts)


def shuffled(count):
    """Half as many even numbers, in an order by chance."""
    keys = list(range(0, count, 2))
    Random(SEED).shuffle(keys)
    return keys


def growing_keys(count):
    """Keys that stay, and are then looked for."""
    keys = shuffled(count)
    texts = [f"insert {key} 0 {-key} 0" for key in keys] + [f"less 0 1 {key}" for key in keys]
    return texts, ["inserted"] * len(keys) + [f"value {2 - key if key else 1}" for key in keys]


def growing_set(count):
    """Keys of a set that are then looked for, and half of them deleted."""
    keys = shuffled(count)
    texts, served = [f"insert {key}" for key in keys], ["inserted"] * len(keys)
    for at, key in enumerate(keys):
        texts.append(f"delete {key}" if at % 2 else f"find {key + 1}")
        served.append("deleted" if at % 2 else f"key {key}")
    return texts, served


def rising_set(count):
    """Keys of a set that rise, and then a walk back from the last one on."""
    keys = range(count // 2)
    texts = [f"insert {key}" for key in keys] + [f"before {key}" for key in reversed(keys)]
    return texts, ["inserted"] * len(keys) + [f"key {key - 1}" if key else "none" for key in reversed(keys)]


def growing_segments(count):
    """Segments that stay, and a query that finds them all."""
    values = shuffled(2 * count - 2)
    texts = [f"insert {value % 25_600 + RANGE[0]} {RANGE[1]} 0 {value}" for value in values]
    found = "".join(f" {value}" for value in sorted(values))
    return [*texts, f"query {RANGE[0]} {RANGE[1]} 0"], [*["inserted"] * len(values), f"values{found}"]


SEG = f"seg {RANGE[0]} {RANGE[1]}"

TREES = (
    ("keys by chance", "keytree", keys_by_chance),
    ("a set by chance", "settree", set_by_chance),
    ("segments by chance", SEG, segments_by_chance),
    ("keys that stay", "keytree", growing_keys),
    ("a set that grows", "settree", growing_set),
    ("a set that rises", "settree", rising_set),
    ("segments that stay", SEG, growing_segments),
)

PAIRS = (
    ("keys by chance", "keytree", "keylist", keys_by_chance),
    ("a set by chance", "settree", "setlist", set_by_chance),
    ("keys that stay", "keytree", "keylist", growing_keys),
    ("a set that grows", "settree", "setlist", growing_set),
)


def in_tree(name, mode, made):
    """The case of a million lines of one kind, in a tree."""
    texts, served = made(MANY)
    yield answered(f"{len(texts)} lines of {name}", mode, lines(*texts), lines(*served))


def as_in(tree):
    """Runs the mode of a tree too, and tells where its outcome is another."""

    def run(command, given):
        program, _mode = command
        listed, in_order = by_file(command, given), by_file([program, tree], given)
        return listed if listed == in_order else Outcome(f"other than of {tree}", listed.output, listed.faults)

    return run


def in_both():
    """Cases of a list beside a tree."""
    for name, tree, mode, made in PAIRS:
        texts, served = made(FEWER)
        yield answered(f"{FEWER} lines of {name}, as in {tree}", mode, lines(*texts), lines(*served), as_in(tree))


PARTS = (*(partial(in_tree, *row) for row in TREES), in_both)
