"""Many short histories by chance, about few keys or places, of short lives: each mode beside its plain model.

Histories follow each other in one text: `clear` stands between those of keys and of segments, and a set is emptied.
"""

from functools import partial
from random import Random

from models import Keys, Segments, Sets, replies
from processes import answered, lines

LEAST, GREATEST = -2147483648, 2147483647

SEEDS = 1, 2, 3

# So many histories stand in a text.
HISTORIES = 400

# How many keys a history is about.
WIDTHS = 2, 5, 16, 60, 200

# Ranges of segments.
RANGES = (0, 31), (-5, 58), (0, 128), (7, 1000), (-10240, 15360), (LEAST, GREATEST)


def keys_history(random, count):
    """So many commands of keys that expire, mostly soon. Times don't go back but in one of twenty."""
    width, time = random.choice(WIDTHS), random.choice((0, -7, LEAST, GREATEST - count))
    for value in range(count):
        time += random.randrange(2)
        key, now = random.randrange(width), max(LEAST, time - (random.random() < 0.05))
        if random.random() < 0.55:
            life = random.choice((-1, 0, 0, 1, 2, 5, 15, 600))
            yield f"insert {key} {min(max(LEAST, now + life), GREATEST)} {value} {now}"
        else:
            yield f"{random.choice(('less', 'leq'))} {now} -1 {key}"


def set_history(random, count):
    """So many commands of a set, with more insertions first and more deletions then, and the deletion of all that is left."""
    width, names, left = random.choice(WIDTHS), ["insert", "delete", "find", "before"], set()
    for at in range(count):
        name = random.choices(names, (5, 1, 2, 2) if at < count // 2 else (1, 5, 2, 2))[0]
        key = random.randrange(width)
        if name in ("insert", "delete"):
            (left.add if name == "insert" else left.discard)(key)
        yield f"{name} {key}"
    yield from (f"delete {key}" for key in left)


def place_by_chance(random, start, end):
    """A place of a range, often near one of its ends or of those of its buckets, and sometimes outside."""
    near = random.choice((start, end, start + (end - start) * random.randrange(33) // 32))
    place = near + random.randrange(-2, 3) if random.random() < 0.6 else random.randint(start, end)
    return min(max(LEAST, place), GREATEST)


def segments_history(random, count, start, end):
    """So many commands of segments that live for a short time. Some times go back."""
    time = random.choice((0, LEAST, GREATEST - count))
    for value in range(count):
        time += random.randrange(2)
        now = max(LEAST, time - random.choice((0, 0, 0, 0, 0, 0, 0, 1, 2)))
        ends = [place_by_chance(random, start, end) for _ in range(2)]
        low, high = ends if random.random() < 0.05 else sorted(ends)
        if random.random() < 0.5:
            life = random.choice((-1, 0, 0, 1, 3, 600))
            yield f"insert {low} {high} {min(max(LEAST, now + life), GREATEST)} {value % 40}"
        else:
            yield f"query {low} {high} {now}"


def in_turn(random, history, between, histories):
    """So many histories, of up to 80 commands each."""
    texts = []
    for _ in range(histories):
        texts += [*history(random, random.randrange(1, 81)), *between]
    return texts


def histories_of(mode, made, history, between, histories, seeds):
    """Cases of one mode. Each kind of reply comes often."""
    for seed in seeds:
        texts = in_turn(Random(seed), history, between, histories)
        served = replies(made(), texts)
        for kind in {reply.split()[0] for reply in served}:
            if sum(reply.startswith(kind) for reply in served) < histories // 4:
                raise ValueError(f"{mode}: the reply {kind} comes seldom")
        name = f"{histories} histories by chance, {seed}"
        yield answered(name, mode, lines(*texts), lines(*served))


def all_modes(histories=HISTORIES, seeds=SEEDS):
    """Cases of all modes that have a collection."""
    for mode in "keytree", "keylist":
        yield from histories_of(mode, Keys, keys_history, ["clear"], histories, seeds)
    for mode in "settree", "setlist":
        yield from histories_of(mode, Sets, set_history, [], histories, seeds)
    for start, end in RANGES:
        history = partial(segments_history, start=start, end=end)
        made = partial(Segments, start, end)
        yield from histories_of(f"seg {start} {end}", made, history, ["clear"], histories, seeds)


PARTS = (all_modes,)
