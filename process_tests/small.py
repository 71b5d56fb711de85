"""Small sets by chance, with many touches, points and upright ones, beside plain looks and fractions: sweeps and edges.

Hundreds of sets stand in one text, each to the right of the one before, so that nothing is over or under two of them. Sets in
which segments collide or edges cross stand in texts of a few sets.
"""

from functools import partial
from itertools import combinations
from random import Random

from meetings import common_shares
from locates import EachAmong, cross, lines_below
from many import SEED
from processes import Case, Outcome, answered, lines

# So many sets of each mode, and so many of them also in texts of a few.
SETS, IN_FEW = 10_000, 2_000

# So many sets stand in a text where none has a fault, and so many at most where some have.
TOGETHER, FEW = 500, 8

# So far to the right of the one before each set begins.
APART = 40

NAMES = {2: "point", 3: "segment", 4: "edge"}


def moved(item, by):
    """The item, so far to the right."""
    across = {2: (by, 0), 3: (by, by, 0), 4: (by, 0, by, 0)}[len(item)]
    return tuple(map(sum, zip(item, across)))


def some_points(random, bound):
    return [(random.randint(-bound, bound), random.randint(-bound, bound)) for _ in range(random.randrange(7))]


def some_edges(random, bound):
    """Up to seven edges. One of three goes on where the one before ends, and one of six begins where it began."""
    edges, before = [], (0, 0, 0, 0)
    for _ in range(random.randrange(1, 8)):
        x0, y0, x1, y1 = (random.randint(-bound, bound) for _ in range(4))
        begin = random.choice((before[2:], before[2:], before[:2], (x0, y0), (x0, y0), (x0, y0)))
        before = (*begin, x1, y1)
        edges.append(before)
    return edges


def some_segments(random, _bound):
    """Up to eight segments, of which some cover nothing."""
    lefts = [random.randrange(-3, 4) for _ in range(random.randrange(1, 9))]
    return [(left, left + random.randrange(-1, 5), random.randrange(-3, 4)) for left in lefts]


def overlap(segments):
    """The fault of these segments and their numbers: the first by its left end that collides with an earlier one."""
    earlier = []
    for (left, right, height), number in sorted(segments, key=lambda it: (it[0][0], it[1])):
        if any(at == height and max(left, low) <= min(right, high) for low, high, at in earlier):
            return {f"itree: overlap {number}"}
        earlier.append((left, right, height))
    return set()


def level_below(segments, point):
    x, y = point
    heights = [height for (left, right, height), _ in segments if left <= x <= right and height <= y]
    return {f"below {max(heights)}" if heights else "none"}


def swept(items):
    """What is told of these items and their numbers: faults, of which one comes, and what each reply may be."""
    segments = [it for it in items if len(it[0]) == 3]
    return overlap(segments), [level_below(segments, point) for point, _ in items if len(point) == 2]


def crossed(items):
    served = []
    for place, (edge, _) in enumerate(items):
        told = (number for other, number in items[:place] if common_shares(other, edge))
        served.append({" ".join(["meets", *map(str, told)])})
    return set(), served


def located(items):
    edges = [it for it in items if len(it[0]) == 4]
    faults = {f"itree: cross {i} {j}" for (one, i), (other, j) in combinations(edges, 2) if cross(one, other)}
    sides, numbers = [edge for edge, _ in edges], [number for _, number in edges]
    return faults, [] if faults else [lines_below(sides, numbers, point) for point, _ in items if len(point) == 2]


def swept_by_chance(random, bound):
    return some_segments(random, bound) + some_points(random, bound)


def located_by_chance(random, bound):
    return some_edges(random, bound) + some_points(random, bound)


MODES = (
    ("sweep", swept_by_chance, swept),
    ("meetings", some_edges, crossed),
    ("locate", located_by_chance, located),
)


def sets_by_chance(some, count):
    """So many sets, each in an order by chance."""
    random = Random(SEED)
    for turn in range(count):
        items = some(random, 1 + turn % 8)
        random.shuffle(items)
        yield items


def in_one_text(name, mode, told_of, sets):
    """The case of these sets in one text. Of several sets of segments that collide the one to the left is told."""
    said, faults, served = [], set(), []
    for place, items in enumerate(sets):
        numbered = [(item, len(said) + number) for number, item in enumerate(items, 1)]
        more, replies = told_of(numbered)
        faults |= more if mode == "locate" or not faults else set()
        served += replies
        said += [moved(item, place * APART) for item in items]
    given = lines(*(f"{NAMES[len(item)]} {' '.join(map(str, item))}" for item in said))
    if faults:
        return Case(f"{mode}: {name}", [mode], given, Outcome(2, b"", EachAmong([faults])))
    return answered(name, mode, given, EachAmong(served))


def is_whole(told_of, items):
    return not told_of([(item, 0) for item in items])[0]


def of_mode(mode, some, told_of, count=SETS, in_few=IN_FEW):
    """Cases of one mode."""
    sets = list(sets_by_chance(some, count))
    whole = [items for items in sets if is_whole(told_of, items)]
    if len(whole) < count // 4:
        raise ValueError(f"{mode}: nearly all sets have faults")
    for at in range(0, len(whole), TOGETHER):
        yield in_one_text(f"small sets by chance from {at} on", mode, told_of, whole[at : at + TOGETHER])
    random, at = Random(SEED), 0
    while at < in_few:
        size = random.randint(1, FEW)
        yield in_one_text(f"a few small sets by chance from {at} on", mode, told_of, sets[at : at + size])
        at += size


PARTS = tuple(partial(of_mode, *row) for row in MODES)
