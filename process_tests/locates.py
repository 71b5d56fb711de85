"""The mode `locate`: worked examples, faulty lines, edges that cross, and points by chance beside fractions."""

from fractions import Fraction
from functools import partial
from itertools import combinations
from random import Random

import streams
from meetings import numbers_by_chance
from many import MANY, SEED
from odd import read, texts_by_chance
from processes import Case, Outcome, answered, by_file, by_pipe, dialogue, lines, refused
from text import empty_texts, line_numbers, plain_lines

LEAST, GREATEST = -2147483648, 2147483647

# The mode with a line and its reply.
PLAIN = "locate", b"point 0 4", b"none\n"

# The commands, with how many numbers each has.
FORMS = {b"edge": 4, b"point": 2}

ANSWERED = (
    (
        "points before, between and behind edges",
        """
        point 6 7 -> edge 2
        edge 0 0 10 10
        point 6 5 -> none
        point 10 10 -> none
    """,
    ),
    (
        "two edges apart",
        """
        edge 0 0 10 10
        point 5 5 -> edge 1
        edge 0 -5 10 -5
        point 5 4 -> edge 3
        point 9 -6 -> none
        point 0 0 -> edge 1
        point 10 20 -> none
    """,
    ),
    (
        "where one edge of a chain ends the next one goes on",
        """
        edge 0 0 5 5
        edge 9 1 5 5
        point 4 4 -> edge 1
        point 5 5 -> edge 2
        point 9 1 -> none
    """,
    ),
    (
        "a touch, and an upright one and a point that cover nothing",
        """
        edge 0 0 10 0
        edge 5 0 7 -3
        edge 6 -9 6 9
        edge 6 0 6 0
        point 6 1 -> edge 1
        point 6 -1 -> edge 2
        point 6 -2 -> none
    """,
    ),
    (
        "points beside an edge from end to end",
        f"""
        edge {LEAST} {LEAST} {GREATEST} {GREATEST}
        point 0 0 -> edge 1
        point 1 0 -> none
        point {LEAST} {LEAST} -> edge 1
        point {GREATEST} {GREATEST} -> none
    """,
    ),
    (
        "a chain, and a point at each of its corners",
        """
        edge 0 0 4 2
        edge 4 2 6 -2
        edge 9 0 6 -2
        point 0 0 -> edge 1
        point 4 2 -> edge 2
        point 6 -2 -> edge 3
        point 9 0 -> none
    """,
    ),
    (
        "between two heights that are no whole numbers",
        """
        edge 0 0 3 1
        edge 0 1 3 2
        point 1 0 -> none
        point 1 1 -> edge 1
        point 2 1 -> edge 1
        point 2 2 -> edge 2
    """,
    ),
    (
        "upright ones and points cover nothing",
        """
        edge 3 0 3 4
        edge 3 2 3 2
        point 3 9 -> none
    """,
    ),
    (
        "edges that touch, end on each other, or go through an upright one",
        """
        edge 0 0 10 0
        edge 5 0 7 -3
        edge 2 -5 2 5
        edge 0 0 10 4
        point 5 1 -> edge 1
        point 5 2 -> edge 4
        point 6 -1 -> edge 2
        point 6 -2 -> none
        point 2 1 -> edge 4
    """,
    ),
    (
        "corners from which two edges go to the right",
        """
        edge 9 9 0 0
        edge 0 0 9 5
        edge 4 -3 0 -3
        edge 0 -3 4 -5
        point 0 0 -> edge 1
        point 0 7 -> edge 1
        point 0 -1 -> edge 3
        point 2 -4 -> edge 4
    """,
    ),
    (
        "blank lines count",
        """
        point 2 1 -> edge 5

        edge 0 0 4 0

        edge 4 1 0 1
        point 2 0 -> edge 3
    """,
    ),
    (
        "one point twice",
        """
        point 1 7 -> edge 2
        edge 2 7 0 7

        point 1 7 -> edge 2
    """,
    ),
    ("edges alone", "edge 0 0 1 1"),
    (
        "from end to end",
        f"""
        edge {LEAST} {LEAST} {GREATEST} {GREATEST}
        edge {GREATEST} {GREATEST} {LEAST} {LEAST + 1}
        point {LEAST} {LEAST} -> edge 1
        point {LEAST} {GREATEST} -> edge 2
        point {GREATEST - 1} {GREATEST - 1} -> edge 1
        point {GREATEST} {GREATEST} -> none
    """,
    ),
    (
        "signs and zeros",
        """
        edge +0 -0 010 -5
        point -0 -0 -> edge 1
    """,
    ),
)

# Each with the lines of the edges that cross.
CROSSING = (
    ("at one place", (1, 3), ("edge 0 0 10 10", "point 5 5", "edge 0 10 10 0")),
    ("blank lines count", (2, 5), ("", "edge 0 0 10 10", " ", "", "edge 0 10 10 0", "")),
    ("turned round", (1, 2), ("edge 10 10 0 0", "edge 0 10 10 0")),
    ("turned round, with blank lines", (2, 4), ("", "edge 10 0 0 10", "", "edge 10 10 0 0")),
    ("behind the last point, the lower one last", (3, 4), ("edge 0 0 1 0", "point 0 0", "edge 50 10 60 0", "edge 50 0 60 10")),
    ("behind the last point", (3, 4), ("edge 0 0 1 0", "point 0 0", "edge 50 0 60 10", "edge 50 10 60 0")),
    ("behind the end of the one between", (1, 2), ("edge 0 0 10 10", "edge 0 9 10 0", "edge 0 5 2 5")),
    ("within one", (1, 2), ("edge 0 0 1 1", "edge 0 1 1 0")),
    (
        "by very little",
        (1, 2),
        (
            f"edge {LEAST} {LEAST} {GREATEST} {GREATEST}",
            f"edge {LEAST} {LEAST + 1} {GREATEST} {GREATEST - 1}",
        ),
    ),
)

# Lines that are faulty.
FAULTY = (
    *("edge 0 0 1", "edge 0 0 1 1 1", "edge 0 0 1 x", "edge", "point 0", "point 0 0 0", "point", "points 0 0"),
    *("Edge 0 0 1 1", "edge 0 0 1 2147483648", "point 0 -2147483649", "segment 0 5 1", "clear", "cross 1 2"),
)


class EachAmong(bytes):
    """Stands for each text whose lines are among those that are allowed, place by place."""

    def __new__(cls, allowed):
        made = super().__new__(cls, lines(*(min(some) for some in allowed)))
        made.allowed = allowed
        return made

    def __eq__(self, got):
        said = got.decode().split("\n")
        return len(said) == len(self.allowed) + 1 and not said[-1] and all(map(set.__contains__, self.allowed, said))

    __hash__ = bytes.__hash__


def rightwards(edge):
    x0, y0, x1, y1 = edge
    return edge if x0 <= x1 else (x1, y1, x0, y0)


def height(edge, x):
    """The height of an edge that goes to the right, and isn't upright, at x."""
    x0, y0, x1, y1 = edge
    return y0 + Fraction((y1 - y0) * (x - x0), x1 - x0)


def cross(one, other):
    """Whether the one is below the other at one end of what both span, and above it at the other end."""
    one, other = rightwards(one), rightwards(other)
    start, end = max(one[0], other[0]), min(one[2], other[2])
    if end <= start:
        return False
    apart = [height(one, x) - height(other, x) for x in (start, end)]
    return min(apart) < 0 < max(apart)


def lines_below(edges, numbers, point):
    """What may be told of a point: the number of an edge that is highest of those under it, there and at the next x, or
    none."""
    x, y = point
    turned = [(number, rightwards(edge)) for number, edge in zip(numbers, edges)]
    heights = {number: (height(edge, x), height(edge, x + 1)) for number, edge in turned if edge[0] <= x < edge[2]}
    under = {number: at for number, at in heights.items() if at[0] <= y}
    highest = tuple(map(max, zip(*under.values())))
    return {f"edge {number}" for number, at in under.items() if at == highest} or {"none"}


def located(name, given, edges, points, numbers):
    """The case of these points among these edges, which stand on the lines of these numbers."""
    pairs = combinations(zip(numbers, edges), 2)
    crossing = {f"itree: cross {i} {j}" for (i, one), (j, other) in pairs if cross(one, other)}
    if crossing:
        return Case(f"locate: {name}", ["locate"], given, Outcome(2, b"", EachAmong([crossing])))
    return answered(name, "locate", given, EachAmong([lines_below(edges, numbers, point) for point in points]))


def crossed(name, given, first, second, how=by_file):
    """The case that the edges of these lines cross."""
    return Case(f"locate: {name}", ["locate"], given, Outcome(2, b"", b"itree: cross %d %d\n" % (first, second)), how)


def line_of(item):
    return f"{'edge' if len(item) == 4 else 'point'} {' '.join(map(str, item))}"


def located_among(name, items, given=None, numbers=None):
    """The case of these edges and points in this order, one a line where no other lines are given."""
    numbers = [number for number, item in zip(numbers or range(1, len(items) + 1), items) if len(item) == 4]
    edges, points = ([item for item in items if len(item) == width] for width in (4, 2))
    return located(name, given or lines(*map(line_of, items)), edges, points, numbers)


def worked():
    """Cases of the rows. A faulty line is told where edges before it cross."""
    for name, said in ANSWERED:
        given, replies = dialogue(said)
        yield answered(name, "locate", given, replies)
        yield answered(f"{name}, through a pipe", "locate", given, replies, by_pipe)
    for name, numbers, said in CROSSING:
        yield crossed(f"crossing, {name}", lines(*said), *numbers)
    for text in FAULTY:
        given = lines("edge 0 0 1 1", "edge 0 1 1 0", text, "nonsense")
        yield refused(f"the line '{text}'", "locate", given, 3)


def far_lines():
    """Cases of faults on line 100,000."""
    first, points = "edge 0 0 10 10", ["point 0 0"] * 99_998
    yield crossed("edges that cross on lines 1 and 100,000", lines(first, *points, "edge 0 10 10 0"), 1, 100_000)
    yield refused("a faulty line 100,000 of edges", "locate", lines(first, *points, "edge 0 5 1"), 100_000)


def crossings_told():
    """Cases of edges that cross over streams that fail."""
    crossing = b"edge 0 0 5 5\npoint 0 0\nedge 0 5 5 0\n"
    for name, how, is_told in streams.FAULTY:
        told = Outcome(2, b"", b"itree: cross 1 3\n" if is_told else b"")
        yield Case(f"locate: crossing, {name}", ["locate"], crossing, told, how)


def odd_texts():
    """Cases of texts by chance, some of them spoilt."""
    for text in texts_by_chance(FORMS):
        said, name = read(text, FORMS), f"by chance, {text!r}"
        if isinstance(said, int):
            yield refused(name, "locate", text, said)
        else:
            items = [tuple(map(int, line.split()[1:])) for _, line in said]
            yield located_among(name, items, text, [number for number, _ in said])


def apart_by_chance(number, count):
    """So many edges by chance, of which none crosses one before it."""
    edges = []
    for _ in range(count):
        edge = tuple(number() for _ in range(4))
        if not any(cross(edge, other) for other in edges):
            edges.append(edge)
    return edges


def by_chance():
    """Cases of edges by chance, over small coordinates, over all, and near a wide grid, most of which don't cross."""
    random = Random(SEED)
    for where, number in numbers_by_chance(random, (2, 3, 5, 9, 30, GREATEST)):
        for turn in range(25):
            edges = apart_by_chance(number, 30)
            if turn % 5 == 4:
                edges.append(tuple(number() for _ in range(4)))
            points = [(number(), number()) for _ in range(30)]
            # Points on edges' ends, and just beside them.
            points += [(x, y + random.randrange(-1, 2)) for x, y, _, _ in edges if LEAST < y < GREATEST]
            items = [*edges, *points]
            random.shuffle(items)
            yield located_among(f"edges {where}, {turn}", items)


def chains():
    """Cases of 12 chains above one another, each of 15 edges 10 long whose heights differ by up to 89, with a point above each
    edge. Neighbours don't follow one another: 5 and 12 have no factor in common."""
    random = Random(SEED)
    for turn in range(30):
        said, served = [], []
        for place in range(12):
            low = place * 5 % 12 * 100
            heights = [low + random.randrange(90) for _ in range(16)]
            for x, start, end in zip(range(0, 150, 10), heights, heights[1:]):
                edge = (x, start, x + 10, end) if random.random() < 0.5 else (x + 10, end, x, start)
                served.append(f"edge {len(said) + 1}")
                said += [line_of(edge), line_of((x + random.randrange(10), low + 95))]
        yield answered(f"chains above one another, {turn}", "locate", lines(*said), lines(*served))


# Edges of a cell of 20 by 20, which no edge of another cell reaches, and a point among them with the one below it.
CELL = ((0, 0, 18, 9), (18, 10, 0, 18), (3, 8, 9, 6), (0, 1, 2, 9))
ASKED = (4, 8, 2)


def in_cells(count):
    """So many edges and points in cells of their own, in an order by chance, and their replies."""
    kinds = len(CELL) + 1
    items = [(cell, kind) for cell in range(count // kinds) for kind in range(kinds)]
    Random(SEED).shuffle(items)
    numbers = {item: number for number, item in enumerate(items, 1)}
    said, served = [], []
    for cell, kind in items:
        x, y = cell % 1000 * 20, cell // 1000 * 20
        if kind < len(CELL):
            x0, y0, x1, y1 = CELL[kind]
            said.append(line_of((x + x0, y + y0, x + x1, y + y1)))
        else:
            said.append(line_of((x + ASKED[0], y + ASKED[1])))
            served.append(f"edge {numbers[cell, ASKED[2]]}")
    return said, lines(*served)


def many(count=MANY):
    """The cases of a million lines, and of one edge more that crosses one of them."""
    said, replies = in_cells(count)
    yield answered(f"{count} lines in cells", "locate", lines(*said), replies)
    first = said.index(line_of(CELL[0])) + 1
    yield crossed(f"{count} lines and one that crosses one", lines(*said, "edge 0 -1 18 10"), first, len(said) + 1)


PARTS = (
    *(worked, far_lines, crossings_told, odd_texts, by_chance, chains, many),
    *(partial(part, [PLAIN]) for part in (empty_texts, plain_lines, line_numbers, streams.each_mode)),
)
