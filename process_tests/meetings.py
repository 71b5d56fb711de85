"""The mode `meetings`: worked examples, faulty lines, and edges by chance beside shares of both."""

from functools import partial
from itertools import combinations
from random import Random

from many import MANY, SEED
from odd import read, texts_by_chance
from processes import answered, by_pipe, dialogue, lines, refused
from text import empty_texts, line_numbers

LEAST, GREATEST = -2147483648, 2147483647

# The mode with a line and its reply.
PLAIN = "meetings", b"edge 0 0 1 1", b"meets\n"

# The command, with how many numbers it has.
FORMS = {b"edge": 4}

ANSWERED = (
    (
        "two that cross, a point on both, and one aside",
        """
        edge 0 0 10 10 -> meets
        edge 0 10 10 0 -> meets 1
        edge 5 5 5 5 -> meets 1 2
        edge 20 0 20 5 -> meets
    """,
    ),
    (
        "along one line",
        """
        edge 0 0 4 4 -> meets
        edge 5 5 6 6 -> meets
        edge 6 6 2 2 -> meets 1 2
    """,
    ),
    (
        "a touch, and close by",
        """
        edge 0 0 4 0 -> meets
        edge 2 0 2 3 -> meets 1
        edge 0 0 2 1 -> meets 1 2
        edge 1 1 1 5 -> meets
    """,
    ),
    (
        "upright ones on one line",
        """
        edge 3 0 3 4 -> meets
        edge 3 7 3 4 -> meets 1
        edge 3 8 3 9 -> meets
        edge 3 9 3 5 -> meets 2 3
    """,
    ),
    (
        "one edge twice, and turned round",
        """
        edge 1 2 3 5 -> meets
        edge 1 2 3 5 -> meets 1
        edge 3 5 1 2 -> meets 1 2
    """,
    ),
    (
        "points",
        """
        edge 7 7 7 7 -> meets
        edge 7 8 7 8 -> meets
        edge 7 7 7 7 -> meets 1
    """,
    ),
    (
        "one point twice",
        """
        edge 1 1 1 1 -> meets
        edge 1 1 1 1 -> meets 1
    """,
    ),
    (
        "from end to end, and points",
        f"""
        edge {LEAST} {LEAST} {GREATEST} {GREATEST} -> meets
        edge {LEAST} {GREATEST} -1 0 -> meets
        edge 0 0 0 0 -> meets 1
        edge -1 0 -1 0 -> meets 2
    """,
    ),
    (
        "three through one point",
        """
        edge -2 -2 2 2 -> meets
        edge -2 2 2 -2 -> meets 1
        edge 0 -3 0 3 -> meets 1 2
    """,
    ),
    (
        "blank lines count",
        """

        edge 0 0 4 0 -> meets

        edge 2 0 2 3 -> meets 1
        edge 4 0 2 3 -> meets 1 3
    """,
    ),
    (
        "from end to end",
        f"""
        edge {LEAST} {LEAST} {GREATEST} {GREATEST} -> meets
        edge {LEAST} {GREATEST} {GREATEST} {LEAST} -> meets 1
        edge {LEAST} {GREATEST} -1 0 -> meets 2
        edge 0 0 0 0 -> meets 1
    """,
    ),
    (
        "signs and zeros",
        """
        edge +0 -0 010 -5 -> meets
        edge 0 0 0 0 -> meets 1
    """,
    ),
)

# Lines that are faulty.
FAULTY = (
    *("edge 0 0 1", "edge 0 0 1 1 1", "edge 0 0 1 x", "edge", "Edge 0 0 1 1", "edges 0 0 1 1"),
    *("edge 0 0 1 2147483648", "edge -2147483649 0 1 1", "segment 0 5 1", "point 0 0", "clear", "insert 0 1 2 3"),
)

# Edges of a cell of 20 by 20, which no edge of another cell reaches.
CELL = ((0, 0, 18, 18), (0, 18, 18, 0), (9, 0, 9, 9), (0, 5, 4, 5), (18, 1, 18, 17))


def common_shares(one, other):
    """Whether some share of the one edge is at some share of the other: one of the places where two of the lines meet that
    say so, in the square of all shares, has to be one."""
    (x0, y0, x1, y1), (z0, w0, z1, w1) = one, other
    said = [(x1 - x0, z0 - z1, z0 - x0), (y1 - y0, w0 - w1, w0 - y0)]
    sides = [(1, 0, 0), (1, 0, 1), (0, 1, 0), (0, 1, 1)]
    for (a, b, c), (d, e, f) in combinations(said + sides, 2):
        # The shares are s / apart and t / apart.
        apart, s, t = a * e - b * d, c * e - b * f, a * f - c * d
        if apart < 0:
            apart, s, t = -apart, -s, -t
        is_share = apart and 0 <= s <= apart and 0 <= t <= apart
        if is_share and all(u * s + v * t == w * apart for u, v, w in said):
            return True
    return False


def near_grid(random):
    """A number by chance: next to one of a wide grid, next to an end of the range, or any."""
    grid = random.randrange(-8, 9) << 28
    near = random.choice((LEAST, GREATEST, grid, grid, grid, random.randint(LEAST, GREATEST)))
    return min(max(LEAST, near + random.randrange(-1, 2)), GREATEST)


def numbers_by_chance(random, bounds):
    """What gives numbers by chance, with a name: up to each of these bounds, and near a wide grid."""
    yield from ((f"up to {bound}", partial(random.randint, -bound, bound)) for bound in bounds)
    yield "near a grid", partial(near_grid, random)


def met(edges, numbers):
    """The replies to edges that stand on the lines of these numbers."""
    for place, edge in enumerate(edges):
        told = (number for other, number in zip(edges[:place], numbers) if common_shares(other, edge))
        yield " ".join(["meets", *map(str, told)])


def told(name, given, edges, numbers):
    """The case of these edges, which stand on the lines of these numbers."""
    return answered(name, "meetings", given, lines(*met(edges, numbers)))


def line_of(edge):
    return f"edge {' '.join(map(str, edge))}"


def worked():
    """Cases of the rows."""
    for name, said in ANSWERED:
        given, replies = dialogue(said)
        yield answered(name, "meetings", given, replies)
        yield answered(f"{name}, through a pipe", "meetings", given, replies, by_pipe)
    for text in FAULTY:
        yield refused(f"the line '{text}'", "meetings", lines("edge 0 0 1 1", "", text, "nonsense"), 3)


def odd_texts():
    """Cases of texts by chance, some of them spoilt."""
    for text in texts_by_chance(FORMS):
        said, name = read(text, FORMS), f"by chance, {text!r}"
        if isinstance(said, int):
            yield refused(name, "meetings", text, said)
        else:
            edges = [tuple(map(int, line.split()[1:])) for _, line in said]
            yield told(name, text, edges, [number for number, _ in said])


def by_chance():
    """Cases of edges by chance, over small coordinates, over all, and near a wide grid."""
    random = Random(SEED)
    for where, number in numbers_by_chance(random, (1, 2, 4, 9, 30, GREATEST)):
        for turn in range(10):
            edges = [tuple(number() for _ in range(4)) for _ in range(40)]
            given = lines(*map(line_of, edges))
            yield told(f"edges {where}, {turn}", given, edges, range(1, 41))


# Sets of edges that go to the right and down: how many, how far right and down, from how many heights, and how many of them are
# a crowd that begins near one point, at the left and low. More of the one are live at once than a list takes, and then few
# again. Of the other only the lowest of many strips has more than a list takes.
CROWDS = (("one strip", 120, 900, 900, 1000, 60), ("many strips", 700, 900, 4, 2000, 90))


def crowds():
    """Cases of such sets."""
    random = Random(SEED)
    for where, count, width, height, heights, crowd in CROWDS:
        edges = []
        for place in range(count):
            far, high = (40, 40) if place < crowd else (4000, heights)
            x, y = random.randrange(far), random.randrange(high)
            edges.append((x, y, x + random.randrange(width), y - random.randrange(height)))
        yield told(f"a crowd in {where}", lines(*map(line_of, edges)), edges, range(1, count + 1))


def in_cells(count):
    """So many edges in cells of their own, in an order by chance, and their replies."""
    meet = {(a, b) for a in range(len(CELL)) for b in range(len(CELL)) if common_shares(CELL[a], CELL[b])}
    items = [(cell, kind) for cell in range(count // len(CELL)) for kind in range(len(CELL))]
    Random(SEED).shuffle(items)
    said, served, earlier = [], [], {}
    for number, (cell, kind) in enumerate(items, 1):
        x, y = cell % 1000 * 20, cell // 1000 * 20
        x0, y0, x1, y1 = CELL[kind]
        said.append(line_of((x + x0, y + y0, x + x1, y + y1)))
        others = earlier.setdefault(cell, [])
        told = (other for other, its_kind in others if (its_kind, kind) in meet)
        served.append(" ".join(["meets", *map(str, told)]))
        others.append((number, kind))
    return lines(*said), lines(*served)


def many(count=MANY):
    """The case of a million edges."""
    given, replies = in_cells(count)
    yield answered(f"{count} edges in cells", "meetings", given, replies)


PARTS = worked, odd_texts, by_chance, crowds, many, *(partial(part, [PLAIN]) for part in (empty_texts, line_numbers))
