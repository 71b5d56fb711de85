"""The mode `overlay` of polygons that are valid already: no two edges cross at a point with fractions, so that none is moved.

A polygon comes back as it is, but for points on straight lines, and for where its rings begin. Triangles on a small grid are
among them, of which one in eight has a side within half a unit of its third corner. A coverage, whose faces meet along common
borders, is exact at each point, whichever of its faces are taken together.
"""

from functools import partial
from itertools import chain, combinations
from math import cos, pi, sin
from random import Random

from drawings import Drawing, line_of, said_by
from many import SEED
from overlays import MODES, TOGETHER, in_order, looked_at, turned
from processes import Looked, answered, lines
from windings import HALF, PARTS as IN_ONE, are_crossing, chain_problems, double_area, edges_of, problems

MODE = "overlay union evenodd"

# Triangles by chance: how far they go, and how many there are.
TRIANGLES = (10, 9_000), (30, 3_000), (1_000, 3_000)

# Polygons by chance, each a ring around a point with a hole: how far they go, and how many there are.
AROUND = (9, 1_000), (25, 1_000), (200, 1_000)

# Coverages of so many columns and rows of faces: each face is so wide, and its corners are moved by so much at most.
WIDE, ASIDE = 6, 2
COVERAGES = 2_000
POINTS = 40


def without_straight_points(ring):
    """The ring without points between those beside them on one line."""
    beside = zip(ring[-1:] + ring[:-1], ring, ring[1:] + ring[:1])
    return [at for (x0, y0), at, (x2, y2) in beside if (at[0] - x0) * (y2 - at[1]) != (at[1] - y0) * (x2 - at[0])]


def as_given(rings):
    """The rings of one polygon as they are to come out: the outer one counterclockwise, the holes clockwise."""
    outer, *holes = (without_straight_points(ring if double_area(ring) > 0 else ring[::-1]) for ring in rings)
    return [line_of("polygon", turned(outer)), *(line_of("hole", turned(hole[::-1])) for hole in holes)]


def moved(rings, aside):
    return [[(x + aside, y) for x, y in ring] for ring in rings]


def come_back(name, random, polygons, step):
    """Cases of polygons side by side, many in a text, each of which comes back."""
    for at in range(0, len(polygons), TOGETHER):
        some = [moved(rings, place * step) for place, rings in enumerate(polygons[at : at + TOGETHER])]
        given = [line_of("subject", ring[:: random.choice((1, -1))]) for ring in chain(*some)]
        random.shuffle(given)
        wanted = in_order(lines(*chain(*map(as_given, some))))
        yield answered(f"{len(some)} {name}", MODE, lines(*given), wanted, Looked(in_order))


def triangle(random, bound):
    """A triangle that isn't flat."""
    while True:
        ring = [(random.randint(0, bound), random.randint(0, bound)) for _ in range(3)]
        if double_area(ring):
            return [ring]


def ring_around(random, middle, least, most):
    """A ring around a point, as its angles rise."""
    turns = sorted(random.random() for _ in range(random.randrange(3, 12)))
    fars = [random.uniform(least, most) for _ in turns]
    return [
        (middle + round(far * cos(2 * pi * turn)), middle + round(far * sin(2 * pi * turn))) for turn, far in zip(turns, fars)
    ]


def is_valid(rings):
    """Whether no ring visits a point twice, and no two edges share more than an end that follows another."""
    points, edges = [*chain(*rings)], edges_of(rings)
    if len(set(points)) < len(points) or any(not double_area(ring) for ring in rings):
        return False
    return not any(are_crossing(one, other) or touch(one, other) for one, other in combinations(edges, 2))


def touch(one, other):
    """Whether an end of the one lies on the other, between its ends."""
    return any(is_between(end, other) for end in (one[:2], one[2:])) or any(
        is_between(end, one) for end in (other[:2], other[2:])
    )


def is_between(point, edge):
    (x, y), (x0, y0, x1, y1) = point, edge
    on_line = (x - x0) * (y1 - y0) == (y - y0) * (x1 - x0)
    return on_line and point not in (edge[:2], edge[2:]) and min(x0, x1) <= x <= max(x0, x1) and min(y0, y1) <= y <= max(y0, y1)


def polygon_around(random, bound):
    """A valid polygon around a point, with a hole around it mostly."""
    while True:
        outer = ring_around(random, bound, bound / 2, bound)
        hole = ring_around(random, bound, bound / 6, bound / 2)
        rings = [outer, hole] if random.randrange(4) else [outer]
        middle = [(bound * IN_ONE + 1, bound * IN_ONE + 1)]
        if is_valid(rings) and goes_round(outer, middle + [(x * IN_ONE, y * IN_ONE) for x, y in hole]):
            return rings


def goes_round(ring, points):
    """Whether a ring goes round each of these points, in parts."""
    edges = edges_of([ring], IN_ONE)
    return all(goes_round_one(edges, point) for point in points)


def goes_round_one(edges, point):
    """Whether a ray upwards from the point crosses the ring an odd number of times, and the point is on no edge."""
    x, y = point
    above = [edge for edge in edges if min(edge[0], edge[2]) <= x < max(edge[0], edge[2])]
    heights = [(edge[2] - edge[0]) * (y - edge[1]) - (edge[3] - edge[1]) * (x - edge[0]) for edge in above]
    sides = [height * (1 if edge[0] < edge[2] else -1) for edge, height in zip(above, heights)]
    return 0 not in sides and sum(side < 0 for side in sides) % 2 == 1


def triangles(bound, count):
    random = Random(SEED + bound)
    return come_back(f"triangles to {bound}", random, [triangle(random, bound) for _ in range(count)], bound + 3)


def polygons(bound, count):
    random = Random(SEED + bound)
    return come_back(f"polygons to {bound}", random, [polygon_around(random, bound) for _ in range(count)], 2 * bound + 3)


def faces(random):
    """The faces of a coverage: columns and rows of faces, whose common corners are moved by chance."""
    columns, rows = random.randrange(1, 4), random.randrange(1, 4)
    corners = {
        (column, row): (WIDE * column + random.randint(-ASIDE, ASIDE), WIDE * row + random.randint(-ASIDE, ASIDE))
        for column in range(columns + 1)
        for row in range(rows + 1)
    }
    for column in range(columns):
        for row in range(rows):
            at = (column, row), (column + 1, row), (column + 1, row + 1), (column, row + 1)
            yield [corners[corner] for corner in at]


def coverages(seed, count):
    """Cases of coverages: some of the faces are the subject and some the clip, others both."""
    random = Random(seed)
    for _ in range(count):
        all_faces = [*faces(random)]
        drawing = Drawing(*([face for face in all_faces if random.randrange(3)] for _ in range(2)))
        far = 4 * WIDE * IN_ONE
        points = [(random.randint(-IN_ONE, far), random.randint(-IN_ONE, far)) for _ in range(POINTS)]
        mode, given = random.choice(MODES), lines(*said_by(random, drawing))
        yield looked_at(f"{mode}: a coverage, {given!r}", mode, given, [(drawing, points)])


# ---- wrong answers

SLANTED = [(0, 0), (6, 0), (6, 6)]
BAR = [(20, 0), (40, 0), (40, 1), (20, 1)]
NARROW = [(2, 0), (2, 2), (0, 7)]
SQUARES = [(8, 0), (11, 0), (11, 3), (8, 3)], [(12, 0), (15, 0), (15, 3), (12, 3)]

# Rings that are simplified, and polygons that are no answer to it.
WRONG = (
    ("a bar left out beside a slanted triangle", [SLANTED, BAR], [[SLANTED]]),
    ("two squares a unit apart as one", [SLANTED, *SQUARES], [[SLANTED], [[(8, 0), (15, 0), (15, 3), (8, 3)]]]),
    ("teeth along a long side", [SLANTED], [[[(0, 0), (6, 0), (6, 6), (5, 4), (4, 4), (3, 2), (2, 2)]]]),
    ("a far corner moved by a unit", [SLANTED], [[[(0, 0), (6, 0), (6, 5)]]]),
    ("a ring of one point", [SLANTED], [[SLANTED], [[(9, 9)]]]),
    ("a ring of one point as a hole", [SLANTED], [[SLANTED, [(4, 2)]]]),
    ("an outline turned round", [SLANTED], [[SLANTED[::-1]]]),
    ("a triangle that is gone, as its side comes near to its corner", [NARROW], []),
    ("an edge moved that nothing moves", [NARROW, BAR], [[[(2, 0), (2, 2), (1, 4), (0, 7)]], [BAR]]),
)


def wrong_told(rings, polygons):
    """What is told of polygons, at points all over the rings."""
    drawing = Drawing(rings, [])
    far = max(x for ring in rings for x, _ in ring) + 1
    points = [(x, y) for x in range(-HALF, far * IN_ONE, HALF // 2) for y in range(-HALF, 8 * IN_ONE, HALF // 2)]
    asked = drawing, polygons, "evenodd", "union", points
    return next(chain(problems(*asked), chain_problems(*asked)), None)


def wrong_answers():
    """No case, but that the looks above tell wrong answers, and no right one."""
    for name, rings, polygons in WRONG:
        if wrong_told(rings, [[ring] for ring in rings]):
            raise ValueError(f"overlay: the answer with no wrong is told: {name}")
        if not wrong_told(rings, polygons):
            raise ValueError(f"overlay: isn't told: {name}")
    return ()


PARTS = (
    wrong_answers,
    *(partial(triangles, *row) for row in TRIANGLES),
    *(partial(polygons, *row) for row in AROUND),
    *(partial(coverages, seed, COVERAGES // 4) for seed in range(4)),
)
