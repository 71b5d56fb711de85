"""The mode `snap`: worked examples, faulty lines, and edges by chance beside clipping with fractions."""

from functools import partial
from itertools import combinations
from random import Random

import refusals
import streams
from chains import are_apart, chains, closed_chains, ends, meeting, own_chains, passage, rounded
from many import MANY, SEED
from meetings import line_of, near_grid, numbers_by_chance
from odd import read, texts_by_chance
from processes import answered, by_pipe, dialogue, lines, refused
from text import empty_texts, line_numbers, plain_lines

LEAST, GREATEST = -2147483648, 2147483647

# The mode with a line and its reply.
PLAIN = "snap", b"edge 0 0 1 1", b"chain 0 0 1 1\n"

# The command, with how many numbers it has.
FORMS = {b"edge": 4}

ANSWERED = (
    ("nothing at all", ""),
    ("one alone", "edge 3 1 -4 1 -> chain 3 1 -4 1"),
    (
        "two through a whole point",
        """
        edge 0 0 10 10 -> chain 0 0 5 5 10 10
        edge 0 10 10 0 -> chain 0 10 5 5 10 0
    """,
    ),
    (
        "two through halves, which go up",
        """
        edge 0 0 3 1 -> chain 0 0 2 1 3 1
        edge 0 1 3 0 -> chain 0 1 2 1 3 0
    """,
    ),
    (
        "two through halves below zero",
        """
        edge 0 0 -3 -1 -> chain 0 0 -1 0 -3 -1
        edge 0 -1 -3 0 -> chain 0 -1 -1 0 -3 0
    """,
    ),
    (
        "two through the middle of a square",
        """
        edge 0 0 1 1 -> chain 0 0 1 1
        edge 0 1 1 0 -> chain 0 1 1 1 1 0
    """,
    ),
    (
        "two through the middle of a square below zero",
        """
        edge 0 0 -1 -1 -> chain 0 0 -1 -1
        edge -1 0 0 -1 -> chain -1 0 0 0 0 -1
    """,
    ),
    (
        "an upright one, and one at a half that goes up",
        """
        edge 0 0 2 1 -> chain 0 0 1 1 2 1
        edge 1 -2 1 2 -> chain 1 -2 1 1 1 2
    """,
    ),
    (
        "an upright one, and one at a half below zero",
        """
        edge 0 0 2 -1 -> chain 0 0 1 0 2 -1
        edge 1 -2 1 2 -> chain 1 -2 1 0 1 2
    """,
    ),
    (
        "a level one, and one at a half that goes right",
        """
        edge 0 0 1 2 -> chain 0 0 1 1 1 2
        edge -2 1 2 1 -> chain -2 1 1 1 2 1
    """,
    ),
    (
        "a level one, and one at a half below zero",
        """
        edge 0 0 -1 2 -> chain 0 0 0 1 -1 2
        edge -2 1 2 1 -> chain -2 1 0 1 2 1
    """,
    ),
    (
        "points under and over a flat one",
        """
        edge 0 0 100 1 -> chain 0 0 49 0 50 0 50 1 100 1
        edge 49 0 49 0 -> chain 49 0
        edge 50 0 50 0 -> chain 50 0
        edge 50 1 50 1 -> chain 50 1
        edge 49 1 49 1 -> chain 49 1
        edge 51 0 51 0 -> chain 51 0
    """,
    ),
    (
        "points left and right of a steep one, up and down",
        """
        edge 0 0 1 10 -> chain 0 0 0 3 0 5 1 5 1 6 1 10
        edge 1 10 0 0 -> chain 1 10 1 6 1 5 0 5 0 3 0 0
        edge 0 3 0 3 -> chain 0 3
        edge 0 5 0 5 -> chain 0 5
        edge 1 5 1 5 -> chain 1 5
        edge 1 6 1 6 -> chain 1 6
        edge 0 6 0 6 -> chain 0 6
        edge 1 4 1 4 -> chain 1 4
    """,
    ),
    (
        "points left and right of a steep one that falls",
        """
        edge 0 10 1 0 -> chain 0 10 0 5 1 5 1 0
        edge 1 0 0 10 -> chain 1 0 1 5 0 5 0 10
        edge 0 5 0 5 -> chain 0 5
        edge 1 5 1 5 -> chain 1 5
        edge 0 4 0 4 -> chain 0 4
        edge 1 6 1 6 -> chain 1 6
    """,
    ),
    (
        "equal ones, and one turned round",
        """
        edge 0 0 4 2 -> chain 0 0 4 2
        edge 0 0 4 2 -> chain 0 0 4 2
        edge 4 2 0 0 -> chain 4 2 0 0
    """,
    ),
    (
        "one within another along one line",
        """
        edge 0 0 4 4 -> chain 0 0 1 1 3 3 4 4
        edge 3 3 1 1 -> chain 3 3 1 1
    """,
    ),
    (
        "one over the end of another along one line",
        """
        edge 0 0 6 3 -> chain 0 0 2 1 6 3
        edge 2 1 8 4 -> chain 2 1 6 3 8 4
    """,
    ),
    (
        "two side by side, and one across",
        """
        edge 0 0 5 1 -> chain 0 0 1 0 2 0 3 1 4 1 5 1
        edge 1 0 6 1 -> chain 1 0 2 0 3 0 4 1 5 1 6 1
        edge 2 0 4 1 -> chain 2 0 3 0 3 1 4 1
    """,
    ),
    (
        "three through a whole point",
        """
        edge -2 -2 2 2 -> chain -2 -2 0 0 2 2
        edge -2 2 2 -2 -> chain -2 2 0 0 2 -2
        edge 0 -3 0 3 -> chain 0 -3 0 0 0 3
    """,
    ),
    (
        "three through halves",
        """
        edge 0 0 3 1 -> chain 0 0 1 0 2 1 3 1
        edge 0 1 3 0 -> chain 0 1 2 1 3 0
        edge 1 0 2 1 -> chain 1 0 2 1
    """,
    ),
    (
        "one close to where two others meet",
        """
        edge 0 0 7 7 -> chain 0 0 3 3 4 4 7 7
        edge 0 7 7 0 -> chain 0 7 4 4 4 3 7 0
        edge 2 3 8 4 -> chain 2 3 3 3 4 3 8 4
    """,
    ),
    (
        "an upright one through a sloped one, up and down",
        """
        edge 0 0 5 2 -> chain 0 0 2 1 5 2
        edge 2 -3 2 3 -> chain 2 -3 2 1 2 3
        edge 2 3 2 -3 -> chain 2 3 2 1 2 -3
    """,
    ),
    (
        "a level one through an upright one",
        """
        edge 9 1 -9 1 -> chain 9 1 2 1 -9 1
        edge 2 5 2 -5 -> chain 2 5 2 1 2 -5
    """,
    ),
    (
        "upright ones on one line, and points",
        """
        edge 3 0 3 4 -> chain 3 0 3 2 3 3 3 4
        edge 3 6 3 2 -> chain 3 6 3 4 3 3 3 2
        edge 3 3 3 3 -> chain 3 3
        edge 3 7 3 7 -> chain 3 7
        edge 2 3 2 3 -> chain 2 3
    """,
    ),
    (
        "one of one point on another",
        """
        edge 0 0 10 5 -> chain 0 0 4 2 10 5
        edge 4 2 4 2 -> chain 4 2
    """,
    ),
    (
        "one of one point twice",
        """
        edge 7 -7 7 -7 -> chain 7 -7
        edge 7 -7 7 -7 -> chain 7 -7
    """,
    ),
    (
        "an end on another",
        """
        edge 0 0 4 0 -> chain 0 0 2 0 4 0
        edge 2 0 2 3 -> chain 2 0 2 3
    """,
    ),
    (
        "corner to corner",
        f"""
        edge {LEAST} {LEAST} {GREATEST} {GREATEST} -> chain {LEAST} {LEAST} 0 0 {GREATEST} {GREATEST}
        edge {LEAST} {GREATEST} {GREATEST} {LEAST} -> chain {LEAST} {GREATEST} 0 0 {GREATEST} {LEAST}
    """,
    ),
    (
        "corner to corner, leftwards",
        f"""
        edge {GREATEST} {GREATEST} {LEAST} {LEAST} -> chain {GREATEST} {GREATEST} 0 0 -1 -1 {LEAST} {LEAST}
        edge {GREATEST} {LEAST} {LEAST} {GREATEST} -> chain {GREATEST} {LEAST} 0 0 {LEAST} {GREATEST}
        edge -1 -1 -1 -1 -> chain -1 -1
    """,
    ),
    (
        "along the border of all",
        f"""
        edge {LEAST} {LEAST} {GREATEST} {LEAST} -> chain {LEAST} {LEAST} 0 {LEAST} {GREATEST} {LEAST}
        edge {GREATEST} {LEAST} {GREATEST} {GREATEST} -> chain {GREATEST} {LEAST} {GREATEST} 0 {GREATEST} {GREATEST}
        edge 0 {LEAST} {GREATEST} 0 -> chain 0 {LEAST} {GREATEST} 0
    """,
    ),
    (
        "points beside one from end to end",
        f"""
        edge {LEAST} 0 {GREATEST} 1 -> chain {LEAST} 0 -1 0 0 1 {GREATEST} 1
        edge -1 0 -1 0 -> chain -1 0
        edge -1 1 -1 1 -> chain -1 1
        edge 0 0 0 0 -> chain 0 0
        edge 0 1 0 1 -> chain 0 1
    """,
    ),
    (
        "points beside one that is all but a diagonal",
        f"""
        edge {LEAST} {LEAST} {GREATEST} {GREATEST - 1} -> chain {LEAST} {LEAST} 0 -1 0 0 1 1 {GREATEST} {GREATEST - 1}
        edge 0 -1 0 -1 -> chain 0 -1
        edge 0 0 0 0 -> chain 0 0
        edge 1 1 1 1 -> chain 1 1
        edge 0 1 0 1 -> chain 0 1
        edge 1 -1 1 -1 -> chain 1 -1
    """,
    ),
    (
        "leftwards and downwards",
        """
        edge 10 10 0 0 -> chain 10 10 5 5 0 0
        edge 10 0 0 10 -> chain 10 0 5 5 0 10
    """,
    ),
    (
        "blank lines",
        """

        edge 0 0 4 0 -> chain 0 0 2 0 4 0

        edge 2 0 2 3 -> chain 2 0 2 3
    """,
    ),
    (
        "signs and zeros",
        """
        edge +0 -0 010 -5 -> chain 0 0 10 -5
    """,
    ),
)

# Edges that meet the square of 0 0 in a corner alone or pass close by it, and whether the square takes a point of them.
CORNERS = (
    ("through the lower left corner", True, ((-1, 0, 0, -1), (-2, 0, 1, -1), (-1, 1, 0, -2), (-3, 2, 2, -3))),
    ("through the lower right corner", False, ((0, -1, 1, 0), (-1, -1, 2, 0), (0, -2, 1, 1), (-2, -3, 3, 2))),
    ("through the upper left corner", False, ((-1, 0, 0, 1), (-2, 0, 1, 1), (-1, -1, 0, 2), (-3, -2, 2, 3))),
    ("through the upper right corner", False, ((0, 1, 1, 0), (-1, 1, 2, 0), (0, 2, 1, -1), (-2, 3, 3, -2))),
    ("just inside a corner", True, ((0, -1, -100, 100), (0, -1, 100, 100), (-1, 0, 100, 100), (0, 1, 100, -100))),
    ("just outside a corner", False, ((0, -1, -100, 98), (0, -1, 100, 98), (-1, 0, 98, 100), (0, 1, 100, -98))),
)

# Lines that are faulty.
FAULTY = (
    *("edge 0 0 1", "edge 0 0 1 1 1", "edge 0 0 1 x", "edge", "Edge 0 0 1 1", "edges 0 0 1 1", "chain 0 0 1 1"),
    *("edge 0 0 1 2147483648", "edge -2147483649 0 1 1", "segment 0 5 1", "point 0 0", "clear", "insert 0 1 2 3"),
)

# A run for memory that is refused.
RUN = (
    "snap",
    ("edge 0 0 9 9", "edge 0 9 9 0", "edge 0 5 9 5", "edge 5 0 5 9", "edge 20 0 20 5"),
    ("chain 0 0 5 5 9 9", "chain 0 9 4 5 5 5 5 4 9 0", "chain 0 5 4 5 5 5 9 5", "chain 5 0 5 4 5 5 5 9", "chain 20 0 20 5"),
)

# Edges of a cell of 20 by 20, which no edge of another cell reaches.
CELL = ((0, 0, 18, 11), (18, 2, 0, 18), (9, 0, 9, 9), (0, 5, 18, 6), (7, 4, 7, 4))

# Rings of which many copies stand together. The first two cross at points with fractions.
SQUARE, TURNED = ((0, 0), (9, 0), (9, 9), (0, 9)), ((4, -3), (13, 5), (5, 12), (-3, 4))
TRIANGLE = (0, 0), (7, 2), (3, 9)

# So many sets stand in a text where they are kept apart.
TOGETHER = 500


def near(random, bound):
    return random.randint(-bound, bound), random.randint(-bound, bound)


def along(random):
    return near_grid(random), random.randint(-4, 4)


def upwards(random):
    return along(random)[::-1]


def sloped(random, sign):
    """A point close to a diagonal."""
    x, aside = along(random)
    return x, min(max(LEAST, (x if sign > 0 else -1 - x) + aside), GREATEST)


def anywhere(random):
    return near_grid(random), near_grid(random)


# Points by chance, how far each set of edges between them lies from the one before, or None where each has a text of its own,
# how many sets a part has, and how many parts there are.
KINDS = (
    ("up to 4", partial(near, bound=4), (20, 0), 2_000, 4),
    ("up to 20", partial(near, bound=20), (60, 0), 1_875, 4),
    ("up to 4, each alone", partial(near, bound=4), None, 500, 1),
    ("from end to end, flat", along, (0, 20), 1_500, 1),
    ("from end to end, steep", upwards, (20, 0), 1_500, 1),
    ("along a diagonal", partial(sloped, sign=1), None, 350, 1),
    ("along the other diagonal", partial(sloped, sign=-1), None, 350, 1),
    ("near a grid", anywhere, None, 300, 1),
)


def reply(points):
    return " ".join(["chain", *(f"{x} {y}" for x, y in points)])


def replies(edges):
    return lines(*map(reply, chains(edges)))


def snapped(name, given, edges):
    """The case of these edges, which these lines say."""
    return answered(name, "snap", given, replies(edges))


def worked():
    """Cases of the rows."""
    for name, said in ANSWERED:
        given, served = dialogue(said)
        yield answered(name, "snap", given, served)
        yield answered(f"{name}, through a pipe", "snap", given, served, by_pipe)
    for name, is_taken, edges in CORNERS:
        for x0, y0, x1, y1 in (*edges, *(edge[2:] + edge[:2] for edge in edges)):
            between = " 0 0" if is_taken else ""
            given, served = dialogue(
                f"""
                edge 0 0 0 0 -> chain 0 0
                edge {x0} {y0} {x1} {y1} -> chain {x0} {y0}{between} {x1} {y1}
            """
            )
            yield answered(f"{name}, from {x0} {y0} to {x1} {y1}", "snap", given, served)
    for text in FAULTY:
        yield refused(f"the line '{text}'", "snap", lines("edge 0 0 1 1", "", text, "nonsense"), 3)


def rows_by_model():
    """The cases of the rows again, by the model."""
    for name, said in ANSWERED:
        given, _ = dialogue(said)
        edges = [tuple(map(int, line.split()[1:])) for line in given.decode().splitlines() if line]
        yield snapped(f"{name}, by the model", given, edges)


def odd_texts():
    """Cases of texts by chance, some of them spoilt."""
    for text in texts_by_chance(FORMS):
        said, name = read(text, FORMS), f"by chance, {text!r}"
        if isinstance(said, int):
            yield refused(name, "snap", text, said)
        else:
            yield snapped(name, text, [tuple(map(int, line.split()[1:])) for _, line in said])


def some_edges(random, point):
    """1 to 12 edges. Some go on where another ends or begins, or are upright, level, points or another turned round."""
    edges = [point() + point()]
    for _ in range(random.randrange(12)):
        one, other, edge = point(), point(), random.choice(edges)
        joined = (edge[2:] + one, one + edge[:2], edge[2:] + edge[:2])
        straight = (one + (one[0], other[1]), one + (other[0], one[1]), one + one)
        edges.append(random.choice((one + other,) * 6 + joined + straight))
    return edges


def moved(item, step, times):
    """The edge or the point, so often so far away."""
    return tuple(number + step[at % 2] * times for at, number in enumerate(item))


def chains_apart(edges):
    """The chain of each edge, whose pieces meet in common ends alone."""
    found = chains(edges)
    if not are_apart(found):
        raise ValueError(f"snap: pieces of {edges} meet elsewhere than in common ends")
    return found


def in_one_text(mode, chains_of, name, sets, step):
    """The case of these sets in one text, each so far from the one before."""
    said, served = [], []
    for place, edges in enumerate(sets):
        said += [line_of(moved(edge, step, place)) for edge in edges]
        served += [reply(moved(point, step, place) for point in points) for points in chains_of(edges)]
    return answered(name, mode, lines(*said), lines(*served))


def by_chance(mode, chains_of, where, point, step, count, seed):
    """Cases of sets of edges by chance, and of their chains."""
    random = Random(seed)
    sets = [some_edges(random, partial(point, random)) for _ in range(count)]
    together = TOGETHER if step else 1
    for at in range(0, count, together):
        name = f"sets of edges {where} by chance, {seed}, from {at} on"
        yield in_one_text(mode, chains_of, name, sets[at : at + together], step or (0, 0))


def wrong_rules(count=400):
    """No case, but that the looks above tell chains by wrong rules."""
    random = Random(SEED)
    sets = [some_edges(random, partial(near, random, 4)) for _ in range(count)]
    found = [chains(edges) for edges in sets]
    own, closed = ([rule(edges) for edges in sets] for rule in (own_chains, closed_chains))
    for rule, wrong in (("own crossings", own), ("closed squares", closed)):
        if sum(map(list.__ne__, wrong, found)) < count // 20:
            raise ValueError(f"snap: {rule} are told seldom")
    if all(map(are_apart, own)):
        raise ValueError("snap: pieces by own crossings alone don't meet")
    return ()


def crowds():
    """Cases of more edges by chance, over small coordinates, over all, and near a wide grid."""
    random = Random(SEED)
    for where, number in numbers_by_chance(random, (2, 9, 30, GREATEST)):
        for turn in range(3):
            edges = [tuple(number() for _ in range(4)) for _ in range(30)]
            yield snapped(f"30 edges {where}, {turn}", lines(*map(line_of, edges)), edges)


def pencil(random, middle):
    """An edge from far to far that passes close by the middle."""
    x, y = random.randint(-1_000, 1_000), random.randint(-1_000, 1_000)
    there, here = random.randint(20, 2_000), -random.randint(20, 2_000)
    ends = (middle[at % 2] + way * (here, there)[at // 2] + random.randint(-1, 1) for at, way in enumerate((x, y, x, y)))
    return tuple(ends)


def is_closed(edges):
    """Whether some edge from an end of the one to an end of the other of two that cross would pass what they round to."""
    for one, other in combinations(edges, 2):
        point = meeting(one, other)
        if point and any(passage(start + end, rounded(point)) for start in ends(one) for end in ends(other)):
            return True
    return False


def pencils(mode, chains_of, count=16):
    """Cases of edges that pass close by one of three points, so that others pass most of what two cross at. Hardly one leads
    from an end of one of two that cross to an end of the other: so the pairs that come close tell all."""
    random = Random(SEED)
    closed = 0
    for turn in range(count):
        middles = [near(random, random.choice((3, 60_000))) for _ in range(3)]
        edges = [pencil(random, middle) for middle in middles for _ in range(random.randint(8, 12))]
        closed += is_closed(edges)
        yield answered(
            f"edges close by three points, {turn}", mode, lines(*map(line_of, edges)), lines(*map(reply, chains_of(edges)))
        )
    if closed > count // 2:
        raise ValueError("snap: of edges close by three points most are closed")


def round_of(ring):
    return [one + other for one, other in zip(ring, ring[1:] + ring[:1])]


def copied():
    """Names and lists of edges that stand there many times: such edges are noded once."""
    random = Random(SEED)
    square, turned, triangle = map(round_of, (SQUARE, TURNED, TRIANGLE))
    back = [edge[2:] + edge[:2] for edge in triangle]
    mixed = [near(random, 15) + near(random, 15) for _ in range(40)]
    mixed += mixed[:4] * 60
    random.shuffle(mixed)
    yield "a square, 16 times", square * 16
    yield "a square, 100 times", square * 100
    yield "two squares that cross, 40 times", (square + turned) * 40
    yield "a triangle there and back, 60 times", (triangle + back) * 60
    yield "some edges 61 times among others", mixed


def copies(mode, chains_of):
    """The cases of these."""
    for name, edges in copied():
        yield answered(name, mode, lines(*map(line_of, edges)), lines(*map(reply, chains_of(edges))))


def in_cells(count):
    """So many edges in cells of their own, in an order by chance, and their replies."""
    found = chains(CELL)
    items = [(cell, kind) for cell in range(count // len(CELL)) for kind in range(len(CELL))]
    Random(SEED).shuffle(items)
    said, served = [], []
    for cell, kind in items:
        corner = cell % 1000 * 20, cell // 1000 * 20
        said.append(line_of(moved(CELL[kind], corner, 1)))
        served.append(reply(moved(point, corner, 1) for point in found[kind]))
    return lines(*said), lines(*served)


def many(count=MANY // 4):
    """The case of many edges."""
    yield answered(f"{count} edges in cells", "snap", *in_cells(count))


def memory():
    """Cases of memory that is refused, and of reads and writes that fail."""
    of_run, of_streams = partial(refusals.of_others, rows=[RUN]), partial(refusals.of_streams, rows=[PLAIN])
    return refusals.all_cases((of_run, of_streams))


PARTS = (
    *(
        worked,
        rows_by_model,
        odd_texts,
        wrong_rules,
        crowds,
        partial(copies, "snap", chains_apart),
        partial(pencils, "snap", chains_apart),
        many,
        memory,
    ),
    *(partial(part, [PLAIN]) for part in (empty_texts, plain_lines, line_numbers, streams.each_mode)),
    *(partial(by_chance, "snap", chains_apart, *kind[:4], seed) for kind in KINDS for seed in range(kind[4])),
)
