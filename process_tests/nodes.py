"""The mode `node`: worked examples, faulty lines, and edges by chance beside its definition with fractions."""

from functools import partial
from random import Random

import refusals
import snaps
import streams
from chains import chains
from many import MANY, SEED
from meetings import line_of, numbers_by_chance
from local_noding import edges_by_chance, hot_first, is_on, moved_by, noded, problem
from processes import answered, by_pipe, dialogue, lines, refused
from snaps import GREATEST, LEAST, along, anywhere, by_chance, in_one_text, moved, near, reply, sloped, some_edges, upwards
from text import empty_texts, line_numbers, plain_lines

# The mode with a line and its reply.
PLAIN = "node", b"edge 0 0 1 1", b"chain 0 0 1 1\n"

# As rows of the mode `snap`.
ANSWERED = (
    ("nothing at all", ""),
    ("one alone", "edge 3 1 -4 1 -> chain 3 1 -4 1"),
    (
        "a triangle with a side that passes close by a corner",
        """
        edge 0 7 2 0 -> chain 0 7 2 0
        edge 2 0 2 2 -> chain 2 0 2 2
        edge 2 2 0 7 -> chain 2 2 0 7
    """,
    ),
    (
        "two through a whole point",
        """
        edge 0 0 10 10 -> chain 0 0 5 5 10 10
        edge 0 10 10 0 -> chain 0 10 5 5 10 0
    """,
    ),
    (
        "two through halves, which go up",
        """
        edge 0 0 3 1 -> chain 0 0 2 1 3 1
        edge 0 1 3 0 -> chain 0 1 2 1 3 0
    """,
    ),
    (
        "two through halves, one of which has what they round to",
        """
        edge 0 0 7 7 -> chain 0 0 4 4 7 7
        edge 0 7 7 0 -> chain 0 7 4 4 7 0
    """,
    ),
    (
        "an upright one through a half of one that is moved alone",
        """
        edge 0 0 4 2 -> chain 0 0 1 1 4 2
        edge 1 -3 1 3 -> chain 1 -3 1 1 1 3
    """,
    ),
    (
        "points beside a flat one, which stays",
        """
        edge 0 0 100 1 -> chain 0 0 100 1
        edge 49 0 49 0 -> chain 49 0
        edge 50 0 50 0 -> chain 50 0
        edge 50 1 50 1 -> chain 50 1
        edge 49 1 49 1 -> chain 49 1
    """,
    ),
    (
        "points beside a flat one that is moved at its end",
        """
        edge 0 0 100 1 -> chain 0 0 1 0 49 0 50 0 50 1 100 1
        edge 49 0 49 0 -> chain 49 0
        edge 50 0 50 0 -> chain 50 0
        edge 50 1 50 1 -> chain 50 1
        edge 49 1 49 1 -> chain 49 1
        edge 1 -1 1 1 -> chain 1 -1 1 0 1 1
    """,
    ),
    (
        "a crossing, and one elsewhere with a point on it and one beside it",
        """
        edge 0 0 3 1 -> chain 0 0 2 1 3 1
        edge 0 1 3 0 -> chain 0 1 2 1 3 0
        edge 10 0 14 2 -> chain 10 0 12 1 14 2
        edge 12 1 12 1 -> chain 12 1
        edge 11 1 11 1 -> chain 11 1
    """,
    ),
    (
        "one that crosses none, and passes what a moved one passes",
        """
        edge 0 0 10 1 -> chain 0 0 2 0 3 0 8 1 9 1 10 1
        edge 0 1 3 0 -> chain 0 1 2 0 3 0
        edge 8 1 8 1 -> chain 8 1
        edge 6 2 9 1 -> chain 6 2 8 1 9 1
        edge 0 5 4 6 -> chain 0 5 4 6
        edge 2 6 2 6 -> chain 2 6
    """,
    ),
    (
        "three of which one has all that it passes",
        """
        edge 0 0 7 7 -> chain 0 0 3 3 4 4 7 7
        edge 0 7 7 0 -> chain 0 7 4 4 4 3 7 0
        edge 2 3 8 4 -> chain 2 3 3 3 4 3 8 4
    """,
    ),
    (
        "one within another along one line",
        """
        edge 0 0 4 4 -> chain 0 0 1 1 3 3 4 4
        edge 3 3 1 1 -> chain 3 3 1 1
    """,
    ),
    (
        "three through a whole point",
        """
        edge -2 -2 2 2 -> chain -2 -2 0 0 2 2
        edge -2 2 2 -2 -> chain -2 2 0 0 2 -2
        edge 0 -3 0 3 -> chain 0 -3 0 0 0 3
    """,
    ),
    (
        "one of one point on another, twice",
        """
        edge 0 0 10 5 -> chain 0 0 4 2 10 5
        edge 4 2 4 2 -> chain 4 2
        edge 4 2 4 2 -> chain 4 2
    """,
    ),
    (
        "an end on another",
        """
        edge 0 0 10 0 -> chain 0 0 3 0 10 0
        edge 3 0 3 5 -> chain 3 0 3 5
        edge 10 0 3 5 -> chain 10 0 3 5
    """,
    ),
    (
        "points beside one from end to end",
        f"""
        edge {LEAST} 0 {GREATEST} 1 -> chain {LEAST} 0 {GREATEST} 1
        edge -1 0 -1 0 -> chain -1 0
        edge 0 1 0 1 -> chain 0 1
    """,
    ),
    (
        "corner to corner, and points on both and beside",
        f"""
        edge {LEAST} {LEAST} {GREATEST} {GREATEST} -> chain {LEAST} {LEAST} -1 -1 0 0 {GREATEST} {GREATEST}
        edge {LEAST} {GREATEST} {GREATEST} {LEAST} -> chain {LEAST} {GREATEST} 0 0 1 -1 {GREATEST} {LEAST}
        edge -1 -1 -1 -1 -> chain -1 -1
        edge 1 -1 1 -1 -> chain 1 -1
    """,
    ),
    (
        "corner to corner, leftwards",
        f"""
        edge {GREATEST} {GREATEST} {LEAST} {LEAST} -> chain {GREATEST} {GREATEST} 0 0 -1 -1 {LEAST} {LEAST}
        edge {GREATEST} {LEAST} {LEAST} {GREATEST} -> chain {GREATEST} {LEAST} 0 0 {LEAST} {GREATEST}
        edge -1 -1 -1 -1 -> chain -1 -1
    """,
    ),
    (
        "blank lines",
        """

        edge 0 0 4 0 -> chain 0 0 2 0 4 0

        edge 2 0 2 3 -> chain 2 0 2 3
    """,
    ),
)

# Lines that are faulty.
FAULTY = "edge 0 0 1", "edge 0 0 1 1 1", "edge 0 0 1 x", "node 0 0 1 1", "edge 0 0 1 2147483648", "point 0 0"

# A run for memory that is refused. The second edge alone is moved, by the first and the two behind it.
RUN = (
    "node",
    ("edge 0 0 9 9", "edge 0 9 9 0", "edge 0 5 9 5", "edge 5 0 5 9", "edge 20 0 20 5"),
    ("chain 0 0 5 5 9 9", "chain 0 9 4 5 5 5 5 4 9 0", "chain 0 5 4 5 5 5 9 5", "chain 5 0 5 4 5 5 5 9", "chain 20 0 20 5"),
)

# Edges of a cell of 20 by 20, which no edge of another cell reaches. The last crosses none, and is moved by what the first
# passes.
CELL = ((0, 0, 10, 1), (0, 1, 3, 0), (8, 1, 8, 1), (6, 2, 9, 1), (0, 5, 4, 6), (2, 6, 2, 6), (7, 7, 9, 0), (9, 1, 12, 3))

# Points by chance, how far each set of edges between them lies from the one before, or None where each has a text of its own,
# how many sets a part has, and how many parts there are.
KINDS = (
    ("up to 4", partial(near, bound=4), (20, 0), 500, 2),
    ("up to 20", partial(near, bound=20), (60, 0), 500, 2),
    ("from end to end, flat", along, (0, 20), 300, 1),
    ("from end to end, steep", upwards, (20, 0), 300, 1),
    ("along a diagonal", partial(sloped, sign=1), None, 100, 1),
    ("along the other diagonal", partial(sloped, sign=-1), None, 100, 1),
    ("near a grid", anywhere, None, 100, 1),
)

# So many texts of rings and lines by chance, and so many sets in each.
TEXTS, SETS = 4, 300


def chains_of(edges):
    """The chain of each edge, by the model, which is as it should be."""
    model = noded(edges)
    wrong = problem(Random(SEED), edges, model)
    if wrong:
        raise ValueError(f"node: {wrong}: {edges}")
    return model[0]


def broken(name, given, edges):
    """The case of these edges, which these lines say."""
    return answered(name, "node", given, lines(*map(reply, chains_of(edges))))


def worked():
    """Cases of the rows."""
    for name, said in ANSWERED:
        given, served = dialogue(said)
        yield answered(name, "node", given, served)
        yield answered(f"{name}, through a pipe", "node", given, served, by_pipe)
    for text in FAULTY:
        yield refused(f"the line '{text}'", "node", lines("edge 0 0 1 1", "", text, "nonsense"), 3)


def rows_by_model():
    """The cases of these rows and of those of `snap`, by the model."""
    for name, said in (*ANSWERED, *snaps.ANSWERED):
        given, _ = dialogue(said)
        edges = [tuple(map(int, line.split()[1:])) for line in given.decode().splitlines() if line]
        yield broken(f"{name}, by the model", given, edges)


def shapes(seed):
    """The case of rings and lines by chance, in one text."""
    random = Random(seed)
    sets = [edges_by_chance(random) for _ in range(SETS)]
    yield in_one_text("node", chains_of, f"rings and lines by chance, {seed}", sets, (100, 0))


def first_round(edges):
    """Wrong chains: nothing moves edges but what two round to that cross at a point with fractions."""
    whole = chains(edges)
    moved_first = moved_by([set(chain) for chain in whole], edges, hot_first(edges))
    on = [[point for point in chain if is_on(point, edge)] for edge, chain in zip(edges, whole)]
    return [(whole if place in moved_first else on)[place] for place in range(len(edges))]


def wrong_rules(count=400):
    """No case, but that the looks above tell chains by wrong rules."""
    random = Random(SEED)
    sets = [some_edges(random, partial(near, random, 4)) for _ in range(count)]
    found = [noded(edges)[0] for edges in sets]
    for rule, wrong in (("those of snap", chains), ("those of the first round", first_round)):
        if sum(map(list.__ne__, map(wrong, sets), found)) < count // 20:
            raise ValueError(f"node: {rule} are told seldom")
    return ()


def crowds():
    """Cases of more edges by chance, over small coordinates, over all, and near a wide grid."""
    random = Random(SEED)
    for where, number in numbers_by_chance(random, (2, 9, 30, GREATEST)):
        edges = [tuple(number() for _ in range(4)) for _ in range(30)]
        yield broken(f"30 edges {where}", lines(*map(line_of, edges)), edges)


def many(count=MANY // 4):
    """The case of many edges in cells of their own, in an order by chance."""
    found = chains_of(CELL)
    items = [(cell, kind) for cell in range(count // len(CELL)) for kind in range(len(CELL))]
    Random(SEED).shuffle(items)
    corners = [(cell % 1000 * 20, cell // 1000 * 20) for cell, _ in items]
    said = (line_of(moved(CELL[kind], corner, 1)) for (_, kind), corner in zip(items, corners))
    served = (reply(moved(point, corner, 1) for point in found[kind]) for (_, kind), corner in zip(items, corners))
    yield answered(f"{count} edges in cells", "node", lines(*said), lines(*served))


def memory():
    """Cases of memory that is refused, and of reads and writes that fail."""
    of_run, of_streams = partial(refusals.of_others, rows=[RUN]), partial(refusals.of_streams, rows=[PLAIN])
    return refusals.all_cases((of_run, of_streams))


PARTS = (
    *(
        worked,
        rows_by_model,
        wrong_rules,
        crowds,
        partial(snaps.copies, "node", chains_of),
        partial(snaps.pencils, "node", chains_of),
        many,
        memory,
    ),
    *(partial(part, [PLAIN]) for part in (empty_texts, plain_lines, line_numbers, streams.each_mode)),
    *(partial(shapes, seed) for seed in range(TEXTS)),
    *(partial(by_chance, "node", chains_of, *kind[:4], seed) for kind in KINDS for seed in range(kind[4])),
)
