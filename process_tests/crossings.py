#!/usr/bin/env python3
"""The mode `crossings`: worked examples, faulty lines, and edges and ranges by chance beside fractions, each with each.

usage: process_tests/crossings.py ROUNDS SEED PROGRAM

run.py runs all cases of this module. Called by itself it runs so many rounds of 2,000 sets by chance, each from a seed of its
own, side by side: 50 of them are 100,000 sets. The last line is 'N passed, M failed'.
"""

import os
import sys
from concurrent.futures import ProcessPoolExecutor
from functools import partial
from random import Random

sys.dont_write_bytecode = True

import refusals
import streams
from locates import cross, height, rightwards
from many import SEED
from meetings import near_grid
from odd import read, texts_by_chance
from processes import answered, by_pipe, dialogue, lines, refused
from text import empty_texts, line_numbers, plain_lines

LEAST, GREATEST = -2147483648, 2147483647

# The mode with a line and its reply.
PLAIN = "crossings", b"range 0 4 5", b"reached\n"

# A run that makes requests for memory.
RUN = (
    "crossings",
    ("edge 0 0 9 9", "edge 0 9 9 0", "range 3 3 6", "edge 0 5 9 6", "edge 5 0 5 9"),
    ("crosses", "crosses 1", "reached 1 2 4", "crosses 1 2", "crosses"),
)

# The commands, with how many numbers each has.
FORMS = {b"edge": 4, b"range": 3}

# So many sets by chance of small coordinates, of which so many stand in one text, and so many of any in texts of their own.
SETS, TOGETHER, ANY = 1_700, 100, 300

# Numbers at the ends of the range, and at its middle.
ENDS = LEAST, LEAST + 1, -1, 0, 1, GREATEST - 1, GREATEST

# So far to the right of the one before each set of a text stands, and so far to each side it goes at most.
APART, REACH = 60, 29

ANSWERED = (
    (
        "two that cross, an upright one, and ranges before, between and behind them",
        """
        range 5 5 5 -> reached 2 4
        edge 0 0 10 10 -> crosses
        range 3 4 7 -> reached 4
        edge 10 0 0 10 -> crosses 2
        edge 5 -3 5 9 -> crosses
        range 10 0 10 -> reached
        range 0 0 10 -> reached 2 4
        range 3 7 3 -> reached
    """,
    ),
    (
        "three through one point between two columns",
        """
        edge 0 0 3 3 -> crosses
        edge 0 3 3 0 -> crosses 1
        edge 0 1 3 2 -> crosses 1 2
        range 1 1 2 -> reached 1 2 3
        range 2 2 9 -> reached 1
    """,
    ),
    (
        "touches, ends on each other, along one line, one edge twice and turned round",
        """
        edge 0 0 8 0 -> crosses
        edge 4 0 6 5 -> crosses
        edge 8 0 9 -5 -> crosses
        edge 2 0 12 0 -> crosses
        edge 8 0 0 0 -> crosses
        edge 0 0 8 0 -> crosses
        edge 3 -1 5 1 -> crosses 1 4 5 6
        range 4 0 0 -> reached 1 2 4 5 6 7
        range 8 -1 0 -> reached 3 4
    """,
    ),
    (
        "within one column, through an upright one, and points",
        """
        edge 0 0 1 1 -> crosses
        edge 0 1 1 0 -> crosses 1
        edge 0 -5 0 5 -> crosses
        edge 0 0 0 0 -> crosses
        range 0 0 0 -> reached 1
        range 0 -5 5 -> reached 1 2
        range 1 0 1 -> reached
    """,
    ),
    (
        "at the column before they cross, and behind it, as high",
        """
        edge 0 0 6 0 -> crosses
        edge 0 1 2 -1 -> crosses 1
        edge 2 -1 4 1 -> crosses 1
        edge 4 1 6 -1 -> crosses 1
        range 1 0 0 -> reached 1 2
        range 4 1 1 -> reached 4
    """,
    ),
    (
        "blank lines count",
        """
        range 1 0 9 -> reached 3 5

        edge 0 0 4 4 -> crosses

        edge 0 4 4 0 -> crosses 3
    """,
    ),
    (
        "from end to end",
        f"""
        edge {LEAST} {LEAST} {GREATEST} {GREATEST} -> crosses
        edge {LEAST} {GREATEST} {GREATEST} {LEAST} -> crosses 1
        edge {GREATEST} {GREATEST - 1} {LEAST} {LEAST + 1} -> crosses 1 2
        range 0 -1 0 -> reached 1 2 3
        range {LEAST} {LEAST} {GREATEST} -> reached 1 2 3
        range {GREATEST} {LEAST} {GREATEST} -> reached
        range {GREATEST - 1} {GREATEST - 1} {GREATEST - 1} -> reached 1
        range 0 {GREATEST} {LEAST} -> reached
    """,
    ),
    ("ranges alone", "range 0 0 0 -> reached\nrange 2147483647 0 1 -> reached"),
    (
        "signs and zeros",
        """
        edge +0 -0 010 -5 -> crosses
        range -0 00 +0 -> reached 1
    """,
    ),
)

# Lines that are faulty.
FAULTY = (
    *("edge 0 0 1", "edge 0 0 1 1 1", "edge 0 0 1 x", "edge", "range 0 0", "range 0 0 0 0", "range", "ranges 0 0 0"),
    *("Edge 0 0 1 1", "edge 0 0 1 2147483648", "range 0 0 -2147483649", "point 0 0", "segment 0 5 1", "clear"),
)


def reaches(edge, asked):
    """Whether the edge covers the column, at a height from the one to the other."""
    (x, low, high), (x0, _, x1, _) = asked, rightwards(edge)
    return x0 <= x < x1 and low <= height(rightwards(edge), x) <= high


def told_to(item, place, items):
    """The places of the items that are told to the item at this place."""
    if len(item) == 4:
        return (at for at, other in enumerate(items[:place]) if len(other) == 4 and cross(other, item))
    return (at for at, other in enumerate(items) if len(other) == 4 and reaches(other, item))


def replies(items, numbers):
    """The replies to items that stand on the lines of these numbers, each beside each."""
    for place, item in enumerate(items):
        word = "crosses" if len(item) == 4 else "reached"
        yield " ".join([word, *(str(numbers[at]) for at in told_to(item, place, items))])


def line_of(item):
    return f"{'edge' if len(item) == 4 else 'range'} {' '.join(map(str, item))}"


def in_one_text(name, sets):
    """The case of these sets, each on the lines behind those of the one before."""
    said, served = [], []
    for items in sets:
        served += replies(items, range(len(said) + 1, len(said) + len(items) + 1))
        said += items
    return answered(name, "crossings", lines(*map(line_of, said)), lines(*served))


def worked():
    """Cases of the rows."""
    for name, said in ANSWERED:
        given, served = dialogue(said)
        yield answered(name, "crossings", given, served)
        yield answered(f"{name}, through a pipe", "crossings", given, served, by_pipe)
    for text in FAULTY:
        yield refused(f"the line '{text}'", "crossings", lines("edge 0 0 1 1", "", text, "nonsense"), 3)


def odd_texts():
    """Cases of texts by chance, some of them spoilt."""
    for text in texts_by_chance(FORMS):
        said, name = read(text, FORMS), f"by chance, {text!r}"
        if isinstance(said, int):
            yield refused(name, "crossings", text, said)
        else:
            items = [tuple(map(int, line.split()[1:])) for _, line in said]
            served = replies(items, [number for number, _ in said])
            yield answered(name, "crossings", text, lines(*served))


def like(random, edge):
    """An edge that has to do with this one: it, turned round, along its line, from one of its ends on, or upright at one."""
    x0, y0, x1, y1 = edge
    return random.choice(
        (
            edge,
            (x1, y1, x0, y0),
            (x0, y0, 2 * x1 - x0, 2 * y1 - y0),
            (2 * x0 - x1, 2 * y0 - y1, x1, y1),
            (x1, y1, x1 + y1 - y0, y1 + x0 - x1),
            (x0, y1, x1, y0),
            (x0, y0, x0, y1),
        )
    )


def some_items(random, number, least=LEAST, greatest=GREATEST):
    """Up to nine edges within these bounds, of which one in three has to do with the one before, and up to five ranges."""
    items = []
    for _ in range(random.randrange(1, 10)):
        edge = like(random, items[-1]) if items and random.randrange(3) == 0 else tuple(number() for _ in range(4))
        if least <= min(edge) and max(edge) <= greatest:
            items.append(edge)
    for _ in range(random.randrange(6)):
        x, low, high = (number() for _ in range(3))
        items.append((x, low, high) if random.randrange(4) else (x, low, low))
    random.shuffle(items)
    return items


def moved(item, by):
    """The item, so far to the right."""
    across = (by, 0, by, 0) if len(item) == 4 else (by, 0, 0)
    return tuple(map(sum, zip(item, across)))


def small_sets(random, count):
    """Lists of sets of small coordinates, each set to the right of the one before; each list is to stand in one text."""
    for at in range(0, count, TOGETHER):
        bounds = (1 + turn % 8 for turn in range(min(TOGETHER, count - at)))
        sets = [some_items(random, partial(random.randint, -bound, bound), -REACH, REACH) for bound in bounds]
        yield [[moved(item, place * APART) for item in items] for place, items in enumerate(sets)]


def any_sets(random, count):
    """Sets of coordinates near the ends of the range and a wide grid, or up to some bound."""
    for turn in range(count):
        bound = random.choice((3, 30, 1000, 1 << 16, GREATEST))
        kinds = partial(near_grid, random), partial(random.choice, ENDS), partial(random.randint, -bound, bound)
        yield some_items(random, kinds[turn % 3])


def by_chance(seed=SEED, small=SETS, others=ANY):
    """Cases of sets by chance."""
    random = Random(seed)
    for place, sets in enumerate(small_sets(random, small)):
        yield in_one_text(f"small sets by chance from {seed}, text {place}", sets)
    for place, items in enumerate(any_sets(random, others)):
        yield in_one_text(f"a set by chance from {seed}, {place}", [items])


def ranges_over(random, count, x, y):
    """So many ranges at columns from 0 up to x, within heights from 0 up to y."""
    return [(random.randint(0, x), *sorted(random.choices(range(y + 1), k=2))) for _ in range(count)]


def hatching(random):
    """Edges of two slopes, each of the one over each of the other, and a few through the corners."""
    rising = [(at, 0, at + 1500, 1500) for at in range(0, 1500, 10)]
    falling = [(at, 1500, at + 1500, 0) for at in range(0, 1500, 10)]
    return rising + falling + ranges_over(random, 30, 3000, 1500)


def fan(random):
    """Edges from one point, none of which cross, and two across all of them."""
    edges = [(0, 0, 1000, 7 * at) for at in range(-150, 150)]
    return edges + [(500, -1000, 501, 1000), (300, 900, 900, -901)] + ranges_over(random, 30, 1000, 1000)


def lattice(random):
    """Level edges, upright ones, and edges that go up by one step in ten."""
    level = [(0, 10 * at, 1000, 10 * at) for at in range(60)]
    upright = [(10 * at, 0, 10 * at, 600) for at in range(60)]
    stepped = [(0, 10 * at, 1000, 10 * at + 100) for at in range(-9, 60)]
    return level + upright + stepped + ranges_over(random, 30, 1000, 600)


def chords(random):
    """Edges between points of a wide box by chance, from one side to the other."""
    sides = (0, 50), (0, 9999), (9000, 9999), (0, 9999)
    edges = [tuple(random.randint(*side) for side in sides) for _ in range(200)]
    return edges + ranges_over(random, 30, 9999, 9999)


def shapes():
    """Cases of edges in order."""
    random = Random(SEED)
    for shape in (hatching, fan, lattice, chords):
        items = shape(random)
        random.shuffle(items)
        yield in_one_text(f"a {shape.__name__} of {len(items)} lines", [items])


def memory():
    """Cases of memory that is refused, and of reads and writes that fail."""
    of_run, of_streams = partial(refusals.of_others, rows=[RUN]), partial(refusals.of_streams, rows=[PLAIN])
    return refusals.all_cases((of_run, of_streams))


# What run.py runs.
PARTS = (
    *(worked, odd_texts, by_chance, shapes, memory),
    *(partial(part, [PLAIN]) for part in (empty_texts, plain_lines, line_numbers, streams.each_mode)),
)


def failed_in(program, seed):
    """The names of the cases of a round that fail, and how many cases, sets, crossings and answers to ranges it has."""
    cases = list(by_chance(seed))
    failed = [case.name for case in cases if not case.wanted == case.got(program)]
    told = [row.split() for case in cases for row in case.wanted.output.decode().splitlines()]
    counts = [sum(len(words) - 1 for words in told if words[0] == word) for word in ("crosses", "reached")]
    return failed, [len(cases), SETS + ANY, *counts]


def main(rounds, seed, program):
    seeds = range(int(seed), int(seed) + int(rounds))
    with ProcessPoolExecutor(len(os.sched_getaffinity(0))) as pool:
        done = list(pool.map(partial(failed_in, os.path.abspath(program)), seeds))
    failed = [name for names, _ in done for name in names]
    cases, sets, crossings, reached = map(sum, zip(*(counts for _, counts in done)))
    print(*(f"FAILED {name}" for name in failed), sep="\n", end="\n" * bool(failed))
    print(f"{sets} sets, {crossings} crossings, {reached} answers to ranges")
    print(f"{cases - len(failed)} passed, {len(failed)} failed")
    return 1 if failed else 0


if __name__ == "__main__":
    sys.exit(main(*sys.argv[1:]))
