#!/usr/bin/env python3
"""The mode `offset`: worked examples, faulty lines, and rings and paths by chance beside what they are to become.

usage: process_tests/offsets.py    runs all 20,000 by chance, by `rt try`, without a proof; run.py has a share of them
"""

import sys
from functools import partial
from random import Random

if __name__ == "__main__":
    sys.dont_write_bytecode = True

import growth
import refusals
from drawings import line_of
from overlays import GREATEST, LEAST, InOrder, box, in_order
from processes import Case, Looked, Outcome, answered, dialogue, lines, refused
from windings import polygons_in

GROW, SHRINK, LINES = "offset grow nonzero", "offset shrink nonzero", "offset lines"

# The square around the origin whose sides are 2 long, a diamond, and a square of 10 by 10.
BY = "shape -1 -1 1 -1 1 1 -1 1"
DIAMOND = "shape 2 0 0 2 -2 0 0 -2"
FIELD = "subject 0 0 10 0 10 10 0 10"

# Two rooms, and a corridor between them that is 2 wide.
ROOMS = "subject 0 0 8 0 8 3 12 3 12 0 20 0 20 8 12 8 12 5 8 5 8 8 0 8"

# The mode, the lines, and the polygons in order.
ANSWERED = (
    ("nothing at all", GROW, BY, ""),
    ("nothing that shrinks", SHRINK, BY, ""),
    ("no paths", LINES, BY, ""),
    ("a path without points", LINES, f"line\n{BY}", ""),
    ("a square by a square", GROW, f"{BY}\n{FIELD}", "polygon -1 -1 11 -1 11 11 -1 11"),
    ("a square the other way round", GROW, f"subject 0 0 0 10 10 10 10 0\n{BY}", "polygon -1 -1 11 -1 11 11 -1 11"),
    ("a square that winds -1 times", "offset grow positive", f"subject 0 0 0 10 10 10 10 0\n{BY}", ""),
    ("the same by its rule", "offset grow negative", f"subject 0 0 0 10 10 10 10 0\n{BY}", "polygon -1 -1 11 -1 11 11 -1 11"),
    ("a square by a diamond", GROW, f"{DIAMOND}\n{FIELD}", "polygon -2 0 0 -2 10 -2 12 0 12 10 10 12 0 12 -2 10"),
    ("a shape in two lines", GROW, f"shape -1 -1 1 -1\n{FIELD}\nshape 1 1 -1 1", "polygon -1 -1 11 -1 11 11 -1 11"),
    ("a shape that lies aside", GROW, f"{FIELD}\nshape -1 -1 3 -1 3 2 -1 2", "polygon -1 -1 13 -1 13 12 -1 12"),
    (
        "a hole that gets smaller",
        GROW,
        f"{FIELD}\nsubject 3 3 3 7 7 7 7 3\n{BY}",
        "polygon -1 -1 11 -1 11 11 -1 11\nhole 4 4 4 6 6 6 6 4",
    ),
    ("a hole that closes", GROW, f"{FIELD}\nsubject 4 4 4 6 6 6 6 4\n{BY}", "polygon -1 -1 11 -1 11 11 -1 11"),
    (
        "a hole, by evenodd",
        "offset grow evenodd",
        f"{FIELD}\nsubject 3 3 7 3 7 7 3 7\n{BY}",
        "polygon -1 -1 11 -1 11 11 -1 11\nhole 4 4 4 6 6 6 6 4",
    ),
    (
        "two parts that come to touch",
        GROW,
        f"{BY}\nsubject 0 0 4 0 4 4 0 4\nsubject 6 0 10 0 10 4 6 4",
        "polygon -1 -1 11 -1 11 5 -1 5",
    ),
    (
        "two parts that don't",
        GROW,
        f"{BY}\nsubject 0 0 4 0 4 4 0 4\nsubject 7 0 10 0 10 4 7 4",
        "polygon -1 -1 5 -1 5 5 -1 5\npolygon 6 -1 11 -1 11 5 6 5",
    ),
    ("a spike without width", GROW, f"subject 0 0 20 0 10 0 10 10 0 10\n{BY}", "polygon -1 -1 11 -1 11 11 -1 11"),
    ("an inner corner", GROW, f"subject 0 0 10 0 10 4 4 4 4 10 0 10\n{BY}", "polygon -1 -1 11 -1 11 5 5 5 5 11 -1 11"),
    ("a square that shrinks", SHRINK, f"{BY}\n{FIELD}", "polygon 1 1 9 1 9 9 1 9"),
    ("the same, by a shape that lies aside", SHRINK, f"shape -1 -1 3 -1 3 2 -1 2\n{FIELD}", "polygon 1 1 7 1 7 8 1 8"),
    ("a square that shrinks to nothing", SHRINK, f"{BY}\nsubject 0 0 2 0 2 2 0 2", ""),
    ("a square that shrinks to less than nothing", SHRINK, f"{BY}\nsubject 0 0 1 0 1 1 0 1", ""),
    ("a corridor that opens", SHRINK, f"{ROOMS}\n{BY}", "polygon 1 1 7 1 7 7 1 7\npolygon 13 1 19 1 19 7 13 7"),
    (
        "a hole that gets larger",
        SHRINK,
        f"{FIELD}\nsubject 4 4 4 6 6 6 6 4\n{BY}",
        "polygon 1 1 9 1 9 9 1 9\nhole 3 3 3 7 7 7 7 3",
    ),
    (
        "a hole that meets the border",
        SHRINK,
        f"{FIELD}\nsubject 2 4 2 6 8 6 8 4\n{BY}",
        "polygon 1 1 9 1 9 3 1 3\npolygon 1 7 9 7 9 9 1 9",
    ),
    ("a path of one point", LINES, f"line 5 7\n{DIAMOND}", "polygon 3 7 5 5 7 7 5 9"),
    ("a path that stands still", LINES, f"line 5 7 5 7\n{DIAMOND}", "polygon 3 7 5 5 7 7 5 9"),
    ("a path along an axis", LINES, f"{BY}\nline 0 0 10 0", "polygon -1 -1 11 -1 11 1 -1 1"),
    ("a slanted path", LINES, f"line 0 0 4 4\n{BY}", "polygon -1 -1 1 -1 5 3 5 5 3 5 -1 1"),
    ("a path with a corner", LINES, f"line 0 0 6 0 6 6\n{BY}", "polygon -1 -1 7 -1 7 7 5 7 5 1 -1 1"),
    (
        "a path that goes round",
        LINES,
        f"line 0 0 6 0 6 6 0 6 0 0\n{BY}",
        "polygon -1 -1 7 -1 7 7 -1 7\nhole 1 1 1 5 5 5 5 1",
    ),
    (
        "two paths that cross",
        LINES,
        f"line -5 0 5 0\nline 0 -5 0 5\n{BY}",
        "polygon -6 -1 -1 -1 -1 -6 1 -6 1 -1 6 -1 6 1 1 1 1 6 -1 6 -1 1 -6 1",
    ),
    (
        "all of the plane but its border",
        GROW,
        f"{BY}\n{line_of('subject', box(LEAST + 1, LEAST + 1, GREATEST - 1, GREATEST - 1))}",
        f"polygon {LEAST} {LEAST} {GREATEST} {LEAST} {GREATEST} {GREATEST} {LEAST} {GREATEST}",
    ),
)

# What standard error is told of a shape that is none, and of corners beyond all numbers.
SHAPE = b"itree: shape: its corners go round no convex polygon, counterclockwise, with the origin inside\n"
RANGE = b"itree: range: a corner goes beyond the whole numbers from -2147483648 to 2147483647\n"

UNFIT = (
    ("no shape", "", SHAPE),
    ("a shape without corners", "shape", SHAPE),
    ("a shape of one corner", "shape 1 1", SHAPE),
    ("a shape of two corners", "shape 1 0 -1 0", SHAPE),
    ("a shape the other way round", "shape -1 1 1 1 1 -1 -1 -1", SHAPE),
    ("a shape without the origin", "shape 1 1 3 1 3 3 1 3", SHAPE),
    ("a shape with the origin on a side", "shape 0 -1 1 -1 1 1 0 1", SHAPE),
    ("a shape that isn't convex", "shape -4 -4 4 -4 4 4 0 1 -4 4", SHAPE),
    ("a shape with a corner on a side", "shape -1 -1 0 -1 1 -1 1 1 -1 1", SHAPE),
    ("a shape with a corner twice", "shape -1 -1 1 -1 1 1 -1 1 -1 -1", SHAPE),
    ("two shapes", f"{BY}\n{BY}", SHAPE),
    ("one shape in another", f"{BY}\nshape -2 -2 2 -2 2 2 -2 2", SHAPE),
)
FAR = (
    ("a corner that is too far right", GROW, f"subject 0 0 {GREATEST} 0 0 9\n{BY}"),
    ("a corner that is too low", GROW, f"subject 0 {LEAST} 9 0 0 9\n{BY}"),
    ("a path that goes too far up", LINES, f"line 0 0 0 {GREATEST}\n{BY}"),
    ("a point that is too far left", LINES, f"line {LEAST} 0\n{BY}"),
    ("a shape whose opposite is too far right", SHRINK, f"{FIELD}\nshape {LEAST} -1 1 -1 1 1"),
)

# Lines that are faulty.
FAULTY = "Shape 1 1", "clip 0 0 1 1", "polygon 0 0", "shape 0", "shape 0 2147483648", "shapes", "0 0 1 1"
FAULTY_OF = (
    (GROW, ("line 0 0 1 1", "subject 0", "subject 0 0 one 1")),
    (SHRINK, ("line 0 0 1 1", "subject 0 -2147483649", "subjects")),
    (LINES, ("subject 0 0 1 1", "line 0", "lines 0 0", "line 0 0 1 1 x")),
)

# A run for memory that is refused.
RUN = "offset grow nonzero", (FIELD, BY), ("polygon -1 -1 11 -1 11 11 -1 11",)


def worked():
    """Cases of the rows."""
    for name, mode, said, replies in ANSWERED:
        given, served = dialogue(said)[0], dialogue(replies)[0]
        yield answered(name, mode, given, served, Looked(in_order))


def unfit():
    """Cases of shapes that are none, and of corners that go too far."""
    for mode, what in (GROW, FIELD), (SHRINK, FIELD), (LINES, "line 0 0 9 9"):
        for name, said, told in UNFIT:
            yield Case(f"{mode}: {name}", mode.split(), lines(what, said), Outcome(2, b"", told))
    for name, mode, said in FAR:
        yield Case(f"{mode}: {name}", mode.split(), lines(said), Outcome(2, b"", RANGE))


def faulty():
    """Cases of faulty lines, which are told before a shape that is none."""
    for mode, rows in FAULTY_OF:
        for given in (*FAULTY, *rows):
            yield refused(f"the line '{given}'", mode, lines("shape 1 1", "", given, "nonsense"), 3)


# ---- by chance

# So many drawings stand in one text, each so far from the one before it, from so far left of its origin on.
TOGETHER, STEP, LEFT = 50, 120, 40

# So many texts there are of each kind in all, and in the gate: 20,000 drawings and 600.
ALL = {"grow": 140, "shrink": 140, "lines": 120}
SHARE = {"grow": 4, "shrink": 4, "lines": 4}

# By these rules rings that wind once have their inside.
RULES = "nonzero", "positive", "evenodd"


def grown(random, shape, place):
    """Rings that grow by a shape, points at which they are looked at, and what is wrong with polygons that are made of them."""
    rings = growth.some_rings(random, place % 2 == 0)
    points = list(growth.some_points(random, rings, shape))
    return rings, lambda made: growth.point_problems(rings, shape, made, points)


def shrunk(random, shape, place):
    """The same of rings that shrink."""
    rings = growth.some_rings(random, place % 2 == 0)
    points = list(growth.points_about(random, growth.inner_curve(rings, shape)))
    return rings, lambda made: growth.point_problems(rings, shape, made, points, False)


def thickened(random, shape, _place):
    """The same of paths."""
    paths = growth.some_paths(random)
    points = list(growth.points_about(random, growth.raw_of_paths(paths, shape)))
    return paths, lambda made: growth.path_problems(paths, shape, made, points)


KINDS = {"grow": grown, "shrink": shrunk, "lines": thickened}


def rings_at(told, count):
    """The rings that replies tell of so many drawings, each moved back to where its drawing was made."""
    found = [[] for _ in range(count)]
    for polygon in polygons_in(told):
        place = (min(x for x, _ in polygon[0]) + LEFT) // STEP
        if not 0 <= place < count:
            raise ValueError(f"the polygon {polygon} lies outside of all")
        found[place] += [[(x - place * STEP, y) for x, y in ring] for ring in polygon]
    return found


def told_problems(drawings, shape, told):
    """What is wrong with the replies."""
    try:
        found = rings_at(told, len(drawings))
    except ValueError as error:
        return str(error).encode()
    for (rings, problems), made in zip(drawings, found):
        for problem in problems(made):
            return f"{problem}: {made}, of {rings} and {shape}".encode()
    return b""


def drawn_together(operation, seed):
    """The case of a text of drawings side by side, and one shape."""
    random = Random(f"{operation} {seed}")
    shape = growth.some_shape(random)
    drawings = [KINDS[operation](random, shape, place) for place in range(TOGETHER)]
    name, words = ("line", [LINES]) if operation == "lines" else ("subject", ["offset", operation, random.choice(RULES)])
    placed = [(place, ring) for place, (rings, _) in enumerate(drawings) for ring in rings]
    said = [line_of(name, [(x + place * STEP, y) for x, y in ring]) for place, ring in placed]
    said.insert(random.randrange(len(said)), line_of("shape", shape))
    mode = " ".join(words)
    looked = Looked(partial(told_problems, drawings, shape))
    return Case(f"{mode}: {TOGETHER} drawings by chance, {seed}", mode.split(), lines(*said), Outcome(0), looked)


def by_chance(operation, counts):
    """Cases of drawings by chance of one operation, many in a text."""
    return (drawn_together(operation, seed) for seed in range(counts[operation]))


# ---- memory


def memory():
    """Cases of memory that is refused."""
    return refusals.all_cases((lambda preloaded: refusals.of_others(InOrder(preloaded.file), [RUN]),))


PARTS = worked, unfit, faulty, memory, *(partial(by_chance, operation, SHARE) for operation in KINDS)


def main():
    """Runs all by chance over a build that isn't proved, and tells how many drawings came out as they are to."""
    from run import told
    from tried import outcomes

    failed = 0
    for operation, texts in ALL.items():
        cases = list(by_chance(operation, ALL))
        came, said = outcomes(cases)
        wrong = [told("rt try", case, got) for case, got in zip(cases, came) if not case.wanted == got]
        print(*filter(None, [said, *wrong]), sep="\n", end="")
        drawings = f"{texts * TOGETHER} drawings in {texts} texts at {growth.LOOKS} points each"
        print(f"{operation}: {drawings}, {len(wrong)} texts failed")
        failed += len(wrong)
    print(f"{sum(ALL.values()) - failed} passed, {failed} failed")
    return 1 if failed else 0


if __name__ == "__main__":
    sys.exit(main())
