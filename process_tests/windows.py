"""The mode `overlay` within a window: worked examples, and rings by chance beside the winding numbers of these."""

from functools import partial
from itertools import chain
from random import Random

import refusals
from drawings import Drawing, drawn, looks, said_by
from overlays import CORNER, GREATEST, KINDS, LEAST, MODES, SQUARE, WITHIN, InOrder, box, in_order, looked_at
from processes import Looked, answered, dialogue, lines

# The least window side, and the greatest one.
LOW, HIGH = LEAST + 2, GREATEST - 2

# A slanted side that goes through 3, 3 1/2.
SLANTED = "subject 0 0 10 0 0 5"

# Windows, the operation and the rule, rings, and the polygons in order.
ANSWERED = (
    ("nothing at all", "0 0 9 9", "union nonzero", "", ""),
    ("a square that is cut", "1 -5 3 2", "union nonzero", f"subject {SQUARE}", "polygon 1 0 3 0 3 2 1 2"),
    ("a square over a corner", "3 3 9 9", "union nonzero", f"clip {SQUARE}", "polygon 3 3 4 3 4 4 3 4"),
    ("a square within", "-1 -1 9 9", "union nonzero", f"subject {SQUARE}", f"polygon {SQUARE}"),
    ("a square around", "1 1 2 2", "union nonzero", f"subject {SQUARE}", "polygon 1 1 2 1 2 2 1 2"),
    ("the same square", "0 0 4 4", "union nonzero", f"subject {SQUARE}", f"polygon {SQUARE}"),
    ("a window outside", "20 20 30 30", "union nonzero", f"subject {SQUARE}", ""),
    ("a window along a side", "4 0 8 4", "union nonzero", f"subject {SQUARE}", ""),
    ("a window at a corner", "-3 -3 0 0", "union nonzero", f"subject {SQUARE}", ""),
    (
        "a hole",
        "-1 -1 9 9",
        "difference nonzero",
        f"subject {SQUARE}\nclip {WITHIN}",
        f"polygon {SQUARE}\nhole 1 1 1 3 3 3 3 1",
    ),
    ("a window in a hole", "1 1 3 3", "difference nonzero", f"subject {SQUARE}\nclip {WITHIN}", ""),
    (
        "a hole that the border cuts",
        "0 0 2 4",
        "difference nonzero",
        f"subject {SQUARE}\nclip {WITHIN}",
        "polygon 0 0 2 0 2 1 1 1 1 3 2 3 2 4 0 4",
    ),
    (
        "a hole that the border cuts in two",
        "0 1 4 2",
        "difference nonzero",
        f"subject {SQUARE}\nclip {WITHIN}",
        "polygon 0 1 1 1 1 2 0 2\npolygon 3 1 4 1 4 2 3 2",
    ),
    ("both of two", "1 1 3 9", "intersection nonzero", f"subject {SQUARE}\nclip {CORNER}", "polygon 2 2 3 2 3 4 2 4"),
    ("one alone of two", "3 3 9 5", "xor nonzero", f"subject {SQUARE}\nclip {CORNER}", "polygon 3 4 4 4 4 3 6 3 6 5 3 5"),
    ("a ring that winds -1 times", "0 0 2 2", "union negative", "subject 0 0 0 4 4 4 4 0", "polygon 0 0 2 0 2 2 0 2"),
    ("a slanted side, cut at a fraction", "0 0 3 9", "union nonzero", SLANTED, "polygon 0 0 3 0 3 4 0 5"),
    ("the same from the other side", "3 0 12 9", "union nonzero", SLANTED, "polygon 3 0 10 0 3 4"),
    ("a slanted side, cut from below", "0 1 12 9", "union nonzero", SLANTED, "polygon 0 1 8 1 0 5"),
    (
        "a slanted side, cut at a fraction below zero",
        "0 -9 3 0",
        "union nonzero",
        "subject 0 0 0 -5 10 0",
        "polygon 0 -5 3 -3 3 0 0 0",
    ),
    ("a diamond, cut to its upper tip", "-9 2 9 9", "union nonzero", "subject 0 -3 3 0 0 3 -3 0", "polygon -1 2 1 2 0 3"),
    (
        "all of the plane",
        f"{LOW} {LOW} {HIGH} {HIGH}",
        "union nonzero",
        f"subject {LEAST} {LEAST} {GREATEST} {LEAST} {GREATEST} {GREATEST} {LEAST} {GREATEST}",
        f"polygon {LOW} {LOW} {HIGH} {LOW} {HIGH} {HIGH} {LOW} {HIGH}",
    ),
)

# A run for memory that is refused.
RUN = (
    "overlay difference nonzero --window 0 0 2 4",
    (f"subject {SQUARE}", f"clip {WITHIN}"),
    ("polygon 0 0 2 0 2 1 1 1 1 3 2 3 2 4 0 4",),
)

# There is a text for a drawing alone, and a drawing more in one text, for so many of the mode without a window.
EACH = 5


def within(mode, *window):
    """The words of the mode within a window."""
    return " ".join([mode, "--window", *map(str, window)])


def worked():
    """Cases of the rows."""
    for name, window, words, said, replies in ANSWERED:
        given, served = dialogue(said)[0], dialogue(replies)[0]
        yield answered(name, within(f"overlay {words}", *window.split()), given, served, Looked(in_order))


# ---- rings by chance


def sides(random, bound):
    """The least and the greatest number of a window on one axis, by chance."""
    return sorted(random.sample(range(-2, bound + 3), 2))


def points_of(random, drawing, window):
    """Points at which a drawing and the border of a window are looked at."""
    return looks(random, Drawing(drawing.subject, [*drawing.clip, box(*window)]))


def alone(mode, random, drawing, bound):
    """The case of a drawing in a window of its own."""
    (left, right), (low, high) = sides(random, bound), sides(random, bound)
    window = left, low, right, high
    points, given = points_of(random, drawing, window), lines(*said_by(random, drawing))
    return looked_at(f"{within(mode, *window)}: {given!r}", within(mode, *window), given, [(drawing, points)])


def together(mode, random, drawings, bound):
    """The case of drawings side by side, which the window cuts from above and from below, and the first and the last in two."""
    step, (low, high) = bound + 3, sides(random, bound)
    left, right = random.randint(0, bound), (len(drawings) - 1) * step + random.randint(0, bound)
    looked = [
        (drawing, points_of(random, drawing, (left - place * step, low, right - place * step, high)))
        for place, drawing in enumerate(drawings)
    ]
    given = lines(*chain.from_iterable(said_by(random, drawing, place * step) for place, drawing in enumerate(drawings)))
    words = within(mode, left, low, right, high)
    return looked_at(f"{words}: {len(drawings)} drawings of rings to {bound}", words, given, looked, step)


def by_chance(mode, seed):
    """Cases of drawings by chance in one mode, some alone and some in one text."""
    random = Random(seed)
    for kind, bound, count in KINDS:
        ring = kind(random, bound)
        for _ in range(count // EACH):
            yield alone(mode, random, drawn(random, ring), bound)
        yield together(mode, random, [drawn(random, ring) for _ in range(count // EACH)], bound)


# ---- memory


def memory():
    """Cases of memory that is refused."""
    return refusals.all_cases((lambda preloaded: refusals.of_others(InOrder(preloaded.file), [RUN]),))


PARTS = worked, memory, *(partial(by_chance, mode, seed) for seed, mode in enumerate(MODES))
