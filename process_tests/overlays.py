"""The mode `overlay`: worked examples, faulty lines, and rings by chance beside the winding numbers of these.

Which polygon comes first, and where a ring begins, is open: where replies are compared, both are put in order before.
"""

import re
from functools import partial
from itertools import chain
from random import Random

import refusals
import streams
import text
from drawings import LOOKS, any_of, diamond, drawn, frame, line_of, looks, near, said_by, square
from many import MANY, SEED
from odd import is_number, spoilt
from processes import Case, Looked, Outcome, answered, by_pipe, dialogue, lines, refused
from windings import OPERATIONS, PARTS as IN_ONE, RULES, Drawing, chain_problems, edges_of, polygons_in, problems

LEAST, GREATEST = -2147483648, 2147483647

MODES = [f"overlay {operation} {rule}" for operation in OPERATIONS for rule in RULES]

# A square of 4 by 4, one of 2 by 2 within it, and one over its corner.
SQUARE = "0 0 4 0 4 4 0 4"
WITHIN = "1 1 3 1 3 3 1 3"
CORNER = "2 2 6 2 6 6 2 6"

# Rings, the operation and the rule, and the polygons in order.
ANSWERED = (
    ("nothing at all", "union nonzero", "", ""),
    ("one ring", "union nonzero", f"subject {SQUARE}", f"polygon {SQUARE}"),
    ("one ring the other way", "union nonzero", "subject 0 0 0 4 4 4 4 0", f"polygon {SQUARE}"),
    ("one ring that winds -1 times", "union positive", "subject 0 0 0 4 4 4 4 0", ""),
    ("one ring that winds 1 times", "union negative", f"subject {SQUARE}", ""),
    ("a ring that ends where it begins", "union nonzero", f"subject {SQUARE} 0 0", f"polygon {SQUARE}"),
    ("points on straight lines", "union nonzero", "subject 0 0 2 0 4 0 4 1 4 4 1 4 0 4 0 3", f"polygon {SQUARE}"),
    ("a ring without points, one with one, one with two", "union evenodd", "subject\nsubject 1 1\nclip 0 0 5 5", ""),
    ("a clip alone", "union evenodd", f"clip {SQUARE}", f"polygon {SQUARE}"),
    ("nothing less a clip", "difference evenodd", f"clip {SQUARE}", ""),
    ("a hole", "difference nonzero", f"clip {WITHIN}\nsubject {SQUARE}", f"polygon {SQUARE}\nhole 1 1 1 3 3 3 3 1"),
    ("a ring twice", "union evenodd", f"subject {SQUARE}\nsubject {SQUARE}", ""),
    ("a ring twice, by another rule", "union nonzero", f"subject {SQUARE}\nsubject {SQUARE}", f"polygon {SQUARE}"),
    ("over a corner: either", "union nonzero", f"subject {SQUARE}\nclip {CORNER}", "polygon 0 0 4 0 4 2 6 2 6 6 2 6 2 4 0 4"),
    ("over a corner: both", "intersection nonzero", f"subject {SQUARE}\nclip {CORNER}", "polygon 2 2 4 2 4 4 2 4"),
    ("over a corner: the one", "difference nonzero", f"subject {SQUARE}\nclip {CORNER}", "polygon 0 0 4 0 4 2 2 2 2 4 0 4"),
    ("over a corner: the other", "difference nonzero", f"clip {SQUARE}\nsubject {CORNER}", "polygon 2 4 4 4 4 2 6 2 6 6 2 6"),
    ("side by side", "union nonzero", "subject 0 0 2 0 2 2 0 2\nclip 2 0 4 0 4 2 2 2", "polygon 0 0 4 0 4 2 0 2"),
    (
        "a hole, and a polygon in it",
        "union evenodd",
        """
        subject 0 0 9 0 9 9 0 9
        subject 1 1 8 1 8 8 1 8
        subject 2 2 7 2 7 7 2 7
    """,
        """
        polygon 0 0 9 0 9 9 0 9
        hole 1 1 1 8 8 8 8 1
        polygon 2 2 7 2 7 7 2 7
    """,
    ),
    (
        "two polygons with holes",
        "difference nonzero",
        """
        subject 0 0 4 0 4 4 0 4
        clip 11 1 13 1 13 3 11 3
        subject 10 0 14 0 14 4 10 4
        clip 1 1 3 1 3 3 1 3
    """,
        """
        polygon 0 0 4 0 4 4 0 4
        hole 1 1 1 3 3 3 3 1
        polygon 10 0 14 0 14 4 10 4
        hole 11 1 11 3 13 3 13 1
    """,
    ),
    ("a bow tie", "union nonzero", "subject 0 0 4 4 4 0 0 4", "polygon 0 0 2 2 0 4\npolygon 2 2 4 0 4 4"),
    ("a bow tie, by the rule of its one half", "union positive", "subject 0 0 4 4 4 0 0 4", "polygon 0 0 2 2 0 4"),
    (
        "all of the plane but a frame",
        "union nonzero",
        f"""
        subject {LEAST} {LEAST} {GREATEST} {LEAST} {GREATEST} {GREATEST} {LEAST} {GREATEST}
        clip 0 0 1 0 1 1 0 1
    """,
        f"polygon {LEAST} {LEAST} {GREATEST} {LEAST} {GREATEST} {GREATEST} {LEAST} {GREATEST}",
    ),
    (
        "a hole in nearly all of the plane",
        "xor nonzero",
        f"""
        clip {LEAST} {LEAST} {GREATEST} {LEAST} {GREATEST} {GREATEST} {LEAST} {GREATEST}
        subject 0 0 1 0 1 1 0 1
    """,
        f"""
        polygon {LEAST} {LEAST} {GREATEST} {LEAST} {GREATEST} {GREATEST} {LEAST} {GREATEST}
        hole 0 0 0 1 1 1 1 0
    """,
    ),
)

# Lines that are faulty.
FAULTY = (
    *("subject 0", "clip 0 0 1", "subject 0 0 1 x", "Subject 0 0 1 1", "subjects 0 0", "clips", "ring 0 0 1 1 2 0"),
    *(
        "polygon 0 0",
        "subject 0 2147483648",
        "clip -2147483649 0",
        "hole 0 0",
        "edge 0 0 1 1",
        "point 0 0",
        "clear",
        "0 0 1 0 1 1",
    ),
)

# A triangle, whose polygon begins at its leftmost point, and a run for memory that is refused.
LINE, REPLY = b"subject 0 0 1 0 0 1", b"polygon 0 0 1 0 0 1\n"
PLAIN = "overlay union nonzero", LINE, REPLY
RUN = "overlay difference nonzero", (f"subject {SQUARE}", f"clip {WITHIN}"), (f"polygon {SQUARE}", "hole 1 1 1 3 3 3 3 1")

# A square, and one within it.
ROUND = [(0, 0), (4, 0), (4, 4), (0, 4)], [(1, 1), (3, 1), (3, 3), (1, 3)]

# Rings by chance with how far they go, and how many drawings of each operation and rule there are: 1,250 along the axes, which
# are exact everywhere, and as many others.
KINDS = (
    (square, 4, 550),
    (square, 12, 350),
    (frame, 10, 350),
    (near, 4, 300),
    (near, 12, 200),
    (near, 40, 350),
    (diamond, 12, 100),
    (diamond, 40, 100),
    (any_of, 10, 100),
    (any_of, 40, 100),
)

# So many drawings stand in one text.
TOGETHER = 250


def turned(ring):
    """The ring from its least point on."""
    start = ring.index(min(ring))
    return ring[start:] + ring[:start]


def in_order(told):
    """The replies again, each ring from its least point on, the holes and the polygons in the order of these."""
    said = []
    for outer, *holes in sorted([turned(ring) for ring in polygon] for polygon in polygons_in(told)):
        said += [line_of("polygon", outer), *(line_of("hole", hole) for hole in sorted(holes))]
    return lines(*said)


def worked():
    """Cases of the rows."""
    for name, words, said, replies in ANSWERED:
        given, served = dialogue(said)[0], dialogue(replies)[0]
        yield answered(name, f"overlay {words}", given, served, Looked(in_order))


def faulty():
    """Cases of no lines and of faulty ones, and of numbers."""
    for mode in MODES:
        yield answered("no lines", mode, b"", b"")
        yield refused("a faulty line", mode, lines(f"clip {SQUARE}", "", "clip 1"), 3)
    for given in FAULTY:
        yield refused(f"the line '{given}'", MODES[0], lines("subject 0 0 1 1", "", given, "nonsense"), 3)
    for name, word, _number in text.NUMBERS:
        yield answered(name, MODES[0], b"clip 0 " + word + b"\n", b"")
    for name, word in text.NO_NUMBERS:
        yield refused(name, MODES[0], b"subject 0 0 1 1\nclip 0 " + word + b"\n", 2)


def texts():
    """Cases of oddly written lines, of which any number alike has the one polygon."""
    mode = PLAIN[0]
    for name, pattern, gap, _times in text.WRITTEN:
        yield answered(name, mode, text.written(pattern, LINE, gap), REPLY, by_pipe)
    for name, pattern in text.SPOILT:
        yield refused(name, mode, text.written(pattern, LINE), 1)
    yield from text.empty_texts([PLAIN])
    yield from text.line_numbers([PLAIN])


def drawing_of(given):
    """The rings that a text says, or else the number of its first faulty line."""
    found = {b"subject": [], b"clip": []}
    for number, line in enumerate(given.split(b"\n"), 1):
        words = [word for word in re.split(rb"[ \t\x0c\r]+", line) if word]
        is_sound = words and words[0] in found and len(words) % 2 and all(map(is_number, words[1:]))
        if not line.isascii() or words and not is_sound:
            return number
        if words:
            numbers = list(map(int, words[1:]))
            found[words[0]].append(list(zip(numbers[::2], numbers[1::2])))
    return Drawing(*found.values())


def odd_texts(count=300):
    """Cases of texts by chance, some of them spoilt."""
    random = Random(SEED)
    for _ in range(count):
        drawing, mode = drawn(random, near(random, 6)), random.choice(MODES)
        given = lines(*said_by(random, drawing))
        for _ in range(random.randrange(4)):
            given = spoilt(random, given)
        said, name = drawing_of(given), f"by chance, {given!r}"
        if isinstance(said, int):
            yield refused(name, mode, given, said)
        else:
            yield looked_at(f"{mode}: {name}", mode, given, [(said, looks(random, said))])


# ---- rings by chance


def moved_back(window, step):
    """The sides of the window that the words say, moved leftwards, or None where they say none."""
    sides = list(map(int, window[1:]))
    return [side - step * (at % 2 == 0) for at, side in enumerate(sides)] or None


def told_problems(mode, drawings, step, told):
    """What is wrong with the replies, where each drawing lies so far from the one before it."""
    _, operation, rule, *window = mode.split()
    try:
        polygons = polygons_in(told)
    except ValueError as error:
        return str(error).encode()
    found = [[] for _ in drawings]
    for polygon in polygons:
        place = min(x for x, _ in polygon[0]) // step if step else 0
        if not 0 <= place < len(found):
            return f"the polygon {polygon} lies outside of all".encode()
        found[place].append([[(x - place * (step or 0), y) for x, y in ring] for ring in polygon])
    for place, ((drawing, points), its) in enumerate(zip(drawings, found)):
        made = edges_of([ring for polygon in its for ring in polygon])
        starts = [(x0 * IN_ONE, y0 * IN_ONE) for x0, y0, _, _ in made[: LOOKS // 8]]
        middles = [((x0 + x1) * IN_ONE // 2, (y0 + y1) * IN_ONE // 2) for x0, y0, x1, y1 in made[-LOOKS // 8 :]]
        asked = drawing, its, rule, operation, points + starts + middles
        # Chains take long, so they are made for three drawings of ten; the gate looks at two builds of the program.
        by_chains = chain_problems(*asked) if place % 10 < 3 and not window else ()
        for problem in chain(problems(*asked, moved_back(window, place * (step or 0))), by_chains):
            return f"{problem}: {its}, of {' / '.join(said_by(Random(0), drawing))}".encode()
    return b""


def looked_at(name, mode, given, drawings, step=None):
    """The case that nothing is wrong with the replies."""
    return Case(name, mode.split(), given, Outcome(0), Looked(partial(told_problems, mode, drawings, step)))


def by_chance(mode, seed):
    """Cases of drawings by chance in one mode, many in a text and some each alone."""
    random = Random(seed)
    for kind, bound, count in KINDS:
        ring, step = kind(random, bound), bound + 3
        drawings = [(drawing, looks(random, drawing)) for drawing in (drawn(random, ring) for _ in range(count))]
        for at in range(0, count, TOGETHER):
            some = drawings[at : at + TOGETHER]
            said = [said_by(random, drawing, place * step) for place, (drawing, _) in enumerate(some)]
            given = lines(*chain.from_iterable(said))
            name = f"{mode}: {len(some)} drawings of rings {kind.__name__} to {bound}"
            yield looked_at(name, mode, given, some, step)
        for drawing, points in drawings[: count // 10]:
            given = lines(*said_by(random, drawing))
            yield looked_at(f"{mode}: {given!r}", mode, given, [(drawing, points)])


# ---- long texts, and memory


def many(count=MANY // 20):
    """Cases of many squares with a hole each, and of one ring of many points."""
    said, told = [], []
    for left, low in sorted((at % 250 * 6, at // 250 * 6) for at in range(count)):
        square, within = ([(x + left, y + low) for x, y in ring] for ring in ROUND)
        said += [line_of("subject", square), line_of("clip", within)]
        told += [line_of("polygon", square), line_of("hole", turned(within[::-1]))]
    Random(SEED).shuffle(said)
    mode = "overlay difference nonzero"
    yield answered(f"{count} squares with a hole each", mode, lines(*said), lines(*told), Looked(in_order))
    teeth = [point for at in range(count) for point in ((2 * at, 0), (2 * at + 1, 9))]
    ring = [*teeth, (2 * count, 0), (2 * count, -9), (0, -9)]
    told = lines(line_of("polygon", turned(ring[::-1])))
    name = f"a ring of {len(ring)} points"
    yield answered(name, "overlay union nonzero", lines(line_of("clip", ring)), told, Looked(in_order))


def points(count=MANY // 20):
    """Cases of edges from a point to itself, each two of which meet: they are to cost no more than others."""
    mode, wanted = "overlay union nonzero", lines(f"polygon {SQUARE}")
    rings = lines(*[f"subject 1 1\nclip {LEAST} 3"] * count, f"subject {SQUARE}")
    yield answered(f"{2 * count} rings of one point", mode, rings, wanted, Looked(in_order))
    still = line_of("subject", [corner for corner in ROUND[0] for _ in range(count)])
    yield answered(f"a ring with each point {count} times in a row", mode, lines(still), wanted, Looked(in_order))


# ---- holes in holes


def box(left, low, right, high):
    return [(left, low), (right, low), (right, high), (left, high)]


def corners(random, count):
    """Cases of triangles that touch in a corner: as rings, as one ring that comes there again and again, and as holes."""
    side = [(count, y) for y in range(-count, count)]
    around = [*side, *((-y, x) for x, y in side), *((-x, -y) for x, y in side), *((y, -x) for x, y in side)]
    triangles = [[(0, 0), *around[4 * at : 4 * at + 2]] for at in range(2 * count)]
    random.shuffle(triangles)
    plain = in_order(lines(*(line_of("polygon", ring) for ring in triangles)))
    mode, name = "overlay union nonzero", f"{len(triangles)} triangles round a point"
    yield answered(name, mode, lines(*(line_of("clip", ring) for ring in triangles)), plain, Looked(in_order))
    ring = line_of("subject", list(chain.from_iterable(triangles)))
    yield answered(f"{name} as one ring", mode, lines(ring), plain, Looked(in_order))
    large = box(-2 * count, -2 * count, 2 * count, 2 * count)
    holed = lines(line_of("polygon", large), *(line_of("hole", hole[::-1]) for hole in triangles))
    said = lines(line_of("subject", large), ring.replace("subject", "clip"))
    yield answered(f"{name} as holes", "overlay difference nonzero", said, in_order(holed), Looked(in_order))


def round_points():
    """Cases of few triangles and of many round a point."""
    return chain.from_iterable(corners(Random(SEED), count) for count in (1, 5, 33, 70, 300))


def on_corner(ring):
    """The ring turned by an eighth, and larger."""
    return [(x - y, x + y) for x, y in ring]


def plate(columns, rows):
    """The rings of polygons: a plate with holes in columns, and in each hole an island, with one hole over another."""
    cells = [(12 * column, 12 * row) for column in range(columns) for row in range(rows)]
    yield [box(0, 0, 12 * columns, 12 * rows), *(box(x + 1, y + 1, x + 11, y + 11) for x, y in cells)]
    for x, y in cells:
        yield [box(x + 2, y + 2, x + 10, y + 10), box(x + 3, y + 3, x + 9, y + 5), box(x + 3, y + 6, x + 9, y + 9)]


def bars(count):
    """The rings of polygons: long bars, one over another, with two holes each. Their long edges go over most of all holes."""
    for at in range(count):
        left, low = 10 * (7 * at % count), 10 * at
        long = box(0, low, 10 * count, low + 9)
        yield [long, box(left + 1, low + 1, left + 4, low + 4), box(left + 2, low + 5, left + 8, low + 8)]


def nested():
    """Cases of holes over holes and in holes: few and many, found by a walk along all rings, and many under long edges, which a
    sweep finds."""
    random = Random(SEED)
    plates = [
        (f"a plate {{}} with {columns * rows} holes, and two in each island", [*plate(columns, rows)])
        for columns, rows in ((1, 1), (3, 7), (9, 14))
    ]
    for name, polygons in [*plates, *((f"{count} bars {{}} with two holes each", [*bars(count)]) for count in (4, 30, 150))]:
        for how, turn in (("along the axes", list), ("turned by an eighth", on_corner)):
            turned_ones = [list(map(turn, polygon)) for polygon in polygons]
            said = [line_of("subject", ring) for polygon in turned_ones for ring in polygon]
            random.shuffle(said)
            told = []
            for outer, *holes in turned_ones:
                told += [line_of("polygon", outer), *(line_of("hole", hole[::-1]) for hole in holes)]
            yield answered(name.format(how), "overlay union evenodd", lines(*said), in_order(lines(*told)), Looked(in_order))


class InOrder(refusals.Preloaded):
    """Runs whose replies are put in order."""

    def outcome(self, command, given, told=None, **numbers):
        return Looked(in_order).of(super().outcome(command, given, told, **numbers))


def memory():
    """Cases of memory that is refused, and of reads and writes that fail."""

    def of_run(preloaded):
        return refusals.of_others(InOrder(preloaded.file), [RUN])

    return refusals.all_cases((of_run, partial(refusals.of_streams, rows=[PLAIN])))


PARTS = (
    *(worked, faulty, texts, odd_texts, many, points, round_points, nested, memory, partial(streams.each_mode, [PLAIN])),
    *(partial(by_chance, mode, seed) for seed, mode in enumerate(MODES)),
)
