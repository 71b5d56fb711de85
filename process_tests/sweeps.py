"""The mode `sweep`: worked examples, faulty lines, overlaps and many lines by chance."""

from functools import partial
from random import Random

import streams
from many import MANY, SEED
from models import colliding, heights_below
from odd import read, texts_by_chance
from processes import Case, Outcome, answered, by_file, by_pipe, dialogue, lines, refused
from text import empty_texts, line_numbers, plain_lines

LEAST, GREATEST = -2147483648, 2147483647

# The mode with a line and its reply.
PLAIN = "sweep", b"point 0 4", b"none\n"

# The commands, with how many numbers each has.
FORMS = {b"segment": 3, b"point": 2}

ANSWERED = (
    (
        "points before, between and behind segments",
        """
        point 6 7 -> below 5
        segment 0 10 5
        segment 2 6 8
        point 11 0 -> none
    """,
    ),
    (
        "nine points of three segments",
        """
        segment 0 10 5
        segment 2 6 8
        segment 6 9 3
        point 0 5 -> below 5
        point 2 9 -> below 8
        point 6 7 -> below 5
        point 6 3 -> below 3
        point 6 9 -> below 8
        point 7 9 -> below 5
        point 10 4 -> none
        point 11 9 -> none
        point -1 9 -> none
    """,
    ),
    (
        "one height, one behind the other",
        """
        segment 0 5 1
        segment 6 9 1
        point 5 1 -> below 1
        point 6 1 -> below 1
    """,
    ),
    (
        "a segment that covers nothing",
        """
        segment 0 9 1
        segment 5 3 1
        point 4 1 -> below 1
    """,
    ),
    (
        "two that cover nothing, with a point between",
        """
        segment 5 3 1
        point 4 1 -> none
        segment 5 3 1
    """,
    ),
    (
        "segments side by side, and no point",
        """
        segment 0 5 1
        segment 6 9 1
    """,
    ),
    (
        "points before all numbers",
        f"""
        point {LEAST} {LEAST} -> below {LEAST}
        point {GREATEST} {GREATEST} -> below {GREATEST}
        segment {LEAST} {GREATEST} {LEAST}
        segment {GREATEST} {GREATEST} {GREATEST}
    """,
    ),
    (
        "two that cover nothing",
        """
        segment 5 3 1
        segment 5 3 1
        point 4 1 -> none
    """,
    ),
    ("a point alone", "point 0 0 -> none"),
    (
        "one point twice",
        """
        point 1 7 -> below 7
        segment 0 1 7

        point 1 7 -> below 7
    """,
    ),
    (
        "segments alone",
        """
        segment 0 5 1
        segment 0 5 2
    """,
    ),
    (
        "all numbers",
        f"""
        segment {LEAST} {GREATEST} {LEAST}
        point {LEAST} {LEAST} -> below {LEAST}
        point {GREATEST} {GREATEST} -> below {GREATEST}
        segment {GREATEST} {GREATEST} {GREATEST}
    """,
    ),
    (
        "signs and zeros",
        """
        segment +0 010 -5
        point -0 -0 -> below -5
    """,
    ),
)

# Each with the line of the segment that collides.
OVERLAPPING = (
    ("at one place", 3, ("segment 0 5 1", "point 0 0", "segment 5 9 1")),
    ("blank lines count", 5, ("", "segment 0 5 1", " ", "", "segment 5 9 1", "")),
    ("the later one stands on the first line", 1, ("segment 5 9 1", "segment 0 5 1")),
    ("the first by its left end", 3, ("segment 0 9 1", "segment 8 9 1", "segment 3 4 1")),
    ("behind the last point", 3, ("segment 0 1 7", "segment 50 60 2", "segment 55 56 2", "point 0 7")),
    ("behind the last point, which stands before it", 4, ("segment 0 1 7", "point 0 7", "segment 50 60 2", "segment 55 56 2")),
    ("one segment of one place twice", 2, ("segment 3 3 0", "segment 3 3 0")),
    ("lines of white space count", 7, ("", "", "segment 0 5 1", " \t", "point 0 0", "\r", "segment 5 9 1", "")),
    ("one segment twice", 3, ("point 0 0", "segment 1 1 1", "segment 1 1 1")),
    ("the greatest number", 2, (f"segment 0 {GREATEST} 1", f"segment {GREATEST} {GREATEST} 1")),
)

# Lines that are faulty.
FAULTY = (
    *("segment 0 5", "segment 0 5 1 2", "segment 0 5 x", "segment", "point 0", "point 0 0 0", "point"),
    *("points 0 0", "Point 0 0", "segment 0 2147483648 1", "point 0 -2147483649", "overlap 1"),
    *("clear", "insert 0 1 2 3", "query 0 1 2", "less 0 -1 4", "find 4"),
    *("segmentx 0 5 1", "segment -2147483649 0 0", "point 0 2147483648", "Segment 0 5 1", "edge 0 0 1 1"),
)


def overlapping(name, given, line, how=by_file):
    """The case that the segment of this line collides."""
    return Case(f"sweep: {name}", ["sweep"], given, Outcome(2, b"", b"itree: overlap %d\n" % line), how)


def worked():
    """Cases of the rows. A faulty line is told where segments before it overlap."""
    for name, said in ANSWERED:
        given, replies = dialogue(said)
        yield answered(name, "sweep", given, replies)
        yield answered(f"{name}, through a pipe", "sweep", given, replies, by_pipe)
    for name, line, said in OVERLAPPING:
        yield overlapping(f"overlap, {name}", lines(*said), line)
    for text in FAULTY:
        given = lines("segment 0 5 1", "segment 5 9 1", text, "nonsense")
        yield refused(f"the line '{text}'", "sweep", given, 3)


def far_lines():
    """Cases of faults on line 100,000."""
    first, points = "segment 0 5 1", ["point 0 0"] * 99_998
    yield overlapping("overlap on line 100,000", lines(first, *points, "segment 5 9 1"), 100_000)
    yield refused("a faulty line 100,000 of segments", "sweep", lines(first, *points, "segment 0 5"), 100_000)


def overlaps_told():
    """Cases of overlaps over streams that fail."""
    overlap = b"segment 0 5 1\npoint 0 0\nsegment 5 9 1\n"
    for name, how, is_told in streams.FAULTY:
        told = Outcome(2, b"", b"itree: overlap 3\n" if is_told else b"")
        yield Case(f"sweep: overlap, {name}", ["sweep"], overlap, told, how)


def odd_texts():
    """Cases of texts by chance, some of them spoilt."""
    for text in texts_by_chance(FORMS):
        said, name = read(text, FORMS), f"by chance, {text!r}"
        if isinstance(said, int):
            yield refused(name, "sweep", text, said)
        else:
            numbers = [number for number, line in said if line.startswith("segment")]
            items = [tuple(map(int, line.split()[1:])) for _, line in said]
            yield swept(name, text, items, numbers)


def swept(name, given, items, numbers):
    """The case of these segments and points, where the segments stand on the lines of these numbers."""
    segments = [item for item in items if len(item) == 3]
    points = [item for item in items if len(item) == 2]
    place = colliding(segments)
    if place is not None:
        return overlapping(f"overlap, {name}", given, numbers[place])
    heights = heights_below(segments, points)
    served = ("none" if height is None else f"below {height}" for height in heights)
    return answered(name, "sweep", given, lines(*served))


def by_chance(count, collisions):
    """Segments, of which so many collide with others, and as many points, in an order by chance."""
    random = Random(SEED)
    chance = random.random
    items = [(int(chance() * 600_000) - 210_000, int(chance() * 300_200) - 100) for _ in range(count // 2)]
    for at in range(count - len(items)):
        # The next one of the same height begins 22,500 further to the right.
        left = at * 3 // 4 - 200_000
        length = int(chance() * 20_000) - 2 if at >= collisions else 30_000
        items.append((left, left + length, at % 30_000 * 10))
    random.shuffle(items)
    return items


def line_of(item):
    return f"{'segment' if len(item) == 3 else 'point'} {' '.join(map(str, item))}"


def many(collisions):
    """The case of a million lines."""
    items = by_chance(MANY, collisions)
    numbers = [number for number, item in enumerate(items, 1) if len(item) == 3]
    yield swept(f"{MANY} lines by chance, {collisions} collide", lines(*map(line_of, items)), items, numbers)


PARTS = (
    *(worked, far_lines, overlaps_told, odd_texts, partial(many, 0), partial(many, 10)),
    *(partial(part, [PLAIN]) for part in (empty_texts, plain_lines, line_numbers, streams.each_mode)),
)
