#!/usr/bin/env python3
"""Draws the pictures of the documents, each as a small SVG beside this script.

usage: draw.py            writes them all
       draw.py --check    compares each with what it would write, and ends with 'N passed, M failed'

Some stand in files of their own: `stages.py` (the way from rings to polygons, and counts in columns), `chords.py` (rings cut
into stretches), `tiles.py` (windows, and tiles that are joined), `growing.py` (polygons that grow) and `sizes.py` (the crates,
which it reads from crates.txt with their lines, and the rooms of i_tree).

`sweep.svg` shows `sweep.lines`, with the answers that `sweep.replies` has: the process tests run the program over the one
and compare what it prints with the other. So does `locate.svg` with `locate.lines` and `locate.replies`, and `snap.svg` with
`snap.lines` and `snap.replies`; and `overlay.svg` shows `overlay.lines`, with the answers of the four operations.
"""

import os
import sys

sys.dont_write_bytecode = True

import chords
import growing
import sizes
import stages
import tiles
from shapes import (
    BLACK,
    BLUE,
    GREEN,
    HERE,
    INK,
    PALE,
    PAPER,
    RED,
    SOFT,
    box,
    dot,
    line,
    pairs_of,
    picture,
    polygons_of,
    text,
    words_of,
)

# A red-black tree.


def node(x, y, name, colour, expired=False):
    fill = RED if colour == "r" else BLACK
    parts = [dot(x, y, 16, fill)]
    if expired:
        parts.append(f'<circle cx="{x}" cy="{y}" r="20" fill="none" stroke="{SOFT}" stroke-dasharray="4 3"/>')
    parts.append(text(x, y + 5, str(name), 14, fill=PAPER, weight="bold"))
    return parts


def edges(pairs):
    return [line(*one, *other) for one, other in pairs]


# Slots and the free chain.


def slots():
    """Keys 1 to 4 were inserted in this order, and 3 was removed: slot 5, which it had, is the first free one."""
    said = ["reserved", "free", "free", "free", "4", "free", "2", "1"]
    colours = {4: RED, 6: BLACK, 7: RED}
    parts = [text(20, 24, "the tree", 13, "start", SOFT)]
    places = {6: (360, 40), 7: (290, 95), 4: (430, 95)}
    parts += edges([(places[6], places[7]), (places[6], places[4])])
    for slot, key, colour in [(6, 2, "b"), (7, 1, "r"), (4, 4, "r")]:
        x, y = places[slot]
        parts += [*node(x, y, key, colour), text(x + 24, y + 4, f"slot {slot}", 12, "start", SOFT)]
    parts.append(text(20, 160, "its slots", 13, "start", SOFT))
    for slot in range(8):
        x = 30 + 84 * slot
        used = slot in colours
        parts.append(box(x, 180, 76, 40, PAPER if not used else "#e8f0fa", SOFT, dashed=not used))
        if used:
            parts += [dot(x + 22, 200, 11, colours[slot]), text(x + 22, 205, said[slot], 13, fill=PAPER, weight="bold")]
            parts.append(text(x + 53, 205, "used", 12, fill=SOFT))
        else:
            parts.append(text(x + 38, 205, said[slot], 12, fill=SOFT))
        parts.append(text(x + 38, 236, f"slot {slot}", 12, fill=SOFT))
    for start, end in [(5, 3), (3, 2), (2, 1)]:
        x0, x1 = 30 + 84 * start + 38, 30 + 84 * end + 38
        lift = 14 + 7 * (start - end)
        parts.append(
            f'<path d="M{x0 - 8} 242C{x0 - 14} {246 + lift} {x1 + 14} {246 + lift} {x1 + 8} 242" fill="none" '
            f'stroke="{SOFT}" stroke-width="1.5" marker-end="url(#head)"/>'
        )
    parts += [line(540, 262, 496, 243, arrow=True), text(544, 268, "the first free slot", 12, "start", SOFT)]
    parts.append(
        text(
            30,
            290,
            "A handle is a slot's number. A free slot holds the number of the next one; slot 0 is never used.",
            13,
            "start",
        )
    )
    return picture("A tree of three keys in eight slots, and the chain of the free ones", 720, 305, parts)


# A descent that removes.


def frame(x, said, nodes, links, route):
    parts = [box(x, 12, 218, 205, PAPER)]
    parts += [line(*nodes[one][:2], *nodes[other][:2]) for one, other in links]
    parts += [line(*nodes[one][:2], *nodes[other][:2], BLUE, 4) for one, other in route]
    for key, (at_x, at_y, colour, expired) in nodes.items():
        parts += node(at_x, at_y, key, colour, expired)
    for row, words in enumerate(said):
        parts.append(text(x + 10, 168 + 18 * row, words, 12, "start"))
    return parts


def descent():
    """Keys 1 to 4, of which 3 is expired, are asked for the greatest below 9."""
    first = {2: (129, 45, "r", False), 1: (84, 90, "b", False), 3: (174, 90, "b", True), 4: (205, 135, "r", False)}
    second = {2: (360, 45, "b", False), 1: (315, 90, "r", False), 4: (405, 90, "r", False)}
    third = {2: (591, 45, "b", False), 1: (546, 90, "r", False), 4: (636, 90, "r", False)}
    parts = [
        *frame(20, ["2 is live and below 9: go right.", "3 is expired."], first, [(2, 1), (3, 4)], [(2, 3)]),
        *frame(251, ["3 goes, and the tree is mended.", "The right child of 2 is read again."], second, [(2, 1), (2, 4)], []),
        *frame(482, ["4 is live and below 9: go right.", "Nothing is there: 4 is the answer."], third, [(2, 1)], [(2, 4)]),
        text(
            360, 240, "2 comparisons, 1 removal, 3 tests whether a key is live; over four keys the bound is 4 comparisons.", 13
        ),
        line(92, 260, 122, 260, BLUE, 4),
        text(130, 264, "the link that the step went down", 13, "start"),
        text(380, 264, "A red root is no mistake: its colour is free.", 13, "start"),
    ]
    return picture("A search below 9 that removes the expired key 3 on its way", 720, 280, parts)


# Buckets and canonical nodes.


def covered(number):
    """The buckets that a node of the heap covers."""
    if number == 0:
        return 0, 31
    first, last = covered((number - 1) // 2)
    middle = (first + last) // 2
    return (first, middle) if number % 2 == 1 else (middle + 1, last)


def canonical(first, last):
    """The nodes all of whose buckets are of the interval, and not all of their parent's."""

    def within(number):
        low, high = covered(number)
        return first <= low and high <= last

    return [number for number in range(63) if within(number) and not (number and within((number - 1) // 2))]


def buckets():
    chosen = canonical(1, 30)
    left, unit = 24, 21
    parts = [text(left, 20, "a segment over the buckets 1 to 30", 13, "start", BLUE)]
    parts.append(text(left + unit * 32, 20, "in the boxes: nodes; below them: buckets", 13, "end", SOFT))
    parts.append(line(left + unit * 1 + 2, 32, left + unit * 31 - 2, 32, BLUE, 5))
    for number in range(63):
        first, last = covered(number)
        level = (number + 1).bit_length() - 1
        x, y = left + unit * first + 1, 46 + 28 * level
        here = number in chosen
        parts.append(box(x, y, unit * (last - first + 1) - 2, 22, BLUE if here else PALE, BLUE if here else SOFT))
        parts.append(text(x + unit * (last - first + 1) / 2 - 1, y + 15, str(number), 11, fill=PAPER if here else SOFT))
    for bucket in range(0, 32):
        parts.append(text(left + unit * bucket + unit / 2, 230, str(bucket), 10, fill=SOFT))
    parts.append(
        text(
            360,
            250,
            f"32 buckets below 63 nodes. The {len(chosen)} nodes in blue together cover the buckets 1 to 30, and no other.",
            13,
        )
    )
    return picture("The canonical nodes of the buckets 1 to 30", 720, 265, parts)


# A sweep, from lines that the program answers.


def scene(name, word):
    """The lines of a run that begin with the word, each with its number, and its points with their replies."""
    said = [(words[0], tuple(map(int, words[1:])), number) for number, words in enumerate(words_of(f"{name}.lines"), 1)]
    things = [(numbers, number) for kind, numbers, number in said if kind == word]
    points = [numbers for kind, numbers, _ in said if kind == "point"]
    replies = [" ".join(words) for words in words_of(f"{name}.replies")]
    if len(points) != len(replies):
        sys.exit(f"{name}.replies has another number of replies than {name}.lines has points")
    return things, list(zip(points, replies))


def at(x, y):
    """Where a point of a run stands in the picture."""
    return 60 + 54 * x, 290 - 26 * y


def axes():
    (left, floor), (right, _), (_, top) = at(0, 0), at(11.5, 0), at(0, 10)
    parts = [line(left, floor, right, floor, INK, 1), line(left, floor, left, top, INK, 1)]
    parts += [text(right + 12, floor + 4, "x", 13), text(left, top - 10, "y", 13)]
    parts += [text(at(x, 0)[0], floor + 18, str(x), 12, fill=SOFT) for x in range(0, 12)]
    return parts + [text(left - 12, at(0, y)[1] + 4, str(y), 12, "end", SOFT) for y in range(0, 10)]


def asked(x, y, height, reply, lift):
    """A point, the way down from it to a height, and its reply on the left, lifted by so much."""
    (at_x, at_y), (_, below) = at(x, y), at(x, height)
    ink = SOFT if reply == "none" else GREEN
    way = line(at_x, at_y, at_x, below, ink, 1.5, dashed=True)
    return [way, dot(at_x, at_y, 5, ink), text(at_x - 9, at_y + 4 - lift, reply, 12, "end", ink)]


def sweep():
    segments, asks = scene("sweep", "segment")
    parts = axes()
    for (x0, x1, y), _ in segments:
        (from_x, at_y), (to_x, _) = at(x0, y), at(x1, y)
        parts.append(line(from_x, at_y, to_x, at_y, BLUE, 4))
        parts += [dot(from_x, at_y, 4, BLUE), dot(to_x, at_y, 4, BLUE)]
    for (x, y), reply in asks:
        height = 0 if reply == "none" else int(reply.split()[1])
        parts += asked(x, y, height, reply, 9)
    return picture("Three segments, and what lies straight below each of six points", 720, 320, parts)


def hole(x, y):
    """An end that its edge doesn't cover."""
    return f'<circle cx="{x}" cy="{y}" r="6" fill="{PAPER}" stroke="{BLUE}" stroke-width="2"/>'


def way_of(point, reply, by_line):
    """A point among edges, with its reply and the way down to the edge of that line, or to the floor."""
    x, y = point
    height = 0
    if reply != "none":
        x0, y0, x1, y1 = by_line[reply.split()[1]]
        height = y0 + (y1 - y0) * (x - x0) / (x1 - x0)
    return asked(x, y, height, reply, 0)


def locate():
    edges, asks = scene("locate", "edge")
    by_line = {str(number): numbers for numbers, number in edges}
    parts, holes, ends = axes(), [], []
    for (x0, y0, x1, y1), number in edges:
        (from_x, from_y), (to_x, to_y) = sorted([at(x0, y0), at(x1, y1)])
        parts.append(line(from_x, from_y, to_x, to_y, BLUE, 4))
        ends.append(dot(from_x, from_y, 4, BLUE))
        holes.append(hole(to_x, to_y))
        parts.append(text((from_x + to_x) // 2, (from_y + to_y) // 2 - 10, str(number), 13, fill=BLUE, weight="bold"))
    for point, reply in asks:
        parts += way_of(point, reply, by_line)
    parts += [*holes, *ends, dot(148, 336, 4, BLUE), hole(390, 336)]
    parts.append(text(160, 340, "an end that its edge covers", 12, "start", SOFT))
    parts.append(text(404, 340, "one that it doesn't cover", 12, "start", SOFT))
    return picture("Four sloped edges, and which of them lies straight below each of five points", 720, 355, parts)


# Edges and their chains, from lines that the program answers.


def on_grid(x, y):
    """Where a point of a run stands among squares."""
    return 60 + 66 * x, 390 - 66 * y


def grid():
    """The whole points, and what stands beside them."""
    (left, floor), (right, top) = on_grid(-0.5, -0.5), on_grid(9.2, 5.5)
    parts = [line(left, floor, right, floor, INK, 1), line(left, floor, left, top, INK, 1)]
    parts += [text(right + 12, floor + 4, "x", 13), text(left, top - 8, "y", 13)]
    parts += [text(on_grid(x, 0)[0], floor + 18, str(x), 12, fill=SOFT) for x in range(0, 10)]
    parts += [text(left - 10, on_grid(0, y)[1] + 4, str(y), 12, "end", SOFT) for y in range(0, 6)]
    return parts + [dot(*on_grid(x, y), 2, SOFT) for x in range(0, 10) for y in range(0, 6)]


def square(x, y):
    """What rounds to a hot point: its left and its lower border are drawn, which are of it."""
    (left, low), (right, high) = on_grid(x - 0.5, y - 0.5), on_grid(x + 0.5, y + 0.5)
    ground = f'<rect x="{left}" y="{high}" width="{right - left}" height="{low - high}" fill="{PALE}"/>'
    return [ground, line(left, low, right, low, SOFT, 1), line(left, low, left, high, SOFT, 1)]


def chain_of(points):
    places = " ".join(f"{x},{y}" for x, y in (on_grid(*point) for point in points))
    return f'<polyline points="{places}" fill="none" stroke="{GREEN}" stroke-width="4" stroke-linejoin="round"/>'


def snap():
    edges, chains = ([pairs_of(words) for words in words_of(f"snap.{kind}")] for kind in ("lines", "replies"))
    hot = sorted({point for points in chains for point in points})
    parts = [part for point in hot for part in square(*point)] + grid()
    parts += [chain_of(points) for points in chains]
    for number, (begin, end) in enumerate(edges, 1):
        (from_x, from_y), (to_x, to_y) = on_grid(*begin), on_grid(*end)
        parts.append(line(from_x, from_y, to_x, to_y, BLUE, 1.5))
        parts.append(text(from_x - 14, from_y - 8, str(number), 13, fill=BLUE, weight="bold"))
    parts += [dot(*on_grid(*point), 5, INK) for point in hot]
    parts += [line(60, 474, 90, 474, BLUE, 1.5), text(98, 478, "an edge", 12, "start", SOFT)]
    parts += [line(180, 474, 210, 474, GREEN, 4), text(218, 478, "its chain", 12, "start", SOFT)]
    parts += [dot(320, 474, 5, INK), text(332, 478, "a hot point, and the square of what rounds to it", 12, "start", SOFT)]
    return picture("Three edges, their hot points, and the chains that go over these", 720, 496, parts)


# Two rings, and the edges that a fill keeps for their union.

# Edges that aren't vertical, the winding numbers below them and above them, by subject and clip, and whether they are kept.
COUNTED = [
    ((1, 1), (6, 1), "0, 0", "1, 0", True),
    ((4, 2), (6, 2), "1, 0", "1, 1", False),
    ((6, 2), (9, 2), "0, 0", "0, 1", True),
    ((4, 4), (1, 4), "1, 0", "0, 0", True),
    ((6, 4), (4, 4), "1, 1", "0, 1", False),
    ((9, 5), (4, 5), "0, 1", "0, 0", True),
]

# The vertical edges of both, and those that close the kept ones.
UPRIGHT = [((6, 2), (6, 4)), ((4, 4), (4, 2))]
CLOSING = [((6, 1), (6, 2)), ((9, 2), (9, 5)), ((4, 5), (4, 4)), ((1, 4), (1, 1))]


def kept_way(start, end):
    """A kept edge, with a head in its middle that tells its way."""
    (x0, y0), (x1, y1) = on_grid(*start), on_grid(*end)
    x, y = (x0 + x1) / 2, (y0 + y1) / 2
    along, up = (x1 > x0) - (x1 < x0), (y1 > y0) - (y1 < y0)
    tip = f"{x + 10 * along},{y + 10 * up}"
    sides = [f"{x - 6 * along + 8 * side * up},{y - 6 * up + 8 * side * along}" for side in (1, -1)]
    return [line(x0, y0, x1, y1, GREEN, 4), f'<polygon points="{" ".join([tip, *sides])}" fill="{GREEN}"/>']


def fill():
    parts = grid()
    for start, end, below, above, is_kept in COUNTED:
        (x0, y), (x1, _) = on_grid(*start), on_grid(*end)
        parts += kept_way(start, end) if is_kept else [line(x0, y, x1, y, BLUE, 1.5)]
        left = min(x0, x1) + 28
        parts += [text(left, y - 8, above, 12), text(left, y + 18, below, 12)]
    parts += [line(*on_grid(*start), *on_grid(*end), BLUE, 1.5) for start, end in UPRIGHT]
    parts += [part for way in CLOSING for part in kept_way(*way)]
    parts += [dot(*on_grid(*end), 4, INK) for ends in [(one, other) for one, other, *_ in COUNTED] for end in ends]
    parts += [text(*on_grid(2.4, 2.4), "subject", 13, fill=SOFT), text(*on_grid(7.5, 3.4), "clip", 13, fill=SOFT)]
    parts += [line(60, 474, 90, 474, BLUE, 1.5), text(98, 478, "left out", 12, "start", SOFT)]
    parts += [line(180, 474, 210, 474, GREEN, 4), text(218, 478, "kept", 12, "start", SOFT)]
    parts.append(text(300, 478, "1, 0: the winding numbers of the subject and of the clip", 12, "start", SOFT))
    return picture(
        "Two rings, the winding numbers on both sides of each edge, and the edges kept for their union", 720, 496, parts
    )


# Two shapes, and what the four operations make of them, from lines that the program answers.


def in_panel(panel, x, y):
    """Where a point of a run stands in the panel of this number: the two shapes, and behind them what is made of them."""
    if panel == 0:
        return 20 + 14 * x, 258 - 14 * y
    return 326 + 200 * ((panel - 1) % 2) + 9 * x, 140 + 170 * ((panel - 1) // 2) - 9 * y


def region(panel, rings, stroke):
    """What is inside the rings, by the even-odd rule, with a dot at each vertex."""
    ways = "".join(
        "M" + "L".join(f"{x:g} {y:g}" for x, y in (in_panel(panel, *point) for point in ring)) + "Z" for ring in rings
    )
    area = f'<path d="{ways}" fill="{stroke}" fill-opacity="0.3" fill-rule="evenodd" stroke="{stroke}" stroke-width="2"/>'
    return [area, *(dot(*in_panel(panel, *point), 4 if panel == 0 else 3, stroke) for ring in rings for point in ring)]


def overlay():
    lines = words_of("overlay.lines")
    subject, clip = ([pairs_of(words) for words in lines if words[0] == kind] for kind in ("subject", "clip"))
    parts = [*region(0, subject, BLUE), *region(0, clip, RED)]
    parts += [text(*in_panel(0, 2.4, 9.6), "subject", 14, fill=BLUE), text(*in_panel(0, 15.8, 5.7), "clip", 14, fill=RED)]
    for panel, operation in enumerate(("union", "intersection", "difference", "xor"), 1):
        for rings in polygons_of(words_of(f"overlay.{operation}")):
            parts += region(panel, rings, GREEN)
        x, y = in_panel(panel, 6, 0)
        parts.append(text(x, y + 20, operation, 14))
    return picture("A square with a hole and a rhomb, and their union, intersection, difference and xor", 720, 346, parts)


PICTURES = {
    **{"layers": sizes.layers, "rooms": sizes.rooms, "slots": slots, "descent": descent, "buckets": buckets},
    **{"sweep": sweep, "locate": locate, "snap": snap, "fill": fill, "overlay": overlay},
    **{"stages": stages.stages, "columns": stages.columns, "chords": chords.chords, "tiles": tiles.tiles},
    "growing": growing.growing,
}


def kept(path):
    try:
        with open(path, encoding="utf-8") as held:
            return held.read()
    except FileNotFoundError:
        return None


def main():
    failed = 0
    for name, draw in PICTURES.items():
        path = os.path.join(HERE, f"{name}.svg")
        if sys.argv[1:] == ["--check"]:
            if kept(path) != draw():
                print(f"FAILED {name}.svg is not what draw.py draws")
                failed += 1
        else:
            with open(path, "w", encoding="utf-8") as held:
                held.write(draw())
    if sys.argv[1:] == ["--check"]:
        print(f"{len(PICTURES) - failed} passed, {failed} failed")
    return 1 if failed else 0


if __name__ == "__main__":
    sys.exit(main())
