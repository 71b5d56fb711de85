"""Two rings cut into stretches by the rules of `stretches_of`, with its own numbers: so few points are worked out here."""

import math
from typing import NamedTuple

from shapes import BLUE, GREEN, INK, RED, SOFT, box, dot, line, picture, text

# At most so many edges has a part at first, of few edges in all; and once others come near, and once they still do.
LONGEST, SHORTER, SINGLE = 32, 8, 1

# Of fewer edges a run is cut into single ones.
SHORTEST = 4


class Place(NamedTuple):
    """Where a ring lies, how large it is, and how many points and waves it has."""

    x: int
    y: int
    reach: int
    height: float
    points: int
    waves: int


RINGS = Place(1500, 1480, 1180, 0.13, 150, 4), Place(2560, 1700, 620, 0.1, 80, 3)


def ring_of(place):
    """A circle with waves, at whole points."""
    points = []
    for number in range(place.points):
        angle = 2 * math.pi * number / place.points
        reach = place.reach * (1 + place.height * math.sin(place.waves * angle))
        points.append((round(place.x + reach * math.cos(angle)), round(place.y + reach * math.sin(angle))))
    return points


def way(one, other):
    return (one[0] < other[0]) - (other[0] < one[0])


def runs_of(ring):
    """The points along which x rises, or falls, as lists that share their ends; the closing edge is a run of its own."""
    runs = [ring[:2]]
    for one, other in zip(ring[1:], ring[2:]):
        if way(one, other) and way(one, other) == way(*runs[-1][:2]):
            runs[-1] = [*runs[-1], other]
        else:
            runs.append([one, other])
    return [*runs, [ring[-1], ring[0]]]


def cut(points, most):
    """The parts of so many edges at most."""
    return [points[at : at + most + 1] for at in range(0, len(points) - 1, most)]


def parts_of(ring):
    """The parts of a ring before others come near: the first edge of a run and the last one stand alone."""
    parts = []
    for run in runs_of(ring):
        if len(run) - 1 < SHORTEST:
            parts += cut(run, SINGLE)
        else:
            parts += [run[:2], *cut(run[1:-1], LONGEST), run[-2:]]
    return parts


def box_of(part):
    """The least box of a part, a unit wider and higher."""
    xs, ys = zip(*part)
    return min(xs), min(ys), max(xs) + 1, max(ys) + 1


def boxes_meet(one, other):
    return one[0] <= other[2] and other[0] <= one[2] and one[1] <= other[3] and other[1] <= one[3]


def goes_on(one, other):
    """Whether the other part begins, along x, where the one ends, and both have no other points near there."""
    left, right = sorted(one), sorted(other)
    return left[-1] == right[0] and left[-2][0] + 1 < left[-1][0] and right[0][0] + 1 < right[1][0]


def lies_beside(one, other):
    """Whether all points of the other part lie on one side of the chord, further than those of the one by more than a unit."""
    (x0, y0), (x1, y1) = one[0], one[-1]
    u, v = x1 - x0, y1 - y0

    def heights(part, side):
        return [side * (u * (y - y0) - v * (x - x0)) for x, y in part]

    return any(max(heights(one, side)) + abs(u) + abs(v) < min(heights(other, side)) for side in (1, -1))


def come_near(one, other):
    if len(one) == len(other) == 2 or not boxes_meet(box_of(one), box_of(other)):
        return False
    return not (goes_on(one, other) or goes_on(other, one) or lies_beside(one, other) or lies_beside(other, one))


def busy_of(parts):
    """The places of the parts to which others come near."""
    return {
        at for at, one in enumerate(parts) if any(come_near(one, other) for place, other in enumerate(parts) if place != at)
    }


def refined(parts, most):
    """The parts, those to which others come near cut into parts of so many edges."""
    busy = busy_of(parts)
    return [short for at, part in enumerate(parts) for short in (cut(part, most) if at in busy else [part])]


# Drawing.


class Panel:
    def __init__(self, left):
        self.left = left

    def at(self, point):
        return round(self.left + point[0] / 9.6, 1), round(330 - point[1] / 9.6, 1)

    def chain(self, points, ink, width):
        places = " ".join("{},{}".format(*self.at(point)) for point in points)
        return f'<polyline points="{places}" fill="none" stroke="{ink}" stroke-width="{width}"/>'

    def box(self, part, ink):
        left, low, right, high = box_of(part)
        (x0, y0), (x1, y1) = self.at((left, high)), self.at((right, low))
        return (
            f'<rect x="{x0}" y="{y0}" width="{x1 - x0:.1f}" height="{y1 - y0:.1f}" fill="{ink}" fill-opacity="0.08" '
            f'stroke="{ink}" stroke-width="0.8" stroke-dasharray="3 3"/>'
        )

    def chords(self, parts):
        """The chords of parts with several edges over these, and single edges as they are."""
        long = [part for part in parts if len(part) > 2]
        drawn = [self.chain(part, SOFT, 1) for part in long]
        drawn += [self.chain(part, BLUE, 2) for part in parts if len(part) == 2]
        drawn += [line(*self.at(part[0]), *self.at(part[-1]), GREEN, 2.5) for part in long]
        return drawn + [dot(*self.at(point), 3, INK) for part in long for point in (part[0], part[-1])]


def numbers(parts):
    long = sum(len(part) > 2 for part in parts)
    return f"{long} chords and {len(parts) - long} single edges"


def chords():
    rings = [ring_of(place) for place in RINGS]
    first = [part for ring in rings for part in parts_of(ring)]
    last = refined(refined(first, SHORTER), SINGLE)
    busy = busy_of(first)
    one, other = Panel(18), Panel(374)
    parts = [one.box(first[at], RED) for at in sorted(busy)] + one.chords(first) + other.chords(last)
    runs = [run for ring in rings for run in runs_of(ring)]
    edges = sum(map(len, rings))
    said = [
        (20, f"1. {edges} edges in {len(runs)} runs, cut where x turns", f"and behind {LONGEST} edges: {numbers(first)}"),
        (372, f"2. Where others are near cut behind {SHORTER} edges, and", f"then into single ones: {numbers(last)}"),
    ]
    parts += [text(x, 22 + 17 * row, words, 12, "start") for x, *lines in said for row, words in enumerate(lines)]
    parts += [line(20, 336, 46, 336, GREEN, 2.5), text(52, 340, "a chord, in place of several edges", 12, "start", SOFT)]
    parts += [line(290, 336, 316, 336, BLUE, 2), text(322, 340, "a single edge", 12, "start", SOFT)]
    parts += [
        box(440, 328, 26, 16, "#fbeeee", RED, dashed=True),
        text(472, 340, "a part that others are near", 12, "start", SOFT),
    ]
    return picture("Runs of two rings, and chords in place of their stretches", 720, 356, parts)
