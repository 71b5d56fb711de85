"""What grows and shrinks, in whole units: the shape that goes round, its sums with rings and lines, and the rest of rings."""

from __future__ import annotations

import array
import math
from typing import Callable, List, NamedTuple, Sequence, Tuple

from . import _answers
from ._answers import Handle, Lists
from ._calls import made
from ._library import RANGE, SHAPE, library
from ._overlay import OPERATIONS, RULES
from ._rows import _GREATEST, _LEAST
from ._shapes import NOTHING, HeldRings, held_rings

Point = Tuple[int, int]

# No circle has more corners.
MOST_CORNERS = 8192
_NON_ZERO, _UNION, _DIFFERENCE = RULES["nonzero"], OPERATIONS["union"], OPERATIONS["difference"]
NOT_CONVEX = "the corners of a convex polygon with the origin inside are wanted, counterclockwise"
TOO_FAR = "what has grown leaves the numbers of 32 bits"


class Join(NamedTuple):
    """How a corner is joined that turns left where polygons grow, as the library has it."""

    style: int = 0
    # How far a mitre may go, in hundredths of the distance.
    limit: int = 0


ROUND, BEVEL, MITRE = 0, 1, 2
_ROUND_JOIN = Join()


def circle(radius: int, corners: int) -> List[Point]:
    """So many corners of a circle, or fewer where whole points have no more, counterclockwise from (radius, 0) on.

    corners: a multiple of 4. Each corner is rounded inwards: so none lies outside of the circle, nor 1.5 within it.
    """
    quarter = corners // 4
    turns = [2 * math.pi * place / corners for place in range(quarter)]
    first = [(radius, 0), *((int(radius * math.cos(it)), int(radius * math.sin(it))) for it in turns[1:])]
    # Turned by a right angle three times, so that each side has an opposite one.
    around = [*first, *((-y, x) for x, y in first), *((-x, -y) for x, y in first), *((y, -x) for x, y in first)]
    return hull(around)


def hull(points: Sequence[Point]) -> List[Point]:
    """The corners of the least convex polygon around points, counterclockwise, at each of which it turns left."""
    ordered = sorted(set(points))
    lower, upper = _half(ordered), _half(ordered[::-1])
    found = [*lower[:-1], *upper[:-1]]
    # From the corner on that lies furthest to the right.
    start = found.index(max(found, key=lambda it: (it[0], -abs(it[1])))) if found else 0
    return [*found[start:], *found[:start]]


def _half(ordered: Sequence[Point]) -> List[Point]:
    half: List[Point] = []
    for point in ordered:
        while len(half) > 1 and _turn(half[-2], half[-1], point) <= 0:
            half.pop()
        half.append(point)
    return half


def _turn(first: Point, second: Point, third: Point) -> int:
    """Above 0 where the way over three points turns left, below 0 where it turns right."""
    (x0, y0), (x1, y1), (x2, y2) = first, second, third
    return (x1 - x0) * (y2 - y1) - (y1 - y0) * (x2 - x1)


def corners_for(distance: float, quad_segs: int, tolerance: float) -> int:
    """How many corners a circle has: 4 * quad_segs; or where a tolerance isn't 0, so many that its sides come no nearer to
    the middle than the distance less the tolerance."""
    if not tolerance:
        return min(4 * quad_segs, MOST_CORNERS)
    half = math.acos(max(0.0, 1 - tolerance / distance))
    wanted = math.pi / half if half > math.pi / MOST_CORNERS else MOST_CORNERS
    return min(max(4, 4 * math.ceil(wanted / 4)), MOST_CORNERS)


def minkowski_sum(rings: HeldRings, shape: Sequence[Point], rule: int, limit: int) -> Lists:
    """The polygons of the sum of what is inside of rings and a shape, where the library wrote them.

    Raises ValueError where a ring stops where it can't, or the shape is none, and OverflowError where the sum leaves 32 bits.
    """
    return _made_of(library.itree_minkowski, rings, shape, [rule], limit)


def joined_sum(rings: HeldRings, shape: Sequence[Point], rule: int, join: Join, limit: int) -> Lists:
    """The polygons that what is inside of rings becomes when it grows by a shape, with corners joined so.

    Raises what `minkowski_sum` does.
    """
    return _made_of(library.itree_minkowski_joined, rings, shape, [rule, *join], limit)


def eroded(rings: HeldRings, shape: Sequence[Point], rule: int, limit: int) -> Lists:
    """The polygons of what is left of the inside of rings: of the points around which all of the shape lies inside.

    Raises what `minkowski_sum` does.
    """
    return _made_of(library.itree_erode, rings, shape, [rule], limit)


def grown_lines(lines: HeldRings, shape: Sequence[Point], limit: int) -> Lists:
    """The polygons of the sum of lines and a shape; a line of one point becomes the shape there.

    Raises what `minkowski_sum` does.
    """
    return _made_of(library.itree_grow_lines, lines, shape, [], limit)


def _made_of(call: Callable[..., int], rings: HeldRings, shape: Sequence[Point], words: List[int], limit: int) -> Lists:
    """What a call of the library makes of rings, or lines, and a shape."""
    handle, corners = Handle(library.itree_polygons_free), array.array("i")
    try:
        for point in shape:
            corners.extend(point)
    except OverflowError:
        raise OverflowError(TOO_FAR) from None
    given = *rings.given, corners.buffer_info()[0], len(corners) // 2, *words, handle.to_write
    size, kept = rings.given[1] + len(corners) // 2, (rings, corners, handle)
    status = made(call, *given, size=size, limit=limit, kept=kept)
    if status == SHAPE:
        raise ValueError(f"the shape: {NOT_CONVEX}")
    if status == RANGE:
        raise OverflowError(TOO_FAR)
    _answers.check_rings(status, limit)
    return _answers.lists_in(handle)


def by_circle(rings: HeldRings, radius: int, corners: int, rule: int, limit: int, join: Join = _ROUND_JOIN) -> Lists:
    """What becomes of the inside of rings: it grows by a circle, shrinks where the radius is below 0, and stays where it is 0.

    Raises what `minkowski_sum` does.
    """
    if radius > 0 and join.style == ROUND:
        return minkowski_sum(rings, circle(radius, corners), rule, limit)
    if radius > 0:
        return joined_sum(rings, circle(radius, corners), rule, join, limit)
    inside = _answers.polygons_of(rings, NOTHING, rule, _UNION, limit)
    numbers = inside.numbers()
    if radius == 0 or not len(numbers):
        return inside
    narrow = min(max(numbers[axis::2]) - min(numbers[axis::2]) for axis in (0, 1))
    if join.style != BEVEL and -2 * radius >= narrow:
        # No circle of the radius has room.
        return _answers.polygons_of(NOTHING, NOTHING, rule, _UNION, limit)
    held, round_shape = HeldRings(inside.given(), inside), circle(-radius, corners)
    if join.style == ROUND:
        return eroded(held, round_shape, _NON_ZERO, limit)
    return less_outside(held, round_shape, join, limit)


def less_outside(inside: HeldRings, shape: Sequence[Point], join: Join, limit: int) -> Lists:
    """The polygons of what is left of polygons where what is outside has grown by a shape, turned by half a circle, with
    corners joined so. The outside is taken within a box around all: nothing of what lies beyond comes to the inside else.

    Raises what `minkowski_sum` does.
    """
    points, count = inside.given[:2]
    numbers = _answers.view_at(inside, points, 2 * count, "i")
    low, high = ([way(numbers[axis::2]) + far for axis in (0, 1)] for way, far in ((min, -1), (max, 1)))
    if min(low) < _LEAST or max(high) > _GREATEST:
        raise OverflowError(TOO_FAR)
    box = held_rings(array.array("i", [*low, high[0], low[1], *high, low[0], high[1]]), array.array("Q", [4]))
    outside = _answers.polygons_of(box, inside, _NON_ZERO, _DIFFERENCE, limit)
    opposite = [(-x, -y) for x, y in shape]
    grown = joined_sum(HeldRings(outside.given(), outside), opposite, _NON_ZERO, join, limit)
    return _answers.polygons_of(inside, HeldRings(grown.given(), grown), _NON_ZERO, _DIFFERENCE, limit)


def united(one: Lists, other: Lists, limit: int) -> Lists:
    """The union of polygons."""
    if not one.point_count:
        return other
    first, second = HeldRings(one.given(), one), HeldRings(other.given(), other)
    return _answers.polygons_of(first, second, _NON_ZERO, _UNION, limit)
