"""Windows of a plane: rectangles side by side, each of which holds about as many points as others."""

from __future__ import annotations

import array
import bisect
import itertools
import math
import operator
from typing import TYPE_CHECKING, Any, Iterable, List, NamedTuple, Optional, Sequence, Tuple

from . import _gathered, _rows, _shapes
from ._answers import view_at
from ._grid import Grid
from ._rows import _GREATEST, _LEAST
from ._shapes import HeldRings

if TYPE_CHECKING:
    from typing import SupportsFloat

    from ._shapes import Ring, Shapes

    # minx, miny, maxx, maxy, as shapely's bounds.
    WindowLike = Iterable[SupportsFloat]
else:
    Ring = Shapes = WindowLike = object

Window = Tuple[float, float, float, float]
Units = Tuple[int, int, int, int]
# What lies so far from a window counts for it: the library's overlays within windows look as far.
MARGIN = 2
# Of points: as many tell about where all of them lie.
_SAMPLED = 1 << 14


class Sampled(NamedTuple):
    """Some of many points, and how many each of them stands for: (x, y, weight). bounds: those of all points, or None of
    no points."""

    points: List[Tuple[int, int, int]]
    bounds: Optional[Units]


def windows(points: "Ring | Shapes", count: int, *, grid: Optional[Grid] = None) -> List[Window]:
    """Windows side by side that hold all points, each about as many as others: columns, each of which is cut by itself.

    points: rows of points, or shapes, as `overlay` takes them, whose points are
    meant; of both all in one list: [subject, clip].
    count: how many windows are wanted, from 1 on. There are fewer where many
    points have the same coordinate, and none where there is no point.
    grid: that which floats go to, as those of `overlay`.

    A window is (minx, miny, maxx, maxy), as shapely's bounds. So `overlay_in`
    takes each, anywhere, and `join` makes one answer of theirs.

    >>> windows([(0, 0), (1, 6), (2, 3), (7, 1), (8, 8), (9, 5)], 4)
    [(0, 0, 7, 3), (0, 3, 7, 8), (7, 0, 9, 5), (7, 5, 9, 8)]

    Raises ValueError where the count is none, and what `overlay` does.
    """
    wanted = count_of(count, "count")
    alone = [points] if _shapes.is_ring(points) else points
    items = _gathered.gathered([(alone, "points")], grid is not None, kept=False)
    if grid is None:
        grid = _gathered.chosen(items)
    found = cut([sampled(it.held(grid)) for it in items], wanted)
    return [of_units(it, grid) for it in found]


def count_of(given: Any, name: str) -> int:
    """A number from 1 on. Raises TypeError or ValueError where it is none."""
    try:
        count = operator.index(given)
    except TypeError:
        raise TypeError(f"{name}: {_rows._type(given)}; a whole number is wanted") from None
    if count < 1:
        raise ValueError(f"{name}: {count}; a number from 1 on is wanted")
    return count


def sampled(rings: HeldRings, most: int = _SAMPLED) -> Sampled:
    """Some points of rings, at most so many, and the bounds of all."""
    at, count, _, _ = rings.given
    if count == 0:
        return Sampled([], None)
    numbers = view_at(rings.kept, at, 2 * count, "i")
    left, low, right, high = map(int, _gathered.bounds(numbers, str))
    step = -(-count // most)
    some = zip(numbers[0 :: 2 * step].tolist(), numbers[1 :: 2 * step].tolist())
    return Sampled([(x, y, step) for x, y in some], (left, low, right, high))


def cut(items: Sequence[Sampled], count: int) -> List[Units]:
    """So many windows, or fewer, that hold the points of which these are some."""
    boxes = [it.bounds for it in items if it.bounds is not None]
    if not boxes:
        return []
    left, low = (min(it[side] for it in boxes) for side in (0, 1))
    right, high = (max(it[side] for it in boxes) for side in (2, 3))
    points = [point for it in items for point in it.points]
    columns = round(math.sqrt(count))
    shares = [count // columns + (place < count % columns) for place in range(columns)]
    found = []
    for start, stop, share, some in _strips(points, 0, shares, (left, max(right, left + 1))):
        for bottom, top, _, _ in _strips(some, 1, [1] * share, (low, max(high, low + 1))):
            found.append((start, bottom, stop, top))
    return found


_Strip = Tuple[int, int, int, List[Tuple[int, int, int]]]


def _strips(points: List[Tuple[int, int, int]], axis: int, shares: Sequence[int], bounds: Tuple[int, int]) -> List[_Strip]:
    """Strips from one bound to the other one, each with its share of the points, and the points: where a cut would fall
    upon another one, or upon a bound, two strips are one."""
    ordered = sorted(points, key=operator.itemgetter(axis))
    numbers = [it[axis] for it in ordered]
    passed = list(itertools.accumulate(it[2] for it in ordered))
    cuts, kept, before = [bounds[0]], [shares[0]], shares[0]
    for share in shares[1:]:
        place = bisect.bisect_right(passed, passed[-1] * before // sum(shares)) if passed else 0
        number = numbers[min(place, len(numbers) - 1)] if numbers else bounds[0]
        if cuts[-1] < number < bounds[1]:
            cuts.append(number)
            kept.append(0)
        kept[-1] += share
        before += share
    places = [0, *(bisect.bisect_left(numbers, it) for it in cuts[1:]), len(numbers)]
    some = [ordered[start:stop] for start, stop in zip(places, places[1:])]
    return list(zip(cuts, [*cuts[1:], bounds[1]], kept, some))


def of_units(window: Units, grid: Optional[Grid]) -> Window:
    """A window in the coordinates of callers."""
    if grid is None:
        return window
    return (*grid.from_grid(window[:2]), *grid.from_grid(window[2:]))


def in_units(window: Any, grid: Optional[Grid], name: str) -> Units:
    """A window of a caller's in units of a grid, to which its corners are rounded, or as it is.

    Raises TypeError or ValueError of what is none, has no points, or lies too near to the ends of 32 bits.
    """
    numbers = list(_rows._iterated(window, name, "4 numbers"))
    if len(numbers) != 4:
        raise ValueError(f"{name}: {len(numbers)} numbers, 4 are wanted: minx, miny, maxx, maxy")
    if grid is None:
        left, low, right, high = (_whole(it, name) for it in numbers)
    else:
        (left, low), (right, high) = (grid.to_grid((x, y)) for x, y in (numbers[:2], numbers[2:]))
    if left >= right or low >= high:
        raise ValueError(f"{name}: {tuple(numbers)} has no points; minx, miny, maxx, maxy are wanted")
    if not fits((left, low, right, high)):
        raise ValueError(f"{name}: {tuple(numbers)}: a side lies nearer than {MARGIN} to the ends of 32 bits")
    return left, low, right, high


def fits(window: Units) -> bool:
    """Whether the window lies as far from the ends of 32 bits as is looked at around it."""
    return _LEAST + MARGIN <= min(window[:2]) and max(window[2:]) <= _GREATEST - MARGIN


def _whole(number: Any, name: str) -> int:
    """A whole number, which may be a float, as in shapely's bounds."""
    try:
        return operator.index(number)
    except TypeError:
        (taken,) = array.array("d", [number])
    if not taken.is_integer():
        raise ValueError(f"{name}: {number}; whole numbers are wanted, or a grid")
    return int(taken)
