"""overlay_in, crop, join and whole_window: an overlay within a window, what it needs of rings, one answer of those of several
windows, and the window that these make up."""

from __future__ import annotations

from typing import Any, Iterable, List, Optional, Sequence

from . import _gathered, _rows, _threads, _windows
from ._answers import Lists
from ._calls import limit_of
from ._grid import Grid
from ._library import UNFIT, WINDOW
from ._overlay import Operation, Rule, check_grid, overlaid
from ._polygons import Polygons
from ._rings import Rings
from ._shapes import HeldRings, Shapes
from ._threads import Choice
from ._windows import Units, Window, WindowLike


def overlay_in(
    window: WindowLike,
    subject: Shapes,
    clip: Shapes,
    operation: Operation = "union",
    rule: Rule = "nonzero",
    *,
    grid: Optional[Grid] = None,
    memory_limit: Optional[int] = None,
) -> Polygons:
    """The polygons of an overlay within a window: a tile.

    window: (minx, miny, maxx, maxy), as shapely's bounds: whole numbers, or
    where there is a grid floats, which are rounded to it.
    subject, clip, operation, rule, grid, memory_limit: as those of `overlay`.
    They may be what `crop` makes of them for the window.

    >>> square, other = [(0, 0), (2, 0), (2, 2), (0, 2)], [(1, 1), (3, 1), (3, 3), (1, 3)]
    >>> [sorted(it.outer) for it in overlay_in((0, 0, 2, 1), [square], [other])]
    [[(0, 0), (0, 1), (2, 0), (2, 1)]]

    Around a point of the window the polygons wind as those of `overlay` are to,
    and around any other they don't. A point lies in a window from its left and
    its lower side on, and before its right and its upper one: so of windows side
    by side one has it. Edges are moved as by `overlay`, and cut by the window
    before they are: so tiles of windows side by side fit, wherever each was made,
    and `join` makes one answer of them. Where there are floats give each call the
    same grid, for the one that is chosen else depends on the shapes.

    Raises what `overlay` does, and ValueError where the window has no points, or
    a side of it lies nearer than 2 units to the ends of 32 bits.
    """

    def tile(subject: HeldRings, clip: HeldRings, choice: Choice, grid: Optional[Grid]) -> Lists:
        return _threads.tile_of(_windows.in_units(window, grid, "window"), subject, clip, choice)

    return overlaid([(subject, "subject"), (clip, "clip")], operation, rule, grid, memory_limit, tile)


def crop(
    window: WindowLike,
    rings: Shapes,
    *,
    grid: Optional[Grid] = None,
    memory_limit: Optional[int] = None,
) -> Rings:
    """What rings become for a window, one for each, in their order: who makes its tile needs no more of them.

    window: (minx, miny, maxx, maxy), as that of `overlay_in`.
    rings: what `overlay` takes. Those of shapes stand one behind the other, outer
    ones counterclockwise, and holes clockwise.
    grid, memory_limit: as those of `overlay`.

    >>> around, far = [(-50, -50), (50, -50), (50, 50), (-50, 50)], [(70, 70), (80, 70), (80, 80)]
    >>> [ring.tolist() for ring in crop((0, 0, 4, 4), [around, far])]
    [[[-2, -2], [6, -2], [6, 6], [-2, 6]], []]

    A ring winds around each point of the window as before, and its edges that
    come within half a unit of such a point are edges of it before. Other parts
    of it are drawn up to 2 units beside the window, so few points are left of
    what lies there, and none of a ring that lies beyond one side of that.
    `overlay_in` of the window promises of these rings what it does of those
    given.

    The answer is `Rings`: whole numbers, or where there is a grid floats. Where
    there are floats give each call the same grid.

    Raises what `overlay_in` does.
    """
    check_grid(grid)
    limit = limit_of(memory_limit)
    items = _gathered.gathered([(rings, "rings")], grid is not None, kept=False)
    if grid is None:
        grid = _gathered.chosen(items)
    held = items[0].held(grid)
    numbers, offsets = _threads.cropped(_windows.in_units(window, grid, "window"), held, limit)
    return Rings(numbers if grid is None else grid.positions(numbers), offsets)


def join(tiles: Iterable[Polygons], windows: Iterable[WindowLike], *, memory_limit: Optional[int] = None) -> Polygons:
    """One answer of several tiles: the borders between them are gone.

    tiles: answers of `overlay_in`, or of this call.
    windows: that of each; of what was joined the rectangle that its windows are
    together.
    memory_limit: as that of `overlay`.

    >>> square, other = [(0, 0), (2, 0), (2, 2), (0, 2)], [(1, 1), (3, 1), (3, 3), (1, 3)]
    >>> windows = [(0, 0, 2, 3), (2, 0, 3, 3)]
    >>> tiles = [overlay_in(window, [square], [other]) for window in windows]
    >>> [len(it.outer) for it in join(tiles, windows)]
    [8]

    The answer has the region of the tiles together. Nothing is moved; polygons
    that come to no border are as they were. A point on a border at which an edge
    was cut stays where the cut had to be rounded.

    Raises ValueError where there are not as many windows as tiles, a window has
    no points, two windows overlap, two grids or two reference systems differ, or
    tiles don't fit: a polygon leaves its window, or polygons at borders overlap.
    Raises MemoryError as `overlay` does.
    """
    limit = limit_of(memory_limit)
    parts, asked = _listed(tiles), list(_rows._iterated(windows, "windows", "windows"))
    if len(parts) != len(asked):
        raise ValueError(f"{len(parts)} tiles and {len(asked)} windows: as many of both are wanted")
    grid = _grid_of(parts)
    units = [_windows.in_units(it, grid, f"windows, place {place}") for place, it in enumerate(asked)]
    crs = _gathered.one_of((it.crs for it in parts), "crs")
    srid = _gathered.one_of((it.srid for it in parts), "SRID") or 0
    lists = [it.lists_of_each() for it in parts]
    status, polygons = _threads.joined(lists, units, limit)
    if status == WINDOW:
        raise ValueError(_overlap(units))
    if status == UNFIT:
        raise ValueError(_unfit(lists, units))
    return Polygons(polygons, grid, crs, srid)


def whole_window(windows: Iterable[WindowLike], *, grid: Optional[Grid] = None) -> Optional[Window]:
    """The window that several make up without a gap, or None where they leave a gap, or there are none.

    windows: each as that of `overlay_in`, of floats where there is a grid.
    grid: as that of `overlay_in`.

    >>> whole_window([(0, 0, 5, 9), (5, 0, 9, 9)])
    (0, 0, 9, 9)
    >>> whole_window([(0, 0, 5, 9), (5, 1, 9, 9)]) is None
    True

    Raises ValueError where a window has no points, or two windows overlap.
    """
    check_grid(grid)
    asked = enumerate(_rows._iterated(windows, "windows", "windows"))
    units = [_windows.in_units(it, grid, f"windows, place {place}") for place, it in asked]
    status, whole = _threads.whole_of(units)
    if status == WINDOW:
        raise ValueError(_overlap(units))
    return None if whole is None else _windows.of_units(whole, grid)


def _listed(tiles: Any) -> List[Polygons]:
    found = [tiles] if isinstance(tiles, Polygons) else list(_rows._iterated(tiles, "tiles", "Polygons"))
    for place, it in enumerate(found):
        if not isinstance(it, Polygons):
            raise TypeError(f"tiles, place {place}: {_rows._type(it)}; Polygons are wanted")
    return found


def _grid_of(tiles: Sequence[Polygons]) -> Optional[Grid]:
    """The grid of all tiles. Raises ValueError where two differ."""
    grid = tiles[0].grid if tiles else None
    for place, it in enumerate(tiles):
        if it.grid != grid:
            raise ValueError(f"tiles, place {place}: {it.grid}, and the first has {grid}: give each overlay_in the same grid=")
    return grid


def _overlap(windows: Sequence[Units]) -> str:
    """Which two windows overlap."""
    for place, (left, low, right, high) in enumerate(windows):
        for other, (start, bottom, stop, top) in enumerate(windows[:place]):
            if left < stop and start < right and low < top and bottom < high:
                return f"windows: those at {other} and {place} overlap"
    return "windows: two overlap"


def _unfit(tiles: Sequence[Lists], windows: Sequence[Units]) -> str:
    """Which tile leaves its window, or that polygons overlap."""
    for place, (tile, (left, low, right, high)) in enumerate(zip(tiles, windows)):
        bounds = _gathered.bounds(tile.numbers(), str)
        if bounds and not (left <= bounds[0] and low <= bounds[1] and bounds[2] <= right and bounds[3] <= high):
            return f"tiles, place {place}: a polygon leaves its window"
    return "tiles: those at a border don't fit: polygons overlap, or a part of one is missing"
