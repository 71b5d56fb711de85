"""Overlays by Dask: over several processes, or over many machines.

    import itree.dask
    windows = itree.dask.windows([*land, *water], 16)
    tiles = itree.dask.overlay(land, water, "difference", windows)
    dry = itree.dask.join(tiles, windows).compute()

What is overlaid comes in parts, none of which any machine holds but the one that reads it. Of each part that is kept
which `itree.crop` leaves for a window; each window is overlaid by itself, by `itree.overlay_in`; `join` makes one answer
of the tiles, where one machine can hold it.

Parts are a sequence, a dict of them by their names, or what has `to_delayed`, as a Bag and dask-geopandas' frames. A part
is what `itree.overlay` takes: well-known binary, shapely's objects, Rings, Polygons, a GeoDataFrame and so on; or dask's
delayed one; or a function without arguments that gives it, as functools.partial(read, "land-07.wkb").

Dask schedules, spills to the disk, and makes again what a worker took with it. Nothing here does.
"""

from __future__ import annotations

import array
import importlib
import math
from collections.abc import Mapping
from typing import Any, Iterable, Iterator, List, NamedTuple, Optional, Sequence, Tuple

from . import _gathered, _threads, _tiles, _windows
from ._calls import limit_of
from ._grid import Grid
from ._overlay import OPERATIONS, RULES, Operation, Rule, check_grid, number_in
from ._polygons import Polygons
from ._rings import Rings
from ._shapes import NOTHING, HeldRings, held_rings
from ._threads import Choice
from ._windows import Sampled, Units, Window, WindowLike

__all__ = ["join", "overlay", "windows"]

# Of points: all parts together tell where the points lie by so many.
_SAMPLED = 1 << 16
# So many tiles are joined by one task, or one column of windows.
_TOGETHER = 8


def windows(parts: Any, count: int, *, grid: Optional[Grid] = None) -> List[Window]:
    """Windows side by side that hold all points of some parts, each about as many as others, as `itree.windows`.

    parts: of both sides of an overlay all together.
    count: how many windows are wanted.
    grid: that which floats go to, which is to be that of `overlay`.

    It reads each part once, and takes of each its bounds and a sample: so it
    computes, by the client that there is, or by dask's scheduler.

    Raises ValueError where the count is none, or a part can't be read, which is
    told by its name.
    """
    wanted = _windows.count_of(count, "count")
    check_grid(grid)
    named = _named(parts, "parts")
    most = -(-_SAMPLED // max(len(named), 1))
    samples = _dask().compute(*(_delayed(_sampled)(_delayed(it), name, grid, most) for name, it in named))
    return [_windows.of_units(it, grid) for it in _windows.cut(samples, wanted)]


def overlay(
    subject: Any,
    clip: Any,
    operation: Operation = "union",
    windows: Iterable[WindowLike] = (),
    rule: Rule = "nonzero",
    *,
    grid: Optional[Grid] = None,
    memory_limit: Optional[int] = None,
    boxes: Tuple[Optional[Sequence[Any]], Optional[Sequence[Any]]] = (None, None),
) -> List[Any]:
    """The tiles of an overlay, one for each window, as dask's delayed Polygons: those of `itree.overlay_in`.

    subject, clip: the parts of both sides; () or None: nothing.
    operation, rule, grid, memory_limit: as those of `itree.overlay`. Parts with
    floats need a grid, the same for all.
    windows: such as `windows` gives.
    boxes: of the subject's parts, and of the clip's, in their order, rectangles
    that they lie in, as windows are told; None where one isn't known. A part goes
    to the windows near its box alone. Without a box it goes to all, which are many
    tasks where there are many parts and windows.

    Computed, a part that can't be read is a ValueError, which tells it by its
    name, and so is one that leaves its box. What a delayed part raises itself is
    raised as it is. What else is raised is what `itree.overlay_in` raises.
    """
    numbers = number_in(RULES, rule, "rule"), number_in(OPERATIONS, operation, "operation")
    check_grid(grid)
    choice = Choice(*numbers, limit_of(memory_limit))
    units = [_windows.in_units(it, grid, f"windows, place {place}") for place, it in enumerate(windows)]
    near: List[List[Any]] = [[] for _ in units]
    every = _delayed(units)
    for side, (parts, called) in enumerate(((subject, "subject"), (clip, "clip"))):
        named = _named(parts, called)
        for (name, part), box in zip(named, _boxes(boxes[side], [name for name, _ in named], grid)):
            for place, piece in _pieces(part, name, units, every, grid, box):
                near[place].append((side, piece))
    return [_delayed(_tile)(unit, some, choice, grid) for unit, some in zip(units, near)]


def join(tiles: Sequence[Any], windows: Sequence[WindowLike]) -> Any:
    """One answer of several tiles, as dask's delayed Polygons: that of `itree.join`.

    tiles: what `overlay` gives, or Polygons. windows: those of the tiles.

    Those of a column are joined first, then some columns, and then what became of
    them, where the windows are such as `windows` gives: so no task holds many
    tiles but the last one, which holds the answer.

    Raises ValueError where there are not as many windows as tiles; computed, what
    `itree.join` raises.
    """
    asked = [tuple(it) for it in windows]
    if len(tiles) != len(asked):
        raise ValueError(f"{len(tiles)} tiles and {len(asked)} windows: as many of both are wanted")
    level = [_Tile(window, tile) for window, tile in zip(asked, tiles)]
    for axis in 1, 0:
        level = [whole for run in _runs(level, axis) for whole in _in_steps(run)]
    return _joined(level).tile


# ---- parts


def _dask() -> Any:
    return importlib.import_module("dask")


def _delayed(given: Any) -> Any:
    """A call, or a value as it is, for dask's graph."""
    return _dask().delayed(given, pure=False, traverse=False)


def _named(parts: Any, called: str) -> List[Tuple[str, Any]]:
    """The parts, each with its name in faults."""
    if parts is None:
        return []
    if hasattr(parts, "to_delayed"):
        return [(f"{called}, partition {place}", it) for place, it in enumerate(parts.to_delayed())]
    if isinstance(parts, Mapping):
        return [(f"{called} {name}", it) for name, it in parts.items()]
    if isinstance(parts, (str, bytes, Polygons, Rings)) or not hasattr(parts, "__iter__"):
        raise TypeError(f"{called}: {type(parts).__name__} alone; a sequence of parts is wanted: put it into a list")
    return [(f"{called}, part {place}", it) for place, it in enumerate(parts)]


def _boxes(boxes: Optional[Sequence[Any]], names: Sequence[str], grid: Optional[Grid]) -> List[Optional[Units]]:
    """The box of each part, where it is known."""
    if boxes is None:
        return [None] * len(names)
    if len(boxes) != len(names):
        raise ValueError(f"{len(boxes)} boxes of {len(names)} parts: as many of both are wanted")
    return [None if it is None else _windows.in_units(it, grid, f"the box of {name}") for it, name in zip(boxes, names)]


def _read(part: Any, name: str, grid: Optional[Grid]) -> Tuple[HeldRings, Any, int]:
    """The rings of a part, and its reference system: its crs and its srid.

    Raises ValueError of what can't be read, which says whose fault it is.
    """
    try:
        given = part() if callable(part) else part
        (item,) = _gathered.gathered([(given, name)], grid is not None, kept=False)
        if grid is None and _gathered.chosen([item]) is not None:
            raise ValueError(f"{name}: not all of its coordinates are whole numbers of 32 bits; give all calls one grid=")
        return item.held(grid), item.crs, item.srid
    except MemoryError:
        raise
    except Exception as fault:
        said = str(fault)
        raise ValueError(said if said.startswith(name) else f"{name} can't be read: {said}") from fault


def _sampled(part: Any, name: str, grid: Optional[Grid], most: int) -> Sampled:
    """A task: some points of a part."""
    return _windows.sampled(_read(part, name, grid)[0], most)


class _Piece(NamedTuple):
    """What of a part comes near a window."""

    rings: Rings
    crs: Any
    srid: int


def _pieces(part: Any, name: str, windows: Sequence[Units], every: Any, grid: Optional[Grid], box: Any) -> Iterator[Any]:
    """For each window that a part may come near the window's place, and a task that gives its piece.

    every: the windows as one value of the graph.
    """
    places = [place for place, it in enumerate(windows) if box is None or _meet(it, box)]
    if places:
        picked = _delayed(_picked)(_delayed(part), name, every, places, grid, box)
        yield from zip(places, (picked[at] for at in range(len(places))))


def _meet(window: Units, box: Units) -> bool:
    """Whether a box comes near a window."""
    far = _windows.MARGIN
    (left, low, right, high), (start, bottom, stop, top) = window, box
    return left - far <= stop and start <= right + far and low - far <= top and bottom <= high + far


def _picked(
    part: Any, name: str, windows: Sequence[Units], places: Sequence[int], grid: Optional[Grid], box: Optional[Units]
) -> List[Any]:
    """A task: the pieces of a part near the windows at some places, or None where there is nothing."""
    held, crs, srid = _read(part, name, grid)
    bounds = _windows.sampled(held, 1).bounds
    if box is not None and bounds is not None and not _lies_in(bounds, box):
        raise ValueError(f"{name} leaves the box that was told of it")
    cropped = [None if bounds is None or not _meet(windows[it], bounds) else _cropped(windows[it], held) for it in places]
    return [None if it is None else _Piece(it, crs, srid) for it in cropped]


def _cropped(window: Units, held: HeldRings) -> Optional[Rings]:
    """What rings become for a window, without those of which nothing is left; None where nothing is left of any."""
    numbers, offsets = _threads.cropped(window, held, 0)
    ends = array.array("q", dict.fromkeys(offsets))
    return Rings(numbers, ends) if len(numbers) else None


def _lies_in(inner: Units, outer: Units) -> bool:
    return outer[0] <= inner[0] and outer[1] <= inner[1] and inner[2] <= outer[2] and inner[3] <= outer[3]


# ---- tiles


def _tile(window: Units, pieces: Sequence[Tuple[int, Optional[_Piece]]], choice: Choice, grid: Optional[Grid]) -> Polygons:
    """A task: the overlay of some pieces within a window, each with the side that it is of."""
    told = [(side, it) for side, it in pieces if it is not None]
    crs = _gathered.one_of((it.crs for _, it in told), "crs")
    srid = _gathered.one_of((it.srid for _, it in told), "SRID") or 0
    one, other = (_together([it.rings for at, it in told if at == side]) for side in (0, 1))
    return Polygons(_threads.tile_of(window, one, other, choice), grid, crs, srid)


def _together(pieces: Sequence[Rings]) -> HeldRings:
    if not pieces:
        return NOTHING
    points, ends = array.array("i"), array.array("q")
    for it in pieces:
        _threads.append_ends(ends, it.ring_offsets, len(points) // 2)
        points.frombytes(it.numbers().cast("B"))
    return held_rings(points, ends)


# ---- joins


class _Tile(NamedTuple):
    """Polygons, or a task that gives some, and their window."""

    window: Any
    tile: Any


def _joined(tiles: Sequence[_Tile]) -> _Tile:
    """What joins some tiles. Their windows are a rectangle together, unless nothing is joined behind them."""
    if len(tiles) == 1:
        return tiles[0]
    if not tiles:
        return _Tile((), _delayed(_tiles.join)([], []))
    windows = [it.window for it in tiles]
    whole = (
        *(min(sides) for sides in zip(*(it[:2] for it in windows))),
        *(max(sides) for sides in zip(*(it[2:] for it in windows))),
    )
    return _Tile(whole, _delayed(_tiles.join)([it.tile for it in tiles], windows))


def _runs(tiles: Sequence[_Tile], axis: int) -> List[List[_Tile]]:
    """Tiles in runs, in each of which windows of one width, or of one height, follow each other along an axis."""
    across = (1 - axis, 3 - axis)
    found: List[List[_Tile]] = []
    for it in sorted(tiles, key=lambda it: (it.window[across[0]], it.window[across[1]], it.window[axis])):
        last = found[-1][-1].window if found else None
        follows = last and last[axis + 2] == it.window[axis] and all(last[side] == it.window[side] for side in across)
        if follows:
            found[-1].append(it)
        else:
            found.append([it])
    return found


def _in_steps(run: List[_Tile]) -> List[_Tile]:
    """The tiles of a run, some of them together joined, and some of what became of them, until one is left."""
    while len(run) > 1:
        size = math.ceil(len(run) / math.ceil(len(run) / _TOGETHER))
        run = [_joined(run[at : at + size]) for at in range(0, len(run), size)]
    return run
