"""The shortest way: polygons of shapely's without holes, one to an argument, straight from their coordinates.

By the rules "evenodd" and "nonzero" it is all the same which way such a ring runs, so that nothing has to be turned, and
no well-known binary is written. All else, and what is faulty, goes the long way.
"""

from __future__ import annotations

import array
import ctypes
from typing import Any, List, Optional, Sequence, Tuple

from . import _shapely, _wkb
from ._calls import ONCE, made
from ._grid import Grid, grid_of
from ._library import ANSWERED, GridOfC, library
from ._shapes import NOTHING, HeldRings

_WHOLE = GridOfC(0, 0, 0)
_RULES = "evenodd", "nonzero"
Taken = Tuple[Optional[Grid], List[HeldRings]]


def taken(named: Sequence[Tuple[Any, str]], rule: str, grid: Optional[Grid]) -> Optional[Taken]:
    """The grid of a call, and its subject and its clip, in units of it; or None where they go the long way."""
    base = _shapely.base()
    if rule not in _RULES or not all([isinstance(given, base) for given, _ in named]):
        return None
    found = _shapely.coordinates([given for given, _ in named])
    if found is None:
        return None
    at, numbers, counts = found
    total = sum(counts)
    points = array.array("i", [0]) * (2 * total)
    if grid is None and _wkb.hold_whole(numbers) and _rounds(_WHOLE, at, points, total, numbers):
        return None, _rings(points, counts)
    if grid is None:
        grid = _fitted(at, total, numbers)
    if grid is None or not _rounds(grid.of_c(), at, points, total, numbers):
        return None
    return grid, _rings(points, counts)


def _fitted(at: int, total: int, kept: Any) -> Optional[Grid]:
    """None where a coordinate isn't finite, or there is no grid."""
    told, fault = GridOfC(), ctypes.c_size_t()
    words = at, total, ctypes.byref(told), ctypes.byref(fault)
    status = made(library.itree_grid_fit, *words, size=total // ONCE, kept=(kept, told, fault))
    return grid_of(told) if status == ANSWERED else None


def _rounds(grid: GridOfC, at: int, points: array.array[int], total: int, kept: Any) -> bool:
    """Whether each coordinate has its whole number, which is written then."""
    fault = ctypes.c_size_t()
    words = ctypes.byref(grid), at, total, points.buffer_info()[0], total, ctypes.byref(fault)
    status = made(library.itree_grid_round, *words, size=total // ONCE, kept=(kept, grid, points, fault))
    return status == ANSWERED


def _rings(points: array.array[int], counts: Sequence[int]) -> List[HeldRings]:
    """One ring to an argument, and nothing for one that there isn't."""
    at, rings = points.buffer_info()[0], []
    for count in counts:
        end = array.array("Q", (count,))
        rings.append(HeldRings((at, count, end.buffer_info()[0], 1), (points, end)))
        at += 8 * count
    return rings + [NOTHING] * (2 - len(rings))
