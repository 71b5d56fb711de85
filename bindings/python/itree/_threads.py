"""Tiles: overlays within windows, and what joins them, as the library makes them; and an overlay by several threads."""

from __future__ import annotations

import array
import ctypes
import itertools
from typing import Callable, List, NamedTuple, Optional, Sequence, Tuple

from . import _answers, _windows
from ._answers import Handle, Lists
from ._calls import made
from ._library import UNFIT, WINDOW, WindowOfC, checked, library
from ._memory import numpy_where_loaded
from ._shapes import HeldRings
from ._windows import Units

# Of edges: a window has so many, and there are at most so many windows.
_EDGES, _MOST = 60_000, 64


class Choice(NamedTuple):
    """What is asked of an overlay: the rule and the operation by their numbers, and how many bytes it may hold."""

    rule: int
    operation: int
    limit: int


def tile_of(window: Units, subject: HeldRings, clip: HeldRings, choice: Choice) -> Lists:
    """The polygons of an overlay within a window, where the library wrote them.

    Raises ValueError where a ring stops before it begins, or behind the points.
    """
    handle, of_c = Handle(library.itree_polygons_free), WindowOfC(*window)
    words = ctypes.byref(of_c), *subject.given, *clip.given, choice.rule, choice.operation, handle.to_write
    size, kept = subject.given[1] + clip.given[1], (of_c, subject, clip, handle)
    status = made(library.itree_overlay_in, *words, size=size, limit=choice.limit, kept=kept)
    _answers.check_rings(status, choice.limit)
    return _answers.lists_in(handle)


def cropped(window: Units, rings: HeldRings, limit: int) -> Tuple[memoryview, memoryview]:
    """What each ring becomes for a window: the points, as flat 32-bit numbers, and the offsets, where the library wrote them.

    Raises ValueError where a ring stops before it begins, or behind the points.
    """
    handle, of_c = Handle(library.itree_chains_free), WindowOfC(*window)
    words = ctypes.byref(of_c), *rings.given, handle.to_write
    status = made(library.itree_crop, *words, size=rings.given[1], limit=limit, kept=(of_c, rings, handle))
    _answers.check_rings(status, limit)
    return _answers.chains_in(handle)


def joined(tiles: Sequence[Lists], windows: Sequence[Units], limit: int) -> Tuple[int, Lists]:
    """The status of a join, which is no refusal, and the polygons, where the library wrote them."""
    handle = Handle(library.itree_polygons_free)
    of_c = (WindowOfC * len(windows))(*(WindowOfC(*it) for it in windows))
    points, rings, polygons = array.array("i"), array.array("q"), array.array("q")
    for tile in tiles:
        append_ends(polygons, tile.polygon_offsets(), len(rings))
        append_ends(rings, tile.ring_offsets(), len(points) // 2)
        points.frombytes(tile.numbers().cast("B"))
    ends = array.array("q", itertools.accumulate(it.polygon_count for it in tiles))
    lists = [it for numbers in (ends, polygons, rings) for it in numbers.buffer_info()]
    words = ctypes.addressof(of_c), len(windows), *lists, points.buffer_info()[0], len(points) // 2, handle.to_write
    kept = of_c, ends, polygons, rings, points, handle
    status = made(library.itree_join, *words, size=len(points) // 2, limit=limit, kept=kept)
    if status not in (WINDOW, UNFIT):
        _answers.check_rings(status, limit)
    return status, _answers.lists_in(handle)


def whole_of(windows: Sequence[Units]) -> Tuple[int, Optional[Units]]:
    """The status, and the window that some make up without a gap, or None."""
    of_c, whole, found = (WindowOfC * len(windows))(*(WindowOfC(*it) for it in windows)), WindowOfC(), ctypes.c_int32()
    words = ctypes.addressof(of_c), len(windows), ctypes.byref(whole), ctypes.byref(found)
    status = library.itree_whole_window(*words)
    if status != WINDOW:
        checked(status)
    return status, (whole.left, whole.low, whole.right, whole.high) if found.value else None


def append_ends(ends: array.array[int], offsets: memoryview, before: int) -> None:
    """Appends where each stops, behind so many that stand before."""
    numpy = numpy_where_loaded()
    if numpy is not None:
        ends.frombytes((numpy.asarray(offsets)[1:] + before).tobytes())
    else:
        ends.extend(it + before for it in offsets[1:])


def overlaid(threads: int, subject: HeldRings, clip: HeldRings, choice: Choice) -> Lists:
    """The polygons of an overlay, made by so many threads, each of which takes one window after the other.

    The windows depend on the points alone, and so does the answer.
    """
    windows = _windows_of((subject, clip))
    if len(windows) < 2 or not all(map(_windows.fits, windows)):
        return _answers.polygons_of(subject, clip, *choice)
    each = choice._replace(limit=choice.limit and max(1, choice.limit // threads))

    def tile(place: int) -> Lists:
        return tile_of(windows[place], subject, clip, each)

    status, polygons = joined(_by_threads(tile, len(windows), threads), windows, choice.limit)
    if status:
        raise SystemError(f"itree's tiles don't fit, which is a fault of its own: the status is {status}")
    return polygons


def _windows_of(sides: Sequence[HeldRings]) -> List[Units]:
    edges = sum(it.given[1] for it in sides)
    count = min(edges // _EDGES, _MOST)
    return _windows.cut([_windows.sampled(it) for it in sides], count) if count > 1 else []


def _by_threads(call: Callable[[int], Lists], count: int, threads: int) -> List[Lists]:
    """What a call makes of each place. Where one fails, or the caller is interrupted, the others stop."""
    from concurrent.futures import ThreadPoolExecutor

    stop = ctypes.c_int(0)
    with ThreadPoolExecutor(threads, "itree", library.itree_stop_flag, (ctypes.addressof(stop),)) as pool:
        futures = [pool.submit(call, place) for place in range(count)]
        try:
            return [it.result() for it in futures]
        except BaseException:
            stop.value = 1
            for it in futures:
                it.cancel()
            raise
