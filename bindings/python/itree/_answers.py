"""Answers as the library writes them, two numbers for each, and what callers get of them."""

from __future__ import annotations

import array
import ctypes
import itertools
import sys
from typing import Any, Callable, Iterable, Iterator, List, Literal, NamedTuple, Tuple

from ._calls import made
from ._library import LENGTHS, ShapesOfC, checked, library
from ._memory import address_of, numpy_where_loaded, room_for
from ._rows import HeldRows
from ._shapes import HeldRings


def two_by_two(numbers: Iterable[int]) -> Iterator[Tuple[int, int]]:
    """The numbers in twos. They never stand there all as Python's objects."""
    one_by_one = iter(numbers)
    return zip(one_by_one, one_by_one)


def in_rows_of_two(numbers: memoryview, letter: Literal["i", "Q"] = "Q") -> memoryview:
    """The numbers of a flat view, which have this letter of array.array, in the shape (n, 2)."""
    count = len(numbers) // 2
    if count == 0:
        # A view without numbers takes no shape.
        return memoryview(bytearray(2 * numbers.itemsize)).cast(letter, (1, 2))[:0]
    return numbers.cast("B").cast(letter, (count, 2))


def heights_of(numbers: memoryview) -> Tuple[memoryview, memoryview]:
    """Views of what stands in twos of whether there is a height, and the height: the heights, and whether there are."""
    low_byte = 0 if sys.byteorder == "little" else numbers.itemsize - 1
    return numbers[1::2], numbers.cast("B").cast("?")[low_byte :: 2 * numbers.itemsize]


def places_of(numbers: memoryview) -> memoryview:
    """The places of what stands in twos of whether there is a place, and the place: -1 where there is none, which has
    0 and 0."""
    numpy = numpy_where_loaded()
    if numpy is None:
        return memoryview(array.array("q", [found + place - 1 for found, place in two_by_two(numbers)]))
    signed = numpy.asarray(numbers).view("int64")
    places, _ = room_for(len(numbers) // 2, "q")
    numpy.subtract(signed[0::2] + signed[1::2], 1, out=numpy.asarray(places))
    return memoryview(places)


class Handle:
    """A handle of the library's, which is given back with this object. A call writes it; before, it is none.

    at: the handle. to_write: where a call writes it.
    """

    __slots__ = "at", "to_write", "_free"

    def __init__(self, free: Callable[[ctypes.c_void_p], None]) -> None:
        self.at = ctypes.c_void_p()
        self.to_write = ctypes.byref(self.at)
        # The call, for at the interpreter's end the module may be empty.
        self._free = free

    def __del__(self) -> None:
        if self.at:
            self._free(self.at)


def pairs_that_meet(edges: HeldRows, limit: int) -> memoryview:
    """All pairs of edges that meet, as flat 64-bit numbers, where the library wrote them. Their memory is given back once
    there is neither a view of them nor an array over one."""
    handle = Handle(library.itree_pairs_free)
    kept = edges.kept(), handle
    call = library.itree_meetings_all
    checked(made(call, edges.at, edges.count, handle.to_write, size=edges.count, limit=limit, kept=kept), limit)
    return numbers_of(handle)


def pairs_between(edges: HeldRows, others: HeldRows, limit: int) -> memoryview:
    """All pairs of an edge of the one list and one of the other that meet, as those of `pairs_that_meet`."""
    handle = Handle(library.itree_pairs_free)
    kept = edges.kept(), others.kept(), handle
    rows = edges.at, edges.count, others.at, others.count
    size = edges.count + others.count
    call = library.itree_meetings_between
    checked(made(call, *rows, handle.to_write, size=size, limit=limit, kept=kept), limit)
    return numbers_of(handle)


def numbers_of(handle: Handle) -> memoryview:
    """The numbers of a handle of pairs, which is given back with the last view of them."""
    at = handle.at
    return view_at(handle, library.itree_pairs_first(at), 2 * library.itree_pairs_count(at), "Q")


def chains_of(call: Callable[..., int], edges: HeldRows, limit: int) -> Tuple[memoryview, memoryview]:
    """The points of all chains that the call makes of the edges, as flat 32-bit numbers, and the offsets, as signed 64-bit
    numbers, where the library wrote them. Their memory is given back once there is neither a view of them nor an array over
    one."""
    handle = Handle(library.itree_chains_free)
    kept = edges.kept(), handle
    checked(made(call, edges.at, edges.count, handle.to_write, size=edges.count, limit=limit, kept=kept), limit)
    return chains_in(handle)


def chains_in(handle: Handle) -> Tuple[memoryview, memoryview]:
    """The points and the offsets of a handle of chains, which is given back with the last view of them."""
    at = handle.at
    points = view_at(handle, library.itree_chains_points(at), 2 * library.itree_chains_point_count(at), "i")
    return points, view_at(handle, library.itree_chains_offsets(at), library.itree_chains_count(at) + 1, "q")


def in_chains(points: memoryview, offsets: memoryview) -> List[List[Tuple[int, int]]]:
    """The points of flat numbers, in a list for each chain."""
    numbers = two_by_two(points)
    return [list(itertools.islice(numbers, stop - start)) for start, stop in zip(offsets, offsets[1:])]


class Lists(NamedTuple):
    """The three lists of polygons where they lie: the points of all rings, the offsets of the rings among them, and of
    the polygons among the rings; each with how many there are. The memory is given back once there is neither this, nor a
    view of it, nor an array over one."""

    owner: Any
    points: int
    point_count: int
    rings: int
    ring_count: int
    polygons: int
    polygon_count: int

    def numbers(self) -> memoryview:
        """The points, as flat 32-bit numbers, read-only."""
        return view_at(self.owner, self.points, 2 * self.point_count, "i").toreadonly()

    def ring_offsets(self) -> memoryview:
        """One more than there are rings, as signed 64-bit numbers, read-only."""
        return view_at(self.owner, self.rings, self.ring_count + 1, "q").toreadonly()

    def polygon_offsets(self) -> memoryview:
        """One more than there are polygons, as signed 64-bit numbers, read-only."""
        return view_at(self.owner, self.polygons, self.polygon_count + 1, "q").toreadonly()

    def given(self) -> Tuple[int, int, int, int]:
        """The rings as `overlay` takes them, for as long as this stays."""
        return self.points, self.point_count, self.rings + 8, self.ring_count

    def shapes_of_c(self) -> ShapesOfC:
        """The polygons as a layer's shapes, for as long as this stays."""
        return ShapesOfC(*self.given(), self.polygons + 8, self.polygon_count)


def polygons_of(subject: HeldRings, clip: HeldRings, rule: int, operation: int, limit: int) -> Lists:
    """The polygons, where the library wrote them.

    Raises ValueError where a ring stops before it begins, or behind the points.
    """
    handle = Handle(library.itree_polygons_free)
    words = *subject.given, *clip.given, rule, operation, handle.to_write
    size = subject.given[1] + clip.given[1]
    check_rings(made(library.itree_overlay, *words, size=size, limit=limit, kept=(subject, clip, handle)), limit)
    return lists_in(handle)


def check_rings(status: int, limit: int) -> None:
    """Raises what a status says of a call that is given rings, whose offsets may be the caller's."""
    if status == LENGTHS:
        raise ValueError("the offsets of rings: one stops before it begins, or behind the points")
    checked(status, limit)


def lists_in(handle: Handle) -> Lists:
    """The lists of a handle of polygons."""
    at, first = handle.at, ctypes.c_void_p()
    address = ctypes.byref(first)
    point_count = library.itree_polygons_points(at, address)
    points = first.value or 0
    rings = library.itree_polygons_ring_offsets(at, address)
    ring_offsets = first.value or 0
    polygons = library.itree_polygons_polygon_offsets(at, address)
    return Lists(handle, points, point_count, ring_offsets, rings - 1, first.value or 0, polygons - 1)


def lists_of(numbers: memoryview, ring_offsets: memoryview, polygon_offsets: memoryview) -> Lists:
    """The lists in views, which they own."""
    views = numbers, ring_offsets, polygon_offsets
    points, rings, polygons = map(address_of, views)
    counts = len(numbers) // 2, len(ring_offsets) - 1, len(polygon_offsets) - 1
    return Lists(views, points, counts[0], rings, counts[1], polygons, counts[2])


_TYPES = {"i": ctypes.c_int32, "q": ctypes.c_int64, "Q": ctypes.c_uint64}


def view_at(owner: Any, at: int, count: int, letter: Literal["i", "q", "Q"]) -> memoryview:
    """So many numbers at an address. What owns them is given back with the last view of them."""
    if count == 0:
        return memoryview(array.array(letter))
    memory = (_TYPES[letter] * count).from_address(at)
    setattr(memory, "owner", owner)
    return memoryview(memory).cast("B").cast(letter)
