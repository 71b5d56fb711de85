"""Rings: many rings of points, in two arrays."""

from __future__ import annotations

import array
from typing import TYPE_CHECKING, Any, Iterator, Optional, Tuple, Union

from . import _rows, _shapes
from ._memory import address_of, numpy_where_loaded
from ._rows import Kind

if TYPE_CHECKING:
    Numbers = Union[_shapes.Numbers, "list[Any]"]
else:
    Numbers = object

_POINTS, _OFFSETS = Kind("points", 2), Kind("ring_offsets", 1)


class Rings:
    """Rings of points in two arrays, as `Polygons` has them, which `overlay` and `simplify` take: the fast way in.

    points: the points of all rings, one ring behind the other, of the shape
    (points, 2), or flat: whole numbers, or floats for a call with a grid.
    ring_offsets: whole numbers, one more than there are rings. The ring at i is
    points[ring_offsets[i]:ring_offsets[i + 1]], as in a large list of the Arrow
    format.

    Both are numpy's arrays, array.array, memoryviews, or what else has a
    buffer. Signed 32-bit points, 64-bit floats and 64-bit offsets that lie side
    by side are read where they lie, at each call: nothing may write them then.
    All else is copied.

    >>> import array
    >>> points = array.array("i", [0, 0, 9, 0, 9, 9, 0, 9, 3, 3, 3, 6, 6, 6, 6, 3])
    >>> rings = Rings(points, array.array("q", [0, 4, 8]))
    >>> len(rings), rings.points.shape, rings.ring_offsets.tolist()
    (2, (8, 2), [0, 4, 8])

    Raises ValueError where offsets don't rise from 0 on or stop behind the
    points, and TypeError where something is no array of such numbers.
    """

    __slots__ = "points", "ring_offsets", "_numbers", "_offsets", "_at"

    def __init__(self, points: Numbers, ring_offsets: Numbers) -> None:
        self._numbers = _numbers_of(points)
        self._offsets = _offsets_of(ring_offsets)
        self.points = _in_rows(self._numbers)
        self.ring_offsets = self._offsets
        self._at = address_of(self._numbers), address_of(self._offsets)
        _check(self._offsets, len(self.points))

    def __len__(self) -> int:
        return len(self._offsets) - 1

    def __iter__(self) -> Iterator[memoryview]:
        """Each ring, as a view of the shape (points, 2)."""
        for start, stop in zip(self._offsets, self._offsets[1:]):
            yield self.points[start:stop]

    def __repr__(self) -> str:
        kind = "floats" if self.has_floats else "whole numbers"
        return f"<itree.Rings: {len(self)} rings, {len(self.points)} points, {kind}>"

    def __eq__(self, other: object) -> bool:
        if not isinstance(other, Rings):
            return NotImplemented
        return self._numbers == other._numbers and self._offsets == other._offsets

    # What it views may be written.
    __hash__ = None  # type: ignore[assignment]

    def __reduce__(self) -> Tuple[Any, ...]:
        return _again, (self._numbers.format, self._numbers.tobytes(), self._offsets.tobytes())

    @property
    def has_floats(self) -> bool:
        """Whether the points are floats, which a call takes by a grid."""
        return self._numbers.format == "d"

    def numbers(self) -> memoryview:
        """The coordinates, flat."""
        return self._numbers

    def given(self) -> Tuple[int, int, int, int]:
        """As the library takes them: points, how many, and where each ring stops."""
        points, offsets = self._at
        return points, len(self.points), offsets + 8, len(self)

    def row(self, name: str, place: int) -> str:
        """What a point is called, which has this place among all."""
        ring = next((ring for ring, stop in enumerate(self._offsets[1:]) if place < stop), len(self))
        start = self._offsets[ring] if ring < len(self) else 0
        return f"{name}, ring {ring}, row {place - start}"


def _again(letter: str, points: bytes, offsets: bytes) -> Rings:
    numbers, stops = array.array(letter), array.array("q")
    numbers.frombytes(points)
    stops.frombytes(offsets)
    return Rings(numbers, stops)


def _in_rows(numbers: memoryview) -> memoryview:
    letter = numbers.format
    if len(numbers) == 0:
        # A view without numbers takes no shape.
        return memoryview(bytes(2 * numbers.itemsize)).cast(letter, (1, 2))[:0]
    return numbers.cast("B").cast(letter, (len(numbers) // 2, 2))


def _numbers_of(points: Any) -> memoryview:
    """The coordinates, flat: signed 32-bit numbers, or doubles."""
    floats = floats_of(points, _POINTS)
    if floats is None:
        floats, _ = _rows._numbers_of(points, _POINTS)
    return flat(floats)


def flat(view: memoryview) -> memoryview:
    """The numbers of a view, side by side."""
    return view.cast("B").cast(view.format[-1]) if view.nbytes else memoryview(array.array(view.format[-1]))


def floats_of(points: Any, kind: Kind) -> Optional[memoryview]:
    """Points of floats, as doubles that lie side by side; None where they are no buffer of floats."""
    numpy = numpy_where_loaded()
    if numpy is not None and hasattr(points, "__array__"):
        points = numpy.asarray(points)
    view = None if isinstance(points, (list, tuple)) else _rows._view_of(points, kind)
    if view is None or not _rows._FLOAT.fullmatch(view.format):
        return None
    _rows._check_shape(view, kind)
    if view.format in ("d", "@d", "=d") and view.c_contiguous and view.nbytes and address_of(view) % 8 == 0:
        return view
    copied = array.array("d")
    copied.frombytes(_shapes._bytes_of_doubles(points, view, kind.name))
    return memoryview(copied)


def _offsets_of(given: Any) -> memoryview:
    """The offsets, as signed 64-bit numbers."""
    numpy = numpy_where_loaded()
    if isinstance(given, (list, tuple)):
        given = array.array("q", given)
    elif numpy is not None and hasattr(given, "__array__"):
        given = numpy.asarray(given)
    view = _rows._view_of(given, _OFFSETS)
    if view is None or view.ndim != 1 or not _rows._WHOLE.fullmatch(view.format):
        raise TypeError("ring_offsets: a flat array of whole numbers is wanted")
    letter = _rows._typecode_of(view, _OFFSETS)
    if view.itemsize == 8 and view.c_contiguous and not _rows._is_swapped(view) and address_of(view) % 8 == 0:
        return view.cast("B").cast("q") if view.nbytes else memoryview(array.array("q"))
    whole = array.array(letter, view.tobytes())
    if _rows._is_swapped(view):
        whole.byteswap()
    return memoryview(array.array("q", whole))


def _check(offsets: memoryview, count: int) -> None:
    """Raises ValueError where offsets are none of so many points."""
    if len(offsets) == 0 or offsets[0] != 0:
        raise ValueError("ring_offsets: the first one is 0, and one more than there are rings are wanted")
    numpy = numpy_where_loaded()
    if numpy is not None and len(offsets) > 100:
        numbers = numpy.asarray(offsets)
        rises = bool((numbers[1:] >= numbers[:-1]).all())
    else:
        listed = offsets.tolist()
        rises = all(map(int.__le__, listed, listed[1:]))
    if not rises:
        raise ValueError("ring_offsets: one is less than that before it")
    if offsets[-1] > count:
        raise ValueError(f"ring_offsets: the last one is {offsets[-1]}, and there are {count} points")
