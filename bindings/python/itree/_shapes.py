"""Rings of points, as callers give them: in sequences, in buffers, or in what has a __geo_interface__.

All rings of an argument become one list of points, and the places where each ring stops in it.
"""

from __future__ import annotations

import array
import bisect
import contextlib
import itertools
import math
import operator
import struct
from collections.abc import Iterator as IsIterator
from collections.abc import Mapping
from fractions import Fraction
from numbers import Number
from typing import TYPE_CHECKING, Any, Callable, Iterable, Iterator, List, NamedTuple, Optional, Tuple, Union

from . import _rows
from ._memory import numpy_where_loaded
from ._rows import Kind

if TYPE_CHECKING:
    from typing import Protocol, SupportsFloat

    class HasGeoInterface(Protocol):
        @property
        def __geo_interface__(self) -> Any:
            ...

    Numbers = Union[memoryview, array.array[int], array.array[float], _rows._HasBuffer, _rows._HasArray]
    Ring = Union[Iterable[Iterable[SupportsFloat]], Numbers]
    Shape = Union[Mapping[str, Any], HasGeoInterface, bytes, bytearray, memoryview]
    # Rings of this package, and Polygons, are iterables of rings, and have a __geo_interface__.
    Shapes = Union[Shape, Iterable[Union[Ring, Shape, None]]]
else:
    HasGeoInterface = Ring = Shape = Shapes = object

_WANTED = "Polygon, MultiPolygon, GeometryCollection, Feature or FeatureCollection is wanted"


class GivenRing(NamedTuple):
    """A ring as it was given, and where.

    is_hole: of a polygon of GeoJSON whether it is one of its holes; else None.
    kept: whether it is read again later, so that no part of it may be an iterator.
    """

    points: Any
    where: str
    is_hole: Optional[bool] = None
    kept: bool = False

    def row(self, place: int) -> str:
        return f"{self.where}, row {place}"


def rings_of_shape(shape: Any, where: str, kept: bool) -> Iterator[GivenRing]:
    """The rings of GeoJSON. kept: whether they are read again later."""
    for ring in _rings_of_shape(shape, where):
        yield ring._replace(kept=kept)


def check_order(given: Any, where: str, kept: bool) -> None:
    """Raises TypeError of what can't be read again, where it is to be."""
    if kept and isinstance(given, IsIterator):
        raise TypeError(f"{where} is an iterator, which can be read once alone; give a list")


def is_ring(given: Any) -> bool:
    """Whether it is a ring itself: a list of points, or a buffer that is flat, or whose rows are points."""
    if isinstance(given, (list, tuple)):
        first = given[0] if given else None
        return isinstance(first, (list, tuple)) and len(first) == 2 and isinstance(first[0], Number)
    try:
        view = memoryview(given)
    except (TypeError, BufferError, ValueError):
        return False
    return view.format != "O" and (view.ndim == 1 or (view.shape or ())[1:] == (2,))


def shape_of(given: Any) -> Optional[Any]:
    """What GeoJSON says of something, or None where it says nothing."""
    if isinstance(given, Mapping):
        return given
    return getattr(given, "__geo_interface__", None)


def _rings_of_shape(shape: Any, where: str) -> Iterator[GivenRing]:
    kind = shape.get("type") if isinstance(shape, Mapping) else None
    if kind == "Polygon":
        for place, ring in enumerate(_listed(shape, "coordinates", where)):
            yield GivenRing(ring, f"{where}, ring {place}", place > 0)
    elif kind == "MultiPolygon":
        for place, rings in enumerate(_listed(shape, "coordinates", where)):
            yield from _rings_of_shape({"type": "Polygon", "coordinates": rings}, f"{where}, polygon {place}")
    elif kind == "GeometryCollection":
        yield from _rings_of_each(shape, "geometries", where, "geometry")
    elif kind == "FeatureCollection":
        yield from _rings_of_each(shape, "features", where, "feature")
    elif kind == "Feature":
        if shape.get("geometry") is not None:
            yield from _rings_of_shape(shape["geometry"], where)
    else:
        raise TypeError(f"{where}: {kind if isinstance(kind, str) else 'no type of GeoJSON'}; {_WANTED}")


def _rings_of_each(shape: Any, member: str, where: str, called: str) -> Iterator[GivenRing]:
    for place, part in enumerate(_listed(shape, member, where)):
        yield from _rings_of_shape(part, f"{where}, {called} {place}")


def _listed(shape: Any, member: str, where: str) -> Iterable[Any]:
    listed = shape.get(member)
    if not isinstance(listed, (list, tuple)):
        said = f"no {member}" if listed is None else f"{member} that are {_rows._type(listed)}"
        raise ValueError(f"{where}: {shape['type']} with {said}; a list is wanted")
    return listed


class GatheredRings:
    """The coordinates of all rings, as numbers of a type of array.array's, and where each ring stops among the points."""

    def __init__(self, rings: Iterable[GivenRing], numbers_of: Callable[[GivenRing], array.array[Any]], typecode: str):
        self.numbers: array.array[Any] = array.array(typecode)
        self.ends, self._names = array.array("Q"), []
        for ring in rings:
            check_order(ring.points, ring.where, ring.kept)
            self.numbers.extend(numbers_of(ring))
            self.ends.append(len(self.numbers) // 2)
            self._names.append(ring.where)

    def row(self, place: int) -> str:
        """What a point is called, which has this place among all."""
        ring = bisect.bisect_right(self.ends, place)
        start = self.ends[ring - 1] if ring else 0
        return f"{self._names[ring]}, row {place - start}"


class HeldRings(NamedTuple):
    """Points of all rings, as whole numbers, and where each ring stops among them.

    given: as the library takes them, for as long as this stays.
    kept: what owns the memory.
    """

    given: Tuple[int, int, int, int]
    kept: Any


def held_rings(numbers: array.array[int], ends: array.array[int]) -> HeldRings:
    """Rings whose numbers, and whose ends, lie side by side."""
    return HeldRings((numbers.buffer_info()[0], len(numbers) // 2, *ends.buffer_info()), (numbers, ends))


NOTHING = held_rings(array.array("i"), array.array("Q"))


def directed(ring: GivenRing, numbers: array.array[Any]) -> array.array[Any]:
    """The coordinates of a ring, turned where it is one of GeoJSON that runs the wrong way: an outer one runs
    counterclockwise then, and a hole clockwise. They aren't rounded yet, for that may turn a thin ring over."""
    xs, ys = numbers[0::2], numbers[1::2]
    if ring.is_hole is not None and _is_counterclockwise(xs, ys) == ring.is_hole:
        numbers[0::2], numbers[1::2] = xs[::-1], ys[::-1]
    return numbers


def _is_counterclockwise(xs: array.array[Any], ys: array.array[Any]) -> bool:
    """Whether the ring winds around a positive area."""
    # Floats near the first point, and fractions where the sum isn't clearly more than the roundings make.
    products = list(_products(*(array.array("d", [number - axis[0] for number in axis]) for axis in (xs, ys))))
    with contextlib.suppress(OverflowError, ValueError):
        area = math.fsum(products)
        if abs(area) > math.fsum(map(abs, products)) * 2**-50 + 1e-290:
            return area > 0
    return _twice_area(list(map(Fraction, xs)), list(map(Fraction, ys))) > 0


def _twice_area(xs: List[Fraction], ys: List[Fraction]) -> Fraction:
    area: Fraction = sum(_products(xs, ys), Fraction(0))
    return area


def _products(xs: Any, ys: Any) -> Iterator[Any]:
    """What makes twice the area together."""
    yield from map(operator.mul, xs, ys[1:] + ys[:1])
    yield from map(operator.neg, map(operator.mul, xs[1:] + xs[:1], ys))


def whole_numbers(ring: GivenRing) -> array.array[int]:
    """The coordinates of a ring that is none of GeoJSON, which have to be whole."""
    return _copied(ring)


def _copied(ring: GivenRing) -> array.array[int]:
    copied = array.array("i")
    try:
        view, _ = _rows._numbers_of(ring.points, Kind(ring.where, 2))
    except TypeError as fault:
        raise _with_grid(fault) from None
    with view:
        if view.nbytes:
            copied.frombytes(view.cast("B"))
    return copied


def _with_grid(fault: TypeError) -> TypeError:
    """The fault, which says what else floats are taken by."""
    said = str(fault)
    return TypeError(f"{said}; or give a grid: itree.Grid.fit(...)") if "scale and round" in said else fault


def floats(ring: GivenRing) -> array.array[float]:
    """The coordinates of a ring, as floats, each of which is finite."""
    numbers = _floats(ring)
    check_finite(numbers, ring.where)
    return numbers


def directed_floats(ring: GivenRing) -> array.array[float]:
    """The same, turned where the ring runs the wrong way."""
    return directed(ring, floats(ring))


def check_finite(numbers: array.array[float], where: str) -> None:
    if not all(map(math.isfinite, numbers)):
        place = next(place for place, number in enumerate(numbers) if not math.isfinite(number))
        raise ValueError(f"{where}, row {place // 2}: {numbers[place]}; finite numbers are wanted")


def _floats(ring: GivenRing) -> array.array[float]:
    given, numpy = ring.points, numpy_where_loaded()
    if isinstance(given, (list, tuple)) or ring.is_hole is not None:
        return _floats_of_rows(ring)
    if numpy is not None and hasattr(given, "__array__"):
        given = numpy.asarray(given)
    view = _rows._view_of(given, Kind(ring.where, 2))
    if view is None or view.format == "O":
        return _floats_of_rows(ring)
    with view:
        _rows._check_shape(view, Kind(ring.where, 2))
        copied = array.array("d")
        copied.frombytes(_bytes_of_doubles(given, view, ring.where))
        return copied


def _bytes_of_doubles(given: Any, view: memoryview, where: str) -> bytes:
    numpy = numpy_where_loaded()
    if not (_rows._WHOLE.fullmatch(view.format) or _rows._FLOAT.fullmatch(view.format)):
        raise TypeError(f"{where}: numbers of the format {view.format!r}; numbers are wanted")
    if view.nbytes == 0:
        return b""
    if numpy is not None and view.format[-1] not in "nN":
        doubles: bytes = numpy.asarray(given).astype("d", order="C").tobytes()
        return doubles
    order, letter = view.format[:-1], view.format[-1]
    count = view.nbytes // view.itemsize
    return array.array("d", struct.unpack(f"{order}{count}{letter}", view.tobytes())).tobytes()


def _floats_of_rows(ring: GivenRing) -> array.array[float]:
    rows = _pairs(ring)
    with contextlib.suppress(OverflowError, TypeError):
        return array.array("d", itertools.chain.from_iterable(rows))
    return array.array("d", [_float(number, ring.row(place)) for place, row in enumerate(rows) for number in row])


def _float(number: Any, where: str) -> float:
    try:
        taken: float = array.array("d", [number])[0]
        return taken
    except TypeError:
        raise TypeError(f"{where}: {_rows._type(number)}; numbers are wanted") from None
    except OverflowError:
        raise ValueError(f"{where}: a number of {int(number).bit_length()} bits doesn't fit into a float") from None


def _pairs(ring: GivenRing) -> List[Any]:
    """The points of a ring, each with two numbers. One of GeoJSON may have more: what stands behind the two is left out,
    and so is the last point where it is the first one again."""
    rows = list(_rows._iterated(ring.points, ring.where, "points"))
    of_shape = ring.is_hole is not None
    with contextlib.suppress(TypeError):
        lengths = set(map(len, rows)) if _rows.UNORDERED.isdisjoint(map(type, rows)) else {0}
        if lengths <= {2} or (of_shape and min(lengths) > 2):
            pairs = rows if lengths <= {2} else [row[:2] for row in rows]
            return _opened(pairs) if of_shape else pairs
    pairs = [_pair(row, ring.row(place), of_shape, ring.kept) for place, row in enumerate(rows)]
    return _opened(pairs) if of_shape else pairs


def _pair(row: Any, where: str, of_shape: bool, kept: bool) -> List[Any]:
    check_order(row, where, kept)
    items = list(_rows._iterated(row, where, "2 numbers"))
    if len(items) < 2 or (len(items) > 2 and not of_shape):
        raise ValueError(f"{where}: {len(items)} numbers, 2 are wanted")
    return items[:2]


def _opened(pairs: List[Any]) -> List[Any]:
    is_closed = len(pairs) > 1 and tuple(pairs[0]) == tuple(pairs[-1])
    return pairs[:-1] if is_closed else pairs
