"""What `overlay`, `simplify` and `Grid.fit` are given, read once: shapes as well-known binary, and rings as numbers.

Shapely's objects become well-known binary, which the library reads: it turns outer rings and holes, leaves out the last
point of a ring, and rounds. So does what is well-known binary already. GeoJSON is read here, and rings are.
"""

from __future__ import annotations

import array
import ctypes
import importlib
import sys
from collections.abc import Iterator as IsIterator
from typing import Any, Callable, Iterable, List, Optional, Sequence, Tuple, TypeVar

from . import _rows, _shapely, _shapes, _wkb
from ._answers import Lists
from ._grid import Grid, fitted
from ._library import GridOfC
from ._memory import address_of, numpy_where_loaded
from ._polygons import Polygons
from ._rings import Rings
from ._rows import _GREATEST, _LEAST
from ._shapes import NOTHING, GatheredRings, GivenRing, HeldRings, held_rings

_WHOLE = GridOfC(0, 0, 0)
_Found = TypeVar("_Found")


class Binaries:
    """Shapes as well-known binary, and shapely's objects that it was made of, by their places."""

    def __init__(self, objects: Sequence[Any], items: Sequence[bytes], named: Callable[[int], str]) -> None:
        self._objects, self._items, self._named = objects, items, named
        self._has_empty = True
        made: List[bytes] = _shapely.written(objects) if objects else []
        self.binary = _wkb.joined([*made, *items] if items else made, named)

    def by(self, call: Callable[[_wkb.Binary], _Found]) -> _Found:
        """What a call makes of them. One of shapely's that is empty is nothing, whatever its type."""
        try:
            return call(self.binary)
        except _wkb.BinaryFault as fault:
            is_object = fault.shape < len(self._objects)
            if fault.kind in _wkb.OF_NUMBERS and is_object:
                raise ValueError(f"{_wkb.row_of(self.binary, fault)}: {fault.said}") from None
            if fault.kind != _wkb.KIND or not is_object:
                raise ValueError(str(fault)) from None
            if not self._has_empty:
                raise TypeError(f"{self._named(fault.shape)}: {fault.said}") from None
        self._leave_empty()
        return self.by(call)

    def _leave_empty(self) -> None:
        """Writes nothing in place of shapely's objects that are empty."""
        self._has_empty = False
        self._objects = [None if it is None or it.is_empty else it for it in self._objects]
        self.binary = _wkb.joined([*_shapely.written(self._objects), *self._items], self._named)


class Gathered:
    """What one argument has."""

    __slots__ = "name", "own", "binaries", "shapes", "rings", "crs", "srid"

    def __init__(self, name: str) -> None:
        self.name = name
        self.own: Any = None  # Rings, or Polygons
        self.binaries: Optional[Binaries] = None
        self.shapes: Optional[GatheredRings] = None  # of GeoJSON, doubles
        self.rings: Optional[GatheredRings] = None  # whole numbers, or doubles where a grid was given
        self.crs: Any = None
        self.srid = 0

    def is_of_shapes(self) -> bool:
        """Whether there are shapes, whose coordinates needn't be whole, though no grid is given."""
        if self.binaries is not None or self.shapes is not None:
            return True
        own = self.own
        return own is not None and isinstance(own, Polygons) and own.grid is not None

    def is_nothing(self) -> bool:
        """Whether there is neither an answer, nor a shape, nor a ring."""
        return self.own is None and not (self.binaries or self.shapes or (self.rings and self.rings.ends))

    def is_whole(self) -> bool:
        """Whether all coordinates of shapes are whole numbers of 32 bits."""
        self._open()
        numbers = array.array("d")
        if self.binaries is not None:
            if not _wkb.are_whole(self.binaries.binary):
                return False
            numbers.extend(self.binaries.by(_wkb.corners))
        if self.shapes is not None:
            numbers.extend(self.shapes.numbers)
        return are_whole(numbers)

    def corners(self) -> array.array[float]:
        """Positions, among which are the least and the greatest coordinates on each axis."""
        self._open()
        numbers = array.array("d")
        if self.binaries is not None:
            numbers.extend(self.binaries.by(_wkb.corners))
        if self.own is not None:
            numbers.extend(bounds(self.own._numbers, self._row_of_own))
        for rings in self.shapes, self.rings:
            if rings is not None:
                numbers.extend(bounds(memoryview(rings.numbers), rings.row))
        return numbers

    def _row_of_own(self, place: int) -> str:
        own: Rings = self.own
        return own.row(self.name, place)

    def held(self, grid: Optional[Grid]) -> HeldRings:
        """The rings, in units of a grid, or as they are."""
        if self.own is not None and isinstance(self.own, Polygons) and self.own.grid == grid:
            return HeldRings(self.own.given(), self.own)
        self._open()
        parts = []
        if self.own is not None:
            parts.append(_held_own(self.own, grid, self.name))
        if self.binaries is not None:
            parts.append(self.binaries.by(lambda binary: _held_binary(binary, grid)))
        for rings in self.shapes, self.rings:
            if rings is not None:
                parts.append(_held_numbers(rings, grid))
        return parts[0] if len(parts) == 1 else _together(parts)

    def _open(self) -> None:
        """Polygons go by their coordinates, for the grid may be another than theirs."""
        own = self.own
        if own is not None and isinstance(own, Polygons):
            self.own, self.binaries = None, Binaries((), (own.to_wkb(srid=0),), lambda _: self.name)


def are_whole(numbers: array.array[float]) -> bool:
    """Whether all are whole numbers of 32 bits."""
    if not all(map(float.is_integer, numbers)):
        return False
    return not numbers or (_LEAST <= min(numbers) and max(numbers) <= _GREATEST)


def bounds(numbers: memoryview, row_of: Callable[[int], str]) -> List[float]:
    """The least and the greatest position of flat numbers. Raises ValueError where one isn't finite."""
    if len(numbers) == 0:
        return []
    numpy = numpy_where_loaded()
    if numpy is not None:
        flat = numpy.asarray(numbers)
        found = [float(it) for least in (numpy.min, numpy.max) for it in (least(flat[0::2]), least(flat[1::2]))]
    else:
        whole = array.array(numbers.format, numbers)
        found = [float(least(whole[axis::2])) for least in (min, max) for axis in (0, 1)]
    if not all(map(float.__eq__, found, found)) or numbers.format == "d":
        _check_finite(numbers, row_of)
    return found


def _check_finite(numbers: memoryview, row_of: Callable[[int], str]) -> None:
    numpy = numpy_where_loaded()
    if numpy is not None and bool(numpy.isfinite(numpy.asarray(numbers)).all()):
        return
    finite = (place for place, number in enumerate(numbers) if number - number != 0)
    place = next(finite, None)
    if place is not None:
        raise ValueError(f"{row_of(place // 2)}: {numbers[place]}; finite numbers are wanted")


def _held_own(own: Rings, grid: Optional[Grid], name: str) -> HeldRings:
    if grid is None:
        return HeldRings(own.given(), own)
    view = own._numbers if own.has_floats else memoryview(array.array("d", own._numbers.tolist()))
    room = array.array("i", [0]) * len(view)
    at, (_, count, ends, rings) = room.buffer_info()[0], own.given()
    grid.round_into(at, address_of(view), count, view, lambda place: own.row(name, place))
    return HeldRings((at, count, ends, rings), (room, own))


def lists_of_binary(binary: _wkb.Binary, grid: Optional[Grid]) -> Lists:
    """The rings of shapes in well-known binary, in units of a grid, or as they are."""
    return _wkb.read(binary, _WHOLE if grid is None else grid.of_c(), grid)


def _held_binary(binary: _wkb.Binary, grid: Optional[Grid]) -> HeldRings:
    lists = lists_of_binary(binary, grid)
    return HeldRings(lists.given(), lists)


def _held_numbers(rings: GatheredRings, grid: Optional[Grid]) -> HeldRings:
    numbers = rings.numbers
    if grid is not None:
        doubles = numbers if numbers.typecode == "d" else array.array("d", numbers)
        return held_rings(grid.rounded(doubles, rings.row), rings.ends)
    whole = numbers if numbers.typecode == "i" else array.array("i", map(int, numbers))
    return held_rings(whole, rings.ends)


def _together(parts: Sequence[HeldRings]) -> HeldRings:
    numbers, ends = array.array("i"), array.array("Q")
    for points, count, stops, rings in (it.given for it in parts):
        before = len(numbers) // 2
        numbers.frombytes(ctypes.string_at(points, 8 * count) if count else b"")
        copied = array.array("Q")
        copied.frombytes(ctypes.string_at(stops, 8 * rings) if rings else b"")
        ends.extend(stop + before for stop in copied)
    return held_rings(numbers, ends)


class _Gatherer:
    """Reads one argument."""

    def __init__(self, name: str, has_grid: bool, kept: bool) -> None:
        self._gathered = Gathered(name)
        self._has_grid, self._kept = has_grid, kept
        self._base = _shapely.base()
        self._objects: List[Tuple[Any, str]] = []
        self._items: List[Tuple[bytes, str]] = []
        self._shapes: List[Iterable[GivenRing]] = []
        self._rings: List[GivenRing] = []

    def gathered(self, given: Any) -> Gathered:
        """What the argument has."""
        found, name = self._gathered, self._gathered.name
        if isinstance(given, Rings):
            check_floats(given, name, self._has_grid)
            found.own = given
        elif isinstance(given, Polygons):
            found.own = given
            self._know(given.crs, given.srid)
        elif not self._add(given, name) and not self._add_objects(given):
            self._add_each(given)
        self._close()
        return found

    def _add_objects(self, given: Any) -> bool:
        """Whether it is a list of shapely's objects alone, which are added."""
        if not (isinstance(given, (list, tuple)) and given and isinstance(given[0], self._base)):
            return False
        base, name = self._base, self._gathered.name
        if not all(isinstance(it, base) or it is None for it in given):
            return False
        self._write_objects(given, name)
        return True

    def _write_objects(self, given: Sequence[Any], name: str) -> None:
        objects = [it for it in given if it is not None]

        def named(place: int) -> str:
            places = [at for at, it in enumerate(given) if it is not None]
            return f"{name}, place {places[place]}"

        self._gathered.binaries = Binaries(objects, (), named)

    def _add_each(self, given: Any) -> None:
        name = self._gathered.name
        if _shapes.is_ring(given):
            raise TypeError(f"{name}: a ring alone; a sequence of rings is wanted: put it into a list")
        _shapes.check_order(given, name, self._kept)
        items = given if isinstance(given, (set, frozenset)) else _rows._iterated(given, name, _WANTED)
        for place, item in enumerate(items):
            if item is None or self._add(item, f"{name}, place {place}"):
                continue
            self._rings.append(GivenRing(item, f"{name}, ring {place}", None, self._kept))

    def _add(self, given: Any, where: str) -> bool:
        """Whether it is a shape, or several, which are added."""
        if isinstance(given, self._base):
            self._objects.append((given, where))
        elif is_binary(given):
            data = bytes(given)
            self._know(None, _wkb.srid_of(data))
            self._items.append((data, where))
        elif isinstance(given, Polygons):
            self._know(given.crs, given.srid)
            self._items.append((given.to_wkb(srid=0), where))
        elif isinstance(given, Rings):
            check_floats(given, self._gathered.name, self._has_grid)
            self._rings += [GivenRing(ring, f"{where}, ring {it}") for it, ring in enumerate(given)]
        else:
            return self._add_series(given, where) or self._add_shape(given, where)
        return True

    def _add_series(self, given: Any, where: str) -> bool:
        """Whether it is a GeoSeries, a GeoDataFrame or an array of geopandas', which is added."""
        series = series_of(given)
        if series is None:
            return False
        self._know(series.crs, 0)
        objects = listed(series)
        if where == self._gathered.name:
            self._write_objects(objects, where)
        else:
            self._objects += [(it, f"{where}, place {at}") for at, it in enumerate(objects) if it is not None]
        return True

    def _add_shape(self, given: Any, where: str) -> bool:
        shape = _shapes.shape_of(given)
        if shape is None:
            return False
        self._shapes.append(_shapes.rings_of_shape(shape, where, self._kept))
        return True

    def _know(self, crs: Any, srid: int) -> None:
        found = self._gathered
        found.crs, found.srid = one_of([found.crs, crs], "crs"), one_of([found.srid, srid], "SRID") or 0

    def _close(self) -> None:
        """Reads what was added, shapes before rings."""
        found = self._gathered
        if self._objects or self._items:
            names = [name for _, name in [*self._objects, *self._items]]
            objects, items = [it for it, _ in self._objects], [it for it, _ in self._items]
            found.binaries = Binaries(objects, items, names.__getitem__)
        if self._shapes:
            rings = (ring for shape in self._shapes for ring in shape)
            found.shapes = GatheredRings(rings, _shapes.directed_floats, "d")
        if self._rings:
            numbers_of: Callable[[GivenRing], Any] = _shapes.floats if self._has_grid else _shapes.whole_numbers
            found.rings = GatheredRings(self._rings, numbers_of, "d" if self._has_grid else "i")
        if found.own is None and found.binaries is None and found.shapes is None and found.rings is None:
            found.rings = GatheredRings([], _shapes.whole_numbers, "i")


_WANTED = "rings, or what has a __geo_interface__,"


def check_floats(rings: Rings, name: str, has_grid: bool) -> None:
    """Raises TypeError of floats where no grid was given."""
    if rings.has_floats and not has_grid:
        raise TypeError(f"{name}: floats; whole numbers are wanted; {_rows._NUMPY_SCALES}; or give a grid: itree.Grid.fit(...)")


def one_of(items: Iterable[Any], called: str) -> Any:
    """The one of several that is told. Raises ValueError where two differ."""
    told = [it for it in items if it]
    if any(it != told[0] for it in told[1:]):
        raise ValueError(f"two {called} that differ: {told[0]} and {next(it for it in told if it != told[0])}")
    return told[0] if told else None


def is_binary(given: Any) -> bool:
    """Whether it is well-known binary: bytes, or a view of them."""
    if isinstance(given, memoryview):
        return given.format == "B" and isinstance(given.obj, (bytes, bytearray))
    return isinstance(given, (bytes, bytearray))


def series_of(given: Any) -> Any:
    """What has shapes and a crs, of a GeoSeries, a GeoDataFrame or an array of geopandas'; or None."""
    geopandas: Any = sys.modules.get("geopandas")
    if geopandas is None or not hasattr(geopandas, "GeoSeries"):
        return None
    if isinstance(given, geopandas.GeoDataFrame):
        given = given.geometry
    if isinstance(given, geopandas.GeoSeries):
        return given.values
    arrays = sys.modules.get("geopandas.array")
    return given if isinstance(given, getattr(arrays, "GeometryArray", ())) else None


def listed(series: Any) -> List[Any]:
    """The shapes of an array of geopandas', with None where there is none."""
    numpy: Any = importlib.import_module("numpy")
    base = _shapely.base()
    return [it if isinstance(it, base) else None for it in numpy.asarray(series, dtype=object)]


def gathered(named: Sequence[Tuple[Any, str]], has_grid: bool, kept: bool) -> List[Gathered]:
    """What some arguments have, each with the name by which its faults are told.

    has_grid: whether rings may have floats. kept: whether the arguments are read again later.
    """
    if len(named) == 2 and named[0][0] is named[1][0] and isinstance(named[0][0], IsIterator):
        raise TypeError(f"{named[1][1]} is the iterator of {named[0][1]}, which can be read once alone; give a list")
    base = _shapely.base()
    return [
        _alone(given, name) if isinstance(given, base) else _Gatherer(name, has_grid, kept).gathered(given)
        for given, name in named
    ]


def _alone(given: Any, name: str) -> Gathered:
    """One of shapely's objects: by far the most frequent, and the shortest way."""
    found = Gathered(name)
    found.binaries = Binaries((given,), (), lambda _: name)
    return found


def corners_of(named: Sequence[Tuple[Any, str]], kept: bool) -> array.array[float]:
    """Positions, among which are the least and the greatest coordinates of all arguments."""
    return _corners(gathered(named, True, kept))


def _corners(items: Iterable[Gathered]) -> array.array[float]:
    numbers = array.array("d")
    for item in items:
        numbers.extend(item.corners())
    return numbers


def chosen(items: Sequence[Gathered]) -> Optional[Grid]:
    """The grid of a call that is given none: None where all is whole, else that of all, or the finest that fits."""
    if not any(it.is_of_shapes() for it in items):
        return None
    some = [it for it in items if not it.is_nothing()]
    if all(it.own is not None and isinstance(it.own, Polygons) and it.own.grid == some[0].own.grid for it in some):
        grid: Optional[Grid] = some[0].own.grid
        return grid
    if all(it.is_whole() for it in items):
        return None
    return fitted(_corners(items))


def held(items: Sequence[Gathered], grid: Optional[Grid]) -> List[HeldRings]:
    """The rings of a subject and of a clip, which may be left out."""
    parts = [it.held(grid) for it in items]
    return parts + [NOTHING] * (2 - len(parts))
