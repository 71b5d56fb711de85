"""Layers: sequences of shapes, each of its own, read once and in bulk, as the library takes them.

A layer of shapely's objects or of well-known binary is read by the library in one go. An answer, or Rings, is taken where
it lies. What is mixed, or is GeoJSON or lists of rings, is read shape by shape.
"""

from __future__ import annotations

import array
import ctypes
import itertools
from typing import Any, Iterable, List, Optional, Sequence, Tuple, Union

from . import _gathered, _rows, _shapely, _shapes, _wkb
from ._answers import Lists, lists_of
from ._gathered import Binaries, Gathered
from ._grid import Grid, fitted
from ._overlays import Overlays
from ._polygons import Polygons
from ._rings import Rings
from ._shapes import GatheredRings, GivenRing

_WANTED = "a sequence of shapes is wanted: put it into a list"


class Layer:
    """What one argument has.

    count: how many shapes. is_nothing: whether none of them has a part. crs, srid: its reference system, where it tells
    one. has_shapes: whether there are shapes, whose coordinates needn't be whole, though no grid is given. of_answer:
    whether it is an answer, whose grid is own_grid.
    """

    count = 0
    is_nothing = False
    crs: Any = None
    srid = 0
    has_shapes = True
    of_answer = False
    own_grid: Optional[Grid] = None

    def is_whole(self) -> bool:
        """Whether all coordinates of shapes are whole numbers of 32 bits."""
        raise NotImplementedError

    def corners(self) -> array.array[float]:
        """Positions, among which are the least and the greatest coordinates on each axis."""
        raise NotImplementedError


class ShapeLayer(Layer):
    """A layer of shapes with rings."""

    def held(self, grid: Optional[Grid]) -> Lists:
        """The rings of each shape, in units of a grid, or as they are."""
        raise NotImplementedError


class BinaryLayer(ShapeLayer):
    """Shapes in well-known binary, or of shapely's, which become well-known binary."""

    def __init__(self, binaries: Binaries, crs: Any = None, srid: int = 0) -> None:
        self._binaries = binaries
        self.count = len(binaries.binary.offsets) - 1
        # What is nothing is the shortest.
        self.is_nothing = len(binaries.binary.data) == len(_shapely.NOTHING) * self.count
        self.crs, self.srid = crs, srid

    def is_whole(self) -> bool:
        return _wkb.are_whole(self._binaries.binary) and _gathered.are_whole(self.corners())

    def corners(self) -> array.array[float]:
        return self._binaries.by(_wkb.corners)

    def held(self, grid: Optional[Grid]) -> Lists:
        return self._binaries.by(lambda binary: _gathered.lists_of_binary(binary, grid))


class _AnswerLayer(ShapeLayer):
    """The polygons of an answer, each a shape; or what `overlay_each` answers for each pair."""

    of_answer = True

    def __init__(self, own: Union[Polygons, Overlays]) -> None:
        self._own = own
        self.count, self.own_grid = len(own), own.grid
        self.is_nothing = len(own.points) == 0
        self.crs, self.srid = own.crs, own.srid
        self.has_shapes = own.grid is not None

    def _as_binary(self) -> BinaryLayer:
        own = self._own
        items = own.to_wkb(srid=0, each=True) if isinstance(own, Polygons) else own.to_wkb(srid=0)
        return BinaryLayer(Binaries((), items, lambda place: f"place {place}"))

    def is_whole(self) -> bool:
        return self.own_grid is None or self._as_binary().is_whole()

    def corners(self) -> array.array[float]:
        return self._as_binary().corners()

    def held(self, grid: Optional[Grid]) -> Lists:
        return self._own.lists_of_each() if grid == self.own_grid else self._as_binary().held(grid)


class RingLayer(ShapeLayer):
    """Rings, and where each shape begins among them, and where the last stops."""

    def __init__(self, gathered: Gathered, offsets: array.array[int]) -> None:
        self._gathered, self._offsets = gathered, offsets
        self.count = len(offsets) - 1
        self.is_nothing = offsets[-1] == 0
        self.has_shapes = gathered.is_of_shapes()

    def is_whole(self) -> bool:
        return self._gathered.is_whole()

    def corners(self) -> array.array[float]:
        return self._gathered.corners()

    def held(self, grid: Optional[Grid]) -> Lists:
        held, offsets = self._gathered.held(grid), self._offsets
        points, count, ends, rings = held.given
        stops = array.array("q", [0])
        stops.frombytes(ctypes.string_at(ends, 8 * rings) if rings else b"")
        kept = held, stops, offsets
        return Lists(kept, points, count, stops.buffer_info()[0], rings, offsets.buffer_info()[0], self.count)


class _MixedLayer(ShapeLayer):
    """Shapes of several kinds, or what is read one by one."""

    def __init__(self, items: Sequence[Gathered]) -> None:
        self._items = items
        self.count = len(items)
        self.crs = _gathered.one_of((it.crs for it in items), "crs")
        self.srid = _gathered.one_of((it.srid for it in items), "SRID") or 0
        some = [it for it in items if not it.is_nothing()]
        self.is_nothing = not some
        self.has_shapes = any(it.is_of_shapes() for it in items)
        grids = {it.own.grid for it in some if isinstance(it.own, Polygons)}
        if len(grids) == 1 and all(isinstance(it.own, Polygons) for it in some):
            self.of_answer, self.own_grid = True, grids.pop()

    def is_whole(self) -> bool:
        return all(it.is_whole() for it in self._items)

    def corners(self) -> array.array[float]:
        numbers = array.array("d")
        for item in self._items:
            numbers.extend(item.corners())
        return numbers

    def held(self, grid: Optional[Grid]) -> Lists:
        numbers, rings, shapes = array.array("i"), array.array("q", [0]), array.array("q", [0])
        for item in self._items:
            held = item.held(grid)
            points, count, ends, stops = held.given
            before, copied = len(numbers) // 2, array.array("Q")
            numbers.frombytes(ctypes.string_at(points, 8 * count) if count else b"")
            copied.frombytes(ctypes.string_at(ends, 8 * stops) if stops else b"")
            rings.extend(stop + before for stop in copied)
            shapes.append(len(rings) - 1)
        return lists_of(memoryview(numbers), memoryview(rings), memoryview(shapes))


def layer_of(given: Any, name: str, has_grid: bool) -> ShapeLayer:
    """The shapes of an argument, which has this name in faults. has_grid: whether rings may have floats."""
    if isinstance(given, (Polygons, Overlays)):
        return _AnswerLayer(given)
    if isinstance(given, Rings):
        _gathered.check_floats(given, name, has_grid)
        gathered = Gathered(name)
        gathered.own = given
        return RingLayer(gathered, array.array("q", range(len(given) + 1)))
    series = _gathered.series_of(given)
    if series is not None:
        return BinaryLayer(_of_objects(_gathered.listed(series), name), series.crs)
    items = items_of(given, name)
    known = _in_bulk(items, name) or _of_rows(items, name, has_grid)
    return known or _MixedLayer([_element(it, f"{name}, place {at}", has_grid) for at, it in enumerate(items)])


def items_of(given: Any, name: str) -> Sequence[Any]:
    """The shapes of a sequence, or the features of a collection of GeoJSON."""
    is_object = isinstance(given, _shapely.base())
    shape = None if isinstance(given, (list, tuple)) or is_object else _shapes.shape_of(given)
    if isinstance(shape, dict) and shape.get("type") == "FeatureCollection":
        features = shape.get("features")
        if isinstance(features, (list, tuple)):
            return features
    if is_object or shape is not None or isinstance(given, (str, bytes, bytearray)):
        raise TypeError(f"{name}: a shape alone; {_WANTED}")
    return given if isinstance(given, (list, tuple)) else list(_rows._iterated(given, name, "shapes"))


def _in_bulk(items: Sequence[Any], name: str) -> Optional[BinaryLayer]:
    """The layer of shapely's objects alone, or of well-known binary alone, and None; or None of others."""
    first = next((it for it in items if it is not None), None)
    base = _shapely.base()
    if isinstance(first, base):
        if all([it is None or isinstance(it, base) for it in items]):
            return BinaryLayer(_of_objects(items, name))
    elif first is None or isinstance(first, bytes):
        if all([it is None or isinstance(it, bytes) for it in items]):
            binary = [_shapely.NOTHING if it is None else it for it in items]
            srid = _gathered.one_of(map(_wkb.srid_of, binary), "SRID") or 0
            return BinaryLayer(Binaries((), binary, _place_in(name)), None, srid)
    return None


def _of_rows(items: Sequence[Any], name: str, has_grid: bool) -> Optional[RingLayer]:
    """The layer of GeoJSON alone, or of lists of rings alone, and None; or None of others."""
    some = [it for it in items if it is not None]
    are_shapes = all([isinstance(it, dict) for it in some])
    if not are_shapes and not all(map(_are_rings, some)):
        return None
    rings: List[GivenRing] = []
    offsets = array.array("q", [0])
    for place, item in enumerate(items):
        where = f"{name}, place {place}"
        if item is not None and are_shapes:
            rings += _shapes.rings_of_shape(item, where, kept=False)
        elif item is not None:
            rings += [GivenRing(ring, f"{where}, ring {at}") for at, ring in enumerate(item)]
        offsets.append(len(rings))
    gathered = Gathered(name)
    if are_shapes:
        gathered.shapes = GatheredRings(rings, _shapes.directed_floats, "d")
    elif has_grid:
        gathered.rings = GatheredRings(rings, _shapes.floats, "d")
    else:
        gathered.rings = GatheredRings(rings, _shapes.whole_numbers, "i")
    return RingLayer(gathered, offsets)


def _are_rings(given: Any) -> bool:
    """Whether it is a list of lists of points."""
    return _is_list(given) and all(map(_is_list, given)) and not _shapes.is_ring(given)


def _is_list(given: Any) -> bool:
    return isinstance(given, (list, tuple)) and not hasattr(given, "__geo_interface__")


def _of_objects(objects: Sequence[Any], name: str) -> Binaries:
    return Binaries(objects, (), _place_in(name))


def _place_in(name: str) -> Any:
    return lambda place: f"{name}, place {place}"


def _element(given: Any, where: str, has_grid: bool) -> Gathered:
    if given is None:
        given = []
    return _gathered.gathered([(given, where)], has_grid, kept=False)[0]


def is_of_objects(given: Any) -> bool:
    """Whether it is a list or an array of shapely's objects."""
    base = _shapely.base()
    if not (base and hasattr(given, "__len__")) or isinstance(given, (str, bytes, dict, base)):
        return False
    is_list = isinstance(given, (list, tuple)) or getattr(given, "dtype", None) == object
    found = False
    for item in given if is_list else ():
        if item is not None and not isinstance(item, base):
            return False
        found = found or item is not None
    return found


def chosen(layers: Sequence[Layer]) -> Optional[Grid]:
    """The grid of a call that is given none: None where all is whole, else that of all, or the finest that fits."""
    if not any(it.has_shapes for it in layers):
        return None
    some = [it for it in layers if not it.is_nothing]
    if all(it.of_answer and it.own_grid == some[0].own_grid for it in some):
        return some[0].own_grid if some else None
    return None if all(it.is_whole() for it in layers) else fitted_to(layers)


def fitted_to(layers: Iterable[Layer]) -> Grid:
    """The finest grid that fits to all, be they whole or not."""
    return fitted(array.array("d", itertools.chain.from_iterable(it.corners() for it in layers)))


def grid_of(layers: Sequence[Layer], grid: Optional[Grid]) -> Tuple[Optional[Grid], Any, int]:
    """The grid of a call, and the reference system of its answer: its crs and its srid."""
    crs = _gathered.one_of((it.crs for it in layers), "crs")
    srid = _gathered.one_of((it.srid for it in layers), "SRID") or 0
    return (chosen(layers) if grid is None else grid), crs, srid
