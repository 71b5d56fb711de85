"""Polygon and Polygons: what `overlay` and `simplify` answer."""

from __future__ import annotations

import array
import ctypes
import importlib
import pickle
from typing import Any, Dict, Iterator, List, Literal, NamedTuple, Optional, Sequence, Tuple, Union, overload

from . import _answers, _picture, _shapely, _wkb
from ._calls import made
from ._grid import Grid
from ._library import GridOfC, checked, library
from ._memory import room_for, view_of

# Whole numbers, or floats where a grid was given.
Points = List[Tuple[float, float]]
_WHOLE = GridOfC(0, 0, 0)
# Of points in a ring: from there on its coordinates go to shapely in bulk.
_LONG = 200
# Of a picture in a notebook: as many steps as its longer side has, where there are more points.
_STEPS = 3000
# A place that is none.
_NONE = ctypes.c_size_t(-1).value


class Polygon(NamedTuple):
    """A polygon of `Polygons`: a list of points (x, y), and a list of such lists.

    outer: the ring around it, which runs counterclockwise.
    holes: the rings around its holes, which run clockwise.

    No ring has its first point again at its end. It has a __geo_interface__, a
    Polygon of GeoJSON, whose rings do.
    """

    outer: Points
    holes: List[Points]

    @property
    def __geo_interface__(self) -> Dict[str, Any]:
        return {"type": "Polygon", "coordinates": [ring + ring[:1] for ring in (self.outer, *self.holes)]}


class _Views(NamedTuple):
    """The lists of polygons as views."""

    numbers: memoryview
    points: memoryview
    ring_offsets: memoryview
    polygon_offsets: memoryview


class Polygons(Sequence[Polygon]):
    """Answers of `overlay` and `simplify`: a sequence of `Polygon`, made as they are asked for.

    grid: the grid by which the points are floats, or None where they are whole.
    crs: the reference system of the GeoSeries that it was made of, or None.
    srid: that of the extended well-known binary that it was made of, or 0.

    It has a __geo_interface__, a MultiPolygon of GeoJSON: so
    shapely.geometry.shape takes it, and json.dump takes that; `to_shapely`,
    `to_geoseries` and `to_wkb` are faster. In a notebook it is drawn. The same
    without a copy, where the library wrote it, as read-only memoryviews:

    points: the points of all rings, one ring behind the other, int32, of the
    shape (points, 2): in units from the grid's origin where there is a grid.
    ring_offsets: signed 64-bit numbers, one more than there are rings. The ring
    at i is points[ring_offsets[i]:ring_offsets[i + 1]].
    polygon_offsets: the same of polygons. The polygon at i has the rings from
    polygon_offsets[i] on and before polygon_offsets[i + 1], the outer one first.

    They stand as in GeoArrow, but that no ring has its first point again.

    Two are equal that have the same points, in the same order, and the same
    grid. They can be copied, pickled, and sent to other processes.
    """

    __slots__ = "grid", "crs", "srid", "_lists", "_made"

    def __init__(self, lists: _answers.Lists, grid: Optional[Grid], crs: Any = None, srid: int = 0) -> None:
        self._lists = lists
        self._made: Optional[_Views] = None
        self.grid = grid
        self.crs = crs
        self.srid = srid

    @property
    def points(self) -> memoryview:
        """The points of all rings, int32, of the shape (points, 2)."""
        return self._views().points

    @property
    def ring_offsets(self) -> memoryview:
        """Where each ring begins among the points, and where the last stops."""
        return self._views().ring_offsets

    @property
    def polygon_offsets(self) -> memoryview:
        """Where each polygon begins among the rings, and where the last stops."""
        return self._views().polygon_offsets

    def _views(self) -> _Views:
        """Made once they are asked for, for who takes the polygons as shapely's doesn't."""
        if self._made is None:
            lists = self._lists
            numbers = lists.numbers()
            points = _answers.in_rows_of_two(numbers, "i")
            self._made = _Views(numbers, points, lists.ring_offsets(), lists.polygon_offsets())
        return self._made

    def __len__(self) -> int:
        return self._lists.polygon_count

    @overload
    def __getitem__(self, place: int) -> Polygon:
        ...

    @overload
    def __getitem__(self, place: slice) -> List[Polygon]:
        ...

    def __getitem__(self, place: Union[int, slice]) -> Union[Polygon, List[Polygon]]:
        # A range takes places from the end, and slices, and says what is none.
        found = range(len(self))[place]
        if isinstance(found, range):
            return [self._polygon(it) for it in found]
        return self._polygon(found)

    def __iter__(self) -> Iterator[Polygon]:
        return map(self._polygon, range(len(self)))

    def __repr__(self) -> str:
        rings, points = self._lists.ring_count, self._lists.point_count
        return f"<itree.Polygons: {len(self)} polygons, {rings} rings, {points} points, grid={self.grid}>"

    def __eq__(self, other: object) -> bool:
        if not isinstance(other, Polygons):
            return NotImplemented
        return self.grid == other.grid and self._flat() == other._flat()

    def __hash__(self) -> int:
        return hash((self.grid, *(view.tobytes() for view in self._flat())))

    def __reduce_ex__(self, protocol: Any) -> Tuple[Any, ...]:
        # From protocol 5 on a caller may take them without a copy.
        buffers = [pickle.PickleBuffer(it) if protocol >= 5 else it.tobytes() for it in self._flat()]
        return _again, (*buffers, self.grid, self.crs, self.srid)

    def _flat(self) -> Tuple[memoryview, memoryview, memoryview]:
        views = self._views()
        return views.numbers, views.ring_offsets, views.polygon_offsets

    @property
    def __geo_interface__(self) -> Dict[str, Any]:
        return {"type": "MultiPolygon", "coordinates": [polygon.__geo_interface__["coordinates"] for polygon in self]}

    @overload
    def to_shapely(self, each: Literal[False] = ...) -> Any:
        ...

    @overload
    def to_shapely(self, each: Literal[True]) -> List[Any]:
        ...

    @overload
    def to_shapely(self, each: bool) -> Any:
        ...

    def to_shapely(self, each: bool = False) -> Any:
        """The polygons as shapely's MultiPolygon; or with each=True as a list of shapely's Polygon.

        Raises ImportError where shapely isn't there.
        """
        if each:
            return _shapely.read_each(self.to_wkb(srid=0, each=True))
        if self._lists.point_count >= _LONG * (self._lists.ring_count + 1) and _shapely.builds():
            return _shapely.built(self._closed())
        return _shapely.read(self._binary(False, 0))

    def to_geoseries(self, crs: Any = None) -> Any:
        """The polygons as geopandas' GeoSeries, a row for each.

        crs: the reference system, as geopandas takes it; by default that of the
        GeoSeries, or of the SRID, that the polygons were made of.

        Raises ImportError where geopandas isn't there.
        """
        geopandas: Any = importlib.import_module("geopandas")
        known = self.crs if self.crs is not None else self.srid or None
        return geopandas.GeoSeries(self.to_shapely(each=True), crs=known if crs is None else crs)

    @overload
    def to_wkb(self, srid: Optional[int] = ..., each: Literal[False] = ...) -> bytes:
        ...

    @overload
    def to_wkb(self, srid: Optional[int] = ..., *, each: Literal[True]) -> List[bytes]:
        ...

    def to_wkb(self, srid: Optional[int] = None, each: bool = False) -> Union[bytes, List[bytes]]:
        """The polygons as a MultiPolygon of well-known binary, little-endian; or with each=True each as a Polygon.

        srid: is told by extended well-known binary where it isn't 0; by default
        that which the polygons were made of had.

        >>> import itree
        >>> itree.simplify([[(0, 0), (1, 0), (0, 1)]]).to_wkb()[:9].hex()
        '010600000001000000'

        Raises ValueError where the srid doesn't fit in 32 bits.
        """
        told = self.srid if srid is None else srid
        if not 0 <= told < 2**32:
            raise ValueError(f"the srid {told}: a number from 0 to 2**32 - 1 is wanted")
        data = bytes(self._binary(each, told))
        if not each:
            return data
        starts = list(self._places(told))
        return [data[start:stop] for start, stop in zip(starts, starts[1:])]

    def parents(self) -> List[Optional[int]]:
        """For each polygon the place of the one in whose hole it lies, the nearest around it; or None.

        So an island's is the land around its lake.

        >>> import itree
        >>> land, lake, island = ([(x, x), (y, x), (y, y), (x, y)] for x, y in ((0, 9), (1, 8), (3, 6)))
        >>> polygons = itree.simplify([land, lake, island], "evenodd")
        >>> [(polygon.outer[0], parent) for polygon, parent in zip(polygons, polygons.parents())]
        [((0, 0), None), ((3, 3), 0)]

        Raises MemoryError where memory was refused.
        """
        count = len(self)
        room, at = room_for(count, "Q")
        shapes = self._lists.shapes_of_c()
        words = ctypes.byref(shapes), at, count
        size, kept = self._lists.point_count, (self._lists, shapes, room)
        checked(made(library.itree_polygon_parents, *words, size=size, kept=kept))
        return [None if parent == _NONE else parent for parent in room]

    def to_svg(self) -> str:
        """The polygons as a picture: SVG, with y upwards, as wide and high as they are."""
        return _picture.drawn(self._views().numbers, self.ring_offsets)

    def _repr_svg_(self) -> str:
        """The same for a notebook: of many points those alone that are seen apart."""
        steps = _STEPS if self._lists.point_count > _STEPS else None
        return _picture.drawn(self._views().numbers, self.ring_offsets, steps)

    def given(self) -> Tuple[int, int, int, int]:
        """The rings as the library takes them: points, how many, and where each ring stops, for as long as this stays."""
        return self._lists.given()

    def lists_of_each(self) -> _answers.Lists:
        """The rings of each polygon as those of a shape."""
        return self._lists

    def numbers(self) -> memoryview:
        """The points of all rings, as flat 32-bit numbers."""
        return self._views().numbers

    def binary_of_each(self) -> bytearray:
        """The well-known binary of each polygon, one behind the other."""
        return self._binary(True, 0)

    def _binary(self, each: bool, srid: int) -> bytearray:
        return _wkb.write(self._lists, _WHOLE if self.grid is None else self.grid.of_c(), each, srid)

    def _places(self, srid: int) -> Iterator[int]:
        """Where each polygon begins in the well-known binary of each, and where the last stops."""
        head = 9 + 4 * bool(srid)
        for place, ring in enumerate(self.polygon_offsets):
            yield head * place + 20 * ring + 16 * self.ring_offsets[ring]

    def _closed(self) -> Iterator[List[array.array[float]]]:
        """The rings of each polygon, as doubles, which end where they began."""
        grid, at = ctypes.byref(_WHOLE if self.grid is None else self.grid.of_c()), self._lists.points
        ends = self.ring_offsets.tolist()
        counts = list(map(int.__sub__, ends[1:], ends))
        for first, stop in zip(self.polygon_offsets, self.polygon_offsets[1:]):
            rings = []
            for count in counts[first:stop]:
                rings.append(_closed_ring(grid, at, count))
                at += 8 * count
            yield rings

    def _polygon(self, place: int) -> Polygon:
        first, stop = self.polygon_offsets[place], self.polygon_offsets[place + 1]
        ends = self.ring_offsets[first : stop + 1]
        rings = [self._ring(start, end) for start, end in zip(ends, ends[1:])]
        return Polygon(rings[0], rings[1:])

    def _ring(self, start: int, end: int) -> Points:
        pairs = _answers.two_by_two(self._views().numbers[2 * start : 2 * end])
        if self.grid is None:
            return list(pairs)
        return list(map(self.grid.from_grid, pairs))


def _closed_ring(grid: Any, at: int, count: int) -> array.array[float]:
    """The coordinates of so many points at an address, and of the first one again."""
    ring = array.array("d", [0.0]) * (2 * count + 2)
    checked(library.itree_grid_positions(grid, at, count, ring.buffer_info()[0], count))
    ring[2 * count], ring[2 * count + 1] = ring[0], ring[1]
    return ring


def _again(numbers: Any, rings: Any, polygons: Any, grid: Optional[Grid], crs: Any, srid: int) -> Polygons:
    """Polygons of bytes, as they are pickled."""
    lists = _answers.lists_of(view_of(numbers, "i"), view_of(rings, "q"), view_of(polygons, "q"))
    return Polygons(lists, grid, crs, srid)
