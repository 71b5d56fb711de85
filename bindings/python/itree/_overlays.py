"""Overlays: what `overlay_each` answers."""

from __future__ import annotations

import array
import struct
from typing import Any, Iterator, List, Optional, Sequence, Tuple, Union, overload

from . import _answers, _shapely
from ._answers import Lists
from ._grid import Grid
from ._memory import numpy_where_loaded, view_of
from ._polygons import Polygons

_POLYGON, _MULTIPOLYGON, _HAS_SRID = 3, 6, 0x20000000
# A polygon without rings, as shapely has one of a pair that has nothing in common.
_EMPTY = struct.pack("<BII", 1, _POLYGON, 0)


class Overlays(Sequence[Polygons]):
    """Answers of `overlay_each`: a sequence of `Polygons`, one for each pair, made as they are asked for.

    grid: the grid by which the points are floats, or None where they are whole.
    crs: the reference system of the GeoSeries that they were made of, or None.
    srid: that of the extended well-known binary that they were made of, or 0.

    The same without a copy, as read-only memoryviews:

    points, ring_offsets, polygon_offsets: those of `Polygons`, of all pairs, one
    behind the other.
    offsets: signed 64-bit numbers, one more than there are pairs. The pair at i
    has the polygons from offsets[i] on and before offsets[i + 1].

    >>> import itree
    >>> low, high = [[(0, 0), (2, 0), (2, 2), (0, 2)]], [[(1, 1), (3, 1), (3, 3), (1, 3)]]
    >>> both = itree.overlay_each([low, low], [high, None], "intersection")
    >>> [len(polygons) for polygons in both], both.offsets.tolist()
    ([1, 0], [0, 1, 1])

    Two are equal that have the same polygons, in the same order, and the same
    grid. They can be copied, pickled, and sent to other processes.
    """

    __slots__ = "grid", "crs", "srid", "offsets", "_all", "_lists"

    def __init__(self, lists: Lists, offsets: memoryview, grid: Optional[Grid], crs: Any = None, srid: int = 0) -> None:
        self._lists = lists
        self._all = Polygons(lists, grid, crs, srid)
        self.offsets = offsets.toreadonly()
        self.grid = grid
        self.crs = crs
        self.srid = srid

    @property
    def points(self) -> memoryview:
        """The points of all rings, int32, of the shape (points, 2)."""
        return self._all.points

    @property
    def ring_offsets(self) -> memoryview:
        """Where each ring begins among the points, and where the last stops."""
        return self._all.ring_offsets

    @property
    def polygon_offsets(self) -> memoryview:
        """Where each polygon begins among the rings, and where the last stops."""
        return self._all.polygon_offsets

    def __len__(self) -> int:
        return len(self.offsets) - 1

    @overload
    def __getitem__(self, place: int) -> Polygons:
        ...

    @overload
    def __getitem__(self, place: slice) -> List[Polygons]:
        ...

    def __getitem__(self, place: Union[int, slice]) -> Union[Polygons, List[Polygons]]:
        found = range(len(self))[place]
        if isinstance(found, range):
            return [self._polygons(it) for it in found]
        return self._polygons(found)

    def __iter__(self) -> Iterator[Polygons]:
        return map(self._polygons, range(len(self)))

    def __repr__(self) -> str:
        return f"<itree.Overlays: {len(self)} pairs, {self._lists.polygon_count} polygons, grid={self.grid}>"

    def __eq__(self, other: object) -> bool:
        if not isinstance(other, Overlays):
            return NotImplemented
        return self.offsets == other.offsets and self._all == other._all

    def __hash__(self) -> int:
        return hash((self._all, self.offsets.tobytes()))

    def __reduce__(self) -> Tuple[Any, ...]:
        return _again, (self._all, self.offsets.tobytes())

    def to_shapely(self) -> List[Any]:
        """The polygons of each pair as one of shapely's objects.

        It is a Polygon, or a MultiPolygon where there are several; an empty Polygon
        where there is none.

        Raises ImportError where shapely isn't there.
        """
        return _shapely.read_each(self.to_wkb(srid=0))

    def to_geoseries(self, index: Any = None, crs: Any = None) -> Any:
        """The same as geopandas' GeoSeries, a row for each pair.

        index: of the rows, as geopandas takes it. crs: the reference system; by
        default that of the GeoSeries, or of the SRID, that they were made of.

        Raises ImportError where geopandas isn't there.
        """
        known = self.crs if self.crs is not None else self.srid or None
        return _shapely.series(self.to_shapely(), index, known if crs is None else crs)

    def to_wkb(self, srid: Optional[int] = None) -> List[bytes]:
        """The polygons of each pair in well-known binary, little-endian, of the types that `to_shapely` has.

        srid: is told by extended well-known binary where it isn't 0; by default
        that which they were made of had.

        >>> import itree
        >>> ring = [(0, 0), (1, 0), (0, 1)]
        >>> [it.hex() for it in itree.overlay_each([[ring]], [[ring]], "xor").to_wkb()]
        ['010300000000000000']

        Raises ValueError where the srid doesn't fit in 32 bits.
        """
        told = self.srid if srid is None else srid
        if not 0 <= told < 2**32:
            raise ValueError(f"the srid {told}: a number from 0 to 2**32 - 1 is wanted")
        data, starts = bytes(self._all.binary_of_each()), self._starts()
        offsets = self.offsets.tolist()
        counts = map(int.__sub__, offsets[1:], offsets)
        items = [
            data[start:stop] if count == 1 else _several(count, data[start:stop])
            for start, stop, count in zip(starts, starts[1:], counts)
        ]
        return [_with_srid(it, told) for it in items] if told else items

    def lists_of_each(self) -> Lists:
        """The rings of each pair as those of a shape."""
        lists, ends = self._lists, self._ring_places()
        return lists._replace(owner=(lists, ends), polygons=ends.buffer_info()[0], polygon_count=len(ends) - 1)

    def _ring_places(self) -> array.array[int]:
        """Where each pair begins among the rings, and where the last stops."""
        numpy = numpy_where_loaded()
        if numpy is None:
            polygons = self.polygon_offsets
            return array.array("q", [polygons[it] for it in self.offsets])
        taken = array.array("q")
        taken.frombytes(numpy.asarray(self.polygon_offsets)[numpy.asarray(self.offsets)].tobytes())
        return taken

    def _starts(self) -> List[int]:
        """Where each pair begins in the well-known binary of each polygon, and where the last stops."""
        points = self.ring_offsets
        rings = self._ring_places().tolist()
        return [9 * polygon + 20 * ring + 16 * points[ring] for polygon, ring in zip(self.offsets, rings)]

    def _polygons(self, place: int) -> Polygons:
        first, stop = self.offsets[place], self.offsets[place + 1]
        rings = self.polygon_offsets[first : stop + 1].tolist()
        ends = self.ring_offsets[rings[0] : rings[-1] + 1].tolist()
        numbers = self._all.numbers()[2 * ends[0] : 2 * ends[-1]]
        lists = _answers.lists_of(numbers, _from_first(ends), _from_first(rings))
        return Polygons(lists, self.grid, self.crs, self.srid)


def _from_first(offsets: List[int]) -> memoryview:
    """The offsets, less the first one."""
    first = offsets[0]
    return memoryview(array.array("q", [it - first for it in offsets]))


def _several(count: int, polygons: bytes) -> bytes:
    """Some polygons' well-known binary, one behind the other, as that of one shape; there are none, or more than one."""
    return struct.pack("<BII", 1, _MULTIPOLYGON, count) + polygons if count else _EMPTY


def _with_srid(item: bytes, srid: int) -> bytes:
    """Well-known binary as extended one, which tells an SRID."""
    kind = int.from_bytes(item[1:5], "little")
    return struct.pack("<BII", 1, kind | _HAS_SRID, srid) + item[5:]


def _again(polygons: Polygons, offsets: bytes) -> Overlays:
    """Overlays as they are pickled."""
    return Overlays(polygons.lists_of_each(), view_of(offsets, "q"), polygons.grid, polygons.crs, polygons.srid)
