"""Pieces: what `clip` answers."""

from __future__ import annotations

import array
import ctypes
import struct
from typing import Any, Dict, Iterator, List, Optional, Sequence, Tuple, Union, overload

from . import _answers, _shapely
from ._answers import Lists
from ._grid import Grid
from ._library import GridOfC, checked, library
from ._memory import view_of
from ._polygons import Points

_WHOLE = GridOfC(0, 0, 0)
_LINE, _SEVERAL = 2, 5


class Pieces(Sequence[List[Points]]):
    """Answers of `clip`: a sequence with a list of pieces for each line, made as they are asked for.

    A piece is a list of points.

    grid: the grid by which the points are floats, or None where they are whole.
    crs: the reference system of the GeoSeries that they were made of, or None.

    The same without a copy, as read-only memoryviews:

    points: the points of all pieces, int32, of the shape (points, 2): in units
    from the grid's origin where there is a grid.
    piece_offsets: signed 64-bit numbers, one more than there are pieces. The
    piece at i is points[piece_offsets[i]:piece_offsets[i + 1]].
    offsets: the same of lines: the line at i has the pieces from offsets[i] on
    and before offsets[i + 1].

    It has a __geo_interface__, a GeometryCollection of GeoJSON.

    >>> import itree
    >>> ring = [(0, 0), (4, 0), (4, 4), (0, 4)]
    >>> pieces = itree.clip([[(-2, 2), (6, 2)], [(5, 5), (6, 6)]], [ring])
    >>> list(pieces), pieces.offsets.tolist()
    ([[[(0, 2), (4, 2)]], []], [0, 1, 1])
    """

    __slots__ = "grid", "crs", "points", "piece_offsets", "offsets", "_lists", "_numbers"

    def __init__(self, lists: Lists, offsets: memoryview, grid: Optional[Grid], crs: Any = None) -> None:
        self._lists = lists
        self._numbers = lists.numbers()
        self.points = _answers.in_rows_of_two(self._numbers, "i")
        self.piece_offsets = lists.ring_offsets()
        self.offsets = offsets.toreadonly()
        self.grid = grid
        self.crs = crs

    def __len__(self) -> int:
        return len(self.offsets) - 1

    @overload
    def __getitem__(self, place: int) -> List[Points]:
        ...

    @overload
    def __getitem__(self, place: slice) -> List[List[Points]]:
        ...

    def __getitem__(self, place: Union[int, slice]) -> Union[List[Points], List[List[Points]]]:
        found = range(len(self))[place]
        if isinstance(found, range):
            return [self._pieces(it) for it in found]
        return self._pieces(found)

    def __iter__(self) -> Iterator[List[Points]]:
        return map(self._pieces, range(len(self)))

    def __repr__(self) -> str:
        return f"<itree.Pieces: {len(self)} lines, {self._lists.ring_count} pieces, grid={self.grid}>"

    def __eq__(self, other: object) -> bool:
        if not isinstance(other, Pieces):
            return NotImplemented
        return self.grid == other.grid and self._flat() == other._flat()

    def __hash__(self) -> int:
        return hash((self.grid, *(view.tobytes() for view in self._flat())))

    def __reduce__(self) -> Tuple[Any, ...]:
        return _again, (*(view.tobytes() for view in self._flat()), self.grid, self.crs)

    @property
    def __geo_interface__(self) -> Dict[str, Any]:
        lines = [{"type": "MultiLineString", "coordinates": pieces} for pieces in self]
        return {"type": "GeometryCollection", "geometries": lines}

    def to_shapely(self) -> List[Any]:
        """The pieces of each line as one of shapely's objects.

        It is a LineString, or a MultiLineString where there are several; an empty
        LineString where there is none.

        Raises ImportError where shapely isn't there.
        """
        return _shapely.read_each(self.to_wkb())

    def to_geoseries(self, index: Any = None, crs: Any = None) -> Any:
        """The same as geopandas' GeoSeries, a row for each line.

        index: of the rows, as geopandas takes it. crs: the reference system; by
        default that of the GeoSeries that they were made of.

        Raises ImportError where geopandas isn't there.
        """
        return _shapely.series(self.to_shapely(), index, self.crs if crs is None else crs)

    def to_wkb(self) -> List[bytes]:
        """The pieces of each line in well-known binary, little-endian, of the types that `to_shapely` has."""
        data, ends = bytes(self._positions()), self.piece_offsets.tolist()
        parts = [
            struct.pack("<BII", 1, _LINE, stop - start) + data[16 * start : 16 * stop] for start, stop in zip(ends, ends[1:])
        ]
        offsets = self.offsets.tolist()
        return [parts[start] if stop - start == 1 else _several(parts[start:stop]) for start, stop in zip(offsets, offsets[1:])]

    def _positions(self) -> array.array[float]:
        """The coordinates of all points."""
        count = self._lists.point_count
        room = array.array("d", [0.0]) * (2 * count)
        grid = ctypes.byref(_WHOLE if self.grid is None else self.grid.of_c())
        checked(library.itree_grid_positions(grid, self._lists.points, count, room.buffer_info()[0], count))
        return room

    def _pieces(self, place: int) -> List[Points]:
        ends = self.piece_offsets[self.offsets[place] : self.offsets[place + 1] + 1]
        return [self._piece(start, stop) for start, stop in zip(ends, ends[1:])]

    def _piece(self, start: int, stop: int) -> Points:
        pairs = _answers.two_by_two(self._numbers[2 * start : 2 * stop])
        return list(pairs) if self.grid is None else list(map(self.grid.from_grid, pairs))

    def _flat(self) -> Tuple[memoryview, memoryview, memoryview]:
        return self._numbers, self.piece_offsets, self.offsets


def _several(parts: List[bytes]) -> bytes:
    """The well-known binary of pieces, of which there are none, or more than one."""
    head = struct.pack("<BII", 1, _SEVERAL if parts else _LINE, len(parts))
    return b"".join([head, *parts])


def _again(numbers: bytes, pieces: bytes, offsets: bytes, grid: Optional[Grid], crs: Any) -> Pieces:
    """Pieces of bytes, as they are pickled."""
    stops = view_of(offsets, "q")
    lists = _answers.lists_of(view_of(numbers, "i"), view_of(pieces, "q"), stops)
    return Pieces(lists, stops, grid, crs)
