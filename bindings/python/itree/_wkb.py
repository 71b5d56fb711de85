"""Well-known binary: shapes in it as rings of whole numbers, and polygons written in it."""

from __future__ import annotations

import array
import ctypes
import itertools
import struct
import sys
from typing import Any, Callable, List, NamedTuple, Optional, Sequence, Tuple

from ._answers import Handle, Lists, lists_in
from ._calls import ONCE, made
from ._library import FAULTY, GridOfC, PlaceOfC, checked, library
from ._memory import address_of, numpy_where_loaded

# By the numbers that itree.h has for them: what is faulty.
_SHORT, _BYTE_ORDER, _KIND, _NESTED, _NOT_FINITE, _OFF_GRID, _LEFT_OVER, _OFFSETS = range(1, 9)
KIND, OF_NUMBERS = _KIND, (_NOT_FINITE, _OFF_GRID)
_WANTED = "Polygon, MultiPolygon or GeometryCollection is wanted"
_NAMES = {1: "Point", 2: "LineString", 4: "MultiPoint", 5: "MultiLineString"}
# What the parts of a geometry are called.
_PARTS = {3: "ring", 6: "polygon", 7: "geometry"}
_HAS_SRID = 0x20000000
_POLYGON, _MULTIPOLYGON = 3, 6
# What a polygon of two coordinates begins with, in little-endian binary.
_PLAIN_POLYGON = b"\x01\x03\0\0\0"
# Numbers that are looked at one by one.
_FEW = 50


class Binary(NamedTuple):
    """Shapes in well-known binary, one behind the other.

    data: bytes. offsets: where each shape begins, and where the last stops.
    named: by the place of a shape what it is called.
    """

    data: bytes
    offsets: array.array[int]
    named: Callable[[int], str]

    def given(self) -> Tuple[bytes, int, int, int]:
        """As the library takes them, for as long as this stays."""
        return (self.data, len(self.data), *self.offsets.buffer_info())


class BinaryFault(ValueError):
    """What is faulty in well-known binary: of which kind, and in which shape."""

    def __init__(self, where: str, byte: int, said: str, place: PlaceOfC) -> None:
        super().__init__(f"{where}, byte {byte}: {said}")
        self.where, self.byte, self.said, self.kind, self.shape = where, byte, said, place.kind, place.shape

    def __reduce__(self) -> Tuple[Any, ...]:
        # Callers know it as a ValueError alone.
        return ValueError, self.args


def joined(items: Sequence[bytes], named: Callable[[int], str]) -> Binary:
    """Shapes, each in bytes of its own."""
    if len(items) == 1:
        return Binary(items[0], array.array("Q", (0, len(items[0]))), named)
    offsets = array.array("Q", [0])
    offsets.extend(itertools.accumulate(map(len, items)))
    return Binary(b"".join(items), offsets, named)


def corners(shapes: Binary) -> array.array[float]:
    """The least and the greatest coordinates of all points, as x, y, x, y; nothing where there is no point.

    Raises BinaryFault where the binary is faulty, or a coordinate isn't finite.
    """
    found, numbers, place = ctypes.c_size_t(), array.array("d", (0.0, 0.0, 0.0, 0.0)), PlaceOfC()
    words = *shapes.given(), numbers.buffer_info()[0], 2, ctypes.byref(found), ctypes.byref(place)
    kept = shapes, numbers, found, place
    status = made(library.itree_wkb_corners, *words, size=len(shapes.data) // (16 * ONCE), kept=kept)
    _check(status, shapes, place, None)
    return numbers[: 2 * found.value]


def read(shapes: Binary, grid: GridOfC, called: Any) -> Lists:
    """The rings of all shapes, in units of a grid, and those of each shape in place of those of a polygon.

    called: the grid, as faults tell it.

    Raises BinaryFault where the binary is faulty, or a coordinate isn't finite or is off the grid.
    """
    handle, place = Handle(library.itree_polygons_free), PlaceOfC()
    size = len(shapes.data) // (16 * ONCE)
    more = ctypes.byref(grid), handle.to_write, ctypes.byref(place)
    status = made(library.itree_wkb_read, *shapes.given(), *more, size=size, kept=(shapes, grid, handle, place))
    _check(status, shapes, place, called)
    return lists_in(handle)


def _check(status: int, shapes: Binary, place: PlaceOfC, grid: Any) -> None:
    if status != FAULTY:
        checked(status)
        return
    byte = place.byte - shapes.offsets[place.shape]
    raise BinaryFault(shapes.named(place.shape), byte, _said(shapes.data, place, grid), place)


def row_of(shapes: Binary, fault: BinaryFault) -> str:
    """What the point is called that is faulty, of a shape in little-endian binary of two coordinates."""
    where, _ = _row_in(shapes.data, shapes.offsets[fault.shape], shapes.offsets[fault.shape] + fault.byte)
    return f"{fault.where}{where}"


def _row_in(data: bytes, at: int, byte: int) -> Tuple[str, int]:
    """What the point at a byte is called in the geometry that begins at another, or nothing; and where that ends."""
    kind, count = struct.unpack_from("<II", data, at + 1)
    at += 9
    for part in range(count):
        if kind == 3:
            start, (points,) = at + 4, struct.unpack_from("<I", data, at)
            where, at = f", row {(byte - start) // 16}", start + 16 * points
        else:
            where, at = _row_in(data, at, byte)
        if byte < at:
            return f", {_PARTS[kind]} {part}{where}", at
    return "", at


def _said(data: bytes, place: PlaceOfC, grid: Any) -> str:
    """What is faulty at a place."""
    kind, byte = place.kind, place.byte
    if kind == _SHORT:
        return "the well-known binary stops before it is whole"
    if kind == _BYTE_ORDER:
        return f"the byte order is {data[byte]}; 0 or 1 is wanted"
    if kind == _KIND:
        return f"{_type_in(data, byte)}; {_WANTED}"
    if kind == _NESTED:
        return "collections in collections, too deep"
    if kind == _NOT_FINITE:
        return "a number that isn't finite; finite numbers are wanted"
    if kind == _OFF_GRID:
        return f"a number that is off the grid, which is {grid}"
    if kind == _LEFT_OVER:
        return "bytes behind the end of the well-known binary"
    return "the offsets are faulty"


def _type_in(data: bytes, byte: int) -> str:
    """The type of a geometry, which stands at a byte, or one byte behind it."""
    for start in byte - 1, byte:
        head = data[start : start + 5]
        if start >= 0 and len(head) == 5 and head[0] < 2:
            kind = int.from_bytes(head[1:], "little" if head[0] else "big")
            return _NAMES.get((kind & 0xFFFF) % 1000, f"the type {kind}")
    return "another type"


def srid_of(data: bytes) -> int:
    """The SRID that extended well-known binary tells, or 0."""
    # Most tell none, and no call is made then.
    if len(data) < 9 or not data[4 if data[0] else 1] & 0x20:
        return 0
    srid = ctypes.c_uint32()
    checked(library.itree_wkb_srid(data, len(data), ctypes.byref(srid)))
    return srid.value


def size_of(polygons: Lists, each: bool, srid: int) -> int:
    """How many bytes polygons are, in one MultiPolygon or each."""
    head, count, rings = 9 + 4 * bool(srid), polygons.polygon_count, polygons.ring_count
    body = 4 * rings + 16 * (polygons.point_count + rings)
    return head * count + body if each else head + 9 * count + body


def write(polygons: Lists, grid: GridOfC, each: bool, srid: int) -> bytearray:
    """A MultiPolygon, or each polygon, one behind the other, in little-endian well-known binary."""
    size = ctypes.c_size_t()
    room = bytearray(size_of(polygons, each, srid))
    at = address_of(memoryview(room))
    stops = polygons.polygons + 8, polygons.polygon_count
    words = ctypes.byref(grid), int(each), srid, at, len(room), ctypes.byref(size)
    checked(library.itree_wkb_write(*polygons.given(), *stops, *words))
    return room


class _Head(NamedTuple):
    """What a geometry begins with: the order of its bytes; its type; how many numbers a point has; how many parts it has, and
    where they begin."""

    order: str
    kind: int
    width: int
    parts: int
    start: int


def _head(data: bytes, at: int) -> _Head:
    order = "<" if data[at] else ">"
    (kind,) = struct.unpack_from(f"{order}I", data, at + 1)
    plain = kind & 0xFFFF
    width = 2 + bool(kind & 0x80000000) + bool(kind & 0x40000000) + (0, 1, 1, 2)[plain // 1000]
    start = at + 5 + 4 * bool(kind & _HAS_SRID)
    (count,) = struct.unpack_from(f"{order}I", data, start)
    return _Head(order, plain % 1000, width, count, start + 4)


def polygons_in(data: bytes) -> List[List[bytes]]:
    """The polygons of a shape whose binary isn't faulty, each in bytes of its own: that of a Polygon in a list, all of a
    MultiPolygon in one, and so on for the parts of a collection."""
    parts: List[List[bytes]] = []
    _add_polygons(data, 0, parts)
    return parts


def _add_polygons(data: bytes, at: int, parts: List[List[bytes]]) -> int:
    """Adds the polygons of a geometry, which begins at a byte. The answer is where it ends."""
    head = _head(data, at)
    end = head.start
    if head.kind == _POLYGON:
        for _ in range(head.parts):
            (points,) = struct.unpack_from(f"{head.order}I", data, end)
            end += 4 + 8 * head.width * points
        parts.append([data[at:end]])
        return end
    several: List[List[bytes]] = []
    for _ in range(head.parts):
        end = _add_polygons(data, end, several)
    parts += [[it[0] for it in several]] if head.kind == _MULTIPOLYGON else several
    return end


def are_whole(shapes: Binary) -> bool:
    """Whether all coordinates are whole numbers. False of what is faulty, which `corners` tells."""
    data = shapes.data
    if len(data) >= 29 and data.startswith(_PLAIN_POLYGON):
        # Of most shapes that aren't whole the first point says so.
        x, y = struct.unpack_from("<2d", data, 13)
        if not (x.is_integer() and y.is_integer()):
            # But of one without rings or points it is none.
            if data[5:9] != bytes(4) and data[9:13] != bytes(4):
                return False
    try:
        for start, stop in zip(shapes.offsets, shapes.offsets[1:]):
            if _end(shapes.data, start, stop) is None:
                return False
    except (struct.error, IndexError, ValueError, RecursionError):
        return False
    return True


def _end(data: bytes, at: int, stop: int) -> Optional[int]:
    """Where a geometry ends, or None where one of its coordinates isn't whole."""
    head = _head(data, at)
    at = head.start
    for _ in range(head.parts):
        if at > stop:
            raise IndexError
        end = _ring_end(data, at, head.order, head.width) if head.kind == _POLYGON else _end(data, at, stop)
        if end is None:
            return None
        at = end
    return at


def _ring_end(data: bytes, at: int, order: str, width: int) -> Optional[int]:
    (count,) = struct.unpack_from(f"{order}I", data, at)
    start, stop = at + 4, at + 4 + 8 * width * count
    if stop > len(data):
        raise IndexError
    numbers = memoryview(data)[start:stop]
    if (order == "<") != (sys.byteorder == "little"):
        rows = struct.iter_unpack(f"{order}{width}d", numbers)
        return stop if all(row[0].is_integer() and row[1].is_integer() for row in rows) else None
    doubles = numbers.cast("d")
    return stop if all(hold_whole(doubles[axis::width]) for axis in (0, 1)) else None


def hold_whole(numbers: memoryview) -> bool:
    """Whether all doubles are whole numbers."""
    # The first ones of those that aren't say so most often.
    if not all(map(float.is_integer, numbers[:_FEW])):
        return False
    numpy = numpy_where_loaded()
    if numpy is None or len(numbers) <= _FEW:
        return all(map(float.is_integer, numbers[_FEW:]))
    taken = numpy.asarray(numbers)
    return bool((taken == numpy.rint(taken)).all() and numpy.isfinite(taken).all())
