"""Shapely's objects, of its versions 1.8 and 2, as well-known binary and back. Shapely is never loaded to take something.

Both doors write many objects at once. Of one with many points shapely takes long to write the binary: there its
coordinates are taken in bulk, and the binary is put together here.
"""

from __future__ import annotations

import array
import ctypes
import importlib
import itertools
import math
import struct
import sys
from types import ModuleType
from typing import Any, Callable, Dict, Iterable, List, NamedTuple, Optional, Sequence, Tuple

from ._memory import address_of

Coordinates = Tuple[int, memoryview, List[int]]


class Lines(NamedTuple):
    """Lines: their coordinates, where each begins among the points, where those of each shape begin among the lines; and
    where the last stop."""

    numbers: array.array[float]
    ends: array.array[int]
    shapes: array.array[int]


# As many coordinates as pay for calls of their own.
_MANY = 200
_POINT, _POLYGON, _MULTILINESTRING, _MULTIPOLYGON, _COLLECTION = 0, 3, 5, 6, 7
_LINES = 1, 2
# By the numbers that GEOS has for them.
_NAMES = "Point", "LineString", "LinearRing", "Polygon", "MultiPoint", "MultiLineString", "MultiPolygon", "GeometryCollection"


def base() -> Any:
    """The class of all of shapely's objects, or () where the program hasn't loaded shapely: so isinstance takes it."""
    module = sys.modules.get("shapely.geometry.base")
    return getattr(module, "BaseGeometry", ())


def written(shapes: Sequence[Any]) -> List[bytes]:
    """The well-known binary of each of shapely's objects, and that of nothing for None."""
    some = [it for it in shapes if it is not None]
    items: List[bytes] = _door().written(some) if some else []
    if len(some) == len(shapes):
        return items
    made = iter(items)
    return [NOTHING if it is None else next(made) for it in shapes]


def coordinates(shapes: Sequence[Any]) -> Optional[Coordinates]:
    """The coordinates of polygons without holes, one behind the other: where they lie, a flat view of them, and how many
    points each polygon has, the last of which is the first again. None of others, and of a shapely that tells none."""
    found: Optional[Coordinates] = _door().coordinates(shapes)
    return found


class OtherType(TypeError):
    """One of shapely's objects has another type than is wanted: at which place, and which."""

    def __init__(self, place: int, shape: Any) -> None:
        super().__init__(f"place {place}: {shape.geom_type}")
        self.place, self.said = place, str(shape.geom_type)

    def __reduce__(self) -> Tuple[Any, ...]:
        return TypeError, self.args


def points(shapes: Sequence[Any]) -> array.array[float]:
    """The coordinates of Points, x, y, x, y and so on; of what is empty, and of None, they aren't numbers.

    Raises OtherType of another.
    """
    numbers: array.array[float] = _door().points(shapes)
    return numbers


def lines(shapes: Sequence[Any]) -> Lines:
    """The lines of LineStrings, LinearRings and MultiLineStrings. What is empty, and None, has none.

    Raises OtherType of another.
    """
    found: Lines = _door().lines(shapes)
    return found


def read(data: Any) -> Any:
    """The object of shapely's that well-known binary has. Shapely is loaded where it isn't."""
    return _door().read([data])[0]


def read_each(items: Sequence[Any]) -> List[Any]:
    """The same of each of many."""
    shapes: List[Any] = _door().read(items)
    return shapes


def builds() -> bool:
    """Whether `built` can be had: of shapely 1.8, over a GEOS that takes coordinates in bulk."""
    return isinstance(_door(), _Shapely1)


def built(polygons: Iterable[Sequence[Any]]) -> Any:
    """The MultiPolygon whose polygons have these rings, each an array of doubles, and closed."""
    return _door().built(polygons)


def series(shapes: List[Any], index: Any, crs: Any) -> Any:
    """Shapely's objects as geopandas' GeoSeries. Geopandas is loaded where it isn't."""
    geopandas: Any = importlib.import_module("geopandas")
    if getattr(geopandas.options, "use_pygeos", False):
        return geopandas.GeoSeries(shapes, index=index, crs=crs)
    arrays: Any = importlib.import_module("geopandas.array")
    return geopandas.GeoSeries(arrays.GeometryArray(object_array(shapes), crs=crs), index=index)


class _Shapely2:
    """Of shapely 2, whose calls take arrays."""

    def __init__(self, shapely: Any) -> None:
        self._shapely = shapely

    def written(self, shapes: Sequence[Any]) -> List[bytes]:
        shapely = self._shapely
        if len(shapes) == 1:
            return [self._alone(shapes[0])]
        listed = object_array(shapes)
        return list(shapely.to_wkb(listed, output_dimension=2))

    def coordinates(self, shapes: Sequence[Any]) -> Optional[Coordinates]:
        shapely = self._shapely
        if any(it.geom_type != "Polygon" or shapely.get_num_interior_rings(it) for it in shapes):
            return None
        numbers = memoryview(shapely.get_coordinates(object_array(shapes))).cast("B").cast("d")
        return address_of(numbers), numbers, [int(shapely.get_num_coordinates(it)) for it in shapes]

    def points(self, shapes: Sequence[Any]) -> array.array[float]:
        shapely, listed = self._shapely, object_array(shapes)
        kinds = shapely.get_type_id(listed)
        others = ((kinds > _POINT) & ~shapely.is_empty(listed)).nonzero()[0]
        if len(others):
            raise OtherType(int(others[0]), shapes[int(others[0])])
        numbers = array.array("d", [math.nan]) * (2 * len(shapes))
        rows, places = shapely.get_coordinates(listed, return_index=True)
        memory = sys.modules["numpy"].frombuffer(numbers).reshape(-1, 2)
        memory[places] = rows
        return numbers

    def lines(self, shapes: Sequence[Any]) -> Lines:
        shapely, listed, numpy = self._shapely, object_array(shapes), sys.modules["numpy"]
        kinds = shapely.get_type_id(listed)
        others = (~numpy.isin(kinds, (-1, *_LINES, _MULTILINESTRING)) & ~shapely.is_empty(listed)).nonzero()[0]
        if len(others):
            raise OtherType(int(others[0]), shapes[int(others[0])])
        parts, owners = shapely.get_parts(listed, return_index=True)
        counts = numpy.bincount(owners, minlength=len(shapes))
        numbers = array.array("d", shapely.get_coordinates(parts).tobytes())
        return Lines(numbers, _offsets(shapely.get_num_coordinates(parts).tolist()), _offsets(counts.tolist()))

    def _alone(self, shape: Any) -> bytes:
        shapely = self._shapely
        if shape.geom_type != "Polygon" or shapely.get_num_coordinates(shape) < _MANY:
            binary: bytes = shapely.to_wkb(shape, output_dimension=2)
            return binary
        rings = [shape.exterior, *shape.interiors]
        return _polygon([shapely.get_coordinates(ring) for ring in rings])

    def read(self, items: Sequence[Any]) -> List[Any]:
        shapely = self._shapely
        if len(items) == 1:
            return [shapely.from_wkb(bytes(items[0]))]
        return list(shapely.from_wkb(object_array(list(map(bytes, items)))))


def object_array(items: Sequence[Any]) -> Any:
    """The items in an array of numpy's."""
    numpy: Any = importlib.import_module("numpy")
    listed = numpy.empty(len(items), dtype=object)
    # All at once numpy would look into the items.
    for place, item in enumerate(items):
        listed[place] = item
    return listed


def _offsets(counts: List[int]) -> array.array[int]:
    """Where each of so many items begins, and where the last stops."""
    return array.array("q", itertools.accumulate(counts, initial=0))


def _head(kind: int, count: int) -> bytes:
    """What stands before the parts of a shape."""
    return struct.pack("=BII", sys.byteorder == "little", kind, count)


def _polygon(rings: Sequence[Any]) -> bytes:
    """The well-known binary of a polygon whose rings are buffers of doubles."""
    parts: List[Any] = [_head(_POLYGON, len(rings))]
    for ring in rings:
        view = memoryview(ring).cast("B")
        parts += struct.pack("=I", len(view) // 16), view
    return b"".join(parts)


NOTHING = _head(_COLLECTION, 0)


class _Shapely1:
    """Of shapely 1.8, which hands on the library GEOS by ctypes. Calls of it keep Python's lock: they are short, and a
    writer serves one thread at a time."""

    def __init__(self, geos: ModuleType) -> None:
        library = ctypes.PyDLL(None, handle=getattr(geos, "_lgeos")._handle)
        self._geos: Any = geos
        self._handle = ctypes.c_void_p(getattr(geos, "lgeos").geos_handle)
        for name, (answer, types) in _GEOS.items():
            # By its place, so that it is a call of its own, with its own types.
            call = library[f"GEOS{name}_r"]
            call.restype, call.argtypes = answer, [ctypes.c_void_p, *types]
            setattr(self, name, call)
        self._writer = self.WKBWriter_create(self._handle)
        self._reader = self.WKBReader_create(self._handle)
        self.WKBWriter_setOutputDimension(self._handle, self._writer, 2)
        self._factory: Callable[[int], Any] = getattr(sys.modules["shapely.geometry.base"], "geom_factory")
        self._classes = self._known_classes()

    def __getattr__(self, name: str) -> Any:
        # For mypy: the calls of GEOS.
        raise AttributeError(name)

    def written(self, shapes: Sequence[Any]) -> List[bytes]:
        # Of this call alone, for other threads run between two calls of GEOS.
        size = ctypes.c_size_t()
        handle, write, writer, counted = self._handle, self.WKBWriter_write, self._writer, self.GetNumCoordinates
        address, free, items = ctypes.byref(size), self.Free, []
        for shape in shapes:
            geometry = shape._geom
            if not geometry:
                items.append(NOTHING)
                continue
            if counted(handle, geometry) >= _MANY:
                long = self._long(geometry)
                if long is not None:
                    items.append(long)
                    continue
            at = write(handle, writer, geometry, address)
            if not at:
                raise MemoryError("shapely writes no well-known binary")
            items.append(ctypes.string_at(at, size.value))
            free(handle, at)
        return items

    def coordinates(self, shapes: Sequence[Any]) -> Optional[Coordinates]:
        handle, found, counts = self._handle, [], []
        count = ctypes.c_uint()
        for shape in shapes:
            geometry = shape._geom
            if not geometry or self.GeomTypeId(handle, geometry) != _POLYGON or self.GetNumInteriorRings(handle, geometry):
                return None
            sequence = self.Geom_getCoordSeq(handle, self.GetExteriorRing(handle, geometry))
            self.CoordSeq_getSize(handle, sequence, ctypes.byref(count))
            found.append(sequence)
            counts.append(count.value)
        numbers = array.array("d", [0.0]) * (2 * sum(counts))
        at = first = numbers.buffer_info()[0]
        for sequence, points in zip(found, counts):
            self.CoordSeq_copyToBuffer(handle, sequence, at, 0, 0)
            at += 16 * points
        return first, memoryview(numbers), counts

    def points(self, shapes: Sequence[Any]) -> array.array[float]:
        numbers = array.array("d", [math.nan]) * (2 * len(shapes))
        at = numbers.buffer_info()[0]
        handle, kind, sequence_of, copy = self._handle, self.GeomTypeId, self.Geom_getCoordSeq, self.CoordSeq_copyToBuffer
        for place, shape in enumerate(shapes):
            geometry = None if shape is None else shape._geom
            if geometry:
                if kind(handle, geometry) == _POINT:
                    copy(handle, sequence_of(handle, geometry), at, 0, 0)
                elif not shape.is_empty:
                    raise OtherType(place, shape)
            at += 16
        return numbers

    def lines(self, shapes: Sequence[Any]) -> Lines:
        sequences: List[int] = []
        counts, ends = [], array.array("q", [0])
        for place, shape in enumerate(shapes):
            geometry = None if shape is None else shape._geom
            if geometry and not self._add_lines(geometry, sequences) and not shape.is_empty:
                raise OtherType(place, shape)
            ends.append(len(sequences))
        count, handle = ctypes.c_uint(), self._handle
        for sequence in sequences:
            self.CoordSeq_getSize(handle, sequence, ctypes.byref(count))
            counts.append(count.value)
        numbers = array.array("d", [0.0]) * (2 * sum(counts))
        at = numbers.buffer_info()[0]
        for sequence, points in zip(sequences, counts):
            self.CoordSeq_copyToBuffer(handle, sequence, at, 0, 0)
            at += 16 * points
        return Lines(numbers, _offsets(counts), ends)

    def _add_lines(self, geometry: int, sequences: List[int]) -> bool:
        """Whether it is of lines, whose sequences of coordinates are added."""
        handle = self._handle
        kind = self.GeomTypeId(handle, geometry)
        if kind in _LINES:
            sequences.append(self.Geom_getCoordSeq(handle, geometry))
        elif kind == _MULTILINESTRING:
            parts = (self.GetGeometryN(handle, geometry, it) for it in range(self.GetNumGeometries(handle, geometry)))
            sequences += [self.Geom_getCoordSeq(handle, it) for it in parts]
        else:
            return False
        return True

    def _long(self, geometry: int) -> Optional[bytes]:
        """The binary of a polygon, or of several, with many points; None of what has few to a polygon, or is another."""
        handle = self._handle
        kind: int = self.GeomTypeId(handle, geometry)
        if kind == _POLYGON:
            return _polygon(self._rings(geometry))
        count = self.GetNumGeometries(handle, geometry)
        if kind != _MULTIPOLYGON or self.GetNumCoordinates(handle, geometry) < _MANY * count:
            return None
        parts = (self.GetGeometryN(handle, geometry, place) for place in range(count))
        return b"".join([_head(kind, count), *(_polygon(self._rings(it)) for it in parts)])

    def _rings(self, geometry: int) -> List[array.array[float]]:
        handle = self._handle
        shell = self.GetExteriorRing(handle, geometry)
        if self.GetNumCoordinates(handle, shell) == 0:
            return []
        holes = range(self.GetNumInteriorRings(handle, geometry))
        rings = [shell, *(self.GetInteriorRingN(handle, geometry, it) for it in holes)]
        return [self._coordinates(self.Geom_getCoordSeq(handle, ring)) for ring in rings]

    def _coordinates(self, sequence: int) -> array.array[float]:
        count = ctypes.c_uint()
        self.CoordSeq_getSize(self._handle, sequence, ctypes.byref(count))
        numbers = array.array("d", [0.0]) * (2 * count.value)
        self.CoordSeq_copyToBuffer(self._handle, sequence, numbers.buffer_info()[0], 0, 0)
        return numbers

    def read(self, items: Sequence[Any]) -> List[Any]:
        """The objects of well-known binary that has two coordinates."""
        if not self._classes:
            return [self._factory(self._one(item)) for item in items]
        classes, one, kind, handle, new = self._classes, self._one, self.GeomTypeId, self._handle, object.__new__
        shapes = []
        for item in items:
            geometry = one(item)
            shape = new(classes[kind(handle, geometry)])
            # By far the most of the time that shapely's own factory takes goes into setting these.
            shape.__dict__.update(__geom__=geometry, _ndim=2, _is_empty=False)
            shapes.append(shape)
        return shapes

    def _known_classes(self) -> List[Any]:
        """The class of each type of objects, by its number; none where shapely's factory makes objects of other attributes
        than shapely 1.8 does."""
        known = vars(self._factory(self._one(NOTHING)))
        if known.keys() - {"__p__"} != {"__geom__", "_ndim", "_is_empty"} or known.get("__p__") is not None:
            return []
        module: Any = sys.modules["shapely.geometry"]
        return [getattr(module, name) for name in _NAMES]

    def built(self, polygons: Iterable[Sequence[Any]]) -> Any:
        made = [self._polygon(list(map(self._ring, rings))) for rings in polygons]
        collection = self.Geom_createCollection
        return self._factory(collection(self._handle, _MULTIPOLYGON, _addresses(made), len(made)))

    def _ring(self, numbers: array.array[float]) -> int:
        at, count = numbers.buffer_info()
        ring: int = self.Geom_createLinearRing(self._handle, self.CoordSeq_copyFromBuffer(self._handle, at, count // 2, 0, 0))
        return ring

    def _polygon(self, rings: List[int]) -> int:
        holes = _addresses(rings[1:])
        polygon: int = self.Geom_createPolygon(self._handle, rings[0], holes, len(rings) - 1)
        return polygon

    def _one(self, item: Any) -> int:
        data = item if isinstance(item, bytes) else bytes(item)
        at: Optional[int] = self.WKBReader_read(self._handle, self._reader, data, len(data))
        if not at:
            raise ValueError("shapely reads no shape from this well-known binary")
        return at


def _addresses(items: List[int]) -> Any:
    return (ctypes.c_void_p * len(items))(*items)


_address, _size, _int = ctypes.c_void_p, ctypes.c_size_t, ctypes.c_int
# Calls of GEOS 3.10 and newer, behind the handle: what each answers and takes.
_GEOS: Dict[str, Tuple[Any, List[Any]]] = {
    "WKBWriter_create": (_address, []),
    "WKBReader_create": (_address, []),
    "WKBWriter_setOutputDimension": (None, [_address, _int]),
    "WKBWriter_write": (_address, [_address, _address, _address]),
    "WKBReader_read": (_address, [_address, ctypes.c_char_p, _size]),
    "Free": (None, [_address]),
    "GetNumCoordinates": (_int, [_address]),
    "GeomTypeId": (_int, [_address]),
    "GetNumGeometries": (_int, [_address]),
    "GetGeometryN": (_address, [_address, _int]),
    "GetNumInteriorRings": (_int, [_address]),
    "GetExteriorRing": (_address, [_address]),
    "GetInteriorRingN": (_address, [_address, _int]),
    "Geom_getCoordSeq": (_address, [_address]),
    "CoordSeq_getSize": (_int, [_address, _address]),
    "CoordSeq_copyToBuffer": (_int, [_address, _address, _int, _int]),
    "CoordSeq_copyFromBuffer": (_address, [_address, ctypes.c_uint, _int, _int]),
    "Geom_createLinearRing": (_address, [_address]),
    "Geom_createPolygon": (_address, [_address, _address, ctypes.c_uint]),
    "Geom_createCollection": (_address, [_int, _address, ctypes.c_uint]),
}


class _Plain:
    """Of any shapely, by the calls that all versions have."""

    def __init__(self) -> None:
        self._wkb: Any = importlib.import_module("shapely.wkb")

    def coordinates(self, _shapes: Sequence[Any]) -> Optional[Coordinates]:
        return None

    def points(self, shapes: Sequence[Any]) -> array.array[float]:
        numbers = array.array("d", [math.nan]) * (2 * len(shapes))
        for place, shape in enumerate(shapes):
            if shape is not None and not shape.is_empty:
                if shape.geom_type != "Point":
                    raise OtherType(place, shape)
                numbers[2 * place], numbers[2 * place + 1] = shape.x, shape.y
        return numbers

    def lines(self, shapes: Sequence[Any]) -> Lines:
        numbers, counts, ends = array.array("d"), [], array.array("q", [0])
        for place, shape in enumerate(shapes):
            if shape is not None and not shape.is_empty:
                if shape.geom_type not in ("LineString", "LinearRing", "MultiLineString"):
                    raise OtherType(place, shape)
                for part in getattr(shape, "geoms", [shape]):
                    rows = [row[:2] for row in part.coords]
                    numbers.extend(itertools.chain.from_iterable(rows))
                    counts.append(len(rows))
            ends.append(len(counts))
        return Lines(numbers, _offsets(counts), ends)

    def written(self, shapes: Sequence[Any]) -> List[bytes]:
        return [self._wkb.dumps(shape, output_dimension=2) for shape in shapes]

    def read(self, items: Sequence[Any]) -> List[Any]:
        return [self._wkb.loads(bytes(item)) for item in items]


_known: Dict[int, Any] = {}


def _door() -> Any:
    """What writes and reads the objects of the shapely that the program has loaded, or loads."""
    if "shapely.geometry.base" not in sys.modules:
        importlib.import_module("shapely.geometry")
    module = sys.modules["shapely"]
    known = _known.get(id(module))
    if known is None:
        _known.clear()
        known = _known[id(module)] = _fastest(module)
    return known


def _fastest(module: ModuleType) -> Any:
    if hasattr(module, "to_wkb") and hasattr(module, "from_wkb"):
        return _Shapely2(module)
    try:
        return _Shapely1(sys.modules["shapely.geos"])
    except (AttributeError, KeyError, OSError):
        return _Plain()
