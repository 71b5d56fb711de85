"""is_valid and is_valid_reason: whether polygons are valid, and why they aren't."""

from __future__ import annotations

import array
import ctypes
from fractions import Fraction
from typing import TYPE_CHECKING, Any, Callable, Iterable, Iterator, List, NamedTuple, Optional, Sequence, Tuple, TypeVar, Union

from . import _answers, _gathered, _layers, _rows, _shapely, _shapes, _wkb
from ._answers import Lists
from ._calls import limit_of, made
from ._gathered import Binaries, Gathered
from ._grid import Grid
from ._layers import ShapeLayer
from ._library import EdgeOfC, FaultOfC, library
from ._overlay import check_grid
from ._overlays import Overlays
from ._polygons import Polygons
from ._rings import Rings
from ._shapes import GatheredRings, GivenRing, Shapes

if TYPE_CHECKING:
    from ._each import ShapesOfLayer
else:
    ShapesOfLayer = object

# By the numbers that itree.h has for them.
_FEW_POINTS, _MEETS_ITSELF, _RINGS_CROSS, _HOLES_OUTSIDE, _OVERLAP, _DISCONNECTED = range(1, 7)
VALID = "Valid Geometry"
_Told = TypeVar("_Told")
# A place in units, which may be between whole ones.
_Place = Tuple[Union[int, Fraction], Union[int, Fraction]]


class Found(NamedTuple):
    """What is wrong with polygons; these, and the grid whose units they have."""

    fault: FaultOfC
    polygons: Lists
    grid: Optional[Grid]


def is_valid(
    shapes: Union[Shapes, ShapesOfLayer], *, grid: Optional[Grid] = None, memory_limit: Optional[int] = None
) -> Union[bool, List[bool]]:
    """Whether a shape is valid, as shapely's is_valid; or a list of that for each of many.

    shapes: a shape: one of shapely's objects; well-known binary; GeoJSON, or what
    has a __geo_interface__; an answer; or a polygon as a list of rings, or Rings,
    the outer one first. Or a sequence of shapes, as a list or an array of
    shapely's, a GeoSeries, a GeoDataFrame or a FeatureCollection: each is looked
    at by itself, and None isn't valid.
    grid: by which floats become whole numbers; by default of each shape the
    finest that fits, as `overlay` chooses it.
    memory_limit: how many bytes a call may hold at once; None: as it likes.

    >>> square, hole = [(0, 0), (9, 0), (9, 9), (0, 9)], [(2, 2), (4, 2), (4, 4), (2, 4)]
    >>> is_valid([square, hole]), is_valid([hole, square])
    (True, False)
    >>> is_valid([[square], [[(0, 0), (4, 4), (4, 0), (0, 4)]]])
    [True, False]

    A polygon is valid where each ring has three points or more, visits none
    twice, and neither crosses nor touches itself; where rings meet only in single
    points; where holes lie in the outer ring, side by side; and where its inside
    is one piece. Of a MultiPolygon no two polygons overlap, either. Rings may run
    either way. A GeometryCollection is valid where each of its parts is. What is
    empty is valid. It is what OGC says, and shapely.

    With whole coordinates of 32 bits nothing is rounded, and the answer is exact.
    With others the shape is rounded to the grid first, and the answer is that of
    the shape on the grid: of one whose points lie nearer to an edge than
    `grid.unit`, or where rings touch between their points, it may be another than
    shapely's, which takes the floats as they are.

    Raises what `overlay` does, and TypeError of points and lines.
    """
    answer: Union[bool, List[bool]] = _each(shapes, grid, memory_limit, lambda found: found is None, False)
    return answer


def is_valid_reason(
    shapes: Union[Shapes, ShapesOfLayer], *, grid: Optional[Grid] = None, memory_limit: Optional[int] = None
) -> Union[str, List[Optional[str]]]:
    """Why a shape isn't valid, and where, in the words of shapely's is_valid_reason; or a list of that for each of many.

    shapes, grid, memory_limit: as those of `is_valid`.

    >>> is_valid_reason([[(0, 0), (4, 4), (4, 0), (0, 4)]])
    'Self-intersection[2 2]'
    >>> is_valid_reason([[(0, 0), (9, 0), (9, 9), (0, 9)]])
    'Valid Geometry'

    It is "Valid Geometry"; or "Too few points in geometry component",
    "Self-intersection", "Ring Self-intersection", where a ring touches itself,
    "Hole lies outside shell", "Holes are nested", "Nested shells", or "Interior
    is disconnected", with the place behind it. Of a shape with several faults it
    is one of them, which needn't be the one that shapely tells. Of None it is
    None.

    Raises what `is_valid` does.
    """
    answer: Union[str, List[Optional[str]]] = _each(shapes, grid, memory_limit, _reason, None)
    return answer


def _each(
    given: Any, grid: Optional[Grid], memory_limit: Optional[int], told: Callable[[Optional[Found]], Any], missing: Any
) -> Any:
    """What is told of what is wrong with a shape, or with each of many. missing: of one that is None."""
    check_grid(grid)
    limit = limit_of(memory_limit)
    many = _many(given)
    if many is None:
        return told(_first_fault(_parts(given, "shape", grid is not None), grid, limit))
    answers = []
    for place, item in enumerate(many):
        parts = [] if item is None else _parts(item, f"shapes, place {place}", grid is not None)
        answers.append(missing if item is None else told(_first_fault(parts, grid, limit)))
    return answers


def _first_fault(parts: Iterable[ShapeLayer], grid: Optional[Grid], limit: int) -> Optional[Found]:
    """What is wrong with the first part that isn't valid. Each is of polygons that are looked at together."""
    for part in parts:
        own = _layers.chosen([part]) if grid is None else grid
        polygons, fault = part.held(own), FaultOfC()
        shapes = polygons.shapes_of_c()
        words, kept = (ctypes.byref(shapes), ctypes.byref(fault)), (polygons, shapes, fault)
        status = made(library.itree_polygons_fault, *words, size=polygons.point_count, limit=limit, kept=kept)
        _answers.check_rings(status, limit)
        if fault.kind:
            return Found(fault, polygons, own)
    return None


# ---- what is given


def _many(given: Any) -> Optional[Sequence[Any]]:
    """The shapes of a sequence, or None of one shape."""
    if isinstance(given, (Rings, Polygons, _shapely.base())) or _gathered.is_binary(given):
        return None
    if isinstance(given, Overlays):
        return given
    series = _gathered.series_of(given)
    if series is not None:
        return _gathered.listed(series)
    shape = None if isinstance(given, (list, tuple)) else _shapes.shape_of(given)
    if isinstance(shape, dict) and shape.get("type") == "FeatureCollection":
        return _layers.items_of(given, "shapes")
    if given is None or shape is not None:
        return None
    if _shapes.is_ring(given):
        raise TypeError("shape: a ring alone; a polygon is a sequence of rings: put it into a list")
    items: List[Any] = list(_rows._iterated(given, "shapes", "shapes, or rings,"))
    return None if any(map(_is_ring, items)) else items


def _is_ring(given: Any) -> bool:
    return _shapes.is_ring(given) and not _gathered.is_binary(given)


def _parts(given: Any, name: str, has_grid: bool) -> Iterable[ShapeLayer]:
    """The parts of a shape: each of the polygons that are valid or not together, a shape for each."""
    if isinstance(given, Polygons):
        return [_layers.layer_of(given, name, has_grid)]
    if isinstance(given, Rings):
        return [_of_own_rings(given, name, has_grid)]
    if isinstance(given, _shapely.base()):
        return _of_binary(Binaries((given,), (), lambda _: name), name)
    if _gathered.is_binary(given):
        return _of_binary(Binaries((), (bytes(given),), lambda _: name), name)
    shape = None if isinstance(given, (list, tuple)) else _shapes.shape_of(given)
    if shape is not None:
        return [_of_json(polygons, name) for polygons in _in_json(shape, name)]
    if given is None or _shapes.is_ring(given):
        raise TypeError(f"{name}: {_rows._type(given)}; a shape, or a sequence of rings, is wanted")
    rings = [GivenRing(ring, f"{name}, ring {at}") for at, ring in enumerate(_rows._iterated(given, name, "rings"))]
    return [_of_rings(rings, name, has_grid)]


def _of_own_rings(given: Rings, name: str, has_grid: bool) -> ShapeLayer:
    _gathered.check_floats(given, name, has_grid)
    gathered = Gathered(name)
    gathered.own = given
    return _layers.RingLayer(gathered, array.array("q", (0, len(given))))


def _of_rings(rings: Sequence[GivenRing], name: str, has_grid: bool) -> ShapeLayer:
    """The polygon of these rings."""
    gathered = Gathered(name)
    numbers_of: Callable[[GivenRing], Any] = _shapes.floats if has_grid else _shapes.whole_numbers
    gathered.rings = GatheredRings(rings, numbers_of, "d" if has_grid else "i")
    return _layers.RingLayer(gathered, array.array("q", (0, len(rings))))


def _of_binary(binaries: Binaries, name: str) -> Iterator[ShapeLayer]:
    """The parts of a shape in well-known binary."""
    # It tells what is faulty, so that what is left is as it should be.
    binaries.by(_wkb.corners)
    for polygons in filter(None, _wkb.polygons_in(binaries.binary.data)):
        yield _layers.BinaryLayer(Binaries((), polygons, lambda _: name))


def _in_json(shape: Any, where: str) -> Iterator[List[Tuple[Any, str]]]:
    """The parts of a shape of GeoJSON: the polygons of each, and how they are called."""
    kind = shape.get("type") if isinstance(shape, dict) else None
    if kind == "MultiPolygon" and isinstance(shape.get("coordinates"), (list, tuple)):
        parts = enumerate(shape["coordinates"])
        yield [({"type": "Polygon", "coordinates": rings}, f"{where}, polygon {place}") for place, rings in parts]
    elif kind == "GeometryCollection" and isinstance(shape.get("geometries"), (list, tuple)):
        for place, part in enumerate(shape["geometries"]):
            yield from _in_json(part, f"{where}, geometry {place}")
    elif kind == "Feature" and shape.get("geometry") is not None:
        yield from _in_json(shape["geometry"], where)
    elif kind != "Feature":
        # A polygon; or what is none, and is told so when it is read.
        yield [(shape, where)]


def _of_json(polygons: Sequence[Tuple[Any, str]], name: str) -> ShapeLayer:
    rings: List[GivenRing] = []
    offsets = array.array("q", [0])
    for polygon, where in polygons:
        rings += _shapes.rings_of_shape(polygon, where, kept=False)
        offsets.append(len(rings))
    gathered = Gathered(name)
    gathered.shapes = GatheredRings(rings, _shapes.directed_floats, "d")
    return _layers.RingLayer(gathered, offsets)


# ---- what is told


def _reason(found: Optional[Found]) -> str:
    """What is wrong, and where, in shapely's words."""
    if found is None:
        return VALID
    words, place = _said(found)
    if place is None:
        return words
    x, y = _in_coordinates(place, found.grid)
    return f"{words}[{_number(x)} {_number(y)}]"


def _said(found: Found) -> Tuple[str, Optional[_Place]]:
    fault = found.fault
    if fault.kind == _FEW_POINTS:
        points = _ring(found.polygons, fault.ring)
        return "Too few points in geometry component", points[0] if points else None
    if fault.kind in (_MEETS_ITSELF, _RINGS_CROSS):
        place, touch = _meeting(fault.one, fault.other)
        return "Ring Self-intersection" if touch else "Self-intersection", place
    if fault.kind == _HOLES_OUTSIDE:
        outside = _outside(found.polygons, fault.polygon, (fault.point.x, fault.point.y))
        if outside is not None:
            return "Hole lies outside shell", outside
        return "Holes are nested", (fault.point.x, fault.point.y)
    words = "Nested shells" if fault.kind == _OVERLAP else "Interior is disconnected"
    return words, (fault.point.x, fault.point.y)


def _meeting(one: EdgeOfC, other: EdgeOfC) -> Tuple[_Place, bool]:
    """A point that two edges share, and whether they share no other, and it is an end of one of them."""
    along, beside = (one.x1 - one.x0, one.y1 - one.y0), (other.x1 - other.x0, other.y1 - other.y0)
    (low, high), (other_low, other_high) = map(_ends, (one, other))
    divisor = along[0] * beside[1] - along[1] * beside[0]
    if divisor == 0:
        # They lie along one line.
        first, last = max(low, other_low), min(high, other_high)
        return first, first == last
    part = Fraction((other.x0 - one.x0) * beside[1] - (other.y0 - one.y0) * beside[0], divisor)
    place = one.x0 + part * along[0], one.y0 + part * along[1]
    return place, place in (low, high, other_low, other_high)


def _ends(edge: EdgeOfC) -> Tuple[Tuple[int, int], Tuple[int, int]]:
    """The lesser end of an edge, and the greater one."""
    start, end = (edge.x0, edge.y0), (edge.x1, edge.y1)
    return (start, end) if start <= end else (end, start)


def _ring(polygons: Lists, place: int) -> List[Tuple[int, int]]:
    """The points of the ring at this place."""
    start, stop = polygons.ring_offsets()[place : place + 2]
    return list(_answers.two_by_two(polygons.numbers()[2 * start : 2 * stop]))


def _outside(polygons: Lists, place: int, told: Tuple[int, int]) -> Optional[_Place]:
    """A point of a hole of the polygon that lies outside of its outer ring: that which is told, a corner or the middle of an
    edge; or None."""
    first, stop = polygons.polygon_offsets()[place : place + 2]
    outer = _ring(polygons, first)
    if _is_outside(told, outer):
        return told
    for hole in range(first + 1, stop):
        points = _ring(polygons, hole)
        for (x, y), (x1, y1) in zip(points, points[1:] + points[:1]):
            corner: _Place = (x, y)
            middle: _Place = (Fraction(x + x1, 2), Fraction(y + y1, 2))
            for point in corner, middle:
                if _is_outside(point, outer):
                    return point
    # There are no two holes that lie in each other.
    return _ring(polygons, first + 1)[0] if stop - first == 2 else None


def _is_outside(point: _Place, ring: Sequence[Tuple[int, int]]) -> bool:
    """Whether the point lies outside of the ring, and not on it."""
    x, y = point
    inside = False
    for (x0, y0), (x1, y1) in zip(ring, [*ring[1:], ring[0]]):
        side = (x1 - x0) * (y - y0) - (y1 - y0) * (x - x0)
        if side == 0 and min(x0, x1) <= x <= max(x0, x1) and min(y0, y1) <= y <= max(y0, y1):
            return False
        if (y0 <= y) != (y1 <= y) and (side > 0) == (y1 > y0):
            inside = not inside
    return not inside


def _in_coordinates(place: _Place, grid: Optional[Grid]) -> Tuple[float, float]:
    """A place in the coordinates of callers."""
    if grid is None:
        return float(place[0]), float(place[1])
    x, y = (float(it * Fraction(grid.unit) + Fraction(start)) for it, start in zip(place, grid.origin))
    return x, y


def _number(number: float) -> str:
    return f"{number:.0f}" if number.is_integer() and abs(number) < 1e15 else repr(number)
