"""offset and minkowski: polygons, lines and points that grow, and polygons that shrink."""

from __future__ import annotations

import array
import math
import operator
from collections.abc import Iterator as IsIterator
from collections.abc import Mapping
from typing import Any, Iterable, Iterator, List, Literal, Optional, Tuple, Union

from . import _gathered, _grown, _rings, _rows, _shapely, _shapes
from ._answers import two_by_two, view_at
from ._calls import limit_of
from ._clip import LineLayer
from ._gathered import Gathered
from ._grid import Grid, fitted
from ._layers import Layer, is_of_objects
from ._overlay import RULES, Rule, check_grid, number_in
from ._points import PointLayer
from ._polygons import Polygons
from ._rings import Rings
from ._shapes import HeldRings, Shapes, held_rings

Style = Literal["round"]
JoinStyle = Union[Literal["round", "mitre", "bevel"], int]
# By name, and by the number that shapely has for it.
_JOINS = {
    "round": _grown.ROUND,
    1: _grown.ROUND,
    "mitre": _grown.MITRE,
    2: _grown.MITRE,
    "bevel": _grown.BEVEL,
    3: _grown.BEVEL,
}
_MOST_HUNDREDTHS = 2**32 - 1
_LINES, _POINTS = ("LineString", "LinearRing", "MultiLineString"), ("Point", "MultiPoint")


def offset(
    shapes: Shapes,
    distance: float,
    quad_segs: int = 16,
    cap_style: Style = "round",
    join_style: JoinStyle = "round",
    mitre_limit: float = 5.0,
    *,
    tolerance: Optional[float] = None,
    rule: Rule = "nonzero",
    grid: Optional[Grid] = None,
    memory_limit: Optional[int] = None,
) -> Polygons:
    """The polygons of the points within a distance of shapes, as shapely's buffer; or below 0, of those within the shapes that
    are as far from all that is outside.

    shapes: what `overlay` takes; and in shapely's objects, GeoSeries and GeoJSON
    also lines and points. All are taken together: so where they come to touch
    they become one. `[itree.offset(it, 5) for it in shapes]` grows each alone.
    distance: how far they grow, in the units of the coordinates; below 0 they
    shrink, and lines and points are gone.
    quad_segs: by how many sides a quarter of a circle is replaced, as shapely has it.
    cap_style: "round" alone: there is no other.
    join_style: how corners are joined that the border turns around: "round",
    "mitre" by the moved sides, carried on to where they cross, or "bevel" by one
    straight line; or 1, 2, 3 in their order, as shapely numbers them. Lines and
    points have round joins alone.
    mitre_limit: how many times the distance a mitre may be away from its corner,
    to two digits; where it were farther, the corner is round.
    tolerance: how much nearer than the distance a side of the circle may come, in
    the units of the coordinates; it takes the place of quad_segs. None: there are
    quad_segs, and by 16 of them a side comes 0.12 % of the distance nearer.
    rule: which points are inside of rings, as that of `overlay`.
    grid: by which floats become whole numbers; by default the finest on which the
    shapes and what becomes of them fit.
    memory_limit: as that of `overlay`, for each call of the library.

    >>> square = {"type": "Polygon", "coordinates": [[(0, 0), (4, 0), (4, 4), (0, 4), (0, 0)]]}
    >>> wider = offset(square, 1)
    >>> len(wider), len(wider[0].outer)
    (1, 68)
    >>> [(round(x, 6), round(y, 6)) for x, y in offset(square, -1)[0].outer]
    [(1.0, 1.0), (3.0, 1.0), (3.0, 3.0), (1.0, 3.0)]
    >>> len(offset({"type": "LineString", "coordinates": [(0, 0), (5, 0), (5, 5)]}, 1))
    1

    >>> [(round(x, 6), round(y, 6)) for x, y in offset(square, 1, join_style="mitre")[0].outer]
    [(-1.0, -1.0), (5.0, -1.0), (5.0, 5.0), (-1.0, 5.0)]

    The circle is a polygon whose corners lie on it, rounded inwards to the grid.
    The answer is the Minkowski sum of the shapes and that polygon, exact but for
    what `overlay` says that it rounds: so nothing grows further than the distance,
    nor less far than the distance less what the sides leave. Where shapes shrink,
    those points are left around which all of the polygon lies inside. With mitres
    or bevels sides move as far, by the corner of that polygon which lies furthest
    out; where shapes shrink, what is outside of them grows so.

    Rings of whole numbers, without a grid, stay whole: the distance is to be
    whole then, and so are the circle's corners. A distance under half a unit of
    the grid is 0.

    Raises what `overlay` does; ValueError where the distance or the tolerance is
    no finite number, the tolerance isn't above 0, quad_segs is below 1, a style
    is another, mitre_limit is below 1, or lines or points are to have another
    join than round; OverflowError where what has grown leaves the grid.
    """
    far, corners = finite(distance), corners_by(distance, quad_segs, tolerance)
    join = _join_of(cap_style, join_style, mitre_limit)
    number = number_in(RULES, rule, "rule")
    check_grid(grid)
    limit = limit_of(memory_limit)
    given = _Given(shapes, grid is not None)
    if join.style != _grown.ROUND and given.has_others():
        raise ValueError(f"the join_style {join_style!r}: lines and points have round joins alone")
    if grid is None:
        grid = given.grid_for(_reach(far, join))
    radius = _radius(far, grid)
    lists = _grown.by_circle(given.areas.held(grid), radius if far > 0 else -radius, corners, number, limit, join)
    if radius and far > 0:
        lines = given.lines(grid)
        if lines.given[3]:
            lists = _grown.united(lists, _grown.grown_lines(lines, _grown.circle(radius, corners), limit), limit)
    return Polygons(lists, grid, given.crs, given.areas.srid)


def minkowski(
    polygons: Shapes,
    shape: Iterable[Tuple[int, int]],
    rule: Rule = "nonzero",
    *,
    memory_limit: Optional[int] = None,
) -> Polygons:
    """The polygons of the Minkowski sum of polygons and a shape: of the points that one of each add up to.

    So polygons grow by the shape on all sides; parts that come to touch become
    one, and holes that are small close.

    polygons: what `overlay` takes, of whole numbers.
    shape: the corners (x, y) of a convex polygon, whole numbers, counterclockwise,
    with the origin inside.
    rule, memory_limit: as those of `overlay`.

    >>> square, shape = [(0, 0), (9, 0), (9, 9), (0, 9)], [(-1, -2), (1, -2), (1, 2), (-1, 2)]
    >>> [sorted(it.outer) for it in minkowski([square], shape)]
    [[(-1, -2), (-1, 11), (10, -2), (10, 11)]]

    It is exact, but for what `overlay` says that it rounds.

    Raises what `overlay` does; ValueError where the shape isn't such a polygon,
    or a coordinate isn't whole; OverflowError where the sum leaves 32 bits.
    """
    number, limit = number_in(RULES, rule, "rule"), limit_of(memory_limit)
    kind = _rows.Kind("shape", 2)
    corners = list(two_by_two(_rings.flat(_rows._numbers_of(shape, kind)[0])))
    areas = _gathered.gathered([(polygons, "polygons")], False, kept=False)[0]
    if areas.is_of_shapes() and not areas.is_whole():
        raise ValueError("polygons: whole numbers are wanted; itree.offset takes others")
    lists = _grown.minkowski_sum(areas.held(None), corners, number, limit)
    return Polygons(lists, None, areas.crs, areas.srid)


def finite(distance: Any) -> float:
    """The distance. Raises ValueError where it is no finite number."""
    far = float(distance)
    if not math.isfinite(far):
        raise ValueError(f"the distance: {far}; a finite number is wanted")
    return far


def corners_by(distance: Any, quad_segs: int, tolerance: Optional[float]) -> int:
    """How many corners the circle has. Raises ValueError where quad_segs is below 1, or the tolerance isn't above 0."""
    segments = operator.index(quad_segs)
    if segments < 1:
        raise ValueError(f"quad_segs: {segments}; a number from 1 on is wanted")
    if tolerance is None:
        return _grown.corners_for(1.0, segments, 0.0)
    within = float(tolerance)
    if not (within > 0 and math.isfinite(within)):
        raise ValueError(f"the tolerance: {within}; a finite number above 0 is wanted")
    return _grown.corners_for(abs(float(distance)) or 1.0, segments, within)


def _join_of(cap_style: str, join_style: Any, mitre_limit: Any) -> _grown.Join:
    """How corners are joined. Raises ValueError where a style is none, or the limit is below 1 or no finite number."""
    if cap_style != "round":
        raise ValueError(f"the cap_style {cap_style!r}: 'round' is wanted, there is no other")
    style = _JOINS.get(join_style)
    if style is None:
        raise ValueError(f"the join_style {join_style!r}: 'round', 'mitre' or 'bevel' is wanted, or 1, 2 or 3")
    most = float(mitre_limit)
    if not (most >= 1 and math.isfinite(most)):
        raise ValueError(f"the mitre_limit: {most}; a finite number from 1 on is wanted")
    return _grown.Join(style, min(round(100 * most), _MOST_HUNDREDTHS) if style == _grown.MITRE else 0)


def _reach(far: float, join: _grown.Join) -> float:
    """How far away from shapes lies what becomes of them by a distance, at most, and what is made on the way to it."""
    return far * max(2, join.limit / 100) if join.style != _grown.ROUND else far


def _radius(far: float, grid: Optional[Grid]) -> int:
    """The distance in units."""
    if grid is not None:
        return round(abs(far) / grid.unit)
    if not far.is_integer():
        wanted = "a whole number is wanted where rings are whole; or give a grid: itree.Grid.fit(...)"
        raise ValueError(f"the distance: {far}; {wanted}")
    return abs(int(far))


def grid_around(corners: array.array[float], far: float, unit: Optional[float] = None) -> Grid:
    """The grid on which positions, x, y, x, y and so on, fit, and what becomes of them by a distance."""
    reach = abs(far)
    return fitted(array.array("d", [it + way for way in (-reach, reach) for it in corners]), unit)


class _Given:
    """What is to grow: areas, and beside them lines and points, each as it was given."""

    def __init__(self, shapes: Any, has_grid: bool) -> None:
        parts = _Parts()
        series = _gathered.series_of(shapes)
        self.areas: Gathered = _gathered.gathered([(parts.areas_of(shapes), "shapes")], has_grid, kept=False)[0]
        self.crs = self.areas.crs if series is None else series.crs
        self._lines = [LineLayer(it, "shapes") for it in (parts.lines, parts.told_lines) if it]
        self._points = [PointLayer(it, "shapes") for it in (parts.points, parts.told_points) if it]

    def has_others(self) -> bool:
        """Whether there are lines or points."""
        return bool(self._lines or self._points)

    def grid_for(self, far: float) -> Optional[Grid]:
        """The finest grid on which all fits, and what becomes of it; None of rings of whole numbers."""
        others: List[Layer] = [*self._lines, *self._points]
        if not others and not self.areas.is_of_shapes():
            return None
        numbers = self.areas.corners()
        for it in others:
            numbers.extend(it.corners())
        return grid_around(numbers, far)

    def lines(self, grid: Optional[Grid]) -> HeldRings:
        """All lines, in units of a grid; a point is a line of one."""
        numbers, ends = array.array("i"), array.array("Q")
        for layer in self._lines:
            of_c, kept = layer.held(grid)
            before = len(numbers) // 2
            numbers.frombytes(view_at(kept, of_c.points, 2 * of_c.point_count, "i").cast("B"))
            ends.extend(before + stop for stop in view_at(kept, of_c.ends, of_c.line_count, "Q"))
        for it in self._points:
            at, count, kept = it.held(grid)
            numbers.frombytes(view_at(kept, at, 2 * count, "i").cast("B"))
            ends.extend(range(len(numbers) // 2 - count + 1, len(numbers) // 2 + 1))
        return held_rings(numbers, ends)


class _Parts:
    """The lines and the points among shapes: of shapely's, and as GeoJSON tells them."""

    def __init__(self) -> None:
        self.lines: List[Any] = []
        self.points: List[Any] = []
        self.told_lines: List[Any] = []
        self.told_points: List[Any] = []
        self._base = _shapely.base()

    def areas_of(self, given: Any) -> Any:
        """What is left of the shapes without lines and points, which are put aside."""
        series = _gathered.series_of(given)
        if series is not None:
            items: Any = _gathered.listed(series)
        elif isinstance(given, self._base) or self._is_told(given):
            items = [given]
        elif is_of_objects(given) or isinstance(given, (list, tuple, IsIterator)):
            if _shapes.is_ring(given):
                return given
            items = list(given)
        else:
            return given
        areas = [area for item in items for area in self._areas_in(item)]
        has_others = self.lines or self.points or self.told_lines or self.told_points
        return areas if has_others or isinstance(given, IsIterator) else given

    def _is_told(self, given: Any) -> bool:
        return isinstance(given, Mapping) or (not isinstance(given, (Polygons, Rings)) and hasattr(given, "__geo_interface__"))

    def _areas_in(self, item: Any) -> Iterator[Any]:
        if isinstance(item, self._base):
            yield from self._areas_in_object(item)
        elif self._is_told(item):
            yield from self._areas_told(_shapes.shape_of(item))
        else:
            yield item

    def _areas_in_object(self, shape: Any) -> Iterator[Any]:
        kind = shape.geom_type
        if shape.is_empty:
            return
        if kind == "GeometryCollection":
            for part in shape.geoms:
                yield from self._areas_in_object(part)
        elif kind in _LINES:
            self.lines.append(shape)
        elif kind in _POINTS:
            self.points += [shape] if kind == "Point" else shape.geoms
        else:
            yield shape

    def _areas_told(self, shape: Any) -> Iterator[Any]:
        kind = shape.get("type") if isinstance(shape, Mapping) else None
        parts = shape.get(_PARTS.get(str(kind), "")) if isinstance(shape, Mapping) else None
        if isinstance(parts, (list, tuple)) and kind in _COLLECTIONS:
            for part in parts:
                yield from self._areas_told(part)
        elif kind == "Feature" and isinstance(parts, Mapping):
            yield from self._areas_told(parts)
        elif kind in _LINES:
            # shapely tells a LinearRing, too, which GeoJSON doesn't have.
            self.told_lines.append({**shape, "type": "LineString"} if kind == "LinearRing" else shape)
        elif kind in _POINTS and isinstance(parts, (list, tuple)):
            rows = [parts] if kind == "Point" else parts
            self.told_points += [row[:2] for row in rows if row]
        elif shape is not None:
            yield shape


_COLLECTIONS = "FeatureCollection", "GeometryCollection"
# The member in which each has its parts.
_PARTS = {
    "FeatureCollection": "features",
    "GeometryCollection": "geometries",
    "Feature": "geometry",
    "Point": "coordinates",
    "MultiPoint": "coordinates",
}
