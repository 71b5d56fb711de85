"""clip: the pieces of lines that lie in polygons, or outside of them."""

from __future__ import annotations

import array
import ctypes
from typing import TYPE_CHECKING, Any, Dict, Iterable, List, Literal, Optional, Sequence, Tuple, Union

from . import _gathered, _layers, _rows, _shapely, _shapes, _wkb
from ._answers import Handle, Lists, check_rings, lists_in
from ._calls import limit_of, made
from ._gathered import Gathered
from ._grid import Grid
from ._layers import Layer
from ._library import LinesOfC, library
from ._memory import address_of
from ._overlay import RULES, Rule, check_grid, number_in
from ._pieces import Pieces
from ._rings import Rings
from ._shapes import GatheredRings, GivenRing, HeldRings

if TYPE_CHECKING:
    from typing import Mapping

    from ._shapes import HasGeoInterface, Ring

    # Rings of this package are an iterable of buffers.
    LinesOfLayer = Union[Iterable[Union[Ring, Mapping[str, Any], HasGeoInterface, None]], Mapping[str, Any], HasGeoInterface]
else:
    LinesOfLayer = object

Keep = Literal["inside", "outside"]
# By the numbers that itree.h has for them.
KEEPS: Dict[str, int] = {"inside": 0, "outside": 1}
_WANTED = "LineString or MultiLineString is wanted"


def clip(
    lines: LinesOfLayer,
    polygons: _shapes.Shapes,
    keep: Keep = "inside",
    rule: Rule = "nonzero",
    *,
    grid: Optional[Grid] = None,
    memory_limit: Optional[int] = None,
) -> Pieces:
    """The pieces of lines that lie in polygons, or outside of them.

    lines: a sequence of lines, each a list or an array of points; shapely's
    LineString and MultiLineString, lists and arrays of them; a GeoSeries or a
    GeoDataFrame of such; GeoJSON; or Rings, each of which is a line then, that
    goes from its first point to its last. None, and what is empty, is no line.
    polygons: what `overlay` takes, all together.
    keep: "inside", which has what lies along the border; or "outside".
    rule: as that of `overlay`.
    grid: by which floats become whole numbers; by default one grid for lines and
    polygons, chosen as `overlay` does.
    memory_limit: as that of `overlay`.

    >>> clip([[(0, 1), (9, 1)]], [[(2, 0), (4, 0), (4, 2), (2, 2)]], "outside")[0]
    [[(0, 1), (2, 1)], [(4, 1), (9, 1)]]

    The answer is `Pieces`: a sequence with a list of pieces for each line, in the
    order along it. Its `to_shapely`, `to_geoseries` and `to_wkb` make all at once.

    Lines and polygons are broken where they meet, and moved there to the next
    point of the grid. A piece has two points at least: what touches polygons in
    a point alone is outside.

    Raises what `overlay` does, and ValueError where keep is none.
    """
    numbers = number_in(RULES, rule, "rule"), number_in(KEEPS, keep, "side to keep")
    check_grid(grid)
    limit = limit_of(memory_limit)
    layer, mask = LineLayer(lines), MaskLayer(polygons, grid is not None)
    grid, crs, _ = _layers.grid_of([layer, mask], grid)
    lists = clipped(layer, mask.held(grid), grid, numbers, limit)
    return Pieces(lists, layer.by_line(lists.polygon_offsets()), grid, crs)


class MaskLayer(Layer):
    """What `overlay` takes, all together."""

    def __init__(self, given: Any, has_grid: bool) -> None:
        self._gathered: Gathered = _gathered.gathered([(given, "polygons")], has_grid, kept=False)[0]
        self.crs, self.srid = self._gathered.crs, self._gathered.srid
        self.has_shapes = self._gathered.is_of_shapes()
        self.is_nothing = self._gathered.is_nothing()

    def is_whole(self) -> bool:
        return self._gathered.is_whole()

    def corners(self) -> array.array[float]:
        return self._gathered.corners()

    def held(self, grid: Optional[Grid]) -> HeldRings:
        """The rings, in units of a grid, or as they are."""
        return self._gathered.held(grid)


class LineLayer(Layer):
    """Lines: each has parts, which are lines without a gap."""

    def __init__(self, given: Any, name: str = "lines") -> None:
        self._name = name
        self._rings: Optional[GatheredRings] = None
        if isinstance(given, Rings):
            self._numbers, self._ends = given.numbers(), given.ring_offsets
            self._shapes: Sequence[int] = range(len(given) + 1)
        else:
            found = self._lines_of_objects(given) or self._lines_by_one(given)
            self._numbers, self._ends, self._shapes = memoryview(found.numbers), memoryview(found.ends), found.shapes
        self.count = len(self._shapes) - 1
        self.is_nothing = len(self._numbers) == 0

    def _lines_of_objects(self, given: Any) -> Optional[_shapely.Lines]:
        """The lines of shapely's objects, or None of others."""
        series = _gathered.series_of(given)
        base = _shapely.base()
        if series is not None:
            given, self.crs = _gathered.listed(series), series.crs
        elif base and isinstance(given, base):
            given = [given]
        elif not _layers.is_of_objects(given):
            return None
        try:
            return _shapely.lines(given)
        except _shapely.OtherType as fault:
            raise TypeError(f"{self._name}, place {fault.place}: {fault.said}; {_WANTED}") from None

    def _lines_by_one(self, given: Any) -> _shapely.Lines:
        """The lines of GeoJSON, and of rows of points."""
        parts: List[GivenRing] = []
        shapes = array.array("q", [0])
        for place, item in enumerate(_items_of(given, self._name)):
            parts += _parts_of(item, f"{self._name}, place {place}")
            shapes.append(len(parts))
        rings = self._rings = GatheredRings(parts, _shapes.floats, "d")
        return _shapely.Lines(rings.numbers, array.array("q", [0, *rings.ends]), shapes)

    def _row(self, place: int) -> str:
        if self._rings is not None:
            return self._rings.row(place)
        line = next(line for line, stop in enumerate(self._ends[1:]) if place < stop)
        shape = next(shape for shape, stop in enumerate(self._shapes[1:]) if line < stop)
        return f"{self._name}, place {shape}, row {place - self._ends[self._shapes[shape]]}"

    def is_whole(self) -> bool:
        return self._numbers.format == "i" or (_wkb.hold_whole(self._numbers) and _gathered.are_whole(self.corners()))

    def corners(self) -> array.array[float]:
        return array.array("d", _gathered.bounds(self._numbers, self._row))

    def held(self, grid: Optional[Grid]) -> Tuple[LinesOfC, Any]:
        """The parts, in units of a grid, or as they are; and what keeps them where they lie."""
        numbers, ends = self._numbers, address_of(self._ends) + 8
        count, lines = len(numbers) // 2, len(self._ends) - 1
        if numbers.format == "i" and grid is None:
            return LinesOfC(address_of(numbers), count, ends, lines), self
        doubles = memoryview(array.array("d", numbers)) if numbers.format == "i" else numbers
        room = array.array("i", [0]) * len(numbers)
        at = room.buffer_info()[0]
        (grid or Grid()).round_into(at, address_of(doubles), count, doubles, self._row)
        return LinesOfC(at, count, ends, lines), (room, self)

    def by_line(self, offsets: memoryview) -> memoryview:
        """Where the pieces of each line begin, by where those of each part do."""
        return memoryview(array.array("q", [offsets[it] for it in self._shapes]))


def _items_of(given: Any, name: str) -> Iterable[Any]:
    """The lines of a sequence, the features of a collection, or a line of GeoJSON alone."""
    shape = None if isinstance(given, (list, tuple)) else _shapes.shape_of(given)
    if shape is not None:
        is_collection = isinstance(shape, dict) and shape.get("type") == "FeatureCollection"
        return _layers.items_of(shape, name) if is_collection else [shape]
    if _shapes.is_ring(given):
        raise TypeError(f"{name}: a line alone; a sequence of lines is wanted: put it into a list")
    return _rows._iterated(given, name, "lines")


def _parts_of(item: Any, where: str) -> List[GivenRing]:
    """The parts of a line."""
    if item is None:
        return []
    shape: Any = None if isinstance(item, (list, tuple)) else _shapes.shape_of(item)
    if shape is None:
        return [GivenRing(item, where)]
    kind = shape.get("type") if isinstance(shape, dict) else None
    if kind == "Feature":
        return _parts_of(shape["geometry"], where) if shape.get("geometry") is not None else []
    coordinates = shape.get("coordinates") if kind in ("LineString", "MultiLineString") else None
    if not isinstance(coordinates, (list, tuple)):
        raise TypeError(f"{where}: {kind if isinstance(kind, str) else 'no type of GeoJSON'}; {_WANTED}")
    parts = [coordinates] if kind == "LineString" else coordinates
    return [GivenRing([row[:2] for row in part], where) for part in parts]


def clipped(layer: LineLayer, rings: HeldRings, grid: Optional[Grid], numbers: Tuple[int, int], limit: int) -> Lists:
    """The pieces of each part of each line, as rings of polygons, by the numbers of a rule and of the side that is kept."""
    handle = Handle(library.itree_polygons_free)
    lines, kept = layer.held(grid)
    words = ctypes.byref(lines), *rings.given, *numbers, handle.to_write
    size = lines.point_count + rings.given[1]
    kept = kept, lines, rings, handle
    check_rings(made(library.itree_clip_lines, *words, size=size, limit=limit, kept=kept), limit)
    return lists_in(handle)
