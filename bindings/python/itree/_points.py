"""points_in: which shapes each of some points lies in."""

from __future__ import annotations

import array
import ctypes
import itertools
from typing import TYPE_CHECKING, Any, Dict, List, Literal, Optional, Tuple, Union, overload

from . import _answers, _gathered, _layers, _rings, _rows, _shapely, _shapes, _wkb
from ._answers import Handle, Lists
from ._calls import limit_of, made
from ._each import ShapesOfLayer
from ._grid import Grid
from ._layers import Layer
from ._library import library
from ._memory import address_of
from ._overlay import RULES, Rule, check_grid, number_in
from ._shapes import GivenRing

if TYPE_CHECKING:
    from typing import Iterable, SupportsFloat

    from ._shapes import HasGeoInterface, Numbers

    PointRows = Union[Iterable[Union[Iterable[SupportsFloat], HasGeoInterface, None]], Numbers]
else:
    PointRows = object

Border = Literal["closed", "open", "half-open"]
# By the numbers that itree.h has for them.
BORDERS: Dict[str, int] = {"closed": 0, "open": 1, "half-open": 2}
_NAME = "points"


@overload
def points_in(
    points: PointRows,
    shapes: ShapesOfLayer,
    *,
    rule: Rule = ...,
    border: Border = ...,
    grid: Optional[Grid] = ...,
    as_array: Literal[False] = ...,
    memory_limit: Optional[int] = ...,
) -> List[Tuple[int, int]]:
    ...


@overload
def points_in(
    points: PointRows,
    shapes: ShapesOfLayer,
    *,
    rule: Rule = ...,
    border: Border = ...,
    grid: Optional[Grid] = ...,
    as_array: Literal[True],
    memory_limit: Optional[int] = ...,
) -> memoryview:
    ...


@overload
def points_in(
    points: PointRows,
    shapes: ShapesOfLayer,
    *,
    rule: Rule = ...,
    border: Border = ...,
    grid: Optional[Grid] = ...,
    as_array: bool,
    memory_limit: Optional[int] = ...,
) -> Union[List[Tuple[int, int]], memoryview]:
    ...


def points_in(
    points: PointRows,
    shapes: ShapesOfLayer,
    *,
    rule: Rule = "nonzero",
    border: Border = "closed",
    grid: Optional[Grid] = None,
    as_array: bool = False,
    memory_limit: Optional[int] = None,
) -> Union[List[Tuple[int, int]], memoryview]:
    """The pairs (i, j) of a point and a shape that it lies in: by point, then by shape.

    points: rows (x, y); an array or another buffer of the shape (n, 2); a list or
    an array of shapely's Points; a GeoSeries or a GeoDataFrame of such. None, and
    an empty Point, is in no shape.
    shapes: what `overlay_each` takes.
    rule: as that of `overlay`.
    border: "closed": a point on the border of a shape is in it; "open": it isn't;
    "half-open": it is where the shape's inside lies right of it, or above it on
    an upright border: so a point of a coverage, whose shapes share borders and
    don't overlap, is in just one.
    as_array: whether the answer is a memoryview of the shape (pairs, 2).
    grid: by which floats become whole numbers; by default one grid for points
    and shapes, chosen as `overlay` does.
    memory_limit: as that of `overlay`.

    It is exact on the grid: nothing else is rounded.

    >>> fields = [[[(0, 0), (2, 0), (2, 2), (0, 2)]], [[(2, 0), (4, 0), (4, 2), (2, 2)]]]
    >>> points_in([(1, 1), (2, 1), (5, 1), (3.5, 1)], fields)
    [(0, 0), (1, 0), (1, 1), (3, 1)]
    >>> [points_in([(2, 1)], fields, border=border) for border in ("open", "half-open")]
    [[], [(0, 1)]]

    Raises what `overlay_each` does, and ValueError where the border is none, or
    a coordinate isn't finite.
    """
    numbers = number_in(RULES, rule, "rule"), number_in(BORDERS, border, "border")
    check_grid(grid)
    limit = limit_of(memory_limit)
    layer, other = PointLayer(points), _layers.layer_of(shapes, "shapes", grid is not None)
    grid, _, _ = _layers.grid_of([layer, other], grid)
    pairs = pairs_in(layer, other.held(grid), grid, numbers, limit)
    return _answers.in_rows_of_two(pairs) if as_array else list(_answers.two_by_two(pairs))


class PointLayer(Layer):
    """Points, as they are given: some of them may be none."""

    def __init__(self, given: Any, name: str = _NAME) -> None:
        self._name = name
        self._places: Optional[array.array[int]] = None
        self._called = "row"
        numbers = self._numbers_of_objects(given)
        if numbers is None:
            self._numbers, self._kept = _numbers_of_rows(given, name)
        else:
            self._called = "place"
            self._numbers = self._kept = memoryview(self._without_none(numbers))
        self.count = len(self._numbers) // 2
        self.is_nothing = self.count == 0

    def _numbers_of_objects(self, given: Any) -> Optional[array.array[float]]:
        """The coordinates of shapely's objects, or None where they are others."""
        series = _gathered.series_of(given)
        if series is not None:
            given, self.crs = _gathered.listed(series), series.crs
        elif not _layers.is_of_objects(given):
            return None
        try:
            return _shapely.points(given)
        except _shapely.OtherType as fault:
            raise TypeError(f"{self._name}, place {fault.place}: {fault.said}; Point is wanted") from None

    def _without_none(self, numbers: array.array[float]) -> array.array[float]:
        xs, ys = numbers[0::2], numbers[1::2]
        there = [not (x != x and y != y) for x, y in zip(xs, ys)]
        if all(there):
            return numbers
        self._places = array.array("Q", itertools.compress(range(len(there)), there))
        rows = itertools.compress(zip(xs, ys), there)
        return array.array("d", itertools.chain.from_iterable(rows))

    def _row(self, place: int) -> str:
        found = place if self._places is None else self._places[place]
        return f"{self._name}, {self._called} {found}"

    def is_whole(self) -> bool:
        return self._numbers.format == "i" or (_wkb.hold_whole(self._numbers) and _gathered.are_whole(self.corners()))

    def corners(self) -> array.array[float]:
        return array.array("d", _gathered.bounds(self._numbers, self._row))

    def held(self, grid: Optional[Grid]) -> Tuple[int, int, Any]:
        """Where the points lie, in units of a grid, or as they are; how many; and what keeps them there."""
        numbers = self._numbers
        if numbers.format == "i":
            if grid is None:
                return address_of(numbers), self.count, self._kept
            numbers = memoryview(array.array("d", numbers))
        room = array.array("i", [0]) * len(numbers)
        at = room.buffer_info()[0]
        (grid or Grid()).round_into(at, address_of(numbers), self.count, numbers, self._row)
        return at, self.count, room

    def given_places(self, pairs: memoryview) -> memoryview:
        """The pairs, whose first numbers are the places among the points that were given."""
        places = self._places
        if places is not None:
            pairs[0::2] = array.array("Q", [places[it] for it in pairs[0::2]])
        return pairs


def _numbers_of_rows(given: Any, name: str) -> Tuple[memoryview, Any]:
    """The coordinates of rows, flat, as signed 32-bit numbers or as doubles; and what keeps them where they lie."""
    kind = _rows.Kind(name, 2)
    floats = _rings.floats_of(given, kind)
    if floats is not None:
        return _rings.flat(floats), floats
    if not isinstance(given, (list, tuple)) and _rows._view_of(given, kind) is None:
        given = list(_rows._iterated(given, name, "points"))
    try:
        view, _ = _rows._numbers_of(given, kind)
        return _rings.flat(view), view
    except TypeError:
        doubles = memoryview(_shapes.floats(GivenRing(given, name)))
        return doubles, doubles


def pairs_in(layer: PointLayer, shapes: Lists, grid: Optional[Grid], numbers: Tuple[int, int], limit: int) -> memoryview:
    """The pairs of a point and a shape that it lies in, as flat 64-bit numbers, by a rule and a border's numbers."""
    handle, given = Handle(library.itree_pairs_free), shapes.shapes_of_c()
    at, count, kept = layer.held(grid)
    words = at, count, ctypes.byref(given), *numbers, handle.to_write
    size, kept = shapes.point_count + count, (kept, shapes, given, handle)
    _answers.check_rings(made(library.itree_points_in, *words, size=size, limit=limit, kept=kept), limit)
    return layer.given_places(_answers.numbers_of(handle))
