"""overlay_each and candidate_pairs: many overlays in one call, and which of them are worth it."""

from __future__ import annotations

import array
import ctypes
from typing import TYPE_CHECKING, Any, Iterable, List, Literal, NamedTuple, Optional, Sequence, Tuple, Union, overload

from . import _answers, _boxes, _layers, _rows
from ._answers import Handle, Lists
from ._calls import limit_of, made
from ._grid import Grid
from ._layers import Layer, ShapeLayer
from ._library import GroupsOfC, library
from ._memory import numpy_where_loaded, room_for
from ._overlay import OPERATIONS, RULES, Operation, Rule, check_grid, number_in
from ._overlays import Overlays
from ._rows import Kind
from ._shapes import Shapes

if TYPE_CHECKING:
    from typing import Mapping, SupportsIndex

    from ._shapes import HasGeoInterface, Numbers

    # A sequence of what `overlay` takes, as Rings, Polygons and Overlays are, too; or a collection of features.
    ShapesOfLayer = Union[Iterable[Optional[Shapes]], Mapping[str, Any], HasGeoInterface]
    Pairs = Union[Iterable[Iterable[SupportsIndex]], Numbers]
else:
    ShapesOfLayer = Pairs = object

_PAIRS = Kind("pairs", 2)


class Groups(NamedTuple):
    """Groups of shapes: the places of all, unsigned 64-bit numbers, and where each group stops among them."""

    places: array.array[int]
    ends: array.array[int]

    def of_c(self) -> GroupsOfC:
        """As the library takes them, for as long as this stays."""
        (places, count), (ends, groups) = self.places.buffer_info(), self.ends.buffer_info()
        return GroupsOfC(places, count, ends, groups)


def overlay_each(
    subjects: ShapesOfLayer,
    clips: ShapesOfLayer,
    operation: Operation = "union",
    rule: Rule = "nonzero",
    *,
    pairs: Optional[Pairs] = None,
    grid: Optional[Grid] = None,
    memory_limit: Optional[int] = None,
) -> Overlays:
    """The polygons of what an operation makes of many pairs of shapes, in one call: `overlay` of each pair.

    subjects, clips: each a sequence of shapes. A shape is what `overlay` takes,
    as one of shapely's objects, well-known binary, GeoJSON, or a list of rings;
    None is nothing. A GeoSeries, a GeoDataFrame, a FeatureCollection and Polygons
    are such sequences; so are Overlays, an answer of this call; of Rings each
    ring is a shape.
    pairs: the places (i, j) of a subject and a clip, as a list of pairs or an
    array of the shape (n, 2); None: the first with the first, and so on.
    operation, rule, memory_limit: as those of `overlay`.
    grid: by which floats become whole numbers; by default one grid for all
    shapes, chosen as `overlay` does.

    >>> fields = [[[(x, 0), (x + 2, 0), (x + 2, 2), (x, 2)]] for x in (0, 2, 4)]
    >>> flood = [[[(1, 1), (5, 1), (5, 3), (1, 3)]]]
    >>> wet = overlay_each(fields, flood, "intersection", pairs=[(0, 0), (1, 0), (2, 0)])
    >>> [sorted(polygons[0].outer) for polygons in wet]
    [[(1, 1), (1, 2), (2, 1), (2, 2)], [(2, 1), (2, 2), (4, 1), (4, 2)], [(4, 1), (4, 2), (5, 1), (5, 2)]]

    The answer is `Overlays`: a sequence with one `Polygons` for each pair. Its
    `to_shapely`, `to_geoseries` and `to_wkb` make all at once. Many pairs of
    small shapes are several times as fast so as in a loop over `overlay`.

    Raises what `overlay` does, and ValueError where there are no pairs and the
    sequences have not as many shapes, or a pair has a place without a shape.
    """
    numbers = number_in(RULES, rule, "rule"), number_in(OPERATIONS, operation, "operation")
    check_grid(grid)
    limit = limit_of(memory_limit)
    layers = two_layers((subjects, "subjects"), (clips, "clips"), grid)
    groups = _paired(pairs, layers)
    grid, crs, srid = _layers.grid_of(layers, grid)
    lists, offsets = overlaid(held(layers, grid), groups, *numbers, limit)
    return Overlays(lists, offsets, grid, crs, srid)


@overload
def candidate_pairs(
    shapes: ShapesOfLayer,
    others: ShapesOfLayer,
    as_array: Literal[False] = ...,
    *,
    grid: Optional[Grid] = ...,
    memory_limit: Optional[int] = ...,
) -> List[Tuple[int, int]]:
    ...


@overload
def candidate_pairs(
    shapes: ShapesOfLayer,
    others: ShapesOfLayer,
    as_array: Literal[True],
    *,
    grid: Optional[Grid] = ...,
    memory_limit: Optional[int] = ...,
) -> memoryview:
    ...


@overload
def candidate_pairs(
    shapes: ShapesOfLayer,
    others: ShapesOfLayer,
    as_array: bool,
    *,
    grid: Optional[Grid] = ...,
    memory_limit: Optional[int] = ...,
) -> Union[List[Tuple[int, int]], memoryview]:
    ...


def candidate_pairs(
    shapes: ShapesOfLayer,
    others: ShapesOfLayer,
    as_array: bool = False,
    *,
    grid: Optional[Grid] = None,
    memory_limit: Optional[int] = None,
) -> Union[List[Tuple[int, int]], memoryview]:
    """The pairs (i, j) of a shape and another one whose boxes share a point, in order.

    shapes, others: what `overlay_each` takes. A shape without points has no box.
    as_array: whether the answer is a memoryview of the shape (pairs, 2).
    grid, memory_limit: as those of `overlay_each`. The boxes are those of the
    shapes on the grid.

    So they are the pairs that `overlay_each` is worth its while for: of all
    others the intersection is empty.

    >>> fields = [[[(x, 0), (x + 2, 0), (x + 2, 2), (x, 2)]] for x in (0, 3, 6)]
    >>> candidate_pairs(fields, [[[(1, 1), (4, 1), (1, 3)]], None])
    [(0, 0), (1, 0)]

    Raises what `overlay_each` does.
    """
    check_grid(grid)
    limit = limit_of(memory_limit)
    layers = two_layers((shapes, "shapes"), (others, "others"), grid)
    grid, _, _ = _layers.grid_of(layers, grid)
    pairs = _boxes.in_order(_boxes.pairs_of_boxes(held(layers, grid), limit))
    if as_array:
        return _answers.in_rows_of_two(pairs)
    return list(_answers.two_by_two(pairs))


def two_layers(one: Tuple[Any, str], other: Tuple[Any, str], grid: Optional[Grid]) -> Tuple[ShapeLayer, ShapeLayer]:
    """Two arguments, each with its name; what is given twice is read once."""
    first = _layers.layer_of(*one, grid is not None)
    return first, (first if one[0] is other[0] else _layers.layer_of(*other, grid is not None))


def held(layers: Tuple[ShapeLayer, ShapeLayer], grid: Optional[Grid]) -> Tuple[Lists, Lists]:
    """The rings of each shape of two layers, in units of a grid."""
    first = layers[0].held(grid)
    return first, (first if layers[0] is layers[1] else layers[1].held(grid))


def overlaid(
    shapes: Tuple[Lists, Lists], groups: Tuple[Groups, Groups], rule: int, operation: int, limit: int
) -> Tuple[Lists, memoryview]:
    """The polygons of each two groups, and where those of each begin among all, as signed 64-bit numbers."""
    handle = Handle(library.itree_polygons_free)
    count = len(groups[0].ends)
    room, at = room_for(count + 1, "q")
    given = [shapes[0].shapes_of_c(), groups[0].of_c(), shapes[1].shapes_of_c(), groups[1].of_c()]
    words = *map(ctypes.byref, given), rule, operation, at + 8, count, handle.to_write
    size = shapes[0].point_count + shapes[1].point_count + len(groups[0].places) + len(groups[1].places)
    kept = shapes, groups, given, room, handle
    _answers.check_rings(made(library.itree_overlay_each, *words, size=size, limit=limit, kept=kept), limit)
    return _answers.lists_in(handle), memoryview(room)


def alone(places: Iterable[int]) -> Groups:
    """Groups of one shape each."""
    listed = places if isinstance(places, array.array) else array.array("Q", places)
    return Groups(listed, array.array("Q", range(1, len(listed) + 1)))


def empty_groups(count: int) -> Groups:
    """So many groups of nothing."""
    return Groups(array.array("Q"), array.array("Q", [0]) * count)


def _paired(pairs: Any, layers: Sequence[Layer]) -> Tuple[Groups, Groups]:
    counts = [it.count for it in layers]
    if pairs is None:
        if counts[0] != counts[1]:
            raise ValueError(f"{counts[0]} subjects and {counts[1]} clips: as many of both, or pairs=, are wanted")
        return alone(range(counts[0])), alone(range(counts[0]))
    flat = _places_in(pairs)
    firsts, seconds = flat[0::2], flat[1::2]
    for places, count, name in (firsts, counts[0], "subjects"), (seconds, counts[1], "clips"):
        if places and not 0 <= min(places) <= max(places) < count:
            row = next(row for row, place in enumerate(places) if not 0 <= place < count)
            raise ValueError(f"pairs, row {row}: the place {places[row]}, and there are {count} {name}")
    return alone(array.array("Q", firsts)), alone(array.array("Q", seconds))


def _places_in(pairs: Any) -> array.array[int]:
    """The numbers of pairs, one pair behind the other."""
    numpy = numpy_where_loaded()
    if numpy is not None and hasattr(pairs, "__array__"):
        pairs = numpy.asarray(pairs)
    view = None if isinstance(pairs, (list, tuple)) else _rows._view_of(pairs, _PAIRS)
    if view is None or view.format == "O":
        return _places_by_row(pairs)
    _rows._check_shape(view, _PAIRS)
    if not _rows._WHOLE.fullmatch(view.format):
        raise TypeError(f"pairs: numbers of the format {view.format!r}; places, which are whole numbers, are wanted")
    places = array.array(_rows._typecode_of(view, _PAIRS), view.tobytes())
    if _rows._is_swapped(view):
        places.byteswap()
    return places


def _places_by_row(pairs: Any) -> array.array[int]:
    places = array.array("q")
    for row, pair in enumerate(_rows._iterated(pairs, "pairs", "pairs of places")):
        numbers = list(_rows._iterated(pair, f"pairs, row {row}", "2 places"))
        if len(numbers) != 2:
            raise ValueError(f"pairs, row {row}: {len(numbers)} numbers, 2 are wanted")
        try:
            places.extend(numbers)
        except TypeError:
            raise TypeError(f"pairs, row {row}: {pair}; places, which are whole numbers, are wanted") from None
    return places
