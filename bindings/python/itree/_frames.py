"""What frames of geopandas make together, for the calls of itree.geopandas: overlays, and unions of groups of rows."""

from __future__ import annotations

import array
import contextlib
import importlib
from typing import Any, Dict, Iterator, List, NamedTuple, Sequence, Tuple

from . import _boxes, _each, _gathered, _layers, _near, _overlay, _shapely
from ._answers import Lists
from ._each import Groups
from ._grid import Grid
from ._layers import ShapeLayer
from ._overlays import Overlays

NON_ZERO = _overlay.RULES["nonzero"]
# Columns of the places of the rows that a row is made of.
PLACES = "__place_1", "__place_2"


def module(name: str) -> Any:
    """A module that is loaded where it isn't."""
    return importlib.import_module(name)


@contextlib.contextmanager
def only(called: str, wanted: str = "polygons") -> Iterator[None]:
    """What has another type of shape is told as what geopandas takes."""
    try:
        yield
    except TypeError as fault:
        raise NotImplementedError(f"itree.geopandas.{called} takes {wanted}: {fault}; use geopandas' own") from None


def layer_of(series: Any, name: str) -> ShapeLayer:
    """The shapes of a series, which has this name in faults."""
    return _layers.layer_of(series, name, has_grid=False)


class Made(NamedTuple):
    """Shapes that aren't empty, and which of the groups they were made of, in order."""

    places: Any
    shapes: List[Any]


def made_of(shapes: Tuple[Lists, Lists], groups: Tuple[Groups, Groups], operation: str, grid: Grid) -> Made:
    """What an operation makes of each two groups of shapes."""
    numpy = module("numpy")
    lists, stops = _each.overlaid(shapes, groups, NON_ZERO, _overlay.OPERATIONS[operation], 0)
    offsets = numpy.asarray(stops)
    places = numpy.flatnonzero(numpy.diff(offsets))
    # What is empty has no polygons, so that the others lie side by side without it.
    kept = array.array("q", numpy.append(offsets[places], offsets[-1:]).tobytes())
    return Made(places, Overlays(lists, memoryview(kept), grid).to_shapely())


def are_there(series: Any) -> Any:
    """Which rows have a shape, which may be empty."""
    return module("numpy").array([it is not None for it in _gathered.listed(series.values)], dtype=bool)


def array_of(numbers: Any) -> array.array[int]:
    """Unsigned 64-bit numbers of numpy's."""
    return array.array("Q", numbers.astype("uint64").tobytes())


class Overlay:
    """What two frames make together, with columns of the places of the rows that each row is made of."""

    def __init__(self, one: Any, other: Any) -> None:
        self._frames = one, other
        with only("overlay"):
            layers = layer_of(one.geometry, "df1"), layer_of(other.geometry, "df2")
            self._grid = _layers.fitted_to(layers)
            self._held = _each.held(layers, self._grid)
        pairs = _boxes.in_order(_boxes.pairs_of_boxes(self._held, 0))
        self._pairs = module("numpy").asarray(pairs).astype("int64").reshape(-1, 2)

    def intersection(self) -> Any:
        """Each two rows that have an area in common."""
        frame, name = self._intersection(), self._frames[0].geometry.name
        # Geopandas leaves the name where there are no rows.
        return frame if len(frame) or name == "geometry" else frame.rename_geometry(name)

    def _intersection(self) -> Any:
        firsts, seconds = self._pairs[:, 0], self._pairs[:, 1]
        one, other = self._held
        sides = _near.near(one, firsts, other, seconds), _near.near(other, seconds, one, firsts)
        groups = _each.alone(array_of(sides[0][1])), _each.alone(array_of(sides[1][1]))
        made = made_of((sides[0][0], sides[1][0]), groups, "intersection", self._grid)
        pairs = dict(zip(PLACES, (firsts[made.places], seconds[made.places])))
        joined, crs = module("pandas").DataFrame(pairs), self._frames[0].crs
        shapes = _shapely.series(made.shapes, joined.index, crs)
        for place, frame in zip(PLACES, self._frames):
            # Pandas' own order of the rows.
            columns = frame.drop(columns=frame.geometry.name).reset_index(drop=True)
            joined = joined.merge(columns, left_on=place, right_index=True, suffixes=("_1", "_2"))
        return module("geopandas").GeoDataFrame(joined, geometry=shapes, crs=crs)

    def difference(self) -> Any:
        """What is in the first frame alone."""
        return self._difference(0)

    def _difference(self, side: int) -> Any:
        """What is in the one frame, and not in the other one."""
        numpy = module("numpy")
        frame, pairs = self._frames[side], self._pairs
        count = len(frame)
        if side:
            pairs = pairs[numpy.lexsort((pairs[:, 0], pairs[:, 1]))]
        ends = numpy.cumsum(numpy.bincount(pairs[:, side], minlength=count))
        one, other = self._held[side], self._held[1 - side]
        other, places = _near.near(other, pairs[:, 1 - side], one, pairs[:, side])
        groups = _each.alone(range(count)), Groups(array_of(places), array_of(ends))
        made = made_of((one, other), groups, "difference", self._grid)
        shapes = numpy.full(count, None, dtype=object)
        shapes[made.places] = _shapely.object_array(made.shapes)
        kept = ~are_there(frame.geometry)
        kept[made.places] = True
        result = frame[kept].copy()
        result[frame.geometry.name] = _shapely.series(list(shapes[kept]), result.index, frame.crs)
        return result

    def symmetric_difference(self) -> Any:
        """What is in just one frame."""
        nan, one = module("numpy").nan, self._frames[0]
        sides = []
        for side, frame in enumerate((self._difference(0), self._difference(1))):
            frame = _with_plain_name(frame)
            frame[PLACES[side]] = range(len(frame))
            frame[PLACES[1 - side]] = nan
            sides.append(frame)
        joined = sides[0].merge(sides[1], on=list(PLACES), how="outer", suffixes=("_1", "_2"))
        shapes = [_gathered.listed(joined[it].values) for it in ("geometry_1", "geometry_2")]
        joined = joined.drop(columns=["geometry_1", "geometry_2"]).reset_index(drop=True)
        made = _shapely.series([b if a is None else a for a, b in zip(*shapes)], joined.index, one.crs)
        return module("geopandas").GeoDataFrame(joined, geometry=made, crs=one.crs)

    def union(self) -> Any:
        """The intersection, and what is in just one frame."""
        both = [self._intersection(), self.symmetric_difference()]
        joined = module("pandas").concat(both, ignore_index=True, sort=False)
        return joined.reindex(columns=[*(it for it in joined.columns if it != "geometry"), "geometry"])

    def identity(self) -> Any:
        """The intersection, and what is in the first frame alone."""
        union = self.union()
        return union[union[PLACES[0]].notnull()].copy()


def _with_plain_name(frame: Any) -> Any:
    """The frame, whose shapes have the name geometry; another column by that name is left out."""
    name = frame.geometry.name
    if name == "geometry":
        return frame
    others = frame.drop(columns=[it for it in ("geometry",) if it in frame.columns])
    return others.rename(columns={name: "geometry"}).set_geometry("geometry")


def groups_of(data: Any, name: Any, how: Dict[str, Any]) -> Tuple[List[Any], Any]:
    """The places of the rows of each group, and the index that the groups have."""
    members: List[Any] = []

    def added(places: Any) -> int:
        members.append(places.to_numpy())
        return len(members) - 1

    data = data.copy(deep=False)
    data[name] = module("numpy").arange(len(data))
    found = data.groupby(**how)[name].agg(added)
    return [members[int(it)] if it == it else () for it in found], found.index


def unions(series: Any, groups: Sequence[Sequence[int]]) -> List[Any]:
    """The union of each group of shapes; None of a group without any."""
    numpy = module("numpy")
    with only("dissolve"):
        layer = layer_of(series, "geometry")
        grid = _layers.fitted_to([layer])
        shapes = layer.held(grid)
    places = numpy.concatenate([numpy.asarray(it, dtype="int64") for it in groups]) if groups else numpy.empty(0, "int64")
    ends = numpy.cumsum([len(it) for it in groups])
    both = Groups(array_of(places), array_of(ends)), _each.empty_groups(len(groups))
    made = made_of((shapes, shapes), both, "union", grid)
    there = are_there(series)
    found = [_nothing() if len(it) and there[numpy.asarray(it)].any() else None for it in groups]
    for place, shape in zip(made.places, made.shapes):
        found[place] = shape
    return found


def _nothing() -> Any:
    """What shapely's unary_union makes of empty shapes."""
    return _shapely.read(_shapely.NOTHING)
