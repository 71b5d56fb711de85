"""Points in the polygons of another frame, and shapes that are clipped, for the calls of itree.geopandas."""

from __future__ import annotations

import array
from typing import Any, Dict, List, Tuple

from . import _boxes, _each, _gathered, _layers, _near
from ._clip import KEEPS, LineLayer, clipped
from ._each import Groups
from ._frames import NON_ZERO, Made, array_of, layer_of, made_of, module, only
from ._pieces import Pieces
from ._points import BORDERS, PointLayer, pairs_in
from ._shapes import HeldRings

# What is clipped alike.
_SIDES: Dict[Any, int] = {
    "Point": 0,
    "LineString": 1,
    "MultiLineString": 1,
    "LinearRing": 1,
    "Polygon": 2,
    "MultiPolygon": 2,
}


def places_joined(points: Any, polygons: Any, border: int) -> Tuple[Any, Any]:
    """The places of a point and of a polygon that it lies in, by point and then by polygon."""
    with only("sjoin", "points on the left side, and polygons on the right side"):
        layer, other = PointLayer(points), layer_of(polygons, "polygons")
        grid = _layers.fitted_to([layer, other])
        held = other.held(grid)
    pairs = pairs_in(layer, held, grid, (NON_ZERO, border), 0)
    rows = module("numpy").asarray(pairs).astype("int64").reshape(-1, 2)
    return rows[:, 0], rows[:, 1]


class Join:
    """Rows of two frames side by side. A place of -1 is that of no row."""

    def __init__(self, left: Any, right: Any, lsuffix: str, rsuffix: str) -> None:
        self._frames, self._suffixes = (left, right), (lsuffix, rsuffix)

    def joined(self, how: str, lefts: Any, rights: Any) -> Any:
        """The rows of pairs of places, which stand by the left one; and, but for "inner", each other row of a side."""
        numpy, (left, right) = module("numpy"), self._frames
        if how == "right":
            order = numpy.argsort(rights, kind="stable")
            rights, lefts = _with_others(rights[order], lefts[order], len(right))
            return self._side_by_side(self._rows_of_other(0, lefts), right.take(rights), 1)
        if how == "left":
            lefts, rights = _with_others(lefts, rights, len(left))
        return self._side_by_side(left.take(lefts), self._rows_of_other(1, rights), 0)

    def _rows_of_other(self, side: int, places: Any) -> Any:
        """The rows at some places without their shapes, behind columns of their index."""
        frame, suffix = self._frames[side], self._suffixes[side]
        levels = frame.index.nlevels
        names = [f"index_{suffix}"] if levels == 1 else [f"index_{suffix}{level}" for level in range(levels)]
        index = frame.index.to_frame(index=False)
        index.columns = names
        rows = frame.drop(columns=frame.geometry.name).reset_index(drop=True)
        rows = module("pandas").concat([index, rows], axis=1)
        return rows.reindex(places) if (places < 0).any() else rows.take(places)

    def _side_by_side(self, one: Any, other: Any, side: int) -> Any:
        """The columns of both; those of the one side give the index and the shapes."""
        frames, kept = [one, other], self._frames[side]
        index, name = frames[side].index, kept.geometry.name
        both = set(one.columns) & set(other.columns)
        for place, suffix in enumerate(self._suffixes):
            frames[place] = frames[place].rename(columns={it: f"{it}_{suffix}" for it in both}).set_axis(index, axis=0)
        joined = module("pandas").concat(frames, axis=1)
        name = f"{name}_{self._suffixes[side]}" if name in both else name
        return module("geopandas").GeoDataFrame(joined, geometry=name, crs=kept.crs)


def _with_others(firsts: Any, seconds: Any, count: int) -> Tuple[Any, Any]:
    """The pairs of places, and each other place of the first side with none, by the first side."""
    numpy = module("numpy")
    others = numpy.setdiff1d(numpy.arange(count), firsts)
    firsts = numpy.concatenate([firsts, others])
    seconds = numpy.concatenate([seconds, numpy.full(len(others), -1)])
    order = numpy.argsort(firsts, kind="stable")
    return firsts[order], seconds[order]


def polygons_of_mask(mask: Any, frames: Tuple[Any, ...]) -> List[Any]:
    """The shapes of a mask."""
    geometry = module("shapely.geometry")
    if isinstance(mask, frames):
        shapes = [it for it in mask.geometry if it is not None]
    elif isinstance(mask, (geometry.Polygon, geometry.MultiPolygon)):
        shapes = [mask]
    elif not module("pandas").api.types.is_list_like(mask):
        raise TypeError(f"mask is {type(mask).__name__}; a frame or a series, a polygon, or four numbers are wanted")
    elif len(mask) != 4:
        raise TypeError(f"mask has {len(mask)} numbers; four are wanted: least x, least y, greatest x, greatest y")
    else:
        shapes = [geometry.box(*mask)]
    return [part for it in shapes for part in (it.geoms if it.geom_type == "MultiPolygon" else [it])]


class Clip:
    """Shapes of several types, and the polygons of a mask.

    is_mixed: whether there are shapes of more than one type.
    """

    def __init__(self, series: Any, mask: List[Any]) -> None:
        numpy, objects = module("numpy"), _gathered.listed(series.values)
        found: List[List[int]] = [[], [], []]
        for place, shape in enumerate(objects):
            kind = _SIDES.get(None if shape is None else shape.geom_type)
            if kind is not None:
                found[kind].append(place)
            elif shape is not None and not shape.is_empty:
                said = f"place {place}: {shape.geom_type}; use geopandas.clip"
                raise NotImplementedError(f"itree.geopandas.clip takes points, lines and polygons: {said}")
        self._places = [numpy.array(places, dtype="int64") for places in found]
        self.is_mixed = sum(map(bool, found)) > 1
        points, lines, polygons = ([objects[at] for at in places] for places in found)
        self._objects = points
        self._points, self._lines, self._polygons = PointLayer(points), LineLayer(lines), layer_of(polygons, "gdf")
        with only("clip", "masks of polygons"):
            other_layer = layer_of(mask, "mask")
            self._grid = _layers.fitted_to([self._points, self._lines, self._polygons, other_layer])
            self._mask = other_layer.held(self._grid)

    def clipped(self) -> Tuple[Any, List[Any]]:
        """The places of the shapes of which something is in the mask, in order, and what that is."""
        found: List[Tuple[int, Any]] = []
        for places, clipped_of in zip(self._places, (self._points_in, self._lines_in, self._polygons_in)):
            if len(places):
                made = clipped_of()
                found += zip(places[made.places].tolist(), made.shapes)
        found.sort(key=lambda pair: pair[0])
        return [place for place, _ in found], [shape for _, shape in found]

    def _points_in(self) -> Made:
        numpy = module("numpy")
        pairs = pairs_in(self._points, self._mask, self._grid, (NON_ZERO, BORDERS["closed"]), 0)
        places = numpy.unique(numpy.asarray(pairs).astype("int64")[0::2])
        return Made(places, [self._objects[it] for it in places])

    def _lines_in(self) -> Made:
        numpy, rings = module("numpy"), HeldRings(self._mask.given(), self._mask)
        lists = clipped(self._lines, rings, self._grid, (NON_ZERO, KEEPS["inside"]), 0)
        offsets = numpy.asarray(self._lines.by_line(lists.polygon_offsets()))
        places = numpy.flatnonzero(numpy.diff(offsets))
        kept = array.array("q", numpy.append(offsets[places], offsets[-1:]).tobytes())
        return Made(places, Pieces(lists, memoryview(kept), self._grid).to_shapely())

    def _polygons_in(self) -> Made:
        numpy, shapes = module("numpy"), self._polygons.held(self._grid)
        pairs = numpy.asarray(_boxes.in_order(_boxes.pairs_of_boxes((shapes, self._mask), 0))).astype("int64").reshape(-1, 2)
        mask, parts = _near.near(self._mask, pairs[:, 1], shapes, pairs[:, 0])
        places, counts = numpy.unique(pairs[:, 0], return_counts=True)
        groups = _each.alone(array_of(places)), Groups(array_of(parts), array_of(numpy.cumsum(counts)))
        made = made_of((shapes, mask), groups, "intersection", self._grid)
        return Made(places[made.places], made.shapes)
