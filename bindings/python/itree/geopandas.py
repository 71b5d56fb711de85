"""overlay, dissolve, unary_union, sjoin and clip, by the names and the signatures that geopandas has for them.

    import itree.geopandas
    wet = itree.geopandas.overlay(fields, flood, how="intersection")

Rows, columns, index and reference system are those that geopandas 0.12 answers; the shapes are itree's. All take frames
of polygons; `sjoin` has points on its left side, and `clip` clips points and lines, too. What geopandas takes besides is a
NotImplementedError that says so. What else differs stands in a table of bindings/python/README.md.

Geopandas is loaded by the calls alone.
"""

from __future__ import annotations

import warnings
from typing import Any, Optional

from . import _joins, _shapely
from ._frames import PLACES, Overlay, are_there, groups_of, module, unions
from ._points import BORDERS

__all__ = ["clip", "dissolve", "overlay", "sjoin", "unary_union"]

_HOWS = "intersection", "union", "identity", "symmetric_difference", "difference"
_JOINS = "left", "right", "inner"
_PREDICATES = {"intersects": BORDERS["closed"], "within": BORDERS["open"]}


def overlay(
    df1: Any, df2: Any, how: str = "intersection", keep_geom_type: Optional[bool] = None, make_valid: bool = True
) -> Any:
    """A GeoDataFrame of what two frames of polygons make together, as geopandas.overlay.

    df1, df2: GeoDataFrames of polygons; rows without a shape are taken.
    how: "intersection", each two rows that have an area in common, with the
    columns of both; "difference", what is in df1 alone; "symmetric_difference",
    what is in just one; "union", the intersection and that; "identity", the
    intersection and the difference.
    keep_geom_type: False keeps rows without a shape. Points and lines in which
    polygons touch aren't told: so False is for "difference" and
    "symmetric_difference" alone.
    make_valid: rings that cross are taken as they are, by the rule "nonzero";
    with False they are refused.

    Columns that both frames have get the suffixes _1 and _2.

    >>> import geopandas, shapely.geometry
    >>> fields = [shapely.geometry.box(x, 0, x + 2, 2) for x in (0, 2)]
    >>> fields = geopandas.GeoDataFrame({"name": ["west", "east"], "geometry": fields})
    >>> flood = geopandas.GeoDataFrame({"depth": [7], "geometry": [shapely.geometry.box(1, 1, 3, 3)]})
    >>> [(it.name, it.depth, it.geometry.area) for it in overlay(fields, flood).itertuples(index=False)]
    [('west', 7, 1.0), ('east', 7, 1.0)]
    >>> overlay(fields, flood, "difference").geometry.area.tolist()
    [3.0, 3.0]

    Raises ValueError where how is none, or make_valid is False and a shape isn't
    valid, and NotImplementedError of what geopandas.overlay takes and this
    doesn't. Two reference systems that differ are a warning, as there.
    """
    _check_overlay(df1, df2, how, keep_geom_type)
    _warn_of_crs(df1, df2)
    if not make_valid:
        _check_valid(df1, df2)
    result = getattr(Overlay(df1, df2), how)()
    result = result.drop(columns=[it for it in PLACES if it in result.columns])
    if keep_geom_type is not False:
        result = _with_shapes(result, keep_geom_type is None)
    return result.reset_index(drop=True)


def dissolve(
    frame: Any,
    by: Any = None,
    aggfunc: Any = "first",
    as_index: bool = True,
    level: Any = None,
    sort: bool = True,
    observed: bool = False,
    dropna: bool = True,
) -> Any:
    """A GeoDataFrame with a row for each group of rows, whose shape is the union of theirs, as GeoDataFrame.dissolve.

    frame: a GeoDataFrame of polygons.
    by, level, sort, observed, dropna: which rows are a group, as
    pandas.DataFrame.groupby takes them; by default all are one.
    aggfunc: what becomes of the other columns, as pandas' groupby.agg takes it.
    as_index: whether the groups' keys are the index, or columns.

    >>> import geopandas, shapely.geometry
    >>> parcels = [shapely.geometry.box(x, 0, x + 1, 1) for x in range(4)]
    >>> parcels = geopandas.GeoDataFrame({"owner": ["Ann", "Ann", "Bob", "Ann"], "rent": [1, 2, 3, 4], "geometry": parcels})
    >>> land = dissolve(parcels, by="owner", aggfunc="sum")
    >>> [(it.Index, it.rent, it.geometry.geom_type, it.geometry.area) for it in land.itertuples()]
    [('Ann', 7, 'MultiPolygon', 3.0), ('Bob', 3, 'Polygon', 1.0)]

    Raises NotImplementedError of points and lines, which geopandas dissolves, too.
    """
    numpy, geopandas = module("numpy"), module("geopandas")
    if by is None and level is None:
        by = numpy.zeros(len(frame), dtype="int64")
    how = {"by": by, "level": level, "sort": sort, "observed": observed, "dropna": dropna}
    name = frame.geometry.name
    data = frame.drop(columns=name)
    others = data.groupby(**how).agg(aggfunc)
    others.columns = others.columns.to_flat_index()
    groups, index = groups_of(data, name, how)
    shapes = _shapely.series(unions(frame.geometry, groups), index, frame.crs)
    shapes.name = name
    dissolved = geopandas.GeoDataFrame(shapes.to_frame(), geometry=name, crs=frame.crs).join(others)
    return dissolved if as_index else dissolved.reset_index()


def unary_union(frame_or_series: Any) -> Any:
    """The union of all polygons of a GeoDataFrame or a GeoSeries, as shapely's object, as its attribute unary_union.

    >>> import geopandas, shapely.geometry
    >>> unary_union(geopandas.GeoSeries([shapely.geometry.box(x, 0, x + 1, 1) for x in range(4)])).wkt
    'POLYGON ((0 0, 4 0, 4 1, 0 1, 0 0))'

    It is None where there is no shape. Raises NotImplementedError of points and
    lines, which geopandas takes, too.
    """
    shapes = frame_or_series.geometry
    return unions(shapes, [range(len(shapes))])[0]


def sjoin(
    left_df: Any,
    right_df: Any,
    how: str = "inner",
    predicate: str = "intersects",
    lsuffix: str = "left",
    rsuffix: str = "right",
) -> Any:
    """A GeoDataFrame of points with the columns of the polygons that they lie in, as geopandas.sjoin.

    left_df: a GeoDataFrame of points. right_df: one of polygons.
    how: "inner", a row for each pair; "left", and one for each other point;
    "right", a row for each pair, with the polygon, and one for each other polygon.
    predicate: "intersects", a point on the border is in the polygon; "within", it
    isn't.
    lsuffix, rsuffix: of columns that both have, and of the index of the other
    frame, which is a column.

    >>> import geopandas, shapely.geometry
    >>> wells = geopandas.GeoDataFrame({"depth": [5, 6], "geometry": geopandas.points_from_xy([1, 9], [1, 1])})
    >>> fields = geopandas.GeoDataFrame({"name": ["west"], "geometry": [shapely.geometry.box(0, 0, 2, 2)]})
    >>> sjoin(wells, fields)[["depth", "index_right", "name"]].values.tolist()
    [[5, 0, 'west']]

    Rows stand in the order of left_df, and those of one point in that of
    right_df; with "right" it is the other way around. Raises ValueError where how
    is none, something is no GeoDataFrame, or a column has the name of the index;
    and NotImplementedError of other shapes and predicates, which geopandas takes.
    """
    _check_join(left_df, right_df, how, predicate, lsuffix, rsuffix)
    _warn_of_crs(left_df, right_df)
    points, polygons = _joins.places_joined(left_df.geometry, right_df.geometry, _PREDICATES[predicate])
    return _joins.Join(left_df, right_df, lsuffix, rsuffix).joined(how, points, polygons)


def clip(gdf: Any, mask: Any, keep_geom_type: bool = False) -> Any:
    """The rows of a GeoDataFrame or a GeoSeries with what lies in a mask of their shapes, as geopandas.clip.

    gdf: points, lines or polygons.
    mask: a GeoDataFrame or a GeoSeries of polygons; a Polygon or a MultiPolygon;
    or a rectangle, (least x, least y, greatest x, greatest y).
    keep_geom_type: shapes keep their type here in any case: lines that touch the
    mask in a point, and polygons that touch it in a line, are left out.

    >>> import geopandas, shapely.geometry
    >>> roads = geopandas.GeoSeries([shapely.geometry.LineString([(-1, 1), (9, 1)])])
    >>> clip(roads, shapely.geometry.box(0, 0, 2, 2)).to_wkt().tolist()
    ['LINESTRING (0 1, 2 1)']

    What lies along the border of the mask is in it. Rows stand in their own
    order. Raises TypeError where an argument is none of these, and
    NotImplementedError of other shapes, which geopandas takes. Two reference
    systems that differ are a warning, as there.
    """
    geopandas = module("geopandas")
    frames = geopandas.GeoDataFrame, geopandas.GeoSeries
    if not isinstance(gdf, frames):
        raise TypeError(f"gdf is {type(gdf).__name__}; a GeoDataFrame or a GeoSeries is wanted")
    if isinstance(mask, frames):
        _warn_of_crs(gdf, mask)
    clipping = _joins.Clip(gdf.geometry, _joins.polygons_of_mask(mask, frames))
    places, shapes = clipping.clipped()
    if keep_geom_type and clipping.is_mixed:
        warnings.warn("keep_geom_type=True, and there are shapes of several types: all are kept", stacklevel=2)
    result = gdf.take(places)
    made = _shapely.series(shapes, result.index, gdf.crs)
    if isinstance(gdf, geopandas.GeoSeries):
        return made.rename(gdf.name)
    result[gdf.geometry.name] = made.values
    return result


def _warn_of_crs(one: Any, other: Any) -> None:
    """Warns, on behalf of the caller's caller, where two reference systems differ."""
    if one.crs != other.crs:
        told = ["None" if it.crs is None else it.crs.to_string() for it in (one, other)]
        shown = [it if len(it) <= 50 else f"{it[:50]} ..." for it in told]
        said = "CRS mismatch between the CRS of left geometries and the CRS of right geometries."
        said += f"\nleft: {shown[0]}\nright: {shown[1]}\nto_crs() makes one of the other"
        warnings.warn(said, UserWarning, stacklevel=3)


def _check_overlay(one: Any, other: Any, how: str, keep_geom_type: Optional[bool]) -> None:
    if how not in _HOWS:
        raise ValueError(f"how={how!r}: one of {', '.join(_HOWS)} is wanted")
    series = module("geopandas").GeoSeries
    if isinstance(one, series) or isinstance(other, series):
        raise NotImplementedError("itree.geopandas.overlay takes GeoDataFrames, as geopandas' own")
    if keep_geom_type is False and "difference" not in how:
        raise NotImplementedError(
            f"keep_geom_type=False with how={how!r}: points and lines in which polygons touch aren't told; "
            "use geopandas.overlay"
        )


def _check_valid(*frames: Any) -> None:
    for frame in frames:
        count = int((~frame.geometry.is_valid.to_numpy() & are_there(frame.geometry)).sum())
        if count:
            raise ValueError(f"make_valid=False, and {count} shapes aren't valid")


def _with_shapes(frame: Any, warns: bool) -> Any:
    """The rows that have a shape. Warns where others are left out."""
    there = are_there(frame.geometry)
    dropped = len(frame) - int(there.sum())
    if dropped and warns:
        warnings.warn(
            f"`keep_geom_type=True` in overlay leaves out {dropped} rows that have no polygon: keep_geom_type=False keeps them",
            UserWarning,
            stacklevel=3,
        )
    return frame[there] if dropped else frame


def _check_join(left: Any, right: Any, how: str, predicate: str, lsuffix: str, rsuffix: str) -> None:
    frame = module("geopandas").GeoDataFrame
    for name, given in ("left_df", left), ("right_df", right):
        if not isinstance(given, frame):
            raise ValueError(f"{name} is {type(given).__name__}; a GeoDataFrame is wanted")
    if how not in _JOINS:
        raise ValueError(f"how={how!r}: one of {', '.join(_JOINS)} is wanted")
    if predicate not in _PREDICATES:
        raise NotImplementedError(f"predicate={predicate!r}: one of {', '.join(_PREDICATES)} is taken; use geopandas.sjoin")
    names = [f"index_{lsuffix}", f"index_{rsuffix}"]
    if any(it.columns.isin(names).any() for it in (left, right)):
        raise ValueError(f"a column by the name {names[0]} or {names[1]}, which the index of a frame gets")
