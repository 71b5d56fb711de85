"""Union, intersection, difference and xor of polygons; which edges meet, edges
broken where they meet, and which edge or segment lies straight below a point.

The answers are those of a library that is proved in Rattle, in whole numbers of
32 bits: exact, but for what `overlay`, `simplify`, `snap` and `node` say that they
round.

    >>> import itree
    >>> square, hole = [(0, 0), (9, 0), (9, 9), (0, 9)], [(2, 2), (4, 2), (4, 4), (2, 4)]
    >>> [(len(it.outer), len(it.holes)) for it in itree.overlay([square], [hole], "difference")]
    [(4, 1)]
    >>> itree.meetings([(0, 0, 9, 9), (0, 9, 9, 0), (20, 0, 21, 0)])
    [(0, 1)]
    >>> itree.snap([(0, 0, 10, 10), (0, 10, 10, 0)])
    [[(0, 0), (5, 5), (10, 10)], [(0, 10), (5, 5), (10, 0)]]
    >>> itree.locate([(0, 0, 9, 9), (0, -5, 9, -5)], [(4, 4), (4, 3), (9, 9)])
    [0, 1, None]
    >>> itree.below([(0, 10, 5), (2, 6, 8)], [(6, 7), (2, 9), (11, 9)])
    [5, 8, None]

Rows
    An edge is (x0, y0, x1, y1), a horizontal segment (x0, x1, y), a point
    (x, y). The numbers are whole, from -2**31 to 2**31 - 1, in a unit of the
    caller's: pixels, or ten-millionths of a degree. A place is that of a row
    among the rows, from 0. Rows are

    - a list, a tuple or another iterable, of rows of numbers;
    - an array or another buffer of whole numbers of any width and order, as
      numpy's, array.array or memoryview: of the shape (n, 4) for edges, (n, 3)
      for segments and (n, 2) for points, or flat.

    An edge may be two points, too: ((x0, y0), (x1, y1)), or one of a buffer of
    the shape (n, 2, 2).

    >>> import array
    >>> itree.meetings(array.array("q", [0, 0, 9, 9, 0, 9, 9, 0]))
    [(0, 1)]
    >>> itree.meetings([((0, 0), (9, 9)), ((0, 9), (9, 0))])
    [(0, 1)]

    Signed 32-bit numbers (numpy's int32) that lie row by row in a buffer are
    read where they lie. Nothing may write them during the call, in which other
    threads of Python run on. All else is copied first; other buffers in bulk,
    by numpy where the program has loaded it.

Shapes
    What `overlay` and `simplify` take:

    - shapely's objects, lists and arrays of them; GeoSeries and GeoDataFrame of
      geopandas; what is None or empty is nothing;
    - well-known binary: bytes, or a list of them;
    - GeoJSON: a dict, or what has a __geo_interface__, or a list of these;
    - Rings, which are two arrays, and Polygons, which are an answer;
    - a list or another iterable of rings, each of which is rows of points.

    Arrays are the fast way in: Rings of signed 32-bit numbers are read where
    they lie. An iterator is read once; Grid.fit refuses it. Floats become whole
    numbers by a Grid, which the answer tells: shapes without one take the finest
    that fits, rings need one.

    >>> grid = itree.Grid.fit([square], [hole])
    >>> itree.overlay([square], [hole], grid=grid)[0].outer[0][0]
    0.0
    >>> triangle = {"type": "Polygon", "coordinates": [[(0, 0), (1, 0), (0.5, 1)]]}
    >>> itree.overlay(triangle, [square], "difference").grid is None
    False

    `python3 -m itree overlay a.geojson b.geojson` takes files: see its --help.

    `is_valid` tells whether a shape is valid, and `is_valid_reason` why it isn't and
    where, as shapely's. With whole numbers both are exact. `python3 -m itree valid
    a.geojson` tells it of the features of a file.

    >>> itree.is_valid_reason([[(0, 0), (4, 4), (4, 0), (0, 4)]])
    'Self-intersection[2 2]'

    `offset` grows and shrinks shapes, lines and points by a distance, as shapely's
    buffer, and `minkowski` polygons by a convex shape of the caller's. There is
    no triangulation, there are no coordinates of 64 bits, and no Z.

Layers
    What `overlay_each`, `candidate_pairs` and `points_in` take: many shapes, each
    of its own, in one call.

    - a list or an array of shapely's objects, a GeoSeries, a GeoDataFrame;
    - a list of well-known binary, of GeoJSON, of lists of rings, of Polygons, or
      of a mixture; a FeatureCollection. None is nothing;
    - Polygons, each polygon a shape; Overlays; Rings, each ring a shape.

    >>> fields = [[[(x, 0), (x + 2, 0), (x + 2, 2), (x, 2)]] for x in (0, 2, 4)]
    >>> flood = [[[(1, 1), (5, 1), (5, 3), (1, 3)]]]
    >>> pairs = itree.candidate_pairs(fields, flood)
    >>> wet = itree.overlay_each(fields, flood, "intersection", pairs=pairs)
    >>> [(pair, len(polygons)) for pair, polygons in zip(pairs, wet)]
    [((0, 0), 1), ((1, 0), 1), ((2, 0), 1)]
    >>> itree.points_in([(1, 1), (2, 1), (9, 9)], fields)
    [(0, 0), (1, 0), (1, 1)]
    >>> itree.clip([[(-1, 1), (9, 1)]], fields[1])[0]
    [[(2, 1), (4, 1)]]

    Where there are floats, all arguments of a call are on one grid. itree.geopandas
    has overlay, dissolve, unary_union, sjoin and clip by geopandas' signatures.

Large overlays
    `overlay`, `simplify` and `unary_union` take threads=. `overlay_in` makes a
    tile, what of an overlay lies in a window, of what comes near that alone,
    which `crop` tells; and `join` one answer of the tiles of `windows` side by
    side. itree.dask has these over processes and machines.

    >>> tiles = [itree.overlay_in(it, [square], [hole]) for it in [(0, 0, 4, 9), (4, 0, 9, 9)]]
    >>> [sorted(it.outer) for it in itree.join(tiles, [(0, 0, 4, 9), (4, 0, 9, 9)])]
    [[(0, 0), (0, 9), (9, 0), (9, 9)]]

Long calls
    A call runs without Python's lock. In the main thread KeyboardInterrupt stops
    one that is long. memory_limit=, of each call but how_they_meet, is how many
    bytes it may hold at once.

Answers
    Lists, or with as_array=True memoryviews, which numpy.asarray takes without
    a copy.

    >>> edges = [(0, 0, 9, 9), (0, 9, 9, 0), (20, 0, 21, 0)]
    >>> pairs = itree.meetings(edges, as_array=True)
    >>> pairs.shape, pairs[0, 1], pairs.tolist()
    ((1, 2), 1, [[0, 1]])

Errors
    ValueError     a row has too few or too many numbers, or an array has
                   another shape; a shape lacks a part, or its bytes are faulty;
                   with a grid, a number isn't finite or is off the grid; two
                   reference systems differ
    TypeError      something is no row, no shape, or no whole number, as a float;
                   or has no order, as a set; or can be read once alone, and is
                   to be read again
    OverflowError  a number doesn't fit in 32 bits
    Overlap        two segments of `below` collide
    Crossing       two edges of `locate` cross
    MemoryError    memory was refused, or a call would hold more than memory_limit

    >>> itree.meetings([(0, 0, 9, 9), (0, 9, 9)])
    Traceback (most recent call last):
        ...
    ValueError: edges, row 1: 3 numbers, 4 are wanted

The library lies in the package. In a checkout it is the file that ITREE_LIBRARY
names in the environment, or bindings/built/libitree.so, which bindings/build
makes.
"""

from __future__ import annotations

from typing import List as _List

from . import _library
from ._clip import clip
from ._each import candidate_pairs, overlay_each
from ._edges import (
    Chains,
    Crossing,
    Heights,
    Overlap,
    below,
    first_meeting,
    how_they_meet,
    locate,
    meetings,
    meetings_between,
    node,
    snap,
)
from ._grid import Grid
from ._offset import minkowski, offset
from ._overlay import make_valid, overlay, simplify, unary_union
from ._overlays import Overlays
from ._polygons import Polygon, Polygons
from ._pieces import Pieces
from ._points import points_in
from ._rings import Rings
from ._tiles import crop, join, overlay_in, whole_window
from ._valid import is_valid, is_valid_reason
from ._windows import windows

__all__ = [
    "Chains",
    "Crossing",
    "Grid",
    "Heights",
    "Overlap",
    "Overlays",
    "Pieces",
    "Polygon",
    "Polygons",
    "Rings",
    "below",
    "candidate_pairs",
    "clip",
    "crop",
    "first_meeting",
    "how_they_meet",
    "is_valid",
    "is_valid_reason",
    "join",
    "locate",
    "make_valid",
    "meetings",
    "meetings_between",
    "minkowski",
    "node",
    "offset",
    "overlay",
    "overlay_each",
    "overlay_in",
    "points_in",
    "simplify",
    "snap",
    "unary_union",
    "whole_window",
    "windows",
]
__version__ = _library.version


def __dir__() -> _List[str]:
    """The public names, and those that each module has."""
    return sorted([*__all__, *(name for name in globals() if name.startswith("__"))])
