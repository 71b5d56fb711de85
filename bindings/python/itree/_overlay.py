"""overlay and simplify: what is made of polygons, as polygons."""

from __future__ import annotations

from typing import Callable, Dict, Literal, Optional, Sequence, Tuple

from . import _answers, _direct, _gathered, _threads, _windows
from ._answers import Lists
from ._calls import limit_of
from ._grid import Grid
from ._polygons import Polygons
from ._shapes import HeldRings, Shapes
from ._threads import Choice

Rule = Literal["evenodd", "nonzero", "positive", "negative"]
Operation = Literal["union", "intersection", "difference", "xor"]

# By the numbers that itree.h has for them.
RULES: Dict[str, int] = {"evenodd": 0, "nonzero": 1, "positive": 2, "negative": 3}
OPERATIONS: Dict[str, int] = {"union": 0, "intersection": 1, "difference": 2, "xor": 3}


def overlay(
    subject: Shapes,
    clip: Shapes,
    operation: Operation = "union",
    rule: Rule = "nonzero",
    *,
    grid: Optional[Grid] = None,
    memory_limit: Optional[int] = None,
    threads: Optional[int] = None,
) -> Polygons:
    """The polygons of what an operation makes of the insides of two sets of rings.

    subject, clip: each a sequence of rings; Rings; shapely's or geopandas'
    objects; well-known binary; GeoJSON, or what has a __geo_interface__; or an
    answer. help(itree) tells them all.
    operation: "union", what is inside of any; "intersection", of both;
    "difference", of the subject and not of the clip; "xor", of just one.
    rule: which points are inside of rings, by how often these wind around them
    counterclockwise: "evenodd", an odd number of times; "nonzero", not 0 times;
    "positive", more often; "negative", less often.
    grid: by which floats become whole numbers, as Grid.fit(subject, clip).
    memory_limit: how many bytes the call may hold at once; None: as it likes.
    threads: by how many threads it is made of tiles; None: as a whole.

    A ring is a sequence of points (x, y), or a buffer of whole numbers of the
    shape (n, 2), or flat. It goes from each point to the next one, and from the
    last to the first. Rings may cross and touch as they like, themselves, too.

    >>> square, other = [(0, 0), (2, 0), (2, 2), (0, 2)], [(1, 1), (3, 1), (3, 3), (1, 3)]
    >>> for polygon in overlay([square], [other], "intersection"):
    ...     print(sorted(polygon.outer), polygon.holes)
    [(1, 1), (1, 2), (2, 1), (2, 2)] []

    The answer is `Polygons`: a sequence of `Polygon`, each with its outer ring,
    counterclockwise, and its holes, clockwise. Where a ring begins, and the
    order, is open. Rings visit no point twice, have no points on straight
    lines, and share no more than single points.

    Shapes are Polygon, MultiPolygon and GeometryCollection of these, and of
    GeoJSON Feature and FeatureCollection, too; alone or in a sequence, in which
    None is nothing. Outer rings are turned counterclockwise there, and holes
    clockwise, so that each rule but "negative" finds the polygon inside. Of a
    point the first two coordinates are taken.

    >>> shape = {"type": "Polygon", "coordinates": [[(0, 0), (2, 0), (2, 2), (0, 0)]]}
    >>> overlay(shape, [other]).__geo_interface__["type"]
    'MultiPolygon'

    Without a grid coordinates are whole numbers of 32 bits, which may be floats
    in shapes, and so are those of the answer: where two edges cross at a point
    with fractions, those that pass the next whole point are moved to it, and
    those that pass a point of a moved edge, too. A point is told rightly, inside
    or not, if each edge isn't moved, or runs along an axis, or isn't within half
    a unit of the point on both axes. So valid polygons keep their region.

    With a grid coordinates are floats, and so are those of the answer, which
    are points of the grid. Where shapes have others than whole numbers of 32
    bits, and no grid is given, it is the finest that fits: Grid.fit. Each coordinate is first rounded to the grid: so a
    point is told rightly that isn't within one unit, `grid.unit`, of an edge on
    both axes.

    >>> grid = Grid.fit([square], [other], unit=0.25)
    >>> answer = overlay([square], [[(0.5, 0.5), (0.7, 0.5), (0.5, 0.7)]], "intersection", grid=grid)
    >>> sorted(answer[0].outer), answer.grid.unit
    ([(0.5, 0.5), (0.5, 0.75), (0.75, 0.5)], 0.25)

    The answer's crs is that of a GeoSeries, and its srid that of extended
    well-known binary, where there is one.

    With threads the plane is cut into `windows`, one for each 60,000 points or
    so and 64 at most; each thread makes one tile after the other, as `overlay_in`
    does, and `join` makes one answer of them. So the answer is the same whatever
    the number of threads; beside that of None it may have more points, where an
    edge was cut. Few points are overlaid as a whole. Each thread may hold its
    share of memory_limit.

    Raises ValueError where an operation or a rule is none, where two crs or two
    srids differ, where well-known binary is faulty, which is told by its shape
    and its byte, and with a grid where a coordinate isn't finite, or is off the
    grid. Raises MemoryError where memory was refused, or the call would hold more
    than memory_limit. What is raised for faulty rings is told at help(itree).
    """
    return overlaid([(subject, "subject"), (clip, "clip")], operation, rule, grid, memory_limit, _way(threads))


def simplify(
    rings: Shapes,
    rule: Rule = "nonzero",
    *,
    grid: Optional[Grid] = None,
    memory_limit: Optional[int] = None,
    threads: Optional[int] = None,
) -> Polygons:
    """The polygons of what is inside of rings, by a rule: `overlay` of them and nothing.

    rings: what `overlay` takes.
    rule, grid, memory_limit, threads: as those of `overlay`.

    So of rings that cross or touch, themselves, too, polygons are made whose
    rings visit no point twice, and whose edges don't cross; that shapely calls
    them valid is tested, not proved. A bow-tie becomes two triangles:

    >>> bow = [(0, 0), (4, 4), (4, 0), (0, 4)]
    >>> sorted(sorted(polygon.outer) for polygon in simplify([bow]))
    [[(0, 0), (0, 4), (2, 2)], [(2, 2), (4, 0), (4, 4)]]

    Raises what `overlay` does.
    """
    return overlaid([(rings, "rings")], "union", rule, grid, memory_limit, _way(threads))


def unary_union(
    shapes: Shapes,
    *,
    grid: Optional[Grid] = None,
    memory_limit: Optional[int] = None,
    threads: Optional[int] = None,
) -> Polygons:
    """The polygons of what is inside of any of some shapes, as shapely's unary_union: `simplify` by "nonzero".

    >>> [sorted(it.outer) for it in unary_union([[(0, 0), (2, 0), (2, 2), (0, 2)], [(2, 0), (4, 0), (4, 2), (2, 2)]])]
    [[(0, 0), (0, 2), (4, 0), (4, 2)]]

    Raises what `overlay` does.
    """
    return overlaid([(shapes, "shapes")], "union", "nonzero", grid, memory_limit, _way(threads))


def make_valid(shape: Shapes, *, grid: Optional[Grid] = None, memory_limit: Optional[int] = None) -> Polygons:
    """The polygons of a shape whose rings cross or touch, as shapely's make_valid: `simplify` by "evenodd".

    A point is inside where rings wind around it an odd number of times: so what
    is covered twice is outside.

    >>> sorted(sorted(it.outer) for it in make_valid([[(0, 0), (4, 4), (4, 0), (0, 4)]]))
    [[(0, 0), (0, 4), (2, 2)], [(2, 2), (4, 0), (4, 4)]]

    Raises what `overlay` does.
    """
    return overlaid([(shape, "shape")], "union", "evenodd", grid, memory_limit)


# What makes polygons of a subject, a clip, a choice, and the grid whose units they have.
Way = Callable[[HeldRings, HeldRings, Choice, Optional[Grid]], Lists]


def _as_whole(subject: HeldRings, clip: HeldRings, choice: Choice, _grid: Optional[Grid]) -> Lists:
    return _answers.polygons_of(subject, clip, *choice)


def _way(threads: Optional[int]) -> Way:
    """An overlay as a whole, or by threads. Raises TypeError or ValueError where the number is none."""
    if threads is None:
        return _as_whole
    count = _windows.count_of(threads, "threads")
    return lambda subject, clip, choice, _: _threads.overlaid(count, subject, clip, choice)


def overlaid(
    named: Sequence[Tuple[Shapes, str]],
    operation: str,
    rule: str,
    grid: Optional[Grid],
    memory_limit: Optional[int] = None,
    way: Way = _as_whole,
) -> Polygons:
    """`overlay` of one or two shapes, each with the name by which its faults are told."""
    numbers = number_in(RULES, rule, "rule"), number_in(OPERATIONS, operation, "operation")
    check_grid(grid)
    choice = Choice(*numbers, limit_of(memory_limit))
    direct = _direct.taken(named, rule, grid)
    if direct is not None:
        grid, (subject, clip) = direct
        return Polygons(way(subject, clip, choice, grid), grid)
    items = _gathered.gathered(named, grid is not None, kept=False)
    crs = _gathered.one_of((it.crs for it in items), "crs")
    srid = _gathered.one_of((it.srid for it in items), "SRID") or 0
    if grid is None:
        grid = _gathered.chosen(items)
    subject, clip = _gathered.held(items, grid)
    return Polygons(way(subject, clip, choice, grid), grid, crs, srid)


def number_in(numbers: Dict[str, int], word: str, called: str) -> int:
    """The number of a word. Raises ValueError where the word is none of them."""
    if word not in numbers:
        raise ValueError(f"the {called} {word!r}: one of {', '.join(numbers)} is wanted")
    return numbers[word]


def check_grid(grid: object) -> None:
    """Raises TypeError of what is neither a grid nor None."""
    if not isinstance(grid, (Grid, type(None))):
        raise TypeError(f"the grid is {type(grid).__name__}; a Grid or None is wanted")
