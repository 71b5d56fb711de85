"""Of shapes with many points what lies near others: so a pair of a large shape and a small one takes as long as the small
one, not as the large one.

Points of a ring that follow each other on one side of a box, all left of it, right of it, below it or above it, are left out
but for the first and the last of them. The ring winds around each point of the box as often as before, for what is left out
and the edge in its place lie on that side together; and edges that meet the box stay. So nothing changes in the box.
"""

from __future__ import annotations

import array
import importlib
from typing import Any, Iterator, NamedTuple, Sequence, Tuple

from ._answers import Lists, lists_of

# Of points in a shape: it pays for those with more, where these times the boxes are more than a look at them all costs.
_MANY, _WORTH = 200, 5000


class _Rings(NamedTuple):
    """Points of rings, one behind the other, and the place of the ring of each point."""

    xs: Any
    ys: Any
    rings: Any


def near(shapes: Lists, places: Any, others: Lists, other_places: Any) -> Tuple[Lists, Any]:
    """The shapes, and behind them parts of those with many points; and for each place that of a shape that has, in the box
    of the other shape, the same inside and the same border.

    places, other_places: of pairs, numpy's signed 64-bit numbers. Each shape has points.
    """
    numpy: Any = importlib.import_module("numpy")
    counts = numpy.diff(_point_offsets(numpy, shapes))[places]
    large = numpy.flatnonzero(counts > _MANY)
    order = large[numpy.argsort(places[large], kind="stable")]
    starts = numpy.flatnonzero(numpy.diff(places[order], prepend=-1))
    groups = [it for it in numpy.split(order, starts[1:]) if len(it) and _pays(counts[it[0]], len(it))]
    if not groups:
        return shapes, places
    boxes = _boxes_of(numpy, others, other_places)
    found, parts = places.copy(), _Parts(shapes)
    for group in groups:
        whole = _rings_of(numpy, shapes, int(places[group[0]]))
        for rings, some in _near_each(numpy, whole, boxes, group):
            found[some] = parts.added(rings)
    return parts.lists(), found


def _flat(numpy: Any, rings: _Rings) -> Tuple[Any, Any]:
    """The numbers of rings' points, and where each ring with points stops among the points."""
    points = numpy.stack([rings.xs, rings.ys], axis=1).astype("int32")
    ends = numpy.append(numpy.flatnonzero(numpy.diff(rings.rings)) + 1, len(points))
    return points.ravel(), ends if len(points) else ends[:0]


def _pays(points: int, boxes: int) -> bool:
    """Whether it pays to look which of so many points lie near so many boxes."""
    return points > _MANY and points * boxes > _WORTH


def _near_each(numpy: Any, rings: _Rings, boxes: Any, places: Any) -> Iterator[Tuple[_Rings, Any]]:
    """The parts of a shape near some boxes, each with the places of the boxes that it is for."""
    given = boxes[places]
    least, greatest = given[:, :2].min(axis=0), given[:, 2:].max(axis=0)
    rings = _near_box(numpy, rings, (*least, *greatest))
    if len(places) == 1 or not _pays(len(rings.xs), len(places)):
        yield rings, places
        return
    # Halves of the boxes, by their middles along the longer side.
    axis = int(greatest[1] - least[1] > greatest[0] - least[0])
    order = numpy.argsort(given[:, axis] + given[:, axis + 2], kind="stable")
    middle = len(order) // 2
    for half in order[:middle], order[middle:]:
        yield from _near_each(numpy, rings, boxes, places[half])


def _near_box(numpy: Any, rings: _Rings, box: Sequence[int]) -> _Rings:
    """What is left of rings near a box: one side is looked at after the other."""
    left, low, right, high = box
    for axis, is_out, bound in (0, numpy.less, left), (0, numpy.greater, right), (1, numpy.less, low), (1, numpy.greater, high):
        if len(rings.xs):
            out = is_out(rings[axis], bound)
            before, behind = _neighbours(numpy, rings.rings)
            kept = ~(out & out[before] & out[behind])
            rings = _Rings(rings.xs[kept], rings.ys[kept], rings.rings[kept])
    return rings


def _neighbours(numpy: Any, rings: Any) -> Tuple[Any, Any]:
    """For each point the places of the one before it in its ring, and of the one behind it."""
    count = len(rings)
    starts = numpy.flatnonzero(numpy.diff(rings, prepend=-1))
    ends = numpy.append(starts[1:], count) - 1
    before, behind = numpy.arange(-1, count - 1), numpy.arange(1, count + 1)
    before[starts], behind[ends] = ends, starts
    return before, behind


def _rings_of(numpy: Any, shapes: Lists, place: int) -> _Rings:
    first, stop = numpy.asarray(shapes.polygon_offsets())[place : place + 2]
    ends = numpy.asarray(shapes.ring_offsets())[first : stop + 1]
    points = numpy.asarray(shapes.numbers())[2 * ends[0] : 2 * ends[-1]].astype("int64")
    return _Rings(points[0::2], points[1::2], numpy.repeat(numpy.arange(stop - first), numpy.diff(ends)))


class _Parts:
    """Shapes, and parts of shapes that are added to them."""

    def __init__(self, shapes: Lists) -> None:
        self._numbers = array.array("i", shapes.numbers().tobytes())
        self._rings = array.array("q", shapes.ring_offsets().tobytes())
        self._shapes = array.array("q", shapes.polygon_offsets().tobytes())

    def added(self, rings: _Rings) -> int:
        """The place that a shape gets."""
        numpy: Any = importlib.import_module("numpy")
        numbers, ends = _flat(numpy, rings)
        before = len(self._numbers) // 2
        self._numbers.frombytes(numbers.tobytes())
        self._rings.extend((ends + before).tolist())
        self._shapes.append(len(self._rings) - 1)
        return len(self._shapes) - 2

    def lists(self) -> Lists:
        """All of them."""
        return lists_of(*map(memoryview, (self._numbers, self._rings, self._shapes)))


def _point_offsets(numpy: Any, shapes: Lists) -> Any:
    """Where each shape begins among the points, and where the last stops."""
    return numpy.asarray(shapes.ring_offsets())[numpy.asarray(shapes.polygon_offsets())]


def _boxes_of(numpy: Any, shapes: Lists, places: Any) -> Any:
    """The boxes of shapes at some places: least x, least y, greatest x, greatest y."""
    offsets = _point_offsets(numpy, shapes)
    some, found = numpy.unique(places, return_inverse=True)
    # From the start of each to its stop, and then to the next one's start.
    ends = numpy.stack([offsets[some], offsets[some + 1]], axis=1).ravel()
    points = numpy.append(numpy.asarray(shapes.numbers()).reshape(-1, 2), [[0, 0]], axis=0).astype("int64")
    least, greatest = (call.reduceat(points, ends, axis=0)[0::2] for call in (numpy.minimum, numpy.maximum))
    return numpy.concatenate([least, greatest], axis=1)[found]
