"""What is asked of edges and segments: which lie below points, which meet, and what they become where they are broken."""

from __future__ import annotations

import ctypes
from typing import Any, Callable, Iterator, List, Literal, Optional, Tuple, Union, overload

from . import _answers
from ._calls import limit_of, made
from ._library import CROSSING, MEETING, OVERLAP, checked, library
from ._memory import room_for, view_of
from ._rows import EDGES, ONE, OTHER, OTHERS, POINTS, SEGMENTS, HeldRow, HeldRows, Row, Rows

# By the numbers that itree.h has for them.
_MEETINGS: Tuple[Literal["apart"], Literal["touch"], Literal["cross"], Literal["share"]]
_MEETINGS = "apart", "touch", "cross", "share"


class Overlap(ValueError):
    """Two segments have one height and cover one x.

    index: the place of the first segment, in the order of x0 and then of place,
    that collides with one before it.
    """

    __module__ = "itree"

    def __init__(self, index: int) -> None:
        super().__init__(f"the segment at place {index} overlaps an earlier one")
        self.index = index

    def __reduce__(self) -> Tuple[Any, ...]:
        return type(self), (self.index,), vars(self)


class Crossing(ValueError):
    """Two edges cross.

    pair: the places (i, j) of two that do, i below j.
    """

    __module__ = "itree"

    def __init__(self, pair: Tuple[int, int]) -> None:
        super().__init__("the edges at places {} and {} cross".format(*pair))
        self.pair = pair

    def __reduce__(self) -> Tuple[Any, ...]:
        return type(self), (self.pair,), vars(self)


class Heights:
    """Answers of `below`, as two memoryviews of the shape (n,).

    values: the heights, int32; 0 where there is none.
    found: whether there is one, bool.

    It is unpacked as a tuple is: values, found = below(..., as_array=True). Two
    are equal that have the same numbers; they can be copied and pickled.
    """

    __slots__ = "values", "found"

    def __init__(self, values: memoryview, found: memoryview) -> None:
        self.values = values
        self.found = found

    def __iter__(self) -> Iterator[memoryview]:
        return iter((self.values, self.found))

    def __eq__(self, other: object) -> bool:
        if not isinstance(other, Heights):
            return NotImplemented
        return self.values == other.values and self.found == other.found

    # They may be written.
    __hash__ = None  # type: ignore[assignment]

    def __reduce__(self) -> Tuple[Any, ...]:
        return _heights, (self.values.tobytes(), self.found.tobytes())


class Chains:
    """Answers of `snap` and `node`, as two memoryviews.

    points: the points of all chains, one chain behind the other, int32, of the
    shape (points, 2).
    offsets: signed 64-bit numbers, one more than there are chains. The chain at
    i is points[offsets[i]:offsets[i + 1]]. The first offset is 0, and the last
    is how many points there are, as in a large list of the Arrow format.

    It is unpacked as a tuple is: points, offsets = snap(..., as_array=True). Two
    are equal that have the same numbers; they can be copied and pickled.
    """

    __slots__ = "points", "offsets"

    def __init__(self, points: memoryview, offsets: memoryview) -> None:
        self.points = points
        self.offsets = offsets

    def __iter__(self) -> Iterator[memoryview]:
        return iter((self.points, self.offsets))

    def __eq__(self, other: object) -> bool:
        if not isinstance(other, Chains):
            return NotImplemented
        return self.points == other.points and self.offsets == other.offsets

    # They may be written.
    __hash__ = None  # type: ignore[assignment]

    def __reduce__(self) -> Tuple[Any, ...]:
        return _chains, (self.points.tobytes(), self.offsets.tobytes())


def _heights(values: bytes, found: bytes) -> Heights:
    """Heights of bytes, as they are pickled: memory of its own, which may be written."""
    return Heights(view_of(bytearray(values), "i"), view_of(bytearray(found), "?"))


def _chains(points: bytes, offsets: bytes) -> Chains:
    numbers = view_of(bytearray(points), "i")
    return Chains(_answers.in_rows_of_two(numbers, "i"), view_of(bytearray(offsets), "q"))


@overload
def below(
    segments: Rows, points: Rows, as_array: Literal[False] = ..., *, memory_limit: Optional[int] = ...
) -> List[Optional[int]]:
    ...


@overload
def below(segments: Rows, points: Rows, as_array: Literal[True], *, memory_limit: Optional[int] = ...) -> Heights:
    ...


@overload
def below(
    segments: Rows, points: Rows, as_array: bool, *, memory_limit: Optional[int] = ...
) -> Union[List[Optional[int]], Heights]:
    ...


def below(
    segments: Rows, points: Rows, as_array: bool = False, *, memory_limit: Optional[int] = None
) -> Union[List[Optional[int]], Heights]:
    """The height straight below each point, among horizontal segments.

    segments: rows (x0, x1, y), of the shape (n, 3). A segment covers both its
    ends, and nothing where x1 is below x0.
    points: rows (x, y), of the shape (m, 2).

    For each point, in order, the answer is the greatest height at most y of the
    segments that cover its x, or None where there is none.

    >>> segments, points = [(0, 10, 5), (2, 6, 8)], [(6, 7), (2, 9), (11, 9)]
    >>> below(segments, points)
    [5, 8, None]

    With as_array=True it is Heights, of the heights and of a mask:

    >>> values, found = below(segments, points, as_array=True)
    >>> values.tolist(), found.tolist()
    ([5, 8, 0], [True, True, False])

    There is a mask, for each number of 32 bits may be a height, and none is
    left to say that there is none; and it is what numpy picks by:
    numpy.asarray(values)[found]. Both are views of what the library wrote, so
    that they take no time, and the numbers of one don't lie side by side.

    Raises Overlap where two segments collide: have one height and cover one x.
    Raises MemoryError where memory was refused, which may be where two collide,
    too. What is raised for faulty rows is told at help(itree).
    """
    limit = limit_of(memory_limit)
    with HeldRows(segments, SEGMENTS) as segment_rows, HeldRows(points, POINTS) as point_rows:
        numbers, at = room_for(2 * point_rows.count, "i")
        overlap = ctypes.c_size_t()
        words = *_both(segment_rows, point_rows), at, point_rows.count, ctypes.byref(overlap)
        size, kept = _size(segment_rows, point_rows), (segment_rows.kept(), point_rows.kept(), numbers, overlap)
        status = made(library.itree_below, *words, size=size, limit=limit, kept=kept)
    if status == OVERLAP:
        raise Overlap(overlap.value)
    checked(status, limit)
    if as_array:
        return Heights(*_answers.heights_of(memoryview(numbers)))
    return [y if found else None for found, y in _answers.two_by_two(numbers)]


@overload
def meetings(edges: Rows, as_array: Literal[False] = ..., *, memory_limit: Optional[int] = ...) -> List[Tuple[int, int]]:
    ...


@overload
def meetings(edges: Rows, as_array: Literal[True], *, memory_limit: Optional[int] = ...) -> memoryview:
    ...


@overload
def meetings(edges: Rows, as_array: bool, *, memory_limit: Optional[int] = ...) -> Union[List[Tuple[int, int]], memoryview]:
    ...


def meetings(
    edges: Rows, as_array: bool = False, *, memory_limit: Optional[int] = None
) -> Union[List[Tuple[int, int]], memoryview]:
    """The pairs of edges that share a point, each once, in no particular order.

    edges: rows (x0, y0, x1, y1), of the shape (n, 4) or (n, 2, 2). An edge is a
    straight line with both its ends, and may be a point.

    The answer is a list of pairs (i, j) of places, i below j. It is exact:
    nothing is rounded.

    >>> edges = [(0, 0, 9, 9), (0, 9, 9, 0), (20, 0, 21, 0)]
    >>> meetings(edges)
    [(0, 1)]

    With as_array=True it is a memoryview of unsigned 64-bit numbers, of the
    shape (pairs, 2), which takes a tenth of the memory:

    >>> meetings(edges, as_array=True).tolist()
    [[0, 1]]

    Raises MemoryError where memory was refused, or the call would hold more than
    memory_limit bytes at once. What is raised for faulty rows is told at
    help(itree).
    """
    limit = limit_of(memory_limit)
    with HeldRows(edges, EDGES) as rows:
        numbers = _answers.pairs_that_meet(rows, limit)
    if as_array:
        return _answers.in_rows_of_two(numbers)
    return list(_answers.two_by_two(numbers))


@overload
def meetings_between(
    edges: Rows, others: Rows, as_array: Literal[False] = ..., *, memory_limit: Optional[int] = ...
) -> List[Tuple[int, int]]:
    ...


@overload
def meetings_between(edges: Rows, others: Rows, as_array: Literal[True], *, memory_limit: Optional[int] = ...) -> memoryview:
    ...


@overload
def meetings_between(
    edges: Rows, others: Rows, as_array: bool, *, memory_limit: Optional[int] = ...
) -> Union[List[Tuple[int, int]], memoryview]:
    ...


def meetings_between(
    edges: Rows, others: Rows, as_array: bool = False, *, memory_limit: Optional[int] = None
) -> Union[List[Tuple[int, int]], memoryview]:
    """The pairs of an edge of each of two lists that share a point, each once.

    edges, others: rows (x0, y0, x1, y1), of the shape (n, 4) or (n, 2, 2), as
    those of `meetings`.

    The answer is a list of pairs (i, j), in no particular order: i is a place
    of edges, and j one of others. Edges of one list aren't compared with each
    other. It is exact: nothing is rounded.

    >>> fences, roads = [(50, 0, 60, 0), (0, 0, 9, 9)], [(0, 9, 9, 0)]
    >>> meetings_between(fences, roads)
    [(1, 0)]

    With as_array=True it is what `meetings` gives then:

    >>> meetings_between(fences, roads, as_array=True).tolist()
    [[1, 0]]

    Raises MemoryError where memory was refused, or the call would hold more than
    memory_limit bytes at once. What is raised for faulty rows is told at
    help(itree).
    """
    limit = limit_of(memory_limit)
    with HeldRows(edges, EDGES) as edge_rows, HeldRows(others, OTHERS) as other_rows:
        numbers = _answers.pairs_between(edge_rows, other_rows, limit)
    if as_array:
        return _answers.in_rows_of_two(numbers)
    return list(_answers.two_by_two(numbers))


def first_meeting(edges: Rows, *, memory_limit: Optional[int] = None) -> Optional[Tuple[int, int]]:
    """The places of some two edges that share a point, or None where no two do.

    edges: rows (x0, y0, x1, y1), of the shape (n, 4) or (n, 2, 2), as those of
    `meetings`.

    The answer is a pair (i, j), i below j. It is found without the others: the
    call stops at the first edge of its sweep that meets others before it.

    >>> first_meeting([(0, 0, 9, 9), (0, 9, 9, 0), (20, 0, 21, 0)])
    (0, 1)
    >>> first_meeting([(0, 0, 9, 9), (20, 0, 21, 0)]) is None
    True

    Raises MemoryError where memory was refused, or the call would hold more than
    memory_limit bytes at once. What is raised for faulty rows is told at
    help(itree).
    """
    limit = limit_of(memory_limit)
    with HeldRows(edges, EDGES) as rows:
        first, second = ctypes.c_size_t(), ctypes.c_size_t()
        words = rows.at, rows.count, ctypes.byref(first), ctypes.byref(second)
        kept = rows.kept(), first, second
        status = made(library.itree_first_meeting, *words, size=rows.count, limit=limit, kept=kept)
    if status == MEETING:
        return first.value, second.value
    checked(status, limit)
    return None


def how_they_meet(one: Row, other: Row) -> Literal["apart", "touch", "cross", "share"]:
    """How two edges meet.

    one, other: rows (x0, y0, x1, y1) or ((x0, y0), (x1, y1)). An edge is a
    straight line with both its ends, and may be a point.

    The answer is one of

    "apart"  they share no point;
    "touch"  they share one point alone, an end of one of them or of both;
    "cross"  they share one point alone, an end of neither;
    "share"  they share more than one point: a whole stretch of a line.

    It is exact: nothing is rounded.

    >>> how_they_meet((0, 0, 9, 9), (0, 9, 9, 0))
    'cross'
    >>> how_they_meet((0, 0, 9, 9), ((9, 9), (9, 0)))
    'touch'

    Raises what `meetings` does for faulty rows.
    """
    meeting = ctypes.c_int32()
    with HeldRow(one, ONE) as first, HeldRow(other, OTHER) as second:
        checked(library.itree_how_they_meet(first.at, second.at, ctypes.byref(meeting)))
    return _MEETINGS[meeting.value]


@overload
def snap(edges: Rows, as_array: Literal[False] = ..., *, memory_limit: Optional[int] = ...) -> List[List[Tuple[int, int]]]:
    ...


@overload
def snap(edges: Rows, as_array: Literal[True], *, memory_limit: Optional[int] = ...) -> Chains:
    ...


@overload
def snap(edges: Rows, as_array: bool, *, memory_limit: Optional[int] = ...) -> Union[List[List[Tuple[int, int]]], Chains]:
    ...


def snap(
    edges: Rows, as_array: bool = False, *, memory_limit: Optional[int] = None
) -> Union[List[List[Tuple[int, int]]], Chains]:
    """The chains that the edges become by snap rounding: edges that are broken
    where they meet, at whole points.

    edges: rows (x0, y0, x1, y1), of the shape (n, 4) or (n, 2, 2), as those of
    `meetings`.

    The answer is a list of chains, one for each edge, in the order of the edges.
    A chain is a list of points (x, y), in the order along the edge.

    >>> snap([(0, 0, 3, 1), (0, 1, 3, 0)])
    [[(0, 0), (2, 1), (3, 1)], [(0, 1), (2, 1), (3, 0)]]

    A point rounds to the whole point that is nearest on each axis, a half
    upwards. Hot points are all ends of the edges, and what the points round to
    in which two edges that aren't parallel meet. The chain of an edge is the
    hot points that some point of the edge rounds to, each once. So it begins
    and ends as the edge does; that of an edge that is a point is this point
    alone. The pieces of the chains, from each point to the next, meet at common
    ends alone, or are the same. What rounds is told exactly.

    With as_array=True it is Chains, of the points and of where each chain
    begins and stops among them, where the library wrote them:

    >>> points, offsets = snap([(0, 0, 3, 1), (0, 1, 3, 0)], as_array=True)
    >>> points.tolist(), offsets.tolist()
    ([[0, 0], [2, 1], [3, 1], [0, 1], [2, 1], [3, 0]], [0, 3, 6])

    Raises MemoryError where memory was refused, or the call would hold more than
    memory_limit bytes at once. What is raised for faulty rows is told at
    help(itree).
    """
    return _broken(library.itree_snap, edges, as_array, memory_limit)


@overload
def node(edges: Rows, as_array: Literal[False] = ..., *, memory_limit: Optional[int] = ...) -> List[List[Tuple[int, int]]]:
    ...


@overload
def node(edges: Rows, as_array: Literal[True], *, memory_limit: Optional[int] = ...) -> Chains:
    ...


@overload
def node(edges: Rows, as_array: bool, *, memory_limit: Optional[int] = ...) -> Union[List[List[Tuple[int, int]]], Chains]:
    ...


def node(
    edges: Rows, as_array: bool = False, *, memory_limit: Optional[int] = None
) -> Union[List[List[Tuple[int, int]]], Chains]:
    """The chains that the edges become where they are moved only where they must
    be: edges that are broken where they meet, at whole points.

    edges and as_array are those of `snap`, and the answer is of the same form.

    >>> node([(0, 0, 3, 1), (0, 1, 3, 0)])
    [[(0, 0), (2, 1), (3, 1)], [(0, 1), (2, 1), (3, 0)]]

    An edge passes the hot points of its chain of `snap`. Where two edges cross
    at a point with fractions, what this rounds to moves the edges that pass it
    and that it doesn't lie on; so does each hot point that a moved edge passes.
    The chain of a moved edge is that of `snap`. Any other edge stays where it
    is: its chain is the hot points that lie on it exactly. So where no two
    edges cross at a point with fractions, none is moved, as of a triangle with
    a side that passes close by a corner:

    >>> node([(0, 7, 2, 0), (2, 0, 2, 2), (2, 2, 0, 7)])
    [[(0, 7), (2, 0)], [(2, 0), (2, 2)], [(2, 2), (0, 7)]]
    >>> snap([(0, 7, 2, 0), (2, 0, 2, 2), (2, 2, 0, 7)])
    [[(0, 7), (2, 2), (2, 0)], [(2, 0), (2, 2)], [(2, 2), (0, 7)]]

    Each chain begins and ends as its edge does, and the pieces of the chains
    meet at common ends alone, or are the same.

    Raises what `snap` does.
    """
    return _broken(library.itree_node, edges, as_array, memory_limit)


def _broken(
    call: Callable[..., int], edges: Rows, as_array: bool, memory_limit: Optional[int]
) -> Union[List[List[Tuple[int, int]]], Chains]:
    """The chains that a call makes of the edges."""
    limit = limit_of(memory_limit)
    with HeldRows(edges, EDGES) as rows:
        points, offsets = _answers.chains_of(call, rows, limit)
    if as_array:
        return Chains(_answers.in_rows_of_two(points, "i"), offsets)
    return _answers.in_chains(points, offsets)


@overload
def locate(
    edges: Rows, points: Rows, as_array: Literal[False] = ..., *, memory_limit: Optional[int] = ...
) -> List[Optional[int]]:
    ...


@overload
def locate(edges: Rows, points: Rows, as_array: Literal[True], *, memory_limit: Optional[int] = ...) -> memoryview:
    ...


@overload
def locate(
    edges: Rows, points: Rows, as_array: bool, *, memory_limit: Optional[int] = ...
) -> Union[List[Optional[int]], memoryview]:
    ...


def locate(
    edges: Rows, points: Rows, as_array: bool = False, *, memory_limit: Optional[int] = None
) -> Union[List[Optional[int]], memoryview]:
    """The place of the edge straight below each point.

    edges: rows (x0, y0, x1, y1), of the shape (n, 4) or (n, 2, 2). No two cross.
    points: rows (x, y), of the shape (m, 2).

    For each point, in order, the answer is a place, or None where no edge is
    under the point. It is exact: nothing is rounded.

    >>> edges, points = [(0, 0, 9, 9), (0, -5, 9, -5)], [(4, 4), (4, 3), (9, 9)]
    >>> locate(edges, points)
    [0, 1, None]

    With as_array=True it is a memoryview of signed 64-bit numbers, of the shape
    (m,), with -1 where there is none:

    >>> locate(edges, points, as_array=True).tolist()
    [0, 1, -1]

    An edge covers the x's from its lesser end up to its greater, which it
    doesn't cover; an upright edge or a point covers nothing. An edge is under a
    point where it covers x at a height that is at most y, and straight below it
    where none that is under it is higher there. Of edges that are as high
    there, it is the one that is highest just right of the point; of edges along
    one line any may be told.

    Raises Crossing where two edges cross: where the one is below the other at
    some whole x that both reach, and above it at another. An upright edge
    crosses none, though it goes through another: it is never told, but by
    `meetings`. Raises MemoryError where memory was refused, which may be where
    two cross, too. What is raised for faulty rows is told at help(itree).
    """
    limit = limit_of(memory_limit)
    with HeldRows(edges, EDGES) as edge_rows, HeldRows(points, POINTS) as point_rows:
        numbers, at = room_for(2 * point_rows.count, "Q")
        first, second = ctypes.c_size_t(), ctypes.c_size_t()
        words = *_both(edge_rows, point_rows), at, point_rows.count, ctypes.byref(first), ctypes.byref(second)
        size, kept = _size(edge_rows, point_rows), (edge_rows.kept(), point_rows.kept(), numbers, first, second)
        status = made(library.itree_locate, *words, size=size, limit=limit, kept=kept)
    if status == CROSSING:
        raise Crossing((first.value, second.value))
    checked(status, limit)
    if as_array:
        return _answers.places_of(memoryview(numbers))
    return [place if found else None for found, place in _answers.two_by_two(numbers)]


def _both(rows: HeldRows, others: HeldRows) -> Tuple[int, int, int, int]:
    """As the library takes them."""
    return rows.at, rows.count, others.at, others.count


def _size(rows: HeldRows, others: HeldRows) -> int:
    return rows.count + others.count
