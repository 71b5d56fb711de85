"""Which shapes' boxes share a point."""

from __future__ import annotations

import array
import ctypes
import itertools
from typing import Tuple

from . import _answers
from ._answers import Handle, Lists
from ._calls import made
from ._library import library
from ._memory import numpy_where_loaded


def pairs_of_boxes(shapes: Tuple[Lists, Lists], limit: int) -> memoryview:
    """The pairs of two lists' shapes whose boxes share a point, in no particular order, as flat 64-bit numbers."""
    handle = Handle(library.itree_pairs_free)
    given = [it.shapes_of_c() for it in shapes]
    words = *map(ctypes.byref, given), handle.to_write
    size = shapes[0].point_count + shapes[1].point_count
    kept = shapes, given, handle
    _answers.check_rings(made(library.itree_box_pairs, *words, size=size, limit=limit, kept=kept), limit)
    return _answers.numbers_of(handle)


def in_order(pairs: memoryview) -> memoryview:
    """The pairs of flat 64-bit numbers, by their first and then by their second number."""
    numpy = numpy_where_loaded()
    if numpy is None or len(pairs) == 0:
        flat = itertools.chain.from_iterable(sorted(_answers.two_by_two(pairs)))
        return memoryview(array.array("Q", flat))
    rows = numpy.asarray(pairs).reshape(-1, 2)
    ordered = rows[numpy.lexsort((rows[:, 1], rows[:, 0]))]
    return memoryview(numpy.ascontiguousarray(ordered)).cast("B").cast("Q")
