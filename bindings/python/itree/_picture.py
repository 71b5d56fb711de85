"""Polygons as a picture."""

from __future__ import annotations

import itertools
from typing import Iterator, Optional

# Of the longer side: what is left free around the polygons.
_MARGIN = 0.02
_SIDE = 300


def drawn(numbers: memoryview, ring_offsets: memoryview, steps: Optional[int] = None) -> str:
    """SVG of rings, whose insides are those of the even-odd rule. y points upwards; the stroke stays as wide as it is.

    steps: into how many steps the longer side goes on which points lie, so that points are left out; None: all are told.
    """
    xs, ys = numbers[0::2].tolist(), numbers[1::2].tolist()
    left, right, low, high = (min(xs), max(xs), min(ys), max(ys)) if xs else (0, 0, 0, 0)
    width, height = right - left, high - low
    side = max(width, height) or 1
    margin = _MARGIN * side
    box = f"{-margin:.6g} {-margin:.6g} {width + 2 * margin:.10g} {height + 2 * margin:.10g}"
    # Whole numbers from the upper left corner, of which pictures keep more than of what lies far off.
    step = max(1, side // steps) if steps else 1
    from_left, from_top = ([it // step * step for it in axis] for axis in ([x - left for x in xs], [high - y for y in ys]))
    path = "".join(_rings(from_left, from_top, ring_offsets))
    sides = (max(1, round(_SIDE * it / side)) for it in (width + 2 * margin, height + 2 * margin))
    sizes = 'width="{}" height="{}"'.format(*sides)
    paint = 'fill="#66cc99" fill-opacity="0.6" fill-rule="evenodd" stroke="#333" stroke-width="1"'
    return (
        f'<svg xmlns="http://www.w3.org/2000/svg" viewBox="{box}" {sizes} preserveAspectRatio="xMidYMid meet">'
        f'<path {paint} vector-effect="non-scaling-stroke" d="{path}"/></svg>'
    )


def _rings(xs: "list[int]", ys: "list[int]", ring_offsets: memoryview) -> Iterator[str]:
    for start, stop in zip(ring_offsets, ring_offsets[1:]):
        pairs = zip(xs[start:stop], ys[start:stop])
        points = " ".join(f"{x},{y}" for (x, y), _ in itertools.groupby(pairs))
        yield f"M{points}z"
