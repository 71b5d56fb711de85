"""A picture of an overlay: the subject, the clip, and above them what was made of them."""

from __future__ import annotations

import itertools
from typing import Iterator, List, Sequence, Tuple

from ._answers import Lists

# Of the longer side, in pixels; what is left free around it, of its length; and into how many steps it goes.
_SIDE, _MARGIN, _STEPS = 900, 0.02, 4000
_SUBJECT = 'fill="#89b" fill-opacity="0.35" stroke="#357" stroke-width="0.7"'
_CLIP = 'fill="#db8" fill-opacity="0.35" stroke="#a63" stroke-width="0.7"'
_RESULT = 'fill="#6c9" fill-opacity="0.75" stroke="#142" stroke-width="1"'


def drawn(below: Sequence[Lists], results: Sequence[Lists]) -> str:
    """SVG of the subject, and the clip where there is one, and of the result. y points upwards.

    Of points that lie within one step one is left.
    """
    layers = [*([it] for it in below), list(results)]
    box = _box([lists for layer in layers for lists in layer])
    left, low, right, high = box
    width, height = right - left, high - low
    side = max(width, height, 1)
    margin = _MARGIN * side
    view = f"{-margin:.6g} {-margin:.6g} {width + 2 * margin:.10g} {height + 2 * margin:.10g}"
    sizes = [max(1, round(_SIDE * (it + 2 * margin) / side)) for it in (width, height)]
    paths = [
        f'<path {paint} fill-rule="{rule}" vector-effect="non-scaling-stroke" d="{path}"/>'
        for (paint, rule), path in zip(_paints(len(below)), (_path(layer, left, high, side) for layer in layers))
    ]
    head = f'<svg xmlns="http://www.w3.org/2000/svg" viewBox="{view}" width="{sizes[0]}" height="{sizes[1]}">'
    return "\n".join([head, *paths, "</svg>\n"])


def _paints(below: int) -> List[Tuple[str, str]]:
    return [*[(_SUBJECT, "nonzero"), (_CLIP, "nonzero")][:below], (_RESULT, "evenodd")]


def _box(layer: Sequence[Lists]) -> Tuple[int, int, int, int]:
    """The least and the greatest coordinates."""
    numbers = [it.numbers() for it in layer if it.point_count]
    if not numbers:
        return 0, 0, 0, 0
    bounds = [(min(it[axis::2]), max(it[axis::2])) for axis in (0, 1) for it in numbers]
    xs, ys = bounds[: len(numbers)], bounds[len(numbers) :]
    return min(xs)[0], min(ys)[0], max(it[1] for it in xs), max(it[1] for it in ys)


def _path(layer: Sequence[Lists], left: int, high: int, side: int) -> str:
    step = max(1, side // _STEPS)
    return "".join(ring for lists in layer for ring in _rings(lists, left, high, step))


def _rings(lists: Lists, left: int, high: int, step: int) -> Iterator[str]:
    numbers, ends = lists.numbers(), lists.ring_offsets().tolist()
    xs = [(x - left) // step * step for x in numbers[0::2]]
    ys = [(high - y) // step * step for y in numbers[1::2]]
    for start, stop in zip(ends, ends[1:]):
        points = [point for point, _ in itertools.groupby(zip(xs[start:stop], ys[start:stop]))]
        # What is smaller than a step isn't seen.
        if len(points) > 1 or step == 1:
            yield f"M{' '.join(f'{x},{y}' for x, y in points)}z"
