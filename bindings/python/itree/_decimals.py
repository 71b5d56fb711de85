"""Points of a grid as decimal text, in bulk: the coordinates of GeoJSON.

With numpy, groups of four digits are looked up in a table, and what is left out are spaces, which go away at the end.
Without it, and by units that are too fine, Python writes each number. Both write what reads back as the same double.
"""

from __future__ import annotations

import array
import ctypes
import functools
import itertools
from typing import Any, Iterator, List, Optional, Sequence, Tuple

from ._answers import Lists
from ._grid import Grid
from ._library import checked, library

_FOUR = 10**4
# Of a fraction: groups of four digits that tell a double which isn't tiny.
_GROUPS = 5
# By a finer unit the fraction's product with 10**4 doesn't fit in 64 bits.
_FINEST = 49
# Points that are written at once.
_ROWS = 8192
# The words before a ring's first point, before that of a polygon, and before any other.
_OPENS = {"point": b"[", "ring": b"[[", "polygon": b"[[["}


def written(polygons: Lists, grid: Grid, digits: Optional[int], stop: bytes, numpy: Any) -> Iterator[bytes]:
    """The coordinates of polygons, as GeoJSON has those of each Polygon; behind each stands one byte more.

    digits: how many behind the point; None: as many as tell the double.
    stop: the byte, as "," between those of a MultiPolygon.
    numpy: the module, or None.
    """
    exponent = -grid.of_c().exponent
    if numpy is not None and 0 <= exponent <= _FINEST and _most(grid) < 1 << 62:
        return _Tables(numpy, grid, digits).written(polygons, stop)
    return _plain(polygons, grid, digits, stop.decode())


def rounded(numbers: Sequence[float], digits: Optional[int]) -> List[float]:
    """Numbers with so many digits behind the point, none of which is -0.0."""
    return list(numbers) if digits is None else [round(number, digits) + 0.0 for number in numbers]


def _most(grid: Grid) -> int:
    of_c = grid.of_c()
    most: int = 2**31 + max(abs(of_c.x), abs(of_c.y))
    return most


def _plain(polygons: Lists, grid: Grid, digits: Optional[int], stop: str) -> Iterator[bytes]:
    for rings in positions(polygons, grid):
        yield f"[{','.join(_ring(it, digits) for it in rings)}]{stop}".encode()


def _ring(numbers: array.array[float], digits: Optional[int]) -> str:
    texts = [_short(repr(it)) for it in rounded(numbers, digits)]
    return f"[{','.join(map('[{},{}]'.format, texts[0::2], texts[1::2]))}]"


def _short(text: str) -> str:
    return text[:-2] if text.endswith(".0") else text


def positions(polygons: Lists, grid: Grid) -> Iterator[List[array.array[float]]]:
    """The rings of each polygon, as doubles x, y, x, y and so on, which end where they began."""
    ring_ends, polygon_ends = polygons.ring_offsets().tolist(), polygons.polygon_offsets().tolist()
    of_c = ctypes.byref(grid.of_c())
    for first, stop in zip(polygon_ends, polygon_ends[1:]):
        rings = []
        for start, end in zip(ring_ends[first:stop], ring_ends[first + 1 : stop + 1]):
            count = end - start
            ring = array.array("d", [0.0]) * (2 * count + 2)
            checked(library.itree_grid_positions(of_c, polygons.points + 8 * start, count, ring.buffer_info()[0], count))
            ring[2 * count], ring[2 * count + 1] = ring[0], ring[1]
            rings.append(ring)
        yield rings


def _word(text: bytes) -> int:
    """Four bytes as the table has them."""
    return int.from_bytes(text.ljust(4), "little")


@functools.lru_cache(maxsize=None)
def _four_digits(numpy: Any) -> Tuple[Any, Any]:
    """Words of numbers below 10**4: of whole parts with all zeros, without those in front, and without all of 0; and of
    fractions with all zeros, and without those at the end."""
    plain = [b"%04d" % it for it in range(_FOUR)]
    in_front = [(b"%d" % it).rjust(4) for it in range(_FOUR)]
    at_the_end = [it.rstrip(b"0").ljust(4) for it in plain]

    def table(words: List[bytes]) -> Any:
        return numpy.frombuffer(b"".join(words), dtype="<u4")

    return table([*plain, *in_front, b"    ", *in_front[1:]]), table([*plain, *at_the_end])


class _Tables:
    """Coordinates by numpy, a row of words of four bytes for each point."""

    def __init__(self, numpy: Any, grid: Grid, digits: Optional[int]) -> None:
        self._numpy, self._digits = numpy, digits
        of_c = grid.of_c()
        self._origin, self._shift = (of_c.x, of_c.y), -of_c.exponent
        self._whole_words, self._fraction_words = _four_digits(numpy)

    def written(self, polygons: Lists, stop: bytes) -> Iterator[bytes]:
        """The coordinates of each polygon, and behind each a byte."""
        numpy = self._numpy
        points = numpy.asarray(polygons.numbers()).reshape(-1, 2)
        ring_ends, polygon_ends = (numpy.asarray(it) for it in (polygons.ring_offsets(), polygons.polygon_offsets()))
        starts, first, last = ring_ends[polygon_ends], 0, len(polygon_ends) - 1
        while first < last:
            # Polygons that have enough points together, and one at least.
            enough = int(numpy.searchsorted(starts, starts[first] + 2 * _ROWS, "right")) - 1
            after = max(enough, first + 1)
            here = polygon_ends[first : after + 1]
            yield from self._some(points, ring_ends[here[0] : here[-1] + 1], here - here[0], stop)
            first = after

    def _some(self, points: Any, ends: Any, polygon_ends: Any, stop: bytes) -> Iterator[bytes]:
        """The same of some polygons, by where their rings stop among the points, and they among the rings."""
        numpy = self._numpy
        counts = ends[1:] - ends[:-1] + 1
        stops = numpy.cumsum(counts)
        starts = stops - counts
        places = numpy.arange(stops[-1]) + numpy.repeat(ends[:-1] - starts, counts)
        places[stops - 1] = ends[:-1]
        opens = numpy.full(len(places), _word(_OPENS["point"]), dtype="<u4")
        opens[starts] = _word(_OPENS["ring"])
        opens[starts[polygon_ends[:-1]]] = _word(_OPENS["polygon"])
        closes = numpy.full(len(places), _word(b"],"), dtype="<u4")
        closes[stops - 1] = _word(b"]],")
        closes[stops[polygon_ends[1:] - 1] - 1] = _word(b"]]]" + stop)
        for at in range(0, len(places), _ROWS):
            here = slice(at, at + _ROWS)
            yield self._rows(points[places[here]], opens[here], closes[here])

    def _rows(self, points: Any, opens: Any, closes: Any) -> bytes:
        numpy = self._numpy
        parts = [self._parts(points[:, axis].astype("int64") + self._origin[axis]) for axis in (0, 1)]
        groups = max(_whole_groups(int(part[1][0].max())) for part in parts)
        columns: List[Any] = []
        for (is_negative, numbers), before in zip(parts, (opens, _word(b","))):
            columns.append(before + numpy.where(is_negative, _word(b"\0\0\0-") - _word(b"\0\0\0 "), 0).astype("<u4"))
            columns += self._words(numbers, groups)
        columns.append(closes)
        rows = numpy.empty((len(points), len(columns)), dtype="<u4")
        for place, column in enumerate(columns):
            rows[:, place] = column
        bare: bytes = rows.tobytes().translate(None, b" ")
        return bare

    def _parts(self, units: Any) -> Tuple[Any, List[Any]]:
        """Whether numbers are negative, their whole parts, and groups of four digits behind the point."""
        numpy = self._numpy
        all_units = numpy.abs(units)
        numbers = self._exact(all_units) if self._digits is None else self._rounded(all_units, self._digits)
        is_something = functools.reduce(numpy.logical_or, [it != 0 for it in numbers])
        return (units < 0) & is_something, numbers

    def _exact(self, units: Any) -> List[Any]:
        """As many digits as tell the double: less than half of what doubles lie apart there is left out."""
        shift = self._shift
        least = units[units != 0].min(initial=1 << shift)
        groups = _GROUPS if least >> max(shift - 12, 0) else -(-shift // 4)
        numbers, _ = self._digits_of(units, groups)
        # 15 digits from 16 on, 16 from 1 on, 17 from a half on.
        for place, bound, power in (4, 16 << shift, 10), (5, 1 << shift >> 1, 1000):
            if place < len(numbers):
                numbers[place] -= self._numpy.where(units >= bound, numbers[place] % power, 0)
        for group in numbers[5:]:
            group *= units < 1 << shift
        return numbers

    def _digits_of(self, units: Any, groups: int) -> Tuple[List[Any], Any]:
        """The whole part, so many groups of four digits behind the point, and what is left behind these, in units."""
        mask = (1 << self._shift) - 1
        numbers, rest = [units >> self._shift], units & mask
        for _ in range(groups):
            rest = rest * _FOUR
            numbers.append(rest >> self._shift)
            rest &= mask
        return numbers, rest

    def _rounded(self, units: Any, digits: int) -> List[Any]:
        """The nearest number with so many digits, of two the even one."""
        groups, more = divmod(digits, 4)
        numbers, rest = self._digits_of(units, groups)
        rest = rest * 10**more
        numbers.append(rest >> self._shift)
        rest &= (1 << self._shift) - 1
        is_odd = (numbers[-1] if more else numbers[-2]) % 2
        numbers[-1] += 2 * rest + is_odd > 1 << self._shift
        for place, base in zip(range(len(numbers) - 1, 0, -1), itertools.chain([10**more], itertools.repeat(_FOUR))):
            carry = numbers[place] // base
            numbers[place] -= carry * base
            numbers[place - 1] += carry
        numbers[-1] *= 10 ** (4 - more)
        return numbers if more else numbers[:-1]

    def _words(self, numbers: List[Any], groups: int) -> List[Any]:
        """Words of a whole part of so many groups of four digits, and of what stands behind the point."""
        numpy = self._numpy
        whole = [numbers[0] // _FOUR**place % _FOUR for place in reversed(range(groups))]
        columns, is_led = [], numpy.zeros(len(numbers[0]), dtype=bool)
        for place, group in enumerate(whole):
            bare = _FOUR if place == groups - 1 else 2 * _FOUR
            columns.append(self._whole_words[group + numpy.where(is_led, 0, bare)])
            is_led |= group != 0
        behind: List[Any] = []
        is_last = numpy.ones(len(numbers[0]), dtype=bool)
        for group in reversed(numbers[1:]):
            behind.append(self._fraction_words[group + numpy.where(is_last, _FOUR, 0)])
            is_last &= group == 0
        columns.append(numpy.where(is_last, _word(b""), _word(b".")).astype("<u4"))
        return columns + behind[::-1]


def _whole_groups(most: int) -> int:
    return 1 + (len(str(most)) - 1) // 4
