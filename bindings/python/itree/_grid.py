"""Grid: floats as whole numbers of 32 bits, and back."""

from __future__ import annotations

import array
import ctypes
import dataclasses
import math
from typing import Any, Callable, List, Optional, Tuple

from . import _shapes
from ._library import FAULTY, GridOfC, checked, library
from ._memory import address_of
from ._rows import _GREATEST, _LEAST

_BITS_OF_FLOAT = 53
# Of units. All points of a grid are floats then.
_LEAST_EXPONENT, _GREATEST_EXPONENT = -1022, 970


@dataclasses.dataclass(frozen=True)
class Grid:
    """A grid of points, by which floats become whole numbers of 32 bits, and these become floats again.

    origin: the point (x, y) that becomes (0, 0). It is moved to the next whole
    multiple of the unit.
    unit: how far the lines of the grid lie apart on both axes, a power of two.

    The grid has the points both of whose coordinates are whole multiples of the
    unit, up to 2**31 units from the origin. A point of it goes there and back
    exactly. Any other is rounded to the next point of the grid.

    >>> grid = Grid((100.0, 50.0), 0.25)
    >>> grid.to_grid((100.75, 49.5))
    (3, -2)
    >>> grid.from_grid((3, -2))
    (100.75, 49.5)
    >>> grid.from_grid(grid.to_grid((100.8, 49.4)))
    (100.75, 49.5)

    Raises ValueError where the unit is no power of two, or the origin is so far
    off that floats there lie further apart than the unit.
    """

    origin: Tuple[float, float] = (0.0, 0.0)
    unit: float = 1.0

    def __post_init__(self) -> None:
        x, y = map(float, self.origin)
        unit = _checked_unit(float(self.unit))
        if not (math.isfinite(x) and math.isfinite(y)):
            raise ValueError(f"the origin {(x, y)}: finite numbers are wanted")
        if max(abs(x), abs(y)) > unit * (2**_BITS_OF_FLOAT - 2**31):
            raise ValueError(f"the origin {(x, y)} is too far off: floats there lie further apart than the unit {unit}")
        object.__setattr__(self, "unit", unit)
        object.__setattr__(self, "origin", (round(x / unit) * unit, round(y / unit) * unit))

    @classmethod
    def fit(cls, *shapes: _shapes.Shapes, unit: Optional[float] = None) -> Grid:
        """The grid of the finest unit by which all points of some shapes lie within 2**30 units of the origin.

        The origin is the middle of the shapes. The unit isn't finer than floats
        lie apart at the greatest of the coordinates, so that each point of the
        grid is a float.

        shapes: what `overlay` takes, as its subject and its clip.
        unit: a power of two that is taken in place of the finest.

        >>> square = [(0.0, 0.0), (1.0, 0.0), (1.0, 1.0), (0.0, 1.0)]
        >>> Grid.fit([square])
        Grid(origin=(0.5, 0.5), unit=4.656612873077393e-10)
        >>> Grid.fit([square], unit=0.125)
        Grid(origin=(0.5, 0.5), unit=0.125)

        Raises ValueError where a coordinate isn't finite, or doesn't fit with
        the unit that was given. Raises TypeError of an iterator, as a generator
        or a map, for nothing would be left of it for `overlay`. What is raised
        for faulty rings is told at help(itree).
        """
        from ._gathered import corners_of

        named = [(given, f"shape {place}") for place, given in enumerate(shapes)]
        return fitted(corners_of(named, kept=True), unit)

    def to_grid(self, point: Tuple[float, float]) -> Tuple[int, int]:
        """The point of the grid next to a point, in units from the origin.

        Raises ValueError where a coordinate isn't finite, or there is no point
        of the grid as far off.
        """
        numbers = array.array("d", point)
        if len(numbers) != 2:
            raise ValueError(f"the point: {len(numbers)} numbers, 2 are wanted")
        _shapes.check_finite(numbers, "the point")
        x, y = self.rounded(numbers, "the point, row {}".format)
        return x, y

    def from_grid(self, point: Tuple[int, int]) -> Tuple[float, float]:
        """The coordinates of a point of the grid, which is told in units from the origin. It is exact.

        Of an array of such points they are numpy.asarray(points) * grid.unit +
        grid.origin.
        """
        (x, y), (x0, y0) = point, self.origin
        return x * self.unit + x0, y * self.unit + y0

    def rounded(self, floats: array.array[float], row_of: Callable[[int], str]) -> array.array[int]:
        """Coordinates x, y, x, y and so on, in units from the origin. By its place `row_of` tells what a point is."""
        whole = array.array("i", [0]) * len(floats)
        self.round_into(whole.buffer_info()[0], floats.buffer_info()[0], len(floats) // 2, floats, row_of)
        return whole

    def round_into(self, whole: int, floats: int, count: int, numbers: Any, row_of: Callable[[int], str]) -> None:
        """The same of so many points at an address, whose coordinates are `numbers`, written to an address."""
        fault = ctypes.c_size_t()
        words = floats, count, whole, count, ctypes.byref(fault)
        status = library.itree_grid_round(ctypes.byref(self.of_c()), *words)
        if status == FAULTY:
            place = fault.value
            pair = numbers[2 * place], numbers[2 * place + 1]
            for number in pair:
                if not math.isfinite(number):
                    raise ValueError(f"{row_of(place)}: {number}; finite numbers are wanted")
            off = next(number for axis, number in enumerate(pair) if not self._holds(number, axis))
            raise ValueError(f"{row_of(place)}: {off} is off the grid, which is {self}")
        checked(status)

    def positions(self, numbers: memoryview) -> array.array[float]:
        """Coordinates of points that are told in units from the origin, flat, as those are."""
        room, count = array.array("d", [0.0]) * len(numbers), len(numbers) // 2
        at = address_of(numbers)
        checked(library.itree_grid_positions(ctypes.byref(self.of_c()), at, count, room.buffer_info()[0], count))
        return room

    def of_c(self) -> GridOfC:
        """As the library takes it."""
        known: Optional[GridOfC] = self.__dict__.get("_of_c")
        if known is None:
            (_, x), (exponent, y) = self._scale(0), self._scale(1)
            known = self.__dict__["_of_c"] = GridOfC(x, y, -exponent)
        return known

    def __reduce__(self) -> Tuple[Any, ...]:
        return type(self), (self.origin, self.unit)

    def _scale(self, axis: int) -> Tuple[int, int]:
        """The power of two that a coordinate is multiplied by, and what is taken away then."""
        return 1 - math.frexp(self.unit)[1], round(self.origin[axis] / self.unit)

    def _holds(self, number: float, axis: int) -> bool:
        exponent, start = self._scale(axis)
        try:
            return _LEAST <= round(math.ldexp(number, exponent)) - start <= _GREATEST
        except OverflowError:
            return False


def _checked_unit(unit: float) -> float:
    if not (unit > 0 and math.isfinite(unit)):
        raise ValueError(f"the unit {unit}: a power of two is wanted")
    half, exponent = math.frexp(unit)
    if half != 0.5:
        lesser = math.ldexp(0.5, exponent)
        raise ValueError(f"the unit {unit}: a power of two is wanted, as {lesser}, 2**{exponent - 1}")
    if not _LEAST_EXPONENT < exponent <= _GREATEST_EXPONENT + 1:
        raise ValueError(f"the unit {unit}: one from 2**{_LEAST_EXPONENT} to 2**{_GREATEST_EXPONENT} is wanted")
    return unit


def grid_of(told: GridOfC) -> Grid:
    """The grid that the library tells."""
    grid, unit = object.__new__(Grid), math.ldexp(1.0, told.exponent)
    # All of it is known to be well.
    grid.__dict__.update(origin=(told.x * unit, told.y * unit), unit=unit, _of_c=told)
    return grid


def fitted(corners: array.array[float], unit: Optional[float] = None) -> Grid:
    """`Grid.fit` of finite positions, x, y, x, y and so on."""
    if unit is not None:
        return _with_unit([_bounds(corners[axis::2]) for axis in (0, 1)], unit)
    told, fault = GridOfC(), ctypes.c_size_t()
    at, count = corners.buffer_info()
    status = library.itree_grid_fit(at, count // 2, ctypes.byref(told), ctypes.byref(fault))
    if status == FAULTY:
        raise ValueError(f"no grid has as wide a unit as these coordinates take, up to {max(abs(it) for it in corners)}")
    checked(status)
    return grid_of(told)


def _bounds(numbers: array.array[float]) -> Tuple[float, float]:
    """The least and the greatest; 0 where there is none."""
    return (min(numbers), max(numbers)) if numbers else (0.0, 0.0)


def _with_unit(bounds: List[Tuple[float, float]], unit: float) -> Grid:
    """The grid whose origin is the middle."""
    middle = [low / 2 + high / 2 for low, high in bounds]
    grid = Grid((middle[0], middle[1]), unit)
    for axis, numbers in enumerate(bounds):
        for number in numbers:
            if not grid._holds(number, axis):
                raise ValueError(f"the unit {unit} is too fine: {number} is more than 2**31 units from the middle")
    return grid
