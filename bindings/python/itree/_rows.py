"""Rows of whole numbers: as callers give them, and as the library reads them, signed, of 32 bits, one behind the other.

What lies so already is read where it lies. Buffers are copied in bulk, other rows number by number.
"""

from __future__ import annotations

import array
import contextlib
import itertools
import mmap
import numbers
import operator
import re
import sys
from typing import (
    TYPE_CHECKING,
    Any,
    FrozenSet,
    Iterable,
    Iterator,
    List,
    NamedTuple,
    NoReturn,
    Optional,
    Sequence,
    Tuple,
    Union,
)

from ._memory import address_of, numpy_where_loaded

if TYPE_CHECKING:
    import ctypes
    from typing import Protocol, SupportsIndex

    class _HasBuffer(Protocol):
        def __buffer__(self, __flags: int) -> memoryview:
            ...

    class _HasArray(Protocol):
        def __array__(self) -> Any:
            ...

    Row = Union[Iterable[SupportsIndex], Iterable[Iterable[SupportsIndex]]]
    Rows = Union[Iterable[Row], memoryview, array.array[int], ctypes.Array[Any], _HasBuffer, _HasArray]
else:
    Row = Rows = object

_LEAST, _GREATEST = -(2**31), 2**31 - 1
_WHOLE = re.compile("[@=<>!]?([?bBhHiIlLqQnN])")
_FLOAT = re.compile("[@=<>!]?([efdg])")
_FOREIGN_ORDER = (">", "!") if sys.byteorder == "little" else ("<",)
# The letter of array.array by whether numbers have a sign, and how many bytes.
_TYPECODES = {(letter.islower(), array.array(letter).itemsize): letter for letter in "lLbBhHiIqQ"}
_NUMPY_SCALES = "scale and round, e.g. (xy * 1e7).round().astype('int32')"
_SCALES = "scale and round, e.g. round(x * 1e7)"
_MANY_ROWS = 4096
# Types of what has no order.
UNORDERED: FrozenSet[type] = frozenset((set, frozenset))


class Kind(NamedTuple):
    """What the rows of an argument are: its name, and how many numbers each has."""

    name: str
    width: int

    def row(self, place: int) -> str:
        return f"{self.name}, row {place}"

    def takes_points(self) -> bool:
        return self.width == 4


EDGES, OTHERS, SEGMENTS, POINTS = Kind("edges", 4), Kind("others", 4), Kind("segments", 3), Kind("points", 2)
ONE, OTHER = Kind("one", 4), Kind("other", 4)


class HeldRows:
    """`count` rows from the address `at`. The memory stays as it is until the end of a `with`."""

    def __init__(self, given: Rows, kind: Kind) -> None:
        self._view, self.at = _numbers_of(given, kind)
        self.count = self._view.nbytes // (4 * kind.width)

    def kept(self) -> memoryview:
        """What keeps the memory as it is, also behind the end of the `with`, as long as it stays."""
        return memoryview(self._view)

    def __enter__(self) -> HeldRows:
        return self

    def __exit__(self, *_raised: object) -> None:
        self._view.release()


class HeldRow(HeldRows):
    """One row, as `HeldRows` has several."""

    def __init__(self, given: Row, kind: Kind) -> None:
        self._view, self.at = _lying(array.array("i", _numbers_in(given, kind.name, kind)))
        self.count = 1


def _numbers_of(given: Any, kind: Kind) -> Tuple[memoryview, int]:
    """A view of the numbers, and where they lie as long as it isn't released."""
    if isinstance(given, (list, tuple)):
        return _lying(_copied_by_row(given, kind))
    numpy = numpy_where_loaded()
    if numpy is not None and hasattr(given, "__array__"):
        given = numpy.asarray(given)
    view = _view_of(given, kind)
    if view is None:
        return _lying(_copied_by_row(given, kind))
    with view:
        return _numbers_of_buffer(given, view, kind)


def _numbers_of_buffer(given: Any, view: memoryview, kind: Kind) -> Tuple[memoryview, int]:
    if view.format == "O":
        return _lying(_copied_by_row(given, kind))
    _check_shape(view, kind)
    if view.nbytes == 0:
        return _lying(array.array("i"))
    typecode = _typecode_of(view, kind)
    if typecode == "i" and view.c_contiguous and not _is_swapped(view):
        at = address_of(view)
        if at % 4 == 0:
            return memoryview(view), at
    return _copied_by_numpy(given, view) or _lying(_copied(view, typecode, kind))


def _lying(copied: array.array[int]) -> Tuple[memoryview, int]:
    return memoryview(copied), copied.buffer_info()[0]


def _view_of(given: Any, kind: Kind) -> Optional[memoryview]:
    """A view of a buffer, or None of what is none."""
    try:
        view = memoryview(given)
    except TypeError:
        return None
    except (BufferError, ValueError) as fault:
        raise TypeError(f"{kind.name}: {fault}; whole numbers are wanted") from None
    if view.ndim == 1 and view.format == "B" and isinstance(view.obj, (bytes, bytearray, mmap.mmap)):
        raise TypeError(f"{kind.name}: bytes; say what numbers they are, e.g. memoryview({kind.name}).cast('i')")
    return view


def _check_shape(view: memoryview, kind: Kind) -> None:
    shape, width = view.shape or (), kind.width
    if len(shape) == 1:
        if shape[0] % width:
            raise ValueError(f"{kind.name}: {shape[0]} numbers in a flat buffer, and rows of {width} are wanted")
    elif shape[1:] != (width,) and not (kind.takes_points() and shape[1:] == (2, 2)):
        wanted = f"(n, {width})" + " or (n, 2, 2)" * kind.takes_points()
        raise ValueError(f"{kind.name}: the shape is {shape}, and {wanted} is wanted")


def _typecode_of(view: memoryview, kind: Kind) -> str:
    """The letter by which array.array knows the numbers of a view. Raises TypeError where they aren't whole."""
    found = _WHOLE.fullmatch(view.format)
    if found:
        return _TYPECODES[found.group(1).islower(), view.itemsize]
    if not _FLOAT.fullmatch(view.format):
        raise TypeError(f"{kind.name}: numbers of the format {view.format!r}; whole numbers are wanted")
    _refuse_floats(view, kind)


def _refuse_floats(view: memoryview, kind: Kind) -> NoReturn:
    letter = view.format[-1]
    if letter in "fd":
        floats = array.array(letter, view.tobytes())
        if _is_swapped(view):
            floats.byteswap()
        place = next((place for place, number in enumerate(floats) if number != number), None)
        if place is not None:
            where = kind.row(place // kind.width)
            raise TypeError(f"{where}: nan; whole numbers are wanted: leave such rows out, then {_NUMPY_SCALES}")
    raise TypeError(f"{kind.name}: floats; whole numbers are wanted; {_NUMPY_SCALES}")


def _is_swapped(view: memoryview) -> bool:
    return view.format.startswith(_FOREIGN_ORDER)


def _copied_by_numpy(given: Any, view: memoryview) -> Optional[Tuple[memoryview, int]]:
    """None where numpy isn't loaded, doesn't know the numbers, or one of them doesn't fit."""
    numpy = numpy_where_loaded()
    if numpy is None or view.format[-1] in "nN":
        return None
    whole = numpy.asarray(given)
    if int(whole.min()) < _LEAST or int(whole.max()) > _GREATEST:
        return None
    copied = memoryview(whole.astype(numpy.int32, order="C"))
    return copied, address_of(copied)


def _copied(view: memoryview, typecode: str, kind: Kind) -> array.array[int]:
    whole = array.array(typecode, view.tobytes())
    if _is_swapped(view):
        whole.byteswap()
    if typecode == "i":
        return whole
    try:
        return array.array("i", whole)
    except OverflowError:
        for place, number in enumerate(whole):
            _check_range(number, kind.row(place // kind.width))
        raise


def _copied_by_row(given: Any, kind: Kind) -> array.array[int]:
    copied, first = array.array("i"), 0
    for rows in _runs(given, kind):
        _append(copied, rows, first, kind)
        first += len(rows)
    return copied


def _runs(given: Any, kind: Kind) -> Iterable[Sequence[Any]]:
    """The rows, many at once, so that those that are made as they are asked for never stand there all."""
    if isinstance(given, (list, tuple)):
        return (given,)
    rows = _iterated(given, kind.name, f"rows of {kind.width} numbers")
    return iter(lambda: list(itertools.islice(rows, _MANY_ROWS)), [])


def _append(copied: array.array[int], rows: Sequence[Any], first: int, kind: Kind) -> None:
    """Appends the numbers of rows, the first of which has the place `first`."""
    before = len(copied)
    with contextlib.suppress(OverflowError, TypeError, ValueError):
        copied.extend(_whole(_flat(rows, kind)))
    if len(copied) != before + kind.width * len(rows):
        # The rows aren't alike, or one of them is faulty.
        del copied[before:]
        for place, row in enumerate(rows, first):
            copied.extend(_numbers_in(row, kind.row(place), kind))


def _flat(rows: Sequence[Any], kind: Kind) -> Iterable[Any]:
    """The numbers of rows that are all alike. Raises TypeError or ValueError where they aren't."""
    lengths = set(map(len, rows))
    if not UNORDERED.isdisjoint(map(type, rows)):
        raise TypeError
    if kind.takes_points() and lengths == {2}:
        return _flat(list(itertools.chain.from_iterable(rows)), POINTS)
    if lengths - {kind.width}:
        raise ValueError
    return itertools.chain.from_iterable(rows)


def _whole(given: Iterable[Any]) -> Iterable[Any]:
    # Before Python 3.10 an array rounds numbers of some types.
    return given if sys.version_info >= (3, 10) else map(operator.index, given)


def _numbers_in(row: Any, where: str, kind: Kind) -> List[int]:
    """The numbers of one row."""
    items = list(_iterated(row, where, f"{kind.width} numbers"))
    if kind.takes_points() and len(items) == 2 and all(hasattr(it, "__len__") for it in items):
        return [number for point in items for number in _numbers_in(point, where, POINTS)]
    if len(items) != kind.width:
        raise ValueError(f"{where}: {len(items)} numbers, {kind.width} are wanted")
    return [_checked(number, where) for number in items]


def _iterated(given: Any, where: str, wanted: str) -> Iterator[Any]:
    items: Optional[Iterator[Any]] = None
    if isinstance(given, (set, frozenset)):
        raise TypeError(f"{where}: a {_type(given)}, which has no order; a list is wanted")
    if not isinstance(given, (str, bytes, bytearray)):
        with contextlib.suppress(TypeError):
            items = iter(given)
    if items is None:
        raise TypeError(f"{where}: {_type(given)}; {wanted} are wanted")
    return items


def _checked(number: Any, where: str) -> int:
    try:
        whole = operator.index(number)
    except TypeError:
        _refuse(number, where)
    _check_range(whole, where)
    return whole


def _check_range(number: int, where: str) -> None:
    if not _LEAST <= number <= _GREATEST:
        # Python refuses to print a number of thousands of digits.
        said = number if abs(number) < 2**128 else f"a number of {number.bit_length()} bits"
        raise OverflowError(f"{where}: {said} doesn't fit in 32 bits")


def _refuse(number: Any, where: str) -> NoReturn:
    if not isinstance(number, numbers.Number):
        raise TypeError(f"{where}: {_type(number)}; whole numbers are wanted")
    if number != number:
        raise TypeError(f"{where}: {number}; whole numbers are wanted: leave such rows out, then {_SCALES}")
    raise TypeError(f"{where}: {number}; whole numbers are wanted; {_SCALES}")


def _type(given: object) -> str:
    return type(given).__name__
