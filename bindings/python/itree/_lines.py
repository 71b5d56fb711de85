"""Lines of text, as the native program `itree overlay` reads and prints them."""

from __future__ import annotations

import array
import re
from typing import Dict, Iterator, List, NoReturn, Tuple

from ._polygons import Polygons
from ._rings import Rings
from ._rows import _GREATEST, _LEAST

_WORD = re.compile(rb"[^ \t\f\r]+")
_NUMBER = re.compile(rb"[+-]?[0-9]+")
_RING = re.compile(rb"[ \t\f\r]*(subject|clip)((?:[ \t\f\r]+[+-]?[0-9]+)*)[ \t\f\r]*")
# Of a word that is told.
_LONGEST = 40
_ONE_NUMBER = f"a whole number from {_LEAST} to {_GREATEST} is wanted"


class LineFault(ValueError):
    """A line that is faulty: which, from where on, and what is wanted there."""


def read(text: bytes) -> Tuple[Rings, Rings]:
    """The rings of the lines `subject X Y ..`, and those of the lines `clip X Y ..`.

    Raises LineFault of the first line that is faulty.
    """
    numbers: Dict[bytes, array.array[int]] = {it: array.array("i") for it in (b"subject", b"clip")}
    ends: Dict[bytes, List[int]] = {b"subject": [0], b"clip": [0]}
    lines = text.split(b"\n")
    for place, line in enumerate(lines, 1):
        found = _RING.fullmatch(line)
        if found is None:
            _check_empty(line, place)
            continue
        whose = found.group(1)
        try:
            numbers[whose].extend(map(int, found.group(2).split()))
        except (OverflowError, ValueError):
            _refuse(line, place)
        if len(numbers[whose]) % 2:
            _refuse(line, place)
        ends[whose].append(len(numbers[whose]) // 2)
    subject, clip = (Rings(numbers[it], array.array("q", ends[it])) for it in (b"subject", b"clip"))
    return subject, clip


def written(polygons: Polygons) -> Iterator[str]:
    """A line `polygon X Y ..` for each, and behind it a line `hole X Y ..` for each of its holes."""
    for polygon in polygons:
        for ring, word in zip((polygon.outer, *polygon.holes), ("polygon", *["hole"] * len(polygon.holes))):
            yield " ".join([word, *(f"{x} {y}" for x, y in ring)]) + "\n"


def _check_empty(line: bytes, place: int) -> None:
    if _WORD.search(line):
        _refuse(line, place)


def _refuse(line: bytes, place: int) -> NoReturn:
    words = list(_WORD.finditer(line))
    if words[0].group() not in (b"subject", b"clip"):
        _tell(place, words[0], "subject or clip is wanted")
    for word in words[1:]:
        if not (_NUMBER.fullmatch(word.group()) and len(word.group()) < 99 and _LEAST <= int(word.group()) <= _GREATEST):
            _tell(place, word, _ONE_NUMBER)
    _tell(place, words[-1], "one more number is wanted behind it")


def _tell(place: int, word: "re.Match[bytes]", wanted: str) -> NoReturn:
    shown = word.group().decode("ascii", "backslashreplace")
    if len(shown) > _LONGEST:
        shown = shown[:_LONGEST] + "..."
    raise LineFault(f"line {place}: column {word.start() + 1}: '{shown}': {wanted}")
