"""Files of GeoJSON, read in bulk: the coordinates of polygons are cut out of the text, and parsed many at a time, so that no
list stands for each point. What is left, the properties and the like, is read feature by feature.

What isn't as most files are is told by `Odd`: the whole text is then read as JSON, which tells what is faulty, and where.
"""

from __future__ import annotations

import array
import codecs
import collections
import io
import itertools
import json
import re
import struct
import sys
from typing import Any, BinaryIO, Callable, Deque, Dict, Iterable, Iterator, List, NamedTuple, Optional, Tuple

from . import _shapes
from ._wkb import Binary

# Bytes that are read at once.
_PIECE = 1 << 20
_SPACE = b" \\t\\r\\n"
_OF_ARRAYS = b"0-9eE+\\-.,\\[\\]" + _SPACE
# The coordinates of a polygon, or of several, up to what can't be of them.
_COORDINATES = re.compile(rb'"coordinates"[%b]*:[%b]*(\[[%b]*\[[%b]*\[[%b]*)' % (_SPACE, _SPACE, _SPACE, _SPACE, _OF_ARRAYS))
_RUN = re.compile(rb"[%b]*" % _OF_ARRAYS)
_BEHIND = b", \t\r\n"
# Numbers and commas alone, and brackets and commas alone; a bar stands behind each array.
_FLAT = bytes.maketrans(b"[]|", b"  ,")
_NUMBERS = b"0123456789eE+-. \t\r\n"
# A ring of points, and what polygons and several polygons have of rings.
_RING = re.compile(rb"\[p(?:,p)*\]")
_POLYGON = re.compile(rb"\[r(?:,r)*\]")
_POLYGONS = re.compile(rb"\[\[r(?:,r)*\](?:,\[r(?:,r)*\])*\]")
_POINTS = {2: b"[,]", 3: b"[,,]", 4: b"[,,,]"}
_POLYGON_KIND, _MULTIPOLYGON_KIND, _COLLECTION_KIND = 3, 6, 7
_KINDS = {"Polygon": _POLYGON_KIND, "MultiPolygon": _MULTIPOLYGON_KIND}
# Of each kind of collection the member that has its parts, and what each is called.
_COLLECTIONS = {"GeometryCollection": ("geometries", "geometry"), "FeatureCollection": ("features", "feature")}
_ONE_RING = struct.Struct("=BIII").pack
# Where the kind's one byte that isn't 0 stands in well-known binary.
_AT_KIND = 1 if sys.byteorder == "little" else 4
# Members of a feature that tell of its shape.
_OF_SHAPE = {"type", "geometry", "bbox"}
# Of a shape's text: it is kept.
_SHORT = 40
_IS_LITTLE = sys.byteorder == "little"
_BLANKS = b" \t\r\n\x1e"
_BLANK = re.compile(r"[ \t\r\n\x1e]*")
_BETWEEN = re.compile(r",[ \t\r\n]*(?=\{)")
_NAMED = re.compile(r"(?:urn:ogc:def:crs:)?EPSG:(?:[\d.]*:)?(\d+)", re.IGNORECASE)
OF_DEGREES = "EPSG:4326"


class Odd(Exception):
    """The text isn't as most files of GeoJSON are, or is faulty."""


class Read(NamedTuple):
    """What a file has: its shapes, in order; what else each feature has, where it was asked for; and whose system it is of.

    members: of each feature its JSON, without its coordinates; None where nobody asked.
    """

    shapes: Binary
    members: Optional[List[Dict[str, Any]]]
    crs: Optional[str]


def read(file: BinaryIO, name: str, has_members: bool, is_lines: bool, told: Callable[[int], None]) -> Read:
    """The features of a file of GeoJSON, or of one of lines of it.

    name: what the file is called. has_members: whether what else the features have is wanted. told: is called with how many
    bytes were read, each time.

    Raises Odd, and what a file raises.
    """
    try:
        return _Reader(name, has_members, is_lines).read(file, told)
    except RecursionError:
        raise Odd from None


def head(kind: int, count: int) -> bytes:
    """What stands before the parts of a shape in well-known binary."""
    return struct.pack("=BII", _IS_LITTLE, kind, count)


NOTHING = head(_COLLECTION_KIND, 0)


class _Arrays:
    """Arrays of coordinates as they come, and the well-known binary of each that is whole."""

    def __init__(self) -> None:
        self._numbers = array.array("d")
        self._brackets = bytearray()
        self._known: Dict[bytes, List[int]] = {}

    def add(self, text: bytes) -> List[bytes]:
        """Takes some text of arrays, behind each of which stands a bar, and gives those that are whole with it."""
        if not text:
            return []
        flat = text.translate(_FLAT).rstrip(_BEHIND)
        try:
            self._numbers.extend(json.loads(b"[%b]" % flat))
        except (ValueError, TypeError, OverflowError):
            raise Odd from None
        self._brackets += text.translate(None, _NUMBERS)
        whole = self._brackets.rfind(b"|") + 1
        if whole == 0:
            return []
        brackets, self._brackets = bytes(self._brackets[:whole]), self._brackets[whole:]
        numbers = brackets.count(b",") + brackets.count(b"|")
        taken, self._numbers = self._numbers[:numbers], self._numbers[numbers:]
        return self._binaries(brackets, taken)

    def _binaries(self, brackets: bytes, numbers: "array.array[float]") -> List[bytes]:
        for width, point in _POINTS.items():
            if brackets.count(point) * width == len(numbers):
                return self._of_points(brackets.replace(point, b"p"), _first_two(numbers, width))
        # Of several widths: one by one.
        texts, at, found = brackets.split(b"|")[:-1], 0, []
        if len(texts) == 1:
            raise Odd
        for text in texts:
            count = text.count(b",") + 1
            found += self._binaries(text + b"|", numbers[at : at + count])
            at += count
        return found

    def _of_points(self, brackets: bytes, numbers: "array.array[float]") -> List[bytes]:
        """Of arrays in which p stands for each point."""
        ends = [0, *itertools.accumulate((it.end() - it.start() - 1) // 2 for it in _RING.finditer(brackets))]
        if 2 * ends[-1] != len(numbers):
            raise Odd
        data, ring, found = numbers.tobytes(), 0, []
        for text in _RING.sub(b"r", brackets).split(b"|")[:-1]:
            counts = self._known.get(text) or _rings_of_each(text)
            if len(text) < _SHORT:
                self._known[text] = counts
            if text == b"[r]":
                # Most often.
                start, stop = ends[ring : ring + 2]
                ring += 1
                found.append(_ONE_RING(_IS_LITTLE, _POLYGON_KIND, 1, stop - start) + data[16 * start : 16 * stop])
                continue
            parts: List[Any] = [head(_MULTIPOLYGON_KIND, len(counts))] if text.startswith(b"[[") else []
            for count in counts:
                parts.append(head(_POLYGON_KIND, count))
                for start, stop in zip(ends[ring : ring + count], ends[ring + 1 : ring + count + 1]):
                    parts += struct.pack("=I", stop - start), data[16 * start : 16 * stop]
                ring += count
            found.append(b"".join(parts))
        return found


def _first_two(numbers: "array.array[float]", width: int) -> "array.array[float]":
    """The first two of so many numbers that each point has."""
    if width == 2:
        return numbers
    taken = array.array("d", [0.0]) * (2 * (len(numbers) // width))
    taken[0::2], taken[1::2] = numbers[0::width], numbers[1::width]
    return taken


def _rings_of_each(text: bytes) -> List[int]:
    """How many rings a polygon has, or each of several."""
    if _POLYGON.fullmatch(text):
        return [text.count(b"r")]
    if _POLYGONS.fullmatch(text):
        return [it.count(b"r") for it in text.split(b"],[")]
    raise Odd


def _cut(text: bytes) -> int:
    """Behind the last comma of an array that goes on: one behind which a number or a bracket stands."""
    stop = len(text.rstrip(_BEHIND))
    return text.rfind(b",", 0, stop) + 1


class _Text:
    """The text without the coordinates, in place of which numbers stand, as it comes."""

    def __init__(self, pieces: Iterator[str]) -> None:
        decoder: Any = json.JSONDecoder()
        self._pieces, self._decode = pieces, decoder.scan_once
        self._text, self._at = "", 0

    def _reads_on(self) -> bool:
        """Whether there is more, which is added."""
        more = next(self._pieces, None)
        if more is not None:
            self._text, self._at = self._text[self._at :] + more, 0
        return more is not None

    def next(self) -> str:
        """The next character that is no blank, which isn't passed; or nothing at the end."""
        while True:
            blank = _BLANK.match(self._text, self._at)
            self._at = blank.end() if blank else self._at
            if self._at < len(self._text):
                return self._text[self._at]
            if not self._reads_on():
                return ""

    def skip(self, wanted: str) -> None:
        """Passes a character, which has to be the next."""
        if self.next() != wanted:
            raise Odd
        self._at += 1

    def items(self) -> Iterator[Any]:
        """The values of a list, which are passed one by one, and so is the list."""
        self.skip("[")
        is_more = self.next() != "]"
        while is_more:
            yield self.value()
            # Most often there are a comma, blanks and the next one.
            between = _BETWEEN.match(self._text, self._at)
            if between:
                self._at = between.end()
            elif self.next() == ",":
                self.skip(",")
            else:
                is_more = False
        self.skip("]")

    def value(self) -> Any:
        """The next value, which is passed."""
        self.next()
        while True:
            try:
                found, stop = self._decode(self._text, self._at)
            except (StopIteration, ValueError):
                # There may be more of it.
                if not self._reads_on():
                    raise Odd from None
                continue
            # A number may go on.
            if stop < len(self._text) or isinstance(found, (dict, list, str)) or not self._reads_on():
                self._at = stop if stop <= len(self._text) else len(self._text)
                return found


class _Reader:
    """Reads a file."""

    def __init__(self, name: str, has_members: bool, is_lines: bool) -> None:
        self._name, self._is_lines, self._is_many = name, is_lines, is_lines
        self._arrays = _Arrays()
        # How many arrays there are, and how many are of a shape already; and those between, which are whole.
        self._count = self._taken = 0
        self._ready: Deque[bytes] = collections.deque()
        self._found = _Found(has_members)

    def read(self, file: BinaryIO, told: Callable[[int], None]) -> Read:
        """What the file has."""
        text = _Text(self._left(file, told))
        crs = None
        if self._is_lines:
            while text.next():
                self._add(text.value())
        else:
            crs = self._read_object(text)
        if text.next() or self._taken != self._count:
            raise Odd
        return self._found.closed(self._name, self._is_many, crs)

    def _left(self, file: BinaryIO, told: Callable[[int], None]) -> Iterator[str]:
        """The text with a number in place of each array of coordinates, which is parsed."""
        decoder = codecs.getincrementaldecoder("utf-8-sig")()
        rest, is_inside, is_last = b"", False, False
        while not is_last:
            piece = file.read(_PIECE)
            told(len(piece))
            is_last = not piece
            text = rest + piece
            arrays: List[bytes] = []
            left: List[bytes] = []
            if is_inside:
                text, is_inside = self._go_on(text, is_last, arrays)
            if is_inside:
                rest = text
            else:
                rest, is_inside = self._split(text, is_last, arrays, left)
            self._ready.extend(self._arrays.add(b"".join(arrays)))
            try:
                yield decoder.decode(b"".join(left), is_last)
            except UnicodeDecodeError:
                raise Odd from None

    def _go_on(self, text: bytes, is_last: bool, arrays: List[bytes]) -> Tuple[bytes, bool]:
        """Adds the next part of an array. Gives the text behind it, and whether that may be inside of it."""
        run = _RUN.match(text)
        stop = run.end() if run else 0
        if stop == len(text) and not is_last:
            taken = _cut(text)
            arrays.append(text[:taken])
            return text[taken:], True
        bare = text[:stop].rstrip(_BEHIND)
        arrays += bare, b"|"
        return text[len(bare) :], False

    def _split(self, text: bytes, is_last: bool, arrays: List[bytes], left: List[bytes]) -> Tuple[bytes, bool]:
        """Adds the arrays of coordinates in a text, and what is left there. Gives the text's end, which may be the
        beginning of one, and whether it is inside of it."""
        parts = _COORDINATES.split(text)
        if len(parts) > 1 and not parts[-1] and not is_last:
            begun = parts[-2]
            taken = _cut(begun)
            self._add_parts(parts[:-2], arrays, left)
            left.append(self._number())
            arrays.append(begun[:taken])
            return begun[taken:], True
        stop = len(parts[-1]) if is_last else max(map(parts[-1].rfind, (b",", b"}"))) + 1
        parts[-1], rest = parts[-1][:stop], parts[-1][stop:]
        self._add_parts(parts, arrays, left)
        return rest, False

    def _add_parts(self, parts: List[bytes], arrays: List[bytes], left: List[bytes]) -> None:
        if len(parts) > 1 and any([it.endswith(b"\\") for it in parts[0:-1:2]]):
            # A text ends so, and no name begins.
            raise Odd
        left.append(parts[0])
        for array_of, other in zip(parts[1::2], parts[2::2]):
            bare = array_of.rstrip(_BEHIND)
            arrays += bare, b"|"
            left += self._number(), array_of[len(bare) :], other

    def _number(self) -> bytes:
        """What stands in place of the next array."""
        self._count += 1
        return b'"coordinates":%d' % (self._count - 1)

    def _read_object(self, text: _Text) -> Optional[str]:
        """A collection of features, or one feature or shape. Gives the reference system."""
        text.skip("{")
        members: Dict[str, Any] = {}
        while text.next() != "}":
            if members:
                text.skip(",")
            name = text.value()
            text.skip(":")
            if not isinstance(name, str) or name in members:
                raise Odd
            if name == "features" and text.next() == "[":
                self._is_many = True
                members[name] = None
                for feature in text.items():
                    self._add(feature)
            else:
                members[name] = text.value()
        text.skip("}")
        if (members.get("type") == "FeatureCollection") != self._is_many:
            raise Odd
        crs = crs_of(members.pop("crs", None))
        if not self._is_many:
            self._add(members)
        return crs

    def _add(self, feature: Any) -> None:
        """Adds a feature, or a shape."""
        if not isinstance(feature, dict):
            raise Odd
        if feature.get("type") == "Feature":
            geometry = feature.pop("geometry", None)
            self._found.add(NOTHING if geometry is None else self._shape(geometry), feature)
        else:
            self._found.add(self._shape(feature), {})

    def _shape(self, geometry: Any) -> bytes:
        kind = geometry.get("type") if isinstance(geometry, dict) else None
        if kind == "GeometryCollection":
            parts = geometry.get("geometries")
            if not isinstance(parts, list):
                raise Odd
            return head(_COLLECTION_KIND, len(parts)) + b"".join([self._shape(it) for it in parts])
        if kind not in _KINDS:
            raise Odd
        coordinates = geometry.get("coordinates")
        if coordinates == []:
            return NOTHING
        # The numbers stand in order, so that one of the file's own is none of them.
        if type(coordinates) is not int or coordinates != self._taken or not self._ready:
            raise Odd
        self._taken += 1
        binary = self._ready.popleft()
        if binary[_AT_KIND] != _KINDS[kind]:
            raise Odd
        return binary


class _Found:
    """Shapes as they are found, and what else their features have."""

    def __init__(self, has_members: bool) -> None:
        self._data, self._offsets = io.BytesIO(), array.array("Q", [0])
        self._members: Optional[List[Dict[str, Any]]] = [] if has_members else None

    def add(self, shape: bytes, feature: Dict[str, Any]) -> None:
        """Adds a shape in well-known binary, and its feature."""
        self._data.write(shape)
        self._offsets.append(self._offsets[-1] + len(shape))
        if self._members is not None:
            self._members.append({name: it for name, it in feature.items() if name not in _OF_SHAPE})

    def closed(self, name: str, is_many: bool, crs: Optional[str]) -> Read:
        """All that was found."""
        called: Callable[[int], str] = (lambda place: f"{name}, feature {place}") if is_many else (lambda _: name)
        return Read(Binary(self._data.getvalue(), self._offsets, called), self._members, crs)


def crs_of(member: Any) -> Optional[str]:
    """The reference system that a file tells, as EPSG:N where it is one of these, or None where it tells none."""
    properties = member.get("properties") if isinstance(member, dict) else None
    name = properties.get("name") if isinstance(properties, dict) else None
    if not isinstance(name, str):
        return None
    found = _NAMED.search(name)
    return OF_DEGREES if name.endswith("CRS84") else f"EPSG:{found.group(1)}" if found else name


def read_slowly(data: bytes, name: str, has_members: bool, is_lines: bool) -> Read:
    """What `read` gives of the bytes of a file, whatever it is.

    Raises ValueError or TypeError of what is faulty, which say where it stands.
    """
    found = _Found(has_members)
    is_many, crs = True, None
    if is_lines:
        bare = data[len(codecs.BOM_UTF8) :] if data.startswith(codecs.BOM_UTF8) else data
        lines = enumerate(bare.split(b"\n"))
        shapes = [_loaded(line.strip(_BLANKS), name, place) for place, line in lines if line.strip(_BLANKS)]
    else:
        shape = _loaded(data, name, None)
        is_many, crs = isinstance(shape.get("features"), list), crs_of(shape.get("crs"))
        shapes = shape["features"] if is_many and shape.get("type") == "FeatureCollection" else [shape]
    for place, shape in enumerate(shapes):
        where = f"{name}, feature {place}" if is_many else name
        try:
            binary = _binary_of(shape, where)
        except RecursionError:
            raise ValueError(f"{where}: collections in collections, too deep") from None
        found.add(binary, shape if shape["type"] == "Feature" else {})
    return found.closed(name, is_many, crs)


def _loaded(text: bytes, name: str, before: Optional[int]) -> Dict[str, Any]:
    """An object. before: how many lines stand before it, where it is one line of a file."""
    where = name if before is None else f"{name}, line {before + 1}"
    try:
        shape = json.loads(text)
    except json.JSONDecodeError as fault:
        raise ValueError(f"{name}, line {fault.lineno + (before or 0)}, column {fault.colno}: {fault.msg}") from None
    except (ValueError, RecursionError) as fault:
        raise ValueError(f"{where}: {fault}") from None
    if not isinstance(shape, dict):
        raise ValueError(f"{where}: no object; one of GeoJSON is wanted")
    return shape


def _binary_of(shape: Any, where: str) -> bytes:
    """The well-known binary of a shape: a collection of its parts, or polygons."""
    kind = shape.get("type") if isinstance(shape, dict) else None
    if kind == "Feature" and shape.get("geometry") is not None:
        return _binary_of(shape["geometry"], where)
    if isinstance(kind, str) and kind in _COLLECTIONS:
        member, called = _COLLECTIONS[kind]
        if isinstance(shape.get(member), list):
            parts = [_binary_of(part, f"{where}, {called} {place}") for place, part in enumerate(shape[member])]
            return head(_COLLECTION_KIND, len(parts)) + b"".join(parts)
    return _binary_of_rings(_shapes.rings_of_shape(shape, where, False))


def _binary_of_rings(rings: Iterable[_shapes.GivenRing]) -> bytes:
    """That of a shape's rings: polygons, each of which begins with a ring that is no hole."""
    polygons: List[List[bytes]] = []
    for ring in rings:
        numbers = _shapes.floats(ring)
        # As it was, for one point is left out again.
        numbers.extend(numbers[:2])
        if not ring.is_hole:
            polygons.append([])
        polygons[-1].append(struct.pack("=I", len(numbers) // 2) + numbers.tobytes())
    binaries = [head(_POLYGON_KIND, len(it)) + b"".join(it) for it in polygons]
    return head(_MULTIPOLYGON_KIND, len(binaries)) + b"".join(binaries)
