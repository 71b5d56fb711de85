"""The files of the command: each is read and written as its ending says."""

from __future__ import annotations

import array
import contextlib
import functools
import importlib
import io
import itertools
import json
import math
import os
import struct
import sys
from typing import (
    Any,
    BinaryIO,
    Callable,
    ContextManager,
    Dict,
    Iterable,
    Iterator,
    List,
    NamedTuple,
    Optional,
    Sequence,
    Tuple,
)

from . import _decimals, _geojson, _scene, _vector, _wkb
from ._answers import Lists
from ._geojson import Read
from ._grid import Grid
from ._progress import Progress
from ._wkb import Binary

GEOJSON, LINES, HEX, PICTURE = "GeoJSON", "lines of GeoJSON", "well-known binary in hex", "a picture"
ENDINGS = {
    ".geojson": GEOJSON,
    ".json": GEOJSON,
    ".geojsonl": LINES,
    ".ndjson": LINES,
    ".wkb.hex": HEX,
    ".wkbhex": HEX,
    **{ending: called for ending, (_, called) in _vector.DRIVERS.items()},
    ".svg": PICTURE,
}
# Bytes of files from which on numpy is worth its loading.
_LARGE = 2_000_000
_HAS_SRID = 0x20000000
_OF_HEX = b" \t\r\n"


class Source(NamedTuple):
    """What a file has.

    fields: the types of its fields, as fiona tells them; None of a file that tells none.
    """

    name: str
    shapes: Binary
    members: Optional[List[Dict[str, Any]]]
    crs: Optional[str]
    fields: Optional[Dict[str, str]] = None


class Part(NamedTuple):
    """Polygons of some features, one feature behind the other.

    offsets: where those of each feature begin, and where the last stop. members: what else each has.
    """

    polygons: Lists
    offsets: Sequence[int]
    members: Sequence[Dict[str, Any]]


class Answer(NamedTuple):
    """What is written.

    about: of all of it. is_one: whether it is one feature, which has these properties. digits: how many behind the point.
    is_apart: whether each polygon is a feature. fields: as those of a source. drawn: what is drawn below it.
    """

    parts: Sequence[Part]
    grid: Grid
    crs: Optional[str]
    about: Dict[str, Any]
    is_one: bool
    digits: Optional[int]
    is_apart: bool
    fields: Optional[Dict[str, str]]
    drawn: Sequence[Lists]

    def feature_count(self) -> int:
        """How many features it has."""
        return sum(it.polygons.polygon_count if self.is_apart else len(it.members) for it in self.parts)


def ending_of(name: str) -> str:
    """The ending by which a file's name says what it is, or nothing."""
    lower = _vector.split_name(name)[0].lower()
    return next((it for it in sorted(ENDINGS, key=len, reverse=True) if lower.endswith(it)), "")


def check_output(name: str) -> None:
    """Raises ValueError of a name that doesn't say as what it is written, and of what can't be written here."""
    ending = ending_of(name)
    if not ending:
        raise ValueError(f"{name}: an ending is wanted that says what is written: one of {', '.join(ENDINGS)}")
    if ending in _vector.DRIVERS:
        _vector.fiona_for(name, *_vector.DRIVERS[ending])


def read(name: str, has_members: bool, progress: Progress) -> Source:
    """What a file has; - is the standard input.

    has_members: whether what else its features have is wanted.

    Raises ValueError or TypeError of what is faulty, OSError, and MemoryError.
    """
    ending = ending_of(name)
    if ENDINGS.get(ending) == PICTURE:
        raise ValueError(f"{name}: a picture is written alone, and not read")
    if ending in _vector.DRIVERS:
        found, fields = _vector.read(name, ending, lambda it: progress.begin(f"reading {name}", it), progress.add)
        return Source(name, *found, fields)
    with _opened(name) as file:
        size = 0 if name == "-" else os.fstat(file.fileno()).st_size
        if size >= _LARGE:
            numpy()
        progress.begin(f"reading {name}", size)
        if ENDINGS.get(ending) == HEX:
            return _read_hex(file, name, progress)
        return Source(name, *_read_json(file, name, has_members, ENDINGS.get(ending) == LINES, progress))


def _opened(name: str) -> ContextManager[BinaryIO]:
    if name == "-":
        return contextlib.nullcontext(sys.stdin.buffer)
    return open(name, "rb")


def numpy() -> Any:
    """numpy, which is loaded where it is there."""
    try:
        return importlib.import_module("numpy")
    except ImportError:
        return None


def _read_json(file: BinaryIO, name: str, has_members: bool, is_lines: bool, progress: Progress) -> Read:
    # The standard input can't be read twice.
    again: BinaryIO = file if name != "-" else io.BytesIO(file.read())
    try:
        return _geojson.read(again, name, has_members, is_lines, progress.add)
    except _geojson.Odd:
        again.seek(0)
        return _geojson.read_slowly(again.read(), name, has_members, is_lines)


def _read_hex(file: BinaryIO, name: str, progress: Progress) -> Source:
    """Shapes in well-known binary, one in each line."""
    items: List[bytes] = []
    places: List[int] = []
    for place, line in enumerate(file, 1):
        progress.add(len(line))
        bare = line.strip(_OF_HEX)
        if bare:
            try:
                items.append(bytes.fromhex(bare.decode("ascii")))
            except ValueError:
                raise ValueError(f"{name}, line {place}: digits in hex are wanted, two for each byte") from None
            places.append(place)
    crs = None
    for item, place in zip(items, places):
        srid = _wkb.srid_of(item)
        crs = common_crs([(crs, name), (f"EPSG:{srid}" if srid else None, f"{name}, line {place}")])
    members: List[Dict[str, Any]] = [{} for _ in items]
    return Source(name, _wkb.joined(items, lambda place: f"{name}, line {places[place]}"), members, crs)


def common_crs(told: Iterable[Tuple[Optional[str], str]]) -> Optional[str]:
    """The reference system of several, each with who tells it. Raises ValueError where two differ."""
    known = [it for it in told if it[0] is not None]
    for crs, name in known:
        if crs != known[0][0]:
            raise ValueError(f"{name}: the reference system is {_short(crs)}, and that of {known[0][1]} {_short(known[0][0])}")
    return known[0][0] if known else None


def _short(crs: Optional[str]) -> str:
    text = str(crs)
    return text if len(text) < 50 else f"{text[:50]}..."


def corners_of(source: Source) -> array.array[float]:
    """The least and the greatest coordinates of a file's shapes.

    Raises ValueError where a coordinate isn't finite or the binary is faulty, which says where.
    """
    try:
        return _wkb.corners(source.shapes)
    except _wkb.BinaryFault as fault:
        raise ValueError(_told(source.shapes, fault)) from None


def _told(shapes: Binary, fault: _wkb.BinaryFault) -> str:
    if fault.kind not in _wkb.OF_NUMBERS:
        return str(fault)
    byte = shapes.offsets[fault.shape] + fault.byte
    try:
        # The fault is told of the point, one of whose coordinates it is.
        x, y = struct.unpack_from("=2d", shapes.data, byte)
        return f"{_wkb.row_of(shapes, fault)}: {y if math.isfinite(x) else x}; finite numbers are wanted"
    except (struct.error, KeyError):
        return str(fault)


def write(answer: Answer, names: Sequence[str], progress: Progress) -> None:
    """Writes an answer into files, or without one as GeoJSON to the standard output.

    Raises ValueError of what can't be written, and OSError.
    """
    for name in names:
        progress.begin(f"writing {name}", answer.feature_count())
        ending = ending_of(name)
        if ending in _vector.DRIVERS:
            features = _told_of(_features_as_lists(answer), progress)
            _vector.write(name, ending, features, _fields(answer), answer.is_apart, answer.crs)
            continue
        with open(name, "wb") as file:
            file.writelines(_WRITERS[ENDINGS[ending]](answer, progress.add))
    if not names:
        progress.begin("writing", answer.feature_count())
        _write_out(_json(answer, progress.add))


def _write_out(pieces: Iterator[bytes]) -> None:
    buffer = getattr(sys.stdout, "buffer", None)
    if buffer is None:
        sys.stdout.writelines(it.decode() for it in pieces)
    else:
        sys.stdout.flush()
        buffer.writelines(pieces)
    sys.stdout.flush()


def _told_of(items: Iterable[Any], progress: Progress) -> Iterator[Any]:
    for item in items:
        progress.add(1)
        yield item


def _coordinates(answer: Answer, part: Part, stop: bytes) -> Iterator[bytes]:
    """The coordinates of the polygons of a part, as GeoJSON has them, and behind each one byte."""
    known = numpy() if "numpy" in sys.modules else None
    return _decimals.written(part.polygons, answer.grid, answer.digits, stop, known)


def _json(answer: Answer, told: Callable[[int], None]) -> Iterator[bytes]:
    """GeoJSON: one feature, or a collection."""
    if answer.is_one and not answer.is_apart:
        yield from _one_feature(answer, told)
        return
    head = {"type": "FeatureCollection", **_crs_member(answer.crs), **answer.about}
    yield b'%b, "features": [\n' % _bytes_of(head)[:-1]
    is_first = True
    for feature in _features(answer, told):
        yield feature if is_first else b",\n" + feature
        is_first = False
    yield b"\n]}\n"


def _one_feature(answer: Answer, told: Callable[[int], None]) -> Iterator[bytes]:
    head = {"type": "Feature", **_crs_member(answer.crs), "properties": answer.about}
    yield b'%b, "geometry": {"type": "MultiPolygon", "coordinates": [' % _bytes_of(head)[:-1]
    last = b""
    for part in answer.parts:
        for piece in _coordinates(answer, part, b","):
            yield last
            last = piece
    told(1)
    yield last[:-1] + b"]}}\n"


def _lines(answer: Answer, told: Callable[[int], None]) -> Iterator[bytes]:
    """A feature in each line."""
    return (it + b"\n" for it in _features(answer, told))


def _features(answer: Answer, told: Callable[[int], None]) -> Iterator[bytes]:
    """Each feature, as GeoJSON has it."""
    kind = b"Polygon" if answer.is_apart else b"MultiPolygon"
    for part in answer.parts:
        texts = _split(_coordinates(answer, part, b"\n"))
        for members, start, stop in zip(part.members, part.offsets, part.offsets[1:]):
            head = _bytes_of({"type": "Feature", "properties": {}, **_one_of(members, answer.is_apart)})[:-1]
            polygons = itertools.islice(texts, stop - start)
            for text in polygons if answer.is_apart else [b"[%b]" % b",".join(polygons)]:
                told(1)
                yield b'%b, "geometry": {"type": "%b", "coordinates": %b}}' % (head, kind, text)


def _one_of(members: Dict[str, Any], is_apart: bool) -> Dict[str, Any]:
    """What a feature has, or each of those that its polygons become, none of which has its name alone."""
    return {name: it for name, it in members.items() if name != "id"} if is_apart else members


def _split(pieces: Iterator[bytes]) -> Iterator[bytes]:
    """The texts of pieces, behind each of which a line ends."""
    rest: List[bytes] = []
    for piece in pieces:
        first, *others = piece.split(b"\n")
        rest.append(first)
        if others:
            yield b"".join(rest)
            yield from others[:-1]
            rest = [others[-1]]


def _bytes_of(members: Dict[str, Any]) -> bytes:
    return json.dumps(members, ensure_ascii=False, default=str).encode("utf-8", "surrogatepass")


def _crs_member(crs: Optional[str]) -> Dict[str, Any]:
    """The member by which GeoJSON tells a reference system that isn't that of degrees, which is what it has."""
    if crs is None or crs == _geojson.OF_DEGREES or not crs.startswith("EPSG:"):
        return {}
    name = f"urn:ogc:def:crs:EPSG::{crs[5:]}"
    return {"crs": {"type": "name", "properties": {"name": name}}}


def _features_as_lists(answer: Answer) -> Iterator[Tuple[Dict[str, Any], Any]]:
    """Each feature's properties, and its coordinates."""
    for part in answer.parts:
        all_rings = _decimals.positions(part.polygons, answer.grid)
        polygons = ([_pairs(ring, answer.digits) for ring in rings] for rings in all_rings)
        for members, start, stop in zip(part.members, part.offsets, part.offsets[1:]):
            here = itertools.islice(polygons, stop - start)
            for coordinates in here if answer.is_apart else [list(here)]:
                yield members.get("properties") or {}, coordinates


def _pairs(ring: array.array[float], digits: Optional[int]) -> List[Tuple[float, float]]:
    numbers = _decimals.rounded(ring, digits)
    return list(zip(numbers[0::2], numbers[1::2]))


def _fields(answer: Answer) -> Dict[str, str]:
    if answer.fields is not None:
        return answer.fields
    return _vector.fields_of(it.get("properties") or {} for part in answer.parts for it in part.members)


def _hex(answer: Answer, told: Callable[[int], None]) -> Iterator[bytes]:
    """Well-known binary in hex, a shape in each line."""
    srid = int(answer.crs[5:]) if answer.crs and answer.crs.startswith("EPSG:") else 0
    for part in answer.parts:
        binaries = map(functools.partial(_binary, digits=answer.digits), _decimals.positions(part.polygons, answer.grid))
        for start, stop in zip(part.offsets, part.offsets[1:]):
            polygons = list(itertools.islice(binaries, stop - start))
            for shape in polygons if answer.is_apart else [_geojson.head(6, len(polygons)) + b"".join(polygons)]:
                told(1)
                yield (_with_srid(shape, srid) if srid else shape).hex().encode() + b"\n"


def _with_srid(shape: bytes, srid: int) -> bytes:
    """Well-known binary as extended one, which tells an SRID."""
    (kind,) = struct.unpack_from("=I", shape, 1)
    return shape[:1] + struct.pack("=II", kind | _HAS_SRID, srid) + shape[5:]


def _binary(rings: Sequence[array.array[float]], digits: Optional[int]) -> bytes:
    """A polygon in well-known binary."""
    parts = [_geojson.head(3, len(rings))]
    for ring in rings:
        numbers = array.array("d", _decimals.rounded(ring, digits))
        parts += struct.pack("=I", len(numbers) // 2), numbers.tobytes()
    return b"".join(parts)


def _picture(answer: Answer, told: Callable[[int], None]) -> Iterator[bytes]:
    told(answer.feature_count())
    yield _scene.drawn(answer.drawn, [it.polygons for it in answer.parts]).encode()


_WRITERS: Dict[str, Callable[[Answer, Callable[[int], None]], Iterator[bytes]]] = {
    GEOJSON: _json,
    LINES: _lines,
    HEX: _hex,
    PICTURE: _picture,
}
