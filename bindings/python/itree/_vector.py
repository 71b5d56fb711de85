"""Files that fiona reads and writes: GeoPackage, Shapefile and FlatGeobuf."""

from __future__ import annotations

import array
import importlib
import itertools
import json
import os
import struct
from typing import Any, Callable, Dict, Iterable, Iterator, List, Optional, Tuple

from ._geojson import NOTHING, Read, head
from ._wkb import Binary

# By a file's ending: fiona's name of the format, and what else it is called.
DRIVERS = {".gpkg": ("GPKG", "GeoPackage"), ".shp": ("ESRI Shapefile", "Shapefile"), ".fgb": ("FlatGeobuf", "FlatGeobuf")}
# What FlatGeobuf's fields can't be goes as text.
_OF_TIME = {"date", "time", "datetime"}
_KINDS = {"Polygon": 3, "MultiPolygon": 6, "GeometryCollection": 7}
_NUMBER = struct.Struct("=I")
_ENDING_OF_PACKAGE = ".gpkg:"


def fiona_for(name: str, driver: str, called: str) -> Any:
    """fiona. Raises ValueError where it isn't there, or doesn't have a format: it says what to install."""
    try:
        fiona = importlib.import_module("fiona")
    except ImportError:
        said = "is read and written by fiona, which isn't here: apt install python3-fiona, or pip install fiona"
        raise ValueError(f"{name}: {called} {said}") from None
    if driver not in fiona.supported_drivers:
        said = f"isn't among the formats of the fiona that is here, {fiona.__version__}: pip install --upgrade fiona"
        raise ValueError(f"{name}: {called} {said}")
    return fiona


def split_name(name: str) -> Tuple[str, Optional[str]]:
    """The path and the layer of FILE.gpkg:LAYER; the layer is None of any other name."""
    at = name.rfind(_ENDING_OF_PACKAGE)
    if at < 0 or os.path.exists(name):
        return name, None
    stop = at + len(_ENDING_OF_PACKAGE) - 1
    return name[:stop], name[stop + 1 :]


def read(name: str, ending: str, begin: Callable[[int], None], told: Callable[[int], None]) -> Tuple[Read, Dict[str, str]]:
    """The features of a file, and the types of their fields as fiona tells them.

    begin: is called with how many features there are. told: is called with how many were read, each time.

    Raises ValueError of what is faulty, which says where it stands.
    """
    path, layer = split_name(name)
    fiona = fiona_for(name, *DRIVERS[ending])
    # What isn't there, or can't be read, is told as that of any file.
    open(path, "rb").close()
    with _opened(fiona, name, path, layer) as source:
        begin(_count(source))
        return _read(source, name, told), dict(source.schema["properties"])


def _opened(fiona: Any, name: str, path: str, layer: Optional[str]) -> Any:
    try:
        layers = fiona.listlayers(path)
        if layer is None and len(layers) > 1:
            raise ValueError(f"it has the layers {', '.join(layers)}; name one, as {path}:{layers[0]}")
        return fiona.open(path, layer=layer)
    except (fiona.errors.FionaError, fiona.errors.DriverIOError, ValueError) as fault:
        raise ValueError(f"{name}: {fault}") from None


def _count(source: Any) -> int:
    """How many features there are, or 0 where nobody knows."""
    try:
        return max(0, len(source))
    except TypeError:
        return 0


def _read(source: Any, name: str, told: Callable[[int], None]) -> Read:
    data, offsets = bytearray(), array.array("Q", [0])
    members: List[Dict[str, Any]] = []
    for place, record in enumerate(source):
        geometry = record["geometry"]
        where = f"{name}, feature {place}"
        data += NOTHING if geometry is None else _binary_of(geometry, where)
        offsets.append(len(data))
        members.append({"properties": dict(record["properties"])})
        told(1)
    return Read(Binary(bytes(data), offsets, lambda place: f"{name}, feature {place}"), members, _crs_of(source))


def _crs_of(source: Any) -> Optional[str]:
    """The reference system, as EPSG:N where it is one of these."""
    try:
        number = source.crs.to_epsg()
    except (AttributeError, ValueError):
        number = str(source.crs.get("init", "")).lower().replace("epsg:", "") if source.crs else None
    return f"EPSG:{number}" if number else source.crs_wkt or None


def _binary_of(geometry: Any, where: str) -> bytes:
    kind = geometry["type"]
    if kind == "GeometryCollection":
        parts = [_binary_of(it, where) for it in geometry["geometries"]]
    elif kind == "MultiPolygon":
        parts = [_polygon(it, where) for it in geometry["coordinates"]]
    elif kind == "Polygon":
        return _polygon(geometry["coordinates"], where)
    else:
        raise ValueError(f"{where}: {kind}; Polygon, MultiPolygon or GeometryCollection is wanted")
    return head(_KINDS[kind], len(parts)) + b"".join(parts)


def _polygon(rings: Any, where: str) -> bytes:
    parts = [head(_KINDS["Polygon"], len(rings))]
    for ring in rings:
        try:
            # All but x and y are left out.
            pairs = ring if not ring or len(ring[0]) == 2 else [it[:2] for it in ring]
            numbers = array.array("d", itertools.chain.from_iterable(pairs))
        except TypeError:
            raise ValueError(f"{where}: coordinates that are no numbers") from None
        parts += _NUMBER.pack(len(numbers) // 2), numbers.tobytes()
    return b"".join(parts)


def write(
    name: str,
    ending: str,
    features: Iterable[Tuple[Dict[str, Any], Any]],
    fields: Dict[str, str],
    is_apart: bool,
    crs: Optional[str],
) -> None:
    """Writes features, each its properties and its coordinates: those of a Polygon, or of a MultiPolygon.

    fields: of the properties, by their types as fiona tells them.

    Raises ValueError of what can't be written.
    """
    driver, called = DRIVERS[ending]
    fiona = fiona_for(name, driver, called)
    path, layer = split_name(name)
    kind = "Polygon" if is_apart else "MultiPolygon"
    if driver == "FlatGeobuf":
        fields = {field: "str" if of in _OF_TIME else of for field, of in fields.items()}
    schema = {"geometry": "Polygon" if driver == "ESRI Shapefile" else kind, "properties": fields}
    how: Dict[str, Any] = {"layer": layer} if layer is not None else {}
    if crs is not None:
        how["crs_wkt" if not crs.startswith("EPSG:") else "crs"] = crs
    if layer is None and os.path.exists(path):
        os.remove(path)
    try:
        with fiona.open(path, "w", driver=driver, schema=schema, **how) as target:
            target.writerecords(_records(features, fields, kind))
    except (fiona.errors.FionaError, fiona.errors.DriverIOError) as fault:
        raise ValueError(f"{name}: {fault}") from None


def _records(features: Iterable[Tuple[Dict[str, Any], Any]], fields: Dict[str, str], kind: str) -> Iterator[Dict[str, Any]]:
    for properties, coordinates in features:
        told = {name: _fitting(properties.get(name), of) for name, of in fields.items()}
        yield {"type": "Feature", "properties": told, "geometry": {"type": kind, "coordinates": coordinates}}


def _fitting(value: Any, of: str) -> Any:
    """A property as its field takes it: what has parts goes as text."""
    if value is None or not of.startswith("str") or isinstance(value, str):
        return value
    return json.dumps(value, ensure_ascii=False, default=str)


def fields_of(members: Iterable[Dict[str, Any]]) -> Dict[str, str]:
    """The fields of properties, in order, by the types that fiona has for their values."""
    found: Dict[str, Optional[str]] = {}
    for properties in members:
        for name, value in properties.items():
            found[name] = _common(found.get(name), _type_of(value))
    return {name: of or "str" for name, of in found.items()}


def _type_of(value: Any) -> Optional[str]:
    if value is None:
        return None
    if isinstance(value, bool):
        return "bool"
    if isinstance(value, int):
        return "int" if -(2**63) <= value < 2**63 else "str"
    return "float" if isinstance(value, float) else "str"


def _common(one: Optional[str], other: Optional[str]) -> Optional[str]:
    """The type of a field that has values of both."""
    if one is None or other is None or one == other:
        return one or other
    return "float" if {one, other} == {"int", "float"} else "str"
