"""The library: where it lies, its calls by their types, and the version."""

from __future__ import annotations

import ctypes
import os

# As itree.h has them.
ANSWERED, REFUSED, OVERLAP, LENGTHS, CROSSING, MEETING, FAULTY, STOPPED, WINDOW, UNFIT = 0, 1, 2, 3, 6, 7, 8, 9, 10, 11
SHAPE, RANGE = 12, 13

_address, _length = ctypes.c_void_p, ctypes.c_size_t
_status = ctypes.c_int32
# What each call answers, and what it takes.
_CALLS = {
    "itree_below": (_status, [_address, _length, _address, _length, _address, _length, _address]),
    "itree_box_pairs": (_status, [_address, _address, _address]),
    "itree_chains_count": (_length, [_address]),
    "itree_chains_free": (None, [_address]),
    "itree_chains_offsets": (_address, [_address]),
    "itree_chains_point_count": (_length, [_address]),
    "itree_chains_points": (_address, [_address]),
    "itree_clip_lines": (_status, [_address, *[_address, _length] * 2, _status, _status, _address]),
    "itree_crop": (_status, [_address, *[_address, _length] * 2, _address]),
    "itree_erode": (_status, [*[_address, _length] * 3, _status, _address]),
    "itree_first_meeting": (_status, [_address, _length, _address, _address]),
    "itree_grid_fit": (_status, [_address, _length, _address, _address]),
    "itree_grid_positions": (_status, [_address, _address, _length, _address, _length]),
    "itree_grid_round": (_status, [_address, _address, _length, _address, _length, _address]),
    "itree_grow_lines": (_status, [*[_address, _length] * 3, _address]),
    "itree_how_they_meet": (_status, [_address, _address, _address]),
    "itree_join": (_status, [*[_address, _length] * 5, _address]),
    "itree_limit_memory": (None, [_length]),
    "itree_locate": (_status, [_address, _length, _address, _length, _address, _length, _address, _address]),
    "itree_meetings_all": (_status, [_address, _length, _address]),
    "itree_meetings_between": (_status, [_address, _length, _address, _length, _address]),
    "itree_minkowski": (_status, [*[_address, _length] * 3, _status, _address]),
    "itree_minkowski_joined": (
        _status,
        [*[_address, _length] * 3, _status, _status, ctypes.c_uint32, _address],
    ),
    "itree_node": (_status, [_address, _length, _address]),
    "itree_overlay": (_status, [*[_address, _length] * 4, _status, _status, _address]),
    "itree_overlay_each": (_status, [*[_address] * 4, _status, _status, _address, _length, _address]),
    "itree_overlay_in": (_status, [_address, *[_address, _length] * 4, _status, _status, _address]),
    "itree_pairs_count": (_length, [_address]),
    "itree_pairs_first": (_address, [_address]),
    "itree_pairs_free": (None, [_address]),
    "itree_points_in": (_status, [_address, _length, _address, _status, _status, _address]),
    "itree_polygon_parents": (_status, [_address, _address, _length]),
    "itree_polygons_fault": (_status, [_address, _address]),
    "itree_polygons_free": (None, [_address]),
    "itree_polygons_points": (_length, [_address, _address]),
    "itree_polygons_polygon_offsets": (_length, [_address, _address]),
    "itree_polygons_ring_offsets": (_length, [_address, _address]),
    "itree_snap": (_status, [_address, _length, _address]),
    "itree_stop_flag": (None, [_address]),
    "itree_whole_window": (_status, [_address, _length, _address, _address]),
    "itree_wkb_corners": (_status, [_address, _length, _address, _length, _address, _length, _address, _address]),
    "itree_wkb_read": (_status, [_address, _length, _address, _length, _address, _address, _address]),
    "itree_wkb_srid": (_status, [_address, _length, _address]),
    "itree_wkb_write": (
        _status,
        [*[_address, _length] * 3, _address, _status, ctypes.c_uint32, _address, _length, _address],
    ),
}


class GridOfC(ctypes.Structure):
    """itree_grid: the origin in units, and the exponent of the unit."""

    _fields_ = [("x", ctypes.c_int64), ("y", ctypes.c_int64), ("exponent", ctypes.c_int32)]


class ShapesOfC(ctypes.Structure):
    """itree_shapes: the points of all rings, where each ring stops among them, and each shape among the rings."""

    _fields_ = [
        ("points", _address),
        ("point_count", _length),
        ("ring_ends", _address),
        ("ring_count", _length),
        ("shape_ends", _address),
        ("shape_count", _length),
    ]


class GroupsOfC(ctypes.Structure):
    """itree_groups: the places of the shapes of all groups, and where each group stops among them."""

    _fields_ = [("places", _address), ("place_count", _length), ("ends", _address), ("group_count", _length)]


class LinesOfC(ctypes.Structure):
    """itree_lines: the points of all lines, and where each line stops among them."""

    _fields_ = [("points", _address), ("point_count", _length), ("ends", _address), ("line_count", _length)]


class WindowOfC(ctypes.Structure):
    """itree_window: a rectangle with whole corners."""

    _fields_ = [(side, ctypes.c_int32) for side in ("left", "low", "right", "high")]


class PlaceOfC(ctypes.Structure):
    """itree_wkb_place: what is faulty, in which shape, and the byte at which it begins."""

    _fields_ = [("kind", ctypes.c_size_t), ("shape", ctypes.c_size_t), ("byte", ctypes.c_size_t)]


class PointOfC(ctypes.Structure):
    """itree_point."""

    _fields_ = [("x", ctypes.c_int32), ("y", ctypes.c_int32)]


class EdgeOfC(ctypes.Structure):
    """itree_edge."""

    _fields_ = [(end, ctypes.c_int32) for end in ("x0", "y0", "x1", "y1")]


class FaultOfC(ctypes.Structure):
    """itree_fault_place: what is wrong with polygons, 0 where nothing is, and where."""

    _fields_ = [
        ("kind", _length),
        ("polygon", _length),
        ("ring", _length),
        ("point", PointOfC),
        ("one", EdgeOfC),
        ("other", EdgeOfC),
    ]


def checked(status: int, limit: int = 0) -> None:
    """Raises what a status says that is no answer, of a call that was held to a limit of memory, or to none (0)."""
    if status == REFUSED:
        raise MemoryError(_refused(limit))
    if status == STOPPED:
        raise KeyboardInterrupt
    if status != ANSWERED:
        raise SystemError(f"itree's library ends with the status {status}, which it has no reason for")


def _refused(limit: int) -> str:
    said = "itree: memory was refused"
    return f"{said}: the call would hold more than memory_limit, {limit} bytes, or than there is" if limit else said


def _beside(*names: str) -> str:
    """The path of a file of this package, or of the checkout that it lies in."""
    return os.path.normpath(os.path.join(os.path.dirname(os.path.abspath(__file__)), *names))


def _file_of_library() -> str:
    named = os.environ.get("ITREE_LIBRARY")
    if os.path.exists(_beside("libitree.so")):
        return _beside("libitree.so")
    if named:
        if not os.path.exists(named):
            raise ImportError(f"{named} isn't there, which ITREE_LIBRARY names")
        return os.path.abspath(named)
    built = _beside("..", "..", "built", "libitree.so")
    if not os.path.exists(built):
        raise ImportError(f"{built} isn't there: bindings/build makes it, or ITREE_LIBRARY names another")
    return built


def _typed(library: ctypes.CDLL) -> ctypes.CDLL:
    for name, (answer, types) in _CALLS.items():
        call = getattr(library, name)
        call.restype, call.argtypes = answer, types
    return library


def _opened() -> ctypes.CDLL:
    path = _file_of_library()
    try:
        return _typed(ctypes.CDLL(path))
    except (OSError, AttributeError) as fault:
        named = os.path.abspath(os.environ.get("ITREE_LIBRARY") or "") == path
        whose = f"{path}, which ITREE_LIBRARY names," if named else path
        raise ImportError(f"{whose} isn't itree's library: {fault}") from fault


def _version() -> str:
    packaged = _beside("VERSION")
    path = packaged if os.path.exists(packaged) else _beside("..", "..", "..", "VERSION")
    with open(path, encoding="ascii") as file:
        return file.read().strip()


library = _opened()
version = _version()
