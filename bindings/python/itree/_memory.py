"""Memory that the library reads and writes, and where it lies."""

from __future__ import annotations

import array
import ctypes
import sys
from types import ModuleType
from typing import Any, Literal, Optional, Tuple


class _Buffer(ctypes.Structure):
    """Python's Py_buffer."""

    _fields_ = [
        ("at", ctypes.c_void_p),
        ("owner", ctypes.c_void_p),
        ("bytes", ctypes.c_ssize_t),
        ("itemsize", ctypes.c_ssize_t),
        ("readonly", ctypes.c_int),
        ("ndim", ctypes.c_int),
        ("format", ctypes.c_char_p),
        ("shape", ctypes.c_void_p),
        ("strides", ctypes.c_void_p),
        ("suboffsets", ctypes.c_void_p),
        ("internal", ctypes.c_void_p),
    ]


# Of its own, for what ctypes.pythonapi has is everybody's, and others give it other types.
_get = ctypes.PYFUNCTYPE(ctypes.c_int, ctypes.py_object, ctypes.POINTER(_Buffer), ctypes.c_int)
_release = ctypes.PYFUNCTYPE(None, ctypes.POINTER(_Buffer))
_get_buffer = _get(("PyObject_GetBuffer", ctypes.pythonapi))
_release_buffer = _release(("PyBuffer_Release", ctypes.pythonapi))


def address_of(view: memoryview) -> int:
    """Where the memory of a view lies, whose rows lie one behind the other. It stays there as long as the view does."""
    buffer = _Buffer()
    # 0 asks for the address alone.
    _get_buffer(view, ctypes.byref(buffer), 0)
    at: int = buffer.at or 0
    _release_buffer(ctypes.byref(buffer))
    return at


def view_of(data: Any, letter: Literal["i", "q", "Q", "?"]) -> memoryview:
    """A flat view of the numbers in bytes, by the letter that array.array has for them."""
    view = memoryview(data)
    return view.cast("B").cast(letter) if view.nbytes else memoryview(bytearray()).cast(letter)


def room_for(count: int, typecode: str) -> Tuple[array.array[int], int]:
    """Room for so many numbers, each of which is 0, and where it lies."""
    room = array.array(typecode, [0]) * count
    return room, room.buffer_info()[0]


def numpy_where_loaded() -> Optional[ModuleType]:
    """numpy, where the caller's program has loaded it. It isn't loaded for this package's sake."""
    numpy = sys.modules.get("numpy")
    return numpy if hasattr(numpy, "asarray") else None
