"""Nothing behind what a call is given is read: every array ends where a page begins that can't be read.

usage: test_guarded.py [COUNT]    of so many texts in well-known binary, 2,000 where no number is given

Texts are well-formed, cut, or have bytes changed; the shapes of each are read twice, in one buffer with others and alone.
A read behind an array ends the process by a signal. The last line is 'Ran N tests', as unittest has it.
"""

import ctypes
import mmap
import random
import struct
import sys

from itree._library import library

PAGE = mmap.PAGESIZE
FAULTY, ANSWERED = 8, 0
POLYGON, MULTIPOLYGON, COLLECTION = 3, 6, 7

c = ctypes.CDLL(None, use_errno=True)
c.mprotect.argtypes = [ctypes.c_void_p, ctypes.c_size_t, ctypes.c_int]


class Grid(ctypes.Structure):
    _fields_ = [("x", ctypes.c_int64), ("y", ctypes.c_int64), ("exponent", ctypes.c_int32)]


class Place(ctypes.Structure):
    _fields_ = [("kind", ctypes.c_size_t), ("shape", ctypes.c_size_t), ("byte", ctypes.c_size_t)]


class Guarded:
    """Bytes whose end is the end of the readable memory."""

    def __init__(self, data):
        pages = len(data) // PAGE + 1
        self.memory = mmap.mmap(-1, (pages + 1) * PAGE)
        start = ctypes.addressof(ctypes.c_char.from_buffer(self.memory))
        if c.mprotect(start + pages * PAGE, PAGE, 0):
            raise OSError(ctypes.get_errno(), "mprotect")
        self.memory[pages * PAGE - len(data) : pages * PAGE] = data
        self.at = start + pages * PAGE - len(data)


def geometry(chance, depth):
    """A geometry: each with a byte order of its own, some with z, m or an SRID, as EWKB or as ISO has them."""
    order = chance.choice("<>")
    kind = chance.choice([POLYGON, POLYGON, MULTIPOLYGON, COLLECTION] if depth else [POLYGON])
    return of_kind(chance, kind, order, depth)


def of_kind(chance, kind, order, depth):
    more, code, srid = chance.randrange(3), kind, b""
    if chance.random() < 0.5:
        code += (0, 1000, 3000)[more]
    else:
        code |= (0, 0x80000000, 0xC0000000)[more]
        if chance.random() < 0.3:
            code |= 0x20000000
            srid = struct.pack(order + "I", 4326)
    head = bytes([order == "<"]) + struct.pack(order + "I", code) + srid
    if kind == POLYGON:
        rings = [ring(chance, order, 2 + more) for _ in range(chance.randrange(3))]
        return head + struct.pack(order + "I", len(rings)) + b"".join(rings)
    parts = [
        of_kind(chance, POLYGON, chance.choice("<>"), 0) if kind == MULTIPOLYGON else geometry(chance, depth - 1)
        for _ in range(chance.randrange(3))
    ]
    return head + struct.pack(order + "I", len(parts)) + b"".join(parts)


def ring(chance, order, width):
    points = [[chance.uniform(-99, 99) for _ in range(width)] for _ in range(chance.randrange(5))]
    points += points[:1] if chance.random() < 0.7 else []
    numbers = [number for point in points for number in point]
    return struct.pack(order + "I", len(points)) + struct.pack(f"{order}{len(numbers)}d", *numbers)


def spoiled(chance, text):
    """The text, cut or with a byte changed, or as it is."""
    way = chance.randrange(4)
    if way == 0 or not text:
        return text
    if way == 1:
        return text[: chance.randrange(len(text))]
    changed = bytearray(text)
    changed[chance.randrange(min(len(text), 40) if way == 2 else len(text))] = chance.choice([0, 1, 3, 6, 127, 255, 32])
    return bytes(changed)


def read(texts):
    """The status of reading shapes, and the place that is told."""
    ends = [0]
    for text in texts:
        ends.append(ends[-1] + len(text))
    data, offsets = Guarded(b"".join(texts)), Guarded(struct.pack(f"={len(ends)}Q", *ends))
    grid, place, handle = Grid(0, 0, -20), Place(), ctypes.c_void_p()
    given = data.at, ends[-1], offsets.at, len(ends)
    status = library.itree_wkb_read(*given, ctypes.byref(grid), ctypes.byref(handle), ctypes.byref(place))
    library.itree_polygons_free(handle)
    corners, found = Guarded(bytes(32)), ctypes.c_size_t()
    library.itree_wkb_corners(*given, corners.at, 2, ctypes.byref(found), ctypes.byref(place))
    library.itree_wkb_srid(data.at, len(texts[0]) if len(texts) == 1 else 0, ctypes.byref(ctypes.c_uint32()))
    return status, place.shape, place.byte


def main():
    count = int(sys.argv[1]) if sys.argv[1:] else 2000
    chance, statuses = random.Random(20), {}
    for _ in range(count):
        texts = [spoiled(chance, geometry(chance, 3)) for _ in range(chance.randrange(1, 4))]
        status, shape, byte = read(texts)
        assert status in (ANSWERED, FAULTY), status
        assert shape < len(texts) and byte <= sum(map(len, texts)), (shape, byte)
        alone = [read([text])[0] for text in texts]
        assert (status == ANSWERED) == all(it == ANSWERED for it in alone), (status, alone)
        statuses[status] = statuses.get(status, 0) + 1
    assert min(statuses.get(it, 0) for it in (ANSWERED, FAULTY)) > count // 20, statuses
    print(f"{statuses[ANSWERED]} texts are read, and {statuses[FAULTY]} are faulty")
    print(f"Ran {count} tests")


if __name__ == "__main__":
    main()
