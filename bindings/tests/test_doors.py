"""What comes into Python's calls and goes out of them: shapely's objects, geopandas', well-known binary, arrays of rings;
copies and pickles; calls that are stopped; pictures, lines and the command.

usage: test_doors.py [--many] [words of unittest]

bindings/test runs it over a library that refuses memory when it is told to (ITREE_LIBRARY). What needs numpy, shapely,
geopandas or cloudpickle is skipped where they aren't there. --many tries by chance some 25 to 50 times as often.
"""

import array
import collections
import contextlib
import copy
import ctypes
import fractions
import io
import itertools
import logging
import math
import multiprocessing
import os
import pathlib
import pickle
import random
import re
import resource
import signal
import struct
import subprocess
import sys
import threading
import time
import types
import unittest
from unittest import mock
from xml.etree import ElementTree

import itree
from itree import __main__ as command
from itree import _direct, _gathered, _rings, _rows, _shapely, _shapes, _wkb

try:
    import numpy
except ImportError:
    numpy = None
try:
    import shapely
    import shapely.geometry
    import shapely.validation
    import shapely.wkb
    from shapely.ops import unary_union
except ImportError:
    shapely = None
try:
    import geopandas
except ImportError:
    geopandas = None
try:
    import cloudpickle
except ImportError:
    cloudpickle = None

needs_numpy = unittest.skipUnless(numpy, "numpy isn't there")
needs_shapely = unittest.skipUnless(shapely, "shapely isn't there")
needs_geopandas = unittest.skipUnless(geopandas, "geopandas isn't there")

MANY = "--many" in sys.argv
TOP = pathlib.Path(__file__).resolve().parent.parent.parent
LEAST, MOST = -(2**31), 2**31 - 1


@contextlib.contextmanager
def without_numpy():
    """As if the program hadn't loaded numpy."""
    with contextlib.ExitStack() as stack:
        for module in _rows, _shapes, _rings, _gathered, _wkb:
            stack.enter_context(mock.patch.object(module, "numpy_where_loaded", lambda: None))
        yield


WAYS = [without_numpy, contextlib.nullcontext] if numpy else [without_numpy]


def square(x, y, side):
    return [(x, y), (x + side, y), (x + side, y + side), (x, y + side)]


BIG, SMALL = square(0, 0, 9), square(3, 3, 3)
FRAME = [BIG, SMALL[:1] + SMALL[:0:-1]]
BOW = [(0, 0), (4, 4), (4, 0), (0, 4)]


def from_least(ring):
    """A ring that begins at its least point."""
    ring = list(map(tuple, ring))
    start = ring.index(min(ring))
    return ring[start:] + ring[:start]


def told(polygons):
    """Polygons as lists of rings, where each ring begins at its least point, in order."""
    return sorted([from_least(it.outer), *sorted(map(from_least, it.holes))] for it in polygons)


def rings_of(held):
    """The rings that the library is given."""
    at, count, ends, rings = held.given
    numbers, stops = array.array("i"), array.array("Q")
    numbers.frombytes(ctypes.string_at(at, 8 * count) if count else b"")
    stops.frombytes(ctypes.string_at(ends, 8 * rings) if rings else b"")
    points = list(zip(numbers[0::2], numbers[1::2]))
    return [points[start:stop] for start, stop in zip([0, *stops], stops)]


def read(given, grid=None):
    """The grid that a call takes of one argument, and the rings that it gives to the library."""
    items = _gathered.gathered([(given, "clip")], grid is not None, kept=False)
    taken = grid or _gathered.chosen(items)
    return taken, rings_of(_gathered.held(items, taken)[0])


def twice_area(ring):
    ring = [tuple(map(fractions.Fraction, point)) for point in ring]
    return sum(x0 * y1 - x1 * y0 for (x0, y0), (x1, y1) in zip(ring, [*ring[1:], *ring[:1]]))


class Once(unittest.TestCase):
    """What can be read once alone is read once, or refused."""

    SAID = " is an iterator, which can be read once alone; give a list$"

    def test_a_fit_refuses_it(self):
        shape = {"type": "Polygon", "coordinates": [iter(BIG)]}
        for given, where in (
            ((ring for ring in [BIG]), "shape 1"),
            (map(list, [BIG]), "shape 1"),
            ([map(tuple, BIG)], "shape 1, ring 0"),
            ([BIG, [iter((1, 2)), (3, 4)]], "shape 1, ring 1, row 0"),
            (shape, "shape 1, ring 0"),
        ):
            with self.subTest(where=where), self.assertRaisesRegex(TypeError, f"^{where}{self.SAID}"):
                itree.Grid.fit([BIG], given)

    def test_a_call_takes_it_once(self):
        floats = [[(x + 0.5, y) for x, y in ring] for ring in FRAME]
        grid = itree.Grid.fit(floats)
        for given in (iter(floats), (ring for ring in floats), map(iter, floats)):
            self.assertEqual(told(itree.simplify(given, grid=grid)), [[[(x + 0.5, y) for x, y in ring] for ring in FRAME]])
        shape = {"type": "Polygon", "coordinates": [[(0.5, 0), (9, 0), (9, 9), (0.5, 0)]]}
        answer = itree.simplify(iter([shape]))
        self.assertEqual((len(answer), answer.grid), (1, itree.Grid.fit(shape)))
        self.assertEqual(told(itree.overlay(iter([BIG]), iter([SMALL]), "difference")), [FRAME])

    def test_two_of_one(self):
        rings = iter([BIG])
        with self.assertRaisesRegex(TypeError, "^clip is the iterator of subject, which can be read once alone; give a list$"):
            itree.overlay(rings, rings)


class Unordered(unittest.TestCase):
    def test_points_in_no_order(self):
        said = ", which has no order; a list is wanted$"
        for given, where in (
            ([set(BIG)], "rings, ring 0: a set"),
            ([BIG, frozenset(SMALL)], "rings, ring 1: a frozenset"),
            ([[(0, 0), {1, 2}]], "rings, ring 0, row 1: a set"),
            ({"type": "Polygon", "coordinates": [set(BIG)]}, "rings, ring 0: a set"),
        ):
            for grid in None, itree.Grid():
                with self.subTest(given=given), self.assertRaisesRegex(TypeError, f"^{where}{said}"):
                    itree.simplify(given, grid=grid)
        for call, name in (itree.meetings, "edges"), (lambda it: itree.below([], it), "points"):
            with self.assertRaisesRegex(TypeError, f"^{name}: a set{said}"):
                call({(0, 0), (1, 1)})

    def test_rings_in_no_order(self):
        self.assertEqual(told(itree.simplify({tuple(BIG), tuple(FRAME[1])})), [FRAME])


class Names(unittest.TestCase):
    def test_shows_public_names_alone(self):
        self.assertEqual([it for it in dir(itree) if not it.startswith("__")], sorted(itree.__all__))
        for name in dir(itree):
            getattr(itree, name)


class Copies(unittest.TestCase):
    """Copies and pickles are as what they are of."""

    def things(self):
        polygons = itree.overlay([BIG], [SMALL, square(20, 0, 2)], "xor")
        grid = itree.Grid((0.5, 0.0), 0.125)
        return [
            polygons,
            itree.simplify([BOW], grid=grid),
            itree.simplify([]),
            itree.simplify([BOW], grid=grid)[0],
            grid,
            itree.Grid.fit([BIG]),
            itree.below([(0, 10, 5), (2, 6, 8)], [(6, 7), (2, 9), (11, 9)], as_array=True),
            itree.below([], [], as_array=True),
            itree.snap([(0, 0, 3, 1), (0, 1, 3, 0)], as_array=True),
            itree.snap([], as_array=True),
            itree.Rings(array.array("i", [0, 0, 9, 0, 9, 9]), [0, 3]),
            itree.Rings(array.array("d", [0, 0.5, 9, 0, 9, 9]), [0, 3]),
            itree.Rings([], [0]),
        ]

    def assert_same(self, one, other):
        self.assertIs(type(one), type(other))
        self.assertEqual(one, other)
        self.assertFalse(one != other)
        for name in "points", "ring_offsets", "polygon_offsets", "values", "found", "offsets":
            if isinstance(getattr(one, name, None), memoryview):
                views = getattr(one, name), getattr(other, name)
                self.assertEqual(*((it.format, it.shape, it.readonly, it.tolist()) for it in views))

    def copies(self, thing):
        yield copy.copy(thing)
        yield copy.deepcopy(thing)
        for protocol in range(pickle.HIGHEST_PROTOCOL + 1):
            yield pickle.loads(pickle.dumps(thing, protocol))
            if cloudpickle:
                yield cloudpickle.loads(cloudpickle.dumps(thing, protocol))

    def test_copies(self):
        for thing in self.things():
            for again in self.copies(thing):
                self.assert_same(again, thing)

    def test_copies_of_exceptions(self):
        for fault in itree.Overlap(3), itree.Crossing((1, 2)):
            for again in self.copies(fault):
                self.assertEqual((type(again), str(again), vars(again)), (type(fault), str(fault), vars(fault)))

    def test_out_of_band(self):
        polygons, buffers = self.things()[0], []
        data = pickle.dumps(polygons, 5, buffer_callback=buffers.append)
        self.assertEqual(len(buffers), 3)
        for given in buffers, [bytes(it.raw()) for it in buffers], [bytearray(it.raw()) for it in buffers]:
            self.assert_same(pickle.loads(data, buffers=given), polygons)

    def test_other_processes(self):
        things = self.things()
        for method in "fork", "spawn":
            with multiprocessing.get_context(method).Pool(1) as pool:
                for again, thing in zip(pool.map(copy.copy, things), things):
                    self.assert_same(again, thing)

    def test_copies_are_used_as_ever(self):
        for polygons in itree.overlay([BIG], [SMALL], "difference"), itree.simplify(FRAME, grid=itree.Grid(unit=0.5)):
            again = pickle.loads(pickle.dumps(polygons))
            self.assertEqual((told(again), again.grid), (told(polygons), polygons.grid))
            self.assertEqual(told(itree.simplify(again)), [FRAME])
            self.assertEqual(again.to_wkb(), polygons.to_wkb())

    def test_equal_answers(self):
        one, other = (itree.overlay([BIG], [SMALL], "difference") for _ in range(2))
        self.assertTrue(one == other and hash(one) == hash(other) and len({one, other}) == 1)
        for given, how in (([BIG], {}), (FRAME, {"grid": itree.Grid(unit=0.5)}), ([], {})):
            self.assertTrue(one != itree.simplify(given, **how))
        self.assertFalse(one == list(one))
        for thing in self.things()[6:]:
            self.assertIsNone(type(thing).__hash__)

    def test_copies_may_be_written_where_answers_may(self):
        chains = itree.snap([(0, 0, 3, 1), (0, 1, 3, 0)], as_array=True)
        again = copy.deepcopy(chains)
        again.points[0, 0] = 77
        self.assertTrue(chains.points[0, 0] != 77 and chains != again)


class ArraysOfRings(unittest.TestCase):
    """itree.Rings."""

    POINTS = [point for ring in FRAME for point in ring]

    def assert_read(self, rings, grid=None):
        for way in WAYS:
            with way():
                self.assertEqual(read(rings, grid), (grid, FRAME))

    def test_whole_numbers(self):
        flat = array.array("i", itertools.chain(*self.POINTS))
        for typecode in "bhilq":
            points = array.array(typecode, flat)
            for offsets in "bBhHiIlLqQ":
                stops = array.array(offsets, [0, 4, 8])
                self.assert_read(itree.Rings(points, stops))
                self.assert_read(itree.Rings(memoryview(points).cast("B").cast(typecode, (8, 2)), memoryview(stops)))
        self.assert_read(itree.Rings(self.POINTS, [0, 4, 8]))
        self.assertEqual(told(itree.simplify(itree.Rings(self.POINTS, [0, 4, 8]))), [FRAME])

    def test_are_read_where_they_lie(self):
        points, stops = array.array("i", itertools.chain(*self.POINTS)), array.array("q", [0, 4, 8])
        rings = itree.Rings(points, stops)
        self.assertEqual(rings.given(), (points.buffer_info()[0], 8, stops.buffer_info()[0] + 8, 2))
        points[0:2] = array.array("i", [-1, -1])
        self.assertEqual(read(rings)[1][0][0], (-1, -1))

    def test_answers_again(self):
        for grid in None, itree.Grid((0.5, 0.0), 0.125):
            frame = itree.overlay([BIG], [SMALL], "difference", grid=grid)
            rings = itree.Rings(frame.points, frame.ring_offsets)
            self.assertEqual(rings.given(), frame.given())
            self.assertEqual(itree.simplify(rings).points, frame.points)

    @needs_numpy
    def test_numpy(self):
        for kind in "bhilqfde":
            points = numpy.array(self.POINTS, dtype=kind)
            grids = [itree.Grid(unit=1.0)] if kind in "fde" else [None, itree.Grid(unit=1.0)]
            for grid in grids:
                for offsets in numpy.array([0, 4, 8], dtype="q"), numpy.array([0, 4, 8], dtype=">u2"), [0, 4, 8]:
                    self.assert_read(itree.Rings(points, offsets), grid)
                    self.assert_read(itree.Rings(points.ravel(), offsets), grid)
                    self.assert_read(itree.Rings(numpy.asfortranarray(points), offsets), grid)
                    self.assert_read(itree.Rings(points.astype(points.dtype.newbyteorder(">")), offsets), grid)

    def test_floats(self):
        floats = array.array("d", (number + 0.25 for number in itertools.chain(*self.POINTS)))
        rings, grid = itree.Rings(floats, [0, 4, 8]), itree.Grid((0.25, 0.25), 0.25)
        for way in WAYS:
            with way():
                self.assertEqual(read(rings, grid)[1], [[(4 * x, 4 * y) for x, y in ring] for ring in FRAME])
                self.assertEqual(itree.Grid.fit(rings), itree.Grid.fit([[(0.25, 0.25), (9.25, 9.25)]]))
        with self.assertRaisesRegex(TypeError, "^rings: floats; whole numbers are wanted; .* give a grid"):
            itree.simplify(rings)

    def test_among_others(self):
        rings = itree.Rings(self.POINTS, [0, 4, 8])
        self.assertEqual(told(itree.simplify([rings, square(20, 0, 2)])), [FRAME, [square(20, 0, 2)]])
        self.assertEqual([list(map(tuple, it.tolist())) for it in rings], FRAME)
        self.assertEqual(told(itree.overlay(rings, [SMALL])), [[BIG]])
        self.assertEqual(repr(rings), "<itree.Rings: 2 rings, 8 points, whole numbers>")

    def test_no_rings(self):
        for offsets in [0], [0, 0, 0]:
            self.assertEqual(list(itree.simplify(itree.Rings([], offsets))), [])
            self.assertEqual(itree.Grid.fit(itree.Rings([], offsets)), itree.Grid())

    def test_faults(self):
        for points, offsets, error, said in (
            (self.POINTS, [0, 9], ValueError, "ring_offsets: the last one is 9, and there are 8 points"),
            (self.POINTS, [0, 5, 4], ValueError, "ring_offsets: one is less than that before it"),
            (self.POINTS, [1, 5], ValueError, "ring_offsets: the first one is 0, and one more than there are rings are wanted"),
            (self.POINTS, [], ValueError, "ring_offsets: the first one is 0, and one more than there are rings are wanted"),
            ([(1, 2, 3)], [0, 1], ValueError, "points, row 0: 3 numbers, 2 are wanted"),
            ([(1, 2.5)], [0, 1], TypeError, "points, row 0: 2.5; whole numbers are wanted"),
            (self.POINTS, array.array("d", [0, 8]), TypeError, "ring_offsets: a flat array of whole numbers is wanted"),
            (self.POINTS, 7, TypeError, "ring_offsets: a flat array of whole numbers is wanted"),
        ):
            with self.subTest(said=said), self.assertRaisesRegex(error, f"^{re.escape(said)}"):
                itree.Rings(points, offsets)
        floats = itree.Rings(array.array("d", [0, 0, 1, 1, 2, math.nan, 5e9, 1]), [0, 2, 4])
        for way in WAYS:
            with way(), self.assertRaisesRegex(ValueError, "^rings, ring 1, row 0: nan; finite numbers are wanted$"):
                itree.simplify(floats, grid=itree.Grid())
        floats = itree.Rings(array.array("d", [0, 0, 1, 1, 2, 2, 5e9, 1]), [0, 2, 4])
        with self.assertRaisesRegex(ValueError, "^rings, ring 1, row 1: 5000000000.0 is off the grid"):
            itree.simplify(floats, grid=itree.Grid())


def wkb_ring(ring, order, width, numbers):
    rows = [[*point, *(numbers.uniform(-9, 9) for _ in range(width - 2))] for point in ring]
    return struct.pack(f"{order}I{width * len(rows)}d", len(rows), *itertools.chain(*rows))


def wkb_head(kind, order, extra, srid, iso):
    """Byte order and type, with Z, M or both, as ISO or as extended binary has it."""
    z, m = extra in ("z", "zm"), extra in ("m", "zm")
    number = kind + 1000 * z + 2000 * m if iso else kind | z << 31 | m << 30
    if srid is not None:
        number |= 0x20000000
    return struct.pack(f"{order}BI", order == "<", number) + (b"" if srid is None else struct.pack(f"{order}I", srid))


def random_wkb(numbers, shape, srid=None):
    """Well-known binary of a shape as nested lists: [rings] of a polygon, or ("multi" or "some", shapes)."""
    order, iso, extra = numbers.choice("<>"), numbers.random() < 0.5, numbers.choice(["", "", "z", "m", "zm"])
    kind = {"multi": 6, "some": 7}.get(shape[0]) if isinstance(shape, tuple) else 3
    head = wkb_head(kind, order, extra, srid, iso)
    parts = shape[1] if isinstance(shape, tuple) else shape
    if kind == 3:
        body = [wkb_ring(ring, order, 2 + len(extra), numbers) for ring in parts]
    else:
        body = [random_wkb(numbers, part) for part in parts]
    return head + struct.pack(f"{order}I", len(parts)) + b"".join(body)


def random_ring(numbers):
    ring = [(numbers.randrange(-20, 20), numbers.randrange(-20, 20)) for _ in range(numbers.randrange(0, 7))]
    return ring + ring[:1] * numbers.randrange(2)


def random_shape(numbers, deep=3):
    kind = numbers.randrange(3) if deep else 0
    if kind == 0:
        return [random_ring(numbers) for _ in range(numbers.randrange(4))]
    if kind == 1:
        return "multi", [random_shape(numbers, 0) for _ in range(numbers.randrange(4))]
    return "some", [random_shape(numbers, deep - 1) for _ in range(numbers.randrange(4))]


def rings_in(shape):
    """The rings of a shape as the library has to read them: opened, outer ones counterclockwise, holes clockwise."""
    if isinstance(shape, tuple):
        return [ring for part in shape[1] for ring in rings_in(part)]
    rings = []
    for place, ring in enumerate(shape):
        opened = ring[:-1] if len(ring) > 1 and ring[0] == ring[-1] else ring
        turns = twice_area(opened) > 0 if place else twice_area(opened) <= 0
        rings.append((opened[::-1] if turns else opened))
    return rings


def turned_alike(rings):
    """Rings, each of which begins at its least point: where one begins once it is turned is open."""
    return [from_least(it) if it else [] for it in rings]


def shapely_shape(numbers, deep=2):
    """A shape of shapely's: polygons with holes, in two or three dimensions, multipolygons, and collections of these."""
    kind = numbers.randrange(3) if deep else 0
    if kind == 1:
        return shapely.geometry.MultiPolygon([shapely_shape(numbers, 0) for _ in range(numbers.randrange(4))])
    if kind == 2:
        return shapely.geometry.GeometryCollection([shapely_shape(numbers, deep - 1) for _ in range(numbers.randrange(4))])
    width, scale = numbers.choice([2, 2, 3]), numbers.choice([1, 1, 0.37])
    rings = [
        [[scale * numbers.randrange(-20, 20) for _ in range(width)] for _ in range(numbers.randrange(3, 7))]
        for _ in range(numbers.randrange(1, 3))
    ]
    return shapely.geometry.Polygon(rings[0], rings[1:]) if numbers.random() < 0.95 else shapely.geometry.Polygon()


def exact_rings(shape):
    """The rings of a shape of shapely's that are no lines or points, opened and turned by fractions."""
    if not shape.geom_type.endswith(("Polygon", "Collection")):
        raise TypeError(shape.geom_type)
    if shape.geom_type != "Polygon":
        return [ring for part in shape.geoms for ring in exact_rings(part)]
    if shape.is_empty:
        return []
    return rings_in([[point[:2] for point in ring.coords] for ring in (shape.exterior, *shape.interiors)])


class Binary(unittest.TestCase):
    """Well-known binary, written by hand."""

    def test_each_form(self):
        numbers = random.Random(61)
        for _ in range(50000 if MANY else 2000):
            shapes = [random_shape(numbers) for _ in range(numbers.randrange(1, 4))]
            items = [random_wkb(numbers, it, numbers.choice([None, None, 4326])) for it in shapes]
            given = items[0] if len(items) == 1 and numbers.random() < 0.5 else items
            grid, rings = read(given)
            self.assertIsNone(grid)
            self.assertEqual(turned_alike(rings), turned_alike(it for shape in shapes for it in rings_in(shape)), items)

    def test_faulty_bytes(self):
        numbers, counts = random.Random(62), collections.Counter()
        said = re.compile(r"clip, place (\d+), byte (\d+): .+|two SRID that differ: \d+ and \d+")
        for _ in range(50000 if MANY else 2000):
            items = [random_wkb(numbers, random_shape(numbers)) for _ in range(2)]
            place = numbers.randrange(2)
            faulty = bytearray(items[place])
            if numbers.random() < 0.5:
                del faulty[numbers.randrange(len(faulty)) :]
            else:
                faulty[numbers.randrange(len(faulty))] ^= 1 << numbers.randrange(8)
            items[place] = bytes(faulty)
            try:
                read(items)
                counts["read"] += 1
            except ValueError as fault:
                self.assertIs(type(fault), ValueError)
                found = said.fullmatch(str(fault))
                self.assertTrue(found, fault)
                if found.group(1):
                    self.assertEqual(int(found.group(1)), place, (fault, items))
                    self.assertLessEqual(int(found.group(2)), len(faulty))
                counts["faulty"] += 1
        self.assertGreater(min(counts["read"], counts["faulty"]), 300, counts)

    def test_faults(self):
        good = struct.pack("<BII", 1, 3, 1) + wkb_ring(BIG, "<", 2, None)
        for data, said in (
            (b"", "byte 0: the well-known binary stops before it is whole"),
            (good[:20], "the well-known binary stops before it is whole"),
            (b"\x07" + good[1:], "byte 0: the byte order is 7; 0 or 1 is wanted"),
            (struct.pack("<BIdd", 1, 1, 3, 4), "Point; Polygon, MultiPolygon or GeometryCollection is wanted"),
            (struct.pack(">BII", 0, 1002, 0), "LineString; Polygon, MultiPolygon or GeometryCollection is wanted"),
            (good + b"\0", f"byte {len(good)}: bytes behind the end of the well-known binary"),
            (good[:-8] + struct.pack("<d", math.nan), "a number that isn't finite; finite numbers are wanted"),
        ):
            with self.subTest(said=said):
                with self.assertRaises(ValueError) as raised:
                    read(data)
                self.assertRegex(str(raised.exception), f"^clip.*{re.escape(said)}$")
                for call in itree.Grid.fit, itree.simplify, lambda it: itree.simplify([BIG, it], grid=itree.Grid()):
                    with self.assertRaises(ValueError):
                        call(data)
        off = struct.pack("<BII", 1, 3, 1) + wkb_ring([(0, 0), (1, 5e9), (1, 1)], "<", 2, None)
        with self.assertRaisesRegex(ValueError, "^rings, byte .*: a number that is off the grid, which is Grid"):
            itree.simplify(off, grid=itree.Grid())

    def test_each_kind_of_bytes(self):
        good = struct.pack("<BII", 1, 3, 2) + b"".join(wkb_ring(it, "<", 2, None) for it in FRAME)
        for given in good, bytearray(good), memoryview(good), [good], (bytearray(good), None), iter([memoryview(good)]):
            self.assertEqual(read(given), (None, FRAME))
        self.assertEqual(told(itree.overlay(good, [SMALL])), [[BIG]])
        self.assertEqual(told(itree.simplify([good, square(20, 0, 2)])), [FRAME, [square(20, 0, 2)]])

    def test_one_number_that_is_not_whole(self):
        numbers = random.Random(68)
        for order, count in itertools.product("<>", (3, 60, 200)):
            for place, number in (
                (None, 0),
                (0, 0.5),
                (2 * count - 1, 0.5),
                (count, 1e-300),
                (count, 2.0**31),
                (7 % count, -0.0),
            ):
                ring = [numbers.randrange(LEAST, MOST) for _ in range(2 * count)]
                if place is not None:
                    ring[place] = number
                pairs = list(zip(ring[0::2], ring[1::2]))
                data = struct.pack(f"{order}BII", order == "<", 3, 1) + wkb_ring(pairs, order, 2, numbers)
                for way in WAYS:
                    with way(), self.subTest(order=order, count=count, place=place, number=number):
                        self.assertEqual(read(data)[0] is None, number == 0)

    def test_srid(self):
        def binary(srid):
            return wkb_head(3, "<", "", srid, False) + struct.pack("<I", 1) + wkb_ring(BIG, "<", 2, None)

        self.assertEqual(itree.simplify(binary(None)).srid, 0)
        self.assertEqual(itree.simplify([binary(None), binary(4326)]).srid, 4326)
        answer = itree.overlay(binary(4326), [binary(None)])
        self.assertEqual((answer.srid, answer.to_wkb()[:9]), (4326, struct.pack("<BII", 1, 0x20000006, 4326)))
        self.assertEqual(itree.simplify(answer).srid, 4326)
        self.assertEqual(answer.to_wkb(srid=0)[:9], struct.pack("<BII", 1, 6, 1))
        with self.assertRaisesRegex(ValueError, "^two SRID that differ: 4326 and 3857$"):
            itree.overlay(binary(4326), binary(3857))
        for srid in -1, 2**32:
            with self.assertRaisesRegex(ValueError, "^the srid "):
                answer.to_wkb(srid=srid)

    def test_memory_that_is_refused(self):
        low, high = (struct.pack("<BII", 1, 3, 1) + wkb_ring(it, "<", 2, None) for it in (BIG, square(4.5, 4.5, 9)))
        library, requests = ctypes.CDLL(os.environ["ITREE_LIBRARY"]), 0
        wanted = itree.overlay([low, low], high, "xor").to_wkb()
        while True:
            library.refuse_after(ctypes.c_size_t(requests))
            try:
                answer = itree.overlay([low, low], high, "xor").to_wkb()
            except MemoryError as fault:
                self.assertEqual(str(fault), "itree: memory was refused")
                requests += 1
                continue
            finally:
                library.refuse_after(ctypes.c_size_t(-1))
            break
        self.assertEqual(answer, wanted)
        self.assertGreater(requests, 9)

    def test_there_and_back(self):
        numbers = random.Random(63)
        for _ in range(300):
            rings = [[(numbers.randrange(100), numbers.randrange(100)) for _ in range(9)] for _ in range(3)]
            grid = numbers.choice([None, itree.Grid((0.5, -3), 0.25)])
            answer = itree.simplify(rings, "evenodd", grid=grid)
            wanted = [list(map(tuple, ring.tolist())) for ring in itree.Rings(answer.points, answer.ring_offsets)]
            for data in answer.to_wkb(), answer.to_wkb(srid=7), answer.to_wkb(each=True), answer.to_wkb(7, each=True):
                self.assertEqual(read(data, grid)[1], wanted)
            self.assertEqual(len(answer.to_wkb(each=True)), len(answer))


class Numbers(unittest.TestCase):
    """Doubles and grids beside fractions."""

    def double(self, numbers, grid):
        kind = numbers.randrange(5)
        unit, start = fractions.Fraction(grid.unit), fractions.Fraction(numbers.choice(grid.origin))
        if kind == 0:
            return float(start + numbers.randrange(LEAST, MOST + 1) * unit)
        if kind == 1:
            # Right between two points, or almost.
            near = float(start + (numbers.randrange(LEAST, MOST + 1) + fractions.Fraction(1, 2)) * unit)
            return near * numbers.choice([1, 1, 1 + 2**-52, 1 - 2**-53])
        if kind == 2:
            return float(start + numbers.choice([LEAST - 1, LEAST, MOST, MOST + 1]) * unit) * (
                1 + numbers.choice([0, 2**-52])
            )
        if kind == 3:
            return numbers.choice([0.0, -0.0, 5e-324, -5e-324, 2.0**-1022, 1.7e308, -1.7e308])
        return struct.unpack("<d", numbers.getrandbits(64).to_bytes(8, "little"))[0]

    def test_rounds_as_fractions_have_it(self):
        logging.getLogger("shapely.geos").setLevel(logging.CRITICAL)
        numbers, counts = random.Random(64), collections.Counter()
        for _ in range(100000 if MANY else 2000):
            exponent, reach = numbers.choice([-1022, -60, -3, 0, 1, 40, 970, numbers.randrange(-1022, 971)]), 2**53 - 2**31
            unit = 2.0**exponent
            far = numbers.choice([0, 1, 2**20, reach])
            grid = itree.Grid([numbers.randrange(-far, far + 1) * unit for _ in range(2)], unit)
            point = self.double(numbers, grid), self.double(numbers, grid)
            try:
                exact = [fractions.Fraction(it) / fractions.Fraction(unit) for it in point]
                starts = [fractions.Fraction(it) / fractions.Fraction(unit) for it in grid.origin]
                wanted = tuple(round(at) - int(start) for at, start in zip(exact, starts))
            except (OverflowError, ValueError):
                wanted = None
            if wanted is None or not all(LEAST <= it <= MOST for it in wanted):
                with self.assertRaises(ValueError):
                    grid.to_grid(point)
                counts["refused"] += 1
                continue
            self.assertEqual(grid.to_grid(point), wanted, (grid, point))
            back = [fractions.Fraction(it) / fractions.Fraction(unit) for it in grid.from_grid(wanted)]
            self.assertEqual(back, [start + at for start, at in zip(starts, wanted)])
            counts["rounded"] += 1
        self.assertGreater(min(counts.values()), 300, counts)

    def test_fits_as_fractions_have_it(self):
        numbers = random.Random(65)
        for _ in range(100000 if MANY else 2000):
            middle, width = (numbers.uniform(-1, 1) * 10.0 ** numbers.choice([-300, -30, 0, 5, 250]) for _ in range(2))
            ring = [(middle + numbers.random() * width, numbers.random() * width) for _ in range(numbers.randrange(1, 5))]
            grid = itree.Grid.fit([ring])
            greatest = max(abs(number) for point in ring for number in point)
            if greatest == 0:
                self.assertEqual(grid, itree.Grid())
                continue

            def span(unit):
                axes = [[round(fractions.Fraction(number) / unit) for number in axis] for axis in zip(*ring)]
                return max(max(axis) - min(axis) for axis in axes)

            finest = max(math.frexp(greatest)[1] - 53, -1022)
            unit = fractions.Fraction(grid.unit)
            self.assertLessEqual(span(unit), 2**31)
            self.assertTrue(grid.unit == 2.0 ** finest or span(unit / 2) > 2**31, (ring, grid))
            for point in ring:
                self.assertLessEqual(max(map(abs, grid.to_grid(point))), 2**30)


@needs_shapely
class Shapely(unittest.TestCase):
    def shapes(self):
        frame = shapely.geometry.Polygon(BIG, [SMALL])
        other = shapely.geometry.box(20, 0, 22, 2)
        return frame, other, shapely.geometry.MultiPolygon([frame, other])

    def test_is_read_as_shapely_has_it(self):
        frame, other, both = self.shapes()
        nothing = shapely.geometry.Polygon(), shapely.geometry.MultiPolygon(), shapely.geometry.Point()
        some = shapely.geometry.GeometryCollection([frame, both, shapely.geometry.Polygon()])
        for given, count in (
            (frame, 2),
            (both, 3),
            (some, 5),
            ([frame], 2),
            ((frame, None, other), 3),
            (iter([frame, other]), 3),
            ({frame.wkt: frame}.values(), 2),
            ([frame, *nothing], 2),
            (nothing[0], 0),
            (nothing[2], 0),
            ([None, None], 0),
            ([nothing[2], frame.wkb, nothing[1]], 2),
        ):
            with self.subTest(given=given):
                grid, rings = read(given)
                self.assertEqual((grid, len(rings)), (None, count))
                self.assertTrue(all(twice_area(it) > 0 for it in rings if len(it) != 4 or it[0] not in SMALL))
        if numpy:
            listed = numpy.empty(3, dtype=object)
            listed[:] = [frame, None, other]
            self.assertEqual(len(read(listed)[1]), 3)

    def test_as_shapely_reads_it(self):
        """Bytes that shapely wrote, as they are, cut or with a bit turned: read as shapely reads them, or a fault."""
        numbers, counts = random.Random(64), collections.Counter()
        said = r"^clip, byte \d+: .+|^no grid has as wide a unit|^two SRID that differ"
        for _ in range(50000 if MANY else 2000):
            shape = shapely_shape(numbers)
            data = bytearray(shapely.wkb.dumps(shape, big_endian=numbers.random() < 0.5, srid=numbers.choice([None, 4326])))
            if numbers.random() < 0.3:
                del data[numbers.randrange(len(data)) :]
            elif numbers.random() < 0.5:
                data[numbers.randrange(len(data))] ^= 1 << numbers.randrange(8)
            try:
                theirs = exact_rings(shapely.wkb.loads(bytes(data)))
            except Exception:  # GEOS refuses rings of too few points, too, which are no fault of the format
                theirs = None
            try:
                grid, rings = read(bytes(data))
            except ValueError as fault:
                self.assertRegex(str(fault), said)
                counts["faulty", theirs is None] += 1
                continue
            except TypeError as fault:
                self.assertRegex(str(fault), "Polygon, MultiPolygon or GeometryCollection is wanted")
                counts["another kind", theirs is None] += 1
                continue
            counts["read", theirs is None] += 1
            if theirs is not None:
                by = grid or itree.Grid()
                wanted = [[by.to_grid(point) for point in ring] for ring in theirs]
                self.assertEqual(turned_alike(rings), turned_alike(wanted), bytes(data))
        self.assertGreater(min(counts["read", False], counts["faulty", True]), 300, counts)

    def test_height_is_left_out(self):
        high = shapely.geometry.Polygon([(x, y, 7.5) for x, y in BIG], [[(x, y, 1) for x, y in SMALL]])
        long = shapely.geometry.Polygon([(math.cos(it), math.sin(it), it) for it in range(1000)])
        self.assertEqual(read(high), read(shapely.geometry.Polygon(BIG, [SMALL])))
        self.assertEqual(read(long), read(shapely.geometry.Polygon([(x, y) for x, y, _ in long.exterior.coords])))

    def test_long_rings_are_as_short_ones(self):
        round_one = shapely.geometry.Point(3, 4).buffer(5, 500)
        holed = round_one.difference(shapely.geometry.Point(3, 4).buffer(2, 300))
        two = shapely.geometry.MultiPolygon([holed, shapely.geometry.Point(30, 4).buffer(5, 500)])
        for shape in round_one, holed, shapely.geometry.polygon.orient(holed, -1), two:
            self.assertEqual(read(shape), read(shapely.wkb.dumps(shape)))
            self.assertEqual(itree.Grid.fit(shape), itree.Grid.fit(shape.__geo_interface__))
            answer = itree.simplify(shape)
            for each in False, True:
                made = answer.to_shapely(each)
                made = made if not each else shapely.geometry.MultiPolygon(made)
                self.assertTrue(made.is_valid)
                self.assertEqual(made.area, shapely.geometry.shape(answer).area)
                self.assertTrue(made.equals(shapely.geometry.shape(answer)))
                self.assertLess(abs(made.area - shape.area), shape.length * answer.grid.unit)

    def test_floats_take_a_grid(self):
        circle, other = shapely.geometry.Point(0.5, 0).buffer(1), shapely.geometry.box(0, 0, 1, 1)
        answer = itree.overlay(circle, other, "intersection")
        self.assertEqual(answer.grid, itree.Grid.fit(circle, other))
        self.assertAlmostEqual(answer.to_shapely().area, circle.intersection(other).area, places=8)
        answer = itree.overlay([square(0, 0, 3)], circle)
        self.assertEqual(answer.grid, itree.Grid.fit([square(0, 0, 3)], circle))
        self.assertAlmostEqual(answer.to_shapely().area, circle.union(shapely.geometry.box(0, 0, 3, 3)).area, places=8)
        with self.assertRaisesRegex(TypeError, "^subject, ring 0, row 0: 0.5; whole numbers are wanted"):
            itree.overlay([[(0.5, 0), (1, 0), (1, 1)]], circle)
        self.assertIsNone(itree.overlay([square(0, 0, 3)], other).grid)
        far = shapely.geometry.box(0, 0, 2.0**31, 1)
        self.assertEqual(itree.simplify(far).grid, itree.Grid.fit(far))
        self.assertIsNone(itree.simplify(shapely.geometry.box(LEAST, LEAST, MOST, MOST)).grid)

    def test_answers_keep_their_grid(self):
        circle, other = shapely.geometry.Point(0.5, 0).buffer(1), shapely.geometry.box(0, 0, 1, 1)
        answer = itree.overlay(circle, other)
        again = itree.overlay(answer, answer, "intersection")
        self.assertEqual((again.grid, told(again)), (answer.grid, told(answer)))
        self.assertEqual(itree.overlay(answer, []).grid, answer.grid)
        nothing = itree.overlay(answer, answer, "difference")
        self.assertEqual((len(nothing), nothing.grid), (0, answer.grid))
        self.assertEqual([itree.overlay(nothing, it).grid for it in ([], nothing, answer)], [answer.grid] * 3)
        self.assertEqual(itree.overlay(nothing, [square(0, 0, 3)]).grid, None)
        self.assertEqual(itree.overlay(answer, other).grid, itree.Grid.fit(answer, other))
        self.assertEqual(told(itree.simplify(answer, grid=answer.grid)), told(answer))

    def test_the_shortest_way_is_as_the_long_one(self):
        numbers, counts = random.Random(70), collections.Counter()

        def shape():
            scale, start = numbers.choice([1, 0.37]), numbers.choice([0, 1e6, 2.0**31])
            ring = [
                (start + scale * numbers.randrange(50), scale * numbers.randrange(50)) for _ in range(numbers.randrange(3, 9))
            ]
            return shapely.geometry.Polygon(ring, [[(start, 0), (start + 1, 0), (start, 1)]] * (numbers.random() < 0.1))

        for _ in range(400):
            subject, clip = shape(), shape()
            operation = numbers.choice(["union", "intersection", "difference", "xor"])
            rule, grid = numbers.choice(["evenodd", "nonzero"]), numbers.choice(
                [None, None, itree.Grid(unit=0.25), itree.Grid()]
            )

            def answers():
                for call in lambda: itree.overlay(subject, clip, operation, rule, grid=grid), lambda: itree.simplify(
                    clip, rule, grid=grid
                ):
                    try:
                        yield told(call()), call().grid
                    except ValueError as fault:
                        yield str(fault)

            short = list(answers())
            with mock.patch.object(_direct, "taken", lambda *_: None):
                self.assertEqual(short, list(answers()))
            counts[type(short[0]), short[0][1] is None] += 1
        self.assertGreater(min(counts.values()), 20, counts)
        empty = shapely.wkb.loads(struct.pack("<BII", 1, 3, 0))
        self.assertEqual(told(itree.overlay(empty, shapely.geometry.Polygon(BIG))), [[BIG]])
        self.assertEqual((len(itree.simplify(empty)), itree.simplify(empty).grid), (0, None))

    def test_what_are_no_polygons(self):
        line, wanted = shapely.geometry.LineString([(0, 0), (1, 1)]), "Polygon, MultiPolygon or GeometryCollection is wanted"
        frame = self.shapes()[0]
        for given, said in (
            (line, "clip: LineString"),
            ([frame, line], "clip, place 1: LineString"),
            ([frame, shapely.geometry.Point(1, 2)], "clip, place 1: Point"),
            ([BIG, shapely.geometry.GeometryCollection([frame, line])], "clip, place 1: LineString"),
            ([shapely.geometry.Point(), None, shapely.geometry.Point(1, 2)], "clip, place 2: Point"),
        ):
            for grid in None, itree.Grid():
                with self.subTest(said=said), self.assertRaisesRegex(TypeError, f"^{said}; {wanted}$"):
                    itree.overlay([], given, grid=grid)

    def test_numbers_that_are_none(self):
        frame, other, both = self.shapes()
        far = shapely.geometry.Polygon(BIG, [[(1, 1), (2, 1), (2, 2)], [(3, 3), (4, 3), (4, math.nan), (3, 4)]])
        some = shapely.geometry.GeometryCollection([both, shapely.geometry.MultiPolygon([other, far]), frame])
        said = "a number that isn't finite; finite numbers are wanted"
        for given, where in (
            (shapely.geometry.Polygon([(0, 0), (1, math.inf), (1, 0)]), "rings, ring 0, row 1"),
            (far, "rings, ring 2, row 2"),
            ([frame, None, both, far], "rings, place 3, ring 2, row 2"),
            ([frame, some], "rings, place 1, geometry 1, polygon 1, ring 2, row 2"),
        ):
            for grid in None, itree.Grid():
                with self.subTest(where=where), self.assertRaisesRegex(ValueError, f"^{where}: {said}$"):
                    itree.simplify(given, grid=grid)
            with self.assertRaisesRegex(ValueError, f"^shape 0{where[5:]}: {said}$"):
                itree.Grid.fit(given)
        with self.assertRaisesRegex(
            ValueError, "^rings, polygon 1, ring 0, row .: a number that is off the grid, which is Grid"
        ):
            itree.simplify(shapely.geometry.MultiPolygon([frame, shapely.geometry.box(5e9, 0, 6e9, 1)]), grid=itree.Grid())

    def test_answers_as_shapely(self):
        _, _, both = self.shapes()
        answer = itree.overlay([BIG], [SMALL, square(20, 0, 2)], "xor")
        made = answer.to_shapely()
        self.assertEqual((made.geom_type, len(made.geoms)), ("MultiPolygon", 2))
        self.assertTrue(made.is_valid and made.equals(both))
        each = answer.to_shapely(each=True)
        self.assertEqual([it.geom_type for it in each], ["Polygon"] * 2)
        self.assertTrue(unary_union(each).equals(both))
        nothing = itree.simplify([])
        self.assertEqual((nothing.to_shapely().geom_type, nothing.to_shapely().is_empty), ("MultiPolygon", True))
        self.assertEqual(nothing.to_shapely(each=True), [])
        self.assertTrue(shapely.wkb.loads(answer.to_wkb()).equals(both))
        self.assertEqual(shapely.wkb.loads(answer.to_wkb(srid=4326)).wkt, made.wkt)

    def test_several_threads(self):
        numbers, switch = random.Random(69), sys.getswitchinterval()
        shapes = [shapely.geometry.Point(it, 0).buffer(1, numbers.randrange(1, 120)) for it in range(40)]
        wanted, answers = read(shapes), []
        made = [itree.simplify(it).to_wkb() for it in shapes[:8]]

        def work():
            for _ in range(20):
                answers.append(read(shapes) == wanted)
                answers.append([bytes(it.wkb) for it in map(_shapely.read, made)] == made)

        sys.setswitchinterval(1e-6)
        try:
            threads = [threading.Thread(target=work) for _ in range(4)]
            for it in threads:
                it.start()
            for it in threads:
                it.join()
        finally:
            sys.setswitchinterval(switch)
        self.assertEqual(answers, [True] * 160)

    def test_by_any_shapely(self):
        """The same by the calls that each version has."""
        frame, other, both = self.shapes()
        circle = shapely.geometry.Point(0.5, 0).buffer(1, 500)
        fast = [read(it) for it in (frame, [frame, other], both, circle)], itree.simplify(circle).to_shapely().wkb
        with mock.patch.object(_shapely, "_fastest", lambda module: _shapely._Plain()), mock.patch.dict(
            _shapely._known, clear=True
        ):
            plain = [read(it) for it in (frame, [frame, other], both, circle)], itree.simplify(circle).to_shapely().wkb
        self.assertEqual(fast, plain)

    def test_make_valid(self):
        for ring in BOW, [(0, 0), (9, 0), (9, 9), (3, 3), (6, 3), (0, 9)]:
            shape = shapely.geometry.Polygon([(x + 0.25, y) for x, y in ring])
            wanted = shapely.validation.make_valid(shape)
            made = itree.make_valid(shape).to_shapely()
            self.assertTrue(made.is_valid)
            self.assertAlmostEqual(made.area, wanted.area, places=6)

    def test_unary_union(self):
        numbers = random.Random(66)
        circles = [shapely.geometry.Point(numbers.random() * 9, numbers.random() * 9).buffer(1) for _ in range(60)]
        answer = itree.unary_union([*circles, None])
        self.assertAlmostEqual(answer.to_shapely().area, unary_union(circles).area, places=6)
        self.assertTrue(answer.to_shapely().is_valid)
        self.assertEqual(answer, itree.simplify(circles, "nonzero"))

    @needs_geopandas
    def test_geopandas(self):
        frame, other, both = self.shapes()
        series = geopandas.GeoSeries([frame, None, shapely.geometry.Polygon(), other], crs=4326)
        frames = geopandas.GeoDataFrame({"name": list("abcd")}, geometry=series)
        for given in series, frames, series.values, [series], frames[frames.name != "c"]:
            answer = itree.simplify(given)
            self.assertTrue(answer.to_shapely().equals(both))
            self.assertEqual(answer.crs, series.crs)
        back = answer.to_geoseries()
        self.assertEqual((type(back), len(back), back.crs), (geopandas.GeoSeries, 2, series.crs))
        self.assertTrue(back.unary_union.equals(both))
        self.assertEqual(answer.to_geoseries(crs=3857).crs, geopandas.GeoSeries(crs=3857).crs)
        self.assertEqual(itree.overlay(series, [SMALL]).crs, series.crs)
        self.assertEqual(itree.overlay(answer, series).crs, series.crs)
        self.assertEqual(pickle.loads(pickle.dumps(answer)).crs, series.crs)
        self.assertEqual(itree.simplify(answer.to_wkb(srid=4326)).to_geoseries().crs, series.crs)
        self.assertEqual(len(itree.simplify([]).to_geoseries()), 0)
        with self.assertRaisesRegex(ValueError, "^two crs that differ: EPSG:4326 and EPSG:3857$"):
            itree.overlay(series, series.set_crs(3857, allow_override=True))
        with self.assertRaisesRegex(TypeError, "^rings, place 1: Point; "):
            itree.simplify(geopandas.GeoSeries([None, shapely.geometry.Point(1, 2)]))


class Geometry:
    """An object of a stand-in for shapely 2, which keeps its binary."""

    geom_type = "Polygon"

    def __init__(self, rings):
        self.rings = rings
        self.is_empty = not rings

    @property
    def exterior(self):
        return self.rings[0]

    @property
    def interiors(self):
        return self.rings[1:]


class Shapely2(unittest.TestCase):
    """Shapely 2, by a stand-in that has the calls that are made of it."""

    def stand_in(self):
        shapes, base, made = types.ModuleType("shapely"), types.ModuleType("shapely.geometry.base"), []
        base.BaseGeometry = Geometry

        def to_wkb(given, output_dimension=3):
            self.assertEqual(output_dimension, 2)
            made.append("to_wkb")
            if isinstance(given, Geometry):
                return _shapely._polygon([array.array("d", itertools.chain(*it)) for it in given.rings])
            return numpy.array([to_wkb(it, 2) for it in given], dtype=object)

        def from_wkb(given):
            made.append("from_wkb")
            return (
                ("read", given)
                if isinstance(given, bytes)
                else numpy.array([from_wkb(it) for it in given] + [0], dtype=object)[:-1]
            )

        def get_coordinates(given):
            made.append("get_coordinates")
            rings = [ring for it in given for ring in it.rings] if isinstance(given, numpy.ndarray) else [given]
            return numpy.array([point for ring in rings for point in ring], dtype=float).reshape(-1, 2)

        shapes.to_wkb, shapes.from_wkb, shapes.get_coordinates = to_wkb, from_wkb, get_coordinates
        shapes.get_num_coordinates = lambda it: sum(map(len, it.rings))
        shapes.get_num_interior_rings = lambda it: len(it.rings) - 1
        modules = {"shapely": shapes, "shapely.geometry.base": base}
        return mock.patch.dict(sys.modules, modules), made

    @needs_numpy
    def test_takes_and_makes_them_in_bulk(self):
        patched, made = self.stand_in()
        closed = [[*ring, ring[0]] for ring in FRAME]
        with patched, mock.patch.dict(_shapely._known, clear=True):
            frame = Geometry(closed)
            self.assertEqual(read(frame), (None, FRAME))
            self.assertEqual(read([frame, None, frame]), (None, FRAME * 2))
            self.assertEqual(made, ["to_wkb"] * 4)
            made.clear()
            long = [(math.cos(it), math.sin(it)) for it in range(300)]
            self.assertEqual(read(Geometry([long])), read({"type": "Polygon", "coordinates": [long]}))
            self.assertEqual(made, ["get_coordinates"])
            made.clear()
            low, high = (Geometry([[*it, it[0]]]) for it in (BIG, SMALL))
            answer = itree.overlay(low, high, "difference")
            self.assertEqual((told(answer), made), ([FRAME], ["get_coordinates"]))
            self.assertEqual(itree.overlay(low, high, "difference", "positive"), answer)
            self.assertEqual(told(itree.overlay(frame, high)), [[BIG]])
            answer = itree.overlay(frame, Geometry([square(20, 0, 2)]))
            self.assertEqual(answer.to_shapely(), ("read", answer.to_wkb()))
            self.assertEqual(answer.to_shapely(each=True), [("read", it) for it in answer.to_wkb(each=True)])


def random_points(count, seed=67):
    numbers = random.Random(seed)
    return array.array("i", [numbers.randrange(10**6) for _ in range(2 * count)])


def resident():
    """Bytes of memory that this process has."""
    return int(pathlib.Path("/proc/self/statm").read_text().split()[1]) * resource.getpagesize()


class Stopped(unittest.TestCase):
    """Calls that are stopped, and calls that are held to a limit of memory."""

    @contextlib.contextmanager
    def interrupted(self, after):
        """What is done here is interrupted so many seconds after it began, and sees that soon."""
        sent = []

        def send():
            sent.append(time.monotonic())
            os.kill(os.getpid(), signal.SIGINT)

        timer = threading.Timer(after, send)
        before = signal.signal(signal.SIGINT, signal.default_int_handler)
        timer.start()
        try:
            with self.assertRaises(KeyboardInterrupt):
                yield
            self.assertLess(time.monotonic() - sent[0], 0.2)
        finally:
            timer.cancel()
            signal.signal(signal.SIGINT, before)

    def assert_quiet(self, least):
        """No thread goes on with a call, and memory is given back."""
        until = time.monotonic() + 60
        while time.monotonic() < until:
            before = time.process_time()
            time.sleep(0.2)
            if time.process_time() - before < 0.1 and resident() < least + 50 * 2**20:
                return
        self.fail(f"{(resident() - least) >> 20} MB more")

    def test_overlay(self):
        ring = random_points(4000)
        itree.simplify([ring[:2000]])
        least = resident()
        with self.interrupted(1.0):
            itree.simplify([ring])
        self.assert_quiet(least)
        self.assertEqual(told(itree.overlay([BIG], [SMALL], "difference")), [FRAME])
        self.assertGreater(len(itree.simplify([ring[:1000]])), 9)

    def test_edges(self):
        edges = array.array("i", [number for it in range(1500) for number in (0, it, 40000, 40000 - 7 * it)])
        least = resident()
        with self.interrupted(0.5):
            while True:
                itree.snap(edges)
        self.assert_quiet(least)

    def test_buffers_stay_until_the_call_ends(self):
        edges = random_points(8000)
        with self.interrupted(0.3):
            while True:
                itree.meetings(edges, as_array=True)
        # A view of them holds an array of numbers fast, so that it can't grow.
        until = time.monotonic() + 60
        while time.monotonic() < until:
            with contextlib.suppress(BufferError):
                edges.append(0)
                break
            time.sleep(0.01)
        self.assertEqual(len(edges), 16001)

    def test_handlers_that_raise_nothing(self):
        answers = []

        def handle(*_):
            # On a slow machine the next signal may come before this one is answered.
            signal.setitimer(signal.ITIMER_REAL, 0)
            answers.append(len(itree.simplify([random_points(300)])))

        ring, found, until = random_points(1500), [], time.monotonic() + 60
        before = signal.signal(signal.SIGALRM, handle)
        try:
            signal.setitimer(signal.ITIMER_REAL, 0.05, 0.05)
            while not answers and time.monotonic() < until:
                found.append(itree.simplify([ring]))
        finally:
            signal.setitimer(signal.ITIMER_REAL, 0)
            signal.signal(signal.SIGALRM, before)
        self.assertEqual(found[-1], itree.simplify([ring]))
        self.assertGreater(len(answers), 0)

    def test_other_threads(self):
        ring, answers = random_points(400), []
        threads = [threading.Thread(target=lambda: answers.append(itree.simplify([ring]))) for _ in range(4)]
        for it in threads:
            it.start()
        for it in threads:
            it.join()
        self.assertEqual(answers, [itree.simplify([ring])] * 4)

    def test_after_a_fork(self):
        wanted = itree.simplify([random_points(400)])
        with multiprocessing.get_context("fork").Pool(1) as pool:
            self.assertEqual(pool.apply(itree.simplify, ([random_points(400)],)), wanted)

    def test_a_limit(self):
        ring, edges = random_points(700), [(0, it, 900, 900 - it) for it in range(900)]
        said = "^itree: memory was refused: the call would hold more than memory_limit, 20000 bytes, or than there is$"
        for call in (
            lambda **how: itree.simplify([ring], **how),
            lambda **how: itree.overlay([ring], [BIG], **how),
            lambda **how: itree.make_valid([ring], **how),
            lambda **how: itree.unary_union([ring], **how),
            lambda **how: itree.meetings(edges, **how),
            lambda **how: itree.meetings(edges, as_array=True, **how),
            lambda **how: itree.meetings_between(edges, edges, **how),
            lambda **how: itree.first_meeting([(it, 0, it, 1) for it in range(900)], **how),
            lambda **how: itree.snap(edges[:200], **how),
            lambda **how: itree.node(edges[:200], **how),
            lambda **how: itree.locate([(it, 0, it + 1, 1) for it in range(900)], [(1, 1)] * 900, **how),
            lambda **how: itree.below([(it, it, 1) for it in range(900)], [(1, 1)] * 900, **how),
        ):
            with self.assertRaisesRegex(MemoryError, said):
                call(memory_limit=20000)
            call(memory_limit=10**9)
            call(memory_limit=None)
        for limit in 20000, 10**9:
            small = itree.simplify([BIG], memory_limit=limit)
            self.assertEqual(told(small), [[BIG]])
        with self.assertRaises(MemoryError):
            itree.simplify([BIG], memory_limit=1)
        self.assertEqual(told(itree.simplify([BIG])), [[BIG]])

    def test_limits_that_are_none(self):
        for limit in 0, -1, 2**63:
            with self.assertRaisesRegex(ValueError, f"^memory_limit: {limit}; a number of bytes from 1 on is wanted$"):
                itree.simplify([BIG], memory_limit=limit)
        with self.assertRaisesRegex(TypeError, "^memory_limit: float; a whole number of bytes, or None, is wanted$"):
            itree.meetings([], memory_limit=1e9)

    def test_memory_that_is_refused_is_told(self):
        library = ctypes.CDLL(os.environ["ITREE_LIBRARY"])
        library.refuse_after(ctypes.c_size_t(0))
        try:
            with self.assertRaisesRegex(MemoryError, "^itree: memory was refused$"):
                itree.simplify([BIG])
        finally:
            library.refuse_after(ctypes.c_size_t(-1))


class Pictures(unittest.TestCase):
    def test_is_drawn(self):
        for grid in None, itree.Grid((0.5, 0.0), 0.125):
            answer = itree.overlay([BIG], [SMALL], "difference", grid=grid)
            self.assertEqual(answer._repr_svg_(), answer.to_svg())
            picture = ElementTree.fromstring(answer.to_svg())
            path = picture.find("{http://www.w3.org/2000/svg}path")
            self.assertEqual(path.get("fill-rule"), "evenodd")
            self.assertEqual(path.get("vector-effect"), "non-scaling-stroke")
            scale = 1 if grid is None else 8
            rings = [
                [tuple(int(number) / scale for number in pair.split(",")) for pair in ring.split()]
                for ring in re.findall(r"M([^z]*)z", path.get("d"))
            ]
            # y points upwards: so the lower left corner stands at the lower left.
            upside = [[(x, 9 - y) for x, y in ring] for ring in rings]
            self.assertEqual([from_least(ring) for ring in upside], FRAME)
            left, top, width, height = map(float, picture.get("viewBox").split())
            self.assertTrue(-1 < left / scale < 0 and 9 < (left + width) / scale < 10)
            self.assertTrue(-1 < top / scale < 0 and 9 < (top + height) / scale < 10)

    def test_many_points_are_drawn_by_fewer(self):
        answer = itree.simplify([[(it, it * (it - 1) // 2) for it in range(20000)]])
        whole, drawn = answer.to_svg(), answer._repr_svg_()
        self.assertGreater(len(answer.points), 10000)
        self.assertLess(len(drawn), len(whole) / 2)
        paths = (ElementTree.fromstring(it).find("{http://www.w3.org/2000/svg}path").get("d") for it in (whole, drawn))
        tops, bottoms = zip(
            *((min(it[1::2]), max(it[1::2])) for it in (list(map(int, re.findall(r"\d+", path))) for path in paths))
        )
        side = 19999 * 19998 // 2
        self.assertEqual((tops, bottoms[0]), ((0, 0), side))
        self.assertLessEqual(side - bottoms[1], side // 3000)

    def test_nothing_is_drawn(self):
        self.assertIsNotNone(ElementTree.fromstring(itree.simplify([]).to_svg()))


class Lines(unittest.TestCase):
    """`itree overlay` over lines, as the native program."""

    def ran(self, *words, text=""):
        output, faults = io.StringIO(), io.StringIO()
        given = mock.Mock(buffer=io.BytesIO(text if isinstance(text, bytes) else text.encode()))
        with contextlib.redirect_stdout(output), contextlib.redirect_stderr(faults), mock.patch.object(sys, "stdin", given):
            try:
                status = command.main(list(words))
            except SystemExit as ended:
                status = ended.code
        return status, output.getvalue(), faults.getvalue()

    def test_the_native_program_s_examples(self):
        """What docs/COMMANDS.md shows of the native program."""
        text = (TOP / "docs" / "COMMANDS.md").read_text(encoding="utf-8")
        shown = re.findall(r"^\$ itree (overlay \w+ \w+) << END\n((?:> .*\n)*?)> END\n((?:(?:polygon|hole) .*\n)*)", text, re.M)
        self.assertGreater(len(shown), 3)
        for words, given, wanted in shown:
            lines = re.sub("^> ", "", given, flags=re.M)
            _, operation, rule = words.split()
            for asked in words.split(), ["overlay", "--operation", operation, "--rule", rule]:
                self.assertEqual(self.ran(*asked, text=lines), (0, wanted, ""))

    def test_lines(self):
        text = "\r\n \t\fsubject 0 +0 9\t-0 09 9 0 9 \r\n\nsubject\nclip 3 3 6 3 6 6 3 6"
        status, output, faults = self.ran("overlay", "difference", "nonzero", text=text)
        self.assertEqual((status, faults, output.count("\n")), (0, "", 2))
        self.assertEqual(self.ran("overlay", text=""), (0, "", ""))
        self.assertEqual(self.ran("overlay", text="subject 0 0 1 0 0 1"), (0, "polygon 0 0 1 0 0 1\n", ""))

    def test_faulty_lines(self):
        number = "a whole number from -2147483648 to 2147483647 is wanted"
        for text, said in (
            ("subject 0 0 1 x", f"line 1: column 15: 'x': {number}"),
            ("\nclip 0 0 1", "line 2: column 10: '1': one more number is wanted behind it"),
            ("edge 1 2", "line 1: column 1: 'edge': subject or clip is wanted"),
            ("subject 1 2147483648", f"line 1: column 11: '2147483648': {number}"),
            ("subject 1_0 2", f"line 1: column 9: '1_0': {number}"),
            ("subject 1 2.0", f"line 1: column 11: '2.0': {number}"),
            ("subject 1 " + "9" * 5000, f"line 1: column 11: '{'9' * 40}...': {number}"),
            (b"subject \xff 2", f"line 1: column 9: '\\xff': {number}"),
            (b"subject\x0b1 2", "line 1: column 1: 'subject\x0b1': subject or clip is wanted"),
        ):
            with self.subTest(said=said):
                self.assertEqual(self.ran("overlay", "union", "nonzero", text=text), (2, "", f"itree: {said}\n"))

    def test_faulty_words(self):
        for words in ("overlay", "union"), ("overlay", "a", "b", "c"), ("overlay", "--unit", "2"), ("simplify",):
            status, output, faults = self.ran(*words)
            self.assertEqual((status, output), (2, ""))
            self.assertIn("error: ", faults)

    def test_memory_that_is_refused(self):
        library = ctypes.CDLL(os.environ["ITREE_LIBRARY"])
        library.refuse_after(ctypes.c_size_t(0))
        try:
            ran = self.ran("overlay", text="subject 0 0 1 0 0 1")
        finally:
            library.refuse_after(ctypes.c_size_t(-1))
        self.assertEqual(ran, (1, "", "itree: memory was refused\n"))

    def test_as_a_process(self):
        words = [sys.executable, "-m", "itree", "overlay", "union", "nonzero"]
        ran = subprocess.run(words, input=b"subject 0 0 1 0 0 1\n", stdout=subprocess.PIPE, check=True)
        self.assertEqual(ran.stdout, b"polygon 0 0 1 0 0 1\n")


class Documents(unittest.TestCase):
    """The lines of Python that the package's README shows print what they say."""

    def assert_runs(self, first, count=1):
        """Those that begin with this import."""
        readme = (TOP / "bindings" / "python" / "README.md").read_text(encoding="utf-8")
        shown = re.findall(rf"^```python\n(import {first}\n.*?)^```$", readme, re.M | re.S)
        self.assertEqual(len(shown), count)
        for lines in shown:
            wanted = "".join(f"{it}\n" for it in re.findall(r"  # (.*)$", lines, re.M))
            how = {"stdout": subprocess.PIPE, "stderr": subprocess.PIPE, "text": True}
            ran = subprocess.run([sys.executable, "-c", lines], **how)
            self.assertEqual((ran.returncode, ran.stdout), (0, wanted), ran.stderr)
            self.assertTrue(wanted)

    def test_lists(self):
        self.assert_runs("itree", 3)

    @needs_shapely
    def test_shapely(self):
        self.assert_runs("shapely.geometry")

    @needs_geopandas
    def test_geopandas(self):
        self.assert_runs("geopandas")


if __name__ == "__main__":
    unittest.main(argv=[it for it in sys.argv if it != "--many"])
