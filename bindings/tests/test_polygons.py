"""Polygons from Python: overlay, simplify and Grid at hand-made rings, at each kind of shapes, at faults, with each
request for memory refused in turn, and beside shapely; and the command over files of GeoJSON.

bindings/test runs it over a library that refuses memory when it is told to (ITREE_LIBRARY). What needs numpy or shapely
is skipped where they aren't there.
"""

import array
import collections
import contextlib
import ctypes
import decimal
import doctest
import fractions
import gc
import io
import itertools
import json
import math
import os
import pathlib
import pickle
import random
import subprocess
import sys
import tempfile
import unittest
from unittest import mock

import itree
from itree import __main__ as command
from itree import _gathered, _grid, _library, _overlay, _polygons, _rings, _rows, _shapes

try:
    import numpy
except ImportError:
    numpy = None
try:
    import shapely
    import shapely.geometry
except ImportError:
    shapely = None

needs_numpy = unittest.skipUnless(numpy, "numpy isn't there")
needs_shapely = unittest.skipUnless(shapely, "shapely isn't there")


@contextlib.contextmanager
def without_numpy():
    """As if the program hadn't loaded numpy."""
    with contextlib.ExitStack() as stack:
        for module in _rows, _shapes, _rings, _gathered:
            stack.enter_context(mock.patch.object(module, "numpy_where_loaded", lambda: None))
        yield


WAYS = [without_numpy, contextlib.nullcontext] if numpy else [without_numpy]
OPERATIONS = "union", "intersection", "difference", "xor"
LEAST, MOST = -(2**31), 2**31 - 1


def square(x, y, side):
    return [(x, y), (x + side, y), (x + side, y + side), (x, y + side)]


def from_least(ring):
    """A ring that begins at its least point."""
    ring = list(map(tuple, ring))
    start = ring.index(min(ring))
    return ring[start:] + ring[:start]


def told(polygons):
    """Polygons as lists of rings, where each ring begins at its least point, in order."""
    return sorted([from_least(it.outer), *sorted(map(from_least, it.holes))] for it in polygons)


LOW, HIGH, BIG, SMALL = square(0, 0, 2), square(1, 1, 2), square(0, 0, 9), square(3, 3, 3)
LOW_ALONE = [(0, 0), (2, 0), (2, 1), (1, 1), (1, 2), (0, 2)]
HIGH_ALONE = [(1, 2), (2, 2), (2, 1), (3, 1), (3, 3), (1, 3)]
FRAME = [BIG, SMALL[:1] + SMALL[:0:-1]]
FRAME_CUT = [(0, 4), (3, 4), (3, 6), (6, 6), (6, 3), (4, 3), (4, 0), (9, 0), (9, 9), (0, 9)]
CORNER, NEXT, ACROSS = [(2, 1), (3, 0), (3, 2)], square(2, 0, 2), square(2, 2, 2)
TWO_BY_FOUR = [(0, 0), (4, 0), (4, 2), (0, 2)]
WHOLE = [(LEAST, LEAST), (MOST, LEAST), (MOST, MOST), (LEAST, MOST)]
WHOLE_UPPER = WHOLE[:1] + WHOLE[2:]
WORKED = {
    "squares that overlap": (
        ([LOW], [HIGH]),
        [[[(0, 0), (2, 0), (2, 1), (3, 1), (3, 3), (1, 3), (1, 2), (0, 2)]]],
        [[square(1, 1, 1)]],
        [[LOW_ALONE]],
        [[LOW_ALONE], [HIGH_ALONE]],
    ),
    "a square in a square": (([BIG], [SMALL]), [[BIG]], [[SMALL]], [FRAME], [FRAME]),
    "a square around a square": (([SMALL], [BIG]), [[BIG]], [[SMALL]], [], [FRAME]),
    "a frame and a square": (
        (FRAME, [square(0, 0, 4)]),
        [[BIG, [(3, 4), (3, 6), (6, 6), (6, 3), (4, 3), (4, 4)]]],
        [[[(0, 0), (4, 0), (4, 3), (3, 3), (3, 4), (0, 4)]]],
        [[FRAME_CUT]],
        [[square(3, 3, 1)], [FRAME_CUT]],
    ),
    "corners that touch": (([LOW], [ACROSS]), [[LOW], [ACROSS]], [], [[LOW]], [[LOW], [ACROSS]]),
    "a corner that touches a side": (([LOW], [CORNER]), [[LOW], [CORNER]], [], [[LOW]], [[LOW], [CORNER]]),
    "a side in common": (([LOW], [NEXT]), [[TWO_BY_FOUR]], [], [[LOW]], [[TWO_BY_FOUR]]),
    "squares that are the same": (([LOW], [LOW[::-1]]), [[LOW]], [[LOW]], [], []),
    "nothing and a square": (([], [LOW]), [[LOW]], [], [], [[LOW]]),
    "a square and nothing": (([LOW], [[]]), [[LOW]], [], [[LOW]], [[LOW]]),
    "nothing": (([], []), [], [], [], []),
    "rings around nothing": (([[], [(1, 1)], [(1, 1), (5, 7)]], [[(0, 0), (5, 0), (9, 0)]]), [], [], [], []),
    "from end to end": (([WHOLE], [WHOLE[:3]]), [[WHOLE]], [[WHOLE[:3]]], [[WHOLE_UPPER]], [[WHOLE_UPPER]]),
}
LEFT, RIGHT = [(0, 0), (2, 2), (0, 4)], [(2, 2), (4, 0), (4, 4)]
FILLED = [
    ([[(0, 0), (4, 4), (4, 0), (0, 4)]], [[LEFT], [RIGHT]], [[LEFT], [RIGHT]], [[LEFT]], [[RIGHT]]),
    ([BIG, SMALL], [FRAME], [[BIG]], [[BIG]], []),
    (FRAME, [FRAME], [FRAME], [FRAME], []),
    ([BIG, BIG], [], [[BIG]], [[BIG]], []),
    ([BIG[::-1]], [[BIG]], [[BIG]], [], [[BIG]]),
]


class Worked(unittest.TestCase):
    def test_operations(self):
        for name, ((subject, clip), *wanted) in WORKED.items():
            for operation, polygons in zip(OPERATIONS, wanted):
                with self.subTest(name=name, operation=operation):
                    self.assertEqual(told(itree.overlay(subject, clip, operation)), sorted(polygons))
            self.assertEqual(told(itree.overlay(subject, clip)), sorted(wanted[0]))

    def test_rules(self):
        for rings, *wanted in FILLED:
            for rule, polygons in zip(("evenodd", "nonzero", "positive", "negative"), wanted):
                with self.subTest(rings=rings, rule=rule):
                    self.assertEqual(told(itree.simplify(rings, rule)), sorted(polygons))
                    self.assertEqual(told(itree.overlay([], rings, "union", rule)), sorted(polygons))
            self.assertEqual(told(itree.simplify(rings)), sorted(wanted[1]))

    def test_rounds_where_edges_cross(self):
        bow = [(0, 0), (3, 1), (3, 0), (0, 1)]
        self.assertEqual(told(itree.simplify([bow])), [[[(0, 0), (2, 1), (0, 1)]], [[(2, 1), (3, 0), (3, 1)]]])


def edges_of(rings):
    return [edge for ring in rings for edge in zip(ring, [*ring[1:], ring[0]])]


def winding(edges, point):
    """How often the edges of rings go round a point counterclockwise: those that a ray to the right crosses."""
    total, (x, y) = 0, point
    for (x0, y0), (x1, y1) in edges:
        side = (x1 - x0) * (y - y0) - (y1 - y0) * (x - x0)
        total += (y0 <= y < y1 and side > 0) - (y1 <= y < y0 and side < 0)
    return total


def is_near(edge, point, reach):
    """Whether some point of the edge is within the reach of the point on both axes."""
    first, last = 0, 1
    for start, end, middle in zip(*edge, point):
        if start == end:
            if abs(start - middle) > reach:
                return False
            continue
        stops = sorted((middle + side - start) / (end - start) for side in (-reach, reach))
        first, last = max(first, stops[0]), min(last, stops[1])
    return first <= last


def goes_through(edge, point):
    """Whether the point lies on the edge, and is none of its ends."""
    (x0, y0), (x1, y1) = edge
    on_line = (x1 - x0) * (point[1] - y0) == (y1 - y0) * (point[0] - x0)
    return on_line and point not in edge and is_near(edge, point, 0)


class PlainModel(unittest.TestCase):
    """Points that no edge is near are told as winding numbers have it."""

    INSIDE = {
        "evenodd": lambda count: count % 2 == 1,
        "nonzero": lambda count: count != 0,
        "positive": lambda count: count > 0,
        "negative": lambda count: count < 0,
    }
    MADE = {
        "union": lambda one, other: one or other,
        "intersection": lambda one, other: one and other,
        "difference": lambda one, other: one and not other,
        "xor": lambda one, other: one != other,
    }

    def assert_told(self, seed, coordinate, reach, grid=None):
        numbers, counts = random.Random(seed), collections.Counter()

        def random_ring():
            return [(coordinate(numbers), coordinate(numbers)) for _ in range(numbers.randrange(1, 8))]

        for _ in range(600):
            subject, clip = ([random_ring(), random_ring()] for _ in range(2))
            rule, operation = numbers.choice(list(self.INSIDE)), numbers.choice(list(self.MADE))
            polygons = itree.overlay(subject, clip, operation, rule, grid=grid)
            result = edges_of(ring for polygon in polygons for ring in (polygon.outer, *polygon.holes))
            both = edges_of(subject), edges_of(clip)
            for _ in range(30):
                point = numbers.uniform(-1, 101), numbers.uniform(-1, 101)
                if not any(is_near(edge, point, reach + 1e-9) for edge in itertools.chain(*both)):
                    inside = (self.INSIDE[rule](winding(edges, point)) for edges in both)
                    wanted = self.MADE[operation](*inside)
                    self.assertEqual(winding(result, point), int(wanted), (subject, clip, rule, operation, point))
                    counts[wanted] += 1
        self.assertGreater(min(counts[True], counts[False]), 1000, counts)

    def test_whole_numbers(self):
        self.assert_told(48, lambda numbers: numbers.randrange(101), 0.5)

    def test_floats(self):
        self.assert_told(49, lambda numbers: numbers.uniform(0, 100), 1.0, itree.Grid())
        self.assert_told(50, lambda numbers: numbers.uniform(0, 100), 0.25, itree.Grid((20, 20), 0.25))


class Answers(unittest.TestCase):
    def test_is_a_sequence_of_polygons(self):
        polygons = itree.overlay([BIG], [SMALL, square(20, 0, 2)], "xor")
        self.assertEqual(len(polygons), 2)
        self.assertEqual([*polygons], [polygons[0], polygons[1]])
        self.assertEqual(polygons[-1], polygons[1])
        self.assertEqual(polygons[::-1], [polygons[1], polygons[0]])
        self.assertIn(polygons[1], polygons)
        for place in 2, -3:
            with self.assertRaises(IndexError):
                polygons[place]
        outer, holes = next(it for it in polygons if it.holes)
        self.assertEqual((sorted(outer), sorted(holes[0])), (sorted(BIG), sorted(SMALL)))
        self.assertEqual(repr(polygons), "<itree.Polygons: 2 polygons, 3 rings, 12 points, grid=None>")

    def test_arrays(self):
        polygons = itree.overlay([BIG], [SMALL, square(20, 0, 2)], "xor")
        self.assertEqual((polygons.points.format, polygons.points.shape), ("i", (12, 2)))
        self.assertTrue(polygons.points.readonly and polygons.ring_offsets.readonly)
        for offsets, stops in (polygons.ring_offsets, [0, 4, 8, 12]), (polygons.polygon_offsets, [0, 2, 3]):
            self.assertEqual(offsets.format, "q")
            self.assertIn(offsets.tolist(), (stops, [0, 1, 3]))
        points, stops, ends = (getattr(polygons, it).tolist() for it in ("points", "ring_offsets", "polygon_offsets"))
        rings = [list(map(tuple, points[start:stop])) for start, stop in zip(stops, stops[1:])]
        again = [itree.Polygon(rings[first], rings[first + 1 : stop]) for first, stop in zip(ends, ends[1:])]
        self.assertEqual(again, list(polygons))
        nothing = itree.simplify([])
        self.assertEqual((nothing.points.shape, nothing.points.tolist()), ((0, 2), []))
        self.assertEqual((nothing.ring_offsets.tolist(), nothing.polygon_offsets.tolist()), ([0], [0]))

    @needs_numpy
    def test_numpy_takes_them_without_a_copy(self):
        grid = itree.Grid((100.0, 50.0), 0.25)
        polygons = itree.simplify([square(100, 50, 2)], grid=grid)
        points, rings = map(numpy.asarray, (polygons.points, polygons.ring_offsets))
        self.assertEqual((points.dtype, points.shape, rings.dtype), (numpy.int32, (4, 2), numpy.int64))
        floats = map(tuple, (points * grid.unit + grid.origin).tolist())
        self.assertEqual(from_least(floats), square(100.0, 50.0, 2.0))
        self.assertTrue(numpy.shares_memory(points, numpy.asarray(polygons.points)))

    def test_has_a_geo_interface(self):
        polygons = itree.overlay([BIG], [SMALL], "difference")
        shape = json.loads(json.dumps(polygons.__geo_interface__))
        self.assertEqual((shape["type"], len(shape["coordinates"])), ("MultiPolygon", 1))
        self.assertEqual(json.loads(json.dumps(polygons[0].__geo_interface__))["coordinates"], shape["coordinates"][0])
        self.assertTrue(all(len(ring) == 5 and ring[0] == ring[-1] for ring in shape["coordinates"][0]))
        self.assertEqual([from_least(ring[:-1]) for ring in shape["coordinates"][0]], FRAME)
        self.assertEqual(itree.simplify([]).__geo_interface__, {"type": "MultiPolygon", "coordinates": []})

    def test_are_taken_again(self):
        for grid in None, itree.Grid((0.5, 0.0), 0.125):
            frame = itree.overlay([BIG], [SMALL], "difference", grid=grid)
            self.assertEqual(told(itree.simplify(frame, "positive", grid=grid)), [FRAME])
            self.assertEqual(told(itree.simplify(frame)), [FRAME])
            self.assertEqual(told(itree.simplify(frame, grid=itree.Grid.fit(frame))), [FRAME])
            self.assertEqual(told(itree.simplify(list(frame))), [FRAME])
            self.assertEqual(told(itree.overlay(frame, frame[0], "xor")), [])
            self.assertEqual(told(itree.overlay(frame, [SMALL], grid=grid)), [[BIG]])

    def test_gives_them_back_with_the_last_view(self):
        library, given_back = _library.library, []
        free = library.itree_polygons_free
        library.itree_polygons_free = lambda at: (given_back.append(at.value), free(at))
        try:
            for name in "points", "ring_offsets", "polygon_offsets":
                polygons = itree.overlay([BIG], [SMALL], "difference")
                view, wanted = getattr(polygons, name), getattr(polygons, name).tolist()
                del polygons
                gc.collect()
                self.assertEqual(given_back, [])
                self.assertEqual(view.tolist(), wanted)
                del view
                gc.collect()
                self.assertEqual(len(given_back), 1)
                given_back.clear()
            list(itree.simplify([]))
            gc.collect()
            self.assertEqual(len(given_back), 1)
        finally:
            library.itree_polygons_free = free

    def test_raises_memory_error(self):
        library, requests = ctypes.CDLL(os.environ["ITREE_LIBRARY"]), 0
        while True:
            library.refuse_after(ctypes.c_size_t(requests))
            try:
                polygons = itree.overlay([BIG], [SMALL], "difference")
            except MemoryError:
                requests += 1
                continue
            finally:
                library.refuse_after(ctypes.c_size_t(-1))
            break
        self.assertEqual(told(polygons), [FRAME])
        self.assertGreater(requests, 3)


def flat(ring, typecode="i"):
    return array.array(typecode, itertools.chain(*ring))


def of_shape(*rings, kind="Polygon", **more):
    return {"type": kind, "coordinates": [[*ring, *ring[:1]] for ring in rings], **more}


class HasShape:
    """As shapely's objects have it."""

    def __init__(self, shape):
        self.__geo_interface__ = shape


class Taken(unittest.TestCase):
    """Each kind of shapes is taken as the same rings."""

    def assert_taken(self, given, wanted=None, **how):
        for way in WAYS:
            with self.subTest(given=given, way=way.__name__), way():
                self.assertEqual(told(itree.simplify(given, **how)), wanted or [FRAME])

    def test_rings(self):
        for grid in None, itree.Grid(unit=0.5):
            self.assert_taken(FRAME, grid=grid)
            self.assert_taken(tuple(map(tuple, FRAME)), grid=grid)
            self.assert_taken([list(map(list, ring)) for ring in FRAME], grid=grid)
            self.assert_taken([ring + ring[:1] for ring in FRAME], grid=grid)
            self.assert_taken([[], *FRAME, [(7, 7)]], grid=grid)
            for typecode in "bhilq":
                self.assert_taken([flat(ring, typecode) for ring in FRAME], grid=grid)
                rows = [memoryview(flat(ring, typecode)).cast("B").cast(typecode, (4, 2)) for ring in FRAME]
                self.assert_taken([rows[0], flat(FRAME[1])], grid=grid)
        with without_numpy():
            self.assertEqual(told(itree.simplify(map(iter, FRAME))), [FRAME])
            self.assertEqual(told(itree.simplify(iter(FRAME), grid=itree.Grid())), [FRAME])

    def test_floats(self):
        grid = itree.Grid((3.0, 3.0), 0.25)
        for typecode in "fdi":
            self.assert_taken([flat(ring, typecode) for ring in FRAME], grid=grid)
        for number in float, fractions.Fraction, decimal.Decimal, bool:
            ring = [tuple(map(number, point)) for point in square(0, 0, 1)]
            self.assert_taken([ring], [[square(0, 0, 1)]], grid=grid)
        swapped = (ctypes.c_double.__ctype_be__ * 2 * 4)(*[(ctypes.c_double.__ctype_be__ * 2)(*it) for it in BIG])
        self.assert_taken([swapped], [[BIG]], grid=grid)

    @needs_numpy
    def test_arrays(self):
        for kind in "bhilqfde":
            rings = [numpy.array(ring, dtype=kind) for ring in FRAME]
            grids = [itree.Grid(unit=0.5)] if kind in "fde" else [None, itree.Grid(unit=0.5)]
            for grid in grids:
                for order in "<>":
                    self.assert_taken([it.astype(it.dtype.newbyteorder(order)) for it in rings], grid=grid)
                self.assert_taken(rings, grid=grid)
                self.assert_taken(numpy.array(rings), grid=grid)
                self.assert_taken([numpy.asfortranarray(it) for it in rings], grid=grid)
                self.assert_taken([it.ravel() for it in rings], grid=grid)
                self.assert_taken([list(it) for it in rings], grid=grid)
                self.assert_taken([numpy.zeros((0, 2)), *rings], grid=grid)

    def test_shapes(self):
        frame, frames = of_shape(*FRAME), {"type": "MultiPolygon", "coordinates": [of_shape(*FRAME)["coordinates"]]}
        feature = {"type": "Feature", "geometry": frame, "properties": None}
        features = {"type": "FeatureCollection", "features": [feature, {"type": "Feature", "geometry": None}]}
        collection = {"type": "GeometryCollection", "geometries": [frames, {"type": "Polygon", "coordinates": ()}]}
        for shape in frame, frames, feature, features, collection:
            for grid in None, itree.Grid(unit=0.5):
                for given in shape, HasShape(shape), [shape], (HasShape(shape),):
                    self.assert_taken(given, grid=grid)
                self.assert_taken([SMALL, shape], [[BIG]], grid=grid)
                self.assert_taken(json.loads(json.dumps(shape)), grid=grid)

    def test_rings_of_shapes_are_directed(self):
        for outer, hole in itertools.product((BIG, BIG[::-1]), (SMALL, SMALL[::-1])):
            for rule in "nonzero", "positive", "evenodd":
                self.assert_taken(of_shape(outer, hole), rule=rule)
        self.assertEqual(list(itree.simplify(of_shape(BIG), "negative")), [])

    def test_rings_are_directed_before_they_are_rounded(self):
        # The tail is turned over by the grid, and has then more area than what is left of the hole.
        hole = [(0, 0), (3, 0), (3, 1), (1000, 1.5), (500, 1.45), (3, 1.4), (3, 3), (0, 3)]
        outer = [(-10, -10), (1010, -10), (1010, 10), (-10, 10)]
        for given in of_shape(outer, hole), of_shape(outer[::-1], hole[::-1]):
            holes = itree.simplify(given, grid=itree.Grid())[0].holes
            self.assertTrue(any({(0, 0), (3, 0), (3, 3), (0, 3)} <= set(ring) for ring in holes), holes)

    def test_directions_are_exact(self):
        numbers, signs = random.Random(47), collections.Counter()
        for scale in 1.0, 1e-300, 1e290, 2.0**-1074:
            for _ in range(300):
                axes = []
                for start in numbers.choices([0, 0, 1e9, -3.7], k=2):
                    around = numbers.choices([0.1, 0.3, 1, 3, 7e8], k=4)
                    axes.append(array.array("d", [(start + it) * scale for it in around]))
                xs, ys = (list(map(fractions.Fraction, axis)) for axis in axes)
                area = sum(xs[place - 1] * ys[place] - xs[place] * ys[place - 1] for place in range(4))
                self.assertEqual(_shapes._is_counterclockwise(*axes), area > 0, axes)
                signs[(area > 0) - (area < 0)] += 1
        self.assertGreater(min(signs.values()), 50)

    def test_what_stands_behind_two_coordinates_is_left_out(self):
        high = [(x, y, 7.5) for x, y in BIG]
        mixed = [(*point, *[None, "m"][: place % 3]) for place, point in enumerate(BIG)]
        for grid in None, itree.Grid(unit=0.5):
            for ring in high, mixed:
                self.assert_taken(of_shape(ring), [[BIG]], grid=grid)

    def test_floats_that_are_whole(self):
        whole = [[(float(x), y) for x, y in ring] for ring in FRAME]
        self.assert_taken(of_shape(*whole))

    @needs_shapely
    def test_shapes_of_shapely(self):
        frame = shapely.geometry.Polygon(BIG, [SMALL])
        frames = shapely.geometry.MultiPolygon([frame])
        for given in frame, frames, [frame], shapely.geometry.GeometryCollection([frame]):
            self.assert_taken(given)
            self.assert_taken(given, grid=itree.Grid.fit(given))
        self.assertEqual(list(itree.simplify(shapely.geometry.Polygon())), [])
        answer = itree.overlay(frame, shapely.geometry.box(0, 0, 4, 4), "difference")
        self.assertTrue(shapely.geometry.shape(answer).equals(frame.difference(shapely.geometry.box(0, 0, 4, 4))))
        self.assertTrue(shapely.geometry.shape(answer[0]).is_valid)
        self.assertTrue(shapely.geometry.shape(itree.simplify([])).is_empty)


class Grids(unittest.TestCase):
    def test_there_and_back(self):
        numbers, ways = random.Random(41), 0
        for _ in range(300):
            exponent = numbers.randrange(-1022, 971)
            unit = 2.0**exponent
            reach = 2**53 - 2**31
            grid = itree.Grid([numbers.randrange(-reach, reach + 1) * unit for _ in range(2)], unit)
            for way in WAYS:
                with way():
                    for _ in range(10):
                        whole = numbers.randrange(2**32) - 2**31, numbers.choice([LEAST, MOST, 0, -1])
                        point = grid.from_grid(whole)
                        exact = [fractions.Fraction(at) * fractions.Fraction(2) ** exponent for at in whole]
                        self.assertEqual(point, tuple(map(sum, zip(map(fractions.Fraction, grid.origin), exact))))
                        self.assertEqual(grid.to_grid(point), whole)
                        ways += 1
        self.assertEqual(ways, 3000 * len(WAYS))

    def test_rounds_to_the_next_point(self):
        grid = itree.Grid((0.1, -7.3), 0.25)
        self.assertEqual(grid.origin, (0.0, -7.25))
        numbers, half = random.Random(42), fractions.Fraction(1, 8)
        for _ in range(1000):
            point = numbers.uniform(-99, 99), numbers.choice([0.1, 1e-300, -1e-300, 0.125, 0.375, -0.125])
            for way in WAYS:
                with way():
                    back = grid.from_grid(grid.to_grid(point))
                for there, again in zip(point, back):
                    self.assertLessEqual(abs(fractions.Fraction(there) - fractions.Fraction(again)), half)

    def test_fits(self):
        numbers = random.Random(43)
        for _ in range(500):
            middle, width = (numbers.uniform(-1, 1) * 10.0 ** numbers.randrange(-30, 30) for _ in range(2))
            points = [(middle + numbers.random() * width, numbers.random() * width) for _ in range(10)]
            rings = [points[:5], points[5:]]
            grid = itree.Grid.fit(rings[:1], {"type": "Polygon", "coordinates": rings[1:]})
            reach = max(abs(at) for point in points for at in grid.to_grid(point))
            self.assertLessEqual(reach, 2**30)
            greatest = max(abs(number) for point in points for number in point)
            if reach < 2**29 - 1:
                # No finer unit, for floats lie as far apart there.
                self.assertEqual(grid.unit, 2.0 ** (math.frexp(greatest)[1] - 53))

    def test_fits_exactly(self):
        for ring, unit, origin in (
            ([(0.0, 0.0), (1.0, 0.5)], 2.0**-31, (0.5, 0.25)),
            ([(-180.0, -90.0), (180.0, 90.0)], 2.0**-22, (0.0, 0.0)),
            ([(-(2.0**30), 0), (2.0**30, 0)], 1.0, (0.0, 0.0)),
            ([(-(2.0**30), 0), (2.0**30 + 1, 0)], 2.0, (0.0, 0.0)),
            ([(1e6, 1e6), (1e6 + 2.0**-20, 1e6)], 2.0**-33, (1e6 + 2.0**-21, 1e6)),
            ([(7.0, 7.0)], 2.0**-50, (7.0, 7.0)),
            ([(0, 0)], 1.0, (0.0, 0.0)),
            ([], 1.0, (0.0, 0.0)),
            ([(5e-324, 0)], 2.0**-1022, (0.0, 0.0)),
        ):
            with self.subTest(ring=ring):
                self.assertEqual(itree.Grid.fit([ring]), itree.Grid(origin, unit))
        self.assertEqual(itree.Grid.fit(), itree.Grid())
        self.assertEqual(itree.Grid.fit([BIG], unit=0.5), itree.Grid((4.5, 4.5), 0.5))

    def test_units_that_are_none(self):
        for unit, said in (
            (0.1, "^the unit 0.1: a power of two is wanted, as 0.0625, 2\\*\\*-4$"),
            (3, "^the unit 3.0: a power of two is wanted, as 2.0, 2\\*\\*1$"),
            (0, "a power of two is wanted$"),
            (-1, "a power of two is wanted$"),
            (math.inf, "a power of two is wanted$"),
            (math.nan, "a power of two is wanted$"),
            (2.0**-1023, "one from 2\\*\\*-1022 to 2\\*\\*970 is wanted$"),
            (2.0**971, "one from 2\\*\\*-1022 to 2\\*\\*970 is wanted$"),
        ):
            for call in lambda: itree.Grid(unit=unit), lambda: itree.Grid.fit([BIG], unit=unit):
                with self.subTest(unit=unit), self.assertRaisesRegex(ValueError, said):
                    call()

    def test_origins_that_are_none(self):
        for origin in (math.nan, 0), (0, -math.inf):
            with self.assertRaisesRegex(ValueError, "finite numbers are wanted$"):
                itree.Grid(origin)
        said = "^the origin .* is too far off: floats there lie further apart than the unit 1.0$"
        with self.assertRaisesRegex(ValueError, said):
            itree.Grid((0, 2.0**53))
        with self.assertRaisesRegex(ValueError, "^the unit 1e-09"):
            itree.Grid.fit([BIG], unit=1e-9)
        with self.assertRaisesRegex(ValueError, "is too fine: 0.0 is more than 2\\*\\*31 units from the middle$"):
            itree.Grid.fit([BIG], unit=2.0**-30)

    def test_copies(self):
        grid = itree.Grid((1.5, 2.0), 0.5)
        self.assertEqual(pickle.loads(pickle.dumps(grid)), grid)
        self.assertEqual((eval(repr(grid), {"Grid": itree.Grid}), len({grid, itree.Grid((1.5, 2.0), 0.5)})), (grid, 1))

    def test_answers_have_it(self):
        first, second = [(0.1, 0.1), (0.7, 0.1), (0.4, 0.8)], [(0.3, 0.0), (0.9, 0.0), (0.6, 0.6)]
        grid = itree.Grid.fit([first], [second])
        polygons = itree.overlay([first], [second], "union", grid=grid)
        self.assertEqual((polygons.grid, len(polygons)), (grid, 1))
        for x, y in polygons[0].outer:
            self.assertEqual(grid.from_grid(grid.to_grid((x, y))), (x, y))
        near = min(max(abs(x - 0.1), abs(y - 0.1)) for x, y in polygons[0].outer)
        self.assertLessEqual(near, grid.unit / 2)


class Faults(unittest.TestCase):
    def assert_refused(self, given, error, said, grids=(None, itree.Grid())):
        for grid in grids:
            for way in WAYS:
                with self.subTest(given=given, grid=grid, way=way.__name__), way():
                    with self.assertRaises(error) as raised:
                        itree.overlay([], given, grid=grid)
                    self.assertEqual((type(raised.exception), str(raised.exception)), (error, said))
        if grids != (None,):
            with self.assertRaises(error):
                itree.Grid.fit([BIG], given)

    def test_what_are_no_rings(self):
        alone = "clip: a ring alone; a sequence of rings is wanted: put it into a list"
        for given in BIG, list(map(list, BIG)), flat(BIG), memoryview(flat(BIG)):
            self.assert_refused(given, TypeError, alone)
        for given in 7, None, "rings", 0.5, object:
            said = f"clip: {type(given).__name__}; rings, or what has a __geo_interface__, are wanted"
            self.assert_refused(given, TypeError, said)
        self.assert_refused([BIG, [(1, 2), (3, 4, 5)]], ValueError, "clip, ring 1, row 1: 3 numbers, 2 are wanted")
        self.assert_refused([BIG, [(1,)]], ValueError, "clip, ring 1, row 0: 1 numbers, 2 are wanted")
        said = "clip, ring 0: 3 numbers in a flat buffer, and rows of 2 are wanted"
        self.assert_refused([flat([(1, 2, 3)])], ValueError, said)
        self.assert_refused([BIG, [7]], TypeError, "clip, ring 1, row 0: int; 2 numbers are wanted")

    def test_numbers(self):
        for number in "1", None, b"1", [1]:
            kind = type(number).__name__
            ring, where = [*BIG, (3, number)], "clip, ring 0, row 4"
            self.assert_refused([ring], TypeError, f"{where}: {kind}; whole numbers are wanted", (None,))
            for given, grids in ([ring], (itree.Grid(),)), (of_shape(ring), (None, itree.Grid())):
                self.assert_refused(given, TypeError, f"{where}: {kind}; numbers are wanted", grids)

    def test_numbers_that_are_not_whole(self):
        hint = "whole numbers are wanted; scale and round, e.g. round(x * 1e7); or give a grid: itree.Grid.fit(...)"
        ring = [*BIG, (3, 0.5)]
        self.assert_refused([ring], TypeError, f"clip, ring 0, row 4: 0.5; {hint}", (None,))
        for given in of_shape(ring), [of_shape(ring)], HasShape(of_shape(ring)):
            # Of shapes the finest grid that fits is taken.
            answer = itree.overlay([SMALL], given)
            self.assertEqual(
                (answer.grid, answer), (itree.Grid.fit([SMALL], given), itree.overlay([SMALL], given, grid=answer.grid))
            )

    def test_numbers_that_do_not_fit(self):
        ring, grid = [*BIG, (3, 2**31)], itree.Grid()
        for given in [ring], of_shape(ring), of_shape([(3.0, 2.0**31)] * 9):
            if isinstance(given, list):
                with self.assertRaisesRegex(OverflowError, "^clip, ring 0, row 4: 2147483648 doesn't fit in 32 bits$"):
                    itree.overlay([], given)
            else:
                self.assertEqual(itree.overlay([], given).grid, itree.Grid.fit(given))
            with self.assertRaisesRegex(ValueError, "^clip, ring 0, row [04]: 2147483648.0 is off the grid, which is "):
                itree.overlay([], given, grid=grid)
            with self.assertRaisesRegex(ValueError, "^clip, ring 3, row [04]: 2147483648.0 is off the grid, which is "):
                ring = given["coordinates"][0] if isinstance(given, dict) else given[0]
                itree.overlay([], [BIG, [], SMALL, ring], grid=grid)
        for number in 1e300, -1e300, 2.0**31 - 0.5, -(2.0**31) - 0.75, 2.0**70:
            for point in (number, 3.0), (3.0, number):
                for way in WAYS:
                    with way(), self.assertRaisesRegex(ValueError, "^the point, row 0: .* is off the grid") as raised:
                        grid.to_grid(point)
                    self.assertIn(str(number), str(raised.exception))
        for number in 2.0**31 - 0.75, -(2.0**31) - 0.25:
            self.assertIn(grid.to_grid((number, 0))[0], (LEAST, MOST))
        fine = itree.Grid(unit=2.0**-1000)
        with self.assertRaisesRegex(ValueError, " 1e[+]30 is off the grid"):
            fine.to_grid((0, 1e30))
        said = "clip, ring 0, row 0: a number of 1329 bits doesn't fit into a float"
        self.assert_refused([[(10**400, 0)]], ValueError, said, (grid,))

    def test_numbers_that_are_not_finite(self):
        for number in math.nan, math.inf, -math.inf:
            ring = [*BIG, (3, number)]
            for given in [ring], of_shape(ring), [flat(ring, "d")]:
                said = f"clip, ring 0, row 4: {number}; finite numbers are wanted"
                grids = (None, itree.Grid()) if isinstance(given, dict) else (itree.Grid(),)
                self.assert_refused(given, ValueError, said, grids)

    def test_what_are_no_shapes(self):
        wanted = "Polygon, MultiPolygon, GeometryCollection, Feature or FeatureCollection is wanted"
        line = {"type": "LineString", "coordinates": [(1, 2), (3, 4)]}
        feature = {"type": "Feature", "geometry": line}
        features = {"type": "FeatureCollection", "features": [{"type": "Feature", "geometry": None}, feature]}
        for given, where, kind in (
            (line, "clip", "LineString"),
            (HasShape(line), "clip", "LineString"),
            (features, "clip, feature 1", "LineString"),
            ([BIG, features], "clip, place 1, feature 1", "LineString"),
            ({"type": "GeometryCollection", "geometries": [7]}, "clip, geometry 0", "no type of GeoJSON"),
            ({"type": ["Polygon"]}, "clip", "no type of GeoJSON"),
            ({}, "clip", "no type of GeoJSON"),
        ):
            self.assert_refused(given, TypeError, f"{where}: {kind}; {wanted}")
        for given, said in (
            ({"type": "Polygon"}, "clip: Polygon with no coordinates; a list is wanted"),
            (
                {"type": "MultiPolygon", "coordinates": [7]},
                "clip, polygon 0: Polygon with coordinates that are int; a list is wanted",
            ),
            ({"type": "FeatureCollection"}, "clip: FeatureCollection with no features; a list is wanted"),
            (of_shape(BIG, [(1, 2), (3,)]), "clip, ring 1, row 1: 1 numbers, 2 are wanted"),
        ):
            self.assert_refused(given, ValueError, said)

    def test_choices_that_are_none(self):
        for operation in "sum", "", 0, None:
            with self.assertRaisesRegex(ValueError, f"^the operation {operation!r}: one of union, .*, xor is wanted$"):
                itree.overlay([], [], operation)
        for rule in "even-odd", 1, None:
            with self.assertRaisesRegex(ValueError, f"^the rule {rule!r}: one of evenodd, nonzero, .* is wanted$"):
                itree.simplify([], rule)
        with self.assertRaisesRegex(TypeError, "^the grid is float; a Grid or None is wanted$"):
            itree.simplify([], grid=0.5)


class Command(unittest.TestCase):
    """`python3 -m itree`, over files of GeoJSON."""

    FEATURES = [{"type": "Feature", "geometry": shape} for shape in (None, of_shape(*FRAME))]
    FRAME = {"type": "FeatureCollection", "features": FEATURES}

    def setUp(self):
        folder = tempfile.TemporaryDirectory()
        self.addCleanup(folder.cleanup)
        self.folder = pathlib.Path(folder.name)
        self.files = [self.file("frame.geojson", self.FRAME), self.file("small.geojson", of_shape(SMALL))]

    def file(self, name, content):
        path = self.folder / name
        path.write_bytes(content if isinstance(content, bytes) else json.dumps(content).encode())
        return str(path)

    def ran(self, *words, **how):
        """The status of a process of its own, and what it wrote."""
        how = {"stdout": subprocess.PIPE, "stderr": subprocess.PIPE, "text": True, **how}
        ran = subprocess.run([sys.executable, "-m", "itree", *words], **how)
        return ran.returncode, ran.stdout, ran.stderr

    def called(self, *words):
        """The same of a call in this process."""
        output, faults = io.StringIO(), io.StringIO()
        with contextlib.redirect_stdout(output), contextlib.redirect_stderr(faults):
            try:
                status = command.main(list(words))
            except SystemExit as ended:
                status = ended.code
        return status, output.getvalue(), faults.getvalue()

    def assert_written(self, ran, polygons, **properties):
        status, output, faults = ran
        self.assertEqual((status, faults), (0, ""))
        feature = json.loads(output)
        self.assertEqual((feature["type"], feature["geometry"]["type"]), ("Feature", "MultiPolygon"))
        told_of = {"operation": "union", "rule": "nonzero", "unit": 2.0**-27, **properties}
        self.assertEqual(feature["properties"], told_of)
        rings = [[from_least(ring[:-1]) for ring in polygon] for polygon in feature["geometry"]["coordinates"]]
        self.assertEqual(sorted(rings), sorted(polygons))

    def test_overlay(self):
        self.assert_written(self.ran("overlay", *self.files), [[BIG]])
        words = "overlay", "--operation", "intersection", "--rule", "evenodd", "--unit", "0.5"
        self.assert_written(self.called(*words, *self.files), [], operation="intersection", rule="evenodd", unit=0.5)
        self.assert_written(self.called("overlay", *self.files[:1] * 2), [FRAME])
        self.assert_written(self.called("overlay", "--operation", "xor", *self.files), [[BIG]], operation="xor")

    def test_simplify(self):
        self.assert_written(self.called("simplify", self.files[0]), [FRAME])
        self.assert_written(self.called("simplify", "--rule", "negative", self.files[0]), [], rule="negative")

    def test_reads_the_standard_input(self):
        words = "overlay", "--operation", "difference", "-", self.files[1]
        self.assert_written(self.ran(*words, input=json.dumps(self.FRAME)), [FRAME], operation="difference")
        marked = self.file("marked.geojson", b"\xef\xbb\xbf" + json.dumps(self.FRAME).encode())
        self.assert_written(self.ran("simplify", marked), [FRAME])

    def test_rounds_to_the_unit(self):
        near = self.file("near.geojson", of_shape([(0.1, 0.2), (3.9, 0.1), (0.2, 4.1)]))
        self.assert_written(self.called("simplify", "--unit", "2", near), [[[(0, 0), (4, 0), (0, 4)]]], unit=2.0)

    def test_faulty_files(self):
        features = [*self.FEATURES, {"type": "Feature", "geometry": of_shape([(0, 1), (2, math.nan)])}]
        wanted = "Polygon, MultiPolygon, GeometryCollection, Feature or FeatureCollection is wanted"
        for content, said in (
            ({**self.FRAME, "features": features}, ", feature 2, ring 0, row 1: nan; finite numbers are wanted"),
            (b'{"type":\n "Polygon" 7}', ", line 2, column 12: Expecting ',' delimiter"),
            (b"[1]", ": no object; one of GeoJSON is wanted"),
            (b"{}", f": no type of GeoJSON; {wanted}"),
            (b'{"type": "Polygon", "coordinates": [[[1, 2], [3]]]}', ", ring 0, row 1: 1 numbers, 2 are wanted"),
            (b'{"type": "Polygon", "coordinates": [[["1", 2]]]}', ", ring 0, row 0: str; numbers are wanted"),
            (b'{"type": "Polygon", "coordinates": [[[1e999, 2]]]}', ", ring 0, row 0: inf; finite numbers are wanted"),
        ):
            faulty = self.file("faulty.geojson", content)
            for words in ("simplify", faulty), ("overlay", faulty, self.files[0]), ("overlay", self.files[0], faulty):
                with self.subTest(said=said, words=words):
                    self.assertEqual(self.called(*words), (2, "", f"itree: {faulty}{said}\n"))
        for content in b"\xff\xfe\xfa", b"[" * 100000, b"9" * 10000:
            faulty = self.file("faulty.geojson", content)
            status, output, faults = self.ran("simplify", faulty)
            self.assertEqual((status, output, faults.count("\n")), (2, "", 1))
            self.assertTrue(faults.startswith(f"itree: {faulty}: "), faults)
        for name, said in (self.folder / "none", "No such file or directory"), (self.folder, "Is a directory"):
            self.assertEqual(self.ran("simplify", str(name)), (2, "", f"itree: {name}: {said}\n"))

    def test_faulty_words(self):
        few_or_many = ("overlay", self.files[0]), ("simplify", *self.files)
        for words in [(), ("sum",), ("simplify", "--unit", "x", "-"), *few_or_many]:
            status, output, faults = self.called(*words)
            self.assertEqual((status, output), (2, ""))
            self.assertIn("error: ", faults)
        said = "itree: the unit 0.1: a power of two is wanted, as 0.0625, 2**-4\n"
        self.assertEqual(self.called("simplify", "--unit", "0.1", self.files[0]), (2, "", said))
        self.assertEqual(self.called("overlay", "-", "-"), (2, "", "itree: the standard input can be one file alone\n"))

    def test_asked_for_help(self):
        for word in "--version", "-V":
            self.assertEqual(self.called(word), (0, f"itree {itree.__version__}\n", ""))
        for words in ("--help",), ("help",), ("overlay", "--help"), ("simplify", "-h"), ("valid", "--help"):
            status, output, faults = self.called(*words)
            self.assertEqual((status, faults), (0, ""))
            self.assertIn("usage: python3 -m itree", output)

    def test_ends_with_1(self):
        library = ctypes.CDLL(os.environ["ITREE_LIBRARY"])
        library.refuse_after(ctypes.c_size_t(0))
        try:
            self.assertEqual(self.called("simplify", self.files[0]), (1, "", "itree: memory was refused\n"))
        finally:
            library.refuse_after(ctypes.c_size_t(-1))
        with open("/dev/full", "w") as full:
            status, _, faults = self.ran("simplify", self.files[0], stdout=full)
        self.assertEqual((status, faults), (1, "itree: the standard output: No space left on device\n"))
        reading, writing = os.pipe()
        os.close(reading)
        status, _, faults = self.ran("simplify", self.files[0], stdout=writing)
        os.close(writing)
        self.assertEqual((status, faults), (1, "itree: the standard output was closed\n"))


def random_star(numbers, middle, near, far, corners):
    """A ring around a point, at whose corners the angles rise."""
    angles = sorted(numbers.uniform(0, 2 * math.pi) for _ in range(corners))
    reach = [numbers.uniform(near, far) for _ in angles]
    return [(middle[0] + r * math.cos(at), middle[1] + r * math.sin(at)) for at, r in zip(angles, reach)]


def random_polygons(numbers):
    """Up to nine stars in a lattice of squares whose sides are 100, every other with a hole."""
    left, low = numbers.uniform(-100, 100), numbers.uniform(-100, 100)
    polygons = []
    for column, row in itertools.product(range(numbers.randrange(1, 4)), range(numbers.randrange(1, 4))):
        middle = left + 100 * column, low + 100 * row
        outer = random_star(numbers, middle, 25, 49, numbers.randrange(7, 20))
        holes = [random_star(numbers, middle, 2, 10, numbers.randrange(5, 9))] * numbers.randrange(2)
        polygons.append(shapely.geometry.Polygon(outer, holes))
    return shapely.geometry.MultiPolygon(polygons)


def random_pairs(numbers, count):
    """So many pairs of polygons that are valid."""
    valid = (it for it in iter(lambda: random_polygons(numbers), None) if it.is_valid)
    return itertools.islice(zip(valid, valid), count)


@needs_shapely
class Judge(unittest.TestCase):
    """Shapely's answers, and what it says of ours."""

    CALLS = dict(zip(OPERATIONS, ("union", "intersection", "difference", "symmetric_difference")))

    def judge(self, seed, count, unit):
        counts, furthest = collections.Counter(), 0
        for subject, clip in random_pairs(random.Random(seed), count):
            grid = itree.Grid.fit(subject, clip, unit=unit)
            room = (subject.length + clip.length) * grid.unit
            for operation, call in self.CALLS.items():
                polygons = itree.overlay(subject, clip, operation, grid=grid)
                shape = shapely.geometry.shape(polygons)
                off = abs(shape.area - getattr(subject, call)(clip).area)
                furthest = max(furthest, off / room)
                counts["areas"] += off <= room
                counts["valid answers"] += shape.is_valid
                counts["valid polygons"] += sum(shapely.geometry.shape(it).is_valid for it in polygons)
                counts["polygons"] += len(polygons)
            counts["pairs"] += 1
        said = ", ".join(f"{counts[name]} {name}" for name in ("pairs", "areas", "valid answers", "valid polygons"))
        off = f"areas differ by at most {furthest:.2f} of what they may, by the unit {grid.unit}"
        print(f"\nshapely {shapely.__version__}: {said}; {off}")
        self.assertEqual((counts["pairs"], counts["areas"], counts["valid answers"]), (count, 4 * count, 4 * count))
        self.assertEqual(counts["valid polygons"], counts["polygons"])
        self.assertGreater(counts["polygons"], 4 * count)

    def test_floats(self):
        self.judge(44, 500, None)

    def test_coarse_units(self):
        for seed, unit in (45, 1.0), (46, 8.0):
            self.judge(seed, 100, unit)

    def test_rings_on_few_points(self):
        numbers, counts = random.Random(51), collections.Counter()
        for _ in range(1500):
            size = numbers.choice([4, 8, 20])

            def random_ring():
                if numbers.randrange(3):
                    return [(numbers.randrange(size), numbers.randrange(size)) for _ in range(numbers.randrange(3, 9))]
                return square(numbers.randrange(size), numbers.randrange(size), numbers.randrange(1, 5))

            subject, clip = ([random_ring() for _ in range(numbers.randrange(1, 5))] for _ in range(2))
            operation, rule = numbers.choice(OPERATIONS), numbers.choice(["evenodd", "nonzero", "positive", "negative"])
            polygons = itree.overlay(subject, clip, operation, rule)
            self.assertTrue(shapely.geometry.shape(polygons).is_valid, (subject, clip, operation, rule))
            edges = edges_of(ring for polygon in polygons for ring in (polygon.outer, *polygon.holes))
            corners = collections.Counter(start for start, _ in edges)
            counts["at a corner"] += max(corners.values(), default=0) > 1
            counts["at a side"] += any(goes_through(edge, corner) for edge in edges for corner in corners)
        said = ", ".join(f"{count} touch {where}" for where, count in sorted(counts.items()))
        print(f"\nshapely {shapely.__version__}: 1500 answers are valid, of which {said}")
        self.assertGreater(min(counts.values()), 50)

    def test_rings_that_touch(self):
        for subject, clip, operation in (
            ([LOW], [CORNER], "union"),
            ([LOW], [square(2, 2, 2)], "union"),
            ([BIG], [[(0, 4), (3, 3), (3, 6)]], "difference"),
            ([BIG], [[(0, 4), (3, 3), (3, 6)], [(3, 4), (6, 3), (6, 5)], [(9, 4), (6, 2), (6, 3)]], "difference"),
            ([BIG], [[(0, 0), (3, 1), (1, 3)], [(9, 9), (3, 8), (8, 3)]], "xor"),
            (FRAME, [square(0, 3, 3), square(6, 6, 3), [(3, 3), (6, 6), (5, 3)]], "xor"),
        ):
            shape = shapely.geometry.shape(itree.overlay(subject, clip, operation))
            self.assertTrue(shape.is_valid and not shape.is_empty, (subject, clip, operation))


def load_tests(_loader, tests, _pattern):
    for module in _grid, _overlay, _polygons, _rings, _shapes:
        tests.addTests(doctest.DocTestSuite(module))
    return tests


if __name__ == "__main__":
    unittest.main()
