"""Shapes that grow and shrink, from Python: by hand, at faults, with each request for memory refused in turn; by chance
beside the points that polygons and a shape add up to, as process_tests has them; and beside shapely's buffer.

usage: test_offset.py [--many[=COUNT]] [--seed=SEED] [words of unittest]

bindings/test runs it over a library that refuses memory when it is told to (ITREE_LIBRARY). What needs shapely or geopandas is
skipped where they aren't there. By chance it tries 1,000 sets of polygons; --many tries 20,000, which take some minutes, and
--many=COUNT so many. --seed=SEED tries others.
"""

import array
import contextlib
import ctypes
import doctest
import io
import json
import math
import os
import pathlib
import random
import re
import sys
import tempfile
import unittest

TOP = pathlib.Path(__file__).resolve().parent.parent.parent
sys.path.append(str(TOP / "process_tests"))

import growth

import itree
from itree import __main__ as command
from itree import _grown, _offset
from itree._shapes import HeldRings, held_rings

try:
    import shapely.geometry
    import shapely.ops
except ImportError:
    shapely = None
try:
    import geopandas
except ImportError:
    geopandas = None

needs_shapely = unittest.skipUnless(shapely, "shapely isn't there")
MANY = next((int(it[7:] or 20000) for it in sys.argv if re.fullmatch(r"--many(=\d+)?", it)), 1000)
SEED = next((int(it[7:]) for it in sys.argv if re.fullmatch(r"--seed=\d+", it)), 0)
SQUARE = [(-1, -1), (1, -1), (1, 1), (-1, 1)]
FIELD = [(0, 0), (9, 0), (9, 9), (0, 9)]


def turned(ring):
    """A ring from its least point on."""
    start = ring.index(min(ring))
    return ring[start:] + ring[:start]


def rings_of(polygons):
    """All rings, each from its least point on."""
    return sorted(turned(ring) for polygon in polygons for ring in (polygon.outer, *polygon.holes))


def area_of(polygons):
    """The area, as the sum over all rings."""
    rings = [ring for polygon in polygons for ring in (polygon.outer, *polygon.holes)]
    edges = [edge for ring in rings for edge in zip(ring, ring[1:] + ring[:1])]
    return math.fsum((x1 - x0) * (y0 + y1) / -2 for (x0, y0), (x1, y1) in edges)


class ByHand(unittest.TestCase):
    """Rows: rings, a shape, and the rings of their sum."""

    ROWS = (
        ("a square by a square", [FIELD], SQUARE, [[(-1, -1), (10, -1), (10, 10), (-1, 10)]]),
        (
            "by a rhomb",
            [FIELD],
            [(2, 0), (0, 2), (-2, 0), (0, -2)],
            [[(-2, 0), (0, -2), (9, -2), (11, 0), (11, 9), (9, 11), (0, 11), (-2, 9)]],
        ),
        (
            "a hole of two units closes",
            [FIELD, [(3, 3), (3, 5), (5, 5), (5, 3)]],
            SQUARE,
            [[(-1, -1), (10, -1), (10, 10), (-1, 10)]],
        ),
        (
            "and one of three is left",
            [FIELD, [(3, 3), (3, 6), (6, 6), (6, 3)]],
            SQUARE,
            [[(-1, -1), (10, -1), (10, 10), (-1, 10)], [(4, 4), (4, 5), (5, 5), (5, 4)]],
        ),
        (
            "two parts become one",
            [[(0, 0), (2, 0), (2, 9), (0, 9)], [(4, 0), (6, 0), (6, 9), (4, 9)]],
            SQUARE,
            [[(-1, -1), (7, -1), (7, 10), (-1, 10)]],
        ),
        ("a spike is nothing", [[(0, 0), (9, 0)]], SQUARE, []),
        ("no rings", [], SQUARE, []),
    )

    def test_rows(self):
        for what, rings, shape, wanted in self.ROWS:
            with self.subTest(what):
                self.assertEqual(rings_of(itree.minkowski(rings, shape)), wanted)
                flat = array.array("q", [number for point in shape for number in point])
                self.assertEqual(rings_of(itree.minkowski(rings, flat)), wanted)

    def test_whole_rings(self):
        """A circle of whole points around rings of whole numbers: of radius 1 it is a rhomb."""
        wider = itree.offset([FIELD], 1)
        self.assertEqual(wider.grid, None)
        self.assertEqual(rings_of(wider), [[(-1, 0), (0, -1), (9, -1), (10, 0), (10, 9), (9, 10), (0, 10), (-1, 9)]])
        self.assertEqual(rings_of(itree.offset([FIELD], -1)), [[(1, 1), (8, 1), (8, 8), (1, 8)]])
        self.assertEqual(rings_of(itree.offset([FIELD], -4)), [[(4, 4), (5, 4), (5, 5), (4, 5)]])
        self.assertEqual(rings_of(itree.offset([FIELD], -5)), [])
        self.assertEqual(rings_of(itree.offset([FIELD], 0)), [FIELD])

    def test_corridor(self):
        """Two rooms and a corridor of two units: it goes where all shrinks by one, and the rooms stay apart."""
        rooms = [(0, 0), (9, 0), (9, 4), (19, 4), (19, 0), (28, 0), (28, 9), (19, 9), (19, 6), (9, 6), (9, 9), (0, 9)]
        apart = rings_of(itree.offset([rooms], -1))
        self.assertEqual(len(apart), 2)
        again = itree.offset(itree.offset([rooms], -1), 1)
        self.assertEqual(len(again), 2)

    def test_lines_and_points(self):
        line = {"type": "LineString", "coordinates": [(0, 0), (8, 0)]}
        point = {"type": "Point", "coordinates": (20.0, 0.0)}
        wanted = 16 * 1 + _area(64)
        self.assertAlmostEqual(area_of(itree.offset(line, 1)), wanted, 6)
        both = itree.offset([line, {"type": "Feature", "geometry": point}, None], 1)
        self.assertEqual(len(both), 2)
        self.assertAlmostEqual(area_of(both), wanted + _area(64), 6)
        many = {"type": "MultiPoint", "coordinates": [(0, 0), (0.5, 0), (9, 9, 5)]}
        self.assertEqual(len(itree.offset(many, 1)), 2)
        parts = {"type": "MultiLineString", "coordinates": [[(0, 0), (8, 0)], [(4, -4), (4, 4)], [(7, 7)]]}
        cross = itree.offset({"type": "GeometryCollection", "geometries": [parts, point]}, 1)
        self.assertEqual(len(cross), 3)
        for distance in (0, -1):
            self.assertEqual(len(itree.offset([line, point, parts], distance)), 0)

    def test_mitres(self):
        square = {"type": "Polygon", "coordinates": [FIELD]}
        for style in ("mitre", 2):
            self.assertEqual(rings_of(itree.offset([FIELD], 1, join_style=style)), [[(-1, -1), (10, -1), (10, 10), (-1, 10)]])
            made = itree.offset(square, 1, join_style=style)
            self.assertEqual(len(made[0].outer), 4)
            self.assertAlmostEqual(area_of(made), 121, 6)
        self.assertEqual(rings_of(itree.offset([FIELD], -2, join_style="mitre")), [[(2, 2), (7, 2), (7, 7), (2, 7)]])
        self.assertEqual(rings_of(itree.offset([FIELD], -5, join_style="mitre")), [])
        self.assertEqual(rings_of(itree.offset([FIELD], 0, join_style="mitre")), [FIELD])
        # The mitre of a right angle is 1.41 times as far away as the sides: beyond a limit of 1.4 it is round.
        for limit, corners in ((1, 68), (1.4, 68), (1.42, 4), (1e9, 4)):
            made = itree.offset([FIELD], 1000, join_style="mitre", mitre_limit=limit)
            self.assertEqual(len(made[0].outer), corners, limit)
        # A corner that turns right grows as it is, and where all shrinks it has the mitre.
        bend = [(0, 0), (20, 0), (20, 8), (8, 8), (8, 20), (0, 20)]
        less = [(2, 2), (18, 2), (18, 6), (6, 6), (6, 18), (2, 18)]
        self.assertEqual(rings_of(itree.offset([bend], -2, join_style="mitre")), [less])
        more = [(-2, -2), (22, -2), (22, 10), (10, 10), (10, 22), (-2, 22)]
        self.assertEqual(rings_of(itree.offset([bend], 2, join_style="mitre")), [more])
        ring = [FIELD, [(3, 3), (3, 6), (6, 6), (6, 3)]]
        larger = [[(-1, -1), (10, -1), (10, 10), (-1, 10)], [(4, 4), (4, 5), (5, 5), (5, 4)]]
        self.assertEqual(rings_of(itree.offset(ring, 1, join_style="mitre")), larger)

    def test_bevels(self):
        for style in ("bevel", 3):
            flat = [(-3, 0), (0, -3), (9, -3), (12, 0), (12, 9), (9, 12), (0, 12), (-3, 9)]
            self.assertEqual(rings_of(itree.offset([FIELD], 3, join_style=style)), [flat])
            made = itree.offset({"type": "Polygon", "coordinates": [FIELD]}, 1, join_style=style)
            self.assertEqual(len(made[0].outer), 8)
            self.assertAlmostEqual(area_of(made), 119, 6)
        bend = [(0, 0), (20, 0), (20, 8), (8, 8), (8, 20), (0, 20)]
        less = [(2, 2), (18, 2), (18, 6), (8, 6), (6, 8), (6, 18), (2, 18)]
        self.assertEqual(rings_of(itree.offset([bend], -2, join_style="bevel")), [less])
        for style in ("round", 1):
            self.assertEqual(len(itree.offset([FIELD], 1000, join_style=style)[0].outer), 68)

    def test_joins_of_lines(self):
        others = (
            {"type": "LineString", "coordinates": [(0, 0), (8, 0)]},
            {"type": "Point", "coordinates": (20.0, 0.0)},
        )
        for style in ("mitre", "bevel", 2, 3):
            for shape in others:
                for distance in (1, 0, -1):
                    with self.assertRaisesRegex(ValueError, "lines and points have round joins alone"):
                        itree.offset(shape, distance, join_style=style)
                    with self.assertRaisesRegex(ValueError, "lines and points have round joins alone"):
                        itree.offset([{"type": "Polygon", "coordinates": [FIELD]}, shape], distance, join_style=style)

    def test_tolerance(self):
        point = {"type": "Point", "coordinates": (0.0, 0.0)}
        for tolerance in (0.5, 0.1, 0.01, 0.001):
            outer = itree.offset(point, 3, tolerance=tolerance)[0].outer
            middles = [math.hypot((x0 + x1) / 2, (y0 + y1) / 2) for (x0, y0), (x1, y1) in zip(outer, outer[1:] + outer[:1])]
            self.assertGreaterEqual(min(middles), 3 - tolerance - 1e-6)
            self.assertLessEqual(max(math.hypot(*it) for it in outer), 3 + 1e-6)
            self.assertLess(len(outer), 9 / math.sqrt(tolerance) + 8)
        self.assertEqual(len(itree.offset(point, 3, 2)[0].outer), 8)
        self.assertEqual(len(itree.offset(point, 3)[0].outer), 64)

    def test_grid(self):
        grid = itree.Grid((0, 0), 0.25)
        wider = itree.offset([[(0.1, 0.1), (2.1, 0.1), (2.1, 2.1), (0.1, 2.1)]], 0.26, quad_segs=1, grid=grid)
        self.assertEqual(wider.grid, grid)
        wanted = [(-0.25, 0), (0, -0.25), (2, -0.25), (2.25, 0), (2.25, 2), (2, 2.25), (0, 2.25), (-0.25, 2)]
        self.assertEqual(rings_of(wider), [wanted])
        # Under half a unit it is 0.
        same = itree.offset([[(0, 0), (2, 0), (2, 2), (0, 2)]], 0.1, grid=grid)
        self.assertEqual(rings_of(same), [[(0, 0), (2, 0), (2, 2), (0, 2)]])
        # What is far larger than the shapes fits, too.
        triangle = {"type": "Polygon", "coordinates": [[(0, 0), (1e-6, 0), (0, 1e-6)]]}
        self.assertAlmostEqual(area_of(itree.offset(triangle, 1000)) / (1e6 * _area(64)), 1, 5)


def _area(corners):
    """The area of the polygon of so many corners on the circle of radius 1."""
    return corners / 2 * math.sin(2 * math.pi / corners)


class Pictures(unittest.TestCase):
    """What docs/pictures shows is what the library answers."""

    FOLDER = TOP / "docs" / "pictures"

    def rings_in(self, name, *kinds):
        words = [line.split() for line in (self.FOLDER / name).read_text().splitlines()]
        found = [list(map(int, it[1:])) for it in words if it[0] in kinds]
        return [list(zip(it[::2], it[1::2])) for it in found]

    def test_growing(self):
        subject, (shape,) = (self.rings_in("growing.rings", kind) for kind in ("subject", "shape"))
        wider, narrower = (self.rings_in(f"growing.{name}", "polygon", "hole") for name in ("wider", "narrower"))
        self.assertEqual(rings_of(itree.minkowski(subject, shape)), sorted(map(turned, wider)))
        inside = itree.simplify(subject)
        left = _grown.eroded(HeldRings(inside.given(), inside), shape, 1, 0)
        self.assertEqual(rings_of(itree.Polygons(left, None)), sorted(map(turned, narrower)))


class Circles(unittest.TestCase):
    """Circles are convex around the origin, their corners lie close to them, and each side has an opposite one."""

    def test_circles(self):
        for radius in (*range(1, 60), 1000, 2**20 + 1, 2**30):
            for corners in (4, 8, 12, 64, 100, 1000):
                circle = _grown.circle(radius, corners)
                self.assertTrue(growth.is_shape(circle))
                self.assertEqual(sorted(circle), sorted(growth.hull(circle)))
                self.assertEqual(circle[0], (radius, 0))
                self.assertLessEqual(len(circle), corners)
                self.assertEqual({(-x, -y) for x, y in circle}, set(circle))
                self.assertTrue(all(x * x + y * y <= radius * radius for x, y in circle))
                self.assertLess(max(radius - math.hypot(x, y) for x, y in circle), 1.4143)
        self.assertEqual(_grown.circle(1, 64), [(1, 0), (0, 1), (-1, 0), (0, -1)])


class ByChance(unittest.TestCase):
    """Polygons and shapes by chance: at points about the curve around the sum each answer is what the definition says."""

    def each(self):
        for place in range(MANY):
            chance = random.Random(SEED * 1000003 + place)
            yield place, chance, growth.some_rings(chance, place % 2 == 0)

    def check(self, rings, shape, made, points, grows):
        made = [ring for polygon in made for ring in (polygon.outer, *polygon.holes)]
        problems = list(growth.point_problems(rings, shape, made, points, grows))
        self.assertEqual(problems, [], (rings, shape))

    def test_grown(self):
        for _, chance, rings in self.each():
            shape = growth.some_shape(chance)
            points = list(growth.some_points(chance, rings, shape))
            self.check(rings, shape, itree.minkowski(rings, shape), points, True)

    def test_shrunk(self):
        for _, chance, rings in self.each():
            radius = chance.randint(1, 4)
            circle = _grown.circle(radius, 16)
            points = list(growth.some_points(chance, [ring[::-1] for ring in rings], circle))
            self.check(rings, circle, itree.offset(rings, -radius, quad_segs=4), points, False)

    def test_lines(self):
        for _, chance, rings in self.each():
            shape, line = growth.some_shape(chance), rings[0][: chance.randint(1, 4)]
            numbers = array.array("i", [number for point in line for number in point])
            held = held_rings(numbers, array.array("Q", [len(line)]))
            polygons = itree.Polygons(_grown.grown_lines(held, shape, 0), None)
            made = [ring for polygon in polygons for ring in (polygon.outer, *polygon.holes)]
            points = growth.points_about(chance, growth.raw_of_paths([line], shape))
            self.assertEqual(list(growth.path_problems([line], shape, made, points)), [], (line, shape))


class Faults(unittest.TestCase):
    """What is raised."""

    def test_shapes(self):
        faulty = ([], [(1, 1)], [(-1, 0), (1, 0)], SQUARE[::-1], [(-1, 0), (1, 0), (0, 1)], [*SQUARE, *SQUARE])
        for shape in faulty:
            with self.assertRaisesRegex(ValueError, "^the shape: the corners of a convex polygon"):
                itree.minkowski([FIELD], shape)
        with self.assertRaisesRegex(TypeError, "^shape, row 0: "):
            itree.minkowski([FIELD], [(0.5, 1)])
        with self.assertRaisesRegex(ValueError, "^polygons: whole numbers are wanted"):
            itree.minkowski({"type": "Polygon", "coordinates": [[(0, 0), (0.5, 0), (0, 1)]]}, SQUARE)
        with self.assertRaisesRegex(ValueError, "^the rule 'odd'"):
            itree.minkowski([FIELD], SQUARE, "odd")

    def test_range(self):
        far = [[(0, 0), (2**31 - 1, 0), (0, 9)]]
        with self.assertRaisesRegex(OverflowError, "leaves the numbers of 32 bits"):
            itree.minkowski(far, SQUARE)
        for style in ("mitre", "bevel"):
            for distance in (1, -1):
                with self.assertRaisesRegex(OverflowError, "leaves the numbers of 32 bits"):
                    itree.offset(far, distance, join_style=style)
        # Within the triangle there is room, and right of the left wall of the notch, which goes that way, there is none.
        self.assertEqual(len(itree.offset(far, -1)), 1)
        end = 2**31 - 1
        notch = [[(end - 20, 0), (end, 0), (end, 20), (end - 1, 20), (end - 1, 9), (end - 20, 9)]]
        with self.assertRaisesRegex(OverflowError, "leaves the numbers of 32 bits"):
            itree.offset(notch, -2)
        grid = itree.Grid((0, 0), 2.0**-30)
        for shape in (
            {"type": "Polygon", "coordinates": [[(0, 0), (1, 0), (0, 1)]]},
            {"type": "LineString", "coordinates": [(0, 0), (1, 0)]},
        ):
            with self.assertRaisesRegex(OverflowError, "leaves the numbers of 32 bits"):
                itree.offset(shape, 1.5, grid=grid)

    def test_words(self):
        square = {"type": "Polygon", "coordinates": [FIELD]}
        for words, error, said in (
            ({"distance": math.nan}, ValueError, "^the distance: nan; a finite number is wanted"),
            ({"distance": math.inf}, ValueError, "^the distance: inf"),
            ({"distance": "far"}, ValueError, "could not convert"),
            ({"quad_segs": 0}, ValueError, "^quad_segs: 0; a number from 1 on"),
            ({"quad_segs": 1.5}, TypeError, "integer"),
            ({"tolerance": 0}, ValueError, "^the tolerance: 0.0; a finite number above 0"),
            ({"tolerance": math.nan}, ValueError, "^the tolerance: nan"),
            ({"cap_style": "flat"}, ValueError, "^the cap_style 'flat': 'round' is wanted"),
            ({"join_style": "miter"}, ValueError, "^the join_style 'miter': 'round', 'mitre' or 'bevel' is wanted"),
            ({"join_style": 0}, ValueError, "^the join_style 0: "),
            ({"mitre_limit": 0.99}, ValueError, "^the mitre_limit: 0.99; a finite number from 1 on"),
            ({"mitre_limit": math.nan}, ValueError, "^the mitre_limit: nan"),
            ({"join_style": "mitre", "mitre_limit": math.inf}, ValueError, "^the mitre_limit: inf"),
            ({"rule": "odd"}, ValueError, "^the rule 'odd'"),
            ({"grid": 1}, TypeError, "^the grid is int"),
            ({"memory_limit": 0}, ValueError, "^memory_limit: 0"),
            ({"memory_limit": 100}, MemoryError, "memory_limit, 100 bytes"),
        ):
            with self.subTest(words), self.assertRaisesRegex(error, said):
                itree.offset(square, **{"distance": 1, **words})
        with self.assertRaisesRegex(ValueError, "^the distance: 0.5; a whole number is wanted"):
            itree.offset([FIELD], 0.5)
        with self.assertRaisesRegex(TypeError, "^shapes: a ring alone"):
            itree.offset(FIELD, 1)
        with self.assertRaisesRegex(TypeError, "^shapes, place 0: Sphere; "):
            itree.offset([{"type": "Sphere"}], 1)
        with self.assertRaisesRegex(ValueError, "inf"):
            itree.offset({"type": "Point", "coordinates": (math.inf, 0)}, 1)

    def test_refused(self):
        library = ctypes.CDLL(os.environ["ITREE_LIBRARY"])
        shapes = [
            {"type": "Polygon", "coordinates": [FIELD]},
            {"type": "LineString", "coordinates": [(20, 0), (29, 9)]},
        ]
        for distance, wanted in ((1, 2), (-1, 1)):
            requests, made = 0, None
            while made is None:
                library.refuse_after(ctypes.c_size_t(requests))
                try:
                    made = itree.offset(shapes, distance)
                except MemoryError:
                    requests += 1
                finally:
                    library.refuse_after(ctypes.c_size_t(-1))
            self.assertGreater(requests, 10)
            self.assertEqual(len(made), wanted)


@needs_shapely
class BesideShapely(unittest.TestCase):
    """Shapes with floats, beside shapely's buffer: areas, and whether the answers are valid."""

    COUNT = 300

    def shapes(self):
        for place in range(self.COUNT):
            chance = random.Random(place)
            middle = chance.uniform(-500, 500), chance.uniform(-500, 500)
            count = chance.randint(3, 40)
            turns = sorted(chance.uniform(0, 2 * math.pi) for _ in range(count))
            far = [chance.uniform(2, 20) for _ in turns]
            ring = [(middle[0] + it * math.cos(at), middle[1] + it * math.sin(at)) for at, it in zip(turns, far)]
            shape = shapely.geometry.Polygon(ring)
            if not shape.is_valid:
                shape = shape.buffer(0)
            if place % 3 == 0:
                hole = shapely.geometry.Point(middle).buffer(chance.uniform(0.5, 1.5), 3)
                shape = shape.difference(hole)
            if place % 5 == 0:
                shape = shape.union(shapely.geometry.box(middle[0] + 15, middle[1], middle[0] + 30, middle[1] + 9))
            if place % 7 == 0:
                shape = shapely.geometry.LineString(ring)
            if shape.is_empty:
                continue
            yield place, shape, chance.uniform(0.1, 6)

    def test_areas(self):
        worst = valid = 0
        for place, shape, distance in self.shapes():
            for signed in (distance, -distance):
                made = itree.offset(shape, signed, tolerance=distance / 1000).to_shapely()
                wanted = shape.buffer(signed, 256)
                self.assertTrue(made.is_valid, (place, signed))
                valid += 1
                # So far off are the sides of the circle, along all of the border.
                allowed = distance / 1000 * (wanted.length + shape.length) + 1e-6
                off = abs(made.area - wanted.area)
                self.assertLessEqual(off, allowed, (place, signed))
                worst = max(worst, off / allowed)
                # The circle's polygon lies within it: so nothing grows or shrinks further than the distance.
                less, more = (made, wanted) if signed > 0 else (wanted, made)
                self.assertLess(less.difference(more.buffer(1e-5)).area, 1e-3 * allowed, (place, signed))
        print(
            f"\nshapely {shapely.__version__}: {valid} offsets are valid, at most {worst:.2f} of what may be between the areas"
        )

    def plain_shapes(self):
        """Polygons without narrow corners, so that each mitre is within the limit; a distance; and how many corners."""
        for place in range(self.COUNT):
            chance = random.Random(place)
            middle, count = (chance.uniform(-500, 500), chance.uniform(-500, 500)), chance.randint(3, 12)
            turns = [2 * math.pi * (it + chance.uniform(-0.2, 0.2)) / count for it in range(count)]
            far = [chance.uniform(10, 14) for _ in turns]
            ring = [(middle[0] + it * math.cos(at), middle[1] + it * math.sin(at)) for at, it in zip(turns, far)]
            hole = [(middle[0] + x, middle[1] + y) for x, y in ((-1, -1), (-1, 1.5), (1, 1), (1.5, -1))]
            holes = [hole] if place % 3 == 0 else []
            yield place, shapely.geometry.Polygon(ring, holes), chance.uniform(0.1, 3), count + 4 * len(holes)

    def test_joins(self):
        worst = valid = 0
        for place, shape, distance, corners in self.plain_shapes():
            within = distance / 1e5
            # So far along a side may the corner of the circle's polygon lie that moves it.
            aside = math.sqrt(2 * distance * within)
            for style, number in (("mitre", 2), ("bevel", 3)):
                for signed in (distance, -distance):
                    made = itree.offset(shape, signed, join_style=style, mitre_limit=20, tolerance=within)
                    unit, made = made.grid.unit, made.to_shapely()
                    wanted = shape.buffer(signed, join_style=number, mitre_limit=20)
                    self.assertTrue(made.is_valid, (place, style, signed))
                    valid += 1
                    # So far off are the sides, along all of the border; and the ends of each bevel.
                    allowed = (within + 2 * unit) * (wanted.length + shape.length)
                    allowed += 2 * corners * distance * aside if style == "bevel" else 0
                    off = abs(made.area - wanted.area)
                    self.assertLessEqual(off, allowed, (place, style, signed))
                    worst = max(worst, off / allowed)
        print(f"\nshapely {shapely.__version__}: {valid} joined offsets are valid, at most {worst:.2f} of what may be off")

    def test_quad_segs(self):
        point = shapely.geometry.Point(3, 4)
        for segments in (1, 2, 4, 16):
            made, wanted = itree.offset(point, 2.5, segments).to_shapely(), point.buffer(2.5, segments)
            self.assertAlmostEqual(made.area, wanted.area, 6)
            self.assertLess(made.symmetric_difference(wanted).area, 1e-6)

    def test_kinds(self):
        box = shapely.geometry.box(0, 0, 4, 4)
        shapes = [
            box,
            shapely.geometry.MultiPolygon([box, shapely.geometry.box(9, 0, 12, 4)]),
            shapely.geometry.Point(1, 2),
            shapely.geometry.MultiPoint([(0, 0), (7, 7)]),
            shapely.geometry.LineString([(0, 0), (5, 1), (5, 5)]),
            shapely.geometry.LinearRing([(0, 0), (9, 0), (9, 9)]),
            shapely.geometry.MultiLineString([[(0, 0), (5, 1)], [(3, -3), (3, 8)]]),
        ]
        shapes.append(shapely.geometry.GeometryCollection(shapes))
        empty = [shapely.geometry.Polygon(), shapely.geometry.Point(), shapely.geometry.GeometryCollection()]
        for shape in (*shapes, *empty):
            wanted = shape.buffer(1.5, 16).area
            for given in (shape, [shape], [None, shape], None if shape.is_empty else shapely.geometry.mapping(shape)):
                if given is None:
                    continue
                with self.subTest(f"{shape.geom_type}, {type(given).__name__}"):
                    self.assertAlmostEqual(itree.offset(given, 1.5).to_shapely().area, wanted, 1)
        together = shapely.ops.unary_union(shapes).buffer(1.5, 16).area
        self.assertAlmostEqual(itree.offset(iter(shapes), 1.5).to_shapely().area, together, 1)

    @unittest.skipUnless(geopandas, "geopandas isn't there")
    def test_series(self):
        box = shapely.geometry.box(0, 0, 4, 4)
        for items in ([box], [box, None], [box, shapely.geometry.Point(20, 20)], [shapely.geometry.Point(1, 1)]):
            series = geopandas.GeoSeries(items, crs=32632)
            for given in (series, geopandas.GeoDataFrame(geometry=series)):
                made = itree.offset(given, 1)
                self.assertEqual(made.to_geoseries().crs.to_epsg(), 32632)
                wanted = sum(it.buffer(1).area for it in items if it is not None)
                self.assertAlmostEqual(made.to_shapely().area, wanted, 1)


class Command(unittest.TestCase):
    """The command `offset`."""

    FILE = {
        "type": "FeatureCollection",
        "features": [
            {"type": "Feature", "properties": {"n": 1}, "geometry": {"type": "Polygon", "coordinates": [[*FIELD, FIELD[0]]]}},
            {
                "type": "Feature",
                "properties": {"n": 2},
                "geometry": {"type": "Polygon", "coordinates": [[(20, 0), (21, 0), (21, 9), (20, 9), (20, 0)]]},
            },
        ],
    }

    def run_command(self, *words):
        """The status, and what was written to both streams."""
        with tempfile.TemporaryDirectory() as folder:
            name = os.path.join(folder, "fields.geojson")
            pathlib.Path(name).write_text(json.dumps(self.FILE))
            out, err = io.StringIO(), io.StringIO()
            with contextlib.redirect_stdout(out), contextlib.redirect_stderr(err):
                try:
                    status = command.main(["offset", name, *words])
                except SystemExit as ended:
                    status = ended.code
        return status, out.getvalue(), err.getvalue()

    def answer(self, *words):
        status, out, _ = self.run_command(*words)
        self.assertEqual(status, 0)
        return json.loads(out)

    def test_answers(self):
        grown = self.answer("--distance", "1", "--quad-segs", "1", "--digits", "3")
        self.assertEqual(grown["properties"]["distance"], 1.0)
        rings = [turned([tuple(it) for it in polygon[0][:-1]]) for polygon in grown["geometry"]["coordinates"]]
        octagon = [(-1, 0), (0, -1), (9, -1), (10, 0), (10, 9), (9, 10), (0, 10), (-1, 9)]
        self.assertEqual(sorted(rings)[0], octagon)
        together = self.answer("--distance", "6")
        self.assertEqual(len(together["geometry"]["coordinates"]), 1)
        each = self.answer("--distance=-1", "--each")
        self.assertEqual([it["properties"] for it in each["features"]], [{"n": 1}])
        by = self.answer("--distance", "1", "--by", "n")
        self.assertEqual([it["properties"] for it in by["features"]], [{"n": 1}, {"n": 2}])
        apart = self.answer("--distance", "1", "--features")
        self.assertEqual([it["geometry"]["type"] for it in apart["features"]], ["Polygon"] * 2)
        same = self.answer("--distance", "0")
        self.assertEqual(len(same["geometry"]["coordinates"]), 2)

    def test_faults(self):
        for words, said in (
            (("--distance", "nan"), "itree: the distance: nan; a finite number is wanted\n"),
            (("--distance", "1", "--tolerance", "0"), "itree: the tolerance: 0.0; a finite number above 0 is wanted\n"),
            (("--distance", "1", "--quad-segs", "0"), "itree: quad_segs: 0; a number from 1 on is wanted\n"),
        ):
            self.assertEqual(self.run_command(*words), (2, "", said))
        status, _, err = self.run_command()
        self.assertEqual(status, 2)
        self.assertIn("--distance", err)


def load_tests(_loader, tests, _pattern):
    for module in _offset, _grown:
        tests.addTests(doctest.DocTestSuite(module))
    return tests


if __name__ == "__main__":
    unittest.main(argv=[it for it in sys.argv if not it.startswith(("--many", "--seed="))])
