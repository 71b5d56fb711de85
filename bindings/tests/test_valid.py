"""Whether shapes are valid, from Python: at hand-made ones of each kind, at faults, with each request for memory refused in
turn; and by chance beside shapely, with the place of each fault looked at.

usage: test_valid.py [--many[=COUNT]] [--seed=SEED] [words of unittest]

bindings/test runs it over a library that refuses memory when it is told to (ITREE_LIBRARY). What needs numpy, shapely or
geopandas is skipped where they aren't there. By chance it tries 20,000 shapes; --many tries 200,000, and --many=COUNT so many.
--seed=SEED tries others.
"""

import array
import collections
import ctypes
import doctest
import itertools
import math
import os
import random
import re
import sys
import unittest
from fractions import Fraction

import itree
from itree import _valid

try:
    import numpy
except ImportError:
    numpy = None
try:
    import shapely
    import shapely.geometry
    from shapely.geometry import GeometryCollection, LineString, MultiPolygon, Point, Polygon
    from shapely.validation import explain_validity
except ImportError:
    shapely = None
try:
    import geopandas
except ImportError:
    geopandas = None

needs_numpy = unittest.skipUnless(numpy, "numpy isn't there")
needs_shapely = unittest.skipUnless(shapely, "shapely isn't there")
needs_geopandas = unittest.skipUnless(geopandas, "geopandas isn't there")
MANY = next((int(it[7:] or 200000) for it in sys.argv if re.fullmatch(r"--many(=\d+)?", it)), 20000)
SEED = next((int(it[7:]) for it in sys.argv if re.fullmatch(r"--seed=\d+", it)), 0)

BIG, SMALL, FAR = [(0, 0), (9, 0), (9, 9), (0, 9)], [(2, 2), (4, 2), (4, 4), (2, 4)], [(11, 1), (12, 1), (11, 2)]
BOW, ACROSS = [(0, 0), (4, 4), (4, 0), (0, 4)], [(0, 4), (4, 3), (9, 4), (4, 5)]
VALID = "Valid Geometry"
# Polygons, each a list of rings, and the reason.
WORKED = {
    "a square": ([[BIG]], VALID),
    "a hole": ([[BIG, SMALL]], VALID),
    "a hole that touches its outer ring": ([[BIG, [(0, 4), (3, 3), (3, 6)]]], VALID),
    "an island in a hole": ([[BIG, SMALL], [[(2, 2), (4, 2), (3, 3)]]], None),
    "an island that touches its hole": ([[BIG, SMALL], [[(2, 2), (3, 3), (2, 3)]]], None),
    "an island inside of a hole": ([[BIG, [(1, 1), (8, 1), (8, 8), (1, 8)]], [SMALL]], VALID),
    "corners that touch": ([[SMALL], [[(4, 4), (6, 4), (6, 6)]]], VALID),
    "a ring twice round": ([[BIG + BIG]], "Self-intersection[0 0]"),
    "two points": ([[[(3, 1), (7, 7), (3, 1)]]], "Too few points in geometry component[3 1]"),
    "one point": ([[BIG], [[(20, 20)] * 4]], "Too few points in geometry component[20 20]"),
    "a bow-tie": ([[BOW]], "Self-intersection[2 2]"),
    "a bow-tie that crosses at a fraction": ([[[(0, 0), (3, 1), (3, 0), (0, 2)]]], "Self-intersection[2 0.6666666666666666]"),
    "a spike": ([[[(0, 0), (4, 0), (4, 4), (4, 2), (0, 2)]]], "Self-intersection[4 2]"),
    "a ring that touches itself": ([[[(0, 0), (8, 0), (8, 8), (4, 0), (0, 8)]]], "Ring Self-intersection[4 0]"),
    "a point that is visited twice": (
        [[[(0, 0), (2, 2), (0, 4), (4, 4), (2, 2), (4, 0)]]],
        "Ring Self-intersection[2 2]",
    ),
    "rings that cross": ([[BIG], [[(8, 2), (12, 2), (9, 9)]]], "Self-intersection[9 2]"),
    "a side in common": ([[BIG], [[(9, 2), (12, 2), (9, 7)]]], "Self-intersection[9 2]"),
    "a hole outside": ([[BIG, FAR]], "Hole lies outside shell[11 1]"),
    "a hole around its outer ring": ([[SMALL, BIG]], "Hole lies outside shell[0 0]"),
    "a hole in a hole": ([[BIG, [(1, 1), (8, 1), (8, 8), (1, 8)], SMALL]], "Holes are nested[2 2]"),
    "a polygon in a polygon": ([[BIG], [SMALL]], "Nested shells[2 2]"),
    "a hole from side to side": ([[BIG, ACROSS]], "Interior is disconnected[9 4]"),
    "the same in the second polygon": ([[FAR], [BIG, ACROSS]], "Interior is disconnected[9 4]"),
}


def as_json(polygons):
    """GeoJSON of polygons, each ring of which is closed."""
    closed = [[[*ring, ring[0]] for ring in rings] for rings in polygons]
    if len(closed) == 1:
        return {"type": "Polygon", "coordinates": closed[0]}
    return {"type": "MultiPolygon", "coordinates": closed}


def polygon_of(rings):
    """It as shapely's, which wants three points of a ring."""
    shell, *holes = [ring + ring[-1:] * (3 - len(ring)) for ring in rings]
    return Polygon(shell, holes)


def as_shapely(polygons):
    made = list(map(polygon_of, polygons))
    return made[0] if len(made) == 1 else MultiPolygon(made)


def fault_of(shape):
    """What is wrong with it, by its numbers."""
    return _valid._first_fault(_valid._parts(shape, "shape", False), None, 0)


class Worked(unittest.TestCase):
    def test_reasons(self):
        for name, (polygons, reason) in WORKED.items():
            with self.subTest(name=name):
                shape = as_json(polygons)
                told = itree.is_valid_reason(shape)
                self.assertEqual(itree.is_valid(shape), told == VALID)
                if reason is not None:
                    self.assertEqual(told, reason)
                if len(polygons) == 1:
                    self.assertEqual(itree.is_valid_reason(polygons[0]), told)

    @needs_shapely
    def test_as_shapely_tells(self):
        for name, (polygons, _) in WORKED.items():
            with self.subTest(name=name):
                shape = as_shapely(polygons)
                self.assertEqual(itree.is_valid(shape), shape.is_valid)
                told, wanted = itree.is_valid_reason(shape), explain_validity(shape)
                # Of a ring that meets itself in several points either may be told.
                self.assertEqual(*(re.sub(r"^Ring |\[.*", "", it) for it in (told, wanted)))

    def test_turned_and_moved(self):
        for name, (polygons, _) in WORKED.items():
            for turn, far in itertools.product((False, True), (0, 2**31 - 100, -(2**31) + 100)):
                moved = [[[(x + far, y - far) for x, y in ring] for ring in rings] for rings in polygons]
                turned = [[ring[::-1] if turn else ring for ring in rings] for rings in moved]
                with self.subTest(name=name, turn=turn, far=far):
                    self.assertIs(itree.is_valid(as_json(turned)), itree.is_valid(as_json(polygons)))

    def test_the_ends_of_32_bits(self):
        least, most = -(2**31), 2**31 - 1
        whole = [(least, least), (most, least), (most, most), (least, most)]
        self.assertIs(itree.is_valid([whole]), True)
        bow = [whole[0], whole[2], whole[1], whole[3]]
        self.assertEqual(itree.is_valid_reason([bow]), "Self-intersection[-0.5 -0.5]")
        thin = [whole[0], whole[2], (most - 1, most - 2)]
        self.assertEqual(itree.is_valid_reason([whole, thin]), "Interior is disconnected[2147483647 2147483647]")


class Given(unittest.TestCase):
    """What a shape may be, and what several are."""

    def test_rings(self):
        self.assertIs(itree.is_valid([BIG, SMALL]), True)
        self.assertIs(itree.is_valid((tuple(BIG), FAR)), False)
        self.assertIs(itree.is_valid(iter([BIG, SMALL])), True)
        buffers = [array.array("i", itertools.chain(*ring)) for ring in (BIG, SMALL)]
        self.assertIs(itree.is_valid(buffers), True)
        rings = itree.Rings(array.array("i", itertools.chain(*BIG, *FAR)), array.array("q", [0, 4, 7]))
        self.assertEqual(itree.is_valid_reason(rings), "Hole lies outside shell[11 1]")
        self.assertIs(itree.is_valid(itree.simplify([BIG, SMALL], "evenodd")), True)
        self.assertIs(itree.is_valid(itree.simplify([])), True)

    @needs_numpy
    def test_arrays(self):
        self.assertIs(itree.is_valid([numpy.array(BIG), numpy.array(SMALL, "int16")]), True)
        self.assertIs(itree.is_valid(numpy.array([BIG, SMALL])), True)
        with self.assertRaisesRegex(TypeError, "^shape: a ring alone; a polygon is a sequence of rings"):
            itree.is_valid(numpy.array(BIG))

    def test_several(self):
        shapes = [[BIG, SMALL], None, as_json([[BOW]]), [BIG, FAR], itree.simplify([BIG])]
        self.assertEqual(itree.is_valid(shapes), [True, False, False, False, True])
        wanted = [VALID, None, "Self-intersection[2 2]", "Hole lies outside shell[11 1]", VALID]
        self.assertEqual(itree.is_valid_reason(shapes), wanted)
        self.assertEqual((itree.is_valid([]), itree.is_valid([None]), itree.is_valid_reason([])), ([], [False], []))
        both = itree.overlay_each([[BIG], [BIG]], [[SMALL], [FAR]], "difference")
        self.assertEqual(itree.is_valid(both), [True, True])

    def test_geojson(self):
        parts = [as_json([[BIG]]), as_json([[BOW]])]
        collection = {"type": "GeometryCollection", "geometries": [parts[0], parts[0]]}
        self.assertIs(itree.is_valid(collection), True)
        self.assertIs(itree.is_valid({"type": "GeometryCollection", "geometries": parts}), False)
        self.assertIs(itree.is_valid({"type": "MultiPolygon", "coordinates": []}), True)
        features = [{"type": "Feature", "geometry": it, "properties": {}} for it in (*parts, None)]
        self.assertIs(itree.is_valid(features[1]), False)
        self.assertEqual(itree.is_valid({"type": "FeatureCollection", "features": features}), [True, False, True])
        together = {"type": "MultiPolygon", "coordinates": [it["coordinates"] for it in (parts[0], parts[0])]}
        self.assertIs(itree.is_valid(together), False)

    @needs_shapely
    def test_shapely(self):
        big, bow, multi = as_shapely([[BIG]]), as_shapely([[BOW]]), as_shapely([[BIG], [FAR]])
        for shape in (
            big,
            bow,
            multi,
            Polygon(),
            MultiPolygon(),
            Point(),
            GeometryCollection([big, bow]),
            GeometryCollection([big, big]),
        ):
            self.assertIs(itree.is_valid(shape), shape.is_valid)
            self.assertIs(itree.is_valid(shape.wkb), shape.is_valid) if not isinstance(shape, Point) else None
            self.assertEqual(itree.is_valid_reason(shape).partition("[")[0], explain_validity(shape).partition("[")[0])
        self.assertEqual(itree.is_valid([big, bow, None, multi]), [True, False, False, True])
        self.assertEqual(itree.is_valid([big.wkb, bow.wkb, memoryview(multi.wkb)]), [True, False, True])
        self.assertEqual(itree.is_valid_reason([multi, None, bow]), [VALID, None, "Self-intersection[2 2]"])
        for z in shapely.geometry.Polygon([(x, y, 7) for x, y in BOW]), shapely.geometry.Polygon([(x, y, 7) for x, y in BIG]):
            self.assertIs(itree.is_valid(z.wkb), z.is_valid)
            self.assertIs(itree.is_valid(MultiPolygon([z, as_shapely([[FAR]])]).wkb_hex and z), z.is_valid)

    @needs_geopandas
    def test_geopandas(self):
        series = geopandas.GeoSeries([as_shapely([[BIG]]), as_shapely([[BOW]]), None], index=[5, 6, 7])
        self.assertEqual(itree.is_valid(series), list(series.is_valid))
        frame = geopandas.GeoDataFrame(geometry=series)
        self.assertEqual(itree.is_valid(frame), [True, False, False])
        self.assertEqual(list(frame[itree.is_valid(frame)].index), [5])
        self.assertEqual(itree.is_valid(series.values), [True, False, False])

    def test_faults(self):
        for given, error, said in (
            (BIG, TypeError, "shape: a ring alone; a polygon is a sequence of rings: put it into a list"),
            (None, TypeError, "shape: "),
            (5, TypeError, "shapes: int; shapes, or rings, are wanted"),
            ("POLYGON", TypeError, "shapes: str; shapes, or rings, are wanted"),
            ({1, 2}, TypeError, "shapes: a set, which has no order"),
            ([BIG, [(0, 0), (1, 0.5)]], TypeError, "shape, ring 1, row 1: .*or give a grid"),
            ([BIG, [(0, 0), (1,)]], ValueError, "shape, ring 1, row 1: 1 numbers, 2 are wanted"),
            ([[BIG], 7], TypeError, "shapes, place 1: int; rings are wanted"),
            ([BIG, [(0, 0), (2**31, 0)]], OverflowError, "shape, ring 1, row 1"),
            (b"\1\3\0\0", ValueError, "shape, byte 1: the well-known binary stops before it is whole"),
            (
                b"\1\1\0\0\0" + bytes(16),
                ValueError,
                "shape, byte 1: Point; Polygon, MultiPolygon or GeometryCollection is wanted",
            ),
            ([b"\1"], ValueError, "shapes, place 0, byte 1"),
            ({"type": "Point", "coordinates": [0, 0]}, TypeError, "shape: Point; Polygon,"),
            (
                {"type": "MultiPolygon", "coordinates": [[BIG], [[(0, 0), (1, 2), (1, math.nan)]]]},
                ValueError,
                "shape, polygon 1, ring 0",
            ),
            ({"type": "MultiPolygon"}, ValueError, "shape: MultiPolygon with no coordinates; a list is wanted"),
            ({}, TypeError, "shape: no type of GeoJSON"),
        ):
            for call in itree.is_valid, itree.is_valid_reason:
                with self.subTest(given=given, call=call), self.assertRaisesRegex(error, f"^{said}"):
                    call(given)
        with self.assertRaisesRegex(TypeError, "^the grid is int"):
            itree.is_valid([BIG], grid=5)
        with self.assertRaisesRegex(ValueError, "^memory_limit: 0"):
            itree.is_valid([BIG], memory_limit=0)

    @needs_shapely
    def test_faulty_objects(self):
        for shape in Point(1, 2), LineString([(0, 0), (1, 1)]), GeometryCollection([Point(1, 2)]):
            with self.assertRaisesRegex(TypeError, "^shape: .*Polygon, MultiPolygon or GeometryCollection is wanted"):
                itree.is_valid(shape)
            with self.assertRaisesRegex(TypeError, "^shapes, place 1: .* is wanted"):
                itree.is_valid([Polygon(BIG), shape])


class Grids(unittest.TestCase):
    def test_rounds(self):
        thin = [(0.0, 0.0), (1.0, 0.0), (1.0, 0.1)]
        self.assertIs(itree.is_valid([thin], grid=itree.Grid()), False)
        self.assertIs(itree.is_valid([thin], grid=itree.Grid(unit=2**-10)), True)
        self.assertIs(itree.is_valid(as_json([[thin]])), True)
        grid = itree.Grid((100.0, 50.0), 0.25)
        bow = [(100 + x / 4, 50 + y / 4) for x, y in BOW]
        self.assertEqual(itree.is_valid_reason([bow], grid=grid), "Self-intersection[100.5 50.5]")
        self.assertEqual(itree.is_valid_reason(as_json([[bow]])), "Self-intersection[100.5 50.5]")
        with self.assertRaisesRegex(ValueError, "shape, ring 0, row 1"):
            itree.is_valid([[(0.0, 0.0), (1e30, 0.0), (1.0, 1.0)]], grid=grid)

    def test_each_has_its_own(self):
        near, far = [(0.1, 0.1), (0.4, 0.1), (0.4, 0.3)], [(1e8, 1e8), (2e8, 1e8), (2e8, 3e8 + 0.5)]
        self.assertEqual(itree.is_valid([as_json([[near]]), as_json([[far]])]), [True, True])
        self.assertEqual(itree.is_valid([as_json([[near]]), as_json([[far]])], grid=itree.Grid((0, 0), 1.0)), [False, True])

    def test_answers(self):
        answer = itree.simplify(as_json([[[(0.0, 0.0), (0.3, 0.7), (0.9, 0.1), (0.2, 0.6)]]]))
        self.assertIsNotNone(answer.grid)
        self.assertIs(itree.is_valid(answer), True)
        self.assertIs(itree.is_valid(answer, grid=itree.Grid()), False)

    @needs_shapely
    def test_discs(self):
        numbers = random.Random(3)
        discs = [Point(numbers.random(), numbers.random()).buffer(numbers.random()) for _ in range(50)]
        self.assertEqual(itree.is_valid(discs), [True] * 50)
        self.assertIs(itree.is_valid(MultiPolygon(discs[:2])), MultiPolygon(discs[:2]).is_valid)


class Refused(unittest.TestCase):
    def test_memory(self):
        refuse_after = ctypes.CDLL(os.environ["ITREE_LIBRARY"]).refuse_after
        for granted in itertools.count():
            refuse_after(ctypes.c_size_t(granted))
            try:
                reason = itree.is_valid_reason([BIG, ACROSS])
                break
            except MemoryError as fault:
                self.assertEqual(str(fault), "itree: memory was refused")
            finally:
                refuse_after(ctypes.c_size_t(-1))
        self.assertEqual(reason, "Interior is disconnected[9 4]")
        self.assertGreater(granted, 5)
        with self.assertRaisesRegex(MemoryError, "memory_limit, 100 bytes"):
            itree.is_valid([BIG, SMALL], memory_limit=100)
        self.assertIs(itree.is_valid([BIG, SMALL], memory_limit=10**6), True)


# ---- by chance


def any_ring(numbers, side, count):
    """A ring of points by chance, which mostly crosses itself."""
    return [(numbers.randrange(side), numbers.randrange(side)) for _ in range(count)]


def round_ring(numbers, x, y, reach):
    """A ring of points around a place, in order of their directions, or one way or the other."""
    ordered = []
    while len(ordered) < numbers.choice((1, 3, 3, 3, 3)):
        points = {(numbers.randint(-reach, reach), numbers.randint(-reach, reach)) for _ in range(numbers.randint(3, 6))}
        ordered = sorted(points - {(0, 0)}, key=lambda it: (math.atan2(it[1], it[0]), it))
    return [(x + dx, y + dy) for dx, dy in ordered][:: numbers.choice((1, -1))]


def box(x0, y0, x1, y1):
    return [(x0, y0), (x1, y0), (x1, y1), (x0, y1)]


def of_one_ring(numbers):
    return [[any_ring(numbers, 7, numbers.randint(3, 6))]]


def with_holes(numbers):
    side = numbers.randint(5, 10)
    holes = [
        round_ring(numbers, numbers.randrange(side + 1), numbers.randrange(side + 1), 2) for _ in range(numbers.randint(1, 3))
    ]
    return [[box(0, 0, side, side), *holes]]


def of_several(numbers):
    polygons = []
    for _ in range(numbers.randint(2, 3)):
        x, y = numbers.randrange(14), numbers.randrange(14)
        rings = [round_ring(numbers, x, y, numbers.randint(1, 5))]
        polygons.append(rings + [round_ring(numbers, x, y, 1)] * numbers.choice((0, 0, 1)))
    return polygons


def of_rhombs(numbers):
    """Holes side by side that touch in points, in a box that some of them may touch; or polygons that are so."""
    cells = [(x, y) for x in range(3) for y in range(3)]
    rhombs = []
    for x, y in numbers.sample(cells, numbers.randint(1, 7)):
        wide, x, y = numbers.choice((1, 1, 1, 2)), 2 * x + 1, 2 * y + 1
        rhombs.append([(x - wide, y), (x, y - 1), (x + 1, y), (x, y + 1)])
    margin = numbers.choice((0, 1, 1, 2))
    if numbers.random() < 0.2:
        return [[it] for it in rhombs]
    return [[box(-margin, -margin, 6 + margin, 6 + margin), *rhombs]]


def nested(numbers):
    """Boxes in boxes, as polygons or as holes."""
    boxes = [box(it, it, 12 - it, 12 - it) for it in sorted(numbers.sample(range(6), numbers.randint(2, 4)))]
    numbers.random() < 0.3 and numbers.shuffle(boxes)
    polygons = [[boxes[0]]]
    for ring in boxes[1:]:
        polygons[-1].append(ring) if numbers.random() < 0.6 else polygons.append([ring])
    return polygons


WAYS = [of_one_ring, with_holes, of_several, of_rhombs, nested]


def edges_of(ring):
    """The edges of a ring, each with its two ends in order; not those from a point to itself."""
    return [tuple(sorted(it)) for it in zip(ring, ring[1:] + ring[:1]) if it[0] != it[1]]


def ends_of(edge):
    return (edge.x0, edge.y0), (edge.x1, edge.y1)


def shared(one, other):
    """The first and the last of the points that two edges share, or None."""
    (a, b), (c, d) = sorted(one), sorted(other)

    def side(p, q, r):
        return (q[0] - p[0]) * (r[1] - p[1]) - (q[1] - p[1]) * (r[0] - p[0])

    sides = side(a, b, c), side(a, b, d), side(c, d, a), side(c, d, b)
    if not any(sides):
        first, last = max(a, c), min(b, d)
        return (first, last) if first <= last else None
    if sides[0] * sides[1] > 0 or sides[2] * sides[3] > 0 or sides[0] == sides[1]:
        return None
    part = Fraction(sides[0], sides[0] - sides[1])
    point = tuple(p + part * (q - p) for p, q in zip(c, d))
    return point, point


@needs_shapely
class Chance(unittest.TestCase):
    def setUp(self):
        self.valid, self.kinds, self.alike = 0, collections.Counter(), collections.Counter()

    def test_beside_shapely(self):
        numbers = random.Random(SEED)
        for place in range(MANY):
            polygons = WAYS[place % len(WAYS)](numbers)
            with self.subTest(polygons=polygons):
                self.check(polygons, place % 2)
        print(f"shapely judged {MANY} shapes: {self.valid} are valid, and the others {dict(self.kinds)}")
        self.assertGreater(self.valid, MANY // 5)
        self.assertGreater(MANY - self.valid, MANY // 5)
        for kind in range(1, 7):
            self.assertGreater(self.kinds[kind], MANY // 200)
        self.assertGreater(self.alike[True], 4 * self.alike[False])

    def check(self, polygons, as_objects):
        shape = as_shapely(polygons)
        given = shape if as_objects else as_json(polygons)
        found = fault_of(given)
        self.assertIs(found is None, shape.is_valid)
        self.assertIs(itree.is_valid(given), shape.is_valid)
        if found is None:
            self.valid += 1
            self.assertEqual(itree.is_valid_reason(given), VALID)
            return
        fault, rings = found.fault, list(itertools.chain(*polygons))
        self.kinds[fault.kind] += 1
        checks = self.few, self.itself, self.across, self.outside, self.overlap, self.disconnected
        checks[fault.kind - 1](fault, polygons, rings)
        self.check_reason(itree.is_valid_reason(given), explain_validity(shape), fault.kind, polygons)

    def few(self, fault, _polygons, rings):
        self.assertLess(len(edges_of(rings[fault.ring])), 3)

    def itself(self, fault, _polygons, rings):
        one, other = ends_of(fault.one), ends_of(fault.other)
        self.check_two_of(edges_of(rings[fault.ring]), one, other)
        first, last = shared(one, other)
        # Edges of a ring may meet in one point alone, where one of them ends and the other starts.
        in_turn = first == last and (first == one[1] == other[0] or first == other[1] == one[0])
        self.assertFalse(in_turn)

    def across(self, fault, _polygons, rings):
        one, other = ends_of(fault.one), ends_of(fault.other)
        self.check_two_of([edge for ring in rings for edge in edges_of(ring)], one, other)
        first, last = shared(one, other)
        self.assertTrue(first != last or first not in (*one, *other))

    def check_two_of(self, edges, one, other):
        """They stand among the edges, at two places."""
        found = collections.Counter(edges)
        wanted = collections.Counter([tuple(sorted(one)), tuple(sorted(other))])
        self.assertTrue(all(count <= found[edge] for edge, count in wanted.items()))

    def outside(self, fault, polygons, _rings):
        shell, *holes = [polygon_of([ring]) for ring in polygons[fault.polygon]]
        wrong = [hole.difference(shell) for hole in holes]
        wrong += [one.intersection(other) for one, other in itertools.combinations(holes, 2)]
        self.check_near(fault.point, wrong)

    def overlap(self, fault, polygons, _rings):
        made = list(map(polygon_of, polygons))
        self.check_near(fault.point, [one.intersection(other) for one, other in itertools.combinations(made, 2)])

    def check_near(self, point, wrong):
        """The point is of an area that is wrong, or on its border."""
        at = Point(point.x, point.y)
        self.assertTrue(any(it.area > 0 and it.intersects(at) for it in wrong))

    def disconnected(self, fault, polygons, _rings):
        rings, point = polygons[fault.polygon], Point(fault.point.x, fault.point.y)
        through = [it for it, ring in enumerate(rings) if polygon_of([ring]).exterior.intersects(point)]
        self.assertIn(fault.ring, through)
        self.assertGreater(len(through), 1)
        self.assertTrue(explain_validity(polygon_of(rings)).startswith("Interior is disconnected"))

    def check_reason(self, reason, wanted, kind, polygons):
        """The words are shapely's; but where rings cross at corners shapely says that, and of several faults either one."""
        self.assertRegex(reason, r"^[A-Z][A-Za-z -]*\[-?\d+(\.\d+)? -?\d+(\.\d+)?\]$")
        words, wanted = reason.partition("[")[0], wanted.partition("[")[0]
        if kind in (2, 3):
            self.assertIn(words, ("Self-intersection", "Ring Self-intersection"))
        elif kind > 3 and (kind > 4 or len(polygons) == 1):
            self.assertIn(wanted, (words, "Self-intersection"))
        self.alike[words == wanted] += 1


def load_tests(_loader, tests, _pattern):
    tests.addTests(doctest.DocTestSuite(_valid))
    return tests


if __name__ == "__main__":
    unittest.main(argv=[it for it in sys.argv if not it.startswith(("--many", "--seed="))])
