"""Calls over many shapes at once: overlays of pairs, pairs of boxes, points in shapes, lines that are clipped, islands'
parents; and itree.geopandas beside geopandas.

usage: test_layers.py [--many[=COUNT]] [--seed=SEED] [words of unittest]

bindings/test runs it over a library that refuses memory when it is told to (ITREE_LIBRARY). What needs numpy, shapely or
geopandas is skipped where they aren't there. --many tries by chance some 25 to 50 times as often, and --many=COUNT so often;
then Geopandas.test_overlay takes one operation for each pair of frames. --seed=SEED tries other cases.
"""

import array
import collections
import contextlib
import copy
import ctypes
import doctest
import fractions
import itertools
import math
import os
import pathlib
import pickle
import random
import re
import signal
import subprocess
import sys
import threading
import time
import unittest
import warnings
from unittest import mock

import itree
import itree.geopandas
from itree import _boxes, _clip, _each, _gathered, _near, _overlays, _pieces, _points, _rings, _rows, _shapely, _shapes, _wkb

try:
    import numpy
except ImportError:
    numpy = None
try:
    import shapely
    import shapely.geometry
    import shapely.wkb
    from shapely.ops import unary_union
except ImportError:
    shapely = None
try:
    import geopandas
    import pandas
except ImportError:
    geopandas = None

needs_numpy = unittest.skipUnless(numpy, "numpy isn't there")
needs_shapely = unittest.skipUnless(shapely, "shapely isn't there")
needs_geopandas = unittest.skipUnless(geopandas, "geopandas isn't there")


def has_index():
    """Whether geopandas finds which shapes lie near others, for which it takes rtree."""
    try:
        return bool(geopandas) and geopandas.GeoSeries([None]).sindex is not None
    except ImportError:
        return False


needs_index = unittest.skipUnless(has_index(), "rtree isn't there")
TOP = pathlib.Path(__file__).resolve().parent.parent.parent
# How often something is tried by chance: 0 as each test likes, and None few times.
MANY = next((int(it[7:] or 0) for it in sys.argv if re.fullmatch(r"--many(=\d+)?", it)), None)
SEED = next((int(it[7:]) for it in sys.argv if re.fullmatch(r"--seed=\d+", it)), 0)
RULES = "evenodd", "nonzero", "positive", "negative"
OPERATIONS = "union", "intersection", "difference", "xor"
# Of coordinates that lie on whole points a few of these apart: so no two shapes have less than that in common.
STEP = 10**6


@contextlib.contextmanager
def without_numpy():
    """As if the program hadn't loaded numpy."""
    with contextlib.ExitStack() as stack:
        for module in _boxes, _each, _gathered, _overlays, _rings, _rows, _shapes, _wkb:
            stack.enter_context(mock.patch.object(module, "numpy_where_loaded", lambda: None))
        yield


def times(few, many):
    """How often something is tried by chance."""
    return few if MANY is None else MANY or many


def seeded(number):
    """What comes by chance in a test, each of which has a number of its own."""
    return random.Random(number + 1000 * SEED)


def told_count(said, compared):
    """Prints how much was compared so far, where it is much."""
    if MANY:
        print(f"{said}: {sum(compared.values()):,}, {dict(compared)}", flush=True)


WAYS = [without_numpy, contextlib.nullcontext] if numpy else [without_numpy]


def square(x, y, side):
    return [(x, y), (x + side, y), (x + side, y + side), (x, y + side)]


BIG, SMALL = square(0, 0, 9), square(3, 3, 3)
FRAME = [BIG, SMALL[:1] + SMALL[:0:-1]]


def from_least(ring):
    """A ring that begins at its least point."""
    ring = list(map(tuple, ring))
    start = ring.index(min(ring))
    return ring[start:] + ring[:start]


def told(polygons):
    """Polygons as lists of rings, where each ring begins at its least point, in order."""
    return sorted([from_least(it.outer), *sorted(map(from_least, it.holes))] for it in polygons)


def copies(answer):
    return [copy.copy(answer), copy.deepcopy(answer), *(pickle.loads(pickle.dumps(answer, it)) for it in range(2, 6))]


def random_ring(chance, most=9):
    return [(chance.randrange(most), chance.randrange(most)) for _ in range(chance.randrange(1, 7))]


def random_layer(chance, count):
    return [[random_ring(chance) for _ in range(chance.randrange(3))] for _ in range(count)]


def polygon_of(rings):
    return {"type": "Polygon", "coordinates": [[*it, it[0]] for it in rings]}


class OverlayEach(unittest.TestCase):
    def test_each_pair_is_as_overlay_has_it(self):
        chance = seeded(1)
        for _ in range(times(20, 500)):
            subjects, clips = random_layer(chance, 6), random_layer(chance, 5)
            pairs = [(chance.randrange(6), chance.randrange(5)) for _ in range(8)]
            for rule, operation in itertools.product(RULES, OPERATIONS):
                answer = itree.overlay_each(subjects, clips, operation, rule, pairs=pairs)
                wanted = [itree.overlay(subjects[i], clips[j], operation, rule) for i, j in pairs]
                self.assertEqual(list(map(told, answer)), list(map(told, wanted)))

    def test_place_by_place(self):
        answer = itree.overlay_each([[BIG], [SMALL], None], [[SMALL], [BIG], [BIG]], "difference")
        self.assertEqual([told(it) for it in answer], [[FRAME], [], []])
        self.assertEqual(len(answer), 3)
        self.assertEqual(len(itree.overlay_each([], [])), 0)
        with self.assertRaisesRegex(ValueError, "^1 subjects and 2 clips: as many of both, or pairs=, are wanted$"):
            itree.overlay_each([[BIG]], [[BIG], None])

    def layers(self):
        """The same shapes in each form."""
        features = [{"type": "Feature", "geometry": polygon_of(FRAME)}, {"type": "Feature", "geometry": None}]
        frame = polygon_of(FRAME)
        binary = [itree.overlay(frame, []).to_wkb(), None]
        yield "rings", [FRAME, []]
        yield "an iterator", iter([FRAME, None])
        yield "GeoJSON", [frame, None]
        yield "features", features
        yield "a collection", {"type": "FeatureCollection", "features": features}
        yield "binary", binary
        yield "bytearrays", [bytearray(binary[0]), None]
        yield "Rings", [itree.Rings(array.array("i", itertools.chain(*itertools.chain(*FRAME))), [0, 4, 8]), None]
        yield "answers", [itree.overlay(frame, []), itree.overlay([], [])]
        yield "overlays", itree.overlay_each([frame, None], [None, None])
        yield "a mixture", (binary[0], [])
        if shapely:
            shapes = [shapely.geometry.shape(frame), None]
            yield "shapely's", shapes
            yield "shapely's, one of them empty", [shapes[0], shapely.geometry.Point()]
        if shapely and numpy:
            listed = numpy.empty(2, dtype=object)
            listed[0] = shapes[0]
            yield "an array of shapely's", listed
        if geopandas:
            yield "a series", geopandas.GeoSeries(shapes, crs=32632)
            yield "a frame", geopandas.GeoDataFrame({"geometry": shapes}, crs=32632)
            yield "an array of geopandas'", geopandas.GeoSeries(shapes).values

    def test_each_form(self):
        for way in WAYS:
            for name, layer in self.layers():
                with self.subTest(name=name), way():
                    answer = itree.overlay_each(layer, [[square(0, 0, 3)], [BIG]], "difference")
                    self.assertEqual(told(answer[0]), told(itree.overlay(FRAME, [square(0, 0, 3)], "difference")))
                    self.assertEqual(told(answer[1]), [])
                    self.assertEqual(answer.crs is None, name not in ("a series", "a frame"))

    def test_each_ring_and_each_polygon_is_a_shape(self):
        rings = itree.Rings(array.array("i", itertools.chain(*BIG, *SMALL)), [0, 4, 8])
        self.assertEqual([told(it) for it in itree.overlay_each(rings, [[SMALL]] * 2, "difference")], [[FRAME], []])
        polygons = itree.simplify([SMALL, square(20, 0, 2)])
        wanted = [[[from_least(it.outer)]] for it in polygons]
        self.assertEqual([told(it) for it in itree.overlay_each(polygons, [[], []])], wanted)
        overlays = itree.overlay_each([[BIG, square(20, 0, 2)], []], [[], [SMALL]])
        self.assertEqual(list(itree.overlay_each(overlays, [[], []])), list(overlays))

    def test_floats_take_one_grid(self):
        half = polygon_of([[(0.5, 0), (1, 0), (1, 1)]])
        answer = itree.overlay_each([half, None], [[], polygon_of([SMALL])])
        self.assertEqual(answer.grid, itree.Grid.fit(half, [SMALL]))
        again = itree.overlay_each(answer, [None, None])
        self.assertEqual((again.grid, list(again)), (answer.grid, list(answer)))
        self.assertEqual(itree.overlay_each([answer[0], None], [[], []]).grid, answer.grid)
        for given in answer, list(answer):
            self.assertEqual(again, itree.overlay_each(given, [[], []]))
            self.assertEqual(again, itree.overlay_each(given, [[], []], grid=answer.grid))
        wide = itree.Grid((0.0, 0.0), 0.25)
        for given in answer, [half, polygon_of([SMALL])], [[*map(list, [[(0.5, 0.1), (1, 0), (1, 1)]])], [SMALL]]:
            moved = itree.overlay_each(given, [[BIG], []], "intersection", grid=wide)
            self.assertEqual((moved.grid, told(moved[0])), (wide, [[[(0.5, 0.0), (1.0, 0.0), (1.0, 1.0)]]]))
        with self.assertRaisesRegex(TypeError, r"^subjects, place 0, ring 0, row 0: 0.5; .*Grid.fit\(...\)$"):
            itree.overlay_each([[[(0.5, 0), (1, 0), (1, 1)]]], [[]])

    def test_offsets_that_are_faulty_later(self):
        points, offsets = array.array("i", [0, 0, 9, 0, 9, 9]), array.array("q", [0, 3])
        rings = itree.Rings(points, offsets)
        offsets[1] = 9
        for call in (
            lambda: itree.overlay_each(rings, [[]]),
            lambda: itree.candidate_pairs([[]], rings),
            lambda: itree.points_in([(1, 1)], rings),
            lambda: itree.clip(rings, []),
        ):
            with self.assertRaisesRegex(ValueError, "^the offsets of rings: one stops before it begins, or behind "):
                call()

    def test_shapes_are_turned(self):
        ring = BIG[::-1]
        answer = itree.overlay_each([polygon_of([ring, SMALL[::-1]]), polygon_of([ring, SMALL])], [[], []])
        self.assertEqual([told(it) for it in answer], [[FRAME]] * 2)

    def test_pairs_in_each_form(self):
        layer = [[square(x, 0, 2)] for x in (0, 1, 2)]
        pairs = [(0, 1), (2, 2), (1, 0)]
        flat = list(itertools.chain(*pairs))
        wanted = itree.overlay_each(layer, layer, "intersection", pairs=pairs)
        forms = [tuple(pairs), iter(pairs), map(list, pairs), array.array("q", flat), array.array("B", flat)]
        forms.append(memoryview(array.array("Q", flat)).cast("B").cast("Q", (3, 2)))
        if numpy:
            forms += [numpy.array(pairs), numpy.array(pairs, dtype="uint8"), numpy.array(pairs, dtype=">i4")]
            forms += [numpy.array(pairs, dtype=object), numpy.array([[0, 9, 1], [2, 9, 2], [1, 9, 0]])[:, ::2]]
        for way in WAYS:
            for form in forms:
                if not isinstance(form, (map, type(iter([])))) or way is WAYS[0]:
                    with self.subTest(form=form), way():
                        self.assertEqual(itree.overlay_each(layer, layer, "intersection", pairs=form), wanted)
        for nothing in [], (), array.array("q"), iter(()), *([numpy.empty((0, 2), "int64")] if numpy else []):
            self.assertEqual(len(itree.overlay_each(layer, layer, pairs=nothing)), 0)

    def test_faulty_pairs(self):
        for pairs, fault, said in (
            ([(0, 0), (0, 2)], ValueError, "pairs, row 1: the place 2, and there are 2 clips"),
            ([(-1, 0)], ValueError, "pairs, row 0: the place -1, and there are 1 subjects"),
            ([(0, 0, 0)], ValueError, "pairs, row 0: 3 numbers, 2 are wanted"),
            ([(0, 0.5)], TypeError, r"pairs, row 0: \(0, 0.5\); places, which are whole numbers, are wanted"),
            ([(0, 2**70)], OverflowError, ".*"),
            ([0], TypeError, "pairs, row 0: int; 2 places are wanted"),
            (7, TypeError, "pairs: int; pairs of places are wanted"),
            ({(0, 0)}, TypeError, "pairs: a set, which has no order; a list is wanted"),
            (array.array("d", [0, 1]), TypeError, "pairs: numbers of the format 'd'; places, .*, are wanted"),
            (array.array("q", [0, 1, 0]), ValueError, "pairs: 3 numbers in a flat buffer, and rows of 2 are wanted"),
            (array.array("Q", [0, 2**63 + 1]), ValueError, "pairs, row 0: the place .*, and there are 2 clips"),
        ):
            for way in WAYS:
                with self.subTest(said=said), self.assertRaisesRegex(fault, f"^{said}$"), way():
                    itree.overlay_each([[BIG]], [[BIG], None], pairs=pairs)

    def test_faults(self):
        binary = itree.simplify([BIG]).to_wkb()
        for layer, fault, said in (
            (polygon_of([BIG]), TypeError, "subjects: a shape alone; a sequence of shapes is wanted: put it into a list"),
            (binary, TypeError, "subjects: a shape alone; a sequence of shapes is wanted: put it into a list"),
            ("abc", TypeError, "subjects: a shape alone; a sequence of shapes is wanted: put it into a list"),
            (7, TypeError, "subjects: int; shapes are wanted"),
            ([BIG], TypeError, "subjects, place 0: a ring alone; a sequence of rings is wanted: put it into a list"),
            ([7], TypeError, "subjects, place 0: int; rings, or what has a __geo_interface__, are wanted"),
            ([None, binary[:-1]], ValueError, "subjects, place 1, byte 22: the well-known binary stops before it is whole"),
            ([None, [[(0, 1), (2,)]]], ValueError, "subjects, place 1, ring 0, row 1: 1 numbers, 2 are wanted"),
            ([{"type": "Point"}], TypeError, "subjects, place 0: Point; Polygon, .* is wanted"),
            ([polygon_of([[(0, math.inf)]])], ValueError, "subjects, place 0, ring 0, row 0: inf; finite numbers are wanted"),
        ):
            with self.subTest(said=said), self.assertRaisesRegex(fault, f"^{said}$"):
                itree.overlay_each(layer, [[]], pairs=[])
        for words, fault, said in (
            ({"operation": "sum"}, ValueError, "the operation 'sum': one of union, intersection, difference, xor is wanted"),
            ({"rule": "odd"}, ValueError, "the rule 'odd': one of evenodd, nonzero, positive, negative is wanted"),
            ({"grid": 7}, TypeError, "the grid is int; a Grid or None is wanted"),
            ({"memory_limit": 0}, ValueError, "memory_limit: 0; a number of bytes from 1 on is wanted"),
        ):
            with self.subTest(said=said), self.assertRaisesRegex(fault, f"^{said}$"):
                itree.overlay_each([[BIG]], [[]], **words)

    @needs_shapely
    def test_faults_of_shapely_s(self):
        for shape, said in (
            (shapely.geometry.LineString([(0, 0), (1, 1)]), "subjects, place 1: LineString; Polygon, .* is wanted"),
            (shapely.geometry.Point(1, 1), "subjects, place 1: Point; Polygon, .* is wanted"),
        ):
            for other in None, shapely.geometry.box(0, 0, 1, 1), shapely.geometry.LineString():
                with self.subTest(said=said, other=other), self.assertRaisesRegex(TypeError, f"^{said}$"):
                    itree.overlay_each([other, shape], [[], []])
        with self.assertRaisesRegex(TypeError, "^subjects: a shape alone; "):
            itree.overlay_each(shapely.geometry.box(0, 0, 1, 1), [[]])
        wide = shapely.geometry.Polygon([(0, 0), (1, 0), (1, math.nan)])
        with self.assertRaisesRegex(ValueError, "^subjects, place 1, ring 0, row 2: a number that isn't finite; "):
            itree.overlay_each([None, wide], [[], []])

    def test_nothing(self):
        for layer in [], [None], [[]], [[[]]]:
            answer = itree.overlay_each(layer, layer)
            self.assertEqual((len(answer), list(map(len, answer))), (len(layer), [0] * len(layer)))
            self.assertEqual(answer.points.shape, (0, 2))
            self.assertEqual(answer.offsets.tolist(), [0] * (len(layer) + 1))


class Overlays(unittest.TestCase):
    """What overlay_each answers."""

    def answer(self):
        layer = [[BIG, square(20, 0, 2)], [SMALL], [], [square(3, 3, 9)]]
        return itree.overlay_each(layer, [[SMALL]] * 4, "difference")

    def test_arrays(self):
        answer = self.answer()
        self.assertEqual(answer.offsets.tolist(), [0, 2, 2, 2, 3])
        self.assertEqual(answer.points.format, "i")
        self.assertTrue(all(it.readonly for it in (answer.points, answer.ring_offsets, answer.polygon_offsets, answer.offsets)))
        for place, polygons in enumerate(answer):
            first, stop = answer.offsets[place], answer.offsets[place + 1]
            rings = answer.polygon_offsets.tolist()[first : stop + 1]
            counts = [b - a for a, b in zip(polygons.polygon_offsets, polygons.polygon_offsets[1:])]
            self.assertEqual([b - a for a, b in zip(rings, rings[1:])], counts)
        rings = [ring for it in answer for polygon in it for ring in (polygon.outer, *polygon.holes)]
        self.assertEqual(answer.points.tolist(), list(map(list, itertools.chain(*rings))))
        self.assertEqual(repr(answer), "<itree.Overlays: 4 pairs, 3 polygons, grid=None>")

    def test_is_a_sequence(self):
        answer = self.answer()
        self.assertEqual(answer[-1], answer[3])
        self.assertEqual(answer[1:3], [answer[1], answer[2]])
        self.assertEqual(list(answer), [answer[it] for it in range(4)])
        self.assertIn(answer[0], answer)
        with self.assertRaises(IndexError):
            answer[4]

    def test_copies(self):
        half = polygon_of([[(0.5, 0), (1, 0), (1, 1)]])
        for answer in self.answer(), itree.overlay_each([half], [[]]), itree.overlay_each([], []):
            for again in copies(answer):
                self.assertEqual(again, answer)
                self.assertEqual((again.grid, hash(again), list(again)), (answer.grid, hash(answer), list(answer)))
        self.assertNotEqual(self.answer(), itree.overlay_each([], []))
        self.assertNotEqual(self.answer(), 7)

    def test_binary(self):
        for way in WAYS:
            with way():
                answer = self.answer()
                self.assertEqual(answer.to_wkb(), [self.of_one(it) for it in answer])
                told = answer.to_wkb(srid=4326)
                self.assertEqual([_wkb.srid_of(it) for it in told], [4326] * 4)
                again = itree.overlay_each(told, [None] * 4)
                self.assertEqual((list(again), again.srid), (list(answer), 4326))
                self.assertEqual(again.to_wkb(), told)
        with self.assertRaisesRegex(ValueError, "^the srid -1: a number from 0 to "):
            answer.to_wkb(srid=-1)

    def of_one(self, polygons):
        if len(polygons) > 1:
            return polygons.to_wkb()
        return polygons.to_wkb(each=True)[0] if polygons else bytes.fromhex("010300000000000000")

    @needs_shapely
    def test_shapely(self):
        answer = self.answer()
        shapes = answer.to_shapely()
        self.assertEqual([it.geom_type for it in shapes], ["MultiPolygon", "Polygon", "Polygon", "Polygon"])
        self.assertEqual([it.is_empty for it in shapes], [False, True, True, False])
        self.assertEqual([it.area for it in shapes], [76.0, 0.0, 0.0, 72.0])
        self.assertEqual([it.wkb for it in shapes], answer.to_wkb())
        low = shapely.geometry.box(0, 0, 1, 1)
        self.assertEqual(shapes[1].wkt, low.intersection(shapely.geometry.box(5, 5, 6, 6)).wkt)

    @needs_shapely
    def test_objects_are_shapely_s_own(self):
        data = [it.wkb for it in (shapely.geometry.box(0, 0, 1, 1), shapely.geometry.MultiPoint([(0, 0), (1, 1)]))]
        with mock.patch.dict(_shapely._known, clear=True):
            quick, known = _shapely.read_each(data), shapely.wkb.loads
            self.assertEqual([vars(it).keys() - {"__p__"} for it in quick], [vars(known(it)).keys() - {"__p__"} for it in data])
            self.assertEqual([it.wkt for it in quick], [known(it).wkt for it in data])
            self.assertEqual([type(it) for it in quick], [type(known(it)) for it in data])
            self.assertTrue(quick[0].equals(pickle.loads(pickle.dumps(quick[0]))))
            if hasattr(_shapely._door(), "_classes"):
                _shapely._door()._classes = []
                self.assertEqual([it.wkt for it in _shapely.read_each(data)], [it.wkt for it in quick])

    @needs_geopandas
    def test_geopandas(self):
        shapes = [shapely.geometry.box(x, 0, x + 2, 2) for x in range(3)]
        series = geopandas.GeoSeries(shapes, crs=32632)
        made = itree.overlay_each(series, series[1:], "intersection", pairs=[(0, 0), (0, 1), (2, 1)])
        self.assertEqual(made.crs, series.crs)
        told = made.to_geoseries()
        self.assertEqual((told.crs, told.area.tolist(), told.index.tolist()), (series.crs, [2.0, 0.0, 4.0], [0, 1, 2]))
        told = made.to_geoseries(index=list("abc"), crs=4326)
        self.assertEqual((told.crs.to_epsg(), told.index.tolist()), (4326, list("abc")))
        with self.assertRaisesRegex(ValueError, "^two crs that differ: "):
            itree.overlay_each(series, series.to_crs(4326))


class CandidatePairs(unittest.TestCase):
    def box(self, rings):
        points = list(itertools.chain(*rings))
        return tuple(least(point[axis] for point in points) for least in (min, max) for axis in (0, 1)) if points else None

    def test_by_chance(self):
        chance = seeded(2)
        for _ in range(times(40, 1000)):
            layers = random_layer(chance, 12), random_layer(chance, 9)
            boxes = [[self.box(it) for it in layer] for layer in layers]
            wanted = [
                (i, j)
                for (i, one), (j, other) in itertools.product(enumerate(boxes[0]), enumerate(boxes[1]))
                if one and other and all(one[k] <= other[k + 2] and other[k] <= one[k + 2] for k in (0, 1))
            ]
            for way in WAYS:
                with way():
                    self.assertEqual(itree.candidate_pairs(*layers), wanted)
            self.assertEqual(itree.candidate_pairs(*layers, as_array=True).tolist(), list(map(list, wanted)))

    def test_are_pairs_of_overlay_each(self):
        layer = [[square(x, 0, 2)] for x in (0, 5, 1)]
        pairs = itree.candidate_pairs(layer, layer, as_array=True)
        self.assertEqual(itree.overlay_each(layer, layer, pairs=pairs), itree.overlay_each(layer, layer, pairs=pairs.tolist()))
        self.assertEqual(pairs.tolist(), [[0, 0], [0, 2], [1, 1], [2, 0], [2, 2]])
        self.assertEqual(itree.candidate_pairs([], layer), [])
        self.assertEqual(itree.candidate_pairs([None], layer, True).shape, (0, 2))

    def test_faults(self):
        with self.assertRaisesRegex(TypeError, "^shapes, place 0: a ring alone; "):
            itree.candidate_pairs([BIG], [[]])
        with self.assertRaisesRegex(TypeError, "^others: int; shapes are wanted$"):
            itree.candidate_pairs([[BIG]], 7)


def is_on(point, start, stop):
    """Whether a point lies on an edge, in fractions."""
    (x, y), (x0, y0), (x1, y1) = point, start, stop
    cross = (x1 - x0) * (y - y0) - (y1 - y0) * (x - x0)
    return cross == 0 and min(x0, x1) <= x <= max(x0, x1) and min(y0, y1) <= y <= max(y0, y1)


def winding(point, start, stop):
    """Whether an edge goes rightwards, 1, or leftwards, -1, at or below a point; else 0. It covers its left end alone."""
    (x, y), (x0, y0), (x1, y1) = point, start, stop
    if not min(x0, x1) <= x < max(x0, x1):
        return 0
    height = y0 + fractions.Fraction((y1 - y0) * (x - x0), x1 - x0)
    return (1 if x0 < x1 else -1) if height <= y else 0


def lies_in(point, rings, rule, border):
    """Whether a point lies in a shape, in fractions."""
    return lies_in_edges(point, [ends for ring in rings for ends in zip(ring, [*ring[1:], *ring[:1]])], rule, border)


def lies_in_edges(point, edges, rule, border):
    """Whether a point lies in what edges go round, in fractions."""
    number = sum(winding(point, *it) for it in edges)
    inside = {"evenodd": number % 2 == 1, "nonzero": number != 0, "positive": number > 0, "negative": number < 0}[rule]
    if border == "half-open":
        return inside
    on = any(is_on(point, *it) for it in edges)
    return inside or on if border == "closed" else inside and not on


def four_times(point):
    return tuple(int(4 * it) for it in point)


class PointsIn(unittest.TestCase):
    def test_as_fractions_have_it(self):
        chance, compared = seeded(3), collections.Counter()
        for _ in range(times(15, 400)):
            layer = random_layer(chance, 5)
            points = [(chance.randrange(-1, 10), chance.randrange(-1, 10)) for _ in range(12)]
            for rule, border in itertools.product(RULES, ("closed", "open", "half-open")):
                wanted = [
                    (i, j)
                    for (i, point), (j, rings) in itertools.product(enumerate(points), enumerate(layer))
                    if lies_in(point, rings, rule, border)
                ]
                self.assertEqual(itree.points_in(points, layer, rule=rule, border=border), wanted)
                compared[rule, border] += 1
        told_count("sets of points and shapes", compared)

    def test_half_points(self):
        chance = seeded(4)
        for _ in range(times(10, 200)):
            layer = [[[(x / 2, y / 2) for x, y in ring] for ring in rings] for rings in random_layer(chance, 4)]
            points = [(chance.randrange(20) / 4, chance.randrange(20) / 4) for _ in range(10)]
            wanted = [
                (i, j)
                for (i, point), (j, rings) in itertools.product(enumerate(points), enumerate(layer))
                if lies_in(four_times(point), [list(map(four_times, it)) for it in rings], "nonzero", "closed")
            ]
            self.assertEqual(itree.points_in(points, layer, grid=itree.Grid(unit=0.25)), wanted)

    def test_a_coverage_has_each_point_once(self):
        cells = [[square(x, y, 2)] for x in (0, 2) for y in (0, 2)]
        points = [(x, y) for x in range(4) for y in range(4)]
        pairs = itree.points_in(points, cells, border="half-open")
        self.assertEqual([i for i, _ in pairs], list(range(16)))
        self.assertEqual(itree.points_in([(4, 1), (1, 4), (0, 0)], cells, border="half-open"), [(2, 0)])

    def test_each_form(self):
        fields, wanted = [[square(0, 0, 2)], None, [square(2, 0, 2)]], [(0, 0), (2, 0), (2, 2)]
        rows = [(1, 1), (9, 9), (2, 1)]
        flat = list(itertools.chain(*rows))
        forms = [rows, iter(rows), tuple(map(list, rows)), *(array.array(letter, flat) for letter in "idhq")]
        forms.append(memoryview(array.array("i", flat)).cast("B").cast("i", (3, 2)))
        forms += [[(1.0, 1), (9, 9.0), (2, 1)], [(fractions.Fraction(1), 1), (9, 9), (2, 1)]]
        if numpy:
            forms += [numpy.array(rows), numpy.array(rows, dtype="f4"), numpy.array(rows, dtype=">f8"), numpy.array(rows)[::1]]
            forms += [numpy.array(rows, dtype=object)]
        if shapely:
            points = list(map(shapely.geometry.Point, rows))
            forms.append(points)
        if geopandas:
            series = geopandas.GeoSeries(points)
            forms += [series, series.to_frame("geometry"), series.values, numpy.asarray(series, dtype=object)]
        for form in forms:
            with self.subTest(form=form):
                self.assertEqual(itree.points_in(form, fields), wanted)
        for nothing in [], (), array.array("i"), array.array("d"), iter(()):
            self.assertEqual(itree.points_in(nothing, fields), [])
            self.assertEqual(itree.points_in(nothing, []), [])
        self.assertEqual(itree.points_in(rows, fields, as_array=True).tolist(), list(map(list, wanted)))
        self.assertEqual(itree.points_in(rows, [], as_array=True).shape, (0, 2))

    @needs_shapely
    def test_points_that_are_none(self):
        point = shapely.geometry.Point
        points = [None, point(1, 1), point(), shapely.geometry.Polygon(), point(3, 1, 7)]
        fields = [[square(0, 0, 2)], [square(2, 0, 2)]]
        self.assertEqual(itree.points_in(points, fields), [(1, 0), (4, 1)])
        self.assertEqual(itree.points_in(points, fields, as_array=True).tolist(), [[1, 0], [4, 1]])
        self.assertEqual(itree.points_in([None, point()], fields), [])
        points.append(shapely.geometry.MultiPoint([(0, 0), (1, 1)]))
        with self.assertRaisesRegex(TypeError, "^points, place 5: MultiPoint; Point is wanted$"):
            itree.points_in(points, fields)

    def test_floats_and_shapes_have_one_grid(self):
        tenths = [[(0.1, 0.1), (0.3, 0.1), (0.3, 0.3)]]
        points = [(0.1, 0.1), (0.2, 0.1), (0.3, 0.2), (0.35, 0.3)]
        self.assertEqual(itree.points_in(points, [polygon_of(tenths)]), [(0, 0), (1, 0), (2, 0)])
        self.assertEqual(itree.points_in([(0.5, 0.5)], [[BIG]]), [(0, 0)])

    def test_faults(self):
        for points, fault, said in (
            (7, TypeError, "points: int; points are wanted"),
            ("ab", TypeError, "points: str; points are wanted"),
            ({(1, 2)}, TypeError, "points: a set, which has no order; a list is wanted"),
            ([(1, 2, 3)], ValueError, "points, row 0: 3 numbers, 2 are wanted"),
            ([(1, 2), (1, math.nan)], ValueError, "points, row 1: nan; finite numbers are wanted"),
            (array.array("d", [1, 2, math.inf, 3]), ValueError, "points, row 1: inf; finite numbers are wanted"),
            ([(1, "a")], TypeError, "points, row 0: str; numbers are wanted"),
            ([(1, 2**40)], OverflowError, "points, row 0: 1099511627776 doesn't fit in 32 bits"),
        ):
            with self.subTest(said=said), self.assertRaisesRegex(fault, f"^{said}$"):
                itree.points_in(points, [[BIG]])
        with self.assertRaisesRegex(ValueError, "^the border 'half': one of closed, open, half-open is wanted$"):
            itree.points_in([], [], border="half")
        with self.assertRaisesRegex(ValueError, r"^points, row 0: 99.5 is off the grid, which is Grid\("):
            itree.points_in([(99.5, 0)], [[BIG]], grid=itree.Grid(unit=2.0**-25))


def middle(start, stop):
    return tuple(fractions.Fraction(a + b, 2) for a, b in zip(start, stop))


class Near(unittest.TestCase):
    """What lies near boxes, of shapes with many points."""

    @needs_numpy
    def test_winds_as_often_around_each_point_of_a_box(self):
        chance, fewer = seeded(14), 0
        for _ in range(times(60, 2000)):
            layer = [[random_ring(chance, 12) for _ in range(chance.randrange(1, 4))] for _ in range(3)]
            others = [[[(x, y), (x + chance.randrange(3), y + chance.randrange(3))]] for x, y in random_ring(chance, 12)]
            places = numpy.array([(i, j) for i in range(len(layer)) for j in range(len(others)) if chance.random() < 0.7])
            if len(places):
                held = _each.held(_each.two_layers((layer, ""), (others, ""), None), None)
                with mock.patch.multiple(_near, _MANY=chance.randrange(9), _WORTH=chance.randrange(30)):
                    found, parts = _near.near(held[0], places[:, 0], held[1], places[:, 1])
                for (place, other), part in zip(places.tolist(), parts.tolist()):
                    fewer += self.assert_alike(layer[place], self.rings(found, part), others[other][0])
        self.assertGreater(fewer, 100)

    def rings(self, lists, place):
        first, stop = lists.polygon_offsets()[place], lists.polygon_offsets()[place + 1]
        ends, numbers = lists.ring_offsets()[first : stop + 1], lists.numbers()
        return [[(numbers[2 * it], numbers[2 * it + 1]) for it in range(start, end)] for start, end in zip(ends, ends[1:])]

    def assert_alike(self, shape, part, corners):
        """Whether the part has fewer points."""
        edges = [[ends for ring in rings for ends in zip(ring, [*ring[1:], ring[0]])] for rings in (shape, part)]
        columns, rows = ((min(it[axis] for it in corners), max(it[axis] for it in corners)) for axis in (0, 1))
        for point in itertools.product(range(columns[0], columns[1] + 1), range(rows[0], rows[1] + 1)):
            counts = [(sum(winding(point, *it) for it in some), any(is_on(point, *it) for it in some)) for some in edges]
            self.assertEqual(*counts, (shape, part, point))
        return sum(map(len, shape)) > sum(map(len, part))

    @needs_geopandas
    def test_large_shapes(self):
        numbers = random.Random(15)
        corners = [(math.cos(it / 500 * math.pi), math.sin(it / 500 * math.pi)) for it in range(1000)]
        reach = [numbers.uniform(0.7, 1) for _ in corners]
        large = shapely.geometry.Polygon([(50 + 50 * r * x, 50 + 50 * r * y) for r, (x, y) in zip(reach, corners)])
        small = [shapely.geometry.box(x, y, x + 6, y + 6) for x, y in itertools.product(range(0, 100, 4), repeat=2)]
        small.append(shapely.geometry.box(-9, -9, 120, 120))
        one, other = (geopandas.GeoDataFrame({"geometry": it}) for it in ([large, large.buffer(-9)], small))
        for call in (
            lambda: itree.geopandas.overlay(one, other, "intersection"),
            lambda: itree.geopandas.overlay(other, one, "difference"),
            lambda: itree.geopandas.clip(other, one),
        ):
            told = call()
            with mock.patch.object(_near, "_MANY", 10**9):
                wanted = call()
            self.assertEqual(told.index.tolist(), wanted.index.tolist())
            self.assertLess(max(abs(told.area - wanted.area)), 1e-5)


class Clip(unittest.TestCase):
    def test_by_chance(self):
        """Pieces of both sides are all of the broken lines, and each of them lies on its side of the broken rings."""
        chance = seeded(5)
        for _ in range(times(15, 400)):
            lines = [[(chance.randrange(9), chance.randrange(9)) for _ in range(chance.randrange(5))] for _ in range(4)]
            rings = [random_ring(chance) for _ in range(chance.randrange(1, 4))]
            broken, borders = self.broken(lines, rings)
            for rule in RULES:
                sides = [itree.clip(lines, rings, keep, rule) for keep in ("inside", "outside")]
                for line, edges, pieces in zip(lines, broken, zip(*sides)):
                    self.assertTrue(all(len(it) > 1 for it in itertools.chain(*pieces)), (line, rings))
                    for kept, wanted in zip(pieces, (True, False)):
                        told = [ends for piece in kept for ends in zip(piece, piece[1:])]
                        is_in = [lies_in_edges(middle(*it), borders, rule, "closed") == wanted for it in edges]
                        self.assertEqual(told, list(itertools.compress(edges, is_in)), (line, rings, rule, wanted))

    def broken(self, lines, rings):
        """The edges of each line, and those of all rings, broken where they meet."""
        edges = [[(*a, *b) for a, b in zip(line, line[1:]) if a != b] for line in lines]
        # An edge from a point to itself breaks nothing.
        around = [(*a, *b) for ring in rings for a, b in zip(ring, [*ring[1:], ring[0]]) if a != b]
        chains = itree.snap([*itertools.chain(*edges), *around])
        parts = iter(chains)
        of_lines = [[ends for chain in itertools.islice(parts, len(line)) for ends in zip(chain, chain[1:])] for line in edges]
        return of_lines, [ends for it in parts for ends in zip(it, it[1:])]

    def test_worked(self):
        lines = [[(-3, 1), (12, 1)], [(4, 4), (5, 5)], [(0, 9), (9, 9)], [(9, 9), (12, 12)], [(1, 1)], []]
        pieces = itree.clip(lines, FRAME)
        self.assertEqual(list(pieces), [[[(0, 1), (9, 1)]], [], [[(0, 9), (9, 9)]], [], [], []])
        others = itree.clip(lines, FRAME, "outside", "nonzero")
        self.assertEqual(others[:3], [[[(-3, 1), (0, 1)], [(9, 1), (12, 1)]], [[(4, 4), (5, 5)]], []])
        self.assertEqual(others[3], [[(9, 9), (12, 12)]])
        self.assertEqual(itree.clip(lines, [])[0], [])
        self.assertEqual(itree.clip(lines, [], "outside")[0], [[(-3, 1), (12, 1)]])
        self.assertEqual(list(itree.clip([], FRAME)), [])

    def test_each_form(self):
        rows = [[(-3, 1), (12, 1)], [(1, -1), (1, 1), (2, 10)]]
        shape = {"type": "MultiLineString", "coordinates": [[(-3, 1, 7), (12, 1, 7)], [(1, -1, 7), (1, 1, 7), (2, 10, 7)]]}
        line = {"type": "LineString", "coordinates": rows[0]}
        flat = array.array("i", itertools.chain(*itertools.chain(*rows)))
        wanted = list(itree.clip(rows, [BIG]))
        forms = [iter(rows), [array.array("d", itertools.chain(*it)) for it in rows], itree.Rings(flat, [0, 2, 5])]
        forms.append(itree.Rings(array.array("d", flat), [0, 2, 5]))
        forms += [[line, rows[1]], [{"type": "Feature", "geometry": line}, rows[1]], tuple(map(tuple, rows))]
        if numpy:
            forms += [list(map(numpy.array, rows)), [numpy.array(it, dtype="f4") for it in rows]]
        if shapely:
            lines = list(map(shapely.geometry.LineString, rows))
            forms.append(lines)
        if geopandas:
            series = geopandas.GeoSeries(lines)
            forms += [series, series.to_frame("geometry"), numpy.asarray(series)]
        for way in WAYS:
            for form in forms:
                if not isinstance(form, type(iter([]))) or way is WAYS[0]:
                    with self.subTest(form=form), way():
                        self.assertEqual(list(itree.clip(form, [BIG])), wanted)
        features = [{"type": "Feature", "geometry": it} for it in (shape, None)]
        several = [shape, {"type": "FeatureCollection", "features": features}]
        if shapely:
            several += [shapely.geometry.shape(shape), [shapely.geometry.shape(shape)]]
        for form in several:
            self.assertEqual(list(itree.clip(form, [BIG]))[0], list(itertools.chain(*wanted)))

    def test_floats_take_a_grid(self):
        lines = [[(0.5, 1), (20, 1)]]
        pieces = itree.clip(lines, [BIG])
        self.assertEqual((list(pieces), pieces.grid), ([[[(0.5, 1.0), (9.0, 1.0)]]], itree.Grid.fit(lines, [BIG])))
        self.assertEqual(pieces.points.format, "i")
        grid = itree.Grid(unit=0.5)
        self.assertEqual(list(itree.clip([[(0.4, 1), (20, 1)]], [BIG], grid=grid)), [[[(0.5, 1.0), (9.0, 1.0)]]])

    def test_arrays_and_copies(self):
        for pieces in itree.clip([[(-3, 1), (12, 1)], [], [(1, -1), (1, 1), (0.5, 10)]], FRAME), itree.clip([], []):
            for again in copies(pieces):
                self.assertEqual(again, pieces)
                self.assertEqual((again.grid, hash(again), list(again)), (pieces.grid, hash(pieces), list(pieces)))
        pieces = itree.clip([[(-3, 1), (12, 1)], [], [(4, -1), (4, 20)]], FRAME)
        self.assertEqual((pieces.offsets.tolist(), pieces.piece_offsets.tolist()), ([0, 1, 1, 3], [0, 3, 6, 8]))
        self.assertEqual(pieces.points.tolist(), [[0, 1], [4, 1], [9, 1], [4, 0], [4, 1], [4, 3], [4, 6], [4, 9]])
        self.assertEqual((pieces[-1], pieces[:2], len(pieces)), (pieces[2], [pieces[0], []], 3))
        self.assertEqual(repr(pieces), "<itree.Pieces: 3 lines, 3 pieces, grid=None>")
        self.assertTrue(all(it.readonly for it in (pieces.points, pieces.piece_offsets, pieces.offsets)))
        told = pieces.__geo_interface__
        self.assertEqual([len(it["coordinates"]) for it in told["geometries"]], [1, 0, 2])

    @needs_shapely
    def test_shapely(self):
        line = shapely.geometry.LineString
        lines = [line([(-1, 1), (12, 1)]), None, line([(4, -1), (4, 12)]), shapely.geometry.LinearRing(BIG)]
        pieces = itree.clip(lines, FRAME)
        frame = shapely.geometry.Polygon(BIG, [SMALL])
        for told, given in zip(pieces.to_shapely(), lines):
            wanted = line() if given is None else line(given.coords).intersection(frame)
            self.assertEqual(told.length, wanted.length)
            self.assertTrue(wanted.is_empty or told.geom_type in ("LineString", "MultiLineString"))
        self.assertEqual([it.wkb for it in pieces.to_shapely()], pieces.to_wkb())
        self.assertEqual(pieces.to_shapely()[1].wkt, "LINESTRING EMPTY")
        self.assertEqual(itree.clip(lines[0], frame)[0], [[(0, 1), (9, 1)]])
        for shapes, said in ([None, frame], "place 1: Polygon"), (shapely.geometry.Point(1, 1), "place 0: Point"):
            with self.assertRaisesRegex(TypeError, f"^lines, {said}; LineString or MultiLineString is wanted$"):
                itree.clip(shapes, frame)
        self.assertEqual(list(itree.clip([shapely.geometry.Point(), lines[0]], frame))[0], [])

    @needs_geopandas
    def test_geopandas(self):
        series = geopandas.GeoSeries([shapely.geometry.LineString([(-1, 1), (12, 1)])], crs=32632)
        told = itree.clip(series, geopandas.GeoSeries([shapely.geometry.box(0, 0, 2, 2)], crs=32632)).to_geoseries(index=["a"])
        self.assertEqual((told.crs, told.length.tolist(), told.index.tolist()), (series.crs, [2.0], ["a"]))
        with self.assertRaisesRegex(ValueError, "^two crs that differ: "):
            itree.clip(series, geopandas.GeoSeries([shapely.geometry.box(0, 0, 2, 2)], crs=4326))

    def test_faults(self):
        for lines, fault, said in (
            (7, TypeError, "lines: int; lines are wanted"),
            ("ab", TypeError, "lines: str; lines are wanted"),
            ([(1, 2), (3, 4)], TypeError, "lines: a line alone; a sequence of lines is wanted: put it into a list"),
            ([[(1, 2), (3,)]], ValueError, "lines, place 0, row 1: 1 numbers, 2 are wanted"),
            ([None, [(1, 2), (3, math.nan)]], ValueError, "lines, place 1, row 1: nan; finite numbers are wanted"),
            ([polygon_of([BIG])], TypeError, "lines, place 0: Polygon; LineString or MultiLineString is wanted"),
            ([{"type": "LineString"}], TypeError, "lines, place 0: LineString; LineString or MultiLineString is wanted"),
            ([{}], TypeError, "lines, place 0: no type of GeoJSON; LineString or MultiLineString is wanted"),
            (itree.Rings(array.array("d", [0, 1, 2, 3, 4, math.inf]), [0, 1, 3]), ValueError, "lines, place 1, row 1: inf; .*"),
        ):
            with self.subTest(said=said), self.assertRaisesRegex(fault, f"^{said}$"):
                itree.clip(lines, [BIG])
        with self.assertRaisesRegex(ValueError, "^the side to keep 'in': one of inside, outside is wanted$"):
            itree.clip([], [], "in")
        with self.assertRaisesRegex(TypeError, "^polygons: a ring alone; "):
            itree.clip([], BIG)


class Parents(unittest.TestCase):
    def test_nested(self):
        rings = [square(it, it, 40 - 2 * it) for it in range(0, 16, 2)]
        for way in range(2):
            polygons = itree.simplify([*(rings if way else rings[::-1]), square(60, 0, 3)], "evenodd")
            found = {polygon.outer[0][0]: parent for polygon, parent in zip(polygons, polygons.parents())}
            self.assertEqual(len(found), 5)
            for x, parent in found.items():
                around = None if parent is None else polygons[parent].outer[0][0]
                self.assertEqual(around, x - 4 if 0 < x < 60 else None)
        self.assertEqual(itree.simplify([]).parents(), [])

    def test_islands_that_touch(self):
        lake = [(4, 0), (8, 4), (4, 8), (0, 4)]
        polygons = itree.simplify([square(-4, -4, 16), lake, [(4, 0), (6, 4), (4, 8), (2, 4)]], "evenodd")
        self.assertEqual(sorted(it is None for it in polygons.parents()), [False, True])
        two = itree.simplify([square(0, 0, 2), square(2, 2, 2)])
        self.assertEqual(two.parents(), [None, None])

    @needs_shapely
    def test_by_chance(self):
        chance = seeded(6)
        for _ in range(times(8, 100)):
            polygons = itree.simplify([random_ring(chance, 30) for _ in range(20)], "evenodd")
            shapes = polygons.to_shapely(each=True)
            outers = [shapely.geometry.Polygon(it.exterior) for it in shapes]
            for place, parent in enumerate(polygons.parents()):
                inner = shapes[place].representative_point()
                around = [it for it, outer in enumerate(outers) if it != place and outer.contains(inner)]
                nearest = min(around, key=lambda it: outers[it].area, default=None)
                self.assertEqual(parent, nearest)

    def test_first_edges(self):
        """An outer ring begins with the lowest of its leftmost corners, and goes on rightwards: parents are told by that."""
        chance = seeded(8)
        for _ in range(times(100, 4000)):
            subject, clip = ([random_ring(chance) for _ in range(chance.randrange(1, 4))] for _ in range(2))
            for polygon in itree.overlay(subject, clip, chance.choice(OPERATIONS), chance.choice(RULES)):
                first, second = polygon.outer[:2]
                self.assertEqual(first, min(polygon.outer), (subject, clip))
                self.assertLess(first[0], second[0], (subject, clip))


class Bulk:
    """A stand-in for the calls of shapely 2 that take arrays, over objects of another shapely."""

    KINDS = "Point LineString LinearRing Polygon MultiPoint MultiLineString MultiPolygon GeometryCollection".split()
    to_wkb = from_wkb = None

    def get_type_id(self, shapes):
        return numpy.array([-1 if it is None else self.KINDS.index(it.geom_type) for it in shapes], dtype=int)

    def is_empty(self, shapes):
        return numpy.array([it is not None and it.is_empty for it in shapes], dtype=bool)

    def get_num_coordinates(self, shapes):
        return numpy.array([len(it.coords) for it in shapes], dtype=int)

    def get_coordinates(self, shapes, return_index=False):
        rows = [(place, row[:2]) for place, it in enumerate(shapes) if it is not None and not it.is_empty for row in it.coords]
        found = numpy.array([row for _, row in rows], dtype=float).reshape(-1, 2)
        return (found, numpy.array([place for place, _ in rows], dtype=int)) if return_index else found

    def get_parts(self, shapes, return_index):
        assert return_index
        parts = [(place, part) for place, it in enumerate(shapes) if it is not None for part in getattr(it, "geoms", [it])]
        return _shapely.object_array([part for _, part in parts]), numpy.array([place for place, _ in parts], dtype=int)


class Doors(unittest.TestCase):
    """Points and lines of shapely's, by each way in."""

    def doors(self):
        yield _shapely._Plain()
        if numpy:
            yield _shapely._Shapely2(Bulk())

    @needs_shapely
    def test_points_and_lines(self):
        point, line = shapely.geometry.Point, shapely.geometry.LineString
        several = shapely.geometry.MultiLineString([[(0, 0), (1, 2)], [(3, 4, 9), (5, 6, 9), (7, 8, 9)]])
        points = [point(1, 2), None, point(3, 4, 5), point(), point(-0.5, 1e300)]
        lines = [line([(1, 2), (3, 4)]), None, several, line(), shapely.geometry.LinearRing(SMALL)]
        lines.append(shapely.geometry.MultiLineString())
        wanted = [str(_shapely.points(points)), _shapely.lines(lines), str(_shapely.points([])), _shapely.lines([])]
        self.assertEqual(wanted[1].numbers.tolist()[:10], [1, 2, 3, 4, 0, 0, 1, 2, 3, 4])
        self.assertEqual((wanted[1].ends.tolist()[:4], wanted[1].shapes.tolist()[:4]), ([0, 2, 4, 7], [0, 1, 1, 3]))
        for door in self.doors():
            with mock.patch.object(_shapely, "_door", lambda: door):
                found = [str(_shapely.points(points)), _shapely.lines(lines), str(_shapely.points([])), _shapely.lines([])]
            self.assertEqual(found[0::2], wanted[0::2])
            for one, other in zip(found[1::2], wanted[1::2]):
                self.assertEqual(self.told(one), self.told(other))

    def told(self, lines):
        """The lines of each shape that have points."""
        rows = list(zip(lines.numbers[0::2], lines.numbers[1::2]))
        parts = [rows[start:stop] for start, stop in zip(lines.ends, lines.ends[1:])]
        return [[it for it in parts[start:stop] if it] for start, stop in zip(lines.shapes, lines.shapes[1:])]

    @needs_shapely
    def test_others(self):
        point, line = shapely.geometry.Point(1, 2), shapely.geometry.LineString([(1, 2), (3, 4)])
        for door in [_shapely._door(), *self.doors()]:
            with mock.patch.object(_shapely, "_door", lambda: door):
                for call, shapes, said in (
                    (_shapely.points, [None, point, line], "place 2: LineString"),
                    (_shapely.lines, [None, line, shapely.geometry.Point(), point], "place 3: Point"),
                ):
                    with self.assertRaisesRegex(_shapely.OtherType, f"^{said}$") as caught:
                        call(shapes)
                    self.assertEqual(str(pickle.loads(pickle.dumps(caught.exception))), said)


class Refused(unittest.TestCase):
    """Each request for memory of a call is refused in turn, and then a call is held to a limit."""

    def calls(self, numbers=random.Random(7)):
        layer = [[square(numbers.randrange(99), numbers.randrange(99), 9)] for _ in range(30)]
        points = [(numbers.randrange(99), numbers.randrange(99)) for _ in range(50)]
        lines = [points[it : it + 3] for it in range(40)]
        yield "overlay_each", lambda **limit: list(itree.overlay_each(layer, layer[::-1], "xor", **limit))
        yield "candidate_pairs", lambda **limit: itree.candidate_pairs(layer, layer, **limit)
        yield "points_in", lambda **limit: itree.points_in(points, layer, **limit)
        yield "clip", lambda **limit: list(itree.clip(lines, itertools.chain(*layer), **limit))

    def refusals(self, call):
        """How many requests a call makes that are refused one after the other until it answers; and what it answers."""
        refuse_after = ctypes.CDLL(os.environ["ITREE_LIBRARY"]).refuse_after
        for granted in itertools.count():
            refuse_after(ctypes.c_size_t(granted))
            try:
                return granted, call()
            except MemoryError as fault:
                self.assertEqual(str(fault), "itree: memory was refused")
            finally:
                refuse_after(ctypes.c_size_t(-1))

    def test_in_turn(self):
        for name, call in self.calls():
            with self.subTest(name=name):
                wanted = call()
                count, answer = self.refusals(call)
                self.assertGreater(count, 0)
                self.assertEqual(answer, wanted)
        polygons = itree.simplify([*(square(it, it, 40 - 2 * it) for it in range(0, 16, 2))], "evenodd")
        self.assertEqual(self.refusals(polygons.parents)[1], polygons.parents())

    def test_limits(self):
        for name, call in self.calls():
            with self.subTest(name=name):
                self.assertEqual(call(memory_limit=10**8), call())


class Stopped(unittest.TestCase):
    def test_overlay_each(self):
        numbers = random.Random(8)
        ring = [(numbers.randrange(10**6), numbers.randrange(10**6)) for _ in range(400)]
        sent, before = [], signal.signal(signal.SIGINT, signal.default_int_handler)

        def send():
            sent.append(time.monotonic())
            os.kill(os.getpid(), signal.SIGINT)

        timer = threading.Timer(0.5, send)
        timer.start()
        try:
            with self.assertRaises(KeyboardInterrupt):
                itree.overlay_each([[ring]] * 200, [[]] * 200)
            self.assertLess(time.monotonic() - sent[0], 0.3)
        finally:
            timer.cancel()
            signal.signal(signal.SIGINT, before)
        self.assertEqual(told(itree.overlay_each([[BIG]], [[SMALL]], "difference")[0]), [FRAME])


@needs_geopandas
class Geopandas(unittest.TestCase):
    """itree.geopandas beside geopandas: the same rows, columns and index, and shapes of the same area."""

    HOWS = "intersection", "union", "identity", "symmetric_difference", "difference"

    def shape(self, chance):
        def point():
            return [STEP * chance.randrange(13) for _ in range(2)]

        kind = chance.randrange(12)
        (x, y), (width, height) = point(), [STEP * chance.randrange(2, 7) for _ in range(2)]
        box = shapely.geometry.box(x, y, x + width, y + height)
        if kind == 0:
            return chance.choice([None, shapely.geometry.Polygon()])
        if kind == 1:
            return shapely.geometry.MultiPolygon([box, shapely.geometry.box(x + 8 * STEP, y, x + 9 * STEP, y + height)])
        if kind == 2:
            return box.difference(shapely.geometry.box(x + STEP / 2, y + STEP / 2, x + STEP, y + STEP))
        if kind < 6:
            return box
        made = shapely.geometry.Polygon([point() for _ in range(chance.randrange(3, 6))])
        return made if made.is_valid and made.area else box

    def index(self, chance, count):
        kind = chance.randrange(4)
        if kind == 0:
            return pandas.RangeIndex(count)
        if kind == 1:
            return pandas.Index([chance.randrange(9) for _ in range(count)], name="key")
        if kind == 2:
            return pandas.Index([f"row {it}" for it in range(count)])
        return pandas.MultiIndex.from_tuples([(it % 2, it) for it in range(count)], names=["odd", None])

    def frame(self, chance, column, crs=32632, kinds=None):
        count = chance.randrange(1, 9)
        shapes = [(kinds or self.shape)(chance) for _ in range(count)]
        data = {column: range(count), "name": chance.choices("xyz", k=count), "size": [it / 4 for it in range(count)]}
        if chance.random() < 0.5:
            data["kind"] = pandas.Categorical([chance.choice("ab") for _ in range(count)], categories=["a", "b", "c"])
        if chance.random() < 0.5:
            data["when"] = pandas.to_datetime([f"2020-01-0{chance.randrange(1, 9)}" for _ in range(count)])
        name = chance.choice(["geometry", "geometry", "shape"])
        data = dict(chance.sample(list({**data, name: shapes}.items()), len(data) + 1))
        return geopandas.GeoDataFrame(data, geometry=name, crs=crs, index=self.index(chance, count))

    def assert_alike(self, ours, theirs, size="area"):
        names = ours.geometry.name, theirs.geometry.name
        self.assertEqual((names[0], ours.crs, list(ours.columns)), (names[1], theirs.crs, list(theirs.columns)))
        if len(ours) == len(theirs) == 0:
            return
        others = [pandas.DataFrame(it.drop(columns=name)) for it, name in zip((ours, theirs), names)]
        pandas.testing.assert_frame_equal(*others)
        for one, other in zip(ours.geometry, theirs.geometry):
            self.assertEqual(one is None, other is None)
            if one is not None:
                apart = one.symmetric_difference(other).area if size == "area" else abs(one.length - other.length)
                self.assertLess(apart, 9 * STEP if size == "area" else 1)
                self.assertEqual(one.is_empty, other.is_empty)
                self.assertTrue(one.is_valid)

    def quietly(self, call, *given, **words):
        with warnings.catch_warnings():
            warnings.simplefilter("ignore")
            # Ours warns of nothing that geopandas or pandas will change.
            warnings.filterwarnings("error", category=FutureWarning, module="itree")
            warnings.filterwarnings("error", message="GeoSeries.notna")
            return call(*given, **words)

    @needs_index
    def test_overlay(self):
        chance, compared = seeded(9), collections.Counter()
        for place in range(times(6, 150)):
            one, other, (meets, touch) = self.pair_of_frames(chance)
            # Else geopandas has two columns of shapes, or the other name.
            plain = one.geometry.name == "geometry" or meets > touch
            hows = self.HOWS if plain else ["difference"]
            # Of very many pairs each takes one operation, in turn.
            for how in hows[place % len(hows) :][:1] if MANY else hows:
                with self.subTest(how=how, one=one.to_wkt(), other=other.to_wkt()), self.exact():
                    self.assert_overlay(one, other, how, touch)
                compared[how] += 1
            if (place + 1) % 1000 == 0:
                told_count("pairs of frames", compared)

    def pair_of_frames(self, chance):
        """One that geopandas takes, and what `meetings` tells of it."""
        while True:
            one, other = self.frame(chance, "left"), self.frame(chance, "right")
            meets, touch = self.meetings(one, other)
            # Else geopandas doesn't know what to keep, or raises what pandas does.
            knows = one.geom_type.iloc[0] in ("Polygon", "MultiPolygon")
            if knows and (meets or max(it.index.nlevels for it in (one, other)) == 1):
                return one, other, (meets, touch)

    def exact(self):
        """Geopandas buffers what it makes by 0, where GEOS 3.11 loses islands in holes: here not where shapes are valid."""
        buffer = geopandas.GeoSeries.buffer

        def as_it_is(series, distance):
            return series if series.is_valid.all() else buffer(series, distance)

        return mock.patch.object(geopandas.GeoSeries, "buffer", as_it_is)

    def assert_overlay(self, one, other, how, touch):
        theirs = self.quietly(geopandas.overlay, one, other, how)
        ours = self.quietly(itree.geopandas.overlay, one, other, how)
        if touch:
            # Geopandas' order of rows hangs on these, too.
            names = ["left", "right"] if "right" in ours else ["left"]
            ours, theirs = (it.sort_values(by=names, ignore_index=True) for it in (ours, theirs))
        self.assert_alike(ours, theirs)

    def meetings(self, one, other):
        """How many pairs of shapes have points in common, and how many of these no area."""
        pairs = itertools.product(one.geometry.dropna(), other.geometry.dropna())
        areas = [a.intersection(b).area for a, b in pairs if a.intersects(b)]
        return len(areas), areas.count(0.0)

    @needs_index
    def test_difference_keeps_rows_without_a_shape(self):
        shapes = [shapely.geometry.box(0, 0, 2, 2), None, shapely.geometry.Polygon()]
        one = geopandas.GeoDataFrame({"left": [1, 2, 3], "geometry": shapes})
        other = geopandas.GeoDataFrame({"right": [3], "geometry": [shapely.geometry.box(1, 1, 3, 3)]})
        for how in "difference", "symmetric_difference":
            for kept in True, False:
                theirs = geopandas.overlay(one, other, how, keep_geom_type=kept)
                self.assert_alike(itree.geopandas.overlay(one, other, how, keep_geom_type=kept), theirs)
            with self.assertWarnsRegex(UserWarning, "^`keep_geom_type=True` in overlay leaves out 1 rows "):
                itree.geopandas.overlay(one, other, how)

    @needs_index
    def test_an_island_in_a_hole(self):
        """Geopandas 0.12 over GEOS 3.11 loses it: its area is a quarter."""
        shape = shapely.geometry.Polygon([(6, 11), (3, 5), (6, 2), (8, 11)])
        around = shapely.geometry.Polygon([(4, 6), (4, 8), (6, 8), (6, 6)], [[(5, 7), (4.5, 7), (4.5, 6.5), (5, 6.5)]])
        one, other = (geopandas.GeoDataFrame({"geometry": [it]}) for it in (shape, around))
        told = itree.geopandas.overlay(one, other, "difference")
        self.assertEqual(told.area.tolist(), [19.0])
        self.assertTrue(told.geometry[0].contains(shapely.geometry.box(4.5, 6.5, 5, 7)))

    def test_faults_of_overlay(self):
        box, bow = shapely.geometry.box(0, 0, 2, 2), shapely.geometry.Polygon([(0, 0), (4, 4), (4, 0), (0, 4)])
        one = geopandas.GeoDataFrame({"geometry": [box, None]}, crs=32632)
        with self.assertRaisesRegex(ValueError, "^how='sum': one of intersection, union, identity, .* is wanted$"):
            itree.geopandas.overlay(one, one, "sum")
        with self.assertRaisesRegex(NotImplementedError, "^itree.geopandas.overlay takes GeoDataFrames, as geopandas' own$"):
            itree.geopandas.overlay(one, one.geometry)
        with self.assertRaisesRegex(NotImplementedError, "^keep_geom_type=False with how='union': .*use geopandas.overlay$"):
            itree.geopandas.overlay(one, one, "union", keep_geom_type=False)
        lines = geopandas.GeoDataFrame({"geometry": [None, box.exterior]}, crs=32632)
        said = "^itree.geopandas.overlay takes polygons: df2, place 1: LineString; .*; use geopandas' own$"
        with self.assertRaisesRegex(NotImplementedError, said):
            itree.geopandas.overlay(one, lines)
        crossing = geopandas.GeoDataFrame({"geometry": [bow]}, crs=32632)
        with self.assertRaisesRegex(ValueError, "^make_valid=False, and 1 shapes aren't valid$"):
            itree.geopandas.overlay(one, crossing, make_valid=False)
        self.assertEqual(itree.geopandas.overlay(one, crossing).area.tolist(), [2.0])
        said = "^CRS mismatch between the CRS of left geometries and the CRS of right geometries"
        with self.assertWarnsRegex(UserWarning, said) as caught:
            told = itree.geopandas.overlay(one, one.set_crs(3857, allow_override=True))
        self.assertEqual((caught.filename, told.crs), (__file__, one.crs))

    def test_dissolve(self):
        chance = seeded(10)
        for _ in range(times(5, 150)):
            frame = self.frame(chance, "left")
            frame["group"] = [chance.choice([1, 2, 3.5, None]) for _ in range(len(frame))]
            frame["kind"] = pandas.Categorical([chance.choice("ab") for _ in range(len(frame))], categories=["a", "b", "c"])
            others = frame["name"].str.upper().rename("upper"), list(frame["left"] % 2)
            for by in None, "group", "kind", ["group", "name"], ["kind", "group"], *others:
                words = {"as_index": chance.random() < 0.5, "sort": chance.random() < 0.5, "observed": chance.random() < 0.5}
                words["dropna"] = chance.random() < 0.5
                words["aggfunc"] = chance.choice(["first", "last", {"left": "sum", "size": ["min", "max"]}, "count"])
                with self.subTest(by=by, words=words, frame=frame):
                    theirs = self.quietly(frame.dissolve, by, **words)
                    self.assert_alike(self.quietly(itree.geopandas.dissolve, frame, by, **words), theirs)
            leveled = frame.set_index(["name", "left"])
            for level in 0, "left", ["name", "left"]:
                theirs = self.quietly(leveled.dissolve, level=level)
                self.assert_alike(self.quietly(itree.geopandas.dissolve, leveled, level=level), theirs)

    def test_dissolve_and_union_of_others(self):
        frame = geopandas.GeoDataFrame({"geometry": [shapely.geometry.Point(1, 1)]})
        for call in itree.geopandas.dissolve, itree.geopandas.unary_union:
            said = "^itree.geopandas.dissolve takes polygons: geometry, place 0: Point; "
            with self.assertRaisesRegex(NotImplementedError, said):
                call(frame)

    def test_unary_union(self):
        chance = seeded(11)
        for _ in range(times(20, 200)):
            frame = self.frame(chance, "left")
            ours, theirs = itree.geopandas.unary_union(frame), frame.unary_union
            self.assertLess(abs(ours.area - theirs.area) if theirs else 0, 9 * STEP)
            self.assertEqual(None if ours is None else ours.geom_type, None if theirs is None else theirs.geom_type)
        for nothing in [], [None], [shapely.geometry.Polygon()], [None, shapely.geometry.Polygon()]:
            series = geopandas.GeoSeries(nothing, dtype="geometry")
            ours, theirs = itree.geopandas.unary_union(series), series.unary_union
            self.assertEqual(ours if ours is None else ours.wkt, theirs if theirs is None else theirs.wkt)

    def point(self, chance):
        if chance.randrange(9) == 0:
            return chance.choice([None, shapely.geometry.Point()])
        return shapely.geometry.Point(*(STEP * chance.randrange(25) / 2 for _ in range(2)))

    @needs_index
    def test_sjoin(self):
        chance = seeded(12)
        for _ in range(times(5, 150)):
            points, polygons = self.frame(chance, "left", kinds=self.point), self.frame(chance, "right")
            for how, predicate in itertools.product(("inner", "left", "right"), ("intersects", "within")):
                words = {"how": how, "predicate": predicate, "rsuffix": chance.choice(["right", "of_polygon"])}
                with self.subTest(words=words, points=points.to_wkt(), polygons=polygons.to_wkt()):
                    theirs = self.quietly(geopandas.sjoin, points, polygons, **words)
                    ours = self.quietly(itree.geopandas.sjoin, points, polygons, **words)
                    names = ["right", "left"] if how == "right" else ["left", "right"]
                    places = ours[names].fillna(math.inf).values.tolist()
                    self.assertEqual(places, sorted(places))
                    self.assert_alike(*(it.sort_values(by=names) for it in (ours, theirs)))

    def test_faults_of_sjoin(self):
        points = geopandas.GeoDataFrame({"a": [1], "geometry": [shapely.geometry.Point(1, 1)]}, crs=4326)
        fields = geopandas.GeoDataFrame({"a": [2], "geometry": [shapely.geometry.box(0, 0, 2, 2)]}, crs=4326)
        with self.assertRaisesRegex(ValueError, "^left_df is GeoSeries; a GeoDataFrame is wanted$"):
            itree.geopandas.sjoin(points.geometry, fields)
        with self.assertRaisesRegex(ValueError, "^how='outer': one of left, right, inner is wanted$"):
            itree.geopandas.sjoin(points, fields, "outer")
        with self.assertRaisesRegex(ValueError, "^a column by the name index_left or index_right, "):
            itree.geopandas.sjoin(points.rename(columns={"a": "index_right"}), fields)
        said = "^predicate='touches': one of intersects, within is taken; use geopandas.sjoin$"
        with self.assertRaisesRegex(NotImplementedError, said):
            itree.geopandas.sjoin(points, fields, predicate="touches")
        said = "^itree.geopandas.sjoin takes points on the left side, and polygons on the right side: "
        with self.assertRaisesRegex(NotImplementedError, f"{said}points, place 0: Polygon; Point is wanted; "):
            itree.geopandas.sjoin(fields, fields)
        with self.assertRaisesRegex(NotImplementedError, f"{said}polygons, place 0: Point; "):
            itree.geopandas.sjoin(points, points)
        with self.assertWarnsRegex(UserWarning, "^CRS mismatch ") as caught:
            told = itree.geopandas.sjoin(points, fields.set_crs(3857, allow_override=True))
        self.assertEqual((caught.filename, told.crs, len(told)), (__file__, points.crs, 1))

    def line(self, chance):
        kind = chance.randrange(9)
        if kind == 0:
            return chance.choice([None, shapely.geometry.LineString()])
        made = [
            [(STEP * chance.randrange(13), STEP * chance.randrange(13)) for _ in range(chance.randrange(2, 5))]
            for _ in range(2)
        ]
        line = shapely.geometry.MultiLineString(made) if kind == 1 else shapely.geometry.LineString(made[0])
        # Geopandas has once what a line runs along more than once.
        return line if abs(unary_union(line).length - line.length) < 1 else None

    @needs_index
    def test_clip(self):
        chance = seeded(13)
        for _ in range(times(5, 150)):
            frame, corners = self.frame(chance, "mask"), (STEP / 2, STEP / 2, 7.5 * STEP, 5.5 * STEP)
            masks = [frame, frame.geometry, shapely.geometry.box(*corners), corners]
            for kinds, size in (self.point, "area"), (self.line, "length"), (self.shape, "area"):
                frame = self.frame(chance, "left", kinds=kinds)
                for mask, given in itertools.product(masks, (frame, frame.geometry)):
                    with self.subTest(mask=mask, given=given.to_wkt()):
                        self.assert_clips(given, mask, size)

    def assert_clips(self, given, mask, size):
        """Geopandas tells lines that touch in points, and polygons that touch in lines, besides."""
        theirs, ours = self.quietly(geopandas.clip, given, mask), self.quietly(itree.geopandas.clip, given, mask)
        if not given.geometry.geom_type.eq("Point").any():
            theirs = theirs[getattr(theirs.geometry, size) > 0]
        places = [list(given.index).index(it) for it in ours.index] if given.index.is_unique else []
        self.assertEqual(places, sorted(places))
        self.assertEqual(sorted(map(str, ours.index)), sorted(map(str, theirs.index)))
        self.assertEqual((ours.crs, type(ours)), (theirs.crs, type(theirs)))
        if given.index.is_unique:
            theirs = theirs.reindex(ours.index)
            if isinstance(ours, geopandas.GeoSeries):
                self.assertEqual(ours.name, given.name)
                ours, theirs = ours.to_frame("geometry"), theirs.to_frame("geometry")
            self.assert_alike(ours, theirs, size)

    def test_clip_of_a_mixture(self):
        one, other = map(shapely.geometry.Point, ((1, 1), (9, 9)))
        line, box = shapely.geometry.LineString([(0, 1), (9, 1)]), shapely.geometry.box(1, 1, 9, 9)
        shapes = [one, line, box, None, other]
        frame = geopandas.GeoDataFrame({"a": range(5), "geometry": shapes}, crs=32632)
        told = itree.geopandas.clip(frame, shapely.geometry.box(0, 0, 2, 2))
        self.assertEqual((told.a.tolist(), told.geom_type.tolist()), ([0, 1, 2], ["Point", "LineString", "Polygon"]))
        self.assertEqual((told.length.tolist(), told.area.tolist(), told.crs), ([0.0, 2.0, 4.0], [0.0, 0.0, 1.0], frame.crs))
        with self.assertWarnsRegex(UserWarning, "^keep_geom_type=True, and there are shapes of several types: all are kept$"):
            itree.geopandas.clip(frame, shapely.geometry.box(0, 0, 2, 2), keep_geom_type=True)
        self.assertEqual(frame.geometry.tolist(), shapes)

    def test_faults_of_clip(self):
        frame = geopandas.GeoDataFrame({"geometry": [shapely.geometry.Point(1, 1)]}, crs=4326)
        box = shapely.geometry.box(0, 0, 2, 2)
        with self.assertRaisesRegex(TypeError, "^gdf is list; a GeoDataFrame or a GeoSeries is wanted$"):
            itree.geopandas.clip([box], box)
        with self.assertRaisesRegex(TypeError, "^mask is int; a frame or a series, a polygon, or four numbers are wanted$"):
            itree.geopandas.clip(frame, 7)
        with self.assertRaisesRegex(TypeError, "^mask has 3 numbers; four are wanted: "):
            itree.geopandas.clip(frame, (1, 2, 3))
        said = "^itree.geopandas.clip takes masks of polygons: mask, place 0: Point; "
        with self.assertRaisesRegex(NotImplementedError, said):
            itree.geopandas.clip(frame, frame)
        several = geopandas.GeoSeries([None, shapely.geometry.MultiPoint([(0, 0), (1, 1)])])
        said = "^itree.geopandas.clip takes points, lines and polygons: place 1: MultiPoint; "
        with self.assertRaisesRegex(NotImplementedError, said):
            itree.geopandas.clip(several, box)
        with self.assertWarnsRegex(UserWarning, "^CRS mismatch ") as caught:
            itree.geopandas.clip(frame, geopandas.GeoSeries([box], crs=3857))
        self.assertEqual(caught.filename, __file__)


class Documents(unittest.TestCase):
    """The lines of Python that the package's README shows print what they say."""

    def assert_runs(self, first):
        """Those that begin with this line."""
        readme = (TOP / "bindings" / "python" / "README.md").read_text(encoding="utf-8")
        lines = re.search(rf"^```python\n({re.escape(first)}\n.*?)^```$", readme, re.M | re.S).group(1)
        wanted = "".join(f"{it}\n" for it in re.findall(r"  # (.*)$", lines, re.M))
        ran = subprocess.run([sys.executable, "-c", lines], stdout=subprocess.PIPE, stderr=subprocess.PIPE, text=True)
        self.assertEqual((ran.returncode, ran.stdout), (0, wanted), ran.stderr)

    @needs_shapely
    def test_many_shapes(self):
        self.assert_runs("from shapely.geometry import LineString, Point, box")

    @needs_index
    def test_geopandas(self):
        self.assert_runs("import itree.geopandas")


def load_tests(_loader, tests, _pattern):
    for module in _clip, _each, _overlays, _pieces, _points, *([itree.geopandas] if geopandas else []):
        tests.addTests(doctest.DocTestSuite(module))
    return tests


if __name__ == "__main__":
    unittest.main(argv=[it for it in sys.argv if not it.startswith(("--many", "--seed="))])
