"""Overlays within windows from Python, what they need of rings, what joins them, and overlays by threads: at hand-made rings,
at faults, with each request for memory refused in turn; and by chance beside winding numbers in whole numbers, as
process_tests has them.

usage: test_tiles.py [--many[=COUNT]] [--seed=SEED] [words of unittest]

bindings/test runs it over a library that refuses memory when it is told to (ITREE_LIBRARY). What needs numpy or shapely is
skipped where they aren't there. By chance it tries 1,000 sets of windows; --many tries 20,000, which take a minute or two,
and --many=COUNT so many. --seed=SEED tries others.
"""

import array
import contextlib
import ctypes
import doctest
import os
import pathlib
import pickle
import random
import re
import signal
import sys
import threading
import time
import unittest
from concurrent.futures import ProcessPoolExecutor
from unittest import mock

TOP = pathlib.Path(__file__).resolve().parent.parent.parent
sys.path.append(str(TOP / "process_tests"))

import drawings
import windings

import itree
from itree import _boxes, _gathered, _rings, _rows, _shapes, _threads, _tiles, _windows

try:
    import numpy
except ImportError:
    numpy = None
try:
    import shapely.geometry
except ImportError:
    shapely = None

needs_shapely = unittest.skipUnless(shapely, "shapely isn't there")
MANY = next((int(it[7:] or 20000) for it in sys.argv if re.fullmatch(r"--many(=\d+)?", it)), 1000)
SEED = next((int(it[7:]) for it in sys.argv if re.fullmatch(r"--seed=\d+", it)), 0)
RULES, OPERATIONS = list(windings.RULES), list(windings.OPERATIONS)
LEAST, MOST = -(2**31), 2**31 - 1
BIG, SMALL = [(0, 0), (4, 0), (4, 4), (0, 4)], [(2, 2), (6, 2), (6, 6), (2, 6)]
ONE = windings.PARTS


@contextlib.contextmanager
def without_numpy():
    """As if the program hadn't loaded numpy."""
    with contextlib.ExitStack() as stack:
        for module in _boxes, _gathered, _rings, _rows, _shapes, _threads:
            stack.enter_context(mock.patch.object(module, "numpy_where_loaded", lambda: None))
        yield


def told(polygons):
    """The polygons in order, each ring from its least point on."""
    return sorted([turned(outer), *sorted(map(turned, holes))] for outer, holes in polygons)


def turned(ring):
    start = ring.index(min(ring))
    return ring[start:] + ring[:start]


# ---- by chance


def some_windows(numbers, bound):
    """Windows that are a rectangle around a drawing together: columns, each cut by itself."""
    least, most = -numbers.randint(1, 3), bound + numbers.randint(1, 3)

    def cuts():
        some = numbers.sample(range(least + 1, most), min(numbers.randrange(4), most - least - 1))
        return sorted([least, most, *some])

    sides, found = cuts(), []
    for left, right in zip(sides, sides[1:]):
        heights = cuts()
        found.append([(left, low, right, high) for low, high in zip(heights, heights[1:])])
    return found


def places_around(numbers, windows):
    """Points on the sides of windows, at their corners, and close to both."""
    found = []
    for _ in range(12):
        left, low, right, high = numbers.choice(windows)
        x, y = (numbers.randint(start * ONE, stop * ONE) for start, stop in ((left, right), (low, high)))
        x = numbers.choice((left * ONE, left * ONE, right * ONE, x))
        y = numbers.choice((low * ONE, high * ONE, y))
        found.append((x + numbers.choice((-1, 0, 0, 1)), y + numbers.choice((-1, 0, 0, 1))))
    return found


def edges_in(polygons):
    return windings.edges_of([ring for outer, holes in polygons for ring in (outer, *holes)], ONE)


def tile_problems(drawing, rule, operation, windows, tiles, joined, points):
    """At which points the tiles wind otherwise than they are to, or what joins them otherwise than they do together."""
    subject, clip = (windings.edges_of(rings, ONE) for rings in drawing)
    sloped = [it for it in (*subject, *clip) if not windings.is_along_axis(it)]
    its, whole = list(map(edges_in, tiles)), edges_in(joined)
    for x, y in points:
        found = [windings.winding(edges, (x, y)) for edges in its]
        where = [left * ONE <= x < right * ONE and low * ONE <= y < high * ONE for left, low, right, high in windows]
        wanted = windings.OPERATIONS[operation](
            *(windings.RULES[rule](windings.winding(edges, (x, y))) for edges in (subject, clip))
        )
        is_exact = not any(windings.is_near(edge, (x, y), windings.HALF) for edge in sloped)
        for window, inside, winding in zip(windows, where, found):
            if winding not in (0, 1) or winding and not inside or inside and is_exact and winding != wanted:
                yield f"around {x}/{ONE} {y}/{ONE} the tile of {window} winds {winding} times, and {int(wanted)} is wanted"
        if windings.winding(whole, (x, y)) != sum(found):
            yield f"around {x}/{ONE} {y}/{ONE} the joined ones wind otherwise than the tiles together, {sum(found)} times"


def shape_problems(windows, tiles, joined):
    """Which points of tiles lie outside of their windows, and what is wrong with the rings of what joins them."""
    for (left, low, right, high), polygons in zip(windows, tiles):
        points = [point for outer, holes in polygons for ring in (outer, *holes) for point in ring]
        if not all(left <= x <= right and low <= y <= high for x, y in points):
            yield f"a point of {points} lies outside of its window {(left, low, right, high)}"
    whole = [[outer, *holes] for outer, holes in joined]
    for polygon in whole:
        yield from windings.ring_problems(polygon)
        yield from windings.hole_problems(polygon)
    yield from windings.edge_problems(whole)


def in_steps(numbers, columns, rule, operation, drawing):
    """The tiles of each column joined, and then these, in another order."""
    level = []
    for column in columns:
        some = numbers.sample(column, len(column))
        its = [itree.overlay_in(it, *drawing, operation, rule) for it in some]
        whole = (column[0][0], column[0][1], column[0][2], column[-1][3])
        level.append((whole, itree.join(its, some)))
    numbers.shuffle(level)
    return itree.join([it for _, it in level], [it for it, _ in level])


def case_problems(seed):
    """What is wrong in one set of windows by chance, with what it was."""
    numbers = random.Random(seed)
    kind = numbers.choice((drawings.near, drawings.near, drawings.any_of, drawings.square, drawings.frame, drawings.diamond))
    bound = numbers.choice((4, 8, 12, 40))
    drawing = drawings.drawn(numbers, kind(numbers, bound))
    rule, operation = numbers.choice(RULES), numbers.choice(OPERATIONS)
    columns = some_windows(numbers, bound)
    windows = [window for column in columns for window in column]
    tiles = [itree.overlay_in(window, *drawing, operation, rule) for window in windows]
    joined = itree.join(tiles, windows)
    cropped = [[itree.crop(window, rings) for rings in drawing] for window in windows]
    points = drawings.looks(numbers, drawing) + places_around(numbers, windows)
    found = [*tile_problems(drawing, rule, operation, windows, tiles, joined, points), *shape_problems(windows, tiles, joined)]
    if told(in_steps(numbers, columns, rule, operation, drawing)) != told(joined):
        found.append("joined by columns they are others")
    if any(
        told(itree.overlay_in(it, *sides, operation, rule)) != told(tile) for it, sides, tile in zip(windows, cropped, tiles)
    ):
        found.append("of cropped rings they are others")
    what = f"{rule} {operation} of {' / '.join(drawings.said_by(numbers, drawing))} in {windows}, by the seed {seed}"
    return [f"{it}: {what}" for it in found], len(tiles), len(points)


def some_problems(seeds):
    """The first problems of some cases, and how many tiles and points were looked at."""
    found, tiles, points = [], 0, 0
    for seed in seeds:
        problems, its, looked = case_problems(seed)
        found += problems[: 3 - len(found)]
        tiles, points = tiles + its, points + looked
    return found, tiles, points


class ByChance(unittest.TestCase):
    def test_windows(self):
        """The library is called by as many processes as there are processors, each with some of the seeds."""
        first, step = SEED * 10**6, 250
        some = [range(at, min(at + step, first + MANY)) for at in range(first, first + MANY, step)]
        with ProcessPoolExecutor() as pool:
            results = list(pool.map(some_problems, some))
        problems, tiles, points = ([it[part] for it in results] for part in range(3))
        self.assertEqual([it for found in problems for it in found][:3], [])
        if MANY > 1000:
            print(f"{MANY} sets of windows, {sum(tiles)} tiles, {sum(points)} points")


# ---- by hand


class Tiles(unittest.TestCase):
    def test_a_border_through_both(self):
        windows = [(0, 0, 3, 6), (3, 0, 6, 6)]
        left, right = (itree.overlay_in(it, [BIG], [SMALL]) for it in windows)
        self.assertEqual(told(left), [[[(0, 0), (3, 0), (3, 6), (2, 6), (2, 4), (0, 4)]]])
        self.assertEqual(told(right), [[[(3, 0), (4, 0), (4, 2), (6, 2), (6, 6), (3, 6)]]])
        self.assertEqual(told(itree.join([left, right], windows)), told(itree.overlay([BIG], [SMALL])))
        self.assertEqual(told(itree.join([right, left], windows[::-1])), told(itree.overlay([BIG], [SMALL])))

    def test_what_comes_to_no_border_is_as_it_was(self):
        windows = [(0, 0, 10, 10), (10, 0, 20, 10)]
        island = [(12, 2), (14, 2), (14, 4), (12, 4)]
        tiles = [itree.overlay_in(it, [[(1, 1), (11, 1), (11, 9), (1, 9)]], [island]) for it in windows]
        self.assertEqual(told(itree.join(tiles, windows)), [[[(1, 1), (11, 1), (11, 9), (1, 9)]], [island]])

    def test_words(self):
        for operation in OPERATIONS:
            for rule in RULES:
                for flip in 1, -1:
                    given = [BIG], [SMALL[::flip]], operation, rule
                    tile = itree.overlay_in((-1, -1, 9, 9), *given)
                    self.assertEqual(told(tile), told(itree.overlay(*given)))
        self.assertEqual(told(itree.overlay_in((0, 0, 1, 1), [BIG], [])), [[[(0, 0), (1, 0), (1, 1), (0, 1)]]])
        self.assertEqual(told(itree.overlay_in((5, 0, 9, 1), [BIG], [SMALL])), [])
        with self.assertRaisesRegex(ValueError, "^the operation 'cut': one of union, "):
            itree.overlay_in((0, 0, 1, 1), [BIG], [], "cut")

    def test_windows_of_floats(self):
        grid = itree.Grid(unit=0.25)
        given = [[(0.0, 0.0), (1.0, 0.0), (1.0, 1.0), (0.0, 1.0)]], []
        windows = [(0.0, 0, 0.5, 1), (0.5, 0, 1, 1.1)]
        tiles = [itree.overlay_in(it, *given, grid=grid) for it in windows]
        self.assertEqual(told(tiles[0]), [[[(0.0, 0.0), (0.5, 0.0), (0.5, 1.0), (0.0, 1.0)]]])
        self.assertEqual(told(itree.join(tiles, windows)), told(itree.overlay(*given, grid=grid)))
        self.assertEqual(itree.join(tiles, windows).grid, grid)
        whole = itree.overlay_in((0.0, 0.0, 4.0, 1.0), [BIG], [])
        self.assertEqual((told(whole), whole.grid), ([[[(0, 0), (4, 0), (4, 1), (0, 1)]]], None))

    @needs_shapely
    def test_shapely(self):
        box, other = shapely.geometry.box(0, 0, 4, 4), shapely.geometry.box(2, 2, 6, 6)
        windows = [(0, 0, 3, 6), (3, 0, 6, 6)]
        tiles = [itree.overlay_in(it, box, other, "intersection") for it in windows]
        self.assertTrue(tiles[0].to_shapely().equals(box.intersection(other).intersection(shapely.geometry.box(*windows[0]))))
        self.assertTrue(itree.join(tiles, windows).to_shapely().equals(box.intersection(other)))
        self.assertEqual(told(itree.overlay_in(box.bounds, box, other)), [[BIG]])

    def test_tiles_from_other_processes(self):
        windows = [(0, 0, 3, 6), (3, 0, 6, 6)]
        tiles = [pickle.loads(pickle.dumps(itree.overlay_in(it, [BIG], [SMALL]))) for it in windows]
        self.assertEqual(told(itree.join(iter(tiles), iter(windows))), told(itree.overlay([BIG], [SMALL])))

    def test_nothing(self):
        self.assertEqual(told(itree.join([], [])), [])
        self.assertEqual(told(itree.overlay_in((0, 0, 1, 1), [], [])), [])
        nothing = [itree.overlay_in(it, [], []) for it in ((0, 0, 1, 1), (1, 0, 2, 1))]
        self.assertEqual(told(itree.join(nothing, [(0, 0, 1, 1), (1, 0, 2, 1)])), [])


class WholeWindow(unittest.TestCase):
    def test_what_they_make_up(self):
        for windows, wanted in (
            ([(0, 0, 5, 9)], (0, 0, 5, 9)),
            ([(5, 0, 9, 4), (0, 0, 5, 9), (5, 4, 9, 9)], (0, 0, 9, 9)),
            ([(0, 0, 5, 9), (5, 0, 9, 8)], None),
            ([(0, 0, 5, 9), (6, 0, 9, 9)], None),
            (
                [(LEAST + 2, LEAST + 2, 0, MOST - 2), (0, LEAST + 2, MOST - 2, MOST - 2)],
                (LEAST + 2, LEAST + 2, MOST - 2, MOST - 2),
            ),
            ([], None),
        ):
            self.assertEqual(itree.whole_window(iter(windows)), wanted)
        self.assertEqual(itree.whole_window(itree.windows([(x, x * x % 97) for x in range(97)], 9)), (0, 0, 96, 96))
        grid = itree.Grid(unit=0.25)
        self.assertEqual(itree.whole_window([(0.0, 0, 0.5, 1), (0.5, 0, 1, 1)], grid=grid), (0.0, 0.0, 1.0, 1.0))

    def test_faults(self):
        for windows, said in (
            ([(0, 0, 5, 9), (4, 0, 9, 9)], "windows: those at 0 and 1 overlap"),
            ([(0, 0, 5, 9), (5, 0, 5, 9)], r"windows, place 1: \(5, 0, 5, 9\) has no points"),
            ([(0.5, 0, 5, 9)], "windows, place 0: 0.5; whole numbers are wanted, or a grid"),
        ):
            with self.subTest(said=said), self.assertRaisesRegex(ValueError, f"^{said}"):
                itree.whole_window(windows)


class Crop(unittest.TestCase):
    AROUND, FAR, IN = (
        [(-50, -50), (50, -50), (50, 50), (-50, 50)],
        [(70, 70), (80, 70), (80, 80)],
        [(1, 1), (3, 1), (3, 3), (1, 1)],
    )
    CORNERS = [[-2, -2], [6, -2], [6, 6], [-2, 6]]

    def listed(self, rings):
        return [ring.tolist() for ring in rings]

    def test_a_ring_for_each(self):
        cropped = itree.crop((0, 0, 4, 4), [self.AROUND, self.FAR, self.IN])
        self.assertEqual(self.listed(cropped), [self.CORNERS, [], [[1, 1], [3, 1], [3, 3]]])
        self.assertEqual((type(cropped), cropped.ring_offsets.tolist()), (itree.Rings, [0, 4, 4, 7]))
        again = pickle.loads(pickle.dumps(cropped))
        for rings in cropped, again, itree.crop((0, 0, 4, 4), cropped):
            self.assertEqual(told(itree.overlay_in((0, 0, 4, 4), rings, [])), [[[(0, 0), (4, 0), (4, 4), (0, 4)]]])
        self.assertEqual(self.listed(itree.crop((0, 0, 4, 4), [])), [])
        self.assertEqual(self.listed(itree.crop((0, 0, 4, 4), [self.FAR, []])), [[], []])

    def test_what_is_taken(self):
        polygons = itree.simplify([self.AROUND, self.FAR])
        for shapes in (
            polygons,
            polygons.to_wkb(),
            [polygons.__geo_interface__],
            rings_of([self.AROUND, self.FAR]),
            [array.array("i", [it for point in ring for it in point]) for ring in (self.AROUND, self.FAR)],
        ):
            cropped = self.listed(itree.crop((0, 0, 4, 4), shapes))
            self.assertEqual(sorted(map(sorted, cropped)), [[], sorted(self.CORNERS)])

    def test_floats(self):
        grid = itree.Grid(unit=0.25)
        quarter = [(x / 4, y / 4) for x, y in self.AROUND]
        for given in {"grid": grid}, {}:
            shape = {"type": "Polygon", "coordinates": [quarter + quarter[:1]]}
            cropped = itree.crop((0.0, 0.0, 1.0, 1.0), [shape], **given)
            self.assertTrue(cropped.has_floats)
        cropped = itree.crop((0.0, 0.0, 1.0, 1.0), [quarter], grid=grid)
        self.assertEqual(self.listed(cropped), [[[-0.5, -0.5], [1.5, -0.5], [1.5, 1.5], [-0.5, 1.5]]])
        tile = itree.overlay_in((0.0, 0.0, 1.0, 1.0), cropped, [], grid=grid)
        self.assertEqual(told(tile), [[[(0.0, 0.0), (1.0, 0.0), (1.0, 1.0), (0.0, 1.0)]]])

    def test_faults(self):
        for window, rings, error, said in (
            ((4, 0, 4, 4), [self.IN], ValueError, r"window: \(4, 0, 4, 4\) has no points"),
            ((0, 0, 4, MOST), [self.IN], ValueError, r"window: \(.*: a side lies nearer than 2 to the ends of 32 bits"),
            ((0, 0, 4, 4), [[(0, 0, 1)]], ValueError, "rings, ring 0, row 0: 3 numbers, 2 are wanted"),
            ((0, 0, 4, 4), 7, TypeError, "rings: int"),
        ):
            with self.subTest(said=said), self.assertRaisesRegex(error, f"^{said}"):
                itree.crop(window, rings)
        rings = rings_of([self.IN])
        rings.ring_offsets[1] = 9
        with self.assertRaisesRegex(ValueError, "^the offsets of rings: one stops before it begins, or behind the points$"):
            itree.crop((0, 0, 4, 4), rings)
        with self.assertRaisesRegex(MemoryError, "memory_limit, 10 bytes"):
            itree.crop((0, 0, 4, 4), [self.IN], memory_limit=10)


class Faults(unittest.TestCase):
    def test_windows(self):
        for window, error, said in (
            ((0, 0, 1), ValueError, "window: 3 numbers, 4 are wanted: minx, miny, maxx, maxy"),
            ((1, 0, 1, 5), ValueError, r"window: \(1, 0, 1, 5\) has no points; minx, miny, maxx, maxy are wanted"),
            ((0, 5, 1, 4), ValueError, r"window: \(0, 5, 1, 4\) has no points"),
            ((0.5, 0, 1, 1), ValueError, "window: 0.5; whole numbers are wanted, or a grid"),
            ((float("nan"), 0, 1, 1), ValueError, "window: nan; whole numbers are wanted, or a grid"),
            ((LEAST + 1, 0, 1, 1), ValueError, r"window: \(.*: a side lies nearer than 2 to the ends of 32 bits"),
            ((0, 0, 1, MOST - 1), ValueError, r"window: \(.*: a side lies nearer than 2 to the ends of 32 bits"),
            ((0, 0, 1, 10**40), ValueError, r"window: \(.*: a side lies nearer than 2 to the ends of 32 bits"),
            ("box", TypeError, "window: str; 4 numbers are wanted"),
            (7, TypeError, "window: int; 4 numbers are wanted"),
        ):
            with self.subTest(window=window), self.assertRaisesRegex(error, f"^{said}"):
                itree.overlay_in(window, [BIG], [SMALL])
        tile = itree.overlay_in((LEAST + 2, LEAST + 2, MOST - 2, MOST - 2), [BIG], [SMALL])
        self.assertEqual(told(tile), told(itree.overlay([BIG], [SMALL])))

    def test_join(self):
        one, other = (itree.overlay_in(it, [BIG], [SMALL]) for it in ((0, 0, 3, 6), (3, 0, 6, 6)))
        floats = itree.overlay_in((3, 0, 6, 6), [BIG], [SMALL], grid=itree.Grid())
        for tiles, windows, said in (
            ([one], [], "1 tiles and 0 windows: as many of both are wanted"),
            ([one, other], [(0, 0, 3, 6), (2, 0, 6, 6)], "windows: those at 0 and 1 overlap"),
            ([one, other], [(0, 0, 3, 5), (3, 0, 6, 6)], "tiles, place 0: a polygon leaves its window"),
            ([one, floats], [(0, 0, 3, 6), (3, 0, 6, 6)], "tiles, place 1: Grid.*: give each overlay_in the same grid="),
            (
                [itree.simplify([[*BIG], [(8, 0), (9, 0), (9, 9), (8, 9)]]), one],
                [(0, 0, 9, 9), (9, 0, 1, 1)],
                "windows, place 1: ",
            ),
        ):
            with self.subTest(said=said), self.assertRaisesRegex(ValueError, f"^{said}"):
                itree.join(tiles, windows)
        with self.assertRaisesRegex(TypeError, "^tiles, place 0: list; Polygons are wanted$"):
            itree.join([[BIG]], [(0, 0, 4, 4)])

    def test_polygons_that_overlap(self):
        both = pickle.loads(pickle.dumps(itree.simplify([BIG])))
        again = [*both.points.tolist(), *both.points.tolist()]
        numbers = bytes(numpy.asarray(again, "int32")) if numpy else b"".join(ctypes.c_int32(it) for xy in again for it in xy)
        offsets = b"".join(it.to_bytes(8, sys.byteorder) for it in (0, 4, 8))
        polygons = b"".join(it.to_bytes(8, sys.byteorder) for it in (0, 1, 2))
        call, words = both.__reduce_ex__(2)
        twice = call(numbers, offsets, polygons, *words[3:])
        with self.assertRaisesRegex(
            ValueError, "^tiles: those at a border don't fit: polygons overlap, or a part of one is missing$"
        ):
            itree.join([twice], [(0, 0, 4, 4)])

    def refusals(self, call):
        """How many requests there are to refuse, and what the call answers then."""
        library, requests = ctypes.CDLL(os.environ["ITREE_LIBRARY"]), 0
        while True:
            library.refuse_after(ctypes.c_size_t(requests))
            try:
                return requests, call()
            except MemoryError:
                requests += 1
            finally:
                library.refuse_after(ctypes.c_size_t(-1))

    def test_memory(self):
        windows = [(0, 0, 3, 6), (3, 0, 6, 6)]
        tiles = [itree.overlay_in(it, [BIG], [SMALL]) for it in windows]
        for call in lambda: itree.overlay_in(windows[0], [BIG], [SMALL]), lambda: itree.join(tiles, windows):
            requests, polygons = self.refusals(call)
            self.assertEqual(told(polygons), told(call()))
            self.assertGreater(requests, 3)
        requests, cropped = self.refusals(lambda: itree.crop(windows[0], [BIG, SMALL]))
        self.assertEqual([ring.tolist() for ring in cropped][0], [[0, 0], [4, 0], [4, 4], [0, 4]])
        self.assertGreater(requests, 2)
        with self.assertRaisesRegex(MemoryError, "memory_limit, 100 bytes"):
            itree.overlay_in(windows[0], [BIG], [SMALL], memory_limit=100)
        with self.assertRaisesRegex(MemoryError, "memory_limit, 100 bytes"):
            itree.join(tiles, windows, memory_limit=100)
        self.assertEqual(told(itree.join(tiles, windows, memory_limit=10**7)), told(itree.join(tiles, windows)))


# ---- threads


def squares(count, side, seed=1):
    """Rings along the axes, which overlap."""
    numbers = random.Random(seed)
    found = []
    for _ in range(count):
        x, y, width, height = (numbers.randrange(most) for most in (side, side, 300, 300))
        found.append([(x, y), (x + width + 1, y), (x + width + 1, y + height + 1), (x, y + height + 1)])
    return found


def rings_of(listed):
    points = [number for ring in listed for point in ring for number in point]
    offsets = [0]
    for ring in listed:
        offsets.append(offsets[-1] + len(ring))
    return itree.Rings(memoryview((ctypes.c_int32 * len(points))(*points)).cast("B").cast("i"), offsets)


class Threads(unittest.TestCase):
    """With so few edges in a window that a small overlay has many."""

    def setUp(self):
        patched = mock.patch.object(_threads, "_EDGES", 1000)
        patched.start()
        self.addCleanup(patched.stop)

    def test_are_one_answer(self):
        subject, clip = rings_of(squares(2000, 20000)), rings_of(squares(1500, 20000, 2))
        for operation in OPERATIONS:
            whole = itree.overlay(subject, clip, operation)
            by_one = itree.overlay(subject, clip, operation, threads=1)
            self.assertEqual(told(by_one), told(whole))
            for count in 2, 4, 9:
                self.assertEqual(itree.overlay(subject, clip, operation, threads=count), by_one)
        with without_numpy():
            self.assertEqual(itree.overlay(subject, clip, "xor", threads=3), by_one)

    def test_simplify(self):
        rings = rings_of(squares(2000, 20000))
        for rule in RULES:
            self.assertEqual(told(itree.simplify(rings, rule, threads=2)), told(itree.simplify(rings, rule)))
        self.assertEqual(told(itree.unary_union(rings, threads=2)), told(itree.unary_union(rings)))

    def test_rings_without_points(self):
        rings = rings_of(squares(2000, 20000))
        wanted = told(itree.simplify(rings))
        for clip in [], [[]], [[], [(1, 1)], []]:
            self.assertEqual(told(itree.overlay(rings, clip, threads=2)), wanted)
            with without_numpy():
                self.assertEqual(told(itree.overlay(rings, clip, threads=2)), wanted)
        self.assertEqual(told(itree.overlay([[]], rings, "intersection", threads=2)), [])

    def test_one_large_ring(self):
        teeth = [point for x in range(0, 600000, 200) for point in ((x, x % 7), (x + 100, 2000 + x % 5))]
        ring = [*teeth, (600000, -5000), (0, -5000)]
        for clip in [], [[(10, 500), (500000, 500), (500000, 700), (10, 700)]]:
            parts = itree.overlay([ring], clip, "xor", threads=2)
            whole = itree.overlay([ring], clip, "xor")
            self.assertEqual(parts, itree.overlay([ring], clip, "xor", threads=3))
            self.assertLess(abs(area_of(parts) - area_of(whole)), 1e-3 * area_of(whole))

    def test_few_windows(self):
        made = []
        with mock.patch.object(_threads, "joined", side_effect=lambda *words: made.append(words)):
            self.assertEqual(told(itree.overlay([BIG], [SMALL], threads=4)), told(itree.overlay([BIG], [SMALL])))
            far = [[(LEAST, LEAST), (MOST, LEAST), (MOST, MOST), (LEAST, MOST)], *squares(1000, 5000)]
            self.assertEqual(told(itree.simplify(far, threads=4)), [[far[0]]])
            self.assertEqual(told(itree.overlay([], [], threads=4)), [])
        self.assertEqual(made, [])

    def test_floats(self):
        grid = itree.Grid(unit=0.25)
        floats = [[(x / 4, y / 4) for x, y in ring] for ring in squares(1000, 9000)]
        by_threads = itree.simplify(floats, grid=grid, threads=2)
        self.assertEqual((told(by_threads), by_threads.grid), (told(itree.simplify(floats, grid=grid)), grid))

    def test_faults(self):
        for count, error in ((0, ValueError), (-1, ValueError), (1.5, TypeError), ("2", TypeError)):
            with self.assertRaisesRegex(error, "^threads: "):
                itree.overlay([BIG], [SMALL], threads=count)
        rings = rings_of(squares(2000, 20000))
        with self.assertRaisesRegex(MemoryError, "memory_limit"):
            itree.simplify(rings, threads=2, memory_limit=1000)
        self.assertEqual(itree.simplify(rings, threads=2, memory_limit=10**9), itree.simplify(rings, threads=2))
        with mock.patch.object(_threads, "joined", return_value=(11, None)):
            with self.assertRaisesRegex(SystemError, "^itree's tiles don't fit, which is a fault of its own"):
                itree.simplify(rings, threads=2)

    def test_is_stopped(self):
        numbers = random.Random(8)
        rings = [[(numbers.randrange(10**6), numbers.randrange(10**6)) for _ in range(400)] for _ in range(60)]
        before = signal.signal(signal.SIGINT, signal.default_int_handler)
        timer = threading.Timer(0.5, lambda: os.kill(os.getpid(), signal.SIGINT))
        timer.start()
        start = time.monotonic()
        try:
            with self.assertRaises(KeyboardInterrupt):
                itree.simplify(rings, threads=2)
            self.assertLess(time.monotonic() - start, 3)
        finally:
            timer.cancel()
            signal.signal(signal.SIGINT, before)


def area_of(polygons):
    return sum(windings.double_area(ring) for outer, holes in polygons for ring in (outer, *holes)) / 2


class Windows(unittest.TestCase):
    def assert_parts(self, windows, bounds):
        """The windows lie side by side, and are the bounds together."""
        self.assertEqual(
            sum((it[2] - it[0]) * (it[3] - it[1]) for it in windows), (bounds[2] - bounds[0]) * (bounds[3] - bounds[1])
        )
        self.assertEqual(
            [*map(min, zip(*(it[:2] for it in windows))), *map(max, zip(*(it[2:] for it in windows)))], list(bounds)
        )
        for place, one in enumerate(windows):
            for other in windows[:place]:
                self.assertFalse(one[0] < other[2] and other[0] < one[2] and one[1] < other[3] and other[1] < one[3])

    def test_hold_as_many_points(self):
        numbers = random.Random(3)
        points = [(int(numbers.gauss(0, 10**6)), int(numbers.gauss(0, 10**6))) for _ in range(6000)]
        for count in 1, 2, 3, 5, 16, 64:
            windows = itree.windows(points, count)
            self.assertEqual(len(windows), count)
            self.assert_parts(windows, (*map(min, zip(*points)), *map(max, zip(*points))))
            held = [sum(it[0] <= x < it[2] and it[1] <= y < it[3] for x, y in points) for it in windows]
            self.assertLess(max(held), 6000 / count * 1.3 + 20)
            self.assertGreater(min(held), 6000 / count * 0.7 - 20)

    def test_points_alike(self):
        self.assertEqual(itree.windows([(3, 3)] * 50, 4), [(3, 3, 4, 4)])
        self.assertEqual(itree.windows([(3, y) for y in range(8)], 4), [(3, y, 4, min(y + 2, 7)) for y in (0, 2, 4, 6)])
        self.assertEqual(itree.windows([], 4), [])
        self.assert_parts(itree.windows([(0, 0)] * 90 + [(x, x) for x in range(10)], 9), (0, 0, 9, 9))

    def test_what_is_taken(self):
        polygons = itree.simplify([BIG, [(8, 8), (9, 8), (9, 9)]])
        points = [*BIG, (8, 8), (9, 8), (9, 9)]
        wanted = itree.windows(points, 2)
        self.assertEqual(itree.windows(polygons, 2), wanted)
        self.assertEqual(itree.windows([BIG, points[4:]], 2), wanted)
        self.assertEqual(itree.windows(rings_of([BIG, points[4:]]), 2), wanted)
        if numpy:
            self.assertEqual(itree.windows(numpy.asarray(points), 2), wanted)
        with without_numpy():
            self.assertEqual(itree.windows([BIG, points[4:]], 2), wanted)

    def test_floats(self):
        grid = itree.Grid(unit=0.25)
        points = [(x / 4, -x / 2) for x in range(9)]
        wanted = [(0.0, -4.0, 1.0, -0.5), (0.0, -0.5, 1.0, 0.0), (1.0, -4.0, 2.0, -3.0), (1.0, -3.0, 2.0, 0.0)]
        self.assertEqual(itree.windows(points, 4, grid=grid), wanted)

    def test_faults(self):
        for count, error in ((0, ValueError), (1.5, TypeError)):
            with self.assertRaisesRegex(error, "^count: "):
                itree.windows(BIG, count)


def load_tests(_loader, tests, _pattern):
    for module in _tiles, _windows:
        tests.addTests(doctest.DocTestSuite(module))
    return tests


if __name__ == "__main__":
    unittest.main(argv=[it for it in sys.argv if not it.startswith(("--many", "--seed="))])
