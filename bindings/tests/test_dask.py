"""itree.dask over processes of dask's own: tiles and what joins them beside one call, whatever the number of workers and of
tiles; workers that are killed; parts that can't be read; and parts that are more than the workers' memory.

bindings/test runs it with the library that ITREE_LIBRARY names. It is skipped where dask, distributed or numpy aren't there.
"""

import contextlib
import functools
import itertools
import logging
import os
import pathlib
import random
import shutil
import signal
import subprocess
import sys
import tempfile
import time
import unittest
import warnings
from unittest import mock

import itree
import itree.dask

try:
    import dask
    import dask.bag
    import distributed
    import numpy
except ImportError:
    numpy = None
try:
    import shapely.geometry
except ImportError:
    shapely = None

MB = 2**20
EXAMPLES = pathlib.Path(__file__).resolve().parent.parent.parent / "examples" / "python"
LAND = pathlib.Path("/usr/share/gmt-gshhg/binned_GSHHS_c.nc")


def some_squares(seed, count, side):
    """Rings along the axes, which overlap: none is moved by any overlay of theirs."""
    numbers = numpy.random.default_rng(seed)
    least = numbers.integers(0, side, (count, 2))
    most = least + numbers.integers(1, side // 60, (count, 2))
    columns = least[:, 0], least[:, 1], most[:, 0], least[:, 1], most[:, 0], most[:, 1], least[:, 0], most[:, 1]
    points = numpy.stack(columns, axis=1).reshape(-1, 2).astype("int32")
    return itree.Rings(points, numpy.arange(count + 1) * 4)


def some_stars(seed, count, side):
    """Rings with slanted edges."""
    numbers = numpy.random.default_rng(seed)
    angles = (numpy.arange(9) + numbers.random((count, 9))) * 2 * numpy.pi / 9
    reach = numbers.uniform(0.2, 1, (count, 9)) * side / 60
    middles = numbers.uniform(0, side, (count, 1, 2))
    points = middles + numpy.stack([numpy.cos(angles) * reach, numpy.sin(angles) * reach], axis=2)
    return itree.Rings(points.reshape(-1, 2).round().astype("int32"), numpy.arange(count + 1) * 9)


def length_at_sides(stars, windows):
    """The length of all edges of such rings that come to the line of a side of a window."""
    whole = 0
    for rings in stars:
        begin = numpy.asarray(rings.points).reshape(-1, 9, 2)
        ends = numpy.stack([begin, numpy.roll(begin, -1, axis=1)]).astype(float)
        low, high = ends.min(axis=0), ends.max(axis=0)
        comes = numpy.zeros(low.shape[:2], bool)
        for axis in 0, 1:
            for line in {side for window in windows for side in window[axis::2]}:
                comes |= (low[..., axis] <= line) & (line <= high[..., axis])
        whole += numpy.hypot(*numpy.moveaxis(ends[1] - ends[0], -1, 0))[comes].sum()
    return whole


def slowly(seconds, call):
    """What a call gives, a while later."""
    time.sleep(seconds)
    return call()


def faulty(path):
    raise FileNotFoundError(f"there is no {path}")


# Of a long part: a square with many points on its sides.
SIDE = [(x, 0) for x in range(0, 900, 36)]
LONG = [*SIDE, *((900, x) for x, _ in SIDE), *((900 - x, 900) for x, _ in SIDE), *((0, 900 - x) for x, _ in SIDE)]


def long_part(place, points, folder):
    """A part of so many points in squares all over the plane, 50 of which lie near the origin: as from a large file.

    That it is read is told by a file in a folder.
    """
    numbers = numpy.random.default_rng(place)
    near = numbers.integers(0, 10**5, (50, 1, 2), dtype="int32")
    far = numbers.integers(10**8, 2 * 10**9, (points // len(LONG) - 50, 1, 2), dtype="int32")
    pathlib.Path(folder, f"{place}-{os.getpid()}-{time.monotonic_ns()}").write_bytes(b"")
    rings = (numpy.concatenate([near, far]) + numpy.asarray(LONG, dtype="int32")).reshape(-1, 2)
    return itree.Rings(rings, numpy.arange(0, len(rings) + 1, len(LONG)))


def together(parts):
    """All rings of parts, as one call takes them."""
    points = numpy.concatenate([numpy.asarray(it.points) for it in parts])
    counts = numpy.concatenate([numpy.diff(numpy.asarray(it.ring_offsets)) for it in parts])
    return itree.Rings(points, numpy.concatenate([[0], numpy.cumsum(counts)]))


def told(polygons):
    """The polygons in order, each ring from its least point on."""
    return sorted([turned(outer), *sorted(map(turned, holes))] for outer, holes in polygons)


def turned(ring):
    start = ring.index(min(ring))
    return ring[start:] + ring[:start]


def area_of(polygons):
    points = numpy.asarray(polygons.points).astype("float64")
    if not len(points):
        return 0.0
    behind = numpy.arange(1, len(points) + 1)
    behind[numpy.asarray(polygons.ring_offsets)[1:] - 1] = numpy.asarray(polygons.ring_offsets)[:-1]
    (x, y), (x1, y1) = points.T, points[behind].T
    return float((x * y1 - x1 * y).sum()) / 2


@contextlib.contextmanager
def workers(count, memory_limit="1GB"):
    """A client of so many worker processes, which ends with them."""
    with contextlib.ExitStack() as stack:
        stack.enter_context(warnings.catch_warnings())
        warnings.simplefilter("ignore")
        words = {"n_workers": count, "threads_per_worker": 1, "dashboard_address": None, "memory_limit": memory_limit}
        folder = stack.enter_context(tempfile.TemporaryDirectory())
        cluster = stack.enter_context(distributed.LocalCluster(**words, silence_logs=logging.CRITICAL, local_directory=folder))
        yield stack.enter_context(distributed.Client(cluster))


class WithoutDask(unittest.TestCase):
    def test_says_so(self):
        with mock.patch.dict(sys.modules, {"dask": None}):
            for call in (
                lambda: itree.dask.windows([], 1),
                lambda: itree.dask.overlay([], [], "union", [(0, 0, 1, 1)]),
                lambda: itree.dask.join([], []),
            ):
                with self.assertRaises(ImportError):
                    call()


@unittest.skipUnless(numpy, "dask, distributed or numpy isn't there")
class Threads(unittest.TestCase):
    """By dask's scheduler in this process."""

    def setUp(self):
        settings = dask.config.set(scheduler="threads", num_workers=2)
        settings.__enter__()
        self.addCleanup(settings.__exit__, None, None, None)

    def overlaid(self, subject, clip, operation="union", count=6, **words):
        windows = itree.dask.windows([*(subject or ()), *(clip or ())], count, grid=words.get("grid"))
        tiles = itree.dask.overlay(subject, clip, operation, windows, **words)
        return itree.dask.join(tiles, windows).compute()

    def test_operations_and_rules(self):
        subject, clip = ([some_squares(seed, 60, 6000) for seed in seeds] for seeds in (range(3), range(3, 5)))
        whole = together(subject), together(clip)
        for operation, rule in itertools.product(("union", "intersection", "difference", "xor"), ("nonzero", "evenodd")):
            wanted = told(itree.overlay(*whole, operation, rule))
            self.assertEqual(told(self.overlaid(subject, clip, operation, rule=rule)), wanted)

    def test_what_a_part_may_be(self):
        rings = some_squares(1, 40, 3000)
        wanted = told(itree.simplify(rings))
        polygons = itree.simplify(rings)
        listed = [[[*map(tuple, ring.tolist())] for ring in rings]]
        for parts in (
            [rings],
            [dask.delayed(some_squares)(1, 40, 3000)],
            [functools.partial(some_squares, 1, 40, 3000)],
            {"some": rings, "none": []},
            [polygons.to_wkb()],
            [polygons.to_wkb(each=True)],
            listed,
            [polygons, []],
            [[numpy.asarray(ring) for ring in rings]],
        ):
            windows = itree.dask.windows(parts, 5)
            tiles = itree.dask.overlay(parts, (), "union", windows)
            self.assertEqual(told(itree.dask.join(tiles, windows).compute()), wanted)
        bag = dask.bag.from_sequence(polygons.to_wkb(each=True), npartitions=3)
        windows = itree.dask.windows(bag, 5)
        tiles = itree.dask.overlay(bag, None, "union", windows)
        self.assertEqual(told(itree.dask.join(tiles, windows).compute()), wanted)

    @unittest.skipUnless(shapely, "shapely isn't there")
    def test_shapely(self):
        boxes = [shapely.geometry.box(x, x % 7, x + 3, x % 7 + 2) for x in range(30)]
        whole = itree.unary_union(boxes)
        got = self.overlaid([boxes[:10], boxes[10:25], boxes[25]], [boxes[26:]])
        self.assertTrue(got.to_shapely().equals(whole.to_shapely()))

    def test_floats_take_a_grid(self):
        grid = itree.Grid(unit=2.0**-10)
        floats = [[numpy.asarray(ring) / 16 for ring in some_squares(seed, 40, 3000)] for seed in (1, 2)]
        got = self.overlaid(floats[:1], floats[1:], "xor", grid=grid)
        self.assertEqual((told(got), got.grid), (told(itree.overlay(*floats, "xor", grid=grid)), grid))
        square = {"type": "Polygon", "coordinates": [[(0, 0), (0.5, 0), (0.5, 0.5), (0, 0)]]}
        with self.assertRaisesRegex(
            ValueError, "^parts, part 0: not all of its coordinates are whole .*; give all calls one grid=$"
        ):
            itree.dask.windows([square], 2)

    def test_srid(self):
        wkb = [itree.simplify([[(x, 0), (x + 5, 0), (x + 5, 5)]]).to_wkb(srid=4326) for x in (0, 9)]
        got = self.overlaid(wkb, None, count=2)
        self.assertEqual((got.srid, len(got)), (4326, 2))
        with self.assertRaisesRegex(ValueError, "two SRID that differ"):
            self.overlaid(wkb, [itree.simplify([[(0, 0), (20, 0), (20, 5)]]).to_wkb(srid=3857)], count=1)

    def test_boxes(self):
        side, parts = 1000, []
        for x, y in itertools.product(range(4), repeat=2):
            points = numpy.asarray(some_squares(4 * x + y, 30, 900).points) + numpy.asarray([x * side, y * side])
            parts.append(itree.Rings(points.astype("int32"), numpy.arange(31) * 4))
        boxes = [(x * side, y * side, (x + 1) * side, (y + 1) * side) for x, y in itertools.product(range(4), repeat=2)]
        windows = itree.dask.windows(parts, 16)
        wanted = told(itree.simplify(together(parts)))
        sizes = []
        for told_boxes in (None, boxes, [None, *boxes[1:]]):
            tiles = itree.dask.overlay(parts, None, "union", windows, boxes=(told_boxes, None))
            self.assertEqual(told(itree.dask.join(tiles, windows).compute()), wanted)
            sizes.append(sum(len(it.__dask_graph__()) for it in tiles))
        self.assertLess(2 * sizes[1], sizes[0])
        with self.assertRaisesRegex(ValueError, "^clip, part 3 leaves the box that was told of it$"):
            dask.compute(itree.dask.overlay(None, parts, "union", windows, boxes=(None, [*boxes[:3], boxes[0], *boxes[4:]])))
        with self.assertRaisesRegex(ValueError, "^1 boxes of 16 parts: as many of both are wanted$"):
            itree.dask.overlay(parts, None, "union", windows, boxes=([boxes[0]], None))

    def test_joins_by_steps(self):
        parts = [some_squares(1, 400, 6000)]
        wanted = told(itree.simplify(parts[0]))
        for count in 1, 2, 7, 64, 100:
            windows = itree.dask.windows(parts, count)
            tiles = dask.compute(*itree.dask.overlay(parts, (), "union", windows))
            whole = itree.dask.join(tiles, windows)
            self.assertEqual(told(dask.compute(whole)[0]), wanted)
            order = random.Random(1).sample(range(len(windows)), len(windows))
            whole = itree.dask.join([tiles[it] for it in order], [windows[it] for it in order])
            self.assertEqual(told(dask.compute(whole)[0]), wanted)
        apart = [(0, 0, 100, 100), (200, 50, 300, 150), (100, 100, 200, 300)]
        tiles = itree.dask.overlay(parts, (), "union", apart)
        joined = itree.dask.join(tiles, apart).compute()
        self.assertEqual(told(joined), told(itree.join(dask.compute(*tiles), apart)))
        self.assertEqual(len(itree.dask.join([], []).compute()), 0)

    def test_long_rings(self):
        """Of which each window gets that part alone which counts."""
        numbers = numpy.random.default_rng(5)
        angles = (numpy.arange(4000) + numbers.random(4000)) * 2 * numpy.pi / 4000
        reach = numbers.uniform(0.9, 1, 4000) * 10**6
        star = numpy.stack([numpy.cos(angles) * reach, numpy.sin(angles) * reach], axis=1).round().astype("int32")
        parts, clip = [[star, star[::-1] // 2], some_squares(1, 40, 10**6)], [[star[::2] // 3]]
        windows = itree.dask.windows([*parts, *clip], 16)
        tiles = dask.compute(*itree.dask.overlay(parts, clip, "xor", windows))
        whole = [*parts[0], *parts[1]], clip[0]
        for window, tile in zip(windows, tiles):
            self.assertEqual(told(tile), told(itree.overlay_in(window, *whole, "xor")))
        self.assertLess(sum(len(itree.crop(it, [star]).points) for it in windows), 2 * 4000)

    def test_of_a_long_ring_nothing_counts(self):
        """Though its box goes round a window."""
        ring = [*((x, 0) for x in range(300)), *((300, x) for x in range(300)), *((x, x) for x in range(300, 0, -1))]
        windows = [(0, 280, 10, 300), (0, 0, 300, 280), (10, 280, 300, 300)]
        tiles = dask.compute(*itree.dask.overlay([[ring]], None, "union", windows))
        self.assertEqual([len(it) for it in tiles], [0, 1, 1])
        self.assertEqual(told(itree.join(tiles, windows)), [[[(0, 0), (300, 0), (300, 300)]]])

    def test_faults(self):
        rings = some_squares(1, 40, 3000)
        windows = itree.dask.windows([rings], 2)
        for parts, said in (
            (
                {"land": rings, "sea.wkb": functools.partial(faulty, "sea.wkb")},
                "subject sea.wkb can't be read: there is no sea.wkb",
            ),
            ([rings, b"\x01\x03"], "subject, part 1, byte 1: the well-known binary stops before it is whole"),
            ([rings, 7], "subject, part 1.*int"),
            ([rings, [[(0, 0, 1)]]], "subject, part 1, ring 0, row 0: 3 numbers, 2 are wanted"),
        ):
            with self.subTest(said=said), self.assertRaisesRegex(ValueError, f"^{said}"):
                dask.compute(itree.dask.overlay(parts, None, "union", windows))
        with self.assertRaisesRegex(FileNotFoundError, "^there is no a file$"):
            dask.compute(itree.dask.overlay([dask.delayed(faulty)("a file")], None, "union", windows))
        for call, error, said in (
            (lambda: itree.dask.overlay(rings, None, "union", windows), TypeError, "subject: Rings alone; a sequence of parts"),
            (lambda: itree.dask.windows([rings], 0), ValueError, "count: 0; a number from 1 on is wanted"),
            (lambda: itree.dask.overlay([], [], "cut", windows), ValueError, "the operation 'cut'"),
            (lambda: itree.dask.overlay([], [], "union", [(0, 0, 0, 1)]), ValueError, "windows, place 0: .* has no points"),
            (lambda: itree.dask.join([], windows), ValueError, "0 tiles and 2 windows: as many of both are wanted"),
        ):
            with self.subTest(said=said), self.assertRaisesRegex(error, f"^{said}"):
                call()
        with self.assertRaisesRegex(MemoryError, "memory_limit"):
            dask.compute(itree.dask.overlay([rings], None, "union", windows, memory_limit=10))


@unittest.skipUnless(numpy, "dask, distributed or numpy isn't there")
class Workers(unittest.TestCase):
    """By processes."""

    def test_are_one_answer(self):
        """With 1, 2 and 4 workers, and 1 to 64 tiles."""
        side = 20000
        squares = [[functools.partial(some_squares, seed, 700, side) for seed in seeds] for seeds in ((1, 2, 3), (4, 5))]
        stars = [[functools.partial(some_stars, seed, 300, side) for seed in seeds] for seeds in ((1, 2, 3), (4, 5))]
        wholes = [[together([it() for it in parts]) for parts in sides] for sides in (squares, stars)]
        exact, near = (itree.overlay(*sides, "xor") for sides in wholes)
        answers = {}
        for count in 1, 2, 4:
            with workers(count):
                for tiles in {1: (1, 16), 2: (2, 7, 64), 4: (16, 64)}[count]:
                    self.assertEqual(told(self.overlaid(squares, tiles)), told(exact))
                    got = self.overlaid(stars, tiles)
                    # Where one answer has a point for a border, the other one's edge lies within half a unit of it.
                    most = length_at_sides(wholes[1], self.windows(stars, tiles)) / 2
                    self.assertLessEqual(area_of(itree.overlay(got, near, "xor")), most)
                    self.assertEqual(got, answers.setdefault(tiles, got))

    def windows(self, sides, count):
        windows = itree.dask.windows([*sides[0], *sides[1]], count)
        self.assertEqual(len(windows), count)
        return windows

    def overlaid(self, sides, count):
        windows = self.windows(sides, count)
        return itree.dask.join(itree.dask.overlay(*sides, "xor", windows), windows).compute()

    def test_a_worker_is_killed(self):
        """By its process's number, in the middle of the work; dask makes again what it took with it."""
        parts = [functools.partial(slowly, 0.3, functools.partial(some_squares, seed, 400, 20000)) for seed in range(12)]
        wanted = told(itree.simplify(together([some_squares(seed, 400, 20000) for seed in range(12)])))
        with workers(2) as client:
            windows = itree.dask.windows(parts, 16)
            future = client.compute(itree.dask.join(itree.dask.overlay(parts, None, "union", windows), windows))
            time.sleep(0.4)
            before = client.run(os.getpid)
            self.assertFalse(future.done())
            os.kill(min(before.values()), signal.SIGKILL)
            self.assertEqual(told(future.result(timeout=300)), wanted)

    def test_a_part_that_cannot_be_read(self):
        windows = [(0, 0, 100, 100), (100, 0, 200, 100)]
        parts = {"a.wkb": functools.partial(faulty, "a.wkb"), "b.wkb": functools.partial(some_squares, 1, 40, 3000)}
        with workers(1) as client:
            with self.assertRaisesRegex(ValueError, "^clip a.wkb can't be read: there is no a.wkb$"):
                client.gather(client.compute(itree.dask.overlay(None, parts, "union", windows)))

    @unittest.skipUnless(LAND.exists() and shutil.which("ncdump"), "gmt-gshhg-low or netcdf-bin isn't there")
    def test_example(self):
        with tempfile.TemporaryDirectory() as folder:
            words = [sys.executable, "scaled.py", "--resolution", "c", "--workers", "2", "--windows", "8", f"{folder}/land.svg"]
            ran = subprocess.run(words, cwd=EXAMPLES, stdout=subprocess.PIPE, stderr=subprocess.PIPE, text=True)
            self.assertRegex(ran.stdout, r"(?m)^1 parts, 8 tiles, \d{3,} polygons of \d{4,} points, \d+\.\d s$", ran.stderr)
            drawn = pathlib.Path(folder, "land.svg").read_text()
        self.assertEqual((drawn.count("<path"), drawn.count("<rect")), (8, 9))

    def test_parts_are_more_than_the_workers_memory(self):
        """Two workers may have 256 MB each; the parts are four times that together, and few of them come near the windows."""
        count, points = 128, 16 * MB // 8
        self.assertGreaterEqual(count * points * 8, 4 * 2 * 256 * MB)
        windows = [(0, 0, 50000, 101000), (50000, 0, 101000, 101000)]
        with tempfile.TemporaryDirectory() as folder, workers(2, 256 * MB) as client:
            parts = [functools.partial(long_part, place, points, folder) for place in range(count)]
            tiles = itree.dask.overlay(parts, None, "union", windows)
            got = client.gather(client.compute(itree.dask.join(tiles, windows)))
            names = os.listdir(folder)
            some = [numpy.asarray(long_part(place, 50 * len(LONG), folder).points) for place in range(count)]
        # None was read again, as one is where a worker was ended for its memory.
        self.assertEqual(len(names), count)
        near = itree.Rings(numpy.concatenate(some), numpy.arange(0, 50 * count * len(LONG) + 1, len(LONG)))
        self.assertTrue(told(got) == told(itree.simplify(near)))


if __name__ == "__main__":
    unittest.main()
