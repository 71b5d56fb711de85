#!/usr/bin/env python3
"""usage: bench/tiles.py [--quick] [--resolution LETTER]    times overlays by windows, by threads and by Dask beside one call

Two inputs, intersected: stars, 1,000,000 edges of both sides together, and the world's land (GSHHG, resolution i or another
one) with cells of 10 degrees. Of each are told, in a process of its own each: one call; the tiles of 16 windows, one after the
other; how long it takes to read the rings from well-known binary, and to crop them to each window; the join; threads;
Dask's workers, which read parts from files; and shapely by the same windows under the same Dask, where both sides are
united before. Seconds are by the clock, and those of the processor stand beside them; MB is the most memory that the process
took more than before. `off` is how far the area differs from that of one call, of it. --quick has a tenth of the stars and
the land in low resolution. It takes numpy, shapely, dask and distributed, as /usr/bin/python3 has them by bindings/install;
ITREE_LIBRARY may name the library. Where the machine does something else meanwhile, times shift.
"""

import argparse
import functools
import importlib
import itertools
import logging
import math
import os
import pathlib
import pickle
import resource
import sys
import tempfile
import time

TOP = pathlib.Path(__file__).resolve().parent.parent
sys.path[:0] = [str(TOP / "bindings" / "python"), str(TOP / "examples" / "python")]

import dask
import distributed
import gshhg
import numpy
import shapely.geometry
import shapely.ops

import itree
import itree.dask
from itree import _shapes, _windows

WINDOWS = 16
OPERATION = "intersection"
COUNTS = 1, 2, 4
# Edges of a star, and how many parts each side comes in for Dask.
CORNERS, PARTS = 10, 8


def stars(count, seed):
    """So many star-shaped rings in a square in which each point lies in about one of them."""
    numbers = numpy.random.default_rng(seed)
    angles = (numpy.arange(CORNERS) + numbers.random((count, CORNERS))) * 2 * math.pi / CORNERS
    reach = numbers.uniform(300, 1000, (count, CORNERS))
    middles = numbers.uniform(0, 1000 * math.sqrt(count), (count, 1, 2))
    points = middles + numpy.stack([numpy.cos(angles) * reach, numpy.sin(angles) * reach], axis=2)
    return itree.Rings(points.reshape(-1, 2).round().astype("int32"), numpy.arange(count + 1) * CORNERS)


def rings_of(rings):
    points = numpy.fromiter(itertools.chain.from_iterable(itertools.chain.from_iterable(rings)), "int32")
    return itree.Rings(points.reshape(-1, 2), numpy.cumsum([0, *map(len, rings)]))


def land_and_cells(resolution):
    """The world's land, and every second cell of 10 degrees."""
    found, width = gshhg.land(resolution)
    side, rings = width // 36, [ring for polygon in found for ring in polygon]
    east = max(x for ring in rings for x, _ in ring) // side + 1
    places = [(x * side, y * side) for x in range(-2, east) for y in range(18) if (x + y) % 2]
    cells = [[(x, y), (x + side, y), (x + side, y + side), (x, y + side)] for x, y in places]
    return rings_of(rings), rings_of(cells)


def area_of(polygons):
    """The area of an answer, or of rings."""
    points = numpy.asarray(polygons.points).astype("float64")
    if not len(points):
        return 0.0
    offsets = numpy.asarray(polygons.ring_offsets)
    behind = numpy.arange(1, len(points) + 1)
    behind[offsets[1:] - 1] = offsets[:-1]
    (x, y), (x1, y1) = points.T, points[behind].T
    return float((x * y1 - x1 * y).sum()) / 2


def apart(call):
    """What a call gives in a process of its own, its seconds, those of the processor, and the memory in MB that it took."""
    reading, writing = os.pipe()
    child = os.fork()
    if child == 0:
        before, start, processor = peak(), time.perf_counter(), time.process_time()
        found = call()
        told = found, time.perf_counter() - start, time.process_time() - processor, (peak() - before) / 1024
        with os.fdopen(writing, "wb") as pipe:
            pickle.dump(told, pipe)
        os._exit(0)
    os.close(writing)
    with os.fdopen(reading, "rb") as pipe:
        told = pickle.load(pipe)
    os.waitpid(child, 0)
    return told


def peak():
    return resource.getrusage(resource.RUSAGE_SELF).ru_maxrss


class Table:
    """The rows of an input. The first one has the area that the others are compared with."""

    def __init__(self, name):
        self.name, self.area = name, None
        print(f"\n| {name} | seconds | processor | MB | off |\n| --- | --- | --- | --- | --- |")

    def add(self, what, seconds, processor=None, memory=None, area=None):
        self.area = area if self.area is None else self.area
        off = f"{abs(area - self.area) / self.area:.1e}" if area is not None else ""
        cells = [f"{seconds:.3f}", "" if processor is None else f"{processor:.3f}", "" if memory is None else f"{memory:.0f}"]
        print(f"| {what} | {' | '.join(cells)} | {off} |", flush=True)

    def measure(self, what, call):
        """A call that gives an answer, or its area, or None."""
        found, *numbers = apart(call)
        self.add(what, *numbers, found)


def by_one_call(sides, threads=None):
    return area_of(itree.overlay(*sides, OPERATION, threads=threads))


def cropped(sides, windows):
    """For each window what the rings of both sides become."""
    return [[itree.crop(window, it) for it in sides] for window in windows]


def tiles_of(sides, windows):
    return [itree.overlay_in(window, *sides, OPERATION) for window in windows]


def read(path):
    return pickle.loads(path.read_bytes())


def written(rings, folder, name):
    """The files of a side's parts."""
    points, offsets = numpy.asarray(rings.points), numpy.asarray(rings.ring_offsets)
    ends = numpy.searchsorted(offsets, numpy.linspace(0, len(points), PARTS + 1))
    for place, (start, stop) in enumerate(zip(ends, ends[1:])):
        some = itree.Rings(points[offsets[start] : offsets[stop]], offsets[start : stop + 1] - offsets[start])
        path = pathlib.Path(folder, f"{name}-{place}")
        path.write_bytes(pickle.dumps(some))
        yield functools.partial(read, path)


def by_shapely(window, pieces, _choice, _grid):
    """The area of a tile as shapely makes it: both sides united, their intersection, and that with the window."""
    sides = [[], []]
    for side, piece in pieces:
        if piece is not None:
            sides[side] += [shapely.geometry.Polygon(ring) for ring in map(numpy.asarray, piece.rings) if len(ring) > 2]
    one, other = (shapely.ops.unary_union([it if it.is_valid else it.buffer(0) for it in some]) for some in sides)
    return one.intersection(other).intersection(shapely.geometry.box(*window)).area


def shapely_tiles(sides, windows):
    """`itree.dask.overlay` with shapely's tiles in place of itree's."""
    made = itree.dask._tile
    itree.dask._tile = by_shapely
    try:
        return itree.dask.overlay(*sides, OPERATION, windows)
    finally:
        itree.dask._tile = made


def by_dask(table, sides, windows, holes):
    """Seconds of Dask's workers, from the files to the joined answer, and to the tiles of shapely."""
    words = {"threads_per_worker": 1, "dashboard_address": None, "silence_logs": logging.CRITICAL}
    for count in COUNTS:
        with distributed.LocalCluster(n_workers=count, **words) as cluster, distributed.Client(cluster) as client:
            client.run(importlib.import_module, "itree.dask")
            start = time.perf_counter()
            whole = itree.dask.join(itree.dask.overlay(*sides, OPERATION, windows), windows).compute()
            table.add(f"Dask, {count} workers: tiles and join", time.perf_counter() - start, area=area_of(whole))
            start = time.perf_counter()
            dask.compute(itree.dask.overlay(*sides, OPERATION, windows))
            table.add(f"Dask, {count} workers: tiles", time.perf_counter() - start)
            if count == max(COUNTS) and not holes:
                start = time.perf_counter()
                area = sum(dask.compute(*shapely_tiles(sides, windows)))
                table.add(f"Dask, {count} workers: shapely's tiles", time.perf_counter() - start, area=area)


def measured(name, sides, holes):
    """All rows of an input. holes: whether rings are holes, which shapely would fill."""
    edges = sum(len(it.points) for it in sides)
    table = Table(f"{name}, {edges:,} edges")
    windows = _windows.cut([_windows.sampled(_shapes.HeldRings(it.given(), it)) for it in sides], WINDOWS)
    table.measure("one call", lambda: by_one_call(sides))
    table.measure("16 tiles, one after the other", lambda: sum(map(area_of, tiles_of(sides, windows))))
    binary = [itree.simplify(it).to_wkb() for it in sides]
    table.measure("reading both sides, united, from well-known binary", lambda: itree.windows(binary, 1) and None)
    table.measure("cropping the rings to each window", lambda: cropped(sides, windows) and None)
    tiles = tiles_of(sides, windows)
    table.measure("joining the tiles", lambda: area_of(itree.join(tiles, windows)))
    for count in COUNTS:
        table.measure(f"{count} threads", lambda: by_one_call(sides, count))
    with tempfile.TemporaryDirectory() as folder:
        parts = [list(written(it, folder, side)) for it, side in zip(sides, ("subject", "clip"))]
        by_dask(table, parts, windows, holes)


def main():
    words = argparse.ArgumentParser(usage=__doc__.partition("usage: bench/")[2].partition("    ")[0])
    words.add_argument("--quick", action="store_true")
    words.add_argument("--resolution")
    given = words.parse_args()
    count = 5_000 if given.quick else 50_000
    measured("stars", (stars(count, 1), stars(count, 2)), False)
    resolution = given.resolution or ("l" if given.quick else "i")
    if gshhg.file_of(resolution).exists():
        measured(f"land ({resolution}) with cells", land_and_cells(resolution), True)
    else:
        print(f"LEFT OUT the world's land: {gshhg.file_of(resolution)} isn't there")


if __name__ == "__main__":
    main()
