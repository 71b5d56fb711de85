#!/usr/bin/env python3
"""usage: bench/layers.py [--quick]    times calls over many shapes, whole way: ours, and shapely's and geopandas' own

Both are made in one process, in turns; the time is the processor's, of all threads, and the least of several runs. `ratio`
is ours / theirs, and `most` is what it may be. The rows are counted, and the sizes of all shapes added up, areas or lengths:
`off` is how far ours differ, of theirs. --quick has a tenth as many shapes. It takes shapely, geopandas and rtree, as
/usr/bin/python3 has them by bindings/install; ITREE_LIBRARY may name the library. The world's land is GSHHG's in low
resolution (gmt-gshhg-low, netcdf-bin), and left out where it isn't there. It ends with 1 where rows differ, or sizes by more
than a hundred-thousandth, or a ratio is more than it may be. Where the machine does something else meanwhile, times shift.
"""

import itertools
import math
import pathlib
import random
import shutil
import sys
import time
import warnings

TOP = pathlib.Path(__file__).resolve().parent.parent
sys.path[:0] = [str(TOP / "bindings" / "python"), str(TOP / "examples" / "python")]

import geopandas
import gshhg
import numpy
import shapely
import shapely.affinity
import shapely.geometry
import shapely.wkb

import itree
import itree.geopandas

warnings.simplefilter("ignore")
PART = 10 if "--quick" in sys.argv else 1
HOWS = "intersection", "union", "identity", "symmetric_difference", "difference"
# Of areas: what is less is a sliver.
LEAST = 1e-9
numbers = random.Random(1)
faults = []


def star(x, y, corners, reach=(0.4, 1.2)):
    """A star-shaped polygon around a point."""
    angles = [(place + numbers.random()) * 2 * math.pi / corners for place in range(corners)]
    reaches = [numbers.uniform(*reach) for _ in angles]
    return shapely.geometry.Polygon([(x + r * math.cos(at), y + r * math.sin(at)) for r, at in zip(reaches, angles)])


def some_stars(count, side, corners=11):
    """Valid ones, somewhere in a square."""
    made = (star(numbers.uniform(0, side), numbers.uniform(0, side), corners) for _ in itertools.count())
    return list(itertools.islice((it for it in made if it.is_valid), count))


def parcels(rows, columns):
    """Quadrilaterals that share their borders, each with the block of ten by ten that it lies in."""
    corner = {
        (x, y): (x + numbers.uniform(-0.3, 0.3), y + numbers.uniform(-0.3, 0.3))
        for x in range(columns + 1)
        for y in range(rows + 1)
    }
    places = list(itertools.product(range(columns), range(rows)))
    shapes = [shapely.geometry.Polygon([corner[x + i, y + j] for i, j in ((0, 0), (1, 0), (1, 1), (0, 1))]) for x, y in places]
    blocks = [10 * (10 * x // columns) + 10 * y // rows for x, y in places]
    return geopandas.GeoDataFrame({"block": blocks, "value": range(len(places)), "geometry": shapes})


def road(side, points=10):
    """A line that wanders about."""
    x, y = numbers.uniform(0, side), numbers.uniform(0, side)
    steps = [[numbers.uniform(-1, 1) for _ in range(points)] for _ in range(2)]
    return shapely.geometry.LineString(zip(*(itertools.accumulate(it, initial=start) for it, start in zip(steps, (x, y)))))


def said(seconds):
    return f"{seconds * 1e3:9.1f} ms"


def compare(what, most, ours, theirs, told, runs=1):
    """told: what makes a count and a size of an answer."""
    times, answers = [math.inf] * 2, [None] * 2
    for _, (place, call) in itertools.product(range(runs), enumerate((ours, theirs))):
        start = time.process_time()
        answers[place] = call()
        times[place] = min(times[place], time.process_time() - start)
    (count, size), (wanted, other) = map(told, answers)
    off, ratio = abs(size - other) / max(abs(other), 1), times[0] / times[1]
    print(f"{what:54} {said(times[0])} {said(times[1])} {ratio:6.2f} {most:5} {count:7,} {size:13.4f} {off:8.1e}", flush=True)
    if count != wanted or off > 1e-5:
        faults.append(f"{what}: {count} and {size}, where {wanted} and {other} are wanted")
    if ratio > most:
        faults.append(f"{what}: {ratio:.2f} of their time, and {most} is wanted")


def size_of(shapes):
    return len(shapes), sum(it.area for it in shapes)


def pairs():
    count = 10000 // PART
    subjects = [star(0, 0, 20) for _ in range(2 * count)]
    subjects = [it for it in subjects if it.is_valid][:count]
    clips = [star(numbers.uniform(-1, 1), numbers.uniform(-1, 1), 20) for _ in range(2 * count)]
    clips = [it for it in clips if it.is_valid][: len(subjects)]
    subjects = subjects[: len(clips)]
    data = [[shapely.wkb.dumps(it) for it in shapes] for shapes in (subjects, clips)]
    series = [geopandas.GeoSeries(shapes) for shapes in (subjects, clips)]
    loads, dumps = shapely.wkb.loads, shapely.wkb.dumps
    what = f"{len(subjects):,} pairs of 20 points,"
    compare(
        f"{what} binary",
        0.3,
        lambda: itree.overlay_each(*data, "intersection").to_wkb(),
        lambda: [dumps(loads(a).intersection(loads(b))) for a, b in zip(*data)],
        lambda items: size_of([loads(it) for it in items]),
        5,
    )
    compare(
        f"{what} shapely's objects",
        1.3,
        lambda: itree.overlay_each(subjects, clips, "intersection").to_shapely(),
        lambda: [a.intersection(b) for a, b in zip(subjects, clips)],
        size_of,
        5,
    )
    compare(
        f"{what} GeoSeries",
        0.7,
        lambda: itree.overlay_each(*series, "intersection").to_geoseries(),
        lambda: series[0].intersection(series[1]),
        size_of,
        5,
    )


def overlays(what, one, other, runs=1):
    """Two frames by each operation; slivers aren't counted."""
    for how in HOWS:
        compare(
            f"{what}, {how}",
            0.5,
            lambda: itree.geopandas.overlay(one, other, how),
            lambda: geopandas.overlay(one, other, how),
            lambda frame: size_of([it for it in frame.geometry if it.area > LEAST]),
            runs,
        )


def layers():
    count = 20000 // PART
    side = math.sqrt(2 * count)
    one, other = (geopandas.GeoDataFrame({it: range(count), "geometry": some_stars(count, side)}) for it in "ab")
    overlays(f"overlay of {count:,} polygons", one, other)
    return one, side


def wavy_side(start, stop, points):
    """So many points from a corner, which is the first of them, on the way to another, in waves."""
    (x, y), (x1, y1), phase = start, stop, numbers.uniform(0, 2 * math.pi)
    told = [start]
    for share in (place / points for place in range(1, points)):
        aside = 0.1 * math.sin(math.pi * share) * math.sin(6 * math.pi * share + phase)
        told.append((x + share * (x1 - x) - aside * (y1 - y), y + share * (y1 - y) + aside * (x1 - x)))
    return told


def wavy_cells(name, columns, points, aside):
    """As many rows as columns of cells that share their wavy sides, each of which has so many points; all moved aside."""
    corners = {it: (it[0] + aside[0], it[1] + aside[1]) for it in itertools.product(range(columns + 1), repeat=2)}
    flat, tall = {}, {}
    for (x, y), start in corners.items():
        for sides, stop in (flat, corners.get((x + 1, y))), (tall, corners.get((x, y + 1))):
            if stop:
                sides[x, y] = wavy_side(start, stop, points)
    shapes = []
    for x, y in itertools.product(range(columns), repeat=2):
        back = [[corners[x + 1, y + 1], *flat[x, y + 1][:0:-1]], [corners[x, y + 1], *tall[x, y][:0:-1]]]
        shapes.append(shapely.geometry.Polygon([*flat[x, y], *tall[x + 1, y], *back[0], *back[1]]))
    return geopandas.GeoDataFrame({name: range(len(shapes)), "geometry": shapes})


def cells():
    """400 cells by 400 cells, which are 20 by 20 of each layer; those of a layer have 9,600 vertices together, then 96,000."""
    for points in 6, 60:
        one, other = (wavy_cells(it, 20, points, aside) for it, aside in (("a", (0, 0)), ("b", (0.37, 0.45))))
        overlays(f"400 by 400 cells of {len(one) * 4 * points:,} vertices", one, other, 3)


def land():
    """The world's land by cells of 10 degrees; its rings cross here and there, so it is what ours unites them to."""
    if not gshhg.file_of("l").exists() or not shutil.which("ncdump"):
        print("the world's land: gmt-gshhg-low and netcdf-bin aren't here")
        return
    found, width = gshhg.land("l")
    united = itree.simplify([ring for polygon in found for ring in polygon]).to_shapely(each=True)
    degrees = [shapely.affinity.scale(it, 360 / width, 360 / width, origin=(0, 0)) for it in united]
    east = math.ceil(max(it.bounds[2] for it in degrees))
    squares = [shapely.geometry.box(x, y, x + 10, y + 10) for y in range(0, 180, 10) for x in range(gshhg.WEST, east, 10)]
    layer, cells_of_it = (geopandas.GeoDataFrame({"place": range(len(it)), "geometry": it}) for it in (degrees, squares))
    overlays("the world's land by cells of 10 degrees", layer, cells_of_it)


def groups():
    frame = parcels(100, 200 // PART)
    what = f"dissolve of {len(frame):,} parcels by 100"
    compare(
        what,
        0.5,
        lambda: itree.geopandas.dissolve(frame, "block"),
        lambda: frame.dissolve("block"),
        lambda it: size_of(it.geometry),
        3,
    )
    count = 200000 // PART
    x, y = ([numbers.uniform(0, most) for _ in range(count)] for most in (200 // PART, 100))
    points = geopandas.GeoDataFrame({"point": range(count), "geometry": geopandas.points_from_xy(x, y)})
    for predicate in "intersects", "within":
        compare(
            f"sjoin of {count:,} points, {predicate}",
            0.3,
            lambda: itree.geopandas.sjoin(points, frame, predicate=predicate),
            lambda: geopandas.sjoin(points, frame, predicate=predicate),
            lambda it: (len(it), float((it["point"] * 7 + it["value"]).sum())),
        )
    return frame


def clips(one, side):
    count = 10000 // PART
    roads = geopandas.GeoDataFrame({"road": range(count), "geometry": [road(side) for _ in range(count)]})
    land = star(side / 2, side / 2, 1000, (side / 3, side / 3.01))
    masks = (f"{count // 10:,} polygons", one[: count // 10]), ("1 polygon of 1,000 points", land)
    for name, mask in masks:
        compare(
            f"clip of {count:,} lines to {name}",
            0.3,
            lambda: itree.geopandas.clip(roads, mask),
            lambda: geopandas.clip(roads, mask),
            lambda it: (int((it.length > 0).sum()), it.length.sum()),
        )
        compare(
            f"clip of {len(one):,} polygons to {name}",
            1.0,
            lambda: itree.geopandas.clip(one, mask),
            lambda: geopandas.clip(one, mask),
            lambda it: (int((it.area > 0).sum()), it.area.sum()),
        )


def main():
    versions = [f"{it.__name__} {it.__version__}" for it in (itree, shapely, geopandas, numpy)]
    print(", ".join(versions))
    print(f"{'':54} {'itree':>12} {'theirs':>12} {'ratio':>6} {'most':>5} {'rows':>7} {'size':>13} {'off':>8}")
    pairs()
    one, side = layers()
    cells()
    land()
    groups()
    clips(one, side)
    for fault in faults:
        print(fault)
    sys.exit(bool(faults))


if __name__ == "__main__":
    main()
