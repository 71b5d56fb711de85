"""The world's land united by several processes, tile by tile, with Dask; and a picture that shows which process made which.

usage: python3 scaled.py [--resolution f] [--workers 4] [--windows 64] PICTURE.svg

It reads the world's land of GSHHG (Debian: gmt-gshhg-low or for f gmt-gshhg-full; netcdf-bin), and writes it into a folder in
parts, as a large set of data comes. The workers read these (Debian: python3-dask, python3-distributed, python3-numpy).
"""

import argparse
import functools
import itertools
import pathlib
import pickle
import tempfile
import time

import distributed
import gshhg
import itree
import itree.dask
import numpy

POINTS = 200_000  # Of a part.
WIDE = 1200  # Of the picture.
COLOURS = ["#1f5fa8", "#c0392b", "#2e7d4f", "#b8860b", "#6a4c93", "#008b8b", "#8b4513", "#708090"]


def rings_of(polygons):
    """Some polygons as two arrays."""
    rings = [ring for polygon in polygons for ring in polygon]
    points = numpy.fromiter(itertools.chain.from_iterable(itertools.chain.from_iterable(rings)), "int32")
    return itree.Rings(points.reshape(-1, 2), numpy.cumsum([0, *map(len, rings)]))


def written(land, folder):
    """The files of the land's parts."""
    paths, some, points = [], [], 0
    for polygon in [*land, None]:
        if some and (polygon is None or points >= POINTS):
            paths.append(pathlib.Path(folder, f"land-{len(paths):03}"))
            paths[-1].write_bytes(pickle.dumps(rings_of(some)))
            some, points = [], 0
        some.append(polygon)
        points += sum(map(len, polygon or ()))
    return paths


def read(path):
    return pickle.loads(path.read_bytes())


def path_of(polygons, unit):
    """The rings as a path of SVG, so many units to a point of the picture; points that aren't seen apart are left out."""
    points = (numpy.asarray(polygons.points) / unit * 2).round() / 2
    for start, stop in zip(polygons.ring_offsets, polygons.ring_offsets[1:]):
        seen = [point for point, _ in itertools.groupby(points[start:stop].tolist())]
        if len(seen) > 2:
            yield "M" + " ".join(f"{x:g},{y:g}" for x, y in seen) + "z"


def drawn(tiles, windows, workers, width):
    """Each tile in its worker's colour, in its window."""
    unit, colours = width / WIDE, dict(zip(sorted(set(workers)), itertools.cycle(COLOURS)))
    west = min(it[0] for it in windows) / unit
    parts = [f'<svg xmlns="http://www.w3.org/2000/svg" viewBox="{west:g} {-WIDE / 2} {WIDE} {WIDE / 2}">']
    parts += [f'<g transform="scale(1,-1)"><rect x="{west:g}" width="{WIDE}" height="{WIDE / 2}" fill="#f2f4f7"/>']
    for tile, window, worker in zip(tiles, windows, workers):
        left, low, right, high = (it / unit for it in window)
        sides = f'x="{left:.1f}" y="{low:.1f}" width="{right - left:.1f}" height="{high - low:.1f}"'
        parts.append(f'<path fill="{colours[worker]}" fill-rule="evenodd" d="{"".join(path_of(tile, unit))}"/>')
        parts.append(f'<rect {sides} fill="none" stroke="#777" stroke-width="0.5"/>')
    return "\n".join([*parts, "</g></svg>\n"])


def united(client, paths, count):
    """The tiles, the windows, and by which worker each tile was made; and what joins them."""
    parts = {path.name: functools.partial(read, path) for path in paths}
    windows = itree.dask.windows(parts, count)
    futures = client.compute(itree.dask.overlay(parts, None, "union", windows))
    distributed.progress(futures, notebook=False)
    made = client.who_has(futures)
    workers = [made[it.key][0] for it in futures]
    whole = client.compute(itree.dask.join(futures, windows)).result()
    return client.gather(futures), windows, workers, whole


def main():
    words = argparse.ArgumentParser(usage=__doc__.partition("usage: python3 ")[2].partition("\n")[0])
    words.add_argument("--resolution", default="f" if gshhg.file_of("f").exists() else "i")
    words.add_argument("--workers", type=int, default=4)
    words.add_argument("--windows", type=int, default=64)
    words.add_argument("picture")
    given = words.parse_args()
    land, width = gshhg.land(given.resolution)
    with tempfile.TemporaryDirectory() as folder:
        paths = written(land, folder)
        cluster = distributed.LocalCluster(n_workers=given.workers, threads_per_worker=1, dashboard_address=None)
        with cluster, distributed.Client(cluster) as client:
            start = time.monotonic()
            tiles, windows, workers, whole = united(client, paths, given.windows)
            seconds = time.monotonic() - start
    print(f"\n{len(paths)} parts, {len(windows)} tiles, {len(whole)} polygons of {len(whole.points)} points, {seconds:.1f} s")
    pathlib.Path(given.picture).write_text(drawn(tiles, windows, workers, width), encoding="utf-8")


if __name__ == "__main__":
    main()
