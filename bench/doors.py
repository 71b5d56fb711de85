#!/usr/bin/env python3
"""usage: bench/doors.py [--quick]    times overlays of shapely's polygons, whole way: ours and shapely's own

Both take shapely's objects and answer shapely's objects, in one process, in turns; the time is the least of several runs,
and the areas are compared. It takes shapely and numpy, as /usr/bin/python3 has them by bindings/install; ITREE_LIBRARY
may name the library. The ratio is ours / shapely's; `off` is how far the areas differ, of shapely's. It ends with 1
where they differ by more than a hundred-thousandth. Where the machine does something else meanwhile, times shift.
"""

import itertools
import math
import pathlib
import random
import sys
import time

sys.path.insert(0, str(pathlib.Path(__file__).resolve().parent.parent / "bindings" / "python"))

import numpy
import shapely
import shapely.geometry
from shapely.ops import unary_union

import itree

QUICK = "--quick" in sys.argv


def circle(middle, corners):
    return shapely.geometry.Point(middle, 0).buffer(1, corners // 4)


def star(numbers, side, corners=11):
    """A star-shaped polygon somewhere in a square, where it overlaps some others."""
    x, y = numbers.uniform(0, side), numbers.uniform(0, side)
    angles = [(place + numbers.random()) * 2 * math.pi / corners for place in range(corners)]
    reach = [numbers.uniform(0.4, 1.2) for _ in angles]
    return shapely.geometry.Polygon([(x + r * math.cos(at), y + r * math.sin(at)) for r, at in zip(reach, angles)])


def some_stars(numbers, side):
    valid = (it for it in iter(lambda: star(numbers, side), None) if it.is_valid)
    return itertools.islice(valid, 20000)


def least(calls, runs):
    """The least time of each call in seconds, of so many runs in turns, and what each answered last."""
    times, answers = [math.inf] * len(calls), [None] * len(calls)
    for _ in range(runs):
        for place, call in enumerate(calls):
            start = time.perf_counter()
            answers[place] = call()
            times[place] = min(times[place], time.perf_counter() - start)
    return times, answers


def said(seconds):
    return f"{seconds * 1e6:9.1f} us" if seconds < 1e-3 else f"{seconds * 1e3:9.2f} ms"


def compare(what, ours, theirs, runs):
    (one, other), (answer, wanted) = least([ours, theirs], 2 if QUICK else runs)
    off = abs(answer.area - wanted.area) / wanted.area
    print(f"{what:44} {said(one)} {said(other)} {one / other:6.2f}   {answer.area:12.6f} {off:8.1e}", flush=True)
    if off > 1e-5:
        sys.exit(f"{what}: the areas differ: {answer.area} and {wanted.area}")


def main():
    print(f"itree {itree.__version__}, shapely {shapely.__version__}, numpy {numpy.__version__}")
    print(f"{'':44} {'itree':>12} {'shapely':>12} {'ratio':>6}   {'area':>12} {'off':>8}")
    low, high = shapely.geometry.box(0.5, 0, 2.5, 2), shapely.geometry.box(1, 1, 3, 3)
    compare("two squares", lambda: itree.overlay(low, high, "intersection").to_shapely(), lambda: low.intersection(high), 2000)
    for count, runs in (100, 500), (1000, 200), (10**4, 50), (10**5, 15), (10**6, 4):
        one, other = circle(0, count), circle(0.5, count)
        for operation, call in ("intersection", one.intersection), ("union", one.union):
            what = f"{operation} of circles of {count:,} points"
            compare(what, lambda: itree.overlay(one, other, operation).to_shapely(), lambda: call(other), runs)
    for side, others in (200, "one or two"), (100, "six"):
        stars = list(some_stars(random.Random(1), side))
        what = f"unary_union of 20,000 stars over {others}"
        compare(what, lambda: itree.unary_union(stars).to_shapely(), lambda: unary_union(stars), 3)


if __name__ == "__main__":
    main()
