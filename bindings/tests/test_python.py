"""The calls from Python beside a plain model, at faults, over each kind of rows, and with each request for memory
refused in turn.

bindings/test runs it over a library that refuses memory when it is told to (ITREE_LIBRARY). What needs numpy or mypy is
skipped where they aren't there.
"""

import array
import ast
import collections
import contextlib
import copy
import ctypes
import ctypes.util
import decimal
import doctest
import fractions
import gc
import itertools
import math
import mmap
import os
import pathlib
import pickle
import random
import re
import shutil
import subprocess
import sys
import tempfile
import threading
import unittest
from unittest import mock

import itree
from itree import _answers, _edges, _library, _memory, _rows

try:
    import numpy
except ImportError:
    numpy = None

needs_numpy = unittest.skipUnless(numpy, "numpy isn't there")
PACKAGE = pathlib.Path(itree.__file__).parent
WORKED = [(0, 10, 5), (2, 6, 8)], [(6, 7), (2, 9), (11, 9)], [5, 8, None]


def plain_overlap(segments):
    """The place of the first segment, by x0 and then by place, that collides with one before it, or None."""
    before = []
    for place, (x0, x1, y) in sorted(enumerate(segments), key=lambda it: (it[1][0], it[0])):
        if any(other[2] == y and max(other[0], x0) <= min(other[1], x1) for other in before):
            return place
        before.append((x0, x1, y))
    return None


def plainly_below(segments, points):
    return [max((y for x0, x1, y in segments if x0 <= x <= x1 and y <= height), default=None) for x, height in points]


def random_scene(numbers):
    segments = []
    for _ in range(numbers.randrange(13)):
        x0 = numbers.randrange(-20, 20)
        segments.append((x0, x0 + numbers.randrange(-2, 10), numbers.randrange(-4, 4)))
    return segments, [(numbers.randrange(-30, 30), numbers.randrange(-6, 6)) for _ in range(numbers.randrange(13))]


class Below(unittest.TestCase):
    def test_answers_as_the_plain_model(self):
        numbers, overlapping = random.Random(27), 0
        for _ in range(4000):
            segments, points = random_scene(numbers)
            wanted = plain_overlap(segments)
            if wanted is None:
                self.assertEqual(itree.below(segments, points), plainly_below(segments, points))
                continue
            overlapping += 1
            with self.assertRaises(itree.Overlap) as raised:
                itree.below(segments, points)
            self.assertEqual(raised.exception.index, wanted)
        self.assertTrue(1000 < overlapping < 3000, overlapping)

    def test_answers_nothing_for_nothing(self):
        self.assertEqual(itree.below([], []), [])
        self.assertEqual(itree.below([], [(1, 2)]), [None])
        self.assertEqual(itree.below([(1, 2, 3)], []), [])
        self.assertEqual(itree.below(array.array("i"), array.array("i")), [])

    def test_tells_the_overlap(self):
        with self.assertRaisesRegex(ValueError, "the segment at place 2 overlaps an earlier one"):
            itree.below([(0, 9, 1), (8, 9, 1), (3, 4, 1)], [])

    def test_raises_memory_error(self):
        library, requests = ctypes.CDLL(os.environ["ITREE_LIBRARY"]), 0
        while True:
            library.refuse_after(ctypes.c_size_t(requests))
            try:
                answer = itree.below(*WORKED[:2])
            except MemoryError:
                requests += 1
                continue
            finally:
                library.refuse_after(ctypes.c_size_t(-1))
            break
        self.assertEqual(answer, WORKED[2])
        self.assertGreater(requests, 3)

    def test_runs_in_several_threads(self):
        numbers = random.Random(28)
        segments = [(x, x + 5, numbers.randrange(10**6)) for x in range(20000)]
        points, answers = [(x, 10**6) for x in range(20000)], []
        threads = [threading.Thread(target=lambda: answers.append(itree.below(segments, points))) for _ in range(4)]
        for it in threads:
            it.start()
        for it in threads:
            it.join()
        self.assertEqual(len(answers), 4)
        self.assertTrue(all(it == answers[0] for it in answers))


def side_of(edge, x, y):
    x0, y0, x1, y1 = edge
    product = (x1 - x0) * (y - y0) - (y1 - y0) * (x - x0)
    return (product > 0) - (product < 0)


def plainly_meet(one, other):
    """Whether the edges meet: their boxes do, and neither has both ends on one side of the other."""
    boxes = all(
        min(one[axis], one[axis + 2]) <= max(other[axis], other[axis + 2])
        and min(other[axis], other[axis + 2]) <= max(one[axis], one[axis + 2])
        for axis in (0, 1)
    )
    parted = side_of(one, *other[:2]) * side_of(one, *other[2:]) > 0
    return boxes and not parted and side_of(other, *one[:2]) * side_of(other, *one[2:]) <= 0


def plain_kind(one, other):
    """How the edges meet: by how many different ends are of both."""
    if not plainly_meet(one, other):
        return "apart"
    ends = {edge[place : place + 2] for edge in (one, other) for place in (0, 2)}
    shared = [end for end in ends if plainly_meet(one, end + end) and plainly_meet(other, end + end)]
    return ["cross", "touch", "share"][min(len(shared), 2)]


class Meetings(unittest.TestCase):
    def test_tells_the_edges_that_meet(self):
        numbers = random.Random(29)
        for whole in 9, 2**32:
            for _ in range(1000):
                rows = range(numbers.randrange(13))
                edges = [tuple(numbers.randrange(whole) - whole // 2 for _ in range(4)) for _ in rows]
                pairs = itertools.combinations(range(len(edges)), 2)
                wanted = [(i, j) for i, j in pairs if plainly_meet(edges[i], edges[j])]
                self.assertEqual(sorted(itree.meetings(edges)), wanted)
                self.assertEqual(sorted(itree.meetings(array.array("i", itertools.chain(*edges)))), wanted)

    def test_tells_more_pairs_than_edges(self):
        edges = [(0, place, 40, 40 - place) for place in range(41)]
        self.assertEqual(sorted(itree.meetings(edges)), list(itertools.combinations(range(41), 2)))
        self.assertEqual(itree.meetings([]), [])

    def test_gives_the_pairs_back_with_the_last_view(self):
        library, given_back = _library.library, []
        free = library.itree_pairs_free
        library.itree_pairs_free = lambda at: (given_back.append(at.value), free(at))
        try:
            pairs = itree.meetings([(0, 0, 9, 9), (0, 9, 9, 0)], as_array=True)
            numbers = pairs.cast("B").cast("Q")
            numbers[0] = 7
            self.assertEqual(pairs[0, 0], 7)
            del pairs
            gc.collect()
            self.assertEqual(given_back, [])
            del numbers
            gc.collect()
            self.assertEqual(len(given_back), 1)
            self.assertEqual(itree.meetings([(0, 0, 9, 9), (0, 9, 9, 0)]), [(0, 1)])
            self.assertEqual(itree.meetings([], as_array=True).tolist(), [])
            gc.collect()
            self.assertEqual(len(given_back), 3)
        finally:
            library.itree_pairs_free = free

    def test_what_are_no_edges(self):
        with self.assertRaises(ValueError):
            itree.meetings([(1, 2, 3)])
        with self.assertRaises(OverflowError):
            itree.meetings([(1, 2, 3, 2**31)])

    def test_raises_memory_error(self):
        library, requests = ctypes.CDLL(os.environ["ITREE_LIBRARY"]), 0
        while True:
            library.refuse_after(ctypes.c_size_t(requests))
            try:
                pairs = itree.meetings([(0, 0, 9, 9), (0, 9, 9, 0), (20, 0, 21, 0)])
            except MemoryError:
                requests += 1
                continue
            finally:
                library.refuse_after(ctypes.c_size_t(-1))
            break
        self.assertEqual(pairs, [(0, 1)])
        self.assertGreater(requests, 0)


class Kinds(unittest.TestCase):
    KINDS = "apart", "touch", "cross", "share"

    def test_tells_how_edges_meet(self):
        numbers, told = random.Random(36), collections.Counter()
        for whole in 3, 9, 2**32:
            for _ in range(2000):
                one, other = (tuple(numbers.randrange(whole) - whole // 2 for _ in range(4)) for _ in range(2))
                kind = itree.how_they_meet(one, other)
                self.assertEqual(kind, plain_kind(one, other), (one, other))
                self.assertEqual(itree.how_they_meet(other, one), kind)
                told[kind] += 1
        self.assertTrue(all(told[kind] > 30 for kind in self.KINDS), told)

    def test_takes_rows_of_each_form(self):
        least, most = -(2**31), 2**31 - 1
        for row in (least, least, most, most), [(least, least), (most, most)], array.array("q", [least, least, most, most]):
            self.assertEqual(itree.how_they_meet(row, (least, most, most, least)), "cross")
            self.assertEqual(itree.how_they_meet(row, row), "share")
            self.assertEqual(itree.how_they_meet((0, 0, 0, 0), iter(row)), "touch")

    def test_what_are_no_edges(self):
        edge = 0, 0, 9, 9
        for given, error, said in (
            ((1, 2, 3), ValueError, "3 numbers, 4 are wanted"),
            (((1, 2), (3,)), ValueError, "1 numbers, 2 are wanted"),
            ((1, 2, 3, 2**31), OverflowError, "2147483648 doesn't fit in 32 bits"),
            (7, TypeError, "int; 4 numbers are wanted"),
            ("abcd", TypeError, "str; 4 numbers are wanted"),
        ):
            with self.assertRaisesRegex(error, f"^one: {said}$"):
                itree.how_they_meet(given, edge)
            with self.assertRaisesRegex(error, f"^other: {said}$"):
                itree.how_they_meet(edge, given)

    def test_takes_no_memory(self):
        library = ctypes.CDLL(os.environ["ITREE_LIBRARY"])
        library.refuse_after(ctypes.c_size_t(0))
        try:
            self.assertEqual(itree.how_they_meet((0, 0, 9, 9), (0, 9, 9, 0)), "cross")
        finally:
            library.refuse_after(ctypes.c_size_t(-1))


class Between(unittest.TestCase):
    def test_tells_the_edges_of_two_lists_that_meet(self):
        numbers = random.Random(34)
        for whole in 9, 2**32:
            for _ in range(1000):
                edges, others = (
                    [tuple(numbers.randrange(whole) - whole // 2 for _ in range(4)) for _ in range(numbers.randrange(9))]
                    for _ in range(2)
                )
                pairs = itertools.product(range(len(edges)), range(len(others)))
                wanted = [(i, j) for i, j in pairs if plainly_meet(edges[i], others[j])]
                self.assertEqual(sorted(itree.meetings_between(edges, others)), wanted)
                flat_edges = array.array("i", itertools.chain(*edges))
                told = itree.meetings_between(flat_edges, others, as_array=True)
                self.assertEqual((told.format, told.shape, told.readonly), ("Q", (len(wanted), 2), False))
                self.assertEqual(sorted(map(tuple, told.tolist())), wanted)

    def test_tells_two_edges_that_meet(self):
        numbers, meeting = random.Random(35), 0
        for _ in range(2000):
            edges = [tuple(numbers.randrange(9) for _ in range(4)) for _ in range(numbers.randrange(6))]
            pairs = itertools.combinations(range(len(edges)), 2)
            meet = [(i, j) for i, j in pairs if plainly_meet(edges[i], edges[j])]
            self.assertIn(itree.first_meeting(edges), meet or [None])
            meeting += bool(meet)
        self.assertTrue(200 < meeting < 1800, meeting)

    def test_nothing_for_nothing(self):
        self.assertEqual(itree.meetings_between([], [(1, 2, 3, 4)]), [])
        self.assertEqual(itree.meetings_between([(1, 2, 3, 4)], []), [])
        self.assertIsNone(itree.first_meeting([]))

    def test_what_are_no_edges(self):
        for call in itree.first_meeting, lambda rows: itree.meetings_between(rows, []):
            with self.assertRaises(ValueError):
                call([(1, 2, 3)])
        with self.assertRaisesRegex(ValueError, "^others, row 0: "):
            itree.meetings_between([], [(1, 2, 3)])

    def test_raises_memory_error(self):
        library, edges = ctypes.CDLL(os.environ["ITREE_LIBRARY"]), [(0, 0, 9, 9), (0, 9, 9, 0)]
        for call, wanted in (
            (lambda: itree.meetings_between(edges[:1], edges[1:]), [(0, 0)]),
            (lambda: itree.first_meeting(edges), (0, 1)),
        ):
            requests = 0
            while True:
                library.refuse_after(ctypes.c_size_t(requests))
                try:
                    answer = call()
                except MemoryError:
                    requests += 1
                    continue
                finally:
                    library.refuse_after(ctypes.c_size_t(-1))
                break
            self.assertEqual(answer, wanted)
            self.assertGreater(requests, 0)


def common_point(one, other):
    """The point that is of both edges, which aren't parallel, or None."""
    x0, y0, x1, y1 = one
    along, across = (other[2] - other[0], other[3] - other[1]), (other[0] - x0, other[1] - y0)
    turn = (x1 - x0) * along[1] - (y1 - y0) * along[0]
    if turn == 0:
        return None
    at = fractions.Fraction(across[0] * along[1] - across[1] * along[0], turn)
    at_other = fractions.Fraction(across[0] * (y1 - y0) - across[1] * (x1 - x0), turn)
    if not (0 <= at <= 1 and 0 <= at_other <= 1):
        return None
    return x0 + at * (x1 - x0), y0 + at * (y1 - y0)


def rounded(point):
    return tuple(math.floor(number + fractions.Fraction(1, 2)) for number in point)


def passes(edge, point):
    """Whether some point of the edge rounds to the whole point: the part of it that does, by where it begins and ends,
    and whether it has no first point, and whether it has a last one."""
    first, last = (fractions.Fraction(0), False), (fractions.Fraction(1), True)
    for axis, whole in enumerate(point):
        start, way = edge[axis], edge[axis + 2] - edge[axis]
        if way == 0:
            if start != whole:
                return False
            continue
        low, high = (fractions.Fraction(2 * (whole - start) + side, 2 * way) for side in (-1, 1))
        first = max(first, (low, False) if way > 0 else (high, True))
        last = min(last, (high, False) if way > 0 else (low, True))
    return first[0] < last[0] or (first[0] == last[0] and not first[1] and last[1])


def plain_chains(edges):
    hot = {edge[place : place + 2] for edge in edges for place in (0, 2)}
    common = (common_point(*pair) for pair in itertools.combinations(edges, 2))
    hot.update(rounded(point) for point in common if point is not None)
    chains = []
    for edge in edges:
        signs = [1 if edge[axis] <= edge[axis + 2] else -1 for axis in (0, 1)]
        passed = (point for point in hot if passes(edge, point))
        chains.append(sorted(passed, key=lambda it: (signs[0] * it[0], signs[1] * it[1])))
    return chains


class Snap(unittest.TestCase):
    WORKED = (
        ([(0, 0, 10, 10), (0, 10, 10, 0)], [[(0, 0), (5, 5), (10, 10)], [(0, 10), (5, 5), (10, 0)]]),
        ([(0, 0, 3, 1), (0, 1, 3, 0)], [[(0, 0), (2, 1), (3, 1)], [(0, 1), (2, 1), (3, 0)]]),
        ([(7, 8, 7, 8)], [[(7, 8)]]),
        ([], []),
    )

    def test_breaks_edges_where_they_meet(self):
        for edges, wanted in self.WORKED:
            self.assertEqual(plain_chains(edges), wanted)
            self.assertEqual(itree.snap(edges), wanted)

    def test_answers_as_the_plain_model(self):
        numbers = random.Random(37)
        for whole, rounds in (9, 600), (40, 300), (2**32, 100):
            for _ in range(rounds):
                rows = range(numbers.randrange(9))
                edges = [tuple(numbers.randrange(whole) - whole // 2 for _ in range(4)) for _ in rows]
                self.assertEqual(itree.snap(edges), plain_chains(edges), edges)

    def test_answers_arrays(self):
        for edges, wanted in self.WORKED:
            points, offsets = itree.snap(edges, as_array=True)
            count = sum(map(len, wanted))
            self.assertEqual((points.format, points.shape, points.readonly), ("i", (count, 2), False))
            self.assertEqual((offsets.format, offsets.shape, offsets.readonly), ("q", (len(wanted) + 1,), False))
            self.assertEqual(offsets.tolist(), [0, *itertools.accumulate(map(len, wanted))])
            self.assertEqual(list(map(tuple, points.tolist())), list(itertools.chain(*wanted)))

    @needs_numpy
    def test_numpy_takes_them_without_a_copy(self):
        edges, wanted = self.WORKED[1]
        told = itree.snap(numpy.array(edges, dtype=numpy.int32), as_array=True)
        points, offsets = map(numpy.asarray, told)
        self.assertEqual((points.dtype, offsets.dtype), (numpy.int32, numpy.int64))
        told.points[0, 0], told.offsets[0] = 77, 78
        self.assertEqual((points[0, 0], offsets[0]), (77, 78))
        self.assertEqual(points[offsets[1] : offsets[2]].tolist(), list(map(list, wanted[1])))

    def test_gives_the_chains_back_with_the_last_view(self):
        library, given_back = _library.library, []
        free = library.itree_chains_free
        library.itree_chains_free = lambda at: (given_back.append(at.value), free(at))
        try:
            for kept in 0, 1:
                views = list(itree.snap(self.WORKED[0][0], as_array=True))
                last = views[kept]
                del views
                gc.collect()
                self.assertEqual(len(given_back), kept)
                self.assertEqual(last.tolist()[-1], [[10, 0], 6][kept])
                del last
                gc.collect()
                self.assertEqual(len(given_back), kept + 1)
            self.assertEqual(itree.snap([]), [])
            gc.collect()
            self.assertEqual(len(given_back), 3)
        finally:
            library.itree_chains_free = free

    def test_what_are_no_edges(self):
        with self.assertRaisesRegex(ValueError, "^edges, row 0: 3 numbers, 4 are wanted$"):
            itree.snap([(1, 2, 3)])

    def test_raises_memory_error(self):
        assert_refused_in_turn(self, itree.snap, *self.WORKED[1])


def assert_refused_in_turn(test, call, edges, wanted):
    """Each request of the call for memory is refused in turn, and then the edges have the chains."""
    library, requests = ctypes.CDLL(os.environ["ITREE_LIBRARY"]), 0
    while True:
        library.refuse_after(ctypes.c_size_t(requests))
        try:
            chains = call(edges)
        except MemoryError:
            requests += 1
            continue
        finally:
            library.refuse_after(ctypes.c_size_t(-1))
        break
    test.assertEqual(chains, wanted)
    test.assertGreater(requests, 4)


def plain_nodes(edges):
    """The chains where edges are moved only where they must be, round by round until no more are."""
    passed = plain_chains(edges)
    on = [[point for point in chain if plainly_meet(edge, point + point)] for edge, chain in zip(edges, passed)]
    common = [point for point in (common_point(*pair) for pair in itertools.combinations(edges, 2)) if point]
    moving, moved = {rounded(point) for point in common if rounded(point) != point}, set()
    while True:
        more = {place for place, chain in enumerate(passed) if moving & {*chain} - {*on[place]}}
        if more == moved:
            return [(passed if place in moved else on)[place] for place in range(len(edges))]
        moved = more
        moving = moving.union(*(passed[place] for place in moved))


class Node(unittest.TestCase):
    WORKED = (
        # A side passes close by the corner (2, 2), and none crosses another.
        ([(0, 7, 2, 0), (2, 0, 2, 2), (2, 2, 0, 7)], [[(0, 7), (2, 0)], [(2, 0), (2, 2)], [(2, 2), (0, 7)]]),
        # The third has (12, 1), and passes (11, 1), which doesn't lie on it.
        (
            [(0, 0, 3, 1), (0, 1, 3, 0), (10, 0, 14, 2), (12, 1, 12, 1), (11, 1, 11, 1)],
            [[(0, 0), (2, 1), (3, 1)], [(0, 1), (2, 1), (3, 0)], [(10, 0), (12, 1), (14, 2)], [(12, 1)], [(11, 1)]],
        ),
        # The first two cross at (30/13, 3/13). The first passes (8, 1), which so moves the last.
        (
            [(0, 0, 10, 1), (0, 1, 3, 0), (8, 1, 8, 1), (6, 2, 9, 1)],
            [
                [(0, 0), (2, 0), (3, 0), (8, 1), (9, 1), (10, 1)],
                [(0, 1), (2, 0), (3, 0)],
                [(8, 1)],
                [(6, 2), (8, 1), (9, 1)],
            ],
        ),
        ([], []),
    )

    def test_moves_only_edges_that_must_be_moved(self):
        for edges, wanted in self.WORKED:
            self.assertEqual(plain_nodes(edges), wanted)
            self.assertEqual(itree.node(edges), wanted)

    def test_answers_as_the_plain_model(self):
        numbers, other = random.Random(38), 0
        for whole, rounds in (9, 600), (40, 300), (2**32, 100):
            for _ in range(rounds):
                rows = range(numbers.randrange(9))
                edges = [tuple(numbers.randrange(whole) - whole // 2 for _ in range(4)) for _ in rows]
                chains = itree.node(edges)
                self.assertEqual(chains, plain_nodes(edges), edges)
                other += chains != plain_chains(edges)
        self.assertGreater(other, 50)

    def test_answers_arrays(self):
        edges, wanted = self.WORKED[1]
        chains = itree.node(edges, as_array=True)
        self.assertIsInstance(chains, itree.Chains)
        self.assertEqual(chains.offsets.tolist(), [0, *itertools.accumulate(map(len, wanted))])
        self.assertEqual(list(map(tuple, chains.points.tolist())), list(itertools.chain(*wanted)))

    def test_what_are_no_edges(self):
        with self.assertRaisesRegex(ValueError, "^edges, row 0: 3 numbers, 4 are wanted$"):
            itree.node([(1, 2, 3)])

    def test_raises_memory_error(self):
        assert_refused_in_turn(self, itree.node, *self.WORKED[2])


def rightwards(edge):
    x0, y0, x1, y1 = edge
    return edge if x0 <= x1 else (x1, y1, x0, y0)


def height(edge, x):
    """The height of an edge that goes to the right, and isn't upright, at x."""
    x0, y0, x1, y1 = edge
    return y0 + fractions.Fraction((y1 - y0) * (x - x0), x1 - x0)


def plainly_cross(one, other):
    """Whether the one is below the other at one end of what both span, and above it at the other end."""
    one, other = rightwards(one), rightwards(other)
    start, end = max(one[0], other[0]), min(one[2], other[2])
    if end <= start:
        return False
    apart = [height(one, x) - height(other, x) for x in (start, end)]
    return min(apart) < 0 < max(apart)


def places_below(edges, point):
    """The places of the edges that are highest of those under the point, there and at the next x, or None alone."""
    x, y = point
    turned = enumerate(map(rightwards, edges))
    heights = {place: (height(edge, x), height(edge, x + 1)) for place, edge in turned if edge[0] <= x < edge[2]}
    under = {place: at for place, at in heights.items() if at[0] <= y}
    highest = tuple(map(max, zip(*under.values())))
    return {place for place, at in under.items() if at == highest} or {None}


class Locate(unittest.TestCase):
    def assert_located(self, edges, points, answers):
        self.assertEqual(len(answers), len(points))
        for point, answer in zip(points, answers):
            self.assertIn(answer, places_below(edges, point), (edges, point))

    def test_answers_as_the_plain_model(self):
        numbers, crossing = random.Random(30), 0
        for _ in range(2000):
            edges, points = [], []
            for _ in range(numbers.randrange(13)):
                x, y = numbers.randrange(16), numbers.randrange(6)
                edges.append((x, y, x + numbers.randrange(-5, 6), y + numbers.randrange(-3, 4)))
                points.append((numbers.randrange(-2, 18), numbers.randrange(-3, 9)))
            if not any(plainly_cross(*pair) for pair in itertools.combinations(edges, 2)):
                self.assert_located(edges, points, itree.locate(edges, points))
                continue
            crossing += 1
            with self.assertRaises(itree.Crossing) as raised:
                itree.locate(edges, points)
            first, second = raised.exception.pair
            self.assertLess(first, second)
            self.assertTrue(plainly_cross(edges[first], edges[second]))
        self.assertTrue(500 < crossing < 1500, crossing)

    def test_answers_by_numbers_from_end_to_end(self):
        numbers, whole = random.Random(31), 2**32
        for _ in range(300):
            edges = []
            for _ in range(12):
                edge = tuple(numbers.randrange(whole) - whole // 2 for _ in range(4))
                if not any(plainly_cross(edge, other) for other in edges):
                    edges.append(edge)
            points = [tuple(numbers.randrange(whole) - whole // 2 for _ in range(2)) for _ in range(20)]
            points += [edge[:2] for edge in edges]
            self.assert_located(edges, points, itree.locate(edges, points))
            flat = (array.array("i", itertools.chain(*rows)) for rows in (edges, points))
            self.assert_located(edges, points, itree.locate(*flat))

    def test_answers_nothing_for_nothing(self):
        self.assertEqual(itree.locate([], []), [])
        self.assertEqual(itree.locate([], [(1, 2)]), [None])
        self.assertEqual(itree.locate([(1, 2, 3, 4)], []), [])
        self.assertEqual(itree.locate(array.array("i"), array.array("i")), [])

    def test_answers_among_many_edges(self):
        edges = [(x, y, x + 1, y + (x + y) % 2) for y in range(0, 400, 2) for x in range(200)]
        points = [(x, y) for y in range(-1, 399) for x in range(0, 200, 7)]
        wanted = [None if y < 0 else y // 2 * 200 + x for x, y in points]
        self.assertEqual(itree.locate(edges, points), wanted)

    def test_tells_the_edges_that_cross(self):
        with self.assertRaisesRegex(ValueError, "the edges at places 0 and 2 cross"):
            itree.locate([(0, 0, 9, 9), (20, 0, 21, 0), (9, 0, 0, 9)], [(1, 1)])

    def test_what_are_no_rows(self):
        for edges, points in ([(1, 2, 3)], []), ([], [(1, 2, 3)]):
            with self.assertRaises(ValueError):
                itree.locate(edges, points)
        with self.assertRaises(OverflowError):
            itree.locate([(1, 2, 3, 2**31)], [])

    def test_raises_memory_error(self):
        library, requests = ctypes.CDLL(os.environ["ITREE_LIBRARY"]), 0
        while True:
            library.refuse_after(ctypes.c_size_t(requests))
            try:
                answer = itree.locate([(0, 0, 9, 9), (0, -5, 9, -5)], [(4, 4), (4, 3), (9, 9)])
            except MemoryError:
                requests += 1
                continue
            finally:
                library.refuse_after(ctypes.c_size_t(-1))
            break
        self.assertEqual(answer, [0, 1, None])
        self.assertGreater(requests, 2)


@contextlib.contextmanager
def without_numpy():
    """As if the program hadn't loaded numpy."""
    with mock.patch.object(_rows, "numpy_where_loaded", lambda: None):
        with mock.patch.object(_answers, "numpy_where_loaded", lambda: None):
            yield


WAYS = [without_numpy, contextlib.nullcontext] if numpy else [without_numpy]
EDGES = [(0, 0, 9, 9), (0, 9, 9, 0), (20, 0, 21, 0), (5, 1, 7, 127)]
WHOLE_EDGES = [*EDGES, (-(2**31), 2**31 - 1, -1, -128)]


def flat(rows, typecode="i"):
    return array.array(typecode, [number for row in rows for number in row])


def shaped(rows, *shape, typecode="i"):
    return memoryview(flat(rows, typecode)).cast("B").cast(typecode, shape)


def moved(rows, offset):
    """The numbers of rows in a flat buffer, so many bytes behind an address that is a multiple of four."""
    return memoryview(bytearray(offset) + flat(rows).tobytes())[offset:].cast("i")


def of_ctypes(rows, number):
    row_type = number * len(rows[0])
    return (row_type * len(rows))(*[row_type(*row) for row in rows])


def halves(rows):
    return [(row[:2], row[2:]) for row in rows]


class Unsteady:
    """A row that says another length than it has."""

    def __init__(self, items):
        self.items = items

    def __len__(self):
        return 4

    def __iter__(self):
        return iter(self.items)


class Reading(unittest.TestCase):
    def assert_read(self, given, rows, kind=_rows.EDGES, ways=WAYS):
        for way in ways:
            with self.subTest(given=given, way=way.__name__), way(), _rows.HeldRows(given, kind) as held:
                self.assertEqual(held.count, len(rows))
                if rows:
                    self.assertEqual(held.at % 4, 0)
                    there = (ctypes.c_int32 * (len(rows) * kind.width)).from_address(held.at)
                    self.assertEqual(list(there), list(flat(rows)))

    def assert_read_where_it_lies(self, given, rows, at):
        self.assert_read(given, rows)
        with _rows.HeldRows(given, _rows.EDGES) as held:
            self.assertEqual(held.at, at)


class HeldRows(Reading):
    """Each kind of rows is read as the same rows as a list are."""

    def test_rows_that_can_be_iterated_over(self):
        for rows in WHOLE_EDGES, [list(row) for row in WHOLE_EDGES], [flat([row], "q") for row in WHOLE_EDGES]:
            mixed = [*halves(rows[:1]), *rows[1:]]
            for given in rows, tuple(rows), dict.fromkeys(map(tuple, rows)), halves(rows), mixed:
                self.assert_read(given, WHOLE_EDGES)
        self.assert_read([map(int, row) for row in WHOLE_EDGES], WHOLE_EDGES, ways=[without_numpy])
        self.assert_read([WHOLE_EDGES[0], Unsteady(halves(WHOLE_EDGES)[1])], WHOLE_EDGES[:2])
        self.assert_read([(False, True, 7)], [(0, 1, 7)], _rows.SEGMENTS)
        for kind in _rows.EDGES, _rows.SEGMENTS, _rows.POINTS:
            for given in [], (), iter([]), {}:
                self.assert_read(given, [], kind)

    def test_rows_that_are_made_as_they_are_asked_for(self):
        rows = [(place, 1, 2, 3) for place in range(10000)]
        for given in rows, halves(rows), [*rows[:5000], *halves(rows[5000:])]:
            self.assert_read((row for row in given), rows, ways=[without_numpy])

    def test_what_a_generator_raises_comes_through(self):
        def rows():
            yield 1, 2, 3, 4
            raise LookupError("of the caller's")

        with self.assertRaisesRegex(LookupError, "of the caller's"):
            itree.meetings(rows())

    def test_buffers_of_each_width(self):
        for typecode in "bBhHiIlLqQ":
            self.assert_read(flat(EDGES, typecode), EDGES)
            self.assert_read(shaped(EDGES, 4, 4, typecode=typecode), EDGES)
            self.assert_read(shaped(EDGES, 4, 2, 2, typecode=typecode), EDGES)
            self.assert_read(flat([], typecode), [])
        for typecode in "ilq":
            self.assert_read(flat(WHOLE_EDGES, typecode), WHOLE_EDGES)
        for typecode in "nN":
            self.assert_read(memoryview(flat(EDGES, "q")).cast("B").cast(typecode, (4, 4)), EDGES)
        self.assert_read(memoryview(bytes([0, 1, 1])).cast("?"), [(0, 1, 1)], _rows.SEGMENTS)

    def test_buffers_of_either_order(self):
        for number in ctypes.c_int16, ctypes.c_int32, ctypes.c_int64, ctypes.c_uint32, ctypes.c_uint64:
            for ordered in number.__ctype_be__, number.__ctype_le__:
                self.assert_read(of_ctypes(EDGES, ordered), EDGES)

    def test_buffers_whose_numbers_lie_apart(self):
        for typecode in "iq":
            self.assert_read(shaped(WHOLE_EDGES, 5, 4, typecode=typecode)[::2], WHOLE_EDGES[::2])
            self.assert_read(shaped(WHOLE_EDGES, 5, 4, typecode=typecode)[::-1], WHOLE_EDGES[::-1])
            self.assert_read(memoryview(flat(WHOLE_EDGES, typecode))[::-1], [row[::-1] for row in WHOLE_EDGES[::-1]])

    def test_buffers_that_are_read_where_they_lie(self):
        numbers = flat(WHOLE_EDGES)
        at = numbers.buffer_info()[0]
        self.assert_read_where_it_lies(numbers, WHOLE_EDGES, at)
        for shape in (5, 4), (5, 2, 2):
            view = memoryview(numbers).cast("B").cast("i", shape)
            self.assert_read_where_it_lies(view, WHOLE_EDGES, at)
            self.assert_read_where_it_lies(view[1:].toreadonly(), WHOLE_EDGES[1:], at + 16)
        view = moved(EDGES, 4)
        self.assert_read_where_it_lies(view, EDGES, _memory.address_of(view))

    def test_addresses_that_are_no_multiple_of_four(self):
        for offset in range(1, 8):
            self.assert_read(moved(EDGES, offset), EDGES)
            self.assertEqual(itree.meetings(moved(EDGES, offset)), itree.meetings(EDGES))

    def test_a_buffer_is_free_again(self):
        segments = flat(WORKED[0])
        itree.below(segments, [])
        segments.append(1)
        try:
            itree.below(segments, [])
        except ValueError:
            segments.append(2)
        segments.append(2**31 - 1)
        try:
            itree.below(segments, [(0.5, 1)])
        except TypeError:
            segments.append(3)
        self.assertEqual(len(segments), 10)


@needs_numpy
class HeldArrays(Reading):
    """The same, of numpy's arrays."""

    def test_arrays_of_each_type(self):
        whole = numpy.array(EDGES)
        for kind in "bhilqBHILQ":
            for order in "<>":
                self.assert_read(whole.astype(numpy.dtype(kind).newbyteorder(order)), EDGES)
        self.assert_read(numpy.array(WHOLE_EDGES), WHOLE_EDGES)
        self.assert_read(numpy.array(WHOLE_EDGES, dtype=object), WHOLE_EDGES)
        self.assert_read(numpy.array([[True, False]]), [(1, 0)], _rows.POINTS)

    def test_arrays_of_each_order_and_slice(self):
        for kind in "iq":
            rows = numpy.array(WHOLE_EDGES, dtype=kind)
            wide = numpy.zeros((5, 9), dtype=kind)
            wide[:, 1::2] = rows
            for given in rows, numpy.asfortranarray(rows), wide[:, 1::2], rows.reshape(5, 2, 2), rows.ravel():
                self.assert_read(given, WHOLE_EDGES)
            self.assert_read(rows.T.copy().T[::-2], WHOLE_EDGES[::-2])
            self.assert_read(rows[:, ::-1], [row[::-1] for row in WHOLE_EDGES])
            self.assert_read(numpy.broadcast_to(rows[:1], (3, 4)), [WHOLE_EDGES[0]] * 3)

    def test_arrays_that_are_read_where_they_lie(self):
        rows = numpy.array(WHOLE_EDGES, dtype="i")
        self.assert_read_where_it_lies(rows, WHOLE_EDGES, rows.ctypes.data)
        rows.flags.writeable = False
        self.assert_read_where_it_lies(rows[1:], WHOLE_EDGES[1:], rows.ctypes.data + 16)

    def test_arrays_that_are_not_aligned(self):
        packed = numpy.zeros(4, dtype=[("kind", "i1"), ("edge", "i4", 4)])
        packed["edge"] = EDGES
        self.assert_read(packed["edge"], EDGES)
        self.assert_read(numpy.frombuffer(b"0" + numpy.array(EDGES, dtype="i").tobytes(), "i", offset=1), EDGES)

    def test_arrays_without_rows(self):
        for given in numpy.array([]), numpy.zeros((0, 4)), numpy.zeros((0, 2, 2), dtype=int):
            self.assert_read(given, [])

    def test_rows_that_are_arrays(self):
        self.assert_read(list(numpy.array(WHOLE_EDGES)), WHOLE_EDGES)
        self.assert_read(list(numpy.array(WHOLE_EDGES).reshape(5, 2, 2)), WHOLE_EDGES)

    def test_what_numpy_makes_arrays_of(self):
        class Table:
            def __array__(self, dtype=None, copy=None):
                return numpy.array(EDGES)

        self.assert_read(Table(), EDGES, ways=[contextlib.nullcontext])

    def test_numbers_that_do_not_fit(self):
        for kind, number in ("q", 2**31), ("q", -(2**31) - 1), ("I", 2**31), ("Q", 2**64 - 1), ("O", 10**30):
            rows = numpy.zeros((9, 4), dtype=kind)
            rows[5, 2] = number
            for given in rows, rows.reshape(9, 2, 2), numpy.asfortranarray(rows):
                with self.assertRaisesRegex(OverflowError, f"^edges, row 5: {number} doesn't fit in 32 bits$"):
                    itree.meetings(given)

    def test_floats(self):
        hint = re.escape("whole numbers are wanted; scale and round, e.g. (xy * 1e7).round().astype('int32')")
        for kind in "efdg":
            with self.assertRaisesRegex(TypeError, f"^edges: floats; {hint}$"):
                itree.meetings(numpy.ones((2, 4), dtype=kind))
        for kind in "<f", ">f", "<d", ">d":
            rows = numpy.ones((9, 4), dtype=kind)
            rows[5, 3] = numpy.nan
            for given in rows, numpy.asfortranarray(rows):
                with self.assertRaisesRegex(TypeError, "^edges, row 5: nan; whole numbers are wanted: leave such rows"):
                    itree.meetings(given)

    def test_what_are_no_rows(self):
        for kind in "M8[s]", "m8[s]", "U3", "S3", "c16", [("x", "i4")]:
            with self.subTest(kind=kind), self.assertRaisesRegex(TypeError, "^edges: .*; whole numbers are wanted$"):
                itree.meetings(numpy.zeros((2, 4), dtype=kind))
        for shape in (), (4, 9), (9, 3), (9, 4, 1), (9, 1, 4), (0, 3):
            said = r"^edges: the shape is \(.*\), and \(n, 4\) or \(n, 2, 2\) is wanted$"
            with self.subTest(shape=shape), self.assertRaisesRegex(ValueError, said):
                itree.meetings(numpy.zeros(shape, dtype=int))


class FaultyRows(unittest.TestCase):
    """What is no row is told in each argument, with its place."""

    CALLS = [
        ("edges", 4, itree.meetings),
        ("edges", 4, lambda given: itree.locate(given, [])),
        ("points", 2, lambda given: itree.locate([], given)),
        ("segments", 3, lambda given: itree.below(given, [])),
        ("points", 2, lambda given: itree.below([], given)),
    ]

    def assert_refused(self, given_of, error, said):
        """Each call refuses what `given_of` makes for the length of a row, and says what `said` does."""
        for name, width, call in self.CALLS:
            for way in WAYS:
                with self.subTest(said=said, name=name, way=way.__name__), way():
                    with self.assertRaises(error) as raised:
                        call(given_of(width))
                    wanted = said.replace("NAME", name).replace("WIDTH", str(width))
                    self.assertEqual(type(raised.exception), error)
                    self.assertEqual(str(raised.exception), wanted)

    def assert_fifth_refused(self, row_of, error, said):
        """The same of a row that stands behind good ones."""
        self.assert_refused(lambda width: [range(width)] * 5 + [row_of(width)], error, f"NAME, row 5: {said}")

    def ends_with(self, typecode, number, width):
        """Five good rows, and one of a number."""
        return array.array(typecode, [*range(5 * width), *[number] * width])

    def test_lengths(self):
        for more in -1, 1, 5:
            for name, width, call in self.CALLS:
                with self.assertRaisesRegex(ValueError, f"^{name}, row 5: {width + more} numbers, {width} are wanted$"):
                    call([range(width)] * 5 + [range(width + more)])
        self.assert_fifth_refused(lambda width: (), ValueError, "0 numbers, WIDTH are wanted")
        for row in ((1, 2), (3, 4, 5)), ((1, 2, 3), (4,)):
            with self.assertRaisesRegex(ValueError, "^edges, row 1: 3 numbers, 2 are wanted$"):
                itree.meetings([((1, 2), (3, 4)), row])
        with self.assertRaisesRegex(ValueError, "^edges, row 0: 3 numbers, 4 are wanted$"):
            itree.meetings([Unsteady((1, 2, 3))])

    def test_places_behind_many_rows(self):
        rows = [(1, 2)] * 9999 + [(1,), (1, 2)]
        for given in rows, tuple(rows), iter(rows):
            with self.assertRaisesRegex(ValueError, "^points, row 9999: 1 numbers, 2 are wanted$"):
                itree.locate([], given)

    def test_numbers_that_do_not_fit(self):
        for number in 2**31, -(2**31) - 1, 2**64, 2**127:
            self.assert_fifth_refused(lambda width: [number] * width, OverflowError, f"{number} doesn't fit in 32 bits")
        said = "a number of 33220 bits doesn't fit in 32 bits"
        self.assert_fifth_refused(lambda width: [10**10000] * width, OverflowError, said)
        for typecode, number in ("q", 2**31), ("q", -(2**31) - 1), ("I", 2**32 - 1), ("Q", 2**64 - 1):
            said = f"NAME, row 5: {number} doesn't fit in 32 bits"
            self.assert_refused(lambda width: self.ends_with(typecode, number, width), OverflowError, said)

    def test_numbers_that_are_not_whole(self):
        hint = "whole numbers are wanted; scale and round, e.g. round(x * 1e7)"
        for number in 0.5, 3.0, float("inf"), decimal.Decimal("0.5"), fractions.Fraction(1, 2), 1j:
            self.assert_fifth_refused(lambda width: [0] * (width - 1) + [number], TypeError, f"{number}; {hint}")
        hint = "whole numbers are wanted: leave such rows out, then scale and round, e.g. round(x * 1e7)"
        for number in float("nan"), decimal.Decimal("nan"):
            self.assert_fifth_refused(lambda width: [0] * (width - 1) + [number], TypeError, f"{number}; {hint}")
        for number in "1", None, b"1", [1], object:
            said = f"{type(number).__name__}; whole numbers are wanted"
            self.assert_fifth_refused(lambda width: [0] * (width - 1) + [number], TypeError, said)

    def test_floats_in_buffers(self):
        hint = "scale and round, e.g. (xy * 1e7).round().astype('int32')"
        for typecode in "fd":
            said = f"NAME: floats; whole numbers are wanted; {hint}"
            self.assert_refused(lambda width: array.array(typecode, range(6 * width)), TypeError, said)
            said = f"NAME, row 5: nan; whole numbers are wanted: leave such rows out, then {hint}"
            self.assert_refused(lambda width: self.ends_with(typecode, float("nan"), width), TypeError, said)

    def test_what_are_no_rows(self):
        for row in 7, None, "1234", "ab", 0.5:
            self.assert_fifth_refused(lambda width: row, TypeError, f"{type(row).__name__}; WIDTH numbers are wanted")
        for given in 7, None, "1234", object, 0.5:
            said = f"NAME: {type(given).__name__}; rows of WIDTH numbers are wanted"
            self.assert_refused(lambda width: given, TypeError, said)
        said = "NAME: bytes; say what numbers they are, e.g. memoryview(NAME).cast('i')"
        for given in b"123412341234", bytearray(12), memoryview(b"123412341234"), mmap.mmap(-1, 12):
            self.assert_refused(lambda width: given, TypeError, said)

    def test_shapes(self):
        said = "NAME: 25 numbers in a flat buffer, and rows of WIDTH are wanted"
        for typecode in "iq":
            self.assert_refused(lambda width: array.array(typecode, range(25)), ValueError, said)
        for shape in (2, 5), (1, 10), (5, 1, 2):
            for typecode in "iq":
                numbers = shaped([range(10)], *shape, typecode=typecode)
                for name, width, call in self.CALLS:
                    with self.assertRaises(ValueError) as raised:
                        call(numbers)
                    wanted = f"{name}: the shape is {shape}, and (n, {width}){' or (n, 2, 2)' * (width == 4)} is wanted"
                    self.assertEqual(str(raised.exception), wanted)

    def test_formats(self):
        class Corner(ctypes.Structure):
            _fields_ = [("x", ctypes.c_int32)]

        for number in Corner, ctypes.c_void_p, ctypes.c_char:
            said = f"NAME: numbers of the format {memoryview((number * 12)()).format!r}; whole numbers are wanted"
            self.assert_refused(lambda width: (number * 12)(), TypeError, said)

    def test_released_views(self):
        view = memoryview(flat(EDGES))
        view.release()
        with self.assertRaisesRegex(TypeError, "^edges: operation forbidden on released memoryview object; "):
            itree.meetings(view)


class Arrays(unittest.TestCase):
    """Answers as arrays are the answers as lists."""

    def assert_same(self, one, other):
        # Of lists that are as long as these, unittest takes minutes to say where they differ.
        self.assertTrue(one == other)

    def test_places(self):
        numbers = random.Random(32)
        edges = [(x, y, x + 3, y + 1) for x in range(0, 60, 3) for y in range(0, 20, 2)]
        points = [(numbers.randrange(-9, 69), numbers.randrange(-9, 29)) for _ in range(40000)]
        wanted = [-1 if place is None else place for place in itree.locate(edges, points)]
        self.assertTrue(4000 < wanted.count(-1) < 36000)
        for way in WAYS:
            with way():
                places = itree.locate(edges, points, as_array=True)
            self.assertEqual((places.format, places.shape), ("q", (40000,)))
            self.assert_same(places.tolist(), wanted)
            self.assertEqual(itree.locate(edges, [], True).tolist(), [])
            self.assertEqual(itree.locate([], [(1, 2)], True).tolist(), [-1])

    def test_heights(self):
        numbers = random.Random(33)
        segments = [(3 * x, 3 * x + 2, y - 40) for x in range(20) for y in range(0, 80, 7)]
        points = [(numbers.randrange(-9, 69), numbers.randrange(-60, 60)) for _ in range(40000)]
        wanted = itree.below(segments, points)
        values, found = itree.below(segments, points, as_array=True)
        self.assertTrue(4000 < wanted.count(None) < 36000)
        self.assertEqual((values.format, values.shape, found.format, found.shape), ("i", (40000,), "?", (40000,)))
        self.assert_same(found.tolist(), [height is not None for height in wanted])
        self.assert_same(values.tolist(), [height or 0 for height in wanted])
        heights = itree.below([(0, 9, -(2**31)), (0, 9, 2**31 - 1)], [(1, 0), (1, 2**31 - 1), (10, 0)], True)
        self.assertEqual(heights.values.tolist(), [-(2**31), 2**31 - 1, 0])
        self.assertEqual(heights.found.tolist(), [True, True, False])
        for points in [], array.array("q"):
            self.assertEqual([it.tolist() for it in itree.below(segments, points, as_array=True)], [[], []])

    def test_pairs(self):
        edges = [(0, place, 400, 400 - place) for place in range(401)]
        for given, count in (edges, 80200), (EDGES, 3), (EDGES[2:3], 0), ([], 0):
            pairs = itree.meetings(given, as_array=True)
            self.assertEqual((pairs.format, pairs.shape, len(pairs)), ("Q", (count, 2), count))
            self.assert_same(list(map(tuple, pairs.tolist())), itree.meetings(given))
            self.assertFalse(pairs.readonly)

    def test_faults(self):
        with self.assertRaises(itree.Overlap):
            itree.below([(0, 9, 1), (8, 9, 1)], [], as_array=True)
        with self.assertRaises(itree.Crossing):
            itree.locate(EDGES, [], as_array=True)

    @needs_numpy
    def test_numpy_takes_them_without_a_copy(self):
        edges, points = numpy.array(EDGES), numpy.array([(0, 0), (20, 9), (90, 9)])
        for view, kind, shape in (
            (itree.meetings(edges, as_array=True), "uint64", (3, 2)),
            (itree.meetings(edges[:1], as_array=True), "uint64", (0, 2)),
            (itree.locate(edges[1:3], points, as_array=True), "int64", (3,)),
            (itree.below([], points, as_array=True).values, "int32", (3,)),
            (itree.below([], points, as_array=True).found, "bool", (3,)),
        ):
            taken = numpy.asarray(view)
            self.assertEqual((taken.dtype, taken.shape), (kind, shape))
            if taken.size:
                taken[:1] = 1
                self.assertEqual(view.tolist(), taken.tolist())
                self.assertTrue(numpy.shares_memory(taken, numpy.asarray(view)))


class Exceptions(unittest.TestCase):
    def copies(self, fault):
        pickles = [pickle.loads(pickle.dumps(fault, version)) for version in range(pickle.HIGHEST_PROTOCOL + 1)]
        return [*pickles, copy.copy(fault), copy.deepcopy(fault)]

    def test_copies(self):
        with self.assertRaises(itree.Overlap) as overlap:
            itree.below([(0, 9, 1), (8, 9, 1)], [])
        with self.assertRaises(itree.Crossing) as crossing:
            itree.locate(EDGES, [])
        for fault in overlap.exception, crossing.exception:
            fault.file = "a.txt"
            for it in self.copies(fault):
                self.assertEqual((type(it), str(it), vars(it)), (type(fault), str(fault), vars(fault)))

    def test_statuses_without_a_reason(self):
        with self.assertRaisesRegex(SystemError, "status 4"):
            _library.checked(4)


class Library(unittest.TestCase):
    def imported(self, library):
        """What Python says that imports the package, with a name of the library."""
        env = {**os.environ, "PYTHONPATH": str(PACKAGE.parent), "ITREE_LIBRARY": library}
        how = {"stdout": subprocess.PIPE, "stderr": subprocess.STDOUT, "text": True}
        return subprocess.run([sys.executable, "-c", "import itree; print('good')"], env=env, **how).stdout

    def test_names_that_lead_nowhere(self):
        self.assertIn("ImportError: /no/where.so isn't there, which ITREE_LIBRARY names", self.imported("/no/where.so"))
        said = "which ITREE_LIBRARY names, isn't itree's library: "
        with tempfile.TemporaryDirectory() as folder:
            self.assertIn(f"ImportError: {folder}, {said}", self.imported(folder))
        here = os.path.abspath(__file__)
        self.assertIn(f"ImportError: {here}, {said}", self.imported(here))
        self.assertRegex(self.imported(ctypes.util.find_library("c") or "libc.so.6"), "ITREE_LIBRARY names")

    def test_names_that_lead_there(self):
        self.assertEqual(self.imported(os.environ["ITREE_LIBRARY"]), "good\n")
        self.assertEqual(self.imported(os.path.relpath(os.environ["ITREE_LIBRARY"])), "good\n")


class Package(unittest.TestCase):
    def test_is_written_in_the_oldest_python(self):
        for path in PACKAGE.glob("*.py"):
            ast.parse(path.read_text(encoding="utf-8"), path.name, feature_version=(3, 8))

    def test_leaves_what_is_shared_as_it_was(self):
        for call in ctypes.pythonapi.PyObject_GetBuffer, ctypes.pythonapi.PyBuffer_Release:
            self.assertEqual((call.argtypes, call.restype), (None, ctypes.c_int))

    def test_each_name_has_its_help(self):
        for name in itree.__all__:
            self.assertTrue(getattr(itree, name).__doc__, name)

    @unittest.skipUnless(shutil.which("mypy"), "mypy isn't there")
    def test_types(self):
        with tempfile.TemporaryDirectory() as folder:
            user = pathlib.Path(folder, "user.py")
            user.write_text(USER)
            words = ["mypy", "--strict", "--cache-dir", folder, str(user), *map(str, PACKAGE.glob("*.py"))]
            env = {**os.environ, "MYPYPATH": str(PACKAGE.parent)}
            told = subprocess.run(words, env=env, stdout=subprocess.PIPE, stderr=subprocess.STDOUT, text=True).stdout
        faulty = {int(line) for line in re.findall(r"^\S*user\.py:(\d+): error", told, re.M)}
        wanted = {place for place, line in enumerate(USER.splitlines(), 1) if line.endswith("# error")}
        self.assertEqual((faulty, told.count("error: ")), (wanted, len(wanted)), told)


USER = """\
import array
from typing import Iterator, List, Optional, Tuple
import itree
edges: List[Tuple[int, int, int, int]] = [(0, 0, 9, 9)]
def rows() -> Iterator[Tuple[int, ...]]:
    yield 1, 2, 3, 4
pairs: List[Tuple[int, int]] = itree.meetings(edges)
pairs = itree.meetings([[0, 0, 9, 9]]) + itree.meetings([((0, 0), (9, 9))]) + itree.meetings(rows())
pairs = itree.meetings(array.array("q")) + itree.meetings(memoryview(b""))
view: memoryview = itree.meetings(edges, as_array=True)
pairs = itree.meetings_between(edges, [((0, 0), (9, 9))])
view = itree.meetings_between(edges, edges, as_array=True)
pair: Optional[Tuple[int, int]] = itree.first_meeting(edges)
kind: str = itree.how_they_meet((0, 0, 9, 9), [(0, 9), (9, 0)])
kind = itree.how_they_meet(edges[0], array.array("i"))
crosses = itree.how_they_meet(edges[0], edges[0]) == "crosses"  # error
broken: List[List[Tuple[int, int]]] = itree.snap(edges) + itree.node(edges)
chains: itree.Chains = itree.node(edges, as_array=True, memory_limit=10**6)
places: List[Optional[int]] = itree.locate(edges, [(1, 2)])
view = itree.locate(edges, [(1, 2)], True)
heights: List[Optional[int]] = itree.below([(1, 2, 3)], [(1, 2)])
values, found = itree.below([(1, 2, 3)], [(1, 2)], as_array=True)
view = values
grid = itree.Grid.fit([[(0.5, 1), (2, 3)]], {"type": "Polygon", "coordinates": []}, unit=0.5)
unit: float = grid.unit
polygons: itree.Polygons = itree.overlay([[(0, 0), (9, 9)]], [array.array("i"), memoryview(b"")], "xor", grid=grid)
polygons = itree.simplify({"type": "Polygon", "coordinates": []}, rule="evenodd")
polygons = itree.overlay(polygons, [polygons[0], [(1, 2)]], grid=None)
polygons = itree.simplify([{"type": "Polygon", "coordinates": []}, [[0.5, 1]]], grid=grid)
outer: List[Tuple[float, float]] = polygons[0].outer + [point for it in polygons[1:] for hole in it.holes for point in hole]
view = polygons.ring_offsets
polygons = itree.unary_union([b"", bytearray(), None, polygons], memory_limit=10**9)
polygons = itree.make_valid(itree.Rings(array.array("d"), [0]), grid=grid)
data: bytes = polygons.to_wkb()
each: List[bytes] = polygons.to_wkb(srid=4326, each=True)
drawn: str = polygons.to_svg()
pairs = itree.meetings(edges, memory_limit=10**6)
view = itree.meetings(edges, as_array=True, memory_limit=10**6)
places = polygons.parents()
overlays: itree.Overlays = itree.overlay_each([polygons, None, b""], polygons[:3], "xor", pairs=[(0, 1)], grid=grid)
overlays = itree.overlay_each(overlays, {"type": "FeatureCollection", "features": []}, pairs=memoryview(b""))
overlays = itree.overlay_each(itree.Rings(array.array("i"), [0]), [[[(0, 0), (9, 9)]]], rule="evenodd", memory_limit=10**9)
each = overlays.to_wkb(srid=4326)
polygons = overlays[0]
several: List[itree.Polygons] = overlays[1:]
view = overlays.offsets
pairs = itree.candidate_pairs(overlays, [polygons]) + itree.points_in([(0.5, 1)], polygons, border="half-open")
view = itree.candidate_pairs(polygons, polygons, True)
view = itree.points_in(array.array("d"), polygons, as_array=True)
pieces: itree.Pieces = itree.clip([[(0, 0), (9, 9.5)], None], polygons, "outside", grid=grid)
pieces = itree.clip({"type": "LineString", "coordinates": []}, [b""])
piece: List[List[Tuple[float, float]]] = pieces[0]
each = pieces.to_wkb()
judged = itree.is_valid([[(0, 0), (9, 9)]]), itree.is_valid(b""), itree.is_valid([[[(0, 0), (9, 9)]], None, b""], grid=grid)
told = itree.is_valid_reason(polygons), itree.is_valid_reason({"type": "Polygon", "coordinates": []}, memory_limit=10**9)
version: str = itree.__version__
itree.meetings([(0.5, 1, 2, 3)])  # error
itree.meetings("abcd")  # error
itree.meetings(7)  # error
view = itree.meetings(edges)  # error
pairs = itree.meetings(edges, as_array=True)  # error
pairs = itree.meetings_between(edges, edges, as_array=True)  # error
pair = itree.first_meeting(7)  # error
broken = itree.node(edges, as_array=True)  # error
kind = itree.how_they_meet(7, edges[0])  # error
itree.overlay([[("a", 1)]], [])  # error
itree.overlay([], [], "sum")  # error
itree.simplify([], "even-odd")  # error
itree.simplify(7)  # error
itree.simplify([], memory_limit="1 GB")  # error
data = polygons.to_wkb(each=True)  # error
unit = polygons.grid  # error
itree.overlay_each(7, [])  # error
itree.overlay_each([], [], "sum")  # error
itree.points_in([(1, 2)], polygons, border="half")  # error
view = itree.points_in([(1, 2)], polygons)  # error
itree.clip([], [], "in")  # error
itree.is_valid(7)  # error
itree.is_valid_reason([(0, 0), (9, 9)])  # error
"""


def load_tests(_loader, tests, _pattern):
    for module in itree, _answers, _edges, _library, _memory, _rows:
        tests.addTests(doctest.DocTestSuite(module))
    return tests


if __name__ == "__main__":
    unittest.main()
