#!/usr/bin/env python3
"""The noding that moves only what it must, by its definition with fractions, which is what the mode `node` is to answer, and
what is to hold of it.

Candidates are the ends of edges and what the points round to in which two edges meet that aren't parallel. What such a point
with fractions rounds to moves edges: those that pass it and that it isn't on. Each candidate that a moved edge passes moves
edges, too. The chain of a moved edge is the candidates that it passes, that of any other one those of them that lie on it.

usage: process_tests/local_noding.py SETS [SEED]

So many sets of edges by chance are noded, lines and rings, on small grids. The first that isn't as it should be is printed. The
cases of the program stand in nodes.py.
"""

import sys
from fractions import Fraction
from itertools import combinations
from random import Random

from chains import are_apart, chain, ends, hot_points, is_inside, is_near, meeting, passage, rounded, winding

BOUNDS = 3, 5, 8, 14, 30
MOST = 9
PLACES = 12


def is_on(point, edge):
    return point in ends(edge) or is_inside(point, edge if edge[:2] <= edge[2:] else edge[2:] + edge[:2])


def hot_first(edges):
    """What the points with fractions round to in which two edges meet."""
    points = filter(None, (meeting(one, other) for one, other in combinations(edges, 2)))
    return {rounded(point) for point in points if point != rounded(point)}


def moved_by(passes, edges, hot):
    """The places of the edges that pass a hot point which isn't on them."""
    return {place for place, edge in enumerate(edges) if any(not is_on(point, edge) for point in passes[place] & hot)}


def rounds(passes, edges):
    """The hot points and the places of moved edges, round by round until nothing joins."""
    hot, moved = hot_first(edges), set()
    while True:
        more = moved_by(passes, edges, hot)
        if more == moved:
            return hot, moved
        moved = more
        hot = hot.union(*(passes[place] for place in moved))


def noded(edges):
    """The chain of each edge, the hot points, and the places of moved edges."""
    candidates = hot_points(edges)
    passes = [{point for point in candidates if passage(edge, point)} for edge in edges]
    hot, moved = rounds(passes, edges)
    on = [{point for point in its if is_on(point, edge)} for edge, its in zip(edges, passes)]
    found = [chain(edge, passes[place] if place in moved else on[place]) for place, edge in enumerate(edges)]
    return found, hot, moved


def counts_as_before(edge, found, is_moved, x, y):
    """Whether the pieces of a chain count at the point what the edge counts, where that is promised."""
    if is_moved and edge[0] != edge[2] and edge[1] != edge[3] and is_near(edge, (x, y)):
        return True
    return winding([one + other for one, other in zip(found, found[1:])], (x, y)) == winding([edge], (x, y))


def problem(random, edges, model):
    """What isn't as it should be of edges and what `noded` makes of them, or None."""
    found, hot, moved = model
    candidates = hot_points(edges)
    if not are_apart(found):
        return "pieces meet apart from common ends"
    if not hot_first(edges) and (hot or moved):
        return "something is moved, and nothing crosses at a fraction"
    for place, (edge, its) in enumerate(zip(edges, found)):
        whole = chain(edge, candidates)
        if (its[0], its[-1]) != (edge[:2], edge[2:]):
            return "a chain has other ends than its edge"
        if place in moved and (its != whole or all(is_on(point, edge) for point in its)):
            return "a moved edge has another chain than by hot ends, or lies where it lay"
        if place not in moved and its != [point for point in whole if is_on(point, edge)]:
            return "an edge that isn't moved has another chain than what lies on it"
        x, y = (Fraction(random.randint(-30 * PLACES, 30 * PLACES), random.choice((1, 2, PLACES))) for _ in range(2))
        for near_x, near_y in ((x, y), (its[0][0] + x / 40, its[0][1] + y / 40)):
            if not counts_as_before(edge, its, place in moved, near_x, near_y):
                return "a chain counts otherwise than its edge"
    return None


def edges_by_chance(random):
    """Some edges, by themselves, one after another, or in rings."""
    bound, count = random.choice(BOUNDS), random.randint(2, MOST)
    points = [(random.randint(-bound, bound), random.randint(-bound, bound)) for _ in range(2 * count)]
    shape = random.randrange(3)
    if shape == 0:
        return [one + other for one, other in zip(points[::2], points[1::2])]
    if shape == 1:
        return [one + other for one, other in zip(points[:count], points[1:])]
    rings = points[:count], points[count : random.randint(count, 2 * count)]
    return [one + other for ring in rings for one, other in zip(ring, ring[1:] + ring[:1])]


def main():
    count, random = int(sys.argv[1]), Random(int(sys.argv[2]) if len(sys.argv) > 2 else 0)
    all_edges = moved_here = moved_by_snap = quiet = 0
    for _ in range(count):
        edges = edges_by_chance(random)
        model = noded(edges)
        wrong = problem(random, edges, model)
        if wrong:
            sys.exit(f"{wrong}: {edges}")
        _found, _hot, moved = model
        points = hot_points(edges)
        all_edges += len(edges)
        moved_here += len(moved)
        moved_by_snap += sum(not all(is_on(point, edge) for point in chain(edge, points)) for edge in edges)
        quiet += not moved
    print(f"{count} sets, {all_edges} edges: {moved_here} moved, and {moved_by_snap} by hot ends; nothing in {quiet} sets")


if __name__ == "__main__":
    main()
