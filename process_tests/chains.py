"""Chains of edges by clipping with fractions, which are what the mode `snap` is to answer, and chains by two wrong rules.

A number rounds to the whole one at most a half below it or less than a half above it. So the points that round to a whole point
are a square around it, with its left and its lower border and without the others. Hot points are the ends of edges and what
the points round to in which two edges meet that aren't parallel. The chain of an edge is the hot points that a point of it
rounds to. The pieces of a chain go from each of its points to the next.
"""

from fractions import Fraction
from itertools import combinations
from math import floor

HALF = Fraction(1, 2)

# The first and the last share of each edge. Behind a share stands 0 for the share itself, 1 for what lies just behind it and -1
# for what lies just before it.
WHOLE = (0, 0), (1, 0)
NOTHING = (1, 0), (0, 0)


def meeting(one, other):
    """The point in which two edges meet that aren't parallel, or None."""
    (x0, y0, x1, y1), (z0, w0, z1, w1) = one, other
    apart = (x1 - x0) * (w1 - w0) - (y1 - y0) * (z1 - z0)
    if not apart:
        return None
    share = Fraction((z0 - x0) * (w1 - w0) - (w0 - y0) * (z1 - z0), apart)
    its_share = Fraction((z0 - x0) * (y1 - y0) - (w0 - y0) * (x1 - x0), apart)
    if not (0 <= share <= 1 and 0 <= its_share <= 1):
        return None
    return x0 + share * (x1 - x0), y0 + share * (y1 - y0)


def rounded(point):
    return tuple(floor(number + HALF) for number in point)


def crossings(edges):
    """What the points round to in which edges meet: for each edge those of it."""
    found = [set() for _ in edges]
    for (one, its), (other, others) in combinations(zip(edges, found), 2):
        point = meeting(one, other)
        if point:
            its.add(rounded(point))
            others.add(rounded(point))
    return found


def winding(edges, point):
    """How often the edges wind around the point."""
    x, y = point
    count = 0
    for x0, y0, x1, y1 in edges:
        if x0 <= x < x1:
            count += (x1 - x0) * (y - y0) >= (y1 - y0) * (x - x0)
        elif x1 <= x < x0:
            count -= (x0 - x1) * (y - y1) >= (y0 - y1) * (x - x1)
    return count


def is_near(edge, point, half=HALF):
    """Whether a point of the edge is at most a half away from the point on both axes."""
    (x0, y0, x1, y1), (x, y) = edge, point
    if not (min(x0, x1) - half <= x <= max(x0, x1) + half and min(y0, y1) - half <= y <= max(y0, y1) + half):
        return False
    across, up = x1 - x0, y1 - y0
    return abs(across * (y - y0) - up * (x - x0)) <= half * (abs(across) + abs(up))


def ends(edge):
    return {edge[:2], edge[2:]}


def shares(start, end, number, beside):
    """The first and the last share of the way from one number to another that rounds to this whole number. What is as much as a
    half above it is beside it by so much."""
    if start == end:
        return WHOLE if number - HALF <= start < number + HALF else NOTHING
    low, high = (Fraction(2 * (number - start) + twice, 2 * (end - start)) for twice in (-1, 1))
    return ((low, 0), (high, -beside)) if start < end else ((high, beside), (low, 0))


def passage(edge, point, beside=1):
    """The first and the last share of the edge that rounds to the point, or None where there is none."""
    x0, y0, x1, y1 = edge
    firsts, lasts = zip(WHOLE, shares(x0, x1, point[0], beside), shares(y0, y1, point[1], beside))
    return (max(firsts), min(lasts)) if max(firsts) <= min(lasts) else None


def chain(edge, points, beside=1):
    """Those of the points that the edge rounds to, in the order in which it passes them."""
    passed = [(passage(edge, point, beside), point) for point in points]
    return [point for shares, point in sorted(it for it in passed if it[0])]


def hot_points(edges):
    return set().union(*map(ends, edges), *crossings(edges))


def chains(edges):
    """The chain of each edge."""
    points = hot_points(edges)
    return [chain(edge, points) for edge in edges]


def own_chains(edges):
    """Wrong ones: each edge has its own ends and crossings alone."""
    return [chain(edge, ends(edge) | its) for edge, its in zip(edges, crossings(edges))]


def closed_chains(edges):
    """Wrong ones: each square has all of its borders."""
    points = hot_points(edges)
    return [chain(edge, points, 0) for edge in edges]


def pieces(found):
    """The pieces of chains, each once whatever its direction. A chain of one point has that point."""
    pairs = {tuple(sorted(pair)) for chain in found for pair in zip(chain, chain[1:] or chain)}
    return [one + other for one, other in pairs]


def is_inside(point, piece):
    """Whether the point is of the piece, and none of its ends."""
    (x, y), (x0, y0, x1, y1) = point, piece
    is_along = (x - x0) * (y1 - y0) == (y - y0) * (x1 - x0)
    return is_along and x0 <= x <= x1 and min(y0, y1) <= y <= max(y0, y1) and point not in ends(piece)


def boxes_meet(one, other):
    (x0, y0, x1, y1), (z0, w0, z1, w1) = one, other
    in_height = max(min(y0, y1), min(w0, w1)) <= min(max(y0, y1), max(w0, w1))
    return in_height and max(min(x0, x1), min(z0, z1)) <= min(max(x0, x1), max(z0, z1))


def stray(one, other):
    """Whether two pieces that aren't the same share a point that isn't an end of both."""
    if not boxes_meet(one, other):
        return False
    point = meeting(one, other)
    if point:
        return point not in ends(one) & ends(other)
    return any(is_inside(end, other) for end in ends(one)) or any(is_inside(end, one) for end in ends(other))


def are_apart(found):
    """Whether the pieces of these chains meet in common ends alone."""
    return not any(stray(one, other) for one, other in combinations(pieces(found), 2))
