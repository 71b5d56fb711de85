"""What rings wind around, which says what the mode `overlay` is to answer, and what is to hold of its polygons.

The winding number of edges around a point is how many of them lie under it and go rightwards, less those that lie under it and
go leftwards. An edge lies under a point that it covers the X of, from its lesser X up to the greater, which it doesn't cover,
at a height that is at most the point's. Points and edges have whole coordinates here: PARTS of them are one of the program's.
"""

from collections import defaultdict
from itertools import chain, combinations
from typing import NamedTuple

from chains import is_near, winding
from local_noding import noded

# So many parts is one, and half of one.
PARTS = 12
HALF = PARTS // 2

# Of so many edges, at most, it is asked whether two cross at a point with fractions, and of so many what their chains are.
FEW = 80
FEWER = 30

# A point just inside of a ring is this much closer to it than the ring's edges are long. It lies aside of their middles, since
# there corners may touch.
JUST = 2**80
ASIDE = 2**80 * 1618 // 7001

OPERATIONS = {
    "union": lambda subject, clip: subject or clip,
    "intersection": lambda subject, clip: subject and clip,
    "difference": lambda subject, clip: subject and not clip,
    "xor": lambda subject, clip: subject != clip,
}

RULES = {
    "evenodd": lambda winding: winding % 2 == 1,
    "nonzero": lambda winding: winding != 0,
    "positive": lambda winding: winding > 0,
    "negative": lambda winding: winding < 0,
}


class Drawing(NamedTuple):
    """Rings of a subject and of a clip, each the list of its points."""

    subject: list
    clip: list


def edges_of(rings, scale=1):
    """The edges of rings, each with so many times its coordinates."""
    ends = chain.from_iterable(zip(ring, ring[1:] + ring[:1]) for ring in rings)
    return [(x0 * scale, y0 * scale, x1 * scale, y1 * scale) for (x0, y0), (x1, y1) in ends]


class Columns:
    """Edges by columns, so that those over or under a point, and those close to it, are few to look through."""

    # So many edges have a column more.
    EACH = 8

    def __init__(self, edges):
        left = min((min(x0, x1) for x0, _, x1, _ in edges), default=0)
        right = max((max(x0, x1) for x0, _, x1, _ in edges), default=0)
        self.left, self.width = left, max(1, (right - left) * self.EACH // (len(edges) + 1))
        self.found = defaultdict(list)
        for edge in edges:
            least, greatest = sorted((edge[0], edge[2]))
            for column in range(self.column(least - HALF), self.column(greatest + HALF) + 1):
                self.found[column].append(edge)

    def column(self, x):
        return (x - self.left) // self.width

    def beside(self, point):
        """The edges of the point's column, among them all that are at most a half away from it."""
        return self.found.get(self.column(point[0]), ())


def is_along_axis(edge):
    x0, y0, x1, y1 = edge
    return x0 == x1 or y0 == y1


def meet_at_fraction(one, other):
    """Whether two edges that aren't parallel meet in a point that isn't whole."""
    (x0, y0, x1, y1), (z0, w0, z1, w1) = one, other
    apart = (x1 - x0) * (w1 - w0) - (y1 - y0) * (z1 - z0)
    share = (z0 - x0) * (w1 - w0) - (w0 - y0) * (z1 - z0)
    its_share = (z0 - x0) * (y1 - y0) - (w0 - y0) * (x1 - x0)
    if apart < 0:
        apart, share, its_share = -apart, -share, -its_share
    if not apart or not (0 <= share <= apart and 0 <= its_share <= apart):
        return False
    return share * (x1 - x0) % apart != 0 or share * (y1 - y0) % apart != 0


def none_is_moved(edges):
    """Whether no two of the edges, which are few, meet in a point that isn't whole: so that none is moved."""
    return len(edges) <= FEW and not any(meet_at_fraction(one, other) for one, other in combinations(edges, 2))


def chain_edges(subject, clip):
    """The pieces of the subject's edges and those of the clip's, broken together."""
    its, clips = ([edge for edge in edges if edge[:2] != edge[2:]] for edges in (subject, clip))
    found = [list(zip(points, points[1:])) for points in noded(its + clips)[0]]
    return [[one + other for pieces in some for one, other in pieces] for some in (found[: len(its)], found[len(its) :])]


def double_area(ring):
    """Twice the area of a ring that runs counterclockwise; below 0 where it runs clockwise."""
    return sum(x0 * y1 - x1 * y0 for x0, y0, x1, y1 in edges_of([ring]))


def has_straight_point(ring):
    """Whether some point of the ring lies between those beside it on one line."""
    beside = zip(ring[-1:] + ring[:-1], ring, ring[1:] + ring[:1])
    return any((x1 - x0) * (y2 - y1) == (y1 - y0) * (x2 - x1) for (x0, y0), (x1, y1), (x2, y2) in beside)


def polygons_in(text):
    """The polygons that replies tell, each the list of its rings."""
    found = []
    for line in text.decode().splitlines():
        name, *words = line.split(" ")
        numbers = list(map(int, words))
        ring = list(zip(numbers[::2], numbers[1::2]))
        if len(numbers) % 2 or name not in ("polygon", "hole") or name == "hole" and not found:
            raise ValueError(f"the reply {line!r}")
        if name == "polygon":
            found.append([])
        found[-1].append(ring)
    return found


def ring_problems(polygon):
    """What is wrong with a polygon's rings, each for itself."""
    for place, ring in enumerate(polygon):
        if len(set(ring)) < len(ring):
            yield f"the ring {ring} visits a point twice"
        if (double_area(ring) > 0) != (place == 0) or double_area(ring) == 0:
            yield f"the {'hole' if place else 'outer ring'} {ring} runs the other way"
        if has_straight_point(ring):
            yield f"the ring {ring} has a point on a straight line"


def just_inside(ring):
    """A point for each edge of a ring, left of the edge and close to it, in parts of which 2 * JUST are one."""
    for x0, y0, x1, y1 in edges_of([ring]):
        yield JUST * (x0 + x1) + ASIDE * (x1 - x0) - (y1 - y0), JUST * (y0 + y1) + ASIDE * (y1 - y0) + (x1 - x0)


def hole_problems(polygon):
    """Which holes don't lie in their polygon: a hole runs clockwise, so what is left of it lies outside of it."""
    outer = Columns(edges_of(polygon[:1], 2 * JUST)) if polygon[1:] else None
    for hole in polygon[1:]:
        if any(winding(outer.beside(point), point) != 1 for point in just_inside(hole[::-1])):
            yield f"the hole {hole} isn't inside of {polygon[0]}"


def has(window, point):
    """Whether a window has the point, in parts: it has those on its left and its lower side, too."""
    left, low, right, high = (side * PARTS for side in window)
    return left <= point[0] < right and low <= point[1] < high


def point_problems(drawing, polygons, rule, operation, points, window=None):
    """At which points the polygons wind otherwise than they are to: around none outside of the window, where there is one. Its
    border breaks edges, too, so that they may be moved."""
    given = [edges_of(rings) for rings in drawing]
    is_exact = all(map(is_along_axis, chain(*given))) or not window and none_is_moved([*chain(*given)])
    subject, clip = (edges_of(rings, PARTS) for rings in drawing)
    subject, clip, *made = map(Columns, (subject, clip, *(edges_of(polygon, PARTS) for polygon in polygons)))
    is_inside, operate = RULES[rule], OPERATIONS[operation]
    for point in points:
        windings = [winding(edges.beside(point), point) for edges in made]
        where = "{}/{} {}/{}".format(point[0], PARTS, point[1], PARTS)
        if not {0, 1}.issuperset(windings) or sum(windings) > 1:
            yield f"around {where} the polygons wind {windings} times"
            continue
        its, clips = subject.beside(point), clip.beside(point)
        is_outside = window and not has(window, point)
        if is_outside or is_exact or not any(is_near(edge, point, HALF) for edge in (*its, *clips) if not is_along_axis(edge)):
            wanted = not is_outside and operate(is_inside(winding(its, point)), is_inside(winding(clips, point)))
            if sum(windings) != wanted:
                yield f"around {where} the polygons wind {sum(windings)} times in place of {int(wanted)}"


def chain_problems(drawing, polygons, rule, operation, points):
    """At which points the polygons wind otherwise than the pieces of the edges' chains say, at points close to edges, too."""
    given = [edges_of(rings) for rings in drawing]
    if sum(map(len, given)) > FEWER:
        return
    pieces = [[tuple(number * PARTS for number in edge) for edge in edges] for edges in chain_edges(*given)]
    made = edges_of([ring for polygon in polygons for ring in polygon], PARTS)
    is_inside, operate = RULES[rule], OPERATIONS[operation]
    for point in points:
        wanted = operate(*(is_inside(winding(edges, point)) for edges in pieces))
        if winding(made, point) != wanted:
            yield f"around {point[0]}/{PARTS} {point[1]}/{PARTS} the polygons wind otherwise than the chains say"


def sides(edge, points):
    """On which sides of the edge's line the points lie: 1 left of it, -1 right of it, 0 on it."""
    x0, y0, x1, y1 = edge
    areas = [(x1 - x0) * (y - y0) - (y1 - y0) * (x - x0) for x, y in points]
    return [(area > 0) - (area < 0) for area in areas]


def are_crossing(one, other):
    """Whether two edges share a point that is an end of neither, or more points than one."""
    if max(one[1], one[3]) < min(other[1], other[3]) or max(other[1], other[3]) < min(one[1], one[3]):
        return False
    ends, others = (one[:2], one[2:]), (other[:2], other[2:])
    aside, beside = sides(one, others), sides(other, ends)
    if aside == [0, 0]:
        return max(min(ends), min(others)) < min(max(ends), max(others))
    return aside[0] * aside[1] < 0 and beside[0] * beside[1] < 0


def edge_problems(polygons):
    """Which edges meet elsewhere than at an end: a corner may touch a side, since points on straight lines are left out."""
    edges = edges_of([ring for polygon in polygons for ring in polygon])
    live = []
    for edge in sorted(edges, key=lambda edge: min(edge[0], edge[2])):
        left = min(edge[0], edge[2])
        live = [other for other in live if max(other[0], other[2]) >= left]
        yield from (f"the edges {edge} and {other} cross" for other in live if are_crossing(edge, other))
        live.append(edge)


def problems(drawing, polygons, rule, operation, points, window=None):
    """What is wrong with the polygons, if anything; within a window, where there is one."""
    for polygon in polygons:
        yield from ring_problems(polygon)
        yield from hole_problems(polygon)
    yield from edge_problems(polygons)
    yield from point_problems(drawing, polygons, rule, operation, points, window)
