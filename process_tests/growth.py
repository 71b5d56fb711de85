"""The points that polygons, or paths, and a convex shape add up to, which says what is to be wound around where they grow, and
those from which the shape lies inside; and such polygons, paths and shapes by chance.

A point is of the sum where the shape, turned by half a circle and moved there, meets the polygons. Whether two convex parts
meet is told by lines along their sides: they don't where one such line has them on both sides.
"""

from chains import is_near, winding
from windings import HALF, PARTS, edges_of, is_along_axis

# So many points are looked at in each case.
LOOKS = 40


def turn(first, second, third):
    """Above 0 where the way over three points turns left."""
    (x0, y0), (x1, y1), (x2, y2) = first, second, third
    return (x1 - x0) * (y2 - y1) - (y1 - y0) * (x2 - x1)


def meets(edge, corners):
    """Whether an edge and a convex polygon, which runs counterclockwise, have a point in common."""
    start, end = edge[:2], edge[2:]
    xs, ys = zip(*corners)
    if max(start[0], end[0]) < min(xs) or max(xs) < min(start[0], end[0]):
        return False
    if max(start[1], end[1]) < min(ys) or max(ys) < min(start[1], end[1]):
        return False
    for corner, following in zip(corners, corners[1:] + corners[:1]):
        if turn(corner, following, start) < 0 and turn(corner, following, end) < 0:
            return False
    aside = [turn(start, end, corner) for corner in corners]
    return min(aside) <= 0 <= max(aside)


def is_of_sum(edges, shape, point):
    """Whether a point is of the sum of what edges wind around and a shape. All are told in the same parts."""
    x, y = point
    corners = [(x - a, y - b) for a, b in shape]
    return any(meets(edge, corners) for edge in edges) or winding(edges, corners[0]) != 0


def is_of_rest(edges, shape, point):
    """Whether all of a shape that is moved to a point lies within what edges wind around."""
    x, y = point
    corners = [(x + a, y + b) for a, b in shape]
    return winding(edges, corners[0]) != 0 and not any(meets(edge, corners) for edge in edges)


def vector(edge):
    return edge[2] - edge[0], edge[3] - edge[1]


def cross(one, other):
    return one[0] * other[1] - one[1] * other[0]


def furthest(shape, way):
    """The first corner of those that lie furthest to the right of a way, counterclockwise."""
    found = max(cross(corner, way) for corner in shape)
    least = [cross(corner, way) == found for corner in shape]
    return next(corner for place, corner in enumerate(shape) if least[place] and not least[place - 1])


def moved(edge, by):
    return edge[0] + by[0], edge[1] + by[1], edge[2] + by[0], edge[3] + by[1]


def raw_curve(rings, shape):
    """The edges of the curve around the sum of rings, which bound the inside, and a shape; and what it may take in the place of
    two ways where edges turn right."""
    sides, found = edges_of([shape]), []
    for ring in rings:
        edges = edges_of([ring])
        for edge, following in zip(edges, edges[1:] + edges[:1]):
            way, on, at = vector(edge), vector(following), edge[2:]
            found.append(moved(edge, furthest(shape, way)))
            if cross(way, on) > 0:
                fan = (side for side in sides if cross(way, vector(side)) >= 0 and cross(on, vector(side)) < 0)
                found += [moved(side, at) for side in fan]
            elif furthest(shape, way) != furthest(shape, on):
                (x, y), (z, w) = furthest(shape, way), furthest(shape, on)
                before, behind = (at[0] + x, at[1] + y), (at[0] + z, at[1] + w)
                found += [(*before, *at), (*at, *behind), (*before, *behind)]
    return found


def is_of_paths(edges, shape, point):
    """Whether a point is of the sum of edges, some of which are points, and a shape."""
    x, y = point
    corners = [(x - a, y - b) for a, b in shape]
    return any(meets(edge, corners) for edge in edges)


def steps_of(paths, scale=1):
    """The edges of paths, from each point to the next, and each point as an edge, with so many times their coordinates."""
    ends = [pair for path in paths for pair in (*zip(path, path), *zip(path, path[1:]))]
    return [(x0 * scale, y0 * scale, x1 * scale, y1 * scale) for (x0, y0), (x1, y1) in ends]


def raw_of_paths(paths, shape):
    """The edges of the shapes at each point of paths, and of the parallelograms along each edge."""
    found = []
    for x0, y0, x1, y1 in steps_of(paths):
        if (x0, y0) == (x1, y1):
            found += [moved(side, (x0, y0)) for side in edges_of([shape])]
            continue
        right, left = furthest(shape, (x1 - x0, y1 - y0)), furthest(shape, (x0 - x1, y0 - y1))
        found += [moved((x0, y0, x1, y1), right), moved((x1, y1, x0, y0), left)]
        found += [moved((*right, *left), (x1, y1)), moved((*left, *right), (x0, y0))]
    return found


def inner_curve(rings, shape):
    """The edges of the curve within rings around what is left of them: that of the rings the other way round, with the shape
    turned by half a circle."""
    return raw_curve([it[::-1] for it in rings], [(-x, -y) for x, y in shape])


def problems_at(points, raw, made, is_wanted):
    """At which points, in parts, that no moved edge may be near to, what is made winds otherwise than it is to."""
    near = [tuple(number * PARTS for number in edge) for edge in raw]
    answer = edges_of(made, PARTS)
    for point in points:
        if any(is_on(edge, point) if is_along_axis(edge) else is_near(edge, point, HALF) for edge in near):
            continue
        wanted = is_wanted(point)
        if winding(answer, point) != wanted:
            where = f"{point[0]}/{PARTS} {point[1]}/{PARTS}"
            yield f"around {where} it winds {winding(answer, point)} times in place of {int(wanted)}"


def point_problems(rings, shape, made, points, grows=True):
    """At which points, in parts, what is made winds otherwise than it is to: of rings that bound the inside, which grow by a
    shape, or of which that is left around which the shape lies inside."""
    edges, corners = edges_of(rings, PARTS), [(x * PARTS, y * PARTS) for x, y in shape]
    raw, is_of = (raw_curve, is_of_sum) if grows else (inner_curve, is_of_rest)
    return problems_at(points, raw(rings, shape), made, lambda point: is_of(edges, corners, point))


def path_problems(paths, shape, made, points):
    """The same of paths that grow by a shape."""
    edges, corners = steps_of(paths, PARTS), [(x * PARTS, y * PARTS) for x, y in shape]
    return problems_at(points, raw_of_paths(paths, shape), made, lambda point: is_of_paths(edges, corners, point))


def is_on(edge, point):
    """Whether a point lies on an edge."""
    (x0, y0, x1, y1), (x, y) = edge, point
    if (x1 - x0) * (y - y0) != (y1 - y0) * (x - x0):
        return False
    return min(x0, x1) <= x <= max(x0, x1) and min(y0, y1) <= y <= max(y0, y1)


def hull(points):
    """The corners of the convex polygon around points, counterclockwise."""
    ordered = sorted(set(points))
    halves = []
    for some in (ordered, ordered[::-1]):
        half = []
        for point in some:
            while len(half) > 1 and turn(half[-2], half[-1], point) <= 0:
                half.pop()
            half.append(point)
        halves += half[:-1]
    return halves


def is_shape(corners):
    """Whether the corners go around the origin."""
    return len(corners) > 2 and all(cross(one, other) > 0 for one, other in zip(corners, corners[1:] + corners[:1]))


def some_shape(random):
    """A convex polygon around the origin, by chance."""
    size = random.randint(1, 4)
    kinds = [
        [(-size, -size), (size, -size), (size, size), (-size, size)],
        [(size, 0), (0, size), (-size, 0), (0, -size)],
        [(2 * size, size), (size, 2 * size), (-size, 2 * size), (-2 * size, size)]
        + [(-2 * size, -size), (-size, -2 * size), (size, -2 * size), (2 * size, -size)],
    ]
    if random.randrange(2):
        return random.choice(kinds)
    while True:
        corners = hull([(random.randint(-5, 5), random.randint(-5, 5)) for _ in range(random.randint(3, 7))])
        if is_shape(corners):
            return corners


def some_ways(random):
    """Ways round a point by chance, each to the left of the one before it, none of which makes half a turn."""
    while True:
        found = {}
        for _ in range(random.randint(3, 8)):
            x, y = random.randint(-4, 4), random.randint(-4, 4)
            if (x, y) != (0, 0):
                found.setdefault(quarter_and_slope(x, y), (x, y))
        ways = [found[it] for it in sorted(found)]
        turns = [cross(one, other) for one, other in zip(ways, ways[1:] + ways[:1])]
        corners = zip(ways, ways[1:] + ways[:1], ways[2:] + ways[:2])
        if len(ways) > 2 and min(turns) > 0 and all(turn(*three) for three in corners):
            return ways


def quarter_and_slope(x, y):
    """By which ways are ordered counterclockwise: fractions of whole numbers up to 4, exactly."""
    if y >= 0 and x > 0:
        return 0, y * 144 // x if y else 0
    if x <= 0 < y:
        return 1, -x * 144 // y
    if x < 0:
        return 2, -y * 144 // -x
    return 3, x * 144 // -y


def some_bay(random):
    """A block with a bay of short edges in its upper side, along which the border turns right."""
    x, y = random.randint(1, 9), 3
    ways = {(-1, 0)} | {(random.randint(-3, 0), random.randint(-3, 3)) for _ in range(random.randint(3, 9))} - {(0, 0)}
    down = sorted((it for it in ways if it[1] < 0), key=lambda it: it[0] / it[1])
    up = sorted((it for it in ways if it[1] > 0), key=lambda it: it[0] / it[1])
    bay = [(x, y)]
    for across, rise in (*down, *(it for it in ways if it[1] == 0), *up):
        if -11 < y + rise < 3 and x + across > -19:
            x, y = x + across, y + rise
            bay.append((x, y))
    return [(-20, -12), (15, -12), (15, 3), *bay, *([(x, 3)] if y < 3 else []), (-20, 3)]


def some_rings(random, has_hole):
    """Rings that bound an inside: a polygon around a point, maybe with a hole, and maybe another one that lies beside it; or a
    block with a bay."""
    if not random.randrange(4):
        return [some_bay(random)]
    ways = some_ways(random)
    rings = [[(3 * x, 3 * y) for x, y in ways]]
    if has_hole:
        rings.append([(x, y) for x, y in reversed(ways)])
    if not random.randrange(3):
        aside, up = 25 + random.randint(0, 6), random.randint(-9, 9)
        rings.append([(aside + 3 * x, up + 3 * y) for x, y in some_ways(random)])
    return rings


def some_paths(random):
    """One path to three by chance, of a point to five, some of which stand there twice in a row."""
    paths = []
    for _ in range(random.randint(1, 3)):
        path = [(random.randint(-12, 12), random.randint(-12, 12)) for _ in range(random.randint(1, 5))]
        paths.append([*path, path[-1]] if not random.randrange(8) else path)
    return paths


def some_points(random, rings, shape):
    """Points about the curve around the sum, in parts."""
    return points_about(random, raw_curve(rings, shape))


def points_about(random, raw):
    """Points about edges, in parts."""
    for _ in range(LOOKS):
        x0, y0, x1, y1 = random.choice(raw)
        share = random.randrange(PARTS + 1)
        at = x0 * PARTS + (x1 - x0) * share, y0 * PARTS + (y1 - y0) * share
        yield at[0] + random.randint(-2 * PARTS, 2 * PARTS), at[1] + random.randint(-2 * PARTS, 2 * PARTS)
