"""Drawings of long rings by chance, which run along X for many edges, and points at which they are looked at.

Where runs go rightwards, or leftwards, and little comes to them, an overlay may take chords in their place. So these drawings
have a few long rings with some others that cross or touch them, lie close by, share their points, or lie between run and chord.
"""

from math import sin
from typing import NamedTuple

from drawings import beside
from windings import HALF, PARTS as IN_ONE, Drawing, edges_of

LEAST, GREATEST = -2147483648, 2147483647

# A part of a run has so many edges at most, and runs of fewer edges are none. A drawing has so many times as many edges as
# parts, and as runs, of which a ring that begins within one has one more.
MOST, FEWEST, TIMES, RUN_TIMES = 64, 4, 8, 24

# So many edges a run has: about as many as one part or two have with an edge at each end, or more, beside which others may lie.
LENGTHS = 66, 67, 68, 131, 132, 200, 260, 300, 400, 400, 500


class Scale(NamedTuple):
    """How long edges are along X, how far runs go up and down, and how far they may lie apart."""

    step: int
    reaches: tuple
    fars: tuple


SCALES = {
    "of unit steps": Scale(1, (0, 1, 2, 6), (5, 12, 40)),
    "of small steps": Scale(3, (1, 5, 20, 60), (4, 20, 100)),
    "of steep edges": Scale(2, (300, 1000), (500, 2500)),
    "of wide steps": Scale(60, (2, 40, 200), (20, 400)),
    "over everything": Scale(2**32, (0, 3, 2**20, 2**25, 2**28, 2**31), (40, 2**16, 2**28, 2**30)),
}

# ---- runs


def level(random, count, reach):
    return [0] * count


def noise(random, count, reach):
    return [random.randint(-reach, reach) for _ in range(count)]


def teeth(random, count, reach):
    return [reach * (at % 2) for at in range(count)]


def bow(random, count, reach):
    way = random.choice((-4, 4))
    return [way * reach * at * (count - 1 - at) // (count * count) for at in range(count)]


def wave(random, count, reach):
    turn, start = random.choice((0.05, 0.2, 0.7)), random.random() * 6
    return [int(reach * sin(start + turn * at)) for at in range(count)]


def walk(random, count, reach):
    found = [0]
    while len(found) < count:
        found.append(found[-1] + random.randint(-1, 1) * (1 + reach // 8))
    return found


def stairs(random, count, reach):
    each = random.randrange(2, 12)
    return [reach * (at // each) // 4 for at in range(count)]


def slope(random, count, reach):
    return [reach * at // count for at in range(count)]


SHAPES = level, noise, teeth, bow, wave, walk, stairs, slope


def clipped(number):
    return min(max(LEAST, number), GREATEST)


def steps(random, left, right, count):
    """So many numbers that rise from the one to the other, or fewer where there aren't as many."""
    if right - left < count:
        return list(range(left, right + 1))
    way = random.randrange(5)
    if way < 3:
        return [left + (right - left) * at // (count - 1) for at in range(count)]
    each = 2 if way == 3 and (right - left) // 2 >= count else 1
    return [left, *sorted(random.sample(range(left + each, right - each + 1, each), count - 2)), right]


def run(random, xs, base, reach):
    """A run over these X: a shape, mostly with a small one on it, about the base."""
    ys = random.choice(SHAPES)(random, len(xs), reach)
    small = random.choice((level, noise, teeth))(random, len(xs), random.choice((1, 2, 1 + reach // 16)))
    return [(x, clipped(base + y + more)) for x, y, more in zip(xs, ys, small)]


def moved(points, aside, up):
    return [(clipped(x + aside), clipped(y + up)) for x, y in points]


# ---- long rings


class Field(NamedTuple):
    """Where a drawing lies along X, over which height it begins, how far a run goes up, and the next one begins over it."""

    left: int
    right: int
    base: int
    reach: int
    far: int


def field_of(random, scale, count):
    width = min(scale.step * count * random.choice((1, 2, 3, 3, 3)), 2**32 - 1)
    left = random.choice((LEAST, GREATEST - width, -width // 2, 0)) if width < 2**31 else LEAST
    base, reach = random.choice((0, 0, LEAST)), random.choice(scale.reaches)
    return Field(left, left + width, base, reach, random.choice(scale.fars) + random.choice((0, 2, 3, 3, 4)) * reach)


def joined(random, there, back):
    """The ring there and back: pointed where they share their ends, blunt, or with a spike behind the end."""
    ends = random.randrange(3)
    if ends == 0:
        return there + back[::-1][1:-1] if len(back) > 2 else there
    spike = [(clipped(there[-1][0] + random.randrange(9)), back[-1][1])] if ends == 1 else []
    return there + spike + back[::-1]


def band(random, field, count):
    """A run there, and another one back: as far from it everywhere, or of its own."""
    base = clipped(field.base + random.randint(-field.far, field.far))
    there = run(random, steps(random, field.left, field.right, count), base, field.reach)
    far = random.choice((1, 2, 3, *[field.far] * 12))
    if random.randrange(2):
        return joined(random, there, moved(there, 0, far))
    count = random.choice((2, count // 2, count))
    xs = steps(random, field.left, field.right, max(count, 2))
    return joined(random, there, run(random, xs, clipped(base + field.reach + far), field.reach))


def comb(random, field, count):
    """Runs over one another, each back from where the one below ended."""
    ring = []
    for turn in range(random.randrange(2, 6)):
        inset = random.choice((0, 0, 1, 2)) * turn
        xs = steps(random, field.left + inset, field.right - inset, max(count // 2, 48))
        points = run(random, xs, clipped(field.base + turn * (field.far + field.reach)), field.reach // 2)
        ring += points[::-1] if turn % 2 else points
    return ring


LONG = band, band, comb


# ---- rings that come to others


def some_run(random, rings):
    """A run of the rings, or a part of it, of three points at least if there is one. Most are short."""
    found = random.choice([it for ring in rings for it in runs_of(ring) if len(it) > 2] or [rings[0][:2]])
    count = random.choice((len(found), 3, *[random.randrange(3, 20)] * 4, *[random.randrange(3, 80)] * 2))
    start = random.randrange(max(1, len(found) - count + 1))
    return found[start : start + count]


def closed(random, piece, up):
    """The ring along the piece and back so far over it: by as many points, or few."""
    (x0, y0), (x1, y1) = piece[0], piece[-1]
    corners = (x1, clipped(y1 + up)), (x0, clipped(y0 + up))
    middle = (x0 + x1) // 2, clipped((y0 + y1) // 2 + up)
    return piece + list(random.choice((corners, (middle,), moved(piece[::-1], 0, up), moved(piece[1:-1][::-1], 0, up))))


def away(random, far):
    return random.choice((-1, 1)) * random.choice((2, 3, 1 + far // 2, far))


def sharing(random, rings, far):
    """The points of a run, and others back."""
    return closed(random, some_run(random, rings), away(random, far))


def alongside(random, rings, far):
    """A run that lies within a unit or two of another one, and back."""
    piece = moved(some_run(random, rings), random.choice((0, 0, 1, -1, 2)), random.choice((-3, -2, -1, 1, 2, 3)))
    return closed(random, piece, away(random, far))


def crossing(random, rings, far):
    """A run that comes from under another one to over it, and back."""
    piece, high = some_run(random, rings), away(random, far)
    ups = [2 * high * at // len(piece) - high + random.choice((0, 0, 0, 1)) for at in range(len(piece))]
    return closed(random, [(x, clipped(y + up)) for (x, y), up in zip(piece, ups)], 2 * high)


def across(random, rings, far):
    """A narrow ring across a run, through one of its points or past it, upright or nearly."""
    x, y = random.choice(some_run(random, rings))
    aside, wide = random.choice((0, 0, 1, -1, 2)), random.choice((0, 1, 1, 2, 1 + far // 8))
    low, high = away(random, far), away(random, far)
    points = (
        (x + aside, y - low),
        (x + aside + wide, y - low - random.randrange(3)),
        (x + aside + random.randrange(2), y + high),
    )
    return [(clipped(x), clipped(y)) for x, y in points]


def touching(random, rings, far):
    """A triangle with a corner at a point of a run, or a unit or two away from it."""
    x, y = random.choice(some_run(random, rings))
    size = random.choice((2, 5, 1 + far // 2))
    corner = moved([(x, y)], *random.choice(((0, 0), (0, 0), (0, 1), (1, 0), (0, -1), (-1, 0), (2, 1), (1, 2))))[0]
    return [corner, *moved([(x + random.randint(-size, size), y + random.randint(-size, size)) for _ in range(2)], 0, 0)]


def between(random, rings, far):
    """A square or a triangle between a run and its chord."""
    part = random.choice([it for ring in rings for it in parts_of(ring)] or [rings[0][:2]])
    x, y = (number // IN_ONE for number in inside_of(random, part))
    side = random.choice((1, 1, 2, 3))
    found = moved([(x, y), (x + side, y), (x + side, y + side), (x, y + side)], 0, 0)
    return found[: random.choice((3, 4))]


def within(random, rings, far):
    """A ring's points moved up over its lower half and down over its upper half, the other way round."""
    ring, gap = random.choice(rings), random.choice((1, 2, 3, 1 + far // 4))
    half = len(ring) // 2
    return (moved(ring[1 : half - 1], 0, gap) + moved(ring[half + 1 : -1], 0, -gap))[::-1]


def again(random, rings, far):
    """A ring once more, the other way round or closed by its first point."""
    ring = random.choice((rings[-1], random.choice(rings)))
    return random.choice((ring, ring[::-1], ring + ring[:1]))


OTHERS = *[sharing] * 2, *[alongside] * 3, *[crossing] * 3, *[across] * 8, *[touching] * 8, *[between] * 8, within, again


# ---- drawings


def runs_of(ring):
    """The points along which the ring goes on rightwards, or leftwards, run by run. An upright edge is a run."""
    found, before = [], 0
    for start, end in zip(ring, ring[1:] + ring[:1]):
        way = (start[0] < end[0]) - (end[0] < start[0])
        if found and way == before != 0:
            found[-1].append(end)
        elif start != end:
            found.append([start, end])
        before = way
    return found


def parts_of(ring):
    """The parts of several edges of the runs, of which the first and the last edge stand alone."""
    inner = [points[1:-1] for points in runs_of(ring) if len(points) > FEWEST]
    return [points[at : at + MOST + 1] for points in inner for at in range(0, len(points) - 2, MOST)]


def count_parts(rings):
    """How many parts rings have, with single edges."""
    parts = [part for ring in rings for part in parts_of(ring)]
    return sum(map(len, rings)) - sum(len(part) - 2 for part in parts)


def is_long(rings):
    """Whether the rings have so many edges that parts, and runs, are few beside these."""
    edges, runs = sum(map(len, rings)), sum(len(runs_of(ring)) + 1 for ring in rings)
    return runs * RUN_TIMES <= edges and count_parts(rings) * TIMES <= edges


def turned(random, ring, is_mirrored, is_upset):
    """The ring from another point on, some the other way round; left and right, and under and over, may be exchanged."""
    start = random.choice((0, random.randrange(len(ring))))
    ring = ring[start:] + ring[:start]
    return [(-1 - x if is_mirrored else x, -1 - y if is_upset else y) for x, y in ring[:: random.choice((1, -1))]]


def long_drawing(random, scale):
    """A drawing of one or two long rings, and of others as long as parts are few."""
    count = random.choice(LENGTHS)
    field = field_of(random, scale, count)
    rings = [random.choice(LONG)(random, field, count)]
    if not random.randrange(4):
        over = random.choice((0, 2, 3, 3)) * (field.reach + field.far)
        rings.append(random.choice(LONG)(random, field._replace(base=clipped(field.base + over)), count))
    for _ in range(random.randrange(2, 6)):
        ring = random.choice(OTHERS)(random, rings, field.far)
        if ring and is_long([*rings, ring]):
            rings.append(ring)
    found, is_mirrored, is_upset = Drawing([], []), random.randrange(2), random.randrange(2)
    for ring in rings:
        found[random.randrange(2)].append(turned(random, ring, is_mirrored, is_upset))
    return found


def crowded(random, count=60, times=130):
    """A drawing of a long ring with many squares on and beside it."""
    xs = range(0, count * times, 2)
    ring = [(x, random.randrange(40)) for x in xs] + [(x, 200 + random.randrange(40)) for x in reversed(xs)]
    places = [(random.choice(xs), random.choice((-9, 0, 20, 38, 42, 46, 190, 220))) for _ in range(count)]
    squares = [[(x, y), (x + 3, y), (x + 3, y + 3), (x, y + 3)] for x, y in places]
    return Drawing([ring], squares)


# ---- points to look at


def inside_of(random, part):
    """A point between a part and its chord, in parts of one."""
    (left, low), (right, high) = part[0], part[-1]
    x0, y0, x1, y1 = random.choice(edges_of([part])[:-1])
    at = random.randrange(IN_ONE + 1)
    x, y = x0 * IN_ONE + (x1 - x0) * at, y0 * IN_ONE + (y1 - y0) * at
    over = low * IN_ONE + (high - low) * (x - left * IN_ONE) // ((right - left) or 1)
    return x, random.randint(min(y, over), max(y, over))


def clear_of(random, edge):
    """A point beside an edge that is hardly more than a half away from it."""
    x0, y0, x1, y1 = edge
    at, across, up = random.randrange(IN_ONE + 1), abs(x1 - x0), abs(y1 - y0)
    x, y = x0 * IN_ONE + (x1 - x0) * at, y0 * IN_ONE + (y1 - y0) * at
    far = random.choice((-1, 1)) * (HALF * (across + up) // (max(across, up) or 1) + 1)
    return (x, y + far) if up <= across else (x + far, y)


def long_looks(random, drawing, most=1500):
    """Points at which a drawing of long rings is looked at, in parts of one: anywhere, by edges, and by chords."""
    rings = drawing.subject + drawing.clip
    corners, edges = [point for ring in rings for point in ring], edges_of(rings)
    parts = [part for ring in rings for part in parts_of(ring)]
    spans = [(min(numbers) * IN_ONE - IN_ONE, max(numbers) * IN_ONE + IN_ONE) for numbers in zip(*corners)]
    found = [tuple(random.randint(*span) for span in spans) for _ in range(30)]
    found += [clear_of(random, edge) for edge in random.sample(edges, min(len(edges), most)) for _ in range(2)]
    found += [beside(random, edges) for _ in range(100)]
    found += [inside_of(random, random.choice(parts)) for _ in range(100 if parts else 0)]
    return found + [beside(random, [(*part[0], *part[-1])]) for part in parts for _ in range(5)]
