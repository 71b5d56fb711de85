"""Rings over windows, the tiles that workers make of them, and what joins these."""

from itertools import chain

from shapes import BLACK, BLUE, GREEN, PAPER, RED, SOFT, box, line, picture, text

# Two rings; windows as columns, each cut by itself; and by which worker each tile is made.
RINGS = [(20, 30), (160, 30), (160, 110), (20, 110)], [(90, 70), (250, 70), (250, 170), (90, 170)]
UNION = [(20, 30), (160, 30), (160, 70), (250, 70), (250, 170), (90, 170), (90, 110), (20, 110)]
WINDOWS = (20, 30, 110, 80), (20, 80, 110, 170), (110, 30, 250, 100), (110, 100, 250, 170)
WORKERS = BLUE, RED, GREEN, BLUE
HIGH = 230


def cut(ring, axis, bound, sign):
    """What of a ring along the axes lies on one side of a line along an axis."""
    found = []
    for one, other in zip(ring, ring[1:] + ring[:1]):
        insides = [sign * (point[axis] - bound) >= 0 for point in (one, other)]
        if insides[0]:
            found.append(one)
        if insides[0] != insides[1]:
            found.append((bound, one[1]) if axis == 0 else (one[0], bound))
    return found


def within(ring, window):
    left, low, right, high = window
    for axis, bound, sign in (0, left, 1), (0, right, -1), (1, low, 1), (1, high, -1):
        ring = cut(ring, axis, bound, sign)
    return ring


def shape(ring, aside, fill="none", stroke=BLACK, width=1.5):
    points = " ".join(f"{x + aside},{HIGH - y}" for x, y in ring)
    return f'<polygon points="{points}" fill="{fill}" fill-opacity="0.35" stroke="{stroke}" stroke-width="{width}"/>'


def apart(window):
    """How far a tile stands from where it lies, so that tiles are seen to be alone."""
    left, low, right, high = window
    return ((left + right) // 2 - 135) // 8, ((low + high) // 2 - 100) // 8


def tiles():
    parts = [text(135, 24, "rings, and windows over them", 13, fill=SOFT), text(440, 24, "a tile a worker", 13, fill=SOFT)]
    parts += [text(740, 24, "joined", 13, fill=SOFT)]
    parts += [box(left, HIGH - high, right - left, high - low, PAPER, SOFT, True) for left, low, right, high in WINDOWS]
    parts += [shape(ring, 0) for ring in RINGS]
    for window, colour in zip(WINDOWS, WORKERS):
        x, y = apart(window)
        parts.append(shape([(at + x, up + y) for at, up in within(UNION, window)], 305, colour, colour))
    parts.append(shape(UNION, 605, SOFT))
    parts += list(chain.from_iterable([line(at, 130, at + 34, 130, arrow=True)] for at in (266, 574)))
    return picture("Rings over windows, the tiles that workers make, and what joins them", 880, 225, parts)
