"""The way from two rings to the polygons of their union, and how counts give the vertical edges, of one worked example.

`stages.rings` has the rings, `stages.edges` their edges, `stages.chains` the chains of these and `stages.union` the union, as
the program answers; the process tests compare. Winding numbers and kept edges are counted here, from the chains.
"""

from fractions import Fraction

from shapes import BLUE, GREEN, INK, PAPER, RED, SOFT, box, dot, line, pairs_of, picture, polygons_of, text, words_of

# Points of the faces of the noded rings, where their winding numbers stand.
FACES = [(1.9, 5.2), (4.6, 5), (6.6, 4.8), (8.7, 5), (7, 0.5), (7.1, 2), (6, 7.2), (6.2, 8.7), (8.8, 2.3), (8.7, 7), (9.5, 9.4)]


def rings_of(kind):
    return [pairs_of(words) for words in words_of("stages.rings") if words[0] == kind]


def edges_of(rings):
    return [edge for ring in rings for edge in zip(ring, [*ring[1:], ring[0]])]


def noded():
    """The pieces of the subject's edges, and those of the clip's."""
    chains = [pairs_of(words) for words in words_of("stages.chains")]
    count = len(edges_of(rings_of("subject")))
    return [[piece for chain in part for piece in zip(chain, chain[1:])] for part in (chains[:count], chains[count:])]


def winding(pieces, x, y):
    """How often pieces wind around a point on none of them: those under it that go rightwards, less those that go leftwards."""
    found = 0
    for (x0, y0), (x1, y1) in pieces:
        if min(x0, x1) <= x < max(x0, x1) and y0 + Fraction(y1 - y0) * (x - x0) / (x1 - x0) < y:
            found += 1 if x0 < x1 else -1
    return found


def counts(x, y):
    """The winding numbers of the subject and of the clip."""
    return tuple(winding(pieces, Fraction(x), Fraction(y)) for pieces in noded())


def kept():
    """The pieces on one side of which alone there is an inner point of the union, each so that this lies to its left."""
    found = []
    for one, other in sorted({tuple(sorted(piece)) for pieces in noded() for piece in pieces}):
        aside = (one[1] - other[1]) * Fraction(1, 500), (other[0] - one[0]) * Fraction(1, 500)
        middle = Fraction(one[0] + other[0], 2), Fraction(one[1] + other[1], 2)
        left, right = (any(counts(middle[0] + sign * aside[0], middle[1] + sign * aside[1])) for sign in (1, -1))
        if left != right:
            found.append((one, other) if left else (other, one))
    return found


# Drawing, each panel at a place of its own.


class Panel:
    def __init__(self, left, floor, unit):
        self.left, self.floor, self.unit = left, floor, unit

    def at(self, x, y):
        return round(float(self.left + self.unit * x), 1), round(float(self.floor - self.unit * y), 1)

    def edge(self, piece, ink, width):
        return line(*self.at(*piece[0]), *self.at(*piece[1]), ink, width)

    def way(self, piece, ink, width, size=6):
        """An edge with a head in its middle that tells its way."""
        (x0, y0), (x1, y1) = self.at(*piece[0]), self.at(*piece[1])
        long = ((x1 - x0) ** 2 + (y1 - y0) ** 2) ** 0.5
        u, v, x, y = (x1 - x0) / long * size, (y1 - y0) / long * size, (x0 + x1) / 2, (y0 + y1) / 2
        corners = [(x + u, y + v), (x - u + v, y - v - u), (x - u - v, y - v + u)]
        head = " ".join(f"{a:.1f},{b:.1f}" for a, b in corners)
        return self.edge(piece, ink, width) + f'<polygon points="{head}" fill="{ink}"/>'

    def area(self, rings, ink, opacity=0.25):
        ways = "".join("M" + "L".join("{} {}".format(*self.at(*point)) for point in ring) + "Z" for ring in rings)
        return (
            f'<path d="{ways}" fill="{ink}" fill-opacity="{opacity}" fill-rule="evenodd" stroke="{ink}" stroke-width="2" '
            'stroke-linejoin="round"/>'
        )

    def dots(self, points, radius, ink):
        return [dot(*self.at(*point), radius, ink) for point in sorted(set(points))]

    def said(self, title, below):
        x = self.left + 5 * self.unit
        return [
            text(x, self.floor - 10.9 * self.unit, title, 14, weight="bold"),
            text(x, self.floor + 24, below, 12, fill=SOFT),
        ]


def given(panel):
    subject, clip = rings_of("subject"), rings_of("clip")
    parts = [panel.area(subject, BLUE), panel.area(clip, RED)]
    parts += panel.dots(sum(subject, []), 3, BLUE) + panel.dots(sum(clip, []), 3, RED)
    parts += [text(*panel.at(1.9, 5.4), "subject", 12, fill=BLUE), text(*panel.at(8.7, 9.2), "clip", 12, fill=RED)]
    return parts + panel.said("1. Two rings", f"{len(edges_of(subject + clip))} edges, which cross anywhere")


def broken(panel):
    pieces = noded()
    points = [point for part in pieces for piece in part for point in piece]
    parts = [panel.edge(edge, SOFT, 1) for kind in ("subject", "clip") for edge in edges_of(rings_of(kind))]
    parts += [panel.edge(piece, ink, 2.5) for part, ink in zip(pieces, (BLUE, RED)) for piece in part]
    parts += panel.dots(points, 4, INK)
    return parts + panel.said("2. Broken", f"{sum(map(len, pieces))} edges, which meet in {len(set(points))} hot points")


def counted(panel):
    pieces = {tuple(sorted(piece)) for part in noded() for piece in part}
    bounds = kept()
    parts = [panel.edge(piece, SOFT, 1) for piece in sorted(pieces)] + [panel.edge(piece, GREEN, 3.5) for piece in bounds]
    for x, y in FACES:
        subject, clip = counts(Fraction(x), Fraction(y))
        at_x, at_y = panel.at(x, y)
        parts.append(text(at_x, at_y + 4, f"{subject}, {clip}", 11, fill=INK if subject or clip else SOFT))
    return parts + panel.said("3. Counted", f"{len(bounds)} edges bound what is not 0, 0")


def ringed(panel):
    polygons = polygons_of(words_of("stages.union"))
    rings = [ring for polygon in polygons for ring in polygon]
    longest = [
        max(edges_of([ring]), key=lambda edge: abs(edge[0][0] - edge[1][0]) + abs(edge[0][1] - edge[1][1])) for ring in rings
    ]
    parts = [panel.way(edge, GREEN, 2.5, 8 if edge in longest else 0) for edge in edges_of(rings)]
    parts += panel.dots(sum(rings, []), 3.5, GREEN)
    return parts + panel.said("4. Rings", f"{len(rings)} rings of {' and '.join(str(len(ring)) for ring in rings)} points")


def filled(panel):
    polygons = polygons_of(words_of("stages.union"))
    holes = sum(len(polygon) - 1 for polygon in polygons)
    parts = [panel.area(polygon, GREEN, 0.35) for polygon in polygons]
    return parts + panel.said("5. Polygons", f"{len(polygons)} polygon with {holes} hole")


def stages():
    parts = []
    for number, draw in enumerate((given, broken, counted, ringed, filled)):
        left, floor = 28 + 236 * (number % 3), 236 + 262 * (number // 3)
        parts += draw(Panel(left, floor, 19))
    said = [
        "1. Rings may cross, touch, overlap.",
        "2. Edges are broken where they",
        "meet, and such points made whole:",
        "the grey lines are the edges given.",
        "3. 1, 0: how often subject and clip",
        "wind around the points there. Kept",
        "are edges with an inner point on",
        "one side alone.",
        "4. Kept edges follow each other,",
        "the inside to the left. Points on",
        "straight lines go.",
        "5. A ring that runs clockwise is a",
        "hole of the polygon around it.",
    ]
    parts += [text(490, 304 + 17 * row, words, 12, "start") for row, words in enumerate(said)]
    return picture("From two rings to the polygon of their union, in five stages", 720, 534, parts)


# Counts along a sweep line, and the flows of three columns.

SWEEP = Fraction(13, 2)
COLUMNS = 8, 7, 6


def crossed():
    """The heights at which the sweep line crosses pieces, from below."""
    heights = set()
    for (x0, y0), (x1, y1) in {piece for part in noded() for piece in part}:
        if min(x0, x1) < SWEEP < max(x0, x1):
            heights.add(y0 + Fraction(y1 - y0) * (SWEEP - x0) / (x1 - x0))
    return sorted(heights)


def flows(column):
    """The points of a column where kept edges that aren't vertical end or start, from below, with how many, and the flow."""
    ends, starts = [], []
    for one, other in kept():
        if one[0] != other[0]:
            ends += [other[1]] if other[0] == column else []
            starts += [one[1]] if one[0] == column else []
    flow, found = 0, []
    for y in sorted({*ends, *starts}):
        flow += ends.count(y) - starts.count(y)
        found.append((y, ends.count(y), starts.count(y), flow))
    return found


def table(column, left, top):
    """The rows of a column, the highest point first, as it stands in the plane."""
    rows = flows(column)
    parts = [text(left, top, f"x = {column}", 13, "start", weight="bold")]
    parts += [text(left + 62 + 40 * at, top, words, 11, fill=SOFT) for at, words in enumerate(("y", "ends", "starts", "flow"))]
    for number, (y, end, start, flow) in enumerate(reversed(rows), 1):
        cells = (y, end or "", start or "", flow)
        parts += [text(left + 62 + 40 * at, top + 17 * number, str(cell), 12) for at, cell in enumerate(cells)]
        if flow:
            parts.append(text(left + 200, top + 17 * number, "an edge " + ("up" if flow > 0 else "down"), 12, "start", RED))
    return parts


def columns():
    panel = Panel(32, 440, 35)
    bounds = kept()
    pieces = {tuple(sorted(piece)) for part in noded() for piece in part}
    parts = [panel.edge(piece, SOFT, 1) for piece in sorted(pieces)]
    for piece in bounds:
        upright = piece[0][0] == piece[1][0]
        parts.append(panel.way(piece, RED if upright else GREEN, 4 if upright else 3, 9))
    (x, top), (_, floor) = panel.at(SWEEP, 10.6), panel.at(SWEEP, -0.5)
    parts.append(line(x, floor, x, top, INK, 1.5, dashed=True))
    heights = [Fraction(-1), *crossed(), Fraction(11)]
    for low, high in zip(heights, heights[1:]):
        middle = max(min((low + high) / 2, Fraction(21, 2)), Fraction(-2, 5))
        words = "{}, {}".format(*counts(SWEEP, middle))
        at_x, at_y = panel.at(SWEEP, middle)
        parts += [box(at_x - 14, at_y - 8, 28, 16, PAPER), text(at_x, at_y + 4, words, 11)]
    parts += panel.dots([point for piece in bounds for point in piece], 4, INK)
    parts += [text(panel.at(at, 0)[0], 476, str(at), 12, fill=RED if at in COLUMNS else SOFT) for at in range(11)]
    said = [
        "Along the sweep line the counts of",
        "subject and clip change at each edge.",
        "Kept is one with 0, 0 on one side alone.",
    ]
    parts += [text(420, 40 + 17 * row, words, 12, "start") for row, words in enumerate(said)]
    top = 118
    for column in COLUMNS:
        parts += table(column, 420, top)
        top += 17 * len(flows(column)) + 36
    said = [
        "The flow upto a point: how many edges",
        "end upto there, less how many start.",
        "Where it is 1 a vertical edge goes up to",
        "the next point, where -1 down from it.",
    ]
    parts += [text(420, top + 17 * row, words, 12, "start") for row, words in enumerate(said)]
    return picture("Counts along a sweep line, and the vertical edges that the flows of three columns give", 720, 490, parts)
