"""Rings of a subject and of a clip by chance, the lines that say them, and points at which they are looked at."""

from windings import PARTS as IN_ONE, Drawing, edges_of

# So many points are looked at in each drawing.
LOOKS = 40


def line_of(name, ring):
    return " ".join([name, *(f"{x} {y}" for x, y in ring)])


def near(random, bound):
    """Gives a ring of 0 to 6 points by chance."""
    return lambda: [(random.randint(0, bound), random.randint(0, bound)) for _ in range(random.randrange(7))]


def square(random, bound):
    """Gives a ring along the axes by chance, of 4 or 6 points."""

    def ring():
        count = random.randrange(2, 4)
        xs, ys = ([random.randint(0, bound) for _ in range(count)] for _ in range(2))
        return [point for at in range(count) for point in ((xs[at], ys[at]), (xs[(at + 1) % count], ys[at]))]

    return ring


def frame(random, bound):
    """Gives a rectangle by chance, either way round, about the middle mostly."""

    def ring():
        low, high = random.randint(0, bound // 2), random.randint(bound // 2, bound)
        left, right = (low, high) if random.randrange(3) else sorted(random.randint(0, bound) for _ in range(2))
        found = [(left, low), (right, low), (right, high), (left, high)]
        return found if random.randrange(2) else found[::-1]

    return ring


def diamond(random, bound):
    """Gives a rectangle on its corner by chance, about the middle mostly, and sometimes a triangle of it."""

    def ring():
        middle, size = bound // 2, random.randint(1, bound // 2)
        found = [(middle, middle - size), (middle + size, middle), (middle, middle + size), (middle - size, middle)]
        return found[random.randrange(2) * random.randrange(2) :][:: random.choice((1, -1))]

    return ring


def any_of(random, bound):
    """Gives a ring by chance of any of the other kinds."""
    kinds = [kind(random, bound) for kind in (near, square, frame, diamond)]
    return lambda: random.choice(kinds)()


def drawn(random, ring):
    """0 to 4 rings of a subject, and 0 to 3 of a clip. Some are others again, turned round or closed by their first point."""
    rings = []
    for _ in range(random.randrange(8)):
        again = random.choice(rings) if rings and not random.randrange(8) else ring()
        rings.append(random.choice((again, again, again, again[::-1], again + again[:1])))
    some = random.randrange(len(rings) + 1)
    return Drawing(rings[: max(some, len(rings) - 3)], rings[max(some, len(rings) - 3) :])


def said_by(random, drawing, step=0):
    """The lines of a drawing, moved rightwards."""
    said = [line_of(name, [(x + step, y) for x, y in ring]) for name in Drawing._fields for ring in getattr(drawing, name)]
    random.shuffle(said)
    return said


def beside(random, edges):
    """A point on one of the edges, or beside it, in parts."""
    x0, y0, x1, y1 = random.choice(edges)
    at, (aside, up) = random.choice((0, 6, 6, 12, random.randrange(13))), random.choice(((0, 0), (0, 1), (1, 0)))
    far = random.choice((-7, -6, -1, 1, 6, 7))
    return x0 * IN_ONE + (x1 - x0) * at + aside * far, y0 * IN_ONE + (y1 - y0) * at + up * far


def looks(random, drawing):
    """Points at which a drawing is looked at, in parts."""
    edges = edges_of(drawing.subject + drawing.clip)
    size = max((max(edge) for edge in edges), default=4) + 1
    count = LOOKS // 3 if edges else LOOKS
    anywhere = [tuple(random.randint(-IN_ONE, size * IN_ONE) for _ in range(2)) for _ in range(count)]
    return anywhere + [beside(random, edges) for _ in range(LOOKS - len(anywhere))]
