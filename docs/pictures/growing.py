"""Polygons that grow by a shape, and what is left where they shrink.

It shows `growing.rings`, with the polygons that `growing.wider` and `growing.narrower` have: tests of the package for Python
compare these with what the library answers.
"""

from shapes import BLUE, GREEN, RED, SOFT, line, pairs_of, picture, polygons_of, text, words_of

WIDE, HIGH, UNIT = 300, 190, 6.4


def place(panel, x, y):
    return round(30 + panel * WIDE + UNIT * x, 1), round(30 + UNIT * 18 - UNIT * y, 1)


def outline(panel, rings, stroke, fill="none", dashed=False):
    ways = "".join("M" + "L".join("{:g} {:g}".format(*place(panel, *point)) for point in ring) + "Z" for ring in rings)
    dash = ' stroke-dasharray="4 3"' if dashed else ""
    return f'<path d="{ways}" fill="{fill}" fill-opacity="0.3" fill-rule="evenodd" stroke="{stroke}" stroke-width="1.5"{dash}/>'


def growing():
    lines = words_of("growing.rings")
    subject = [pairs_of(words) for words in lines if words[0] == "subject"]
    shape = [[(10 + x, 3 + y) for x, y in pairs_of(words)] for words in lines if words[0] == "shape"]
    parts = [outline(0, subject, BLUE, BLUE), outline(0, shape, RED, RED)]
    parts.append(text(*place(0, 10, -0.8), "shape", 11, fill=RED))
    for panel, name in enumerate(("wider", "narrower"), 1):
        for rings in polygons_of(words_of(f"growing.{name}")):
            parts.append(outline(panel, rings, GREEN, GREEN))
        parts.append(outline(panel, subject, SOFT, dashed=True))
    for panel, words in enumerate(("two rooms with a hole each", "grown: one hole is closed", "shrunk: the corridor is gone")):
        x, y = place(panel, 18, -4)
        parts.append(text(x, y, words, 13, fill=SOFT))
    parts += [line(*place(panel, 40, 8), *place(panel, 43, 8), arrow=True) for panel in (0, 1)]
    return picture(
        "Two rooms and a corridor, what they become where they grow by an octagon, and where they shrink", 880, HIGH, parts
    )
