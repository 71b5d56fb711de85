"""Draws seconds over n as an SVG, both axes by powers of ten."""

import math
from html import escape

WIDTH, HEIGHT, LEFT, RIGHT, TOP, BOTTOM = 620, 360, 70, 150, 40, 50
INK, SOFT = "#222222", "#bbbbbb"
COLOURS = ["#1f5fa8", "#c0392b", "#2e7d4f", "#8e44ad", "#b9770e", "#16857f", "#5d6d7e"]
# Strokes of the first sides, of as many behind them, and so on.
DASHES = ["none", "7 3", "2 3"]
# With more sides than colours, the labels stand one below the other at the right, with so much room, and a bit of the line.
WIDE, SAMPLE = 240, 30


def text(x, y, words, anchor="middle", size=13, fill=INK):
    place = f'x="{x:.0f}" y="{y:.0f}" font-size="{size}" text-anchor="{anchor}" fill="{fill}"'
    return f"<text {place}>{escape(words)}</text>"


def line(x0, y0, x1, y1, stroke=SOFT):
    return f'<line x1="{x0:.0f}" y1="{y0:.0f}" x2="{x1:.0f}" y2="{y1:.0f}" stroke="{stroke}"/>'


def powers(values):
    """The powers of ten, as exponents, from the one at or below the least of the values to the one at or above the
    greatest."""
    least, greatest = math.floor(math.log10(min(values))), math.ceil(math.log10(max(values)))
    return range(least, max(greatest, least + 1) + 1)


def apart(heights, least=16):
    """Heights for labels, in the same order from above, no two nearer than a line."""
    moved, last = {}, -least
    for name, height in sorted(heights.items(), key=lambda it: it[1]):
        last = moved[name] = max(height, last + least)
    return moved


def traced(places, colour, dashes, has_dots):
    """A line through places, and dots on them."""
    through = " ".join(f"{x:.1f},{y:.1f}" for x, y in places)
    dashed = "" if dashes == "none" else f' stroke-dasharray="{dashes}"'
    yield f'<polyline points="{through}" fill="none" stroke="{colour}" stroke-width="2"{dashed}/>'
    for x, y in places if has_dots else ():
        yield f'<circle cx="{x:.1f}" cy="{y:.1f}" r="3" fill="{colour}"/>'


def strokes(sides, plain):
    """The colour and the dashes of each side."""
    styles = iter((colour, dashes) for dashes in DASHES for colour in COLOURS)
    return {side: (INK, "none") if side in plain else next(styles) for side in sides}


def drawn(title, points, across_name="n", plain=()):
    """An SVG of points (n, side, seconds), a line for each side. Those of plain are lines without dots."""
    across, up = powers([n for n, _, _ in points]), powers([seconds for _, _, seconds in points])
    sides = list(dict.fromkeys(side for _, side, _ in points))
    is_many = len(sides) > len(COLOURS)
    right, height = WIDTH - (WIDE if is_many else RIGHT), max(HEIGHT, TOP + BOTTOM + 20 * len(sides))

    def x_of(n):
        return LEFT + (math.log10(n) - across[0]) / (across[-1] - across[0]) * (right - LEFT)

    def y_of(seconds):
        return height - BOTTOM - (math.log10(seconds) - up[0]) / (up[-1] - up[0]) * (height - TOP - BOTTOM)

    parts = [text(WIDTH / 2, 24, title, size=15)]
    for power in across:
        x = x_of(10**power)
        parts += [line(x, TOP, x, height - BOTTOM), text(x, height - BOTTOM + 20, f"{10**power:,}")]
    for power in up:
        y = y_of(10.0**power)
        parts += [line(LEFT, y, right, y), text(LEFT - 8, y + 4, f"{10.0**power:g} s", "end")]
    labels = apart({side: y_of(max((n, seconds) for n, it, seconds in points if it == side)[1]) for side in sides})
    for side, (colour, dashes) in strokes(sides, plain).items():
        found = sorted((n, seconds) for n, it, seconds in points if it == side)
        places = [(x_of(n), y_of(seconds)) for n, seconds in found]
        parts += traced(places, colour, dashes, side not in plain)
        x = right + SAMPLE if is_many else places[-1][0]
        if is_many:
            parts += traced([(right + 8, labels[side]), (x + 2, labels[side])], colour, dashes, False)
        parts.append(text(x + 10, labels[side] + 4, side, "start", fill=colour))
    parts.append(text((LEFT + right) / 2, height - 8, across_name))
    body = "\n".join(parts)
    head = f'<svg xmlns="http://www.w3.org/2000/svg" viewBox="0 0 {WIDTH} {height}" font-family="sans-serif">'
    return f'{head}\n<rect width="{WIDTH}" height="{height}" fill="#ffffff"/>\n{body}\n</svg>\n'
