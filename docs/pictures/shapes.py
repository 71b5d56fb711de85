"""What all pictures are drawn with: texts, boxes, lines and dots, and the lines of files beside this one."""

import os
from html import escape

HERE = os.path.dirname(os.path.abspath(__file__))

INK, SOFT, PALE, PAPER = "#222222", "#777777", "#f2f4f7", "#ffffff"
BLUE, RED, BLACK, GREEN = "#1f5fa8", "#c0392b", "#3a3a3a", "#2e7d4f"


def text(x, y, words, size=13, anchor="middle", fill=INK, weight="normal"):
    return (
        f'<text x="{x}" y="{y}" font-size="{size}" text-anchor="{anchor}" fill="{fill}" font-weight="{weight}">'
        f"{escape(words)}</text>"
    )


def box(x, y, width, height, fill=PALE, stroke=SOFT, dashed=False):
    dash = ' stroke-dasharray="4 3"' if dashed else ""
    return f'<rect x="{x}" y="{y}" width="{width}" height="{height}" rx="4" fill="{fill}" stroke="{stroke}"{dash}/>'


def line(x0, y0, x1, y1, stroke=SOFT, width=1.5, dashed=False, arrow=False):
    dash = ' stroke-dasharray="4 3"' if dashed else ""
    head = ' marker-end="url(#head)"' if arrow else ""
    return f'<line x1="{x0}" y1="{y0}" x2="{x1}" y2="{y1}" stroke="{stroke}" stroke-width="{width}"{dash}{head}/>'


def dot(x, y, radius, fill, stroke=PAPER):
    return f'<circle cx="{x}" cy="{y}" r="{radius}" fill="{fill}" stroke="{stroke}"/>'


def picture(title, width, height, parts):
    """The whole drawing, on a ground of its own, so that it reads on a dark page too."""
    head = (
        '<marker id="head" viewBox="0 0 8 8" refX="7" refY="4" markerWidth="7" markerHeight="7" orient="auto">'
        f'<path d="M0 0L8 4L0 8z" fill="{SOFT}"/></marker>'
    )
    lines = [
        f'<svg xmlns="http://www.w3.org/2000/svg" width="{width}" height="{height}" viewBox="0 0 {width} {height}" '
        'font-family="Helvetica, Arial, sans-serif">',
        f"<title>{escape(title)}</title>",
        f"<defs>{head}</defs>",
        f'<rect width="{width}" height="{height}" fill="{PAPER}"/>',
        *parts,
        "</svg>",
    ]
    return "\n".join(lines) + "\n"


def words_of(name):
    with open(os.path.join(HERE, name), encoding="utf-8") as lines:
        return [line.split() for line in lines.read().splitlines() if line.split()]


def pairs_of(words):
    numbers = list(map(int, words[1:]))
    return list(zip(numbers[::2], numbers[1::2]))


def polygons_of(replies):
    """The rings of each polygon: the outer one, and its holes."""
    polygons = []
    for words in replies:
        if words[0] == "polygon":
            polygons.append([])
        polygons[-1].append(pairs_of(words))
    return polygons
