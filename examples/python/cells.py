"""How much of each cell of a graticule is land: features with attributes, as GeoJSON, and a picture of them, as SVG.

usage: python3 cells.py CELLS.geojson PICTURE.svg

It reads the world's land of GSHHG in low resolution (Debian: gmt-gshhg-low, netcdf-bin), and cuts it by cells of 10
degrees. Areas are those on a sphere.
"""

import json
import math
import sys

import gshhg
import itree

STEP = 10  # Degrees between the lines of the graticule.
AROUND = 360 // STEP


class Cells:
    """The cells that cover some land, as polygons; and for each its south-west corner on the earth, in degrees."""

    def __init__(self, land, degree):
        east = max(x for polygon in land for x, _ in polygon[0]) // degree + 1
        wests, souths = range(gshhg.WEST, east, STEP), range(0, 180, STEP)
        self.polygons = [[square(x * degree, y * degree, STEP * degree)] for y in souths for x in wests]
        # What lies east of the date line lies west on the earth.
        self.corners = [((x + 180) % 360 - 180, y - 90) for y in souths for x in wests]


def square(x, y, side):
    return [(x, y), (x + side, y), (x + side, y + side), (x, y + side)]


def area(ring):
    """On a sphere, of which the whole is 720; negative where the ring runs clockwise, as holes do."""
    pairs = zip(ring, ring[1:] + ring[:1])
    return sum((x0 - x1) * (sine(y0) + sine(y1)) / 2 for (x0, y0), (x1, y1) in pairs)


def sine(latitude):
    return math.sin(math.radians(latitude))


def of_earth(ring, degree):
    """The ring's points as longitudes and latitudes."""
    aside = 360 if min(x for x, _ in ring) >= 180 * degree else 0
    return [(round(x / degree - aside, 7), round(y / degree - 90, 7)) for x, y in ring]


def cut(land, cells, degree):
    """For each corner, the land in the cell: a list of polygons, each a list of rings."""
    found = {}
    pairs = itree.candidate_pairs(cells.polygons, land)
    parts = itree.overlay_each(cells.polygons, land, "intersection", pairs=pairs)
    for (cell, _), polygons in zip(pairs, parts):
        for polygon in polygons:
            rings = [of_earth(ring, degree) for ring in (polygon.outer, *polygon.holes)]
            found.setdefault(cells.corners[cell], []).append(rings)
    return found


def middles_on_land(land, cells, degree):
    """The corners of the cells whose middle is on land."""
    middles = [(x + STEP * degree // 2, y + STEP * degree // 2) for ((x, y), *_), in cells.polygons]
    return {cells.corners[place] for place, _ in itree.points_in(middles, land)}


def feature(corner, polygons, is_on_land):
    west, south = corner
    whole = area([(west, south), (west + STEP, south), (west + STEP, south + STEP), (west, south + STEP)])
    share = sum(area(ring) for rings in polygons for ring in rings) / whole
    told = {"west": west, "south": south, "land": round(share, 4), "parts": len(polygons), "middle": is_on_land}
    rings = [[ring + ring[:1] for ring in rings] for rings in polygons]
    return {"type": "Feature", "properties": told, "geometry": {"type": "MultiPolygon", "coordinates": rings}}


def equator_on_land(land, degree):
    """The share of the equator that runs over land."""
    line = [(gshhg.WEST * degree, 90 * degree), ((gshhg.WEST + 360) * degree, 90 * degree)]
    (pieces,) = itree.clip([line], [ring for polygon in land for ring in polygon])
    return sum(piece[-1][0] - piece[0][0] for piece in pieces) / (360 * degree)


def drawn(features):
    """The cells by how much of each is land, and the coasts."""
    squares, coasts = [], []
    for it in features:
        told = it["properties"]
        tint = f'fill-opacity="{told["land"]:.2f}"'
        squares.append(f'<rect x="{told["west"]}" y="{-told["south"] - STEP}" width="{STEP}" height="{STEP}" {tint}/>')
        rings = [ring for rings in it["geometry"]["coordinates"] for ring in rings]
        path = "".join("M" + " ".join(f"{x:.2f},{-y:.2f}" for x, y in ring[:-1]) + "z" for ring in rings)
        coasts.append(f'<path d="{path}"/>')
    style = 'fill="#9c8" fill-rule="evenodd" stroke="#243" stroke-width="0.1"'
    groups = ['<g fill="#27a" stroke="#fff" stroke-width="0.2">', *squares, "</g>", f"<g {style}>", *coasts, "</g>"]
    box = 'viewBox="-180 -90 360 180" width="1440" height="720"'
    return "\n".join([f'<svg xmlns="http://www.w3.org/2000/svg" {box}>', *groups, "</svg>\n"])


def tell(features, equator):
    lands = [it["properties"] for it in features]
    whole = sum(area(ring) for it in features for rings in it["geometry"]["coordinates"] for ring in rings) / 720
    most = max(lands, key=lambda it: it["parts"])
    full, middles = sum(it["land"] > 0.9999 for it in lands), sum(it["middle"] for it in lands)
    print(
        f"land covers {whole:.1%} of the earth, and lies in {len(lands)} of {AROUND * 180 // STEP} cells, {full} of them full"
    )
    print(f"the middles of {middles} cells are on land, and so is {equator:.1%} of the equator")
    print(f"most parts: {most['parts']}, north-east of {most['west']}, {most['south']}")


def main():
    if len(sys.argv) != 3:
        sys.exit(__doc__)
    land, width = gshhg.land("l")
    degree = width // 360
    cells = Cells(land, degree)
    middles = middles_on_land(land, cells, degree)
    found = cut(land, cells, degree)
    features = [feature(corner, found[corner], corner in middles) for corner in sorted(found)]
    tell(features, equator_on_land(land, degree))
    with open(sys.argv[1], "w", encoding="utf-8") as file:
        json.dump({"type": "FeatureCollection", "features": features}, file)
    with open(sys.argv[2], "w", encoding="utf-8") as file:
        file.write(drawn(features))


if __name__ == "__main__":
    main()
