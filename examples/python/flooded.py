"""How much of each parcel of land a flood covers, and what stays dry: as text, and as GeoJSON.

usage: python3 flooded.py parcels.geojson flood.geojson DRY.geojson

Both files have longitudes and latitudes. Parcels are features with a name.
"""

import json
import sys

import itree

METRES_OF_DEGREE = 111_320


def ring_area(ring):
    """Positive where the ring runs counterclockwise, as outer ones do, and negative of holes."""
    return sum(x0 * y1 - x1 * y0 for (x0, y0), (x1, y1) in zip(ring, ring[1:] + ring[:1])) / 2


def area(polygons):
    return sum(ring_area(ring) for polygon in polygons for ring in (polygon.outer, *polygon.holes))


def read(path):
    with open(path, encoding="utf-8") as file:
        return json.load(file)


def main():
    if len(sys.argv) != 4:
        sys.exit(__doc__)
    parcels, flood = map(read, sys.argv[1:3])
    grid = itree.Grid.fit(parcels, flood)
    for parcel in parcels["features"]:
        wet = itree.overlay(parcel, flood, "intersection", grid=grid)
        share = area(wet) / area(itree.simplify(parcel, grid=grid))
        print(f"{parcel['properties']['name']}: {share:.0%} is flooded")
    dry = itree.overlay(parcels, flood, "difference", grid=grid)
    with open(sys.argv[3], "w", encoding="utf-8") as file:
        json.dump(dry.__geo_interface__, file)
    nanometres = grid.unit * METRES_OF_DEGREE * 1e9
    print(f"dry: {len(dry)} polygons, which are right but within {nanometres:.0f} nanometres of an edge")


if __name__ == "__main__":
    main()
