"""The world's land as polygons (examples/python/gshhg.py), for bench/overlays.cpp."""

import array

import gshhg


def packed(resolution):
    """The polygons as numbers of 32 bits: units in a degree, the first column of degrees and how many there are, how
    many polygons, and for each how many rings, and for each of these how many points, and the points."""
    found, width = gshhg.land(resolution)
    degree = width // 360
    columns = [x // degree for polygon in found for x, _ in polygon[0]]
    numbers = array.array("i", [degree, min(columns), max(columns) + 1 - min(columns), len(found)])
    for polygon in found:
        numbers.append(len(polygon))
        for ring in polygon:
            numbers.append(len(ring))
            for point in ring:
                numbers.extend(point)
    return numbers
