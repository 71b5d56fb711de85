"""Reads the world's coastlines (GSHHG, as Debian's gmt-gshhg-low and gmt-gshhg-full have them), with whole numbers.

The earth is cut into square bins, in rows from the north. A coastline lies in a bin as a chain of points, each
relative to the bin's south-west corner, in 65,535ths of the bin's side; a 65,535th is the unit here, too. Debian's
netcdf-bin has ncdump, which prints the numbers of a file.
"""

import array
import math
import pathlib
import re
import subprocess

FOLDER = "/usr/share/gmt-gshhg"
SIDE = 65535
LAKES = {2, 4}  # Levels of lakes and of ponds on islands in them.
GROUND = 6  # Antarctica's shore under its ice.
WEST = -20  # Degrees east of which all land lies; Africa and Europe reach to the west of 0.


class Chain:
    """A part of a coastline in one bin: whose it is, of which level, and its points in order. Level 1 is the sea's
    shore, 2 a lake's, 3 that of an island in a lake and so on; 5 and 6 are two shores of Antarctica, by its ice and by
    its ground."""

    def __init__(self, polygon, level, points):
        self.polygon, self.level, self.points = polygon, level, points

    def edges(self):
        """Its edges, each a tuple of four numbers, without those that are points."""
        return [end + other for end, other in zip(self.points, self.points[1:]) if end != other]


def numbers(file, name):
    """The numbers of a variable of the file. A number that the file's format takes for a missing one is its fill
    value."""
    ran = subprocess.run(["ncdump", "-v", name, file], stdout=subprocess.PIPE, text=True, check=True)
    listed = re.search(rf"\n {name} = ([^;]*);", ran.stdout[ran.stdout.index("\ndata:") :]).group(1)
    return array.array("i", map(int, listed.replace("_", "-32767").split(",")))


def file_of(resolution):
    """The file of a resolution, a letter: f for all points (gmt-gshhg-full), i, l or c for fewer (gmt-gshhg-low)."""
    return pathlib.Path(FOLDER) / f"binned_GSHHS_{resolution}.nc"


def chains(resolution):
    """All chains, bin by bin."""
    file = file_of(resolution)
    corners = south_west_corners(file)
    embedded = numbers(file, "Embedded_npts_levels_exit_entry_for_a_segment")
    polygons, first_points = numbers(file, "Id_of_GSHHS_ID"), numbers(file, "Id_of_first_point_in_a_segment")
    longitudes = numbers(file, "Relative_longitude_from_SW_corner_of_bin")
    latitudes = numbers(file, "Relative_latitude_from_SW_corner_of_bin")
    found = []
    for (west, south), packed, polygon, first in zip(corners, embedded, polygons, first_points):
        # The number of points stands above three bits of the level, and six that say where the chain enters and leaves.
        here = slice(first, first + (packed >> 9))
        # A relative place is a number of 16 bits without a sign.
        places = zip(longitudes[here], latitudes[here])
        points = [(west + (x & 0xFFFF), south + (y & 0xFFFF)) for x, y in places]
        found.append(Chain(polygon, packed >> 6 & 7, points))
    return found


def south_west_corners(file):
    """For each chain the south-west corner of its bin."""
    (across,) = numbers(file, "N_bins_in_360_longitude_range")
    (down,) = numbers(file, "N_bins_in_180_degree_latitude_range")
    corners = []
    for place, count in enumerate(numbers(file, "N_segments_in_a_bin")):
        row, column = divmod(place, across)
        corners.extend([(column * SIDE, (down - 1 - row) * SIDE)] * count)
    return corners


def edges(resolution):
    """The edges of all coastlines, four numbers each."""
    found = array.array("i")
    for chain in chains(resolution):
        for edge in chain.edges():
            found.extend(edge)
    return found


def rings_of(parts, width):
    """The rings of one coastline, each a list of points: each chain goes on in one that begins where it ends."""
    starting = {}
    for chain in parts:
        x, y = chain.points[0]
        starting.setdefault((x % width, y), []).append(chain.points)
    while starting:
        ring = list(taken(starting, min(starting)))
        while (ring[-1][0] % width, ring[-1][1]) in starting and ring[-1] != ring[0]:
            end = ring[-1]
            points = taken(starting, (end[0] % width, end[1]))
            aside = end[0] - points[0][0]
            ring.extend((x + aside, y) for x, y in points[1:])
        yield closed(ring)


def taken(starting, place):
    """A chain's points from those that begin at the place, where it is no longer."""
    points = starting[place].pop()
    if not starting[place]:
        del starting[place]
    return points


def closed(ring):
    """The ring without points that are said twice in a row; what goes around the pole is led along y = 0."""
    if ring[-1] != ring[0]:
        ring += [(ring[-1][0], 0), (ring[0][0], 0)]
    return [point for point, before in zip(ring, [ring[-1], *ring]) if point != before]


def turned(ring, is_hole):
    """The ring counterclockwise, or clockwise where it is a hole."""
    twice = sum(x0 * y1 - x1 * y0 for (x0, y0), (x1, y1) in zip(ring, ring[1:] + ring[:1]))
    return ring if (twice < 0) == is_hole else ring[::-1]


def moved(ring, west, width):
    """The ring, moved around the earth so that it lies east of this."""
    aside = math.ceil((west - min(x for x, _ in ring)) / width) * width
    return [(x + aside, y) for x, y in ring] if aside else ring


def land(resolution):
    """The world's land as polygons, each a list of rings, the outer one first; and how many units are the earth's
    circumference. They lie from 20 degrees west on eastwards, and from the south pole, the line y = 0, northwards.

    The chains of a coastline are put together to rings. A ring that crosses the meridian 0 goes on beyond it. A lake is
    a hole of the land around it, an island in a lake is land again. Antarctica ends where its ice does.
    """
    file = file_of(resolution)
    (across,) = numbers(file, "N_bins_in_360_longitude_range")
    width = across * SIDE
    coastlines, levels = {}, {}
    for chain in chains(resolution):
        if chain.level != GROUND:
            coastlines.setdefault(chain.polygon, []).append(chain)
            levels[chain.polygon] = chain.level
    parents = numbers(file, "Id_of_parent_polygons")
    rings = {it: [ring for ring in rings_of(parts, width) if len(ring) > 2] for it, parts in coastlines.items()}
    found = {}
    for it in rings:
        if levels[it] not in LAKES:
            found[it] = [[moved(turned(ring, False), WEST * width // 360, width)] for ring in rings[it]]
    wests = {}  # Of land with lakes, of which a continent has thousands.
    for it in rings:
        around = found.get(parents[it]) if levels[it] in LAKES else None
        if around:
            largest = max(around, key=lambda polygon: len(polygon[0]))
            if parents[it] not in wests:
                wests[parents[it]] = min(x for x, _ in largest[0])
            largest += [moved(turned(ring, True), wests[parents[it]], width) for ring in rings[it]]
    return [polygon for it in found.values() for polygon in it], width
