#!/usr/bin/env python3
"""usage: bench/files.py [MEGABYTES]    times the command over files of GeoJSON of so many megabytes, or of 100

Beside it stands what json.load takes to read the same file. Each is a process of its own, they run in turns, and the time
is the least of three, of the processor; the memory is the most that the process had. `land` has rings of 13 to 361 points
whose coordinates have all digits, `parcels` rings of 9 points with six digits and three properties each, and `coast` rings
of 4,101 points with six digits. ITREE_LIBRARY may name the library; with numpy it is faster, as /usr/bin/python3 has it by
bindings/install. It ends with 1 where a ratio of time is more than 2, or memory more than 5 times the file's size.
"""

import json
import math
import os
import pathlib
import random
import subprocess
import sys
import tempfile

PACKAGE = pathlib.Path(__file__).resolve().parent.parent / "bindings" / "python"
READ = "import json, sys; json.load(open(sys.argv[1], 'rb'))"
# For each file: the corners of a ring, and the digits of a coordinate.
KINDS = {"land": ([12, 40, 60, 120, 360], None), "parcels": ([8], 6), "coast": ([4100], 6)}
MOST_TIME, MOST_MEMORY = 2, 5


def ring(numbers, x, y, reach, corners, digits):
    points = []
    for corner in range(corners):
        at = 2 * math.pi * (corner + 0.8 * numbers.random()) / corners
        far = reach * (0.8 + 0.12 * math.sin(5 * at + x) + 0.5 * numbers.random() / corners)
        points.append([x + far * math.cos(at), y + far * math.sin(at)])
    if digits is not None:
        points = [[round(x, digits), round(y, digits)] for x, y in points]
    return points + points[:1]


def features(kind, count):
    """So many features in a square, each of which overlaps its neighbours."""
    numbers, (corners, digits) = random.Random(7), KINDS[kind]
    columns = math.isqrt(count) + 1
    side = 150 / columns
    for place in range(count):
        row, column = divmod(place, columns)
        middle = -75 + (column + 0.5) * side, -75 + (row + 0.5) * side
        points = ring(numbers, *middle, 0.55 * side, numbers.choice(corners), digits)
        told = {"place": place, "kind": "abcd"[place % 4], "name": f"parcel {place}"}
        yield {"type": "Feature", "properties": told, "geometry": {"type": "Polygon", "coordinates": [points]}}


def write(path, kind, size):
    """Writes a file of about so many bytes."""
    few = sum(len(json.dumps(it)) for it in features(kind, 50)) / 50
    with open(path, "w", encoding="utf-8") as file:
        file.write('{"type": "FeatureCollection", "features": [\n')
        for place, feature in enumerate(features(kind, round(size / few))):
            file.write((",\n" if place else "") + json.dumps(feature))
        file.write("\n]}\n")


def taken(words):
    """The seconds of the processor that a command takes, and its memory in bytes."""
    env = {**os.environ, "PYTHONPATH": str(PACKAGE)}
    with open(os.devnull, "wb") as nowhere:
        process = subprocess.Popen([sys.executable, *words], stdout=nowhere, env=env)
        _, status, used = os.wait4(process.pid, 0)
    if status:
        sys.exit(f"{words} ended with {status}")
    return used.ru_utime + used.ru_stime, 1024 * used.ru_maxrss


def measure(kind, path):
    """Whether the command takes no more than it may."""
    words = {"read": ["-c", READ, path], "command": ["-m", "itree", "simplify", path]}
    runs = {name: [] for name in words}
    for _ in range(3):
        for name in words:
            runs[name].append(taken(words[name]))
    (read, _), (seconds, memory) = (map(min, zip(*runs[name])) for name in words)
    size = os.path.getsize(path)
    print(
        f"{kind:8} {size / 1e6:4.0f} MB: json.load {read:5.1f} s, itree simplify {seconds:5.1f} s, "
        f"{seconds / read:.2f} times; {memory / 1e6:4.0f} MB, {memory / size:.1f} times the file",
        flush=True,
    )
    return seconds <= MOST_TIME * read and memory <= MOST_MEMORY * size


def main():
    if sys.argv[2:] or not all(it.isdecimal() for it in sys.argv[1:]):
        sys.exit(__doc__)
    good = True
    with tempfile.TemporaryDirectory() as folder:
        for kind in KINDS:
            path = os.path.join(folder, f"{kind}.geojson")
            write(path, kind, 1e6 * int(sys.argv[1] if sys.argv[1:] else 100))
            good = measure(kind, path) and good
            os.remove(path)
    sys.exit(not good)


if __name__ == "__main__":
    main()
