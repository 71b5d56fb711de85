"""The command over files: each format there and back, attributes, each feature and those of one value, faults with their
places, pictures, and the bar on a terminal; which features aren't valid, beside shapely; and the ways in bulk beside the plain
ones.

bindings/test runs it, over a library that refuses memory when it is told to (ITREE_LIBRARY). What needs numpy, fiona or shapely
is skipped where they aren't there.
"""

import array
import collections
import contextlib
import ctypes
import fractions
import io
import itertools
import json
import math
import os
import pathlib
import pty
import random
import re
import subprocess
import sys
import tempfile
import unittest
from unittest import mock

import itree
from itree import __main__ as command
from itree import _answers, _decimals, _files, _geojson, _progress, _tasks, _vector, _wkb
from itree._grid import Grid, fitted

try:
    import numpy
except ImportError:
    numpy = None
try:
    import fiona
except ImportError:
    fiona = None
try:
    import shapely.geometry as shapely
    from shapely.validation import explain_validity
except ImportError:
    shapely = None

TOP = pathlib.Path(__file__).resolve().parent.parent.parent
needs_numpy = unittest.skipUnless(numpy, "numpy isn't there")
needs_fiona = unittest.skipUnless(fiona, "fiona isn't there")
needs_shapely = unittest.skipUnless(shapely, "shapely isn't there")


def square(x, y, side):
    return [[x, y], [x + side, y], [x + side, y + side], [x, y + side], [x, y]]


def polygon(*rings):
    return {"type": "Polygon", "coordinates": list(rings)}


def feature(geometry, properties, **more):
    return {"type": "Feature", "properties": properties, "geometry": geometry, **more}


def collection(*features, **more):
    return {"type": "FeatureCollection", **more, "features": list(features)}


HOLE = [[5, 1], [5, 2], [6, 2], [6, 1], [5, 1]]
TWO = {"type": "MultiPolygon", "coordinates": [[square(4, 0, 4), HOLE], [square(10, 0, 1)]]}
PARCELS = collection(
    feature(polygon(square(0, 0, 4)), {"name": "mill", "kind": "farm", "size": 16}, id=7, bbox=[0, 0, 4, 4]),
    feature(TWO, {"name": "Ähre", "kind": "wood", "size": 16.5}),
    feature(None, {"name": "gone", "kind": "farm", "size": None}),
    feature(polygon(square(20, 20, 2)), {"name": "far", "kind": "wood", "size": 4}),
)
FLOOD = polygon([[2, 2], [6, 2], [6, 6.5], [2, 6], [2, 2]])


def from_least(ring):
    pairs = [tuple(pair) for pair in ring[:-1]]
    least = pairs.index(min(pairs))
    return pairs[least:] + pairs[:least]


def in_order(coordinates):
    """The rings of each polygon of a MultiPolygon, each from its least point on, and the polygons in order."""
    return sorted([from_least(ring) for ring in rings] for rings in coordinates)


def shape_of(geometry):
    """A geometry's polygons as itree makes them."""
    return in_order(itree.simplify(geometry).__geo_interface__["coordinates"]) if geometry else []


class Files(unittest.TestCase):
    """A folder with files."""

    def setUp(self):
        folder = tempfile.TemporaryDirectory()
        self.addCleanup(folder.cleanup)
        self.folder = pathlib.Path(folder.name)
        self.parcels, self.flood = self.file("parcels.geojson", PARCELS), self.file("flood.geojson", FLOOD)

    def path(self, name):
        return str(self.folder / name)

    def file(self, name, content):
        data = content if isinstance(content, bytes) else json.dumps(content).encode()
        (self.folder / name).write_bytes(data)
        return self.path(name)

    def called(self, *words):
        """The status of the command in this process, and what it wrote."""
        output, faults = io.StringIO(), io.StringIO()
        with contextlib.redirect_stdout(output), contextlib.redirect_stderr(faults):
            try:
                status = command.main(list(words))
            except SystemExit as ended:
                status = ended.code
        return status, output.getvalue(), faults.getvalue()

    def written(self, *words):
        """What it writes as GeoJSON to the standard output."""
        status, output, faults = self.called(*words)
        self.assertEqual((status, faults), (0, ""))
        return json.loads(output)

    def makes(self, name, *words):
        """The path of a file that it writes."""
        self.assertEqual(self.called(*words, "--output", self.path(name)), (0, "", ""))
        return self.path(name)

    def fails(self, *words, status=2):
        ended, output, faults = self.called(*words)
        self.assertEqual((ended, output, faults[:7], faults[-1:]), (status, "", "itree: ", "\n"))
        return faults[7:-1]


def properties_of(collected):
    return [it["properties"] for it in collected["features"]]


def shapes_of(collected):
    return [in_order(it["geometry"]["coordinates"]) for it in collected["features"]]


class Written(Files):
    """What is written, as GeoJSON."""

    def test_one_feature(self):
        found = self.written("overlay", "--operation", "difference", self.parcels, self.flood)
        self.assertEqual((found["type"], found["geometry"]["type"]), ("Feature", "MultiPolygon"))
        told = {"operation": "difference", "rule": "nonzero", "unit": 2.0**-26}
        self.assertEqual(found["properties"], told)
        wanted = itree.overlay(PARCELS, FLOOD, "difference")
        self.assertEqual(in_order(found["geometry"]["coordinates"]), in_order(wanted.__geo_interface__["coordinates"]))

    def test_nothing(self):
        found = self.written("overlay", "--operation", "intersection", self.flood, self.file("no.geojson", collection()))
        self.assertEqual(found["geometry"], {"type": "MultiPolygon", "coordinates": []})
        found = self.written("simplify", "--each", self.file("no.geojson", collection()))
        self.assertEqual(found["features"], [])

    def test_each_polygon_a_feature(self):
        found = self.written("simplify", "--features", self.parcels)
        self.assertEqual((found["type"], found["operation"], len(found["features"])), ("FeatureCollection", "union", 3))
        self.assertEqual({it["geometry"]["type"] for it in found["features"]}, {"Polygon"})
        self.assertEqual(properties_of(found), [{}] * 3)
        polygons = [it["geometry"]["coordinates"] for it in found["features"]]
        self.assertEqual(in_order(polygons), shape_of(PARCELS))

    def test_digits(self):
        near = self.file("near.geojson", polygon([[0.123456, 0.5], [4.00004, -0.5], [4.5, 4.99996], [0.123456, 0.5]]))
        found = self.written("simplify", "--digits", "3", near)
        self.assertEqual(in_order(found["geometry"]["coordinates"]), [[[(0.123, 0.5), (4, -0.5), (4.5, 5)]]])
        _, text, _ = self.called("simplify", "--digits", "0", near)
        self.assertIn('"coordinates": [[[[0,0],[4,0],[4,5],[0,0]]]]', text)
        for name in "a.geojsonl", "a.wkbhex":
            made = self.makes(name, "simplify", "--digits", "3", near)
            again = self.written("simplify", "--digits", "4", made)
            self.assertEqual(in_order(again["geometry"]["coordinates"]), [[[(0.123, 0.5), (4, -0.5), (4.5, 5)]]])

    def test_reference_system(self):
        crs = {"type": "name", "properties": {"name": "urn:ogc:def:crs:EPSG::25832"}}
        known = self.file("known.geojson", {**PARCELS, "crs": crs})
        self.assertEqual(self.written("overlay", known, self.flood)["crs"], crs)
        self.assertEqual(self.written("overlay", "--each", self.flood, known)["crs"], crs)
        degrees = {"type": "name", "properties": {"name": "urn:ogc:def:crs:OGC:1.3:CRS84"}}
        other = self.file("other.geojson", {**FLOOD, "crs": degrees})
        self.assertNotIn("crs", self.written("simplify", other))
        said = f"{other}: the reference system is EPSG:4326, and that of {known} EPSG:25832"
        self.assertEqual(self.fails("overlay", known, other), said)

    def test_several_files(self):
        words = [word for name in ("a.geojson", "b.svg") for word in ("-o", self.path(name))]
        self.assertEqual(self.called("simplify", self.parcels, *words), (0, "", ""))
        self.assertEqual(sorted(it.name for it in self.folder.iterdir())[:2], ["a.geojson", "b.svg"])
        # Over a file that was read.
        self.assertEqual(self.called("simplify", self.parcels, "-o", self.parcels), (0, "", ""))
        self.assertEqual(json.loads(pathlib.Path(self.parcels).read_bytes())["type"], "Feature")


class Each(Files):
    """Features on their own, and by a field."""

    def test_each(self):
        for operation in "union", "intersection", "difference", "xor":
            found = self.written("overlay", "--operation", operation, "--each", self.parcels, self.flood)
            alone = [(it, itree.overlay(it, FLOOD, operation)) for it in PARCELS["features"]]
            kept = [(it, in_order(made.__geo_interface__["coordinates"])) for it, made in alone if len(made)]
            self.assertEqual(properties_of(found), [it["properties"] for it, _ in kept])
            self.assertEqual(shapes_of(found), [it for _, it in kept])
            self.assertEqual([it.get("id") for it in found["features"]], [it.get("id") for it, _ in kept])
            self.assertFalse(any("bbox" in it for it in found["features"]))
            self.assertEqual((found["operation"], found["rule"]), (operation, "nonzero"))

    def test_each_alone(self):
        found = self.written("simplify", "--each", self.parcels)
        shaped = [it for it in PARCELS["features"] if it["geometry"]]
        self.assertEqual(shapes_of(found), [shape_of(it["geometry"]) for it in shaped])
        apart = self.written("simplify", "--each", "--features", self.parcels)
        self.assertEqual([it["name"] for it in properties_of(apart)], ["mill", "Ähre", "Ähre", "far"])
        self.assertFalse(any("id" in it for it in apart["features"]))

    def test_by(self):
        found = self.written("simplify", "--by", "kind", self.parcels)
        self.assertEqual(properties_of(found), [{"kind": "farm"}, {"kind": "wood"}])
        together = [[it for it in PARCELS["features"] if it["properties"]["kind"] == kind] for kind in ("farm", "wood")]
        self.assertEqual(shapes_of(found), [shape_of(collection(*it)) for it in together])
        found = self.written("overlay", "--operation", "intersection", "--by", "kind", self.parcels, self.flood)
        wanted = [itree.overlay(collection(*it), FLOOD, "intersection") for it in together]
        self.assertEqual(shapes_of(found), [in_order(it.__geo_interface__["coordinates"]) for it in wanted])

    def test_values_of_a_field(self):
        values = [1, 1.0, "1", None, True, [1, 2], {"a": 1}, {"a": 1}, "[1, 2]", None]
        features = [feature(polygon(square(9 * place, 0, 2)), {"v": it}) for place, it in enumerate(values)]
        found = self.written("simplify", "--by", "v", self.file("v.geojson", collection(*features, feature(None, None))))
        self.assertEqual([it["v"] for it in properties_of(found)], [1, 1.0, "1", None, True, [1, 2], {"a": 1}, "[1, 2]"])
        self.assertEqual([len(it) for it in shapes_of(found)], [1, 1, 1, 2, 1, 1, 2, 1])

    def test_faulty_words(self):
        said = f"{self.parcels}: no feature has the field owner; the fields are name, kind, size"
        self.assertEqual(self.fails("simplify", "--by", "owner", self.parcels), said)
        said = f"{self.flood}: no feature has the field owner; there are no fields"
        self.assertEqual(self.fails("simplify", "--by", "owner", self.flood), said)
        for words in (
            ("simplify", "--each", "--by", "kind", self.parcels),
            ("simplify", "--digits", "-1", self.parcels),
            ("overlay", "--each"),
            ("overlay", "-o", "a.geojson", "union", "nonzero"),
        ):
            status, output, faults = self.called(*words)
            self.assertEqual((status, output), (2, ""))
            self.assertIn("error: ", faults)

    def test_by_chance(self):
        """Each feature beside a call for itself, by batches of a few points, and with a clip of many."""
        numbers = random.Random(5)
        corners = [(it, numbers.uniform(10, 20)) for it in range(0, 720)]
        large = [[20 + r * math.cos(at * math.pi / 360), 20 + r * math.sin(at * math.pi / 360)] for at, r in corners]
        clip = {"type": "MultiPolygon", "coordinates": [[large], [square(1, 1, 3)], [square(2, 2, 9)]]}
        places = [(numbers.uniform(0, 40), numbers.uniform(0, 40)) for _ in range(60)]
        features = [feature(polygon(square(x, y, numbers.uniform(0.1, 9))), {"place": at}) for at, (x, y) in enumerate(places)]
        files = self.file("some.geojson", collection(*features)), self.file("clip.geojson", clip)
        for operation in "intersection", "difference", "union":
            with mock.patch.object(_tasks, "_AT_ONCE", 500), mock.patch.object(_tasks, "_MANY", 100):
                found = self.written("overlay", "--operation", operation, "--each", *files)
            grid = fitted(array.array("d", [it for shape in (collection(*features), clip) for it in bounds(shape)]))
            areas = {it["properties"]["place"]: area(it["geometry"]["coordinates"]) for it in found["features"]}
            for it in features:
                wanted = itree.overlay(it, clip, operation, grid=grid).__geo_interface__["coordinates"]
                self.assertAlmostEqual(areas.get(it["properties"]["place"], 0), area(wanted), 5)


def bounds(shape):
    flat = [
        pair for rings in in_order(itree.simplify(shape).__geo_interface__["coordinates"]) for ring in rings for pair in ring
    ]
    return [least(axis) for least in (min, max) for axis in zip(*flat)]


def area(polygons):
    return sum(ring_area(ring) for rings in polygons for ring in rings)


def ring_area(ring):
    return sum(x0 * y1 - x1 * y0 for (x0, y0), (x1, y1) in zip(ring, ring[1:])) / 2


class Formats(Files):
    """Each format there and back."""

    def there_and_back(self, ending, has_properties=True):
        whole = self.makes(f"whole{ending}", "simplify", self.parcels)
        self.assertEqual(in_order(self.written("simplify", whole)["geometry"]["coordinates"]), shape_of(PARCELS))
        each = self.makes(f"each{ending}", "simplify", "--each", self.parcels)
        found = self.written("simplify", "--each", each)
        if ending == ".fgb":
            # It has them in an order of its own.
            found["features"].sort(key=lambda it: ["mill", "Ähre", "far"].index(it["properties"]["name"]))
        shaped = [it for it in PARCELS["features"] if it["geometry"]]
        self.assertEqual(shapes_of(found), [shape_of(it["geometry"]) for it in shaped])
        if has_properties:
            self.assertEqual(properties_of(found), [it["properties"] for it in shaped])
        apart = self.makes(f"apart{ending}", "simplify", "--each", "--features", each)
        self.assertEqual(len(self.written("simplify", "--each", apart)["features"]), 4)
        other = self.makes(f"flood{ending}", "simplify", self.flood)
        mixed = self.written("overlay", "--operation", "xor", whole, other)
        wanted = itree.overlay(PARCELS, FLOOD, "xor").__geo_interface__["coordinates"]
        self.assertEqual(in_order(mixed["geometry"]["coordinates"]), in_order(wanted))
        return each

    def test_geojson(self):
        for ending in ".geojson", ".JSON":
            self.there_and_back(ending)
        self.assertEqual(self.written("simplify", self.file("other", FLOOD))["type"], "Feature")

    def test_lines(self):
        for ending in ".geojsonl", ".ndjson":
            each = self.there_and_back(ending)
            lines = pathlib.Path(each).read_text(encoding="utf-8").splitlines()
            self.assertEqual([json.loads(it)["type"] for it in lines], ["Feature"] * 3)
        odd = b"\xef\xbb\xbf\n\x1e" + json.dumps(FLOOD).encode() + b"\r\n\n" + json.dumps(PARCELS["features"][0]).encode()
        self.assertEqual(len(self.written("simplify", "--each", self.file("odd.ndjson", odd))["features"]), 2)

    def test_hex(self):
        for ending in ".wkb.hex", ".wkbhex":
            self.there_and_back(ending, has_properties=False)
        # Extended, with a reference system, as databases send them.
        line = "0103000020E61000000100000004000000" + "".join(map(hex_of, [0, 0, 2, 0, 2, 2, 0, 0]))
        known = self.file("known.wkb.hex", f"\n {line} \r\n{line.lower()}".encode())
        self.assertEqual(len(self.written("simplify", "--each", known)["features"]), 2)
        again = self.makes("again.wkbhex", "simplify", "--each", known)
        self.assertEqual(pathlib.Path(again).read_text(encoding="ascii").split()[0][:18], "0106000020e6100000")
        differs = self.file("differs.wkb.hex", f"{line}\n{line.replace('E6100000', '19640000')}".encode())
        said = f"{differs}, line 2: the reference system is EPSG:25625, and that of {differs} EPSG:4326"
        self.assertEqual(self.fails("simplify", differs), said)

    @needs_fiona
    def test_package(self):
        each = self.there_and_back(".gpkg")
        self.there_and_back(".fgb")
        named = self.makes("each.gpkg:other", "simplify", "--by", "kind", self.parcels)
        self.assertEqual(fiona.listlayers(each), ["each", "other"])
        self.assertEqual(properties_of(self.written("simplify", "--each", named)), [{"kind": "farm"}, {"kind": "wood"}])
        said = f"{each}: it has the layers each, other; name one, as {each}:each"
        self.assertEqual(self.fails("simplify", each), said)

    @needs_fiona
    def test_shapefile(self):
        each = self.there_and_back(".shp")
        crs = {"type": "name", "properties": {"name": "EPSG:25832"}}
        known = self.file("known.geojson", {**FLOOD, "crs": crs})
        for ending in ".shp", ".gpkg", ".fgb":
            with self.subTest(ending=ending):
                made = self.makes(f"known{ending}", "simplify", known)
                found = self.written("simplify", made)
                self.assertEqual(found["crs"]["properties"]["name"], "urn:ogc:def:crs:EPSG::25832")
                again = self.makes(f"again{ending}", "overlay", "--each", each, made)
                with fiona.open(again) as source:
                    self.assertEqual(source.crs.to_epsg(), 25832)

    @needs_fiona
    def test_fields(self):
        """Types of fields, there and back, of another format, too."""
        schema = {"geometry": "Polygon", "properties": {"day": "date", "count": "int", "share": "float", "note": "str"}}
        told = {"day": "2020-02-29", "count": 2**40, "share": 0.25, "note": "é"}
        path = self.path("days.gpkg")
        with fiona.open(path, "w", driver="GPKG", schema=schema) as target:
            for properties in told, dict.fromkeys(told):
                record = {"type": "Feature", "geometry": FLOOD, "properties": properties}
                target.writerecords([record])
        found = self.written("simplify", "--each", path)
        self.assertEqual(properties_of(found), [told, dict.fromkeys(told)])
        again = self.makes("again.gpkg", "simplify", "--each", path)
        with fiona.open(again) as source:
            self.assertEqual(dict(source.schema["properties"]), schema["properties"])
        flat = self.makes("flat.fgb", "simplify", "--each", path)
        self.assertEqual(properties_of(self.written("simplify", "--each", flat))[0], told)
        odd = collection(feature(FLOOD, {"a": [1, 2], "b": True, "c": 1, "d": None}), feature(FLOOD, {"a": 1, "c": 2.5}))
        made = self.makes("odd.gpkg", "simplify", "--each", self.file("odd.geojson", odd))
        wanted = [{"a": "[1, 2]", "b": True, "c": 1.0, "d": None}, {"a": "1", "b": None, "c": 2.5, "d": None}]
        self.assertEqual(properties_of(self.written("simplify", "--each", made)), wanted)

    @needs_fiona
    def test_faults_of_fiona(self):
        points = {"geometry": "Point", "properties": {"a": "int"}}
        path = self.path("points.gpkg")
        with fiona.open(path, "w", driver="GPKG", schema=points) as target:
            target.writerecords([{"geometry": {"type": "Point", "coordinates": (1, 2)}, "properties": {"a": 1}}])
        wanted = "Polygon, MultiPolygon or GeometryCollection is wanted"
        self.assertEqual(self.fails("simplify", path), f"{path}, feature 0: Point; {wanted}")
        self.assertTrue(self.fails("simplify", f"{path}:none").startswith(f"{path}:none: "))
        broken = self.file("broken.shp", b"no shape at all")
        self.assertTrue(self.fails("simplify", broken).startswith(f"{broken}: "))
        none = self.path("none.gpkg")
        self.assertEqual(self.fails("simplify", none), f"{none}: No such file or directory")

    def test_without_fiona(self):
        with mock.patch.dict(sys.modules, {"fiona": None}):
            for ending, called in (".gpkg", "GeoPackage"), (".shp", "Shapefile"), (".fgb", "FlatGeobuf"):
                name = self.file(f"some{ending}", b"")
                install = "apt install python3-fiona, or pip install fiona"
                said = f"{name}: {called} is read and written by fiona, which isn't here: {install}"
                self.assertEqual(self.fails("simplify", name), said)
                self.assertEqual(self.fails("simplify", self.parcels, "-o", name), said)

    def test_endings(self):
        name = self.path("answer.txt")
        said = self.fails("simplify", self.parcels, "-o", name)
        self.assertTrue(said.startswith(f"{name}: an ending is wanted that says what is written: one of .geojson, .json, "))
        self.assertIn(".wkb.hex, .wkbhex, .gpkg, .shp, .fgb, .svg", said)
        picture = self.file("some.svg", b"<svg/>")
        self.assertEqual(self.fails("simplify", picture), f"{picture}: a picture is written alone, and not read")
        away = self.path("no/such/folder.geojson")
        said = f"{away}: No such file or directory"
        self.assertEqual(self.fails("simplify", self.parcels, "-o", away, status=1), said)


def hex_of(number):
    return array.array("d", [number]).tobytes().hex().upper()


class Documents(Files):
    """The command's examples in docs/COMMANDS.md run as they stand."""

    def runs(self):
        """Each command line of the section's blocks, and the lines that stand behind it."""
        text = (TOP / "docs" / "COMMANDS.md").read_text(encoding="utf-8")
        section = text.partition("\n## `python3 -m itree`\n")[2].partition("\n## ")[0]
        for block in re.findall(r"^```sh\n(.*?)^```$", section, re.M | re.S):
            yield from re.findall(r"^\$ (.*)\n((?:(?!\$ ).*\n)*)", block, re.M)

    def test_commands(self):
        """A file that is shown before a command has made it is made as it is shown."""
        ran = collections.Counter()
        self.addCleanup(os.chdir, os.getcwd())
        os.chdir(self.folder)
        os.remove(self.flood)
        status = 0
        for line, shown in self.runs():
            program, *words = line.split()
            ran[program] += 1
            with self.subTest(line=line):
                if program == "cat" and not os.path.exists(words[0]):
                    self.file(words[0], shown.encode())
                elif program == "cat":
                    self.assertEqual(pathlib.Path(words[0]).read_text(encoding="utf-8"), shown)
                elif line == "echo $?":
                    self.assertEqual(f"{status}\n", shown)
                else:
                    self.assertEqual(words[:2], ["-m", "itree"])
                    status, output, faults = self.called(*words[2:])
                    self.assertEqual(output + faults, shown)
        self.assertGreater(min(ran[it] for it in ("python3", "cat", "echo")), 1)

    def test_options(self):
        """Each option that the command takes stands there, and no other."""
        section = (TOP / "docs" / "COMMANDS.md").read_text(encoding="utf-8").partition("\n## `python3 -m itree`\n")[2]
        rows = re.findall(r"^\| (`--\w.*?) \|", section, re.M)
        listed = [it for row in rows for it in re.findall(r"`(--[\w-]+)", row)]
        said = [self.called(it, "--help")[1] for it in ("overlay", "offset", "valid")]
        told = set(re.findall(r"(?<!\w)--\w[\w-]*", "".join(said)))
        self.assertEqual(sorted(told - {"--help"}), sorted(set(listed) - {"--version"}))
        endings = [it for row in re.findall(r"^\| (`\..*?) \|", section, re.M) for it in re.findall(r"`(.*?)`", row)]
        self.assertEqual(sorted(endings), sorted(_files.ENDINGS))


class Faults(Files):
    """What is faulty, and where."""

    def test_features(self):
        cut = json.dumps(PARCELS).encode()[:-2]
        nan = collection(*PARCELS["features"], feature(polygon(square(0, 0, 1), [[1, 2], [3, math.nan], [4, 5]]), {}))
        wide = collection(feature(polygon([[0, 0], [1e999, 0], [1, 1]]), {}))
        point = collection(feature(polygon(square(0, 0, 1)), {}), feature({"type": "Point", "coordinates": [0, 1]}, {}))
        wanted = "Polygon, MultiPolygon, GeometryCollection, Feature or FeatureCollection is wanted"
        for content, said in (
            (cut, f", line 1, column {len(cut) + 1}: Expecting ',' delimiter"),
            (nan, ", feature 4, ring 1, row 1: nan; finite numbers are wanted"),
            (wide, ", feature 0, ring 0, row 1: inf; finite numbers are wanted"),
            (
                json.dumps(polygon([[0, 0], [1, 7], [1, 1]])).replace("7", "-1e999").encode(),
                ", ring 0, row 1: -inf; finite numbers are wanted",
            ),
            (point, f", feature 1: Point; {wanted}"),
            (collection(FLOOD, 7), f", feature 1: no type of GeoJSON; {wanted}"),
            (
                {"type": "FeatureCollection", "features": {}},
                ": FeatureCollection with features that are dict; a list is wanted",
            ),
            (b"\xef\xbb\xbf{", ", line 1, column 2: Expecting property name enclosed in double quotes"),
        ):
            name = self.file("faulty.geojson", content)
            with self.subTest(said=said):
                self.assertEqual(self.fails("simplify", name), name + said)

    def test_each_of_lines(self):
        good = json.dumps(FLOOD)
        for lines, said in (
            ([good, "", '{"type": "Polygon" 3}'], ", line 3, column 20: Expecting ',' delimiter"),
            ([good, "[1]"], ", line 2: no object; one of GeoJSON is wanted"),
            ([good, json.dumps(polygon([[1, 2, 3], [4]]))], ", feature 1, ring 0, row 1: 1 numbers, 2 are wanted"),
        ):
            name = self.file("faulty.ndjson", "\n".join(lines).encode())
            self.assertEqual(self.fails("simplify", name), name + said)

    def test_hex(self):
        good = "010300000001000000" + "04000000" + "".join(map(hex_of, [0, 0, 2, 0, 2, 2, 0, 0]))
        for lines, said in (
            ([good, "01x3"], ", line 2: digits in hex are wanted, two for each byte"),
            ([good, "", "013"], ", line 3: digits in hex are wanted, two for each byte"),
            ([good, "", good[:-2]], ", line 3, byte 77: the well-known binary stops before it is whole"),
            ([good.replace(hex_of(2), hex_of(math.inf), 1)], ", line 1, ring 0, row 1: inf; finite numbers are wanted"),
        ):
            name = self.file("faulty.wkbhex", "\n".join(lines).encode())
            with self.subTest(said=said):
                self.assertTrue(self.fails("simplify", name).startswith(name + said[:8]), self.fails("simplify", name))
                self.assertIn(said.split(": ")[1], self.fails("simplify", name))

    def test_unit(self):
        said = "the unit 1e-09: a power of two is wanted, as 9.313225746154785e-10, 2**-30"
        self.assertEqual(self.fails("simplify", "--unit", "1e-9", self.parcels), said)
        said = "the unit 2.3283064365386963e-10 is too fine: 0.0 is more than 2**31 units from the middle"
        self.assertEqual(self.fails("simplify", "--unit", str(2.0**-32), self.parcels), said)


OCTAGON = [[3, 0], [6, 0], [9, 3], [9, 6], [6, 9], [3, 9], [0, 6], [0, 3], [3, 0]]
BOW = polygon([[0, 0], [4, 4], [4, 0], [0, 4], [0, 0]])
TWICE = polygon([[9, 20], [10.5, 20], [12, 20], [12, 25], [10.5, 20], [9, 25], [9, 20]])
OUTSIDE = polygon(square(0, 0, 9), [[11, 1], [12, 1], [11, 2], [11, 1]])
SQUARES = [polygon(square(0, 0, 4)), polygon(square(0, 0, 4))]
# A square, of which one point has a height: it isn't read in bulk.
HIGH = polygon([[0, 0, 1], *square(0, 0, 4)[1:4], [0, 0, 1]])
# Shapes, and what is wrong with each, in the words of shapely 1.8.5, and where it says so.
JUDGED = {
    "a square": (SQUARES[0], None),
    "a bow-tie": (BOW, "Self-intersection[2 2]"),
    "one whose crossing isn't whole": (polygon([[0, 0], [3, 3], [3, 0], [0, 3], [0, 0]]), "Self-intersection[1.5 1.5]"),
    "a ring that touches itself": (TWICE, "Ring Self-intersection[10.5 20]"),
    "a hole outside": (OUTSIDE, "Hole lies outside shell[11 1]"),
    "a hole in a hole": (polygon(square(0, 0, 9), square(1, 1, 7), square(2, 2, 2)), "Holes are nested[2 2]"),
    "a hole that touches an octagon": (polygon(OCTAGON, [[6, 9], [4, 4], [5, 4], [6, 9]]), None),
    "one that touches it twice": (polygon(OCTAGON, [[6, 9], [4, 5], [3, 0], [5, 4], [6, 9]]), "Interior is disconnected[6 9]"),
    "squares side by side": ({"type": "MultiPolygon", "coordinates": [[square(0, 0, 4)], [square(5, 0, 4)]]}, None),
    "a square in a square": (
        {"type": "MultiPolygon", "coordinates": [[square(0, 0, 9)], [square(2, 2, 2)]]},
        "Nested shells[2 2]",
    ),
    "a collection, whose parts may overlap": ({"type": "GeometryCollection", "geometries": SQUARES}, None),
    "one with a part that isn't valid": (
        {"type": "GeometryCollection", "geometries": [*SQUARES, BOW]},
        "Self-intersection[2 2]",
    ),
    "a height": (polygon([[*it, 7] for it in square(0, 0, 4)]), None),
    "nothing": ({"type": "Polygon", "coordinates": []}, None),
}


def hex_line(geometry):
    return shapely.shape(geometry).wkb_hex.encode()


class Valid(Files):
    """Which features aren't valid, and why."""

    def judged(self, *words):
        """The lines that it prints, behind which it ends with 1; or none, and it ends with 0."""
        status, output, faults = self.called("valid", *words)
        self.assertEqual((status, faults), (1 if output else 0, ""))
        return output.splitlines()

    def test_shapes(self):
        for name, (shape, reason) in JUDGED.items():
            wanted = [f"1: {reason}"] if reason else []
            for content in shape, feature(shape, {"id": 5}), collection(feature(shape, None)):
                with self.subTest(name=name, of=content["type"]):
                    self.assertEqual(self.judged(self.file("one.geojson", content)), wanted)

    @needs_shapely
    def test_as_shapely_tells(self):
        for name, (shape, reason) in JUDGED.items():
            with self.subTest(name=name):
                self.assertEqual(explain_validity(shapely.shape(shape)), reason or "Valid Geometry")

    def test_files(self):
        line = json.dumps(BOW)
        for name, content, wanted in (
            ("none.geojson", collection(), []),
            ("none.geojsonl", b"\n", []),
            ("none.wkbhex", b"", []),
            ("valid.geojson", PARCELS, []),
            (
                "ids.geojson",
                collection(*(feature(BOW, {}, id=it) for it in (7, "7", "a", 0, None, [1]))),
                [
                    "1, id 7: Self-intersection[2 2]",
                    '2, id "7": Self-intersection[2 2]',
                    '3, id "a": Self-intersection[2 2]',
                    "4, id 0: Self-intersection[2 2]",
                    "5: Self-intersection[2 2]",
                    "6: Self-intersection[2 2]",
                ],
            ),
            ("odd.geojson", feature(BOW, {}, id="\xc4\n\x9b"), ['1, id "\\u00c4\\n\\u009b": Self-intersection[2 2]']),
            ("one.json", feature(OUTSIDE, {}, id="b"), ['1, id "b": Hole lies outside shell[11 1]']),
            (
                "without.geojson",
                collection(feature(None, {}, id=1), feature(TWICE, {}, id=2)),
                ["2, id 2: Ring Self-intersection[10.5 20]"],
            ),
            (
                "lines.ndjson",
                f"{line}\n\n{json.dumps(FLOOD)}\r\n{json.dumps(feature(BOW, {}, id=3))}".encode(),
                [
                    "1: Self-intersection[2 2]",
                    "3, id 3: Self-intersection[2 2]",
                ],
            ),
            ("other", BOW, ["1: Self-intersection[2 2]"]),
        ):
            with self.subTest(name=name):
                self.assertEqual(self.judged(self.file(name, content)), wanted)

    def test_what_is_not_read_in_bulk(self):
        """Parts of a collection may overlap there, too."""
        parts = {"type": "GeometryCollection", "geometries": [HIGH, SQUARES[0]]}
        several = {"type": "MultiPolygon", "coordinates": [HIGH["coordinates"], [square(1, 1, 2)]]}
        line = json.dumps(collection(HIGH, HIGH))
        lines = self.file("lines.geojsonl", f"{line}\n{json.dumps(BOW)}".encode())
        self.assertEqual(self.judged(lines), ["2: Self-intersection[2 2]"])
        for content, wanted in (
            (parts, []),
            (collection(feature(parts, {}), feature(HIGH, {})), []),
            (collection(feature(HIGH, {}, id=1), feature(BOW, {}, id=2)), ["2, id 2: Self-intersection[2 2]"]),
            ({"type": "GeometryCollection", "geometries": [parts, BOW]}, ["1: Self-intersection[2 2]"]),
            (several, ["1: Nested shells[1 1]"]),
        ):
            with self.subTest(content=content):
                self.assertEqual(self.judged(self.file("odd.geojson", content)), wanted)
        said = (
            ", feature 1, geometry 1: Point; Polygon, MultiPolygon, GeometryCollection, Feature or FeatureCollection is wanted"
        )
        point = {"type": "GeometryCollection", "geometries": [HIGH, {"type": "Point", "coordinates": [1, 2]}]}
        faulty = self.file("faulty.geojson", collection(HIGH, point))
        self.assertEqual(self.fails("valid", faulty), faulty + said)

    def test_deep_collections(self):
        """As deep as Python reads them, and somewhat deeper, they are told as too deep."""
        for inner, depth in itertools.product((SQUARES[0], HIGH), (16, 17, *range(440, 500, 2), 600)):
            text = '{"type": "GeometryCollection", "geometries": [' * depth + json.dumps(inner) + "]}" * depth
            deep = self.file("deep.geojson", text.encode())
            with self.subTest(depth=depth):
                if depth == 16:
                    self.assertEqual(self.judged(deep), [])
                else:
                    self.assertRegex(self.fails("valid", deep), f"^{deep}(, byte 144)?: (collections in|maximum recursion)")

    def test_unit(self):
        """Whole numbers are exact, and a grid may be coarser than a shape."""
        least, most = -(2**31), 2**31 - 1
        bow = self.file("bow.geojson", polygon([[least, least], [most, most], [most, least], [least, most], [least, least]]))
        self.assertEqual(self.judged(bow), ["1: Self-intersection[-0.5 -0.5]"])
        # By the unit 1 the first triangle is a line from 0 to 4, and by 1/4 none.
        thin = collection(polygon([[0, 0], [4, 0.25], [4, 0], [0, 0]]), polygon(square(90, 90, 1)))
        thin = self.file("thin.geojson", thin)
        self.assertEqual((self.judged(thin), self.judged("--unit", "0.25", thin)), ([], []))
        (told,) = self.judged("--unit", "1", thin)
        self.assertRegex(told, r"^1: Too few points in geometry component\[[04] 0\]$")
        # Each feature has a grid of its own, and by one of both the first is a point.
        apart = collection(polygon([[0.1, 0.1], [0.4, 0.1], [0.4, 0.3], [0.1, 0.1]]), polygon(square(1e9, 1e9 + 0.5, 2e9)))
        apart = self.file("apart.geojson", apart)
        self.assertEqual(self.judged(apart), [])
        self.assertEqual(self.judged("--unit", "2", apart), ["1: Too few points in geometry component[0 0]"])
        for unit, said in ("0.3", "a power of two is wanted, as 0.25, 2**-2"), (str(2.0**-9), "is too fine: "):
            self.assertIn(said, self.fails("valid", "--unit", unit, apart))

    def test_faults(self):
        point = {"type": "Point", "coordinates": [0, 1]}
        wanted = "Polygon, MultiPolygon, GeometryCollection, Feature or FeatureCollection is wanted"
        for name, content, said in (
            ("cut.geojson", b'{"type": "Polygon", "coordinates": [[[0, 0], [1', ", line 1, column 48: Expecting ',' delimiter"),
            ("point.geojson", collection(BOW, feature(point, {}, id=4)), f", feature 1: Point; {wanted}"),
            ("list.geojson", b"[1]", ": no object; one of GeoJSON is wanted"),
            (
                "wide.ndjson",
                json.dumps(polygon([[0, 0], [1e999, 0]])).encode(),
                ", feature 0, ring 0, row 1: inf; finite numbers are wanted",
            ),
            ("some.wkbhex", b"01x3", ", line 1: digits in hex are wanted, two for each byte"),
            (
                "point.wkbhex",
                b"\n0101000000" + b"00" * 16,
                ", line 2, byte 1: Point; Polygon, MultiPolygon or GeometryCollection is wanted",
            ),
            ("picture.svg", b"", ": a picture is written alone, and not read"),
        ):
            faulty = self.file(name, content)
            with self.subTest(name=name):
                self.assertEqual(self.fails("valid", faulty), faulty + said)
        none = self.path("none.geojson")
        self.assertEqual(self.fails("valid", none), f"{none}: No such file or directory")
        for words in (), (self.flood, self.parcels), ("--each", self.flood), ("--unit", "x", self.flood):
            status, output, faults = self.called("valid", *words)
            self.assertEqual((status, output), (2, ""))
            self.assertIn("error: ", faults)

    def ran(self, *words, **how):
        """The status of a process of its own, and what it wrote."""
        ran = subprocess.run([sys.executable, "-m", "itree", "valid", *words], stderr=subprocess.PIPE, text=True, **how)
        return ran.returncode, ran.stdout, ran.stderr

    def test_standard_input(self):
        for content, status, output in (
            (collection(FLOOD, feature(BOW, {}, id="b")), 1, '2, id "b": Self-intersection[2 2]\n'),
            (PARCELS, 0, ""),
        ):
            self.assertEqual(self.ran("-", input=json.dumps(content), stdout=subprocess.PIPE), (status, output, ""))
        said = "itree: -, line 1, column 2: Expecting property name enclosed in double quotes\n"
        self.assertEqual(self.ran("-", input="{", stdout=subprocess.PIPE), (2, "", said))

    def test_ends_with_2(self):
        """Where it can't tell, for 1 says that some aren't valid."""
        bow = self.file("bow.geojson", BOW)
        library = ctypes.CDLL(os.environ["ITREE_LIBRARY"])
        library.refuse_after(ctypes.c_size_t(0))
        try:
            self.assertEqual(self.called("valid", bow), (2, "", "itree: memory was refused\n"))
        finally:
            library.refuse_after(ctypes.c_size_t(-1))
        with open("/dev/full", "w") as full:
            self.assertEqual(self.ran(bow, stdout=full), (2, None, "itree: the standard output: No space left on device\n"))
        reading, writing = os.pipe()
        os.close(reading)
        self.assertEqual(self.ran(bow, stdout=writing), (2, None, "itree: the standard output was closed\n"))
        os.close(writing)

    @needs_fiona
    def test_fiona(self):
        shapes = [SQUARES[0], BOW, TWICE, OUTSIDE]
        wanted = ["2: Self-intersection[2 2]", "3: Ring Self-intersection[10.5 20]", "4: Hole lies outside shell[11 1]"]
        for ending, driver in (".gpkg", "GPKG"), (".fgb", "FlatGeobuf"), (".shp", "ESRI Shapefile"):
            path = self.path(f"some{ending}")
            # FlatGeobuf has an order of its own, but for one with no index.
            how = {"SPATIAL_INDEX": "NO"} if ending == ".fgb" else {}
            schema = {"geometry": "Polygon", "properties": {"a": "int"}}
            with fiona.open(path, "w", driver=driver, schema=schema, **how) as target:
                target.writerecords([feature(it, {"a": 1}) for it in shapes])
            with self.subTest(ending=ending):
                # Of a Shapefile's rings GDAL says which are holes: one outside is none.
                self.assertEqual(self.judged(path), wanted[:2] if ending == ".shp" else wanted)

    @needs_shapely
    def test_by_chance(self):
        numbers, counts = random.Random(9), collections.Counter()
        for ending in [".geojson", ".ndjson", ".wkbhex"] * 30:
            shapes = [any_shape(numbers) for _ in range(20)]
            if ending == ".geojson":
                content = collection(*(feature(it, {}) for it in shapes))
            else:
                content = b"\n".join([hex_line(it) if ending == ".wkbhex" else json.dumps(it).encode() for it in shapes])
            told = {
                int(number): said for number, said in (it.split(": ") for it in self.judged(self.file(f"any{ending}", content)))
            }
            wanted = [number for number, it in enumerate(shapes, 1) if not shapely.shape(it).is_valid]
            self.assertEqual(sorted(told), wanted)
            self.assertEqual(list(told.values()), [itree.is_valid_reason(shapes[it - 1]) for it in wanted])
            counts.update(valid=len(shapes) - len(wanted), others=len(wanted))
        self.assertGreater(min(counts.values()), 300)


def any_shape(numbers):
    """A polygon of few points, two of these together, or a collection of such."""
    kind = numbers.random()
    if kind < 0.2:
        return {"type": "GeometryCollection", "geometries": [any_shape(numbers) for _ in range(numbers.randrange(3))]}
    if kind < 0.4:
        return {"type": "MultiPolygon", "coordinates": [polygon_by_chance(numbers)["coordinates"] for _ in range(2)]}
    return polygon_by_chance(numbers)


def polygon_by_chance(numbers):
    """A triangle or a ring of four, which may cross itself, or a square with such a one for a hole."""
    points = [[numbers.randrange(-9, 10), numbers.randrange(-9, 10)] for _ in range(numbers.choice([3, 3, 4]))]
    ring = points + points[:1]
    return polygon(square(-9, -9, 18), ring) if numbers.random() < 0.3 else polygon(ring)


class Pictures(Files):
    def test_svg(self):
        picture = self.makes("a.svg", "overlay", "--operation", "intersection", self.parcels, self.flood)
        text = pathlib.Path(picture).read_text(encoding="utf-8")
        self.assertTrue(text.startswith('<svg xmlns="http://www.w3.org/2000/svg" viewBox="') and text.endswith("</svg>\n"))
        paths = re.findall(r'<path fill="(#\w+)".* fill-rule="(\w+)" .* d="([^"]*)"/>', text)
        self.assertEqual(len({paint for paint, _, _ in paths}), 3)
        counts = [(rule, path.count("M"), path.count("z")) for _, rule, path in paths]
        self.assertEqual(counts, [("nonzero", 5, 5), ("nonzero", 1, 1), ("evenodd", 1, 1)])
        width, height = (int(it) for it in re.search(r'width="(\d+)" height="(\d+)"', text).groups())
        self.assertEqual((width, height), (936, 936))
        # The flood's lower left corner lies a tenth from the left, and as far from below.
        first = next(path for paint, _, path in paths if paint == paths[1][0])
        points = [tuple(map(int, it.split(","))) for it in first[1:-1].split()]
        side = 22 * 2**26
        wanted = [(x * 2**26, side - y * 2**26) for x, y in FLOOD["coordinates"][0][:4]]
        self.assertLess(max(abs(a - b) for it in zip(sorted(points), sorted(wanted)) for a, b in zip(*it)), side / 2000)

    def test_of_one_file(self):
        for words in ("--each",), ("--features",), ():
            picture = self.makes("b.svg", "simplify", *words, self.parcels)
            self.assertEqual(pathlib.Path(picture).read_text(encoding="utf-8").count("<path "), 2)
        nothing = self.makes("c.svg", "simplify", self.file("no.geojson", collection()))
        self.assertEqual(pathlib.Path(nothing).read_text(encoding="utf-8").count("<path "), 2)


class Terminal(io.StringIO):
    def isatty(self):
        return True


class Bar(Files):
    """The bar on a terminal, and nothing elsewhere."""

    WORDS = [sys.executable, "-m", "itree", "overlay", "--operation", "difference", "--each"]
    HOW = {"stdout": subprocess.PIPE, "stdin": subprocess.DEVNULL}

    def test_on_a_terminal(self):
        ours, theirs = pty.openpty()
        running = subprocess.Popen([*self.WORDS, self.parcels, self.flood], stderr=theirs, **self.HOW)
        os.close(theirs)
        said = b""
        # Linux tells the end so.
        with contextlib.suppress(OSError):
            while piece := os.read(ours, 1 << 16):
                said += piece
        os.close(ours)
        output, _ = running.communicate()
        self.assertEqual((running.returncode, json.loads(output)["type"]), (0, "FeatureCollection"))
        shown = [it for it in said.decode().split("\r\x1b[K") if it]
        for name in "reading ", "difference of each", "writing":
            here = [it for it in shown if it.startswith(f"itree: {name}")]
            self.assertRegex(here[-1], r"\[#{24}\] 100%$|\.\.\.$")
        self.assertTrue(said.endswith(b"\r\x1b[K"))

    def test_elsewhere(self):
        ran = subprocess.run([*self.WORDS, self.parcels, self.flood], stderr=subprocess.PIPE, **self.HOW)
        self.assertEqual((ran.returncode, ran.stderr), (0, b""))

    def test_cells(self):
        stream = Terminal()
        with mock.patch.object(_progress.time, "monotonic", iter(range(99)).__next__):
            with _progress.Progress(stream) as progress:
                progress.begin("going", 4)
                for _ in range(4):
                    progress.add(1)
                progress.begin("thinking")
        shown = stream.getvalue().split("\r\x1b[K")[1:]
        bars = [f"itree: going [{'#' * (6 * it):-<24}] {25 * it:3}%" for it in range(5)]
        self.assertEqual(shown, [*bars, "itree: thinking", ""])


class Bulk(unittest.TestCase):
    """GeoJSON that is read in bulk, beside what is read as JSON."""

    def setUp(self):
        self.chance = random.Random(6)

    def number(self):
        chance = self.chance
        return chance.choice([chance.randrange(-9, 10), chance.uniform(-180, 180), round(chance.uniform(-9, 9), 3), 1e-7])

    def ring(self, width):
        points = [[self.number() for _ in range(width)] for _ in range(self.chance.randrange(1, 6))]
        return points + points[:1]

    def geometry(self, deep=0):
        chance = self.chance
        width, kind = chance.choice([2, 2, 2, 3, 4]), chance.random()
        rings = [self.ring(width) for _ in range(chance.randrange(1, 4))]
        if kind < 0.4:
            return polygon(*rings)
        if kind < 0.8:
            return {"type": "MultiPolygon", "coordinates": [rings, [self.ring(width)]]}
        if kind < 0.9 or deep:
            return {"type": chance.choice(["Polygon", "MultiPolygon"]), "coordinates": []}
        return {"type": "GeometryCollection", "geometries": [self.geometry(1) for _ in range(chance.randrange(3))]}

    def turned(self, members):
        listed = list(members.items())
        self.chance.shuffle(listed)
        return dict(listed)

    def feature(self):
        odd = 'say "coordinates": [[[1,2]]] ', "\\", "a,b}", "ä€\U0001f600", {"type": "Point", "coordinates": [1, 2]}, 1.5, None
        properties = {self.chance.choice("abc"): self.chance.choice(odd) for _ in range(3)}
        geometry = self.geometry() if self.chance.random() < 0.9 else None
        return self.turned(feature(geometry, properties if self.chance.random() < 0.9 else None))

    def text(self):
        chance = self.chance
        whole = collection(*(self.feature() for _ in range(chance.randrange(6))), name="x", bbox=[1, 2.5])
        layout = chance.choice([{}, {"separators": (",", ":")}, {"indent": 1}, {"indent": "\t", "separators": (" , ", " :\n")}])
        shape = chance.choice([self.turned(whole), self.turned(whole), self.feature(), self.turned(self.geometry())])
        return json.dumps(shape, ensure_ascii=chance.random() < 0.5, **layout).encode()

    def lists(self, read):
        try:
            grid = fitted(_wkb.corners(read.shapes))
        except ValueError:
            return None
        lists = _wkb.read(read.shapes, grid.of_c(), grid)
        names = [read.shapes.named(place) for place in range(lists.polygon_count)]
        return (
            [list(it) for it in (lists.numbers(), lists.ring_offsets(), lists.polygon_offsets())],
            read.members,
            read.crs,
            names,
        )

    def slowly(self, data):
        try:
            return self.lists(_geojson.read_slowly(data, "file", True, False))
        except (TypeError, ValueError):
            return None

    def test_by_chance(self):
        known = 0
        for _ in range(1500):
            data = self.text()
            is_broken = self.chance.random() < 0.3
            if is_broken:
                at = self.chance.randrange(len(data))
                data = data[:at] + self.chance.choice([b"", b",", b"]", b"[", b"1", b'"', b"}", b"e"]) + data[at + 1 :]
            with mock.patch.object(_geojson, "_PIECE", self.chance.choice([1, 3, 20, 1000])):
                try:
                    found = self.lists(_geojson.read(io.BytesIO(data), "file", True, False, lambda _: None))
                except _geojson.Odd:
                    self.assertTrue(is_broken, data)
                    continue
            self.assertEqual(found, self.slowly(data), data)
            known += 1
        self.assertGreater(known, 1000)

    def test_tells_how_far_it_is(self):
        data, told = json.dumps(PARCELS).encode(), []
        with mock.patch.object(_geojson, "_PIECE", 100):
            _geojson.read(io.BytesIO(data), "file", False, False, told.append)
        self.assertEqual((sum(told), max(told)), (len(data), 100))

    def test_the_file_s_own_numbers(self):
        """A number in place of coordinates is none of those that stand for some."""
        for faulty in (
            [feature({"type": "Polygon", "coordinates": 0}, {}), feature(FLOOD, {})],
            [feature(FLOOD, {}), feature({"type": "Polygon", "coordinates": 0}, {})],
            [feature(FLOOD, {}), feature({"type": "Polygon", "coordinates": 1}, {})],
            [feature(FLOOD, {"coordinates": [[[1, 2]]]})],
        ):
            data = json.dumps(collection(*faulty)).encode()
            with self.assertRaises(_geojson.Odd):
                _geojson.read(io.BytesIO(data), "file", True, False, lambda _: None)
        read = _geojson.read_slowly(data, "file", True, False)
        self.assertEqual(read.members[0]["properties"], {"coordinates": [[[1, 2]]]})


class Decimals(unittest.TestCase):
    """Points of grids as text, beside Python's own."""

    def lists(self, chance, most):
        numbers, rings, polygons = array.array("i"), array.array("q", [0]), array.array("q", [0])
        for _ in range(9):
            count = chance.randrange(3, chance.choice([5, 40, 3000]))
            numbers.extend(chance.randrange(-most, most + 1) for _ in range(2 * count))
            rings.append(rings[-1] + count)
            if chance.random() < 0.6:
                polygons.append(len(rings) - 1)
        if polygons[-1] < len(rings) - 1:
            polygons.append(len(rings) - 1)
        return _answers.lists_of(*map(memoryview, (numbers, rings, polygons)))

    @needs_numpy
    def test_by_chance(self):
        chance = random.Random(7)
        for _ in range(60):
            exponent = chance.choice([0, 1, 5, 22, 30, 31, 36, 49])
            origin = chance.choice([0, 0, 12345, -(2**40) if exponent > 20 else 77]) * 2.0**-exponent
            grid = Grid((origin, -origin), 2.0**-exponent)
            lists = self.lists(chance, chance.choice([3, 100, 10**5, 2**29, 2**31 - 2]))
            for digits in None, 0, chance.randrange(1, 12):
                plain, bulk = (
                    json.loads(b"[%b]" % b"".join(_decimals.written(lists, grid, digits, b",", it))[:-1])
                    for it in (None, numpy)
                )
                self.assertEqual(plain, bulk, (grid, digits))

    def test_reads_back(self):
        chance = random.Random(8)
        for exponent in 0, 7, 22, 31, 45, 60:
            grid, lists = Grid((0.0, 0.0), 2.0**-exponent), self.lists(chance, 2**30)
            for known in (None, numpy) if numpy else (None,):
                text = b"".join(_decimals.written(lists, grid, None, b",", known))
                found = [pair for rings in json.loads(b"[%b]" % text[:-1]) for ring in rings for pair in ring[:-1]]
                flat = [number * grid.unit for number in lists.numbers()]
                self.assertEqual(found, [list(it) for it in zip(flat[0::2], flat[1::2])])

    def test_rounds_to_the_nearest(self):
        lists = _answers.lists_of(
            *map(memoryview, (array.array("i", [1, 3, -1, 5, 7, -8]), array.array("q", [0, 3]), array.array("q", [0, 1])))
        )
        for known in (None, numpy) if numpy else (None,):
            for exponent, digits in (3, 2), (3, 1), (3, 0), (10, 2), (10, 4), (10, 5):
                grid = Grid((0.0, 0.0), 2.0**-exponent)
                text = b"".join(_decimals.written(lists, grid, digits, b"", known))
                found = [pair for pair in json.loads(text)[0]]
                exact = [fractions.Fraction(it, 2**exponent) for it in (1, 3, -1, 5, 7, -8, 1, 3)]
                wanted = [float(round(it * 10**digits)) / 10**digits for it in exact]
                self.assertEqual([it for pair in found for it in pair], wanted)
                self.assertNotIn(b"-0,", text)
                self.assertNotIn(b"-0]", text)


class Types(unittest.TestCase):
    def test_of_fields(self):
        rows = [{"a": 1, "b": 1, "c": "x", "d": None, "e": 2**70}, {"a": 2, "b": 0.5, "c": 3, "f": True}, {"f": 1}]
        wanted = {"a": "int", "b": "float", "c": "str", "d": "str", "e": "str", "f": "str"}
        self.assertEqual(_vector.fields_of(rows), wanted)

    def test_of_files(self):
        for name, ending in ("a.geojson", ".geojson"), ("b.WKB.HEX", ".wkb.hex"), ("c.hex", ""), ("d.gpkg:e.svg", ".gpkg"):
            self.assertEqual(_files.ending_of(name), ending)


if __name__ == "__main__":
    unittest.main()
