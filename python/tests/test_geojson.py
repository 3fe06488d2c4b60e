"""Polygons of watersheds: their area, their rings, and what GDAL makes of them."""

import json
import math
import os
import random
import shutil
import subprocess
import sys
import unittest
from concurrent.futures import ThreadPoolExecutor

from mosaic_store import Run, errors, format_store, memory_table, open_store
from mosaic_store.geojson import tile_feature, trace_feature, watershed_feature
from mosaic_store.lattice import Corner, Point
from mosaic_store.polygons import doubled_area, polygons_of
from mosaic_store.questions import Watershed, WatershedOf
from mosaic_store.snapping import snapped

from .support import PROGRAM, THREE, InFolder


def runs_of(cells):
    """The maximal runs of a set of points, from the north down."""
    runs = []
    for y, x in sorted(cells, key=lambda cell: (-cell[0], cell[1])):
        if runs and runs[-1].y == y and runs[-1].last == x - 1:
            runs[-1] = runs[-1]._replace(last=x)
        else:
            runs.append(Run(y, x, x))
    return runs


def surrounds(rings, x, y):
    """Whether a place lies inside, by the crossings of a line to the east."""
    inside = False
    for ring in rings:
        for (a, b), (c, d) in zip(ring, ring[1:]):
            if (b > y) != (d > y) and x < a + (y - b) * (c - a) / (d - b):
                inside = not inside
    return inside


class Polygons(unittest.TestCase):
    def test_a_hole_and_what_is_in_it(self):
        block = {(y, x) for y in range(5) for x in range(5)}
        ring = {cell for cell in block if cell not in {(y, x) for y in (1, 2, 3) for x in (1, 2, 3)}}
        inner, outer = sorted(polygons_of(runs_of(ring | {(2, 2)})), key=lambda polygon: polygon.cells)
        self.assertEqual((outer.cells, inner.cells), (16, 1))
        self.assertEqual(len(outer.holes), 1)
        self.assertEqual(set(outer.holes[0]), {(1, 1), (1, 4), (4, 4), (4, 1)})

    def test_cells_that_touch_at_a_corner(self):
        self.assertEqual([polygon.cells for polygon in polygons_of(runs_of({(0, 0), (1, 1)}))], [1, 1])
        two_holes = {(y, x) for y in range(4) for x in range(4)} - {(1, 1), (2, 2)}
        (polygon,) = polygons_of(runs_of(two_holes))
        self.assertEqual((polygon.cells, len(polygon.holes)), (14, 2))

    def test_any_set_of_cells(self):
        """Each cell in exactly one polygon, no other in any; no ring comes to a corner twice; RFC 7946 winding."""
        for seed in range(400):
            chance = random.Random(seed)
            size, share = chance.randint(1, 7), chance.random()
            square = [(y - 3, x - 3) for y in range(size) for x in range(size)]
            cells = {cell for cell in square if chance.random() < share}
            polygons = polygons_of(runs_of(cells))
            self.assertEqual(sum(polygon.cells for polygon in polygons), len(cells))
            for y, x in square:
                held = sum(surrounds(polygon.rings, x + 0.5, y + 0.5) for polygon in polygons)
                self.assertEqual(held, (y, x) in cells, (seed, y, x))
            for polygon in polygons:
                self.assertGreater(doubled_area(polygon.outer), 0)
                self.assertTrue(all(doubled_area(hole) < 0 for hole in polygon.holes))
                self.assertTrue(all(len(set(ring)) == len(ring) - 1 for ring in polygon.rings))


class Features(InFolder):
    def test_half_a_point(self):
        feature = watershed_feature(Watershed(1, (Run(5, 7, 7),)), Point(5, 7), 11)
        (((ring),),) = feature["geometry"]["coordinates"]
        self.assertEqual(sorted(map(tuple, ring[:-1])), [(0.65, 0.45), (0.65, 0.55), (0.75, 0.45), (0.75, 0.55)])
        self.assertEqual(feature["properties"]["cells"], 1)
        self.assertEqual((feature["properties"]["latitude"], feature["properties"]["longitude"]), (0.5, 0.7))

    def test_paths_and_tiles(self):
        with memory_table(3, 1, PROGRAM) as table:
            table.import_tile("N00E000", THREE)
            path = trace_feature(table.trace(0, 0), 3)
            self.assertEqual(path["geometry"], {"type": "LineString", "coordinates": [[0, 0], [0.5, 0.5], [1, 0]]})
            self.assertEqual(trace_feature(table.trace(0, 2), 3)["geometry"], {"type": "LineString", "coordinates": [[1, 0], [1, 0]]})
        ring = tile_feature(Corner(-1, -1), 3)["geometry"]["coordinates"][0]
        self.assertEqual(ring, [[-1, -1], [0, -1], [0, 0], [-1, 0], [-1, -1]])

    def test_the_command(self):
        path = self.store(21)
        done = self.command("geojson", path, "watershed", "20", "0", "0", "20", "20", "25", "--points", "-o", "w.geojson")
        self.assertEqual((done.returncode, done.stderr), (0, ""))
        features = json.loads((self.folder / "w.geojson").read_text())["features"]
        with open_store(path, PROGRAM) as store:
            wanted = [store.watershed(20, 0).cells, store.watershed(0, 20).cells, store.watershed(20, 25).cells]
        self.assertEqual([feature["properties"]["cells"] for feature in features], wanted)
        for feature, cells in zip(features, wanted):
            self.assertAlmostEqual(area_in_cells(feature, 21), cells, places=4)
        traced = self.command("geojson", path, "trace", "1.5", "1.5")
        self.assertEqual(json.loads(traced.stdout)["features"][0]["properties"]["y"], 30)
        tiles = self.command("geojson", path, "tiles")
        self.assertEqual(len(json.loads(tiles.stdout)["features"]), 4)

    def test_a_direction_that_memory_is_refused_for(self):
        """It isn't taken for that of a point without ground, which would leave an outlet off its stream without a word."""
        scarce = self.script("for line in sys.stdin: print('OK 0' if line == 'count\\n' else 'ERR 21 NoMemory', flush=True)")
        with memory_table(3, 1, scarce) as table, self.assertRaises(errors.NoMemory):
            snapped(table, Point(1, 1), 1)

    def test_snapping(self):
        """The best of all points near, as asked one by one."""
        path = self.store(21)
        with open_store(path, PROGRAM) as store:
            for point in (Point(12, 9), Point(0, 20), Point(20, 20), Point(41, 41)):
                found = snapped(store, point, 3)
                near = [(y, x) for y in range(point.y - 3, point.y + 4) for x in range(point.x - 3, point.x + 4)]
                sizes = [size.cells for size in store.ask_many(WatershedOf(*at) for at in near) if isinstance(size, Watershed)]
                self.assertEqual(store.watershed(*found).cells, max(sizes))
            self.assertEqual(snapped(store, Point(99, 99), 3), Point(99, 99))
            wanted = store.watershed(*snapped(store, Point(12, 9), 3)).cells
        done = self.command("geojson", path, "watershed", "12", "9", "--points", "--snap", "3")
        self.assertEqual(json.loads(done.stdout)["features"][0]["properties"]["cells"], wanted)

    def test_what_is_no_plain_file_stays(self):
        """A pipe takes what is written; of a link the file that it leads to is replaced."""
        path = self.store(11)
        os.mkfifo(self.folder / "pipe")
        os.symlink("file", self.folder / "link")
        wanted = self.command("geojson", path, "tiles").stdout
        with ThreadPoolExecutor(1) as threads:
            read = threads.submit((self.folder / "pipe").read_text)
            for name in ("pipe", "link"):
                self.assertEqual(self.command("geojson", path, "tiles", "-o", name).returncode, 0)
            self.assertEqual(read.result(), wanted)
        self.assertEqual((self.folder / "file").read_text(), wanted)
        self.assertEqual(os.readlink(self.folder / "link"), "file")

    @unittest.skipUnless(shutil.which("ogrinfo"), "gdal-bin isn't installed")
    def test_gdal_finds_it_valid(self):
        path = self.store(21)
        self.command("geojson", path, "watershed", "0", "20", "--points", "-o", "w.geojson")
        asked = "SELECT ST_IsValid(geometry) AS fine, cells FROM w"
        words = ["ogrinfo", "-q", "-dialect", "sqlite", "-sql", asked, "w.geojson"]
        done = subprocess.run(words, cwd=self.folder, capture_output=True, text=True, check=False)
        if "no such function" in done.stderr + done.stdout:
            self.skipTest("GDAL has no SpatiaLite here")
        self.assertIn("fine (Integer) = 1", done.stdout, done.stderr)

    def test_standard_output_that_takes_nothing(self):
        """A full drive is reported in a line, a reader that is gone isn't: the status is 1 where output was lost."""
        path, surroundings = self.store(), self.surroundings()
        surroundings.pop("PYTHONUNBUFFERED", None)
        read, gone = os.pipe()
        os.close(read)
        self.addCleanup(os.close, gone)
        with open("/dev/full", "wb") as full:
            for words in ("info", path), ("geojson", path, "tiles"):
                for to, lines in (full, ["a file: No space left on device"]), (gone, []):
                    with self.subTest(words=words, lines=lines):
                        done = subprocess.run(
                            [sys.executable, "-m", "mosaic_store", *words], env=surroundings, stdout=to, stderr=subprocess.PIPE, text=True, check=False
                        )
                        self.assertEqual((done.returncode, done.stderr.splitlines()), (1, [f"mosaic-{words[0]}: {line}" for line in lines]))
        shell = ["bash", "-c", '"$@" >&-', "bash", sys.executable, "-m", "mosaic_store", "geojson", path, "tiles"]
        self.refused(subprocess.run(shell, env=surroundings, capture_output=True, text=True, check=False), "--output")

    def test_bad_input(self):
        path = self.store(11)

        def geojson(*words):
            return self.command("geojson", *words)

        self.refused(geojson("none", "tiles"), "no such file", "mosaic-load")
        self.refused(geojson(path, "trace", "5", "5"), "no tile holds 5 N 5 E", "from 0 N 0 E to 2 N 2 E")
        self.refused(geojson(path, "trace", "1.5", "-0.5"), "the west is negative?")
        self.refused(geojson(path, "watershed", "--points", "500", "500"), "7 Outside", "choose a point of a tile")
        self.refused(geojson(path, "trace", "3", "2", "--points"), "8 Void")
        self.refused(geojson(path, "trace", "95", "5"), "from -90 to 90", "with --points")
        format_store(str(self.folder / "far"), 3, 1, PROGRAM)
        with open_store(str(self.folder / "far"), PROGRAM) as store:
            store.import_tile("N00E100", THREE)
        self.refused(geojson("far", "trace", "100.5", "0.5"), "from -90 to 90", "latitude and longitude are exchanged?")
        self.refused(geojson(path, "trace", "0.5", "5", "--points"), "whole numbers")
        self.refused(geojson(path, "trace", "0.5"), "two numbers each", status=2)
        self.refused(geojson(path, "trace", "here", "there"), "'here' is no number of degrees", status=2)
        self.refused(geojson(path, "tiles", "-o", "no/folder/x.json"), "make it first")
        self.refused(geojson(path, "tiles", "-o", "."), "is a folder")
        os.symlink(path, self.folder / "link")
        self.refused(geojson(path, "tiles", "-o", "link"), "link: is the store")
        with open_store(path, PROGRAM):
            self.refused(geojson(path, "tiles"), "another program has it open")
        self.refused(geojson(path, "watershed", "5", "5", "-o", "w.geojson"), "no tile holds")
        self.assertFalse((self.folder / "w.geojson").exists())


def area_in_cells(feature, side):
    """The area of a MultiPolygon in degrees, in cells."""
    rings = [ring for polygon in feature["geometry"]["coordinates"] for ring in polygon]
    doubled = (a[0] * b[1] - b[0] * a[1] for ring in rings for a, b in zip(ring, ring[1:]))
    return math.fsum(doubled) / 2 * (side - 1) ** 2


if __name__ == "__main__":
    unittest.main()
