"""Floods and ratings of a reach, and culverts through roads, in a valley whose figures are worked by hand."""

from __future__ import annotations

import csv
import json
import math
import struct
import unittest

from mosaic_store import Point, Window, format_store, memory_table, open_store
from mosaic_store.ellipsoid import cell_area, degree

from .support import PROGRAM, InFolder, needs

SIDE = 41


def valley(road: range = range(0)) -> bytes:
    """Ground that falls to the east, two metres a point, and rises by five a point from the middle row; a road of 190 m across it."""
    heights = [200 - 2 * x + 5 * abs(row - 20) for row in range(SIDE) for x in range(SIDE)]
    heights = [max(height, 190) if at % SIDE in road else height for at, height in enumerate(heights)]
    return struct.pack(f">{SIDE**2}h", *heights)


@needs("numpy")
class Floods(unittest.TestCase):
    def test_the_wet_perimeter_on_a_slope(self) -> None:
        """At 60 degrees steps to the east are half as long, so that a fall to the east of h m is as steep as one to the north of 2 h m."""
        from mosaic_store.flooding import valley_of

        east, north = degree(60.5)[1] / 40, degree(60.5)[0] / 40
        heights = [9000 - 400 * column + 400 * abs(row - 20) for row in range(SIDE) for column in range(SIDE)]
        with memory_table(SIDE, 1, PROGRAM) as table:
            table.import_tile("N60E000", struct.pack(f">{SIDE**2}h", *[min(height, 32000) for height in heights]))
            found = valley_of(table, Point(60 * 40 + 20, 20), SIDE, 5, lambda done, total: None)
        steeper = {(int(y) - 2400, int(x)): float(bed / area) for y, x, bed, area in zip(found.ys, found.xs, found.beds, found.areas)}
        self.assertAlmostEqual(steeper[20, 15], math.sqrt(1 + (400 / east) ** 2), delta=0.001)
        self.assertAlmostEqual(steeper[22, 15], math.sqrt(1 + (400 / east) ** 2 + (400 / north) ** 2), delta=0.001)

    def test_a_stage_in_a_valley(self) -> None:
        """All of a column drains to the middle row, which is one reach; seven metres of water reach one row further each way."""
        from mosaic_store.flooding import valley_of

        with memory_table(SIDE, 1, PROGRAM) as table:
            table.import_tile("N00E000", valley())
            found = valley_of(table, Point(22, 30), SIDE, 5, lambda done, total: None)
            self.assertEqual((found.gauge, found.fall), (Point(20, 32), 80), "of the nearest that with the most water")
            step = degree(0.5)[1] / 40
            self.assertAlmostEqual(found.length, 40 * step, delta=0.1)
            window, depths = found.depths(7)
            self.assertEqual((window, depths.tolist()), (Window(19, 0, 21, 40), [[2.0] * 41, [7.0] * 41, [2.0] * 41]))
            (rated,) = found.rating([7], 0.05, None)
            beside, middle = (cell_area(19, SIDE) + cell_area(21, SIDE)) * 41, cell_area(20, SIDE) * 41
            area, width = (7 * middle + 2 * beside) / (40 * step), (middle + beside) / (40 * step)
            self.assertAlmostEqual(rated.area / area, 1, places=6)
            self.assertAlmostEqual(rated.width / width, 1, places=6)
            self.assertAlmostEqual(rated.perimeter / width, 1, delta=1e-5)  # five metres in 2,764 are all but flat
            velocity = (area / width) ** (2 / 3) * (80 / (40 * step)) ** 0.5 / 0.05
            self.assertAlmostEqual(rated.velocity / velocity, 1, delta=1e-5)
            self.assertAlmostEqual(rated.discharge / (area * velocity), 1, delta=1e-5)


@needs("numpy")
class Commands(InFolder):
    def setUp(self) -> None:
        super().setUp()
        self.lines("roads", [[0.5, 0.2], [0.5, 0.8]], highway="track")
        self.lines("streams", [[0, 0.5], [1, 0.5]], what="stream")

    def lines(self, name: str, line: object, **properties: object) -> None:
        feature = {"type": "Feature", "properties": properties, "geometry": {"type": "LineString", "coordinates": line}}
        (self.folder / f"{name}.geojson").write_text(json.dumps({"type": "FeatureCollection", "features": [feature]}))

    def made(self, name: str, data: bytes) -> str:
        path = str(self.folder / name)
        format_store(path, SIDE, 1, PROGRAM)
        with open_store(path, PROGRAM) as store:
            store.import_tile("N00E000", data)
            store.step()
        return path

    def hydrology(self, *words: str) -> str:
        done = self.command("hydrology", *words)
        self.assertEqual((done.returncode, done.stderr), (0, ""))
        return done.stdout

    def test_floods_and_ratings_as_files(self) -> None:
        path = self.made("valley", valley())
        gauge = ["--points", "--at", "22", "30", "--reach", "5", "--threshold", str(SIDE)]
        self.assertIn("123 points, ", self.hydrology(path, "flood", "depths.asc", *gauge, "--stage", "7"))
        rows = (self.folder / "depths.asc").read_text().splitlines()
        self.assertEqual([rows[6 + row].split() for row in range(3)], [["2.0"] * 41, ["7.0"] * 41, ["2.0"] * 41])
        self.hydrology(path, "flood", "extent.geojson", *gauge, "--stage", "7")
        (extent,) = json.loads((self.folder / "extent.geojson").read_text())["features"]
        self.assertEqual((extent["geometry"]["type"], extent["properties"]["cells"]), ("MultiPolygon", 123))
        self.hydrology(path, "rating", "curve.csv", *gauge, "--stages", "7", "3")
        with open(self.folder / "curve.csv", encoding="ascii", newline="") as file:
            rated = list(csv.DictReader(file))
        self.assertEqual([row["stage_m"] for row in rated], ["3", "7"])
        self.assertLess(float(rated[0]["discharge_m3s"]), float(rated[1]["discharge_m3s"]))
        for words, told in (
            (("flood", "x.asc", *gauge), "a flood takes --stage"),
            (("flood", "x.png", *gauge, "--stage", "1"), "ends in .geojson"),
            (("rating", "x.csv"), "rating takes --at"),
            (("flood", "x.asc", *gauge, "--stage", "inf"), "a flood takes --stage"),
            (("rating", "x.csv", *gauge, "--roughness", "0"), "more than 0"),
            (("rating", "x.csv", *gauge, "--stages", "1", "nan"), "more than 0"),
            (("rating", "x.csv", *gauge, "--slope", "inf"), "more than 0"),
            (("rating", "x.csv", "--points", "--at", "20", "40", "--threshold", str(SIDE**2), "--slope", "1e-3"), "the reach is one point"),
            (("rating", "x.csv", "--points", "--at", "30", "30"), "no stream is at the point 30 30"),
        ):
            self.refused(self.command("hydrology", path, *words), told)

    def test_a_culvert_through_a_road(self) -> None:
        """The water before the road stands at the road's height; a cut of one point lets it go."""
        path = self.made("dammed", valley(range(20, 21)))
        before = (self.folder / "dammed").read_bytes()
        words = [path, "breach", "culverts.geojson", "--roads", "roads.geojson", "--streams", "streams.geojson"]
        volume = round(28 * cell_area(20, SIDE))
        told = f"culverts.geojson: 1 crossings, 1 cut, {volume} m3, 0 without standing water, 0 left\n"
        self.assertEqual(self.hydrology(*words), told)
        self.assertEqual((self.folder / "dammed").read_bytes(), before, "it is a question")
        (cut,) = json.loads((self.folder / "culverts.geojson").read_text())["features"]
        self.assertEqual(cut["geometry"]["coordinates"], [[x / 40, 0.5] for x in (19, 20, 21)])
        figures = {"what": "culvert", "depth_m": 28, "volume_m3": volume, "ground_m": 162, "level_m": 190, "after_m": 162}
        self.assertEqual({**cut["properties"], "length_m": 0}, {**figures, "length_m": 0})
        self.assertIn(told, self.hydrology(*words, "--keep"))
        with open_store(path, PROGRAM) as store:
            self.assertEqual((store.elevation(20, 20), store.elevation(21, 20), store.fill(20, 19)), (162, 190, 162))
        self.assertIn("1 crossings, 0 cuts, 0 m3, 1 without standing water", self.hydrology(*words))

    def test_crossings_that_are_left(self) -> None:
        path = self.made("wide", valley(range(20, 28)))
        words = [path, "breach", "culverts.geojson", "--roads", "roads.geojson", "--streams", "streams.geojson"]
        told = self.hydrology(*words, "--search", "5")
        self.assertIn("1 crossings, 0 cuts, 0 m3, 0 without standing water, 1 left; 0.5 N 0.5 E: no point there drains as low as 162 m", told)
        self.assertIn("1 crossings, 1 cut, ", self.hydrology(*words, "--search", "12"))
        self.lines("roads", [[0.5, 0.2], [0.5, 1.8]], highway="track")
        self.assertIn("1 crossings, 1 cut, ", self.hydrology(*words, "--search", "12"), "of a road that leaves the tiles")
        self.lines("streams", [[0, 0.5], [0.6, 0.5], [0.6, 0.55], [0.4, 0.55]], what="stream")
        self.assertIn("2 crossings, 1 cut, ", self.hydrology(*words, "--search", "12"), "of one water")
        self.refused(self.command("hydrology", path, "breach", "x.geojson", "--roads", "roads.geojson"), "roads.geojson: it has no streams on the tiles")
        self.lines("far", [[5.5, 0.2], [5.5, 0.8]], highway="track")
        self.refused(self.command("hydrology", path, "breach", "x.geojson", "--roads", "far.geojson"), "far.geojson: it has no roads on the tiles")
        self.refused(self.command("hydrology", path, "breach", "x.geojson"), "a breach takes --roads")

    def test_where_lines_cross(self) -> None:
        from mosaic_store.culverts import crossings
        from mosaic_store.lines import points_along

        road = points_along([Point(0, 5), Point(20, 5)])
        stream = points_along([Point(3, 0), Point(3, 5), Point(6, 5), Point(12, 10), Point(18, 0)])
        self.assertEqual(crossings(road, stream), [Point(5, 5), Point(15, 5)])


if __name__ == "__main__":
    unittest.main()
