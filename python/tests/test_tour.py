"""The whole way: a folder of a hundred files, some of them in trouble, to a watershed, streams, accumulation, a reservoir's curve and a
picture, by eight commands."""

import csv
import json
import unittest

from mosaic_store import check_store, open_store

from .support import IS_REAL, PROGRAM, InFolder, needs
from .test_geojson import area_in_cells
from .test_loading import hundred_files

SIDE = 101 if IS_REAL else 5


@needs("numpy", "rasterio", "matplotlib")
class Tour(InFolder):
    def test_the_whole_way(self):
        import rasterio

        (self.folder / "files").mkdir()
        tiles = hundred_files(self.folder / "files", SIDE)
        self.assertIn("95 imported, 1 there already, 1 passed by, 3 failed", self.command("load", "store", "files").stdout)
        place, window = ["34.5", "-105.5"], ["--window", "34", "-106", "35", "-105"]
        lake = ["--window", "30", "-110", "31", "-109", "--before", "30.25", "-109.75"]
        dam = ["--dam", "30.5", "-109.75", "30.5", "-109.5", "--crest", "400"]
        for name, *words in (
            ("geojson", "watershed", *place, "--snap", "4", "-o", "watershed.geojson"),
            ("geojson", "trace", *place, "-o", "path.geojson"),
            ("raster", "water", "water.tif", *window),
            ("draw", "map.png", "--watershed", *place, "--snap", "4", "--trace", *place),
            ("hydrology", "streams", "streams.geojson", "--threshold", "4", *window),
            ("hydrology", "accumulation", "points.tif", *window),
            ("hydrology", "reservoir", "stages.csv", *lake, *dam),
        ):
            done = self.command(name, "store", *words)
            self.assertEqual((done.returncode, done.stderr), (0, ""), name)
        self.check(json.loads((self.folder / "watershed.geojson").read_text())["features"][0])
        with rasterio.open(self.folder / "water.tif") as file:
            self.assertEqual((file.shape, file.read(1).min()), ((SIDE, SIDE), 0))
        self.check_drainage()
        self.assertEqual(sorted(check_store(self.folder / "store", PROGRAM).tiles), sorted(tiles))

    def check(self, feature):
        outlet = feature["properties"]["y"], feature["properties"]["x"]
        with open_store(self.folder / "store", PROGRAM) as store:
            cells = store.watershed(*outlet).cells
            self.assertGreaterEqual(cells, store.watershed(*store.point_of(34.5, -105.5)).cells)
        self.assertEqual(feature["properties"]["cells"], cells)
        self.assertAlmostEqual(area_in_cells(feature, SIDE), cells, places=2)

    def check_drainage(self):
        """Each raster's and each stream's number is its watershed's; the curve begins at the lake's ground, and rises."""
        import rasterio

        with rasterio.open(self.folder / "points.tif") as file:
            counts = file.read(1)
        streams = json.loads((self.folder / "streams.geojson").read_text())["features"]
        most = max(streams, key=lambda stream: stream["properties"]["points"])["properties"]
        with open_store(self.folder / "store", PROGRAM) as store:
            y, x = store.point_of(34.5, -105.5)
            self.assertEqual(counts[SIDE // 2, SIDE // 2], store.watershed(y, x).cells)
        self.assertEqual((counts.max(), most["order"] >= 1), (most["points"], True))
        with (self.folder / "stages.csv").open(newline="") as file:
            stages = [(int(row["level_m"]), float(row["volume_m3"])) for row in csv.DictReader(file)]
        self.assertEqual(stages[0], (250, 0))
        self.assertEqual([volume for _, volume in stages], sorted(volume for _, volume in stages))
        self.assertGreater(stages[-1], (290, 0))


if __name__ == "__main__":
    unittest.main()
