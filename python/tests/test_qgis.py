"""The plugin of QGIS in QGIS itself, without a window: each algorithm on a valley, as the release has it."""

from __future__ import annotations

import json
import os
import runpy
import subprocess
import sys
import unittest
import zipfile
from typing import Any

from mosaic_store import format_store, open_store

from .support import A_WHILE, PROGRAM, PYTHON, InFolder, needs
from .test_view import SIDE, valley

DAM_HELD = 169
"""Of the valley's points those below 190 m west of a dam at x = 40: 29 along y = 20, on both sides 24, 19, 14, 9 and 4."""


@needs("numpy", "rasterio", "qgis.core")
class Qgis(InFolder):
    """All runs are made by one process of QGIS: it takes long to begin."""

    def setUp(self) -> None:
        super().setUp()
        self.path = str(self.folder / "valley")
        format_store(self.path, SIDE, 4, PROGRAM)
        with open_store(self.path, PROGRAM) as store:
            for name, data in zip(("N00E000", "N00E001"), valley()):
                store.import_tile(name, data)
        runpy.run_path(str(PYTHON.parent / "packaging/release"))["make_plugin"](self.folder)
        with zipfile.ZipFile(self.folder / "mosaic_drainage.zip") as plugin:
            plugin.extractall(self.folder / "plugins")

    def runs(self, *runs: tuple[str, dict[str, Any], int | None]) -> list[Any]:
        """What QGIS answers to runs: the algorithms' names, then the result of each."""
        given, made = self.folder / "runs.json", self.folder / "results.json"
        given.write_text(json.dumps([[name, {"STORE": self.path, **parameters}, cancelled] for name, parameters, cancelled in runs]))
        words = [sys.executable, str(PYTHON / "tests/in_qgis.py"), str(self.folder / "plugins"), str(given), str(made)]
        surroundings = {name: value for name, value in os.environ.items() if name != "PYTHONPATH"}  # the plugin has its own package
        surroundings |= {"MOSAIC": PROGRAM, "QT_QPA_PLATFORM": "offscreen", "QGIS_CUSTOM_CONFIG_PATH": str(self.folder / "qgis"), "PYTHONDONTWRITEBYTECODE": "1"}
        done = subprocess.run(words, cwd=self.folder, env=surroundings, capture_output=True, text=True, timeout=A_WHILE, check=False)
        self.assertTrue(made.exists(), done.stderr)
        return json.loads(made.read_text())

    def file(self, name: str, kind: str, *features: tuple[Any, dict[str, Any]]) -> str:
        """A GeoJSON of some geometries of a kind."""
        listed = [{"type": "Feature", "properties": properties, "geometry": {"type": kind, "coordinates": at}} for at, properties in features]
        path = self.folder / name
        path.write_text(json.dumps({"type": "FeatureCollection", "features": listed}))
        return str(path)

    def written(self, name: str) -> list[dict[str, Any]]:
        """The properties of the features of a file that was made."""
        return [feature["properties"] for feature in json.loads((self.folder / name).read_text())["features"]]

    def out(self, name: str) -> str:
        return str(self.folder / name)

    def test_questions(self) -> None:
        """Each answer is that of the package's session; a dam's reservoir is worked by hand."""
        import rasterio

        dam = self.file("dam.geojson", "LineString", ([[1.0, 0.25], [1.0, 0.75]], {}))
        outlets = self.file("outlets.geojson", "Point", ([2.0, 0.5], {}), ([1.0, 0.5], {}), ([1.0, 0.5], {}))
        names, *results = self.runs(
            ("window", {"WHAT": 1, "WINDOW": "0.5,1.5,0.25,0.75 [EPSG:4326]", "RASTER": self.out("levels.tif")}, None),
            ("watershed", {"PLACE": "1.5,0.55 [EPSG:4326]", "SNAP": 3, "WATERSHED": self.out("watershed.geojson")}, None),
            ("streams", {"THRESHOLD": 1000, "STREAMS": self.out("streams.geojson")}, None),
            ("streams", {"WINDOW": "1,2,0,1 [EPSG:4326]", "THRESHOLD": 1000, "STREAMS": self.out("window.geojson")}, None),
            ("catchments", {"OUTLETS": outlets, "REACH": 0, "THRESHOLD": 9, "CATCHMENTS": self.out("catchments.geojson")}, None),
            ("reservoir", {"DAM": dam, "CREST": 190, "BEFORE": "0.975,0.5", "RESERVOIR": self.out("lake.geojson"), "STAGES": self.out("stages.csv")}, None),
        )
        self.assertEqual(sorted(names), ["catchments", "edit", "reservoir", "streams", "watershed", "window"])
        self.assertEqual([result.get("ok") for result in results], [True] * 6, results)
        self.assertGreater(results[0]["told"], 0)
        with open_store(self.path, PROGRAM) as store:
            self.assertEqual(store.count(), 2)
            with rasterio.open(self.out("levels.tif")) as file:
                self.assertEqual(file.read(1).tolist(), [[store.fill(y, x) for x in range(20, 61)] for y in range(30, 9, -1)])
            (area,) = self.written("watershed.geojson")
            self.assertEqual((area["y"], area["x"], area["cells"]), (20, 63, store.watershed(20, 63).cells))
            self.assertEqual(results[1]["answer"]["CELLS"], area["cells"])
            cells = {number: store.watershed(20, x).cells for number, x in ((1, 80), (2, 40))}
            catchments = self.written("catchments.geojson")
            self.assertEqual([each["cells"] for each in catchments], [cells[1] - cells[2], cells[2]])
            self.assertEqual([(each["outlet"], each["next"]) for each in catchments], [(0, None), (1, 1)])
            for name in ("streams.geojson", "window.geojson"):
                self.assertEqual(max(each["points"] for each in self.written(name)), cells[1])
        (lake,) = self.written("lake.geojson")
        self.assertEqual((lake["level_m"], lake["cells"], results[5]["answer"]["SPILLS_AT"]), (190, DAM_HELD, 190))
        self.assertEqual((self.folder / "stages.csv").read_text().splitlines()[-1].split(",")[0].strip('"'), "190")

    def test_edits_and_what_is_cancelled(self) -> None:
        """Lines by a field, else by the metres; an edit that is cancelled midway leaves nothing, and neither does a question."""
        roads = self.file("roads.geojson", "LineString", ([[1.0, 0.25], [1.0, 0.75]], {"up": 190}), ([[0.5, 0.25], [0.5, 0.75]], {"up": None}), ([[0.4, 0.5], [0.6, 0.5]], {"up": 1}))
        edit = {"LINES": roads, "KIND": 0, "METRES": 195, "FIELD": "up", "WIDTH": 3}
        with open_store(self.path, PROGRAM) as store:
            before = [store.export(name) for name in store.tiles()]
        broken = self.file("broken.geojson", "LineString", ([[1.0, 0.25], [1.0, 0.75]], {"up": 190.5}))
        _, cancelled, question, off, part = self.runs(
            ("edit", edit, 3),
            ("streams", {"THRESHOLD": 100, "STREAMS": self.out("streams.geojson")}, 0),
            ("watershed", {"PLACE": "5,5 [EPSG:4326]", "SNAP": 0, "WATERSHED": self.out("watershed.geojson")}, None),
            ("edit", edit | {"LINES": broken}, None),
        )
        self.assertIn("up is a whole number of metres, not 190.5", part["error"])
        self.assertEqual((cancelled["answer"], question["answer"]), ({}, {}))
        self.assertIn("no tile", off["error"])
        with open_store(self.path, PROGRAM) as store:
            self.assertEqual([store.export(name) for name in store.tiles()], before)
        _, made = self.runs(("edit", edit, None))
        self.assertEqual(made["answer"]["POINTS"], 2 * 3 * 23 + 3 * 8, "the last line crosses the second one, which is higher")
        with open_store(self.path, PROGRAM) as store:
            self.assertEqual([store.elevation(20, x) for x in (38, 39, 41, 42)], [162, 190, 190, 158])
            self.assertEqual([store.elevation(20, x) for x in (18, 19, 21, 22)], [182, 195, 195, 178])
            self.assertEqual((store.elevation(31, 40), store.elevation(32, 40)), (215, 220))


if __name__ == "__main__":
    unittest.main()
