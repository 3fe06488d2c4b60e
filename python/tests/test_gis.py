"""The example for GDAL: what it writes is what a session answers, at its place."""

from __future__ import annotations

import subprocess
import sys
import unittest

from mosaic_store import open_store

from .support import A_WHILE, PROGRAM, PYTHON, InFolder, needs

EXAMPLES = PYTHON.parent / "examples"
SIDE = 11


@needs("numpy", "osgeo")
class Gdal(InFolder):
    def run_example(self, *words: str) -> subprocess.CompletedProcess[str]:
        words = (sys.executable, str(EXAMPLES / "raster_by_gdal.py"), *words)
        pipes = {"capture_output": True, "text": True, "timeout": A_WHILE, "check": False}
        return subprocess.run(words, cwd=self.folder, env=self.surroundings(), **pipes)

    def test_each_raster(self) -> None:
        from osgeo import gdal

        gdal.UseExceptions()
        path, name = self.store(SIDE), "N01E000"
        with open_store(path, PROGRAM) as store:
            wanted = {what: getattr(store, what)(name).tolist() for what in ("levels", "directions", "upstream")}
        for what, form, nothing in (("levels", "GTiff", -32768), ("directions", "COG", 255), ("upstream", "GTiff", 0)):
            done = self.run_example(path, what, name, f"{what}.tif", form)
            self.assertEqual((done.returncode, done.stderr), (0, ""), what)
            file = gdal.Open(str(self.folder / f"{what}.tif"))
            self.assertEqual(file.ReadAsArray().tolist(), wanted[what])
            self.assertEqual([round(number, 9) for number in file.GetGeoTransform()], [-0.05, 0.1, 0, 2.05, 0, -0.1])
            self.assertEqual(file.GetSpatialRef().GetAuthorityCode(None), "4326")
            self.assertEqual(file.GetRasterBand(1).GetNoDataValue(), nothing)

    def test_bad_input(self) -> None:
        path = self.store(SIDE)
        for words, told in (
            ((path, "levels", "N05E005", "x.tif"), "the tile isn't in the store"),
            ((path, "levels", "N00E000", "x.tif", "NoFormat"), "NoFormat"),
            ((path, "heights", "N00E000", "x.tif"), "usage"),
            (("none", "levels", "N00E000", "x.tif"), "no such file"),
            ((path, "levels", "N00E000", "none/x.tif"), "none/x.tif"),
        ):
            with self.subTest(words):
                self.refused(self.run_example(*words), told)


if __name__ == "__main__":
    unittest.main()
