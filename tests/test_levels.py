"""Every level that a window needs, found by few questions, on four small tiles, as a raster."""

import os

from reference import Region
from support import ROOT, Case, output, python_that_has, rows_of


class Levels(Case):
    def test_raster(self):
        python = python_that_has("numpy", "python3-numpy")
        small, store, raster = self.folder / "small", self.folder / "small.store", self.folder / "small.asc"
        small.mkdir()
        output(self.tool("terrain"), "3", "33", "2", "2", small)
        environment = os.environ | {"PYTHONPATH": str(ROOT / "python")}
        output(python, "-m", "mosaic_store", "load", store, small, env=environment)
        output(python, "-m", "mosaic_store", "raster", store, "levels", raster, env=environment)
        found = {(64 - row, column): level for row, levels in enumerate(rows_of(raster)) for column, level in enumerate(levels)}
        region = Region(self.tool("reference"), 33, small)
        levels = region.levels([(y, x) for y in range(65) for x in range(65)])
        self.assertEqual(len(found), 65 * 65)
        self.assertEqual(found, dict.fromkeys(found, -32768) | levels)
