"""The example for GDAL and the plugin of QGIS, each in its tool: the levels of a tile, as rows of text."""

import os
import pathlib
import shutil
import subprocess

from client import Session
from support import A_TILE, EXAMPLES, ROOT, Case, needs, output, python_that_has, rows_of

WANTED = [[9, 9, 9], [9, 5, 9], [9, 9, 5]]


class Gis(Case):
    @classmethod
    def setUpClass(cls):
        super().setUpClass()
        cls.store = cls.folder / "gis.store"
        output(cls.program, "format", cls.store, "3", "1")
        with Session(cls.program, "serve", cls.store) as session:
            session.ask("import N00E000 18", A_TILE)

    def surroundings(self, python):
        """QGIS takes the library of the first Python on PATH, and ends by a signal if that isn't QGIS's Python."""
        own = {"PYTHONPATH": str(ROOT / "python"), "QGIS_CUSTOM_CONFIG_PATH": str(self.folder), "QT_QPA_PLATFORM": "offscreen"}
        return os.environ | own | {"PATH": f"{pathlib.Path(python).parent}:{os.environ['PATH']}"}

    def test_gdal(self):
        python, raster = python_that_has("osgeo.gdal, numpy", "python3-gdal python3-numpy"), self.folder / "gdal.asc"
        output(python, EXAMPLES / "raster_by_gdal.py", self.store, "levels", "N00E000", raster, "AAIGrid", env=self.surroundings(python))
        self.assertEqual(rows_of(raster), WANTED)

    def test_qgis(self):
        needs("qgis_process", "qgis")
        python, raster = python_that_has("numpy", "python3-numpy"), self.folder / "qgis.asc"
        plugins = self.folder / "profiles/default/python/plugins"
        plugins.mkdir(parents=True)
        shutil.copytree(ROOT / "packaging/qgis/mosaic_drainage", plugins / "mosaic_drainage")
        # Debian's script of that name passes an option of QGIS to the program next to it, which refuses it.
        tool = shutil.which("qgis_process.bin") or "qgis_process"
        output(tool, "plugins", "enable", "mosaic_drainage", env=self.surroundings(python), stderr=subprocess.DEVNULL)
        words = ["--", f"STORE={self.store}", "WHAT=1", "WINDOW=0,1,0,1 [EPSG:4326]", f"RASTER={raster}"]
        output(tool, "run", "mosaic:window", *words, env=self.surroundings(python), stderr=subprocess.DEVNULL)
        self.assertEqual(rows_of(raster), WANTED)
