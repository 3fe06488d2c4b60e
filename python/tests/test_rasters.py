"""Windows as arrays and as files, beside answers point by point and what GDAL reads."""

import struct
import tracemalloc
import unittest

from mosaic_store import Refusal, Window, memory_table, open_store

from .support import PROGRAM, InFolder, hills, needs

SIDE = 11


@needs("numpy")
class Arrays(unittest.TestCase):
    def test_as_point_by_point(self):
        """Whole mosaics, also where tiles meet in a corner alone, beside sinks and voids."""
        every = set(hills(SIDE, 2, 2))
        for missing in (set(), {"N01E000", "N00E001"}, {"N01E001"}):
            with self.subTest(missing), memory_table(SIDE, 4, PROGRAM) as table:
                for name in every - missing:
                    table.import_tile(name, hills(SIDE, 2, 2)[name])
                table.sink(7, 6)
                self.compare(table, Window(-2, -1, 21, 22))
                self.compare(table, Window(8, 3, 12, 14))

    def compare(self, table, window):
        from mosaic_store.directions import directions_of
        from mosaic_store.rasters import NO_DIRECTION, depths_of, heights_of, levels_of

        heights = heights_of(table, window)
        self.assertEqual(heights.samples.shape, (window.height, window.width))
        levels, directions = levels_of(table, heights), directions_of(table, heights)
        depths = depths_of(heights, levels)
        for row, y in enumerate(heights.ys.tolist()):
            for column, x in enumerate(heights.xs.tolist()):
                at = row, column
                found = heights.samples[at], levels[at], directions[at], depths[at]
                try:
                    height = table.elevation(y, x)
                except Refusal:
                    height = None
                if height is None:
                    self.assertEqual(found, (-32768, -32768, NO_DIRECTION, -32768))
                else:
                    level = table.fill(y, x)
                    self.assertEqual(found, (height, level, table.direction(y, x), level - height))

    def test_thinned(self):
        from mosaic_store.rasters import heights_of

        with memory_table(SIDE, 4, PROGRAM) as table:
            for name, data in hills(SIDE, 2, 2).items():
                table.import_tile(name, data)
            whole, thin = (heights_of(table, Window(1, 2, 20, 19), every) for every in (1, 3))
            self.assertEqual(thin.samples.tolist(), whole.samples[::3, ::3].tolist())

    def test_seams(self):
        """Where tiles disagree the first one's height counts, unless it is void."""
        from mosaic_store.rasters import heights_of

        with memory_table(3, 2, PROGRAM) as table:
            table.import_tile("N00E001", struct.pack(">9h", *[8] * 9))
            table.import_tile("N00E000", struct.pack(">9h", 9, 9, -32768, 9, 9, 7, 9, 9, 9))
            found = heights_of(table, Window(0, 0, 2, 4)).samples.tolist()
            self.assertEqual(found, [[9, 9, 8, 8, 8], [9, 9, 7, 8, 8], [9, 9, 9, 8, 8]])


@needs("numpy")
class Files(InFolder):
    @needs("numpy", "rasterio")
    def test_gdal_reads_them(self):
        import rasterio

        from mosaic_store.rasters import heights_of

        path = self.store(SIDE)
        for what in ("heights", "levels", "water", "directions"):
            arrays = []
            for name in (f"{what}.tif", f"{what}.asc"):
                done = self.command("raster", path, what, name, "--window", "0.2", "0.3", "1.5", "1.9")
                self.assertEqual((done.returncode, done.stderr), (0, ""))
                with rasterio.open(self.folder / name) as file:
                    # The middle of the first cell is the window's north-western point, y = 15, x = 3.
                    west, north = file.xy(0, 0)
                    self.assertAlmostEqual(west, 0.3, places=9)
                    self.assertAlmostEqual(north, 1.5, places=9)
                    self.assertEqual((file.height, file.width), (14, 17))
                    self.assertAlmostEqual(file.bounds.right, 1.95, places=9)
                    arrays.append(file.read(1).tolist())
                    if name.endswith(".tif"):
                        self.assertEqual((file.crs.to_epsg(), file.descriptions[0]), (4326, what))
            self.assertEqual(arrays[0], arrays[1])
        with open_store(path, PROGRAM) as store, rasterio.open(self.folder / "heights.tif") as file:
            self.assertEqual(file.read(1).tolist(), heights_of(store, Window(2, 3, 15, 19)).samples.tolist())
            row, column = file.index(1.0, 0.7)
            self.assertEqual(file.read(1)[row, column], store.elevation(7, 10))

    @needs("numpy", "rasterio")
    def test_polygons_on_the_raster(self):
        """A watershed's polygons, burnt into the raster of heights by GDAL, cover the very points of the watershed."""
        import json

        import rasterio
        import rasterio.features

        path = self.store(21)
        self.command("raster", path, "heights", "heights.tif")
        self.command("geojson", path, "watershed", "20", "0", "0", "20", "20", "25", "--points", "-o", "w.geojson")
        with rasterio.open(self.folder / "heights.tif") as file, open_store(path, PROGRAM) as store:
            for feature in json.loads((self.folder / "w.geojson").read_text())["features"]:
                found = rasterio.features.rasterize([feature["geometry"]], file.shape, transform=file.transform)
                covered = {(40 - row, column) for row, column in zip(*found.nonzero())}
                outlet = feature["properties"]["y"], feature["properties"]["x"]
                self.assertEqual(covered, set(store.watershed(*outlet).points()))

    @needs("numpy", "rasterio")
    def test_a_drive_that_is_full_leaves_nothing(self):
        """As a limit on the size of files is met: GDAL by itself would close such a file without an error."""
        path = self.store(21)
        for name in ("x.tif", "x.asc"):
            self.refused(self.command("raster", path, "heights", name, most_bytes=300), f"{name}: not written")
        self.assertEqual([file.name for file in self.folder.iterdir()], ["store"])

    def test_a_large_one_is_written_row_by_row(self):
        import numpy

        from mosaic_store.grids import write_grid

        array = numpy.zeros((400, 4000), numpy.int32)
        tracemalloc.start()
        self.addCleanup(tracemalloc.stop)
        write_grid(str(self.folder / "x.asc"), array, Window(0, 0, 399, 3999), SIDE, 0, "nothing")
        self.assertLess(tracemalloc.get_traced_memory()[1], array.nbytes)

    def test_bad_input(self):
        path = self.store(SIDE)

        def raster(*words):
            return self.command("raster", *words)

        self.refused(raster(path, "heights", "x.jpg"), ".tif (GeoTIFF) or .asc")
        off = raster(path, "heights", "x.asc", "--window", "5", "5", "6", "6")
        self.refused(off, "off the tiles", "from 0 N 0 E to 2 N 2 E")
        self.refused(raster(path, "heights", "x.asc", "--window", "1", "1", "0", "0"), "out of order")
        for end, told in (("1e300", "at most nine digits"), ("999999999", "the most for heights is 2,000,000,000")):
            self.refused(raster(path, "heights", "x.asc", "--points", "--window", "0", "0", end, end), told)
        self.refused(raster("none", "heights", "x.asc"), "no such file")
        self.refused(raster(path, "colours", "x.asc"), "invalid choice", status=2)
        self.assertEqual([file.name for file in self.folder.iterdir()], ["store"])


if __name__ == "__main__":
    unittest.main()
