"""Networks, streams and reservoirs beside GRASS, on the heights of the Jacksboro fault that come with matplotlib."""

from __future__ import annotations

import importlib.machinery
import importlib.util
import pathlib
import shutil
import subprocess
import sys
import unittest
import unittest.mock

from mosaic_store import Point, Window, memory_table

from .support import IS_REAL, PROGRAM, PYTHON, InFolder, needs

TOUR = PYTHON.parent / "examples" / "tour"
THRESHOLD = 1000
"""How many points drain through a stream."""

WATERSHEDS = """set -e
r.in.ascii --quiet input=heights.asc output=heights null_value=-32768
g.region raster=heights
r.watershed -s --quiet elevation=heights accumulation=points
r.stream.extract --quiet elevation=heights threshold={threshold} stream_raster=streams d8cut=0
r.out.ascii --quiet input=points output=points.asc null_value=0 precision=0
r.out.ascii --quiet input=streams output=streams.asc null_value=0
"""
LAKE = """set -e
r.in.ascii --quiet input=heights.asc output=heights null_value=-32768
g.region raster=heights
r.lake --quiet elevation=heights water_level={level} coordinates={east},{north} lake=lake
r.out.ascii --overwrite --quiet input=lake output=lake.asc null_value=0 precision=3
"""


def tour():
    """The example that has the heights and their place."""
    loader = importlib.machinery.SourceFileLoader("tour", str(TOUR))
    module = importlib.util.module_from_spec(importlib.util.spec_from_loader("tour", loader))
    with unittest.mock.patch("sys.path", [str(TOUR.parent), *sys.path]):
        loader.exec_module(module)
    return module


def has_heights() -> bool:
    return TOUR.is_file() and any((pathlib.Path(place) / tour().NAME).is_file() for place in tour().PLACES)


@needs("numpy")
@unittest.skipUnless(shutil.which("grass"), "grass isn't installed: apt-get install grass-core")
@unittest.skipUnless(IS_REAL, "the program mosaic isn't built: tools/program builds it")
@unittest.skipUnless(has_heights(), "matplotlib's heights aren't installed: apt-get install python-matplotlib-data")
class BesideGrass(InFolder):
    """GRASS goes its own way over flats and through depressions, so that cells differ; where water is and what drains mustn't."""

    def setUp(self) -> None:
        from mosaic_store.network import network_of

        super().setUp()
        region = tour()
        tile = region.write_tile(region.heights_of(region.heights_file()), self.folder)
        self.session = memory_table(region.SIDE, 1, PROGRAM)
        self.addCleanup(self.session.close)
        self.session.import_tile(region.TILE, tile.read_bytes())
        self.window = Window(region.SOUTH, region.WEST, region.NORTH, region.EAST)
        self.network = network_of(self.session, self.window)

    def grass(self, script: str, samples, *names: str):
        """The rasters that a script writes, of the heights in a plain grid, whose cells are 1 wide."""
        import numpy

        rows, columns = samples.shape
        head = f"north: {rows}\nsouth: 0\neast: {columns}\nwest: 0\nrows: {rows}\ncols: {columns}\n"
        (self.folder / "heights.asc").write_text(head + "".join(" ".join(map(str, row)) + "\n" for row in samples.tolist()))
        (self.folder / "script.sh").write_text(script)
        words = ["grass", "--tmp-location", "XY", "--exec", "sh", "script.sh"]
        done = subprocess.run(words, cwd=self.folder, stdout=subprocess.PIPE, stderr=subprocess.STDOUT, text=True, check=False)
        self.assertEqual(done.returncode, 0, done.stdout[-2000:])
        return [numpy.loadtxt(self.folder / f"{name}.asc", skiprows=6).reshape(rows, columns) for name in names]

    def test_accumulation_and_streams(self) -> None:
        import numpy

        script = WATERSHEDS.format(threshold=THRESHOLD)
        points, extracted = self.grass(script, self.network.heights.samples, "points", "streams")
        ours, theirs = self.network.counts, numpy.abs(points)
        is_stream = ours >= THRESHOLD
        told = {
            "r.watershed": (near(is_stream, theirs >= THRESHOLD), near(theirs >= THRESHOLD, is_stream)),
            "r.stream.extract": (near(is_stream, extracted > 0), near(extracted > 0, is_stream)),
        }
        outlet = numpy.unravel_index(ours.argmax(), ours.shape)
        beside = theirs[max(0, outlet[0] - 2) : outlet[0] + 3, max(0, outlet[1] - 2) : outlet[1] + 3].max()
        print(f"streams within two points of GRASS's, and GRASS's of these: {told}; largest {ours.max()} and {beside:.0f}")
        for name, shares in told.items():
            self.assertGreater(min(shares), 0.9, name)
        self.assertAlmostEqual(beside / ours.max(), 1, delta=0.01)

    def test_a_reservoir_is_its_lake(self) -> None:
        """At each level the surface and the volume are those of r.lake, by the areas of cells, and the full one has its depths."""
        import numpy

        from mosaic_store.hydrology import reservoir
        from mosaic_store.rasters import heights_of
        from mosaic_store import lines

        dam, crest, before = self.valley()
        found = reservoir(self.session, self.network.window, dam, crest, before)
        with self.session.trial():
            for part in lines.commands(lines.points_along(dam)):
                self.session.wall(crest, part)
            heights = heights_of(self.session, self.window).samples
        areas = numpy.broadcast_to(self.network.heights.cell_areas(), heights.shape)
        east, north = before.x - self.window.x0 + 0.5, before.y - self.window.y0 + 0.5
        own = self.session.elevation(*before)
        stages = [stage for stage in found.stages if stage.level > own]  # r.lake takes a seed under water
        for stage in stages[::6] + stages[-1:]:
            (lake,) = self.grass(LAKE.format(level=stage.level, east=east, north=north), heights, "lake")
            with self.subTest(level=stage.level):
                self.assertAlmostEqual(float(areas[lake > 0].sum()) / stage.area, 1, places=6)
                self.assertAlmostEqual(float((lake * areas).sum()) / stage.volume, 1, places=6)
        print(f"a reservoir of {int((lake > 0).sum())} points, {found.stages[-1].volume / 1e6:.1f} million m3 at {found.spills_at} m")
        self.assertEqual(lake.astype(int).tolist(), found.depths.tolist())

    def valley(self) -> tuple[list[Point], int, Point]:
        """A dam from west to east over a large river, 60 m high and at most 40 points long, and the point of the river before it."""
        samples, counts = self.network.heights.samples, self.network.counts
        for row in range(150, self.window.height - 30):
            for column in range(100, self.window.width - 30):
                crest = int(samples[row, column]) + 60
                higher = (samples[row, column - 20 : column + 21] >= crest).nonzero()[0] - 20
                is_valley = counts[row, column] > 5000 and (higher < 0).any() and (higher > 0).any()
                above = self.network.point(row * self.window.width + column)
                donors = [at for at in above_of(self.network, above) if at.y != above.y]
                if is_valley and donors:
                    ends = [Point(above.y, above.x + int(step)) for step in (higher[higher < 0].max(), higher[higher > 0].min())]
                    return ends, crest, donors[0]
        raise AssertionError("there is no such valley")


def above_of(network, point: Point) -> list[Point]:
    """The points that drain to a point, the one that most drain through first."""
    cells = (network.receivers == network.cell(point)).nonzero()[0]
    return [network.point(cell) for cell in sorted(cells, key=lambda cell: -network.counts.ravel()[cell])]


def near(these, those):
    """The share of some cells that have one of others within two cells."""
    import numpy

    rows, columns = those.shape
    padded = numpy.pad(those, 2)
    beside = numpy.zeros(those.shape, bool)
    for north in range(5):
        for east in range(5):
            beside |= padded[north : north + rows, east : east + columns]
    return float((these & beside).sum() / these.sum())


if __name__ == "__main__":
    unittest.main()
