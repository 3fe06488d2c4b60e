"""Networks of windows, beside the program's own watersheds; reservoirs, heights above streams and voids, worked by hand."""

import functools
import json
import os
import pathlib
import random
import signal
import struct
import subprocess
import sys
import unittest

from mosaic_store import BadArgument, Point, Window, format_store, memory_table, open_store

from .support import A_WHILE, PROGRAM, InFolder, hills, needs

SIDE = 11


def valley(side: int) -> bytes:
    """Ground that falls to the east, two metres a point, and rises by five metres a point from the middle row."""
    middle = side // 2
    rows = [200 - 2 * x + 5 * abs(row - middle) for row in range(side) for x in range(side)]
    return struct.pack(f">{side * side}h", *rows)


@needs("numpy")
class Networks(InFolder):
    def setUp(self) -> None:
        super().setUp()
        self.session = open_store(self.store(SIDE), PROGRAM)
        self.addCleanup(self.session.close)
        self.session.sink(7, 7)

    def test_each_point_counts_its_watershed(self) -> None:
        """Also what comes into a window from outside, and what leaves it and comes back."""
        from mosaic_store.network import network_of

        for window in (Window(0, 0, 20, 20), Window(3, 4, 17, 15), Window(9, 9, 12, 12)):
            network = network_of(self.session, window)
            found = network.counts
            for row in range(window.height):
                for column in range(window.width):
                    y, x = window.y1 - row, window.x0 + column
                    height = self.session.elevation(y, x)
                    wanted = 0 if height is None else self.session.watershed(y, x).cells
                    self.assertEqual(found[row, column], wanted, (window, y, x))

    def test_catchments_are_nested(self) -> None:
        from mosaic_store.network import network_of

        network = network_of(self.session, Window(0, 0, 20, 20))
        path = self.session.trace(*network.point(int(network.counts.argmax())))
        upstream = self.session.trace(*network.longest_path(path[0])[0])
        outlets = [path[0], upstream[len(upstream) // 2]]
        labels = network.catchments(outlets)
        inner = set(self.session.watershed(*outlets[1]).points())
        whole = set(self.session.watershed(*outlets[0]).points())
        found = [{network.point(cell) for cell in (labels.ravel() == number).nonzero()[0]} for number in (0, 1)]
        self.assertEqual(found, [whole - inner, inner])

    def test_a_stream_that_ends(self) -> None:
        """At the last point, and at a window's edge: its length is that of its line, its area that of what drains through its end."""
        from mosaic_store.network import network_of, stream_features

        with memory_table(3, 1, PROGRAM) as table:
            # All drains to the middle row, three points a column, and there to the east.
            table.import_tile("N60E000", struct.pack(">9h", 9, 9, 9, 3, 2, 1, 9, 9, 9))
            # A degree's metres to the north and to the east, at 60, 60.5 and 61 degrees.
            column = (111_412.3 * 55_800.0 + 111_420.7 * 54_955.9 + 111_429.1 * 54_107.5) / 4e6
            for last in (0, 1, 2):
                (stream,) = stream_features(network_of(table, Window(120, 0, 122, last)), 3)
                own = stream["properties"]
                self.assertEqual(own["points"], 3 * (last + 1))
                self.assertAlmostEqual(own["km2"] / (column * (last + 1)), 1, delta=1e-5)
                self.assertAlmostEqual(own["length_m"], last * 54_955.9 / 2, delta=0.1)


@needs("numpy")
class Commands(InFolder):
    """Each work writes a file that others read, and prints its result in a line."""

    def hydrology(self, *words: str, user: int | None = None):
        done = self.command("hydrology", *words, user=user)
        self.assertEqual((done.returncode, done.stderr), (0, ""))
        return done.stdout

    def features(self, name: str):
        return json.loads((self.folder / name).read_text())["features"]

    def test_files_of_each_work(self) -> None:
        path = self.store(SIDE)
        self.assertIn("drain through one", self.hydrology(path, "accumulation", "points.asc"))
        self.assertEqual(len((self.folder / "points.asc").read_text().splitlines()), 6 + 21)
        self.assertIn("above a stream", self.hydrology("--threshold", "20", path, "above", "hand.asc"))
        self.assertIn("reaches", self.hydrology(path, "streams", "streams.geojson", "--threshold", "20"))
        orders = {feature["properties"]["order"] for feature in self.features("streams.geojson")}
        self.assertLessEqual(orders, {1, 2, 3})
        (self.folder / "outlets.csv").write_text("name,y,x\nford,5,5\nculvert,7,12\n")
        self.hydrology(path, "catchments", "areas.geojson", "--outlets", "outlets.csv")
        with open_store(path, PROGRAM) as store:
            for feature, outlet in zip(self.features("areas.geojson"), ((5, 5), (7, 12))):
                self.assertEqual(feature["properties"]["drained_points"], store.watershed(*outlet).cells)
        self.assertEqual([feature["properties"]["name"] for feature in self.features("areas.geojson")], ["ford", "culvert"])
        self.hydrology(path, "flooded", "floods.geojson", "--depths", "1", "5")
        self.hydrology(path, "path", "path.geojson", "--points", "--at", "5", "5")
        self.assertEqual(self.features("path.geojson")[0]["properties"]["what"], "longest path")

    def test_edits_of_lines(self) -> None:
        path = self.store(SIDE)
        road = {"type": "Feature", "properties": {}, "geometry": {"type": "LineString", "coordinates": [[0.2, 0.5], [0.8, 0.5]]}}
        (self.folder / "road.geojson").write_text(json.dumps({"type": "FeatureCollection", "features": [road]}))
        self.assertIn("27 points were edited, 0 m3 cut, ", self.hydrology(path, "edit", "road.geojson", "--wall", "900", "--width", "3"))
        with open_store(path, PROGRAM) as store:
            self.assertEqual({store.elevation(y, x) for y in (4, 5, 6) for x in range(1, 10)}, {900})
        # Where two lines cross the deeper one counts, once; what is dug is told.
        self.lines([[0.2, 0.5], [0.4, 0.5]], [[0.3, 0.4], [0.3, 0.6]], depth=7)
        told = self.hydrology(path, "edit", "lines.geojson", "--burn", "5")
        self.assertIn("tiles flooded", told, "no question has to do it afterwards")
        with open_store(path, PROGRAM) as store:
            self.assertEqual([store.elevation(5, x) for x in (2, 3, 4)], [895, 893, 895])
        cells = (2 * 5 + 3 * 7) * (111_195 / 10) ** 2
        self.assertAlmostEqual(float(told.splitlines()[0].split()[-6]) / cells, 1, delta=0.02)
        # A line that leaves the tiles has none of them made.
        self.lines([[0.2, 0.5], [0.4, 0.5]], [[1.9, 0.5], [2.9, 0.5]])
        with open_store(path, PROGRAM) as store:
            images = [store.export(name) for name in store.tiles()]
        self.refused(self.command("hydrology", path, "edit", "lines.geojson", "--burn", "5"), "no tile holds")
        with open_store(path, PROGRAM) as store:
            self.assertEqual([store.export(name) for name in store.tiles()], images)

    def lines(self, first, second, **properties) -> None:
        """A file of two lines; the second has properties."""
        features = [
            {"type": "Feature", "properties": own, "geometry": {"type": "LineString", "coordinates": line}}
            for line, own in ((first, {}), (second, properties))
        ]
        (self.folder / "lines.geojson").write_text(json.dumps({"type": "FeatureCollection", "features": features}))

    def test_what_drawing_programs_write(self) -> None:
        """Points of many parts, whole numbers with a point, properties without a value; what is no point is skipped, and reported."""
        path = self.store(SIDE)
        self.write("outlets", {"type": "MultiPoint", "coordinates": [[0.5, 0.5], [1.2, 0.7]]}, {"type": "Polygon", "coordinates": []}, name="two")
        told = self.hydrology(path, "catchments", "areas.geojson", "--outlets", "outlets.geojson")
        self.assertTrue(told.endswith("2 catchments; 1 feature was passed by, without a point\n"), told)
        self.assertEqual([feature["properties"]["name"] for feature in self.features("areas.geojson")], ["two", "two"])
        for height, wanted in ((None, 900), (1200.0, 1200)):
            self.write("points", {"type": "Point", "coordinates": [0.5, 0.5, 7]}, {"type": "LineString", "coordinates": []}, height=height)
            self.assertIn("1 feature was passed by", self.hydrology(path, "edit", "points.geojson", "--wall", "900"))
            with open_store(path, PROGRAM) as store:
                self.assertEqual(store.elevation(5, 5), wanted)

    def write(self, file: str, *geometries: object, **properties: object) -> None:
        """A file of features that have these properties."""
        features = [{"type": "Feature", "properties": properties, "geometry": geometry} for geometry in geometries]
        (self.folder / f"{file}.geojson").write_text(json.dumps({"type": "FeatureCollection", "features": features}))

    def test_bad_files(self) -> None:
        """Each is reported in a line with its file and its place there."""
        path = self.store(SIDE)
        (self.folder / "latin.csv").write_bytes("latitude,longitude,name\n0.5,0.5,Mühle\n".encode("latin-1"))
        (self.folder / "words.csv").write_text("latitude,longitude\n0.5,0.5\n0.5,east\n")
        (self.folder / "far.csv").write_text("latitude,longitude\n0.5,0.5\n0.5,55\n")
        (self.folder / "none.csv").write_text("y,x\n")
        (self.folder / "null.geojson").write_text('{"type": "FeatureCollection", "features": null}')
        point = {"type": "Point", "coordinates": [0.5, 0.5]}
        self.write("nowhere", point, {"type": "Point"})
        self.write("line", point, {"type": "LineString", "coordinates": None})
        self.write("text", point, {"type": "LineString", "coordinates": [["0.5", "0.5"], [1, 1]]})
        self.write("tall", point, height="tall")
        self.write("off", point, {"type": "Point", "coordinates": [55, 0.5]})
        for name, told in (
            ("latin.csv", "latin.csv: its text isn't UTF-8"),
            ("words.csv", "words.csv: line 3 names no place"),
            ("far.csv", "far.csv: line 3: no tile holds 0.5 N 55 E"),
            ("none.csv", "none.csv: it names no place"),
            ("null.geojson", "null.geojson: not read as GeoJSON: it has no list of features"),
            ("nowhere.geojson", "nowhere.geojson: feature 2: a place is two numbers"),
            ("off.geojson", "off.geojson: feature 2: no tile holds"),
        ):
            with self.subTest(name):
                self.refused(self.command("hydrology", path, "catchments", "x.geojson", "--outlets", name), told)
        for name, told in (
            ("line.geojson", "line.geojson: feature 2: its coordinates are a list, not None"),
            ("text.geojson", "text.geojson: feature 2: a place is two numbers, longitude and latitude, not ['0.5', '0.5']"),
            ("tall.geojson", "tall.geojson: feature 1: height is a whole number of metres, not 'tall'"),
            ("off.geojson", "off.geojson: feature 2: no tile holds"),
        ):
            with self.subTest(name):
                self.refused(self.command("hydrology", path, "edit", name, "--wall", "9"), told)
        self.refused(self.command("hydrology", path, "flooded", path), "is the store")

    def test_voids_and_a_reservoir(self) -> None:
        path = self.store(SIDE)
        self.assertIn("1 voids", self.hydrology(path, "voids", "voids.geojson"))
        with open_store(path, PROGRAM) as store:
            around = [store.elevation(3 + north, 2 + east) for north in (-1, 0, 1) for east in (-1, 0, 1) if north or east]
            self.assertTrue(min(around) <= store.elevation(3, 2) <= max(around))
        found = self.features("voids.geojson")[0]["properties"]
        self.assertEqual((found["what"], found["cells"]), ("filled voids", 1))
        self.assertAlmostEqual(found["km2"] / 11.132**2, 1, delta=0.01)
        self.assertIn("0 voids", self.hydrology(path, "voids", "voids.geojson"))
        with open_store(path, PROGRAM) as store:
            images = [store.export(name) for name in store.tiles()]
        dam = ["--dam", "12", "12", "12", "18", "--crest", "420", "--before", "13", "15", "--points"]
        done = self.command("hydrology", path, "reservoir", "stages.csv", *dam)
        self.assertIn(done.returncode, (0, 1))  # what it holds back depends on the hills; the store is as it was
        with open_store(path, PROGRAM) as store:
            self.assertEqual([store.export(name) for name in store.tiles()], images)

    def test_a_reservoir_is_a_question(self) -> None:
        """The store's file stays as it is, also where a signal ends it, and may be one that this user can only read."""
        path = str(self.folder / "valley")
        format_store(path, 41, 1, PROGRAM)
        with open_store(path, PROGRAM) as store:
            store.import_tile("N00E000", valley(41))
            store.step()
        before = (self.folder / "valley").read_bytes()
        dam = ["--points", "--dam", "5", "30", "35", "30", "--crest", "160", "--before", "20", "29"]
        told = self.hydrology(path, "reservoir", "stages.csv", *dam)
        self.assertTrue(told.startswith("stages.csv: it spills at 160 m, with "), told)
        self.assertEqual((self.folder / "valley").read_bytes(), before)
        for number, shown in ((signal.SIGTERM, ""), (signal.SIGHUP, ""), (signal.SIGINT, "mosaic-hydrology: interrupted\n")):
            ending = self.at("export", f"os.kill(os.getppid(), {number:d}); sys.stdin.read()")
            done = self.command("hydrology", path, "reservoir", "stages.csv", *dam, "--program", ending)
            self.assertEqual((done.returncode, done.stdout, done.stderr), (128 + number, "", shown))
            self.assertEqual((self.folder / "valley").read_bytes(), before)

    @unittest.skipIf(os.getuid(), "another user is taken by root alone")
    def test_a_store_that_may_only_be_read(self) -> None:
        path = pathlib.Path(self.store(SIDE))
        path.chmod(0o444)
        self.folder.chmod(0o777)
        before = path.read_bytes()
        self.hydrology(str(path), "accumulation", "points.asc", user=65534)
        for words in (("info", str(path)), ("backup", str(path), "copy"), ("load", "new", "--from", str(path))):
            done = self.command(*words, user=65534)
            self.assertEqual((done.returncode, done.stderr), (0, ""), words)
        self.write("points", {"type": "Point", "coordinates": [0.5, 0.5]})
        self.refused(self.command("hydrology", str(path), "edit", "points.geojson", "--wall", "900", user=65534), "no right to read and write it")
        self.assertEqual(path.read_bytes(), before)

    def test_edits_that_are_not_measured(self) -> None:
        """Where their effect can't be computed they are taken back."""
        path = self.store(SIDE)
        before = self.images(path)
        self.write("points", {"type": "Point", "coordinates": [0.5, 0.5]})
        dying = self.at("elev", "server.kill()", after="wall")
        self.refused(self.command("hydrology", path, "edit", "points.geojson", "--wall", "900", "--program", dying), "what was acknowledged stands")
        self.assertEqual(self.images(path), before)

    def at(self, word: str, act: str, after: str = "", later: str = "") -> str:
        """A program that does something else in place of a session's first such line, after one of another word, and ends.

        Begun again it does what comes `later` first, and then serves as it should.
        """
        (self.folder / "met").unlink(missing_ok=True)
        return self.script(f"""
import pathlib, signal, subprocess
met = pathlib.Path({str(self.folder / "met")!r})
if sys.argv[1] != "serve" or met.exists():
    {later}
    os.execv({PROGRAM!r}, [{PROGRAM!r}, *sys.argv[1:]])
with subprocess.Popen([{PROGRAM!r}, *sys.argv[1:]], stdin=subprocess.PIPE) as server:
    seen = False
    while line := sys.stdin.buffer.readline():
        seen = seen or line.startswith({after.encode()!r})
        if seen and line.startswith({word.encode()!r}):
            met.touch()
            {act}
            break
        server.stdin.write(line)
        server.stdin.flush()
""")

    def images(self, path: str) -> dict[str, bytes]:
        with open_store(path, PROGRAM, wait=A_WHILE) as store:
            return {name: store.export(name) for name in store.tiles()}

    def test_a_program_that_dies_between_two_commands(self) -> None:
        """The tile that was taken out is put back as it was."""
        path = self.store(SIDE)
        before = self.images(path)
        done = self.command("hydrology", path, "voids", "voids.geojson", "--program", self.at("import", "server.kill()"))
        self.refused(done, "what was acknowledged stands")
        self.assertEqual(self.images(path), before)
        self.assertEqual([*self.folder.glob("*voids*")], [])

    def test_signals_once_edits_are_kept(self) -> None:
        """They wait until it is told that the edits stand, and until nothing of them lies beside the store."""
        script = """
import pathlib, signal, sys
from mosaic_store.commands import hydrology
from mosaic_store.trials import Trial
owner, name = {"keep": (Trial, "keep"), "rmdir": (pathlib.Path, "rmdir")}[sys.argv[1]]
act = getattr(owner, name)
signal.signal(signal.SIGINT, signal.default_int_handler)
setattr(owner, name, lambda *given: (signal.raise_signal(signal.SIGINT), act(*given)))
sys.exit(hydrology.main(sys.argv[2:]))
"""
        self.write("points", {"type": "Point", "coordinates": [0.5, 0.5]})
        rows = (
            ("keep", ("edit", "points.geojson", "--wall", "900"), "points.geojson: 1 points were edited"),
            ("keep", ("voids", "voids.geojson"), "voids.geojson: 1 voids were given heights"),
            ("rmdir", ("voids", "voids.geojson"), "voids.geojson: 1 voids were given heights"),
        )
        for number, (moment, words, told) in enumerate(rows):
            given = [sys.executable, "-c", script, moment, self.store(SIDE, name=f"store{number}"), *words]
            done = subprocess.run(given, cwd=self.folder, env=self.surroundings(), capture_output=True, text=True, timeout=A_WHILE, check=False)
            self.assertEqual((done.returncode, done.stderr), (130, "mosaic-hydrology: interrupted\n"))
            self.assertTrue(done.stdout.startswith(told), done.stdout)
        self.assertEqual([*self.folder.glob("*.voids")], [])

    def test_a_run_that_is_killed_between_two_commands(self) -> None:
        """The tile that was taken out lies beside the store, with its voids filled, and is put back from there."""
        path, other = self.store(SIDE), self.store(SIDE, name="other")
        words = [path, "voids", "voids.geojson"]
        killing = self.at("import", "os.kill(os.getppid(), signal.SIGKILL)")
        self.assertEqual(self.command("hydrology", *words, "--program", killing).returncode, -9)
        self.assertEqual(list(self.images(path)), ["N00E001", "N01E000", "N01E001"])
        self.refused(self.command("hydrology", *words), f"mosaic-load {path} {path}.voids")
        self.assertEqual(self.command("load", path, f"{path}.voids").returncode, 0)
        self.assertIn("1 voids", self.hydrology(other, "voids", "voids.geojson"))
        self.assertEqual(self.images(path), self.images(other))
        self.assertEqual([entry.name for entry in self.folder.glob("*.voids")], ["store.voids"])

    def test_bad_input(self) -> None:
        path = self.store(SIDE)
        (self.folder / "bad.csv").write_text("name,y\nford,5\n")
        (self.folder / "void.csv").write_text("y,x\n5,5\n3,2\n")
        for words, told in (
            (("catchments", "x.geojson"), "--outlets"),
            (("catchments", "x.geojson", "--outlets", "bad.csv"), "no columns"),
            (("reservoir", "x.csv", "--dam", "1", "1"), "--dam with two places"),
            (("path", "x.geojson"), "--at"),
            (("edit", "bad.csv", "--wall", "5"), "not read as GeoJSON"),
            (("edit", "bad.csv"), "--wall or by --burn"),
            (("streams", "x.geojson", "--threshold", "0"), "1 point and more"),
            (("above", "x.asc", "--threshold", "0"), "1 point and more"),
            (("voids", "x.geojson", "--most", "0"), "1 point and more"),
            (("catchments", "x.geojson", "--outlets", "void.csv"), "point 3 2, which has no height"),
            (("catchments", "x.geojson", "--outlets", "void.csv", "--reach", "-1"), "0 steps and more"),
            (("path", "x.geojson", "--points", "--at", "3", "2"), "point 3 2, which has no height"),
            (("path", "none/x.geojson"), "there is no folder none"),
            (("reservoir", "x.csv", "--dam", "1", "1", "1", "2", "--crest", "9", "--before", "1", "1", "--picture", "x.doc"), "ends in"),
            (("accumulation", "x.png"), ".tif (GeoTIFF) or .asc"),
            (("accumulation", "x.asc", "--points", "--window", "0", "0", "9999", "9999"), "100,000,000 points, and the most for accumulation is 20,000,000"),
            (("flooded", "x.geojson", "--points", "--window", "0", "0", "9999", "9999"), "give a smaller --window"),
            (("voids", "x.geojson", "--points", "--window", "0", "0", "9999", "9999"), "the most for voids is 50,000,000"),
        ):
            with self.subTest(words):
                self.refused(self.command("hydrology", path, *words), told)


@needs("numpy")
class Planning(unittest.TestCase):
    def test_a_reservoir_in_a_valley(self) -> None:
        from mosaic_store.hydrology import reservoir
        from mosaic_store.network import network_of

        with memory_table(41, 1, PROGRAM) as table:
            table.import_tile("N00E000", valley(41))
            network = network_of(table, Window(0, 0, 40, 40))
            found = reservoir(table, network.window, [Point(5, 30), Point(35, 30)], 160, Point(20, 29), PROGRAM)
            self.assertEqual(table.elevation(20, 30), 140)
            areas = network.heights.cell_areas().ravel()
            height = {(y, x): 200 - 2 * x + 5 * abs(y - 20) for y in range(41) for x in range(30)}
            for stage in found.stages:
                wet = {point: stage.level - metres for point, metres in height.items() if metres < stage.level}
                self.assertAlmostEqual(stage.area, sum(areas[40 - y] for y, _ in wet), delta=1)
                self.assertAlmostEqual(stage.volume, sum(areas[40 - y] * depth for (y, _), depth in wet.items()), delta=1)
            self.assertEqual((found.spills_at, found.stages[-1].level, found.depths.max()), (160, 160, 18))
            higher = reservoir(table, network.window, [Point(5, 30), Point(35, 30)], 160, Point(20, 25), PROGRAM)
            self.assertEqual(higher.stages, found.stages, "it fills from its lowest point, whichever point it is asked at")
            with self.assertRaisesRegex(BadArgument, "no water stands before the dam at 35 29"):
                reservoir(table, network.window, [Point(5, 30), Point(35, 30)], 160, Point(35, 29), PROGRAM)

    def test_a_dam_in_a_table_of_some_tiles(self) -> None:
        """Its water stands as high as it does where the dam is built among all tiles, also where it spills into others."""
        from mosaic_store.hydrology import _build, levels_after
        from mosaic_store.lines import points_along

        chance = random.Random(5)
        with memory_table(SIDE, 9, PROGRAM) as table:
            for name, data in hills(SIDE, 3, 3).items():
                table.import_tile(name, data)
            table.sink(17, 21)
            for _ in range(60):
                ends = [Point(chance.randrange(31), chance.randrange(31)) for _ in range(3)]
                dam, before = points_along(ends[:2]), ends[2]
                crest = chance.randrange(300, 480)
                if Point(3, 2) in (*dam, before):
                    continue
                with table.trial():
                    table.wall(crest, dam)
                    level = table.fill(*before)
                found = levels_after(table, dam, functools.partial(_build, dam, crest), [before], PROGRAM)
                self.assertEqual(found, [level], (ends, crest))

    def test_heights_above_a_stream(self) -> None:
        from mosaic_store.hydrology import heights_above_stream, longest_path
        from mosaic_store.network import network_of

        with memory_table(41, 1, PROGRAM) as table:
            table.import_tile("N00E000", valley(41))
            network = network_of(table, Window(0, 0, 40, 40))
            above = heights_above_stream(network, 100)
            self.assertEqual([above[20 - up, 30] for up in range(4)], [0, 5, 10, 15])
            figures = longest_path(network, Point(20, 40))
            self.assertEqual((figures.points[-1], figures.fall), (Point(20, 40), 180))
            for last in (5, 10):  # a window in which one path takes all cells
                row = network_of(table, Window(20, 0, 20, last))
                self.assertEqual(heights_above_stream(row, int(row.counts.max())).tolist(), [[2 * (last - x) for x in range(last + 1)]])
                self.assertEqual(longest_path(row, Point(20, last)).points, [Point(20, x) for x in range(last + 1)])

    def test_voids_are_filled_from_their_rim(self) -> None:
        from mosaic_store.hydrology import filled_voids

        with memory_table(SIDE, 1, PROGRAM) as table:
            samples = [50] * SIDE**2
            samples[3 * SIDE + 3] = samples[3 * SIDE + 4] = samples[0] = -32768
            table.import_tile("N00E000", struct.pack(f">{SIDE**2}h", *samples))
            self.assertEqual(filled_voids(table, Window(0, 0, 10, 10)), [(7, 3, 4)])
            self.assertEqual([table.elevation(7, 3), table.elevation(7, 4), table.elevation(10, 0)], [50, 50, None])

    def test_voids_of_two_heights_on_a_seam(self) -> None:
        """Voids that lie in both of two tiles are given one height in both; each between those of its rim, by how near they are."""
        from mosaic_store.hydrology import filled_voids

        with memory_table(SIDE, 2, PROGRAM) as table:
            for west in (0, 1):
                # Ground that rises to the north, 10 m a point, and a void of 3 x 3 points on the seam.
                ground = [10 * (SIDE - row) for row in range(SIDE) for _ in range(SIDE)]
                for row in (4, 5, 6):
                    for x in (9, 10, 11):
                        if 0 <= x - 10 * west < SIDE:
                            ground[row * SIDE + x - 10 * west] = -32768
                table.import_tile(f"N00E00{west}", struct.pack(f">{SIDE**2}h", *ground))
            self.assertEqual(filled_voids(table, Window(0, 0, 10, 20)), [(6, 9, 11), (5, 9, 11), (4, 9, 11)])
            found = [[table.elevation(y, x) for x in (9, 10, 11)] for y in (6, 5, 4)]
            self.assertEqual([row[::-1] for row in found], found)
            self.assertTrue(80 > found[0][1] > found[1][1] == 60 > found[2][1] > 40, found)
            samples = [struct.unpack(f">{SIDE**2}h", table.export(name)) for name in ("N00E000", "N00E001")]
            self.assertEqual([samples[0][row * SIDE + 10] for row in range(SIDE)], [samples[1][row * SIDE] for row in range(SIDE)])


if __name__ == "__main__":
    unittest.main()
