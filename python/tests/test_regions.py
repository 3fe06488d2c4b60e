"""Regions of random stores beside one store of all their tiles; what they keep; and the commands that take one.

    python3 -m tests.test_regions FIRST LAST [MOST]

compares the regions of so many seeds, with tiles of at most MOST samples a side.
"""

from __future__ import annotations

import contextlib
import json
import pathlib
import random
import shutil
import subprocess
import sys
import tempfile
import unittest
import unittest.mock

from mosaic_store import Corner, MosaicError, Point, Refusal, Session, StoreBusy, corner_of, errors, format_store, memory_table, open_place, open_store, questions

from .support import PROGRAM, InFolder, hills, needs

try:
    import numpy

    from mosaic_store import region_edits, turns
    from mosaic_store.regions import Region, make_region, write_region
except ImportError:
    numpy = None  # and the tests are left out

VOID = -32768


def terrain(chance: random.Random, side: int, rows: int, columns: int) -> dict[str, bytes]:
    """Tiles with flats, canals over their edges, voids, edges that disagree; some are missing."""
    reach = side - 1
    height, width = rows * reach + 1, columns * reach + 1
    draw = numpy.random.default_rng(chance.randrange(1 << 30))
    low = chance.randrange(4)
    ground = draw.integers(low, low + chance.choice([1, 3, 9, 30, 200]) + 1, (height, width))
    for _ in range(chance.randrange(5)):
        top, left = chance.randrange(height), chance.randrange(width)
        ground[top : top + chance.randint(1, height), left : left + chance.randint(1, width)] = chance.randint(low - 1, low + 3)
    for _ in range(chance.randrange(4)):
        _dig(chance, ground, low - 1)
    ground[draw.random(ground.shape) < chance.choice([0, 0, chance.random() * 0.03])] = VOID
    disagreeing, missing = (chance.choice([0, 0, chance.random() * 0.3]) for _ in range(2))
    south, west = chance.choice([0, -1, -2, 40]), chance.choice([0, -1, -2, 100])
    tiles = {}
    for row in range(rows):
        for column in range(columns):
            if not tiles or chance.random() >= missing:
                bottom = height - row * reach
                samples = ground[bottom - side : bottom, column * reach : column * reach + side].copy()
                changed = numpy.ones(samples.shape, bool)
                changed[1:-1, 1:-1] = False
                changed &= (draw.random(samples.shape) < disagreeing) & (samples != VOID)
                samples[changed] += draw.integers(-2, 3, samples.shape)[changed]
                samples[changed & (draw.random(samples.shape) < 0.2)] = VOID
                tiles[Corner(south + row, west + column).name] = samples.astype(">i2").tobytes()
    return tiles


def _dig(chance: random.Random, ground, level: int) -> None:
    """A canal of one level that weaves over the ground."""
    y, x, step = chance.randrange(len(ground)), chance.randrange(len(ground[0])), (0, 1)
    for _ in range(chance.randint(10, 2 * sum(ground.shape))):
        ground[y, x] = level
        if chance.randrange(4) == 0:
            step = chance.choice([(north, east) for north in (-1, 0, 1) for east in (-1, 0, 1) if north or east])
        if 0 <= y + step[0] < len(ground) and 0 <= x + step[1] < len(ground[0]):
            y, x = y + step[0], x + step[1]
        else:
            step = (-step[0], -step[1])


def drawn_point(chance: random.Random, session: Session) -> Point:
    """A point of a tile, often on its edge, sometimes off all."""
    window = corner_of(chance.choice(session.tiles())).window(session.side)
    y, x = chance.randint(window.y0, window.y1), chance.randint(window.x0, window.x1)
    if chance.randrange(2):
        y = chance.choice([window.y0, window.y1])
    if chance.randrange(3) == 0:
        x = chance.choice([window.x0, window.x1])
    return Point(y - 1000 if chance.randrange(20) == 0 else y, x)


def drawn_edit(chance: random.Random, session: Session):
    """A command, now and then one that is refused."""
    side, (y, x) = session.side, drawn_point(chance, session)
    several = [drawn_point(chance, session) for _ in range(chance.choice([1, 1, 2, 5]))]
    name = chance.choice(session.tiles())
    corner = corner_of(name)
    beside = Corner(corner.latitude + chance.randint(-1, 1), corner.longitude + chance.randint(-1, 1)).name
    tile = numpy.random.default_rng(chance.randrange(1 << 30)).integers(0, 9, side * side).astype(">i2").tobytes()
    box = (y, x, y + chance.choice([0, side // 2, side]), x + chance.choice([0, 1, side - 1]))
    sinks = session.sinks()
    return chance.choice([
        questions.Burn(chance.randint(0, 9), several),
        questions.Burn(chance.randint(1, 9), several[:1]),
        questions.Wall(chance.randint(-3, 14), several),
        questions.Wall(chance.randint(-3, 14), several[:1]),
        questions.Sink(y, x),
        questions.Unsink(*chance.choice(sinks or [(y, x)])),
        questions.Patch(*box, chance.randint(-2, 9)),
        questions.Remove(name) if len(session.tiles()) > 1 else questions.Remove("N89E000"),
        questions.Import(beside, tile),
    ])


class Beside:
    """A region of random stores, and one table in memory that has all its tiles."""

    def __init__(self, folder: pathlib.Path, chance: random.Random, side: int, most: int = 4) -> None:
        self.folder, self.chance = folder, chance
        tiles = terrain(chance, side, chance.randint(1, most), chance.randint(1, most))
        stores = {}
        for name in tiles:
            stores.setdefault(f"s{chance.randrange(4)}", []).append(name)
        for store, names in stores.items():
            format_store(folder / store, side, 30, PROGRAM)
            with open_store(folder / store, PROGRAM) as session:
                for name in names:
                    session.import_tile(name, tiles[name])
        write_region(folder, side, chance.randint(1, 15), list(stores))
        self.whole = memory_table(side, 60, PROGRAM)
        for name, data in tiles.items():
            self.whole.import_tile(name, data)
        self.region = self.opened()

    def opened(self) -> Region:
        return Region(self.folder, PROGRAM, workers=0)

    def close(self) -> None:
        self.region.close()
        self.whole.close()

    def reopen(self) -> None:
        self.region.close()
        self.region = self.opened()

    def edit(self) -> str:
        """Edits both alike; what the edit was and where they differ in how they take it, empty where they don't."""
        command = drawn_edit(self.chance, self.whole)
        found = []
        for session in (self.region, self.whole):
            try:
                session.ask(command)
                found.append(None)
            except Refusal as refusal:
                found.append(type(refusal))
        return "" if found[0] is found[1] else f"{command}: {found[0]}, and not {found[1]}"

    def differences(self) -> list[str]:
        """In which answers they differ: of all samples, and of some points."""
        region, whole = self.region, self.whole
        found = [f"{region.tiles()} {region.sinks()}"] if (region.tiles(), region.sinks()) != (whole.tiles(), whole.sinks()) else []
        for name in whole.tiles():
            for what in ("tile", "levels", "directions", "upstream"):
                one, other = (getattr(session, what)(name) for session in (region, whole))
                if not numpy.array_equal(one, other):
                    found.append(f"{what} {name} at {numpy.argwhere(one != other)[0]}")
        for _ in range(3):
            y, x = drawn_point(self.chance, whole)
            kinds = (questions.Elevation, questions.Fill, questions.FlowDirection, questions.Trace, questions.WatershedOf)
            for asked in (kind(y, x) for kind in kinds):
                one, other = (session.ask_many([asked])[0] for session in (region, whole))
                if str(one) != str(other) or type(one) is not type(other):
                    found.append(f"{asked}: {str(one)[:100]}, and not {str(other)[:100]}")
            if not isinstance(other, Refusal) and region.upstream_count(y, x) != other.cells:
                found.append(f"the count at {y} {x}")
        return found


def compared(seed: int, most: int) -> tuple[int, int, list[str]]:
    """How many samples a region has, how often it was edited, and what differed."""
    chance = random.Random(seed)
    side = chance.randint(3, most) if chance.randrange(8) == 0 else chance.randint(3, min(most, 9))
    with tempfile.TemporaryDirectory() as folder:
        beside = Beside(pathlib.Path(folder), chance, side, 4 if side < 12 else 2)
        try:
            edits, found = 0, beside.differences()
            samples = len(beside.whole.tiles()) * side * side
            while not found and edits < chance.randrange(7):
                edits += 1
                found = [fault] if (fault := beside.edit()) else []
                if chance.randrange(4) == 0:
                    beside.reopen()
                if chance.randrange(3):
                    found += beside.differences()
            return samples, edits, found
        finally:
            beside.close()


@needs("numpy")
class Compared(unittest.TestCase):
    def test_random_regions(self) -> None:
        """Each answer and each refusal is that of one store of all tiles, before edits and after them."""
        for seed in range(8):
            self.assertEqual(compared(seed, 17)[2], [], seed)


@needs("numpy")
class Kept(InFolder):
    """What a region has in its folder, and what becomes of it."""

    def beside(self, seed: int = 3, side: int = 6) -> Beside:
        chance = random.Random(seed)
        found = Beside(self.folder, chance, side)
        self.addCleanup(found.close)
        return found

    def test_opening_again(self) -> None:
        """Nothing is flooded again where nothing changed; where a store was edited by itself, what that changed."""
        beside = self.beside()
        self.assertEqual(beside.differences(), [])
        beside.reopen()
        before = {path: path.stat().st_mtime_ns for path in (self.folder / "joined").iterdir()}
        beside.region.refresh()
        self.assertEqual(beside.differences(), [])
        beside.region.close()
        self.assertEqual({path: path.stat().st_mtime_ns for path in before if path.suffix == ".labels"}, {path: at for path, at in before.items() if path.suffix == ".labels"})
        store = next(iter(beside.region.stores))
        with open_store(self.folder / store, PROGRAM) as session:
            name = session.tiles()[0]
            session.remove(name)
            beside.whole.remove(name)
        beside.reopen()
        self.assertEqual(beside.differences(), [])
        report, other = beside.region.report(), beside.region.reopen()
        self.assertEqual((report.tiles, report.count), (dict.fromkeys(beside.whole.tiles(), True), other.count))
        self.assertEqual(report.seams, self.seams_of(beside.whole))
        self.assertEqual(beside.differences(), [])

    @staticmethod
    def seams_of(session: Session) -> int:
        """How many points have different samples in two tiles."""
        samples: dict[tuple[int, int], set[int]] = {}
        for name in session.tiles():
            window, tile = corner_of(name).window(session.side), session.tile(name)
            for y, x in window.points():
                samples.setdefault((y, x), set()).add(int(tile[window.y1 - y, x - window.x0]))
        return sum(len(each) > 1 for each in samples.values())

    def test_files_that_are_lost_or_of_something_else(self) -> None:
        beside = self.beside()
        self.assertEqual(beside.differences(), [])
        beside.region.close()
        files = sorted((self.folder / "joined").iterdir())
        labels, directions, kept = ([path for path in files if path.suffix == end] for end in (".labels", ".directions", ".npz"))
        labels[0].unlink()
        directions[-1].write_bytes(directions[0].read_bytes())
        kept[0].write_bytes(b"no numbers")
        beside.reopen()
        self.assertEqual(beside.differences(), [])

    def test_an_edit_that_is_broken_off(self) -> None:
        """Where a process or a call ends between two stores' commands, the next session or question makes the rest."""
        for is_reopened in (True, False):
            with self.subTest(is_reopened=is_reopened):
                beside, point = self.with_a_shared_point()
                with self.broken_off(1, KeyboardInterrupt), self.assertRaises(KeyboardInterrupt):
                    beside.region.burn(2, [point])
                self.assertTrue((beside.folder / region_edits.FILE).exists())
                beside.whole.burn(2, [point])
                if is_reopened:
                    beside.reopen()
                self.assertEqual(beside.differences(), [])
                self.assertFalse((beside.folder / region_edits.FILE).exists())

    def test_an_edit_that_no_store_takes(self) -> None:
        beside, point = self.with_a_shared_point()
        with self.broken_off(0, errors.NoMemory("burn")), self.assertRaises(errors.NoMemory):
            beside.region.burn(2, [point])
        self.assertFalse((beside.folder / region_edits.FILE).exists())
        self.assertEqual(beside.differences(), [])

    def with_a_shared_point(self) -> tuple[Beside, Point]:
        """A region, all of it found, and a point of two stores."""
        for seed in range(40):
            beside = Beside(pathlib.Path(tempfile.mkdtemp(dir=self.folder)), random.Random(seed), 5)
            self.addCleanup(beside.close)
            points = (point for tile in beside.region.held.values() for point in tile.corner.window(5).points())
            if (shared := next((point for point in points if self.is_in_several(beside.region, point)), None)) is not None:
                break
        self.assertEqual(beside.differences(), [])
        return beside, shared

    @staticmethod
    def broken_off(after: int, fault: BaseException):
        """Lets stores take so many commands, and none after these."""
        ask, sent = Session.ask, []

        def asked(session: Session, question):
            if isinstance(question, questions.Command) and not isinstance(session, Region):
                sent.append(session)
                if len(sent) > after:
                    raise fault
            return ask(session, question)

        return unittest.mock.patch.object(Session, "ask", asked)

    def test_a_store_of_another_day(self) -> None:
        """A copy of a store is put back and edited by itself, up to the count that it had: what was kept isn't taken."""
        beside, point = self.with_a_shared_point()
        store = beside.folder / beside.region.part_of(beside.region.holders(point)[0].name).name
        beside.region.close()
        shutil.copy(store, self.folder / "copy")
        beside.region = beside.opened()
        beside.region.burn(2, [point])
        self.assertGreaterEqual(beside.region.fill(*point), -32767)
        beside.region.close()
        shutil.copy(self.folder / "copy", store)
        with open_store(store, PROGRAM) as session:
            session.burn(3, [point])
        beside.reopen()
        with memory_table(5, 60, PROGRAM) as whole:
            for name in beside.region.tiles():
                whole.import_tile(name, beside.region.tile(name))
            for name in whole.tiles():
                self.assertTrue(numpy.array_equal(beside.region.levels(name), whole.levels(name)))
                self.assertTrue(numpy.array_equal(beside.region.directions(name), whole.directions(name)))

    def test_a_question_that_is_ended(self) -> None:
        """Wherever the finding anew after an edit is broken off, the next question finds all of it."""
        beside = self.beside(5)
        self.assertEqual(beside.differences(), [])
        for name in ("_join", "_raise_rims", "_direct", "_direct_turn"):
            with self.subTest(name):
                self.assertEqual(beside.edit(), "")
                with unittest.mock.patch.object(Region, name, side_effect=KeyboardInterrupt), contextlib.suppress(KeyboardInterrupt):
                    beside.region.refresh()
                self.assertEqual(beside.differences(), [])

    @staticmethod
    def is_in_several(region: Region, point: Point) -> bool:
        holders = region.holders(point)
        return len({region.part_of(tile.name).name for tile in holders}) > 1 and region.height(point) is not None

    def test_a_trial(self) -> None:
        beside = self.beside(5)
        before = {name: beside.region.tile(name) for name in beside.region.tiles()}
        point = next(point for tile in beside.region.held.values() for point in tile.corner.window(6).points() if beside.region.height(point) is not None)
        with beside.region.trial():
            beside.region.wall(900, [point])
            self.assertGreaterEqual(beside.region.fill(*point), 900)
        self.assertTrue(all(numpy.array_equal(beside.region.tile(name), samples) for name, samples in before.items()))
        self.assertEqual(beside.differences(), [])

    def test_processes_that_end(self) -> None:
        """A tile's turn whose process is ended is done by another one."""
        make_region(self.folder / "region", 5, 1)
        with Region(self.folder / "region", PROGRAM, workers=2) as region, memory_table(5, 9, PROGRAM) as whole:
            for name, data in hills(5, 3, 3).items():
                region.import_tile(name, data)
                whole.import_tile(name, data)
            worth, turns._WORTH_PROCESSES = turns._WORTH_PROCESSES, 1
            try:
                told = []

                def end_one(done: int, total: int) -> None:
                    told.append(done)
                    if done == 3:
                        next(iter(region._workers._pool._processes.values())).kill()

                region.refresh(end_one)
            finally:
                turns._WORTH_PROCESSES = worth
            self.assertGreaterEqual(len(told), 18)
            for name in whole.tiles():
                self.assertTrue(numpy.array_equal(region.directions(name), whole.directions(name)))

    def test_bad_input(self) -> None:
        (self.folder / "none").mkdir()
        for folder, text in (("none", "no region"), ("nowhere", "no such file")):
            with self.assertRaisesRegex(MosaicError, text):
                open_place(self.folder / folder, PROGRAM)
        make_region(self.folder / "region", 5, 1)
        for made, text in (("region", "it is there already"), ("new", "squares of 1 to 15 degrees")):
            with self.assertRaisesRegex(MosaicError, text):
                make_region(self.folder / made, 5, 0 if made == "new" else 1)
        with open_place(self.folder / "region", PROGRAM) as region:
            region.import_tile("N00E000", hills(5, 1, 1)["N00E000"])
            with self.assertRaises(StoreBusy):
                open_place(self.folder / "region", PROGRAM)
            for refused, ask in (
                (errors.TileThere, lambda: region.import_tile("N00E000", bytes(50))),
                (errors.BadLength, lambda: region.import_tile("N00E001", bytes(49))),
                (errors.BadName, lambda: region.levels("nothing")),
                (errors.NoTile, lambda: region.levels("N01E000")),
                (errors.Outside, lambda: region.trace(99, 99)),
                (errors.Void, lambda: region.watershed(3, 2)),
            ):
                self.assertRaises(refused, ask)
        format_store(self.folder / "region" / "other", 7, 1, PROGRAM)
        write_region(self.folder / "region", 5, 1, ["store_N00E000", "other"])
        with self.assertRaisesRegex(MosaicError, "the side 7"):
            open_place(self.folder / "region", PROGRAM)
        for text in ("{}", "nothing", '{"side": 5, "square": 1, "stores": ["../store"]}'):
            (self.folder / "region" / "region.json").write_text(text)
            with self.assertRaisesRegex(MosaicError, "not read as a region"):
                open_place(self.folder / "region", PROGRAM)

    def test_a_tile_in_two_stores(self) -> None:
        make_region(self.folder / "region", 5, 1)
        for store in ("one", "two"):
            format_store(self.folder / "region" / store, 5, 1, PROGRAM)
            with open_store(self.folder / "region" / store, PROGRAM) as session:
                session.import_tile("N00E000", hills(5, 1, 1)["N00E000"])
        write_region(self.folder / "region", 5, 1, ["one", "two"])
        with self.assertRaisesRegex(MosaicError, "stands in one and in two"):
            open_place(self.folder / "region", PROGRAM)


@needs("numpy")
class Commands(InFolder):
    def files(self, tiles: dict[str, bytes]) -> str:
        folder = self.folder / "files"
        folder.mkdir()
        for name, data in tiles.items():
            (folder / f"{name}.hgt").write_bytes(data)
        return str(folder)

    def done(self, name: str, *words: str) -> subprocess.CompletedProcess[str]:
        done = self.command(name, *words)
        self.assertEqual(done.returncode, 0, done.stderr)
        return done

    def test_more_tiles_than_a_store_takes(self) -> None:
        """256 tiles become a region, and every command that takes a store takes it: a basin over all stores is whole."""
        tiles = hills(4, 16, 16)
        files = self.files(tiles)
        self.assertIn("a store for 15 x 15 degrees", self.done("load", "new/region", files).stdout)
        with open_place(self.folder / "new" / "region", PROGRAM) as region:
            self.assertEqual([len(names) for names in region.stores.values()], [225, 15, 15, 1])
            point = max((Point(y, x) for y in range(49) for x in range(49) if region.height((y, x)) is not None), key=lambda at: region.upstream_count(*at))
            cells = region.watershed(*point).cells
            self.assertEqual(cells, region.upstream_count(*point))
        self.assertIn("256 there already", self.done("load", "new/region", files).stdout)
        self.assertIn("tiles 256: 256 fresh, 0 stale", self.done("info", "new/region").stdout)
        self.done("geojson", "new/region", "watershed", *map(str, point), "--points", "-o", "shed.geojson")
        self.assertEqual(json.loads((self.folder / "shed.geojson").read_text())["features"][0]["properties"]["cells"], cells)
        self.done("raster", "new/region", "levels", "levels.asc")
        self.done("backup", "new/region", "copy")
        self.assertEqual(self.done("info", "copy").stdout, self.done("info", "new/region").stdout)
        self.refused(self.command("backup", "new/region", "copy"), "it is there already")

    def test_a_region_of_a_store(self) -> None:
        store = self.store(6, 3, 3, 9)
        with open_store(store, PROGRAM) as session:
            session.sink(7, 7)
            levels = {name: session.levels(name) for name in session.tiles()}
        self.done("split", "region", store, "--square", "2")
        with open_place(self.folder / "region", PROGRAM) as region:
            self.assertEqual([len(names) for names in region.stores.values()], [4, 2, 2, 1])
            self.assertEqual(region.sinks(), [(7, 7)])
            self.assertTrue(all(numpy.array_equal(region.levels(name), own) for name, own in levels.items()))
        self.done("load", "whole", "--from", "region", "--capacity", "9")
        with open_store(self.folder / "whole", PROGRAM) as session:
            self.assertTrue(all(numpy.array_equal(session.levels(name), own) for name, own in levels.items()))
        self.refused(self.command("split", "other", store, "--square", "16"), "squares of 1 to 15 degrees")
        for name in ("region", "other"):
            self.refused(self.command("split", name, store, "--side", "7"), f"{name}: its side is 6, not 7")
        self.assertFalse((self.folder / "other").exists())

    def test_a_folder_of_before(self) -> None:
        """Stores that an earlier version cut along divides, with some tiles in several: they are read, and a region is made of them."""
        tiles, old = hills(5, 2, 3), self.folder / "old"
        old.mkdir()
        features = []
        for store, names in (("store000", list(tiles)[:4]), ("store001", list(tiles)[2:])):
            features.append({"properties": {"what": "planned", "store": store, "tiles": " ".join(names)}})
            format_store(old / store, 5, 9, PROGRAM)
            with open_store(old / store, PROGRAM) as session:
                for name in names:
                    session.import_tile(name, tiles[name])
        (old / "split.geojson").write_text(json.dumps({"features": features}))
        self.refused(self.command("info", "old"), "mosaic-load NEW --from old")
        self.done("load", "region", "--from", "old")
        with open_place(self.folder / "region", PROGRAM) as region:
            self.assertEqual({name: region.export(name) for name in region.tiles()}, tiles)


if __name__ == "__main__":
    if len(sys.argv) > 1:
        first, last, *most = map(int, sys.argv[1:])
        totals = [0, 0]
        for at in range(first, last):
            samples, edits, wrong = compared(at, *most or [17])
            totals = [totals[0] + samples, totals[1] + edits]
            if wrong:
                sys.exit(f"seed {at}: {'; '.join(wrong)}")
        print(f"{last - first} regions of {totals[0]} samples, edited {totals[1]} times: no answer differs")
    else:
        unittest.main()
