"""Whole tiles: by one line where mosaic-tiles lies beside the program, else by questions, and the same answers."""

import asyncio
import pathlib
import struct
import unittest
import unittest.mock

from mosaic_store import Numbers, Window, aio, errors, find_server, format_store, memory_table, open_store, questions

from .support import FAKE, THREE, InFolder, hills, needs

SIDE = 11


class Servers(InFolder):
    def test_the_one_beside_serves(self):
        """Only beside a program of the name mosaic, also where that is a link; what can't be run doesn't count."""
        ways = self.ways()
        mosaic, plain = pathlib.Path(ways["whole tiles"]), pathlib.Path(ways["by lines"])
        self.assertEqual(find_server(mosaic), str(mosaic.with_name("mosaic-tiles")))
        self.assertEqual(find_server(plain), str(plain))
        self.assertEqual(find_server(FAKE), FAKE)
        (plain.parent / "mosaic-tiles").touch()
        (plain.parent / "mosaic").symlink_to(FAKE)
        self.assertEqual(find_server(plain.parent / "mosaic"), str(plain.parent / "mosaic"))
        built = self.folder / "crates/mosaic/out/mosaic"
        tiles = self.folder / "crates/mosaic_tiles/out/mosaic_tiles"
        for program in (built, tiles):
            program.parent.mkdir(parents=True)
            program.touch(0o755)
        self.assertEqual(find_server(built), str(tiles))

    def test_what_the_program_takes(self):
        for way, program in self.ways().items():
            with self.subTest(way), memory_table(3, 1, program) as table:
                self.assertEqual(table.takes_whole_tiles, way != "by lines")
                self.assertEqual(table.count(), 0)

    def test_words(self):
        """Of 9 9 9 / 9 1 9 / 9 9 5 the middle is filled to 5; water leaves at the south-east."""
        for way, program in self.ways().items():
            if way == "by lines":
                continue
            with self.subTest(way), memory_table(3, 1, program) as table:
                table.import_tile("N00E000", THREE)
                self.assertEqual(table.ask(questions.Levels("n00e000")), THREE.replace(b"\0\1", b"\0\5"))
                self.assertEqual(table.ask(questions.FlowDirections("N00E000")), bytes([2, 4, 8, 1, 2, 4, 128, 1, 0]))
                counts = struct.pack(">9I", 1, 1, 1, 1, 6, 1, 1, 1, 9)
                self.assertEqual(table.ask(questions.UpstreamCounts("n00E000")), counts)
                found = table.ask_many([questions.Levels("N00E000"), questions.Levels("N00E001"), questions.Fill(1, 1)])
                self.assertEqual([found[0], type(found[1]), found[2]], [table.ask(questions.Levels("N00E000")), errors.NoTile, 5])


class Sizes(InFolder):
    def stores(self, side=SIDE):
        """A store for five tiles by each way, and what it tells of itself; None by lines alone."""
        for way, program in self.ways().items():
            path = self.folder / f"{way} {side}"
            format_store(path, side, 5, program)
            with open_store(path, program) as store:
                try:
                    told = store.info()
                except errors.BadLine:
                    told = None
            with self.subTest(way, side=side):
                self.assertEqual(told is None, way == "by lines")
                yield path, program, told

    def test_what_is_told(self):
        for path, program, told in self.stores():
            with open_store(path, program) as store:
                for name in ("N00E000", "N00E001", "N01E000"):
                    store.import_tile(name, hills(SIDE, 2, 2)[name])
                store.step()
                if told is not None:
                    commits = store.info().commits
                    self.assertEqual(store.info(), Numbers(SIDE, 5, 2, count=3, commits=commits, fresh=1, stale=2))
                    self.assertGreaterEqual(commits, 4)

    def test_side_and_capacity(self):
        """The side is told of any store, also in a trial, and without a command; the capacity by the line alone."""
        for side in (3, 4, 1201, 3601):
            for path, program, told in self.stores(side):
                with open_store(path, program) as store:
                    with store.trial() as trial:
                        self.assertEqual((store.side, trial.touched), (side, []))
                    self.assertEqual((store.count(), store.capacity), (0, told and 5))

    def test_commands(self):
        """mosaic-info and mosaic-load say what isn't told."""
        (self.folder / "N00E000.hgt").write_bytes(hills(SIDE, 1, 1)["N00E000"])
        for path, program, told in self.stores():
            done = self.command("info", str(path), "--program", program)
            sizes = f"side {SIDE} samples, {SIDE - 1} points a degree"
            first = f"version 2, {sizes}, at most 5 tiles" if told else f"{sizes}; only mosaic-tiles knows version and capacity"
            self.assertTrue(done.stdout.startswith(first), done)
            words = [str(path), "N00E000.hgt", "--program", program]
            cause = "its capacity is 5, not 7" if told else "its capacity is known to mosaic-tiles alone"
            self.refused(self.command("load", *words, "--capacity", "7"), cause)
            self.refused(self.command("load", *words, "--side", "7"), f"its side is {SIDE}, not 7")
            done = self.command("load", *words)
            self.assertIn("the store has 1 of 5 tiles" if told else "the store has 1 tile\n", done.stdout)
            done = self.command("load", f"{path}, copied", "--from", str(path), "--program", program)
            self.assertIn(f"made, for at most {5 if told else 4} tiles", done.stdout)


@needs("numpy")
class Answers(InFolder):
    def tables(self, names):
        """A mosaic of these hills by each way, each with a sink."""
        for way, program in self.ways().items():
            table = memory_table(SIDE, 4, program)
            self.addCleanup(table.close)
            for name in names:
                table.import_tile(name, hills(SIDE, 2, 2)[name])
            table.sink(7, 6)
            yield way, table

    def test_tiles(self):
        """Of each tile: by each way the same arrays, and the refusals of export; after edits, in a trial too."""
        import numpy

        names = sorted(set(hills(SIDE, 2, 2)) - {"N01E001"})
        told = {}
        for way, table in self.tables(names):
            asks = table.levels, table.directions, table.upstream
            found = [ask(name) for name in names for ask in asks]
            with table.trial():
                table.wall(900, [(5, x) for x in range(3, 9)])
                found += [ask(name) for name in names for ask in asks]
            table.burn(60, [(10, 10)])
            found += [ask(name) for name in names for ask in asks]
            told[way] = found
            kinds = [(array.dtype.name, array.shape) for array in found]
            self.assertEqual(kinds, [(kind, (SIDE, SIDE)) for kind in ("int16", "uint8", "uint32")] * 3 * len(names))
            for name, refusal in (("N01E001", errors.NoTile), ("x", errors.BadName)):
                for ask in asks:
                    with self.assertRaises(refusal):
                        ask(name)
        for way, found in told.items():
            self.assertTrue(all(map(numpy.array_equal, told["by lines"], found)), way)
        levels, codes, counts = told["by lines"][:3]
        void = levels == -32768
        self.assertTrue(void.any() and ((codes == 255) == void).all() and ((counts == 0) == void).all())

    def test_upstream_counts_are_those_of_watersheds(self):
        """Of each sample of each tile, also where water comes from other tiles."""
        from mosaic_store import corner_of

        names = sorted(hills(SIDE, 2, 2))
        for way, table in self.tables(names):
            from_others = 0
            for name in names:
                window = corner_of(name).window(SIDE)
                points = [(y, x) for y in range(window.y1, window.y0 - 1, -1) for x in range(window.x0, window.x1 + 1)]
                sheds = table.ask_many(questions.WatershedOf(*point) for point in points)
                wanted = [0 if isinstance(shed, errors.Void) else shed.cells for shed in sheds]
                self.assertEqual(table.upstream(name).ravel().tolist(), wanted, (way, name))
                grounds = [shed for shed in sheds if not isinstance(shed, errors.Void)]
                from_others += sum(not set(shed.points()).issubset(points) for shed in grounds)
            self.assertGreater(from_others, 0)

    def test_windows(self):
        """Levels, directions, accumulation and areas of windows on some tiles, beside some and off all; one is a tile's own."""
        import numpy

        from mosaic_store.directions import levels_and_directions
        from mosaic_store.network import network_of
        from mosaic_store.rasters import asks_whole_tiles, heights_of

        every = set(hills(SIDE, 2, 2))
        for missing in (set(), {"N01E000", "N00E001"}):
            told = {}
            for way, table in self.tables(sorted(every - missing)):
                found, whole = [], []
                for window in (Window(0, 0, 20, 20), Window(0, 0, 10, 10), Window(-3, 2, 14, 25), Window(4, 4, 7, 8), Window(9, 9, 9, 10), Window(40, 40, 50, 50)):
                    heights = heights_of(table, window)
                    whole.append(asks_whole_tiles(table, heights))
                    network = network_of(table, window)
                    found += [*levels_and_directions(table, heights), network.counts, network.drained_area]
                told[way] = found
                self.assertEqual(set(whole), {False} if way == "by lines" else {True, False})
            for way, found in told.items():
                same = [one.dtype == other.dtype and numpy.array_equal(one, other) for one, other in zip(told["by lines"], found)]
                self.assertTrue(all(same), (way, same))

    def test_no_tile_is_asked_for_points_that_another_tells(self):
        """Of a tile's own window that tile alone, of one across a seam both, and none of the edges beside it."""
        from mosaic_store.rasters import heights_of, levels_of

        for way, table in self.tables(sorted(hills(SIDE, 2, 2))):
            if way == "by lines":
                continue
            for window, names in ((Window(0, 0, 10, 10), ["N00E000"]), (Window(10, 2, 20, 17), ["N01E000", "N01E001"])):
                asked, levels = [], table.levels
                with unittest.mock.patch.object(table, "levels", lambda name: (asked.append(name), levels(name))[1]):
                    levels_of(table, heights_of(table, window))
                self.assertEqual((way, sorted(asked)), (way, names))

    def test_asyncio(self):
        async def told(program):
            async with aio.memory_table(3, 1, program) as table:
                await table.import_tile("N00E000", THREE)
                self.assertEqual((table.side, table.capacity), (3, 1))
                return [(await ask("N00E000")).tolist() for ask in (table.tile, table.levels, table.directions, table.upstream)]

        tile = [[9, 9, 9], [9, 1, 9], [9, 9, 5]]
        levels, codes, counts = [[9, 9, 9], [9, 5, 9], [9, 9, 5]], [[2, 4, 8], [1, 2, 4], [128, 1, 0]], [[1, 1, 1], [1, 6, 1], [1, 1, 9]]
        wanted = [tile, levels, codes, counts]
        for way, program in self.ways().items():
            with self.subTest(way):
                self.assertEqual(asyncio.run(told(program)), wanted)


@needs("numpy")
class Commands(InFolder):
    def test_files(self):
        """Rasters of a store are the same files by each way."""
        made = {}
        for way, program in self.ways().items():
            path = str(self.folder / way)
            format_store(path, SIDE, 4, program)
            with open_store(path, program) as store:
                self.assertEqual(store.takes_whole_tiles, way != "by lines")
                for name, data in hills(SIDE, 2, 2).items():
                    store.import_tile(name, data)
            files = []
            for words in (("raster", path, "water"), ("hydrology", path, "accumulation")):
                file = self.folder / "-".join([way.replace(" ", "_"), words[2]])
                done = self.command(*words, f"{file}.asc", "--program", program)
                self.assertEqual((done.returncode, done.stderr), (0, ""))
                files.append(pathlib.Path(f"{file}.asc").read_bytes())
            made[way] = files
        for way, files in made.items():
            self.assertEqual(files, made["by lines"], way)


if __name__ == "__main__":
    unittest.main()
