"""Readers beside a session that edits: every answer is that of the mosaic at the count that it belongs to."""

from __future__ import annotations

import os
import random
import threading
import unittest

from mosaic_store import BadArgument, Readers, Refusal, errors, format_store, memory_table, open_store, questions, read_store

from .support import IS_REAL, PROGRAM, InFolder, hills

SIDE, ROWS, COLUMNS = 17, 2, 2
EDITS = int(os.environ.get("READER_EDITS", "120"))


def question(chance):
    y, x = chance.randrange(-1, ROWS * (SIDE - 1) + 2), chance.randrange(-1, COLUMNS * (SIDE - 1) + 2)
    kinds = [questions.Elevation, questions.Fill, questions.FlowDirection, questions.Trace, questions.WatershedOf]
    tile = chance.choice(["N00E000", "N00E001", "N01E000", "N05E005"])
    return chance.choice([lambda: kinds[chance.randrange(5)](y, x)] * 5 + [
        lambda: questions.Export(tile), lambda: questions.Levels(tile), lambda: questions.Tiles(), lambda: questions.Sinks()
    ])()


def command(chance, tiles):
    points = tuple({(chance.randrange(ROWS * (SIDE - 1) + 1), chance.randrange(COLUMNS * (SIDE - 1) + 1)) for _ in range(chance.randrange(1, 9))})
    kind = chance.randrange(12)
    if kind < 5:
        return questions.Burn(chance.randrange(1, 60), points)
    if kind < 9:
        return questions.Wall(chance.randrange(250, 500), points)
    if kind == 9:
        return (questions.Sink, questions.Unsink)[chance.randrange(2)](*points[0])
    name = chance.choice(sorted(tiles))
    return questions.Remove(name) if chance.randrange(2) else questions.Import(name, tiles[name])


def outcome(ask):
    """An answer, or the number of its refusal."""
    try:
        return ask()
    except Refusal as refusal:
        return refusal.number


@unittest.skipUnless(IS_REAL, "the plain program in Python reads no stores")
class Beside(InFolder):
    def setUp(self):
        super().setUp()
        self.tiles = hills(SIDE, ROWS, COLUMNS)
        self.path = self.folder / "store"
        format_store(self.path, SIDE, 4, PROGRAM)

    def test_answers_of_one_moment(self):
        """The program that edits is killed and begun anew meanwhile."""
        accepted, found, is_over = [], [], threading.Event()
        readers = [threading.Thread(target=self.read, args=(seed, found, is_over)) for seed in range(2)]
        with open_store(self.path, PROGRAM, restart=True) as store:
            for name, data in self.tiles.items():
                accepted.append(questions.Import(name, data))
                store.ask(accepted[-1])
            for reader in readers:
                reader.start()
            chance = random.Random(7)
            try:
                while len(accepted) < EDITS:
                    edit = command(chance, self.tiles)
                    if isinstance(outcome(lambda: store.ask(edit)), int) and store.acknowledged > len(accepted):
                        accepted.append(edit)
                    if chance.randrange(20) == 0:
                        outcome(store.step)
                    if chance.randrange(15) == 0:
                        os.kill(store.pid, 9)
            finally:
                is_over.set()
                for reader in readers:
                    reader.join()
        self.assertGreater(len({count for count, _, _ in found}), EDITS // 10)
        with memory_table(SIDE, 4, PROGRAM) as table:
            for count, asked, answer in sorted(found, key=lambda one: one[0]):
                while table.acknowledged < count:
                    table.ask(accepted[table.acknowledged])
                self.assertEqual(outcome(lambda: table.ask(asked)), answer, (count, asked))

    def read(self, seed, found, is_over):
        chance = random.Random(seed)
        with read_store(self.path, PROGRAM) as reader:
            while not is_over.is_set():
                asked = question(chance)
                before, answer, after = reader.count(), outcome(lambda: reader.ask(asked)), reader.count()
                if before == after and answer != errors.Changing.number:
                    found.append((before, asked, answer))

    def test_edits_show_at_once(self):
        with open_store(self.path, PROGRAM) as store, read_store(self.path, PROGRAM) as reader:
            store.import_tile("N00E000", self.tiles["N00E000"])
            for height in range(600, 640):
                store.wall(height, [(5, 5)])
                self.assertEqual((reader.elevation(5, 5), reader.count()), (height, store.acknowledged))

    def test_asks_only(self):
        with read_store(self.path, PROGRAM) as reader:
            for ask in (reader.step, lambda: reader.burn(1, [(0, 0)]), lambda: reader.import_tile("N00E000", self.tiles["N00E000"])):
                self.assertRaises(errors.BadLine, ask)
            self.assertRaises(BadArgument, lambda: reader.backup(self.folder / "copy"))
            self.assertEqual((reader.count(), reader.tiles()), (0, []))

    def test_file_that_may_not_be_written(self):
        os.chmod(self.path, 0o444)
        with read_store(self.path, PROGRAM) as reader:
            self.assertEqual(reader.count(), 0)

    def test_pool(self):
        with open_store(self.path, PROGRAM) as store:
            store.import_tile("N00E000", self.tiles["N00E000"])
        with Readers(self.path, 3, PROGRAM) as readers:
            asked = [questions.Elevation(y, 4) for y in range(SIDE)]
            found = readers.ask_many(asked)
            self.assertEqual([readers.ask(one) for one in asked], found)

    def test_no_store(self):
        empty = self.folder / "empty"
        empty.write_bytes(bytes(65536))
        self.assertRaises(errors.NotAStore, lambda: read_store(empty, PROGRAM))


if __name__ == "__main__":
    unittest.main()
