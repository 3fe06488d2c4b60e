"""mosaic-backup and mosaic-info: a store's copy is the store; its contents are described in lines."""

import errno
import os
import unittest
import unittest.mock

from mosaic_store import BadArgument, StoreExists, check_store, memory_table, open_store

from .support import PROGRAM, InFolder

SIDE = 11


class Backups(InFolder):
    def test_a_copy_is_the_store(self) -> None:
        path, copy = self.store(SIDE), str(self.folder / "copy")
        with open_store(path, PROGRAM) as session:
            session.sink(7, 7)
            self.assertEqual(session.backup(copy), session.count())
            session.wall(900, [(5, 5)])
            with self.assertRaises(StoreExists):
                session.backup(copy)
        with open_store(path, PROGRAM) as one, open_store(copy, PROGRAM) as other:
            self.assertEqual((one.tiles(), one.sinks(), one.count() - 1), (other.tiles(), other.sinks(), other.count()))
            self.assertEqual((one.elevation(5, 5), one.export("N01E001")), (900, other.export("N01E001")))
        self.assertEqual(os.stat(path).st_size, os.stat(copy).st_size)
        with memory_table(SIDE, 1, PROGRAM) as table, self.assertRaises(BadArgument):
            table.backup(str(self.folder / "table"))

    def test_commands(self) -> None:
        path = self.store(SIDE)
        done = self.command("backup", path, "copy")
        self.assertEqual((done.returncode, done.stderr), (0, ""))
        self.assertIn("4 tiles, count 4", done.stdout)
        self.refused(self.command("backup", path, "copy"), "is there already")
        self.refused(self.command("backup", "none", "other"), "no such file")
        self.refused(self.command("backup", path, "none/other"), "none/other: cannot be made: there is no folder none")
        self.refused(self.command("backup", path, "other", most_bytes=300), "other: File too large")
        self.assertEqual(sorted(os.listdir(self.folder)), ["copy", "store"])
        told = self.command("info", "copy").stdout
        for line in ("side 11 samples, 10 points a degree", "tiles 4: 0 fresh, 4 stale", "count 4, ", "bounds 0 0 to 2 2 degrees"):
            self.assertIn(line, told)

    def test_where_there_are_no_hard_links(self) -> None:
        """As on exFAT, which has no modes either: a copy replaces nothing there, too."""
        path, copy = self.store(SIDE), self.folder / "copy"
        none = PermissionError(errno.EPERM, "Operation not permitted")
        with open_store(path, PROGRAM) as session, unittest.mock.patch("os.link", side_effect=none), unittest.mock.patch("os.chmod", side_effect=none):
            self.assertEqual(session.backup(copy), 4)
            with unittest.mock.patch("os.path.lexists", return_value=False), self.assertRaises(StoreExists):
                session.backup(copy)  # it came just now
        self.assertEqual(check_store(copy, PROGRAM), check_store(path, PROGRAM))
        self.assertEqual(sorted(os.listdir(self.folder)), ["copy", "store"])

    def test_a_drive_that_takes_less_at_a_time(self) -> None:
        """As one that gets full does: what it doesn't take is written again, or refused."""
        path, copy, pwrite = self.store(SIDE), self.folder / "copy", os.pwrite
        with open_store(path, PROGRAM) as session, unittest.mock.patch("os.pwrite", lambda file, data, at: pwrite(file, data[:100], at)):
            session.backup(copy)
        self.assertEqual(copy.read_bytes(), (self.folder / "store").read_bytes())

    def test_what_a_served_store_holds(self) -> None:
        path = self.store(SIDE)
        with open_store(path, PROGRAM) as session:
            session.step()
            report = session.report()
            self.assertEqual((session.count(), os.listdir(self.folder)), (4, ["store"]))
            self.refused(self.command("info", path), "another program serves it")
        self.assertEqual(report, check_store(path, PROGRAM))
        self.assertEqual(sorted(report.tiles.values()), [False, False, False, True])
        with memory_table(SIDE, 1, PROGRAM) as table, self.assertRaises(BadArgument):
            table.report()


if __name__ == "__main__":
    unittest.main()
