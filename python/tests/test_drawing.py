"""Pictures: their size, what is coloured, and errors in a line."""

import struct
import unittest
import zlib

from mosaic_store import Run, Window, memory_table, open_store
from mosaic_store.questions import Watershed

from .support import PROGRAM, InFolder, hills, needs


@needs("numpy", "matplotlib")
class Drawing(InFolder):
    def draw(self, *words):
        return self.command("draw", *words)

    def test_pictures(self):
        path = self.store(21)
        words = ["--watershed", "0", "1", "--trace", "1.5", "1.5", "--water", "--road", "0.5", "0.2", "0.5", "1.4"]
        done = self.draw(path, "all.png", *words, "--title", r"Hills of $5 \hills $")
        self.assertEqual((done.returncode, done.stderr), (0, ""))
        with open_store(path, PROGRAM) as store:
            self.assertIn(f"{store.watershed(0, 20).cells} points drain to 0 N 1 E", done.stdout)
        self.assertRegex(done.stdout, r"heights from \d+ to \d+ m; .* points under water, at most \d+ m deep")
        self.check_png((self.folder / "all.png").read_bytes())
        for name in ("plain.svg", "plain.pdf"):
            self.assertEqual(self.draw(path, name, "--window", "0.2", "0.2", "0.9", "1.1").returncode, 0)

    def check_png(self, data):
        self.assertEqual(data[:8], b"\x89PNG\r\n\x1a\n")
        width, height = struct.unpack(">II", data[16:24])
        self.assertTrue(400 < width < 2000 and 400 < height < 2000, (width, height))
        self.assertEqual(zlib.crc32(data[12:29]), struct.unpack(">I", data[29:33])[0])

    def test_what_is_coloured(self):
        from mosaic_store.drawing import NO_DATA, Scene, colours_of, cover_of
        from mosaic_store.rasters import depths_of, heights_of, levels_of

        with memory_table(11, 4, PROGRAM) as table:
            for name, data in hills(11, 2, 2).items():
                if name != "N01E001":
                    table.import_tile(name, data)
            heights = heights_of(table, Window(0, 0, 20, 20))
            watershed = table.watershed(0, 10)
            covered = cover_of(watershed, heights)
            points = {(y, x) for y in range(21) for x in range(21) if covered[20 - y, x]}
            self.assertEqual(points, set(watershed.points()))
            depths = depths_of(heights, levels_of(table, heights))
            plain = colours_of(Scene(heights, ""))
            drawn = colours_of(Scene(heights, "", watershed=watershed, depths=depths))
            changed = (plain != drawn).any(axis=2)
            self.assertEqual((changed & ~covered & ~(depths > 0)).sum(), 0)
            self.assertTrue(changed[depths > 0].all() and changed[covered].all())
            self.assertEqual(drawn[17, 2].tolist(), [*NO_DATA, 255])
            self.assertEqual((drawn[..., 3] == 255).tolist(), heights.held.tolist())

    def test_a_thinned_watershed(self):
        from mosaic_store.drawing import cover_of
        from mosaic_store.rasters import heights_of

        with memory_table(11, 4, PROGRAM) as table:
            for name, data in hills(11, 2, 2).items():
                table.import_tile(name, data)
            watershed = Watershed(60, tuple(Run(y, y % 5, 12 + y) for y in range(20, -1, -1)))
            points = set(watershed.points())
            for window, every in ((Window(0, 0, 20, 20), 3), (Window(3, 4, 17, 13), 2), (Window(3, 4, 17, 13), 1)):
                heights = heights_of(table, window, every)
                found = cover_of(watershed, heights)
                wanted = [[(y, x) in points for x in heights.xs.tolist()] for y in heights.ys.tolist()]
                self.assertEqual(found.tolist(), wanted)

    def test_bad_input(self):
        path = self.store(11)
        self.refused(self.draw("none", "x.png"), "no such file")
        self.refused(self.draw(path, "x.gif"), ".png, .svg, .pdf")
        self.refused(self.draw(path, "x.png", "--window", "50", "50", "51", "51"), "off the tiles")
        self.refused(self.draw(path, "x.png", "--watershed", "50", "50"), "no tile holds 50 N 50 E")
        self.refused(self.draw(path, "x.png", "--road", "1", "1"), "two places", status=2)
        self.refused(self.draw(path, "no/x.png"), "make it first")
        self.assertEqual([file.name for file in self.folder.iterdir()], ["store"])


if __name__ == "__main__":
    unittest.main()
