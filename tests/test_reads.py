"""How many sectors each line of a session reads: what a question has flooded serves later ones and a step, and an edit has no tile
flooded again."""

import struct

from faulty_calls import TriedLocks
from support import Case, needs, output

SIDE = 601
PAGES = (2 * SIDE * SIDE + 4095) // 4096
# A line about a point reads its sample, and perhaps levels and labels at it: far fewer than the pages of a plane.
FEW = 8
# Each line, and how many sectors it reads at least and at most.
STALE = [
    ("fill 300 300", PAGES, PAGES + FEW),  # floods the tile
    ("fill 300 300", 0, FEW),
    ("burn 1 300 300", 0, FEW),
    ("fill 300 300", 0, FEW),  # repairs the cached labelling
    ("watershed 300 300", 0, FEW),
    ("step", 0, FEW),  # keeps the cached labelling
    ("fill 200 200", 0, FEW),
    ("wall 900 100 100", 0, FEW),
    ("fill 100 100", 0, FEW),
    ("watershed 300 300", 0, FEW),
    ("step", 0, FEW),
]
FRESH = [
    ("fill 300 300", 0, 3 * PAGES + FEW),  # reads heights, levels and labels
    ("burn 1 300 300", 0, FEW),
    ("burn 1 100 100", 0, FEW),
    ("step", 0, 3 * PAGES + FEW),  # floods the tile, or reads its kept planes
    ("fill 200 200", 0, 3 * PAGES + FEW),
    ("fill 100 100", 0, FEW),
]


class Reads(Case):
    def reads(self, calls, store, lines):
        """How many sectors a session with these lines reads."""
        image = store.read_bytes()
        status, _, tried = calls.run([self.program, "serve", store], "\n".join([*lines, ""]).encode(), store)
        store.write_bytes(image)
        self.assertEqual(status, 0)
        return tried.count("held pread")

    def check_lines(self, calls, store, rows):
        before = self.reads(calls, store, [])
        for count, (line, least, most) in enumerate(rows, 1):
            now = self.reads(calls, store, [row[0] for row in rows[:count]])
            self.assertIn(now - before, range(least, most + 1), line)
            before = now

    def test_reads(self):
        needs("cc", "gcc")
        calls, store, tile = TriedLocks(self.folder), self.folder / "store", self.folder / "N00E000.hgt"
        tile.write_bytes(b"".join(struct.pack(f">{SIDE}h", *((row * 7 + column * 13) % 97 + row for column in range(SIDE))) for row in range(SIDE)))
        output(self.program, "format", store, str(SIDE), "1")
        output(self.program, "import", store, tile)
        self.check_lines(calls, store, STALE)
        self.assertEqual(output(self.program, "serve", store, input="step\n"), "OK N00E000\n")
        self.check_lines(calls, store, FRESH)
