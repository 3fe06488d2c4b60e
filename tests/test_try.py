"""The first command: its answers about the tile in examples/data are those of the plain reference."""

import re
import shutil
import unittest

from reference import Region
from running import compiled, loaded, scratch
from support import ROOT, needs, output


class Try(unittest.TestCase):
    @unittest.skipUnless(shutil.which("rt"), "`rt` isn't here, and `./try` can't build the program")
    def test_numbers(self):
        needs("g++", "g++")
        first, folder = loaded(ROOT / "try"), self.enterContext(scratch())
        (folder / first.TILE.name).write_bytes(first.TILE.read_bytes())
        region = Region(compiled("reference", folder), first.SIDE, folder, 1, 1)
        river = "%d %d" % first.RIVER
        asked = region.answers([f"elev {river}", f"fill {river}", f"dir {river}", f"watershed {river}"])
        height, level, code, points = (int(reply.split()[1]) for reply in asked[:4])
        for y, x in first.WALL:
            region.edit(y, x, lambda before: max(before, first.CREST))
        (after,) = region.levels([first.RIVER]).values()
        wanted = list(first.told([(1,), (height,), (level,), (code,), (points, 0), (2,), (after,)]))
        text = output(ROOT / "try")
        self.assertEqual(re.findall(r"^  .{28} (.*)$", text, re.M), wanted)
        self.assertIn("Nothing here was proved.", text.splitlines()[-1])
