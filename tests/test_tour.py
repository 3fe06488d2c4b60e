"""The tour: from real heights to a watershed, a flow path and a picture, beside GRASS."""

import pathlib
import re
import unittest

from running import loaded
from support import EXAMPLES, Case, list_fonts, needs, output


class Tour(Case):
    @classmethod
    def setUpClass(cls):
        super().setUpClass()
        tour = loaded(EXAMPLES / "tour")
        if not any((pathlib.Path(folder) / tour.NAME).is_file() for folder in tour.PLACES):
            raise unittest.SkipTest("matplotlib's sample heights aren't installed: apt-get install python-matplotlib-data")
        list_fonts(cls.folder)
        cls.text = output(EXAMPLES / "tour", cls.folder / "tour")

    def test_tile(self):
        self.assertIn("N36W085.hgt -> OK 1\n", self.text)
        self.refused([EXAMPLES / "tour", self.folder], "is there already")

    def test_picture(self):
        if "picture is left out" in self.text:
            self.skipTest("matplotlib isn't installed: apt-get install python3-matplotlib")
        self.assertEqual((self.folder / "tour" / "tour.png").read_bytes()[:8], b"\x89PNG\r\n\x1a\n")

    def test_beside_grass(self):
        """GRASS finds the same watershed, except for one point in a hundred."""
        needs("grass", "grass-core")
        self.assertGreater(float(re.search(r"in common: ([\d.]+) %", self.text)[1]), 99)
