"""What a build prints about the minutes that are left."""

import os
import subprocess
import unittest

import proving
from support import TOOLS


class Building(unittest.TestCase):
    def test_crates_below(self):
        uses = proving.libraries_of("# all\ntop: low std\nlow:\nside staticlib: low\n")
        self.assertEqual(uses, {"top": ["low"], "low": [], "side": ["low"]})
        self.assertEqual(proving.crates_below("side", uses), ["side", "low"])

    def test_minutes_left(self):
        """Two at a time on three processors: `low` alone at 1.9, then `a` and `b` at 1.5 each, then the rest of `b`, then
        `top`."""
        uses = {"low": [], "a": ["low"], "b": ["low"], "top": ["a", "b"]}
        forecast = proving.Forecast(uses, {"low": 1.9, "a": 3.0, "b": 6.8, "top": 1.9}, at_once=2, processors=3)
        self.assertAlmostEqual(forecast.whole, 1 + 2 + 2 + 1)
        self.assertAlmostEqual(forecast.left({"low"}, {"a": 1, "b": 1}), 1 + 2 + 1)
        # A minute's work took two minutes: so will the rest.
        forecast.measure(2, {"low"}, {})
        self.assertAlmostEqual(forecast.left({"low"}, {}), 10)
        self.assertEqual([proving.minutes_left(minutes) for minutes in (9.8, 1.2, 0.1)], ["some 10 minutes left", "a minute left", "seconds left"])

    def test_crates_that_were_not_measured(self):
        minutes = proving.minutes_of(proving.libraries_of((proving.ROOT / "crates.txt").read_text()))
        self.assertTrue(all(found > 0 for found in minutes.values()), minutes)

    def test_program_that_is_none(self):
        done = subprocess.run([TOOLS / "program"], env=os.environ | {"MOSAIC": "/nowhere"}, stderr=subprocess.PIPE, text=True)
        self.assertEqual((done.returncode, len(done.stderr.splitlines())), (1, 1))
        self.assertIn("MOSAIC names", done.stderr)
