"""The scripts that try the program long, each with its seeds, and their last lines."""

import os
import shutil
import unittest

from support import ROOT, TESTS, Case, output


class Script(Case):
    def last_line(self, name, *words, **environment):
        """The last line of a script; a part that it leaves out, the test leaves out."""
        told = output(TESTS / name, *words, env=os.environ | environment).splitlines()
        for line in told:
            if line.startswith("left out: "):
                with self.subTest(line):
                    self.skipTest(line.removeprefix("left out: "))
        return told[-1]


class Sessions(Script):
    """Lakes, seas, canals and terraces over many tiles are answered as a plain program does."""

    def test_seeds(self):
        for seed in (4, 7, 12, 19, 27):
            self.assertIn("each answered as the plain program answers it, twice", self.last_line("large_sessions", "0", str(seed)))

    def test_many_tiles_and_a_breach(self):
        for kind in ("--many-tiles", "--breach"):
            self.assertIn("each answered as the plain program answers it, twice", self.last_line("large_sessions", kind))


class Edits(Script):
    def test_seeds(self):
        """The kept planes through a sequence of edits are right: each answer is that of a tile imported again."""
        for seed in (6, 8, 10, 11):
            self.assertIn("answered as of a tile that is imported anew", self.last_line("edit_sequences", "0", str(seed)))


class Planes(Script):
    def test_planes_that_no_flood_wrote(self):
        """Each question is answered or refused, and no path has a point twice."""
        self.assertIn("refused, as they may be", self.last_line("hostile_planes", "20"))


@unittest.skipUnless(shutil.which("cc"), "`cc` isn't installed: apt-get install gcc")
class Faults(Script):
    def test_calls_that_fail(self):
        """Files that fail, call by call, and streams that are closed."""
        self.assertEqual(self.last_line("file_faults"), "each fault was told as it should be")


@unittest.skipUnless(shutil.which("cc"), "`cc` isn't installed: apt-get install gcc")
class Memory(Script):
    def test_requests_of_the_program(self):
        """Each request for memory that the program makes is refused in turn."""
        self.assertIn("requests refused, and each run answered as it should be", self.last_line("scarce_memory"))


@unittest.skipUnless(shutil.which("cc"), "`cc` isn't installed: apt-get install gcc")
class Calls(Script):
    def test_requests_of_calls_of_a_store(self):
        """Each request for memory that calls of a store make is refused in turn."""
        tests = os.environ.get("TESTS", str(ROOT / "crates/hostile_acceptance/out/hostile_acceptance_tests"))
        if not os.path.isfile(tests):
            self.skipTest("the tests of hostile_acceptance aren't built: `rt test` in its folder")
        self.assertTrue(self.last_line("scarce_calls", TESTS=tests).endswith("requests refused"))
