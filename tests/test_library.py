"""The library: from C and R, as the program's lines have it, and from Python by the package's own tests of it."""

import os
import pathlib
import subprocess
import sys
import unittest

from client import Session
from picture import python_with
from support import A_TILE, EXAMPLES, ROOT, TESTS, TOOLS, Case, needs, output

NUMBERS = "22 30 30 34 34 0 0 5 0 9 0 9 0 3 0 9 1 1 3 7 0 5 OK 5 0 14 ERR 7 Outside 3 13 2 0 1 0 1 0 3 12 3 2 5 7 22"


class Library(Case):
    @classmethod
    def setUpClass(cls):
        super().setUpClass()
        needs("cc", "gcc")
        if pathlib.Path(cls.program) != ROOT / "crates/mosaic/out/mosaic" and not os.environ.get("MOSAIC_LIBRARY"):
            raise unittest.SkipTest("MOSAIC names a program, and MOSAIC_LIBRARY no library: what is given is proved no more")
        cls.library, cls.store = output(TOOLS / "library").strip(), cls.folder / "one.store"
        output(cls.program, "format", cls.store, "3", "1")
        with Session(cls.program, "serve", cls.store) as session:
            session.ask("import N00E000 18", A_TILE)

    def compiled(self, source, *words):
        made = self.folder / source.stem
        output("cc", "-Wall", "-Wextra", "-Werror", *words, "-I", ROOT / "include", "-o", made, source, self.library)
        return made

    def test_c(self):
        tool = self.compiled(EXAMPLES / "levels.c")
        self.assertEqual(output(tool, self.store, "0", "0"), "5 9\n")
        self.refused([tool, self.store, "0", "1"], "refused: 5")

    def test_refusals(self):
        told = output(self.compiled(TESTS / "refused.c"), self.store)
        self.assertEqual(" ".join(line.split(": ")[1] for line in told.splitlines()), NUMBERS)

    def test_python(self):
        words = [python_with("numpy") or sys.executable, "-m", "unittest", "tests.test_native"]
        done = subprocess.run(words, cwd=ROOT / "python", env=os.environ | {"MOSAIC_LIBRARY": self.library}, stderr=subprocess.PIPE, text=True)
        self.assertEqual(done.returncode, 0, done.stderr)

    def test_r(self):
        shim = self.compiled(EXAMPLES / "levels_for_r.c", "-shared", "-fPIC")
        needs("Rscript", "r-base-core")
        self.assertEqual(output("Rscript", EXAMPLES / "levels.R", shim, self.store, "0", "0").split(), ["5", "9"])
