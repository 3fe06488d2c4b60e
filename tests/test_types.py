"""The types of the Python package, as mypy reads them, strictly; names that nothing uses or makes, as pyflakes finds them."""

import subprocess
import tempfile
import unittest

from support import ROOT, needs, output

SCRIPTS = ("examples", "tests", "tools", "bench", "packaging", "packaging/qgis/mosaic_drainage", ".")


class Types(unittest.TestCase):
    def test_mypy(self):
        needs("mypy", "mypy")
        folder = self.enterContext(tempfile.TemporaryDirectory())
        found = output("mypy", "--cache-dir", folder, cwd=ROOT / "python")
        self.assertTrue(found.startswith("Success"), found)

    def test_pyflakes(self):
        needs("pyflakes3", "pyflakes3")
        scripts = [path for folder in SCRIPTS for path in (ROOT / folder).iterdir() if is_python(path)]
        found = subprocess.run(["pyflakes3", ROOT / "python", *sorted(scripts)], stdout=subprocess.PIPE, text=True)
        self.assertEqual(found.stdout, "")


def is_python(path):
    return path.is_file() and (path.suffix == ".py" or path.read_bytes().startswith((b"#!/usr/bin/env python3", b"#!/usr/bin/python3")))
