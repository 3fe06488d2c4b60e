"""What the tests beside the program have in common."""

import importlib.util
import os
import pathlib
import shutil
import subprocess
import sys
import unittest

ROOT = pathlib.Path(__file__).resolve().parent.parent
EXAMPLES, TESTS, TOOLS = ROOT / "examples", ROOT / "tests", ROOT / "tools"
# A Python program run here then writes nothing next to its sources, and doesn't read them in another encoding.
os.environ |= {"PYTHONDONTWRITEBYTECODE": "1", "PYTHONUTF8": "1"}

from picture import python_with
from running import compiled, program, scratch

A_WHILE = 3600
"""Seconds after which a request is abandoned. Far more than anything takes on a loaded machine: no outcome rests on it."""
A_TILE = b"\0\11\0\11\0\11\0\11\0\1\0\11\0\11\0\11\0\5"
"""Three rows of three samples: 9 9 9, 9 1 9 and 9 9 5."""


def output(*words, **options):
    return subprocess.run(words, check=True, stdout=subprocess.PIPE, text=True, **options).stdout


def needs(command, package):
    """The test rests on a command."""
    if shutil.which(command) is None:
        raise unittest.SkipTest(f"`{command}` isn't installed: apt-get install {package}")


def python_that_has(modules, packages):
    """A Python that has some modules, on which the test rests."""
    if python := python_with(modules):
        return python
    raise unittest.SkipTest(f"no Python here has {modules}: apt-get install {packages}")


def list_fonts(folder):
    """Has matplotlib list the fonts here, in a folder of this run: else its first picture prints a message about that, where it takes long."""
    os.environ["MPLCONFIGDIR"] = str(folder)
    subprocess.run([python_with("numpy") or sys.executable, "-c", "import matplotlib.font_manager"], stderr=subprocess.DEVNULL)


class Case(unittest.TestCase):
    """Tests of the programs, with a folder for their output."""

    maxDiff = None

    @classmethod
    def setUpClass(cls):
        cls.folder = cls.enterClassContext(scratch())
        cls.program, cls.tiles = program(), program("mosaic-tiles")
        os.environ["MOSAIC"] = cls.program

    def tool(self, name):
        """A tool of bench/, compiled when it is first asked for."""
        needs("g++", "g++")
        return path if (path := self.folder / name).exists() else compiled(name, self.folder)

    def refused(self, words, text, **options):
        """Bad input is reported in one line, with a status, and without a traceback."""
        done = subprocess.run(words, stdout=subprocess.PIPE, stderr=subprocess.PIPE, stdin=subprocess.DEVNULL, text=True, **options)
        lines = (done.stdout + done.stderr).strip().splitlines()
        self.assertEqual((done.returncode != 0, len(lines)), (True, 1), lines)
        self.assertIn(text, lines[0])


def rows_of(path):
    """The numbers of a raster in ESRI's ASCII."""
    return [[int(float(word)) for word in line.split()] for line in path.read_text().splitlines() if not line.strip()[0].isalpha()]


def has_virtual_environments():
    return importlib.util.find_spec("ensurepip") is not None
