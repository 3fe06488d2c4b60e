"""What the tests have in common: the program that they talk to, tiles, and what isn't installed."""

from __future__ import annotations

import functools
import importlib
import os
import pathlib
import random
import re
import struct
import subprocess
import sys
import tempfile
import time
import unittest

from mosaic_store import Corner, ProgramNotFound, channel, find_program, find_server, format_store, open_store, session

TESTS = pathlib.Path(__file__).resolve().parent
PYTHON = TESTS.parent
FAKE = str(TESTS / "fake_mosaic.py")


def _chosen() -> str:
    """The real program where it is found, else the plain one in Python that stands here."""
    try:
        found = find_program()
    except ProgramNotFound:
        print(f"tests: the program `mosaic` wasn't found, so they talk to {FAKE}", file=sys.stderr)
        return FAKE
    print(f"tests: they talk to {found}", file=sys.stderr)
    return found


A_WHILE = 3600
"""Seconds after which a test ends what hangs. Far more than anything takes on a loaded machine: no outcome rests on it."""

# A program that is asked to end, and a store that is let go of, may take their time, too.
channel._SECONDS_TO_END = session._SECONDS_TO_FREE = A_WHILE

PROGRAM = _chosen()
IS_REAL = PROGRAM != FAKE

_HEARS_SIGNALS = """signal.signal(signal.SIGINT, signal.default_int_handler)
for number in (signal.SIGTERM, signal.SIGHUP):
    signal.signal(number, signal.SIG_DFL)
"""
"""Tests that are run by nohup, or in the background of a shell, hand on signals that are ignored."""

_HOW_FAR = re.compile(r"^mosaic-\w+: \d+ of (at most )?\d+ (stores|questions|levels asked|tiles flooded|done)\n", re.M)
"""The message of a command that takes more than ten seconds, as it may on a loaded machine."""

THREE = struct.pack(">9h", 9, 9, 9, 9, 1, 9, 9, 9, 5)
"""The tile of side 3 of docs/lines.md."""


def needs(*modules: str):
    """Leaves a test out where a module isn't installed or can't be loaded, and says which."""
    missing = [module for module in modules if not _loads(module)]
    return unittest.skipIf(missing, f"{', '.join(missing)} isn't installed")


@functools.cache
def _loads(module: str) -> bool:
    try:
        importlib.import_module(module)
    except Exception:  # what a broken installation may come to
        return False
    return True


def hills(side: int, rows: int, columns: int, seed: int = 1) -> dict[str, bytes]:
    """Tiles of rough ground with pits, a lake and a void, from N00E000; neighbours agree on their common edges."""
    reach, chance = side - 1, random.Random(seed)
    heights = {}
    for y in range(rows * reach + 1):
        for x in range(columns * reach + 1):
            heights[y, x] = 300 + 3 * y + (x * x) % 37 + chance.randrange(25)
    for y in range(reach // 4, reach // 2):
        for x in range(reach // 4, reach // 2):
            heights[y, x] = 250
    heights[3, 2] = -32768
    return cut(heights, side, rows, columns)


def cut(heights: dict[tuple[int, int], int], side: int, rows: int, columns: int) -> dict[str, bytes]:
    """Tiles from N00E000 of the heights of points."""
    reach, tiles = side - 1, {}
    for latitude in range(rows):
        for longitude in range(columns):
            north, west = (latitude + 1) * reach, longitude * reach
            samples = [heights[north - row, west + column] for row in range(side) for column in range(side)]
            tiles[Corner(latitude, longitude).name] = struct.pack(f">{side * side}h", *samples)
    return tiles


class InFolder(unittest.TestCase):
    """A test with a folder of its own."""

    def setUp(self) -> None:
        kept = tempfile.TemporaryDirectory()
        self.addCleanup(kept.cleanup)
        self.folder = pathlib.Path(kept.name)

    def store(self, side: int = 11, rows: int = 2, columns: int = 2, capacity: int = 4, name: str = "store") -> str:
        """A store of hills."""
        path = str(self.folder / name)
        format_store(path, side, capacity, PROGRAM)
        with open_store(path, PROGRAM) as session:
            for tile, data in hills(side, rows, columns).items():
                session.import_tile(tile, data)
        return path

    def script(self, text: str) -> str:
        """A program in Python, to be taken for `mosaic`."""
        path = self.folder / f"program{len(list(self.folder.iterdir()))}"
        path.write_text(f"#!{sys.executable}\nimport os, sys, time\n{text}\n")
        path.chmod(0o755)
        return str(path)

    def ways(self) -> dict[str, str]:
        """Programs of one language: one that answers by lines alone, and those beside which there is one of whole tiles."""
        linked = {"lines/plain": PROGRAM, "fake/mosaic": FAKE, "fake/mosaic-tiles": FAKE}
        for name, program in linked.items():
            (self.folder / name).parent.mkdir(exist_ok=True)
            if not (self.folder / name).exists():
                (self.folder / name).symlink_to(program)
        ways = {"by lines": str(self.folder / "lines/plain"), "whole tiles": str(self.folder / "fake/mosaic")}
        return ways | ({"real whole tiles": PROGRAM} if find_server(PROGRAM) != PROGRAM else {})

    def wait_for(self, path: pathlib.Path) -> None:
        """Waits until another program has made a file."""
        end = time.monotonic() + A_WHILE
        while not path.exists():
            self.assertLess(time.monotonic(), end, f"{path} was never made")
            time.sleep(0.01)

    @staticmethod
    def surroundings() -> dict[str, str]:
        """The environment of another program, which finds the package and talks to the same `mosaic`."""
        return {**os.environ, "PYTHONPATH": str(PYTHON), "MOSAIC": PROGRAM}

    def command(
        self, name: str, *words: str, most_bytes: int | None = None, user: int | None = None
    ) -> subprocess.CompletedProcess[str]:
        """Runs a command of the package; progress isn't in its output.

        No file grows past so many bytes, if that is given; `user` is another user's number.
        """
        limit = f"resource.setrlimit(resource.RLIMIT_FSIZE, ({most_bytes}, {most_bytes}))\n" if most_bytes else ""
        script = f"import resource, signal, sys\n{_HEARS_SIGNALS}{limit}from mosaic_store.__main__ import main\nsys.exit(main())"
        done = subprocess.run(
            [sys.executable, "-c", script, name, *words],
            cwd=self.folder,
            env=self.surroundings(),
            stdin=subprocess.DEVNULL,
            capture_output=True,
            text=True,
            timeout=A_WHILE,
            check=False,
            user=user,
        )
        done.stderr = _HOW_FAR.sub("", done.stderr)
        return done

    def refused(self, done: subprocess.CompletedProcess[str], *words: str, status: int = 1) -> None:
        """A command ended in one line that holds these words, without a traceback."""
        self.assertEqual(done.returncode, status, done.stderr)
        self.assertEqual(len(done.stderr.splitlines()), 1, done.stderr)
        for word in words:
            self.assertIn(word, done.stderr)
