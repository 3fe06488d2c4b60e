"""Manual pages and completions that are made from a command's help, and the wheel."""

import base64
import csv
import hashlib
import importlib.util
import pathlib
import re
import subprocess
import sys
import unittest
import zipfile

from .support import PYTHON, InFolder

COMPANIONS = pathlib.Path(__file__).resolve().parents[2] / "packaging" / "companions.py"

HELP = """usage: mosaic-try [-h] [--snap STEPS] store {heights,water}

Tries a store. It isn't the program's.

  mosaic-try STORE heights

positional arguments:
  store
  {heights,water}       what is tried

options:
  -h, --help            shows this
  --a-long-name-of-an-option STEPS
                        moves the outlet
"""

PAGE = r""".TH MOSAIC\-TRY 1 "" "mosaic 1.2" "User Commands"
.SH NAME
mosaic\-try \- tries a store
.SH SYNOPSIS
.B mosaic\-try
[\-h] [\-\-snap STEPS] store {heights,water}
.SH DESCRIPTION
.PP
Tries a store. It isn't the program's.
.PP
.EX
  mosaic\-try STORE heights
.EE
.SH ARGUMENTS
.TP
.B store
\&
.TP
.B {heights,water}
what is tried
.SH OPTIONS
.TP
.B \-h, \-\-help
shows this
.TP
.B \-\-a\-long\-name\-of\-an\-option STEPS
moves the outlet
.SH SEE ALSO
.BR mosaic (1)
"""

FISH = """# Completion of mosaic-try, for fish.

complete -c mosaic-try -s h -l help -d 'shows this'
complete -c mosaic-try -l a-long-name-of-an-option -r -d 'moves the outlet'
complete -c mosaic-try -a 'heights water'
"""


@unittest.skipUnless(COMPANIONS.exists(), "packaging isn't here")
class Described(unittest.TestCase):
    def setUp(self):
        spec = importlib.util.spec_from_file_location("companions", COMPANIONS)
        self.companions = importlib.util.module_from_spec(spec)
        spec.loader.exec_module(self.companions)
        self.told = self.companions.read("mosaic-try", HELP)

    def test_the_page(self):
        self.assertEqual(self.companions.page(self.told, "1.2"), PAGE)

    def test_completions(self):
        self.assertEqual(self.companions.fish(self.told), FISH)
        for words in ("compgen -W '-h --help --a-long-name-of-an-option'", "compgen -W 'heights water'", "complete -F _mosaic_try mosaic-try"):
            self.assertIn(words, self.companions.bash(self.told))


class Wheel(InFolder):
    def built(self, folder: str) -> pathlib.Path:
        """The wheel that pip is given."""
        made = self.folder / folder
        made.mkdir()
        script = "import sys, wheels; print(wheels.build_wheel(sys.argv[1]))"
        done = subprocess.run([sys.executable, "-c", script, made], cwd=PYTHON, env=self.surroundings(), capture_output=True, text=True, check=True)
        return made / done.stdout.strip()

    def test_what_it_holds(self) -> None:
        """Each file of the package as it is, but for the commit that version.py names, in a list with its digest; the commands; and the same bytes
        again."""
        wheel = self.built("one")
        self.assertEqual(wheel.read_bytes(), self.built("other").read_bytes())
        with zipfile.ZipFile(wheel) as archive:
            held = {name: archive.read(name) for name in archive.namelist()}
        sources = [path for path in (PYTHON / "mosaic_store").rglob("*") if path.is_file() and path.suffix != ".pyc"]
        for path in sources:
            found = re.sub(rb'^COMMIT = ".*"$', b'COMMIT = ""', held[path.relative_to(PYTHON).as_posix()], flags=re.M)
            self.assertEqual(found, path.read_bytes())
        (about,) = {name.partition("/")[0] for name in held} - {"mosaic_store"}
        rows = list(csv.reader(held[f"{about}/RECORD"].decode().splitlines()))
        self.assertEqual((sorted(row[0] for row in rows), len(rows)), (sorted(held), len(sources) + 4))
        for name, digest, size in rows[:-1]:
            wanted = base64.urlsafe_b64encode(hashlib.sha256(held[name]).digest()).decode().rstrip("=")
            self.assertEqual((digest, size), (f"sha256={wanted}", str(len(held[name]))))
        self.assertIn(b"mosaic-load = mosaic_store.commands.load:main\n", held[f"{about}/entry_points.txt"])
        self.assertIn(b'Requires-Dist: rasterio; extra == "rasters"\n', held[f"{about}/METADATA"])


if __name__ == "__main__":
    unittest.main()
