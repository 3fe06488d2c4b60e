"""What each shell offers after some words."""

import shutil
import tempfile
import pathlib
import unittest

from support import ROOT, output

WORDS = ["format", "import", "serve", "table", "check", "upgrade"]
SIDES = ["1201", "3601"]
BASH = 'source "$0"; COMP_WORDS=("$@"); COMP_CWORD=$(($# - 1)); _mosaic; printf "%s\\n" "${COMPREPLY[@]}"'
ZSH = '_describe() { print -rl -- "${(@P)argv[-1]}" }; _files() { print files $@ }; _wanted() { print -r -- $3 }; _message() { print none }; at() { words=("$@"); CURRENT=$#; source ./_mosaic }; at '


class Completions(unittest.TestCase):
    def test_bash(self):
        folder = pathlib.Path(self.enterContext(tempfile.TemporaryDirectory()))
        for name in ("N37W105.HGT", "other.txt"):
            (folder / name).touch()

        def bash(*words):
            return output("bash", "--norc", "-c", BASH, ROOT / "completions/mosaic.bash", *words, cwd=folder).split()

        self.assertEqual([bash("mosaic", ""), bash("mosaic", "fo"), bash("mosaic", "format", "store", "")], [WORDS, ["format"], SIDES])
        self.assertEqual([bash("mosaic", "import", "store", ""), sorted(bash("mosaic", "serve", ""))], [["N37W105.HGT"], ["N37W105.HGT", "other.txt"]])
        tiles = [bash("mosaic-tiles", ""), bash("mosaic-tiles", "write", "store", ""), bash("mosaic-tiles", "write", "store", "levels", "")]
        self.assertEqual(tiles, [[*WORDS, "write", "read"], ["levels", "directions", "upstream"], ["all"]])

    @unittest.skipUnless(shutil.which("fish"), "`fish` isn't installed: apt-get install fish")
    def test_fish(self):
        def fish(line):
            told = output("fish", "-N", "-c", f"source ./mosaic.fish; source ./mosaic-tiles.fish; complete -C '{line}'", cwd=ROOT / "completions")
            return [row.split("\t")[0] for row in told.splitlines()]

        self.assertEqual([sorted(fish("mosaic ")), fish("mosaic table ")], [sorted(WORDS), SIDES])
        tiles = [sorted(fish("mosaic-tiles ")), fish("mosaic-tiles write store "), fish("mosaic-tiles table ")]
        self.assertEqual(tiles, [sorted([*WORDS, "write", "read"]), ["directions", "levels", "upstream"], SIDES])

    @unittest.skipUnless(shutil.which("zsh"), "`zsh` isn't installed: apt-get install zsh")
    def test_zsh(self):
        def zsh(line):
            return [row.split(":")[0] for row in output("zsh", "-f", "-c", ZSH + line, cwd=ROOT / "completions").splitlines()]

        self.assertEqual([zsh("mosaic ''"), zsh("mosaic format store ''"), zsh("mosaic check ''")], [WORDS, SIDES, ["files"]])
        self.assertEqual([zsh("mosaic-tiles ''"), zsh("mosaic-tiles write store ''")], [[*WORDS, "write", "read"], ["what is written"]])
