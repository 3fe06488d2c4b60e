"""Each message that can be brought about without a failing drive or refused memory stands in docs/messages.md, and no other."""

import fcntl
import os
import re
import subprocess

from support import A_TILE, ROOT, Case, output
from client import Refused, Session

TEXT = (ROOT / "docs/messages.md").read_text()
WORDS = {int(number): word for number, word in re.findall(r"^- (\d+) ([A-Z]\w+):", TEXT, re.M)}
OWN_LINES = re.findall(r"^- `(mosaic: [a-z ]+?)(?: [A-Z]+)?`", TEXT, re.M)

# Each refusal that lines bring about, on a tile of 5 x 5 samples of 9 m with a void at 2 2, in a table for two tiles.
VOID_TILE = b"\0\11" * 12 + b"\x80\0" + b"\0\11" * 12
LINES = {
    1: ["hello"],
    2: ["remove N95E000"],
    3: [("import N01E000 17", b"x" * 17)],
    4: [("import N00E000 50", VOID_TILE)],
    5: ["remove N07E000"],
    6: [("import N01E000 50", VOID_TILE), ("import N02E000 50", VOID_TILE)],
    7: ["elev 50 50"],
    8: ["fill 2 2"],
    9: ["patch 0 0 1 1 4"],
    10: ["wall 32768 0 0"],
    11: ["burn 0 0 0"],
    12: ["patch 1 1 0 1 4"],
    13: ["burn 1 0 0 0 0"],
    14: ["burn 32767 0 0", "burn 32767 0 0"],
    15: ["sink 0 0", "sink 0 0"],
    16: [f"sink {y} {x}" for y in (0, 1, 3, 4) for x in range(5)][:17],
    17: ["unsink 0 0"],
}


class Messages(Case):
    @classmethod
    def setUpClass(cls):
        super().setUpClass()
        cls.store, cls.tile = cls.folder / "good", cls.folder / "N00E000.hgt"
        cls.tile.write_bytes(A_TILE)
        output(cls.program, "format", cls.store, "3", "1")

    def test_refusals_of_lines(self):
        for number, lines in LINES.items():
            self.assertEqual(self.last_reply(lines), f"{number} {WORDS[number]}", lines)

    def last_reply(self, lines):
        """The refusal that the last of some lines gets."""
        with Session(self.program, "table", "5", "2") as session:
            session.ask("import N00E000 50", VOID_TILE)
            for line in lines:
                try:
                    session.ask(*([line] if isinstance(line, str) else line))
                    told = "OK"
                except Refused as refusal:
                    told = str(refusal)
            return told

    def test_refusals_of_files(self):
        (self.folder / "tile").write_bytes(A_TILE)
        image = self.store.read_bytes()

        def file(name, data):
            (self.folder / name).write_bytes(data)
            return self.folder / name

        def roots(at, new):
            """The image with some bytes of both roots, which are sectors 1 and 3, in place of what is there."""
            changed = bytearray(image)
            for root in (4096, 3 * 4096):
                changed[root + at:root + at + len(new)] = new
            return bytes(changed)

        for number, words in {
            2: ["import", self.store, self.folder / "tile"],
            30: ["check", file("zeros", bytes(len(image)))],
            31: ["check", file("later", roots(8, b"\x09"))],
            23: ["check", file("damaged", roots(20, b"\x02"))],
            34: ["check", file("cut", image[:5 * 4096])],
            24: ["import", file("worn", roots(24, b"\xff" * 8)), self.tile],
            32: ["format", self.folder / "none", "2", "1"],
            33: ["format", self.folder / "none", "3", "241"],
            35: ["upgrade", self.store],
        }.items():
            done = subprocess.run([self.program, *words], stdout=subprocess.PIPE, text=True)
            self.assertEqual((done.stdout, done.returncode), (f"ERR {number} {WORDS[number]}\n", 1), words[0])

    def test_own_lines(self):
        """All of docs/messages.md, and no other."""
        told = [
            self.own_line([self.program], 2),
            self.own_line([self.program, "serve", self.folder], 1),
            self.own_line([self.program, "format", self.store, "3", "1"], 1),
            self.own_line([self.program, "import", self.store, self.folder / "N01E000.hgt"], 1),
            self.input_fault(),
            "mosaic: output fault",
        ]
        self.assertEqual(told, OWN_LINES)
        with open("/dev/full", "w") as full:
            self.assertEqual(subprocess.run([self.program, "check", self.store], stdout=full).returncode, 1)
        for words in (["-h"], ["help"], ["serve"], ["format", "x", "three", "1"], ["serve", b"\xff"]):
            self.assertEqual(self.own_line([self.program, *words], 2), "mosaic: bad arguments", words)

    def test_store_that_is_open_elsewhere(self):
        with self.store.open("rb") as held:
            fcntl.flock(held, fcntl.LOCK_EX)
            self.assertEqual(self.own_line([self.program, "check", self.store], 1), "mosaic: cannot open")

    def own_line(self, words, status):
        done = subprocess.run(words, stdout=subprocess.PIPE, stdin=subprocess.DEVNULL)
        self.assertEqual(done.returncode, status, words)
        return re.match(r"mosaic: [a-z ]+?(?= /|\n)", done.stdout.decode(errors="replace"))[0]

    def input_fault(self):
        folder = os.open(self.folder, os.O_RDONLY)
        done = subprocess.run([self.program, "table", "3", "1"], stdin=folder, stdout=subprocess.PIPE, text=True)
        os.close(folder)
        self.assertEqual(done.returncode, 1)
        return done.stdout.strip()
