"""Worked rows: the sessions of tests/sessions, line by line, of a mosaic in memory and of stores of both versions.

A file has sessions: what one shows behind `==`, the side of its tiles and how many there is room for, and then lines behind `>`, each
with its reply. `$` and a letter stand for a tile of crates/test_tiles, its length before it; a text without `$` ends in an LF, and
`\\n`, `\\r`, `\\t` and `\\x00` are bytes. Replies are worked by hand from docs/definitions.md.
"""

import codecs
import itertools
import re
import struct
import subprocess
import unittest

from support import ROOT, TESTS, Case

SECTOR = 4096
FILES = sorted((TESTS / "sessions").glob("*.txt"))


def tiles():
    """The bytes of each tile by its letter, as the crate has them."""
    text = (ROOT / "crates/test_tiles/src/lib.rt").read_text()
    listed = re.findall(r"pub const ([A-Z]): \[u8; \d+\] = \[(.*?)\];", text, re.S)
    return {letter: bytes(map(int, re.findall(r"\d+", numbers))) for letter, numbers in listed}


TILES = tiles()


def expanded(text):
    """The bytes of a line or of a reply."""
    parts = re.split(r"\$([A-Z]?)", text)
    plain = [codecs.decode(part, "unicode_escape").encode("latin-1") for part in parts[::2]]
    found = plain[0]
    for letter, rest in zip(parts[1::2], plain[1:]):
        found += (b"%d\n" % len(TILES[letter]) + TILES[letter] if letter else b"") + rest
    return found if "$" in text else found + b"\n"


def sessions(path):
    """What each session of a file shows, its side and capacity, and its lines with their replies."""
    for block in re.split(r"^== ", path.read_text(), flags=re.M)[1:]:
        shows, head, *lines = block.rstrip("\n").split("\n")
        side, capacity = map(int, re.fullmatch(r"side (\d+) capacity (\d+)", head).groups())
        said = []
        for line in lines:
            if line.startswith("> "):
                said.append([line[2:], []])
            else:
                said[-1][1].append(line)
        yield shows, side, capacity, [(line, "\n".join(reply)) for line, reply in said]


def first_version(side, capacity):
    """The image of a store of the first version without tiles, as docs/layout.md has it: gate A open, root A, and room for its planes."""
    root = b"MOSAICST" + struct.pack("<IIIIQQ", 1, side, capacity, 0, 1, 0)
    return (b"\xa7".ljust(SECTOR, b"\0") + root.ljust(SECTOR, b"\0")).ljust((8 * capacity + 8) * SECTOR, b"\0")


class Asked(Case):
    def asked(self, side, capacity):
        """The engine that is asked, and the words that start it, made again for each."""
        old, new = self.folder / "first", self.folder / "second"
        old.write_bytes(first_version(side, capacity))
        new.unlink(missing_ok=True)
        subprocess.run([self.program, "format", new, str(side), str(capacity)], check=True, stdout=subprocess.DEVNULL)
        yield "the mosaic in memory", [self.program, "table", str(side), str(capacity)]
        yield "the store of the first version", [self.program, "serve", old]
        yield "the store of the second version", [self.program, "serve", new]
        if self.tiles:
            yield "mosaic-tiles", [self.tiles, "table", str(side), str(capacity)]


class Rows(Asked):
    def check(self, words, said):
        """Compares the replies, one after another."""
        given = b"".join(expanded(line) for line, _ in said)
        found = subprocess.run(words, input=given, stdout=subprocess.PIPE).stdout
        for line, reply in said:
            wanted = expanded(reply)
            self.assertEqual(found[:len(wanted)], wanted, f"> {line}")
            found = found[len(wanted):]
        self.assertEqual(found, b"")


class Hostile(Asked):
    """Inputs that end anywhere, and lines that are too long."""

    def replies(self, given):
        """The answers of each engine, started again."""
        return {who: subprocess.run(words, input=given, stdout=subprocess.PIPE).stdout for who, words in self.asked(3, 4)}

    def check_all(self, given, wanted):
        self.assertEqual(set(self.replies(given).values()), {wanted}, given[:60])

    def test_no_line(self):
        self.check_all(b"", b"")

    def test_a_payload_that_ends_at_any_byte(self):
        for end in range(len(TILES["A"])):
            self.check_all(b"count\nimport N00E000 18\n" + TILES["A"][:end], b"OK 0\nERR 3 BadLength\n")

    def test_the_longest_line(self):
        """A line has 2048 bytes at most, its CR counted."""
        for letters, end, wanted in ((2041, b"\n", b"ERR 2 BadName"), (2042, b"\n", b"ERR 1 BadLine"), (2040, b"\r\n", b"ERR 2 BadName"), (2041, b"\r\n", b"ERR 1 BadLine"), (100_000, b"\n", b"ERR 1 BadLine")):
            self.check_all(b"remove " + b"x" * letters + end + b"count", wanted + b"\nOK 0\n")

    def test_a_session_that_ends_at_any_byte(self):
        """Whole items are answered, and the rest of the next one by one line."""
        lines = ["import N00E000 $A", "elev 0 2", "elev 5 5", "hello", "import N00E000 $A", "count$"]
        replies = [b"OK 1\n", b"OK 5\n", b"ERR 7 Outside\n", b"ERR 1 BadLine\n", b"ERR 4 TileThere\n", b"OK 1\n"]
        items = [expanded(line) for line in lines]
        ends = list(itertools.accumulate(map(len, items)))
        for end in range(ends[-1]):
            (found,) = set(self.replies(b"".join(items)[:end]).values())
            whole = sum(at <= end for at in ends)
            told = b"".join(replies[:whole])
            rest = found.removeprefix(told)
            self.assertTrue(found.startswith(told), (end, found))
            self.assertEqual(rest.count(b"\n"), end not in (0, *ends), (end, found))


def add_test(path, shows, side, capacity, said):
    def test(self):
        for who, words in self.asked(side, capacity):
            with self.subTest(who):
                self.check(words, said)

    test.__doc__ = f"{path.stem}: {shows}"
    setattr(Rows, f"test_{path.stem}_{re.sub(r'[^a-z0-9]+', '_', shows.lower())}", test)


for file in FILES:
    for session in sessions(file):
        add_test(file, *session)

if __name__ == "__main__":
    unittest.main()
