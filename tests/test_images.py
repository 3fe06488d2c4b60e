"""Images of stores, changed byte by byte as docs/layout.md has them: how they open, and what is done with them then."""

import struct
import subprocess

from support import A_TILE, Case
from test_rows import SECTOR, TILES, first_version

GATE_A, ROOT_A, GATE_B, ROOT_B = range(4)
PAGE, RECORD, OTHER_RECORD = 4, 5, 7
"""Of an image of the first version: where the first import puts its heights, and the records of the first tile and of the second."""
NOT_A_STORE, VERSION, DAMAGED, SMALL = "ERR 30 NotAStore", "ERR 31 Version", "ERR 23 Damaged", "ERR 34 TooSmall"
OPENS = "count 1 commits 2"

# A place in root B, the two bytes that are put there, and how the image opens then.
ROOTS = [
    (0, [0x4E, 0x4F], NOT_A_STORE),
    (8, [2, 0], SMALL),  # the second version asks for more sectors
    (8, [3, 0], VERSION),
    (8, [9, 0], VERSION),
    (12, [2, 0], DAMAGED),
    (12, [0xB2, 4], DAMAGED),
    (12, [0xB1, 4], SMALL),  # a side of 1201
    (16, [0, 0], DAMAGED),
    (16, [241, 0], DAMAGED),
    (16, [240, 0], SMALL),
    (20, [2, 0], DAMAGED),
    (24, [0, 0], DAMAGED),
    (24, [1, 0], DAMAGED),
    (32, [2, 0], DAMAGED),
    (40, [17, 0], DAMAGED),
    (44, [1, 0], DAMAGED),
    (64, [90, 0], DAMAGED),
    (66, [180, 0], DAMAGED),
    (68, [0, 0], DAMAGED),
    (68, [3, 0], DAMAGED),  # a root is no record
    (72, [6, 0], DAMAGED),
    (76, [6, 0], DAMAGED),
    (80, [1, 0], DAMAGED),
    (255, [0, 1], DAMAGED),
    (4095, [1], DAMAGED),
    # The magic is tested before the version, and the version before all else.
    (8, [3, 0, 0, 0, 3, 0, 0, 0, 0], VERSION),
    (7, [0, 3, 0, 0, 0, 3, 0, 0, 0, 0], NOT_A_STORE),
    (24, [0xFF] * 8, "count 1 commits 18446744073709551615"),
]

# Latitude and longitude of the second of two tiles; the first is at 0 0.
TILES_IN_ORDER = [((0, 1), True), ((1, 0), True), ((0, 0), False), ((0, -1), False), ((-1, 1), False)]

# A byte of a root with two sinks: an older y, the same point twice, a point that no corner's tile holds, a third sink where two are
# counted, and a byte behind them.
SINKS = [(3912, 0xFE), (3907, 0), (3904, 1), (3920, 1), (4095, 1)]

# A sector and a place of a store without tiles whose gates are open, and the byte that is put there.
SLOTS = [(ROOT_A, 0, 0, NOT_A_STORE), (ROOT_B, 8, 9, VERSION), (ROOT_B, 24, 1, DAMAGED), (ROOT_B, 16, 2, SMALL), (ROOT_B, 44, 1, DAMAGED)]

# What a record is made to list, of two tiles in 24 sectors: a gate, the record itself, a page past the end; and a byte behind it.
RECORDS = [(0, 0), (0, RECORD), (0, 24), (1, 1), (4095, 1)]


class Images(Case):
    def image(self, tiles, sectors=0, version=1):
        """The bytes of a store with these tiles, each imported alone, with more sectors of zeros at the end."""
        path, capacity = self.folder / "image", len(tiles) or 1
        path.write_bytes(first_version(3, capacity))
        for name, samples in tiles.items():
            given = b"import %s 18\n" % name.encode() + samples
            self.assertTrue(subprocess.run([self.program, "serve", path], input=given, stdout=subprocess.PIPE).stdout.startswith(b"OK"))
        return path.read_bytes().ljust(sectors * SECTOR, b"\0")

    def run_on(self, image, word, given=b""):
        """What a subcommand prints about an image, and the image afterwards."""
        path = self.folder / "changed"
        path.write_bytes(image)
        found = subprocess.run([self.program, word, path], input=given, stdout=subprocess.PIPE).stdout
        return found, path.read_bytes()

    def opened(self, image):
        """The first line about an image, which stays unchanged."""
        found, after = self.run_on(image, "check")
        self.assertTrue(after == image, "it was written to")
        return found.decode().splitlines()[0]

    def one_tile(self):
        return self.image({"N00E000": A_TILE})

    def two_tiles(self, sectors=24):
        return self.image({"N00E006": A_TILE, "S01W007": TILES["B"]}, sectors)

    def test_roots(self):
        good = self.one_tile()
        self.assertEqual(self.opened(good), OPENS)
        for at, put, wanted in ROOTS:
            self.assertEqual(self.opened(changed(good, ROOT_B, at, put)), wanted, (at, put))

    def test_tiles_have_an_order(self):
        good = self.image({"N00E000": A_TILE, "N00E001": TILES["B"]})
        for (latitude, longitude), is_right in TILES_IN_ORDER:
            found = self.opened(changed(good, ROOT_A, 80, struct.pack("<hh", latitude, longitude)))
            self.assertEqual(found, "count 2 commits 3" if is_right else DAMAGED, (latitude, longitude))

    def test_sinks(self):
        sinks = changed(self.one_tile(), ROOT_B, 3904, struct.pack("<4i", -1, 258, 1, 1))
        good = changed(sinks, ROOT_B, 40, [2])
        self.assertEqual(self.run_on(good, "serve", b"sinks\n")[0], b"OK 2\n-1 258\n1 1\n")
        for at, byte in SINKS:
            self.assertEqual(self.opened(changed(good, ROOT_B, at, [byte])), DAMAGED, at)

    def test_slots(self):
        empty = self.run_on(self.one_tile(), "serve", b"remove N00E000\n")[1]
        root = bytearray(empty[ROOT_A * SECTOR:GATE_B * SECTOR])
        # Root A is the newest of three commits: without tiles, and a root B before it of the same kind.
        root[24] = 2
        good = changed(changed(changed(empty, ROOT_B, 0, root), ROOT_A, 24, [1]), ROOT_A, 32, [0])
        good = changed(good, ROOT_B, 32, [0])
        self.assertEqual(self.opened(good), "count 0 commits 2")
        for sector, at, byte, wanted in SLOTS:
            self.assertEqual(self.opened(changed(good, sector, at, [byte])), wanted, (sector, at))
        self.assertEqual(self.opened(changed(changed(good, GATE_A, 0, [0]), GATE_B, 0, [0])), NOT_A_STORE)
        self.assertEqual(self.opened(good[:3 * SECTOR]), NOT_A_STORE)

    def test_records_that_are_none(self):
        good = self.two_tiles()
        for at, byte in RECORDS:
            self.assertEqual(self.opened(changed(good, RECORD, at, [byte])), DAMAGED, (at, byte))

    def test_a_tile_that_is_removed(self):
        _, image = self.run_on(self.two_tiles(), "serve", b"remove N00E006\n")
        self.assertEqual(self.opened(image), "count 3 commits 4")
        self.check_tiles(image, {"N00E006": None, "S01W007": TILES["B"]})

    def check_tiles(self, image, tiles):
        """The exported bytes of each tile; none for an absent tile."""
        found, _ = self.run_on(image, "serve", "".join(f"export {name}\n" for name in tiles).encode())
        self.assertEqual(found, b"".join(b"OK 18\n" + samples if samples else b"ERR 5 NoTile\n" for samples in tiles.values()))

    def test_upgrades(self):
        """Two tiles ask for 34 sectors by the second version, and a file of fewer is made longer."""
        both = {"N00E006": A_TILE, "S01W007": TILES["B"]}
        for sectors in (24, 34):
            found, image = self.run_on(self.two_tiles(sectors), "upgrade")
            self.assertEqual((found, len(image), self.opened(image)), (b"OK 2\n", 34 * SECTOR, "count 2 commits 4"))
            self.check_tiles(image, both)
            found, after = self.run_on(image, "upgrade")
            self.assertTrue(found == b"ERR 35 NotOld\n" and after == image, found)

    def far(self):
        """Two tiles in 200 sectors, the heights of the first in the last of them."""
        image = self.two_tiles(200)
        return changed(changed(image, 199, 0, image[PAGE * SECTOR:(PAGE + 1) * SECTOR]), RECORD, 0, [199])

    def test_a_page_far_off(self):
        both = {"N00E006": A_TILE, "S01W007": TILES["B"]}
        self.check_tiles(self.far(), both)
        given = b"remove N00E006\nimport N00E006 18\n" + TILES["B"]
        found, image = self.run_on(self.far(), "serve", given)
        self.assertEqual(found, b"OK 3\nOK 4\n")
        self.check_tiles(image, both | {"N00E006": TILES["B"]})
        found, image = self.run_on(self.far(), "upgrade")
        self.assertEqual(found, b"OK 2\n")
        self.check_tiles(image, both)

    def test_a_page_is_reached_once(self):
        """The page of the first tile, and one past the end."""
        for page in (199, 200):
            self.assertEqual(self.opened(changed(self.far(), OTHER_RECORD, 0, [page])), DAMAGED, page)


def changed(image, sector, at, put):
    """The image with other bytes from a place of a sector on."""
    found, start = bytearray(image), sector * SECTOR + at
    found[start:start + len(put)] = bytes(put)
    return bytes(found)
