"""mosaic-load: a hundred files with every trouble, going on after an end, and moving to another capacity."""

import array
import gzip
import os
import pathlib
import shutil
import struct
import subprocess
import tarfile
import unittest
import unittest.mock
import zipfile

from mosaic_store import Corner, MosaicError, check_store, format_store, open_store
from mosaic_store.loading import find

from .support import PROGRAM, InFolder, hills, needs

SIDE = 5


def hundred_files(folder: pathlib.Path, side: int = SIDE) -> dict[str, bytes]:
    """100 files: tiles in names and archives of each kind, and seven troubles; the tiles that are whole."""
    tiles = {}
    for number, data in enumerate(hills(side, 10, 10).values()):
        corner = Corner(30 + number // 10, -110 + number % 10)
        below = folder / f"part {number % 3}"
        below.mkdir(exist_ok=True)
        if number >= 95:
            continue
        tiles[corner.name] = data
        write(below, corner.name, number % 6, data)
    spare = tiles["N30W110"]
    (folder / "N40W110.hgt").write_bytes(spare[:-7])
    (folder / "copy_of_N30W110.hgt").write_bytes(tiles["N30W110"])
    (folder / "N40W109.zip").write_bytes(b"PK\3\4 cut short")
    (folder / "readme.txt").write_text("where they come from")
    (folder / "unnamed.hgt").write_bytes(spare)
    return tiles


def write(folder: pathlib.Path, name: str, kind: int, data: bytes) -> None:
    """A tile as one of six kinds of files."""
    if kind == 0:
        (folder / f"{name.lower()}.HGT").write_bytes(data)
    elif kind == 1:
        with zipfile.ZipFile(folder / f"{name}.SRTMGL1.hgt.zip", "w", zipfile.ZIP_DEFLATED) as archive:
            archive.writestr(f"inside/{name}.hgt", data)
    elif kind == 2:
        (folder / f"USGS_{name}_1arc.hgt").write_bytes(data)
    elif kind == 3:
        (folder / f"{name}.SRTMGL3.Hgt").write_bytes(data)
    elif kind == 4:
        (folder / f"{name}.hgt.gz").write_bytes(gzip.compress(data, 1))
    else:
        (folder / f"{name}.hgt").write_bytes(data)


class Loading(InFolder):
    def load(self, *words):
        return self.command("load", *words)

    def exports(self, path):
        with open_store(str(path), PROGRAM) as store:
            return {name: store.export(name) for name in store.tiles()}

    def test_a_hundred_files(self):
        files = self.folder / "files"
        files.mkdir()
        tiles = hundred_files(files)
        store = str(self.folder / "store")
        done = self.load(store, str(files))
        self.assertEqual(done.returncode, 1)
        self.assertIn("100 files in", done.stdout)
        self.assertIn("95 imported, 1 there already, 1 passed by, 3 failed", done.stdout)
        self.assertEqual(self.exports(store), tiles)
        self.assertIn(f"made, for at most 192 tiles of {SIDE} x {SIDE} samples", done.stdout)
        troubles = done.stderr.splitlines()
        self.assertEqual(len(troubles), 4)
        for name, cause, cure in (
            ("N40W110.hgt", "43 bytes are no tile", "it may be cut short"),
            ("N40W109.zip", "not read as a zip", "fetch it again"),
            ("unnamed.hgt", "its name is no tile's", "rename it"),
            ("readme.txt", "no HGT file", ""),
        ):
            (line,) = [trouble for trouble in troubles if name in trouble]
            self.assertIn(cause, line)
            self.assertIn(cure, line)
        again = self.load(store, str(files))
        self.assertIn("96 there already, 1 passed by, 3 failed", again.stdout)
        self.assertEqual(check_store(store, PROGRAM).count, 95)

    def test_going_on(self):
        files, store = self.folder / "files", str(self.folder / "store")
        files.mkdir()
        tiles = hills(SIDE, 2, 2)
        for name, data in tiles.items():
            (files / f"{name}.hgt").write_bytes(data)
        format_store(store, SIDE, 4, PROGRAM)
        with open_store(store, PROGRAM) as session:
            session.import_tile("N01E000", tiles["N01E000"])
            session.wall(5000, [(6, 1)])
        done = self.load(store, str(files))
        self.assertEqual((done.returncode, done.stderr), (0, ""))
        self.assertIn("3 imported, 1 there already", done.stdout)
        with open_store(store, PROGRAM) as session:
            self.assertEqual(session.elevation(6, 1), 5000)  # what was edited stays

    def test_what_was_loaded_is_fresh(self):
        """Tiles are flooded at the end, from files and from another store; a run that finds nothing to do has no word of it."""
        files, store = self.folder / "files", str(self.folder / "store")
        files.mkdir()
        for name, data in hills(SIDE, 2, 2).items():
            write(files, name, 5, data)
        for words, freshness, told in ((["--no-step"], False, ""), ([], True, "4 tiles flooded in "), ([], True, "")):
            done = self.load(store, str(files), *words)
            self.assertEqual((done.returncode, done.stderr), (0, ""))
            self.assertEqual((told in done.stdout, "flooded" in done.stdout), (True, bool(told)))
            self.assertEqual(set(check_store(store, PROGRAM).tiles.values()), {freshness})
        for name, words in (("stale", ["--no-step"]), ("fresh", [])):
            self.assertEqual(self.load(name, "--from", store, *words).returncode, 0)
            self.assertEqual(set(check_store(str(self.folder / name), PROGRAM).tiles.values()), {name == "fresh"})

    def test_a_program_that_dies_while_it_floods(self):
        """What was loaded stays, and the next run goes on."""
        files, store, left = self.folder / "files", str(self.folder / "store"), self.folder / "left"
        files.mkdir()
        left.write_text("2")
        for name, data in hills(SIDE, 2, 2).items():
            write(files, name, 5, data)
        dying = f"""
import subprocess
if sys.argv[1] != "serve":
    os.execv({PROGRAM!r}, [{PROGRAM!r}, *sys.argv[1:]])
with subprocess.Popen([{PROGRAM!r}, *sys.argv[1:]], stdin=subprocess.PIPE) as server:
    while line := sys.stdin.buffer.readline():
        steps = int(open({str(left)!r}).read())
        if line == b"step\\n" and steps == 0:
            server.kill()
            break
        if line == b"step\\n":
            open({str(left)!r}, "w").write(str(steps - 1))
        server.stdin.write(line)
        if line.startswith(b"import"):
            server.stdin.write(sys.stdin.buffer.read(int(line.split()[2])))
        server.stdin.flush()
"""
        done = self.load(store, str(files), "--program", self.script(dying))
        self.assertEqual(done.returncode, 1, done)
        self.assertEqual(len(done.stderr.splitlines()), 1, done.stderr)
        self.assertIn("2 tiles flooded in ", done.stdout)
        self.assertEqual(sorted(check_store(store, PROGRAM).tiles.values()), [False, False, True, True])
        self.assertIn("2 tiles flooded in ", self.load(store, str(files)).stdout)
        self.assertEqual(set(check_store(store, PROGRAM).tiles.values()), {True})

    def test_files_of_one_tile(self):
        """The file with the tile's own name goes in, whatever its copies are called, and each run names those that differ."""
        files, store = self.folder / "files", str(self.folder / "store")
        (files / "__MACOSX").mkdir(parents=True)
        (self.folder / "elsewhere").mkdir()
        one, other = hills(SIDE, 1, 2).values()
        (files / "N30W109 (1).hgt").write_bytes(other)
        (files / "N30W109.hgt").write_bytes(one)
        (files / "__MACOSX" / "._N30W109.hgt").write_bytes(b"what a Mac knows of it")
        (self.folder / "elsewhere" / "N30W110.hgt").write_bytes(b"\x80\0" * SIDE**2)
        (files / "more").symlink_to(self.folder / "elsewhere")
        (self.folder / "elsewhere" / "round").symlink_to(files)
        for counts in ("2 imported, 1 failed", "2 there already, 1 failed"):
            done = self.load(store, str(files))
            self.assertEqual((done.returncode, counts in done.stdout), (1, True), done.stdout)
            self.assertEqual("for at most 4 tiles" in done.stdout, "imported" in counts)
            self.assertIn("N30W109 (1).hgt: failed: the same tile as", done.stderr)
            self.assertEqual("void throughout" in done.stderr, "imported" in counts)
            self.assertEqual("26 voids in all" in done.stdout, "imported" in counts)
        self.assertEqual(self.exports(store)["N30W109"], one)

    def test_troubles_of_their_own(self):
        files, store = self.folder / "files", str(self.folder / "store")
        files.mkdir()
        one, other = hills(SIDE, 1, 2).values()
        (files / "N00E000.hgt").write_bytes(one)
        (files / "N00E000b.hgt").write_bytes(other)  # N00E000b is no name
        (files / "n00e000 (2).hgt").write_bytes(other)
        (files / "N01E000.hgt").write_bytes(hills(9, 1, 1)["N00E000"])
        for name, kind in (("bad", zipfile.ZIP_STORED), ("bad by LZMA", zipfile.ZIP_LZMA)):
            with zipfile.ZipFile(files / f"{name}.zip", "w", kind) as archive:
                archive.writestr("N05E005.hgt", other)
            damaged = bytearray((files / f"{name}.zip").read_bytes())
            damaged[45:50] = b"\1\2\3\4\5"
            (files / f"{name}.zip").write_bytes(damaged)
        with zipfile.ZipFile(files / "empty.zip", "w") as archive:
            archive.writestr("about.txt", "nothing")
        (files / "N07E007.hgt.gz").write_bytes(gzip.compress(bytes(10**7)))
        (files / "N08E008.hgt.gz").write_bytes(gzip.compress(other)[:-9])
        with zipfile.ZipFile(files / "bomb.zip", "w", zipfile.ZIP_DEFLATED) as archive:
            archive.writestr("N06E006.hgt", bytes(10**7))
        with zipfile.ZipFile(files / "a name.zip", "w") as archive:
            archive.writestr("red\x1b[31m N09E009.hgt", b"2")
        (files / "of two\nlines.txt").touch()
        os.symlink("nowhere", files / "gone.hgt")
        done = self.load(store, str(files))
        self.assertEqual(done.returncode, 1)
        told = ["with other samples", "a tile of 9 x 9 samples", "bad.zip:N05E005.hgt: failed: not read", "bad by LZMA.zip:N05E005.hgt: failed: not read"]
        told += ["bomb.zip:N06E006.hgt: failed: 10000000 or more", "N07E007.hgt.gz: failed: 51 or more bytes", "E008.hgt.gz: failed"]
        told += [r"a name.zip:red\x1b[31m N09E009.hgt: failed: 1 bytes", r"of two\nlines.txt: passed by"]
        for words in (*told, "without an HGT", "its name is no tile's"):
            self.assertIn(words, done.stderr)
        self.assertNotIn("Traceback", done.stderr)
        self.assertEqual(self.exports(store), {"N00E000": one})

    def test_a_folder_that_may_not_be_read(self):
        """It is reported: otherwise tiles in it would be missing without a word."""
        closed = self.folder / "closed"
        closed.mkdir()
        scandir = os.scandir

        def scanned(folder):
            if pathlib.Path(folder) == closed:
                raise PermissionError(13, "Permission denied", str(folder))
            return scandir(folder)

        with unittest.mock.patch("os.scandir", scanned), self.assertRaisesRegex(MosaicError, f"^{closed}: not read: Permission denied: .*mode"):
            find([str(self.folder)])

    def test_full(self):
        files, store = self.folder / "files", str(self.folder / "store")
        files.mkdir()
        for name, data in hills(SIDE, 2, 2).items():
            (files / f"{name}.hgt").write_bytes(data)
        done = self.load(store, str(files), "--capacity", "3")
        self.assertEqual(done.returncode, 1)
        self.assertIn("3 imported, 1 failed", done.stdout)
        self.assertIn("mosaic-load --from", done.stderr)
        moved = self.load(str(self.folder / "greater"), "--from", store, "--capacity", "9")
        self.assertEqual((moved.returncode, moved.stderr), (0, ""))
        self.assertEqual(self.load(str(self.folder / "greater"), str(files)).returncode, 0)
        self.assertEqual(self.exports(self.folder / "greater"), hills(SIDE, 2, 2))

    def test_moving(self):
        old, new = self.store(SIDE), str(self.folder / "new")
        with open_store(old, PROGRAM) as session:
            session.wall(900, [(4, 4)])
            session.sink(3, 3)
            session.sink(7, 1)
            wanted = self.image(session)
        done = self.load(new, "--from", old, "--capacity", "7")
        self.assertEqual((done.returncode, done.stderr), (0, ""))
        self.assertIn("6 tiles and sinks", done.stdout)
        self.assertIn("made, for at most 7 tiles", done.stdout)
        for path in (old, new):
            with open_store(path, PROGRAM) as session:
                self.assertEqual(self.image(session), wanted)
        self.assertIn("4 there already", self.load(new, "--from", old).stdout)

    @needs("numpy")
    def test_voids_are_filled_as_tiles_come(self):
        """From files and from another store, with the heights that they get in place; run again it finds them there."""
        files, old = self.folder / "files", self.store(11)
        files.mkdir()
        for name, data in hills(11, 2, 2).items():
            write(files, name, 5, data)
        for store, words in (("one", ["files"]), ("other", ["--from", old])):
            for told in ("4 imported; 1 voids filled", "4 there already"):
                done = self.load(store, *words, "--fill-voids", "9")
                self.assertEqual((done.returncode, told in done.stdout), (0, True), done)
        self.assertEqual(self.command("hydrology", old, "voids", "filled.geojson").returncode, 0)
        wanted = self.exports(old)
        self.assertEqual([self.exports(self.folder / name) for name in ("one", "other")], [wanted, wanted])
        self.assertNotEqual(wanted, hills(11, 2, 2))

    @staticmethod
    def image(session):
        return {name: session.export(name) for name in session.tiles()}, session.sinks()

    def test_voids_are_counted(self):
        """A line a tile, those that are left too, a sum, and again in mosaic-info."""
        data = bytearray(hills(SIDE, 1, 1)["N00E000"])
        struct.pack_into(">h", data, 0, -32768)  # at the edge, and hills has one inside
        (self.folder / "N00E000.hgt").write_bytes(data)
        (self.folder / "N00E001.hgt").write_bytes(bytes(2 * SIDE**2))
        for store, words, told, left in (
            ("plain", (), ("N00E000: 2 voids\n", "2 imported; 2 voids in all\n"), 2),
            ("filled", ("--fill-voids", "9"), ("N00E000: 1 voids are left\n", "2 imported; 1 voids filled; 1 voids left\n"), 1),
        ):
            done = self.load(store, "N00E000.hgt", "N00E001.hgt", *words)
            self.assertEqual((done.returncode, done.stderr, [word in done.stdout for word in told]), (0, "", [True, True]), done.stdout)
            self.assertNotIn("N00E001", done.stdout)
            self.assertIn(f"voids {left} in 1 tiles\n", self.command("info", store).stdout)
        self.assertIn("1 imported; 2 voids in all", self.load("new", "--from", "plain", "--capacity", "9").stdout.replace("2 imported", "1 imported"))

    def test_tars(self):
        tiles = hills(SIDE, 1, 3)
        for number, (name, data) in enumerate(tiles.items()):
            (self.folder / f"{name}.hgt").write_bytes(data)
            with tarfile.open(self.folder / ("plain.tar", "packed.tar.gz", "more.tgz")[number], ("w", "w:gz", "w:gz")[number]) as archive:
                archive.add(self.folder / f"{name}.hgt", f"inside/{name}.hgt")
        (self.folder / "cut.tar.gz").write_bytes((self.folder / "packed.tar.gz").read_bytes()[:60])
        done = self.load("store", "plain.tar", "packed.tar.gz", "more.tgz")
        self.assertEqual((done.returncode, done.stderr, "3 imported" in done.stdout), (0, "", True))
        self.assertEqual(self.exports(self.folder / "store"), tiles)
        done = self.load("store", "plain.tar", "cut.tar.gz")
        self.assertEqual((done.returncode, "cut.tar.gz: failed: not read as a tar" in done.stderr), (1, True), done.stderr)

    @needs("numpy", "rasterio")
    @unittest.skipUnless(shutil.which("gdalwarp"), "gdalwarp isn't installed")
    def test_rasters(self):
        """GeoTIFF of decimetres in degrees, and a COG of another system: each as GDAL makes HGT of it by hand."""
        import numpy
        import rasterio
        from rasterio.transform import from_origin

        side = 121
        rough = numpy.random.default_rng(4).normal(500, 99, (240, 240)).astype("float32")
        rough[5, 7] = -9999
        form = {"driver": "GTiff", "width": 240, "height": 240, "count": 1, "dtype": "float32", "nodata": -9999}
        # Its cells lie half a cell off the samples, as those of Copernicus do, and it reaches into eight tiles around.
        with rasterio.open(self.folder / "degrees.tif", "w", crs="EPSG:4326", transform=from_origin(-1 / 240, 1 + 1 / 240, 1 / 120, 1 / 120), **form) as file:
            file.write(rough, 1)
        with rasterio.open(self.folder / "utm.tif", "w", crs="EPSG:32631", transform=from_origin(200_000, 150_000, 900, 900), **form) as file:
            file.write(rough, 1)
        subprocess.run(["gdal_translate", "-q", "-of", "COG", "utm.tif", "cog.tif"], cwd=self.folder, check=True)
        for name, corner in (("degrees", Corner(0, 0)), ("cog", Corner(0, 1))):
            done = self.load(name, f"{name}.tif", "--side", str(side), "--no-step")
            self.assertEqual((done.returncode, done.stderr), (0, ""))
            with open_store(self.folder / name, PROGRAM) as store:
                self.assertEqual(store.export(corner.name), self.by_hand(f"{name}.tif", corner, side))
        self.assertEqual(sorted(self.exports(self.folder / "degrees")), ["N00E000", "N00E001", "S01E000", "S01E001"])
        rough[:, :130] = -9999
        with rasterio.open(self.folder / "half.tif", "w", crs="EPSG:4326", transform=from_origin(0, 1, 1 / 120, 1 / 120), **form) as file:
            file.write(rough, 1)
        done = self.load("half", "half.tif", "--side", str(side), "--no-step")
        self.assertIn("half.tif: passed by: N00E000 would be void throughout\n", done.stderr)
        self.assertEqual(sorted(self.exports(self.folder / "half")), ["N00E001", "S01E001"])

    def by_hand(self, name, corner, side):
        """The HGT bytes of a tile, as docs/using.md makes them of a raster."""
        half = 0.5 / (side - 1)
        box = [corner.longitude - half, corner.latitude - half, corner.longitude + 1 + half, corner.latitude + 1 + half]
        words = ["-q", "-te", *map(repr, box), "-te_srs", "EPSG:4326", "-t_srs", "EPSG:4326", "-ts", str(side), str(side), "-dstnodata", "-32768"]
        subprocess.run(["gdalwarp", *words, "-ot", "Int16", name, "tile.tif"], cwd=self.folder, check=True)
        subprocess.run(["gdal_translate", "-q", "-of", "ENVI", "tile.tif", "tile.raw"], cwd=self.folder, check=True)
        samples = array.array("h", (self.folder / "tile.raw").read_bytes())
        samples.byteswap()
        (self.folder / "tile.tif").unlink()
        return samples.tobytes()

    @needs("numpy", "rasterio")
    def test_troubles_of_rasters(self):
        import numpy
        import rasterio

        (self.folder / "text.tif").write_text("no raster")
        for name, bands, crs in (("picture", 3, "EPSG:4326"), ("nowhere", 1, None)):
            with rasterio.open(self.folder / f"{name}.tif", "w", driver="GTiff", width=2, height=2, count=bands, dtype="uint8", crs=crs) as file:
                file.write(numpy.zeros((bands, 2, 2), "uint8"))
        (self.folder / "N00E000.hgt").write_bytes(hills(SIDE, 1, 1)["N00E000"])
        done = self.load("store", "text.tif", "picture.tif", "nowhere.tif", "N00E000.hgt")
        self.assertEqual(done.returncode, 1)
        for told in ("text.tif: failed: not read as a raster", "picture.tif: failed: 3 bands", "nowhere.tif: failed: it names no coordinate system"):
            self.assertIn(told, done.stderr)

    def test_bad_input(self):
        store = str(self.folder / "made")
        empty = self.folder / "empty"
        empty.mkdir()
        there = self.store(SIDE)
        self.refused(self.load(store, "nowhere"), "no such file or folder")
        self.refused(self.load(store, str(empty)), "nothing to load")
        self.refused(self.load(store), "needed", status=2)
        (empty / "N40W109.zip").write_bytes(b"PK\3\4 cut short")
        self.refused(self.load(store, str(empty)), "N40W109.zip: not read as a zip", "fetch it again")
        (empty / "N00E000.hgt").write_bytes(b"ab")
        self.refused(self.load(store, str(empty)), "nothing to make a store of")
        self.refused(self.load(store, "--from", str(self.folder / "none")), "no such file")
        self.refused(self.load(there, "--from", there), "another store")
        self.refused(self.load(store, "--from", there, "--capacity", "2"), "has 4 tiles")
        self.refused(self.load(store, "--from", there, "--side", "7"), "tiles keep theirs")
        self.refused(self.load(there, str(empty), "--side", "7"), "its side is 5, not 7")
        self.refused(self.load(str(empty), str(empty)), "no regular file")
        self.refused(self.load(store, str(empty), "--side", "2", "--capacity", "1"), "32 BadSide", "from 3 to 3601")
        self.refused(self.load(store, str(empty), "--side", "5", "--capacity", "0"), "33 BadCapacity")
        self.refused(self.load(store, str(empty), "--fill-voids", "0"), "1 point and more")
        self.assertFalse(pathlib.Path(store).exists())
        with open_store(there, PROGRAM) as session:
            self.refused(self.load(there, str(empty)), "another program has it open")
            self.refused(self.load(store, "--from", there), "another program has it open")
            self.assertEqual(session.count(), 4)


if __name__ == "__main__":
    unittest.main()
