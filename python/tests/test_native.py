"""The library in this process beside the program's own answers. Left out where the library isn't built."""

import subprocess
import unittest

from mosaic_store import BadArgument, Corner, Window, errors, find_server, open_store
from mosaic_store.native import Image, LibraryNotFound, load_library, open_image

from .support import IS_REAL, PROGRAM, InFolder, needs

SIDE = 11


def _is_there() -> bool:
    try:
        load_library()
    except LibraryNotFound:
        return False
    return IS_REAL


class Asked:
    """In place of the library: answers nothing, and notes what it is asked."""

    def __init__(self):
        self.names = []

    def __getattr__(self, name):
        return lambda *_: self.names.append(name) or 0


@needs("numpy")
class Numbers(InFolder):
    def test_what_the_library_would_take_for_another_number(self):
        path, library, inside = self.folder / "any", Asked(), Window(0, 0, 1, 1)
        path.touch()
        with Image(path, library) as image:
            for ask, *arguments in (
                (image.fill, 2**32, 0),
                (image.fill, 0, 1.5),
                (image.direction, 0, -(2**31) - 1),
                (image.watershed, 0, 2**31, inside),
                (image.watershed, 0, 0, Window(1, 0, 0, 0)),
                (image.levels, Window(2**32, 0, 2**32, 0)),
                (image.heights, Window(-(2**32), 0, 0, 0)),
                (image.directions, Window(0, 5, 0, 4)),
                (image.tile_levels, Corner(2**16, 0)),
            ):
                with self.subTest(arguments), self.assertRaises(BadArgument):
                    ask(*arguments)
        self.assertEqual(library.names, ["mosaic_open", "mosaic_close"])

    def test_what_is_no_file(self):
        for path in (self.folder, self.folder / "none"):
            with self.subTest(path), self.assertRaises(errors.CannotOpen):
                Image(path, Asked())


@needs("numpy")
@unittest.skipUnless(_is_there(), "libmosaic, or the program, isn't there")
class Native(InFolder):
    def setUp(self):
        super().setUp()
        self.path = self.store(SIDE)
        with open_store(self.path, PROGRAM) as store:
            store.sink(7, 6)

    def asked(self, window):
        """Heights, levels and directions of a window by lines."""
        with open_store(self.path, PROGRAM) as store:
            for y in range(window.y1, window.y0 - 1, -1):
                for x in range(window.x0, window.x1 + 1):
                    try:
                        yield store.elevation(y, x), store.fill(y, x), int(store.direction(y, x))
                    except (errors.Outside, errors.Void):
                        yield -32768, -32768, 255

    def test_as_by_lines(self):
        window, tile = Window(-2, -1, 21, 22), Window(0, 0, SIDE - 1, SIDE - 1)
        wanted = [list(column) for column in zip(*self.asked(window), strict=True)]
        with open_image(self.path) as image:
            self.assertEqual((image.side, image.count), (SIDE, 5))
            found = image.heights(window), image.levels(window), image.directions(window)
            self.assertEqual([array.ravel().tolist() for array in found], wanted)
            self.assertEqual(image.tile_levels("N00E000").tolist(), image.levels(tile).tolist())
            self.assertEqual(image.tile_directions("N00E000").tolist(), image.directions(tile).tolist())
            self.assertEqual((image.fill(3, 3), image.direction(3, 3)), (int(found[1][18, 4]), int(found[2][18, 4])))

    def test_upstream_counts(self):
        for name in ("N00E000", "N01E001"):
            with open_store(self.path, PROGRAM) as store:
                wanted = store.upstream(name)
            with open_image(self.path) as image:
                found = image.upstream(name)
            self.assertEqual((found.dtype, found.tolist()), (wanted.dtype, wanted.tolist()))

    def test_upstream_counts_of_a_window(self):
        window, wanted = Window(-2, -1, 21, 22), {}
        with open_image(self.path) as image:
            for north in range(2):
                for east in range(2):
                    counts = image.upstream(Corner(north, east)).tolist()
                    y, x = (north + 1) * (SIDE - 1), east * (SIDE - 1)
                    wanted.update({(y - i, x + j): counts[i][j] for i in range(SIDE) for j in range(SIDE)})
            found = image.upstream_window(window)
            told = {(window.y1 - i, window.x0 + j): count for i, row in enumerate(found.tolist()) for j, count in enumerate(row)}
            self.assertEqual((str(found.dtype), told), ("uint32", {point: wanted.get(point, 0) for point in told}))
            self.assertEqual(image.upstream_window(Window(2, 3, 4, 7)).tolist(), found[17:20, 4:9].tolist())
            with self.assertRaises(errors.BadBox):
                image.upstream_window(Window(-(2**31) - 1, 0, -(2**31), 0))

    def test_watersheds(self):
        window = Window(-2, -1, 21, 22)
        for y, x in ((7, 6), (3, 3), (0, 10)):
            with open_store(self.path, PROGRAM) as store:
                wanted = store.watershed(y, x)
            with open_image(self.path) as image:
                marks, points = image.watershed(y, x, window)
            self.assertEqual((str(marks.dtype), points), ("uint8", wanted.cells))
            marked = {(window.y1 - row, window.x0 + column) for row, column in zip(*marks.nonzero(), strict=True)}
            self.assertEqual(marked, set(wanted.points()))
            self.assertEqual(int(marks.max()), 1)

    def test_lines(self):
        server = find_server(PROGRAM)
        lines = ["fill 3 3", "elev 9 99", "trace 3 3", "dir -5 -5", "watershed 7 6", "export N00E000", "tiles", "sinks", "count"]
        lines += ["levels N00E000", "upstream N01E001", "info"] if server != PROGRAM else []
        with subprocess.Popen([server, "serve", self.path], stdin=subprocess.PIPE, stdout=subprocess.PIPE) as program:
            wanted, _ = program.communicate("".join(f"{line}\n" for line in lines).encode())
        with open_image(self.path) as image:
            self.assertEqual(b"".join(map(image.ask, lines)), wanted)
            for line in ("burn 1 3 3", "step", "quit", "import N00E000 242", "fill 3"):
                with self.assertRaises(errors.BadLine):
                    image.ask(line)
            with self.assertRaises(errors.BadName):
                image.ask("levels N0")
            self.assertEqual(image.count, 5)

    def test_what_is_refused(self):
        with open_image(self.path) as image:
            with self.assertRaises(errors.NoTile):
                image.tile_levels("S45W045")
            with self.assertRaises(errors.Outside):
                image.fill(-5, -5)
            with self.assertRaises(errors.BadBox):
                image.levels(Window(-(2**31) - 1, 0, -(2**31), 0))
        with self.assertRaises(errors.Failed):
            _ = image.side

    def test_images_that_are_no_stores(self):
        for bytes_, refusal in ((b"", errors.NotAStore), (bytes(1 << 16), errors.NotAStore)):
            other = self.folder / "other"
            other.write_bytes(bytes_)
            with self.assertRaises(refusal):
                open_image(other)

    def test_the_lock(self):
        with open_image(self.path), open_image(self.path), self.assertRaises(errors.StoreBusy):
            open_store(self.path, PROGRAM).close()
