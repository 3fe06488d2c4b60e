"""The map in the browser: drawn lines, pictures, the web server's refusals, and trials, over a table in memory."""

from __future__ import annotations

import contextlib
import http.client
import json
import math
import os
import signal
import socket
import tempfile
import threading
import time
import unittest
import unittest.mock
import zlib
from collections.abc import Callable, Iterator
from typing import Any, NamedTuple

from mosaic_store.errors import ProgramNotFound
from mosaic_store.ellipsoid import cell_area
from mosaic_store.lattice import VOID, Point
from mosaic_store.questions import Elevation, Fill
from mosaic_store.opening import open_place
from mosaic_store.session import Session, memory_table, open_store
from mosaic_store.stores import find_program, format_store
from mosaic_store import lines

from .support import A_WHILE, PROGRAM, InFolder, hills, needs

try:
    import numpy as np

    from mosaic_store.view import pictures
    from mosaic_store.view.edits import Edit
    from mosaic_store.view.region import Grid, Region
    from mosaic_store.view.server import MapServer
    from mosaic_store.view.requests import edit_in
    from mosaic_store.view.water import changed_water
    from mosaic_store.view.workbench import Workbench
except ImportError:
    np = None  # type: ignore[assignment]

SIDE = 41


def has_program() -> bool:
    try:
        find_program()
    except ProgramNotFound:
        return False
    return True


def valley() -> list[bytes]:
    """Two tiles side by side: a valley that falls to the east along y = 20, and a void at y = 2, x = 2."""
    tiles = []
    for west in (0, SIDE - 1):
        ys, xs = np.mgrid[SIDE - 1 : -1 : -1, west : west + SIDE]
        heights = 200 - xs + 5 * np.abs(ys - 20)
        tiles.append(np.where((ys == 2) & (xs == 2), VOID, heights).astype(">i2").tobytes())
    return tiles


class Lines(unittest.TestCase):
    def test_a_line_has_no_gap_that_water_passes(self) -> None:
        for end in [(0, 0), (0, 7), (-5, 0), (3, 5), (-4, 9), (6, -6)]:
            with self.subTest(end=end):
                points = lines.points_along([Point(0, 0), Point(*end)])
                self.assertEqual((points[0], points[-1]), ((0, 0), end))
                steps = {abs(b.y - a.y) + abs(b.x - a.x) for a, b in zip(points, points[1:])}
                self.assertLessEqual(steps, {1})

    def test_each_point_of_a_line_is_named_once(self) -> None:
        points = lines.points_along([Point(0, 0), Point(0, 4), Point(0, 0), Point(3, 0)])
        self.assertEqual(len(points), len(set(points)))

    def test_commands_name_at_most_64_points(self) -> None:
        parts = list(lines.commands(lines.points_along([Point(0, 0), Point(0, 150)])))
        self.assertEqual([len(part) for part in parts], [64, 64, 23])


@unittest.skipIf(np is None, "numpy isn't installed: apt-get install python3-numpy")
class Pictures(unittest.TestCase):
    def test_a_png_says_its_pixels(self) -> None:
        colours = np.zeros((2, 3, 4), np.uint8)
        colours[1, 2] = (9, 8, 7, 255)
        data = pictures.png(colours)
        self.assertEqual(data[:8], b"\x89PNG\r\n\x1a\n")
        rows = zlib.decompress(data[data.index(b"IDAT") + 4 : data.index(b"IEND") - 8])
        self.assertEqual(rows, bytes(13) + bytes(9) + bytes((9, 8, 7, 255)))

    def test_heights_follow_the_seam_rule(self) -> None:
        tiles = {
            "N00E000": np.array([[1, 2, VOID], [4, 5, 6], [7, 8, 9]], ">i2").tobytes(),
            "N00E001": np.array([[30, 31, 32], [33, 34, 35], [36, 37, 38]], ">i2").tobytes(),
        }
        region = Region(3, tiles, tiles.__getitem__)
        heights, held = region.heights(Grid(2, 1, 3, 5, 1))
        self.assertEqual(heights.tolist(), [[2, 30, 31, 32, VOID], [5, 6, 34, 35, VOID], [8, 9, 37, 38, VOID]])
        self.assertEqual(held[0].tolist(), [True, True, True, True, False])


    def test_a_tile_that_is_edited_while_it_is_read(self) -> None:
        """What was read of it then isn't cached."""
        tile = np.arange(9, dtype=">i2")

        def export(name: str) -> bytes:
            data = tile.tobytes()
            if not tile[0]:
                tile[0] = 5
                region.forget(region.corners)
            return data

        region = Region(3, ["N00E000"], export)
        (corner,) = region.corners
        self.assertEqual([int(region.tile(corner)[0, 0]) for _ in range(2)], [0, 5])
        self.assertEqual(int(region.overview(corner)[0, 0]), 5)


def edit(kind: str, amount: int, line: list[list[int]]) -> dict[str, Any]:
    return {"kind": kind, "amount": amount, "line": line}


def trial(kind: str, amount: int, line: list[list[int]]) -> dict[str, Any]:
    """What a page sends to try one edit."""
    return {"edits": [edit(kind, amount, line)]}


WALL = trial("wall", 190, [[10, 40], [30, 40]])


def rough_edits() -> list[list[Edit]]:
    """Edits of the ground that `hills` has: its lake at y and x from 10 to 19, and its void at y 3, x 2."""
    rows = [
        [("wall", 300, [[9, 9], [9, 21]])],
        [("burn", 90, [[14, 14], [14, 0]])],
        [("wall", 700, [[30, 5], [30, 70]]), ("burn", 400, [[25, 40], [35, 40]])],
        [("sink", 0, [[15, 15]]), ("patch", 900, [[0, 0], [5, 5]])],
        [("burn", 30, [[60, 60]])],
    ]
    return [[edit_in(edit(*each)) for each in row] for row in rows]


def total_water(session: Session) -> tuple[int, float]:
    """The points under water of a whole mosaic, each once, and the volume in cubic metres."""
    places = [Point(y, x) for y in range(2 * SIDE - 1) for x in range(2 * SIDE - 1)]
    heights = session.ask_many(Elevation(*place) for place in places)
    ground = [(place, height) for place, height in zip(places, heights) if height is not None]
    levels = session.ask_many(Fill(*place) for place, _ in ground)
    depths = [(place.y, level - height) for (place, height), level in zip(ground, levels)]
    return sum(depth > 0 for _, depth in depths), sum(depth * cell_area(y, SIDE) for y, depth in depths)


def ask_for_ever(store: Session, asked: threading.Event, ended: threading.Event) -> None:
    """Asks a store until it is interrupted."""
    try:
        while True:
            store.fill(20, 39)
            asked.set()
    finally:
        ended.set()


@contextlib.contextmanager
def serving(bench: Workbench) -> Iterator[MapServer]:
    """The map of a workbench, while it is up."""
    with contextlib.closing(bench), MapServer(bench) as server:
        threading.Thread(target=server.serve_forever, daemon=True).start()
        try:
            yield server
        finally:
            server.shutdown()


class Request(NamedTuple):
    """A request, the status that is due, and words of the answer."""

    method: str
    path: str
    words: Any
    status: int
    has: str
    headers: dict[str, str] = {}


@unittest.skipIf(np is None, "numpy isn't installed: apt-get install python3-numpy")
@unittest.skipUnless(has_program(), "the program mosaic isn't built: tools/program builds it")
class WithMap(unittest.TestCase):
    """A test with the map of two tiles in memory."""

    def setUp(self) -> None:
        self.session = self.enterContext(memory_table(SIDE, 4))
        for name, data in zip(("N00E000", "N00E001"), valley()):
            self.session.import_tile(name, data)
        self.bench = Workbench("valley", self.session, lambda: memory_table(SIDE, 4))
        self.server = self.enterContext(serving(self.bench))

    def request(self, method: str, path: str, words: Any = None, headers: dict[str, str] | None = None) -> tuple[int, bytes]:
        connection = http.client.HTTPConnection("127.0.0.1", self.server.server_port, timeout=A_WHILE)
        own = {"Content-Type": "application/json", "X-Mosaic": self.server.token, **(headers or {})}
        body = words if words is None or isinstance(words, bytes) else json.dumps(words).encode()
        connection.request(method, path.replace("TOKEN", self.server.token), body, own)
        answer = connection.getresponse()
        status, told = answer.status, answer.read()
        connection.close()
        return status, told

    def state(self) -> str:
        return json.loads(self.request("GET", "/TOKEN/state")[1])

    def region(self) -> dict[str, Any]:
        return json.loads(self.request("GET", "/TOKEN/region")[1])

    def image(self) -> tuple[list[bytes], list[Point]]:
        """All that the store has."""
        return [self.session.export(name) for name in self.session.tiles()], self.session.sinks()

    def wait_for(self, is_so: Callable[[], bool]) -> None:
        end = time.monotonic() + A_WHILE
        while not is_so():
            self.assertLess(time.monotonic(), end)
            time.sleep(0.01)

    def copy(self) -> None:
        """Has the store copied, as the page does before a trial."""
        while not self.post("copy", {})["whole"]:
            pass

    def post(self, path: str, words: Any) -> dict[str, Any]:
        status, told = self.request("POST", f"/TOKEN/{path}", words)
        self.assertEqual(status, 200, told)
        return json.loads(told)


class Served(WithMap):
    def test_requests_of_others_and_bad_ones_are_refused(self) -> None:
        rows = [
            Request("GET", "/", None, 404, "nothing"),
            Request("GET", "/guess/region", None, 404, "nothing"),
            Request("GET", "/TOKEN/../../etc/passwd", None, 404, "nothing"),
            Request("GET", "/TOKEN/region", None, 403, "127.0.0.1 alone", {"Host": "elsewhere.example"}),
            Request("POST", "/TOKEN/keep", {}, 403, "page's own", {"X-Mosaic": "guess"}),
            Request("POST", "/TOKEN/keep", b"kind=wall", 400, "JSON", {"Content-Type": "text/plain"}),
            Request("POST", "/TOKEN/ask", b"[" * 60000, 400, "one JSON object"),
            Request("POST", "/TOKEN/ask", b"x", 400, "at most", {"Content-Length": "5000000"}),
            Request("POST", "/TOKEN/ask", {"y": "0", "x": 0}, 400, "whole numbers"),
            Request("POST", "/TOKEN/ask", {"y": 10**12, "x": 0}, 400, "whole numbers"),
            Request("POST", "/TOKEN/ask", {"y": -900, "x": 0}, 400, "no tile"),
            Request("POST", "/TOKEN/try", {"edits": []}, 400, "1 to 200 edits"),
            Request("POST", "/TOKEN/try", trial("flood", 1, [[1, 1]]), 400, "wall"),
            Request("POST", "/TOKEN/try", trial("burn", 0, [[1, 1]]), 400, "metres"),
            Request("POST", "/TOKEN/try", trial("wall", True, [[1, 1]]), 400, "metres"),
            Request("POST", "/TOKEN/try", trial("wall", 9, []), 400, "corners"),
            Request("POST", "/TOKEN/try", trial("patch", 9, [[0, 0]]), 400, "2"),
            Request("POST", "/TOKEN/try", trial("wall", 9, [[0, 0], [0, 99999]]), 400, "points"),
            Request("POST", "/TOKEN/try", trial("wall", 9, [[0, 0], [0, 99]]), 400, "leaves the tiles"),
            Request("POST", "/TOKEN/try", {**trial("wall", 9, [[0, 0]]), "state": "1-1"}, 400, "another page"),
            Request("POST", "/TOKEN/place", {"text": "here"}, 400, "no place"),
            Request("POST", "/TOKEN/file", {"text": "{", "kind": "ask"}, 400, "GeoJSON"),
            Request("POST", "/TOKEN/keep", {}, 400, "no trial"),
            Request("POST", "/TOKEN/undo", {}, 400, "no edit"),
            Request("POST", "/TOKEN/watershed", {"y": 20, "x": 80, "snap": 51}, 400, "0 to 50"),
            Request("POST", "/TOKEN/geojson", {"y": 20, "x": 80, "what": "store"}, 400, "watershed"),
            Request("POST", "/TOKEN/geojson", {"y": 2, "x": 2, "what": "path"}, 409, "no height"),
            Request("POST", "/TOKEN/streams", {"window": [0, 0, 9, 9], "threshold": 0}, 400, "1 point"),
            Request("POST", "/TOKEN/streams", {"window": [0, 0, 9], "threshold": 9}, 400, "a window"),
            Request("POST", "/TOKEN/streams", {"window": [900, 900, 999, 999], "threshold": 9}, 400, "no tile"),
            Request("POST", "/TOKEN/raster", {"window": [0, 0, 9, 9], "what": "store"}, 400, "a raster has"),
            Request("POST", "/TOKEN/nothing", {}, 404, "nothing"),
            Request("GET", "/TOKEN/relief/99/0/0.png", None, 400, "no picture"),
        ]
        for row in rows:
            with self.subTest(row=row):
                status, told = self.request(row.method, row.path, row.words, row.headers)
                self.assertEqual((status, row.has in told.decode()), (row.status, True), told)
        self.assertEqual(self.session.count(), 2)

    def test_the_page_and_its_pictures_are_served(self) -> None:
        rows = [
            ("", b"<!doctype html>"),
            ("map.js", b'"use strict"'),
            ("panel.js", b'"use strict"'),
            ("style.css", b":root"),
            ("relief/0/0/0.png", b"\x89PNG"),
            ("store/0/0/0.png", b"\x89PNG"),
        ]
        for path, begins in rows:
            with self.subTest(path=path):
                status, told = self.request("GET", f"/TOKEN/{path}")
                self.assertEqual((status, told[: len(begins)]), (200, begins))

    def test_a_point_tells_height_level_and_path(self) -> None:
        told = self.post("ask", {"y": 25, "x": 10})
        store = told["store"]
        self.assertEqual((store["height"], store["level"], store["path"][-1], told["trial"]), (215, 215, [20, 80], None))
        self.assertIsNone(self.post("ask", {"y": 2, "x": 2})["store"]["height"])

    def test_a_watershed_has_its_points(self) -> None:
        told = self.post("watershed", {"y": 20, "x": 80})["store"]
        found = self.session.watershed(20, 80)
        self.assertEqual((told["cells"], told["box"]["left"]), (found.cells, 0))
        area = math.fsum(cell_area(y, SIDE) for y, _ in found.points()) / 1e6
        self.assertAlmostEqual(told["km2"], area)

    def test_an_outlet_is_moved_to_the_stream(self) -> None:
        """The valley's stream runs along y = 20: of the points within 3 steps of (22, 60) most drain to (20, 63)."""
        told = self.post("watershed", {"y": 22, "x": 60, "snap": 3})
        self.assertEqual((told["y"], told["x"], told["store"]["cells"]), (20, 63, self.session.watershed(20, 63).cells))

    def test_a_watershed_and_a_path_are_saved(self) -> None:
        area = self.post("geojson", {"y": 20, "x": 80, "what": "watershed"})["features"][0]
        self.assertEqual((area["geometry"]["type"], area["properties"]["cells"]), ("MultiPolygon", self.session.watershed(20, 80).cells))
        path = self.post("geojson", {"y": 25, "x": 10, "what": "path"})["features"][0]
        self.assertEqual((path["geometry"]["coordinates"][0], path["geometry"]["coordinates"][-1]), ([0.25, 0.625], [2.0, 0.5]))

    def test_kept_edits_are_undone_the_last_first(self) -> None:
        """Roads, culverts, sinks, and voids that got a height; the copy has them undone too."""
        self.copy()
        self.session.sink(20, 35)
        trials = [
            WALL,
            {"edits": [edit("wall", 170, [[15, 60], [25, 60]]), edit("burn", 5, [[20, 30], [20, 70]])]},
            {"edits": [edit("patch", 199, [[0, 0], [3, 3]]), edit("sink", 0, [[20, 60]]), edit("unsink", 0, [[20, 35]])]},
        ]
        images = []
        self.post("drop", {})
        self.copy()
        for each in trials:
            images.append(self.image())
            self.post("try", each)
            self.post("keep", {})
            self.assertNotEqual(self.image(), images[-1])
        self.assertEqual(self.region()["kept"], [each["edits"] for each in trials])
        self.post("try", WALL)
        self.assertEqual(self.request("POST", "/TOKEN/undo", {})[0], 400)  # a trial is under way
        self.post("discard", {})
        for image in reversed(images):
            self.post("undo", {})
            self.assertEqual(self.image(), image)
        self.assertEqual(self.post("try", WALL)["levels"], [[160, 190]])
        self.assertEqual(self.region()["kept"], [])

    def test_a_trial_reaches_the_store_only_when_it_is_kept(self) -> None:
        self.copy()
        told = self.post("try", WALL)
        self.assertEqual((told["before"]["points"], told["levels"]), (0, [[160, 190]]))
        self.assertGreater(told["change"]["points"], 100)
        self.assertEqual((self.session.count(), self.session.fill(20, 39)), (2, 161))
        region = self.region()  # what a page that is loaded anew is told
        self.assertEqual((region["trial"]["edits"], region["trial"]["levels"]), (WALL["edits"], [[160, 190]]))
        self.post("discard", {})
        self.assertIsNone(self.region()["trial"])
        self.post("try", WALL)
        self.assertEqual(self.post("keep", {})["count"], 3)
        self.assertEqual(self.session.fill(20, 39), 190)

    def test_a_road_and_its_culvert_are_tried_together(self) -> None:
        """The road dams the valley at 190 m; a culvert through it, 1 m below the stream, lets all of it off. Another try takes
        the place of the first. What a point is asked meanwhile is told of the trial, too."""
        self.copy()
        culvert = edit("burn", 1, [[20, 40]])
        self.assertGreater(self.post("try", WALL)["change"]["volume"], 0)
        dammed = self.post("watershed", {"y": 20, "x": 80})
        self.assertEqual(dammed["store"]["cells"], self.session.watershed(20, 80).cells)
        point = self.post("ask", {"y": 20, "x": 39})
        self.assertEqual((point["store"]["level"], point["trial"]["level"]), (161, 190))
        both = self.post("try", {"edits": [*WALL["edits"], edit("burn", 31, [[20, 40]])]})
        self.assertEqual((both["levels"], both["change"]["points"], both["change"]["volume"]), ([[160, 159], [160, 159]], 0, 0))
        self.assertEqual(self.post("ask", {"y": 20, "x": 39})["trial"]["level"], 161)
        self.assertEqual(self.post("try", {"edits": [culvert, *WALL["edits"]]})["levels"], [[160, 190], [160, 190]])

    def test_the_water_that_edits_change_is_followed_to_its_end(self) -> None:
        """As it comes out of all points of rough ground; also where the first window is a part of it."""
        names = [name for name in hills(SIDE, 2, 2)]
        with memory_table(SIDE, 4) as store, memory_table(SIDE, 4) as copy:
            for session in (store, copy):
                for name, data in hills(SIDE, 2, 2).items():
                    session.import_tile(name, data)
            region, before = Region(SIDE, names, store.export), total_water(store)
            for edits in rough_edits():
                with copy.trial():
                    for each in edits:
                        each.make(copy)
                    after = total_water(copy)
                    for around in (2, 64):
                        with self.subTest(edits=edits, around=around), unittest.mock.patch("mosaic_store.view.water.AROUND", around):
                            found = changed_water(store, copy, region, edits)
                            was, now = found.before.figures(), found.after.figures()
                            self.assertTrue(found.is_whole)
                            self.assertEqual(now["points"] - was["points"], after[0] - before[0])
                            self.assertAlmostEqual(now["volume"] - was["volume"], after[1] - before[1], -1)

    def test_pages_see_what_another_one_does(self) -> None:
        """Each answer names the state, which another page has changed: what this one presses is refused until it has looked."""
        self.copy()
        states = [self.state()]
        for path, words in (("try", WALL), ("discard", {}), ("try", WALL), ("keep", {}), ("undo", {})):
            self.assertEqual(self.request("POST", f"/TOKEN/{path}", {**words, "state": "old"})[0], 400)
            self.post(path, {**words, "state": states[-1]})
            states.append(self.state())
        self.assertEqual(len(set(states)), len(states))
        self.assertEqual(self.region()["state"], states[-1])

    def test_tiles_are_flooded_in_the_background(self) -> None:
        """After a trial was kept, and after it was undone, no tile stays stale."""
        if not self.session.takes_whole_tiles:
            self.skipTest("mosaic-tiles, which tells what is stale, isn't beside the program")
        self.copy()
        for path in ("keep", "undo"):
            if path == "keep":
                self.post("try", WALL)
            self.post(path, {})
            self.wait_for(lambda: self.session.info().stale == 0)

    def test_a_question_ends_where_its_page_leaves(self) -> None:
        """The program of a store is begun anew, nothing is asked twice, and others are answered."""
        with tempfile.TemporaryDirectory() as folder:
            path = os.path.join(folder, "store")
            format_store(path, SIDE, 4)
            with open_store(path, restart=True) as store:
                for name, data in zip(("N00E000", "N00E001"), valley()):
                    store.import_tile(name, data)
                asked, ended, pid = threading.Event(), threading.Event(), store.pid
                with serving(Workbench("valley", store, lambda: memory_table(SIDE, 4))) as server:
                    server.workbench.ask = lambda point: ask_for_ever(store, asked, ended)  # type: ignore[assignment]
                    page = http.client.HTTPConnection("127.0.0.1", server.server_port, timeout=A_WHILE)
                    page.request("POST", f"/{server.token}/ask", b'{"y": 20, "x": 39}', {"Content-Type": "application/json", "X-Mosaic": server.token})
                    asked.wait(A_WHILE)
                    page.close()
                    self.assertTrue(ended.wait(A_WHILE))
                    self.assertEqual(store.fill(20, 39), 161)
                    self.assertNotEqual(store.pid, pid)

    def test_lines_of_a_file(self) -> None:
        """Raised to a feature's height, lowered by its depth, else as the page's tool has it; points are sinks."""
        line = {"type": "LineString", "coordinates": [[1.0, 0.25], [1.0, 0.75]]}
        point = {"type": "Point", "coordinates": [1.5, 0.5]}
        features = [
            {"type": "Feature", "properties": {"height": 190.0}, "geometry": line},
            {"type": "Feature", "properties": {"depth": 3}, "geometry": {"type": "MultiLineString", "coordinates": [line["coordinates"]]}},
            {"type": "Feature", "properties": None, "geometry": line},
            {"type": "Feature", "properties": {}, "geometry": point},
            {"type": "Feature", "properties": {}, "geometry": {"type": "Polygon", "coordinates": []}},
        ]
        text = json.dumps({"type": "FeatureCollection", "features": features})
        told = self.post("file", {"text": text, "kind": "burn", "amount": 2})
        corners = [[10, 40], [30, 40]]
        wanted = [edit("wall", 190, corners), edit("burn", 3, corners), edit("burn", 2, corners), edit("sink", 0, [[20, 60]])]
        self.assertEqual(told["edits"], wanted)
        status, said = self.request("POST", "/TOKEN/file", {"text": text, "kind": "ask"})
        self.assertEqual((status, b"feature 3" in said and b"neither" in said), (400, True), said)

    def test_an_edit_on_a_seam_that_disagrees_is_undone(self) -> None:
        """Each tile gets its own sample back, also where no wall or burn could give both; the copy follows."""
        self.session.remove("N00E001")
        self.session.import_tile("N00E001", bytes(2 * SIDE * SIDE))
        wall = edit_in(edit("wall", 300, [[20, SIDE - 1]]))
        before = self.image()
        with contextlib.closing(Workbench("valley", self.session, lambda: memory_table(SIDE, 4))) as bench:
            for _ in range(2):
                while not bench.copy()["whole"]:
                    pass
                bench.try_edits([wall])
                bench.keep()
                self.assertNotEqual(self.image(), before)
                bench.undo()
                self.assertEqual(self.image(), before)

    def test_the_store_is_copied_before_a_trial(self) -> None:
        """A tile after another, so that others are answered; abandoned, the copy is gone; where its program ends, it is made anew."""
        size = 2 * 2 * SIDE * SIDE
        self.assertEqual(self.region()["copy"], {"done": 0, "total": 2, "bytes": size, "whole": False})
        status, told = self.request("POST", "/TOKEN/try", WALL)
        self.assertEqual((status, b"isn't copied" in told), (400, True))
        with unittest.mock.patch("mosaic_store.view.copies.SECONDS_AT_ONCE", 1e-9):
            for done, is_whole in ((1, False), (2, False), (2, False), (2, False), (2, True)):  # then each is flooded
                self.assertEqual(self.post("copy", {}), {"done": done, "total": 2, "bytes": size, "whole": is_whole})
                self.assertEqual(self.request("POST", "/TOKEN/try", WALL)[0], 200 if is_whole else 400)
        self.assertEqual(self.request("POST", "/TOKEN/drop", {})[0], 400)  # a trial is under way
        os.kill(self.bench._copy.session.pid, signal.SIGKILL)
        self.post("discard", {})
        self.assertEqual(self.post("drop", {})["done"], 0)
        self.copy()
        self.post("try", WALL)
        os.kill(self.bench._copy.session.pid, signal.SIGKILL)
        status, told = self.request("POST", "/TOKEN/try", WALL)
        self.assertEqual((status, b"try again" in told), (400, True))
        self.copy()
        self.assertEqual(self.post("try", WALL)["levels"], [[160, 190]])

    def test_the_streams_of_a_window_are_told(self) -> None:
        features = self.post("streams", {"window": [-9, -9, 999, 999], "threshold": 1000})["features"]
        last = max(features, key=lambda feature: feature["properties"]["points"])
        self.assertEqual(last["geometry"]["coordinates"][-1], [2.0, 0.5])
        self.assertEqual(last["properties"]["points"], self.session.watershed(20, 80).cells)

    @needs("rasterio")
    def test_a_window_is_saved_as_a_raster(self) -> None:
        import rasterio.io

        status, told = self.request("POST", "/TOKEN/raster", {"window": [10, 30, 29, 59], "what": "levels"})
        self.assertEqual(status, 200, told)
        with rasterio.io.MemoryFile(told) as memory, memory.open() as file:
            levels = file.read(1)
        self.assertEqual((levels.shape, levels[9, 15]), ((20, 30), self.session.fill(20, 45)))

    def test_a_sink_without_ground_is_no_hindrance(self) -> None:
        """A sink stays declared where its tile is gone, and counts for nothing: the store can be copied, and trials made."""
        self.session.sink(20, 70)
        self.session.remove("N00E001")
        with contextlib.closing(Workbench("valley", self.session, lambda: memory_table(SIDE, 4))) as bench:
            while not bench.copy()["whole"]:
                pass
            told = bench.try_edits([edit_in(edit("wall", 190, [[20, 20]]))])
        self.assertEqual(told["levels"], [(180, 190)])

    def test_a_trial_that_is_refused_leaves_nothing(self) -> None:
        self.copy()
        status, told = self.request("POST", "/TOKEN/try", trial("burn", 5, [[2, 70], [2, 2]]))
        self.assertEqual((status, b"no height" in told), (409, True), told)
        self.assertEqual(self.post("try", trial("burn", 5, [[2, 60]]))["levels"], [[230, 225]])


class Commands(InFolder):
    @needs("numpy")
    @unittest.skipUnless(has_program(), "the program mosaic isn't built: tools/program builds it")
    def test_a_region_is_taken_where_a_store_is(self) -> None:
        """A trial of it reaches its stores when it is kept, and is undone."""
        region = str(self.folder / "region")
        self.assertEqual(self.command("split", region, self.store(), "--square", "1").returncode, 0)
        with open_place(region, PROGRAM) as session, memory_table(11, 4) as whole:
            for name, data in hills(11, 2, 2).items():
                whole.import_tile(name, data)
            with contextlib.closing(Workbench("region", session, lambda: memory_table(11, 4))) as bench:
                while not bench.copy()["whole"]:
                    pass
                before = [session.export(name) for name in session.tiles()]
                wall = edit_in(edit("wall", 600, [[10, 3], [10, 17]]))
                wall.make(whole)
                bench.try_edits([wall])
                self.assertEqual(bench.ask(Point(11, 10))["trial"]["level"], whole.fill(11, 10))
                bench.keep()
                self.assertEqual([session.fill(11, x) for x in range(21)], [whole.fill(11, x) for x in range(21)])
                bench.undo()
                self.assertEqual([session.export(name) for name in session.tiles()], before)

    @needs("numpy")
    def test_a_port_in_use(self) -> None:
        with socket.create_server(("127.0.0.1", 0)) as taken:
            port = str(taken.getsockname()[1])
            self.refused(self.command("view", self.store(), "--port", port), f"port {port} can't be listened at: Address already in use", "--port")


if __name__ == "__main__":
    unittest.main()
