"""The region of examples/culvert: its stages beside the reference, its picture, variants of its road, and a service over its store.
Programs are killed while they work, so that a loaded machine may let them fail."""

import concurrent.futures
import http.client
import json
import os
import re
import signal
import subprocess
import time
import types

from client import Session, point_of
from reference import Region
from running import loaded
from support import A_WHILE, EXAMPLES, Case, list_fonts, needs, output

POINT = re.compile(r"  (\d+) (\d+), .*: height (-?\d+) m, filled level (-?\d+) m")
DRAINED = re.compile(r"  the stream below the road drains (\d+) points")
POND = re.compile(r"  points beside the road where water stands higher than before it: (\d+)")
BURN = re.compile(r"  burn (\d+) (\d+) (\d+) -> OK")
KILLED = re.compile(r"  killed at wall \d+: (\d+) were acknowledged, (\d+) under way or waiting; found the first (\d+)")


class Culvert(Case):
    @classmethod
    def setUpClass(cls):
        super().setUpClass()
        needs("g++", "g++")
        cls.made = cls.folder / "region"
        cls.text = output(EXAMPLES / "culvert", cls.made)
        cls.culvert = loaded(EXAMPLES / "culvert")

    def test_stages(self):
        """The stages beside the reference, which gets tiles edited by hand."""
        culvert, text = self.culvert, self.text
        points = [(int(y), int(x)) for y, x, _, _ in POINT.findall(text)]
        numbers = [(int(height), int(level)) for _, _, height, level in POINT.findall(text)]
        found = [(numbers[at:at + 3], int(cells)) for at, cells in zip(range(0, len(numbers), 3), DRAINED.findall(text))]
        region = self.plain_region()
        south, west, north, east = culvert.VALLEY
        before = region.levels(window := [(y, x) for y in range(south, north + 1) for x in range(west, east + 1)])
        y, first = point_of(culvert.ROAD_LATITUDE, culvert.ROAD_WEST, culvert.SIDE)
        road = [(y, x) for x in range(first, point_of(culvert.ROAD_LATITUDE, culvert.ROAD_EAST, culvert.SIDE)[1] + 1)]
        ground = dict(zip(road, region.answers([f"elev {y} {x}" for y, x in road])))
        # The culvert is at the lowest ground of the road.
        self.assertEqual(points[1], min(road, key=lambda point: int(ground[point].split()[1])))
        ponds = [int(count) for count in POND.findall(text)]
        for stage, changes in enumerate(self.edits(road)):
            for change in changes:
                region.edit(*change)
            self.assertEqual(found[stage], region.heights_and_levels(points[3 * stage:3 * stage + 3]), stage)
            now = region.levels(window)
            self.assertEqual(ponds[stage], sum(now[point] > level for point, level in before.items() if point not in ground), stage)
        self.assertTrue(ponds[3] < ponds[2] < ponds[1], "the culverts leave little of the pond")

    def plain_region(self):
        plain = self.folder / "plain"
        plain.mkdir()
        for tile in self.made.glob("*.hgt"):
            (plain / tile.name).write_bytes(tile.read_bytes())
        return Region(self.tool("reference"), self.culvert.SIDE, plain)

    def edits(self, road):
        """What each stage changes: nothing, the road, each culvert, nothing."""
        raised = [(*point, lambda height: max(height, self.culvert.ROAD_HEIGHT)) for point in road]
        burns = [tuple(map(int, burn)) for burn in BURN.findall(self.text)]
        return [[], raised, *([(y, x, lambda height, depth=depth: height - depth)] for depth, y, x in burns), []]

    def test_kills(self):
        """Three kills interrupted work; one that comes after all is done shows nothing, as a line says."""
        kills = [tuple(map(int, kill)) for kill in KILLED.findall(self.text)]
        self.assertEqual(len(kills), 3)
        self.assertTrue(all(waiting > 0 and found - done in (0, 1) for done, waiting, found in kills), kills)
        late = loaded(EXAMPLES / "culvert")
        late.LEVEE = [(y, late.SIDE - 1) for y in range(300, 303)]
        late.random = types.SimpleNamespace(randint=lambda low, high: 3)
        with self.assertRaises(SystemExit) as caught:
            late.kill_and_look(self.program, self.made / "store", late.LEVEE_HEIGHT + 3)
        self.assertIn("nothing was in progress", str(caught.exception))
        self.refused([EXAMPLES / "culvert", self.folder], "is there already")

    def test_picture(self):
        list_fonts(self.folder)
        drawn = self.folder / "region.png"
        if not self.culvert.draw(self.program, self.made / "store", drawn, "--window", *map(str, self.culvert.VALLEY), "--water"):
            self.skipTest("matplotlib isn't installed: apt-get install python3-matplotlib")
        self.assertEqual(drawn.read_bytes()[:8], b"\x89PNG\r\n\x1a\n")

    def test_variants(self):
        variants = EXAMPLES / "variants.py"
        self.assertIn("50 variants in", output(variants, self.made / "store", "0.4", "0.3275", "0.3525"))
        self.refused([variants, "/nowhere", "1", "2", "3"], "/nowhere")

    def count(self):
        with Session(self.program, "serve", self.made / "store") as session:
            return session.number("count")

    def test_service(self):
        """Clients that edit while the program is killed: each edit that was answered counts, once."""
        before = self.count()
        with subprocess.Popen([EXAMPLES / "service.py", self.made / "store", "--port", "0"], stdout=subprocess.PIPE, stderr=subprocess.DEVNULL, text=True) as process:
            try:
                port, program = map(int, re.search(r":(\d+), program (\d+)", process.stdout.readline()).groups())
                self.assertEqual(ask(port, "GET", "/fill?latitude=0.1525&longitude=0.3358")[0], 200)
                self.assertEqual(ask(port, "GET", "/fill?y=90000&x=0")[0], 404)
                self.assertEqual([ask(port, "GET", path)[0] for path in ("/fill?y=x&x=1", "/fill", "/quit", "/fill?y=1e300&x=1")], [400] * 4)
                counts = edit_and_kill(port, program)
                self.assertEqual(len(set(counts)), 200)
                self.assertEqual(ask(port, "GET", "/health"), (200, {"answer": before + len(counts)}))
                print(f"the service answered {questions_a_second(port):.0f} questions a second of four clients")
            finally:
                process.terminate()
        self.assertEqual(self.count() - before, len(counts))
        self.refused([EXAMPLES / "service.py", "/nowhere"], "/nowhere")


def ask(port, method, path, body=None, connection=None):
    connection = connection or http.client.HTTPConnection("127.0.0.1", port, timeout=A_WHILE)
    headers = {"Content-Type": "application/json"} if body else {}
    connection.request(method, path, json.dumps(body) if body else None, headers)
    reply = connection.getresponse()
    return reply.status, json.loads(reply.read())


def edit_and_kill(port, program):
    """Four clients burn; the program is killed once the first has half of its answers. Answers the counts of accepted
    commands."""
    counts = []

    def edit(client):
        for number in range(50):
            status, value = ask(port, "POST", "/burn", {"depth": 1, "points": [[240 + number, 360 + client]]})
            if status != 200:
                raise AssertionError(f"an edit was answered {status} {value}")
            counts.append(value["answer"])
            if (client, number) == (0, 25):
                os.kill(program, signal.SIGKILL)

    with concurrent.futures.ThreadPoolExecutor(4) as pool:
        list(pool.map(edit, range(4)))
    return counts


def questions_a_second(port, seconds=2.0):
    """How many levels are answered in a second, to four clients of this one process."""
    def client(number):
        connection = http.client.HTTPConnection("127.0.0.1", port, timeout=A_WHILE)
        count, end = 0, time.monotonic() + seconds
        while time.monotonic() < end:
            ask(port, "GET", f"/fill?y={180 + count % 50}&x={400 + number}", connection=connection)
            count += 1
        return count

    with concurrent.futures.ThreadPoolExecutor(4) as pool:
        return sum(pool.map(client, range(4))) / seconds
