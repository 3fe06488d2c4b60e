"""The examples: a service that loses nothing to kill -9, and fifty variants of a culvert."""

import http.client
import json
import math
import os
import re
import signal
import socket
import subprocess
import sys
import threading
import time
import unittest
import zlib

from mosaic_store import check_store, find_server, open_store

from .support import A_WHILE, PROGRAM, PYTHON, InFolder, needs

BEGUN = re.compile(r"service: .* at http://127\.0\.0\.1:(\d+), program (\d+|None)")
JSON = {"Content-Type": "application/json"}


class Service(InFolder):
    def start(self, path, *options):
        """Starts the service; its process, its port, and the process of its program."""
        process = subprocess.Popen(
            [sys.executable, PYTHON.parent / "examples" / "service.py", path, "--port", "0", "--program", PROGRAM, *options],
            stdout=subprocess.PIPE,
            stderr=self.log_file(),
            text=True,
        )
        self.addCleanup(self.end, process)
        line = process.stdout.readline()
        found = BEGUN.match(line)
        self.assertTrue(found, line)
        return process, int(found[1]), found[2] != "None" and int(found[2])

    def log_file(self):
        """Where a service writes its lines; what they are is `logged`."""
        self.log = self.folder / "service.log"
        file = self.log.open("ab")
        self.addCleanup(file.close)
        return file

    def end(self, process):
        process.kill()
        process.wait()
        process.stdout.close()

    def ask(self, port, method, target, body=None, headers=JSON, raw=False):
        connection = http.client.HTTPConnection("127.0.0.1", port, timeout=A_WHILE)
        try:
            connection.request(method, target, body, headers)
            reply = connection.getresponse()
            told = reply.read()
            return reply.status, told if raw else json.loads(told)
        finally:
            connection.close()

    def test_answers_and_refusals(self):
        path = self.store(11)
        _, port, _ = self.start(path)
        for place in ("latitude=0.5&longitude=0.5", "latitude=0,5N&longitude=0.5E"):
            self.assertEqual(self.ask(port, "GET", f"/elevation?{place}")[0], 200)
        self.assertEqual(self.ask(port, "GET", "/count"), (200, {"answer": 4}))
        self.assertEqual(self.ask(port, "GET", "/fill?y=99&x=0")[1]["word"], "Outside")
        wall = json.dumps({"height": 900, "points": [[5, 5]]})
        self.assertEqual(self.ask(port, "POST", "/wall", wall), (200, {"answer": 5}))
        self.assertEqual(self.ask(port, "GET", "/elevation?y=5&x=5"), (200, {"answer": 900}))
        self.assertEqual(self.ask(port, "GET", "/watershed?y=5&x=5")[1]["answer"]["cells"], 1)
        self.assertEqual(self.log.read_text(), "service: 404 GET /fill?y=99&x=0 7 Outside: no tile of the store holds the point (fill 99 0)\n")
        bad = [
            ("GET", "/export", None, {}),
            ("POST", "/import?tile=N05E005", "1234", JSON),
            ("POST", "/sink", json.dumps({"y": 1}), JSON),
            ("POST", "/remove", json.dumps({"tile": 5}), JSON),
            ("POST", "/step", json.dumps({"y": 5}), JSON),
            ("GET", "/fill", None, {}),
            ("GET", "/fill?y=1&x=a", None, {}),
            ("GET", "/fill?y=1e9&x=9999999999", None, {}),
            ("GET", "/fill?latitude=100&longitude=nan", None, {}),
            ("GET", "/fill?latitude=0.5E&longitude=0.5N", None, {}),
            ("GET", "/quit", None, {}),
            ("POST", "/wall", wall, {}),
            ("POST", "/wall", "[1]", JSON),
            ("POST", "/wall", "{", JSON),
            ("POST", "/wall", json.dumps({"height": 1, "points": []}), JSON),
            ("POST", "/wall", json.dumps({"height": "x", "points": [[1, 1]]}), JSON),
            ("POST", "/wall", json.dumps({"height": True, "points": [[1, 1]]}), JSON),
            ("POST", "/wall", json.dumps({"height": 1, "points": [[1, True]]}), JSON),
            ("POST", "/fill", json.dumps({"points": [[1, True]]}), JSON),
            ("POST", "/fill", json.dumps({"points": [[1, 0.5]]}), JSON),
            ("POST", "/fill", json.dumps({"points": [[1]]}), JSON),
            ("POST", "/fill", json.dumps({"points": [], "places": []}), JSON),
            ("POST", "/fill", json.dumps({"places": [[95, 0]]}), JSON),
            ("POST", "/trace", json.dumps({"points": [[5, 5]] * 101}), JSON),
            ("GET", "/xyz/relief/8/128/127.png", None, {}),
            ("GET", "/xyz/water/8/256/127.png", None, {}),
            ("GET", "/xyz/water/23/0/0.png", None, {}),
        ]
        bad.append(("POST", "/wall", "[" * 60000, JSON))
        for request in bad:
            with self.subTest(request):
                self.assertEqual(self.ask(port, *request)[0], 400)
        for sent in (b"no request\r\n\r\n", b"POST /wall HTTP/1.1\r\nHost: localhost\r\nContent-Length: 99999\r\n\r\n", b"x" * 20000):
            with self.subTest(sent[:20]), socket.create_connection(("127.0.0.1", port), timeout=A_WHILE) as connection:
                connection.sendall(sent)
                self.assertIn(b" 400 ", connection.recv(100))
        another = {"Host": f"evil.example:{port}", **JSON}
        self.assertEqual(self.ask(port, "POST", "/wall", wall, another)[0], 403)
        self.assertEqual(self.ask(port, "POST", "/burn", json.dumps({"depth": 0, "points": [[5, 5]]}))[0], 409)
        self.assertEqual(self.ask(port, "GET", "/count"), (200, {"answer": 5}))

    def test_many_points_at_once(self):
        """As they are answered one by one, refusals in their places; by points and by places."""
        _, port, _ = self.start(self.store(11))
        points = [[5, 5], [99, 0], [3, 2], [12, 17]]
        for path in ("/elevation", "/fill", "/direction", "/trace", "/watershed"):
            with self.subTest(path):
                single = [self.ask(port, "GET", f"{path}?y={y}&x={x}")[1] for y, x in points]
                wanted = [one.get("answer", one) for one in single]
                self.assertEqual(self.ask(port, "POST", path, json.dumps({"points": points})), (200, {"answer": wanted}))
                places = [[y / 10, x / 10] for y, x in points[2:]]
                self.assertEqual(self.ask(port, "POST", path, json.dumps({"places": places})), (200, {"answer": wanted[2:]}))
        self.assertEqual(self.ask(port, "POST", "/fill", json.dumps({"points": [[5, 5]] * 5000}))[0], 200)

    @needs("numpy")
    def test_a_region(self):
        """It is served as a store is."""
        store, region = self.store(11), str(self.folder / "region")
        self.assertEqual(self.command("split", region, store, "--square", "1").returncode, 0)
        (_, one, _), (_, all_, _) = self.start(store), self.start(region)
        points = json.dumps({"points": [[y, x] for y in range(0, 21, 3) for x in range(0, 21, 3)]})
        for path in ("/elevation", "/fill", "/watershed"):
            self.assertEqual(self.ask(all_, "POST", path, points), self.ask(one, "POST", path, points))
        self.assertEqual(self.ask(all_, "POST", "/wall", json.dumps({"height": 900, "points": [[10, 10]]}))[0], 200)
        self.assertEqual(self.ask(all_, "GET", "/elevation?y=10&x=10"), (200, {"answer": 900}))

    @needs("numpy")
    def test_pictures_for_web_maps(self):
        """Where water stands, pixel for pixel by the formulas of Web Mercator; an edit is seen in the next picture."""
        path = self.store(11)
        _, port, _ = self.start(path)
        for depth in (None, 40):
            if depth:
                self.ask(port, "POST", "/burn", json.dumps({"depth": depth, "points": [[y, x] for y in range(6, 9) for x in range(6, 9)]}))
            opaque = self.opaque(self.ask(port, "GET", "/xyz/water/8/128/127.png", raw=True)[1])
            latitudes = [math.degrees(math.atan(math.sinh(math.pi * (1 - 2 * (127 + (row + 0.5) / 256) / 256)))) for row in range(256)]
            ys, xs = [round(latitude * 10) for latitude in latitudes], [round((column + 0.5) / 256 * 360 / 256 * 10) for column in range(256)]
            places = sorted({(y, x) for y in ys for x in xs})
            levels, heights = (
                self.ask(port, "POST", path, json.dumps({"points": places}))[1]["answer"] for path in ("/fill", "/elevation")
            )
            wet = {place: height is not None and level > height for place, level, height in zip(places, levels, heights)}
            self.assertEqual(opaque, [[wet[y, x] for x in xs] for y in ys])
            self.assertIn(True, wet.values())
        for layer, zoom, column, row, is_seen in (("hillshade", 8, 128, 127, True), ("levels", 5, 16, 15, True), ("hillshade", 8, 0, 0, False)):
            told = self.ask(port, "GET", f"/xyz/{layer}/{zoom}/{column}/{row}.png", raw=True)[1]
            self.assertEqual(any(map(any, self.opaque(told))), is_seen)

    @staticmethod
    def opaque(picture):
        """Of each pixel of a PNG whether it is seen at all."""
        rows = zlib.decompress(picture[picture.index(b"IDAT") + 4 : picture.index(b"IEND") - 8])
        return [[rows[1025 * row + 4 * column + 4] > 0 for column in range(256)] for row in range(256)]

    def test_the_service_tells_what_it_answers(self):
        _, port, _ = self.start(self.store(11))
        status, document = self.ask(port, "GET", "/openapi.json")
        self.assertEqual((status, document["openapi"]), (200, "3.0.3"))
        page = self.ask(port, "GET", "/", raw=True)[1].decode()
        for path, methods in document["paths"].items():
            for method in methods:
                self.assertIn(f"<td>{method.upper()}<td><code>{path}</code>", page)
                if "{" not in path:  # each is answered, or refused for what isn't given
                    self.assertNotIn("asks nothing", str(self.ask(port, method.upper(), path, raw=True)[1]))

    @needs("openapi_spec_validator")
    def test_the_document_is_openapi(self):
        import openapi_spec_validator

        _, port, _ = self.start(self.store(11))
        openapi_spec_validator.validate(self.ask(port, "GET", "/openapi.json")[1])

    def test_pages_of_an_origin_get_answers(self):
        """None others do, and none of them changes anything."""
        _, port, _ = self.start(self.store(11), "--origin", "http://localhost:8000")
        wall = json.dumps({"height": 900, "points": [[5, 5]]})
        site = {"Sec-Fetch-Site": "same-site"}
        rows = [
            ("GET", "/count", None, {"Origin": "http://localhost:8000", **site}, 200),
            ("GET", "/count", None, {"Referer": "http://localhost:8000/map.html", **site}, 200),
            ("GET", "/count", None, {"Origin": "http://localhost:8001", **site}, 403),
            ("GET", "/count", None, {"Referer": "http://localhost:8001/map.html", **site}, 403),
            ("GET", "/count", None, site, 403),
            ("POST", "/wall", wall, {"Origin": "http://localhost:8000", **site, **JSON}, 403),
        ]
        for method, target, body, headers, status in rows:
            with self.subTest(headers):
                self.assertEqual(self.ask(port, method, target, body, headers)[0], status)

    def test_every_word(self):
        """A tile that is taken out and put back, with a sink, a patch and a step between; by one client."""
        _, port, _ = self.start(self.store(11))
        status, tile = self.ask(port, "GET", "/export?tile=N00E000", raw=True)
        self.assertEqual((status, len(tile)), (200, 242))
        octets = {"Content-Type": "application/octet-stream"}
        middle = 2 * (11 * 5 + 5)
        void, patched = (tile[:middle] + sample + tile[middle + 2 :] for sample in (b"\x80\x00", b"\x01\x41"))
        rows = [
            ("POST", "/sink", {"y": 5, "x": 5}, JSON, 5),
            ("GET", "/sinks", None, {}, [[5, 5]]),
            ("POST", "/unsink", {"y": 5, "x": 5}, JSON, 6),
            ("POST", "/remove", {"tile": "N00E000"}, JSON, 7),
            ("GET", "/tiles", None, {}, ["N00E001", "N01E000", "N01E001"]),
            ("POST", "/import?tile=N00E000", void, octets, 8),
            ("POST", "/patch", {"y0": 5, "x0": 5, "y1": 5, "x1": 5, "height": 321}, JSON, 9),
            ("GET", "/health", None, {}, 9),
        ]
        for method, target, body, headers, answer in rows:
            with self.subTest(target):
                sent = body if body is None or isinstance(body, bytes) else json.dumps(body)
                self.assertEqual(self.ask(port, method, target, sent, headers), (200, {"answer": answer}))
        self.assertIn(self.ask(port, "POST", "/step", "{}")[1]["answer"], ("N00E000", "N00E001", "N01E000", "N01E001", None))
        self.assertEqual(self.ask(port, "GET", "/export?tile=N00E000", raw=True)[1], patched)
        info = self.ask(port, "GET", "/info")[1]["answer"]
        commits, names = info.pop("commits"), ["N00E000", "N00E001", "N01E000", "N01E001"]
        sizes = {"capacity": 4, "version": 2} if find_server(PROGRAM) != PROGRAM else {}
        self.assertEqual(info, {"side": 11, "count": 9, "fresh": 1, "stale": 3, "tiles": names} | sizes)
        self.assertGreaterEqual(commits, 9)

    def test_backup(self):
        """A copy by the service that serves the store; a second one of the same count is refused, and nobody names its place."""
        path = self.store(11)
        _, port, _ = self.start(path)
        for body, status, answer in (("{}", 200, "store.4"), ("{}", 409, None), ('{"name": "/tmp/other"}', 400, None), ("[]", 400, None)):
            found = self.ask(port, "POST", "/backup", body)
            self.assertEqual((found[0], found[1].get("answer")), (status, answer))
        self.assertEqual(self.ask(port, "POST", "/wall", json.dumps({"height": 900, "points": [[5, 5]]})), (200, {"answer": 5}))
        self.assertEqual(self.ask(port, "POST", "/backup", "{}"), (200, {"answer": "store.5"}))
        for count, height in ((4, 900), (5, 900)):
            with open_store(f"{path}.{count}", PROGRAM) as copy:
                self.assertEqual((copy.count(), copy.elevation(5, 5) == height), (count, count == 5))

    def test_health_of_a_store_that_is_gone(self):
        """Where the program can't be begun anew /health says so, and is well again once it can."""
        path = self.store(11)
        _, port, program = self.start(path)
        hidden = f"{path}.hidden"
        os.rename(path, hidden)
        os.kill(program, signal.SIGKILL)
        self.assertEqual(self.ask(port, "GET", "/health")[0], 503)
        os.rename(hidden, path)
        self.assertEqual(self.ask(port, "GET", "/health"), (200, {"answer": 4}))
        self.assertRegex(self.log.read_text(), r"^service: 503 GET /health .*\n$")

    def test_questions_a_second(self):
        """A client that asks one after another, and four at a time: the rate is printed, not asserted."""
        path = self.store(11)
        _, port, _ = self.start(path)
        rates = {}
        for clients in (1, 4):
            start = time.monotonic()
            threads = [threading.Thread(target=self.repeat, args=(port, 500)) for _ in range(clients)]
            for thread in threads:
                thread.start()
            for thread in threads:
                thread.join()
            rates[clients] = round(500 * clients / (time.monotonic() - start))
        print(f"service: {rates[1]} questions a second from one client, {rates[4]} from four", file=sys.stderr)

    def repeat(self, port, count):
        connection = http.client.HTTPConnection("127.0.0.1", port, timeout=A_WHILE)
        for _ in range(count):
            connection.request("GET", "/fill?y=5&x=5")
            reply = connection.getresponse()
            self.assertEqual(reply.status, 200)
            reply.read()
        connection.close()

    def test_nothing_is_lost_to_kills(self):
        """Clients raise points while the program is killed, and then the service: what was answered stands."""
        path = self.store(21)
        service, port, program = self.start(path)
        acknowledged = [{} for _ in range(3)]
        ending = threading.Event()
        clients = [
            threading.Thread(target=self.raise_points, args=(lambda: port, number, heights, ending))
            for number, heights in enumerate(acknowledged)
        ]
        for client in clients:
            client.start()
        for _ in range(2):
            self.wait_for_more(acknowledged)
            os.kill(program, signal.SIGKILL)
            self.wait_for_more(acknowledged)
            os.kill(service.pid, signal.SIGKILL)
            service.wait()
            open_store(path, PROGRAM, wait=A_WHILE).close()  # once the program of the one that was killed has ended
            service, port, program = self.start(path)
        self.wait_for_more(acknowledged)
        ending.set()
        for client in clients:
            client.join()
        service.send_signal(signal.SIGTERM)
        service.wait(A_WHILE)
        with open_store(path, PROGRAM, wait=A_WHILE) as store:
            for heights in acknowledged:
                for point, height in heights.items():
                    self.assertGreaterEqual(store.elevation(*point), height)
        self.assertGreater(check_store(path, PROGRAM).count, 4)

    def raise_points(self, port, number, heights, ending):
        """Raises points of a row one after another, and notes what was answered."""
        height = 5000
        while not ending.is_set():
            height += 1
            point = number * 5 + 2, height % 20
            try:
                status, _ = self.ask(port(), "POST", "/wall", json.dumps({"height": height, "points": [point]}))
            except (OSError, http.client.HTTPException, ValueError):
                time.sleep(0.01)  # it is down
                continue
            if status == 200:
                heights[point] = height

    def wait_for_more(self, acknowledged):
        wanted = sum(max(heights.values(), default=5000) for heights in acknowledged) + 20
        until = time.monotonic() + A_WHILE
        while sum(max(heights.values(), default=5000) for heights in acknowledged) < wanted:
            self.assertLess(time.monotonic(), until)
            time.sleep(0.01)


class Variants(InFolder):
    def test_fifty(self):
        path = self.store(21)
        before = self.image(path)
        words = [sys.executable, PYTHON.parent / "examples" / "variants.py", path, "0.5", "0.6", "0.9", "--program", PROGRAM]
        done = subprocess.run(words, capture_output=True, text=True, timeout=A_WHILE, check=False)
        self.assertEqual((done.returncode, done.stderr), (0, ""))
        self.assertRegex(done.stdout, r"50 variants in [\d.]+ s\nleast water: \d+ m, with a road of \d+ m")
        self.assertEqual(self.image(path), before)

    def test_bad_input(self):
        path = self.store(21)
        for words, told in (
            (("0.5", "0.9", "0.6"), "0.9 lies east of 0.6"),
            (("95", "0.6", "0.9"), "a latitude lies"),
            (("0.15", "0.05", "0.5"), "crosses a void"),
        ):
            script = PYTHON.parent / "examples" / "variants.py"
            done = subprocess.run([sys.executable, script, path, *words, "--program", PROGRAM], capture_output=True, text=True, timeout=A_WHILE, check=False)
            self.refused(done, told)

    @staticmethod
    def image(path):
        with open_store(path, PROGRAM) as store:
            return {name: store.export(name) for name in store.tiles()}, store.sinks()


if __name__ == "__main__":
    unittest.main()
