"""What pages of other sites, and what is no request of HTTP, get of the two servers: a refusal, and the store stays as it was."""

from __future__ import annotations

import json
import re
import socket
import subprocess
import sys
import threading
import time
import unittest
from typing import NamedTuple

from mosaic_store import memory_table

from .support import A_WHILE, PROGRAM, PYTHON, InFolder, hills, needs

WALL = {"view": b'{"edits": [{"kind": "wall", "amount": 900, "line": [[5, 5]]}]}', "service": b'{"height": 900, "points": [[5, 5]]}'}
SIDE = 11


class Attack(NamedTuple):
    """What is sent: a first line and headers in place of the right ones (None: left out), a body, or bytes as they are."""

    what: str
    statuses: tuple[int, ...]
    line: str = ""
    headers: dict[str, str | None] = {}
    body: bytes | None = None
    raw: bytes | None = None


ATTACKS = [
    Attack("another site's name that leads here", (403,), headers={"Host": "evil.example:PORT"}),
    Attack("a name that begins as ours", (403,), headers={"Host": "127.0.0.1.evil.example:PORT"}),
    Attack("no name at all", (403,), headers={"Host": None}),
    Attack("a page of another site", (403,), headers={"Origin": "http://evil.example"}),
    Attack("a page without an origin, as in a frame", (403,), headers={"Origin": "null"}),
    Attack("a page of another port of this machine", (403,), headers={"Origin": "http://127.0.0.1:1"}),
    Attack("a form", (400, 403), headers={"Content-Type": "application/x-www-form-urlencoded", "X-Mosaic": None}),
    Attack("plain text, which any page may send", (400, 403), headers={"Content-Type": "text/plain", "X-Mosaic": None}),
    Attack("deep JSON", (400,), body=b"[" * 60_000),
    Attack("a deep object", (400,), body=b'{"a":' * 12_000),
    Attack("a body that is too long", (400,), headers={"Content-Length": "999999999"}),
    Attack("a length that is no number", (400,), headers={"Content-Length": "-5"}),
    Attack("a length of thousands of digits", (400,), headers={"Content-Length": "9" * 5000}),
    Attack("two lengths", (400,), headers={"Content-Length": "49\r\nContent-Length: 3"}),
    Attack("a body in chunks", (400,), headers={"Transfer-Encoding": "chunked"}),
    Attack("a header that is too long", (400, 431), headers={"X-Long": "x" * 70_000}),
    Attack("a path that is too long", (400, 414), line="GET /" + "x" * 70_000 + " HTTP/1.1"),
    Attack("what lies outside the page's folder", (400, 404), line="GET BASE/../../../../etc/passwd HTTP/1.1"),
    Attack("a target that is no URL", (400, 404), line="GET http://[/ HTTP/1.1"),
    Attack("a method that asks whether a page may", (400, 501), line="OPTIONS PATH HTTP/1.1", headers={"Origin": None}),
    Attack("not HTTP: a hello of TLS", (400,), raw=b"\x16\x03\x01\x02\x00\x01\x00\x01\xfc\x03\x03" + bytes(300) + b"\r\n\r\n"),
    Attack("not HTTP: words", (400,), raw=b"hello there, server\r\n\r\n"),
]


class Attacked:
    """The attacks on a server at `self.port`, whose path for an edit is `self.path`, and more of its own kind."""

    kind: str
    more: list[Attack] = []
    port: int
    path: str
    own: dict[str, str] = {}

    @property
    def patience(self) -> int:
        """How many seconds the server gives a request: as few as show that it ends, where that is what is tested."""
        return 1 if self.id().endswith("_is_let_go") else A_WHILE

    def request(self, attack: Attack) -> bytes:
        if attack.raw is not None:
            return attack.raw
        body = WALL[self.kind] if attack.body is None else attack.body
        headers = {"Host": "127.0.0.1:PORT", "Content-Type": "application/json", "Content-Length": str(len(body)), **self.own}
        headers.update(attack.headers)
        line = attack.line or "POST PATH HTTP/1.1"
        if line.startswith("GET"):
            body = b""
            headers["Content-Length"] = None
        if "Transfer-Encoding" in headers:
            headers["Content-Length"] = None
        lines = [line, *(f"{name}: {value}" for name, value in headers.items() if value is not None)]
        text = "\r\n".join(lines).replace("PORT", str(self.port)).replace("PATH", self.path).replace("BASE", self.path.rpartition("/")[0])
        return text.encode() + b"\r\n\r\n" + body

    def sent(self, data: bytes) -> bytes:
        """What is answered to some bytes, until the server ends the connection or has answered once."""
        answer = b""
        with socket.create_connection(("127.0.0.1", self.port), timeout=A_WHILE) as connection:
            try:
                connection.sendall(data)
                while not self.is_whole(answer) and (part := connection.recv(4096)):
                    answer += part
            except (BrokenPipeError, ConnectionResetError):
                pass  # it was let go before it had sent all
        return answer

    @staticmethod
    def is_whole(answer: bytes) -> bool:
        head, _, body = answer.partition(b"\r\n\r\n")
        length = re.search(rb"Content-Length: (\d+)", head)
        return length is not None and len(body) >= int(length[1])

    def test_each_is_refused(self) -> None:
        for attack in [*ATTACKS, *self.more]:
            with self.subTest(attack.what):
                answer = self.sent(self.request(attack))
                # What has no version is answered as the first HTTP did, without a status line.
                found = re.match(rb"HTTP/1\.\d (\d+)|(?s:<!DOCTYPE.*Error code: (\d+))", answer)
                self.assertTrue(found, answer[:500])
                self.assertIn(int(found[1] or found[2]), attack.statuses, answer[:300])
                self.assertNotIn(b"access-control", answer.lower())
        self.assertEqual(self.elevation(), self.before)
        self.assertIn(b" 200 ", self.sent(self.request(Attack("what all of these were made of", ()))).partition(b"\r\n")[0])

    def test_who_is_slow_is_let_go(self) -> None:
        """Nothing at all, half a head, half a body, a byte now and then: each connection ends, and others are answered meanwhile."""
        whole = self.request(Attack("", ()))
        begun = [b"", whole[:30], whole[:-10]]
        slow = [socket.create_connection(("127.0.0.1", self.port), timeout=A_WHILE) for _ in (*begun, "drip")]
        try:
            for connection, data in zip(slow, begun):
                connection.sendall(data)
            end = time.monotonic() + A_WHILE
            while self.drips(slow[-1]):
                self.assertLess(time.monotonic(), end, "a byte now and then keeps a connection for ever")
                self.assertEqual(self.elevation(), self.before)
            for connection, data in zip(slow, begun):
                with self.subTest(data):
                    self.assertNotIn(b" 200 ", self.rest(connection))
        finally:
            for connection in slow:
                connection.close()
        self.assertEqual(self.elevation(), self.before)

    def test_who_takes_no_answer_is_let_go(self) -> None:
        """It asks on and on, and reads nothing: what it hasn't taken isn't kept for ever."""
        asks = 1000 * self.request(Attack("", (), line="GET /trace?y=5&x=5 HTTP/1.1" if self.kind == "service" else "GET BASE/map.js HTTP/1.1"))
        with socket.socket() as connection:
            connection.setsockopt(socket.SOL_SOCKET, socket.SO_RCVBUF, 2048)
            connection.connect(("127.0.0.1", self.port))
            connection.settimeout(A_WHILE)
            with self.assertRaises((BrokenPipeError, ConnectionResetError)):
                while True:
                    connection.sendall(asks)
        self.assertEqual(self.elevation(), self.before)

    @staticmethod
    def drips(connection: socket.socket) -> bool:
        """Sends one byte more of a request that never ends; whether the connection stands."""
        time.sleep(0.1)
        try:
            connection.sendall(b"G")
            connection.setblocking(False)
            return connection.recv(100) != b""
        except BlockingIOError:
            return True
        except OSError:
            return False

    @staticmethod
    def rest(connection: socket.socket) -> bytes:
        answer = b""
        try:
            while part := connection.recv(4096):
                answer += part
        except ConnectionResetError:
            pass
        return answer


@needs("numpy")
class OnTheMap(Attacked, unittest.TestCase):
    kind = "view"

    def setUp(self) -> None:
        from mosaic_store.view import server
        from mosaic_store.view.workbench import Workbench

        self.session = memory_table(SIDE, 4, PROGRAM)
        self.addCleanup(self.session.close)
        for name, data in hills(SIDE, 1, 1).items():
            self.session.import_tile(name, data)
        bench = Workbench("hills", self.session, lambda: memory_table(SIDE, 4, PROGRAM))
        self.addCleanup(bench.close)
        while bench.copy()["done"] < 1:
            pass
        usual = server._Handler.timeout
        server._Handler.timeout = self.patience
        self.addCleanup(setattr, server._Handler, "timeout", usual)
        served = server.MapServer(bench)
        self.addCleanup(served.server_close)
        self.addCleanup(served.shutdown)
        threading.Thread(target=served.serve_forever, daemon=True).start()
        self.port, self.path, self.own = served.server_port, f"/{served.token}/try", {"X-Mosaic": served.token}
        self.before = self.elevation()

    def elevation(self) -> tuple[int | None, int]:
        return self.session.elevation(5, 5), self.session.count()


class OnTheService(Attacked, InFolder):
    kind, path = "service", "/wall"
    # Its paths are known to everybody, unlike those of the map.
    more = [Attack("a picture of a page of another site", (403,), line="GET /info HTTP/1.1", headers={"Sec-Fetch-Site": "cross-site"})]

    def setUp(self) -> None:
        super().setUp()
        store = self.store(SIDE)
        # As the example is, but for how long it waits.
        script = self.folder / "service.py"
        script.write_text(
            f"import sys\nsys.path[:0] = [{str(PYTHON)!r}, {str(PYTHON.parent / 'examples')!r}]\nimport service\n"
            f"service.SECONDS_TO_SEND = {self.patience}\nservice.main()\n"
        )
        words = [sys.executable, "-B", script, store, "--port", "0", "--program", PROGRAM]
        process = subprocess.Popen(words, stdout=subprocess.PIPE, stderr=subprocess.DEVNULL, text=True)
        self.addCleanup(process.stdout.close)
        self.addCleanup(process.wait)
        self.addCleanup(process.kill)
        self.port = int(re.search(r":(\d+), program", process.stdout.readline())[1])
        self.before = self.elevation()

    def elevation(self) -> list[object]:
        found = []
        for path in ("/elevation?y=5&x=5", "/count"):
            answer = b""
            while not answer:  # a loaded machine may be slow itself, and be let go
                answer = self.sent(f"GET {path} HTTP/1.1\r\nHost: 127.0.0.1:{self.port}\r\n\r\n".encode())
            found.append(json.loads(answer.partition(b"\r\n\r\n")[2])["answer"])
        return found


if __name__ == "__main__":
    unittest.main()
