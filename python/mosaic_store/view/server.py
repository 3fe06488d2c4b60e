"""The map's own web server: on the loopback alone, and for this page alone.

Every path begins with a token that is drawn at each start and told to nobody but whoever started the program, so that no
page of another site can guess one. Besides, the name that a browser asked for has to be the loopback's, so that no other
name can be pointed at it, a page's origin has to be this server, and what changes something has to come as JSON with a header
that only this page sends. Whoever takes longer than a minute for a request is let go.

Each answer to a page tells the state that the workbench has, by which pages see that they are out of date. A question whose page
goes away, or cancels it, is ended.
"""

from __future__ import annotations

import contextlib
import functools
import json
import re
import secrets
import select
import socket
import sys
import threading
from collections.abc import Callable, Iterator, Mapping
from http import HTTPStatus
from http.server import BaseHTTPRequestHandler, ThreadingHTTPServer
from importlib.resources import files
from typing import Any

from ..errors import BadArgument, Refusal
from .base import base_of
from .requests import BadRequest
from .workbench import Cancelled, Workbench

MOST_BYTES = 1 << 22
"""The longest body that a request may have."""

SECONDS_BETWEEN_LOOKS = 0.1
"""How often a question looks whether its page still waits."""

QUESTIONS = ("ask", "watershed", "geojson", "streams", "raster", "try")
"""What may be ended midway."""

PAGE_FILES = {
    "": ("index.html", "text/html; charset=utf-8"),
    "map.js": ("map.js", "text/javascript; charset=utf-8"),
    "panel.js": ("panel.js", "text/javascript; charset=utf-8"),
    "style.css": ("style.css", "text/css; charset=utf-8"),
}

POLICY = "default-src 'none'; img-src 'self' data: blob:{base}; script-src 'self'; style-src 'self'; connect-src 'self'; form-action 'none'; frame-ancestors 'none'; base-uri 'none'"


class MapServer(ThreadingHTTPServer):
    """Serves the page of one workbench at `url`."""

    daemon_threads = True

    def __init__(self, workbench: Workbench, port: int = 0):
        super().__init__(("127.0.0.1", port), _Handler)
        self.workbench = workbench
        self.token = secrets.token_urlsafe(18)
        self.policy = POLICY.format(base=f" {base_of(workbench.base)}" if workbench.base else "")

    def handle_error(self, request: Any, client_address: Any) -> None:
        """A page that went away while it was answered is no fault of anybody's; any other fault is reported in a line."""
        fault = sys.exc_info()[1]
        if not isinstance(fault, (ConnectionError, TimeoutError)):
            print(f"mosaic-view: {type(fault).__name__}: {fault}", file=sys.stderr)

    @property
    def url(self) -> str:
        return f"http://127.0.0.1:{self.server_port}/{self.token}/"

    def names(self) -> set[str]:
        """What a browser on this machine may call this server."""
        return {f"{name}:{self.server_port}" for name in ("127.0.0.1", "localhost")}

    def origins(self) -> set[str]:
        """The origin of a page of this server."""
        return {f"http://{name}" for name in self.names()}


class _Handler(BaseHTTPRequestHandler):
    server: MapServer
    protocol_version = "HTTP/1.1"
    server_version = "mosaic-view"
    sys_version = ""
    timeout = 60

    _is_own = False
    """Whether the request comes from the page."""

    def handle_one_request(self) -> None:
        """One request, which has to be there within the timeout as a whole: else who sends a byte now and then stays for ever."""
        self._is_own = False
        self._late = threading.Timer(self.timeout, self._let_go)
        self._late.daemon = True
        self._late.start()
        try:
            super().handle_one_request()
        finally:
            self._late.cancel()

    def _let_go(self) -> None:
        with contextlib.suppress(OSError):
            self.connection.shutdown(socket.SHUT_RD)

    def do_GET(self) -> None:
        path = self._path()
        self._late.cancel()
        if path is None:
            return
        if "Content-Length" in self.headers:
            self._fail(HTTPStatus.BAD_REQUEST, "what is got has no body")
            return
        if path in PAGE_FILES:
            name, kind = PAGE_FILES[path]
            self._send(HTTPStatus.OK, (files(__package__) / "page" / name).read_bytes(), kind)
            return
        picture = re.fullmatch(r"(relief|store|trial)/(\d{1,2})/(-?\d{1,7})/(-?\d{1,7})\.png", path)
        if picture:
            layer, zoom, row, column = picture.groups()
            self._answer(lambda: self.server.workbench.picture(layer, int(zoom), int(row), int(column)), "image/png")
        elif path == "region":
            self._answer(self.server.workbench.describe)
        elif path == "state":
            self._answer(lambda: self.server.workbench.state)
        else:
            self._fail(HTTPStatus.NOT_FOUND, "there is nothing at this path")

    def do_POST(self) -> None:
        path = self._path()
        if path is None:
            return
        if self.headers.get("X-Mosaic") != self.server.token:
            self._fail(HTTPStatus.FORBIDDEN, "this request isn't the page's own")
            return
        if path not in self.server.workbench.acts():
            self._fail(HTTPStatus.NOT_FOUND, "there is nothing at this path")
            return
        words = self._words()
        if words is not None:
            with self._watched(path) as left:
                self._answer(functools.partial(self.server.workbench.acts(left)[path], words))

    @contextlib.contextmanager
    def _watched(self, path: str) -> Iterator[Callable[[], bool]]:
        """Whether the page has gone meanwhile; a question of it to the store is ended then."""
        left, done = threading.Event(), threading.Event()
        thread = threading.get_ident()

        def watch() -> None:
            while not done.wait(SECONDS_BETWEEN_LOOKS):
                if self._has_left():
                    left.set()
                    self.server.workbench.interrupt(thread)

        if path in QUESTIONS:
            threading.Thread(target=watch, daemon=True).start()
        try:
            yield left.is_set
        finally:
            done.set()

    def _has_left(self) -> bool:
        try:
            return bool(select.select([self.connection], [], [], 0)[0]) and not self.connection.recv(1, socket.MSG_PEEK)
        except (OSError, ValueError):
            return True

    def _path(self) -> str | None:
        """The part of the path after the token; None if the request was refused already."""
        if self.headers.get("Host") not in self.server.names():
            self._fail(HTTPStatus.FORBIDDEN, "this server answers to 127.0.0.1 alone")
            return None
        if not set(self.headers.get_all("Origin", [])) <= self.server.origins():
            self._fail(HTTPStatus.FORBIDDEN, "this request comes from a page of another site")
            return None
        if "Transfer-Encoding" in self.headers or len(self.headers.get_all("Content-Length", [])) > 1:
            self._fail(HTTPStatus.BAD_REQUEST, "a request states its length, once")
            return None
        token, slash, rest = self.path.partition("?")[0].removeprefix("/").partition("/")
        if not slash or not secrets.compare_digest(token.encode(), self.server.token.encode()):
            self._fail(HTTPStatus.NOT_FOUND, "there is nothing at this path; open the address that mosaic-view printed")
            return None
        self._is_own = True
        return rest

    def _words(self) -> Mapping[str, Any] | None:
        """The request's body, which has to be a JSON object; None if the request was refused already."""
        length = self.headers.get("Content-Length", "")
        if self.headers.get_content_type() != "application/json" or not re.fullmatch("[0-9]{1,9}", length) or int(length) > MOST_BYTES:
            self._fail(HTTPStatus.BAD_REQUEST, f"a request is JSON of at most {MOST_BYTES} bytes")
            return None
        body = self.rfile.read(int(length))
        self._late.cancel()
        try:
            words = json.loads(body)
        except (ValueError, RecursionError):
            words = None
        if not isinstance(words, dict):
            self._fail(HTTPStatus.BAD_REQUEST, "a request is one JSON object")
            return None
        return words

    def _answer(self, act: Callable[[], Any], kind: str = "application/octet-stream") -> None:
        try:
            answer = act()
        except Cancelled:
            self.close_connection = True
            return
        except (BadRequest, BadArgument, ValueError) as bad:
            self._fail(HTTPStatus.BAD_REQUEST, str(bad))
            return
        except Refusal as refusal:
            self._fail(HTTPStatus.CONFLICT, f"{refusal.cause}: {refusal.cure}")
            return
        except Exception as fault:  # the page gets a message, whatever it was
            self._fail(HTTPStatus.SERVICE_UNAVAILABLE, f"{type(fault).__name__}: {fault}")
            return
        if isinstance(answer, bytes):
            self._send(HTTPStatus.OK, answer, kind)
        else:
            self._send(HTTPStatus.OK, json.dumps(answer).encode(), "application/json")

    def _fail(self, status: HTTPStatus, why: str) -> None:
        # The body isn't read, so the connection ends with this answer.
        self.close_connection = True
        self._send(status, json.dumps({"error": why}).encode(), "application/json")

    def _send(self, status: HTTPStatus, body: bytes, kind: str) -> None:
        self.send_response(status)
        headers = {
            "Content-Type": kind,
            "Content-Length": str(len(body)),
            "Cache-Control": "no-store",
            "Content-Security-Policy": self.server.policy,
            "Cross-Origin-Resource-Policy": "same-origin",
            "Referrer-Policy": "no-referrer",
            "X-Content-Type-Options": "nosniff",
        }
        if self._is_own:
            headers["X-Mosaic-State"] = self.server.workbench.state
        if self.close_connection:
            headers["Connection"] = "close"
        for name, value in headers.items():
            self.send_header(name, value)
        self.end_headers()
        self.wfile.write(body)

    def log_message(self, format: str, *values: object) -> None:
        """Nothing is logged, since each path has the token."""
