#!/usr/bin/env python3
"""A service for many clients over one store, on this machine alone.

usage: service.py STORE|REGION [--port PORT] [--program PROGRAM] [--origin ORIGIN ..]

It describes what it answers: at / as a page, at /openapi.json as an OpenAPI document. Among it:

    GET  /fill?y=183&x=411          {"answer": 1204}; also by latitude and longitude, and /elevation, /direction, /trace, /watershed
    POST /fill                      {"points": [[183, 411], ..]} or {"places": [[0.1525, 0.3425], ..]}: {"answer": [..]}
    POST /wall                      {"height": 1193, "points": [[183, 411]]}: {"answer": k}; also /burn, /patch, /sink ..
    GET  /xyz/hillshade/9/135/199.png    a picture for a web map; also levels and water; needs numpy

/backup copies the store, whole, to a file beside it: STORE.k, after the count k that it has. Where mosaic-tiles isn't beside the
program /info leaves version and capacity out, and reads such a copy, which it takes away.
Questions that wait at the same moment are asked together. A command that was answered is on the drive: where the program
is killed, the service begins it anew and asks again only what doesn't stand; where the service is killed, start it again.
A refusal is status 404 where the point has no answer, 503 where the store failed, else 409, with its number and word; what
can't be read is 400, what is asked of another name than this machine's own, or by a page of another site, is 403, and who
takes longer than a minute for a request, or to take an answer, is disconnected. Each of these is a line on standard error.
A page of an --origin, as http://localhost:8000, may get pictures and answers, and change nothing.
"""

import argparse
import asyncio
import contextlib
import dataclasses
import html
import json
import pathlib
import re
import signal
import sys
import urllib.parse

sys.path.insert(0, str(pathlib.Path(__file__).resolve().parents[1] / "python"))  # the package, also where it isn't installed

from mosaic_store import Command, MosaicError, Refusal, StoreExists, __version__, errors, open_place, point_of, questions
from mosaic_store.places import number_of

QUESTIONS = {
    "/elevation": questions.Elevation,
    "/fill": questions.Fill,
    "/direction": questions.FlowDirection,
    "/trace": questions.Trace,
    "/watershed": questions.WatershedOf,
}
OF_THE_STORE = {"/count": questions.Count, "/health": questions.Count, "/tiles": questions.Tiles, "/sinks": questions.Sinks}
COMMANDS = {
    "/wall": (questions.Wall, ("height", "points")),
    "/burn": (questions.Burn, ("depth", "points")),
    "/patch": (questions.Patch, ("y0", "x0", "y1", "x1", "height")),
    "/sink": (questions.Sink, ("y", "x")),
    "/unsink": (questions.Unsink, ("y", "x")),
    "/remove": (questions.Remove, ("tile",)),
    "/step": (questions.Step, ()),
}
MOST_POINTS = {"/trace": 100, "/watershed": 100}
MOST_OTHERWISE = 10_000
PICTURE = re.compile(r"/xyz/(\w+)/(\d{1,2})/(\d{1,8})/(\d{1,8})\.png")
LONGEST_HEAD, LONGEST_BODY, LONGEST_LIST, LONGEST_TILE = 16_384, 65_536, 1 << 20, 25_934_402
SECONDS_TO_SEND = 60
OWN_NAMES = ("127.0.0.1", "localhost", "[::1]")
OUTSIDE, VOID, DEVICE, FAILED = 7, 8, 20, 22
REFUSED = {OUTSIDE: 404, VOID: 404, DEVICE: 503, FAILED: 503}


class BadRequest(Exception):
    """A request that can't be read: its one line goes to the client."""


@dataclasses.dataclass(frozen=True)
class Sent:
    """An answer that isn't JSON."""

    body: bytes
    kind: str


class Service:
    """Takes requests, and has one task ask the store."""

    def __init__(self, session, store, origins=()):
        self.session, self.store, self.origins = session, pathlib.Path(store), frozenset(origins)
        self.side = session.side  # degrees are made points of without a question
        self.waiting = asyncio.Queue()
        self.pictures = None

    async def answers(self):
        """Asks what waits, as much at a time as there is."""
        while True:
            batch = [await self.waiting.get()]
            while not self.waiting.empty():
                batch.append(self.waiting.get_nowait())
            answers = await asyncio.to_thread(self.ask_all, [question for question, _ in batch])
            for (_, future), answer in zip(batch, answers):
                if not future.done():
                    future.set_result(answer)

    def ask_all(self, asked):
        """The answers in order, errors in place; questions between two commands are asked together. What can be called is called."""
        answers = []
        together = []
        for question in [*asked, None]:
            if question is not None and not isinstance(question, Command) and not callable(question):
                together.append(question)
                continue
            answers += self.safely(lambda: self.session.ask_many(together), len(together)) if together else []
            together = []
            if question is not None:
                answers += self.safely(lambda: [question() if callable(question) else self.session.ask(question)], 1)
        return answers

    @staticmethod
    def safely(ask, count):
        try:
            return ask()
        except (MosaicError, OSError) as error:
            return [error] * count

    async def serve(self, reader, writer):
        """Serves one client until it leaves."""
        try:
            while request := await asyncio.wait_for(read_request(reader, writer), SECONDS_TO_SEND):
                status, answer = await self.reply(*request)
                if status != 200:
                    log(status, f"{request[0]} {request[1]}", answer["error"])
                origin = request[2].get("origin")
                await send(writer, status, answer, allowed=origin if origin in self.origins else None)
        except (BadRequest, asyncio.LimitOverrunError) as error:
            # It isn't known where its next request would begin, so the connection ends with this answer.
            log(400, "a request", error)
            with contextlib.suppress(ConnectionError):
                await send(writer, 400, {"error": str(error)}, last=True)
        except (asyncio.IncompleteReadError, asyncio.TimeoutError, ConnectionError):
            pass  # it left, or sent or took nothing for too long
        finally:
            writer.close()

    async def reply(self, method, target, headers, body):
        # A page of another site may have its own name lead here: what asks by that name isn't answered, nor such a page.
        if headers.get("host", "").rsplit(":", 1)[0] not in OWN_NAMES:
            return 403, {"error": "this service answers to 127.0.0.1 and localhost alone"}
        if not self.is_own(headers) and not (method == "GET" and self.is_of_an_origin(headers)):
            return 403, {"error": "this request comes from a page of another site"}
        try:
            path = urllib.parse.urlsplit(target).path
            if method == "GET" and (found := PICTURE.fullmatch(path)):
                return 200, Sent(await asyncio.to_thread(self.picture, *found.groups()), "image/png")
            if method == "GET" and path in PAGES:
                return 200, PAGES[path]()
            question = self.question(method, target, headers, body)
        except (BadRequest, ValueError, RecursionError) as error:
            return 400, {"error": str(error)}
        except MosaicError as error:
            return told(error)
        future = asyncio.get_running_loop().create_future()
        self.waiting.put_nowait((question, future))
        return told(await future)

    @staticmethod
    def is_own(headers):
        """Whether a request comes from no page, or from one of this service."""
        own = f"http://{headers['host']}"
        # A picture of a page is asked for without an origin: browsers tell where that page is from.
        return headers.get("origin", own) == own and headers.get("sec-fetch-site", "none") in ("none", "same-origin")

    def is_of_an_origin(self, headers):
        """Whether it comes from a page that the user has named."""
        page = urllib.parse.urlsplit(headers.get("referer", ""))
        return headers.get("origin", f"{page.scheme}://{page.netloc}") in self.origins

    def picture(self, layer, zoom, column, row):
        """A picture for a web map."""
        if self.pictures is None:
            try:
                from mosaic_store.view.xyz import Pictures
            except ImportError as missing:
                raise BadRequest(f"pictures need numpy ({missing})") from None
            self.pictures = Pictures(self.session)
        return self.pictures.picture(layer, int(zoom), int(column), int(row))

    def info(self):
        """The store's description and contents."""
        try:
            numbers = dataclasses.asdict(self.session.info())
        except errors.BadLine:  # of `mosaic` alone
            report = self.session.report()
            fresh = sum(report.tiles.values())
            numbers = {"side": self.side, "count": report.count, "commits": report.commits, "fresh": fresh, "stale": len(report.tiles) - fresh}
        return numbers | {"tiles": self.session.tiles()}

    def backup(self):
        """Copies the store; the name of the copy. Commands wait meanwhile."""
        copy = self.store.with_name(f"{self.store.name}.{self.session.count()}")
        self.session.backup(copy)
        return copy.name

    def question(self, method, target, headers, body):
        """What a request asks. BadRequest, or a ValueError that says why, where it asks nothing."""
        url = urllib.parse.urlsplit(target)
        given = {name: values[-1] for name, values in urllib.parse.parse_qs(url.query).items()}
        if (method, url.path) == ("GET", "/info"):
            return self.info
        if (method, url.path) == ("POST", "/backup"):
            given_in(headers, body, ())
            return self.backup
        if method == "GET" and url.path in OF_THE_STORE:
            return OF_THE_STORE[url.path]()
        if method == "GET" and url.path in QUESTIONS:
            return checked(QUESTIONS[url.path](*self.point(given)))
        if method == "POST" and url.path in QUESTIONS:
            return self.of_many(url.path, headers, body)
        if method == "GET" and url.path == "/export":
            return checked(questions.Export(given.get("tile", "")))
        if method == "POST" and url.path == "/import":
            sent_as(headers, "application/octet-stream")
            return checked(questions.Import(given.get("tile", ""), body))
        if method == "POST" and url.path in COMMANDS:
            return command(url.path, headers, body)
        raise BadRequest(f"{method} {url.path} asks nothing: the page at / has what does")

    def of_many(self, path, headers, body):
        """The question of many points, refusals in their places."""
        sent_as(headers, "application/json")
        given, most = json.loads(body), MOST_POINTS.get(path, MOST_OTHERWISE)
        listed = given.get("points", given.get("places")) if isinstance(given, dict) and len(given) == 1 else None
        if not isinstance(listed, list) or len(listed) > most or not all(isinstance(each, list) and len(each) == 2 for each in listed):
            raise BadRequest(f"points are asked by {{\"points\": [[y, x], ..]}} or {{\"places\": [[latitude, longitude], ..]}}, at most {most} of them")
        numbers = float if "places" in given else int
        if any(type(number) not in (int, numbers) for each in listed for number in each):
            raise BadRequest("a point is two whole numbers, a place two numbers of degrees")
        points = [point_of(*each, self.side) for each in listed] if "places" in given else listed
        asked = [checked(QUESTIONS[path](*point)) for point in points]
        return lambda: [told(answer)[1] if isinstance(answer, Refusal) else plain(answer) for answer in self.session.ask_many(asked)]

    def point(self, given):
        if "y" in given and "x" in given:
            return int(given["y"]), int(given["x"])
        if "latitude" in given and "longitude" in given:
            return point_of(number_of(given["latitude"], "NS"), number_of(given["longitude"], "EW"), self.side)
        raise BadRequest("a point is needed: y and x, or latitude and longitude")


def command(path, headers, body):
    kind, names = COMMANDS[path]
    given = given_in(headers, body, names)
    return checked(kind(*(given[name] for name in names)))


def given_in(headers, body, names):
    """The object that a body is, with these names and no others."""
    sent_as(headers, "application/json")
    given = json.loads(body)
    if not isinstance(given, dict) or set(given) != set(names) or not isinstance(given.get("points", []), list):
        raise BadRequest(f"this command is an object with {' and '.join(names) or 'nothing in it'}")
    if any(isinstance(value, bool) for value in flattened(given.values())):
        raise BadRequest("a number is needed, not true or false")
    return given


def flattened(values):
    """Values, and those of lists in them."""
    for value in values:
        yield from flattened(value) if isinstance(value, list) else [value]


def sent_as(headers, kind):
    # Another site's page can't send these types without being allowed to.
    if headers.get("content-type", "").split(";")[0].strip() != kind:
        raise BadRequest(f"this command is sent as {kind}")


def log(status, asked, error):
    """One line of printed ASCII on standard error, whatever was sent."""
    print("service:", status, ascii(asked[:200])[1:-1], ascii(str(error)[:500])[1:-1], file=sys.stderr, flush=True)


def checked(question):
    """A question that a line can carry; BadArgument, which is a ValueError, otherwise."""
    question.line()
    return question


async def read_request(reader, writer):
    """The method, target, headers and body of the next request; None at the end."""
    try:
        head = await reader.readuntil(b"\r\n\r\n")
    except asyncio.IncompleteReadError as end:
        if not end.partial:
            return None
        raise
    first, *rest = head.decode("latin-1").split("\r\n")
    words = first.split(" ")
    named = [(name.strip().lower(), value.strip()) for name, _, value in (line.partition(":") for line in rest if line)]
    headers = dict(named)
    length = headers.get("content-length", "0")
    if len(words) != 3 or not words[2].startswith("HTTP/1."):
        raise BadRequest("this is no request of HTTP")
    if "transfer-encoding" in headers or [name for name, _ in named].count("content-length") > 1:
        raise BadRequest("a request states its length, once")
    longest = LONGEST_TILE if words[1].startswith("/import?") else LONGEST_LIST if words[1] in QUESTIONS else LONGEST_BODY
    if not (length.isascii() and length.isdecimal() and len(length) < 10 and int(length) <= longest):
        raise BadRequest(f"a request's body has at most {longest} bytes")
    if headers.get("expect", "").lower() == "100-continue":
        writer.write(b"HTTP/1.1 100 Continue\r\n\r\n")
    return words[0], words[1], headers, await reader.readexactly(int(length))


async def send(writer, status, answer, last=False, allowed=None):
    """Sends a reply; `last` where the connection ends with it, `allowed` an origin whose pages may read it."""
    sent = answer if isinstance(answer, Sent) else Sent(json.dumps(answer).encode(), "application/json")
    extra = ("Connection: close\r\n" if last else "") + (f"Access-Control-Allow-Origin: {allowed}\r\nVary: Origin\r\n" if allowed else "")
    head = f"HTTP/1.1 {status} -\r\nContent-Type: {sent.kind}\r\nContent-Length: {len(sent.body)}\r\nX-Content-Type-Options: nosniff\r\n{extra}\r\n"
    writer.write(head.encode() + sent.body)
    try:
        await asyncio.wait_for(writer.drain(), SECONDS_TO_SEND)
    except asyncio.TimeoutError:
        writer.transport.abort()  # else what it doesn't take stays in memory
        raise ConnectionAbortedError from None


def told(answer):
    """A status and what is said."""
    if isinstance(answer, Refusal):
        status = REFUSED.get(answer.number, 409)
        return status, {"error": str(answer), "number": answer.number, "word": answer.word, "cure": answer.cure}
    if isinstance(answer, StoreExists):
        return 409, {"error": str(answer)}
    if isinstance(answer, Exception):
        return 503, {"error": str(answer)}
    return 200, Sent(answer, "application/octet-stream") if isinstance(answer, bytes) else {"answer": plain(answer)}


def plain(answer):
    """An answer as JSON has it."""
    return {"cells": answer.cells, "runs": answer.runs} if hasattr(answer, "runs") else answer


ABOUT = {
    "/elevation": "The height of a point in metres; null where it is void.",
    "/fill": "The filled level of a point: as high as water stands before it runs off.",
    "/direction": "The D8 direction code of a point; 0 is off the mosaic.",
    "/trace": "The flow path of a point.",
    "/watershed": "The points that drain to a point: their number, and runs of y, first x, last x.",
    "/count": "How many commands were accepted.",
    "/health": "The same; 503 where the program can't be begun.",
    "/tiles": "The names of the present tiles.",
    "/sinks": "The declared sinks.",
    "/info": "What the store is and holds, how many tiles are fresh and stale.",
    "/export": "A tile's HGT bytes.",
    "/xyz/{layer}/{z}/{x}/{y}.png": "A picture of 256 pixels each way in Web Mercator.",
    "/wall": "Raises 1 to 64 points to a height.",
    "/burn": "Lowers 1 to 64 points by a depth.",
    "/patch": "Gives the voids of a box a height.",
    "/sink": "Declares a sink.",
    "/unsink": "Takes a sink back.",
    "/remove": "Takes a tile out.",
    "/step": "Floods one stale tile; its name, or null.",
    "/import": "Adds a tile of HGT bytes.",
    "/backup": "Copies the store to a file beside it; its name.",
}
PAIRS = {"type": "array", "items": {"type": "array", "items": {"type": "number"}, "minItems": 2, "maxItems": 2}}
KINDS = {"points": PAIRS, "tile": {"type": "string"}, "layer": {"type": "string", "enum": ["hillshade", "levels", "water"]}}


def openapi():
    """What the service answers, as an OpenAPI document."""
    paths = {path: {} for path in ABOUT}
    for path in QUESTIONS:
        paths[path]["get"] = operation(path, [parameter(name) for name in ("y", "x", "latitude", "longitude")])
        paths[path]["post"] = operation(path, body=one_of_lists(MOST_POINTS.get(path, MOST_OTHERWISE)))
    for path in (*OF_THE_STORE, "/info"):
        paths[path]["get"] = operation(path)
    for path, (_, names) in COMMANDS.items():
        paths[path]["post"] = operation(path, body={"application/json": {"schema": object_of(names)}})
    octets = {"application/octet-stream": {"schema": {"type": "string", "format": "binary"}}}
    paths["/export"]["get"] = operation("/export", [parameter("tile", required=True)], answer=octets)
    paths["/import"]["post"] = operation("/import", [parameter("tile", required=True)], octets)
    paths["/backup"]["post"] = operation("/backup", body={"application/json": {"schema": object_of(())}})
    name = "/xyz/{layer}/{z}/{x}/{y}.png"
    parts = [parameter(part, "path", True) for part in ("layer", "z", "x", "y")]
    paths[name]["get"] = operation(name, parts, answer={"image/png": {"schema": {"type": "string", "format": "binary"}}})
    about = {"title": "mosaic", "version": __version__, "description": "Drainage questions to a store of elevation tiles, and edits of its terrain."}
    return {"openapi": "3.0.3", "info": about, "paths": paths}


def parameter(name, where="query", required=False):
    kind = "number" if name in ("latitude", "longitude") else "integer"
    return {"name": name, "in": where, "required": required, "schema": KINDS.get(name, {"type": kind})}


def operation(path, parameters=(), body=None, answer=None):
    answers = answer or {"application/json": {"schema": {"type": "object", "properties": {"answer": {}}, "required": ["answer"]}}}
    refused = {"application/json": {"schema": {"type": "object", "properties": {"error": {"type": "string"}}, "required": ["error"]}}}
    made = {"summary": ABOUT[path], "parameters": list(parameters)} if parameters else {"summary": ABOUT[path]}
    if body is not None:
        made["requestBody"] = {"required": True, "content": body}
    return made | {"responses": {"200": {"description": "The answer.", "content": answers}, "default": {"description": "A refusal.", "content": refused}}}


def object_of(names):
    properties = {name: KINDS.get(name, {"type": "integer"}) for name in names}
    return {"type": "object", "properties": properties, "additionalProperties": False} | ({"required": list(names)} if names else {})


def one_of_lists(most):
    lists = [{"type": "object", "properties": {name: PAIRS | {"maxItems": most}}, "required": [name]} for name in ("points", "places")]
    return {"application/json": {"schema": {"oneOf": lists}}}


def page():
    """The same for a person to read."""
    rows = [
        f"<tr><td>{method.upper()}<td><code>{html.escape(path)}</code><td>{html.escape(', '.join(given_of(made)))}<td>{html.escape(made['summary'])}"
        for path, methods in openapi()["paths"].items()
        for method, made in methods.items()
    ]
    head = '<!doctype html><html lang="en"><meta charset="utf-8"><meta name="viewport" content="width=device-width"><title>mosaic</title><h1>mosaic</h1>'
    told = '<p>What this service answers; <a href="openapi.json">openapi.json</a> has it for programs.'
    return f"{head}{told}<table><thead><tr><th>Method<th>Path<th>Given<th>Answer<tbody>{''.join(rows)}</table>"


def given_of(made):
    """The names of what a request holds."""
    for content in made.get("requestBody", {}).get("content", {}).values():
        schema = content["schema"]
        yield from [name for each in schema.get("oneOf", [schema]) for name in each.get("properties", {})] or ["bytes"] * ("format" in schema)
    yield from (each["name"] for each in made.get("parameters", ()))


PAGES = {"/": lambda: Sent(page().encode(), "text/html; charset=utf-8"), "/openapi.json": openapi}


async def run(options):
    with open_place(options.store, options.program, wait=10, restart=True) as session:
        service = Service(session, options.store, options.origin)
        asking = asyncio.create_task(service.answers())
        server = await asyncio.start_server(service.serve, "127.0.0.1", options.port, limit=LONGEST_HEAD)
        port = server.sockets[0].getsockname()[1]
        print(f"service: {options.store} at http://127.0.0.1:{port}, program {session.pid}", flush=True)
        ended = asyncio.Event()
        for name in (signal.SIGINT, signal.SIGTERM):
            asyncio.get_running_loop().add_signal_handler(name, ended.set)
        await asyncio.wait([asking, asyncio.create_task(ended.wait())], return_when=asyncio.FIRST_COMPLETED)
        server.close()


def main():
    parser = argparse.ArgumentParser(description=__doc__.splitlines()[0])
    parser.add_argument("store")
    parser.add_argument("--port", type=int, default=8765)
    parser.add_argument("--program")
    parser.add_argument("--origin", action="append", default=[], help="pages of this origin may get pictures and answers")
    try:
        asyncio.run(run(parser.parse_args()))
    except (MosaicError, OSError) as error:
        sys.exit(f"service: {error}")


if __name__ == "__main__":
    main()
