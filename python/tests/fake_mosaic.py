#!/usr/bin/env python3
"""Serves the line language on small tiles, slowly and plainly: what the tests talk to where the program isn't built.

usage: fake_mosaic.py format PATH SIDE CAPACITY | serve PATH | table SIDE CAPACITY | check PATH

It shares no code with the package, so that it is also a second opinion on answers. A store's file is of its own kind. By the
name mosaic-tiles it takes the lines of whole tiles, too.
"""

import collections
import fcntl
import heapq
import os
import pickle
import re
import struct
import sys

MAGIC = b"a mosaic of the tests\n"
VOID = -32768
STEPS = [(1, 0, 1), (2, -1, 1), (4, -1, 0), (8, -1, -1), (16, 0, -1), (32, 1, -1), (64, 1, 0), (128, 1, 1)]
WORDS = {
    1: "BadLine", 2: "BadName", 3: "BadLength", 4: "TileThere", 5: "NoTile", 6: "Full", 7: "Outside", 8: "Void",
    9: "NothingVoid", 10: "BadHeight", 11: "BadDepth", 12: "BadBox", 13: "Repeated", 14: "TooDeep", 15: "SinkThere",
    16: "SinksFull", 17: "NoSink", 20: "Device", 22: "Failed", 30: "NotAStore", 32: "BadSide", 33: "BadCapacity",
}  # fmt: skip


class Refused(Exception):
    pass


class Mosaic:
    def __init__(self, side, capacity):
        self.side, self.capacity, self.count, self.tiles, self.sinks, self.fresh = side, capacity, 0, {}, set(), set()
        self.water = None

    # ---- heights ----

    def holders(self, y, x):
        m = self.side - 1
        for a in (y // m - 1, y // m):
            for b in (x // m - 1, x // m):
                if (a, b) in self.tiles and a * m <= y <= (a + 1) * m and b * m <= x <= (b + 1) * m:
                    yield (a, b), ((a + 1) * m - y) * self.side + x - b * m

    def height(self, y, x):
        held = [self.tiles[corner][at] for corner, at in self.holders(y, x)]
        if not held:
            raise Refused(7)
        return next((height for height in held if height != VOID), VOID)

    def ground(self, y, x):
        height = self.height(y, x)
        if height == VOID:
            raise Refused(8)
        return height

    def adjacent(self, y, x):
        mine = {corner for corner, _ in self.holders(y, x)}
        for code, dy, dx in STEPS:
            beside = list(self.holders(y + dy, x + dx))
            if mine & {corner for corner, _ in beside} and self.height(y + dy, x + dx) != VOID:
                yield code, y + dy, x + dx

    # ---- water ----

    def flooded(self):
        """The level and the direction of each ground point."""
        if self.water:
            return self.water
        m = self.side - 1
        points = {(y, x) for a, b in self.tiles for y in range(a * m, a * m + m + 1) for x in range(b * m, b * m + m + 1)}
        beside = {point: list(self.adjacent(*point)) for point in points if self.height(*point) != VOID}
        outlets = {point for point in beside if len(beside[point]) < 8 or point in self.sinks}
        levels, heap = {}, [(self.height(*point), point) for point in outlets]
        heapq.heapify(heap)
        while heap:
            level, point = heapq.heappop(heap)
            if point not in levels:
                levels[point] = level
                for _, y, x in beside[point]:
                    heapq.heappush(heap, (max(level, self.height(y, x)), (y, x)))
        self.water = levels, directed(beside, levels, outlets)
        return self.water

    # ---- lines ----

    def answer(self, words, payload):
        word, *rest = words
        if word in ("import", "remove", "export", "levels", "directions", "upstream"):
            corner = corner_of(rest[0])
            return getattr(self, word + "_tile")(corner, payload)
        if word in ("elev", "fill", "dir", "trace", "watershed"):
            return getattr(self, word)(*map(int, rest))
        if word in ("tiles", "sinks", "step", "count", "info"):
            return getattr(self, word + "_all")()
        getattr(self, word + "_points")(*map(int, rest))
        return self.accepted()

    def accepted(self):
        self.count += 1
        self.water = None
        self.fresh.clear()
        return f"OK {self.count}"

    def import_tile(self, corner, payload):
        if corner in self.tiles:
            raise Refused(4)
        if len(self.tiles) == self.capacity:
            raise Refused(6)
        self.tiles[corner] = list(struct.unpack(f">{self.side ** 2}h", payload))
        return self.accepted()

    def remove_tile(self, corner, _):
        if corner not in self.tiles:
            raise Refused(5)
        del self.tiles[corner]
        return self.accepted()

    def export_tile(self, corner, _):
        if corner not in self.tiles:
            raise Refused(5)
        data = struct.pack(f">{self.side ** 2}h", *self.tiles[corner])
        return f"OK {len(data)}", data

    def levels_tile(self, corner, _):
        levels = self.samples_of(corner, self.flooded()[0], VOID)
        return f"OK {2 * len(levels)}", struct.pack(f">{len(levels)}h", *levels)

    def directions_tile(self, corner, _):
        codes = self.samples_of(corner, self.flooded()[1], 255)
        return f"OK {len(codes)}", bytes(codes)

    def upstream_tile(self, corner, _):
        passed = collections.Counter(at for point in self.flooded()[1] for at in self.path(*point))
        counts = self.samples_of(corner, passed, 0)
        return f"OK {4 * len(counts)}", struct.pack(f">{len(counts)}I", *counts)

    def samples_of(self, corner, told, nothing):
        """The answer about each sample's point of a tile."""
        if corner not in self.tiles:
            raise Refused(5)
        m, (a, b) = self.side - 1, corner
        return [told.get((a * m + m - row, b * m + column), nothing) for row in range(m + 1) for column in range(m + 1)]

    def patch_points(self, y0, x0, y1, x1, height):
        if not -32767 <= height <= 32767:
            raise Refused(10)
        if not (0 <= y1 - y0 < self.side and 0 <= x1 - x0 < self.side):
            raise Refused(12)
        box = [(y, x) for y in range(y0, y1 + 1) for x in range(x0, x1 + 1)]
        voids = [point for point in box if any(True for _ in self.holders(*point)) and self.height(*point) == VOID]
        if not voids:
            raise Refused(9)
        self.give({point: height for point in voids})

    def burn_points(self, depth, *numbers):
        points = list(zip(numbers[::2], numbers[1::2]))
        if not 1 <= depth <= 32767:
            raise Refused(11)
        if len(set(points)) < len(points):
            raise Refused(13)
        heights = {}
        for point in points:
            heights[point] = self.ground(*point) - depth
            if heights[point] < -32767:
                raise Refused(14)
        self.give(heights)

    def wall_points(self, height, *numbers):
        points = list(zip(numbers[::2], numbers[1::2]))
        if not -32767 <= height <= 32767:
            raise Refused(10)
        if len(set(points)) < len(points):
            raise Refused(13)
        self.give({point: max(height, self.ground(*point)) for point in points})

    def give(self, heights):
        for point, height in heights.items():
            for corner, at in list(self.holders(*point)):
                self.tiles[corner][at] = height

    def sink_points(self, y, x):
        self.ground(y, x)
        if (y, x) in self.sinks:
            raise Refused(15)
        if len(self.sinks) == 16:
            raise Refused(16)
        self.sinks.add((y, x))

    def unsink_points(self, y, x):
        if (y, x) not in self.sinks:
            raise Refused(17)
        self.sinks.remove((y, x))

    def elev(self, y, x):
        height = self.height(y, x)
        return "OK void" if height == VOID else f"OK {height}"

    def fill(self, y, x):
        self.ground(y, x)
        return f"OK {self.flooded()[0][y, x]}"

    def dir(self, y, x):
        self.ground(y, x)
        return f"OK {self.flooded()[1][y, x]}"

    def path(self, y, x):
        directions = self.flooded()[1]
        found = [(y, x)]
        while code := directions[found[-1]]:
            dy, dx = next((dy, dx) for other, dy, dx in STEPS if other == code)
            found.append((found[-1][0] + dy, found[-1][1] + dx))
        return found

    def trace(self, y, x):
        self.ground(y, x)
        found = self.path(y, x)
        return "\n".join([f"OK {len(found)}"] + [f"{v} {u}" for v, u in found])

    def watershed(self, y, x):
        self.ground(y, x)
        directions, found, queue = self.flooded()[1], {(y, x)}, [(y, x)]
        while queue:
            v, u = queue.pop()
            for code, dy, dx in STEPS:
                if directions.get((v - dy, u - dx)) == code:
                    found.add((v - dy, u - dx))
                    queue.append((v - dy, u - dx))
        runs = []
        for v, u in sorted(found, key=lambda point: (-point[0], point[1])):
            if runs and runs[-1][0] == v and runs[-1][2] == u - 1:
                runs[-1][2] = u
            else:
                runs.append([v, u, u])
        return "\n".join([f"OK {len(found)} {len(runs)}"] + ["%d %d %d" % tuple(run) for run in runs])

    def tiles_all(self):
        return " ".join([f"OK {len(self.tiles)}"] + [name_of(corner) for corner in sorted(self.tiles)])

    def sinks_all(self):
        return "\n".join([f"OK {len(self.sinks)}"] + [f"{y} {x}" for y, x in sorted(self.sinks)])

    def step_all(self):
        stale = sorted(set(self.tiles) - self.fresh)
        self.fresh.update(stale[:1])
        return f"OK {name_of(stale[0])}" if stale else "OK none"

    def count_all(self):
        return f"OK {self.count}"

    def info_all(self):
        fresh = len(self.fresh)
        sizes = f"side {self.side} capacity {self.capacity} version 2"
        return f"OK {sizes} count {self.count} commits {self.count + 1} fresh {fresh} stale {len(self.tiles) - fresh}"

    def seams(self):
        m = self.side - 1
        points = {(y, x) for a, b in self.tiles for y in range(a * m, a * m + m + 1) for x in range(b * m, b * m + m + 1)}
        return sum(len({self.tiles[corner][at] for corner, at in self.holders(*point)}) > 1 for point in points)


def directed(beside, levels, outlets):
    directions, flat = {}, {}
    for point, others in beside.items():
        best = None
        for code, y, x in others:
            drop = levels[point] - levels[y, x]
            weight = drop * drop * (1 if code in (2, 8, 32, 128) else 2)
            if drop > 0 and (best is None or weight > best[0]):
                best = weight, code
        if best or point in outlets:
            directions[point], flat[point] = best[1] if best else 0, 0
    wave = list(flat)
    while wave:
        fresh = []
        for point in wave:
            for _, y, x in beside[point]:
                if (y, x) not in flat and levels[y, x] == levels[point]:
                    flat[y, x] = flat[point] + 1
                    fresh.append((y, x))
        wave = fresh
    for point, others in beside.items():
        if flat[point]:
            directions[point] = next(
                code for code, y, x in others if levels[y, x] == levels[point] and flat[y, x] == flat[point] - 1
            )
    return directions


def corner_of(name):
    found = re.fullmatch(r"([NS])(\d\d)([EW])(\d\d\d)", name, re.I)
    if not found:
        raise Refused(2)
    a, b = int(found[2]) * (-1 if found[1] in "Ss" else 1), int(found[4]) * (-1 if found[3] in "Ww" else 1)
    if not (-90 <= a <= 89 and -180 <= b <= 179):
        raise Refused(2)
    return a, b


def name_of(corner):
    a, b = corner
    return f"{'S' if a < 0 else 'N'}{abs(a):02d}{'W' if b < 0 else 'E'}{abs(b):03d}"


INT, WORD = r"-?\d{1,9}", r"[!-~]+"
GRAMMAR = re.compile(
    rf"import {WORD} \d{{1,9}}|(remove|export) {WORD}|patch {INT}( {INT}){{4}}|(burn|wall) {INT}( {INT} {INT}){{1,64}}"
    rf"|(sink|unsink|elev|fill|dir|trace|watershed) {INT} {INT}|tiles|sinks|step|count|quit",
    re.ASCII,
)
WHOLE = re.compile(rf"(levels|directions|upstream) {WORD}|info", re.ASCII)
TAKES_WHOLE = os.path.basename(sys.argv[0]) == "mosaic-tiles"
CHANGES = ("import", "remove", "patch", "burn", "wall", "sink", "unsink", "step")


def serve(mosaic, keep, incoming, outgoing):
    while line := incoming.readline():
        text = line.decode("latin-1").removesuffix("\n").removesuffix("\r")
        if text == "quit":
            outgoing.write(b"OK\n")
            break
        outgoing.write(reply(mosaic, keep, text, incoming))
        outgoing.flush()
    outgoing.flush()


def reply(mosaic, keep, text, incoming):
    payload = b""
    try:
        if len(text) > 2048 or not (GRAMMAR.fullmatch(text) or TAKES_WHOLE and WHOLE.fullmatch(text)):
            raise Refused(1)
        words = text.split(" ")
        if words[0] == "import":
            payload = incoming.read(int(words[2]))
            corner_of(words[1])
            if not len(payload) == int(words[2]) == 2 * mosaic.side**2:
                raise Refused(3)
        found = mosaic.answer(words, payload)
        if words[0] in CHANGES:
            keep(mosaic)
    except Refused as refused:
        return f"ERR {refused.args[0]} {WORDS[refused.args[0]]}\n".encode()
    head, data = found if isinstance(found, tuple) else (found, b"")
    return head.encode() + b"\n" + data


def told(line, status):
    print(line)
    sys.exit(status)


def opened(path):
    try:
        file = open(path, "rb+")
        fcntl.flock(file, fcntl.LOCK_EX | fcntl.LOCK_NB)
    except OSError:
        told(f"mosaic: cannot open {path}", 1)
    data = file.read()
    if not data.startswith(MAGIC):
        told("ERR 30 NotAStore", 1)
    return file, pickle.loads(data.removeprefix(MAGIC))


def keeper(file):
    def keep(mosaic):
        water, mosaic.water = mosaic.water, None
        data = MAGIC + pickle.dumps(mosaic)
        mosaic.water = water
        os.pwrite(file.fileno(), data, 0)  # one call: a kill falls before it or after it

    return keep


def main():
    if any(word.startswith("-") for word in sys.argv[1:]):
        told("mosaic: bad arguments", 2)
    word, path, *rest = sys.argv[1:]
    if word == "table":
        side, capacity = int(path), int(rest[0])
        serve(Mosaic(side, capacity), lambda mosaic: None, sys.stdin.buffer, sys.stdout.buffer)
    elif word == "format":
        side, capacity = map(int, rest)
        for number, fits in ((32, 3 <= side <= 3601), (33, 1 <= capacity <= 240)):
            if not fits:
                told(f"ERR {number} {WORDS[number]}", 1)
        if os.path.lexists(path):
            told(f"mosaic: exists {path}", 1)
        try:
            with open(path, "xb+") as file:
                keeper(file)(Mosaic(side, capacity))
        except OSError:
            told(f"mosaic: cannot open {path}", 1)
        told("OK 0", 0)
    else:
        file, mosaic = opened(path)
        if word == "serve":
            serve(mosaic, keeper(file), sys.stdin.buffer, sys.stdout.buffer)
        elif word == "check":
            tiles = [f"{name_of(corner)} {'fresh' if corner in mosaic.fresh else 'stale'}" for corner in sorted(mosaic.tiles)]
            told("\n".join([f"count {mosaic.count} commits {mosaic.count + 1}", *tiles, f"seams {mosaic.seams()}"]), 0)


if __name__ == "__main__":
    main()
