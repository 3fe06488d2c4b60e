"""Networks of all tiles of a store, beside a plain program that walks each point's directions."""

from __future__ import annotations

import collections
import functools
import json
import math
import random
import unittest

from mosaic_store import Direction, Point, errors, memory_table
from mosaic_store.ellipsoid import cell_area, degree

from .support import PROGRAM, InFolder, hills, needs

SIDE = 11


class Plain:
    """What the network is by its definition, point by point."""

    def __init__(self, session) -> None:
        self.side, reach = session.side, session.side - 1
        corners = [(int(name[1:3]), int(name[4:7])) for name in session.tiles()]
        points = sorted({Point(a * reach + y, b * reach + x) for a, b in corners for y in range(self.side) for x in range(self.side)})
        answers = dict(zip(points, session.ask_many(errors_or_direction(points))))
        self.next = {point: way.onward(point) for point, way in answers.items() if isinstance(way, Direction)}
        self.level = {point: session.fill(*point) for point in self.next}
        self.counts: collections.Counter[Point] = collections.Counter()
        self.areas: collections.Counter[Point] = collections.Counter()
        for point in self.next:
            for at in self.path(point):
                self.counts[at] += 1
                self.areas[at] += cell_area(point.y, self.side)

    def path(self, point):
        while point is not None:
            yield point
            point = self.next[point]

    def first(self, point, stops):
        return next((at for at in self.path(point) if at in stops), None)

    def reaches(self, threshold):
        """By the first point of each: its points with the confluence, order, length, the next reach's first point."""
        stream = {point for point, count in self.counts.items() if count >= threshold}
        above = collections.defaultdict(list)
        for point in stream:
            above[self.next[point]].append(point)
        found = {}
        for head in (point for point in stream if len(above[point]) != 1):
            own = [head]
            while self.next[own[-1]] is not None and len(above[self.next[own[-1]]]) == 1:
                own.append(self.next[own[-1]])
            found[head] = own
        head_of = {point: head for head, own in found.items() for point in own}

        @functools.cache
        def order(head):
            orders = sorted((order(head_of[point]) for point in above[head]), reverse=True)
            return 1 if not orders else orders[0] + (orders[:2] == orders[:1] * 2)

        return {head: (own, order(head), sum(map(self.step, own)), self.next[own[-1]]) for head, own in found.items()}

    def step(self, point):
        """In metres, by a degree's lengths at the point's latitude."""
        onward = self.next[point]
        north, east = degree(point.y / (self.side - 1))
        return 0 if onward is None else math.hypot((onward.y - point.y) * north, (onward.x - point.x) * east) / (self.side - 1)


def errors_or_direction(points):
    from mosaic_store.questions import FlowDirection

    return (FlowDirection(*point) for point in points)


@needs("numpy")
class WholeStores(unittest.TestCase):
    """At every point, over three by three tiles and over some that don't hang together."""

    def sessions(self):
        for seed, left_out in ((1, ()), (2, ("N00E001", "N02E002")), (3, ("N01E000", "N01E001", "N01E002"))):
            with self.subTest(seed), memory_table(SIDE, 9, PROGRAM) as table:
                for name, data in hills(SIDE, 3, 3, seed).items():
                    if name not in left_out:
                        table.import_tile(name, data)
                if "N01E001" in table.tiles():
                    table.sink(17, 14)
                yield table, Plain(table)

    def laid(self, basins, parts, nothing):
        """The values of points, from bands."""
        from mosaic_store.basins import bands_of

        window = basins.window
        rows = [row for band in bands_of(parts, SIDE, window, nothing) for row in band.tolist()]
        self.assertEqual((len(rows), {len(row) for row in rows}), (window.height, {window.width}))
        return {Point(window.y1 - r, window.x0 + c): value for r, row in enumerate(rows) for c, value in enumerate(row) if value != nothing}

    def test_counts_and_heights_above_streams(self) -> None:
        from mosaic_store.basins import Basins

        for table, plain in self.sessions():
            basins = Basins(table)
            self.assertEqual(self.laid(basins, basins.counts(), 0), dict(plain.counts))
            for threshold in (5, 40):
                streams = {point for point, count in plain.counts.items() if count >= threshold}
                firsts = {point: plain.first(point, streams) for point in plain.next}
                wanted = {point: plain.level[point] - plain.level[first] for point, first in firsts.items() if first is not None}
                self.assertEqual(self.laid(basins, basins.above_streams(threshold), -1), wanted)

    def test_reaches(self) -> None:
        from mosaic_store.basins import Basins

        for table, plain in self.sessions():
            for threshold in (1, 5, 40):
                wanted = plain.reaches(threshold)
                features = Basins(table).stream_features(threshold)
                heads = [self.points(feature)[0] for feature in features]
                self.assertEqual(sorted(heads), sorted(wanted))
                self.assertEqual([feature["properties"]["id"] for feature in features], list(range(1, len(heads) + 1)))
                for head, feature in zip(heads, features):
                    own, order, length, after = wanted[head]
                    told = feature["properties"]
                    line = [*own, *([after] if after else [])]
                    self.assertEqual(self.points(feature), line if len(line) > 1 else line * 2)
                    self.assertEqual((told["order"], told["points"]), (order, plain.counts[own[-1]]))
                    self.assertEqual(None if told["next"] is None else heads[told["next"] - 1], after)
                    self.assertAlmostEqual(told["length_m"], length, delta=0.1)
                    self.assertAlmostEqual(told["km2"], plain.areas[own[-1]] / 1e6, delta=0.001)

    @staticmethod
    def points(feature):
        return [Point(round(y * (SIDE - 1)), round(x * (SIDE - 1))) for x, y in feature["geometry"]["coordinates"]]

    def test_catchments(self) -> None:
        from mosaic_store.basins import Basins

        chance = random.Random(3)
        for table, plain in self.sessions():
            outlets = chance.sample(sorted(plain.next), 40)
            found = Basins(table).catchments(outlets)
            own = collections.defaultdict(set)
            for point in plain.next:
                own[plain.first(point, set(outlets))].add(point)
            for outlet, catchment in zip(outlets, found):
                cells = [Point(y, x) for y, first, last in catchment.runs for x in range(first, last + 1)]
                self.assertEqual((set(cells), len(cells), catchment.cells), (own[outlet], len(own[outlet]), len(own[outlet])))
                self.assertTrue(all(b.y < a.y or b.first > a.last + 1 for a, b in zip(catchment.runs, catchment.runs[1:])), "runs are maximal")
                self.assertEqual(catchment.drained, plain.counts[outlet])
                self.assertAlmostEqual(catchment.drained_area / plain.areas[outlet], 1)
                after = plain.first(plain.next[outlet], set(outlets)) if plain.next[outlet] else None
                self.assertEqual(catchment.following, outlets.index(after) if after else -1)
            with self.assertRaises(errors.Void):
                Basins(table).catchments([Point(3, 2)])

    def test_snapping(self) -> None:
        from mosaic_store.basins import Basins

        for table, plain in self.sessions():
            basins = Basins(table)
            for outlet in sorted(plain.next)[::7]:
                near = [p for p in plain.next if max(abs(p.y - outlet.y), abs(p.x - outlet.x)) <= 2 and plain.counts[p] >= 15]
                best = min(near, key=lambda p: (max(abs(p.y - outlet.y), abs(p.x - outlet.x)), -plain.counts[p]), default=outlet)
                moved = basins.snapped(outlet, 2, 15)
                self.assertEqual(plain.counts[moved], plain.counts[best])


@needs("numpy")
class Commands(InFolder):
    def test_catchments_are_whole(self) -> None:
        path = self.store(SIDE)
        for row, told in (("3,2", "nothing drains to the point 3 2, which has no height"), ("99,2", "no tile of the store holds the point")):
            (self.folder / "outlets.csv").write_text(f"name,y,x\nford,5,5\nculvert,7,12\nagain,5,5\nwrong,{row}\n")
            done = self.command("hydrology", path, "catchments", "areas.geojson", "--outlets", "outlets.csv")
            self.refused(done, f"outlets.csv: line 5: {told}")
        (self.folder / "outlets.csv").write_text("name,y,x\nford,5,5\nculvert,7,12\nagain,5,5\n")
        done = self.command("hydrology", path, "catchments", "areas.geojson", "--outlets", "outlets.csv")
        told = "areas.geojson: 2 catchments; left out, at the point of another one: outlets.csv: line 4 (as outlets.csv: line 2)\n"
        self.assertEqual((done.returncode, done.stdout), (0, told))
        found = json.loads((self.folder / "areas.geojson").read_text())["features"]
        self.assertEqual([feature["properties"]["name"] for feature in found], ["ford", "culvert"])
        done = self.command("hydrology", path, "catchments", "areas.geojson", "--outlets", "outlets.csv", "--window", "0", "0", "1", "1")
        self.refused(done, "catchments are never cut, and take no --window")

    def test_a_region_has_the_network_of_its_tiles(self) -> None:
        path = self.store(SIDE)
        self.assertEqual(self.command("split", "region", path, "--square", "1").returncode, 0)
        (self.folder / "outlets.csv").write_text("y,x\n5,5\n7,12\n")
        for words in (("streams", "--threshold", "5"), ("catchments", "--outlets", "outlets.csv", "--reach", "2", "--threshold", "9"), ("accumulation",)):
            ending = "asc" if words == ("accumulation",) else "geojson"
            told = [self.command("hydrology", place, words[0], f"{name}.{ending}", *words[1:]) for name, place in (("one", path), ("many", "region"))]
            self.assertEqual([(done.returncode, done.stderr) for done in told], [(0, "")] * 2)
            self.assertEqual((self.folder / f"one.{ending}").read_text(), (self.folder / f"many.{ending}").read_text())


if __name__ == "__main__":
    unittest.main()
