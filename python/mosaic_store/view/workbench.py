"""What the map's page asks of a store: pictures, points, watersheds, and trials of edits that are kept or taken back.

A trial is made on a copy of the store in memory. Nothing of it reaches the store until it is kept, so that nothing is
left of it wherever the program is stopped. After an edit reached the store, stale tiles are flooded in the background.
"""

from __future__ import annotations

import base64
import contextlib
import pathlib
import tempfile
import threading
import time
from collections import OrderedDict
from collections.abc import Callable, Mapping, Sequence
from dataclasses import dataclass
from typing import Any

import numpy as np

from ..commands.raster import LAYERS
from ..ellipsoid import degree
from ..errors import MosaicError, Void
from ..geojson import Feature, collection, square_kilometres, trace_feature, watershed_feature
from ..grids import write_grid
from ..lattice import MOST_TILES, Point, Window, point_of
from ..network import network_of, stream_features
from ..places import place_of
from ..questions import Command, Watershed
from ..session import Session
from ..shading import WATERSHED
from ..snapping import snapped
from ..trials import Trial
from . import pictures
from .copies import Copy
from .edits import Edit, applied, made_in
from .region import Grid, Region
from .requests import BadRequest, Words, edits_in, edits_of_file, point_in, snap_in, text_in, threshold_in, window_in
from .water import Changed, Terrain, Water, changed_water

PIXELS = 256
"""Pixels each way of a picture of the map."""

MOST_ZOOM = 16

MOST_OF_A_PATH = 20_000
"""The most points of a flow path in an answer; a longer one is thinned."""

MOST_PIXELS = 2048
"""The most pixels each way of a picture in an answer; a larger one is thinned."""

MOST_KEPT = 100
"""How many of the trials that were kept can be undone: the newest."""

MOST_SHOWN = 4_000_000
"""The most points of a window whose streams or raster are asked for."""

SECONDS_BETWEEN_STEPS = 0.02
"""How long others may ask between two tiles that are flooded in the background."""

Left = Callable[[], bool]
"""Whether the page that asked has gone, or waits for no answer any more."""


class Cancelled(Exception):
    """Nobody waits for the answer any more."""


@dataclass(frozen=True)
class UnderWay:
    """A trial that is neither kept nor taken back yet."""

    number: int
    edits: list[Edit]
    session: Session
    """The copy in which it was made."""
    trial: Trial
    effects: dict[str, Any]
    """The description that pages get."""


@dataclass(frozen=True)
class Kept:
    """Edits in the store, and the commands that are still to be made to take them back."""

    edits: list[Edit]
    undo: list[Command]


class Workbench:
    """One store, asked by the pages of one map. Its calls may come from several threads."""

    def __init__(self, name: str, session: Session, copy: Callable[[], Session], base: str | None = None):
        """`copy` makes an empty mosaic in memory of the same side, with room for all tiles; `base` is the template of a base map."""
        self._name, self.base = name, base
        self._store = session
        self._lock = threading.RLock()
        self._copy = Copy(session, copy)
        self._trial: UnderWay | None = None
        self._trials = 0
        self._kept: list[Kept] = []
        self._pictures: OrderedDict[tuple[str, int, int, int, int], bytes] = OrderedDict()
        names = session.tiles()
        if not names:
            raise BadRequest("the store has no tile; import some first, as with mosaic-load")
        self.region = Region(session.side, names, session.export)
        self.lowest, self.highest = self.region.range_of_heights()
        bounds = self.region.bounds()
        self._metres = degree((bounds.y0 + bounds.y1) / 2 / (session.side - 1))[0] / (session.side - 1)
        self._is_closed = False
        self._is_stale = threading.Event()
        self._flooding = threading.Thread(target=self._flood, daemon=True)
        self._flooding.start()

    def close(self) -> None:
        self._is_closed = True
        self._is_stale.set()
        self._flooding.join()
        with self._lock:
            self._copy.drop()

    def _flood(self) -> None:
        """Floods tiles that edits of the map have made stale, one at a time, so that questions are answered in between."""
        while not self._is_closed:
            self._is_stale.wait()
            self._is_stale.clear()
            with contextlib.suppress(MosaicError):  # a question floods what it needs by itself
                while not self._is_closed and self._store.step() is not None:
                    time.sleep(SECONDS_BETWEEN_STEPS)

    def acts(self, left: Left = lambda: False) -> Mapping[str, Callable[[Words], Any]]:
        """What a request may ask for, by its path; `left` says whether its page still waits."""
        return {
            "ask": lambda words: self.ask(point_in(words)),
            "place": lambda words: self.place(text_in(words, "text")),
            "watershed": lambda words: self.watershed(point_in(words), snap_in(words)),
            "geojson": lambda words: self.geojson(point_in(words), words.get("what"), self._shown(words)),
            "streams": lambda words: self.streams(window_in(words), threshold_in(words), self._shown(words), left),
            "raster": lambda words: self.raster(window_in(words), words.get("what"), self._shown(words), left),
            "file": lambda words: self.file(text_in(words, "text"), words),
            "copy": lambda words: self.copy(),
            "drop": lambda words: self.drop(),
            "try": lambda words: self._changing(words, lambda: self.try_edits(edits_in(words), left)),
            "keep": lambda words: self._changing(words, self.keep),
            "discard": lambda words: self._changing(words, self.discard),
            "undo": lambda words: self._changing(words, self.undo),
        }

    def interrupt(self, thread: int) -> None:
        """Ends what a thread asks of the store just now."""
        self._store.interrupt(thread)

    @property
    def state(self) -> str:
        """Another text after each edit of the store, and after each change of the trial: pages see by it that they are out of date."""
        return f"{self._store.acknowledged}-{self._trials}"

    def _changing(self, words: Words, act: Callable[[], dict[str, Any]]) -> dict[str, Any]:
        """The answer to a change, for a page that shows the state."""
        with self._lock:
            if words.get("state", self.state) != self.state:
                raise BadRequest("another page has changed the store or its trial meanwhile: look at it, then press again")
            return act()

    def describe(self) -> dict[str, Any]:
        """What a page needs about the store before it draws."""
        with self._lock:
            state, under_way, kept = self.state, self._trial, [described(kept.edits) for kept in self._kept]
            copy = self._copy.described(len(self.region.corners))
        return {
            "state": state,
            "count": self._store.acknowledged,
            "name": self._name,
            "side": self.region.side,
            "metres": self._metres,
            "bounds": self.region.bounds(),
            "tiles": [corner.name for corner in sorted(self.region.corners)],
            "sinks": [list(point) for point in (under_way.session if under_way else self._store).sinks()],
            "lowest": self.lowest,
            "highest": self.highest,
            "deepest": pictures.DEEPEST_SHADE,
            "base": self.base,
            "copy": copy,
            "trial": under_way and {"edits": described(under_way.edits), **under_way.effects},
            "kept": kept,
        }

    # Pictures

    def picture(self, layer: str, zoom: int, row: int, column: int) -> bytes:
        """A picture of 256 x 256 pixels, each of 2^zoom points: "relief", or "store" or "trial" for standing water at zoom 0."""
        if zoom > MOST_ZOOM or (layer != "relief" and zoom):
            raise BadRequest("there is no picture at this zoom")
        with self._lock:
            trial, edits = self._trial if layer == "trial" else None, self.region.edits
            key = (layer, trial.number if trial else 0, zoom, row, column)
            held = self._pictures.get(key)
        if held is not None:
            return held
        step = 1 << zoom
        span = PIXELS * step
        grid = Grid(row * span + span - step, column * span, PIXELS, PIXELS, step)
        relief = layer == "relief"
        drawn = pictures.png(pictures.relief_of(self.region, grid, self.lowest, self.highest) if relief else self._standing(grid, trial))
        with self._lock:
            if edits == self.region.edits:
                self._pictures[key] = drawn
            while len(self._pictures) > 512:
                self._pictures.popitem(last=False)
        return drawn

    def _standing(self, grid: Grid, trial: UnderWay | None) -> pictures.Colours:
        heights = self.region.window_of(grid)
        if trial is None:
            return pictures.water(Terrain.of(self._store, heights).depths)
        return pictures.water(Terrain.of(trial.session, applied(trial.edits, heights)).depths)

    # Questions

    def place(self, text: str) -> dict[str, Any]:
        """The point of a place that was written."""
        return point_of(*place_of(text), self.region.side)._asdict()

    def ask(self, point: Point) -> dict[str, Any]:
        """Height, filled level, direction and flow path of a point, in the store and in the trial under way."""
        return self._of_both(self._inside(point), self._point_in)

    def watershed(self, point: Point, snap: int = 0) -> dict[str, Any]:
        """The watershed of a point, in the store and in the trial under way, which has moved it to the stream within some steps."""
        trial, at = self._trial, self._inside(point)
        if snap:
            at = snapped(trial.session if trial else self._store, point, snap)
        return self._of_both(at, lambda session, at: self._area(session.watershed(*at)))

    def _of_both(self, at: Point, answer: Callable[[Session, Point], dict[str, Any]]) -> dict[str, Any]:
        """The store's answer, and that of the trial under way; None if the point is void there."""
        trial = self._trial
        told: dict[str, Any] = {**at._asdict(), "store": None, "trial": None}
        if trial is None:
            return {**told, "store": answer(self._store, at)}
        for name, session in (("store", self._store), ("trial", trial.session)):
            with contextlib.suppress(Void):
                told[name] = answer(session, at)
        if self._trial is not trial:
            raise BadRequest("the trial has ended meanwhile: ask again")
        return told

    @staticmethod
    def _point_in(session: Session, at: Point) -> dict[str, Any]:
        height = session.elevation(*at)
        if height is None:
            return {"height": None}
        path = session.trace(*at)
        every = -(-len(path) // MOST_OF_A_PATH)
        told = [list(step) for step in path[::every]]
        if told[-1] != list(path[-1]):
            told.append(list(path[-1]))
        return {"height": height, "level": session.fill(*at), "direction": session.direction(*at).name, "steps": len(path), "path": told}

    def _area(self, found: Watershed) -> dict[str, Any]:
        """A watershed's points and area, and a picture of it with its box."""
        runs = np.array(found.runs, np.int64).reshape(-1, 3)
        top, bottom, left, right = runs[:, 0].max(), runs[:, 0].min(), runs[:, 1].min(), runs[:, 2].max()
        step = int(max(1, -(-max(top - bottom + 1, right - left + 1) // MOST_PIXELS)))
        rows, columns = int(top - bottom) // step + 1, int(right - left) // step + 1
        edges = np.zeros((rows, columns + 1), np.int64)
        np.add.at(edges, ((top - runs[:, 0]) // step, (runs[:, 1] - left) // step), 1)
        np.add.at(edges, ((top - runs[:, 0]) // step, (runs[:, 2] - left) // step + 1), -1)
        marked = edges.cumsum(1)[:, :-1] > 0
        box = {"top": int(top), "left": int(left), "rows": rows * step, "columns": columns * step}
        picture = as_url(pictures.mask(marked, WATERSHED, 120))
        return {"cells": found.cells, "km2": square_kilometres(found.runs, self.region.side), "box": box, "picture": picture}

    def geojson(self, point: Point, what: object, trial: UnderWay | None = None) -> Feature:
        """The "watershed" or the flow "path" of a point, as a file."""
        y, x = self._inside(point)
        session = trial.session if trial else self._store
        if what == "watershed":
            return collection([watershed_feature(session.watershed(y, x), point, self.region.side)])
        if what == "path":
            return collection([trace_feature(session.trace(y, x), self.region.side)])
        raise BadRequest('what is saved is a "watershed" or a "path"')

    def streams(self, window: Window, threshold: int, trial: UnderWay | None = None, left: Left = lambda: False) -> Feature:
        """The streams of a window, as a file: points through which `threshold` points or more drain."""
        session = trial.session if trial else self._store
        return collection(stream_features(network_of(session, self._met(window), unless(left)), threshold))

    def raster(self, window: Window, what: object, trial: UnderWay | None = None, left: Left = lambda: False) -> bytes:
        """The "heights", "levels", "water" or "directions" of a window as a GeoTIFF."""
        if not isinstance(what, str) or what not in LAYERS:
            raise BadRequest(f"a raster has {', '.join(LAYERS)}")
        window = self._met(window)
        heights = self.region.window_of(self.region.grid(window))
        session, heights = (trial.session, applied(trial.edits, heights)) if trial else (self._store, heights)
        array, no_data = LAYERS[what](session, heights, unless(left))
        with tempfile.TemporaryDirectory() as folder:
            path = pathlib.Path(folder) / "raster.tif"
            write_grid(str(path), array, window, self.region.side, no_data, what)
            return path.read_bytes()

    def _shown(self, words: Words) -> UnderWay | None:
        """The trial under way, if the request is about it."""
        return self._trial if words.get("trial") is True else None

    def _met(self, window: Window) -> Window:
        """A window within the bounds of the tiles."""
        met = window.met(self.region.bounds())
        if met is None:
            raise BadRequest("no tile is there")
        if met.height * met.width > MOST_SHOWN:
            raise BadRequest(f"this takes at most {MOST_SHOWN:,} points, and {met.height * met.width:,} are shown: zoom in")
        return met

    def _inside(self, point: Point) -> Point:
        if not self.region.holders([point]):
            raise BadRequest("no tile is there")
        return point

    # Trials

    def file(self, text: str, words: Words) -> dict[str, Any]:
        """The edits that a GeoJSON names."""
        return {"edits": described(edits_of_file(text, words, self.region.side))}

    def try_edits(self, edits: Sequence[Edit], left: Left = lambda: False) -> dict[str, Any]:
        """Makes edits in the copy, in place of the trial under way; answers the water before and after."""
        outside = [point for edit in edits for point in edit.points if edit.kind != "patch" and not self.region.holders([point])]
        if outside:
            raise BadRequest(f"a line leaves the tiles at y {outside[0].y}, x {outside[0].x}")
        with self._lock:
            copy = self._copy.living()
            if copy is None:
                raise BadRequest("a trial is made on a copy, and the store isn't copied yet: try again")
            if self._trial is not None:
                self.discard()
            trial = copy.begin_trial()
            try:
                for edit in edits:
                    edit.make(copy)
                effects = told(changed_water(self._store, copy, self.region, edits, unless(left)))
            except BaseException:
                self._take_back(trial, copy)
                raise
            self._trials += 1
            self._trial = UnderWay(self._trials, list(edits), copy, trial, effects)
            return effects

    def _take_back(self, trial: Trial, copy: Session) -> None:
        """Takes a trial back from its copy, which is dropped where that fails: the store never had it."""
        try:
            trial.take_back()
        except MosaicError:
            if self._copy.session is copy:
                self._copy.drop()

    def keep(self) -> dict[str, Any]:
        """Makes the trial's edits in the store."""
        with self._lock:
            under_way = self._under_way()
            self._kept.append(Kept(under_way.edits, made_in(self._store, under_way.edits)))
            del self._kept[:-MOST_KEPT]
            under_way.trial.keep()
            return self._ended(under_way.edits)

    def undo(self) -> dict[str, Any]:
        """Takes back the trial that was kept last: the store's heights are those before it, byte for byte."""
        with self._lock:
            if self._trial is not None:
                raise BadRequest("a trial is under way: keep it or take it back first")
            if not self._kept:
                raise BadRequest("no edit was kept that could be undone")
            kept = self._kept[-1]
            while kept.undo:
                self._store.ask(kept.undo[0])
                self._copy.follow(kept.undo.pop(0))
            self._kept.pop()
            return self._ended(kept.edits)

    def discard(self) -> dict[str, Any]:
        """Takes the trial's edits back from the copy; the store never had them."""
        with self._lock:
            under_way = self._under_way()
            self._take_back(under_way.trial, under_way.session)
            return self._ended([])

    def _ended(self, edits: Sequence[Edit]) -> dict[str, Any]:
        """Drops the trial, and the pictures of terrain that the store's edits changed."""
        self._trial = None
        self._trials += 1
        if edits:
            boxes = any(edit.kind == "patch" for edit in edits)
            points = (point for edit in edits for point in edit.points)
            self.region.forget(self.region.corners if boxes else self.region.holders(points))
            self._pictures.clear()
            self._is_stale.set()
        return {"count": self._store.acknowledged}

    def _under_way(self) -> UnderWay:
        if self._trial is None:
            raise BadRequest("no trial is under way")
        return self._trial

    def copy(self) -> dict[str, Any]:
        """Copies tiles for a moment; how many of how many are copied. To be asked until it is whole, before a trial."""
        if len(self.region.corners) > MOST_TILES:
            raise BadRequest(f"a trial is made on a copy of all tiles, which has at most {MOST_TILES}: open a smaller store")
        with self._lock:
            self._copy.go_on()
            return self._copy.described(len(self.region.corners))

    def drop(self) -> dict[str, Any]:
        """Gives the copy up, with the memory that it takes."""
        with self._lock:
            if self._trial is not None:
                raise BadRequest("a trial is under way: keep it or take it back first")
            self._copy.drop()
            return self._copy.described(len(self.region.corners))


def unless(left: Left) -> Callable[[int, int], None]:
    """Gets the progress of a long answer, and ends it where nobody waits for it."""

    def told(done: int, total: int) -> None:
        if left():
            raise Cancelled

    return told


def described(edits: Sequence[Edit]) -> list[dict[str, Any]]:
    return [edit.described() for edit in edits]


def told(changed: Changed) -> dict[str, Any]:
    """What edits change, as the page shows it."""
    before, after = changed.before.figures(), changed.after.figures()
    frame = changed.frame
    step = max(1, -(-max(frame.rows, frame.columns) // MOST_PIXELS))
    waters = {"before": (changed.before, before), "after": (changed.after, after)}
    return {
        "box": {"top": frame.top, "left": frame.left, "rows": frame.rows, "columns": frame.columns},
        "whole": changed.is_whole,
        "change": {name: after[name] - before[name] for name in before},
        "levels": changed.levels,
        **{name: {**figures, "picture": picture_of(water, step)} for name, (water, figures) in waters.items()},
    }


def picture_of(water: Water, step: int) -> str:
    return as_url(pictures.water(water.depths[::step, ::step]))


def as_url(colours: pictures.Colours) -> str:
    return "data:image/png;base64," + base64.b64encode(pictures.png(colours)).decode()
