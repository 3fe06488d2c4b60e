"""Edits of a region: each goes to every store that has its points, all or none.

A command is tested first, as a store of all tiles would, so that no store refuses its part. Where several lines come of it
they are written down before the first is sent, and a session that opens the region later sends what is missing.

Stores know their own tiles alone. At a point of several stores, of which the tiles disagree, a store may have another height
than the region: it gets the line that brings its tiles to the height that the region's get.
"""

from __future__ import annotations

import json
import pathlib
from collections.abc import Callable, Iterable, Mapping, Sequence
from dataclasses import dataclass
from typing import TYPE_CHECKING, Any

import numpy as np

from .errors import (
    BadBox,
    BadDepth,
    BadHeight,
    BadLength,
    BadName,
    MosaicError,
    NoMemory,
    NoSink,
    NothingVoid,
    NoTile,
    Outside,
    Repeated,
    SinksFull,
    SinkThere,
    TileThere,
    TooDeep,
    Void,
    Worn,
)
from .files import replacing, sync_folder
from .joining import runs_of
from .lattice import GREATEST_HEIGHT, LEAST_HEIGHT, VOID, Point, Window, corner_of
from .questions import Burn, Command, Import, Patch, Remove, Sink, Unsink, Wall
from .samples import array_of

if TYPE_CHECKING:
    from .regions import Part, Region, Tile
    from .samples import Array

FILE = "edit.json"
"""The lines of an edit that goes to several stores, until each has its own."""

_MOST_SINKS = 16

Lines = dict[str, list[Command]]
"""Of each store what it is sent."""


@dataclass(frozen=True, slots=True)
class _Line(Command):
    """A line as the region's file has it."""

    text: str

    def line(self) -> str:
        return self.text


def finish_edit(region: Region) -> None:
    """Sends the missing part of an edit that was interrupted."""
    path = region.folder / FILE
    try:
        planned = json.loads(path.read_text(encoding="ascii"))
    except FileNotFoundError:
        return
    except (ValueError, RecursionError):
        raise MosaicError(f"{path}: not read as an edit: remove it, and compare the stores' edges") from None
    _send(region, {name: (about["count"], [_Line(text) for text in about["lines"]]) for name, about in planned.items()})
    _strike(path)


def _send(region: Region, planned: Mapping[str, tuple[int, Sequence[Command]]]) -> None:
    """Sends each store the lines that it hasn't accepted, from the count that it had before."""
    for name, (before, lines) in planned.items():
        session = region.parts[name].session
        made = session.count() - before
        if not 0 <= made <= len(lines):
            raise MosaicError(f"{region.folder / name}: it was changed by itself while an edit was under way: take a copy of the region")
        for line in lines[made:]:
            session.ask(line)


def _strike(path: pathlib.Path) -> None:
    path.unlink()
    sync_folder(path.parent)


class Edits:
    """Makes the commands of a region."""

    def __init__(self, region: Region) -> None:
        self._region = region
        self._is_broken_off = False

    def make(self, command: Command) -> int:
        """Makes a command; the count after it. The refusal of a store that has all tiles."""
        _MAKES[type(command)](self, command)
        return self._region.acknowledged

    def finish(self) -> None:
        """Sends the missing part of an edit that an error or an interruption stopped; raises what a store raises that
        can't do it."""
        if self._is_broken_off:
            finish_edit(self._region)
            self._is_broken_off = False
            self._region.changed(())

    def _carry_out(self, lines: Lines, names: Iterable[str]) -> None:
        """Sends lines that change some tiles, all or none."""
        lines = {name: own for name, own in lines.items() if own}
        self._region.suspect(names)
        path = self._region.folder / FILE
        planned = {name: (self._region.parts[name].session.count(), own) for name, own in lines.items()}
        if sum(map(len, lines.values())) == 1:
            _send(self._region, planned)
            self._region.changed(())
            return
        with replacing(path) as made, open(made, "w", encoding="ascii") as file:
            json.dump({name: {"count": count, "lines": [line.line() for line in own]} for name, (count, own) in planned.items()}, file)
        sync_folder(path.parent)
        self._is_broken_off = True
        try:
            _send(self._region, planned)
        except (NoMemory, Worn):
            if all(self._region.parts[name].session.count() == count for name, (count, _) in planned.items()):
                self._struck(path)  # else the rest is sent before the next question
            raise
        self._struck(path)
        self._region.changed(())

    def _struck(self, path: pathlib.Path) -> None:
        _strike(path)
        self._is_broken_off = False

    # ---- tiles ----

    def _import(self, command: Import) -> None:
        region, corner = self._region, corner_of(command.name)
        if corner is None:
            raise BadName()
        if len(command.data) != 2 * region.side**2:
            raise BadLength()
        if corner.name in region.held:
            raise TileThere()
        part = region.store_for(corner)
        part.session.ask(command)
        region.tiles_changed(part)

    def _remove(self, command: Remove) -> None:
        region, corner = self._region, corner_of(command.name)
        if corner is None:
            raise BadName()
        if corner.name not in region.held:
            raise NoTile()
        part = region.part_of(corner.name)
        part.session.ask(command)
        region.tiles_changed(part)

    # ---- heights ----

    def _burn(self, command: Burn) -> None:
        if not 1 <= command.depth <= GREATEST_HEIGHT:
            raise BadDepth()
        points = _once(command.points)
        targets = {}
        for point in points:
            targets[point] = self._ground(point) - command.depth
            if targets[point] < LEAST_HEIGHT:
                raise TooDeep()
        self._lower_or_raise(targets, lambda points: Burn(command.depth, points))

    def _wall(self, command: Wall) -> None:
        if not LEAST_HEIGHT <= command.height <= GREATEST_HEIGHT:
            raise BadHeight()
        targets = {point: max(command.height, self._ground(point)) for point in _once(command.points)}
        self._lower_or_raise(targets, lambda points: Wall(command.height, points))

    def _ground(self, point: Point) -> int:
        """The height of a point. Outside or Void."""
        if not self._region.holders(point):
            raise Outside()
        height = self._region.height(point)
        if height is None:
            raise Void()
        return height

    def _lower_or_raise(self, targets: dict[Point, int], command_of: Callable[[tuple[Point, ...]], Command]) -> None:
        """Gives points their heights: by the command itself in a store that has their heights as the region does."""
        alike: dict[str, list[Point]] = {}
        apart: Lines = {}
        touched: set[str] = set()
        for point, target in targets.items():
            tiles = self._region.holders(point)
            touched.update(tile.name for tile in tiles)
            height = self._region.height(point)
            for name in dict.fromkeys(self._region.part_of(tile.name).name for tile in tiles):
                own = height if len(tiles) == 1 else self._region.parts[name].session.elevation(*point)
                if own == height:
                    alike.setdefault(name, []).append(point)
                else:
                    apart.setdefault(name, []).extend(_to_height(point, own, target))
        names = dict.fromkeys([*alike, *apart])
        joint = {name: [command_of(tuple(alike[name]))] if name in alike else [] for name in names}
        self._carry_out({name: joint[name] + apart.get(name, []) for name in names}, touched)

    def _patch(self, command: Patch) -> None:
        if not LEAST_HEIGHT <= command.height <= GREATEST_HEIGHT:
            raise BadHeight()
        box, side = command.box, self._region.side
        if not (1 <= box.width <= side and 1 <= box.height <= side):
            raise BadBox()
        tiles = [tile for tile in self._region.held.values() if tile.corner.window(side).met(box) is not None]
        void = np.ones((box.height, box.width), bool)
        of_part: dict[str, tuple[Array, Array]] = {}
        for tile in tiles:
            part = self._region.part_of(tile.name)
            held, own_void = of_part.setdefault(part.name, (np.zeros(void.shape, bool), np.ones(void.shape, bool)))
            place, is_void = self._void_in(part, tile, box)
            held[place] = True
            own_void[place] &= is_void
            void[place] &= is_void
        held_by_any = np.zeros(void.shape, bool)
        for held, _ in of_part.values():
            held_by_any |= held
        if not (void & held_by_any).any():
            raise NothingVoid()
        lines: Lines = {}
        for name, (held, own_void) in of_part.items():
            wanted = void & held
            whole = np.array_equal(wanted, own_void & held)
            boxes = [box] if whole and wanted.any() else [Window(y, first, y, last) for y, first, last in runs_of(wanted, box).tolist()]
            lines[name] = [Patch(*each, command.height) for each in boxes]
        self._carry_out(lines, [tile.name for tile in tiles])

    def _void_in(self, part: Part, tile: Tile, box: Window) -> tuple[tuple[slice, slice], Array]:
        """The part of a tile in a box, and which of its samples are void."""
        window = tile.corner.window(self._region.side)
        common = window.met(box)
        assert common is not None
        samples = array_of(part.session.export(tile.name))
        own = samples[window.y1 - common.y1 : window.y1 - common.y0 + 1, common.x0 - window.x0 : common.x1 - window.x0 + 1]
        place = slice(box.y1 - common.y1, box.y1 - common.y0 + 1), slice(common.x0 - box.x0, common.x1 - box.x0 + 1)
        return place, own == VOID

    # ---- sinks ----

    def _sink(self, command: Sink) -> None:
        point = Point(command.y, command.x)
        self._ground(point)
        if any(point in part.sinks for part in self._region.parts.values()):
            raise SinkThere()
        parts = dict.fromkeys(self._region.part_of(tile.name).name for tile in self._region.holders(point))
        for part in (self._region.parts[name] for name in parts):
            if len(part.sinks) < _MOST_SINKS and part.session.elevation(*point) is not None:
                part.session.ask(command)
                self._region.sinks_changed(part, point)
                return
        raise SinksFull()

    def _unsink(self, command: Unsink) -> None:
        point = Point(command.y, command.x)
        part = next((part for part in self._region.parts.values() if point in part.sinks), None)
        if part is None:
            raise NoSink()
        part.session.ask(command)
        self._region.sinks_changed(part, point)


_MAKES: dict[type, Callable[[Edits, Any], None]] = {
    Import: Edits._import,
    Remove: Edits._remove,
    Burn: Edits._burn,
    Wall: Edits._wall,
    Patch: Edits._patch,
    Sink: Edits._sink,
    Unsink: Edits._unsink,
}


def _once(points: Sequence[tuple[int, int]]) -> list[Point]:
    """Points, each named once. Repeated."""
    listed = [Point(*point) for point in points]
    if len(set(listed)) < len(listed):
        raise Repeated()
    return listed


def _to_height(point: Point, height: int | None, target: int) -> list[Command]:
    """What brings a point of a store from a height to another one, in each of its tiles."""
    if height is None:
        return [Patch(point.y, point.x, point.y, point.x, target)]
    lines: list[Command] = []
    while height > target:
        depth = min(GREATEST_HEIGHT, height - target)
        lines.append(Burn(depth, (point,)))
        height -= depth
    return lines or [Wall(target, (point,))]
