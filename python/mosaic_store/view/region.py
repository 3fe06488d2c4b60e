"""The terrain of a store as arrays: its tiles' samples, and heights on a grid of points by the seam rule."""

from __future__ import annotations

import functools
import math
import threading
from collections import OrderedDict
from collections.abc import Callable, Iterable
from dataclasses import dataclass

import numpy as np
from numpy.typing import NDArray

from ..lattice import VOID, Corner, Point, Window, corners_named, corners_of
from ..rasters import Heights, lay
from ..samples import array_of

Samples = NDArray[np.int16]
"""Heights in whole metres; `VOID` where there is none."""

OVERVIEW_STEP = 8
"""The samples of an overview lie this many points apart."""


@dataclass(frozen=True)
class Grid:
    """Points at equal distances: row i, column j is the point y = top - i * step, x = left + j * step."""

    top: int
    left: int
    rows: int
    columns: int
    step: int

    def ys(self) -> NDArray[np.int64]:
        return self.top - self.step * np.arange(self.rows)

    def xs(self) -> NDArray[np.int64]:
        return self.left + self.step * np.arange(self.columns)


class Region:
    """The tiles of a store. Whole tiles are cached within a number of bytes, and an overview of each besides."""

    def __init__(self, side: int, names: Iterable[str], export: Callable[[str], bytes], most_bytes: int = 400 << 20):
        self.side = side
        self.corners: frozenset[Corner] = frozenset(corners_named(names))
        self._export = export
        self._lock = threading.Lock()
        self._most_tiles = max(4, most_bytes // (2 * side * side))
        self._tiles: OrderedDict[Corner, Samples] = OrderedDict()
        self._overviews: dict[Corner, Samples] = {}
        self.edits = 0
        """How often tiles were edited: an edit empties the cache."""

    def bounds(self) -> Window:
        """The least box of points that has all tiles in it."""
        return Window.around(corner.window(self.side) for corner in self.corners)

    def range_of_heights(self) -> tuple[int, int]:
        """The heights below and above which one sample in a hundred lies; they span the colours of a picture."""
        parts = [overview[overview != VOID] for overview in map(self.overview, self.corners)]
        ground = np.concatenate(parts) if parts else np.empty(0, np.int16)
        if not ground.size:
            return 0, 1
        low, high = np.percentile(ground, [1, 99])
        return math.floor(low), max(math.floor(low) + 1, math.ceil(high))

    def forget(self, corners: Iterable[Corner]) -> None:
        """Lets go of the samples of tiles that were edited."""
        with self._lock:
            self.edits += 1
            for corner in corners:
                self._tiles.pop(corner, None)
                self._overviews.pop(corner, None)

    def tile(self, corner: Corner) -> Samples:
        """The samples of a present tile, side x side, from the north-west."""
        with self._lock:
            held = self._tiles.get(corner)
            if held is not None:
                self._tiles.move_to_end(corner)
                return held
            edits = self.edits
        samples = array_of(self._export(corner.name))
        with self._lock:
            if edits == self.edits:
                self._tiles[corner] = samples
                self._overviews[corner] = samples[::OVERVIEW_STEP, ::OVERVIEW_STEP].copy()
            while len(self._tiles) > self._most_tiles:
                self._tiles.popitem(last=False)
        return samples

    def overview(self, corner: Corner) -> Samples:
        """Each eighth sample of each eighth row of a present tile."""
        overview = self._overviews.get(corner)
        return self.tile(corner)[::OVERVIEW_STEP, ::OVERVIEW_STEP] if overview is None else overview

    def heights(self, grid: Grid) -> tuple[Samples, NDArray[np.bool_]]:
        """The heights on a grid, and which of its points some tile has.

        Where tiles share a point, its height is the first that isn't void, by rising latitude, then longitude. A grid
        of wide steps is read from overviews, so that its heights may be those of samples nearby.
        """
        heights = np.full((grid.rows, grid.columns), VOID, np.int16)
        held = np.zeros((grid.rows, grid.columns), np.bool_)
        ys, xs = grid.ys(), grid.xs()
        coarse = OVERVIEW_STEP if grid.step >= OVERVIEW_STEP else 1
        source = self.overview if coarse > 1 else self.tile
        for corner in sorted(self.corners):
            lay(functools.partial(source, corner), corner.window(self.side), ys, xs, heights, held, coarse)
        return heights, held

    @staticmethod
    def grid(window: Window) -> Grid:
        """The points of a window."""
        return Grid(window.y1, window.x0, window.height, window.width, 1)

    def window_of(self, grid: Grid) -> Heights:
        """The heights on a grid of single points, as questions of a whole window take them."""
        window = Window(grid.top - grid.rows + 1, grid.left, grid.top, grid.left + grid.columns - 1)
        samples, held = self.heights(grid)
        return Heights(window, self.side, 1, grid.ys(), grid.xs(), samples, held, tuple(sorted(self.corners)))

    def holders(self, points: Iterable[Point]) -> set[Corner]:
        """The present tiles that hold any of some points."""
        return {corner for point in points for corner in corners_of(point, self.side) if corner in self.corners}
