"""mosaic-raster: a window's heights, filled levels, standing water or directions as a raster that GDAL opens."""

from __future__ import annotations

import argparse
import functools
import sys
from collections.abc import Callable, Sequence
from typing import TYPE_CHECKING, Any

from ..directions import directions_of
from ..grids import check_format, write_grid
from ..lattice import VOID
from ..rasters import NO_DIRECTION, Heights, Told, depths_of, heights_of, levels_of
from ..samples import needed_numpy
from ..session import Session
from .frame import (
    DONE,
    MOST_POINTS,
    Progress,
    add_places,
    add_window,
    check_size,
    opened,
    parser,
    run,
    shown_window,
    window_given,
    written_whole,
)

if TYPE_CHECKING:
    from ..samples import Array

NAME = "mosaic-raster"

MOST_HEIGHTS = 2_000_000_000
"""The most points of a window of heights: a GeoTIFF has at most 4 GB."""

DESCRIPTION = """Writes a window of a store as a raster: .tif for GeoTIFF, which needs rasterio, .asc for ESRI ASCII.

  heights     metres, by the seam rule
  levels      filled levels in metres
  water       depth of standing water in metres: the filled level less the height
  directions  where water goes: 1 E, 2 SE, 4 S, 8 SW, 16 W, 32 NW, 64 N, 128 NE, 0 off the mosaic

All but heights are asked in windows of at most 50 million points: of whole tiles at once where mosaic-tiles lies beside the
program, else by a question for each pit of the window, and for each point of a flat that reaches beyond it. A window of heights
has at most 2000 million points."""


def main(arguments: Sequence[str] | None = None) -> int:
    """Runs the command; its status."""
    return run(NAME, functools.partial(_write, _parsed(arguments)))


def _parsed(arguments: Sequence[str] | None) -> argparse.Namespace:
    made = parser(NAME, DESCRIPTION)
    made.add_argument("store")
    made.add_argument("what", choices=list(LAYERS))
    made.add_argument("output", help="the file to write: .tif or .asc")
    add_window(made)
    add_places(made)
    return made.options_of(arguments)


def _write(options: argparse.Namespace) -> int:
    needed_numpy()
    check_format(options.output)
    progress = Progress(NAME, 0, "questions")
    with opened(options.store, options.program) as session, written_whole(options.output) as path:
        window = window_given(options.window, session, options.points)
        check_size(window, options.what, MOST_HEIGHTS if options.what == "heights" else MOST_POINTS)
        heights = heights_of(session, window)
        array, no_data = LAYERS[options.what](session, heights, progress.tell_of)
        write_grid(path, array, window, session.side, no_data, options.what)
        progress.clear()
        print(f"{options.output}: {window.width} x {window.height} points, {shown_window(window, session.side)}")
    return DONE


def _heights(session: Session, heights: Heights, told: Told) -> tuple[Array, int]:
    return heights.samples, VOID


def _levels(session: Session, heights: Heights, told: Told) -> tuple[Array, int]:
    return levels_of(session, heights, told).astype("int16"), VOID


def _water(session: Session, heights: Heights, told: Told) -> tuple[Array, int]:
    return depths_of(heights, levels_of(session, heights, told)), VOID


def _directions(session: Session, heights: Heights, told: Told) -> tuple[Array, int]:
    return directions_of(session, heights, told), NO_DIRECTION


LAYERS: dict[str, Callable[[Session, Heights, Told], tuple[Any, int]]] = {
    "heights": _heights,
    "levels": _levels,
    "water": _water,
    "directions": _directions,
}


if __name__ == "__main__":
    sys.exit(main())
