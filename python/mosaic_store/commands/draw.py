"""mosaic-draw: a picture of a window with a watershed, standing water, a flow path, a road."""

from __future__ import annotations

import argparse
import functools
import pathlib
import sys
from collections.abc import Sequence
from typing import TYPE_CHECKING

from ..drawing import Scene, draw, range_of
from ..lattice import Point, degrees_of
from ..questions import Watershed
from ..rasters import Heights, depths_of, heights_of, levels_of
from ..session import Session
from .frame import (
    DONE,
    CommandError,
    Progress,
    add_places,
    add_snap,
    add_window,
    check_picture,
    number,
    opened,
    outlet_given,
    parser,
    point_given,
    run,
    shown_place,
    window_around,
    window_given,
    written_whole,
)

if TYPE_CHECKING:
    from ..samples import Array

NAME = "mosaic-draw"
MOST_POINTS = 1201  # a whole tile of 3 arc seconds
DESCRIPTION = f"""Draws a window of a store: shaded heights with degrees, a scale and a legend, on them what is asked for.

  mosaic-draw STORE river.png --watershed 37.5 -105.25
  mosaic-draw STORE pond.png --window 0.12 0.32 0.17 0.37 --water --road 0.1525 0.3275 0.1525 0.3525

Without --window it is the one around what is asked for, or all tiles. One of more than {MOST_POINTS} points one way is thinned.
Standing water isn't drawn in thinned ones; where mosaic-tiles isn't beside the program, it takes a question for each pit."""


def main(arguments: Sequence[str] | None = None) -> int:
    """Runs the command; its status."""
    return run(NAME, functools.partial(_draw, _parsed(arguments)))


def _parsed(arguments: Sequence[str] | None) -> argparse.Namespace:
    made = parser(NAME, DESCRIPTION)
    made.add_argument("store")
    made.add_argument("picture", help="the file to write: .png, .svg or .pdf")
    add_window(made, "what is around the rest, or all tiles,")
    place = ("LATITUDE", "LONGITUDE")
    made.add_argument("--watershed", nargs=2, type=number, metavar=place, help="the watershed of a place, its outlet")
    made.add_argument("--trace", nargs=2, type=number, metavar=place, help="the flow path of a place")
    made.add_argument("--road", nargs="+", type=number, default=[], metavar="LATITUDE LONGITUDE", help="a line of places")
    made.add_argument("--water", action="store_true", help="standing water")
    made.add_argument("--title", help="what stands above; the store's name without it")
    add_places(made)
    add_snap(made)
    options = made.options_of(arguments)
    if len(options.road) % 2 or len(options.road) == 2:
        made.error("a road takes two places or more, two numbers each")
    return options


def _draw(options: argparse.Namespace) -> int:
    check_picture(options.picture)
    with opened(options.store, options.program) as session, written_whole(options.picture) as path:
        scene = _scene(session, options)
        draw(scene, path)
    print(f"{options.picture}: {_told(scene)}")
    return DONE


def _scene(session: Session, options: argparse.Namespace) -> Scene:
    pairs = zip(options.road[::2], options.road[1::2])
    road = [point_given(pair, session, options.points) for pair in pairs]
    outlet = None if options.watershed is None else outlet_given(options.watershed, session, options)
    watershed = None if outlet is None else session.watershed(*outlet)
    path = [] if options.trace is None else session.trace(*point_given(options.trace, session, options.points))
    window = window_given(options.window, session, options.points)
    if options.window is None:
        window = window_around(window, [*road, *path, *_ends(watershed)])
    every = -(-max(window.height, window.width) // MOST_POINTS)
    if options.water and every > 1:
        raise CommandError(
            f"standing water is drawn in windows of at most {MOST_POINTS} points each way, and this one has "
            f"{window.width} x {window.height}: give a smaller --window"
        )
    title = options.title or pathlib.Path(options.store).name
    scene = Scene(heights_of(session, window, every), title, watershed, outlet, path=path, road=road)
    if options.water:
        scene.depths = depths_of(scene.heights, _levels(session, scene.heights))
    return scene


def _ends(watershed: Watershed | None) -> list[Point]:
    return [] if watershed is None else [Point(y, x) for y, first, last in watershed.runs for x in (first, last)]


def _levels(session: Session, heights: Heights) -> Array:
    progress = Progress(NAME, 0, "levels asked")
    levels = levels_of(session, heights, progress.tell_of)
    progress.clear()
    return levels


def _told(scene: Scene) -> str:
    """What the picture shows, in a line."""
    low, high = range_of(scene.heights)
    parts = [f"heights from {low} to {high} m"]
    if scene.watershed is not None and scene.outlet is not None:
        place = shown_place(degrees_of(scene.outlet, scene.heights.side))
        parts.append(f"{scene.watershed.cells} points drain to {place}")
    if scene.depths is not None:
        parts.append(f"{int((scene.depths > 0).sum())} points under water, at most {max(0, int(scene.depths.max()))} m deep")
    return "; ".join(parts)


if __name__ == "__main__":
    sys.exit(main())
