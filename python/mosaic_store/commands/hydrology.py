"""mosaic-hydrology: accumulation, streams, catchments, reservoirs, floods and paths of a window, as files for others."""

from __future__ import annotations

import argparse
import collections
import contextlib
import csv
import functools
import math
import os
import pathlib
import sys
from collections.abc import Callable, Iterable, Iterator, Mapping, Sequence
from typing import TYPE_CHECKING, Any

from .. import lines
from ..files import sync_folder
from ..ellipsoid import cell_area
from ..geojson import Feature, line_feature, points_feature, square_kilometres
from ..grids import ASCII, GEOTIFF, check_format, write_bands
from ..lattice import Corner, Point, Window, corners_named, corners_of
from ..questions import Elevation
from ..samples import needed_numpy
from ..session import Session
from ..signals import DeferredSignals
from ..snapping import FARTHEST
from ..vectors import check_vector, write_vector
from .frame import (
    DONE,
    CommandError,
    Progress,
    add_places,
    add_window,
    check_picture,
    check_place,
    check_size,
    flood,
    number,
    opened,
    parser,
    point_given,
    point_told,
    run,
    shown_place,
    window_around,
    window_given,
    written_whole,
)
from .given import Outlet, features_of, outlets_of, told_at

if TYPE_CHECKING:
    from ..basins import Basins
    from ..culverts import Culvert
    from ..flooding import Valley
    from ..network import Network
    from ..rasters import Told
    from ..samples import Array
    from ..trials import Trial

NAME = "mosaic-hydrology"
DESCRIPTION = """What drains where in a store, or in a window of it. It needs numpy.

  mosaic-hydrology STORE accumulation points.tif       how many points drain through each, as a raster (.tif, .asc)
  mosaic-hydrology STORE above hand.tif --threshold 1000
                                                       metres above the nearest stream on each point's flow path
  mosaic-hydrology STORE streams streams.geojson --threshold 1000
                                                       reaches with id and next, order (Strahler), length, drained points
                                                       and km2; in a --window order is 1 where a stream enters it
  mosaic-hydrology STORE catchments areas.geojson --outlets culverts.csv --reach 5
                                                       nested catchments, whole, each with the next; columns latitude and
                                                       longitude (or y and x), or a GeoJSON of points; all other columns are
                                                       carried on, as id_1 what is called id as here. An outlet at the point
                                                       of one before it is left out
  mosaic-hydrology STORE flooded floods.geojson --depths 1 2 5
                                                       standing water as polygons by depth in metres
  mosaic-hydrology STORE path path.geojson --at 37.5 -105.25
                                                       the longest flow path to a place: slope, time of concentration
  mosaic-hydrology STORE reservoir stages.csv --dam 37.5 -105.25 37.52 -105.25 --crest 2100 --before 37.51 -105.26
                                                       level, area and volume behind a dam that stands in a table in
                                                       memory; --picture dam.png draws the full reservoir
  mosaic-hydrology STORE flood depths.tif --at 37.5 -105.25 --stage 3 --reach 5
                                                       depths of the reach at a gauge whose water stands so many metres above
                                                       the stream, by heights above it; .geojson or .gpkg for the extent
  mosaic-hydrology STORE rating curve.csv --at 37.5 -105.25 --reach 5 --stages 1 2 3
                                                       discharge, velocity and mean cross-section of that reach at stages, by
                                                       Manning's formula
  mosaic-hydrology STORE breach culverts.geojson --roads roads.geojson --streams streams.geojson
                                                       culverts where roads cross streams and water stands: least cuts, with
                                                       depth, volume and levels before and after; --keep makes them
  mosaic-hydrology STORE edit roads.geojson --wall 1200 --width 3
                                                       raises (--wall) or lowers (--burn) the lines of a GeoJSON in the store:
                                                       all of them, or none where one is refused
  mosaic-hydrology STORE voids filled.geojson --most 10000
                                                       gives voids heights from their rim, in the store, and tells which;
                                                       those that reach the window's edge are left. A tile that has some
                                                       is taken out and imported again; STORE.voids has it meanwhile

Numbers are degrees north and east; with --points they are points y x of the lattice. Without --window all tiles are taken, a tile at
a time, for accumulation, above, streams and catchments. A window has at most 20 million points, that of a flood or of voids 50
million; what drains into one from outside counts in km2 as wide as where it enters. A reach of one point is a line of two equal ones.
Features are written as .geojson, or as .gpkg where ogr2ogr is installed. edit takes lines of any length, of a file in degrees, and
leaves nothing of them where it fails. Areas and lengths are those of the ellipsoid."""

NO_ACCUMULATION = 0

MOST_OF_A_NETWORK = 20_000_000
"""The most points of a window whose network is found, or that has a reservoir: each takes some 60 bytes."""


def main(arguments: Sequence[str] | None = None) -> int:
    """Runs the command; its status."""
    return run(NAME, functools.partial(_run, _parsed(arguments)))


def _parsed(arguments: Sequence[str] | None) -> argparse.Namespace:
    made = parser(NAME, DESCRIPTION)
    made.add_argument("store")
    made.add_argument("what", choices=list(WORKS))
    made.add_argument("file", help="the file to write; for edit, the lines to read")
    add_window(made)
    add_places(made)
    made.add_argument("--threshold", type=int, default=1000, metavar="POINTS", help="a stream is what so many points drain through; 1000")
    made.add_argument("--outlets", metavar="FILE", help="the outlets of catchments: .csv or .geojson")
    made.add_argument("--reach", type=int, default=0, metavar="STEPS", help="moves each outlet, and the end of a path, to the nearest stream within so many steps")
    made.add_argument("--depths", type=int, nargs="+", default=[1], metavar="METRES", help="the least depths of the bands of a flood")
    made.add_argument("--at", type=number, nargs=2, metavar=("LATITUDE", "LONGITUDE"), help="the end of a path")
    made.add_argument("--dam", type=number, nargs="+", default=[], metavar="PLACE", help="the corners of a dam, two numbers each")
    made.add_argument("--crest", type=int, metavar="METRES", help="the height of a dam's crest")
    made.add_argument("--before", type=number, nargs=2, metavar=("LATITUDE", "LONGITUDE"), help="a place before the dam, under water")
    made.add_argument("--stage", type=float, metavar="METRES", help="of a flood: how high the water stands above the stream")
    made.add_argument("--stages", type=float, nargs="+", default=[1, 2, 3, 5, 8, 13], metavar="METRES", help="of a rating; 1 2 3 5 8 13")
    made.add_argument("--roughness", type=float, default=0.05, metavar="N", help="Manning's n of a rating; 0.05")
    made.add_argument("--slope", type=float, metavar="RATIO", help="of a rating; without it the reach's own fall by its length")
    made.add_argument("--roads", metavar="FILE", help="the roads of a breach: what has a property highway or railway, or all lines")
    made.add_argument("--streams", metavar="FILE", help="its streams: what has a property waterway, or streams of this command; of --roads without it")
    made.add_argument("--search", type=int, default=20, metavar="STEPS", help="how far from a crossing a cut reaches; 20")
    made.add_argument("--keep", action="store_true", help="makes the cuts of a breach in the store")
    made.add_argument("--picture", metavar="FILE", help="a picture of the full reservoir and what is around it: .png, .svg or .pdf")
    made.add_argument("--most", type=int, default=10_000, metavar="POINTS", help="a void of more points is left; 10000")
    made.add_argument("--wall", type=int, metavar="METRES", help="raises lines to this height, or to a feature's property `height`")
    made.add_argument("--burn", type=int, metavar="METRES", help="lowers lines by this depth, or by a feature's property `depth`")
    made.add_argument("--width", type=int, default=1, metavar="POINTS", help="how many points wide edited lines are: odd")
    return made.options_of(arguments)


def _run(options: argparse.Namespace) -> int:
    needed_numpy()
    _check(options)
    edits = options.what in EDITS or (options.what == "breach" and options.keep)
    signals = DeferredSignals(_keep)
    try:
        signals.start()
        with opened(options.store, options.program, edits) as session:
            told = WORKS[options.what](session, options)
            if edits:
                flood(session, NAME)
            else:
                _tell(options, told)
    finally:
        signals.end()
    return DONE


def _tell(options: argparse.Namespace, told: str) -> None:
    print(f"{options.file}: {told}", flush=True)


def _keep(trial: Trial, options: argparse.Namespace, told: str) -> str:
    """Lets edits stand, and tells what they are: a signal that comes in between waits, so that no edit stays without a word."""
    trial.keep()
    _tell(options, told)
    return told


def _check(options: argparse.Namespace) -> None:
    """A CommandError where nothing can come of the arguments, before anything is asked for."""
    for name in (None if options.what == "edit" else options.file, options.picture):
        if name is not None:
            check_place(name, options.store)
    if options.what in VECTORS:
        check_vector(options.file)
    if options.threshold < 1:
        raise CommandError("a stream begins where 1 point and more drains through")
    if options.most < 1:
        raise CommandError("voids of 1 point and more are filled")
    if options.reach < 0:
        raise CommandError(f"an outlet moves by 0 steps and more, not {options.reach}")
    if min(options.depths) < 1:
        raise CommandError("depths are 1 metre and more")


def _network(session: Session, options: argparse.Namespace) -> Network:
    from ..network import network_of

    window = window_given(options.window, session, options.points)
    check_size(window, options.what, MOST_OF_A_NETWORK)
    with _progress("questions") as told:
        return network_of(session, window, told)


@contextlib.contextmanager
def _progress(what: str) -> Iterator[Callable[[int, int], None]]:
    """Tells how far a work is, for as long as it lasts."""
    progress = Progress(NAME, 0, what)
    try:
        yield progress.tell_of
    finally:
        progress.clear()


def _accumulation(session: Session, options: argparse.Namespace) -> str:
    numpy = needed_numpy()
    check_format(options.file)
    most = [0]

    def counted(parts: Iterable[Array]) -> Iterator[Array]:
        for part in parts:
            most.append(int(part.max()))
            yield part.astype(numpy.uint32)

    with written_whole(options.file) as path, _progress("tiles") as told:
        window, bands = _bands(session, options, told, lambda network: network.counts, lambda basins: basins.counts(), NO_ACCUMULATION)
        write_bands(path, counted(bands), window, session.side, NO_ACCUMULATION, "points that drain through", "uint32")
    return f"at most {max(most)} points drain through one"


def _above(session: Session, options: argparse.Namespace) -> str:
    from ..hydrology import heights_above_stream

    check_format(options.file)
    above = [0]

    def counted(parts: Iterable[Array]) -> Iterator[Array]:
        for part in parts:
            above.append(int((part >= 0).sum()))
            yield part

    with written_whole(options.file) as path, _progress("tiles") as told:
        window, bands = _bands(
            session,
            options,
            told,
            lambda network: heights_above_stream(network, options.threshold),
            lambda basins: basins.above_streams(options.threshold),
            -1,
        )
        write_bands(path, counted(bands), window, session.side, -1, "metres above the nearest stream", "int32")
    return f"{sum(above)} points lie above a stream"


def _bands(
    session: Session,
    options: argparse.Namespace,
    told: Told,
    of_window: Callable[[Network], Array],
    of_tiles: Callable[[Basins], Iterable[tuple[Corner, Array]]],
    nothing: int,
) -> tuple[Window, Iterable[Array]]:
    """A window, and what is found in it, some rows at a time: of the window that is given, else of all tiles."""
    from ..basins import Basins, bands_of

    if options.window is not None:
        network = _network(session, options)
        return network.window, [of_window(network)]
    basins = Basins(session, told)
    return basins.window, bands_of(of_tiles(basins), basins.side, basins.window, nothing)


def _streams(session: Session, options: argparse.Namespace) -> str:
    from ..basins import Basins
    from ..network import stream_features

    if options.window is not None:
        features = stream_features(_network(session, options), options.threshold)
    else:
        with _progress("tiles") as told:
            features = Basins(session, told).stream_features(options.threshold)
    _write_vector(options.file, features)
    lengths, orders = ([feature["properties"][name] for feature in features] for name in ("length_m", "order"))
    return f"{len(features)} reaches, {sum(lengths) / 1000:.1f} km, of order {max(orders, default=0)} at most"


def _catchments(session: Session, options: argparse.Namespace) -> str:
    from ..basins import Basins

    if options.outlets is None:
        raise CommandError("catchments take --outlets, a .csv or a .geojson of places")
    if options.window is not None:
        raise CommandError("catchments are never cut, and take no --window: leave it out")
    given, others = outlets_of(options.outlets)
    points = [_point_at(outlet, session) for outlet in given]
    with _progress("tiles") as told:
        basins = Basins(session, told)
        if options.reach:
            points = [basins.snapped(point, options.reach, options.threshold) for point in points]
        outlets: dict[Point, Outlet] = {}
        for point, outlet in zip(points, given):
            outlets.setdefault(point, outlet)
        found = basins.catchments(list(outlets))
    features = []
    for order, (point, outlet, catchment) in enumerate(zip(outlets, outlets.values(), found), 1):
        own = {"what": "catchment", "id": order, "next": catchment.following + 1 or None, "cells": catchment.cells}
        drained = {"drained_points": catchment.drained, "drained_km2": round(catchment.drained_area / 1e6, 4)}
        feature = points_feature(catchment.runs, session.side, {**own, **drained, "y": point.y, "x": point.x})
        features.append({**feature, "properties": _carried(outlet, feature["properties"])})
    _write_vector(options.file, features)
    dry = sum(catchment.drained < options.threshold for catchment in found) if options.reach else 0
    stayed = f"; {dry} without a stream within {options.reach} steps stay where they are" if dry else ""
    return f"{len(features)} catchments{stayed}{_passed_by(others, 'a point')}{_doubled(given, points, outlets)}"


def _carried(outlet: Outlet, own: Mapping[str, Any]) -> dict[str, Any]:
    """An outlet's properties in its file, and those of its catchment. Where both have a NAME, the file's becomes NAME_1."""
    return {**{f"{name}_1" if name in own else name: value for name, value in outlet.carried.items()}, **own}


def _doubled(given: Sequence[Outlet], points: Sequence[Point], outlets: Mapping[Point, Outlet]) -> str:
    """Which outlets were left out, as they lie at the point of another one; empty where none does."""
    doubled = [f"{outlet.at} (as {outlets[point].at})" for outlet, point in zip(given, points) if outlets[point] is not outlet]
    return f"; left out, at the point of another one: {', '.join(_first_of(doubled))}" if doubled else ""


_MOST_NAMED = 10
"""How many things that were left out are named."""


def _first_of(named: list[str]) -> list[str]:
    """Things that were left out, as far as they are named, and how many more there are."""
    more = len(named) - _MOST_NAMED
    return [*named[:_MOST_NAMED], *([f"and {more} more"] if more > 0 else [])]


def _point_at(outlet: Outlet, session: Session) -> Point:
    with told_at(outlet.at):
        point = point_given(outlet.numbers, session, outlet.as_points)
        if session.elevation(*point) is None:
            raise CommandError(f"nothing drains to the point {point.y} {point.x}, which has no height: choose another one")
        return point


def _flooded(session: Session, options: argparse.Namespace) -> str:
    from ..hydrology import runs_of
    from ..rasters import depths_of, heights_of, levels_of

    window = window_given(options.window, session, options.points)
    check_size(window, options.what)
    heights = heights_of(session, window)
    with _progress("questions") as told:
        depths = depths_of(heights, levels_of(session, heights, told))
    bounds = sorted(set(options.depths))
    features = []
    for least, next_one in zip(bounds, [*bounds[1:], 1 << 17]):
        runs = runs_of((least <= depths) & (depths < next_one), window)
        cells = sum(run.last - run.first + 1 for run in runs)
        to = None if next_one > 65535 else next_one - 1
        if runs:
            features.append(points_feature(runs, session.side, {"what": "standing water", "from_m": least, "to_m": to, "cells": cells}))
    _write_vector(options.file, features)
    return f"{int((depths >= bounds[0]).sum())} points under {bounds[0]} m of water and more"


def _path(session: Session, options: argparse.Namespace) -> str:
    from ..hydrology import longest_path

    if options.at is None:
        raise CommandError("a path takes --at, the place where it ends")
    end = point_given(options.at, session, options.points)
    network = _network(session, options)
    figures = longest_path(network, network.snapped(end, options.reach, options.threshold))
    told = {"length_m": round(figures.length, 1), "fall_m": figures.fall, "slope": round(figures.slope, 6)}
    minutes = round(figures.minutes, 1) if figures.fall > 0 else None
    _write_vector(options.file, [line_feature(figures.points, session.side, {"what": "longest path", **told, "minutes": minutes})])
    time = "no time of concentration" if minutes is None else f"time of concentration {minutes} minutes (Kirpich)"
    return f"{figures.length / 1000:.2f} km, {figures.fall} m of fall, {time}"


def _reservoir(session: Session, options: argparse.Namespace) -> str:
    from ..drawing import Scene, draw
    from ..hydrology import reservoir, runs_of
    from ..rasters import heights_of, place_in

    if len(options.dam) < 4 or len(options.dam) % 2 or options.crest is None or options.before is None:
        raise CommandError("a reservoir takes --dam with two places and more, --crest and --before")
    corners = [point_given(pair, session, options.points) for pair in zip(options.dam[::2], options.dam[1::2])]
    before = point_given(options.before, session, options.points)
    if options.picture is not None:
        check_picture(options.picture)
    window = window_given(options.window, session, options.points)
    check_size(window, options.what, MOST_OF_A_NETWORK)
    found = reservoir(session, window, corners, options.crest, before, options.program)
    with written_whole(options.file) as path, open(path, "w", newline="", encoding="ascii") as file:
        rows = csv.writer(file)
        rows.writerow(["level_m", "area_km2", "volume_m3"])
        rows.writerows((stage.level, f"{stage.area / 1e6:.6f}", f"{stage.volume:.0f}") for stage in found.stages)
    if options.picture is not None:
        wet = [Point(run.y, x) for run in runs_of(found.depths > 0, window) for x in (run.first, run.last)]
        shown = window if options.window else window_around(window, [*corners, *wet])
        depths = found.depths[place_in(window, shown)]
        scene = Scene(heights_of(session, shown), f"full at {found.spills_at} m", depths=depths, road=corners, road_name="dam")
        with written_whole(options.picture) as path:
            draw(scene, path)
    full = found.stages[-1]
    return f"it spills at {found.spills_at} m, with {full.area / 1e6:.3f} km2 and {full.volume / 1e6:.3f} million m3"


def _valley(session: Session, options: argparse.Namespace) -> Valley:
    from ..flooding import valley_of

    if options.at is None:
        raise CommandError(f"{options.what} takes --at, the place of a gauge")
    gauge = point_given(options.at, session, options.points)
    with _progress("tiles") as told:
        return valley_of(session, gauge, options.threshold, options.reach, told)


def _flood(session: Session, options: argparse.Namespace) -> str:
    from ..hydrology import runs_of

    if options.stage is None or not 0 < options.stage < math.inf:
        raise CommandError("a flood takes --stage, metres above the stream")
    as_raster = options.file.lower().endswith((*GEOTIFF, *ASCII))
    (check_format if as_raster else check_vector)(options.file)
    valley = _valley(session, options)
    window, depths = valley.depths(options.stage)
    runs = runs_of(depths > 0, window)
    cells = sum(run.last - run.first + 1 for run in runs)
    told = {"what": "flood", "stage_m": options.stage, "y": valley.gauge.y, "x": valley.gauge.x, "cells": cells}
    if as_raster:
        with written_whole(options.file) as path:
            write_bands(path, [depths], window, session.side, -1, f"metres of water at a stage of {options.stage:g} m", "float32")
    else:
        _write_vector(options.file, [points_feature(runs, session.side, told)])
    return f"{cells} points, {square_kilometres(runs, session.side):.3f} km2, under water at a stage of {options.stage:g} m"


def _rating(session: Session, options: argparse.Namespace) -> str:
    slopes = () if options.slope is None else (options.slope,)
    if not all(0 < figure < math.inf for figure in (*options.stages, options.roughness, *slopes)):
        raise CommandError("stages, roughness and slope are more than 0")
    valley = _valley(session, options)
    rated = valley.rating(sorted(options.stages), options.roughness, options.slope)
    with written_whole(options.file) as path, open(path, "w", newline="", encoding="ascii") as file:
        rows = csv.writer(file)
        rows.writerow(["stage_m", "discharge_m3s", "velocity_ms", "width_m", "area_m2", "perimeter_m"])
        for each in rated:
            figures = (each.discharge, each.velocity, each.width, each.area, each.perimeter)
            rows.writerow([f"{each.stage:g}", *(f"{figure:.3f}" for figure in figures)])
    return f"{rated[-1].discharge:.1f} m3/s at a stage of {rated[-1].stage:g} m, on {valley.length / 1000:.2f} km that fall by {valley.fall} m"


def _breach(session: Session, options: argparse.Namespace) -> str:
    from ..culverts import crossings
    from ..hydrology import levels_after

    if options.roads is None:
        raise CommandError("a breach takes --roads, lines of a GeoJSON, and --streams where that has none")
    if not 1 <= options.search <= FARTHEST:
        raise CommandError(f"a cut is searched within 1 to {FARTHEST} steps, not {options.search}")
    roads, streams = (_drawn_points(session, *given) for given in ((options.roads, False), (options.streams or options.roads, True)))
    met = crossings(roads, streams)
    found, dry, left = _culverts(session, met, streams, options)
    depths: dict[Point, int] = {}
    for culvert in found:
        depths.update((point, max(depth, depths.get(point, 0))) for point, depth in culvert.depths.items())
    starts = [culvert.points[0] for culvert in found]
    volume = sum(depth * cell_area(point.y, session.side) for point, depth in depths.items())
    more = "".join(f"; {each}" for each in _first_of([f"{place}: {why}" for place, why in left]))
    told = f"{len(met)} crossings, {len(found)} cut{'' if len(found) == 1 else 's'}, {volume:.0f} m3, {dry} without standing water, {len(left)} left{more}"
    if not options.keep:
        after = levels_after(session, [*depths], functools.partial(_burn_each, depths), starts, options.program) if found else []
        _write_culverts(options, found, after, session.side)
        return told
    with session.trial() as trial:
        _burn_each(depths, session)
        _write_culverts(options, found, [session.fill(*start) for start in starts], session.side)
        return _keep(trial, options, told)


def _write_culverts(options: argparse.Namespace, found: Sequence[Culvert], after: Sequence[int], side: int) -> None:
    _write_vector(options.file, [_culvert_feature(*pair, side) for pair in zip(found, after)])


def _culverts(
    session: Session, met: Sequence[Point], streams: set[Point], options: argparse.Namespace
) -> tuple[list[Culvert], int, list[tuple[str, str]]]:
    """The culverts at crossings, each once; how many have no water; and the places of those that can't be cut, with why."""
    from ..culverts import culvert_at

    found: dict[Point, Culvert] = {}
    dry, left = 0, []
    with _progress("crossings") as told:
        for order, crossing in enumerate(met, 1):
            try:
                culvert = culvert_at(session, crossing, streams, options.search)
            except ValueError as fault:
                left.append((shown_place(session.degrees_of(*crossing)), f"{fault}: raise --search"))
            else:
                dry += culvert is None
                if culvert is not None:
                    found.setdefault(culvert.points[0], culvert)
            told(order, len(met))
    return list(found.values()), dry, left


def _burn_each(depths: Mapping[Point, int], session: Session) -> None:
    """Lowers points, each by its own depth."""
    points_of = collections.defaultdict(list)
    for point, depth in depths.items():
        points_of[depth].append(point)
    for depth in sorted(points_of):
        for part in lines.commands(points_of[depth]):
            session.burn(depth, part)


def _culvert_feature(culvert: Culvert, after: int, side: int) -> Feature:
    levels = {"ground_m": culvert.ground, "level_m": culvert.level, "after_m": after}
    cut = {"depth_m": max(culvert.depths.values(), default=0), "volume_m3": round(culvert.volume(side)), "length_m": round(culvert.length(side), 1)}
    return line_feature(culvert.points, side, {"what": "culvert", **cut, **levels})


def _drawn_points(session: Session, path: str, are_streams: bool) -> set[Point]:
    """The points on the tiles of a file's roads or streams, by the properties that OpenStreetMap gives them; of all its lines where none
    has them."""
    features = [feature for feature in features_of(path) if feature.lines and not feature.is_points]
    chosen = [feature for feature in features if feature.is_stream] if are_streams else [feature for feature in features if feature.is_road]
    others = [feature for feature in features if not (feature.is_stream or feature.is_road)]
    points: set[Point] = set()
    for feature in chosen or others:
        with told_at(feature.at):
            for line in feature.lines:
                points.update(lines.points_along([point_told(place, session, False) for place in line]))
    present = set(corners_named(session.tiles()))
    points = {point for point in points if not present.isdisjoint(corners_of(point, session.side))}
    if not points:
        what, cure = ("streams", "give some by --streams, as mosaic-hydrology streams writes them") if are_streams else ("roads", "give lines")
        raise CommandError(f"{path}: it has no {what} on the tiles: {cure}")
    return points


def _edit(session: Session, options: argparse.Namespace) -> str:
    from ..hydrology import earthwork

    if (options.wall is None) == (options.burn is None):
        raise CommandError("lines are edited by --wall or by --burn")
    act: Callable[[int, Sequence[Point]], int] = session.wall if options.burn is None else session.burn
    amounts, others = _amounts(session, options)
    if not amounts:
        raise CommandError(f"{options.file}: it has no point and no line")
    before = _heights(session, amounts)
    points_of = collections.defaultdict(list)
    for point, amount in amounts.items():
        points_of[amount].append(point)
    with session.trial() as trial:
        for amount in sorted(points_of):
            for part in lines.commands(points_of[amount]):
                act(amount, part)
        # Before they are kept: where their effect can't be computed, they are taken back.
        moved = earthwork(before, _heights(session, amounts), session.side)
        told = f"{len(amounts)} points were edited, {moved.cut:.0f} m3 cut, {moved.fill:.0f} m3 filled"
        return _keep(trial, options, told + _passed_by(others, "a point or a line"))


def _heights(session: Session, points: Iterable[Point]) -> dict[Point, int]:
    """The heights of points; what is void or in no tile is left out, and is refused when it is edited."""
    asked = list(points)
    answers = zip(asked, session.ask_many(Elevation(*point) for point in asked))
    return {point: answer for point, answer in answers if isinstance(answer, int)}


def _amounts(session: Session, options: argparse.Namespace) -> tuple[dict[Point, int], int]:
    """The points of a file's lines, each with the most that a line over it asks for; how many features are no lines."""
    from ..hydrology import most_over

    kind, given = ("height", options.wall) if options.burn is None else ("depth", options.burn)
    features = features_of(options.file)
    drawn = []
    for feature in features:
        with told_at(feature.at):
            metres = feature.whole(kind, given)
            drawn += [(lines.points_along([point_given(place, session, False) for place in line]), metres) for line in feature.lines]
    return most_over(drawn, options.width), sum(not feature.lines for feature in features)


def _passed_by(others: int, what: str) -> str:
    """How many features of a file were left out, for what they lack; empty where none was."""
    return f"; {others} feature{' was' if others == 1 else 's were'} passed by, without {what}" if others else ""


def _voids(session: Session, options: argparse.Namespace) -> str:
    from ..hydrology import filled_voids

    window = window_given(options.window, session, options.points)
    check_size(window, options.what)
    with written_whole(options.file) as path, _tiles_beside(options.store, session) as save, session.trial() as trial:
        runs = filled_voids(session, window, options.most, save)
        count = sum(run.last - run.first + 1 for run in runs)
        write_vector(path, [points_feature(runs, session.side, {"what": "filled voids", "cells": count})] if runs else [])
        return _keep(trial, options, f"{count} voids were given heights from their rim")


@contextlib.contextmanager
def _tiles_beside(store: str, session: Session) -> Iterator[Callable[[str, bytes], None]]:
    """What saves tiles in a folder beside a store, for as long as they may be missing in it."""
    folder = pathlib.Path(f"{store}.voids")
    try:
        folder.mkdir()
    except FileExistsError:
        raise CommandError(f"{folder}: tiles of a run that was ended midway: mosaic-load {store} {folder}, then remove it") from None

    def save(name: str, data: bytes) -> None:
        try:
            with (folder / f"{name}.hgt").open("xb") as file:
                file.write(data)
                file.flush()
                os.fsync(file.fileno())
            for place in (folder, folder.parent):
                sync_folder(place)
        except OSError as fault:
            raise CommandError(f"{folder}: not written: {fault.strerror or fault}") from None

    try:
        yield save
    finally:
        signals = DeferredSignals()
        try:
            signals.start()
            for name in session.tiles():
                (folder / f"{name}.hgt").unlink(missing_ok=True)
            with contextlib.suppress(OSError):
                folder.rmdir()
        finally:
            signals.end()


def _write_vector(name: str, features: Sequence[Feature]) -> None:
    with written_whole(name) as path:
        write_vector(path, features)


WORKS: dict[str, Callable[[Session, argparse.Namespace], str]] = {
    "accumulation": _accumulation,
    "above": _above,
    "streams": _streams,
    "catchments": _catchments,
    "flooded": _flooded,
    "path": _path,
    "reservoir": _reservoir,
    "edit": _edit,
    "voids": _voids,
    "flood": _flood,
    "rating": _rating,
    "breach": _breach,
}

VECTORS = ("streams", "catchments", "flooded", "path", "voids", "breach")
"""The works that write features."""

EDITS = ("edit", "voids")
"""The works that change the store."""


if __name__ == "__main__":
    sys.exit(main())
