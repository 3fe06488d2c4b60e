"""mosaic-geojson: watersheds, flow paths and the outlines of tiles as GeoJSON, for QGIS and others."""

from __future__ import annotations

import argparse
import functools
import sys
from collections.abc import Sequence

from ..geojson import Feature, tile_feature, trace_feature, watershed_feature
from ..lattice import corners_named
from ..session import Session
from ..vectors import check_vector, geojson_text, write_vector
from .frame import DONE, CommandError, add_places, add_snap, check_place, number, opened, outlet_given, parser, point_given, run, written_whole

NAME = "mosaic-geojson"
DESCRIPTION = """Writes watersheds, flow paths or the outlines of a store's tiles as GeoJSON, in degrees.

  mosaic-geojson STORE watershed 37.5 -105.25 -o river.geojson
  mosaic-geojson STORE trace 37.5 -105.25 37.6 -105.2 > paths.geojson
  mosaic-geojson STORE tiles > tiles.geojson

A point is the middle of a cell. A watershed's polygons run around its cells, so that their area in cells is its number
of points, which is the property `cells`; `km2` is the area with cells as wide as their latitude makes them."""


def main(arguments: Sequence[str] | None = None) -> int:
    """Runs the command; its status."""
    return run(NAME, functools.partial(_write, _parsed(arguments)))


def _parsed(arguments: Sequence[str] | None) -> argparse.Namespace:
    made = parser(NAME, DESCRIPTION)
    made.add_argument("store")
    made.add_argument("what", choices=["watershed", "trace", "tiles"])
    made.add_argument("places", nargs="*", type=number, metavar="LATITUDE LONGITUDE", help="places, north and east positive")
    made.add_argument("-o", "--output", help="the file to write, .geojson or .gpkg; standard output without it")
    add_places(made)
    add_snap(made)
    options = made.options_of(arguments)
    if options.what == "tiles" and options.places:
        made.error("tiles takes no place")
    if options.what != "tiles" and (not options.places or len(options.places) % 2):
        made.error(f"{options.what} takes places, two numbers each")
    return options


def _write(options: argparse.Namespace) -> int:
    if options.output is not None:
        check_place(options.output, options.store)
        check_vector(options.output)
    elif sys.stdout is None:
        raise CommandError("standard output is closed: name a file by --output")
    with opened(options.store, options.program) as session:
        features = _features(session, options)
    if options.output is None:
        print(geojson_text(features), end="", flush=True)
    else:
        with written_whole(options.output) as path:
            write_vector(path, features)
    return DONE


def _features(session: Session, options: argparse.Namespace) -> list[Feature]:
    side = session.side
    if options.what == "tiles":
        return [tile_feature(corner, side) for corner in corners_named(session.tiles())]
    pairs = zip(options.places[::2], options.places[1::2])
    if options.what == "trace":
        starts = [point_given(pair, session, options.points) for pair in pairs]
        return [trace_feature(session.trace(*start), side) for start in starts]
    outlets = [outlet_given(pair, session, options) for pair in pairs]
    return [watershed_feature(session.watershed(*outlet), outlet, side) for outlet in outlets]


if __name__ == "__main__":
    sys.exit(main())
