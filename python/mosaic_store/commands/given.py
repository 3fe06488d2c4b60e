"""What files give to a command: outlets as CSV or GeoJSON, lines as GeoJSON.

What is wrong with one is told in a line, with its file, the number of the feature or the line, and the cure.
"""

from __future__ import annotations

import contextlib
import csv
import io
import json
import os
import pathlib
from collections.abc import Iterator
from dataclasses import dataclass
from typing import Any

from ..errors import BadArgument, MosaicError, Outside
from ..places import number_of
from ..vectors import GEOJSON, layers_of, run_ogr2ogr
from .frame import CommandError

Numbers = tuple[float, float]

_PAIRS = (("latitude", "longitude"), ("lat", "lon"), ("y", "x"))


@dataclass(frozen=True)
class Outlet:
    """A place of a file of outlets."""

    at: str
    """Its file, and its feature or its line."""
    numbers: Numbers
    """Latitude and longitude, or y and x."""
    as_points: bool
    """Whether they are y and x."""
    carried: dict[str, Any]
    """What else stands with it."""


@dataclass(frozen=True)
class Drawn:
    """A feature of a GeoJSON."""

    at: str
    """Its file and its number."""
    properties: dict[str, Any]
    lines: list[list[Numbers]]
    """Its lines, in latitude and longitude, each point a line of one place; none where it is neither points nor lines."""
    is_points: bool

    @property
    def is_road(self) -> bool:
        """Whether it has the property of roads or railways in OpenStreetMap."""
        return any(self.properties.get(name) is not None for name in ("highway", "railway"))

    @property
    def is_stream(self) -> bool:
        """Whether it has the property of streams in OpenStreetMap, or is one of `mosaic-hydrology streams`."""
        return self.properties.get("waterway") is not None or self.properties.get("what") == "stream"

    def whole(self, name: str, otherwise: int) -> int:
        """A property that is a whole number of metres; `otherwise` where it has no value, which programs write as null."""
        value = self.properties.get(name)
        if value is None:
            return otherwise
        if type(value) is int or (type(value) is float and value.is_integer()):
            return int(value)
        raise CommandError(f"{name} is a whole number of metres, not {value!r}: mend it, or leave it out")


@contextlib.contextmanager
def told_at(place: str) -> Iterator[None]:
    """Names a place in a file in what stops the command inside."""
    try:
        yield
    except CommandError as fault:
        raise CommandError(f"{place}: {fault}") from None
    except Outside as refusal:
        raise CommandError(f"{place}: {refusal.cause}: {refusal.cure}") from None


def outlets_of(path: str) -> tuple[list[Outlet], int]:
    """The outlets of a file, one at least, and how many of its features are no points."""
    others = 0
    if path.lower().endswith((*GEOJSON, *_OTHERS)):
        features = features_of(path)
        points = [feature for feature in features if feature.is_points]
        others = len(features) - len(points)
        outlets = [Outlet(each.at, place, False, each.properties) for each in points for line in each.lines for place in line]
    else:
        outlets = list(_rows(path))
    if not outlets:
        raise CommandError(f"{path}: it names no place: give points, each a feature or a line of its own")
    return outlets, others


def features_of(path: str) -> list[Drawn]:
    """The features of a vector file, in their order, of all its layers. What is no GeoJSON ogr2ogr makes one of."""
    if not path.lower().endswith(_OTHERS):
        return features_in(_text(path), path)
    os.stat(path)  # a missing file is reported in the system's own words
    try:
        layers = layers_of(path)
    except MosaicError as fault:
        raise _unread(path, "it is no GeoJSON", fault) from None
    named = {layer: f"{path}: layer {layer}" if len(layers) > 1 else path for layer in layers}
    return [feature for layer, at in named.items() for feature in features_in(_in_degrees(at, path, layer), at)]


def features_in(text: str, path: str) -> list[Drawn]:
    """The features of GeoJSON, in their order; `path` names it where it is refused. Of other coordinates ogr2ogr makes degrees."""
    found = _read(path, text)
    if (crs := _crs_of(found)) not in _DEGREES:
        found = _read(path, _in_degrees(path, "/vsistdin/", text=text, what=f"its coordinates are those of EPSG:{crs}"))
    listed = found.get("features", [found]) if isinstance(found, dict) else None
    if not isinstance(listed, list):
        raise CommandError(f"{path}: not read as GeoJSON: it has no list of features: save it as a FeatureCollection")
    return [_drawn(f"{path}: feature {number}", feature) for number, feature in enumerate(listed, 1)]


_DEGREES = ("", "CRS84", "4326", "4979")
"""The coordinate systems of longitude and latitude, as the ends of their names; empty where none is named."""

_OTHERS = (".gpkg", ".shp", ".kml", ".gml", ".fgb", ".gpx")
"""Endings of other vector files."""


def _read(path: str, text: str) -> Any:
    try:
        return json.loads(text)
    except (ValueError, RecursionError):
        raise CommandError(f"{path}: not read as GeoJSON: save it as that") from None


def _crs_of(found: Any) -> str:
    """The end of the name of a GeoJSON's coordinate system, as 32616; empty where it names none."""
    crs = found.get("crs") if isinstance(found, dict) else None
    properties = crs.get("properties") if isinstance(crs, dict) else None
    name = properties.get("name") if isinstance(properties, dict) else None
    return name.rsplit(":", 1)[-1] if isinstance(name, str) else ""


def _in_degrees(path: str, source: str, *layer: str, text: str = "", what: str = "it is no GeoJSON") -> str:
    """What ogr2ogr reads, as the text of a GeoJSON in degrees. `what` says why it is needed."""
    form = ("-f", "GeoJSON", "-t_srs", "EPSG:4326", "-lco", "RFC7946=YES")
    try:
        return run_ogr2ogr(*form, "/vsistdout/", source, *layer, given=text.encode()).decode("utf-8", "replace")
    except MosaicError as fault:
        raise _unread(path, what, fault) from None


def _unread(path: str, what: str, fault: MosaicError) -> CommandError:
    return CommandError(f"{path}: {what}, and no GeoJSON in degrees was made of it ({fault}): save it as one, in EPSG:4326")


def _drawn(at: str, feature: Any) -> Drawn:
    with told_at(at):
        if not isinstance(feature, dict):
            raise CommandError("it is no feature: remove it")
        # A geometry may stand for itself, without a feature around it.
        geometry, properties = feature.get("geometry", feature) or {}, feature.get("properties") or {}
        if not (isinstance(geometry, dict) and isinstance(properties, dict)):
            raise CommandError("its geometry and its properties are objects: mend or remove it")
        kind = geometry.get("type")
        return Drawn(at, properties, _lines(kind, geometry.get("coordinates")), kind in ("Point", "MultiPoint"))


def _lines(kind: Any, coordinates: Any) -> list[list[Numbers]]:
    if kind == "Point":
        return [[_place(coordinates)]]
    if kind == "MultiPoint":
        return [[_place(each)] for each in _listed(coordinates)]
    if kind == "LineString":
        return _lines("MultiLineString", [coordinates])
    if kind == "MultiLineString":
        lines = [[_place(each) for each in _listed(line)] for line in _listed(coordinates)]
        return [line for line in lines if line]
    return []


def _listed(coordinates: Any) -> list[Any]:
    if not isinstance(coordinates, list):
        raise CommandError(f"its coordinates are a list, not {coordinates!r}: mend or remove it")
    return coordinates


def _place(position: Any) -> Numbers:
    """The latitude and the longitude of a position."""
    with contextlib.suppress(OverflowError):  # a whole number may have any length
        if isinstance(position, list) and len(position) >= 2 and all(type(number) in (int, float) for number in position[:2]):
            return float(position[1]), float(position[0])
    shown = repr(position)
    raise CommandError(f"a place is two numbers, longitude and latitude, not {shown[:60]}: mend or remove it")


def _rows(path: str) -> Iterator[Outlet]:
    """The outlets of a CSV, with commas between, or with semicolons."""
    text = _text(path)
    first = text.partition("\n")[0]
    reader = csv.DictReader(io.StringIO(text), delimiter=";" if first.count(";") > first.count(",") else ",")
    try:
        words = {name.strip().lower(): name for name in reader.fieldnames or ()}
        pair = next((pair for pair in _PAIRS if all(word in words for word in pair)), None)
        if pair is None:
            raise CommandError(f"{path}: it has no columns latitude and longitude, nor y and x: name them in its first line, with commas between")
        for row in reader:
            yield _outlet(f"{path}: line {reader.line_num}", row, pair, words)
    except csv.Error as fault:
        raise CommandError(f"{path}: line {reader.line_num}: not read as CSV: {fault}: save it anew") from None


def _outlet(at: str, row: dict[Any, Any], pair: tuple[str, str], words: dict[str, str]) -> Outlet:
    names = [words[word] for word in pair]
    try:
        latitude, longitude = (number_of(row[name], axis) for name, axis in zip(names, ("NS", "EW")))
    except TypeError:
        raise CommandError(f"{at} names no place: {pair[0]} and {pair[1]} are numbers: mend or remove it") from None
    except BadArgument as fault:
        raise CommandError(f"{at} names no place: {fault}") from None
    # What stands beyond the last column has no name, and is no property.
    carried = {name: value for name, value in row.items() if name is not None and name not in names}
    return Outlet(at, (latitude, longitude), pair == ("y", "x"), carried)


def _text(path: str) -> str:
    try:
        return pathlib.Path(path).read_text(encoding="utf-8-sig")
    except UnicodeDecodeError:
        raise CommandError(f"{path}: its text isn't UTF-8: save it in that encoding") from None
