"""Features as vector files that others take: GeoJSON by hand, GeoPackage by GDAL's ogr2ogr where it is installed."""

from __future__ import annotations

import json
import os
import re
import shutil
import subprocess
from collections.abc import Sequence

from .errors import BadArgument, MosaicError
from .geojson import Feature, collection

GEOJSON, GEOPACKAGE = (".geojson", ".json"), (".gpkg",)


def check_vector(path: str) -> None:
    """BadArgument if no vector file of this name can be written."""
    if path.lower().endswith(GEOPACKAGE):
        _found("ogr2ogr")
    elif os.path.splitext(path)[1].lower() not in (*GEOJSON, ""):
        raise BadArgument(f"{path}: the name of a vector file ends in .geojson, or in .gpkg for GeoPackage, which ogr2ogr makes others of")


def geojson_text(features: Sequence[Feature]) -> str:
    """Features as the text of a GeoJSON."""
    return json.dumps(collection(features), separators=(",", ":")) + "\n"


def write_vector(path: str, features: Sequence[Feature]) -> None:
    """Writes features in the format of a path's ending; without one as GeoJSON."""
    if not path.lower().endswith(GEOPACKAGE):
        with open(path, "w", encoding="ascii") as file:
            file.write(geojson_text(features))
        return
    between = f"{path}.geojson"
    write_vector(between, features)
    run_ogr2ogr("-f", "GPKG", path, between, "-nln", os.path.splitext(os.path.basename(path))[0])
    os.unlink(between)


def layers_of(path: str) -> list[str]:
    """The names of a vector file's layers; of a GPX without those that have the points of its lines once more."""
    told = re.findall(r"^\d+: (.*?)(?: \([^()]*\))?$", _run("ogrinfo", "-ro", "-q", path).decode("utf-8", "replace"), re.MULTILINE)
    return [name for name in told if not path.lower().endswith(".gpx") or name not in ("route_points", "track_points")]


def run_ogr2ogr(*words: str, given: bytes = b"") -> bytes:
    """The standard output of ogr2ogr for this standard input. MosaicError with its first line if it fails."""
    return _run("ogr2ogr", *words, given=given)


def _run(tool: str, *words: str, given: bytes = b"") -> bytes:
    done = subprocess.run([_found(tool), *words], input=given, capture_output=True, check=False)
    if done.returncode:
        said = (done.stderr + done.stdout).decode("utf-8", "replace").replace("FAILURE:", "").strip().splitlines()
        raise MosaicError(f"{tool}: {said[0] if said else f'status {done.returncode}'}")
    return done.stdout


def _found(tool: str) -> str:
    found = shutil.which(tool)
    if found is None:
        raise BadArgument(f"files other than GeoJSON need GDAL's {tool}: apt-get install gdal-bin, or take a file .geojson")
    return found
