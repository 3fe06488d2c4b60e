"""What was found of a store's tiles, kept in one file beside the stores of a region, with the stamp of each store.

Nothing rests on a file that was left behind: what doesn't fit the stores as they are is passed by, and found anew.
"""

from __future__ import annotations

import json
import pathlib
import zipfile
from collections.abc import Mapping, Sequence
from dataclasses import dataclass
from typing import TYPE_CHECKING, Any

import numpy as np

from .files import replacing
from .joining import Exits, Flats, Labelling, Links, frame_of

if TYPE_CHECKING:
    from .regions import Part, Tile
    from .samples import Array

_DIGESTS = ("content", "flooded", "directed", "settled")
_OF_TILE = ("samples", "mask", "rim", "near", "distance")
_OF_LABELLING = ("heights", "mask", "near_level", "near_label")
_OF_OUTLINE = ("first", "second", "crest")
_OF_FLATS = ("level", "digest")
_OF_EXITS = ("points", "targets", "counts")


@dataclass(frozen=True)
class Record:
    """The stored results for a tile."""

    values: dict[str, Any]

    def give(self, tile: Tile) -> None:
        """Gives it to the tile."""
        for name, value in self.values.items():
            setattr(tile, name, value)


@dataclass(frozen=True)
class Kept:
    """The stored results for a store."""

    names: list[str]
    stamps: dict[str, list[int]]
    """The stamp of each store of the region that it was found for: its count, and when its file changed last."""
    tiles: dict[str, Record]
    outline: Links | None
    levels: Array | None

    @staticmethod
    def nothing() -> Kept:
        """Nothing."""
        return Kept([], {}, {}, None, None)


def write_kept(path: pathlib.Path, stamps: Mapping[str, list[int]], part: Part, tiles: Sequence[Tile]) -> None:
    """Stores the results for a store's tiles, whole or not at all."""
    about = {"stamps": dict(stamps), "names": part.names, "exits": all(tile.exits is not None for tile in tiles)}
    arrays: dict[str, Any] = {name: np.array([list(getattr(tile, name)) for tile in tiles], np.uint8) for name in _DIGESTS}
    arrays |= {f"tile_{name}": _stacked(tiles, name) for name in _OF_TILE}
    labellings = [tile.labelling for tile in tiles]
    arrays |= {f"labelling_{name}": _stacked(labellings, name) for name in _OF_LABELLING}
    arrays |= _joined(labellings, _OF_OUTLINE) | _joined([tile.flats for tile in tiles], _OF_FLATS)
    if about["exits"]:
        exits = [tile.exits for tile in tiles]
        arrays |= _joined(exits, _OF_EXITS) | {"exits_near": _stacked(exits, "near")}
    arrays |= {f"links_{name}": getattr(part.outline, name) for name in _OF_OUTLINE} | {"levels": part.levels}
    with replacing(path) as made, open(made, "wb") as file:
        np.savez(file, about=np.array(json.dumps(about)), **arrays)


def read_kept(path: pathlib.Path, side: int) -> Kept | None:
    """The stored results for a store; None if there are none, or they can't be read."""
    try:
        with np.load(path, allow_pickle=False) as file:
            arrays = {name: file[name] for name in file.files}
        about = json.loads(str(arrays["about"]))
        names, stamps = list(map(str, about["names"])), {str(name): list(map(int, stamp)) for name, stamp in about["stamps"].items()}
        tiles = {name: _record(arrays, number, about["exits"]) for number, name in enumerate(names)}
        if names and arrays["tile_samples"].shape[1] != frame_of(side).near.size:
            return None
        outline = Links(*(arrays[f"links_{name}"] for name in _OF_OUTLINE))
        return Kept(names, stamps, tiles, outline, arrays["levels"])
    except (OSError, ValueError, KeyError, TypeError, AttributeError, IndexError, EOFError, zipfile.BadZipFile):
        return None


def _stacked(parts: Sequence[Any], name: str) -> Array:
    return np.array([getattr(part, name) for part in parts])


def _joined(parts: Sequence[Any], names: Sequence[str]) -> dict[str, Array]:
    """Arrays of several lengths one after another, and where each begins."""
    lengths = [getattr(part, names[0]).size for part in parts]
    begins = {f"{names[0]}_begins": np.cumsum([0, *lengths])}
    return begins | {name: np.concatenate([getattr(part, name) for part in parts]) if parts else np.empty(0) for name in names}


def _parted(arrays: Mapping[str, Array], number: int, names: Sequence[str]) -> list[Array]:
    begin, end = arrays[f"{names[0]}_begins"][number : number + 2]
    return [arrays[name][begin:end] for name in names]


def _record(arrays: Mapping[str, Array], number: int, has_exits: bool) -> Record:
    values: dict[str, Any] = {name: arrays[name][number].tobytes() for name in _DIGESTS}
    values |= {name: arrays[f"tile_{name}"][number] for name in _OF_TILE}
    heights, mask, level, label = (arrays[f"labelling_{name}"][number] for name in _OF_LABELLING)
    first, second, crest = _parted(arrays, number, _OF_OUTLINE)
    values["flats"] = Flats(*_parted(arrays, number, _OF_FLATS))
    values["labelling"] = Labelling(heights, mask, first, second, crest, level, label)
    if has_exits:
        points, targets, counts = _parted(arrays, number, _OF_EXITS)
        values["exits"] = Exits(points, targets, counts, arrays["exits_near"][number])
    return Record(values)
