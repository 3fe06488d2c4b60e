"""mosaic-load: folders of HGT files, or the tiles of another store, into a store."""

from __future__ import annotations

import argparse
import collections
import functools
import os
import pathlib
import sys
import time
from collections.abc import Callable, Iterable, Sequence

from ..archives import Source, sources_of
from ..errors import BadSide
from ..lattice import GREATEST_SIDE, LEAST_SIDE, MOST_TILES
from ..loading import Change, Found, Kind, Outcome, Shape, copy, find, load, room_for, unchanged
from ..opening import is_of_before, is_region, open_place, opened_place, stores_of_before
from ..samples import needed_numpy
from ..session import Session, open_store
from ..stores import format_store
from ..warping import ENDINGS as RASTERS
from ..warping import RESAMPLING
from .frame import DONE, FAILED, CommandError, Progress, flood, parser, run

NAME = "mosaic-load"
DESCRIPTION = """Imports HGT files and archives of them (.hgt, .zip, .tar, .tar.gz, .hgt.gz, names in any case), and tiles of rasters (GeoTIFF
and COG as .tif, of any coordinates, which rasterio reads), folders with all below them.

  mosaic-load STORE FOLDER..          makes the store where there is none, with the side and the tiles that it finds
  mosaic-load NEW --from OLD --capacity 200
                                      the tiles and sinks of a store into one of another capacity; OLD stays
  mosaic-load NEW --from OLD --fill-voids 10000
                                      gives voids inside a tile heights from their rim, in parts of at most so many points;
                                      those that reach the tile's edge are left. With FOLDER.., too. It needs numpy
  mosaic-load REGION FOLDER..         more than 240 tiles: makes a region, a folder of stores that answers as one, or goes on with it
  mosaic-load REGION --from OLD       the tiles and sinks of a region, or of stores that an earlier version cut along divides

A raster makes each tile of one degree in which it has heights: they are rounded to metres, and what it doesn't cover is void. How
many voids a tile has is printed as it comes. At its end it floods each tile that a command made stale, and keeps the levels, so
that no question has to (of a region the directions, too): --no-step leaves that out. Run it again to go on after an
interruption: tiles that are there are passed by. Each failure is told with its cause
and cure, and the status is 1 then."""


def main(arguments: Sequence[str] | None = None) -> int:
    """Runs the command; its status."""
    return run(NAME, functools.partial(_load, _parsed(arguments)))


def _parsed(arguments: Sequence[str] | None) -> argparse.Namespace:
    made = parser(NAME, DESCRIPTION)
    made.add_argument("store")
    made.add_argument("paths", nargs="*", metavar="FOLDER", help="folders and files")
    made.add_argument("--from", dest="origin", metavar="STORE", help="takes tiles and sinks from another store")
    made.add_argument("--capacity", type=int, help="of a store that is made; without it what the other store has, or twice as many as there are tiles")
    add_ways(made)
    options = made.options_of(arguments)
    if bool(options.paths) == bool(options.origin):
        made.error("folders and files are needed, or --from a store")
    return options


def add_ways(made: argparse.ArgumentParser) -> None:
    """Adds the options of taking tiles in."""
    made.add_argument("--side", type=int, help="of what is made: what most files have, without it")
    made.add_argument("--fill-voids", type=int, metavar="POINTS", help="gives parts of so many voids at most heights from their rim")
    made.add_argument("--resampling", choices=RESAMPLING, default=RESAMPLING[0], help="of rasters to the samples of tiles; nearest")
    made.add_argument("--no-step", action="store_true", help="leaves stale tiles to `step`: until then the first question that comes to one floods it")


def check_ways(options: argparse.Namespace) -> None:
    """A CommandError where tiles can't be taken in so."""
    if options.fill_voids is not None and options.fill_voids < 1:
        raise CommandError("voids of 1 point and more are filled")


def _load(options: argparse.Namespace) -> int:
    check_ways(options)
    return _from_files(options) if options.paths else _from_store(options)


def _from_files(options: argparse.Namespace) -> int:
    found = find(options.paths, options.resampling)
    if not found.sources:
        raise _nothing(options, found)
    if is_region(options.store) or len(found.corners) > MOST_TILES and options.capacity is None and not os.path.isfile(options.store):
        return load_region(options, NAME)
    with _opened(options, found.shape) as session:
        outcomes = load(session, found, _change(options))
        return _done(outcomes, len(found.sources) + len(found.troubles), _files(found), session, options)


def load_region(options: argparse.Namespace, name: str) -> int:
    """Loads files, or the tiles of a store or a region, into a region, which is made where there is none; the status."""
    check_ways(options)
    needed_numpy()
    if len(options.paths) == 1 and _is_place(options.paths[0]):
        options.paths, options.origin = [], options.paths[0]
    if not options.paths:
        return _region_of(options, name)
    found = find(options.paths, options.resampling)
    if not found.sources:
        raise _nothing(options, found)
    with _opened_region(options, None if is_region(options.store) else found.shape(options.side, MOST_TILES).side) as region:
        outcomes = load(region, found, _change(options))
        return _done(outcomes, len(found.sources) + len(found.troubles), _files(found), region, options, name)


def _is_place(path: str) -> bool:
    """Whether a path leads to a store or a region: no archive, no HGT file, no raster, no other folder."""
    is_raster = path.lower().endswith(RASTERS)
    is_file = os.path.isfile(path) and not is_raster and not any(isinstance(part, Source) for part in sources_of(pathlib.Path(path)))
    return is_file or is_region(path) or is_of_before(path)


def _region_of(options: argparse.Namespace, name: str) -> int:
    """Copies tiles and sinks of a store, a region, or stores of a version before into a region."""
    statuses = []
    for path in stores_of_before(options.origin) if is_of_before(options.origin) else [options.origin]:
        with opened_place(path, options.program) as other, _opened_region(options, other.side) as region:
            total = len(other.tiles()) + len(other.sinks())
            statuses.append(_summed_up(copy(region, other, _change(options)), total, f"{path}: {total} tiles and sinks", region))
    if not options.no_step:
        with open_place(options.store, options.program) as region:
            flood(region, name)
    return max(statuses, default=DONE)


def _opened_region(options: argparse.Namespace, side: int | None) -> Session:
    """The region, made for a side where there is none."""
    if side is not None and not is_region(options.store):
        from ..regions import SQUARE, make_region

        square = SQUARE if getattr(options, "square", None) is None else options.square
        _check_side(options, side)
        if not LEAST_SIDE <= side <= GREATEST_SIDE:
            raise BadSide()
        make_region(options.store, side, square)
        print(f"{options.store}: made, for tiles of {side} x {side} samples, with a store for {square} x {square} degrees")
    session = open_place(options.store, options.program)
    try:
        _check_side(options, session.side)
    except CommandError:
        session.close()
        raise
    return session


def _check_side(options: argparse.Namespace, side: int) -> None:
    """A CommandError where another side is asked for than tiles have."""
    if options.side not in (None, side):
        raise CommandError(f"{options.store}: its side is {side}, not {options.side}: leave --side out, or name a new region")


def _nothing(options: argparse.Namespace, found: Found) -> CommandError:
    """Why there is nothing to load: what is wrong with the archives, where there are some."""
    where = ", ".join(options.paths)
    broken = [f"{trouble.shown}: {trouble.cause}: {trouble.cure}" for trouble in found.troubles if trouble.cure]
    for line in broken[:-1]:
        print(f"{NAME}: {line}", file=sys.stderr)
    return CommandError(broken[-1] if broken else f"no HGT file and no archive of one in {where}: nothing to load")


def _change(options: argparse.Namespace) -> Change:
    """What is made of each tile."""
    if options.fill_voids is None:
        return unchanged
    from ..hydrology import tile_without_voids

    return functools.partial(tile_without_voids, most=options.fill_voids)


def _from_store(options: argparse.Namespace) -> int:
    if os.path.exists(options.store) and os.path.exists(options.origin) and os.path.samefile(options.store, options.origin):
        raise CommandError(f"{options.store}: tiles move to another store: name a new one")
    if is_region(options.store) or os.path.isdir(options.origin) and options.capacity is None:
        return load_region(options, NAME)
    with opened_place(options.origin, options.program) as other:
        if options.capacity is not None and options.capacity < len(other.tiles()):
            raise CommandError(f"{options.origin} has {len(other.tiles())} tiles: give no smaller --capacity")
        if options.side not in (None, other.side):
            raise CommandError(f"{options.origin} has the side {other.side}, and tiles keep theirs: leave --side out")
        room = other.capacity or room_for(len(other.tiles()))
        with _opened(options, lambda _, capacity: Shape(other.side, room if capacity is None else capacity)) as session:
            total = len(other.tiles()) + len(other.sinks())
            return _done(copy(session, other, _change(options)), total, f"{total} tiles and sinks", session, options)


def _opened(options: argparse.Namespace, shape_for: Callable[[int | None, int | None], Shape]) -> Session:
    """The store, made where there is none; of one that is there side and capacity are those that are asked for, if any are."""
    if not os.path.lexists(options.store):
        shape = shape_for(options.side, options.capacity)
        format_store(options.store, shape.side, shape.capacity, options.program)
        print(f"{options.store}: made, for at most {shape.capacity} tiles of {shape.side} x {shape.side} samples")
        return open_store(options.store, options.program)
    session = open_store(options.store, options.program)
    for what in ("side", "capacity"):
        asked = getattr(options, what)
        if asked is not None and asked != (has := getattr(session, what)):
            session.close()
            told = "known to mosaic-tiles alone" if has is None else f"{has}, not {asked}"
            raise CommandError(f"{options.store}: its {what} is {told}: leave --{what} out, or name a new store")
    return session


def _files(found: Found) -> str:
    return f"{found.files} file" + ("" if found.files == 1 else "s")


def _done(
    outcomes: Iterable[Outcome], total: int, what: str, session: Session, options: argparse.Namespace, name: str = NAME
) -> int:
    """Takes all in, and floods what is stale then; the status."""
    status = _summed_up(outcomes, total, what, session)
    if not options.no_step:
        flood(session, name)
    return status


def _summed_up(outcomes: Iterable[Outcome], total: int, what: str, session: Session) -> int:
    """Prints each failure as it comes, and a summary; the status."""
    start = time.monotonic()
    progress = Progress(NAME, total, "done")
    tally: collections.Counter[Kind] = collections.Counter()
    filled = left = 0
    try:
        for outcome in outcomes:
            tally[outcome.kind] += 1
            filled += outcome.filled
            left += outcome.voids
            if outcome.voids and not outcome.cure:
                progress.clear()
                print(f"{outcome.cause}: {outcome.voids} voids{' are left' if outcome.filled else ''}", flush=True)
            if outcome.cure or (outcome.kind is Kind.PASSED_BY and outcome.cause):
                progress.clear()
                print(outcome, file=sys.stderr, flush=True)
            progress.tell(sum(tally.values()))
    finally:
        progress.clear()
        counts = ", ".join(f"{tally[kind]} {kind.value}" for kind in Kind if tally[kind]) or "nothing done"
        voids = (f"; {filled} voids filled" if filled else "") + (f"; {left} voids {'left' if filled else 'in all'}" if left else "")
        print(f"{what} in {time.monotonic() - start:.1f} s: {counts}{voids}", flush=True)
    count, capacity = len(session.tiles()), session.capacity
    of = f" of {capacity}" if capacity is not None else ""
    print(f"the store has {count}{of} tile{'' if (count if capacity is None else capacity) == 1 else 's'}")
    return FAILED if tally[Kind.FAILED] else DONE


if __name__ == "__main__":
    sys.exit(main())
