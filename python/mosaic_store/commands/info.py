"""mosaic-info: what a store is and holds, in a few lines."""

from __future__ import annotations

import argparse
import functools
import sys
from collections.abc import Sequence

from ..backups import is_read_only
from ..errors import BadLine, StoreBusy
from ..lattice import Window, corners_named
from ..opening import is_region, opened_place
from ..questions import Numbers
from ..samples import voids_in
from ..session import Session
from ..stores import Report, check_store
from .frame import DONE, CommandError, parser, run

NAME = "mosaic-info"
DESCRIPTION = """Tells a store's version, side, capacity, count of accepted commands, tiles (fresh and stale), voids and bounds. mosaic-tiles
tells it; where that isn't beside the program version and capacity are left out, and the store is read whole. `mosaic check` tells which
tiles are stale. Where another program serves the store, that one's session tells all this: Session.info of the package, or GET
/info of examples/service.py.

  mosaic-info STORE
  mosaic-info REGION"""


def main(arguments: Sequence[str] | None = None) -> int:
    """Runs the command; its status."""
    return run(NAME, functools.partial(_tell, _parsed(arguments)))


def _parsed(arguments: Sequence[str] | None) -> argparse.Namespace:
    made = parser(NAME, DESCRIPTION)
    made.add_argument("store")
    return made.options_of(arguments)


def _tell(options: argparse.Namespace) -> int:
    try:
        with opened_place(options.store, options.program) as session:
            side, names, told = session.side, session.tiles(), _told(session, options)
            voids = [voids_in(session.export(name)) for name in names]
        found = told or check_store(options.store, options.program)
    except StoreBusy:
        raise CommandError(f"{options.store}: another program serves it: its Session.info, or GET /info, describes it") from None
    shape = f"side {side} samples, {side - 1} points a degree"
    fresh = sum(found.tiles.values()) if isinstance(found, Report) else found.fresh
    if is_region(options.store):
        print(f"a region, {shape}")
    elif isinstance(found, Report):
        print(f"{shape}; only mosaic-tiles knows version and capacity, and it isn't beside the program")
    else:
        print(f"version {found.version}, {shape}, at most {found.capacity} tiles")
    print(f"tiles {len(names)}: {fresh} fresh, {len(names) - fresh} stale")
    print(f"voids {sum(voids)}" + (f" in {sum(map(bool, voids))} tiles" if any(voids) else ""))
    print(f"count {found.count}, commits {found.commits}")
    if corners := corners_named(names):
        south, west, north, east = Window.around(corner.window(2) for corner in corners)
        print(f"bounds {south} {west} to {north} {east} degrees, north and east positive")
        print("names " + " ".join(names))
    return DONE


def _told(session: Session, options: argparse.Namespace) -> Numbers | Report | None:
    """The numbers of the session's store or region; None for a store that `mosaic` alone serves, and `check_store` may open."""
    try:
        return session.info()
    except BadLine:
        return session.report() if is_region(options.store) or is_read_only(options.store) else None


if __name__ == "__main__":
    sys.exit(main())
