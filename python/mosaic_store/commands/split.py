"""mosaic-split: a region of the tiles of a store, or of folders of HGT files, also where one store would take them all."""

from __future__ import annotations

import argparse
import functools
import sys
from collections.abc import Sequence

from .frame import parser, run
from .load import add_ways, load_region

NAME = "mosaic-split"
DESCRIPTION = """Makes a region of the tiles of a store or a region, which stays, or of folders of HGT files. It needs numpy.

  mosaic-split REGION STORE             a folder of stores with the tiles and sinks of a store, joined
  mosaic-split REGION FOLDER..          the same of files, as mosaic-load makes it of more than 240 tiles

A region is a folder of stores that answers as one store of all its tiles would. Each store has the tiles of a square of degrees,
of 15 by 15 where --square doesn't say otherwise. Run it again to go on after an interruption."""


def main(arguments: Sequence[str] | None = None) -> int:
    """Runs the command; its status."""
    return run(NAME, functools.partial(load_region, _parsed(arguments), NAME))


def _parsed(arguments: Sequence[str] | None) -> argparse.Namespace:
    made = parser(NAME, DESCRIPTION)
    made.add_argument("store", metavar="REGION", help="the folder of the stores")
    made.add_argument("paths", nargs="+", metavar="STORE", help="a store or a region, or folders and files of tiles")
    made.add_argument("--square", type=int, help="how many degrees a store is high and wide: 1 to 15, and 15 without it")
    add_ways(made)
    return made.options_of(arguments)


if __name__ == "__main__":
    sys.exit(main())
