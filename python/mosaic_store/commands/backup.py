"""mosaic-backup: a whole copy of a store."""

from __future__ import annotations

import argparse
import functools
import pathlib
import sys
from collections.abc import Sequence

from ..opening import open_place, opened_place
from .frame import DONE, parser, run

NAME = "mosaic-backup"
DESCRIPTION = """Copies a store or a region, whole, with what it keeps of floods, and checks the copy's count. Holes of files stay holes.

  mosaic-backup STORE COPY

A store that another program serves is copied from within that program's own session: Session.backup of the package."""


def main(arguments: Sequence[str] | None = None) -> int:
    """Runs the command; its status."""
    return run(NAME, functools.partial(_backup, _parsed(arguments)))


def _parsed(arguments: Sequence[str] | None) -> argparse.Namespace:
    made = parser(NAME, DESCRIPTION)
    made.add_argument("store")
    made.add_argument("copy", help="the file to make, or of a region the folder; there may be none of that name")
    return made.options_of(arguments)


def _backup(options: argparse.Namespace) -> int:
    with opened_place(options.store, options.program) as session:
        count = session.backup(options.copy)
    with open_place(options.copy, options.program) as copy:
        print(f"{options.copy}: {len(copy.tiles())} tiles, count {copy.count()}, {_bytes_of(pathlib.Path(options.copy)):,} bytes on the drive")
        return DONE if copy.count() == count else 1


def _bytes_of(path: pathlib.Path) -> int:
    """What a file or a folder takes of the drive."""
    return sum(each.stat().st_blocks * 512 for each in (path.rglob("*") if path.is_dir() else [path]))


if __name__ == "__main__":
    sys.exit(main())
