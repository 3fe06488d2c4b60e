"""mosaic-view: serves a map of a store to a browser on this machine."""

from __future__ import annotations

import argparse
import functools
import pathlib
import sys
import webbrowser
from typing import TYPE_CHECKING

from ..commands.frame import DONE, CommandError, Parser, parser, run
from ..opening import open_place
from ..samples import cure_for
from ..session import memory_table
from .base import base_of

if TYPE_CHECKING:
    from .server import MapServer
    from .workbench import Workbench

NAME = "mosaic-view"

DESCRIPTION = """A map of a store in the browser: shaded relief; click a point for its height, filled level, flow path and
watershed; draw roads as walls and culverts as burns, see the water before and after, then keep the edits or take them back, or
undo them later while the map is up. After they are kept or undone, stale tiles are flooded in the background.
The page is served on the loopback alone, at an address that only this program prints. It ends at Ctrl-C."""


def main(words: list[str] | None = None) -> int:
    """Serves the page until it is interrupted; the exit status."""
    return run(NAME, functools.partial(_serve, arguments().parse_args(words)))


def arguments() -> Parser:
    made = parser(NAME, DESCRIPTION)
    made.add_argument("store", help="the store's file, or a region's folder")
    made.add_argument("--port", type=port, default=0, help="the port to listen at; without it any that is free")
    made.add_argument("--base", type=base, metavar="URL", help="a base map's XYZ template, as https://tile.example/{z}/{x}/{y}.png")
    made.add_argument("--browser", action="store_true", help="open the page in the browser")
    return made


def _serve(options: argparse.Namespace) -> int:
    try:
        from .requests import BadRequest
        from .workbench import Workbench
    except ImportError as missing:
        raise CommandError(f"pictures need numpy ({missing}): {cure_for('numpy')}") from None
    with open_place(options.store, options.program, wait=1, restart=True) as session:
        name = pathlib.Path(options.store).resolve().name
        try:
            capacity = len(session.tiles())
            workbench = Workbench(name, session, lambda: memory_table(session.side, capacity, options.program), options.base)
        except BadRequest as bad:
            raise CommandError(str(bad)) from None
        try:
            with _listening(workbench, options.port) as server:
                print(server.url, flush=True)
                if options.browser:
                    webbrowser.open(server.url)
                server.serve_forever()
        except KeyboardInterrupt:
            pass
        finally:
            workbench.close()
    return DONE


def _listening(workbench: Workbench, at: int) -> MapServer:
    from .server import MapServer

    try:
        return MapServer(workbench, at)
    except OSError as fault:
        raise CommandError(f"port {at} can't be listened at: {fault.strerror or fault}: name another by --port, or leave that out") from None


def base(text: str) -> str:
    try:
        base_of(text)
    except ValueError as fault:
        raise argparse.ArgumentTypeError(str(fault)) from None
    return text


def port(text: str) -> int:
    if not (text.isascii() and text.isdecimal() and int(text) <= 65535):
        raise argparse.ArgumentTypeError("a port is a number from 0 to 65535")
    return int(text)


if __name__ == "__main__":
    sys.exit(main())
