"""Runs a command of the package: python -m mosaic_store load|split|info|backup|geojson|raster|draw|hydrology|view .."""

import importlib
import sys

COMMANDS = {
    "load": "mosaic_store.commands.load",
    "split": "mosaic_store.commands.split",
    "info": "mosaic_store.commands.info",
    "backup": "mosaic_store.commands.backup",
    "geojson": "mosaic_store.commands.geojson",
    "raster": "mosaic_store.commands.raster",
    "draw": "mosaic_store.commands.draw",
    "hydrology": "mosaic_store.commands.hydrology",
    "view": "mosaic_store.view.__main__",
}


def main() -> int:
    """Runs the command that the first word names; its status."""
    words = sys.argv[1:]
    if not words or words[0] not in COMMANDS:
        print(f"mosaic_store: a command is needed: {', '.join(COMMANDS)}", file=sys.stderr)
        return 2
    return int(importlib.import_module(COMMANDS[words[0]]).main(words[1:]))


if __name__ == "__main__":
    sys.exit(main())
