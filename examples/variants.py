#!/usr/bin/env python3
"""Tries 50 variants of a road and a culvert on a store, each taken back, and prints which leaves the least water.

usage: variants.py STORE LATITUDE WEST EAST [--program PROGRAM]

The road runs due east at a latitude from one longitude to another. Its heights are raised above its lowest ground by
steps of a metre; its culvert stands at the lowest ground or a point or two beside, and is 5 to 14 m deep.
"""

import argparse
import pathlib
import sys
import time

sys.path.insert(0, str(pathlib.Path(__file__).resolve().parents[1] / "python"))  # the package, also where it isn't installed

from mosaic_store import MosaicError, open_store


def variants(lowest, at):
    """Road height, culvert's x, and its depth: 50 of them."""
    for index in range(50):
        yield lowest + 10 + index % 10, at + index // 10 - 2, 5 + index % 10


def tried(store, road, height, culvert, depth):
    """The higher level beside the culvert and what drains through it, with the road and it; nothing of them stays."""
    y = road[0][0]
    with store.trial():
        for first in range(0, len(road), 64):
            store.wall(height, road[first : first + 64])
        store.burn(depth, [(y, culvert)])
        return max(store.fill(y - 1, culvert), store.fill(y + 1, culvert)), store.watershed(y, culvert).cells


def main():
    parser = argparse.ArgumentParser(description=__doc__.splitlines()[0])
    parser.add_argument("store")
    parser.add_argument("numbers", type=float, nargs=3, metavar=("LATITUDE", "WEST", "EAST"))
    parser.add_argument("--program")
    options = parser.parse_args()
    try:
        run(options)
    except (MosaicError, ValueError) as error:
        sys.exit(f"variants: {error}")
    except KeyboardInterrupt:
        sys.exit(130)  # the trial under way is undone by then


def run(options):
    latitude, west, east = options.numbers
    with open_store(options.store, options.program) as store:
        (y, first), (_, last) = store.point_of(latitude, west), store.point_of(latitude, east)
        if last < first:
            raise ValueError(f"{west:g} lies east of {east:g}: give the road's western end first")
        road = [(y, x) for x in range(first, last + 1)]
        heights = {x: store.elevation(y, x) for y, x in road}
        if None in heights.values():
            raise ValueError(f"the road crosses a void: give it heights by mosaic-hydrology {options.store} voids FILE, or take another road")
        lowest, at = min((height, x) for x, height in heights.items())
        print(f"the road's lowest ground: {lowest} m at point {y} {at}")
        start, found = time.monotonic(), []
        for height, culvert, depth in variants(lowest, at):
            found.append((*tried(store, road, height, culvert, depth), height, culvert, depth))
        level, cells, height, culvert, depth = min(found)
        print(f"{len(found)} variants in {time.monotonic() - start:.1f} s")
        print(f"least water: {level} m, with a road of {height} m and a culvert at x = {culvert}, {depth} m deep")
        print(f"through it drain {cells} points")


if __name__ == "__main__":
    main()
