"""Exact answers over many tiles that are flooded one by one: what is computed of a tile, and how tiles are joined.

Each tile is flooded by itself by the program, where every point of its rim lets water out. What it tells its neighbours is
small: its samples and levels at its edge, and an outline, the links between rim points over which water passes at the least
crest. All outlines together give the level of each rim point in the whole region, and these give all others:

1. A point's level is the greater of its level in its tile and that of the rim point that its label names.
2. Its direction follows from the levels around it. On a flat that tiles cut, distances go from tile to tile until none changes.
3. A tile's exits are the points whose water goes on into another tile. They make a forest, over which counts are summed.

What is proved, of any terrain and any partition, are the laws that this rests on, in `crates/water`: `levels_follow_a_ring` and
`flat_distances_follow_a_ring` (what a part is told of its edge is enough), `levels_follow_outlines` (outlines keep each least
crest), `flow_paths_follow_exits` and `counts_follow_exits`. The program's levels and directions of a single tile are proved, too.
That these functions compute what the laws ask is tested, beside one mosaic of all tiles.

Arrays have the north row first. Points have numbers by rows; those of the rim are 0, 1, .. in this order.
"""

from __future__ import annotations

import functools
import hashlib
from collections.abc import Callable, Iterable
from dataclasses import dataclass
from typing import TYPE_CHECKING

import numpy as np

from .lattice import VOID, Corner, Window
from .rasters import NO_DIRECTION, STEPS, ring

if TYPE_CHECKING:
    from .samples import Array

OUT = 0xFFFF
"""The label of a point whose water leaves inside its tile."""

NO_LABEL = 0xFFFE
"""The label of a point that isn't ground."""

UNREACHED = 1 << 30
"""The flat distance of a point that isn't ground, or that isn't known yet."""

LOWEST = -(1 << 20)
"""A crest below all heights."""

_DRAIN = 1 << 40
"""A number that no point has: where water leaves the region."""


# ---- links and crests ----


@dataclass(frozen=True)
class Spread:
    """The nodes reached from some roots over links."""

    level: Array
    """Of each node the least crest of a way to a root."""
    label: Array
    """Of each node a root that is reached at that crest; -1 where none is reached."""
    kept: Array
    """The numbers of links that make a least spanning forest."""


def spread(count: int, first: Array, second: Array, crest: Array, roots: Array) -> Spread:
    """Least crests from nodes 0 to `count` - 1 to roots over links, by rounds after Borůvka.

    In each round every component takes its least link that leads out of it. The crests of the links taken on the way to a
    component's centre never rise, so their greatest one is that of the first. Links of one crest are taken in one order, so no
    round goes in a circle.
    """
    order = np.argsort(crest, kind="stable")
    ends = np.stack([first[order], second[order]])
    crests = np.asarray(crest)[order].astype(np.int64)
    level = np.full(count, LOWEST, np.int64)
    label = np.full(count, -1, np.int64)
    label[roots] = roots
    part = np.arange(1, count + 1)  # component 0 has the roots
    part[roots] = 0
    kept: list[Array] = []
    links = np.arange(crests.size)
    while True:
        parts = part[ends[:, links]]
        links = links[parts[0] != parts[1]]
        if not links.size:
            return Spread(level, label, order[np.unique(np.concatenate(kept))] if kept else links)
        parts = parts[:, parts[0] != parts[1]]
        hook, taken = _hooks(int(part.max()) + 1, parts, links)
        kept.append(taken[taken >= 0])
        step = np.where(taken >= 0, crests[taken], LOWEST)
        step[hook == np.arange(hook.size)] = LOWEST
        level = np.maximum(level, step[part])
        _name(label, part, hook, taken, ends)
        centre = _ends(hook)
        part = np.unique(np.append(0, centre[part]), return_inverse=True)[1][1:]


def _hooks(count: int, parts: Array, links: Array) -> tuple[Array, Array]:
    """Of each component the one that its least link leads to, and that link; of two that lead to each other one stays."""
    least = np.full((2, count), np.iinfo(np.int64).max)
    for side in (0, 1):
        least[side][parts[side][::-1]] = np.arange(links.size)[::-1]  # the last assignment stands: that of the least link
    least = least.min(axis=0)
    least[0] = np.iinfo(np.int64).max  # the roots stay
    nodes = np.arange(count)
    leaving = nodes[least < links.size]
    hook, taken = nodes.copy(), np.full(count, -1, np.int64)
    chosen = least[leaving]
    taken[leaving] = links[chosen]
    hook[leaving] = np.where(parts[0][chosen] == leaving, parts[1][chosen], parts[0][chosen])
    stays = nodes[(hook[hook] == nodes) & (nodes < hook)]
    hook[stays] = stays
    return hook, taken


def _name(label: Array, part: Array, hook: Array, taken: Array, ends: Array) -> None:
    """Gives the nodes of components that reach the roots the label of the node through which their path goes."""
    gates = np.flatnonzero((hook == 0) & (np.arange(hook.size) != 0))
    if not gates.size:
        return
    pair = ends[:, taken[gates]]
    through = np.where(part[pair[0]] == 0, pair[0], pair[1])
    way = hook.copy()
    way[gates] = gates
    gate = _ends(way)[part]
    named = np.full(hook.size, -1, np.int64)
    named[gates] = label[through]
    reached = (named[gate] >= 0) & (part != 0)
    label[reached] = named[gate][reached]


def _ends(to: Array) -> Array:
    """The end of each node's path, for nodes that lead to others or to themselves."""
    while not np.array_equal(ahead := to[to], to):
        to = ahead
    return to


@dataclass(frozen=True)
class Links:
    """Links between points of a region, or to the outside where water leaves, with their crests."""

    first: Array
    second: Array
    crest: Array

    @staticmethod
    def of(parts: Iterable[Links]) -> Links:
        """All links of some."""
        nothing = np.empty(0, np.int64)
        listed = [*parts, Links(nothing, nothing, nothing)]
        return Links(*(np.concatenate([getattr(part, name) for part in listed]) for name in ("first", "second", "crest")))

    @staticmethod
    def to_drain(points: Array, crest: Array) -> Links:
        """Links of some points to the outside of the region."""
        return Links(points, np.full(len(points), _DRAIN), np.asarray(crest, np.int64))

    def levels(self, points: Array) -> Array:
        """The least crest from each of some points to the outside of the region."""
        nodes, first, second = self._numbered(np.append(points, _DRAIN))
        found = spread(nodes.size, first, second, self.crest, np.array([nodes.size - 1]))
        return found.level[np.searchsorted(nodes, points)]

    def outline(self, shared: Array) -> Links:
        """At most as many links as there are shared points, over which these reach each other, and the drain, at the same crests."""
        nodes, first, second = self._numbered(np.append(shared, _DRAIN))
        roots = np.append(np.searchsorted(nodes, np.unique(shared)), nodes.size - 1)
        found = spread(nodes.size, first, second, self.crest, roots)
        labels = found.label[first], found.label[second]
        crest = np.maximum(np.maximum(found.level[first], found.level[second]), self.crest)
        meeting = np.flatnonzero((labels[0] != labels[1]) & (labels[0] >= 0) & (labels[1] >= 0))
        pair = labels[0][meeting], labels[1][meeting]
        kept = spread(nodes.size, *pair, crest[meeting], np.empty(0, np.int64)).kept
        return Links(nodes[pair[0][kept]], nodes[pair[1][kept]], crest[meeting][kept])

    def _numbered(self, more: Array) -> tuple[Array, Array, Array]:
        """The points of the links and some more in rising order, the drain last, and the links' ends by their places there."""
        nodes, places = np.unique(np.concatenate([self.first, self.second, more]), return_inverse=True)
        return nodes, places[: self.first.size], places[self.first.size : 2 * self.first.size]


# ---- the places of a tile ----


@dataclass(frozen=True)
class Frame:
    """Where the samples of a tile with this side are."""

    side: int
    rim: Array
    """The numbers of its outermost samples."""
    near: Array
    """The numbers of these and of the samples beside them."""
    rim_in_near: Array
    """Where those of the rim stand among these."""
    around: Array
    """The numbers of the outermost points of the window that is one wider on each side, in that window."""


@functools.lru_cache(maxsize=8)
def frame_of(side: int) -> Frame:
    """The frame of a side."""
    outer = ring((side, side))
    near = outer.copy()
    near[1:-1, 1:-1] |= ring((side - 2, side - 2)) if side > 3 else True
    rim, near = np.flatnonzero(outer), np.flatnonzero(near)
    return Frame(side, rim, near, np.searchsorted(near, rim), np.flatnonzero(ring((side + 2, side + 2))))


def steps_in(width: int) -> list[int]:
    """The distances of the eight neighbours from a point, in an array by rows of this width."""
    return [east - north * width for north, east in STEPS]


def _by_code(width: int) -> Array:
    """For each byte, as a direction, the distance to the point that it leads to, in an array by rows of this width; 0 for
    bytes that lead nowhere."""
    offsets = np.zeros(256, np.int64)
    offsets[[1 << way for way in range(8)]] = steps_in(width)
    return offsets


AROUND = tuple((north, east) for north in (-1, 0, 1) for east in (-1, 0, 1))
"""Where a tile and its neighbours lie, in the order of tiles."""


@functools.lru_cache(maxsize=8)
def _shares(side: int) -> dict[tuple[int, int], tuple[Array, Array]]:
    """Of a tile and each neighbour which of its samples near its edge lie around the tile or on its rim, and where there.

    The places are first those around, then those of the rim.
    """
    frame, reach, width = frame_of(side), side - 1, side + 2
    place = np.full(width * width, -1, np.int32)
    rim = (frame.rim // side + 1) * width + frame.rim % side + 1
    place[frame.around] = np.arange(frame.around.size)
    place[rim] = frame.around.size + np.arange(rim.size)
    found = {}
    for north, east in AROUND:
        rows, columns = 1 - north * reach + frame.near // side, 1 + east * reach + frame.near % side
        inside = np.flatnonzero((rows >= 0) & (rows < width) & (columns >= 0) & (columns < width))
        there = place[rows[inside] * width + columns[inside]]
        found[north, east] = inside[there >= 0], there[there >= 0]
    return found


Told = Iterable[tuple[tuple[int, int], "Array"]]
"""Tiles by their place from one, in degrees north and east, each with values for its samples."""


def laid(side: int, told: Told, nothing: int, kind: str, merge: Callable[[Array, Array], Array]) -> tuple[Array, Array]:
    """The points around a tile and those of its rim, from the tile and its neighbours.

    `merge` makes one value of those of a point, in their order.
    """
    around = frame_of(side).around.size
    values = np.full(around + frame_of(side).rim.size, nothing, kind)
    for where, each in told:
        source, there = _shares(side)[where]
        values[there] = merge(values[there], each[source])
    return values[:around], values[around:]


def shared_rim(side: int, others: Iterable[tuple[int, int]]) -> Array:
    """Which rim points of a tile some of its neighbours have, too: bool. `others` has their places."""
    nothing = np.zeros(frame_of(side).near.size, bool)
    nothing[frame_of(side).rim_in_near] = True
    return laid(side, [(where, nothing) for where in others], 0, "bool", np.logical_or)[1]


def first_height(before: Array, after: Array) -> Array:
    """The seam rule: the values present, replaced where they are void."""
    return np.where(before == VOID, after, before)


def point_numbers(corner: Corner, side: int) -> Array:
    """The numbers in the region of a tile's rim points."""
    frame, window = frame_of(side), corner.window(side)
    return numbers_of(window.y1 - frame.rim // side, window.x0 + frame.rim % side, side)


def numbers_of(ys: Array, xs: Array, side: int) -> Array:
    """The numbers of points in the region."""
    reach = side - 1
    return (np.asarray(ys, np.int64) + 90 * reach) * (360 * reach + 1) + (xs + 180 * reach)


def points_numbered(numbers: Array, side: int) -> tuple[Array, Array]:
    """The y and the x of points by their numbers."""
    reach = side - 1
    ys, xs = divmod(numbers, 360 * reach + 1)
    return ys - 90 * reach, xs - 180 * reach


# ---- a tile flooded by itself ----


@dataclass(frozen=True)
class Labelling:
    """The summary of a tile that was flooded by itself."""

    heights: Array
    """The heights of its rim points, int16."""
    mask: Array
    """Of each rim point to which of its eight neighbours it is adjacent in the tile, uint8."""
    first: Array
    """An outline: the rim point of each link, or OUT, uint16."""
    second: Array
    crest: Array
    near_level: Array
    """The levels of the samples near its edge, int16."""
    near_label: Array
    """The labels of these: uint16."""

    def links(self, numbers: Array) -> Links:
        """Its outline, by the numbers of its rim points in the region."""
        named = np.append(numbers, _DRAIN)
        first, second = (named[np.minimum(each.astype(np.int64), numbers.size)] for each in (self.first, self.second))
        return Links(first, second, self.crest.astype(np.int64))

    def same_outline(self, other: Labelling | None) -> bool:
        """Whether another one has the same rim."""
        names = ("heights", "mask", "first", "second", "crest")
        return other is not None and all(np.array_equal(getattr(self, name), getattr(other, name)) for name in names)


def labels_of(levels: Array, codes: Array) -> Array:
    """Of each sample of a tile, flooded by itself, the rim point that its flow path comes to first, uint16.

    Each rim point lets water out, and so it is its own label, also where it drains to a lower one.
    """
    side = len(levels)
    frame = frame_of(side)
    to = np.arange(side * side) + _by_code(side)[codes.ravel()]
    to[frame.rim] = frame.rim
    to = _ends(to)
    names = np.full(side * side, OUT, np.uint16)
    names[frame.rim] = np.arange(frame.rim.size)
    return np.where(levels.ravel() == VOID, NO_LABEL, names[to]).astype(np.uint16).reshape(side, side)


def labelling_of(heights: Array, levels: Array, labels: Array, sinks: Array) -> Labelling:
    """A tile's summary. `sinks` are the numbers of its declared sinks."""
    side = len(heights)
    frame = frame_of(side)
    ground = np.pad(heights != VOID, 1)
    level = np.pad(levels.astype(np.int32), 1, constant_values=VOID)
    node = np.pad(np.minimum(labels.astype(np.int32), frame.rim.size), 1)
    mask = np.zeros((side, side), np.uint8)
    found = []
    for way, (north, east) in enumerate(STEPS):
        there = np.s_[1 - north : side + 1 - north, 1 + east : side + 1 + east]
        pairs = ground[1:-1, 1:-1] & ground[there]
        mask |= pairs.astype(np.uint8) << way
        if way < 4:
            at = np.nonzero(pairs & (node[1:-1, 1:-1] != node[there]))
            found.append((node[1:-1, 1:-1][at], node[there][at], np.maximum(level[1:-1, 1:-1][at], level[there][at])))
    # An outlet inside that has a lower neighbour drains to that, and lets water out all the same.
    outlets = (mask != 255) & ground[1:-1, 1:-1] & ~ring((side, side))
    outlets.ravel()[sinks] = (ground[1:-1, 1:-1] & ~ring((side, side))).ravel()[sinks]
    at = np.nonzero(outlets & (node[1:-1, 1:-1] != frame.rim.size))
    found.append((node[1:-1, 1:-1][at], np.full(at[0].size, frame.rim.size), levels[at].astype(np.int32)))
    first, second, crest = (np.concatenate(each) for each in zip(*found))
    kept = spread(frame.rim.size + 1, first, second, crest, np.empty(0, np.int64)).kept
    named = np.append(np.arange(frame.rim.size), OUT).astype(np.uint16)
    return Labelling(
        heights.ravel()[frame.rim].astype(np.int16),
        mask.ravel()[frame.rim],
        named[first[kept]],
        named[second[kept]],
        crest[kept].astype(np.int16),
        levels.ravel()[frame.near].astype(np.int16),
        labels.ravel()[frame.near],
    )


def raised(levels: Array, labels: Array, rim: Array) -> Array:
    """The levels in the region, int16, from those in the tile, the labels, and the levels of the rim points in the region."""
    of_label = np.full(1 << 16, VOID, np.int16)
    of_label[: rim.size] = rim
    return np.maximum(levels, of_label[labels])


# ---- directions ----


@dataclass(frozen=True)
class Edge:
    """A tile's surroundings: the levels around it, and which of its rim points are adjacent to what."""

    rim: Array
    """The levels of its rim points in the region, int16."""
    around: Array
    """The levels of the points around it, int16; VOID where there is no ground."""
    mask: Array
    """Of each rim point to which neighbours it is adjacent in the region, uint8."""
    sinks: Array
    """The numbers of its declared sinks."""


@dataclass(frozen=True)
class Flats:
    """A tile's flats that come to its rim: the distances that it tells of them follow from them, and from what it is told."""

    level: Array
    """Their levels, rising, int16; two of one level are taken for one."""
    digest: Array
    """Of each a digest of its places, and of which of these lie beside an end, uint64."""

    def moved(self, before: Flats) -> set[int]:
        """The levels of those that are others than before."""
        now, then = (dict(zip(each.level.tolist(), each.digest.tolist())) for each in (self, before))
        return {level for level in {*now, *then} if now.get(level) != then.get(level)}


def directed(levels: Array, edge: Edge, told: Array, beyond: Array) -> tuple[Array, Array, Flats]:
    """The direction codes of a tile, uint8, its flat distances near its edge, and its flats that come to its rim.

    `told` are the distances of its rim points that other tiles tell, and `beyond` those of the points around it.
    """
    side = len(levels)
    frame, width = frame_of(side), side + 2
    level = np.full((width, width), VOID, np.int32)
    level.ravel()[frame.around] = edge.around
    level[1:-1, 1:-1] = levels
    joined = _adjacent(level, edge.mask)
    codes = _steepest(level, joined)
    void = levels == VOID
    outlets = joined != 255
    outlets.ravel()[edge.sinks] = True
    codes[outlets & ~void & (codes == NO_DIRECTION)] = 0
    members = ~void & (codes == NO_DIRECTION)
    distance = np.full((width, width), UNREACHED, np.int32)
    distance[1:-1, 1:-1][~void & ~members] = 0
    flats = _wave(level.ravel(), distance.ravel(), members, told)
    near = distance[1:-1, 1:-1].ravel()[frame.near]
    distance.ravel()[frame.around] = beyond
    _lead(codes, members, joined, level, distance)
    return codes, near, flats


def _adjacent(level: Array, mask: Array) -> Array:
    """Which neighbours each sample of a tile is adjacent to, a bit each: inside by ground alone, at the rim as given."""
    side = len(level) - 2
    joined = np.zeros((side, side), np.uint8)
    ground = level != VOID
    for way, (north, east) in enumerate(STEPS):
        joined |= ground[1 - north : side + 1 - north, 1 + east : side + 1 + east].astype(np.uint8) << way
    joined.ravel()[frame_of(side).rim] = mask
    return joined


def _steepest(level: Array, joined: Array) -> Array:
    """The codes of the samples that have a lower neighbour: the steepest drop, the first among equals."""
    side = len(level) - 2
    here = level[1:-1, 1:-1]
    best = np.zeros((2, side, side), np.int32)
    codes = np.full((2, side, side), NO_DIRECTION, np.uint8)
    for way, (north, east) in enumerate(STEPS):
        drop = here - level[1 - north : side + 1 - north, 1 + east : side + 1 + east]
        greater = (drop > best[way % 2]) & (joined & (1 << way) != 0)
        np.copyto(best[way % 2], drop, where=greater)
        np.copyto(codes[way % 2], 1 << way, where=greater)
    straight = (codes[1] == NO_DIRECTION) | (2 * best[0].astype(np.int64) ** 2 > best[1].astype(np.int64) ** 2)
    return np.where(here == VOID, NO_DIRECTION, np.where(straight, codes[0], codes[1])).astype(np.uint8)


def _wave(level: Array, distance: Array, members: Array, told: Array) -> Flats:
    """Gives the members of flats their distances from ends in the tile, and from its rim points with given distances.

    Answers the flats that come to the rim.
    """
    side = len(members)
    frame, width = frame_of(side), side + 2
    steps = steps_in(width)
    waiting = np.pad(members, 1).ravel()
    places = np.flatnonzero(waiting)
    if not places.size:
        return Flats(np.empty(0, np.int16), np.empty(0, np.uint64))
    rim = (frame.rim // side + 1) * width + frame.rim % side + 1
    seeded = waiting[rim] & (told < UNREACHED)
    seeds, when = rim[seeded], told[seeded]
    ended = np.zeros(places.size, bool)
    for step in steps:
        ended |= (distance[places + step] == 0) & (level[places + step] == level[places])
    flats = _flats(level, places, ended, rim[waiting[rim]])
    front, now = places[ended], 1
    while front.size or seeds.size:
        if not front.size:
            now = int(when.min())
        front = np.concatenate([front, seeds[when <= now]])
        front = np.unique(front[distance[front] > now])
        seeds, when = seeds[when > now], when[when > now]
        distance[front] = now
        ahead = [front[waiting[front + step] & (level[front + step] == level[front])] + step for step in steps]
        front, now = np.unique(np.concatenate(ahead)), now + 1
        front = front[distance[front] > now]
    return flats


def _flats(level: Array, places: Array, ended: Array, rim: Array) -> Flats:
    """The flats with members on the rim."""
    chosen = np.flatnonzero(np.isin(level[places], level[rim]))
    chosen = chosen[np.argsort(level[places[chosen]], kind="stable")]
    levels, begins = np.unique(level[places[chosen]], return_index=True)
    parts = np.split(places[chosen] * 2 + ended[chosen], begins[1:])
    digests = [int.from_bytes(hashlib.blake2b(part.tobytes(), digest_size=8).digest(), "big") for part in parts[: levels.size]]
    return Flats(levels.astype(np.int16), np.array(digests, np.uint64))


def _lead(codes: Array, members: Array, joined: Array, level: Array, distance: Array) -> None:
    """Gives the members of flats the first direction to a neighbour of their level that is nearer to an end."""
    side = len(codes)
    width = side + 2
    rows, columns = np.nonzero(members)
    places = (rows + 1) * width + columns + 1
    level, distance = level.ravel(), distance.ravel()
    ways = joined[rows, columns]
    found = np.full(places.size, NO_DIRECTION, np.uint8)
    for way, step in reversed(list(enumerate(steps_in(width)))):
        there = places + step
        leads = ((ways >> way) & 1).astype(bool) & (level[there] == level[places]) & (distance[there] == distance[places] - 1)
        found[leads] = 1 << way
    codes[rows, columns] = found


# ---- flow from tile to tile ----


@dataclass(frozen=True)
class Exits:
    """Where water flows from a tile into others. Each point belongs to the first present tile with it."""

    points: Array
    """The numbers in the tile of its own points that drain to a point of another."""
    targets: Array
    """The numbers in the region of the points that these drain to."""
    counts: Array
    """How many points of the tile drain through each within it, itself among them."""
    near: Array
    """Of the tile's own points near its edge the place of the exit that their path comes to; -1 where it ends in the tile."""


def receivers(codes: Array, own: Array) -> Array:
    """Of each sample of a tile the number of the one that it drains to: itself where that is off the tile or another's, or nothing.

    `own` are the samples that are of the tile.
    """
    side = len(codes)
    inside = np.pad(own & (codes != NO_DIRECTION), 1).ravel()
    places = np.arange((side + 2) ** 2).reshape(side + 2, -1)[1:-1, 1:-1].ravel()
    to = places + _by_code(side + 2)[codes.ravel()]
    to = np.where(inside[places] & inside[to], to, places)
    return (to // (side + 2) - 1) * side + to % (side + 2) - 1


def exits_of(codes: Array, own: Array, corner: Corner) -> Exits:
    """The exits of a tile."""
    side = len(codes)
    frame, window = frame_of(side), corner.window(side)
    to = receivers(codes, own)
    flat = codes.ravel()
    leaves = own.ravel() & (to == np.arange(to.size)) & (flat != 0) & (flat != NO_DIRECTION)
    points = np.flatnonzero(leaves)
    ways = np.log2(flat[points]).astype(np.int64)
    steps = np.array(STEPS, np.int64).reshape(-1, 2)[ways]
    targets = numbers_of(window.y1 - points // side + steps[:, 0], window.x0 + points % side + steps[:, 1], side)
    end = _ends(to)
    counted = own.ravel() & (flat != NO_DIRECTION)
    counts = np.bincount(end[counted], minlength=to.size)[points]
    place = np.full(to.size, -1, np.int64)
    place[points] = np.arange(points.size)
    near = np.where(counted[frame.near], place[end[frame.near]], -1)
    return Exits(points.astype(np.int32), targets, counts.astype(np.int64), near.astype(np.int32))


def summed(to: Array, values: Array) -> Array:
    """The sums of values over all nodes whose path reaches each node, itself included. A node that leads nowhere leads to
    itself."""
    sums = np.array(values, np.int64)
    moves = to != np.arange(to.size)
    donors = np.bincount(to[moves], minlength=to.size)
    front = np.flatnonzero(moves & (donors == 0))
    while front.size:
        ahead = to[front]
        np.add.at(sums, ahead, sums[front])
        np.subtract.at(donors, ahead, 1)
        front = np.unique(ahead[(donors[ahead] == 0) & moves[ahead]])
    return sums


def reaching(to: Array, targets: Array) -> Array:
    """Which nodes' paths reach one of some nodes, these included: bool."""
    is_target = np.zeros(to.size, bool)
    is_target[targets] = True
    return is_target[_ends(np.where(is_target, np.arange(to.size), to))]


def runs_of(mask: Array, window: Window) -> Array:
    """The runs of a mask of a window: rows of y, first x, last x."""
    padded = np.pad(mask, ((0, 0), (1, 1))).astype(np.int8)
    turns = np.diff(padded, axis=1)
    rows, firsts = np.nonzero(turns == 1)
    lasts = np.nonzero(turns == -1)[1] - 1
    return np.stack([window.y1 - rows, window.x0 + firsts, window.x0 + lasts], axis=1)


def maximal(runs: Array) -> Array:
    """Runs of sets that have no point in common as maximal ones: from the north down, and in a row from the west."""
    if not len(runs):
        return runs
    runs = runs[np.lexsort((runs[:, 1], -runs[:, 0]))]
    begins = np.ones(len(runs), bool)
    begins[1:] = (runs[1:, 0] != runs[:-1, 0]) | (runs[1:, 1] != runs[:-1, 2] + 1)
    starts = np.flatnonzero(begins)
    return np.column_stack([runs[starts, :2], runs[np.append(starts[1:], len(runs)) - 1, 2]])
