"""Streams as a graph of reaches: the points that a threshold of points and more drain through, joined from point to point.

All of it by arrays: what one step of the graph takes is done for all points, or all reaches, at once. They need numpy.
"""

from __future__ import annotations

import itertools
from collections.abc import Iterator
from dataclasses import dataclass
from typing import TYPE_CHECKING

from .ellipsoid import step_metres
from .errors import BadArgument, BadReply
from .geojson import Feature, line_feature
from .lattice import Point, Window
from .rasters import STEPS
from .samples import needed_numpy

if TYPE_CHECKING:
    from .samples import Array

NOWHERE = -1
"""Stands for no point and no reach: water leaves, or there is no ground."""

_WIDTH = 1 << 22
"""More than there are points on a parallel."""


def keys_of(window: Window) -> Array:
    """A number for each point of a window, int64: in the order of y, then of x."""
    numpy = needed_numpy()
    ys = numpy.arange(window.y1, window.y0 - 1, -1, dtype=numpy.int64)
    xs = numpy.arange(window.x0, window.x1 + 1, dtype=numpy.int64)
    return ys[:, None] * _WIDTH + (xs + _WIDTH // 2)


def places_of(keys: Array) -> tuple[Array, Array]:
    """The y and the x of points by their keys."""
    return keys // _WIDTH, keys % _WIDTH - _WIDTH // 2


def points_at(keys: Array) -> list[Point]:
    """Points by their keys."""
    ys, xs = places_of(keys)
    return list(map(Point, ys.tolist(), xs.tolist()))


def onward(keys: Array, codes: Array) -> Array:
    """The keys of the points to which water flows from some points; a point's own key if water leaves the mosaic there."""
    numpy = needed_numpy()
    steps = numpy.zeros(256, numpy.int64)
    for number, (north, east) in enumerate(STEPS):
        steps[1 << number] = north * _WIDTH + east
    return keys + steps[codes]


def found_in(keys: Array, wanted: Array) -> Array:
    """The indices of some keys in rising ones, int64; -1 for keys that aren't there."""
    numpy = needed_numpy()
    at = numpy.searchsorted(keys, wanted)
    at[at == keys.size] = 0
    return numpy.where(keys[at] == wanted, at, NOWHERE) if keys.size else numpy.full(wanted.shape, NOWHERE)


def ends_of(receivers: Array, stops: Array) -> Array:
    """Of each cell where the way from receiver to receiver ends: at a stop, or at one without a receiver, itself among them.

    Each cell looks twice as far ahead at each turn.
    """
    numpy = needed_numpy()
    ahead = numpy.where(stops | (receivers == NOWHERE), numpy.arange(receivers.size, dtype=receivers.dtype), receivers)
    cells = numpy.flatnonzero(ahead != numpy.arange(receivers.size))
    for _ in turns(receivers.size):
        if not cells.size:
            break
        to = ahead[cells]
        further = ahead[to]
        ahead[cells] = further
        cells = cells[further != to]
    return ahead


def turns(cells: int) -> Iterator[None]:
    """As many passes as a path through all cells takes, if each looks twice as far as the one before; and two that find
    its end."""
    yield from itertools.repeat(None, cells.bit_length() + 2)
    raise BadReply("the directions of the window go round")


def summed(receivers: Array, values: Array) -> Array:
    """The sums of values over all that drains through each cell, as float64, which has whole numbers to 2^53."""
    numpy = needed_numpy()
    sums = values.astype(numpy.float64)
    ahead = numpy.append(receivers, NOWHERE)
    cells = numpy.flatnonzero(receivers != NOWHERE)
    for _ in turns(sums.size):
        if not cells.size:
            break
        to = ahead[cells]
        sums += numpy.bincount(to, sums[cells], sums.size)
        further = ahead[to]
        ahead[cells] = further
        cells = cells[further != NOWHERE]
    return sums


def check_threshold(threshold: int) -> None:
    if threshold < 1:
        raise BadArgument("a stream begins where 1 point and more drains through")


@dataclass(frozen=True)
class Streams:
    """The points of streams and their reaches. A reach goes from a source or a confluence to the next one, or to its end."""

    side: int
    keys: Array
    """Of its points, rising."""
    counts: Array
    """How many points drain through each."""
    receivers: Array
    """Of each point the next one, by number; -1 where the stream ends."""
    reach: Array
    """Of each point its reach, by number."""
    ordered: Array
    """The points by reach, each from above."""
    starts: Array
    """Where each reach begins in `ordered`."""
    following: Array
    """Of each reach the next one; -1 of one that ends."""
    orders: Array
    """Of each reach its order after Strahler: 1 from a source; one more where two of the same order meet."""
    lengths: Array
    """Of each reach in metres, float64."""

    @property
    def last(self) -> Array:
        """Of each reach its last own point, by number: the one before the confluence, or the end."""
        numpy = needed_numpy()
        return self.ordered[numpy.append(self.starts[1:], self.ordered.size) - 1]

    def features(self, areas: Array) -> list[Feature]:
        """The reaches as features, each with the area that drains through its last own point, of all of them given in m²."""
        numpy = needed_numpy()
        points = points_at(self.keys[self.ordered])
        last, ends = self.last, [*self.starts[1:].tolist(), self.ordered.size]
        confluences = self.receivers[last]
        meeting = points_at(self.keys[numpy.maximum(confluences, 0)])
        return [
            line_feature(
                [*points[start:end], *([meeting[number]] if goes_on else [])],
                self.side,
                {
                    "what": "stream",
                    "id": number + 1,
                    "next": following + 1 if goes_on else None,
                    "order": order,
                    "length_m": round(length, 1),
                    "points": drained,
                    "km2": round(area / 1e6, 4),
                },
            )
            for number, (start, end, goes_on, following, order, length, drained, area) in enumerate(
                zip(
                    self.starts.tolist(),
                    ends,
                    (confluences != NOWHERE).tolist(),
                    self.following.tolist(),
                    self.orders.tolist(),
                    self.lengths.tolist(),
                    self.counts[last].tolist(),
                    areas.tolist(),
                )
            )
        ]


def joined(side: int, keys: Array, counts: Array, codes: Array) -> Streams:
    """The reaches of some points, each with how many drain through it and its direction. A point may come several times."""
    numpy = needed_numpy()
    keys, first = numpy.unique(keys, return_index=True)
    counts, codes = counts[first], codes[first]
    receivers = numpy.where(codes == 0, NOWHERE, found_in(keys, onward(keys, codes)))
    within = receivers != NOWHERE
    donors = numpy.bincount(receivers[within], minlength=keys.size)
    donor = numpy.full(keys.size, NOWHERE)
    donor[receivers[within]] = numpy.flatnonzero(within)
    heads = donors != 1
    head = ends_of(numpy.where(heads, NOWHERE, donor), heads)
    reach = (numpy.cumsum(heads) - 1)[head]
    # More drain through a point than through those above it.
    ordered = numpy.lexsort((counts, reach))
    starts = numpy.flatnonzero(numpy.diff(reach[ordered], prepend=NOWHERE))
    last = receivers[ordered[numpy.append(starts[1:], ordered.size) - 1]] if keys.size else receivers
    following = numpy.where(last == NOWHERE, NOWHERE, reach[numpy.maximum(last, 0)]) if keys.size else receivers
    metres = numpy.where(within, step_metres(places_of(keys)[0], codes, side), 0.0)
    lengths = numpy.bincount(reach, metres, starts.size)
    return Streams(side, keys, counts, receivers, reach, ordered, starts, following, _orders(following), lengths)


def _orders(following: Array) -> Array:
    """Strahler's order of each reach. One has more than k where two of k and more meet in it, or one of more comes to it."""
    numpy = needed_numpy()
    orders = numpy.ones(following.size, numpy.int64)
    reached = numpy.ones(following.size, bool)
    while True:
        coming = following[reached & (following != NOWHERE)]
        reached = numpy.bincount(coming, minlength=following.size) > 1
        if not reached.any():
            return orders
        ahead = numpy.append(following, NOWHERE)
        for _ in turns(following.size):
            to = ahead[:-1][reached]
            to = to[to != NOWHERE]
            if not to.size:
                break
            reached[to] = True
            ahead = ahead[ahead]
        orders += reached
