"""The edits that a trial is made of: lines that are raised or lowered, voids that get a height, sinks."""

from __future__ import annotations

import dataclasses
from collections.abc import Iterable, Sequence
from dataclasses import dataclass
from typing import Any

import numpy as np
from numpy.typing import NDArray

from .. import lines
from ..lattice import Point, Window
from ..questions import Command, Sink, Unsink
from ..rasters import Heights, grown
from ..session import Session

KINDS = ("wall", "burn", "patch", "sink", "unsink")
"""A line raised to a height, a line lowered by a depth, a box whose voids get a height, a point that becomes a sink or no longer is one."""


@dataclass(frozen=True)
class Edit:
    """One of the `KINDS`, with its metres and its corners; 0 metres for a kind without a height or depth."""

    kind: str
    amount: int
    corners: Sequence[Point]
    points: Sequence[Point]
    """Every point of a line, and both corners of a box."""

    @property
    def window(self) -> Window:
        """The least window that has all of its points."""
        return Window.around(Window(y, x, y, x) for y, x in self.points)

    def make(self, session: Session) -> None:
        """Makes it in a session."""
        if self.kind == "patch":
            session.patch(*self.window, self.amount)
        elif self.kind in ("sink", "unsink"):
            (session.sink if self.kind == "sink" else session.unsink)(*self.points[0])
        else:
            act = session.wall if self.kind == "wall" else session.burn
            for part in lines.commands(self.points):
                act(self.amount, part)

    def marked(self, heights: Heights) -> NDArray[np.bool_]:
        """Which points of a window it may change."""
        window, found = heights.window, np.zeros(heights.samples.shape, np.bool_)
        if self.kind == "patch":
            common = self.window.met(window)
            if common is not None:
                found[window.y1 - common.y1 : window.y1 - common.y0 + 1, common.x0 - window.x0 : common.x1 - window.x0 + 1] = True
            return found
        ys, xs = np.array(self.points).T
        inside = (ys >= window.y0) & (ys <= window.y1) & (xs >= window.x0) & (xs <= window.x1)
        found[window.y1 - ys[inside], xs[inside] - window.x0] = True
        return found

    def applied(self, heights: Heights) -> Heights:
        """The heights of a window once it is made."""
        if self.kind in ("sink", "unsink"):
            return heights
        samples, own = heights.samples, self.marked(heights)
        if self.kind == "patch":
            changed = np.where(own & heights.held & ~heights.ground, self.amount, samples)
        elif self.kind == "wall":
            changed = np.where(own, np.maximum(samples, self.amount), samples)
        else:
            changed = np.where(own, samples - self.amount, samples)
        return dataclasses.replace(heights, samples=changed.astype(np.int16))

    @property
    def middle(self) -> Point:
        """The point whose level shows its effect."""
        if self.kind == "patch":
            window = self.window
            return Point((window.y0 + window.y1) // 2, (window.x0 + window.x1) // 2)
        return self.points[len(self.points) // 2]

    def described(self) -> dict[str, Any]:
        """It as the page knows it."""
        return {"kind": self.kind, "amount": self.amount, "line": [list(corner) for corner in self.corners]}


def applied(edits: Iterable[Edit], heights: Heights) -> Heights:
    """The heights of a window once edits are made, one after another."""
    for edit in edits:
        heights = edit.applied(heights)
    return heights


def near(edits: Iterable[Edit], heights: Heights) -> NDArray[np.bool_]:
    """The points of a window that edits may change, and their neighbours."""
    found = np.zeros(heights.samples.shape, np.bool_)
    for edit in edits:
        found |= edit.marked(heights)
    return np.asarray(grown(found), np.bool_)


def made_in(store: Session, edits: Iterable[Edit]) -> list[Command]:
    """Makes edits in a store; the commands that take them back. Edits that fail midway are taken back."""
    sinks = set(store.sinks())
    trial = store.begin_trial()
    try:
        for edit in edits:
            edit.make(store)
        now = set(store.sinks())
        return [*trial.inverse(), *(Unsink(*point) for point in sorted(now - sinks)), *(Sink(*point) for point in sorted(sinks - now))]
    except BaseException:
        trial.take_back()
        raise
    finally:
        if trial.is_open:
            trial.keep()
