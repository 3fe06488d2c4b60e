"""A request of the page, with each bound tested."""

from __future__ import annotations

from collections.abc import Mapping
from typing import Any

from .. import lines
from ..commands.frame import CommandError
from ..commands.given import Drawn, features_in
from ..lattice import GREATEST_HEIGHT, LEAST_HEIGHT, Point, Window, point_of
from ..snapping import FARTHEST
from .edits import KINDS, Edit

MOST_CORNERS = 2000
MOST_POINTS = 20_000
"""The most corners of a line, and the most points on it."""

MOST_EDITS = 200
"""The most edits of a trial."""

Words = Mapping[str, Any]


class BadRequest(Exception):
    """The page asked for something that can't be: the text says what, for a person to read."""


def point_in(words: Words) -> Point:
    return Point(coordinate(words.get("y")), coordinate(words.get("x")))


def snap_in(words: Words) -> int:
    snap = words.get("snap", 0)
    if type(snap) is not int or not 0 <= snap <= FARTHEST:
        raise BadRequest(f"an outlet moves by 0 to {FARTHEST} steps")
    return snap


def window_in(words: Words) -> Window:
    ends = words.get("window")
    if not isinstance(ends, list) or len(ends) != 4:
        raise BadRequest("a window is a list of its south, west, north and east ends")
    return Window(*map(coordinate, ends))


def threshold_in(words: Words) -> int:
    threshold = words.get("threshold")
    if type(threshold) is not int or threshold < 1:
        raise BadRequest("a stream begins where 1 point and more drains through")
    return threshold


def text_in(words: Words, name: str) -> str:
    text = words.get(name)
    if not isinstance(text, str):
        raise BadRequest(f"{name} is a text")
    return text


def coordinate(value: Any) -> int:
    if type(value) is not int or abs(value) > 999_999_999:
        raise BadRequest("a point is two whole numbers, y and x")
    return value


def edits_in(words: Words) -> list[Edit]:
    """The edits of a trial."""
    listed = words.get("edits")
    if not isinstance(listed, list) or not 1 <= len(listed) <= MOST_EDITS:
        raise BadRequest(f"a trial is a list of 1 to {MOST_EDITS} edits")
    edits = [edit_in(each) for each in listed]
    points = sum(len(edit.points) for edit in edits)
    if points > MOST_POINTS:
        raise BadRequest(f"the lines of a trial have at most {MOST_POINTS} points, and these have {points}")
    return edits


def edit_in(words: Any) -> Edit:
    if not isinstance(words, dict):
        raise BadRequest("an edit is an object with kind, amount and line")
    kind, amount, corners = words.get("kind"), words.get("amount", 0), words.get("line")
    if kind not in KINDS:
        raise BadRequest(f"an edit is one of {', '.join(KINDS)}")
    _check_amount(kind, amount)
    most = {"patch": 2, "sink": 1, "unsink": 1}.get(kind, MOST_CORNERS)
    if not isinstance(corners, list) or not (2 if kind == "patch" else 1) <= len(corners) <= most:
        raise BadRequest(f"a line has 1 to {MOST_CORNERS} corners, a box of voids has 2, a sink is one point")
    if not all(isinstance(corner, list) and len(corner) == 2 for corner in corners):
        raise BadRequest("each corner of a line is a list of y and x")
    return _edit(kind, amount, [Point(coordinate(y), coordinate(x)) for y, x in corners])


def _check_amount(kind: str, amount: Any) -> None:
    if kind in ("sink", "unsink"):
        return
    lowest = 1 if kind == "burn" else LEAST_HEIGHT
    if type(amount) is not int or not lowest <= amount <= GREATEST_HEIGHT:
        raise BadRequest(f"metres are a whole number from {lowest} to {GREATEST_HEIGHT}")


def _edit(kind: str, amount: int, corners: list[Point]) -> Edit:
    if kind not in ("wall", "burn"):
        return Edit(kind, amount, corners, corners)
    length = sum(abs(a.y - b.y) + abs(a.x - b.x) for a, b in zip(corners, corners[1:]))
    if length > MOST_POINTS:
        raise BadRequest(f"a line has at most {MOST_POINTS} points, and this one has {length}")
    return Edit(kind, amount, corners, lines.points_along(corners))


def edits_of_file(text: str, words: Words, side: int) -> list[Edit]:
    """The lines of a GeoJSON, raised to a feature's `height`, lowered by its `depth`, else as the request tells; its points are
    sinks."""
    try:
        features = features_in(text, "the file")
        edits = [edit for feature in features for edit in _edits_of(feature, words, side)]
    except CommandError as fault:
        raise BadRequest(str(fault)) from None
    if not 1 <= len(edits) <= MOST_EDITS:
        raise BadRequest(f"the file has {len(edits)} lines and points, and a trial takes 1 to {MOST_EDITS}")
    return edits


def _edits_of(feature: Drawn, words: Words, side: int) -> list[Edit]:
    if not feature.lines:
        return []
    kind, amount = ("sink", 0) if feature.is_points else _kind_of(feature, words)
    try:
        drawn = [[list(point_of(*place, side)) for place in line] for line in feature.lines]
        return [edit_in({"kind": kind, "amount": amount, "line": line}) for line in drawn]
    except (BadRequest, ValueError) as fault:
        raise BadRequest(f"{feature.at}: {fault}") from None


def _kind_of(feature: Drawn, words: Words) -> tuple[Any, Any]:
    """What is done along the lines of a feature, and by how many metres."""
    for kind, name in (("wall", "height"), ("burn", "depth")):
        if feature.properties.get(name) is not None:
            return kind, feature.whole(name, 0)
    if words.get("kind") not in ("wall", "burn"):
        raise BadRequest(f"{feature.at} has neither a height nor a depth: choose Road or Culvert and its metres first")
    return words["kind"], words.get("amount")
