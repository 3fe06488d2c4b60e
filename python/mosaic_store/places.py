"""Places as people write them: `37.5 -105.25`, `37,5 -105,25`, `37.5 N 105.25 W`, `36°36'N 84°12'30"W`.

Latitude comes first, unless letters tell otherwise. A number has a point or a comma; minutes and seconds follow a degree sign.
Between the two numbers stands a space, a semicolon, or a comma where no number has one.
"""

from __future__ import annotations

import contextlib
import re
from collections.abc import Sequence

from .errors import BadArgument
from .lattice import Place

_SIGNS = str.maketrans(dict(zip("−º˚′’‘″”“\u00a0\u202f", "-°°'''\"\"\"  ")))


def _angle_pattern(comma: str, first: int) -> str:
    """One angle, with this sign in broken numbers; `first` is the number of its first group, the letter before it."""
    number = rf"\d+(?:{comma}\d+)?"
    parts = rf"({number})\s*(?:°\s*(?:({number})\s*'\s*(?:({number})\s*(?:\"|'')\s*)?)?)?"
    return rf"(?:([NSEW])\s*)?([-+]?){parts}(?({first})|\s*([NSEW]?))"


def _patterns(comma: str, between: str) -> tuple[re.Pattern[str], re.Pattern[str]]:
    """One angle, and two with something between."""
    one, other = _angle_pattern(comma, 1), _angle_pattern(comma, 7)
    return re.compile(one, re.ASCII), re.compile(f"{one}(?:{between}|(?<=[NSEW])|(?=[NSEW])){other}", re.ASCII)


_ONE, _BOTH = zip(_patterns(r"\.", r"\s*[,;]\s*|\s+"), _patterns(",", r"\s*;\s*|,?\s+"))


def place_of(text: str) -> Place:
    """The place that a text names. BadArgument if it names none."""
    found = _matched(_BOTH, text)
    if found is None:
        raise BadArgument(f"{_shown(text)} is no place: write 37.5 -105.25, 37.5 N 105.25 W, or 37°30'N 105°15'W")
    (first, axis), (second, other) = _angle(found[:6], text), _angle(found[6:], text)
    if axis == "EW" or other == "NS":
        (first, axis), (second, other) = (second, other), (first, axis)
    if axis == "EW" or other == "NS":
        raise BadArgument(f"{_shown(text)} gives latitude or longitude twice: write both")
    for name, value, most in (("latitude", first, 90), ("longitude", second, 180)):
        if abs(value) > most:
            raise BadArgument(f"a {name} lies from -{most} to {most} degrees, not at {value:g}")
    return Place(first, second)


def angle_of(text: str, axis: str = "") -> float:
    """The degrees that a text names, south and west negative. BadArgument where it names none, or is of another axis, "NS" or "EW"."""
    angle, own = _told(text)
    if axis and own not in ("", axis):
        raise BadArgument(f"{_shown(text)} is a {'longitude' if axis == 'NS' else 'latitude'}: exchange it with the other one")
    return angle


def number_of(text: str, axis: str = "") -> float:
    """A number as it is, or degrees as people write them. BadArgument where it is neither, or is of another axis."""
    try:
        return float(text)
    except ValueError:
        return angle_of(text, axis)


def numbers_in(words: Sequence[str], most: int) -> tuple[list[str], int]:
    """At most so many numbers that the first words name, for each place the latitude first, and how many words name them.

    A place is a word or two; a letter may be a word of its own.
    """
    found: list[tuple[str, str]] = []
    used = 0
    while len(found) < most:
        # Behind a place's second number a letter is one of it only where the first one has a letter, too: it may be a file's name.
        count = 2 if sum(map(_is_letter, words[used : used + 2])) == 1 and not (len(found) % 2 and not found[-1][1]) else 1
        told = _numbers_of(" ".join(words[used : used + count]))
        if not told:
            break
        used += count
        found += told
        if len(found) % 2 == 0 and (found[-2][1] == "EW" or found[-1][1] == "NS"):
            found[-2:] = found[-1], found[-2]
    return [number for number, _ in found], used


def _is_letter(word: str) -> bool:
    return word.upper() in ("N", "S", "E", "W")


def _numbers_of(word: str) -> list[tuple[str, str]]:
    """The number that a word names, or a place's two, each with its axis; nothing if it names none."""
    with contextlib.suppress(ValueError):
        float(word)
        return [(word, "")]
    with contextlib.suppress(BadArgument):
        angle, axis = _told(word)
        return [(repr(angle), axis)]
    with contextlib.suppress(BadArgument):
        return [(repr(number), "") for number in place_of(word)]
    return []


def _told(text: str) -> tuple[float, str]:
    found = _matched(_ONE, text)
    if found is None:
        raise BadArgument(f"{_shown(text)} is no number of degrees: write 37.5, 37.5N or 37°30'N")
    return _angle(found, text)


def _matched(patterns: tuple[re.Pattern[str], ...], text: str) -> tuple[str | None, ...] | None:
    """The groups of the first pattern that a text matches as a whole."""
    plain = text.translate(_SIGNS).upper().strip().strip("()[]")
    matches = (pattern.fullmatch(plain) for pattern in patterns)
    return next((match.groups() for match in matches if match), None)


def _angle(groups: tuple[str | None, ...], text: str) -> tuple[float, str]:
    """Degrees, and which of latitude ("NS") and longitude ("EW") the letter says they are; empty without a letter."""
    before, sign, *numbers, after = (group or "" for group in groups)
    letter = before or after
    degrees, minutes, seconds = (float(number.replace(",", ".") or 0) for number in numbers)
    if (letter and sign) or minutes >= 60 or seconds >= 60:
        raise BadArgument(f"{_shown(text)} isn't plain: give a sign or a letter, and minutes and seconds below 60")
    value = degrees + minutes / 60 + seconds / 3600
    axis = {"N": "NS", "S": "NS", "E": "EW", "W": "EW"}.get(letter, "")
    return -value if sign == "-" or letter in ("S", "W") else value, axis


def _shown(text: str) -> str:
    return repr(text.strip()[:60])
