"""A base map from a source that the user names, as a template of XYZ tiles."""

from __future__ import annotations

import re

_TEMPLATE = re.compile(r"(https?://[A-Za-z0-9.-]+(?::[0-9]{1,5})?)(/[!-~]*)")


def base_of(template: str) -> str:
    """The origin of a base map's pictures. A ValueError where a template isn't one of XYZ tiles."""
    found = _TEMPLATE.fullmatch(template)
    if found is None or not all(part in found[2] for part in ("{z}", "{x}", "{y}")):
        raise ValueError("a base map is a template as https://tile.example/{z}/{x}/{y}.png")
    return found[1]
