"""The package's version, which pyproject.toml reads from here, and the commit that it was made of."""

VERSION = "0.10.0"
COMMIT = ""
"""Empty in the sources: `./install`, the wheel and QGIS's plugin have it."""


def version_and_commit() -> str:
    return f"{VERSION}, commit {COMMIT}" if COMMIT else f"{VERSION}, from its sources"
