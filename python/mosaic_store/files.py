"""Files that take their names once they are whole, and are on the drive."""

from __future__ import annotations

import contextlib
import os
import pathlib
import tempfile
from collections.abc import Iterator


@contextlib.contextmanager
def replacing(path: str | os.PathLike[str]) -> Iterator[str]:
    """The name of a file to write beside `path`, which takes its place once it was written; a failure leaves nothing.

    Of a link the file that it leads to is replaced.
    """
    target = pathlib.Path(os.path.realpath(path))
    with tempfile.TemporaryDirectory(dir=target.parent, prefix=f".{target.name}.") as folder:
        made = os.path.join(folder, pathlib.Path(path).name)
        yield made
        with open(made, "rb") as file:
            os.fsync(file.fileno())
        os.replace(made, target)


def sync_folder(folder: str | os.PathLike[str]) -> None:
    """Has the names in a folder reach the drive."""
    descriptor = os.open(folder, os.O_RDONLY)
    try:
        os.fsync(descriptor)
    finally:
        os.close(descriptor)
