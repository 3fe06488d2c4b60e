"""Draws a window of a store by the Python package's `mosaic-draw`, with a Python here that has matplotlib, and finds such a one."""

import os
import pathlib
import subprocess
import sys

PACKAGE = pathlib.Path(__file__).resolve().parent.parent / "python"


def python_with(modules, pythons=(sys.executable, "/usr/bin/python3")):
    """The first Python, of 3.11 or later, that has some modules; None where there is none."""
    test = f"import sys, {modules}; sys.exit(sys.version_info < (3, 11))"
    for python in pythons:
        if pathlib.Path(python).exists() and subprocess.run([python, "-c", test], stderr=subprocess.DEVNULL).returncode == 0:
            return python
    return None


def draw(program, store, picture, *words):
    """Draws a picture; `words` are options of `mosaic-draw`, with places as points. Answers whether it could."""
    if python := python_with("numpy, matplotlib"):
        made = [python, "-m", "mosaic_store", "draw", "--program", program, store, picture, "--points", *words]
        subprocess.run(made, check=True, env=os.environ | {"PYTHONPATH": str(PACKAGE)})
    else:
        print("  the picture is left out, as matplotlib isn't installed: apt-get install python3-matplotlib")
    return python is not None
