"""What the examples, the tests and the measurements have in common: the program's path, tools in C++, a script as a module, a folder of a run."""

import contextlib
import importlib.machinery
import importlib.util
import os
import pathlib
import shutil
import signal
import subprocess
import sys
import tempfile

TOOLS = pathlib.Path(__file__).resolve().parent


def program(name="mosaic"):
    """The path of a program, proved and built if that is due; empty if MOSAIC names a program with none of this name next
    to it."""
    built = subprocess.run([TOOLS / "program", name], stdout=subprocess.PIPE, text=True)
    if built.returncode != 0:  # and it has told why
        sys.exit(1)
    return built.stdout.strip()


def compiled(name, folder):
    """A tool of bench/ in C++, compiled into a folder."""
    compiler = os.environ.get("CXX") or next(filter(shutil.which, ["c++", "g++", "clang++"]), None)
    if compiler is None:
        sys.exit(f"bench/{name}.cpp is needed, and no compiler for C++ is found")
    subprocess.run([compiler, "-O2", "-std=c++17", "-o", folder / name, TOOLS.parent / "bench" / f"{name}.cpp"], check=True)
    return folder / name


def loaded(path):
    """A script as a module."""
    loader = importlib.machinery.SourceFileLoader(path.name, str(path))
    module = importlib.util.module_from_spec(importlib.util.spec_from_loader(path.name, loader))
    loader.exec_module(module)
    return module


@contextlib.contextmanager
def scratch():
    """A folder for what a run makes. It goes at the end, also where SIGTERM is the end, and so does what the programs leave that are
    run meanwhile."""
    signal.signal(signal.SIGTERM, lambda *_: sys.exit(143))
    with tempfile.TemporaryDirectory(ignore_cleanup_errors=True) as folder:
        os.chmod(folder, 0o711)  # `file_faults` runs the program as nobody there
        os.environ["TMPDIR"] = folder
        yield pathlib.Path(folder)
