"""A copy of the crates in which edits are tried, with what earlier checks kept. What it proves serves all crates that are tried in it."""

import contextlib
import os
import pathlib
import re
import shutil
import subprocess
import sys

sys.path.append(str(pathlib.Path(__file__).resolve().parents[1] / "tools"))

from running import scratch

ROOT = pathlib.Path(__file__).resolve().parent.parent


def link_kept(copy):
    """What earlier checks kept, by links, since it is large: a check writes new files in its place. On another drive there is none."""
    for kept in (ROOT / "crates").glob("*/out"):
        try:
            shutil.copytree(kept, copy / "crates" / kept.parent.name / "out", copy_function=os.link)
        except (OSError, shutil.Error):
            shutil.rmtree(copy / "crates" / kept.parent.name / "out", ignore_errors=True)


@contextlib.contextmanager
def proving_copy():
    """The folder of the copy, which goes at the end. It has no wrong bodies."""
    if shutil.which("rt") is None:
        sys.exit("tests: the toolchain's command `rt` isn't found: it has to be on PATH")
    with scratch() as folder:
        copy = folder / "copy"
        shutil.copytree(ROOT / "crates", copy / "crates", ignore=shutil.ignore_patterns("out", "must-fail", "wrong-bodies"))
        link_kept(copy)
        shutil.copy(ROOT / "crates.txt", copy)
        shutil.copy(ROOT / "HANDLES", copy)
        yield copy


def told(words, folder):
    """A command's status and output."""
    done = subprocess.run(words, cwd=folder, stdout=subprocess.PIPE, stderr=subprocess.STDOUT, stdin=subprocess.DEVNULL, text=True, errors="replace")
    return done.returncode, done.stdout


def not_proved(copy, crate):
    """Why a crate of the copy isn't proved; None if it is."""
    status, output = told(["rt", "check", "--jobs", "1"], copy / "crates" / crate)
    lines = output.splitlines()
    if status == 0 and any(line.startswith("logic=proved") for line in lines):
        return None
    return next((line for line in lines if re.search(r": error|^error", line)), lines[-1] if lines else "no output")[:200]


def edits_in(folder):
    """The files in a folder of edits, except those that are only read."""
    return sorted(path for path in folder.iterdir() if path.suffix != ".md")


def crates_asked(script, kind):
    """The crates that have a folder of this kind, or those that the command line names of them."""
    every = sorted(path.parent.name for path in (ROOT / "crates").glob(f"*/{kind}"))
    if unknown := set(sys.argv[1:]) - set(every):
        sys.exit(f"tests/{script}: no {kind} in {' '.join(sorted(unknown))}. They are in {' '.join(every)}")
    return sys.argv[1:] or every
