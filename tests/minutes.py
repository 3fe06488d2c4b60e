"""How long each crate and each part of a gate keeps a processor: proof, tests' proof, wrong bodies and runs, by looking once a second."""

import collections
import contextlib
import os
import pathlib
import re
import threading

CRATE = re.compile(r"--crate-name\0(\w+)")
TICKS = os.sysconf("SC_CLK_TCK")
PARTS = ("proof", "tests' proof", "wrong bodies", "runs")


class Process:
    """What one process was for, and the ticks that it had taken when it was last seen."""

    def __init__(self, number, parent):
        command = pathlib.Path(f"/proc/{number}/cmdline").read_text(errors="replace")
        crate = CRATE.search(command)
        self.crate, self.part = parent.crate if parent else "", parent.part if parent else "proof"
        if crate:
            self.crate, self.part = crate[1].removesuffix("_tests"), part_of(command, os.readlink(f"/proc/{number}/cwd"))
        elif "rt-run-" in os.readlink(f"/proc/{number}/cwd"):
            self.crate, self.part = pathlib.Path(command.partition("\0")[0]).name.removesuffix("_tests"), "runs"
        self.ticks = 0


def part_of(command, folder):
    """Each wrong body is tried in a separate folder."""
    return "wrong bodies" if "rt-edit" in folder else "tests' proof" if "\0--test\0" in command else "proof"


class Minutes:
    """Looks at what a process begins, until it is left."""

    def __init__(self, number):
        self.top, self.processes, self.ended = number, {}, threading.Event()
        self.looking = threading.Thread(target=self.look_again, daemon=True)

    def __enter__(self):
        self.looking.start()
        return self

    def __exit__(self, *_):
        self.ended.set()
        self.looking.join()

    def look_again(self):
        while not self.ended.wait(1):
            self.look()

    def look(self):
        children = collections.defaultdict(list)
        ticks = {}
        for entry in os.scandir("/proc"):
            with contextlib.suppress(OSError, ValueError):
                fields = pathlib.Path(entry.path, "stat").read_text().rpartition(")")[2].split()
                children[int(fields[1])].append(int(entry.name))
                ticks[int(entry.name)] = int(fields[11]) + int(fields[12])
        waiting = [(child, None) for child in children[self.top]]
        while waiting:
            number, parent = waiting.pop()
            with contextlib.suppress(OSError):
                process = self.processes.setdefault(number, None) or Process(number, parent)
                process.ticks = max(process.ticks, ticks[number])
                self.processes[number] = process
                waiting += [(child, process) for child in children[number]]

    def table(self):
        """A line for each crate, with the minutes of each part; those of no crate are the gate's own."""
        sums = collections.Counter()
        for process in filter(None, self.processes.values()):
            sums[process.crate or "the gate", process.part] += process.ticks / TICKS / 60
        crates = sorted({crate for crate, _ in sums}, key=lambda crate: -sum(sums[crate, part] for part in PARTS))
        rows = [[crate, *(f"{sums[crate, part]:.1f}" for part in PARTS)] for crate in crates]
        whole = ["all", *(f"{sum(sums[crate, part] for crate in crates):.1f}" for part in PARTS)]
        return "\n".join("%-20s %12s %12s %12s %12s" % tuple(row) for row in [["crate", *PARTS], *rows, whole]) + "\n"
