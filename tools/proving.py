"""Proves crates side by side, each once those below it are proved, and says how many minutes are left.

`rt` holds all crates below the one in which it works, so each is proved in a copy of its own, into which the libraries below it are
linked. What `rt` kept in the tree is begun with, and what it proved is put back there, so that a later run begins with it.
"""

import contextlib
import fcntl
import functools
import os
import pathlib
import re
import shutil
import subprocess
import sys
import threading
import time

ROOT = pathlib.Path(__file__).resolve().parent.parent
MINUTES = ROOT / "tools" / "proof_minutes.txt"
BUSY = 1.9
"""How many processors a check of two jobs keeps busy."""
ROOM = 3 << 20
"""Kilobytes that a check of two jobs takes."""
PROVED = re.compile(r"^logic=proved functions=(\d+)", re.M)
WRONG = re.compile(r"(: error:|^error|^rt: (?!.*(chose|begins|quick pass|waiting)).*(fail|cannot|not found|killed))")


def libraries_of(text):
    """The crates of the text of crates.txt, each with those of the repository that it uses."""
    rows = [line.partition("#")[0].partition(":") for line in text.splitlines()]
    uses = {head.split()[0]: names.split() for head, colon, names in rows if colon}
    return {name: [used for used in names if used in uses] for name, names in uses.items()}


def crates_below(name, uses):
    """The crates that a crate depends on, itself included."""
    found, waiting = [], [name]
    while waiting:
        crate = waiting.pop()
        if crate not in found:
            found.append(crate)
            waiting += uses[crate]
    return found


def is_program(crate):
    return (ROOT / "crates" / crate / "src" / "main.rt").exists()


def own_files(crate):
    """The files of a crate that a proof reads, and others of its folder."""
    tops = (top for top in (ROOT / "crates" / crate).iterdir() if top.name != "out")
    return [path for top in tops for path in (top, *top.rglob("*")) if path.is_file()]


def stale_crates(uses):
    """The crates whose build is older than one of their files or missing, and those above them. `rt` decides in the end."""
    def is_old(crate):
        out = ROOT / "crates" / crate / "out"
        built = out / crate if is_program(crate) else out / "rlib" / f"{crate}.rlib"
        return not built.exists() or any(path.stat().st_mtime > built.stat().st_mtime for path in own_files(crate))

    old = {crate for crate in uses if is_old(crate)}
    return {crate for crate in uses if old & set(crates_below(crate, uses))}


def minutes_of(uses):
    """The processor minutes of each crate's proof: as measured, or estimated from its lines."""
    rows = dict(line.split() for line in MINUTES.read_text().splitlines() if not line.startswith("#"))
    lines = {crate: sum(path.read_bytes().count(b"\n") for path in own_files(crate) if path.suffix in (".rt", ".antt")) for crate in uses}
    known = [crate for crate in uses if crate in rows]
    by_line = sum(float(rows[crate]) for crate in known) / max(1, sum(lines[crate] for crate in known)) or 0.001
    return {crate: float(rows.get(crate, 0)) or by_line * lines[crate] for crate in uses}


class Forecast:
    """How long the rest takes: the same order of work, by the minutes that each crate is expected to take."""

    def __init__(self, uses, minutes, at_once, processors):
        self.uses, self.minutes, self.at_once, self.processors = uses, minutes, at_once, processors
        self.way = functools.cache(lambda crate: minutes[crate] + max((self.way(other) for other in minutes if crate in uses[other]), default=0))
        self.slowness = 1.0
        self.whole = self.left(set(), {})

    def next_of(self, ready):
        """The crate with the longest way above it."""
        return max(ready, key=self.way)

    def ready(self, waiting, unproved):
        return [crate for crate in waiting if not unproved & set(self.uses[crate])]

    def left(self, done, running):
        """Elapsed minutes; `running` has those that each crate at work has taken."""
        rest = {crate: minutes for crate, minutes in self.minutes.items() if crate not in done}
        for crate, taken in running.items():
            rest[crate] = max(rest[crate] / 20, rest[crate] - taken * self.rate(len(running)) / self.slowness)
        at_work, clock = list(running), 0.0
        while rest:
            waiting = [crate for crate in rest if crate not in at_work]
            while len(at_work) < self.at_once and (ready := self.ready(waiting, set(rest))):
                at_work.append(self.next_of(ready))
                waiting.remove(at_work[-1])
            first = min(at_work, key=rest.get)
            step, rate = rest[first], self.rate(len(at_work))
            clock += step / rate
            rest = {crate: minutes - step * (crate in at_work) for crate, minutes in rest.items() if crate != first}
            at_work.remove(first)
        return clock * self.slowness

    def rate(self, count):
        """How many processors each of some crates keeps busy."""
        return min(BUSY, self.processors / count)

    def measure(self, elapsed, done, running):
        """Takes the minutes that went so far for a measure of how much slower this machine is than expected."""
        expected = self.whole - self.left(done, running) / self.slowness
        if expected > self.whole / 20:
            self.slowness = elapsed / expected


class Proving:
    """The proofs of some crates."""

    def __init__(self, crates, uses, folder):
        self.uses, self.folder = {crate: uses[crate] for crate in crates}, folder
        stale = stale_crates(self.uses)
        self.done, self.failed, self.running = set(crates) - stale, [], {}
        self.processors = len(os.sched_getaffinity(0))
        self.at_once = max(1, (3 * self.processors + 3) // 4)
        below = {crate: [used for used in self.uses[crate] if used in stale] for crate in sorted(stale)}
        minutes = minutes_of(self.uses)
        self.forecast = Forecast(below, {crate: minutes[crate] for crate in below}, self.at_once, self.processors)
        self.count, self.functions, self.begun = len(stale), 0, time.monotonic()
        self.ended, self.children = threading.Condition(), {}

    def run(self):
        """Proves all; answers the logs of the crates that failed."""
        try:
            with self.ended:
                while self.start_one() or self.running:
                    if not self.can_start():
                        self.ended.wait(30)
                        self.tell("")
        finally:
            for child in self.children.values():
                child.terminate()
        return self.failed

    def waiting(self):
        unproved = self.forecast.minutes.keys() - self.done
        return [] if self.failed else self.forecast.ready(unproved - self.running.keys(), unproved)

    def can_start(self):
        """Starts another crate if one is ready and there is a processor and memory for it."""
        return bool(self.waiting()) and len(self.running) < self.at_once and (not self.running or free_memory() > ROOM)

    def start_one(self):
        if not self.can_start():
            return False
        ready = self.waiting()
        crate = self.forecast.next_of(ready)
        jobs = max(1 + (self.processors > 3), self.processors // (len(self.running) + len(ready)))
        self.running[crate] = time.monotonic()
        threading.Thread(target=self.prove, args=(crate, min(jobs, max(1, 2 * free_memory() // ROOM))), daemon=True).start()
        return True

    def prove(self, crate, jobs):
        log, status = self.folder / f"{crate}.log", 1
        try:
            copy = self.copy_of(crate)
            with log.open("w") as told:
                words = ["rt", "check" if is_program(crate) else "lib", "--jobs", str(jobs)]
                child = self.children[crate] = subprocess.Popen(words, cwd=copy, stdin=subprocess.DEVNULL, stdout=told, stderr=subprocess.STDOUT)
            status = child.wait()
            if status == 0:
                link(copy / "out", ROOT / "crates" / crate / "out")
            shutil.rmtree(copy.parent.parent)
        finally:
            self.end(crate, status, log)

    def copy_of(self, crate):
        """The crate's folder in a copy of it and of those below it, in which the libraries are."""
        top, below = self.folder / crate, crates_below(crate, self.uses)
        for name in below:
            for path in own_files(name):
                place = top / path.relative_to(ROOT)
                place.parent.mkdir(parents=True, exist_ok=True)
                shutil.copy2(path, place)
            link(ROOT / "crates" / name / "out", top / "crates" / name / "out")
        shutil.copy2(ROOT / "HANDLES", top)
        rows = [row for row in (ROOT / "crates.txt").read_text().splitlines() if row.partition(":")[0].split()[:1] in [[name] for name in below]]
        (top / "crates.txt").write_text("\n".join(rows) + "\n")
        return top / "crates" / crate

    def end(self, crate, status, log):
        with self.ended:
            del self.running[crate], self.children[crate]
            text = log.read_text(errors="replace")
            if status:
                self.failed.append(f"{crate}, status {status}:\n" + "\n".join([line for line in text.splitlines() if WRONG.search(line)][:5] or text.splitlines()[-5:]))
            else:
                self.done.add(crate)
                functions = sum(map(int, PROVED.findall(text)))
                self.functions += functions
                self.forecast.measure(*self.taken())
                self.tell(f"{crate}: {functions} functions proved")
            self.ended.notify()

    def taken(self):
        """The minutes that went, the crates that are done, and the minutes that went for each at work."""
        now = time.monotonic()
        return (now - self.begun) / 60, self.done, {crate: (now - start) / 60 for crate, start in self.running.items()}

    def tell(self, text):
        """A line for each crate; on a terminal also a line, overwritten each time, with the crates at work."""
        _, done, running = self.taken()
        rest = f"; {minutes_left(self.forecast.left(done & self.forecast.minutes.keys(), running))}"
        place = f"[{len(done & self.forecast.minutes.keys())} of {self.count}]"
        on_terminal = "\r\033[K" * sys.stderr.isatty()
        if text:
            print(f"{on_terminal}{place} {text}{rest}", file=sys.stderr, flush=True)
        elif on_terminal and running:
            print(f"{on_terminal}{place} at work: {' '.join(running)}{rest}", end="", file=sys.stderr, flush=True)


def minutes_left(minutes):
    return f"some {minutes:.0f} minutes left" if minutes >= 1.5 else "a minute left" if minutes >= 0.5 else "seconds left"


def free_memory():
    """Kilobytes."""
    return int(re.search(r"MemAvailable:\s+(\d+) kB", pathlib.Path("/proc/meminfo").read_text())[1])


def link(source, target):
    """A folder in another's place, by links where both are on one drive: `rt` writes new files in place of those that are there."""
    shutil.rmtree(target, ignore_errors=True)
    if source.is_dir():
        with contextlib.suppress(OSError, shutil.Error):
            shutil.copytree(source, target, symlinks=True, copy_function=os.link)
            return
        shutil.copytree(source, target, symlinks=True, dirs_exist_ok=True)


def prove(crates):
    """Proves crates and those below them; answers how many functions were, and what failed. A second run in this tree waits."""
    uses, scratch = libraries_of((ROOT / "crates.txt").read_text()), ROOT / "out" / "proving"
    below = dict.fromkeys(name for crate in crates for name in crates_below(crate, uses))
    scratch.parent.mkdir(exist_ok=True)
    with scratch.with_suffix(".lock").open("w") as lock:
        fcntl.flock(lock, fcntl.LOCK_EX)
        shutil.rmtree(scratch, ignore_errors=True)  # of a run that was killed
        scratch.mkdir()
        try:
            proving = Proving(list(below), uses, scratch)
            if proving.count:
                print(f"{proving.count} of {len(below)} crates to prove; {minutes_left(proving.forecast.whole)}, where nothing else is at work", file=sys.stderr, flush=True)
            failed = proving.run()
            return proving.functions, failed
        finally:
            shutil.rmtree(scratch, ignore_errors=True)
