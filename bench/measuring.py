"""What the measurements have in common: the tools, conversations with the program, and stores of tiles."""

import atexit
import pathlib
import shutil
import signal
import subprocess
import sys
import tempfile
import time

BENCH = pathlib.Path(__file__).resolve().parent
ROOT = BENCH.parent
sys.path.append(str(ROOT / "tools"))

import running

MB = 1 << 20
OF_TILES = ("export", "levels", "directions", "upstream")


def folder_for(keep):
    """The folder that --keep names, or one that is taken away at the end, also of a run that fails or is ended by SIGTERM."""
    folder = pathlib.Path(keep or tempfile.mkdtemp(prefix="bench-")).resolve()
    folder.mkdir(parents=True, exist_ok=True)
    if not keep:
        atexit.register(shutil.rmtree, folder, ignore_errors=True)
        signal.signal(signal.SIGTERM, lambda *_: sys.exit(143))
    elif any(folder.iterdir()) and not (folder / "terrain").is_file():
        sys.exit(f"bench: {folder} isn't empty, and no measurement left it: name a new folder")
    return folder


def build(folder):
    """Builds the C++ tools into the folder, and the program; answers the program's path."""
    for name in ("terrain", "reference"):
        running.compiled(name, folder)
    return pathlib.Path(running.program())


def made(program, path, side, capacity):
    """A session with an empty store, in place of one of that path."""
    path.unlink(missing_ok=True)
    subprocess.run([program, "format", path, str(side), str(capacity)], check=True, stdout=subprocess.DEVNULL)
    return Session([program, "serve", path], False)


def store_of(program, path, side, tiles, stale=False, room=0):
    """A store of some tiles, with room for more, each of them fresh unless `stale`: the times of the imports, and that of a step in the mean, in ms."""
    tiles = list(tiles)  # where they have the same bytes, these are there once
    session = made(program, path, side, len(tiles) + room)
    imports = [session.answered(f"import {name} {len(payload)}", payload)[1] for name, payload in tiles]
    start = time.perf_counter()
    while not stale and session.ask("step")[0] != "OK none\n":
        pass
    took = (time.perf_counter() - start) * 1000 / len(tiles)
    session.quit()
    return imports, took


def opened(program, path, cpu=False):
    """A session on a store, and how long its first reply took from the start of the process, in ms."""
    start = time.perf_counter()
    session = Session([program, "serve", path], cpu)
    session.ask("count")
    return session, (time.perf_counter() - start) * 1000


class Session:
    """A conversation with the program over its standard streams."""

    def __init__(self, words, cpu):
        self.cpu = cpu
        self.process = subprocess.Popen(words, stdin=subprocess.PIPE, stdout=subprocess.PIPE, bufsize=0)
        self.ahead = b""

    def send(self, data):
        view = memoryview(data)
        while view:
            view = view[self.process.stdin.write(view):]

    def more(self):
        got = self.process.stdout.read(MB)
        if not got:
            raise EOFError("the program ended")
        return got

    def line(self):
        while b"\n" not in self.ahead:
            self.ahead += self.more()
        line, self.ahead = self.ahead.split(b"\n", 1)
        return line.decode()

    def bytes(self, length):
        parts = [self.ahead]
        missing = length - len(self.ahead)
        while missing > 0:
            parts.append(self.more())
            missing -= len(parts[-1])
        whole = b"".join(parts)
        self.ahead = whole[length:]
        return whole[:length]

    def now(self, word):
        """A time in ms: elapsed, if the disk is at work, or of the process on the processor."""
        if not self.cpu or word in ("import", "export"):
            return time.perf_counter() * 1000
        return int(pathlib.Path(f"/proc/{self.process.pid}/schedstat").read_text().split()[0]) / 1e6

    def ask(self, line, payload=b""):
        """The reply to a line, all its lines joined, and its time in ms."""
        word = line.split()[0]
        start = self.now(word)
        self.send(line.encode() + b"\n" + payload)
        head = self.line()
        words = head.split()
        body = b""
        if words[0] == "OK" and word in OF_TILES:
            body = self.bytes(int(words[1]))
        count = {"trace": 1, "watershed": 2}.get(word)
        lines = [head]
        if words[0] == "OK" and count:
            lines += [self.line() for _ in range(int(words[count]))]
        return "\n".join(lines) + "\n", body, self.now(word) - start

    def answered(self, line, payload=b""):
        """The reply to a line that isn't refused, and its time in ms."""
        reply, _, took = self.ask(line, payload)
        if not reply.startswith("OK"):
            sys.exit(f"bench: {line}: {reply}")
        return reply, took

    def peak(self):
        """The most memory that the process had, in MB."""
        with open(f"/proc/{self.process.pid}/status") as status:
            return next(int(line.split()[1]) / 1024 for line in status if line.startswith("VmHWM"))

    def quit(self):
        self.process.stdin.close()
        if self.process.wait() != 0:
            sys.exit("bench: the program ended with a status other than 0")
