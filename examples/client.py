"""Speaks the line language with a program that serves it, as `mosaic serve STORE`: a model for other languages.

It knows where each reply ends, and so never loses step. What stands in python/ does more: typed refusals, timeouts, threads.
"""

import subprocess


class Refused(Exception):
    """A reply was a refusal: its number and its word."""

    @property
    def number(self):
        return int(str(self).split()[0])


class Ended(Exception):
    """The program ended, or told that it can't go on; the text says why."""


class Session:
    """A conversation with a program that serves lines on its standard streams."""

    def __init__(self, *words):
        self.words = words
        self.process = subprocess.Popen(words, stdin=subprocess.PIPE, stdout=subprocess.PIPE)

    def __enter__(self):
        return self

    def __exit__(self, *_):
        self.quit()
        self.process.stdout.close()

    def line(self):
        """The words of the next line that the program writes."""
        text = self.process.stdout.readline().decode(errors="surrogateescape").rstrip("\n")
        if text.startswith("mosaic: ") or not text:
            raise Ended(text or "the program has ended")
        return text.split()

    def send(self, line, payload=b""):
        """Sends a line without waiting for its reply. A `reply` is due for each, before the pipe is full (64 KB)."""
        try:
            self.process.stdin.write(line.encode() + b"\n" + payload)
            self.process.stdin.flush()
        except BrokenPipeError:
            self.line()
            raise Ended("the program has ended") from None

    def reply(self, line):
        """The words after OK in the reply to a line that was sent, and what follows that line: rows of numbers, or bytes."""
        status, *words = self.line()
        if status != "OK":
            raise Refused(" ".join(words))
        word = line.split(" ", 1)[0]
        if word == "export":
            return words, self.process.stdout.read(int(words[0]))
        rows = int(words[-1]) if word in ("trace", "watershed", "sinks") else 0
        return words, [tuple(map(int, self.line())) for _ in range(rows)]

    def ask(self, line, payload=b""):
        """The words after OK in the reply to a line; `payload` is what follows an import."""
        self.send(line, payload)
        return self.reply(line)[0]

    def number(self, line):
        """The number that answers a command, `elev`, `fill`, `dir` or `count`."""
        return int(self.ask(line)[0])

    def rows(self, line):
        """The rows of numbers that answer `trace`, `watershed` or `sinks`."""
        self.send(line)
        return self.reply(line)[1]

    def export(self, name):
        """A tile's own HGT bytes."""
        self.send(f"export {name}")
        return self.reply("export")[1]

    def quit(self):
        """Ends the program, whose input ends; its exit status."""
        try:
            self.process.stdin.close()
        except BrokenPipeError:  # it has ended before, with a line unread
            pass
        return self.process.wait()


def point_of(latitude, longitude, side):
    """The point y, x that is nearest to a place in degrees, north and east positive."""
    return round(latitude * (side - 1)), round(longitude * (side - 1))


def place_of(y, x, side):
    """The latitude and longitude of a point, in degrees."""
    return y / (side - 1), x / (side - 1)
