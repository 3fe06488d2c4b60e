"""The pipes to a program that serves lines: what is sent and what is read never wait for each other.

One rule keeps commands whole. A program that loses its writer takes what came after the last line's end as a line, so
half of a command would be another command. A command's line is therefore written by one call of at most PIPE_BUF bytes,
which a pipe takes whole or not at all; a payload that is cut is refused by the program. Questions go many at a time: half of
one is another one at most, and changes nothing.
"""

from __future__ import annotations

import collections
import os
import select
import signal
import subprocess
from collections.abc import Sequence
from typing import Union

from .errors import BadReply, ProgramNotFound, SessionDied, TimedOut

Word = Union[str, bytes]

_READ = 1 << 16
_WRITE = 1 << 16
_SECONDS_TO_END = 10.0


class Channel:
    """A program and its standard streams. One thread at a time may use it."""

    def __init__(self, words: Sequence[Word], timeout: float | None) -> None:
        """Starts the program. `timeout` is how many seconds may pass without a byte read or written; None for ever."""
        try:
            # A separate session: an interrupt at the terminal reaches only this process, which ends the program.
            self.process = subprocess.Popen(
                list(words), stdin=subprocess.PIPE, stdout=subprocess.PIPE, bufsize=0, start_new_session=True
            )
        except OSError as fault:
            shown = os.fsdecode(words[0])
            raise ProgramNotFound(f"{shown}: cannot be run: {fault.strerror}: see --program and MOSAIC") from None
        assert self.process.stdin is not None and self.process.stdout is not None
        self._input, self._output = self.process.stdin, self.process.stdout
        os.set_blocking(self._input.fileno(), False)
        os.set_blocking(self._output.fileno(), False)
        self._timeout = None if timeout is None else max(1, round(timeout * 1000))
        self._unsent: collections.deque[memoryview] = collections.deque()
        self._read = bytearray()
        self._reading = select.poll()
        self._reading.register(self._output, select.POLLIN)
        self._both = select.poll()
        self._both.register(self._output, select.POLLIN)
        self._both.register(self._input, select.POLLOUT)

    def send(self, data: bytes, payload: bytes | memoryview = b"") -> None:
        """Passes on a line with its end, or several questions, and what follows them. The rest waits if the pipe is full."""
        self._unsent.append(memoryview(data))
        if payload:
            self._unsent.append(memoryview(payload))
        self._write()

    def line(self) -> list[str]:
        """The words of the next line."""
        end = self._read.find(b"\n")
        while end < 0:
            at = len(self._read)
            self._pump()
            end = self._read.find(b"\n", at)
        return _text(self._take(end + 1)).split()

    def rows(self, count: int, width: int) -> list[int]:
        """The numbers of the next `count` lines of `width` numbers each, in one list."""
        words = _text(self._lines(count)).split()
        try:
            numbers = [int(word) for word in words]
        except ValueError as fault:
            raise BadReply(f"a line of {width} numbers was due: {fault}") from None
        if len(numbers) != count * width:
            raise BadReply(f"{count} lines of {width} numbers were due, and {len(numbers)} numbers came")
        return numbers

    def exactly(self, length: int) -> bytes:
        """The next `length` bytes, as they are."""
        while len(self._read) < length:
            self._pump()
        return self._take(length)

    @property
    def is_idle(self) -> bool:
        """Whether nothing is left to send or to read."""
        return not self._unsent and not self._read

    def finish(self) -> int:
        """Ends the program by the end of its input, or by force if it doesn't end; its status, negative for a signal."""
        self._unsent.clear()
        self._close()
        try:
            return self.process.wait(_SECONDS_TO_END)
        except subprocess.TimeoutExpired:
            self.process.kill()
            return self.process.wait()

    def kill(self) -> int:
        """Ends the program at once; its exit status, negative for a signal."""
        if self.process.poll() is None:
            self.process.kill()
        return self.finish()

    def _lines(self, count: int) -> bytes:
        """The bytes of the next `count` lines, their ends included."""
        end, found = 0, 0
        while found < count:
            at = self._read.find(b"\n", end)
            if at < 0:
                end = len(self._read)
                self._pump()
            else:
                end, found = at + 1, found + 1
        return self._take(end)

    def _take(self, length: int) -> bytes:
        with memoryview(self._read) as held:
            taken = bytes(held[:length])
        del self._read[:length]
        return taken

    def _pump(self) -> None:
        """Waits until the program reads or writes, and does its part."""
        poll = self._both if self._unsent else self._reading
        events = dict(poll.poll(self._timeout))
        if not events:
            self.kill()
            raise TimedOut(f"no answer within {(self._timeout or 0) / 1000:g} s: the program was ended")
        if events.get(self._output.fileno(), 0):
            self._receive()
        elif events.get(self._input.fileno(), 0):
            self._write()

    def _receive(self) -> None:
        try:
            data = os.read(self._output.fileno(), _READ)
        except BlockingIOError:
            return
        if not data:
            raise SessionDied(self._obituary())
        self._read += data

    def _write(self) -> None:
        """Writes what the pipe takes. A piece of at most PIPE_BUF bytes, as each command's line, goes whole or not at all."""
        while self._unsent:
            piece = self._unsent[0]
            try:
                written = os.write(self._input.fileno(), piece[:_WRITE])
            except BlockingIOError:
                return
            except BrokenPipeError:
                self._unsent.clear()  # its output before its end is read first
                return
            if written == len(piece):
                self._unsent.popleft()
            else:
                self._unsent[0] = piece[written:]

    def _obituary(self) -> str:
        status = self.finish()
        if status < 0:
            return f"the program was ended by {signal.Signals(-status).name}"
        return f"the program ended with status {status} before it answered"

    def _close(self) -> None:
        for stream in (self._input, self._output):
            try:
                stream.close()
            except BrokenPipeError:
                pass


def _text(data: bytes) -> str:
    try:
        return data.decode("ascii")
    except UnicodeDecodeError:
        raise BadReply(f"bytes outside ASCII came in place of a line: {data[:40]!r}") from None
