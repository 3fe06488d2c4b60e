"""A page in chromium without a window, by the DevTools protocol over two pipes: what it shows is waited for, and pressed by the mouse."""

from __future__ import annotations

import atexit
import base64
import contextlib
import functools
import json
import os
import select
import shutil
import subprocess
import tempfile
import time
from collections.abc import Callable
from types import TracebackType
from typing import Any

from .support import A_WHILE

TO_BEGIN = 120
"""Seconds after which a chromium that answers nothing is one that doesn't run here."""


@functools.cache
def lack() -> str:
    """What pages lack here; nothing where chromium shows one."""
    if shutil.which("chromium") is None:
        return "chromium isn't installed: apt-get install chromium"
    try:
        with Browser("about:blank") as browser:
            browser.wait_for("1 + 1 == 2")
            chromium().patience = A_WHILE
    except (OSError, EOFError, LookupError) as fault:
        return f"chromium doesn't run here: {fault}"
    return ""


def needs_browser(test: Callable[[Any], None]) -> Callable[[Any], None]:
    """Leaves a test out where chromium shows no page, and says why."""

    @functools.wraps(test)
    def tried(self: Any) -> None:
        if lack():
            self.skipTest(lack())
        test(self)

    return tried


@functools.cache
def chromium() -> Chromium:
    """The one that all pages are shown in: it takes long to begin."""
    begun = Chromium()
    atexit.register(begun.end)
    return begun


class Chromium:
    """A chromium without a window."""

    def __init__(self) -> None:
        self._folder = tempfile.TemporaryDirectory(ignore_cleanup_errors=True)
        read, self._commands = os.pipe()
        self._answers, write = os.pipe()
        words = ["--headless=new", "--no-sandbox", "--disable-gpu", "--disable-dev-shm-usage", "--remote-debugging-pipe"]
        words += [f"--user-data-dir={self._folder.name}", "about:blank"]
        # It reads commands from descriptor 3 and writes answers to 4.
        self._process = subprocess.Popen(
            ["bash", "-c", f'exec chromium "$@" 3<&{read} 4>&{write}', "chromium", *words],
            pass_fds=(read, write),
            stdout=subprocess.DEVNULL,
            stderr=subprocess.DEVNULL,
            env=os.environ | {"HOME": self._folder.name},
        )
        os.close(read)
        os.close(write)
        self._number, self._unread = 0, b""
        self.patience = float(TO_BEGIN)
        """Seconds within which it answers, or has ended."""

    def end(self) -> None:
        with contextlib.suppress(OSError, EOFError):  # where it has ended by itself
            self.ask({}, "Browser.close")
            self._process.wait()
        self._process.kill()
        self._process.wait()
        os.close(self._commands)
        os.close(self._answers)
        self._folder.cleanup()

    def ask(self, page: dict[str, str], method: str, **given: Any) -> dict[str, Any]:
        """The result of a method, of a page or of itself."""
        self._number += 1
        message = {"id": self._number, "method": method, "params": given, **page}
        os.write(self._commands, json.dumps(message).encode() + b"\0")
        while True:
            answer = self._message()
            if answer.get("id") == self._number:
                return answer.get("result", {})

    def _message(self) -> dict[str, Any]:
        while b"\0" not in self._unread:
            if not select.select([self._answers], [], [], self.patience)[0]:
                raise TimeoutError("chromium answers nothing")
            part = os.read(self._answers, 1 << 16)
            if not part:
                raise EOFError("chromium has ended")
            self._unread += part
        message, _, self._unread = self._unread.partition(b"\0")
        return json.loads(message)


class Browser:
    """A page of a link, in a window and a profile of its own."""

    def __init__(self, link: str, width: int = 1280, height: int = 800) -> None:
        self._chromium = chromium()
        self._context = self._chromium.ask({}, "Target.createBrowserContext")["browserContextId"]
        window = {"newWindow": True, "width": width, "height": height, "browserContextId": self._context}
        target = self._chromium.ask({}, "Target.createTarget", url="about:blank", **window)["targetId"]
        self._page = {"sessionId": self._chromium.ask({}, "Target.attachToTarget", targetId=target, flatten=True)["sessionId"]}
        self._ask("Emulation.setDeviceMetricsOverride", width=width, height=height, deviceScaleFactor=1, mobile=False)
        self._ask("Page.navigate", url=link)

    def __enter__(self) -> Browser:
        return self

    def __exit__(self, kind: type[BaseException] | None, error: BaseException | None, trace: TracebackType | None) -> None:
        self._chromium.ask({}, "Target.disposeBrowserContext", browserContextId=self._context)

    def value(self, expression: str) -> Any:
        """The value of an expression of the page; None where it has none yet."""
        return self._ask("Runtime.evaluate", expression=expression, returnByValue=True).get("result", {}).get("value")

    def wait_for(self, expression: str) -> None:
        """Waits until an expression of the page is true."""
        end = time.monotonic() + A_WHILE
        while not self.value(expression):
            if time.monotonic() > end:
                raise TimeoutError(f"{expression}; the page says {self.value('document.body.innerText')}")
            time.sleep(0.02)

    def wait_for_text(self, text: str) -> None:
        """Waits until the page shows a text."""
        self.wait_for(f"document.body.innerText.includes({json.dumps(text)})")

    def press(self, name: str) -> None:
        """Presses the button of an id with the mouse, once it is there and can be."""
        button = f"document.getElementById({json.dumps(name)})"
        self.wait_for(f"{button} && {button}.offsetParent && !{button}.disabled")
        self.value(f"{button}.scrollIntoView()")
        box = self.value(f"{button}.getBoundingClientRect().toJSON()")
        self.click(box["x"] + box["width"] / 2, box["y"] + box["height"] / 2)

    def click(self, x: float, y: float) -> None:
        """Presses the mouse at a place of the window."""
        for kind in ("mousePressed", "mouseReleased"):
            self._ask("Input.dispatchMouseEvent", type=kind, x=x, y=y, button="left", clickCount=1)

    def key(self, key: str) -> None:
        """Presses a key."""
        code = {"Enter": 13, "ArrowLeft": 37, "Tab": 9}.get(key, 0)
        for kind in ("keyDown", "keyUp"):
            self._ask("Input.dispatchKeyEvent", type=kind, key=key, windowsVirtualKeyCode=code)

    def upload(self, name: str, path: str) -> None:
        """Chooses a file for the input of an id."""
        node = self._ask("DOM.getDocument")["root"]["nodeId"]
        found = self._ask("DOM.querySelector", nodeId=node, selector=f"#{name}")
        self._ask("DOM.setFileInputFiles", files=[path], nodeId=found["nodeId"])

    def picture(self) -> bytes:
        """What it shows, as a PNG."""
        return base64.b64decode(self._ask("Page.captureScreenshot", format="png")["data"])

    def _ask(self, method: str, **given: Any) -> dict[str, Any]:
        return self._chromium.ask(self._page, method, **given)
