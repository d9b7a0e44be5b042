"""Chromium without a window, controlled by its own protocol over two pipes."""
from __future__ import annotations

import base64
import contextlib
import json
import os
import select
import shutil
import subprocess
import tempfile
import time
from pathlib import Path
from typing import Any, Iterator

_NAMES = ("chromium", "chromium-browser", "google-chrome")
_SECONDS = 60.0
_FLAGS = (
    "--headless",
    "--no-sandbox",
    "--remote-debugging-pipe",
    "--disable-gpu",
    "--no-first-run",
    "--disable-dev-shm-usage",
    "--disable-background-networking",
    "--disable-component-update",
    "--disable-extensions",
    "--hide-scrollbars",
)


class BrowserError(Exception):
    """The browser has ended, says nothing more, or can't do what was asked."""


def found() -> str | None:
    """The browser that is installed, or None."""
    return next((path for path in (shutil.which(name) for name in _NAMES) if path is not None), None)


class Browser:
    """One tab of a browser."""

    def __init__(self, to: int, back: int) -> None:
        """`to` and `back`: the pipes."""
        self._to, self._back = to, back
        self._number, self._rest, self._session = 0, b"", ""
        self.complaints: list[str] = []
        """What the browser has found wrong with the pages: scripts that failed, and what a policy kept away."""
        target = self._told("Target.createTarget", url="about:blank")["targetId"]
        self._session = str(self._told("Target.attachToTarget", targetId=target, flatten=True)["sessionId"])
        for domain in ("Page", "Runtime", "Log"):
            self._told(f"{domain}.enable")

    def size(self, width: int, height: int) -> None:
        """How large the window is; a narrow one is that of a phone."""
        self._told(
            "Emulation.setDeviceMetricsOverride", width=width, height=height, deviceScaleFactor=1, mobile=width < 500
        )

    def scheme(self, name: str) -> None:
        """`light` or `dark`."""
        self._told("Emulation.setEmulatedMedia", features=[{"name": "prefers-color-scheme", "value": name}])

    def open(self, url: str) -> None:
        """Opens a page, and waits until all of it is there and was painted."""
        said = self._told("Page.navigate", url=url)
        if "errorText" in said:
            raise BrowserError(f"{url}: {said['errorText']}")
        self._until("Page.loadEventFired")
        self.value("new Promise(done => requestAnimationFrame(() => requestAnimationFrame(() => done(1))))")

    def value(self, script: str) -> Any:
        """What the script gives, once a promise that it gives is kept."""
        said = self._told("Runtime.evaluate", expression=script, returnByValue=True, awaitPromise=True)
        if "exceptionDetails" in said:
            raise BrowserError(f"{script[:60]}: {said['exceptionDetails']}")
        return said["result"].get("value")

    def press(self, key: str, code: int) -> None:
        """Presses a key."""
        text = {"text": "\r"} if key == "Enter" else {}
        for kind in ("keyDown", "keyUp"):
            self._told(
                "Input.dispatchKeyEvent",
                type=kind,
                key=key,
                code=key,
                windowsVirtualKeyCode=code,
                **(text if kind == "keyDown" else {}),
            )

    def picture(self, to: Path) -> None:
        """Writes what the window shows, as a PNG."""
        to.write_bytes(base64.b64decode(self._told("Page.captureScreenshot", format="png")["data"]))

    def _told(self, method: str, **given: Any) -> dict[str, Any]:
        self._number += 1
        said: dict[str, Any] = {"id": self._number, "method": method, "params": given}
        if self._session:
            said["sessionId"] = self._session
        os.write(self._to, json.dumps(said).encode() + b"\0")
        while True:
            heard = self._heard()
            if heard.get("id") == self._number:
                if "error" in heard:
                    raise BrowserError(f"{method}: {heard['error']}")
                result: dict[str, Any] = heard["result"]
                return result

    def _until(self, event: str) -> None:
        while self._heard().get("method") != event:
            pass

    def _heard(self) -> dict[str, Any]:
        until = time.monotonic() + _SECONDS
        while b"\0" not in self._rest:
            ready, _, _ = select.select([self._back], [], [], max(0.0, until - time.monotonic()))
            piece = os.read(self._back, 1 << 20) if ready else b""
            if not piece:
                raise BrowserError("the browser says nothing more")
            self._rest += piece
        text, _, self._rest = self._rest.partition(b"\0")
        heard: dict[str, Any] = json.loads(text)
        if heard.get("method") == "Runtime.exceptionThrown":
            self.complaints.append(json.dumps(heard["params"])[:300])
        elif heard.get("method") == "Log.entryAdded":
            self.complaints.append(str(heard["params"]["entry"]["text"]))
        return heard


@contextlib.contextmanager
def browser(path: str) -> Iterator[Browser]:
    """A new browser, which knows nothing, until the end of the block."""
    with tempfile.TemporaryDirectory() as folder, contextlib.ExitStack() as stack:
        theirs, to = os.pipe()
        back, ours = os.pipe()
        # The browser reads from 3 and writes to 4.
        line = ["bash", "-c", f'exec "$0" "$@" 3<&{theirs} 4>&{ours}', path, *_FLAGS, f"--user-data-dir={folder}"]
        process = subprocess.Popen(
            line,
            pass_fds=(theirs, ours),
            stdin=subprocess.DEVNULL,
            stdout=subprocess.DEVNULL,
            stderr=subprocess.DEVNULL,
            env={**os.environ, "HOME": folder},
        )
        for end in (theirs, ours):
            os.close(end)
        stack.callback(_end, process)
        for end in (to, back):
            stack.callback(os.close, end)
        yield Browser(to, back)


def _end(process: subprocess.Popen[bytes]) -> None:
    """It ends when its pipes do."""
    try:
        process.wait(10)
    except subprocess.TimeoutExpired:
        process.kill()
        process.wait()
