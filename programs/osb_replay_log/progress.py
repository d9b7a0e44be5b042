"""Progress: a bar on standard error, where that is a terminal, and nothing where it isn't."""
from __future__ import annotations

import sys
import time

_SECONDS = 0.2
_WIDTH = 20


class Progress:
    """How many lines are done of all. It ends without a trace."""

    def __init__(self, is_shown: bool | None = None) -> None:
        self._is_shown = sys.stderr.isatty() if is_shown is None else is_shown
        self._told = self._begun = time.monotonic()

    def begin(self) -> None:
        """From here on the rest of the time is reckoned."""
        self._begun = time.monotonic()

    def tell(self, what: str, done: int, lines: int, is_sure: bool) -> None:
        """Tells it, unless it was told just now."""
        now = time.monotonic()
        if not self._is_shown or not done or now - self._told < _SECONDS:
            return
        self._told = now
        rest = clock((now - self._begun) * max(lines - done, 0) / done)
        about = "" if is_sure else "about "
        self._write(f"{what} {bar(done, lines)} {done:,} of {about}{lines:,} lines, {rest} left")

    def end(self) -> None:
        """Takes the line away."""
        if self._is_shown:
            self._write("")

    def _write(self, text: str) -> None:
        print(f"\r{text}\x1b[K", end="", file=sys.stderr, flush=True)


def bar(done: int, lines: int) -> str:
    """So much of it is filled as is done of all."""
    return f"[{'#' * (_WIDTH * min(done, lines) // max(lines, 1)):<{_WIDTH}}]"


def clock(seconds: float) -> str:
    """As a clock has it."""
    minutes, rest = divmod(int(seconds + 0.5), 60)
    return f"{minutes}:{rest:02}" if minutes < 60 else f"{minutes // 60}:{minutes % 60:02}:{rest:02}"
