"""Shows how far the tests are while they run: how many have ended, and which of those that run began first."""

from __future__ import annotations

import threading
import time

import pytest
from _pytest.terminal import TerminalReporter

INTERVAL = 15.0
"""So many seconds are between two lines."""


class Progress:
    """A plugin of the process that hands out the tests to others. Beside pytest's dots, it writes a line from time to
    time: the first tests take minutes, in which there is no dot.
    """

    def __init__(self, interval: float) -> None:
        self._interval = interval
        self._begun = time.monotonic()
        self._running: dict[str, float] = {}
        self._ended = self._all = 0
        self._is_over = threading.Event()
        self._thread: threading.Thread | None = None

    def pytest_sessionstart(self, session: pytest.Session) -> None:
        reporter = session.config.pluginmanager.get_plugin("terminalreporter")
        self._thread = threading.Thread(target=self._tell, args=(reporter,), daemon=True)
        self._thread.start()

    @pytest.hookimpl(optionalhook=True)  # type: ignore[misc]  # of pytest-xdist
    def pytest_xdist_node_collection_finished(self, ids: list[str]) -> None:
        self._all = len(ids)

    def pytest_runtest_logstart(self, nodeid: str) -> None:
        self._running[nodeid] = time.monotonic()

    def pytest_runtest_logfinish(self, nodeid: str) -> None:
        self._running.pop(nodeid, None)
        self._ended += 1

    def pytest_sessionfinish(self) -> None:
        self._is_over.set()
        if self._thread is not None:
            self._thread.join()

    def _tell(self, reporter: TerminalReporter) -> None:
        while not self._is_over.wait(self._interval):
            reporter.ensure_newline()
            reporter.write_line(self.line())

    def line(self) -> str:
        """How far the tests are."""
        now = time.monotonic()
        passed = f"{(now - self._begun) // 60:.0f}:{(now - self._begun) % 60:02.0f}"
        running = self._running.copy()
        if not self._all:
            return f"{passed}: the tests are being collected"
        text = f"{passed}: {self._ended} of {self._all} tests have ended, {len(running)} run"
        if running:
            name, begun = min(running.items(), key=lambda it: it[1])
            text += f", the longest for {now - begun:.0f} s: {name}"
        return text


def register(config: pytest.Config, interval: float = INTERVAL) -> None:
    """Has the lines written if pytest-xdist hands out the tests. In its other processes it does nothing."""
    if getattr(config.option, "numprocesses", None) and not hasattr(config, "workerinput"):
        config.pluginmanager.register(Progress(interval))
