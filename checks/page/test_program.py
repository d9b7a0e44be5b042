"""The page as `osb-platform serve` serves it to a program that means it harm."""
from __future__ import annotations

import contextlib
import socket
import time

import pytest
from page import stores
from page.conftest import ShownStore
from page.program import get

pytestmark = [pytest.mark.slow]

_SILENT = 120  # more connections than the page has at once


def test_silent_connections(storm: ShownStore) -> None:
    """They keep nobody from the page for long, and are closed. They come from six addresses, since each may have a
    quarter of the page's connections.
    """
    host, _, port = storm.url[len("http://") : -1].rpartition(":")
    with contextlib.ExitStack() as stack:
        silent = [
            stack.enter_context(socket.create_connection((host, int(port)), 30.0, (f"127.0.0.{2 + number % 6}", 0)))
            for number in range(_SILENT)
        ]
        began = time.monotonic()
        assert get(storm.url).status == 200
        assert all(connection.recv(1) == b"" for connection in silent)
        assert time.monotonic() - began < 25.0


@pytest.mark.parametrize("name", ["evil.example", "shop.example", "127.0.0.1", ""])
def test_foreign_host(storm: ShownStore, name: str) -> None:
    """A site whose name leads to the page learns nothing of the store."""
    for target in ("/", "/?state=ready", f"/instance/{stores.longest_life(storm.store, 'ready')}"):
        got = get(storm.url, target, name)
        assert got.status in ((421,) if name else (400, 421))
        assert not any(word in got.text for word in ("shop", "shelf", "shut", "ready", "osb-platform", "worker-1"))


def test_headers(storm: ShownStore) -> None:
    """The policy lets no script run but the page's own, and no cache keeps the page."""
    headers = get(storm.url).headers
    assert headers["Cache-Control"] == "no-store"
    assert headers["Content-Security-Policy"].startswith("default-src 'none'; style-src 'sha256-")
    assert "unsafe" not in headers["Content-Security-Policy"]
