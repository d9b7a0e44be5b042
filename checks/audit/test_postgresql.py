"""Journals of two brokers over one store in PostgreSQL, to which connections are lost at the COMMIT. Each broker has a
platform of its own.
"""

from __future__ import annotations

import json
import os
import socket
import threading
from collections.abc import Iterator
from contextlib import ExitStack, closing, contextmanager, suppress
from pathlib import Path
from typing import Any, NamedTuple
from urllib.parse import urlsplit

import pytest
from audit.conftest import Audit
from audit.running import Platform, serving
from ports import free_address

pytestmark = [pytest.mark.slow, pytest.mark.postgres]

COMMIT = b"COMMIT\0"


class Cut(NamedTuple):
    """Which of the next COMMITs isn't answered, from 1, and whether the server gets it."""

    number: int
    is_delivered: bool


CUTS = [Cut(number, is_delivered) for number in (1, 2) for is_delivered in (False, True)]
"""An instance is created with two changes: its work becomes pending, and ends."""


class Proxy:
    """It stands before the server, and cuts connections."""

    def __init__(self, server: tuple[str, int]) -> None:
        self._server, self._turn = server, threading.Lock()
        self._left, self._is_delivered = 0, False
        self.listener = socket.create_server(("127.0.0.1", 0))

    def arm(self, cut: Cut) -> None:
        """Cuts the connection of this COMMIT, and no other."""
        with self._turn:
            self._left, self._is_delivered = cut

    @property
    def is_armed(self) -> bool:
        """Whether no connection was cut since."""
        with self._turn:
            return self._left > 0

    def run(self) -> None:
        """Forwards until the listener is closed."""
        with suppress(OSError):
            while True:
                client, _ = self.listener.accept()
                threading.Thread(target=self._forward, args=[client], daemon=True).start()

    def _forward(self, client: socket.socket) -> None:
        with client, socket.create_connection(self._server) as server, suppress(OSError):
            answers = threading.Thread(target=_answers, args=[server, client], daemon=True)
            answers.start()
            while data := client.recv(1 << 16):
                if COMMIT in data and self._is_cut():
                    client.shutdown(socket.SHUT_RDWR)
                    if self._is_delivered:
                        server.sendall(data)
                        answers.join(10)  # it ends with the server's answer, which nobody takes
                    break
                server.sendall(data)
            server.shutdown(socket.SHUT_RDWR)  # a close alone waits for the other thread

    def _is_cut(self) -> bool:
        with self._turn:
            self._left -= 1
            return self._left == 0


def _answers(server: socket.socket, client: socket.socket) -> None:
    with suppress(OSError):
        while data := server.recv(1 << 16):
            client.sendall(data)


@contextmanager
def database() -> Iterator[tuple[Proxy, str]]:
    """A proxy before the server of a new database, and the URL of the database behind it."""
    url = os.environ["OSB_TEST_POSTGRESQL"]
    name = f"journals_{os.getpid()}"
    there = urlsplit(url)
    assert there.hostname is not None and there.port is not None
    proxy = Proxy((there.hostname, there.port))
    running = threading.Thread(target=proxy.run, daemon=True)
    running.start()
    execute(url, f"CREATE DATABASE {name}")
    try:
        port = proxy.listener.getsockname()[1]
        yield proxy, f"postgresql://{there.username}@127.0.0.1:{port}/{name}?sslmode=disable"
    finally:
        proxy.listener.close()
        execute(url, f"DROP DATABASE {name} WITH (FORCE)")


def execute(url: str, statement: str) -> None:
    """Runs a statement in a session of its own, and commits it."""
    import psycopg2  # if PostgreSQL is used, it is installed

    with closing(psycopg2.connect(url, connect_timeout=60)) as session, session.cursor() as cursor:
        session.autocommit = True
        cursor.execute(statement)


def lines_of(folder: Path) -> list[dict[str, Any]]:
    """Those of all brokers, in their order."""
    texts = [line for path in folder.glob("broker-*") for line in path.read_text().splitlines()]
    return sorted(map(json.loads, texts), key=lambda it: int(it["time"]))


@pytest.mark.long(15)
def test_lost_commits(audit: Audit, broker: Path, platform: Path, tmp_path: Path) -> None:
    """Each is doubtful, and what comes next of the row says whether it counts. The journals are as the model says."""
    platforms = []
    with ExitStack() as stack:
        proxy, url = stack.enter_context(database())
        for name in "one", "two":
            at = free_address()
            words = "--store", url, "--sweep-seconds", "0.1"
            stack.enter_context(serving(broker, tmp_path, at, *words, log=f"broker-{name}"))
            platforms.append(Platform(platform, tmp_path, at, name))
            platforms[-1].once()
            stack.enter_context(platforms[-1].working())
        for number, cut in enumerate(CUTS):
            proxy.arm(cut)
            created = platforms[number % 2].create("--id", str(number), "--wait=60")
            assert created == 0 and not proxy.is_armed, cut  # the broker has read the row again, and gone on
            assert platforms[number % 2].remove(str(number), "--wait=60") == 0, cut
    lines = lines_of(tmp_path / "journals")
    doubtful = [line for line in lines if line["event"] == "undone" and line.get("doubtful")]
    assert len(doubtful) == len(CUTS)
    for undone, cut in zip(doubtful, CUTS):
        changes = [line for line in lines if line["event"] == "changed" and line["instance"] == undone["instance"]]
        names = [(change["process"], change["change"]) for change in changes]
        lost = names.index((undone["process"], undone["change"]))
        assert changes[lost + 1]["before"] == changes[lost]["after" if cut.is_delivered else "before"], cut
    assert len({line["process"] for line in lines if line["event"] == "changed"}) == 2
    ran = audit(tmp_path / "journals")
    assert (ran.status, ran.report["instances"], ran.report["unjudged"], ran.err) == (0, len(CUTS), [], ""), ran
