"""After a power cut at any moment, a broker has everything that it had reported, and nothing else exists."""
from __future__ import annotations

import contextlib
import json
import os
import re
import signal
import sqlite3
import subprocess
import threading
import time
import urllib.request
from pathlib import Path
from random import Random
from typing import Iterator

import pytest
from osb import Holding, Id, Phase
from power.customers import GONE, PASSWORD, Broker, Customer, Facts, Known
from power.disk import disk

pytestmark = [pytest.mark.alone, pytest.mark.slow]

CUSTOMERS, CUTS = 6, 6


class RunningBroker:
    """A broker that serves a state folder."""

    def __init__(self, program: Path, state: Path) -> None:
        environment = {**os.environ, "OSB_BROKER_PASSWORD": PASSWORD}
        line = [str(program), "serve", "--state", str(state), "--listen", "127.0.0.1:0", "--sweep-seconds", "0.1"]
        self._process = subprocess.Popen(line, env=environment, stderr=subprocess.PIPE, stdin=subprocess.DEVNULL)
        assert self._process.stderr is not None
        first = json.loads(self._process.stderr.readline())
        assert first["event"] == "serving", first
        self.port = int(first["url"].rpartition(":")[2])
        self._reader = threading.Thread(target=self._process.stderr.read, daemon=True)
        self._reader.start()

    def unfinished(self) -> float:
        """How much is pending, operating or waiting."""
        with urllib.request.urlopen(f"http://127.0.0.1:{self.port}/metrics", timeout=60) as page:
            text = page.read().decode()
        return sum(map(float, re.findall(r"^osb_broker_(?:pending|operating) (\S+)$", text, re.MULTILINE)))

    def end(self) -> None:
        self._process.send_signal(signal.SIGTERM)
        assert self._process.wait(60) == 0

    def close(self) -> None:
        """Kills it if it still runs."""
        self._process.kill()
        self._process.wait()
        self._reader.join()
        assert self._process.stderr is not None
        self._process.stderr.close()


@contextlib.contextmanager
def serving(program: Path, state: Path) -> Iterator[RunningBroker]:
    live = RunningBroker(program, state)
    try:
        yield live
        live.end()
    finally:
        live.close()


@pytest.mark.usefixtures("library")
def test_power_cut(broker: Path, tmp_path: Path) -> None:
    draw, cuts = Random(5), []
    with disk(tmp_path) as made:
        facts, stop = Facts(), threading.Event()
        with serving(broker, made.top / "state") as live:
            customers = [Customer(number, live.port, facts, stop) for number in range(CUSTOMERS)]
            for customer in customers:
                customer.start()
            for _ in range(CUTS):
                time.sleep(draw.uniform(0.3, 1.2))
                before, cut, after = facts.now(), made.cut(), facts.now()
                # what was known before the cut, and about which no request was sent until after it
                cuts.append(({key: what for key, what in before.items() if after.get(key) == what}, cut))
            stop.set()
            for customer in customers:
                customer.join(60)
            assert [buyer.error for buyer in customers] == [None] * CUSTOMERS
        for known, cut in cuts:
            with made.after(cut) as top:
                check(broker, top / "state", known)
    assert len(cuts[-1][0]) > 20, "too little has happened"


def check(program: Path, state: Path, known: dict[str, Known]) -> None:
    """Starts a broker after the cut, and compares what it had reported, what it holds, and what exists."""
    with serving(program, state) as live:
        until = time.monotonic() + 60
        while live.unfinished():
            assert time.monotonic() < until, "pending work isn't ended"
            time.sleep(0.05)
        with contextlib.closing(Broker(live.port)) as asked:
            for path, what in known.items():
                answer = asked.ask("GET", f"{path}/last_operation")
                is_right = answer.status == 410 if what == GONE else answer.body == {"state": "succeeded"}
                assert is_right, (path, what, answer)
                if "/" in path and what != GONE:
                    assert asked.ask("GET", path).body == what
    held, resources = holdings(state), existing(state)
    phases = {key: holding.row.phase for key, (holding, _) in held.items() if holding.row is not None}
    assert {key for key, phase in phases.items() if phase == Phase.READY} == set(resources)
    # nobody polls any more what waits for its first Poll
    assert set(phases.values()) <= {Phase.READY, Phase.WAITING}
    for key, (_, binding) in held.items():
        if binding is not None:
            assert json.loads(binding)["credentials"]["token"] == resources[key]


def holdings(state: Path) -> dict[str, tuple[Holding, str | None]]:
    """What the store holds of each instance and binding, with the object of a binding."""
    with contextlib.closing(sqlite3.connect(state / "holdings.sqlite")) as store:
        found: dict[str, tuple[Holding, str | None]] = {
            id: (Holding.from_text(text), None) for id, text in store.execute("SELECT id, holding FROM holdings")
        }
        for instance, binding, text, object in store.execute("SELECT instance, binding, holding, object FROM bindings"):
            found[f"{instance}-{binding}"] = (Holding.from_binding_text(text), object)
    return found


def existing(state: Path) -> dict[str, str]:
    """The folders and the bindings that exist, with the token of each binding."""
    top = state / "instances"
    found = {path.name: "" for path in top.iterdir() if not path.name.startswith(".")}
    assert all(str(Id.of(name)) == name for name in found)
    assert not [path for path in top.iterdir() if path.name.startswith(".part")]
    for file in (top / ".bindings").iterdir():
        found[file.name] = json.loads(file.read_text())["token"]
    return found
