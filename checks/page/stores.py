"""The stores that the page is looked at with: an empty one, one in the middle of a storm, and a large one.

`osb-platform` makes the tables and adds the brokers. The rows are written directly, with records of the library: only
so do they have the times, the leases and the states of a storm.
"""
from __future__ import annotations

import contextlib
import json
import sqlite3
import time
from dataclasses import dataclass, field
from datetime import datetime, timezone
from pathlib import Path
from random import Random
from typing import Any, Iterator

from osb import Answer, Body, Id, Record
from page import program

SERVICE = Id.of("00000000-0000-0000-0000-0000000000a0")
PLAN = Id.of("00000000-0000-0000-0000-0000000000b2")
HARMFUL = '"><script>document.title = "harmed"</script><b>' + "&amp;long" * 20
"""What a broker says that means the page harm."""
SECRET = "hush"
"""What no page shows: it is in parameters, in identities and in credentials."""

_NOW, _LATER, _DONE = Answer(201, Body.EMPTY), Answer(202, Body.EMPTY), Answer(200, Body.SUCCEEDED)
_TAKEN, _FAILED = Answer(409, Body.OTHER_ERROR), Answer(200, Body.FAILED)
_REMOVED = None
# How an instance comes to a state, by answers and a removal, and how many of twenty do. The restless are deleted again
# and again, and the broker fails.
_LIVES: list[tuple[int, str, list[Answer | None]]] = [
    (1, "ordered", []),
    (1, "withdrawn", []),
    (1, "wanted", []),
    (2, "polling", [_LATER]),
    (4, "ready", [_NOW]),
    (2, "cleaning", [_LATER, _REMOVED]),
    (2, "cleaning-polling", [_LATER, _REMOVED, _LATER]),
    (4, "gone", [_LATER, _REMOVED, _LATER, _DONE]),
    (1, "unsettled", [_TAKEN]),
    (1, "abandoned", [_LATER, _REMOVED]),
    (1, "restless", [_LATER, _REMOVED, *[_LATER, _FAILED] * 9]),
]
_UNSENT = ("ordered", "withdrawn")
_RESTING = ("withdrawn", "ready", "gone", "unsettled", "abandoned")


@dataclass
class _Life:
    """A row as it comes to its state, one step after another."""

    instance: Id
    since: float
    binding: Id | None = None
    state: str = "ordered"
    record: Record | None = None
    stays: list[tuple[str, float]] = field(default_factory=list)
    last: Answer | None = None

    def come(self, state: str, at: float) -> None:
        """It is in another state from now on."""
        if state != self.state:
            self.stays.append((self.state, self.since))
            self.state, self.since = state, at

    def step(self, answer: Answer | None, at: float) -> None:
        """The request that is due is sent and answered, or the removal is asked for."""
        assert self.record is not None
        if answer is None:
            self.record = self.record.remove()
        else:
            record = self.record if self.record.out is not None else self.record.send(self.id)[0]
            if self.binding is None:
                self.record = record.answer(record.attempt, answer)
            else:
                self.record = record.answer_binding(record.attempt, answer, retrievable=True)
            self.last = answer
        self.come(str(self.record.state), at)

    @property
    def id(self) -> Id:
        """The one that stands in its requests."""
        return self.binding or self.instance


def empty(path: Path) -> None:
    """A store with nothing in it."""
    _add(path, "shop")
    program.run(path, "broker", "drop", "shop")


def storm(path: Path) -> None:
    """300 instances in all states, and 40 bindings. 16 have a request in flight, some at a worker that is dead. A
    broker is reached, one isn't, and one rejects the password.
    """
    _brokers(path)
    chance, now = Random("storm"), time.time()
    lives = [(state, life) for share, state, life in _LIVES for _ in range(share)]
    with _rows(path) as connection:
        flying: list[_Life] = []
        for at in range(300):
            state, steps = lives[at % len(lives)]
            life = _lived(_Life(_id(chance), now - 7200.0 + 7000.0 * at / 300), state, steps, chance)
            _insert(connection, life, chance, now)
            if state in ("wanted", "polling", "cleaning"):
                flying.append(life)
            if state == "ready" and at % 3:
                _insert(connection, _bound(life, at, chance), chance, now)
        for at, life in enumerate(flying[-16:]):
            _fly(connection, life, now + at * 30.0 - 60.0, at % 3 == 0)
        _count(connection)


def _lived(life: _Life, state: str, steps: list[Answer | None], chance: Random) -> _Life:
    at = life.since + chance.uniform(0.05, 9.0)
    if state == "withdrawn":
        life.come(state, at)
    if state in _UNSENT:
        return life
    life.record = Record.create(life.instance, SERVICE, PLAN, True)[0]
    life.come("wanted", at)
    for step in steps:
        at += chance.uniform(0.05, 9.0)
        life.step(step, at)
    if state == "abandoned":
        life.come(state, at + 60.0)
    return life


def _bound(instance: _Life, at: int, chance: Random) -> _Life:
    """A binding of an instance that is ready."""
    assert instance.record is not None
    life = _Life(instance.instance, instance.since + 5.0, binding=_id(chance))
    life.record = instance.record.create_binding(life.id, True)[0]
    life.come("wanted", life.since + 1.0)
    if at % 5:
        life.step(_NOW, life.since + 2.0)
    return life


# ---- rows


def _brokers(path: Path) -> None:
    """Three brokers, two of which have rejected the request for their catalogue."""
    for name in ("shop", "shelf", "shut"):
        _add(path, name)
    with _rows(path) as connection:
        connection.execute(
            "UPDATE osb_brokers SET url = 'https://' || name || '.example', catalogue_at = ?, reason = NULL",
            [_milliseconds(time.time() - 90.0)],
        )
        for name, status, said in (("shelf", 503, HARMFUL), ("shut", 401, "who are you")):
            connection.execute(
                "UPDATE osb_brokers SET reason = ? WHERE name = ?",
                [_reason(time.time(), "catalogue", status, said), name],
            )


def _add(path: Path, name: str) -> None:
    """A broker at a port at which nobody listens."""
    password = path.with_name("password")
    password.write_text(SECRET)
    password.chmod(0o600)
    program.run(path, "broker", "add", name, f"http://127.0.0.1:9/{name}", "--password-file", str(password))


def _insert(connection: sqlite3.Connection, life: _Life, chance: Random, now: float) -> None:
    """The row of an instance or of a binding, and its life."""
    values: dict[str, Any] = {
        "service": str(SERVICE),
        "plan": str(PLAN),
        "further": json.dumps({"parameters": {"password": SECRET}}),
        "identity": SECRET,
        "record": None if life.record is None else life.record.to_text(),
        "state": life.state,
        "since": _milliseconds(life.since),
        "removal": 0,
        "tries": 0,
        "broker": chance.choice(["shop", "shelf"]),
        "due": None if life.state in _RESTING else _milliseconds(now + chance.uniform(0.0, 90.0)),
        "because": "the broker is no more" if life.state == "abandoned" else None,
        **_said(life),
    }
    if life.binding is None:
        table, key = "osb_instances", str(life.instance)
        values |= {"id": key, "instance_name": HARMFUL if life.state == "unsettled" and chance.random() < 0.2 else None}
    else:
        table, key = "osb_bindings", f"{life.instance}/{life.binding}"
        values |= {"id": str(life.binding), "instance": str(life.instance), "may_exist": 1, "is_own": 1}
        values |= {"organization": "o", "space": "s", "try": 1, "most_tries": 1, "has_last": 0, "is_passing": 0}
        values |= {"after_ms": 0, "credentials": SECRET.encode()}
    columns, marks = ", ".join(values), ", ".join("?" * len(values))
    connection.execute(f"INSERT INTO {table} ({columns}) VALUES ({marks})", list(values.values()))
    connection.executemany(
        "INSERT INTO osb_lives VALUES (?, ?, ?, ?)",
        [(key, at, state, _milliseconds(since)) for at, (state, since) in enumerate(life.stays, 1)],
    )


def _said(life: _Life) -> dict[str, Any]:
    """What the broker has said last, and why a creation has failed."""
    said: dict[str, Any] = {"last": None, "failure": None, "operation": None, "dashboard": None}
    text = HARMFUL if life.instance.low % 4 == 0 else "The quota of the organization is used up."
    if life.last is not None:
        said["last"] = _reason(life.since, "poll", life.last.status, "")
    if life.last == _TAKEN:
        said["last"] = said["failure"] = _reason(life.since, "provision", life.last.status, text)
    if life.last == _FAILED:
        said["failure"] = _reason(life.since, "poll", life.last.status, "It has failed.")
        said["last"] = _reason(life.since, "deprovision", 503, text)
    if life.state in ("polling", "cleaning-polling"):
        said["operation"] = HARMFUL
    if life.state == "ready":
        said["dashboard"] = "javascript:document.title = 'harmed'"
    return said


def _reason(since: float, kind: str, status: int, description: str) -> str:
    at = datetime.fromtimestamp(since, timezone.utc).isoformat(timespec="milliseconds")
    reason = {"at": at, "kind": kind, "status": status, "description": description}
    return json.dumps({**reason, "error": "QuotaExceeded"} if status >= 400 else reason)


def _fly(connection: sqlite3.Connection, life: _Life, until: float, is_removed: bool) -> None:
    """The request that is due is in flight at a worker, until its lease ends."""
    assert life.record is not None
    if life.record.out is None:
        life.record = life.record.send(life.id)[0]
    connection.execute(
        "UPDATE osb_instances SET worker = 'worker-1', leased_until = ?, removal = ?, record = ? WHERE id = ?",
        [_milliseconds(until), is_removed, life.record.to_text(), str(life.id)],
    )


def order(path: Path) -> None:
    """An instance more, ordered now."""
    with _rows(path) as connection:
        chance = Random(time.time_ns())
        _insert(connection, _Life(_id(chance), time.time()), chance, time.time())
        _count(connection)


def large(path: Path) -> None:
    """100,000 instances: those of a storm, and copies of those that are at rest, in the last three months."""
    storm(path)
    chance = Random("large")
    with _rows(path) as connection:
        rested = connection.execute("SELECT id FROM osb_instances WHERE state IN ('ready', 'gone')").fetchall()
        columns = "service, plan, further, record, operation, state, removal, tries"
        for at in range(100_000 - 300):
            copied = [str(_id(chance)), _milliseconds(chance.uniform(0.0, 90 * 86400.0)), *rested[at % len(rested)]]
            connection.execute(
                f"INSERT INTO osb_instances (id, since, broker, {columns}) "
                f"SELECT ?, round((since - ?) * 1000) / 1000.0, broker, {columns} FROM osb_instances WHERE id = ?",
                copied,
            )
            connection.execute(
                "INSERT INTO osb_lives SELECT ?, number, state, since - ? FROM osb_lives WHERE id = ?", copied
            )
        _count(connection)


def longest_life(path: Path, state: str) -> str:
    """The instance in a state with the most states before."""
    with _rows(path) as connection:
        ((id,),) = connection.execute(
            "SELECT id FROM osb_instances AS it WHERE state = ? "
            "ORDER BY (SELECT count(*) FROM osb_lives WHERE id = it.id) DESC LIMIT 1",
            [state],
        )
    return str(id)


def hostile(path: Path) -> str:
    """An instance of which the broker has said something hostile."""
    with _rows(path) as connection:
        ((id,),) = connection.execute(
            "SELECT id FROM osb_instances WHERE json_extract(failure, '$.description') = ? LIMIT 1", [HARMFUL]
        )
    return str(id)


def binding(path: Path) -> str:
    """The target of a binding."""
    with _rows(path) as connection:
        ((instance, id),) = connection.execute("SELECT instance, id FROM osb_bindings LIMIT 1")
    return f"instance/{instance}/binding/{id}"


def counts(path: Path) -> dict[str, int]:
    """How many instances there are in each state."""
    with _rows(path) as connection:
        return dict(connection.execute("SELECT state, count(*) FROM osb_instances GROUP BY state").fetchall())


@contextlib.contextmanager
def _rows(path: Path) -> Iterator[sqlite3.Connection]:
    """A connection to a store, with one transaction."""
    with contextlib.closing(sqlite3.connect(path, timeout=30.0)) as connection, connection:
        connection.execute("PRAGMA synchronous = OFF")
        yield connection


def _count(connection: sqlite3.Connection) -> None:
    """Count the rows, as the program does when it writes them."""
    connection.execute("DELETE FROM osb_counts")
    for is_binding, table in enumerate(["osb_instances", "osb_bindings"]):
        connection.execute(
            f"INSERT INTO osb_counts SELECT broker, {is_binding}, state, count(*) FROM {table} GROUP BY broker, state"
        )


def _milliseconds(at: float) -> float:
    """A time as the store has it: in whole milliseconds."""
    return round(at, 3)


def _id(chance: Random) -> Id:
    return Id(chance.getrandbits(64), chance.getrandbits(64))
