"""Reads api/cases.txt, whose head says how it is written."""
from __future__ import annotations

import itertools
import re
from pathlib import Path
from typing import Iterator, NamedTuple, Optional

FILE = Path(__file__).with_name("cases.txt")

_ESCAPE = re.compile(rb"\\(?:x([0-9a-f]{2})|\{(.+?)\*(\d+)\}|(.))")
_LETTERS = {b"t": b"\t", b"n": b"\n", b"r": b"\r"}

Cells = dict[str, Optional[bytes]]

INSTANCE, BINDING, SERVICE, _SYNC, _ASYNC = (
    b"00000000-0000-0000-0000-0000000000" + ending for ending in (b"01", b"02", b"a0", b"b1", b"b2")
)
PLANS = {"sync": _SYNC, "async": _ASYNC}
OF_A_BINDING = {"bind": "provision", "unbind": "deprovision", "poll-binding": "poll"}
PHASES = "waiting making ready failed deleting delete-failed".split()
OUTCOMES = "done before after refused-400 refused-422".split()
UPDATE_OUTCOMES = [*OUTCOMES, "failed"]
CALLS = "look sync create delete update".split()
LOOKS = "first again tried undone".split()


class Case(NamedTuple):
    """A call with what it is given and what comes of it, by the names of the columns. What is missing is None."""

    call: str
    """The name of the call, without osb_."""
    given: Cells
    status: str
    """The status, as in DONE."""
    gives: Cells
    """What the call gives if it is done."""
    line: int


def _plain(cell: bytes) -> bytes:
    """The text that a cell stands for."""

    def meant(found: re.Match[bytes]) -> bytes:
        if found[1]:
            return bytes.fromhex(found[1].decode())
        return _plain(found[2]) * int(found[3]) if found[2] else _LETTERS.get(found[4], found[4])

    return _ESCAPE.sub(meant, cell)


def _value(cell: bytes, texts: dict[bytes, bytes]) -> bytes | None:
    if cell in (b"-", b'""'):
        return None if cell == b"-" else b""
    if not cell.startswith(b"\\["):
        return _plain(cell)
    name, *changes = cell[2:-1].split(b"|")
    text = texts[name]
    for old, new in zip(changes[::2], changes[1::2]):
        assert _plain(old) in text, f"the text {name.decode()} hasn't {old.decode()}"
        text = text.replace(_plain(old), _plain(new))
    return text


class Record(NamedTuple):
    state: str
    attempt: int
    out: str


class Request(NamedTuple):
    kind: str
    accepts_incomplete: bool
    id: bytes
    plan: bytes


class Holding(NamedTuple):
    row: Optional[tuple[str, bytes]]
    """Its phase and its plan."""
    work: Optional[Request]
    has_tombstone: bool
    attributes: bytes


class Driver(NamedTuple):
    stage: str
    number: bytes
    is_request: bool
    is_locked: bool
    ok: bool
    task: Optional[Request]
    outcome: Optional[str]
    answer: Optional[bytes]
    """Its status and its body, as a cell has them."""
    creates: bool
    call: Optional[str]
    look: Optional[str]
    rejection: int


class PlatformDriver(NamedTuple):
    stage: str
    number: bytes
    is_binding: bool
    attempt: int
    request: Optional[Request]
    fetches: bool
    answer: Optional[bytes]
    """Its status and its body, as a cell has them."""
    has_credentials: bool


class Settings(NamedTuple):
    plan: Optional[bytes]
    parameters: Optional[bytes]
    version: Optional[bytes]


class Update(NamedTuple):
    number: int
    change: Settings
    """What it doesn't name is None."""
    accepts_incomplete: bool
    service: bytes


class UpdateHolding(NamedTuple):
    phase: str
    number: int
    settings: Settings
    to: Optional[Settings]


class UpdateDriver(NamedTuple):
    driver: Driver
    is_update: bool
    is_pending: bool
    """Whether the work of an Update is pending."""
    to: Optional[Settings]
    before: Optional[Settings]
    outcome: Optional[str]
    """Of an Update."""


class Wishes(NamedTuple):
    create: bool
    clean_up: str
    send: bool


def record(cell: bytes) -> Record:
    """The record that a cell stands for. Its service is SERVICE, and its plan PLANS["sync"]."""
    state, attempt, *out = cell.decode().split()
    return Record(state, int(attempt), out[0] if out else "none")


def request(cell: bytes) -> Request:
    """The request that a cell stands for. Its service is SERVICE."""
    word, plan, *refuses = cell.decode().split(":")
    kind = OF_A_BINDING.get(word, word)
    return Request(kind, not refuses, INSTANCE if kind == word else BINDING, PLANS[plan])


def digest(cell: bytes | None) -> bytes:
    """The digest of attributes that a cell stands for."""
    return (bytes.fromhex((cell or b"00").decode()) * 32)[:32]


def holding(cell: bytes) -> Holding:
    """The holding that a cell stands for. Its service is SERVICE."""
    found = Holding(None, None, False, digest(None))
    for word in cell.split():
        name, _, plan = word.decode().partition(":")
        if word.startswith(b"#"):
            found = found._replace(attributes=digest(word[1:]))
        elif word == b"tombstone":
            found = found._replace(has_tombstone=True)
        elif name in PHASES:
            found = found._replace(row=(name, PLANS[plan]))
        elif word != b"none":
            found = found._replace(work=request(word))
    return found


def settings(cell: bytes) -> Settings:
    """The settings that a cell stands for, or the change, whose settings that it doesn't name are None."""
    plan, *digests = cell.decode().split(":")
    parameters, version = (None if word == "-" else digest(word.encode()) for word in digests)
    return Settings(PLANS.get(plan), parameters, version)


def update(cell: bytes) -> Update:
    """The Update that a cell stands for."""
    number, change, *words = cell.split()
    service = _SYNC if b"elsewhere" in words else SERVICE
    return Update(int(number), settings(change), b"refuses" not in words, service)


def update_holding(cell: bytes) -> UpdateHolding:
    """The holding of updates that a cell stands for."""
    phase, number, *both = cell.split()
    held, to = (*map(settings, both), None)[:2]
    assert held is not None
    return UpdateHolding(phase.decode(), int(number), held, to)


def driver(cell: bytes) -> Driver:
    """The driver that a cell stands for."""
    stage, *words = cell.decode().split()
    flags = "request" in words, "locked" in words, "ok" in words
    found = Driver(stage, digest(b"01")[:16], *flags, None, None, None, "creates" in words, None, None, 0)
    for word in words:
        if word.startswith("#"):
            found = found._replace(number=digest(word[1:].encode())[:16])
        elif "/" in word:
            found = found._replace(answer=word.replace("/", " ").encode())
        elif ":" in word:
            found = found._replace(task=request(word.encode()))
        elif word in OUTCOMES or word.isdigit():
            found = found._replace(outcome=word)
        elif word in CALLS:
            found = found._replace(call=word)
        elif word in LOOKS:
            found = found._replace(look=word)
        elif word.startswith("rejected-"):
            found = found._replace(rejection=int(word[9:]))
    return found


def update_driver(cell: bytes) -> UpdateDriver:
    """The driver of an instance that can be updated that a cell stands for."""
    words = cell.decode().split()
    both = [word for word in words if ":" in word and word.partition(":")[0] in PLANS]
    is_update = "updates" in words
    outcomes = [word for word in words[1:] if is_update and (word in UPDATE_OUTCOMES or word.isdigit())]
    of_instance = [words[0], *(word for word in words[1:] if word not in (*both, *outcomes))]
    to, before = (*(settings(word.encode()) for word in both), None, None)[:2]
    of = driver(" ".join(of_instance).encode())
    return UpdateDriver(of, is_update, "pending" in words, to, before, outcomes[0] if outcomes else None)


def platform_driver(cell: bytes) -> PlatformDriver:
    """The driver of a platform that a cell stands for."""
    stage, *words = cell.decode().split()
    fetches, has_credentials = "fetches" in words, "credentials" in words
    found = PlatformDriver(stage, digest(b"01")[:16], "binding" in words, 0, None, fetches, None, has_credentials)
    for word in words:
        if word.startswith("#"):
            found = found._replace(number=digest(word[1:].encode())[:16])
        elif word.startswith("@"):
            found = found._replace(attempt=int(word[1:]))
        elif "/" in word:
            found = found._replace(answer=word.replace("/", " ").encode())
        elif ":" in word:
            found = found._replace(request=request(word.encode()))
    return found


def is_of_platform(cell: bytes) -> bool:
    """Whether a cell stands for the driver of a platform."""
    return not {b"instance", b"binding"}.isdisjoint(cell.split())


def wishes(cell: bytes) -> Wishes:
    """What a program wishes."""
    words = cell.decode().split()
    clean_up = [word for word in words if word not in ("create", "send", "none")]
    return Wishes("create" in words, clean_up[0] if clean_up else "none", "send" in words)


def cases() -> Iterator[Case]:
    """Each case of the file."""
    texts: dict[bytes, bytes] = {}
    head: list[bytes] = []
    first: list[bytes] = []
    for number, line in enumerate(FILE.read_bytes().split(b"\n"), 1):
        cells = line.split(b"\t")
        if not line or line.startswith(b"#"):
            head, first = [], []
        elif line.startswith(b"text "):
            texts[cells[0][5:]] = _plain(cells[1])
        elif not head:
            head = cells
            split = head.index(b"=")
            call, *given, _ = (name.decode() for name in head[: split + 1])
            gives = [name.decode() for name in head[split + 1 :]]
        else:
            ended = cells.index(b"=", len(given))
            assert ended == len(given), f"line {number} of {FILE} has {ended} cells before ="
            first = first or cells[:ended]
            rows = [first[at] if cell == b"." else cell for at, cell in enumerate(cells[:ended])]
            is_done = not cells[ended + 1].startswith(b"!")
            results = cells[ended + 1 :] if is_done else []
            status = "DONE" if is_done else cells[ended + 1][1:].decode()
            for row in itertools.product(*(re.split(rb"(?<!\\)\\\|", cell) for cell in rows)):
                of = dict(zip(given, (_value(cell, texts) for cell in row)))
                values = (of[name] if cell == b"." else _value(cell, texts) for name, cell in zip(gives, results))
                yield Case(call, of, status, dict(zip(gives, values)), number)
