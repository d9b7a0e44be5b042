"""The lines of journals (docs/journal.md), and what is wrong with one that can't be read."""
from __future__ import annotations

import json
import re
from itertools import product
from typing import Any, Container, Mapping, NamedTuple, Optional

HEAD = re.compile(
    rb'\{"time":(\d{1,18}),"process":"([0-9a-f]{16})","side":"(broker|platform)","event":"(\w{1,40})"[,}]'
)
"""What each line begins with that osb-broker or osb-platform has written. `plain` gives other lines this form."""
INSTANCE = re.compile(rb'[{,]"instance":"([0-9a-f]{8}(?:-[0-9a-f]{4}){3}-[0-9a-f]{12})"')
"""A name in quotes stands in no text of a journal, where quotes are escaped."""

_FIRST = "time", "process", "side", "event"
"""The members of each line."""

OF_INSTANCES = {
    b"broker": frozenset((b"arrived", b"changed", b"undone", b"work", b"answered")),
    b"platform": frozenset((b"changed", b"undone", b"sent", b"answered")),
}
"""The events of an instance or of a binding, by the side."""
OF_PROCESSES = frozenset((b"started", b"stopped", b"lost"))
"""The events of a process."""


class Position(NamedTuple):
    """Where a line stands: in which stretch of the files, and which of the lines it is there, from 0."""

    stretch: int
    line: int


class Line:
    """A line of an instance or of a binding."""

    __slots__ = ("time", "process", "side", "event", "position", "key", "of")

    def __init__(self, position: Position, members: dict[str, Any]) -> None:
        self.position = position
        self.time: int = members["time"]
        self.process: str = members["process"]
        self.side: str = members["side"]
        self.event: str = members["event"]
        self.key: str = members.get("binding", "")
        """The binding, or empty for the instance."""
        self.of = members

    @property
    def change(self) -> tuple[str, int]:
        """What names a change, and the line that undoes it."""
        return self.process, self.of["change"]

    @property
    def before(self) -> str:
        """What a change has found: the text of the record or of the holding, and behind it what was kept of updates."""
        return str(self.of["before"]) + str(self.of.get("updates_before", ""))

    @property
    def after(self) -> str:
        """What a change has left, likewise."""
        return str(self.of["after"]) + str(self.of.get("updates_after", ""))

    @property
    def saw(self) -> str | None:
        """What an answer was decided on, likewise, or None if it doesn't say so."""
        return None if "saw" not in self.of else str(self.of["saw"]) + str(self.of.get("saw_updates", ""))

    @property
    def saw_instance(self) -> str | None:
        """The same of a binding's instance."""
        found = self.of.get("saw_instance")
        return None if found is None else str(found) + str(self.of.get("saw_instance_updates", ""))

    @property
    def visit(self) -> tuple[str, int] | None:
        """The request that the broker carries out, or None."""
        number = self.of.get("visit", 0)
        return (self.process, number) if number else None


class BadLine(Exception):
    """Why a line is no line of a journal."""


# ---- the members of a line, and what each has to be


class _Form:
    """All texts of a form."""

    def __init__(self, form: str) -> None:
        self._form = re.compile(form)

    def __contains__(self, text: Any) -> bool:
        return self._form.fullmatch(text) is not None


GUIDS = _Form(r"[0-9a-f]{8}(?:-[0-9a-f]{4}){3}-[0-9a-f]{12}")
"""GUIDs, as a journal has them."""
_LONGEST = 60
"""How much of a value is reported at most."""
MOST = (1 << 64) - 1
"""The greatest number of a request, a change or a visit."""


class _Value(NamedTuple):
    """What a member has to be: its type, which values it may have, or None for all, and how that is said."""

    type: type
    values: Optional[Container[Any]]
    said: str


def _one_of(*texts: str) -> _Value:
    return _Value(str, frozenset(texts), f"one of {', '.join(texts)}")


_TEXT, _TRUTH = _Value(str, None, "a text"), _Value(bool, None, "true or false")
_GUID = _Value(str, GUIDS, "a GUID in lower case")
_DIGEST = _Value(str, _Form("[0-9a-f]{64}"), "64 hexadecimal digits in lower case")
_NUMBER = _Value(int, range(MOST + 1), "a number from 0 to 2^64 - 1")
_STATUS = _Value(int, range(100, 1000), "a number from 100 to 999")
_ENDS = "end done", "end before", "end after", "end refused-400", "end refused-422"
CHANGES = "arrive", *_ENDS, "finish ok", "finish fail", "give-up-waiting"
"""What a driver of a broker names a change."""
ALLOWED = "sync", "async", "rejected-400", "rejected-422", "maintenance-conflict"
"""What a catalogue has for an Update."""
UPDATES = (
    *(f"update {allowed}" for allowed in ALLOWED),
    *(f"end-update {how}" for how in ("done", "before", "after", "refused-400", "refused-422", "failed")),
    "finish-update ok",
    "finish-update fail",
)
"""What a driver of a broker names a change of what is kept of updates."""
_STEPS = product(("", "timeout"), ("", "expire", "retry", "remove"), ("", "send"))
STEPS = "create", *(" ".join(filter(None, steps)) for steps in _STEPS if any(steps))
"""What a driver of a platform names a change that takes no answer."""
_TYPES = {
    **dict.fromkeys("time visit change committed life life_before attempt number".split(), _NUMBER),
    **dict.fromkeys("instance binding".split(), _GUID),
    **dict.fromkeys("parameters version".split(), _DIGEST),
    **dict.fromkeys("accepts doubtful".split(), _TRUTH),
    "status": _STATUS,
    "kind": _one_of("provision", "poll", "deprovision", "fetch", "update"),
    "body": _one_of(
        "malformed", "empty", "in-progress", "succeeded", "failed", "async-required", "concurrency-error", "other-error"
    ),
    "call": _one_of("look", "create", "delete", "credentials", "look-update", "update"),
    "stage": _one_of("begun", "ended"),
    "result": _one_of("done", "failed", "rejected"),
    "found": _one_of("absent", "part", "whole"),
    "effect": _one_of("nothing", "put-off", "take", *CHANGES, *UPDATES, *STEPS),
}
"""What each member has to be. All others are texts."""
_SAW = "saw saw_updates saw_instance saw_instance_updates"
_OF_LIFE = " time process instance binding instance_id binding_id"
_EVENTS = {
    ("broker", "arrived"): "visit! request! kind! service plan accepts attributes number parameters version committed",
    (
        "broker",
        "changed",
    ): "change! before! after! updates_before updates_after credentials visit life life_before effect",
    ("broker", "undone"): "change! doubtful",
    ("broker", "work"): "call! stage! result found visit credentials",
    ("broker", "answered"): "visit! status! body! request credentials plan parameters version number effect " + _SAW,
    ("platform", "changed"): "change! before! after! cause! credentials service plan broker state attempt effect",
    ("platform", "undone"): "change! doubtful",
    ("platform", "sent"): "request! kind! service plan broker attempt accepts",
    ("platform", "answered"): "request! kind! status body credentials broker lost",
}
"""The members of each event that an audit knows. Without those with an exclamation mark, nothing can be said of it."""
MEMBERS: Mapping[tuple[str, str], Mapping[str, _Value]] = {
    event: {name: _TYPES.get(name, _TEXT) for name in (names.replace("!", "") + _OF_LIFE).split()}
    for event, names in _EVENTS.items()
}
NEEDED = {event: tuple(re.findall(r"(\w+)!", names)) for event, names in _EVENTS.items()}
OF_LOST = {"count": _NUMBER}
"""The members of the line `lost`."""
NAMES_EVENTS = {"names_events": _TRUTH}
"""The member of the line `started` of either side that version 0.3 doesn't have."""
OF_STARTED = {"first_poll": _TRUTH, "locks_can_be_lost": _TRUTH, "plans": _Value(list, None, "a list")}
"""Those of the line `started` of a broker, as far as an audit needs them."""
OF_SOLD = {
    "service_number": _GUID,
    "plan_number": _GUID,
    "mode": _one_of("sync", "async", "none"),
    "binding": _one_of("sync", "async", "none"),
    "retrievable": _TRUTH,
    "instances_retrievable": _TRUTH,
}
"""Those of a plan in it."""


def members_of(text: bytes) -> dict[str, Any]:
    """The members of a line. Raises `BadLine`."""
    try:
        found = json.loads(text.decode())
        if isinstance(found, dict):
            return found
        error: object = "it is none"
    except (ValueError, RecursionError) as raised:
        error = raised
    raise BadLine(f"it is no object of JSON with the members of a line: {error}")


def check(members: Mapping[str, Any], known: Mapping[str, _Value], of: str) -> None:
    """Raises `BadLine` if one of the members that are known has another type or value than it has to have."""
    for name, value in members.items():
        wanted = known.get(name)
        if wanted is not None and (
            value.__class__ is not wanted.type or wanted.values is not None and value not in wanted.values
        ):
            given = json.dumps(value)
            given = given if len(given) <= _LONGEST else f"{given[:_LONGEST]}.."
            raise BadLine(f"{name} of {of} has to be {wanted.said}, and is {given}")


def read(position: Position, text: bytes) -> Line:
    """Reads a line that names an instance. Raises `BadLine`."""
    members = members_of(text)
    try:
        side, event = members["side"], members["event"]
        known = MEMBERS[side, event]
    except (KeyError, TypeError) as error:  # HEAD has found others, so there are two of one of them
        raise BadLine("it has a member twice") from error
    check(members, known, f"{event} of a {side}")
    needed = NEEDED[side, event]
    if event == "work" and members.get("call") in ("look", "look-update") and members.get("result") == "done":
        needed += ("found",)
    elif (side, event) == ("platform", "answered") and "lost" not in members:
        needed += ("status",)
    for name in needed:
        if name not in members:
            raise BadLine(f"{event} of a {side} has no {name}")
    return Line(position, members)


def plain(text: bytes) -> bytes | None:
    """A line whose members have another order or other spaces, as osb-broker and osb-platform would have written it.
    None if it is no object of JSON with the members that each line has.
    """
    try:
        members = json.loads(text)
    except (ValueError, RecursionError):
        return None
    if not isinstance(members, dict) or any(name not in members for name in _FIRST):
        return None
    first = {name: members[name] for name in (*_FIRST, "instance") if name in members}
    return json.dumps({**first, **members}, separators=(",", ":")).encode()


def is_torn(text: bytes) -> bool:
    """Whether it may be the beginning of a line that was cut off, and is no whole object of JSON. A power cut can leave
    zeros behind that beginning, or alone.
    """
    if not text.strip(b"\0"):
        return True
    if not b"{".startswith(text.lstrip()[:1]):
        return False
    try:
        json.loads(text)
    except (ValueError, RecursionError):
        return True
    return False


def newer(side: bytes, event: bytes) -> bool:
    """Whether this version knows no such event."""
    return event not in OF_INSTANCES[side] and event not in OF_PROCESSES
