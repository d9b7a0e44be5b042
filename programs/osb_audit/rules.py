"""The tables of both sides, as the proved library has them: what a request, an end of work or an answer leaves.

An audit asks the same few questions for each instance, so each is asked of the library once, with ids that stand for
all others.
"""
from __future__ import annotations

import json
from functools import lru_cache
from typing import NamedTuple

from osb.enums import Body, Kind, Mode, Outcome, Phase, State
from osb.errors import OsbError
from osb.holding import Holding
from osb.ids import Id
from osb.messages import Answer, BrokerRow, Request
from osb.record import Record
from osb_audit.lines import GUIDS, MOST

Said = tuple[int, str]
"""An answer: its status, and the name of its body."""
Plan = tuple[str, str]
"""The numbers of a service and of a plan."""
NO_ATTRIBUTES = "0" * 64
"""The digest of no attributes."""

OTHERS = bytes([1] * 32)
"""The digest of other attributes than those of what is held, which stand here as none."""
ID, SERVICE, PLAN, OTHER = Id(0, 1), Id(0, 2), Id(0, 3), Id(0, 4)
KINDS = {str(kind): kind for kind in Kind}
MODES = {"sync": Mode.SYNC, "async": Mode.ASYNC, "none": None}
_PHASES = {str(phase): phase for phase in Phase}
_STATES = {str(state): state for state in State}
_BODIES = {str(body): body for body in Body}
ENDS = {
    "done": Outcome.DONE,
    "before": Outcome.BEFORE,
    "after": Outcome.AFTER,
    "refused-400": Outcome.REFUSED_400,
    "refused-422": Outcome.REFUSED_422,
}
"""How work ends, as the language of schedules has it."""


class NoText(Exception):
    """A text that is none of a record or of a holding."""


# ---- what a broker holds


class Held(NamedTuple):
    """What a broker holds of an instance or of a binding, without ids and attributes."""

    phase: str = "none"
    work: str = "-"
    """The kind of the pending work."""
    accepts: bool = False
    """Whether the request of the pending work accepts an asynchronous operation."""
    tombstone: bool = False

    @property
    def is_held(self) -> bool:
        """Whether there is a row, or work is pending."""
        return self.phase != "none" or self.work != "-"

    @property
    def is_running(self) -> bool:
        """Whether an operation runs."""
        return self.phase in ("making", "deleting")


NOTHING = Held()


class Terms(NamedTuple):
    """What a text of a holding names."""

    plan: Plan | None = None
    """Of the row, or of the pending work if there is no row."""
    attributes: str = NO_ATTRIBUTES
    """The digest of those of the row and of the pending work."""
    work_plan: Plan | None = None
    work_id: str = ""


NO_TERMS = Terms()


@lru_cache(maxsize=1 << 14)
def held_in(text: str) -> tuple[Held, Terms]:
    """What a text of a holding says, and what it names."""
    if not text:
        return NOTHING, NO_TERMS
    try:
        members = json.loads(text)
        row, work = members["row"], members["work"]
        _check(row is None or row["phase"] in _PHASES, work is None or work["kind"] in KINDS)
        held = Held(
            row["phase"] if row else "none",
            work["kind"] if work else "-",
            work["accepts_incomplete"] if work else False,
            members["tombstone"],
        )
        of_row, of_work = (_plan_in(part) if part else None for part in (row, work))
        terms = Terms(of_row or of_work, members["attributes"], of_work, work["id"] if work else "")
        _check(held.accepts.__class__ is held.tombstone.__class__ is bool)
        _check(terms.attributes.__class__ is terms.work_id.__class__ is str)
        return held, terms
    except (ValueError, TypeError, KeyError, RecursionError) as error:
        raise NoText(f"it is no text of a holding: {text}") from error


def _plan_in(part: dict[str, str]) -> Plan:
    """The plan in a text."""
    found = part["service"], part["plan"]
    _check(all(word in GUIDS for word in found))
    return found


def _check(*rules: bool) -> None:
    """Raises `ValueError` unless all is true."""
    if not all(rules):
        raise ValueError


def holding_of(held: Held) -> Holding:
    return Holding(
        BrokerRow(SERVICE, PLAN, _PHASES[held.phase]) if held.phase != "none" else None,
        request_of(held.work, held.accepts, True) if held.work != "-" else None,
        held.tombstone,
    )


def held_of(holding: Holding) -> Held:
    return Held(
        str(holding.row.phase) if holding.row else "none",
        str(holding.work.kind) if holding.work else "-",
        bool(holding.work and holding.work.accepts_incomplete),
        holding.has_tombstone,
    )


def request_of(kind: str, accepts: bool, is_same: bool) -> Request:
    return Request(KINDS[kind], accepts, ID, SERVICE, PLAN if is_same else OTHER)


def said_of(answer: Answer) -> Said:
    return answer.status, str(answer.body)


class Asked(NamedTuple):
    """A request, and how the broker handles it."""

    kind: str
    accepts: bool
    mode: str
    first_poll: bool
    is_same: bool = True
    """Whether it names the plan of the row or of the pending work, if there is one."""
    is_alike: bool = True
    """Whether it has the attributes of the row or of the pending work, if there is one."""
    is_current: bool = True
    """Of an instance that was updated, whether a creation asks for the settings that it has. Of a binding, whether its
    instance has its plan, and no update is under way.
    """
    row_mode: str = "none"
    """Of an instance that was updated, how its first plan creates instances."""
    is_updated: bool = False
    """Whether it is about an instance of which an Update was judged."""


@lru_cache(maxsize=1 << 14)
def begun(held: Held, asked: Asked, is_bound: bool, instance: Held | None) -> tuple[Held, Said | None]:
    """What is held after a request, and the answer, or None if its work is pending then.

    `instance` is what is held of the instance of a binding, and None of an instance. `is_bound` is whether one of the
    bindings of an instance is held.
    """
    holding, mode, rule = holding_of(held), MODES[asked.mode], asked.first_poll
    request, attributes = request_of(asked.kind, asked.accepts, asked.is_same), bytes(32) if asked.is_alike else OTHERS
    try:
        if instance is not None:
            others = holding_of(instance)
            after, answer = holding.begin_binding(others, mode, request, first_poll=rule, attributes=attributes)
        else:
            free = not is_bound
            after, answer = holding.begin_if(mode, request, may_begin=free, first_poll=rule, attributes=attributes)
    except OsbError:
        return held, None
    return held_of(after), said_of(answer) if isinstance(answer, Answer) else None


@lru_cache(maxsize=1 << 10)
def fetched(held: Held) -> Said:
    """The answer to a Fetch of a binding."""
    return said_of(holding_of(held).fetch())


@lru_cache(maxsize=1 << 12)
def ended(held: Held, mode: str, how: str) -> tuple[Held, Said] | None:
    """What an end of the pending work leaves, with the answer. None if no work is pending, or none that can end so."""
    try:
        left, answer = holding_of(held).end(MODES[mode], ENDS[how])
    except OsbError:
        return None
    return held_of(left), said_of(answer)


@lru_cache(maxsize=1 << 10)
def finished(held: Held, how: str) -> Held | None:
    """What the end of an operation leaves, `ok` or `fail`. None if no operation runs."""
    try:
        return held_of(holding_of(held).finish(how == "ok"))
    except OsbError:
        return None


_LEFT = {
    ("provision", "done"): "whole",
    ("making", "ok"): "whole",
    ("deprovision", "done"): "absent",
    ("deleting", "ok"): "absent",
    ("deprovision", "before"): "whole",
    ("deleting", "fail"): "whole",
    ("provision", "before"): "absent",
    ("provision", "refused-400"): "absent",
    ("provision", "refused-422"): "absent",
    ("making", "fail"): "absent",
}


def left(what: str, how: str) -> str | None:
    """The resource that an end leaves: of pending work of this kind, or of an operation in this phase. None if the
    end doesn't say.
    """
    return _LEFT.get((what, "done" if how == "after" else how))


# ---- what a platform records


class Recorded(NamedTuple):
    """What a platform records of an instance or of a binding, without ids."""

    state: str = "none"
    out: str = "-"
    attempt: int = 0

    @property
    def columns(self) -> tuple[str, str, str]:
        """As a trace has it."""
        return self.state, self.out, "-" if self.state == "none" else str(self.attempt)


UNKNOWN = Recorded()
"""Of an instance that isn't recorded."""


@lru_cache(maxsize=1 << 14)
def recorded_in(text: str) -> tuple[Recorded, Plan | None]:
    """What a text of a record says, and its plan."""
    if not text:
        return UNKNOWN, None
    try:
        members = json.loads(text)
        state, out, attempt = members["state"], members["out"], members["attempt"]
        _check(state in _STATES, out is None or out in KINDS)
        _check(attempt.__class__ is int and 0 <= attempt <= MOST)
        return Recorded(state, out or "-", attempt), _plan_in(members)
    except (ValueError, TypeError, KeyError, RecursionError) as error:
        raise NoText(f"it is no text of a record: {text}") from error


def _record(recorded: Recorded) -> Record:
    out = None if recorded.out == "-" else KINDS[recorded.out]
    return Record(SERVICE, PLAN, recorded.attempt, _STATES[recorded.state], out)


def _recorded(record: Record) -> Recorded:
    return Recorded(str(record.state), "-" if record.out is None else str(record.out), record.attempt)


STEPS = ("timeout", "expire", "retry", "remove", "send")


@lru_cache(maxsize=1 << 12)
def stepped(recorded: Recorded, event: str) -> Recorded | None:
    """The record after an event of the platform itself, or None if the event doesn't apply."""
    if event == "create":
        return Recorded("wanted", "provision", 1) if recorded == UNKNOWN else None
    if recorded == UNKNOWN or event not in STEPS:
        return None
    record = _record(recorded)
    try:
        if event == "send":
            return _recorded(record.send(ID)[0])
        if event == "timeout":
            return _recorded(record.timeout(recorded.attempt))
        return _recorded(getattr(record, event)())
    except OsbError:
        return None


@lru_cache(maxsize=1 << 12)
def steps(before: Recorded, after: Recorded) -> tuple[str, ...] | None:
    """The shortest list of events of the platform itself that leads from one record to the other; None if none does."""
    if before == after:
        return ()
    if before == UNKNOWN:
        return ("create",) if stepped(before, "create") == after else None
    seen: dict[Recorded, tuple[str, ...]] = {before: ()}
    todo = [before]
    while todo:
        here = todo.pop(0)
        for event in STEPS if len(seen[here]) < len(STEPS) else ():
            there = stepped(here, event)
            if there is not None and there not in seen:
                seen[there] = (*seen[here], event)
                todo.append(there)
    return seen.get(after)


@lru_cache(maxsize=1 << 12)
def taken(recorded: Recorded, said: Said, is_binding: bool, is_retrievable: bool) -> Recorded | None:
    """The record after the answer to the request that is out, or None if none is out."""
    answer = Answer(said[0], _BODIES[said[1]])
    try:
        record = _record(recorded)
        if is_binding:
            return _recorded(record.answer_binding(recorded.attempt, answer, retrievable=is_retrievable))
        return _recorded(record.answer(recorded.attempt, answer))
    except OsbError:
        return None
