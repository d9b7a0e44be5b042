"""The life of the instance itself, between both sides: as a change of its settings meets it.

The tables are those of network.model. Every request accepts an asynchronous operation. Of the Polls that were answered
or timed out, only those count that may begin something.
"""

from __future__ import annotations

from collections.abc import Iterator
from typing import NamedTuple

from binding.model import begins
from network import model
from network.model import BUSY, Answer, Held, Request, error, state_after

GATEWAY = tuple(Answer(status, "malformed") for status in (500, 502, 599))
OUTCOMES = ("done", "before", "after", "refused 400")


class Plan(NamedTuple):
    """How the plan of the instance works, and whether the first Poll begins it."""

    mode: str
    first_poll: bool = False

    def told(self) -> str:
        return f"plan {self.mode}{', first Poll' if self.first_poll else ''}"


PLANS = (Plan("sync"), Plan("async"), Plan("async", True))


class Life(NamedTuple):
    """What is recorded, the request in flight and those before it, its answers, what is held, and the resource."""

    state: str | None = None
    out: Request | None = None
    old: frozenset[Request] = frozenset()
    answers: frozenset[Answer] = frozenset()
    held: Held = Held()
    # Whether the pending work is that of the request in flight.
    mine: bool = False
    resource: str = "absent"

    @property
    def phase(self) -> str | None:
        return self.held.row.phase if self.held.row else None

    def agrees(self) -> bool:
        if self.state == "ready":
            return self.phase == "ready" and self.held.work is None and self.resource == "whole"
        if self.state in (None, "gone"):
            return self.held.row is None and self.held.work is None and self.resource == "absent"
        return True

    def answered(self, answer: Answer | None, mine: bool) -> Life:
        return self._replace(answers=self.answers | {answer}) if answer and mine else self


Steps = Iterator[tuple[str, Life]]


def arrived(plan: Plan, life: Life, request: Request, mine: bool, may_delete: bool) -> Life:
    """The life after a request of it has come to the broker. Without `may_delete` no deletion begins."""
    if request.kind == "deprovision" and not may_delete and begins(plan.mode, life.held, request):
        return life.answered(BUSY[request.kind], mine)
    held, answer = model.begin(plan.mode, plan.first_poll, life.held, request)
    return life._replace(held=held, mine=mine if answer is None else life.mine).answered(answer, mine)


def rests(plan: Plan, life: Life, state: str) -> Life:
    """The request in flight was answered or timed out."""
    kept = {life.out} if life.out and (life.out.kind != "poll" or plan.first_poll) else set()
    return life._replace(state=state, out=None, old=life.old | kept, answers=frozenset(), mine=False)


def of_work(plan: Plan, life: Life) -> Steps:
    """What pending work does, and how it ends."""
    work = life.held.work
    assert work is not None
    for to in ("part", "whole" if work.kind == "provision" else "absent"):
        yield f"work: {to}", life._replace(resource=to)
    for outcome in OUTCOMES:
        ended = model.end(plan.mode, life.held, outcome)
        if ended and model.can_have_ended(plan.mode, life.held, outcome, life.resource):
            held, answer = ended
            yield f"end {outcome}", life._replace(held=held, mine=False).answered(answer, life.mine)
    if life.mine:
        yield "end unknown", life._replace(mine=False).answered(error(500), True)
        yield "broker crash", life._replace(mine=False)


def of_operation(life: Life) -> Steps:
    """What an operation does, and how it ends; and the end of waiting."""
    made = model.is_made(life.held)
    if made is not None:
        for to in ("absent", "part", "whole") if made else ("part", "absent"):
            yield f"work: {to}", life._replace(resource=to)
    for ok in (True, False):
        held = model.finish(life.held, ok)
        if held and (not ok or life.resource == ("whole" if made else "absent")):
            yield f"finish {'ok' if ok else 'failed'}", life._replace(held=held)
    waited = model.give_up_waiting(life.held)
    if waited:
        yield "give up waiting", life._replace(held=waited)


def of_platform(plan: Plan, life: Life, may_remove: bool) -> Steps:
    state, out = life.state, life.out
    if state is None:
        yield "create", life._replace(state="wanted", out=Request("provision", True))
        return
    if out is None:
        if state in ("polling", "unsettled") or state == "ready" and may_remove:
            yield "remove", life._replace(state="cleaning")
        if state in ("polling", "cleaning-polling"):
            yield "expire or retry", life._replace(state="cleaning")
        if state in model.DUE:
            yield f"send {model.DUE[state]}", life._replace(out=Request(model.DUE[state], True))
        return
    yield "timeout", rests(plan, life, "cleaning" if state == "wanted" else state)
    garbled = {Answer(answer.status, "malformed") for answer in life.answers}
    for answer in life.answers | garbled | set(GATEWAY):
        yield f"take {answer}", rests(plan, life, state_after(state, out.kind, answer))


def steps(plan: Plan, life: Life, may_delete: bool, may_remove: bool) -> Steps:
    """Everything that can happen to the life. The change says whether a deletion may begin, and be asked for."""
    yield from of_platform(plan, life, may_remove)
    if life.out:
        yield f"{life.out.kind} arrives", arrived(plan, life, life.out, True, may_delete)
    for request in life.old:
        yield f"late {request.kind} arrives", arrived(plan, life, request, False, may_delete)
    yield from of_work(plan, life) if life.held.work else of_operation(life)
