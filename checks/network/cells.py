"""Steps everything that can come about of one instance: with this project's platform, and with any platform at all.

The tables and the broker are those of network.model. A part of the design can be left out; then some cell is wrong.
"""

from __future__ import annotations

from collections import deque
from collections.abc import Callable, Iterable, Iterator
from typing import NamedTuple, TypeVar

from network import model
from network.model import Answer, Held, Request, error

# What a gateway answers in the place of the broker.
GATEWAY = [Answer(status, "malformed") for status in (500, 502, 599)]


class Design(NamedTuple):
    """The modes of the two plans, the rule of the first Poll, and the parts that are left out."""

    modes: tuple[str, str]
    first_poll: bool
    without: frozenset[str] = frozenset()

    def has(self, part: str) -> bool:
        return part not in self.without

    def arrive(self, held: Held, request: Request) -> tuple[Held, Answer | None]:
        """What is held after a request, and the answer, or None if its work begins."""
        mode = self.modes[request.plan]
        if not self.has("tombstones"):
            held = held._replace(tombstone=False)
        if not self.has("busy") and held.work is not None and not model.is_due(mode, held.row, request):
            row = held.row and held.row._replace(phase=held.row.phase.replace("waiting", "making"))
            return held, model.handled(mode, row, request, "done").answer
        return model.begin(mode, self.first_poll and self.has("first poll"), held, request)

    def ends(self, held: Held, resource: str) -> Iterator[tuple[str, Held, Answer | None]]:
        """How the pending work or the operation may end, if it is reported truly."""
        if held.work is not None:
            mode = self.modes[held.work.plan]
            if not self.has("pending work"):
                yield "the work is forgotten", held._replace(work=None), None
            for outcome in model.OUTCOMES:
                ended = model.end(mode, held, outcome)
                if (
                    ended
                    and model.can_have_ended(mode, held, outcome, resource)
                    and self.is_true(held, outcome, resource)
                ):
                    after, answer = ended
                    if not self.has("tombstone of a refusal") and outcome.startswith("refused"):
                        after = Held()
                    yield f"end {outcome}", after, answer
            return
        for ok in (True, False):
            finished = model.finish(held, ok)
            whole = {True: "whole", False: "absent", None: "-"}[model.is_made(held)]
            if finished is not None and (not ok or resource == whole):
                yield f"finish {'ok' if ok else 'failed'}", finished, None
        waited = model.give_up_waiting(held)
        if waited is not None:
            yield "give-up-waiting", waited, None

    def is_true(self, held: Held, outcome: str, resource: str) -> bool:
        """Whether a deletion that changed nothing may be reported: of a whole resource, or if the row wasn't ready."""
        if held.work is None or held.work.kind != "deprovision" or outcome != "before" or not self.has("true before"):
            return True
        return resource == "whole" or held.row is not None and held.row.phase != "ready"

    def changes(self, held: Held, resource: str) -> Iterator[str]:
        """What may become of the resource while something goes on. A deletion creates nothing."""
        made = model.is_made(held)
        if made is None:
            return
        for to in model.RESOURCES if made else ("absent", "part"):
            if made or to == "absent" or resource != "absent" or not self.has("deletions delete"):
                yield to


# ---- this project's platform


class Ours(NamedTuple):
    """What is recorded, the request in flight and those before it, its answers, what is held, and the resource."""

    state: str | None = None
    out: Request | None = None
    old: frozenset[Request] = frozenset()
    answers: frozenset[Answer] = frozenset()
    held: Held = Held()
    # Whether the pending work is that of the request in flight.
    waits: bool = False
    resource: str = "absent"

    def without_out(self, state: str | None) -> Ours:
        """The request in flight was answered or timed out."""
        old = self.old | {self.out} if self.out else self.old
        return self._replace(state=state, out=None, old=old, answers=frozenset(), waits=False)


def of_platform(cell: Ours) -> Iterator[tuple[str, Ours]]:
    """The platform's own events, and what it takes."""
    state, out = cell.state, cell.out
    if state is None:
        for accepts in (True, False):
            yield "create", cell._replace(state="wanted", out=Request("provision", accepts))
    if out is None and state in model.DUE:
        yield "send", cell._replace(out=Request(model.DUE[state], True))
    if out is None and state in ("polling", "cleaning-polling", "ready", "unsettled"):
        yield "expire, retry or remove", cell._replace(state="cleaning")
    if out is None or state is None:
        return
    yield "timeout", cell.without_out("cleaning" if state == "wanted" else state)
    garbled = {Answer(sound.status, "malformed") for sound in cell.answers}
    for answer in cell.answers | garbled | set(GATEWAY):
        yield f"take {answer}", cell.without_out(model.state_after(state, out.kind, answer))


def of_broker(design: Design, cell: Ours) -> Iterator[tuple[str, Ours]]:
    """Requests that arrive, for the first time or again, and what becomes of the work."""
    for request in cell.old | ({cell.out} if cell.out else set()):
        held, answer = design.arrive(cell.held, request)
        is_out = request == cell.out
        answers = cell.answers | {answer} if answer and is_out else cell.answers
        waits = is_out if answer is None else cell.waits
        yield f"arrive {request}", cell._replace(held=held, answers=answers, waits=waits)
        if is_out and request in cell.old:
            yield f"late {request}", cell._replace(held=held, waits=cell.waits and answer is not None)
        if is_out:
            yield f"put off {request}", cell._replace(answers=cell.answers | {model.BUSY[request.kind]})
    for name, held, answer in design.ends(cell.held, cell.resource):
        answers = cell.answers | {answer} if answer and cell.waits else cell.answers
        yield name, cell._replace(held=held, answers=answers, waits=False)
    if cell.waits:
        yield "end unknown", cell._replace(answers=cell.answers | {error(500)}, waits=False)
        yield "crash", cell._replace(waits=False)
    for to in design.changes(cell.held, cell.resource):
        yield f"work {to}", cell._replace(resource=to)


def steps_of_ours(design: Design, cell: Ours) -> Iterator[tuple[str, Ours]]:
    yield from of_platform(cell)
    yield from of_broker(design, cell)


def wrong_in_ours(_: Design, cell: Ours) -> str | None:
    if cell.state == "ready" and (cell.held.row != (0, "ready") or cell.held.work or cell.resource != "whole"):
        return "recorded as ready, and it doesn't exist"
    if cell.state in (None, "gone") and (cell.held.row or cell.held.work or cell.resource != "absent"):
        return "recorded as gone or not at all, and something exists"
    return None


def rounds(design: Design, cell: Ours) -> int:
    """How many rounds without a fault it takes until nothing is due."""

    def take(cell: Ours, name: str) -> Ours:
        found = [after for event, after in steps_of_ours(design, cell) if event.startswith(name)]
        return found[0] if found else cell

    def go_well(cell: Ours, end: str) -> Ours:
        made = model.is_made(cell.held)
        if made is not None:
            cell = cell._replace(resource="whole" if made else "absent")
        return take(cell, end)

    for number in range(9):
        if cell.state in (None, "ready", "gone", "unsettled"):
            return number
        cell = go_well(go_well(take(cell, "timeout"), "end done"), "finish ok")
        cell = take(cell, "send")
        cell = go_well(take(cell, f"arrive {cell.out}"), "end done")
        if cell.out and len(cell.answers) == 1:
            cell = take(cell, f"take {next(iter(cell.answers))}")
    return 9


# ---- any platform


class Any(NamedTuple):
    """What the broker reported of the instance, what it holds, and the resource."""

    ready: bool = False
    gone: bool = False
    # Whether a Deprovision was accepted.
    leaving: bool = False
    polled: bool = False
    held: Held = Held()
    resource: str = "absent"

    def heard(self, kind: str) -> Any:
        """A request of the kind has arrived."""
        return self._replace(ready=self.ready and kind != "deprovision", polled=self.polled or kind == "poll")

    def told(self, kind: str, answer: Answer) -> Any:
        """The broker has answered a request of the kind, and the answer may be believed."""
        status = answer.status
        ready = kind == "provision" and status in (200, 201)
        ready = ready or kind == "poll" and answer == (200, "succeeded") and not self.leaving
        gone = kind == "deprovision" and status in (200, 410) or kind == "poll" and self.leaving and status == 410
        return self._replace(
            ready=(self.ready or ready) and not gone,
            gone=self.gone or gone,
            leaving=self.leaving or kind == "deprovision" and status == 202,
        )


KINDS = ("provision", "poll", "deprovision")
REQUESTS = [
    Request(kind, accepts, plan, attempt)
    for kind in KINDS
    for accepts in (True, False)
    for plan, attempt in ((0, 1), (0, 2), (1, 1))
]


def arrived(design: Design, cell: Any, request: Request) -> Any:
    held, answer = design.arrive(cell.held, request)
    after = cell._replace(held=held).heard(request.kind)
    return after.told(request.kind, answer) if answer else after


def put_off(cell: Any, kind: str) -> Any:
    return cell.heard(kind).told(kind, model.BUSY[kind])


def ended(cell: Any, held: Held, answer: Answer | None) -> Any:
    after = cell._replace(held=held)
    return after.told(cell.held.work.kind, answer) if answer and cell.held.work else after


def steps_of_any(design: Design, cell: Any) -> Iterator[tuple[str, Any]]:
    for request in REQUESTS:
        yield f"arrive {request}", arrived(design, cell, request)
    for kind in KINDS:
        yield f"put off {kind}", put_off(cell, kind)
    for name, held, answer in design.ends(cell.held, cell.resource):
        yield name, ended(cell, held, answer)
    for to in design.changes(cell.held, cell.resource):
        yield f"work {to}", cell._replace(resource=to)


def wrong_in_any(design: Design, cell: Any) -> str | None:
    if cell.ready and cell.resource != "whole":
        return "reported ready, no Deprovision since, and it isn't whole"
    if cell.gone and (cell.held.row or cell.held.work or cell.resource != "absent"):
        return "reported gone, and something exists"
    if design.first_poll and set(design.modes) == {"async"} and cell.resource != "absent" and not cell.polled:
        return "something exists, and nobody has polled"
    return None


# ---- everything that can come about


Cell = TypeVar("Cell")


def explore(
    start: Cell, steps: Callable[[Cell], Iterable[tuple[str, Cell]]], wrong: Callable[[Cell], str | None]
) -> tuple[list[Cell], str | None]:
    """Steps every cell that can come about, or stops at the first wrong one. Returns the cells, and the shortest way to
    the wrong one.
    """
    came: dict[Cell, tuple[Cell, str] | None] = {start: None}
    todo = deque([start])
    while todo:
        cell = todo.popleft()
        why = wrong(cell)
        if why is not None:
            way = [f"{why}: {cell}"]
            at = came[cell]
            while at is not None:
                way.append(f"{at[1]}, after {at[0]}")
                at = came[at[0]]
            return list(came), "\n".join(reversed(way))
        for event, after in steps(cell):
            if after not in came:
                came[after] = (cell, event)
                todo.append(after)
    return list(came), None
