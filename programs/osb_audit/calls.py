"""What the calls of the backend show of the resource.

A call has its effect, or finds what it finds, at some moment between its lines `begun` and `ended`. A broker may be
paused between that moment and the line `ended`, and may lose its lock meanwhile: others go on, and end the work. So the
line `ended` may be older than the lines before it. If the resource was as the line says at any moment since the call
has begun, the line counts as seen then, and changes nothing. Otherwise the resource is so now.
"""
from __future__ import annotations

from dataclasses import dataclass, field
from typing import Iterator, NamedTuple, Optional

from osb_audit.events import RESOURCE
from osb_audit.lines import Line
from osb_audit.lives import Life, VisitName
from osb_audit.walk import Known, differs

Worker = tuple[str, Optional[VisitName], str]
"""Who works: a process, the visit that it works for, if there is one, and the life."""
_ENDS = {"create": "whole", "delete": "absent"}
"""The calls that change the resource, and what they leave."""
OF_UPDATES = "look-update", "update"
"""Those that leave it whole, and are judged with the updates (updates.py)."""


TOGETHER = "two workers are at work at once, and the locks of the broker can't be lost"


class Seen(NamedTuple):
    """A resource, and the number of its credentials."""

    resource: str
    credentials: int = 0


@dataclass
class _Call:
    """A call that has begun and hasn't ended."""

    begun: Line
    number: int
    """Of the line, among those of calls."""
    is_idle: bool
    """Whether it has begun while no work was pending and no operation ran."""
    before: Seen
    since: list[Seen] = field(default_factory=list)
    """What the resource was since the call has begun."""
    perhaps: list[Seen] = field(default_factory=list)
    """What the resource may have been when the call began, if another call went on."""
    is_over: bool = False
    """Whether the work has ended that it is for."""

    @property
    def name(self) -> str:
        """The call."""
        return str(self.begun.of["call"])

    def has_found(self, found: Seen, is_idle: bool) -> bool:
        """Whether the resource was so since the call has begun. While no work is pending, it can't have become so now,
        and may have been so then.
        """
        numbers = (found.credentials, 0) if self.name == "credentials" else None
        were = [*self.since, *self.perhaps] if is_idle else self.since
        return any(seen.resource == found.resource and (not numbers or seen.credentials in numbers) for seen in were)


@dataclass
class _Run:
    """What a worker does for one piece of work."""

    looked: int = 0
    """How often the resource had changed when the last look began."""
    found: Seen | None = None
    """What the last look found, if no other call has followed."""
    ended: int = 0
    """The number of the line with which that look ended."""


class _Change(NamedTuple):
    """A change of the resource: who has made it, and the number of the line since which it may have been so. There is
    none if the call has only begun: it may have changed nothing yet.
    """

    worker: Worker
    since: int | None


def worker_of(line: Line) -> Worker:
    """Who has written a line."""
    return line.process, line.visit, line.key


class Calls:
    """Goes through the calls of the backend."""

    def __init__(self, known: Known) -> None:
        self.known = known
        self.open: dict[tuple[Worker, str], _Call] = {}
        self.runs: dict[Worker, _Run] = {}
        """Of each worker that has begun while work was pending or an operation ran, and hasn't ended it."""
        self.changes: dict[str, list[_Change]] = {}
        """Of the resource of each life."""
        self.number = 0
        """Of the line that is gone through."""
        self.ends: dict[int, int] = {}
        """The time at which each call ends that has begun with a line, by what names the line."""
        if not known.settings.locks_can_be_lost:
            self._find_ends()

    def _find_ends(self) -> None:
        begun: dict[tuple[Worker, str], Line] = {}
        for line in self.known.lines:
            if (line.side, line.event) == ("broker", "work"):
                call = worker_of(line), line.of["call"]
                if line.of["stage"] == "begun":
                    begun[call] = line
                elif call in begun:
                    self.ends[id(begun.pop(call))] = line.time

    def step(self, line: Line) -> None:
        """Goes through a line `work`."""
        life = self.known.life(line.key)
        self.number += 1
        if line.of["stage"] == "begun":
            self._begin(line, life)
        else:
            self._end(line, life, self.open.pop((worker_of(line), line.of["call"]), None))

    # ---- a call

    def _begin(self, line: Line, life: Life) -> None:
        now, is_idle = Seen(life.resource, life.credentials), _is_idle(life)
        call = _Call(line, self.number, is_idle, now)
        if call.name not in _ENDS:
            call.since, call.perhaps = [now], list(self._perhaps(life))
        worker = worker_of(line)
        self._check_alone(line, worker)
        self.open[worker, call.name] = call
        if call.name in OF_UPDATES:
            return
        run = self.runs.get(worker) or _Run()
        if not is_idle:
            self.runs[worker] = run
        if call.name == "look":
            run.looked = len(self.changes.get(life.key, ()))
        elif call.name in _ENDS:
            run.found = None
            if not is_idle:
                if life.resource != "part":
                    life.known = life.credentials
                self._become(line, life, Seen("part"))

    def _check_alone(self, line: Line, worker: Worker) -> None:
        """No call begins while one of another worker goes on. The line with which that one ends shows that its process
        wasn't killed meanwhile, and so had the lock.
        """
        for (other, name), call in self.open.items():
            end = self.ends.get(id(call.begun), 0)
            if other != worker and other[2] == worker[2] and call.begun.time < line.time < end:
                raise differs(
                    line, TOGETHER, f"{name} of {other[0]} goes on", f"{line.of['call']} of {worker[0]} begins"
                )

    def _perhaps(self, life: Life) -> Iterator[Seen]:
        """What the resource may be besides: a call that goes on may have changed nothing yet, or all."""
        for call in self.open.values():
            if call.begun.key == life.key and call.name in _ENDS and not call.is_over:
                yield call.before
                yield Seen(_ENDS[call.name])

    def _end(self, line: Line, life: Life, call: _Call | None) -> None:
        if line.of.get("result") != "done" or line.of["call"] in OF_UPDATES:
            return  # the next look finds what is left
        now, found = Seen(life.resource, life.credentials), _found(line, life, call)
        run = self.runs.get(worker_of(line))
        is_new = now == Seen("whole") and found.resource == "whole"  # its credentials weren't known
        is_known = found == now or call is not None and not is_new and call.has_found(found, _is_idle(life))
        if run is not None and line.of["call"] == "look":
            run.found, run.ended = found, self.number
        if call is not None and call.is_idle and call.name in _ENDS and not (is_known and run is not None):
            self._become(call.begun, life, Seen("part"))
            is_known = False
        if not is_known:
            self._become(line, life, found, call.number if call is not None else self.number)

    def _become(self, line: Line, life: Life, now: Seen, since: int | None = None) -> None:
        words = f"issue {now.credentials}" if now.credentials else f"work {now.resource}"
        self.known.emit(line, life, words, (RESOURCE, now.resource))
        life.resource, life.credentials = now
        self.changes.setdefault(life.key, []).append(_Change(worker_of(line), since))
        for call in self.open.values():
            if call.begun.key == life.key:
                call.since.append(now)

    # ---- a change of the row

    def flush(self, line: Line, life: Life) -> None:
        """A worker changes a row while a call of its own goes on, for which no work was pending: the call counts."""
        for (worker, name), call in self.open.items():
            if worker == worker_of(line) and call.is_idle and name in _ENDS:
                self._become(call.begun, life, Seen("part"))
                call.is_idle = False

    def settle(self, line: Line, life: Life, resource: str | None) -> None:
        """Work or an operation ends, which leaves this resource. Whoever ends it has looked before. If calls of other
        workers have only seemed to change the resource since, the look counts.
        """
        run = self.runs.get(worker_of(line))
        if run is None or run.found is None or run.found.resource != resource or resource == life.resource:
            return
        others = [change for change in self.changes.get(life.key, [])[run.looked :] if change.worker != worker_of(line)]
        if others and all(other.since is None or other.since < run.ended for other in others):
            self._become(line, life, run.found)

    def go_on(self, line: Line, life: Life) -> None:
        """A row has changed. If that has ended work or an operation, its worker has ended its own."""
        self.runs.pop(worker_of(line), None)
        if _is_idle(life):
            for call in self.open.values():
                call.is_over = call.is_over or call.begun.key == life.key


def _is_idle(life: Life) -> bool:
    """Whether no work is pending and no operation runs."""
    return life.held.work == "-" and not life.held.is_running


def _found(line: Line, life: Life, begun: _Call | None) -> Seen:
    """What a call that is done says of the resource."""
    call = line.of["call"]
    if call != "look":
        return Seen(_ENDS.get(call, "whole"), life.number_of(line.of.get("credentials", "")))
    since = begun.since if begun is not None else []
    for seen in (Seen(life.resource, life.credentials), *reversed(since)):
        if seen.resource == line.of["found"]:
            return seen
    return Seen(line.of["found"], life.known if line.of["found"] == "whole" else 0)
