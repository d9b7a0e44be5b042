"""The model with the tables of libosb in the place of its own: a record and a holding decide, as in a shipped program.

What is sent and given, and what the network and the work do, is the model's.
"""

from __future__ import annotations

from typing import Callable

import osb
from network.model import Answer, Held, Instance, Request, Row, can_have_ended, is_made

ONE, SERVICE, PLAN = osb.Id(0, 1), osb.Id(0, 2), osb.Id(0, 3)
ATTRIBUTES = bytes(range(32))
MODES = {"sync": osb.Mode.SYNC, "async": osb.Mode.ASYNC, "-": None}
KINDS = {str(kind): kind for kind in osb.Kind}
BODIES = {"error" if body is osb.Body.OTHER_ERROR else str(body): body for body in osb.Body} | {
    "AsyncRequired": osb.Body.ASYNC_REQUIRED,
    "ConcurrencyError": osb.Body.CONCURRENCY_ERROR,
}
WORDS = {body: word for word, body in BODIES.items()}
# The statuses by which a record or a holding says that an event doesn't apply.
SKIPPED = {
    osb.Status.BUSY,
    osb.Status.NOTHING_DUE,
    osb.Status.NOT_IN_FLIGHT,
    osb.Status.NOT_POLLING,
    osb.Status.NOT_REMOVABLE,
    osb.Status.NOTHING_BEGUN,
    osb.Status.NOTHING_RUNNING,
    osb.Status.NOT_A_PROVISION,
    osb.Status.NOT_WAITING,
}


def is_done(call: Callable[..., None], *given: object) -> bool:
    """Does the call with what is given, and returns whether it applied."""
    try:
        call(*given)
    except osb.OsbError as error:
        if error.status not in SKIPPED:
            raise
        return False
    return True


class LibraryInstance(Instance):
    """An instance of which libosb has the record and the holding."""

    def __init__(self, mode: str, accepts: bool, first_poll: bool) -> None:
        super().__init__(mode, accepts, first_poll)
        self.record: osb.Record | None = None
        self.holding = osb.Holding.NONE

    # ---- the platform's events

    def note(self, record: osb.Record) -> None:
        self.record = record
        self.state, self.attempt = str(record.state), record.attempt
        self.out = None if record.out is None else str(record.out)

    def apply(self, change: Callable[[osb.Record], osb.Record]) -> bool:
        """Whether there is a record, and the change applies to it."""
        return self.record is not None and is_done(lambda it: self.note(change(it)), self.record)

    def created(self) -> None:
        record, request = osb.Record.create(ONE, SERVICE, PLAN, self.accepts)
        self.note(record)
        self.sent.append(Request(str(request.kind), request.accepts_incomplete))

    def create(self, _: str) -> bool:
        if self.record is not None:
            return False
        self.created()
        return True

    def send(self, _: str) -> bool:
        def sent(record: osb.Record) -> osb.Record:
            after, request = record.send(ONE)
            self.sent.append(Request(str(request.kind), request.accepts_incomplete))
            return after

        return self.apply(sent)

    def expire(self, _: str) -> bool:
        return self.apply(lambda record: record.expire())

    def retry(self, _: str) -> bool:
        return self.apply(lambda record: record.retry())

    def remove(self, _: str) -> bool:
        return self.apply(lambda record: record.remove())

    def timeout(self, _: str) -> bool:
        return self.apply(lambda record: record.timeout(record.attempt))

    def answered(self, answer: Answer) -> bool:
        taken = osb.Answer(answer.status, BODIES[answer.body])
        return self.apply(lambda record: record.answer(record.attempt, taken))

    # ---- the broker's events

    def hold(self, holding: osb.Holding) -> None:
        assert holding.fits(MODES[self.mode])
        assert holding.attributes == (ATTRIBUTES if holding.row or holding.work else osb.NO_ATTRIBUTES)
        row, work = holding.row, holding.work
        self.holding = holding
        self.held = Held(
            None if row is None else Row(0, str(row.phase)),
            None if work is None else Request(str(work.kind), work.accepts_incomplete),
            holding.has_tombstone,
            1 if row or work else 0,
        )

    def begin(self, request: Request) -> Answer | None:
        asked = osb.Request(KINDS[request.kind], request.accepts, ONE, SERVICE, PLAN)
        holding, due = self.holding.begin(MODES[self.mode], asked, first_poll=self.first_poll, attributes=ATTRIBUTES)
        self.hold(holding)
        return Answer(due.status, WORDS[due.body]) if isinstance(due, osb.Answer) else None

    def end(self, outcome: str) -> bool:
        if not can_have_ended(self.mode, self.held, outcome, self.resource):
            return False

        def ended() -> None:
            how = osb.Outcome[outcome.upper().replace(" ", "_")]
            holding, answer = self.holding.end(MODES[self.mode], how)
            self.hold(holding)
            self.answer_request(Answer(answer.status, WORDS[answer.body]))

        return is_done(ended)

    def change(self, change: Callable[[osb.Holding], osb.Holding]) -> bool:
        """Whether the change applies to the holding."""
        return is_done(lambda: self.hold(change(self.holding)))

    def finish(self, how: str) -> bool:
        if how == "ok" and self.resource != {True: "whole", False: "absent", None: "-"}[is_made(self.held)]:
            return False
        return self.change(lambda holding: holding.finish(how == "ok"))

    def give_up_waiting(self, _: str) -> bool:
        return self.change(lambda holding: holding.give_up_waiting())


def tell(lines: list[str]) -> list[str]:
    """What there is after each line of a walk, by the record and the holding of libosb."""
    told: list[str] = []
    instance = LibraryInstance("-", False, False)
    for line in lines:
        word, _, rest = line.partition(" ")
        if word == "order":
            mode, accepts, first = rest.split(" ")
            instance = LibraryInstance(mode, accepts == "accepts", first == "first-poll")
            told.append(f"new: {instance.told(0)}")
            continue
        before = len(instance.given)
        if word == "settle":
            instance.settle()
            what = "settled"
        else:
            what = "applied" if instance.happen(line) else "skipped"
        told.append(f"{what}: {instance.told(before)}")
    return told
