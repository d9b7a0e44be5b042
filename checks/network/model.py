"""A second model of osb_network: one instance, by docs/broker.md, docs/platform.md and docs/instance.md.

The model has the tables of both sides, the pending work, the tombstones, the rule of the first Poll, the attributes,
the numbers of the requests, and what a network, work and crashes do. No code of the crates is used.
"""

from __future__ import annotations

from dataclasses import dataclass, field
from typing import Callable, NamedTuple

OUTCOMES = ["done", "before", "after", "refused 400", "refused 422"]
# The outcomes that the tables of the broker have.
TABLED = OUTCOMES[:3]
RESOURCES = ["absent", "part", "whole"]
STATES = ["-", "wanted", "polling", "ready", "cleaning", "cleaning-polling", "gone", "unsettled"]
PHASES = ["-", "waiting", "making", "ready", "failed", "deleting", "delete-failed"]
MODES = ["sync", "async", "-"]
# The pending work, by the mode of the plan and the kind of the request.
WORKS = ["sync provision", "sync deprovision", "async provision", "async deprovision"]
SETTLED = {"-", "ready", "gone", "unsettled"}
# The events without a number, and those with one.
PLAIN = [
    "create",
    "send",
    "expire",
    "retry",
    "remove",
    "timeout",
    "give-up-waiting",
    "end-unknown",
    "crash-broker",
    "crash-platform",
    "finish ok",
    "finish failed",
    *(f"end {outcome}" for outcome in OUTCOMES),
    *(f"work {kind}" for kind in RESOURCES),
]
NUMBERED = ["arrive", "put-off", "take", "garbled", "gateway"]
ALWAYS = {"crash-broker", "crash-platform"}
# What the parts of the design are for.
HARMS = [
    "a Provision after the end",
    "a Provision after a refusal",
    "a Provision that nobody polls",
    "a request during the work",
    "a crash during the work",
    "an end that nobody waits for",
    "an older answer while another request is out",
]


class Request(NamedTuple):
    """A request that was sent: its plan and the digest of its attributes are numbers."""

    kind: str
    accepts: bool
    plan: int = 0
    attributes: int = 1


class Answer(NamedTuple):
    """An answer, as its status and the word of its body."""

    status: int
    body: str


class Given(NamedTuple):
    """An answer that was given, and the number of the request that it answers."""

    attempt: int
    answer: Answer


class Row(NamedTuple):
    """The broker's row of an instance."""

    plan: int
    phase: str


class Held(NamedTuple):
    """What a broker holds of an instance. The attributes are those of the row and of the pending work."""

    row: Row | None = None
    work: Request | None = None
    tombstone: bool = False
    attributes: int = 0


class Handled(NamedTuple):
    """What the broker's table gives: the row after it, and the answer."""

    row: Row | None
    answer: Answer


# ---- the platform


def after_provision(answer: Answer) -> str:
    status, body = answer
    if status in (200, 201) and body == "empty":
        return "ready"
    if status == 202 and body == "empty":
        return "polling"
    if status in (200, 408, 409) or status == 422 and body != "AsyncRequired":
        return "unsettled"
    return "gone" if 400 <= status <= 499 else "cleaning"


def after_poll(state: str, answer: Answer) -> str:
    ends, gone = ("ready", state) if state == "polling" else ("gone", "gone")
    if answer == (200, "succeeded"):
        return ends
    if answer == (200, "failed"):
        return "cleaning"
    return gone if answer.status == 410 else state


def after_deprovision(answer: Answer) -> str:
    if answer == (200, "empty") or answer.status == 410:
        return "gone"
    return "cleaning-polling" if answer == (202, "empty") else "cleaning"


def state_after(state: str, kind: str, answer: Answer) -> str:
    if kind == "provision":
        return after_provision(answer)
    return after_poll(state, answer) if kind == "poll" else after_deprovision(answer)


DUE = {"polling": "poll", "cleaning-polling": "poll", "cleaning": "deprovision"}


# ---- the broker's tables, by the mode of the request's plan


def error(status: int, code: str = "error") -> Answer:
    return Answer(status, code)


def ended(outcome: str, before: Row | None, after: Row | None, done: int) -> Handled:
    """The row and the answer once the work has ended so."""
    if outcome == "before":
        return Handled(before, error(500))
    return Handled(after, error(500) if outcome == "after" else Answer(done, "empty"))


REPEATED = {
    "making": Answer(202, "empty"),
    "ready": Answer(200, "empty"),
    "deleting": error(422, "ConcurrencyError"),
    "failed": error(500),
    "delete-failed": error(500),
}


def provision(mode: str, row: Row | None, request: Request, outcome: str) -> Handled:
    if mode == "-":
        return Handled(row, error(400))
    if mode == "async" and not request.accepts:
        return Handled(row, error(422, "AsyncRequired"))
    if row is not None:
        return Handled(row, REPEATED[row.phase] if row.plan == request.plan else error(409))
    if mode == "sync":
        return ended(outcome, None, Row(request.plan, "ready"), 201)
    return ended(outcome, None, Row(request.plan, "making"), 202)


def deprovision(mode: str, row: Row | None, request: Request, outcome: str) -> Handled:
    if row is None:
        return Handled(None, error(410))
    if row.plan != request.plan or mode == "-":
        return Handled(row, error(400))
    if mode == "async" and not request.accepts:
        return Handled(row, error(422, "AsyncRequired"))
    if row.phase == "making":
        return Handled(row, error(422, "ConcurrencyError"))
    if row.phase == "deleting":
        return Handled(row, Answer(202, "empty"))
    if mode == "sync":
        return ended(outcome, row, None, 200)
    return ended(outcome, row, row._replace(phase="deleting"), 202)


LAST_OPERATION = {
    "making": "in-progress",
    "deleting": "in-progress",
    "ready": "succeeded",
    "failed": "failed",
    "delete-failed": "failed",
}


def poll(row: Row | None, request: Request) -> Handled:
    if row is None:
        return Handled(row, error(410))
    return Handled(row, Answer(200, LAST_OPERATION[row.phase]) if row.plan == request.plan else error(400))


def handled(mode: str, row: Row | None, request: Request, outcome: str) -> Handled:
    if request.kind == "poll":
        return poll(row, request)
    table = provision if request.kind == "provision" else deprovision
    return table(mode, row, request, outcome)


def is_due(mode: str, row: Row | None, request: Request) -> bool:
    """Whether the table gives another answer or row by the outcome."""
    return len({handled(mode, row, request, outcome) for outcome in TABLED}) > 1


# ---- what a broker holds, request by request

BUSY = {"provision": error(503), "deprovision": error(422, "ConcurrencyError"), "poll": Answer(200, "in-progress")}


def conflicts(held: Held, request: Request) -> bool:
    """Whether a Provision names the service and plan of the row or of the pending Provision, and other attributes."""
    if request.kind != "provision" or request.attributes == held.attributes:
        return False
    plan = held.row.plan if held.row else held.work.plan if held.work else None
    return plan == request.plan


def begin_waiting(mode: str, held: Held, row: Row, request: Request) -> tuple[Held, Answer]:
    """A request to an instance that waits for its first Poll. But for the first Poll and the deletion, the table
    answers as of an instance in `making`.
    """
    making = row._replace(phase="making")
    if request.kind == "deprovision" and is_due(mode, row._replace(phase="failed"), request):
        return Held(tombstone=True), Answer(200, "empty")
    if request.kind == "poll" and request.plan == row.plan:
        held = held._replace(row=making)
    if request.kind == "deprovision":
        making = row._replace(phase="failed")
    return held, handled(mode, making, request, "done").answer


def begin(mode: str, first_poll: bool, held: Held, request: Request) -> tuple[Held, Answer | None]:
    """What is held after a request, and the answer, or None if the request becomes pending work."""
    if conflicts(held, request):
        return held, error(409)
    if held.work is not None:
        return held, BUSY[request.kind]
    if held.tombstone and request.kind == "provision":
        return held, error(409)
    if held.row is not None and held.row.phase == "waiting":
        return begin_waiting(mode, held, held.row, request)
    if is_due(mode, held.row, request):
        attributes = request.attributes if held.row is None else held.attributes
        if first_poll and mode == "async" and request.kind == "provision":
            return Held(Row(request.plan, "waiting"), None, False, attributes), Answer(202, "empty")
        return held._replace(work=request, attributes=attributes), None
    answer = handled(mode, held.row, request, "done").answer
    return held._replace(tombstone=held.tombstone or request.kind == "deprovision" and held.row is None), answer


def end(mode: str, held: Held, outcome: str) -> tuple[Held, Answer] | None:
    """What is held after the pending work, and the answer to its request; None if the work can't end so."""
    if held.work is None:
        return None
    if outcome.startswith("refused"):
        status = int(outcome.removeprefix("refused "))
        return (Held(tombstone=True), error(status)) if held.work.kind == "provision" else None
    row, answer = handled(mode, held.row, held.work, outcome)
    tombstone = held.work.kind == "deprovision" and row is None
    return Held(row, None, tombstone, held.attributes if row else 0), answer


def finish(held: Held, ok: bool) -> Held | None:
    """What is held once the operation that runs has ended; None if none runs."""
    if held.work is not None or held.row is None or held.row.phase not in ("making", "deleting"):
        return None
    made = held.row.phase == "making"
    if ok:
        return held._replace(row=held.row._replace(phase="ready")) if made else Held(tombstone=True)
    return held._replace(row=held.row._replace(phase="failed" if made else "delete-failed"))


def give_up_waiting(held: Held) -> Held | None:
    """What is held once nobody has polled for too long; None if the row doesn't wait."""
    if held.row is None or held.row.phase != "waiting":
        return None
    return held._replace(row=held.row._replace(phase="failed"))


def can_have_ended(mode: str, held: Held, outcome: str, resource: str) -> bool:
    """Whether the pending work that ended so may have left this resource."""
    if held.work is None:
        return False
    if outcome.startswith("refused") or outcome == "before" and held.work.kind == "provision":
        return resource == "absent"
    if outcome == "before":
        return True
    return mode != "sync" or resource == ("whole" if held.work.kind == "provision" else "absent")


def is_made(held: Held) -> bool | None:
    """Whether what goes on makes or deletes; None if nothing goes on."""
    if held.work is not None:
        return held.work.kind == "provision"
    return None if held.row is None else {"making": True, "deleting": False}.get(held.row.phase)


# ---- one instance


@dataclass
class Instance:
    """What the platform records, what the broker holds, the resource, and all that was ever sent and given."""

    mode: str
    accepts: bool
    first_poll: bool = False
    state: str | None = None
    out: str | None = None
    attempt: int = 0
    held: Held = Held()
    # The number of the request whose work goes on.
    worker: int | None = None
    resource: str = "absent"
    sent: list[Request] = field(default_factory=list)
    given: list[Given] = field(default_factory=list)

    @property
    def phase(self) -> str | None:
        return self.held.row.phase if self.held.row else None

    # ---- the platform's events

    def send_next(self, kind: str, accepts: bool) -> None:
        self.sent.append(Request(kind, accepts))
        self.out, self.attempt = kind, self.attempt + 1

    def create(self, _: str) -> bool:
        if self.state is not None:
            return False
        self.state = "wanted"
        self.send_next("provision", self.accepts)
        return True

    def send(self, _: str) -> bool:
        if self.out is not None or self.state not in DUE:
            return False
        self.send_next(DUE[self.state], True)
        return True

    def clean_up(self, states: set[str]) -> bool:
        if self.out is not None or self.state not in states:
            return False
        self.state = "cleaning"
        return True

    def expire(self, _: str) -> bool:
        return self.clean_up({"polling"})

    def retry(self, _: str) -> bool:
        return self.clean_up({"cleaning-polling"})

    def remove(self, _: str) -> bool:
        return self.clean_up({"polling", "ready", "unsettled"})

    def timeout(self, _: str) -> bool:
        if self.out is None:
            return False
        self.out = None
        self.state = "cleaning" if self.state == "wanted" else self.state
        return True

    def crash_platform(self, _: str) -> bool:
        return True

    # ---- the network's events

    def arrive(self, number: str) -> bool:
        attempt = int(number)
        if not 1 <= attempt <= len(self.sent):
            return False
        answer = self.begin(self.sent[attempt - 1])
        if answer is None:
            self.worker = attempt
        else:
            self.given.append(Given(attempt, answer))
        return True

    def put_off(self, number: str) -> bool:
        attempt = int(number)
        if not 1 <= attempt <= len(self.sent):
            return False
        self.given.append(Given(attempt, BUSY[self.sent[attempt - 1].kind]))
        return True

    def answered(self, answer: Answer) -> bool:
        if self.out is None or self.state is None:
            return False
        self.state, self.out = state_after(self.state, self.out, answer), None
        return True

    def given_to_out(self, place: str) -> Answer | None:
        """The answer at this place, if it was given and is to the request that is out."""
        at = int(place)
        if at >= len(self.given) or self.given[at].attempt != self.attempt:
            return None
        return self.given[at].answer

    def take(self, place: str) -> bool:
        answer = self.given_to_out(place)
        return answer is not None and self.answered(answer)

    def garbled(self, place: str) -> bool:
        answer = self.given_to_out(place)
        return answer is not None and self.answered(Answer(answer.status, "malformed"))

    def gateway(self, status: str) -> bool:
        return 500 <= int(status) <= 599 and self.answered(Answer(int(status), "malformed"))

    # ---- the broker's events

    def begin(self, request: Request) -> Answer | None:
        """The answer at once, or None if the request becomes pending work."""
        self.held, answer = begin(self.mode, self.first_poll, self.held, request)
        return answer

    def answer_request(self, answer: Answer) -> None:
        """Answers the request whose work went on, if there is one."""
        if self.worker is not None:
            self.given.append(Given(self.worker, answer))
        self.worker = None

    def end(self, outcome: str) -> bool:
        ended = end(self.mode, self.held, outcome)
        if ended is None or not can_have_ended(self.mode, self.held, outcome, self.resource):
            return False
        self.held, answer = ended
        self.answer_request(answer)
        return True

    def end_unknown(self, _: str) -> bool:
        if self.worker is None:
            return False
        self.answer_request(error(500))
        return True

    def become_held(self, held: Held | None) -> bool:
        if held is None:
            return False
        self.held = held
        return True

    def finish(self, how: str) -> bool:
        if how == "ok" and self.resource != {True: "whole", False: "absent", None: "-"}[is_made(self.held)]:
            return False
        return self.become_held(finish(self.held, how == "ok"))

    def give_up_waiting(self, _: str) -> bool:
        return self.become_held(give_up_waiting(self.held))

    def crash_broker(self, _: str) -> bool:
        self.worker = None
        return True

    # ---- the work's

    def become(self, resource: str) -> bool:
        if is_made(self.held) is None:
            return False
        self.resource = resource
        return True

    # ---- any event, and fault-free rounds

    def happen(self, line: str) -> bool:
        word, _, argument = line.partition(" ")
        event: Callable[[str], bool] = getattr(self, EVENTS[word])
        return event(argument)

    def go_well(self, end: str) -> None:
        """What goes on goes well for the resource, and ends so."""
        made = is_made(self.held)
        if made is not None:
            self.resource = "whole" if made else "absent"
        self.happen(end)

    def settle(self) -> None:
        for _ in range(3):
            self.timeout("")
            self.go_well("end done")
            self.go_well("finish ok")
            if self.send(""):
                self.arrive(str(self.attempt))
                self.go_well("end done")
                self.take(str(len(self.given) - 1))

    # ---- what there is

    def words(self) -> str:
        """What is recorded and held, and the resource."""
        record = "-" if self.state is None else f"{self.state} {self.out or '-'} {self.attempt}"
        row, work = self.held.row, self.held.work
        held = (row.phase if row else "-", work.kind if work else "-", "tombstone" if self.held.tombstone else "-")
        return "; ".join([record, " ".join(held), self.resource])

    def more_words(self, given: int) -> list[str]:
        """How much was sent and given, and the answers that were given since there were so many."""
        answers = [f"{new.attempt}: {new.answer.status} {new.answer.body}" for new in self.given[given:]]
        return [f"{len(self.sent)} sent, {len(self.given)} given", *answers]

    def told(self, given: int) -> str:
        """All of these words."""
        return f"{self.words()} # {'; '.join(self.more_words(given))}"

    def agrees(self) -> bool:
        """What is recorded as ready exists, whole; of what is gone, or was never recorded, there is nothing."""
        if self.state == "ready":
            return self.held.row == Row(0, "ready") and self.held.work is None and self.resource == "whole"
        if self.state in (None, "gone"):
            return self.held.row is None and self.held.work is None and self.resource == "absent"
        return True


# The method of each event.
EVENTS = {name: name.replace("-", "_") for name in (*(event.partition(" ")[0] for event in PLAIN), *NUMBERED)}
EVENTS["work"] = "become"
