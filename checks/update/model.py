"""A model of the updates of an instance: the tables of a broker and of a platform.

Settings are a word with a letter for each part: plan, parameters, version of the maintenance. What an Update names is
such a word, too, with a dot for each part that it doesn't name.

The first line of a table that fits counts. The lines of `begin` have the numbers that osb_update gives them.
"""

from __future__ import annotations

from typing import NamedTuple, Union

from network.model import Answer, Held, error

SERVICE = 0
"""The service of the instance's row."""

PHASES = ("settled", "pending", "updating", "failed", "mending")
UNDER_WAY = ("pending", "updating", "mending")
PENDING = ("pending", "mending")
STATES = ("settled", "updating", "polling", "unsure")
OUTCOMES = ("done", "after", "before", "failed", "refused 400", "refused 422")

BUSY = error(422, "ConcurrencyError")
CONFLICT = error(422, "MaintenanceInfoConflict")
DONE = {"sync": Answer(200, "empty"), "async": Answer(202, "empty")}

# What the catalogue has for the settings that are asked for: how they are reached, or why they aren't.
REFUSALS = {"rejected 400": error(400), "rejected 422": error(422), "conflict": CONFLICT}
ALLOWED = ("sync", "async", *REFUSALS)

GATEWAYS = frozenset({401, 403, 404, 405, 407, 408, 412, 413, 414, 415, 429, 431})
"""The statuses that gateways, proxies and servers answer of themselves."""


def with_change(settings: str, change: str) -> str:
    """The settings that are asked for: what is named, and else what there is."""
    return "".join(new if new != "." else old for old, new in zip(settings, change))


def change_to(settings: str, to: str, everything: bool) -> str:
    """What an Update names: the parts that differ, or all."""
    return "".join(new if everything or new != old else "." for old, new in zip(settings, to))


# ---- the broker


class Update(NamedTuple):
    """An Update; the number is 0 if it has none."""

    names: str
    number: int = 0
    accepts: bool = True
    service: int = SERVICE


class Holding(NamedTuple):
    """What a broker holds of the updates of an instance. The work or the operation leads to the settings `to`."""

    settings: str
    number: int = 0
    phase: str = "settled"
    to: str | None = None


class Work(NamedTuple):
    """Work that is due."""

    mode: str
    to: str


class Found(NamedTuple):
    """What a 200 to a Fetch has."""

    settings: str
    number: int


Begun = Union[Answer, Work]


def is_available(instance: Held) -> bool:
    return instance.row is not None and instance.row.phase == "ready" and instance.work is None


def line(instance: Held, allowed: str, holding: Holding, update: Update) -> int:
    """The first line that fits an Update."""
    to, phase, number = with_change(holding.settings, update.names), holding.phase, update.number
    settled = phase == "settled"
    again = number != 0 and number == holding.number
    lines = {
        1: instance.row is None and instance.work is None,
        2: not is_available(instance),
        3: update.service != SERVICE,
        4: 0 < number < holding.number,
        5: again and phase in PENDING,
        6: again and (phase, holding.to) == ("updating", to),
        7: again and settled and holding.settings == to,
        8: again,
        9: (phase, holding.to) == ("updating", to) and number == 0,
        10: phase in UNDER_WAY,
        11: settled and holding.settings == to,
        12: settled and allowed == "rejected 400",
        13: settled and allowed == "rejected 422",
        14: settled and allowed == "conflict",
        15: settled and allowed == "async" and not update.accepts,
        16: allowed in REFUSALS or allowed == "async" and not update.accepts,
        17: True,
    }
    return next(number for number, fits in lines.items() if fits)


ANSWERS = {
    1: error(404),
    2: BUSY,
    3: error(400),
    4: error(409),
    5: BUSY,
    6: DONE["async"],
    7: DONE["sync"],
    8: error(500),
    9: DONE["async"],
    10: BUSY,
    11: DONE["sync"],
    12: error(400),
    13: error(422),
    14: CONFLICT,
    15: error(422, "AsyncRequired"),
    16: error(500),
}
JUDGED = range(11, 18)
"""The lines that keep the number of the Update."""


def begin(instance: Held, allowed: str, holding: Holding, update: Update) -> tuple[Holding, Begun]:
    """What is held once an Update has come, and the answer or the work."""
    fitting = line(instance, allowed, holding, update)
    if fitting in JUDGED and update.number:
        holding = holding._replace(number=update.number)
    if fitting in ANSWERS:
        return holding, ANSWERS[fitting]
    to = with_change(holding.settings, update.names)
    phase = "pending" if holding.phase == "settled" else "mending"
    return holding._replace(phase=phase, to=to), Work(allowed, to)


def settled_with(holding: Holding, to: str) -> Holding:
    return Holding(to, holding.number)


def end(mode: str, holding: Holding, outcome: str) -> tuple[Holding, Answer] | None:
    """What is held once the pending work has ended so, and the answer; None if none is pending."""
    if holding.phase not in PENDING or holding.to is None:
        return None
    before = holding._replace(phase="settled" if holding.phase == "pending" else "failed", to=None)
    done = settled_with(holding, holding.to) if mode == "sync" else holding._replace(phase="updating")
    if outcome == "done":
        return done, DONE[mode]
    if outcome == "after":
        return done, error(500)
    if outcome == "failed":
        return holding._replace(phase="failed", to=None), error(500)
    if outcome == "before" or before.phase == "failed":
        return before, error(500)
    return before, error(int(outcome.removeprefix("refused ")))


def finish(holding: Holding, ok: bool) -> Holding | None:
    """What is held once the operation has ended; None if none runs."""
    if holding.phase != "updating" or holding.to is None:
        return None
    return settled_with(holding, holding.to) if ok else holding._replace(phase="failed", to=None)


def poll(instance: Held, holding: Holding) -> Answer | None:
    """The answer to a Poll; None if the instance's own table answers."""
    if not is_available(instance):
        return None
    if holding.phase in UNDER_WAY:
        return Answer(200, "in-progress")
    return Answer(200, "succeeded" if holding.phase == "settled" else "failed")


def fetch(instance: Held, holding: Holding) -> Found | Answer:
    """What comes of a Fetch that the service and the plan allow."""
    if not is_available(instance):
        return error(404)
    return Found(holding.settings, holding.number) if holding.phase == "settled" else BUSY


# ---- the platform


class Record(NamedTuple):
    """What a platform records of the updates of an instance. What they aim at is `to` and `mixed`."""

    settings: str
    number: int = 0
    attempt: int = 0
    state: str = "settled"
    to: str | None = None
    mixed: bool = False
    out: str | None = None


class Sent(NamedTuple):
    """A request, and its attempt: what an Update names, or the plan of a Poll."""

    kind: str
    attempt: int
    names: str | None = None


LAST = 2**64 - 1
"""The greatest attempt."""

Refused = str


OUTS: dict[str, tuple[str, ...]] = {
    "settled": (),
    "updating": ("update", "fetch"),
    "polling": ("poll",),
    "unsure": ("fetch",),
}
"""The requests that can be out in each state."""


def can_be(record: Record) -> bool:
    """Whether the request that is out can be out."""
    return record.out is None or record.out in OUTS[record.state] and record.attempt >= 1


def sends(record: Record, kind: str, names: str | None = None) -> tuple[Record, Sent]:
    attempt = record.attempt + 1
    number = attempt if kind == "update" else record.number
    return record._replace(number=number, attempt=attempt, out=kind), Sent(kind, attempt, names)


def updates(record: Record, to: str, mixed: bool) -> tuple[Record, Sent]:
    aimed = record._replace(state="updating", to=to, mixed=mixed)
    return sends(aimed, "update", change_to(record.settings, to, mixed))


def update(record: Record, is_ready: bool, to: str) -> tuple[Record, Sent] | Refused:
    """Sends an Update to chosen settings, if the instance is recorded `ready`."""
    if record.out is not None:
        return "Busy"
    if not is_ready:
        return "NotReady"
    if record.state == "polling":
        return "NotNow"
    if record.attempt == LAST:
        return "AttemptsUsedUp"
    return updates(record, to, record.state != "settled" and (record.mixed or record.to != to))


def send(record: Record) -> tuple[Record, Sent] | Refused:
    """Sends what is due."""
    if record.out is not None:
        return "Busy"
    if record.state not in ("updating", "polling") or record.to is None:
        return "NothingDue"
    if record.attempt == LAST:
        return "AttemptsUsedUp"
    return updates(record, record.to, record.mixed) if record.state == "updating" else poll_of(record)


def poll_of(record: Record) -> tuple[Record, Sent]:
    return sends(record, "poll", record.settings[0])


def fetch_sent(record: Record) -> tuple[Record, Sent] | Refused:
    """Sends a Fetch."""
    if record.out is not None:
        return "Busy"
    if record.state not in ("updating", "unsure"):
        return "NothingDue"
    return "AttemptsUsedUp" if record.attempt == LAST else sends(record, "fetch")


def settled(record: Record, settings: str) -> Record:
    return Record(settings, record.number, record.attempt)


def is_surely_rejected(answer: Answer) -> bool:
    """Whether the broker has rejected an Update. The bodies of its rejections are objects."""
    return 400 <= answer.status <= 499 and answer.body != "malformed" and answer.status not in GATEWAYS


def after_update(record: Record, answer: Answer) -> Record:
    if answer == DONE["sync"]:
        return settled(record, record.to or record.settings)
    if answer == DONE["async"]:
        return record._replace(state="polling")
    if answer == BUSY or not is_surely_rejected(answer):
        return record
    return record._replace(state="unsure") if record.mixed else settled(record, record.settings)


def after_poll(record: Record, answer: Answer) -> Record:
    if answer == Answer(200, "succeeded"):
        return settled(record, record.to or record.settings)
    return record._replace(state="unsure") if answer == Answer(200, "failed") else record


def answer(record: Record, attempt: int, given: Answer) -> Record | Refused:
    """Takes the answer to an Update or to a Poll."""
    if record.out not in ("update", "poll") or attempt != record.attempt:
        return "NotOut"
    after = after_update if record.out == "update" else after_poll
    return (after(record, given) if record.out in OUTS[record.state] else record)._replace(out=None)


def timeout(record: Record, attempt: int) -> Record | Refused:
    """Gives up the request that is out."""
    return "NotOut" if record.out is None or attempt != record.attempt else record._replace(out=None)


def stop(record: Record) -> Record | Refused:
    """Stops the update."""
    if record.out is not None:
        return "Busy"
    return record._replace(state="unsure") if record.state in ("updating", "polling") else "NothingDue"


def fetched(record: Record, attempt: int, reported: Found | None) -> Record | Refused:
    """Takes the answer to a Fetch: what a 200 with a number reports."""
    if record.out != "fetch" or attempt != record.attempt:
        return "NotOut"
    if reported is not None and reported.number == record.number:
        return settled(record, reported.settings)
    return record._replace(out=None)
