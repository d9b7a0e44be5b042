"""A change of the settings of an instance, between both sides: what is recorded, held, sent and answered.

The tables are those of update.model. Three rules tie the change to the life of its instance, and no other step of
either depends on the other:

    u  broker    the work of an Update begins only while the instance is available
    d  broker    a deletion of the instance begins only while no update is under way
    r  platform  an Update is sent only while the instance is recorded `ready`, and the instance is removed only while
                 no request of an update is out

Of the Updates that the broker may still judge, the model knows which one is the latest, and not the order of the
others. So the model allows more than can happen. Numbers are LATEST or EARLIER, and what is recorded and held has none.
"""

from __future__ import annotations

from collections.abc import Iterator
from typing import NamedTuple, Union

from network.model import Answer, Held, Row, error
from update import model
from update.model import BUSY, CONFLICT, Found, Holding, Record, Update

# What can be left out, and what happens then.
PARTS = {
    "u": "an Update begins, whatever the broker holds of the instance",
    "d": "a Deprovision begins, though an update is under way",
    "r": "an Update is sent and the instance is removed at any time",
    "numbers": "an Update has no number",
    "kept": "the number of an Update that was rejected isn't kept",
    "once": "the Update that was judged last is judged again",
    "busy": "an Update that comes while another is under way is rejected for good",
    "truth": "an Update is rejected, though the latest has failed",
    "work": "a crash of the broker forgets the pending work",
    "names": "a Poll and a Deprovision have to name the plan that the row has now",
    "parts": "an Update names the parts that differ from what is recorded, though another may have been done",
    "attempts": "the platform takes an answer to any request",
    "concurrency": "a 422 ConcurrencyError is taken for a rejection",
    "mixed": "a rejection is believed, though an Update to other settings may have been done",
    "gateway": "a gateway's 4xx is taken for the broker's",
    "fetch": "what a Fetch reports is believed without the latest number",
}
# What a broker and a platform without numbers may have beside the standard.
PLAIN = {
    "previous": "the broker changes the settings only from the previous ones that the Update names",
    "no return": "no Update goes to settings that there were",
    "no refusal": "the broker refuses nothing",
    "no change of mind": "an Update is sent until it is answered",
    "in order": "the broker processes each Update at most once, and none that was answered or has timed out",
}

LATEST, EARLIER = 2, 1
ENDED = "ended"
"""The state of a record that counts no more, since its instance is to be removed."""
UNSETTLED = ("updating", "polling", "unsure")
UNKNOWN = "-"
"""The settings of a resource that has neither those of the row nor those of an update."""
AVAILABLE = Held(Row(0, "ready"))

Answered = Union[Answer, Found]
Asked = tuple[str, Union[str, None]]
"""The settings that an Update asks for, and what it names if that counts."""


class Design(NamedTuple):
    """The settings that there are, how updates to them work, and which of PARTS are left out and of PLAIN are there."""

    settings: tuple[str, ...] = ("p", "q")
    mode: str = "sync"
    without: frozenset[str] = frozenset()
    plain: frozenset[str] = frozenset()

    def has(self, part: str) -> bool:
        return part in self.plain if part in PLAIN else part not in self.without

    def mode_to(self, to: str) -> str:
        """Synchronous, asynchronous, or either by the settings."""
        if self.mode == "both":
            return "sync" if to == self.settings[1] else "async"
        return self.mode

    @property
    def in_parts(self) -> bool:
        return len(self.settings[0]) > 1


class Change(NamedTuple):
    """What is recorded and held, the settings of the resource, and what was sent and answered."""

    record: Record
    held: Holding
    thing: str
    # What the latest Update names if that counts, and whether the broker has judged it.
    names: str | None = None
    judged: bool = True
    # Whether the pending work is that of the Update that is out.
    mine: bool = False
    # Earlier Updates that the broker may still judge, and the answers to what is out.
    old: frozenset[Asked] = frozenset()
    answers: frozenset[Answered] = frozenset()
    # The settings that there were, if that counts.
    past: frozenset[str] = frozenset()

    @property
    def is_pending(self) -> bool:
        return self.held.phase in model.PENDING

    @property
    def is_under_way(self) -> bool:
        return self.held.phase in model.UNDER_WAY

    @property
    def goal(self) -> str:
        """The settings that the work or the operation leads to."""
        assert self.held.to is not None
        return self.held.to

    @property
    def latest(self) -> frozenset[Asked]:
        """The latest Update, if the broker may still judge it."""
        to = self.record.to
        return frozenset() if self.judged or to is None else frozenset([(to, self.names)])

    def hold(self, held: Holding, mine: bool = False) -> Change:
        return self._replace(held=held._replace(number=0), mine=mine)


Steps = Iterator[tuple[str, Change]]


def start(design: Design) -> Change:
    """Before the first Update, the settings are the first."""
    first = design.settings[0]
    past = frozenset([first]) if design.has("no return") else frozenset[str]()
    return Change(Record(first), Holding(first), first, past=past)


# ---- the broker


class Arrival(NamedTuple):
    """An Update that comes: whether it is the latest, and whether it is in flight."""

    to: str
    names: str | None
    latest: bool
    mine: bool


def numbered(design: Design, change: Change, arrival: Arrival) -> tuple[Holding, int]:
    """The holding and the Update with their numbers."""
    if not design.has("numbers"):
        return change.held, 0
    held = change.held._replace(number=LATEST if arrival.latest and change.judged else 0)
    again = arrival.latest and change.judged and not design.has("once")
    return held, LATEST + 1 if again else LATEST if arrival.latest else EARLIER


def answered(design: Design, change: Change, answer: Answered, mine: bool) -> Change:
    given = mine or not design.has("attempts") and change.record.out == "update"
    return change._replace(answers=change.answers | {answer}) if given else change


def judged(design: Design, change: Change, arrival: Arrival, allowed: str) -> tuple[str, Change]:
    """What becomes of an Update that is judged, if the catalogue allows it so."""
    held, number = numbered(design, change, arrival)
    update = Update(arrival.names if design.in_parts and arrival.names else arrival.to, number)
    line = model.line(AVAILABLE, allowed, held, update)
    after, begun = model.begin(AVAILABLE, allowed, held, update)
    if line == 10 and not design.has("busy"):
        begun = error(400)
    if line == 16 and not design.has("truth"):
        begun = error(400)
    kept = after.number != held.number and (design.has("kept") or line not in range(12, 17))
    if kept and arrival.latest:
        change = change._replace(judged=True, old=frozenset())
    if isinstance(begun, Answer):
        return f"line {line}", answered(design, change.hold(after, change.mine), begun, arrival.mine)
    return f"line {line}", change.hold(after, arrival.mine)


def arrives(design: Design, change: Change, arrival: Arrival, there: bool) -> Steps:
    """Everything that may become of an Update that comes. It may be put off, or rejected for a reason that passes."""
    yield "put off", answered(design, change, BUSY, arrival.mine)
    if not there and design.has("u"):
        return
    if design.has("previous") and is_outdated(change, arrival):
        yield "other previous settings", answered(design, change, error(400), arrival.mine)
        return
    allowed = [design.mode_to(arrival.to), *([] if design.has("no refusal") else ["rejected 400"])]
    yield from dict(judged(design, change, arrival, it) for it in allowed).items()


def is_outdated(change: Change, arrival: Arrival) -> bool:
    """Whether an Update that would be judged names other previous settings than there are."""
    held = change.held
    free = not change.is_under_way and not (held.phase == "settled" and held.settings == arrival.to)
    return free and arrival.names != held.settings


def of_requests(design: Design, change: Change, there: bool) -> Steps:
    """What comes to the broker: the latest Update, in time or late; earlier ones; a Poll; a Fetch."""
    record, numbers, in_order = change.record, design.has("numbers"), design.has("in order")
    if record.to is not None and record.state != ENDED:
        mine = record.out == "update"
        if numbers or mine and not (in_order and change.judged):
            latest = Arrival(record.to, change.names, True, mine)
            for how, after in arrives(design, change, latest, there):
                yield f"update to {record.to} arrives: {how}", after._replace(judged=True) if in_order else after
    for to, names in sorted(change.old, key=repr):
        for how, after in arrives(design, change, Arrival(to, names, False, False), there):
            yield f"late update to {to} arrives: {how}", after
    instance = AVAILABLE if there else Held()
    if record.out == "poll":
        outdated = not design.has("names") and change.held.settings != record.settings
        says = model.poll(instance, change.held)
        answer = error(410) if says is None else error(400) if outdated else says
        yield "update poll arrives", change._replace(answers=change.answers | {answer})
    if record.out == "fetch":
        held = change.held._replace(number=LATEST if change.judged else EARLIER)
        yield "fetch arrives", change._replace(answers=change.answers | {model.fetch(instance, held)})


def of_work(design: Design, change: Change) -> Steps:
    """What pending work does, and how it ends."""
    to, mode, held = change.goal, design.mode_to(change.goal), change.held
    for thing in sorted({held.settings, to, UNKNOWN} - {change.thing}):
        yield f"update work: {thing}", change._replace(thing=thing)
    if change.mine:
        yield "broker crash", change._replace(mine=False)
        yield "update ends unknown", change._replace(mine=False, answers=change.answers | {error(500)})
    if not design.has("work"):
        yield "crash, and the work is forgotten", change.hold(Holding(held.settings, 0, before(held)))
    for outcome in outcomes(design, change, mode):
        ended = model.end(mode, held, outcome)
        assert ended is not None
        after, answer = ended
        yield f"update ends {outcome}", answered(design, change.hold(after), answer, change.mine)


def before(held: Holding) -> str:
    return "settled" if held.phase == "pending" else "failed"


def outcomes(design: Design, change: Change, mode: str) -> Iterator[str]:
    """How pending work may end, if its end is reported truly."""
    if mode == "async" or change.thing == change.goal:
        yield "done"
        yield "after"
    yield "failed"
    if change.held.phase == "mending":
        yield "before"
    elif change.thing == change.held.settings:
        yield "before"
        if not design.has("no refusal"):
            yield "refused 400"


def of_operation(change: Change) -> Steps:
    """What an operation does, and how it ends."""
    for thing in sorted({change.held.settings, change.goal, UNKNOWN} - {change.thing}):
        yield f"update work: {thing}", change._replace(thing=thing)
    for ok in (True, False):
        held = model.finish(change.held, ok)
        if held and (not ok or change.thing == change.goal):
            yield f"update finish {'ok' if ok else 'failed'}", change.hold(held)


# ---- the platform


def rests(design: Design, change: Change, record: Record) -> Change:
    """The request that was out was answered or timed out, and this is recorded then."""
    plain = not design.has("numbers") and not design.has("in order")
    sent = {(change.record.to or "", change.names)} if change.record.out == "update" and plain else set()
    lost = change.latest if design.has("numbers") and record.state == "settled" else frozenset[Asked]()
    after = change._replace(record=record, mine=False, old=change.old | sent | lost)
    if record.state == "settled":
        after = after._replace(names=None, judged=True)
    return after._replace(answers=frozenset()) if design.has("attempts") else after


def numbers_of(record: Record) -> Record:
    """The record of the latest Update, with its numbers."""
    return record._replace(number=LATEST, attempt=LATEST)


def taken(design: Design, change: Change, given: Answered) -> Change:
    """The change after an answer to what is out."""
    record = numbers_of(change.record)
    if record.out == "fetch":
        found = given if isinstance(given, Found) else None
        if found and not design.has("fetch"):
            found = found._replace(number=LATEST)
        after = model.fetched(record, LATEST, found)
    else:
        assert isinstance(given, Answer)
        if given == BUSY and not design.has("concurrency"):
            given = CONFLICT
        if not design.has("mixed") and model.is_surely_rejected(given) and given != BUSY:
            record = record._replace(mixed=False)
        after = model.answer(record, LATEST, given)
    assert isinstance(after, Record)
    return rests(design, change, after._replace(number=0, attempt=0))


def sends(design: Design, change: Change, to: str) -> Change:
    """The change after an Update to these settings is sent."""
    sent = model.update(change.record, True, to)
    assert not isinstance(sent, str)
    record, request = sent
    names = None
    if design.has("previous"):
        names = record.settings
    elif design.in_parts:
        names = request.names if design.has("parts") else model.change_to(record.settings, to, False)
    after = change._replace(record=record._replace(number=0, attempt=0), names=names)
    if design.has("numbers"):
        after = after._replace(old=change.old | change.latest, judged=False)
    elif design.has("in order"):
        after = after._replace(judged=False)
    if design.has("no return"):
        after = after._replace(past=change.past | {to})
    return after._replace(answers=frozenset()) if design.has("attempts") else after


def asks(design: Design, change: Change, kind: str) -> Change:
    """The change after a Poll or a Fetch is sent."""
    sent = model.send(change.record) if kind == "poll" else model.fetch_sent(change.record)
    assert not isinstance(sent, str)
    after = change._replace(record=sent[0]._replace(number=0, attempt=0))
    return after._replace(answers=frozenset()) if design.has("attempts") else after


def of_choices(design: Design, change: Change) -> Steps:
    """What the platform may do while nothing is out."""
    record = change.record
    may = [to for to in design.settings if not (design.has("no return") and to in change.past) or to == record.to]
    if record.state in ("settled", "unsure"):
        for to in may:
            if record.state == "unsure" or to != record.settings:
                yield f"update to {to}", sends(design, change, to)
    if record.state == "updating":
        yield f"send update to {record.to} again", sends(design, change, record.to or "")
        for to in may:
            if to != record.to and not design.has("no change of mind"):
                yield f"update to {to} instead", sends(design, change, to)
    if record.state == "polling":
        yield "send update poll", asks(design, change, "poll")
    stopped = model.stop(record)
    if isinstance(stopped, Record):
        yield "stop", change._replace(record=stopped)
    if record.state in ("updating", "unsure") and design.has("numbers"):
        yield "send fetch", asks(design, change, "fetch")


def of_answers(design: Design, change: Change) -> Steps:
    """What the platform takes while a request is out."""
    timed_out = model.timeout(change.record, change.record.attempt)
    assert isinstance(timed_out, Record)
    yield "update timeout", rests(design, change, timed_out)
    for answer in sorted(change.answers, key=repr):
        yield f"take update {answer}", taken(design, change, answer)
    gateway = Answer(502, "malformed")
    yield "take update of a gateway", taken(design, change, gateway)
    if not design.has("gateway") and change.record.out == "update":
        yield "take update 4xx of a gateway", taken(design, change, error(400))


def steps(design: Design, change: Change, may_send: bool, there: bool) -> Steps:
    """Everything that can happen to the change: by rule r, and by whether the instance is available."""
    if change.record.out:
        yield from of_answers(design, change)
    elif may_send:
        yield from of_choices(design, change)
    yield from of_requests(design, change, there)
    if change.is_pending:
        yield from of_work(design, change)
    elif change.held.phase == "updating":
        yield from of_operation(change)


# ---- the end of the instance


def ended(design: Design, change: Change) -> Change:
    """The instance is to be removed: what is recorded counts no more, and what was sent may still arrive."""
    settings = "" if design.has("names") else change.record.settings
    after = change._replace(old=change.old | change.latest, names=None, judged=True, past=frozenset())
    return after._replace(record=Record(settings, state=ENDED))


def dead(change: Change) -> Change:
    """No row is left, and none comes again: nothing of the change counts any more."""
    return change._replace(old=frozenset(), held=Holding(""), mine=False, thing=UNKNOWN)
