"""A model of osb_update_sides and osb_update_service, event by event: an instance, its bindings and its updates.

The tables are those of update.model, with numbers, and the instance and its bindings are those of binding.model. The
events are those of a line of the crate service_cases, which crates/service_cases/src/update_events.rt describes:

    updated SIDES: ORDER; ORDER ..: SETTINGS: EVENT, EVENT ..

The model has no event `Live`: what the updates see of the instance is the instance itself.
"""

from __future__ import annotations

from collections.abc import Callable, Iterable
from typing import NamedTuple, Union

from binding.model import BoundInstance
from network.model import Answer, Held, error
from network.walks import Step
from update import model
from update.cases import of_answer, of_holding, of_record
from update.model import BUSY, CONFLICT, GATEWAYS, UNDER_WAY, Found, Holding, Record, Sent, Update, Work

Said = Union[Answer, Found]

MADE = "instance create, instance arrive 1, instance work whole, instance end done, instance take 0"
BEGUN = "updated platform broker: sync accepts -; sync accepts -: pab"
# The lines of the crate's own cases.
WAYS = {
    "an Update is done; a copy of it changes nothing": f"{BEGUN}: update to qab, {MADE}, update to qab,"
    " update arrive 0 sync accepts, update end sync done, update work qab, update end sync done, update take 0,"
    " update arrive 0 sync accepts, binding 1 create",
    "a rejection of one of two Updates, and a Fetch with the latest number": f"{BEGUN}: {MADE},"
    " update to qab, update timeout, update to pxb, update arrive 1 422 accepts, update arrive 0 sync accepts,"
    " update take 0, update fetch, update arrive 2 sync accepts, update take 2",
    "a crash, and a failed update: the next one mends it": f"{BEGUN}: {MADE}, update to qab,"
    " update arrive 0 sync accepts, update work -, update crash, update end sync before,"
    " update end sync failed, update arrive 0 sync accepts,"
    " update take 0, update send, update arrive 1 conflict accepts, update arrive 1 sync accepts,"
    " update anothers 404 error, update anothers 404 error, update send, update arrive 2 sync accepts,"
    " update end sync refused 400, update work qab, update put-off 2, update take 3, update take 2,"
    " update send, update arrive 3 sync accepts, update work qab, update end sync done, update take 5",
    "a Deprovision is put off while an operation runs, and a removal waits for what is out": f"{BEGUN}: {MADE},"
    " update to qxb, update arrive 0 async accepts, instance remove, update end async done, update take 0, update stop,"
    " instance remove, instance send, instance arrive 2, update work qxb, update finish ok, update send,"
    " instance take 1, instance send, instance arrive 3, instance end before leaving pab, instance arrive 3,"
    " instance work absent, instance end done, update arrive 0 async accepts, update fetch",
    "polling": "updated platform broker: async accepts first-poll; async accepts -: pab: instance create,"
    " instance arrive 1, instance take 0, instance send, instance arrive 2, instance work whole,"
    " update arrive 0 sync accepts, instance finish ok leaving qxy, instance arrive 2, instance take 2,"
    " update to pay, update arrive 0 async refuses,"
    " update take 0, update to pay, update arrive 1 async accepts, update end async done, update take 1, update send,"
    " update arrive 2 sync accepts, update take 2, update send, update finish ok, update work pay, update finish ok,"
    " update arrive 3 sync accepts, update take 3",
}


class Given(NamedTuple):
    """What a broker has answered to the request of this attempt."""

    attempt: int
    said: Said

    def words(self) -> str:
        said = f"{self.said.settings} {self.said.number}" if isinstance(self.said, Found) else of_answer(self.said)
        return f"{self.attempt}: {said}"


class Updated:
    """What is recorded and held of the updates, the settings of the resource, and all that was ever sent and given.

    Settings that are between are None. The worker is the attempt of the Update whose work is to be answered.
    """

    def __init__(self, tied: BoundInstance, settings: str) -> None:
        self.tied, self.record, self.held = tied, Record(settings), Holding(settings)
        self.thing: str | None = None
        self.worker: int | None = None
        self.sent: list[Sent] = []
        self.given: list[Given] = []

    @property
    def instance(self) -> Held:
        return self.tied.instance.held

    @property
    def is_ready(self) -> bool:
        return self.tied.instance.state == "ready"

    @property
    def is_under_way(self) -> bool:
        return self.held.phase in UNDER_WAY

    def happen(self, line: str) -> bool:
        """Lets an event happen. Returns whether it applies."""
        if line.startswith("update "):
            word, _, argument = line.removeprefix("update ").partition(" ")
            event: Callable[[str], bool] = getattr(self, f"update_{word.replace('-', '_')}")
            return event(argument)
        line, _, left = line.partition(" leaving ")
        return self.happen_to_service(line, None if left in ("", "-") else left)

    def happen_to_service(self, line: str, left: str | None) -> bool:
        """An event of the instance or of a binding. If the instance becomes available, the resource has the settings of
        a settled row, or else those that were left.
        """
        was_available = model.is_available(self.instance)
        life, event = self.tied.named(line)
        self.tied.allow()
        if life is self.tied.instance:
            may = life.allowed
            remove, begin = may.remove and self.record.out is None, may.begin and not self.is_under_way
            life.allowed = may._replace(remove=remove, begin=begin)
        applied = life.happen(event)
        if model.is_available(self.instance) and not was_available:
            self.thing = self.held.settings if self.held.phase == "settled" else left
        return applied

    # ---- the platform

    def records(self, after: Record | str) -> bool:
        if isinstance(after, str):
            return False
        self.record = after
        return True

    def sends(self, after: tuple[Record, Sent] | str) -> bool:
        if isinstance(after, str):
            return False
        self.record, sent = after
        self.sent.append(sent)
        return True

    def takes(self, said: Said) -> bool:
        """The platform takes an answer to what is out."""
        record, attempt = self.record, self.record.attempt
        if record.out == "fetch":
            return self.records(model.fetched(record, attempt, said if isinstance(said, Found) else None))
        assert isinstance(said, Answer)
        return self.records(model.answer(record, attempt, said))

    def update_to(self, settings: str) -> bool:
        return self.sends(model.update(self.record, self.is_ready, settings))

    def update_send(self, _: str) -> bool:
        return self.is_ready and self.sends(model.send(self.record))

    def update_fetch(self, _: str) -> bool:
        return self.is_ready and self.sends(model.fetch_sent(self.record))

    def update_stop(self, _: str) -> bool:
        return self.records(model.stop(self.record))

    def update_timeout(self, _: str) -> bool:
        return self.records(model.timeout(self.record, self.record.attempt))

    def update_take(self, place: str) -> bool:
        given = self.given[int(place)] if int(place) < len(self.given) else None
        is_to_out = given is not None and self.record.out is not None and given.attempt == self.record.attempt
        return is_to_out and given is not None and self.takes(given.said)

    def update_anothers(self, words: str) -> bool:
        """An answer that may be another's than the broker's, or garbled."""
        status, _, body = words.partition(" ")
        answer = Answer(int(status), body)
        may_be = body == "malformed" or answer.status >= 500 or answer.status in GATEWAYS
        return may_be and self.record.out is not None and self.takes(answer)

    # ---- what arrives

    def gives(self, attempt: int, said: Said) -> bool:
        """One answer more. The error of a conflict has no word of its own."""
        self.given.append(Given(attempt, error(422) if said == CONFLICT else said))
        return True

    def update_arrive(self, words: str) -> bool:
        place, allowed, accepts = words.split(" ")
        if int(place) >= len(self.sent):
            return False
        kind, attempt, names = self.sent[int(place)]
        if kind == "update":
            found = f"rejected {allowed}" if allowed.isdecimal() else allowed
            return self.begins(Update(names or "", attempt, accepts == "accepts"), found)
        said = model.poll(self.instance, self.held) if kind == "poll" else model.fetch(self.instance, self.held)
        return said is not None and self.gives(attempt, said)

    def begins(self, update: Update, allowed: str) -> bool:
        self.held, begun = model.begin(self.instance, allowed, self.held, update)
        if not isinstance(begun, Work):
            return self.gives(update.number, begun)
        self.worker = update.number
        return True

    def update_put_off(self, place: str) -> bool:
        return int(place) < len(self.sent) and self.gives(self.sent[int(place)].attempt, BUSY)

    # ---- work and operations

    def can_have_ended(self, mode: str, outcome: str) -> bool:
        """Whether pending work that has ended so may have left these settings."""
        if outcome in ("done", "after"):
            return mode == "async" or self.thing == self.held.to
        return outcome == "failed" or self.held.phase == "mending" or self.thing == self.held.settings

    def update_end(self, words: str) -> bool:
        mode, _, outcome = words.partition(" ")
        ended = model.end(mode, self.held, outcome)
        if ended is None or not self.can_have_ended(mode, outcome):
            return False
        self.held, answer = ended
        if self.worker is not None:
            self.gives(self.worker, answer)
        self.worker = None
        return True

    def update_finish(self, how: str) -> bool:
        finished = model.finish(self.held, how == "ok")
        if finished is None or how == "ok" and self.thing != self.held.to:
            return False
        self.held = finished
        return True

    def update_work(self, settings: str) -> bool:
        if self.is_under_way:
            self.thing = None if settings == "-" else settings
        return self.is_under_way

    def update_crash(self, _: str) -> bool:
        self.worker = None
        return True

    # ---- what there is

    def agrees(self) -> bool:
        """What is recorded as settled is held and there, and what is under way is of an available instance."""
        record, is_available = self.record, model.is_available(self.instance)
        if self.is_ready and record.state == "settled":
            held = self.held == Holding(record.settings, record.number)
            return held and is_available and self.thing == record.settings
        return is_available or not self.is_under_way

    def own_words(self) -> str:
        return f" | {of_record(self.record)}; {of_holding(self.held)}; {self.thing or '-'}"

    def words(self) -> str:
        return self.tied.words() + self.own_words()

    def step(self, line: str) -> Step:
        """Lets an event happen, and tells what there is then, and what was sent and given by it."""
        sent, given = len(self.sent), len(self.given)
        what = "applied" if self.happen(line) else "skipped"
        requests = [f"{new.attempt} {new.kind}{f' {new.names}' * (new.kind == 'update')}" for new in self.sent[sent:]]
        answers = [new.words() for new in self.given[given:]]
        more = [f"{len(self.sent)} sent, {len(self.given)} given", *requests, *answers]
        return Step(line, f"{what}: {self.words()} # {'; '.join(more)}")


def in_a_line(line: str, updated: Updated, events: Iterable[str]) -> Step:
    """The line, and what stands behind it: what each event leaves, and twice what all of them leave."""
    told = [updated.step(event).wanted for event in events]
    what = told[-1].partition(":")[0]
    return Step(line, "\n  ".join([*told, f"again: {what} {updated.words()}", f"updates{updated.own_words()}"]))
