"""Walks: an instance of the model, the events that happened to it, and what there was after each."""

from __future__ import annotations

from collections import Counter
from collections.abc import Iterable, Iterator
from dataclasses import dataclass, field
from typing import NamedTuple

from network.model import ALWAYS, HARMS, MODES, NUMBERED, PHASES, PLAIN, SETTLED, STATES, WORKS, Instance, is_made

ORDERS = [
    f"{mode} {accepts} {first}" for mode in MODES for accepts in ("accepts", "refuses") for first in ("first-poll", "-")
]


class Step(NamedTuple):
    """A line for service_cases, and what is wanted behind it."""

    line: str
    wanted: str


def name(line: str) -> str:
    """An event without its number."""
    word = line.partition(" ")[0]
    return word if word in NUMBERED else line


def harms(instance: Instance, line: str) -> Iterator[str]:
    """Which of the harms this event would do, if a part of the design were left out."""
    word, _, number = line.partition(" ")
    arrives = word == "arrive" and 1 <= int(number) <= len(instance.sent)
    provision = arrives and instance.sent[int(number) - 1].kind == "provision"
    works = instance.held.work is not None
    is_taken = word == "take" and instance.out is not None and int(number) < len(instance.given)
    refused = any(given.answer.status in (400, 422) and given.answer.body == "error" for given in instance.given)
    came = [
        provision and instance.held.tombstone and not refused,
        provision and instance.held.tombstone and refused,
        word == "give-up-waiting" and instance.phase == "waiting",
        arrives and works,
        word == "crash-broker" and works,
        word == "end" and works and instance.worker is None,
        is_taken and instance.given[int(number)].attempt != instance.attempt,
    ]
    return (harm for harm, is_so in zip(HARMS, came) if is_so)


@dataclass
class Tally:
    """How often each came about in some walks."""

    orders: Counter[str] = field(default_factory=Counter)
    states: Counter[str] = field(default_factory=Counter)
    phases: Counter[str] = field(default_factory=Counter)
    works: Counter[str] = field(default_factory=Counter)
    applied: Counter[str] = field(default_factory=Counter)
    skipped: Counter[str] = field(default_factory=Counter)
    harms: Counter[str] = field(default_factory=Counter)
    settled: Counter[str] = field(default_factory=Counter)

    def missing(self) -> dict[str, set[str]]:
        """What never came about, of all that has to."""
        wanted: dict[str, tuple[Iterable[str], Counter[str]]] = {
            "orders": (ORDERS, self.orders),
            "states": (STATES, self.states),
            "phases": (PHASES, self.phases),
            "works": (WORKS, self.works),
            "events that applied": (PLAIN + NUMBERED, self.applied),
            "events that were skipped": (set(PLAIN + NUMBERED) - ALWAYS, self.skipped),
            "harms that the design prevents": (HARMS, self.harms),
            "states after three rounds": (SETTLED, self.settled),
        }
        found = {what: {word for word in names if not counts[word]} for what, (names, counts) in wanted.items()}
        return {what: names for what, names in found.items() if names}


class Walk:
    """An order, and what happened to the instance since."""

    def __init__(self, seen: Tally, mode: str, accepts: bool, first_poll: bool) -> None:
        self.seen, self.instance = seen, Instance(mode, accepts, first_poll)
        order = f"{mode} {'accepts' if accepts else 'refuses'} {'first-poll' if first_poll else '-'}"
        seen.orders[order] += 1
        self.steps = [Step(f"order {order}", f"new: {self.instance.told(0)}")]

    def happen(self, line: str) -> None:
        """Lets the event of this line happen, or three rounds without a fault. Each must leave what may be."""
        before = len(self.instance.given)
        if line == "settle":
            self.instance.settle()
            what = "settled"
            self.seen.settled[self.instance.state or "-"] += 1
            assert (self.instance.state or "-") in SETTLED, self.lines(line)
        else:
            self.seen.harms.update(harms(self.instance, line))
            what = "applied" if self.instance.happen(line) else "skipped"
            (self.seen.applied if what == "applied" else self.seen.skipped)[name(line)] += 1
        self.steps.append(Step(line, f"{what}: {self.instance.told(before)}"))
        self.note()
        assert self.instance.agrees(), self.lines()

    def note(self) -> None:
        self.seen.states[self.instance.state or "-"] += 1
        self.seen.phases[self.instance.phase or "-"] += 1
        if self.instance.held.work:
            self.seen.works[f"{self.instance.mode} {self.instance.held.work.kind}"] += 1

    def lines(self, *more: str) -> str:
        return "\n".join([*(step.line for step in self.steps), *more])


# What the platform is likely to do with nothing in flight.
NEXT = {
    "polling": ["send"] * 6 + ["expire", "remove"],
    "cleaning": ["send"] * 6,
    "cleaning-polling": ["send"] * 6 + ["retry"],
    "ready": ["remove"],
    "unsettled": ["remove"],
}


def of_platform(instance: Instance) -> list[str]:
    """What the platform is likely to do, and what is likely to come to it."""
    if instance.state is None:
        return ["create"] * 12
    if instance.out is None:
        return NEXT.get(instance.state, [])
    events = [f"arrive {instance.attempt}"] * (1 if instance.held.work else 8)
    events += ["timeout", *(f"gateway {status}" for status in (500, 599))]
    for at, given in enumerate(instance.given):
        if given.attempt == instance.attempt:
            events += [f"take {at}"] * 6 + [f"garbled {at}"]
    return events


def of_broker(instance: Instance) -> list[str]:
    """What is likely to become of what goes on."""
    made = is_made(instance.held)
    if made is None:
        return ["give-up-waiting"] if instance.phase == "waiting" else []
    events = ["work whole" if made else "work absent"] * 4 + ["work part"]
    if instance.held.work is None:
        return events + ["finish ok"] * 6 + ["finish failed"]
    refused = ["work absent", "end refused 400", "end refused 422"] if made else []
    return events + ["end done"] * 6 + ["end before", "end after", "end-unknown"] + refused


def likely(instance: Instance) -> list[str]:
    """Events that are likely to apply, each as often as it is likely."""
    late = [f"{word} {number}" for number in range(1, len(instance.sent) + 1) for word in ("arrive", "put-off")]
    return of_platform(instance) + of_broker(instance) + ["crash-broker", "crash-platform"] + late[-8:] + late[:2]


def any_event(instance: Instance) -> list[str]:
    """Every event, whether it applies or not."""
    numbers = {
        "arrive": range(len(instance.sent) + 2),
        "put-off": range(len(instance.sent) + 2),
        "take": range(len(instance.given) + 2),
        "garbled": range(len(instance.given) + 2),
        "gateway": (0, 404, 499, 500, 502, 503, 599, 600, 65535),
    }
    return PLAIN + [f"{word} {number}" for word in NUMBERED for number in numbers[word]]
