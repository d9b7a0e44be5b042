"""Drivers of a platform at one instance, step by step, beside the network of network.model.

A world has the row of the platform, its drivers, and all of the broker's side. Each transaction is some events of the
network. A step is wrong if the network doesn't have the events, or if the events leave another row.

A driver gets an answer when the answer is given, or not at all. That leaves out nothing: a driver may run its last
transaction at any later time, and nobody sees before whether it has the answer.
"""

from __future__ import annotations

from collections.abc import Iterator
from functools import lru_cache
from typing import NamedTuple

from driver import states
from driver.events import (
    COMMIT_WORDS,
    COMMITS,
    FAILED,
    GATEWAY,
    NOT_WRITTEN,
    REQUESTS,
    RETURNED,
    WRITTEN,
    Event,
    Plan,
    answer_words,
    happen,
)
from driver.platform_model import DONE, Recorded, Stage, Transaction, claims, take
from network import model
from network.model import Answer, Given, Held, Instance


class Driver(NamedTuple):
    stage: Stage = DONE
    # At Take: the event of the network by which the answer is taken, and the answer as it was given.
    event: str = ""
    given: Given | None = None
    # At Unsure: whether the row has the driver's number.
    owns: bool = False
    # At Take, of a binding: the credentials that it has, sealed.
    credentials: int | None = None
    # A transaction that it has decided on and not written yet, and one whose commit is unsure and that can still be
    # written. No driver of the design has them.
    held_back: Transaction | None = None
    late: tuple[Driver, Transaction] | None = None


class Sent(NamedTuple):
    """A request."""

    attempt: int
    kind: str


class Credentials(NamedTuple):
    """Those of a binding: of the resource, beside the broker's row, and beside the platform's."""

    resource: int | None = None
    held: int | None = None
    recorded: int | None = None


class World(NamedTuple):
    drivers: tuple[Driver, ...]
    row: Recorded | None = None
    # All requests that were ever sent.
    sent: tuple[Sent, ...] = ()
    held: Held = Held()
    resource: str = "absent"
    # The attempt that the network answers when the pending work ends, if a driver waits for that.
    worker: int | None = None
    credentials: Credentials = Credentials()
    # The row before the latest commit that returned. No database of the design remembers it.
    before: tuple[Recorded | None, ...] = ()
    # Why the step to this world is wrong.
    wrong: str | None = None

    def put(self, at: int, driver: Driver) -> World:
        """The world with this driver at this place."""
        if driver.stage == DONE:
            driver = Driver(held_back=driver.held_back, late=driver.late)
        return World(self.drivers[:at] + (driver,) + self.drivers[at + 1 :], *self[1:])


# ---- the events of the network


class Recording(NamedTuple):
    """What events of the network leave at the platform, and the request that they send."""

    row: Recorded
    sent: Sent | None


@lru_cache(maxsize=None)
def record(row: Recorded | None, events: tuple[str, ...], given: Given | None) -> Recording | None:
    """The events of the platform, or None if one of them doesn't apply."""
    network = Instance("-", True, given=[given] if given else [])
    if row is not None:
        network.state, network.out, network.attempt = row
    if not all(network.happen(event) for event in events):
        return None
    assert network.state is not None
    sent = Sent(network.attempt, network.sent[-1].kind) if network.sent else None
    return Recording(Recorded(network.state, network.out, network.attempt), sent)


# ---- words


def row_words(row: Recorded | None) -> str:
    if row is None:
        return "nothing"
    return f"{row.state}, attempt {row.attempt}" + (f" in flight, a {row.out}" if row.out else "")


def transaction_words(driver: Driver, tx: Transaction) -> str:
    stage = driver.stage
    if stage.name not in ("Take", "Unsure"):
        sent = f" {tx.row.out} {tx.row.attempt}" if tx.row and tx.returned.name == "Send" else ""
        return f"claims: {', '.join(tx.events) or 'again,'}{sent}"
    if tx.events:
        return f"takes {answer_words(stage.answer)}" if stage.answer else f"gives attempt {stage.attempt} up"
    return f"finds that attempt {stage.attempt} isn't in flight"


BROKER_WORDS = {
    **{f"end {outcome}": f"the work ends: {outcome}" for outcome in model.OUTCOMES},
    **{f"work {resource}": f"the work leaves the resource {resource}" for resource in model.RESOURCES},
    "finish ok": "the operation succeeds",
    "finish failed": "the operation fails",
    "end-unknown": "nobody knows how the work went",
    "give-up-waiting": "the broker stops waiting for the first Poll",
    "crash-broker": "the broker crashes",
}


# ---- the steps

Steps = Iterator[tuple[str, World]]


class Design:
    """The steps of a world in which no part of the design is left out."""

    def __init__(self, plan: Plan, attempts: int, drivers: int, goes_on: bool = False) -> None:
        """goes_on is whether a step that isn't the network's is no wrong step: the program does it all the same."""
        self.plan, self.attempts, self.goes_on = plan, attempts, goes_on
        self.start = World((Driver(),) * drivers)

    def steps(self, world: World) -> Steps:
        for word, after in self.all_steps(world):
            waits = after.worker is not None and any(self.can_hear(driver, after.worker) for driver in after.drivers)
            yield word, after if waits else after._replace(worker=None)

    def all_steps(self, world: World) -> Steps:
        yield from self.of_broker(world)
        free = next((at for at, driver in enumerate(world.drivers) if driver == Driver()), None)
        if free is not None:
            yield from self.claim(world, free)
        for at, driver in enumerate(world.drivers):
            if driver.stage.name == "Send":
                yield from self.hear(world, at, "timeout", None)
                for answer in self.of_gateways():
                    yield from self.hear(world, at, f"gateway {answer.status}", Given(driver.stage.attempt, answer))
            elif driver.stage.name in ("Take", "Unsure"):
                yield from self.take(world, at)
            if driver.stage != DONE:
                # Its process was killed, or the time of its exchange is over.
                yield f"driver {at + 1} stops", world.put(at, Driver())

    # ---- the broker, and the network between both sides

    def of_broker(self, world: World) -> Steps:
        for sent in world.sent:
            yield from self.happen(world, "arrive", f"the {sent.kind} {sent.attempt} arrives", sent)
            yield from self.happen(world, "put-off", f"the {sent.kind} {sent.attempt} is put off", sent)
        for event, word in BROKER_WORDS.items():
            yield from self.happen(world, event, word)

    def happen(self, world: World, event: str, word: str, sent: Sent | None = None) -> Steps:
        """The event, if it applies. A driver that waits for the answer gets it, or gets it garbled, or not at all."""
        attempt, request = (sent.attempt, REQUESTS[sent.kind]) if sent else (0, None)
        after = happen(self.plan, event, attempt, request, world.held, world.worker, world.resource)
        if after is None:
            return
        world = self.happened(world, event, after)
        yield word, world
        if after.given is None:
            return
        for at, driver in enumerate(world.drivers):
            if self.can_hear(driver, after.given.attempt):
                for event in ("take 0", "garbled 0"):
                    for words, heard in self.hear(world, at, event, after.given):
                        yield f"{word}, and {words}", heard

    def happened(self, world: World, event: str, after: Event) -> World:
        """What the event leaves at the broker."""
        resource = event.removeprefix("work ") if event.startswith("work ") else world.resource
        return world._replace(held=after.held, worker=after.worker, resource=resource)

    def of_gateways(self) -> list[Answer]:
        return [GATEWAY]

    def can_hear(self, driver: Driver, attempt: int) -> bool:
        """Whether the driver waits for an answer to this attempt."""
        return driver.stage.name == "Send" and driver.stage.attempt == attempt

    def hear(self, world: World, at: int, event: str, given: Given | None) -> Steps:
        """The driver gets this answer, or none."""
        driver = world.drivers[at]
        answer = given and self.as_read(driver.stage.kind, event, given.answer)
        stage = Stage("Take", driver.stage.attempt, answer=answer)
        word = f"gets {answer_words(answer)}" if answer else "gets no answer"
        word += " of a gateway" if event.startswith("gateway") else ""
        yield f"driver {at + 1} {word}", world.put(at, driver._replace(stage=stage, event=event, given=given))

    def as_read(self, kind: str | None, event: str, answer: Answer) -> Answer:
        """The answer to a request of the kind, as the platform reads it."""
        return answer if event == "take 0" else Answer(answer.status, "malformed")

    # ---- the transactions

    def claim(self, world: World, at: int) -> Steps:
        for tx in self.claims(world):
            yield from self.commit(world, at, tx)

    def claims(self, world: World) -> list[Transaction]:
        """What a first transaction can write, by what the program wishes."""
        return claims(world.row, self.attempts)

    def take(self, world: World, at: int) -> Steps:
        yield from self.commit(world, at, self.taking(world, world.drivers[at]))

    def taking(self, world: World, driver: Driver) -> Transaction:
        """What the last transaction writes."""
        return take(world.row, driver.stage, driver.owns)

    def commit(self, world: World, at: int, tx: Transaction) -> Steps:
        """The transaction, by what can become of its commit."""
        for commit in COMMITS:
            if tx.events or commit == RETURNED:
                word = transaction_words(world.drivers[at], tx) + COMMIT_WORDS[commit]
                yield f"driver {at + 1} {word}", self.committed(world, at, tx, commit)

    def committed(self, world: World, at: int, tx: Transaction, commit: str) -> World:
        stage = {RETURNED: tx.returned, FAILED: tx.failed}.get(commit, tx.unsure)
        if commit in (FAILED, NOT_WRITTEN):
            return self.go_on(world, at, stage)
        return self.go_on(self.write(world, at, tx), at, stage, owns=commit == WRITTEN)

    def write(self, world: World, at: int, tx: Transaction) -> World:
        """What the transaction leaves."""
        if not tx.events:
            return world
        driver = world.drivers[at]
        events = tuple(driver.event if event == "answer" else event for event in tx.events)
        after = self.recording(world, driver, events)
        wrong = None
        if after is None:
            wrong = f"the network has no '{', '.join(tx.events)}'"
        elif after.row != tx.row:
            wrong = f"the row has {row_words(tx.row)}, and the network has {row_words(after.row)}"
        elif driver.stage.name == "Unsure" and not driver.owns:
            wrong = "it gives up the request of another driver"
        drivers = tuple(driver._replace(owns=False) for driver in world.drivers)
        world = self.and_sent(world._replace(drivers=drivers, row=tx.row), after and after.sent)
        return self.is_wrong(world, wrong)

    def recording(self, world: World, driver: Driver, events: tuple[str, ...]) -> Recording | None:
        """What the network records after the events."""
        return record(world.row, events, driver.given)

    def and_sent(self, world: World, sent: Sent | None) -> World:
        return world if sent is None or sent in world.sent else world._replace(sent=(*world.sent, sent))

    def is_wrong(self, world: World, wrong: str | None) -> World:
        return world if wrong is None or world.wrong or self.goes_on else world._replace(wrong=wrong)

    def go_on(self, world: World, at: int, stage: Stage, owns: bool = False) -> World:
        """The driver comes to the stage. It may send only what the network has sent."""
        driver = world.drivers[at]
        if stage.name == "Send" and stage.kind is not None:
            sent = Sent(stage.attempt, stage.kind)
            wrong = None if sent in world.sent else f"the network has sent no {sent.kind} {sent.attempt}"
            world = self.and_sent(self.is_wrong(world, wrong), sent)
        if stage == driver.stage:
            return world
        return world.put(at, driver._replace(stage=stage, owns=owns and stage.name == "Unsure"))


# ---- what is so in each world


def disagreement(world: World) -> str | None:
    return states.disagreement(world.row and world.row.state, world.held, world.resource)


def unsound(world: World) -> str | None:
    """What doesn't hold of the row and of the drivers."""
    row = world.row
    if row is not None:
        if row.out not in (None, "provision" if row.state == "wanted" else model.DUE.get(row.state)):
            return f"a {row.out} is in flight, and the row is {row.state}"
        if row.state == "wanted" and row.out is None or row.attempt != len(world.sent):
            return "the row isn't that of the latest request"
    waiting = [driver.stage.attempt for driver in world.drivers if driver.stage.name == "Send"]
    if len(waiting) != len(set(waiting)):
        return "two drivers wait for the answer to one request"
    if any(driver.given and driver.given.attempt != driver.stage.attempt for driver in world.drivers):
        return "a driver takes the answer to another request"
    return None


# ---- rounds without a fault


class Rounds:
    """Whether what is due comes to an end in three rounds, of one driver each."""

    def __init__(self, design: Design) -> None:
        self.design = type(design)(design.plan, design.attempts + 3, 1)
        self.known: dict[tuple[Recorded | None, Held, str], bool] = {}

    def stuck(self, world: World) -> str | None:
        here = world.row, world.held, world.resource
        if here not in self.known:
            self.known[here] = self.end(World((Driver(),), world.row, world.sent, world.held, world.resource))
        return None if self.known[here] else "three rounds don't bring the instance to an end"

    def end(self, world: World) -> bool:
        for _ in range(3):
            world = self.round(world)
        return world.row is None or world.row.out is None and world.row.state in model.SETTLED

    def round(self, world: World) -> World:
        """What goes on goes well. Then the request that is due is sent, and answered."""
        world, _ = self.go_well(world)
        due = [claim for claim in self.design.claims(world) if claim.events in (("send",), ("timeout", "send"))]
        if not due:
            return world
        world = self.design.committed(world, 0, due[0], RETURNED)
        assert world.row is not None and world.row.out is not None
        request, attempt = REQUESTS[world.row.out], world.row.attempt
        arrived = happen(self.design.plan, "arrive", attempt, request, world.held, None, world.resource)
        assert arrived is not None
        world = world._replace(held=arrived.held, worker=arrived.worker)
        world, given = (world, arrived.given) if arrived.given else self.go_well(world)
        for _, world in self.design.hear(world, 0, "take 0", given):
            world = self.design.committed(world, 0, self.design.taking(world, world.drivers[0]), RETURNED)
        return world

    def go_well(self, world: World) -> tuple[World, Given | None]:
        made, given = model.is_made(world.held), None
        if made is not None:
            world = world._replace(resource="whole" if made else "absent")
        for event in ("end done", "finish ok"):
            after = happen(self.design.plan, event, 0, None, world.held, world.worker, world.resource)
            if after is not None:
                world, given = world._replace(held=after.held, worker=after.worker), after.given or given
        return world, given
