"""Drivers of a platform at an instance and at a binding of it, step by step, beside the network of binding.model.

Each of the two is a world of its own, with a row and drivers. A transaction also reads the row of the other one: a
binding is created only while its instance is recorded as ready, and an instance is removed only while its binding is
gone or isn't recorded. Credentials are numbers: each change of the resource brings another one.
"""

from __future__ import annotations

from collections.abc import Iterator
from functools import lru_cache
from typing import NamedTuple

from binding.model import Binding, Permissions
from driver import platform_world, states
from driver.events import Event, Plan
from driver.platform_model import Recorded, Stage, Transaction, take
from driver.platform_world import Credentials, Driver, Recording, Sent, World
from network.model import Answer, Given, Row

SUCCEEDED = Answer(200, "succeeded")


class Life(platform_world.Design):
    """The steps of an instance, in which no part of the design is left out."""

    # The event that the row of the other one permits.
    tied = "remove"

    def __init__(self, plan: Plan, attempts: int, drivers: int, goes_on: bool = False) -> None:
        super().__init__(plan, attempts, drivers, goes_on)
        self.permit = True
        self.known: dict[tuple[World, bool], list[tuple[str, World]]] = {}

    def after(self, world: World, permit: bool) -> list[tuple[str, World]]:
        """The steps of the world, if the row of the other one permits it, or doesn't. Drivers stand in any order."""
        if (world, permit) not in self.known:
            self.permit = permit
            self.known[world, permit] = [(self.told(word), ordered(after)) for word, after in self.steps(world)]
        return self.known[world, permit]

    def told(self, word: str) -> str:
        """The words of a step, which don't name an only driver."""
        return word if len(self.start.drivers) > 1 else word.replace("driver 1 ", "")

    def claims(self, world: World) -> list[Transaction]:
        return [tx for tx in super().claims(world) if self.tied not in tx.events or self.is_permitted()]

    def is_permitted(self) -> bool:
        return self.permit


def ordered(world: World) -> World:
    return world._replace(drivers=tuple(sorted(world.drivers, key=repr)))


# ---- a binding


class Events(NamedTuple):
    """What events of the platform are of."""

    row: Recorded | None
    recorded: int | None
    given: Given | None
    # What the driver has.
    credentials: int | None


@lru_cache(maxsize=None)
def record(of: Events, events: tuple[str, ...], retrievable: bool, create: bool) -> tuple[Recording, int | None] | None:
    """What the network records of a binding, and its credentials, or None if one of the events doesn't apply."""
    network = Binding("-", True, given=[of.given] if of.given else [], allowed=Permissions(create=create))
    network.retrievable, network.recorded = retrievable, of.recorded or 0
    network.beside, network.fetched = [of.credentials or 0], [of.credentials or 0]
    if of.row is not None:
        network.state, network.out, network.attempt = of.row
    if not all(network.happen(event) for event in events):
        return None
    assert network.state is not None
    sent = Sent(network.attempt, network.sent[-1].kind) if network.sent else None
    return Recording(Recorded(network.state, network.out, network.attempt), sent), network.recorded or None


class BindingLife(Life):
    """The steps of a binding, in which no part of the design is left out."""

    tied = "create"

    def __init__(
        self, plan: Plan, attempts: int, drivers: int, goes_on: bool = False, retrievable: bool = True
    ) -> None:
        super().__init__(plan, attempts, drivers, goes_on)
        self.retrievable = retrievable

    # ---- the broker

    def happened(self, world: World, event: str, after: Event) -> World:
        """The row takes the credentials of the resource as it becomes ready."""
        was_ready = world.held.row == Row(0, "ready")
        resource, held, recorded = world.credentials
        if event == "work whole":
            resource = 1 if resource == 2 else 2
        elif event.startswith("work "):
            resource = None
        world = super().happened(world, event, after)
        is_ready = world.held.row == Row(0, "ready")
        held = (held if was_ready else resource) if is_ready else None
        return world._replace(credentials=Credentials(resource, held, recorded))

    # ---- the drivers

    def all_steps(self, world: World) -> platform_world.Steps:
        yield from super().all_steps(world)
        for at, driver in enumerate(world.drivers):
            if driver.stage.name == "Fetch":
                yield from self.fetch(world, at, driver)

    def claims(self, world: World) -> list[Transaction]:
        return [self.and_fetches(tx) for tx in super().claims(world)]

    def and_fetches(self, tx: Transaction) -> Transaction:
        polls = tx.row is not None and tx.row.state == "polling" and tx.returned.name == "Send"
        return tx._replace(returned=tx.returned._replace(fetches=True)) if polls else tx

    def hear(self, world: World, at: int, event: str, given: Given | None) -> platform_world.Steps:
        stage = world.drivers[at].stage
        for word, after in super().hear(world, at, event, given):
            driver = after.drivers[at]
            if stage.fetches and driver.stage.answer == SUCCEEDED:
                waits = Stage("Fetch", stage.attempt, answer=driver.stage.answer)
                yield word, after.put(at, driver._replace(stage=waits))
                continue
            gives = event == "take 0" and stage.kind == "provision" and given and given.answer.status in (200, 201)
            yield f"{word}{' without its credentials' if gives else ''}", after
            if gives:
                yield word, after.put(at, driver._replace(credentials=world.credentials.held))

    def fetch(self, world: World, at: int, driver: Driver) -> platform_world.Steps:
        """The Fetch is answered, or not at all, or with credentials that can't be sealed."""
        taking = Stage("Take", driver.stage.attempt, answer=driver.stage.answer)
        yield f"driver {at + 1} fetches in vain", world.put(at, driver._replace(stage=taking))
        if world.held.row == Row(0, "ready") and world.held.work is None:
            fetched = driver._replace(stage=taking, credentials=world.credentials.held)
            yield f"driver {at + 1} fetches the credentials", world.put(at, fetched)

    def taking(self, world: World, driver: Driver) -> Transaction:
        tx = take(world.row, driver.stage._replace(answer=self.counted(world.row, driver)), driver.owns)
        return tx._replace(unsure=driver.stage, failed=driver.stage)

    def counted(self, row: Recorded | None, driver: Driver) -> Answer | None:
        """The answer that counts: one whose credentials nobody would have is lost."""
        answer = driver.stage.answer
        if row is None or row.out is None or answer is None:
            return answer
        return None if self.is_useless(row, answer) or self.lacks(row, driver, answer) else answer

    def is_useless(self, row: Recorded, answer: Answer) -> bool:
        return not self.retrievable and row.out == "provision" and answer.status == 202

    def lacks(self, row: Recorded, driver: Driver, answer: Answer) -> bool:
        made = take(row, driver.stage._replace(answer=answer, attempt=row.attempt), True).row
        return made is not None and made.state == "ready" and driver.credentials is None

    # ---- what is written

    def recording(self, world: World, driver: Driver, events: tuple[str, ...]) -> Recording | None:
        found = self.network(world, driver, events)
        return found and found[0]

    def network(self, world: World, driver: Driver, events: tuple[str, ...]) -> tuple[Recording, int | None] | None:
        """The answer that ends the polling is taken together with that to the Fetch."""
        ends = world.row is not None and world.row.state == "polling" and driver.stage.answer == SUCCEEDED
        events = tuple("take-fetched 0 0" if event == "take 0" and ends else event for event in events)
        of = Events(world.row, world.credentials.recorded, driver.given, driver.credentials)
        return record(of, events, self.retrievable, self.permit)

    def write(self, world: World, at: int, tx: Transaction) -> World:
        after = super().write(world, at, tx)
        if after.row == world.row:
            return after
        driver = world.drivers[at]
        recorded = self.beside(world, after.row, driver.credentials)
        after = after._replace(credentials=after.credentials._replace(recorded=recorded))
        found = self.network(world, driver, tuple(driver.event if event == "answer" else event for event in tx.events))
        is_other = found is not None and found[1] != recorded
        return self.is_wrong(after, "the network records other credentials" if is_other else None)

    def beside(self, world: World, row: Recorded | None, new: int | None) -> int | None:
        """The credentials beside the row: written as it becomes ready, and forgotten once it isn't any more."""
        if row is None or row.state != "ready":
            return None
        return world.credentials.recorded if world.row and world.row.state == "ready" else new


# ---- both


class Both(NamedTuple):
    drivers: tuple[Driver, ...]
    instance: World
    binding: World
    wrong: str | None = None


Steps = Iterator[tuple[str, Both]]


class Design:
    """The steps of both in which no part of the design is left out."""

    life: type[Life] = Life
    binding_life: type[BindingLife] = BindingLife

    def __init__(self, instance: Life, binding: BindingLife) -> None:
        self.instance, self.binding = instance, binding
        self.start = Both((), instance.start, binding.start)

    @classmethod
    def of(
        cls, instance: Plan, binding: Plan, drivers: int = 1, goes_on: bool = False, retrievable: bool = True
    ) -> Design:
        """Of so many drivers at each of both."""
        attempts = 2 if binding.mode == "sync" else 3
        return cls(
            cls.life(instance, 2 if instance.mode == "sync" else 3, drivers, goes_on),
            cls.binding_life(binding, attempts, drivers, goes_on, retrievable),
        )

    def steps(self, both: Both) -> Steps:
        for word, after in self.instance.after(both.instance, is_at_rest(both.binding.row)):
            yield f"instance: {word}", Both((), after, both.binding, after.wrong)
        for word, after in self.binding.after(both.binding, is_ready(both.instance.row)):
            yield f"binding: {word}", Both((), both.instance, after, after.wrong)


def is_at_rest(row: Recorded | None) -> bool:
    return row is None or row.state == "gone"


def is_ready(row: Recorded | None) -> bool:
    return row is not None and row.state == "ready"


def broken(both: Both) -> str | None:
    """What is promised of an instance and a binding, and isn't so."""
    instance, binding = both.instance, both.binding
    for life in (instance, binding):
        wrong = states.disagreement(life.row and life.row.state, life.held, life.resource)
        if wrong is not None:
            return wrong
    if is_ready(binding.row) and (binding.credentials.recorded or 0) != binding.credentials.resource:
        return "recorded as ready, and not with its credentials"
    somewhere = binding.held.row is not None or binding.held.work is not None or binding.resource != "absent"
    is_there = instance.held.row == Row(0, "ready") and instance.held.work is None and instance.resource == "whole"
    return "a binding is held or exists, and its instance isn't there, complete" if somewhere and not is_there else None
