"""Drivers of a broker for an instance that can be updated, step by step, beside any platform.

A world has a row in a database, a lock, a resource in a backend, and drivers. Each step of a driver is none or one
event of update.alone, which steps such an instance at a broker, for any platform. A step is wrong if the event doesn't
apply, if it leaves another row, or if a driver comes to an answer that it doesn't give.

What makes it hold is the invariant of `unsound`. Work or an operation of the instance and work or an operation of an
update are never there together, so one number of the row and one lock serve both: whoever has the lock and works does
the one work that goes on, and the owner, whose number the row has, knows that work's outcome only while nobody works.
"""

from __future__ import annotations

from collections.abc import Iterator
from functools import lru_cache
from typing import NamedTuple

from driver.events import COMMIT_WORDS, COMMITS, FAILED, NOT_WRITTEN, WRITTEN, answer_words, held_words
from driver.update_events import SETTINGS, changes, design_of, happen, has_work, outcomes
from driver.update_model import (
    BEGIN,
    DONE,
    TRY_LOCK,
    Asked,
    Row,
    Stage,
    Task,
    Terms,
    Transaction,
    after_commit,
    ended,
    task_of,
    transaction,
    worked,
)
from network import model as life
from network.model import Answer, Held
from update import alone
from update.alone import Cell
from update.life import Plan
from update.model import Holding


class Driver(NamedTuple):
    # Its request, or None for a take-up.
    asked: Asked | None = None
    stage: Stage = DONE
    # Whether the row has the driver's number, of either part if there is one for each.
    owns: bool = False
    owns_update: bool = False
    has_lock: bool = False
    # Whether the network answers the driver's request when the pending work ends.
    is_asker: bool = False
    # Whether the network has given the answer that the driver remembers. The driver doesn't know.
    was_given: bool = False


class World(NamedTuple):
    drivers: tuple[Driver, ...]
    cell: Cell = Cell()
    # How many requests have come.
    came: int = 0
    # Why the step to this world is wrong.
    wrong: str | None = None

    @property
    def row(self) -> Row:
        return Row(self.cell.instance, self.cell.held)

    def put(self, at: int, driver: Driver) -> World:
        """The world with this driver at this place. A driver that takes no step any more is done."""
        name = driver.stage.name
        if name in ("Answer", "Done") or name == "Work" and not driver.has_lock:
            driver = Driver()
        return World(self.drivers[:at] + (driver,) + self.drivers[at + 1 :], *self[1:])


# An instance that was created with the first settings.
MADE = Cell(instance=Held(life.Row(0, "ready")), resource="whole", held=Holding(SETTINGS[0]), thing=SETTINGS[0])

READ_WORDS = {
    "AwaitLock": "reads that it needs the lock",
    "Answer": "reads that its end was written",
    "Work": "reads that its work is pending",
    "Begin": "reads that its work isn't pending",
    "Done": "reads that nothing is left to do",
}


@lru_cache(maxsize=None)
def transaction_words(tx: Transaction) -> str:
    if tx.is_nothing:
        return READ_WORDS[tx.stage.name]
    if tx.effect == "arrive" or tx.effect.startswith("update, "):
        return "writes its work" if tx.takes_over else f"writes its answer {answer_words(tx.stage.answer)}"
    if tx.effect == "put-off":
        return f"is put off with {answer_words(tx.stage.answer)}"
    return f"writes '{tx.effect}'" if tx.effect else "writes its number"


def row_words(row: Row) -> str:
    change = f", an update {row.change.phase}" if row.change and row.change.phase != "settled" else ""
    return f"{held_words(row.instance)}{change}"


Steps = Iterator[tuple[str, World]]


class Design:
    """The steps of a world in which no part of the design is left out."""

    rules = frozenset({"u", "d"})
    # Whether the world remembers what the broker has reported.
    remembers = False

    def __init__(
        self,
        terms: Terms,
        requests: tuple[Asked, ...],
        most: int,
        drivers: int = 2,
        made: bool = True,
        puts_off: bool = False,
    ) -> None:
        self.terms, self.requests, self.most, self.puts_off = terms._replace(rules=self.rules), requests, most, puts_off
        self.start = World((Driver(),) * drivers, MADE if made else Cell())

    def steps(self, world: World) -> Steps:
        at = next((at for at, driver in enumerate(world.drivers) if driver == Driver()), None)
        if at is not None:
            yield f"driver {at + 1} begins a take-up", world.put(at, Driver(None, TRY_LOCK))
            for asked in self.requests if world.came < self.most else ():
                came = world.put(at, Driver(asked, TRY_LOCK))._replace(came=world.came + 1)
                yield f"driver {at + 1} begins for {asked.words}", came
        for at, driver in enumerate(world.drivers):
            if driver.stage != DONE:
                for word, after in self.of_driver(world, at, driver):
                    yield f"driver {at + 1} {word}", after

    def of_driver(self, world: World, at: int, driver: Driver) -> Steps:
        if driver.stage.name in ("TryLock", "AwaitLock"):
            yield from self.at_lock(world, at, driver)
        elif driver.stage.name == "Work":
            yield from self.at_work(world, at, driver)
        else:
            yield from self.transact(world, at, driver)
        if driver.has_lock:
            yield "loses the lock", world.put(at, driver._replace(has_lock=False))
        if driver.owns or driver.owns_update:
            yield "loses its number in the row", world.put(at, driver._replace(owns=False, owns_update=False))

    # ---- the lock, and the work

    def at_lock(self, world: World, at: int, driver: Driver) -> Steps:
        if self.is_free(world, driver):
            yield "gets the lock", world.put(at, driver._replace(stage=self.locked(driver), has_lock=True))
        if driver.stage == TRY_LOCK and driver.asked is not None:
            yield "goes on without the lock", world.put(at, self.unlocked(driver))
        yield "stops", world.put(at, Driver())

    def is_free(self, world: World, driver: Driver) -> bool:
        """Whether the driver can get the lock."""
        return not any(other.has_lock for other in world.drivers)

    def locked(self, driver: Driver) -> Stage:
        return BEGIN[True]

    def unlocked(self, driver: Driver) -> Driver:
        """The driver of a request that didn't get the lock at once."""
        return driver._replace(stage=BEGIN[False])

    def at_work(self, world: World, at: int, driver: Driver) -> Steps:
        task = driver.stage.task
        assert task is not None
        cell = world.cell
        settings = cell.held.settings if cell.held else cell.thing
        for resource, thing in changes(task, cell.resource, cell.thing, settings):
            word = f"works: the resource is {resource}, with {thing}"
            wrong = None if has_work(cell, task) else f"the network has no work of {task.part}"
            yield word, world._replace(cell=cell._replace(resource=resource, thing=thing), wrong=wrong)
        for outcome in self.outcomes(world.cell, task):
            yield f"sees its work end: {outcome}", world.put(at, driver._replace(stage=worked(task, outcome)))

    def outcomes(self, cell: Cell, task: Task) -> list[str]:
        """The outcomes that are true of the resource."""
        return outcomes(self.terms, cell, task)

    # ---- the transactions

    def transact(self, world: World, at: int, driver: Driver) -> Steps:
        for allowed in self.allowed(driver):
            yield from self.commit(world, at, driver, self.decide(world, driver, allowed))
        if self.puts_off and driver.asked and driver.asked.kind != "update":
            tx = self.decide(world, driver, "put off")
            if tx.effect == "put-off":
                yield from self.commit(world, at, driver, tx)

    def allowed(self, driver: Driver) -> tuple[str, ...]:
        """What the catalogue may have for the driver's Update."""
        is_update = driver.stage.name == "Begin" and driver.asked is not None and driver.asked.kind == "update"
        return (self.terms.update_mode, "rejected 400") if is_update else ("",)

    def decide(self, world: World, driver: Driver, allowed: str) -> Transaction:
        """What the transaction writes."""
        return transaction(self.terms, driver.stage, driver.asked, world.row, self.is_owner(driver), allowed)

    def is_owner(self, driver: Driver) -> bool:
        """What the comparison of the numbers says."""
        return driver.owns

    def owned(self, driver: Driver, task: Task, is_other: bool) -> Driver:
        """A driver once a number was written with the task, by itself or by another."""
        return driver._replace(owns=not is_other)

    def commit(self, world: World, at: int, driver: Driver, tx: Transaction) -> Steps:
        """The transaction, by what can become of its commit."""
        for commit in COMMITS:
            if commit != WRITTEN or not tx.is_nothing:
                yield transaction_words(tx) + COMMIT_WORDS[commit], self.committed(world, at, driver, tx, commit)

    def committed(self, world: World, at: int, driver: Driver, tx: Transaction, commit: str) -> World:
        stage = after_commit(driver.stage, driver.asked is not None, tx, commit)
        if commit in (FAILED, NOT_WRITTEN):
            return self.go_on(world, None, at, stage)
        return self.go_on(*self.write(world, at, driver, tx), at, stage)

    def write(self, world: World, at: int, driver: Driver, tx: Transaction) -> tuple[World, Answer | None]:
        """What the transaction leaves, and the answer that the network gives to this driver by its event."""
        if tx.is_nothing:
            return world, None
        event = happen(self.terms, tx.effect, driver.asked, world.cell)
        if event is None:
            return world._replace(wrong=f"the network has no '{tx.effect}'"), None
        if Row(event.cell.instance, event.cell.held) != tx.row:
            after = Row(event.cell.instance, event.cell.held)
            return (
                world._replace(wrong=f"the row has {row_words(tx.row)}, and the network has {row_words(after)}"),
                None,
            )
        drivers = world.drivers
        is_begun = tx.takes_over and tx.effect != ""
        is_ended = "end " in tx.effect
        is_mine = not is_ended or drivers[at].is_asker
        if tx.takes_over:
            task = tx.stage.task
            assert task is not None
            drivers = tuple(self.owned(other, task, here != at) for here, other in enumerate(drivers))
        if is_begun or is_ended:
            drivers = tuple(
                other._replace(is_asker=is_begun and here == at) if other != Driver() else other
                for here, other in enumerate(drivers)
            )
        cell = event.cell if self.remembers else self.forget(event.cell)
        return world._replace(drivers=drivers, cell=cell), event.answer if is_mine else None

    def forget(self, cell: Cell) -> Cell:
        """What was reported says nothing of what happens next."""
        return Cell(instance=cell.instance, resource=cell.resource, held=cell.held, thing=cell.thing)

    def go_on(self, world: World, given: Answer | None, at: int, stage: Stage) -> World:
        """The driver comes to the stage. It may answer only what the network has given to its request."""
        driver = world.drivers[at]
        is_given = given is not None and given == stage.answer
        is_given = is_given or driver.was_given and stage.answer == driver.stage.answer
        if stage.name == "Answer" and not is_given and world.wrong is None:
            world = world._replace(wrong=f"the network has given no {answer_words(stage.answer)} to the request")
        return world.put(at, driver._replace(stage=stage, was_given=is_given and stage.name == "End"))

    def broken(self, world: World) -> str | None:
        """Which promise of the broker is broken."""
        return alone.broken(design_of(self.terms), Plan(*self.terms.plan), world.cell) if self.remembers else None


# ---- what is so in each world


def unsound(terms: Terms, world: World) -> str | None:
    """What doesn't hold of the work, of the owner, whose number the row has, and of the driver that has the lock."""
    if world.row.is_updated and (world.row.instance.work is not None or task_of(Row(world.row.instance)) is not None):
        return "work of the instance and of an update are there together"
    owners = [driver for driver in world.drivers if driver.owns]
    holders = [driver for driver in world.drivers if driver.has_lock]
    if len(owners) > 1 or len(holders) > 1:
        return "two drivers have the number of the row, or the lock"
    works = any(holder.stage.name == "Work" for holder in holders)
    if any(holder.stage.name == "Work" and holder.stage.task != task_of(world.row) for holder in holders):
        return "a driver works, and other work or none goes on"
    for owner in owners:
        if works and owner.stage.name in ("End", "Finish"):
            return "a driver works, and the owner knows the outcome already"
        if not knows(terms, world, owner):
            return f"what the owner knows at {owner.stage.name} isn't so"
    return None


def knows(terms: Terms, world: World, owner: Driver) -> bool:
    """Whether what the owner knows at its stage is so."""
    stage, now = owner.stage, task_of(world.row)
    is_own = now is not None and now.is_pending and (owner.asked is None or owner.is_asker)
    if stage.name == "Unsure":
        return is_own
    if stage.name == "Work":
        return stage.task == now and (is_own or stage.task is not None and not stage.task.is_pending)
    if stage.name not in ("End", "Finish"):
        return True
    task, outcome = stage.task, stage.outcome
    assert task is not None and outcome is not None
    if stage.name == "End" and (now is None or not now.is_pending):
        return stage.answer is not None and owner.was_given
    is_true = task == now and outcome in outcomes(terms, world.cell, task)
    if stage.name == "Finish":
        return is_true
    after = ended(terms, world.row, task, outcome)
    is_same = stage.answer is None or after is not None and after[1] == stage.answer
    return is_own and is_true and is_same and not owner.was_given
