"""Drivers of a broker at one instance, step by step, beside the network of network.model.

A world has a row in a database, a lock, a resource in a backend, and drivers. Each step of a driver is none or one
event of the network. A step is wrong if the network doesn't have the event, or if the event leaves another row.
"""

from __future__ import annotations

from collections.abc import Iterator
from functools import lru_cache
from typing import NamedTuple

from driver import states
from driver.broker_model import BEGIN, DONE, TRY_LOCK, Stage, Task, Transaction, after_commit, transaction, worked
from driver.events import (
    COMMIT_WORDS,
    COMMITS,
    FAILED,
    GATEWAY,
    NOT_WRITTEN,
    REQUESTS,
    WRITTEN,
    Plan,
    answer_words,
    can_have_ended,
    happen,
    held_words,
)
from network import model
from network.model import Answer, Given, Held, Request


class Driver(NamedTuple):
    # The attempt of its request, or 0 for a take-up.
    attempt: int = 0
    stage: Stage = DONE
    # Whether the row has the driver's number.
    owns: bool = False
    has_lock: bool = False
    # Whether the network has given the answer that the driver remembers. The driver doesn't know.
    was_given: bool = False
    # A transaction that it has decided on and not written yet, and one whose commit is unsure and that can still be
    # written. No driver of the design has them.
    held_back: Transaction | None = None
    late: Transaction | None = None


class World(NamedTuple):
    drivers: tuple[Driver, ...]
    # What the platform records, the kind of its request in flight, and the kinds of all requests, by their attempts.
    state: str | None = None
    out: str | None = None
    sent: tuple[str, ...] = ()
    # The answers that were given to the request in flight.
    answers: frozenset[Answer] = frozenset()
    row: Held = Held()
    resource: str = "absent"
    # The attempt that the network answers when the pending work ends.
    worker: int | None = None
    # The row before the latest commit that returned. No database of the design remembers it.
    before: Held | None = None
    # Why the step to this world is wrong.
    wrong: str | None = None

    def put(self, at: int, driver: Driver) -> World:
        """The world with this driver at this place.

        A driver that takes no step any more is done, and what it has is as good as free: a lock can be lost at any
        time, and a driver compares the number of the row with its own alone.
        """
        name = driver.stage.name
        if name in ("Answer", "Done") or name == "Work" and not driver.has_lock:
            driver = Driver() if driver.late is None else Driver(driver.attempt, late=driver.late)
        return World(self.drivers[:at] + (driver,) + self.drivers[at + 1 :], *self[1:])

    def request(self, driver: Driver) -> Request | None:
        return REQUESTS[self.sent[driver.attempt - 1]] if driver.attempt else None

    def with_answer(self, attempt: int, answer: Answer) -> World:
        """The platform can take the answer, if it is to the request in flight."""
        if self.out is None or attempt != len(self.sent):
            return self
        return self._replace(answers=self.answers | {answer})


# ---- words


# What a transaction reads that writes nothing, by the stage that comes next.
READ_WORDS = {
    "AwaitLock": "reads that it needs the lock",
    "Answer": "reads that its end was written",
    "Work": "reads that its work is pending",
    "Begin": "reads that its work isn't pending",
    "Done": "reads that nothing is left to do",
}


@lru_cache(maxsize=None)
def transaction_words(tx: Transaction) -> str:
    if tx.is_nothing:
        return READ_WORDS[tx.stage.name]
    if tx.effect == "arrive":
        return "writes its work" if tx.takes_over else f"writes its answer {answer_words(tx.stage.answer)}"
    if tx.effect == "put-off":
        return f"is put off with {answer_words(tx.stage.answer)}"
    return f"writes '{tx.effect}'" if tx.effect else "writes its number"


# ---- the steps

Steps = Iterator[tuple[str, World]]


class Design:
    """The steps of a world in which no part of the design is left out."""

    def __init__(self, plan: Plan, attempts: int, drivers: int, puts_off: bool = True) -> None:
        self.plan, self.attempts, self.puts_off = plan, attempts, puts_off
        self.start = World((Driver(),) * drivers)

    def steps(self, world: World) -> Steps:
        yield from self.of_platform(world)
        yield from self.arrivals(world)
        for at, driver in enumerate(world.drivers):
            if driver.stage != DONE:
                for word, after in self.of_driver(world, at, driver):
                    yield f"driver {at + 1} {word}", after

    def of_platform(self, world: World) -> Steps:
        """The platform, and the network between both sides."""
        state, out = world.state, world.out
        if state is None:
            yield "the platform sends a provision", world._replace(state="wanted", out="provision", sent=("provision",))
            return
        if out is not None:
            taken = world._replace(out=None, answers=frozenset())
            yield "the request times out", taken._replace(state="cleaning" if state == "wanted" else state)
            garbled = {Answer(answer.status, "malformed") for answer in world.answers}
            for answer in sorted(world.answers | garbled | {GATEWAY}):
                after = model.state_after(state, out, answer)
                yield f"the platform takes {answer_words(answer)}", taken._replace(state=after)
            return
        if state in model.DUE and len(world.sent) < self.attempts:
            kind = model.DUE[state]
            yield f"the platform sends a {kind}", world._replace(out=kind, sent=(*world.sent, kind))
        if state in ("polling", "cleaning-polling", "ready", "unsettled"):
            yield "the platform cleans up", world._replace(state="cleaning")

    def arrivals(self, world: World) -> Steps:
        """A request arrives, for the first time or again, or a take-up begins. A driver that is done makes room."""
        at = next((at for at, driver in enumerate(world.drivers) if driver == Driver()), None)
        if at is not None:
            for attempt in range(len(world.sent) + 1):
                word = f"begins for attempt {attempt}" if attempt else "begins a take-up"
                yield f"driver {at + 1} {word}", world.put(at, Driver(attempt, TRY_LOCK))

    def of_driver(self, world: World, at: int, driver: Driver) -> Steps:
        if driver.stage.name in ("TryLock", "AwaitLock"):
            yield from self.at_lock(world, at, driver)
        elif driver.stage.name == "Work":
            yield from self.at_work(world, at, driver)
        else:
            yield from self.transact(world, at, driver)
        if driver.has_lock:
            yield "loses the lock", world.put(at, driver._replace(has_lock=False))
        if driver.owns:
            yield "loses its number in the row", world.put(at, driver._replace(owns=False))

    # ---- the lock, and the work

    def at_lock(self, world: World, at: int, driver: Driver) -> Steps:
        if self.is_free(world):
            yield "gets the lock", world.put(at, driver._replace(stage=BEGIN[True], has_lock=True))
        if driver.stage == TRY_LOCK and driver.attempt:
            yield "goes on without the lock", world.put(at, self.unlocked(driver))
        # A driver that stops at a transaction is one whose commit fails.
        yield "stops", world.put(at, Driver())

    def is_free(self, world: World) -> bool:
        """Whether a driver can get the lock."""
        return not any(driver.has_lock for driver in world.drivers)

    def unlocked(self, driver: Driver) -> Driver:
        """The driver of a request that didn't get the lock at once."""
        return driver._replace(stage=BEGIN[False])

    def at_work(self, world: World, at: int, driver: Driver) -> Steps:
        task = driver.stage.task
        assert task is not None
        for resource in model.RESOURCES:
            if resource != world.resource:
                event = happen(self.plan, f"work {resource}", 0, None, world.row, world.worker, world.resource)
                wrong = None if event else f"the network has no 'work {resource}'"
                yield f"works: the resource is {resource}", world._replace(resource=resource, wrong=wrong)
        for outcome in self.outcomes(task, world.resource):
            yield f"sees its work end: {outcome}", world.put(at, driver._replace(stage=worked(task, outcome)))

    def outcomes(self, task: Task, resource: str) -> list[str]:
        """The outcomes that are true of the resource."""
        if isinstance(task, Request):
            return [outcome for outcome in model.OUTCOMES if can_have_ended(self.plan.mode, task, outcome, resource)]
        return ["failed", "ok"] if resource == {"making": "whole", "deleting": "absent"}[task] else ["failed"]

    # ---- the transactions

    def transact(self, world: World, at: int, driver: Driver) -> Steps:
        yield from self.commit(world, at, driver, self.decide(world, driver))
        tx = self.decide(world, driver, may_begin=not self.puts_off)
        if tx.effect == "put-off":
            yield from self.commit(world, at, driver, tx)

    def decide(self, world: World, driver: Driver, may_begin: bool = True) -> Transaction:
        """What the transaction writes. Whether something may begin depends on what else it reads."""
        request, is_owner = world.request(driver), self.is_owner(driver)
        return transaction(self.plan, driver.stage, request, world.row, is_owner, may_begin)

    def is_owner(self, driver: Driver) -> bool:
        """What the comparison of the numbers says."""
        return driver.owns

    def has_own_number(self, driver: Driver) -> bool:
        """Whether no other driver has the number that this driver writes."""
        return True

    def commit(self, world: World, at: int, driver: Driver, tx: Transaction) -> Steps:
        """The transaction, by what can become of its commit."""
        for commit in COMMITS:
            if commit != WRITTEN or not tx.is_nothing:
                yield transaction_words(tx) + COMMIT_WORDS[commit], self.committed(world, at, driver, tx, commit)

    def committed(self, world: World, at: int, driver: Driver, tx: Transaction, commit: str) -> World:
        stage = after_commit(driver.stage, driver.attempt > 0, tx, commit)
        if commit in (FAILED, NOT_WRITTEN):
            return self.go_on(world, None, at, stage)
        return self.go_on(*self.write(world, at, driver, tx), at, stage)

    def write(self, world: World, at: int, driver: Driver, tx: Transaction) -> tuple[World, Given | None]:
        """What the transaction leaves, and the answer that the network gives by its event."""
        if tx.is_nothing:
            return world, None
        request = world.request(driver)
        event = happen(self.plan, tx.effect, driver.attempt, request, world.row, world.worker, world.resource)
        if event is None:
            return world._replace(wrong=f"the network has no '{tx.effect}'"), None
        if event.held != tx.row:
            wrong = f"the row has {held_words(tx.row)}, and the network has {held_words(event.held)}"
            return world._replace(wrong=wrong), None
        drivers = world.drivers
        if tx.takes_over:
            is_shared = not self.has_own_number(driver)
            drivers = tuple(
                other._replace(owns=here == at or is_shared and other.owns) for here, other in enumerate(drivers)
            )
        world = world._replace(drivers=drivers, row=tx.row, worker=event.worker)
        return (world if event.given is None else world.with_answer(*event.given)), event.given

    def go_on(self, world: World, given: Given | None, at: int, stage: Stage) -> World:
        """The driver comes to the stage. It may answer only what the network has given to its attempt, either by this
        event, or by the earlier one whose commit is unsure.
        """
        driver = world.drivers[at]
        is_given = given == (driver.attempt, stage.answer) or driver.was_given and stage.answer == driver.stage.answer
        if stage.name == "Answer" and not is_given and world.wrong is None:
            wrong = f"the network has given no {answer_words(stage.answer)} to attempt {driver.attempt}"
            world = world._replace(wrong=wrong)
        return world.put(at, driver._replace(stage=stage, was_given=is_given and stage.name == "End"))


# ---- what is so in each world


def disagreement(world: World) -> str | None:
    return states.disagreement(world.state, world.row, world.resource)


def unsound(plan: Plan, world: World) -> str | None:
    """What doesn't hold of the owner, whose number the row has, and of the driver that has the lock."""
    owners = [driver for driver in world.drivers if driver.owns]
    holders = [driver for driver in world.drivers if driver.has_lock]
    if len(owners) > 1 or len(holders) > 1:
        return "two drivers have the number of the row, or the lock"
    works = any(holder.stage.name == "Work" for holder in holders)
    if works and model.is_made(world.row) is None:
        return "a driver works, and no work is pending and no operation runs"
    for owner in owners:
        if works and owner.stage.name in ("End", "Finish"):
            return "a driver works, and the owner knows the outcome already"
        if not knows(plan, world, owner):
            return f"what the owner knows at {owner.stage.name} isn't so"
    return None


def knows(plan: Plan, world: World, owner: Driver) -> bool:
    """Whether what the owner knows at its stage is so."""
    row, work, _, _ = world.row
    name, _, task, outcome, earlier = owner.stage
    # The pending work is that of the owner's request, which the network will answer. A take-up has no request.
    is_own = work is not None and (owner.attempt == 0 or (work, world.worker) == (world.request(owner), owner.attempt))
    if name == "Unsure":
        return is_own
    if name == "Work" and isinstance(task, Request):
        return is_own and work == task
    if name == "Work":
        return work is None and row is not None and row.phase == task
    if name == "Finish":
        whole = {True: "whole", False: "absent", None: "-"}[model.is_made(world.row)]
        return work is None and whole != "-" and (outcome == "failed" or world.resource == whole)
    if name != "End":
        return True
    assert outcome is not None
    if work is None:
        return earlier is not None and owner.was_given
    ended = model.end(plan.mode, world.row, outcome)
    is_same = earlier is None or ended is not None and ended[1] == earlier
    return is_own and is_same and not owner.was_given and can_have_ended(plan.mode, work, outcome, world.resource)
