"""Designs without a part. Each class leaves out one obligation of the drivers, of the database, of the lock or of the
program that carries out what a driver says.
"""

from __future__ import annotations

from driver.broker_model import BEGIN, Task, Transaction, answering, worked
from driver.broker_world import Design, Driver, Steps, World
from driver.events import FAILED, NOT_WRITTEN, RETURNED, WRITTEN, answer_words
from network.model import Held

# ---- the database, and what waits for its commits


class UndoneCommit(Design):
    """A power cut undoes a commit that has returned."""

    def steps(self, world: World) -> Steps:
        yield from super().steps(world)
        if world.before is not None:
            drivers = (Driver(),) * len(world.drivers)
            yield "a power cut undoes the latest commit", world._replace(drivers=drivers, row=world.before, before=None)

    def committed(self, world: World, at: int, driver: Driver, tx: Transaction, commit: str) -> World:
        after = super().committed(world, at, driver, tx, commit)
        return after._replace(before=world.row) if commit == RETURNED and after.row != world.row else after


class DeletedTombstone(Design):
    """A row with a tombstone is deleted."""

    def steps(self, world: World) -> Steps:
        yield from super().steps(world)
        if world.row.tombstone:
            yield "the row with the tombstone is deleted", world._replace(row=Held())


class UnlockedRow(Design):
    """Between a transaction's read and its write, another transaction writes."""

    def transact(self, world: World, at: int, driver: Driver) -> Steps:
        if driver.held_back is None:
            yield "reads the row", world.put(at, driver._replace(held_back=self.decide(world, driver)))
        else:
            yield from self.commit(world.put(at, driver._replace(held_back=None)), at, driver, driver.held_back)


class UncommittedRead(Design):
    """A transaction reads what another one hasn't committed yet."""

    def commit(self, world: World, at: int, driver: Driver, tx: Transaction) -> Steps:
        yield from super().commit(world, at, driver, tx)
        for other, reader in enumerate(world.drivers):
            if other != at and reader.attempt and reader.stage.name == "Begin" and tx.row != world.row:
                read = self.decide(world._replace(row=tx.row), reader)
                if read.stage.answer is not None:
                    word = f"hasn't committed, and driver {other + 1} answers {answer_words(read.stage.answer)}"
                    yield word, self.go_on(world, None, other, read.stage)


class LateCommit(Design):
    """A transaction whose commit is unsure is written after its driver has read the row again."""

    def steps(self, world: World) -> Steps:
        yield from super().steps(world)
        for at, driver in enumerate(world.drivers):
            if driver.late is not None:
                here = driver._replace(late=None)
                after, given = self.write(world.put(at, here), at, here, driver.late)
                word = f"the unsure commit of driver {at + 1} is written late"
                yield word, self.go_on(after, given, at, driver.stage)

    def committed(self, world: World, at: int, driver: Driver, tx: Transaction, commit: str) -> World:
        if commit == NOT_WRITTEN and not tx.is_nothing:
            world = world.put(at, driver._replace(late=tx))
        return super().committed(world, at, driver, tx, commit)


class LateCommitAtUnsure(LateCommit):
    """At Unsure, a driver reads the row without waiting for transactions whose commit is unsure. All others wait."""

    def transact(self, world: World, at: int, driver: Driver) -> Steps:
        if driver.stage.name != "Unsure":
            for here, other in enumerate(world.drivers):
                world = world.put(here, other._replace(late=None))
        yield from super().transact(world, at, world.drivers[at])


class WorkBeforeCommit(Design):
    """The work begins before its row is committed."""

    def commit(self, world: World, at: int, driver: Driver, tx: Transaction) -> Steps:
        yield from super().commit(world, at, driver, tx)
        if tx.takes_over:
            yield "begins its work before the commit", self.go_on(world, None, at, tx.stage)


class AnswerBeforeCommit(Design):
    """An answer is sent before its row is committed."""

    def commit(self, world: World, at: int, driver: Driver, tx: Transaction) -> Steps:
        yield from super().commit(world, at, driver, tx)
        answer = tx.stage.answer
        if answer is not None and tx.row != world.row:
            after = world.with_answer(driver.attempt, answer).put(at, Driver())
            yield f"answers {answer_words(answer)} before the commit", after


class UnsureCommitCounts(Design):
    """A commit that is unsure counts as one that returned."""

    def committed(self, world: World, at: int, driver: Driver, tx: Transaction, commit: str) -> World:
        if commit == NOT_WRITTEN:
            return self.go_on(world, None, at, tx.stage)
        return super().committed(world, at, driver, tx, RETURNED if commit == WRITTEN else commit)


class FailedCommitCounts(Design):
    """A commit that failed counts as one that returned."""

    def committed(self, world: World, at: int, driver: Driver, tx: Transaction, commit: str) -> World:
        if commit == FAILED:
            return self.go_on(world, None, at, tx.stage)
        return super().committed(world, at, driver, tx, commit)


# ---- the lock


class WorkWithoutLock(Design):
    """A request that didn't get the lock works all the same."""

    def unlocked(self, driver: Driver) -> Driver:
        return driver._replace(stage=BEGIN[True], has_lock=True)


class WorkOutlivesLock(Design):
    """The lock is freed while its work goes on."""

    def is_free(self, world: World) -> bool:
        return not any(driver.has_lock and driver.stage.name != "Work" for driver in world.drivers)


# ---- the number


class UncomparedNumber(Design):
    """The last transaction doesn't compare the number."""

    def is_owner(self, driver: Driver) -> bool:
        return driver.owns or driver.stage.name in ("End", "Finish")


class UncomparedNumberAfterUnsureEnd(Design):
    """After an end whose commit is unsure, the last transaction doesn't compare the number."""

    def is_owner(self, driver: Driver) -> bool:
        return driver.owns or driver.stage.name == "End" and driver.stage.answer is not None


class UncomparedNumberAtUnsure(Design):
    """At Unsure, a driver doesn't compare the number: it works if anything is pending."""

    def is_owner(self, driver: Driver) -> bool:
        return driver.owns or driver.stage.name == "Unsure"


class OneNumber(Design):
    """Two drivers have the same number."""

    def has_own_number(self, driver: Driver) -> bool:
        return False


class TakeUpWithoutNumber(Design):
    """A take-up writes no number of its own: it works by the number that the row has."""

    def has_own_number(self, driver: Driver) -> bool:
        return driver.attempt > 0


class TakeUpReadsEarly(Design):
    """A take-up reads the row before it writes its number, and works by what it read."""

    def transact(self, world: World, at: int, driver: Driver) -> Steps:
        tx = self.decide(world, driver)
        if driver.held_back is not None:
            here = driver._replace(held_back=None)
            yield from self.commit(world.put(at, here), at, here, driver.held_back._replace(row=world.row))
        elif tx.takes_over and not driver.attempt:
            yield "reads the row before it writes its number", world.put(at, driver._replace(held_back=tx))
        else:
            yield from super().transact(world, at, driver)


class TakeUpLooksEarly(Design):
    """A take-up looks at the resource before it writes its number."""

    def transact(self, world: World, at: int, driver: Driver) -> Steps:
        here = driver._replace(held_back=None)
        yield from super().transact(world.put(at, here), at, here)
        tx = self.decide(world, driver)
        if driver.attempt or tx.stage.task is None:
            return
        if driver.held_back is not None and driver.held_back.row == world.row:
            yield from self.commit(world.put(at, here), at, here, driver.held_back)
        elif driver.held_back is None and driver.has_lock:
            for outcome in self.outcomes(tx.stage.task, world.resource):
                seen = tx._replace(stage=worked(tx.stage.task, outcome))
                yield f"sees before it writes its number: {outcome}", world.put(at, driver._replace(held_back=seen))


# ---- the end


class FalseOutcome(Design):
    """A worker reports an outcome that isn't true of the resource."""

    def outcomes(self, task: Task, resource: str) -> list[str]:
        return list(dict.fromkeys([*super().outcomes(task, "absent"), *super().outcomes(task, "whole")]))


class EndWrittenAgain(Design):
    """After an end whose commit is unsure, a driver writes the same end again, by the row that it read first."""

    def committed(self, world: World, at: int, driver: Driver, tx: Transaction, commit: str) -> World:
        after = super().committed(world, at, driver, tx, commit)
        it = after.drivers[at]
        return after.put(at, it._replace(held_back=tx)) if it.stage.name == "End" and tx.effect else after

    def decide(self, world: World, driver: Driver, may_begin: bool = True) -> Transaction:
        return driver.held_back or super().decide(world, driver, may_begin)


class EarlierAnswerWhilePending(Design):
    """The answer of an earlier end is given although its work is still pending."""

    def decide(self, world: World, driver: Driver, may_begin: bool = True) -> Transaction:
        if driver.owns and driver.stage.name == "End" and driver.stage.answer is not None:
            return Transaction(world.row, answering(driver.stage.answer))
        return super().decide(world, driver, may_begin)
