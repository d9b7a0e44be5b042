"""Designs of the drivers of an instance that can be updated, each without one obligation."""

from __future__ import annotations

from driver.events import FAILED, NOT_WRITTEN, RETURNED, WRITTEN, answer_words
from driver.update_model import AWAIT_LOCK, BEGIN, Stage, Task, Transaction, working
from driver.update_world import Design, Driver, Steps, World
from update.alone import Cell
from update.change import UNKNOWN

# ---- what waits for a commit


class WorkBeforeCommit(Design):
    """The work begins before its row is committed."""

    def commit(self, world: World, at: int, driver: Driver, tx: Transaction) -> Steps:
        yield from super().commit(world, at, driver, tx)
        if tx.takes_over:
            yield "begins its work before the commit", self.go_on(world, None, at, tx.stage)


class AnswerBeforeCommit(Design):
    """An answer is sent before its row is committed."""

    def commit(self, world: World, at: int, driver: Driver, tx: Transaction) -> Steps:
        yield from super().commit(world, at, driver, tx)
        answer = tx.stage.answer
        if answer is not None and tx.row != world.row:
            yield f"answers {answer_words(answer)} before the commit", self.go_on(world, None, at, tx.stage)


class UnsureCommitCounts(Design):
    """A commit that is unsure counts as one that returned."""

    def committed(self, world: World, at: int, driver: Driver, tx: Transaction, commit: str) -> World:
        if commit == NOT_WRITTEN:
            return self.go_on(world, None, at, tx.stage)
        return super().committed(world, at, driver, tx, RETURNED if commit == WRITTEN else commit)


class FailedCommitCounts(Design):
    """A commit that failed counts as one that returned."""

    def committed(self, world: World, at: int, driver: Driver, tx: Transaction, commit: str) -> World:
        if commit == FAILED:
            return self.go_on(world, None, at, tx.stage)
        return super().committed(world, at, driver, tx, commit)


# ---- the lock


class WorkWithoutLock(Design):
    """A request that didn't get the lock works all the same."""

    def unlocked(self, driver: Driver) -> Driver:
        return driver._replace(stage=BEGIN[True], has_lock=True)


class WorkOutlivesLock(Design):
    """The lock is freed while its work goes on."""

    def is_free(self, world: World, driver: Driver) -> bool:
        return not any(other.has_lock and other.stage.name != "Work" for other in world.drivers)


class NumberBeforeLock(Design):
    """A request writes its work and its number before it has the lock, and waits for the lock then."""

    def decide(self, world: World, driver: Driver, allowed: str) -> Transaction:
        tx = super().decide(world, driver, allowed)
        if tx.stage != AWAIT_LOCK:
            return tx
        begun = super().decide(world, driver._replace(stage=BEGIN[True]), allowed)
        return begun._replace(stage=AWAIT_LOCK._replace(task=begun.stage.task))

    def locked(self, driver: Driver) -> Stage:
        return working(driver.stage.task) if driver.stage.task is not None else super().locked(driver)


# ---- the number


class NumberNotWritten(Design):
    """A take-up writes no number: it works by the number that the row has."""

    def owned(self, driver: Driver, task: Task, is_other: bool) -> Driver:
        return driver if driver.asked is not None and is_other else super().owned(driver, task, is_other)


class UncomparedNumber(Design):
    """The last transaction doesn't compare the number."""

    def is_owner(self, driver: Driver) -> bool:
        return driver.owns or driver.stage.name in ("End", "Finish")


class UncomparedNumberAtUnsure(Design):
    """At Unsure, a driver doesn't compare the number: it works if anything is pending."""

    def is_owner(self, driver: Driver) -> bool:
        return driver.owns or driver.stage.name == "Unsure"


# ---- the end


class FalseOutcome(Design):
    """A worker reports an outcome without a look: any that there is."""

    def outcomes(self, cell: Cell, task: Task) -> list[str]:
        found: dict[str, None] = {}
        for resource, thing in (("absent", UNKNOWN), ("whole", "p"), ("whole", "q")):
            found.update(dict.fromkeys(super().outcomes(cell._replace(resource=resource, thing=thing), task)))
        return list(found)


# ---- the rules that let the work of the instance and that of an update exclude each other


class WithoutRuleU(Design):
    """The work of an Update begins, whatever is held of the instance."""

    rules, remembers = frozenset({"d"}), True


class WithoutRuleD(Design):
    """A deletion of the instance begins, though an update is under way."""

    rules, remembers = frozenset({"u"}), True


# ---- what one number and one lock take the place of


class NumberForEachPart(Design):
    """The work of the instance has a number, and that of an update another one."""

    def owned(self, driver: Driver, task: Task, is_other: bool) -> Driver:
        if task.part == "update":
            return driver._replace(owns_update=not is_other)
        return driver._replace(owns=not is_other)

    def is_owner(self, driver: Driver) -> bool:
        stage, asked = driver.stage, driver.asked
        part = stage.task.part if stage.task else "update" if asked and asked.kind == "update" else "instance"
        return driver.owns_update if part == "update" else driver.owns


class LockForEachPart(Design):
    """The instance has a lock, and its updates another one. A take-up takes that of the work that goes on."""

    def is_free(self, world: World, driver: Driver) -> bool:
        part = self.part_of(world, driver)
        return not any(other.has_lock and self.part_of(world, other) == part for other in world.drivers)

    def part_of(self, world: World, driver: Driver) -> str:
        if driver.stage.task is not None:
            return driver.stage.task.part
        if driver.asked is not None:
            return "update" if driver.asked.kind == "update" else "instance"
        return "update" if world.row.is_updated else "instance"
