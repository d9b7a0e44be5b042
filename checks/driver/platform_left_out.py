"""Designs of a platform without a part. Each class leaves out one obligation of the drivers, of the database, of the
network or of the program that carries out what a driver says.
"""

from __future__ import annotations

from driver.events import FAILED, NOT_WRITTEN, RETURNED
from driver.platform_model import CLEAN_UPS, DONE, Stage, Transaction, take
from driver.platform_world import Design, Driver, Steps, World
from network.model import Answer

# ---- the database, and what waits for its commits


class UndoneCommit(Design):
    """A power cut undoes a commit that has returned."""

    def all_steps(self, world: World) -> Steps:
        yield from super().all_steps(world)
        for row in world.before:
            drivers = (Driver(),) * len(world.drivers)
            yield "a power cut undoes the latest commit", world._replace(drivers=drivers, row=row, before=())

    def committed(self, world: World, at: int, tx: Transaction, commit: str) -> World:
        after = super().committed(world, at, tx, commit)
        return after._replace(before=(world.row,)) if commit == RETURNED and after.row != world.row else after


class UnlockedRow(Design):
    """Between a transaction's read and its write, another transaction writes."""

    def all_steps(self, world: World) -> Steps:
        yield from super().all_steps(world)
        for at, driver in enumerate(world.drivers):
            if driver.held_back is not None:
                yield from self.commit(world.put(at, driver._replace(held_back=None)), at, driver.held_back)

    def claim(self, world: World, at: int) -> Steps:
        for tx in self.claims(world):
            word = f"driver {at + 1} reads the row, to claim: {', '.join(tx.events)}"
            yield word, world.put(at, Driver(held_back=tx))

    def take(self, world: World, at: int) -> Steps:
        driver = world.drivers[at]
        if driver.held_back is None:
            tx = self.taking(world, driver)
            yield f"driver {at + 1} reads the row, to take the answer", world.put(at, driver._replace(held_back=tx))


class UncommittedRead(Design):
    """A first transaction reads what another one writes whose commit fails."""

    def commit(self, world: World, at: int, tx: Transaction) -> Steps:
        yield from super().commit(world, at, tx)
        other = next((here for here, driver in enumerate(world.drivers) if here != at and driver == Driver()), None)
        if other is not None and tx.events:
            for claim in self.claims(world._replace(row=tx.row)):
                word = f"driver {other + 1} reads what driver {at + 1} hasn't committed, and claims: "
                after = self.committed(world, at, tx, FAILED)
                yield word + ", ".join(claim.events), self.committed(after, other, claim, RETURNED)


class LateCommit(Design):
    """A transaction whose commit is unsure is written after other transactions have read the row."""

    def all_steps(self, world: World) -> Steps:
        yield from super().all_steps(world)
        for at, driver in enumerate(world.drivers):
            if driver.late is not None:
                before, tx = driver.late
                after = self.write(world.put(at, before), at, tx)
                word = f"the unsure commit of driver {at + 1} is written late"
                yield word, after.put(at, driver._replace(late=None))

    def committed(self, world: World, at: int, tx: Transaction, commit: str) -> World:
        after = super().committed(world, at, tx, commit)
        late = world.drivers[at]._replace(late=None), tx
        return after.put(at, after.drivers[at]._replace(late=late)) if commit == NOT_WRITTEN else after


class SentBeforeCommit(Design):
    """A request is sent before its claim is committed."""

    def commit(self, world: World, at: int, tx: Transaction) -> Steps:
        yield from super().commit(world, at, tx)
        if tx.returned.name == "Send":
            yield f"driver {at + 1} sends the {tx.returned.kind} {tx.returned.attempt} before the commit", self.go_on(
                world, at, tx.returned
            )


class UnsureClaimCounts(Design):
    """A claim whose commit is unsure counts as one that returned: its request is sent."""

    def committed(self, world: World, at: int, tx: Transaction, commit: str) -> World:
        return super().committed(world, at, tx._replace(unsure=tx.returned) if self.is_claim(tx) else tx, commit)

    def is_claim(self, tx: Transaction) -> bool:
        return tx.returned.name == "Send"


class FailedClaimCounts(Design):
    """A claim whose commit failed counts as one that returned: its request is sent."""

    def committed(self, world: World, at: int, tx: Transaction, commit: str) -> World:
        return super().committed(world, at, tx._replace(failed=tx.returned), commit)


class UnwrittenAnswer(Design):
    """A last transaction whose commit fails, or is unsure, isn't tried again."""

    def taking(self, world: World, driver: Driver) -> Transaction:
        return super().taking(world, driver)._replace(unsure=DONE, failed=DONE)


# ---- the claim


class UsedId(Design):
    """An id is used again once its instance is gone."""

    def claims(self, world: World) -> list[Transaction]:
        return super().claims(world._replace(row=None) if world.row and world.row.state == "gone" else world)


class KeptInFlight(Design):
    """A claim doesn't give up what a crash has left in flight."""

    def claims(self, world: World) -> list[Transaction]:
        return super().claims(world) if world.row is None or world.row.out is None else []


class CleanedUpInFlight(Design):
    """An instance is cleaned up while a request is in flight, which isn't given up."""

    def claims(self, world: World) -> list[Transaction]:
        row = world.row
        wishes = [wish for wish, states in CLEAN_UPS.items() if row and row.out and row.state in states]
        assert row is not None or not wishes
        return super().claims(world) + [Transaction(row and row._replace(state="cleaning"), (wish,)) for wish in wishes]


class GivenUpAsGone(Design):
    """A creation whose answer is lost is recorded as gone."""

    def taking(self, world: World, driver: Driver) -> Transaction:
        tx = super().taking(world, driver)
        is_lost = driver.stage.answer is None and world.row is not None and world.row.state == "wanted"
        return tx._replace(row=tx.row and tx.row._replace(state="gone")) if is_lost and tx.events else tx


class OneAttempt(Design):
    """All requests have the same attempt."""

    def claims(self, world: World) -> list[Transaction]:
        return super().claims(world._replace(row=world.row and world.row._replace(attempt=0)))

    def can_hear(self, driver: Driver, attempt: int) -> bool:
        return driver.stage.name == "Send"


class UncomparedNumber(Design):
    """A driver whose claim is unsure gives up the request in flight without a comparison of the number."""

    def taking(self, world: World, driver: Driver) -> Transaction:
        return take(world.row, driver.stage, owns=True)


class SentAgain(Design):
    """What a crash has left in flight is sent again, as the same attempt."""

    def claims(self, world: World) -> list[Transaction]:
        row = world.row
        again = [Transaction(row, (), Stage("Send", row.attempt, row.out))] if row and row.out else []
        return super().claims(world) + again


# ---- the answer


class UncomparedAttempt(Design):
    """The last transaction doesn't compare the attempt: it takes the answer for that of the request in flight."""

    def taking(self, world: World, driver: Driver) -> Transaction:
        stage = (
            driver.stage
            if driver.stage.answer is None or world.row is None
            else driver.stage._replace(attempt=world.row.attempt)
        )
        return take(world.row, stage, driver.owns)


class TakenAfterGivenUp(Design):
    """The last transaction doesn't look whether the request is still in flight."""

    def taking(self, world: World, driver: Driver) -> Transaction:
        row = world.row
        if row is not None and row.out is None and row.attempt == driver.stage.attempt and driver.stage.answer:
            row = row._replace(out=dict(world.sent)[row.attempt])
        return take(row, driver.stage, driver.owns)


class TakenByTheClaimedRow(Design):
    """The last transaction doesn't read the row: it goes on with the row that the claim has written."""

    def committed(self, world: World, at: int, tx: Transaction, commit: str) -> World:
        after = super().committed(world, at, tx, commit)
        driver = after.drivers[at]
        return after.put(at, driver._replace(held_back=tx)) if driver.stage.name == "Send" else after

    def taking(self, world: World, driver: Driver) -> Transaction:
        return take(driver.held_back.row if driver.held_back else world.row, driver.stage, driver.owns)


class TakenAgain(Design):
    """After a last transaction whose commit is unsure, the same row is written again."""

    def committed(self, world: World, at: int, tx: Transaction, commit: str) -> World:
        after = super().committed(world, at, tx, commit)
        driver = after.drivers[at]
        return after.put(at, driver._replace(held_back=tx)) if driver.stage.answer and tx.returned == DONE else after

    def taking(self, world: World, driver: Driver) -> Transaction:
        return driver.held_back or super().taking(world, driver)


class AnswerToAnother(Design):
    """A driver gets the answer to another request, as over a connection that is used again."""

    def can_hear(self, driver: Driver, attempt: int) -> bool:
        return driver.stage.name == "Send"


class MisreadBody(Design):
    """A body that can't be read counts as one that reports a success."""

    def as_read(self, kind: str | None, event: str, answer: Answer) -> Answer:
        if event != "garbled 0":
            return super().as_read(kind, event, answer)
        return Answer(answer.status, "succeeded" if kind == "poll" else "empty")


class GatewayOfAnyStatus(Design):
    """A gateway answers with 410 in the place of the broker."""

    def of_gateways(self) -> list[Answer]:
        return [*super().of_gateways(), Answer(410, "malformed")]
