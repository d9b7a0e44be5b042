"""A model of the drivers of a broker: what a driver does with the row that it reads.

A driver is one request's way through a broker, or one take-up of the work that another worker has left. Each of its
transactions reads the row, and decides what is written. No code of the crates is used.
"""

from __future__ import annotations

from functools import lru_cache
from typing import NamedTuple, Union

from driver.events import FAILED, RETURNED, Plan
from network import model
from network.model import Answer, Held, Request

# The request whose work is pending, or the phase of an operation that runs: "making" or "deleting".
Task = Union[Request, str]


class Stage(NamedTuple):
    """Where a driver stands: what it does next."""

    name: str
    # At Begin: whether the driver got the lock. It may have lost the lock since.
    locked: bool = False
    # At Work.
    task: Task | None = None
    # At End and at Finish: how the work ended.
    outcome: str | None = None
    # At Answer: the answer. At End: the answer of an earlier try whose commit is unsure.
    answer: Answer | None = None


TRY_LOCK, AWAIT_LOCK, UNSURE, DONE = (Stage(name) for name in ("TryLock", "AwaitLock", "Unsure", "Done"))
BEGIN = {locked: Stage("Begin", locked=locked) for locked in (False, True)}


def working(task: Task) -> Stage:
    return Stage("Work", task=task)


def worked(task: Task, outcome: str) -> Stage:
    return Stage("End" if isinstance(task, Request) else "Finish", outcome=outcome)


def answering(answer: Answer) -> Stage:
    return Stage("Answer", answer=answer)


class Transaction(NamedTuple):
    """What a transaction writes, and the stage once its commit has returned."""

    row: Held
    stage: Stage
    # Whether the driver's number becomes the number of the row.
    takes_over: bool = False
    # The event of the network that it is, without an attempt. "" is none.
    effect: str = ""

    @property
    def is_nothing(self) -> bool:
        """Whether it writes nothing and is no event."""
        return not self.takes_over and self.effect == ""


# ---- what each transaction does


def begin(plan: Plan, row: Held, request: Request, locked: bool, may_begin: bool) -> Transaction:
    """The first transaction of a request. If work is due and the driver has no lock, it writes nothing. A request that
    would begin something that may not begin is put off.
    """
    after, answer = model.begin(plan.mode, plan.first_poll, row, request)
    if not may_begin and (answer is None or row.row is None and after.row is not None):
        return Transaction(row, answering(model.BUSY[request.kind]), effect="put-off")
    if answer is not None:
        return Transaction(after, answering(answer), effect="arrive")
    return Transaction(after, working(request), True, "arrive") if locked else Transaction(row, AWAIT_LOCK)


def take_up(row: Held) -> Transaction:
    """The first transaction of a take-up."""
    if row.work is not None:
        return Transaction(row, working(row.work), True)
    if row.row is not None and model.is_made(row) is not None:
        return Transaction(row, working(row.row.phase), True)
    failed = model.give_up_waiting(row)
    return Transaction(row, DONE) if failed is None else Transaction(failed, DONE, effect="give-up-waiting")


def find_out(row: Held, is_owner: bool) -> Transaction:
    """Finds out whether the transaction that begins the work was written: the row then has the driver's number."""
    if not is_owner:
        return Transaction(row, BEGIN[True])
    return Transaction(row, DONE if row.work is None else working(row.work))


def end(plan: Plan, row: Held, is_owner: bool, is_request: bool, outcome: str, earlier: Answer | None) -> Transaction:
    """The last transaction of pending work. If an earlier try was written, only its answer is left to give."""
    ended = model.end(plan.mode, row, outcome) if is_owner else None
    if ended is not None:
        after, answer = ended
        return Transaction(after, answering(answer) if is_request else BEGIN[True], effect=f"end {outcome}")
    if is_owner and row.work is None and earlier is not None:
        return Transaction(row, answering(earlier))
    return Transaction(row, DONE)


def finish(row: Held, is_owner: bool, outcome: str) -> Transaction:
    """The last transaction of an operation."""
    finished = model.finish(row, outcome == "ok") if is_owner else None
    return Transaction(row, DONE) if finished is None else Transaction(finished, DONE, effect=f"finish {outcome}")


@lru_cache(maxsize=None)
def transaction(
    plan: Plan, stage: Stage, request: Request | None, row: Held, is_owner: bool, may_begin: bool
) -> Transaction:
    """The transaction of a driver at this stage. A take-up has no request."""
    if stage.name == "Begin":
        return take_up(row) if request is None else begin(plan, row, request, stage.locked, may_begin)
    if stage.name == "Unsure":
        return find_out(row, is_owner)
    assert stage.outcome is not None
    if stage.name == "End":
        return end(plan, row, is_owner, request is not None, stage.outcome, stage.answer)
    return finish(row, is_owner, stage.outcome)


def after_commit(stage: Stage, is_request: bool, tx: Transaction, commit: str) -> Stage:
    """The stage after a transaction of this stage, by what became of its commit."""
    if commit == RETURNED:
        return tx.stage
    if commit == FAILED or not is_request:
        return DONE
    if stage.name == "Begin":
        return UNSURE if tx.takes_over else stage
    if stage.name == "End" and tx.stage.answer is not None:
        return stage._replace(answer=tx.stage.answer)
    return stage
