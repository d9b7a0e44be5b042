"""A model of the drivers of an instance that can be updated: what a driver does with the row that it reads.

The row has two parts, what is held of the instance and what is held of its updates. Work of the two is never pending at
the same time: the work of an Update begins only while the instance is available (rule u), and nothing of the instance
begins while an update is under way (rule d). So the row has one number, which says whose driver the work is, and its
key one lock, whichever part the work is of. No code of the crates is used.
"""

from __future__ import annotations

from functools import lru_cache
from typing import NamedTuple

from binding.model import begins
from driver.events import FAILED, RETURNED, Plan
from network import model as life
from network.model import BUSY, Answer, Held, Request, error
from update import model
from update.model import Holding, Update


class Row(NamedTuple):
    """What is held of the instance, and of its updates; no updates of an instance that isn't held."""

    instance: Held = Held()
    change: Holding | None = None

    @property
    def is_updated(self) -> bool:
        """Whether an update is under way."""
        return self.change is not None and self.change.phase in model.UNDER_WAY


class Asked(NamedTuple):
    """A request: a Provision and an Update have the settings that they ask for, and an Update may have a number."""

    kind: str
    to: str = ""
    number: int = 0

    @property
    def words(self) -> str:
        return " ".join(
            [self.kind, *([f"to {self.to}"] if self.to else []), *([f"#{self.number}"] if self.number else [])]
        )


class Task(NamedTuple):
    """The work of a driver: pending work of a kind, or an operation in a phase. Of an update, with its settings."""

    part: str
    kind: str
    is_pending: bool
    to: str = ""


class Stage(NamedTuple):
    """Where a driver stands: what it does next."""

    name: str
    # At Begin: whether the driver got the lock. It may have lost the lock since.
    locked: bool = False
    # At Work, End and Finish.
    task: Task | None = None
    # At End and at Finish: how the work ended.
    outcome: str | None = None
    # At Answer: the answer. At End: the answer of an earlier try whose commit is unsure.
    answer: Answer | None = None


TRY_LOCK, AWAIT_LOCK, UNSURE, DONE = (Stage(name) for name in ("TryLock", "AwaitLock", "Unsure", "Done"))
BEGIN = {locked: Stage("Begin", locked=locked) for locked in (False, True)}


def working(task: Task) -> Stage:
    return Stage("Work", task=task)


def worked(task: Task, outcome: str) -> Stage:
    return Stage("End" if task.is_pending else "Finish", task=task, outcome=outcome)


def answering(answer: Answer) -> Stage:
    return Stage("Answer", answer=answer)


class Transaction(NamedTuple):
    """What a transaction writes, and the stage once its commit has returned."""

    row: Row
    stage: Stage
    # Whether the driver's number becomes the number of the row.
    takes_over: bool = False
    # The event of the network that it is, of the driver's own request if it has one. "" is none.
    effect: str = ""

    @property
    def is_nothing(self) -> bool:
        """Whether it writes nothing and is no event."""
        return not self.takes_over and self.effect == ""


class Terms(NamedTuple):
    """How the plan and the updates work, and the rules that are kept."""

    plan: Plan
    update_mode: str = "sync"
    rules: frozenset[str] = frozenset({"u", "d"})


# ---- the work that goes on


def task_of(row: Row) -> Task | None:
    """The work that is pending, or the operation that runs. There is never more than one."""
    instance, change = row
    if instance.work is not None:
        return Task("instance", instance.work.kind, True)
    if change is not None and change.phase in model.PENDING:
        return Task("update", change.phase, True, change.to or "")
    if instance.row is not None and life.is_made(instance) is not None:
        return Task("instance", instance.row.phase, False)
    if change is not None and change.phase == "updating":
        return Task("update", change.phase, False, change.to or "")
    return None


def ended(terms: Terms, row: Row, task: Task, outcome: str) -> tuple[Row, Answer] | None:
    """The row once the pending work of this part has ended, and the answer; None if none is pending."""
    if task.part == "update":
        change = model.end(terms.update_mode, row.change, outcome) if row.change else None
        return change and (row._replace(change=change[0]), change[1])
    instance = life.end(terms.plan.mode, row.instance, outcome)
    return instance and (without_row(Row(instance[0], row.change)), instance[1])


def finished(row: Row, task: Task, is_ok: bool) -> Row | None:
    """The row once the operation of this part has ended; None if none runs."""
    if task.part == "update":
        change = model.finish(row.change, is_ok) if row.change else None
        return change and row._replace(change=change)
    instance = life.finish(row.instance, is_ok)
    return instance and without_row(Row(instance, row.change))


def without_row(row: Row) -> Row:
    """Nothing is kept of the updates of an instance that isn't held."""
    is_held = row.instance.row is not None or row.instance.work is not None
    return row if is_held else row._replace(change=None)


# ---- what each transaction does


def in_place(row: Row, asked: Asked) -> Answer | None:
    """The answer in the place of the instance's table, if there is one."""
    instance, change = row
    if change is None or instance.row is None:
        return None
    is_open = model.is_available(instance) and change.phase != "settled"
    if asked.kind == "poll" and is_open:
        return model.poll(instance, change)
    if asked.kind == "provision" and instance.work is None and change.settings != asked.to:
        return error(409)
    if asked.kind == "provision" and is_open:
        return BUSY["provision"] if row.is_updated else error(500)
    return None


def begun(row: Row, after: Row, answer: Answer | None, locked: bool, effect: str) -> Transaction:
    """A request is answered, or its work is pending under the driver's number. That needs the lock first."""
    if answer is not None:
        return Transaction(after, answering(answer), effect=effect)
    task = task_of(after)
    assert task is not None
    return Transaction(after, working(task), True, effect) if locked else Transaction(row, AWAIT_LOCK)


def begin(terms: Terms, row: Row, asked: Asked, locked: bool, may_begin: bool) -> Transaction:
    """The first transaction of a request of the instance itself."""
    answer = in_place(row, asked)
    if answer is not None:
        return Transaction(row, answering(answer), effect="arrive")
    plan, request = terms.plan, Request(asked.kind, True)
    if begins(plan.mode, row.instance, request):
        if not may_begin:
            return Transaction(row, answering(BUSY[asked.kind]), effect="put-off")
        if row.is_updated and "d" in terms.rules:
            return Transaction(row, answering(BUSY[asked.kind]), effect="arrive")
    instance, given = life.begin(plan.mode, plan.first_poll, row.instance, request)
    is_new = row.instance.row is None and row.instance.work is None
    after = without_row(Row(instance, Holding(asked.to) if is_new else row.change))
    if given is None:
        task = Task("instance", asked.kind, True)
        return Transaction(after, working(task), True, "arrive") if locked else Transaction(row, AWAIT_LOCK)
    return begun(row, after, given, locked, "arrive")


def begin_update(terms: Terms, row: Row, asked: Asked, locked: bool, allowed: str) -> Transaction:
    """The first transaction of an Update, by what the catalogue has for it."""
    instance = row.instance
    if "u" not in terms.rules and row.change is not None:
        instance = Held(life.Row(0, "ready"))
    held = row.change or Holding(asked.to)
    change, answer = model.begin(instance, allowed, held, Update(asked.to, asked.number))
    effect = f"update, {allowed}"
    if isinstance(answer, Answer):
        is_kept = row.change is not None
        return Transaction(row._replace(change=change) if is_kept else row, answering(answer), effect=effect)
    after = row._replace(change=change)
    task = Task("update", change.phase, True, change.to or "")
    return Transaction(after, working(task), True, effect) if locked else Transaction(row, AWAIT_LOCK)


def take_up(row: Row) -> Transaction:
    """The first transaction of a take-up."""
    task = task_of(row)
    if task is not None:
        return Transaction(row, working(task), True)
    failed = life.give_up_waiting(row.instance)
    return (
        Transaction(row, DONE)
        if failed is None
        else Transaction(Row(failed, row.change), DONE, effect="give-up-waiting")
    )


def find_out(row: Row, is_owner: bool) -> Transaction:
    """Finds out whether the transaction that begins the work was written: the row then has the driver's number."""
    if not is_owner:
        return Transaction(row, BEGIN[True])
    task = task_of(row)
    return Transaction(row, working(task) if task is not None and task.is_pending else DONE)


def end(terms: Terms, row: Row, is_owner: bool, is_request: bool, stage: Stage) -> Transaction:
    """The last transaction of pending work. If an earlier try was written, only its answer is left to give."""
    task, outcome = stage.task, stage.outcome
    assert task is not None and outcome is not None
    after = ended(terms, row, task, outcome) if is_owner else None
    if after is not None:
        effect = f"{'update ' if task.part == 'update' else ''}end {outcome}"
        return Transaction(after[0], answering(after[1]) if is_request else BEGIN[True], effect=effect)
    now = task_of(row)
    if is_owner and stage.answer is not None and (now is None or not now.is_pending):
        return Transaction(row, answering(stage.answer))
    return Transaction(row, DONE)


def finish(row: Row, is_owner: bool, stage: Stage) -> Transaction:
    """The last transaction of an operation."""
    task, outcome = stage.task, stage.outcome
    assert task is not None
    after = finished(row, task, outcome == "ok") if is_owner else None
    if after is None:
        return Transaction(row, DONE)
    effect = f"{'update ' if task.part == 'update' else ''}finish {outcome}"
    return Transaction(after, DONE, effect=effect)


@lru_cache(maxsize=None)
def transaction(terms: Terms, stage: Stage, asked: Asked | None, row: Row, is_owner: bool, allowed: str) -> Transaction:
    """The transaction of a driver at this stage. A take-up has no request.

    `allowed` is what the catalogue has for an Update. For a request of the instance, "put off" says that nothing may
    begin, for a reason of the broker's own.
    """
    if stage.name == "Begin" and asked is None:
        return take_up(row)
    if stage.name == "Begin":
        assert asked is not None
        if asked.kind == "update":
            return begin_update(terms, row, asked, stage.locked, allowed)
        return begin(terms, row, asked, stage.locked, allowed != "put off")
    if stage.name == "Unsure":
        return find_out(row, is_owner)
    if stage.name == "End":
        return end(terms, row, is_owner, asked is not None, stage)
    return finish(row, is_owner, stage)


def after_commit(stage: Stage, is_request: bool, tx: Transaction, commit: str) -> Stage:
    """The stage after a transaction of this stage, by what became of its commit."""
    if commit == RETURNED:
        return tx.stage
    if commit == FAILED or not is_request:
        return DONE
    if stage.name == "Begin":
        return UNSURE if tx.takes_over else stage
    if stage.name == "End" and tx.stage.answer is not None:
        return stage._replace(answer=tx.stage.answer)
    return stage
