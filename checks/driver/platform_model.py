"""A model of the drivers of a platform: what a driver does with the row that it reads.

A driver is one request's way through a platform. Its first transaction claims the row, and records the request as in
flight, with the driver's number. Its last one takes the answer. No code of the crates is used.
"""

from __future__ import annotations

from functools import lru_cache
from itertools import product
from typing import NamedTuple

from network import model
from network.model import Answer

# The states from which an instance can be cleaned up, by the wish.
CLEAN_UPS = {"expire": {"polling"}, "retry": {"cleaning-polling"}, "remove": {"polling", "ready", "unsettled"}}


class Recorded(NamedTuple):
    """The row: the state, the kind of the request in flight, and the attempt of the latest request."""

    state: str
    out: str | None = None
    attempt: int = 0


class Wishes(NamedTuple):
    """What the program wishes of an instance. A driver does only what the row allows."""

    create: bool = False
    clean_up: str | None = None
    send: bool = False


WISHES = [Wishes(*fields) for fields in product((False, True), (None, *CLEAN_UPS), (False, True))]


class Stage(NamedTuple):
    """Where a driver stands: what it does next. A driver that is done makes room for one that claims."""

    name: str
    attempt: int = 0
    # At Send: the kind of the request.
    kind: str | None = None
    # At Take: the answer, or None if none came. At Fetch: the answer to the Poll.
    answer: Answer | None = None
    # At Send, of a binding: whether the answer that ends the polling waits for that to a Fetch.
    fetches: bool = False


DONE = Stage("Done")


class Transaction(NamedTuple):
    """What a transaction writes, and the stage by what became of its commit."""

    row: Recorded | None
    # The events of the network that it is. "answer" is one by which the platform takes an answer.
    events: tuple[str, ...] = ()
    returned: Stage = DONE
    unsure: Stage = DONE
    failed: Stage = DONE


def given_up(row: Recorded) -> Recorded:
    """The row once the request in flight has timed out."""
    return row._replace(state="cleaning" if row.state == "wanted" else row.state, out=None)


def claimed(row: Recorded, events: tuple[str, ...]) -> Transaction:
    """A request is in flight. If the commit is unsure, the request isn't sent, and is given up."""
    return Transaction(
        row, events, Stage("Send", row.attempt, row.out), unsure=Stage("Unsure", row.attempt), failed=DONE
    )


def claim(row: Recorded | None, wishes: Wishes, attempts: int) -> Transaction:
    """The first transaction. What a crash has left in flight is given up before the wishes are done."""
    if row is None:
        return claimed(Recorded("wanted", "provision", 1), ("create",)) if wishes.create else Transaction(None)
    events: tuple[str, ...] = ()
    if row.out is not None:
        row, events = given_up(row), ("timeout",)
    if wishes.clean_up is not None and row.state in CLEAN_UPS[wishes.clean_up]:
        row, events = row._replace(state="cleaning"), (*events, wishes.clean_up)
    if wishes.send and row.state in model.DUE and row.attempt < attempts:
        return claimed(Recorded(row.state, model.DUE[row.state], row.attempt + 1), (*events, "send"))
    return Transaction(row, events)


def take(row: Recorded | None, stage: Stage, owns: bool) -> Transaction:
    """The last transaction. The answer is taken if its request is in flight. If the commit of the claim is unsure, the
    request is given up if the row has the driver's number.
    """
    if row is None or row.out is None or row.attempt != stage.attempt or stage.name == "Unsure" and not owns:
        return Transaction(row, (), DONE, unsure=stage, failed=stage)
    if stage.answer is None:
        return Transaction(given_up(row), ("timeout",), DONE, unsure=stage, failed=stage)
    state = model.state_after(row.state, row.out, stage.answer)
    return Transaction(row._replace(state=state, out=None), ("answer",), DONE, unsure=stage, failed=stage)


@lru_cache(maxsize=None)
def claims(row: Recorded | None, attempts: int) -> list[Transaction]:
    """What a first transaction can be, by the wishes, if it isn't nothing."""
    return [tx for tx in dict.fromkeys(claim(row, wishes, attempts) for wishes in WISHES) if tx.events]
