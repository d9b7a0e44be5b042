"""What the worlds of drivers share: the events of the network of network.model, and what becomes of a commit."""

from __future__ import annotations

from functools import lru_cache
from typing import NamedTuple

from network import model
from network.model import Answer, Given, Held, Instance, Request

# The requests of the platform, by their kind.
REQUESTS = {kind: Request(kind, True) for kind in model.BUSY}
# What a gateway answers in the place of the broker.
GATEWAY = Answer(500, "malformed")

# What becomes of a commit. If it is unsure, the driver doesn't know whether the transaction was written.
RETURNED, FAILED, WRITTEN, NOT_WRITTEN = "returned", "failed", "unsure, written", "unsure, not written"
COMMITS = [RETURNED, FAILED, WRITTEN, NOT_WRITTEN]


class Plan(NamedTuple):
    """The mode of the plan, and the rule of the first Poll."""

    mode: str
    first_poll: bool = False


class Event(NamedTuple):
    """What an event of the network leaves at the broker, and the answer that it gives."""

    held: Held
    worker: int | None
    given: Given | None = None


@lru_cache(maxsize=None)
def happen(
    plan: Plan, event: str, attempt: int, request: Request | None, held: Held, worker: int | None, resource: str
) -> Event | None:
    """The event of the broker or of the network, or None if it doesn't apply. "" is no event."""
    network = Instance(plan.mode, True, plan.first_poll, held=held, worker=worker, resource=resource)
    if request is not None:
        network.sent = [request] * attempt
    if event != "" and not network.happen(f"{event} {attempt}" if event in ("arrive", "put-off") else event):
        return None
    return Event(network.held, network.worker, network.given[0] if network.given else None)


@lru_cache(maxsize=None)
def can_have_ended(mode: str, request: Request, outcome: str, resource: str) -> bool:
    """Whether the work of this request may have ended so and left this resource."""
    if outcome.startswith("refused") and request.kind != "provision":
        return False
    return model.can_have_ended(mode, Held(work=request), outcome, resource)


# ---- words


def answer_words(answer: Answer | None) -> str:
    return f"{answer.status} {answer.body}" if answer else "-"


def held_words(held: Held) -> str:
    words = [f"a row in {held.row.phase}"] if held.row else []
    words += [f"a pending {held.work.kind}"] if held.work else []
    words += ["a tombstone"] if held.tombstone else []
    return " and ".join(words) or "nothing"


COMMIT_WORDS = {
    RETURNED: "",
    FAILED: "; the commit fails",
    WRITTEN: "; the commit is unsure, and was written",
    NOT_WRITTEN: "; the commit is unsure, and wasn't written",
}
