"""The shortest ways to a broken promise: one for each part of the design that is left out.

Each is a list of events for model.BoundInstance, the last of which breaks the promise. None of them is broken if
nothing is left out. In the events, I stands for the instance, and B for its binding.

`PYTHONPATH=checks python3 -m binding.cells --without PART ..` finds such a way.
"""

from __future__ import annotations

from binding.cells import Way
from binding.model import GONE_HAS_NONE, LIVES_AGREE, READY_HAS_INSTANCE, SETTLES, Order, Rules
from network.model import error

SYNC, ASYNC, FIRST_POLL = Order("sync"), Order("async"), Order("async", first_poll=True)

# The instance is created, and recorded `ready`.
READY = "I create; I arrive 1; I work whole; I end done; I take 0"
# The Provision times out. It arrives while the instance is cleaned up, and the instance is created all the same.
GIVEN_UP = "I create; I timeout; I send; I arrive 1; I work whole; I end done"
# The Bind times out. The Unbind finds nothing, and the binding is recorded `gone`.
ENDED = "B create; B timeout; B send; B arrive 2; B take 0"
# The Deprovision arrives, and succeeds.
DEPROVISIONED = "I arrive 2; I work absent; I end done"
# An instance that is `ready` is removed, and deleted at the broker.
DELETED = f"I remove; I send; {DEPROVISIONED}"
# The Bind is carried out, and the binding is recorded `ready`.
BOUND = "B create; B arrive 1; B work whole 1; B end done; B take 0"
# The Bind times out, and arrives after the Unbind is sent.
OVERTAKEN = "B create; B timeout; B send; B arrive 1"
# The broker rejects the Bind.
REFUSED = "B create; B arrive 1; B end refused 400"


def way(rules: Rules, broken: str, events: str, binding: Order = SYNC) -> Way:
    """A way of a binding whose instance has a synchronous plan. Semicolons separate the events."""
    events = events.replace("I ", "instance ").replace("B ", "binding 1 ")
    return Way(rules, SYNC, binding, broken, tuple(events.split("; ")))


def without(*parts: str, platform: bool = True) -> Rules:
    """The rules of both sides or of the broker alone, without these parts."""
    return Rules(platform=platform, without=frozenset(parts))


# By what is left out.
WAYS = {
    "rule a, and deleted tombstones": way(
        without("deleted tombstones", "rule a"),
        LIVES_AGREE,
        f"{READY}; {REFUSED}; B take 0; {DELETED}; B forget; B arrive 1",
    ),
    "rule a of waiting rows, and deleted tombstones": way(
        without("deleted tombstones", "rule a of waiting rows"),
        LIVES_AGREE,
        f"{READY}; {ENDED}; {DELETED}; B forget; B arrive 1",
        binding=FIRST_POLL,
    ),
    "rule a, and rule c of removal": way(
        without("rule a", "rule c of removal"), GONE_HAS_NONE, f"{READY}; B create; {DELETED}; I take 1; B arrive 1"
    ),
    "rule b, and rule c of removal": way(
        without("rule b", "rule c of removal"),
        GONE_HAS_NONE,
        f"{READY}; B create; I remove; I send; B arrive 1; {DEPROVISIONED}; I take 1",
    ),
    "rule a of pending work, and rule c": way(
        without("rule a of pending work", platform=False),
        GONE_HAS_NONE,
        f"{GIVEN_UP}; I arrive 2; I work absent; B create; B arrive 1; I end done; I take 1",
    ),
    "rule a of waiting rows, and rule c": way(
        without("rule a of waiting rows", platform=False), GONE_HAS_NONE, "B create; B arrive 1", binding=FIRST_POLL
    ),
    "rule b of pending work, and rule c": way(
        without("rule b of pending work", platform=False),
        GONE_HAS_NONE,
        f"{GIVEN_UP}; B create; B arrive 1; {DEPROVISIONED}; I take 1",
    ),
    "rule b of waiting rows, and rule c": way(
        without("rule b of waiting rows", platform=False),
        GONE_HAS_NONE,
        f"{GIVEN_UP}; B create; B arrive 1; {DEPROVISIONED}; I take 1",
        binding=FIRST_POLL,
    ),
    "rule c": way(Rules(platform=False), SETTLES, f"I create; I arrive 1; I work whole; I end done; {BOUND}"),
    "rule c, and a deletion that fails": way(
        Rules(platform=False), READY_HAS_INSTANCE, f"{GIVEN_UP}; I arrive 2; I work absent; I end before; {BOUND}"
    ),
    "rule c of creation": way(
        without("rule c of creation"),
        READY_HAS_INSTANCE,
        f"{GIVEN_UP}; I arrive 2; I work absent; I end before; {BOUND}",
    ),
    "rule c of removal": way(
        without("rule c of removal"),
        SETTLES,
        f"{READY}; B create; I remove; B arrive 1; B work whole 1; B end done; B take 0",
    ),
    "rules a, b and c": way(Rules(platform=False, broker=False), GONE_HAS_NONE, "B create; B arrive 1"),
    "one transaction": way(
        without("one transaction"),
        LIVES_AGREE,
        f"{READY}; {OVERTAKEN}; B arrive 2; B take 0; I remove; I send; I arrive 2; I begin; I work absent; "
        "I end done; B forget; B begin",
    ),
    "one transaction, and rule c": way(
        without("one transaction", platform=False),
        GONE_HAS_NONE,
        f"{GIVEN_UP}; I arrive 2; B create; B arrive 1; I begin; I work absent; I end done; I take 1; B begin",
    ),
    "tombstones": way(without("tombstones"), LIVES_AGREE, f"{READY}; {REFUSED}; B arrive 1; B take 0"),
    "tombstone of a refusal": way(
        without("tombstone of a refusal"), LIVES_AGREE, f"{READY}; {REFUSED}; B arrive 1; B take 0"
    ),
    "pending work": way(
        without("pending work"), LIVES_AGREE, f"{READY}; {OVERTAKEN}; B work part; B crash-broker; B arrive 2; B take 0"
    ),
    "busy": way(without("busy"), LIVES_AGREE, f"{READY}; {OVERTAKEN}; B arrive 2; B take 0"),
    "attempts": way(
        without("attempts"),
        LIVES_AGREE,
        f"{READY}; B create; B arrive 1; B end done; B take 0; B send; B timeout; B expire; B send; B work whole 1; "
        "B finish ok; B arrive 2; B arrive 3; B end done; B take 2; B send; B take 1",
        binding=ASYNC,
    ),
    "stored credentials": way(
        without("stored credentials"),
        LIVES_AGREE,
        f"{READY}; B create; B arrive 1; B work whole 1; B end done; B fetch; B take 0",
    ),
}
WAYS |= {
    f"503 to a Bind that is put off, and rule c: {status}": way(
        Rules(platform=False, refusal=error(status)),
        LIVES_AGREE,
        "I create; I arrive 1; I work whole; B create; B arrive 1; I end done; B arrive 1; B take 0",
    )
    for status in (400, 404, 410)
}

# Further ways to the same broken promises, which begin with another fault, or end with another request.
FURTHER = {
    "rule a, and deleted tombstones: after a Bind that timed out": way(
        without("deleted tombstones", "rule a"), LIVES_AGREE, f"{READY}; {ENDED}; {DELETED}; B forget; B arrive 1"
    ),
    "tombstones: after a Bind that timed out": way(without("tombstones"), LIVES_AGREE, f"{READY}; {ENDED}; B arrive 1"),
    "stored credentials: at a repeated Bind": way(
        without("stored credentials"), LIVES_AGREE, f"{READY}; {BOUND}; B arrive 1"
    ),
}

ALL = {**WAYS, **FURTHER}
