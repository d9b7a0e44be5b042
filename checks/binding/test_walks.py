"""Random walks keep every promise, and come to everything that a rule or an event is about."""

from __future__ import annotations

import random
from collections import Counter
from itertools import islice

import pytest
from binding.model import Binding, BoundInstance, Life, Order, Rules
from binding.walks import MADE, services, walk
from network.model import BUSY

EVENTS = """create send expire retry remove timeout arrive put-off take garbled gateway end end-unknown finish
give-up-waiting work crash-broker crash-platform fetch take-fetched forget drop""".split()
ALWAYS = {"crash-broker", "crash-platform"}
# Of an instance, too.
OF_ALL = EVENTS[:-4]


def test_same_seed() -> None:
    assert list(walk(7, 300)) == list(walk(7, 300)) != list(walk(8, 300))


@pytest.mark.slow
def test_walks() -> None:
    seen: Counter[tuple[str, str, str]] = Counter()
    for at, step in islice(services(random.Random(2), Rules()), 12_000):
        assert not at.tied.broken(), step
        assert step.line != "settle" or at.tied.settles(0)
        assert step.line != "remove" or at.tied.settles(0, removing=True)
        whose, _, event = step.line.replace("binding 1 ", "binding ").replace("binding 2 ", "binding ").partition(" ")
        seen[whose, event.partition(" ")[0], step.wanted.partition(":")[0]] += 1
    wanted = {("instance", name, "applied") for name in OF_ALL} | {("binding", name, "applied") for name in EVENTS}
    wanted |= {(whose, name, "skipped") for whose, name, _ in wanted if name not in ALWAYS}
    assert not wanted - set(seen)


# ---- what the rules keep from happening


def ready(binding: Order) -> BoundInstance:
    """An instance that is recorded ready, and a binding that nothing has happened to."""
    tied = BoundInstance(Rules(), Order("sync"), binding)
    assert all(tied.happen(f"instance {event}") for event in MADE["sync", False])
    return tied


def answer_to(life: Life) -> object:
    return life.given[-1].answer


def test_a_bind_is_put_off() -> None:
    for binding in (Order("sync"), Order("async"), Order("async", first_poll=True)):
        tied = BoundInstance(Rules(platform=False), Order("sync"), binding)
        assert tied.happen("binding 1 create") and tied.happen("binding 1 arrive 1")
        assert answer_to(tied.bindings[0]) == BUSY["provision"] == (503, "error")
        assert "; - - -; absent; credentials - -" in tied.bindings[0].words()


def test_a_deprovision_is_put_off() -> None:
    tied = ready(Order("async", first_poll=True))
    tied.rules = Rules(platform=False)
    for event in ("binding 1 create", "binding 1 arrive 1", "instance remove", "instance send"):
        assert tied.happen(event)
    before = tied.instance.held
    assert tied.happen("instance arrive 2") and tied.instance.held == before
    assert answer_to(tied.instance) == BUSY["deprovision"] == (422, "ConcurrencyError")


def test_a_poll_is_not_put_off() -> None:
    """No rule is about a Poll. If a broker puts one off for another reason, nothing changes."""
    tied = ready(Order("async", first_poll=True))
    for event in ("create", "arrive 1", "take 0", "send", "put-off 2"):
        assert tied.happen(f"binding 1 {event}")
    assert answer_to(tied.bindings[0]) == (200, "in-progress") and tied.bindings[0].phase == "waiting"
    assert tied.happen("binding 1 arrive 2") and tied.bindings[0].phase == "making"


def test_what_the_platform_refuses() -> None:
    tied = BoundInstance(Rules(), Order("sync"), Order("sync"))
    assert not tied.happen("binding 1 create")
    tied = ready(Order("sync"))
    assert tied.happen("binding 1 create") and not tied.happen("instance remove")


def test_credentials_of_a_poll() -> None:
    """A Poll's `succeeded` is taken only together with the answer to a Fetch, which any Fetch may have brought."""
    tied = ready(Order("async"))
    for event in ("create", "arrive 1", "end done", "take 0", "send", "work whole 5", "finish ok", "arrive 2"):
        assert tied.happen(f"binding 1 {event}")
    binding = tied.bindings[0]
    assert isinstance(binding, Binding) and (binding.row, binding.recorded) == (5, 0)
    assert not tied.happen("binding 1 take 1") and not tied.happen("binding 1 take-fetched 1 0")
    assert tied.happen("binding 1 fetch") and tied.happen("binding 1 take-fetched 1 0")
    assert (binding.state, binding.recorded) == ("ready", 5) and not tied.broken()


def test_a_binding_that_cannot_be_fetched() -> None:
    tied = ready(Order("async", retrievable=False))
    for event in ("create", "arrive 1", "end done", "take 0"):
        assert tied.happen(f"binding 1 {event}")
    assert tied.bindings[0].state == "cleaning" and tied.settles()
