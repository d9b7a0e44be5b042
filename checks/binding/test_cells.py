"""Steps everything that can come about of an instance and a binding, and replays what happens without a part."""

from __future__ import annotations

import random
from collections.abc import Iterator

import pytest
from binding import alone
from binding.cells import ORDERS, Cell, World, cell_of, forget_lives, promised, shortest_way
from binding.model import OF_THE_BROKER, PROMISES, SETTLES, BoundInstance, Order, Rules
from binding.walks import services
from binding.ways import ALL, FIRST_POLL, SYNC, WAYS
from network.model import error

# Both sides keep their rules, or the platform alone.
BOTH, PLATFORM = Rules(), Rules(broker=False)
Cells = set[tuple[Cell, ...]]


@pytest.fixture(autouse=True)
def _free() -> Iterator[None]:
    yield
    forget_lives()


def settled(rules: Rules, instance: Order, binding: Order, count: int = 1) -> Cells:
    """All that can come about. No promise is broken, and all of it settles in three rounds, and is removed in five."""
    world = World(rules, instance, binding, count)
    explored = world.explore()
    assert explored.wrong is None, (explored.why, world.way(explored.came, explored.wrong))
    for removing, most in ((False, 3), (True, 5)):
        rounds, never = world.rounds(explored.came, removing)
        assert never is None and rounds <= most
    instances, bindings = list(world.instances.numbers), list(world.bindings.numbers)
    return {(instances[first], *(bindings[other] for other in others)) for first, *others in explored.came}


def test_one_pair_of_plans() -> None:
    assert settled(BOTH, SYNC, SYNC)


@pytest.mark.slow
@pytest.mark.long(10)
def test_all_pairs_of_plans() -> None:
    """The rules of the broker refuse nothing if the platform keeps its own. No walk leaves what can come about."""
    found = {}
    for orders in ORDERS:
        found[orders] = settled(BOTH, *orders)
        assert settled(PLATFORM, *orders) == found[orders]
    checked = 0
    for (walk, _), _ in zip(services(random.Random(1), BOTH), range(20_000)):
        if len(walk.tied.bindings) == 1:
            checked += 1
            assert tuple(cell_of(life) for life in walk.tied.lives) in found[walk.orders[0], walk.orders[1]]
    assert checked > 5_000


@pytest.mark.slow
def test_two_bindings() -> None:
    assert settled(BOTH, SYNC, SYNC, 2)


# ---- a broker whose platform doesn't keep its rules


@pytest.mark.slow
@pytest.mark.parametrize(("instance", "binding"), [(SYNC, SYNC), (SYNC, FIRST_POLL), (FIRST_POLL, SYNC)])
@pytest.mark.parametrize("truthful", [False, True])
def test_broker(instance: Order, binding: Order, truthful: bool) -> None:
    """Without c, not everything settles. Unless workers are truthful, an instance that is there may not be whole."""
    rules = Rules(platform=False, truthful=truthful)
    world = World(rules, instance, binding)
    explored = world.explore(promised(rules))
    assert explored.wrong is None
    assert promised(rules) == (PROMISES if truthful else OF_THE_BROKER)
    assert world.rounds(explored.came)[1] is not None
    rounds, never = world.rounds(explored.came, removing=True)
    assert never is None and rounds <= 5


BROKERS = [
    alone.Broker(instances, bindings, first_poll)
    for instances in (("sync", "async"), ("async", "async"), ("async", "-"))
    for bindings in (("sync", "async"), ("async", "async"), ("async", "-"))
    for first_poll in (False, True)
]


@pytest.mark.slow
def test_any_platform() -> None:
    for broker in BROKERS:
        explored = alone.explore(broker)
        assert explored.wrong is None, broker


@pytest.mark.parametrize("part", [name for name in alone.PARTS if name != "deleted tombstones"])
def test_any_platform_without_a_part(part: str) -> None:
    broker = alone.Broker(("sync", "async"), ("async", "sync"), True, frozenset([part]))
    assert alone.explore(broker).wrong is not None


# ---- the ways to a broken promise


@pytest.mark.parametrize("name", ALL)
def test_way(name: str) -> None:
    """Each event applies, and the last one breaks the promise. If nothing is left out, none is ever broken."""
    rules, instance, binding, promise, events = ALL[name]
    without, design = BoundInstance(rules, instance, binding), BoundInstance(BOTH, instance, binding)
    for event in events:
        assert promise not in without.broken()
        assert without.happen(event)
        design.happen(event)
        assert not design.broken() and design.settles() and design.settles(5, removing=True)
    assert not without.settles(9) if promise == SETTLES else promise in without.broken()


@pytest.mark.slow
@pytest.mark.parametrize("name", [name for name in WAYS if name != "attempts"])
def test_way_is_shortest(name: str) -> None:
    way = WAYS[name]
    found = shortest_way(way.rules, way.instance, way.binding, [way.broken])
    assert found is not None and len(found.events) == len(way.events)


# One of the two keeps a Bind from beginning whose tombstone was deleted.
@pytest.mark.slow
@pytest.mark.parametrize("part", ["rule a", "deleted tombstones", "rule b"])
@pytest.mark.parametrize("binding", [SYNC, FIRST_POLL], ids=Order.told)
def test_part_that_is_not_needed(part: str, binding: Order) -> None:
    assert settled(Rules(without=frozenset([part])), SYNC, binding)


@pytest.mark.slow
@pytest.mark.parametrize("answer", [error(409), error(422, "ConcurrencyError")], ids=str)
def test_other_answer_to_a_bind_that_is_put_off(answer: tuple[int, str]) -> None:
    rules = Rules(platform=False, refusal=error(*answer))
    assert shortest_way(rules, SYNC, SYNC, OF_THE_BROKER) is None
