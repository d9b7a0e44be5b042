"""Steps every world of a platform's drivers at an instance and at a binding that can come about. In each, the rows are
the network's, a binding is ready only with its credentials, and both sides agree. Harm comes about if an obligation is
left out.

OSB_EXAMPLES=1 steps larger bounds, too, which takes a minute more.
"""

from __future__ import annotations

import os
from typing import NamedTuple

import pytest
from driver.events import Plan
from driver.platform_service_ways import ASYNC, HARM, HARMLESS, SYNC, Way
from driver.platform_service_world import Both, Design, broken
from driver.states import Exploration, below, explore
from whole import ANEW

FIRST_POLL = Plan("async", first_poll=True)


class Bounds(NamedTuple):
    """The plans of the instance and of the binding, whether the binding can be fetched, the most drivers at each at a
    time, and how many worlds come about.
    """

    instance: Plan
    binding: Plan
    retrievable: bool
    drivers: int
    worlds: int


BOUNDS = [
    Bounds(SYNC, SYNC, True, 1, 3_693),
    Bounds(SYNC, ASYNC, True, 1, 16_677),
    Bounds(SYNC, ASYNC, False, 1, 11_626),
    Bounds(SYNC, FIRST_POLL, True, 1, 12_381),
]
if ANEW or int(os.environ.get("OSB_EXAMPLES", "0")):
    BOUNDS += [Bounds(ASYNC, SYNC, True, 1, 16_786), Bounds(SYNC, SYNC, True, 2, 142_454)]


def names(bounds: Bounds) -> str:
    plans = [f"{plan.mode}{', first poll' if plan.first_poll else ''}" for plan in bounds[:2]]
    return f"{', '.join(plans)}{'' if bounds.retrievable else ', no fetch'}, drivers {bounds.drivers}"


def step(design: Design) -> Exploration[Both]:
    return explore(design.start, design.steps, broken)


def stages(worlds: list[Both]) -> set[str]:
    """Where the drivers of the binding stand."""
    drivers = {driver for world in worlds for driver in world.binding.drivers}
    return {driver.stage.name + (", sealed" if driver.credentials else "") for driver in drivers}


@pytest.mark.slow
@pytest.mark.long(10)
@pytest.mark.parametrize("bounds", BOUNDS, ids=names)
def test_design(bounds: Bounds) -> None:
    instance, binding, retrievable, drivers, count = bounds
    explored = step(Design.of(instance, binding, drivers, retrievable=retrievable))
    assert explored.wrong is None, explored.way
    fetches = {"Fetch"} if binding.mode == "async" and retrievable else set()
    assert stages(explored.worlds) == {"Done", "Send", "Take", "Take, sealed", "Unsure"} | fetches
    assert len(explored.worlds) == count


# ---- obligations that are left out


def name(design: type[Design]) -> str:
    return design.__name__


def test_ways_are_of_all_obligations() -> None:
    assert below(Design) == {*HARM, *HARMLESS}


def found(design: type[Design], way: Way, goes_on: bool = False) -> Exploration[Both]:
    return step(design.of(SYNC, way.plan, goes_on=goes_on, retrievable=way.retrievable))


@pytest.mark.slow
@pytest.mark.parametrize("design", HARM, ids=name)
def test_harm_of_an_obligation_that_is_left_out(design: type[Design]) -> None:
    """The shortest way to harm is the one in the table. Without going on, something is wrong already before."""
    way = HARM[design]
    harmed = found(design, way, goes_on=True)
    assert way == Way(" | ".join(harmed.way), harmed.wrong or "", way.plan, way.retrievable)
    assert found(design, way).wrong is not None


@pytest.mark.slow
@pytest.mark.parametrize("design", HARMLESS, ids=name)
def test_obligation_that_does_no_harm(design: type[Design]) -> None:
    way = HARMLESS[design]
    first = found(design, way)
    assert way == Way(" | ".join(first.way), first.wrong or "", way.plan, way.retrievable)
    assert found(design, way, goes_on=True).wrong is None
