"""Steps every world of a platform's drivers that can come about. In each, the row is the network's, each answer is
taken by the driver of its request, both sides agree, and three rounds without a fault bring the instance to an end.
Harm comes about if an obligation is left out.

OSB_EXAMPLES=1 steps larger bounds, too, which takes half a minute more.
"""

from __future__ import annotations

import os
from typing import NamedTuple

import pytest
from driver.events import Plan
from driver.platform_left_out import SentAgain, UnwrittenAnswer
from driver.platform_ways import ASYNC, HARM, HARMLESS, SYNC, Way
from driver.platform_world import Design, Rounds, World, disagreement, unsound
from driver.states import Exploration, below, explore
from whole import ANEW

FIRST_POLL = Plan("async", first_poll=True)
# What the safety of the design doesn't need.
NOT_NEEDED = [UnwrittenAnswer, SentAgain]


class Bounds(NamedTuple):
    """The most attempts, the most drivers at a time, and how many worlds come about."""

    plan: Plan
    attempts: int
    drivers: int
    worlds: int


BOUNDS = [Bounds(SYNC, 2, 3, 7_983), Bounds(ASYNC, 2, 2, 8_949), Bounds(FIRST_POLL, 3, 2, 26_063)]
LARGER = [Bounds(ASYNC, 3, 2, 33_957), Bounds(SYNC, 3, 3, 41_536), Bounds(SYNC, 4, 2, 13_674)]
if ANEW or int(os.environ.get("OSB_EXAMPLES", "0")):
    BOUNDS += LARGER


def names(bounds: Bounds) -> str:
    plan = f"{bounds.plan.mode}{', first poll' if bounds.plan.first_poll else ''}"
    return f"{plan}, attempts {bounds.attempts}, drivers {bounds.drivers}"


def step(design: Design, is_strict: bool = True) -> Exploration[World]:
    rounds = Rounds(design)

    def judge(world: World) -> str | None:
        return disagreement(world) or rounds.stuck(world) or (unsound(world) if is_strict else None)

    return explore(design.start, design.steps, judge)


def stages(worlds: list[World]) -> set[str]:
    found = set()
    for driver in {driver for world in worlds for driver in world.drivers}:
        words = driver.stage.name + (f" by {driver.event}" if driver.stage.name == "Take" else "")
        found.add(("owner: " if driver.owns else "") + words)
    return found


STAGES = {
    *("Done", "Send", "Take by take 0", "Take by garbled 0", "Take by gateway 500", "Take by timeout"),
    *("Unsure", "owner: Unsure"),
}


@pytest.mark.slow
@pytest.mark.long(10)
@pytest.mark.parametrize("bounds", BOUNDS, ids=names)
def test_design(bounds: Bounds) -> None:
    plan, attempts, drivers, count = bounds
    explored = step(Design(plan, attempts, drivers))
    assert explored.wrong is None, explored.way
    assert stages(explored.worlds) == STAGES
    assert len(explored.worlds) == count


def test_plan_without_a_mode() -> None:
    """Each request is answered at once."""
    explored = step(Design(Plan("-"), 2, 2))
    assert explored.wrong is None, explored.way


# ---- obligations that are left out


def name(design: type[Design]) -> str:
    return design.__name__


def test_ways_are_of_all_obligations() -> None:
    of_platform = {design for design in below(Design) if design.__module__ == SentAgain.__module__}
    assert of_platform == {*HARM, *HARMLESS, *NOT_NEEDED}


@pytest.mark.slow
@pytest.mark.parametrize("design", HARM, ids=name)
def test_harm_of_an_obligation_that_is_left_out(design: type[Design]) -> None:
    """The shortest way to harm is the one in the table. Without going on, something is wrong already before."""
    way = HARM[design]
    harmed = step(design(way.plan, way.attempts, 2, goes_on=True), is_strict=False)
    assert Way(harmed.way, harmed.wrong or "", way.plan, way.attempts) == way
    assert step(design(way.plan, way.attempts, 2)).wrong is not None


@pytest.mark.slow
@pytest.mark.parametrize("design", HARMLESS, ids=name)
def test_obligation_that_does_no_harm(design: type[Design]) -> None:
    way = HARMLESS[design]
    explored = step(design(way.plan, way.attempts, 2))
    assert Way(explored.way, explored.wrong or "", way.plan, way.attempts) == way
    for plan in (SYNC, ASYNC):
        assert step(design(plan, 2, 2, goes_on=True), is_strict=False).wrong is None


@pytest.mark.slow
@pytest.mark.parametrize("design", NOT_NEEDED, ids=name)
def test_part_that_is_not_needed(design: type[Design]) -> None:
    explored = step(design(SYNC, 2, 2), is_strict=False)
    assert explored.wrong is None, explored.way
