"""Steps every world of a broker's drivers that can come about. In each, the row, the resource and the answers are the
network's. If an obligation is left out, a wrong world comes about.

OSB_EXAMPLES=1 steps larger bounds, too, which takes two minutes more.
"""

from __future__ import annotations

import os
from typing import NamedTuple

import pytest
from driver.broker_left_out import LateCommitAtUnsure, UncomparedNumberAtUnsure
from driver.broker_ways import WAYS
from driver.broker_world import Design, World, disagreement, unsound
from driver.events import Plan
from driver.states import Exploration, below, explore
from whole import ANEW

SYNC, ASYNC, FIRST_POLL = Plan("sync"), Plan("async"), Plan("async", first_poll=True)
# What the safety of the design doesn't need.
NOT_NEEDED = [UncomparedNumberAtUnsure, LateCommitAtUnsure]


class Bounds(NamedTuple):
    """The most attempts, the most drivers at a time, and how many worlds come about."""

    plan: Plan
    attempts: int
    drivers: int
    worlds: int


# The worlds of one attempt are among those of two.
BOUNDS = [Bounds(SYNC, 2, 2, 68_979), Bounds(ASYNC, 1, 2, 41_259), Bounds(FIRST_POLL, 2, 2, 79_783)]
LARGER = [Bounds(ASYNC, 2, 2, 261_766), Bounds(SYNC, 3, 2, 181_550), Bounds(SYNC, 1, 3, 223_662)]
if ANEW or int(os.environ.get("OSB_EXAMPLES", "0")):
    BOUNDS += LARGER


def names(bounds: Bounds) -> str:
    plan = f"{bounds.plan.mode}{', first poll' if bounds.plan.first_poll else ''}"
    return f"{plan}, attempts {bounds.attempts}, drivers {bounds.drivers}"


def step(design: Design) -> Exploration[World]:
    return explore(design.start, design.steps, lambda world: disagreement(world) or unsound(design.plan, world))


# The stages that come about, of a driver whose number the row has (an owner), and of one whose number it hasn't.
STAGES = {
    *("TryLock", "AwaitLock", "Begin", "Begin, locked", "Unsure", "Work", "End", "Finish", "Done"),
    *("End, remembers", "End, remembers what was given"),
    *("owner: Begin, locked", "owner: Unsure", "owner: Work", "owner: End", "owner: Finish"),
    *("owner: End, remembers", "owner: End, remembers what was given"),
}
# A synchronous plan has no operation.
OPERATIONS = {"Finish", "owner: Finish"}


def stages(worlds: list[World]) -> set[str]:
    found = set()
    for driver in {driver for world in worlds for driver in world.drivers}:
        words = f"{'owner: ' if driver.owns else ''}{driver.stage.name}{', locked' if driver.stage.locked else ''}"
        words += ", remembers" if driver.stage.answer else ""
        found.add(words + (" what was given" if driver.was_given else ""))
    return found


@pytest.mark.slow
@pytest.mark.long(10)
@pytest.mark.parametrize("bounds", BOUNDS, ids=names)
def test_design(bounds: Bounds) -> None:
    plan, attempts, drivers, count = bounds
    explored = step(Design(plan, attempts, drivers))
    assert explored.wrong is None, explored.way
    assert stages(explored.worlds) == (STAGES - OPERATIONS if plan == SYNC else STAGES)
    assert len(explored.worlds) == count


def test_plan_without_a_mode() -> None:
    """Each request is answered at once."""
    plan = Plan("-")
    explored = step(Design(plan, 2, 2))
    assert explored.wrong is None, explored.way
    assert stages(explored.worlds) == {"TryLock", "Begin", "Begin, locked", "Done"}


# ---- obligations that are left out


def name(design: type[Design]) -> str:
    return design.__name__


def test_ways_are_of_all_obligations() -> None:
    of_broker = {design for design in below(Design) if design.__module__ == LateCommitAtUnsure.__module__}
    assert of_broker == {*WAYS, *NOT_NEEDED}


@pytest.mark.parametrize("design", WAYS, ids=name)
def test_obligation_that_is_left_out(design: type[Design]) -> None:
    """The shortest way to a wrong world is the one in the table."""
    left_out = design(SYNC, 1, 2, puts_off=False)
    explored = explore(left_out.start, left_out.steps, disagreement)
    assert (explored.way, explored.wrong) == WAYS[design]


@pytest.mark.slow
@pytest.mark.parametrize("design", NOT_NEEDED, ids=name)
def test_part_that_is_not_needed(design: type[Design]) -> None:
    explored = step(design(SYNC, 1, 2))
    assert explored.wrong is None, explored.way
