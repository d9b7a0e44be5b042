"""Steps every world of the drivers of an instance that can be updated. In each, the row, the resource and the answers
are those of a broker of update.alone. If an obligation is left out, a wrong world comes about.

OSB_EXAMPLES=1 steps larger bounds, too, which takes two minutes more.
"""

from __future__ import annotations

import os
from typing import NamedTuple

import pytest
from driver.events import Plan
from driver.states import Exploration, below, explore
from driver.update_left_out import NumberForEachPart, UncomparedNumberAtUnsure, WithoutRuleD
from driver.update_model import Asked, Terms
from driver.update_ways import TOGETHER, TOGETHER_WAYS, WAYS
from driver.update_world import Design, World, unsound
from whole import ANEW

PROVISION, DEPROVISION, POLL = Asked("provision", "p"), Asked("deprovision"), Asked("poll")
TO_P, TO_Q = Asked("update", "p"), Asked("update", "q")
ALL = (PROVISION, DEPROVISION, POLL, TO_Q, TO_P)
BOTH = (TO_Q, DEPROVISION)
NUMBERED = (Asked("update", "q", 1), Asked("update", "p", 2), DEPROVISION, PROVISION)
SYNC, ASYNC = Terms(Plan("sync")), Terms(Plan("async"), "async")
FIRST_POLL = Terms(Plan("async", first_poll=True))
# What the safety of the design doesn't need.
NOT_NEEDED = [NumberForEachPart, UncomparedNumberAtUnsure]


class Remembering(Design):
    """The promises of the broker are looked at, too."""

    remembers = True


class Bounds(NamedTuple):
    """The requests that may come, how many do, whether the instance was created before, whether
    requests are put off, and how many worlds come about.
    """

    name: str
    design: type[Design]
    terms: Terms
    requests: tuple[Asked, ...]
    most: int
    made: bool
    puts_off: bool
    worlds: int


BOUNDS = [
    Bounds("sync", Design, SYNC, ALL, 2, True, False, 45_835),
    Bounds("async", Design, ASYNC, BOTH, 2, True, False, 74_569),
    Bounds("promises", Remembering, SYNC, (*BOTH, PROVISION), 2, True, True, 30_904),
]
LARGER = [
    Bounds("first poll", Design, FIRST_POLL, (PROVISION, TO_Q, POLL, DEPROVISION), 3, False, False, 20_340),
    Bounds("async, all requests", Design, ASYNC, ALL, 2, True, False, 108_221),
    Bounds("numbers", Design, SYNC, NUMBERED, 3, True, False, 116_531),
    Bounds("from the creation on", Design, SYNC, ALL, 3, False, False, 91_596),
]
if ANEW or int(os.environ.get("OSB_EXAMPLES", "0")):
    BOUNDS += LARGER


def of_bounds(bounds: Bounds) -> str:
    return bounds.name


def step(design: Design) -> Exploration[World]:
    def judge(world: World) -> str | None:
        return unsound(design.terms, world) or design.broken(world)

    return explore(design.start, design.steps, judge)


@pytest.mark.slow
@pytest.mark.long(30)
@pytest.mark.parametrize("bounds", BOUNDS, ids=of_bounds)
def test_design(bounds: Bounds) -> None:
    explored = step(
        bounds.design(bounds.terms, bounds.requests, bounds.most, made=bounds.made, puts_off=bounds.puts_off)
    )
    assert explored.wrong is None, explored.way
    assert len(explored.worlds) == bounds.worlds


# ---- obligations that are left out


def name(design: type[Design]) -> str:
    return design.__name__


def test_ways_are_of_all_obligations() -> None:
    of_update = {design for design in below(Design) if design.__module__ == NumberForEachPart.__module__}
    assert of_update == {*WAYS, *TOGETHER_WAYS, *NOT_NEEDED}


@pytest.mark.parametrize("design", WAYS, ids=name)
def test_obligation_that_is_left_out(design: type[Design]) -> None:
    """The shortest way to a wrong world is the one in the table."""
    left_out = design(SYNC, BOTH, 2)
    explored = explore(left_out.start, left_out.steps, left_out.broken)
    assert (explored.way, explored.wrong) == WAYS[design]


@pytest.mark.parametrize("design", TOGETHER_WAYS, ids=name)
def test_rule_that_is_left_out(design: type[Design]) -> None:
    """The work of the instance and that of an update are there together."""
    explored = step(design(SYNC, BOTH, 2))
    assert (explored.way, explored.wrong) == (TOGETHER_WAYS[design], TOGETHER)


@pytest.mark.slow
@pytest.mark.parametrize("design", [*NOT_NEEDED, WithoutRuleD], ids=name)
def test_part_that_breaks_no_promise(design: type[Design]) -> None:
    """Without rule d the invariant of the proof is lost, but not a promise: one lock lets only one of the two work."""
    left_out = design(SYNC, BOTH, 2)
    explored = explore(left_out.start, left_out.steps, left_out.broken)
    assert explored.wrong is None, explored.way
