"""Steps every world of a broker's drivers at an instance and at a binding that can come about, with any platform. In
each, the rows are the network's, and no binding is held or exists unless its instance is there, complete. If an
obligation is left out, one is.
"""

from __future__ import annotations

import os

import pytest
from driver.events import Plan
from driver.service_ways import WAYS
from driver.service_world import Design, broken
from driver.states import below, explore
from whole import ANEW

SYNC, ASYNC, FIRST_POLL = Plan("sync"), Plan("async"), Plan("async", first_poll=True)
# The plans of the instance and of the binding, and how many worlds come about of one driver at each.
PLANS = [(SYNC, SYNC, 22_886), (SYNC, FIRST_POLL, 36_413), (FIRST_POLL, SYNC, 46_669)]
if ANEW or int(os.environ.get("OSB_EXAMPLES", "0")):
    PLANS += [(SYNC, ASYNC, 45_572), (ASYNC, SYNC, 53_229), (ASYNC, ASYNC, 67_315)]


def words(plan: object) -> str | None:
    return f"{plan.mode}{', first poll' if plan.first_poll else ''}" if isinstance(plan, Plan) else None


@pytest.mark.slow
@pytest.mark.parametrize(("instance", "binding", "count"), PLANS, ids=words)
def test_design(instance: Plan, binding: Plan, count: int) -> None:
    design = Design(instance, binding)
    explored = explore(design.start, design.steps, broken)
    assert explored.wrong is None, explored.way
    assert len(explored.worlds) == count


def name(design: type[Design]) -> str:
    return design.__name__


def test_ways_are_of_all_obligations() -> None:
    assert below(Design) == set(WAYS)


@pytest.mark.parametrize("design", WAYS, ids=name)
def test_obligation_that_is_left_out(design: type[Design]) -> None:
    """The shortest way to a broken promise is the one in the table."""
    left_out = design(SYNC, SYNC)
    explored = explore(left_out.start, left_out.steps, broken)
    assert (" | ".join(explored.way), explored.wrong) == WAYS[design]
