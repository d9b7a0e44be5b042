"""Steps every world of a broker's worker that can come about. In each, an outcome is true of what exists, and stays so
after a power cut. Without an obligation, it isn't.
"""

from __future__ import annotations

import pytest
from driver.states import Exploration, below, explore
from driver.worker import Design, World
from driver.worker_left_out import NoFirstLook, NoLookAfterSync
from driver.worker_ways import CREATION, DELETION, Way

WAYS = {True: CREATION, False: DELETION}
# What the truth of an outcome doesn't need.
NOT_NEEDED = {NoFirstLook, NoLookAfterSync}


def name(design: type[Design]) -> str:
    return design.__name__


BELOW: set[type[Design]] = below(Design)
LEFT_OUT = sorted(BELOW, key=name)


def step(design: Design) -> Exploration[World]:
    return explore(design.start, design.steps, lambda world: design.untrue(world) or design.stuck(world))


@pytest.mark.parametrize(("creates", "worlds"), [(True, 132), (False, 58)], ids=["creation", "deletion"])
def test_design(creates: bool, worlds: int) -> None:
    explored = step(Design(creates))
    assert explored.wrong is None, explored.way
    outcomes = {None, "done", "before", "refused 400"} if creates else {None, "done", "before"}
    assert {world.worker.outcome for world in explored.worlds} == outcomes
    assert len(explored.worlds) == worlds


def test_ways_are_of_all_obligations() -> None:
    assert BELOW == {*CREATION, *DELETION, *NOT_NEEDED}


@pytest.mark.parametrize("creates", [True, False], ids=["creation", "deletion"])
@pytest.mark.parametrize("design", LEFT_OUT, ids=name)
def test_obligation_that_is_left_out(design: type[Design], creates: bool) -> None:
    """The shortest way is the one in the table. Without one, the outcome is true all the same."""
    explored = step(design(creates))
    way = WAYS[creates].get(design)
    assert explored.wrong == (way and way.wrong)
    assert way is None or Way(" | ".join(explored.way), explored.wrong or "") == way
