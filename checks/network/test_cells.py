"""Steps every cell of network.cells: each is right, and each part of the design that is left out shows a wrong one."""

from __future__ import annotations

import pytest
from network.cells import Any, Design, Ours, explore, rounds, steps_of_any, steps_of_ours, wrong_in_any, wrong_in_ours

DESIGNS = [
    Design(modes, first_poll)
    for modes in (("sync", "async"), ("async", "async"), ("async", "-"), ("-", "sync"), ("-", "async"))
    for first_poll in (False, True)
]


def names(design: Design) -> str:
    return f"{'+'.join(design.modes)}{', first poll' if design.first_poll else ''}"


def explored_ours(design: Design) -> tuple[list[Ours], str | None]:
    return explore(Ours(), lambda cell: steps_of_ours(design, cell), lambda cell: wrong_in_ours(design, cell))


def wrong_at_any(design: Design) -> str | None:
    return explore(Any(), lambda cell: steps_of_any(design, cell), lambda cell: wrong_in_any(design, cell))[1]


@pytest.mark.parametrize("design", DESIGNS, ids=names)
def test_this_platform(design: Design) -> None:
    cells, wrong = explored_ours(design)
    assert wrong is None
    assert max(rounds(design, cell) for cell in cells) <= 3


@pytest.mark.parametrize("design", DESIGNS, ids=names)
def test_any_platform(design: Design) -> None:
    assert wrong_at_any(design) is None


@pytest.mark.parametrize(
    "part", ["first poll", "tombstones", "busy", "pending work", "true before", "deletions delete"]
)
def test_without_a_part_of_any_platform(part: str) -> None:
    assert wrong_at_any(Design(("async", "async"), True, frozenset([part]))) is not None


@pytest.mark.parametrize("part", ["tombstones", "busy", "pending work", "tombstone of a refusal"])
def test_without_a_part_of_this_platform(part: str) -> None:
    assert explored_ours(Design(("sync", "sync"), False, frozenset([part])))[1] is not None
