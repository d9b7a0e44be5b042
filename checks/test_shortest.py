"""What makes a story short that shows a difference."""

from __future__ import annotations

import pytest
from shortest import shortest


@pytest.mark.parametrize("needed", [[], [0], [99], [3, 77], [40, 41, 42], [0, 50, 99]])
def test_parts_that_are_needed_are_left(needed: list[int]) -> None:
    assert list(shortest(range(100), lambda parts: set(needed) <= set(parts))) == needed


def test_one_is_left_of_several_that_serve() -> None:
    assert len(shortest(range(100), lambda parts: any(part % 10 == 0 for part in parts))) == 1
