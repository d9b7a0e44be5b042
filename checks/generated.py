"""How hypothesis runs in these checks.

Without more said, the examples are the same in every run, and no database of examples is kept. To look for more, name
how many times as many examples are wanted: they are then drawn at random.

    OSB_EXAMPLES=10 pytest checks/network
"""

from __future__ import annotations

import os
from collections.abc import Callable
from typing import TypeVar

from hypothesis import HealthCheck, seed, settings

Test = TypeVar("Test", bound=Callable[..., None])
_TIMES = int(os.environ.get("OSB_EXAMPLES", "0"))


def examples(count: int) -> settings:
    """The settings of a test with so many examples."""
    return settings(
        max_examples=count * max(_TIMES, 1),
        derandomize=_TIMES == 0,
        database=None,
        deadline=None,
        print_blob=_TIMES > 0,
        report_multiple_bugs=False,
        suppress_health_check=list(HealthCheck),
    )


def vary(number: int) -> Callable[[Test], Test]:
    """Gives a test with parameters other examples for each number."""
    return seed(number) if _TIMES == 0 else lambda test: test
