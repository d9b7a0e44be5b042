"""osb_update_wire reads and writes what the model does by Python's json and urllib.

The program of the crate library_cases prints what the crate gives. Some tests take whole texts that hypothesis makes,
and some of each such text others with an edit or two. In ./check they take ten times as many, and in ./check --anew a
hundred times: over 100,000 requests, and as many bodies.

OSB_EXAMPLES=100 compares a hundred times as many in `make test`, too, drawn at random (checks/generated.py).
"""

from __future__ import annotations

import pytest
from crate_programs import told_by
from generated import examples
from hypothesis import given
from update_wire.cases import of_line, told
from update_wire.lines import LINES, Lines
from whole import ANEW, WHOLE

pytestmark = pytest.mark.slow

TIMES = 100 if ANEW else 10 if WHOLE else 1
"""How many times as many examples are taken."""


@pytest.mark.parametrize(
    ("lines", "count"),
    [pytest.param(lines, TIMES * count, id=what, marks=pytest.mark.long(20)) for what, (lines, count) in LINES.items()],
)
def test_lines(lines: Lines, count: int) -> None:
    tell = told_by("library_cases")

    @examples(count)
    @given(some=lines)
    def compared(some: list[str]) -> None:
        assert tell(some).splitlines() == [told(of_line(line)) for line in some]

    compared()
