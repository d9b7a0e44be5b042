"""Compares what the library reads and writes with Python's json, urllib, base64 and hashlib, of instances and bindings.

Each test takes whole texts that hypothesis makes, and of each some others with an edit or two. In ./check it takes ten
times as many of bindings, and in ./check --anew a hundred times: 100,000 requests, and as many bodies.

OSB_EXAMPLES=100 compares a hundred times as many in `make test`, too, drawn at random (checks/generated.py).
"""

from __future__ import annotations

import binding_wire.cases
import binding_wire.lines
import pytest
import wire.cases
import wire.lines
from generated import examples
from hypothesis import given
from whole import ANEW, WHOLE

TIMES = 100 if ANEW else 10 if WHOLE else 1
"""How many times as many examples are taken of bindings."""

CALLS = {"instances": wire.cases.CALLS, "bindings": binding_wire.cases.CALLS}
TEXTS = {"instances": wire.cases.TEXT, "bindings": binding_wire.cases.TEXT}
LINES = [pytest.param("instances", *case, id=what) for what, case in wire.lines.LINES.items()]
LINES += [
    pytest.param("bindings", lines, TIMES * count, id=f"of bindings: {what}", marks=pytest.mark.long(20))
    for what, (lines, count) in binding_wire.lines.LINES.items()
]

# The package osb has loaded the library.
pytestmark = [pytest.mark.slow, pytest.mark.usefixtures("library")]


@pytest.mark.parametrize("of", CALLS)
def test_cases(of: str) -> None:
    """Each line of `lines.txt`, which names each call."""
    lines = [line for line in TEXTS[of].read_text().splitlines() if line and not line.startswith("#")]
    assert {line.partition(" ")[0] for line in lines} == set(CALLS[of])
    for line in lines:
        wire.cases.compare(CALLS[of], line)


@pytest.mark.parametrize(("of", "lines", "count"), LINES)
def test_lines(of: str, lines: wire.lines.Lines, count: int) -> None:
    @examples(count)
    @given(some=lines)
    def compared(some: list[str]) -> None:
        for line in some:
            wire.cases.compare(CALLS[of], line)

    compared()
