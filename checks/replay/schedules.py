"""Schedules without a fault, of few instances, in which most events apply, as hypothesis makes them."""

from __future__ import annotations

from collections.abc import Iterator
from typing import TypeVar

from hypothesis import strategies as st
from replay.worked import ASYNC, SERVICE, SYNC, UNSOLD

Some = TypeVar("Some")
PLANS = {"sync": SYNC, "async": ASYNC}
HEAD = [f"plan {SERVICE} {plan} {mode}" for mode, plan in PLANS.items()]
# The lines that are no event.
OTHERS = ["", "# a comment", "   ", "#\t"]
# The events that name an instance, each as often as it is likely; {} is the instance.
EVENTS = [
    *(f"create {{}} {SERVICE} {plan} {accepts}" for plan in (SYNC, ASYNC) * 2 for accepts in ("yes", "yes", "no")),
    *(f"create {{}} {SERVICE} {UNSOLD} {accepts}" for accepts in ("yes", "no")),
    *["deliver {} done"] * 12,
    *["deliver {} before", "deliver {} after"] * 4,
    *["answer {}"] * 14,
    *["send {}"] * 10,
    *["finish {} ok", "finish {} fail"] * 2,
    *["repeat {} done", "repeat {} done", "repeat {} before", "repeat {} after"],
    *(f"gateway {{}} {status}" for status in (500, 502, 503, 599)),
    *["remove {}", "lose {}", "garble {}", "timeout {}", "expire {}"] * 2,
]


def instance(number: int) -> str:
    return f"00000000-0000-0000-0000-{number:012x}"


def capitals(line: str) -> str:
    return " ".join(word.upper() if len(word) == 36 else word for word in line.split(" "))


def spellings(line: str) -> Iterator[str]:
    """The same words in other ways."""
    yield capitals(line)
    yield line.replace(" ", "  ")
    yield "\t" + line.replace(" ", " \t ") + " "
    yield line + "\r"


def lines(names: list[str]) -> list[str]:
    """Lines about these instances, each as often as it is likely; the simplest is first."""
    plain = [event.format(name) for name in names for event in EVENTS]
    spelled = [other for line in plain[:: max(1, len(plain) // 100)] for other in spellings(line)]
    often = max(1, len(plain) // 100)
    # About one line in ten is spelled otherwise, and one in fifty is a restart or no event.
    return plain * max(1, 1000 // len(plain)) + (spelled + ["restart"] * 12 + OTHERS * 2) * (often if often > 9 else 1)


@st.composite
def some(draw: st.DrawFn, of: list[Some], most: int) -> list[Some]:
    """So many of these at most."""
    one = st.sampled_from(of)
    return [draw(one) for _ in range(draw(st.integers(0, most)))]


FEW = [lines([instance(number) for number in range(1, many + 1)]) for many in range(1, 5)]


@st.composite
def schedules(draw: st.DrawFn) -> bytes:
    """A schedule of up to four instances and 60 events."""
    text = "\n".join([*HEAD, *draw(some(draw(st.sampled_from(FEW)), 60))])
    return (text + draw(st.sampled_from(["\n", ""]))).encode()
