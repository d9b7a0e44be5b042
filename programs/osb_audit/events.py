"""The events of the proved model that the lines of an instance are, with what the trace has to show after each."""
from __future__ import annotations

from typing import Mapping, NamedTuple

from osb_audit.lines import Position
from osb_audit.rules import Said
from osb_audit.tails import Change

COLUMNS = "line event step state out attempt phase work tombstone resource recorded credentials given answer".split()
"""Of a trace of `osb-replay network`."""
STEP, STATE, OUT, ATTEMPT, PHASE, WORK, TOMBSTONE, RESOURCE, RECORDED, CREDENTIALS, _, ANSWER = range(2, 14)

_BODIES = {
    "empty": "",
    "async-required": "-AsyncRequired",
    "concurrency-error": "-ConcurrencyError",
    "other-error": "-Other",
}

Wanted = tuple[tuple[int, str], ...]
"""The columns that count, and what stands in them."""


def shown(said: Said) -> str:
    """An answer as a trace has it."""
    return f"{said[0]}{_BODIES.get(said[1], '-' + said[1])}"


class Event(NamedTuple):
    """A line of a schedule, the journal's line that it comes from, and what the trace has to show after it."""

    text: str
    position: Position
    wanted: Wanted = ((STEP, "applied"),)


class Stop(NamedTuple):
    """Why the lines of an instance aren't gone through any further: a difference that shows without the model, or
    something that can't be judged.
    """

    position: Position
    is_difference: bool
    why: str
    model: str = ""
    journal: str = ""


class Story(NamedTuple):
    """What the lines of an instance have come to."""

    instance: str
    events: list[Event]
    stop: Stop | None
    disagreements: list[str]
    """What both sides disagree about at the end."""
    notes: dict[str, int]
    """How often what was seen isn't in the model, by what it is."""
    unshown: Mapping[Change, int] = {}
    """The last changes of killed processes that count though nothing shows that they were committed, with their times.
    """
