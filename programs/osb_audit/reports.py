"""The report of an audit, as text and as JSON."""
from __future__ import annotations

import json
from collections import Counter
from typing import Any, Iterator, NamedTuple

from osb_audit.events import COLUMNS
from osb_audit.judging import RECENT, Difference
from osb_audit.lines import Position
from osb_audit.work import Audited
from osb_replay_log.faults import UNUSABLE, shown

DIFFERENT = 1
UNJUDGED = 3
USUAL = 10.0
"""The percent of the instances that may be left without being judged to their end, if --unjudged isn't given."""


class Unjudged(NamedTuple):
    """Why some instances weren't judged to their end."""

    why: str
    instances: int
    whole: int
    """Of how many nothing was judged."""
    first: Position
    """Where the first of them stops."""
    instance: str


class Report:
    """What an audit has come to."""

    def __init__(self, found: Audited, allowed: float | None = None) -> None:
        """`allowed`: the percent of the instances that may be left without being judged to their end, or None for the
        usual one.
        """
        self._found, self._allowed = found, allowed
        self.instances = sum(judged.instances for judged in found.judged)
        self.events = sum(judged.events for judged in found.judged)
        self.differences = found.differences
        self.disagreements = sorted(disagreement for judged in found.judged for disagreement in judged.disagreements)
        self.unjudged = list(_unjudged(found))
        self.notes: Counter[str] = Counter()
        for judged in found.judged:
            self.notes.update(judged.notes)

    def status(self) -> int:
        """The exit status."""
        if self.differences or self.disagreements:
            return DIFFERENT
        if self.instances == sum(reason.whole for reason in self.unjudged):
            return UNUSABLE
        if self._allowed is None:
            return DIFFERENT if self._left * 100 > USUAL * self.instances else 0
        return UNJUDGED if self._left * 100 > self._allowed * self.instances else 0

    @property
    def _left(self) -> int:
        """How many instances weren't judged to their end. If --unjudged isn't given, those don't count that were judged
        until the audit began.
        """
        return sum(reason.instances for reason in self.unjudged if self._allowed is not None or reason.why != RECENT)

    # ---- text

    def text(self) -> str:
        """As text."""
        return "".join(f"{line}\n" for line in self._lines())

    def _lines(self) -> Iterator[str]:
        for difference in self.differences:
            yield from self._of(difference)
        if self.disagreements:
            yield "At the end, the sides disagree:"
            yield from (f"  {why}" for _, why in self.disagreements)
        if self.unjudged:
            yield "Not judged:"
        for reason in self.unjudged:
            path, line = self._found.positions.locate(reason.first)
            yield (
                f"  {_many(reason.instances, 'instance')}, nothing of {reason.whole}: {reason.why}. "
                f"The first is {reason.instance}, from {shown(path)}, line {line} on."
            )
        if self.notes:
            yield "Seen besides:"
            yield from (f"  {count} {what}" for what, count in sorted(self.notes.items()))
        yield from self._of_files()
        yield (
            f"{_many(self.instances, 'instance')}, {_many(self.events, 'event')}, "
            f"{_many(len(self.differences), 'difference')}"
        )

    def _of(self, difference: Difference) -> Iterator[str]:
        path, line = self._found.positions.locate(difference.position)
        yield f"Difference: instance {difference.instance}"
        yield f"  {shown(path)}, line {line}"
        yield f"  {difference.why}"
        if difference.event:
            yield f"  event    {difference.event}"
        yield f"  model    {difference.model}"
        yield f"  journal  {difference.journal}"
        yield "  The trace up to there:"
        yield "\t".join(COLUMNS)
        yield from difference.trace
        yield ""

    def _of_files(self) -> Iterator[str]:
        found = self._found
        for position in found.torn:
            yield f"{shown(position)}: the line was cut off"
        if found.lost:
            yield f"{_many(found.lost, 'line')} could not be written when they happened, and are missing"
        yield from self._remarks()

    def _remarks(self) -> Iterator[str]:
        """Why nothing, or too little, was judged."""
        found = self._found
        for side in ("broker", "platform"):
            if not found.processes[side]:
                yield f"There is no journal of a {side} among these: what the other side did can't be judged without it"
        if self.status() == UNUSABLE:
            yield "Nothing could be judged."
        if self.status() == UNJUDGED:
            yield f"{self._share()} --unjudged allows {self._allowed:g} percent."
        elif self.status() == DIFFERENT and not (self.differences or self.disagreements):
            yield f"{self._share()} More than {USUAL:g} percent is an error, unless --unjudged PERCENT allows more."

    def _share(self) -> str:
        return f"Not judged to their end: {100 * self._left / self.instances:.3g} percent of the instances."

    # ---- JSON

    def json(self) -> str:
        """As one object of JSON."""
        found = self._found
        report = {
            "instances": self.instances,
            "events": self.events,
            "differences": [self._object(difference) for difference in self.differences],
            "disagreements": [{"instance": instance, "why": why} for instance, why in self.disagreements],
            "unjudged": [self._reason(reason) for reason in self.unjudged],
            "notes": dict(sorted(self.notes.items())),
            "remarks": list(self._remarks()),
            "torn": found.torn,
            "lost": found.lost,
            "processes": dict(sorted(found.processes.items())),
        }
        return json.dumps(report, indent=1) + "\n"

    def _object(self, difference: Difference) -> dict[str, Any]:
        path, line = self._found.positions.locate(difference.position)
        parts = {name: getattr(difference, name) for name in ("event", "why", "model", "journal")}
        trace = ["\t".join(COLUMNS), *difference.trace]
        return {"instance": difference.instance, "file": path, "line": line, **parts, "trace": trace}

    def _reason(self, unjudged: Unjudged) -> dict[str, Any]:
        path, line = self._found.positions.locate(unjudged.first)
        first = {"instance": unjudged.instance, "file": path, "line": line}
        return {"why": unjudged.why, "instances": unjudged.instances, "whole": unjudged.whole, "first": first}


def _unjudged(found: Audited) -> Iterator[Unjudged]:
    by_reason: dict[str, list[tuple[Position, str, bool]]] = {}
    for judged in found.judged:
        for instance, position, why, is_whole in judged.unjudged:
            by_reason.setdefault(why, []).append((position, instance, is_whole))
    for why, its in sorted(by_reason.items()):
        position, instance, _ = min(its)
        yield Unjudged(why, len(its), sum(found[2] for found in its), position, instance)


def _many(count: int, what: str) -> str:
    return f"{count:,} {what}" + ("" if count == 1 else "s")
