"""An instance at a broker alone, and any platform: the model of AnyPlatform, by the cells.

The lines are those of service_cases: `alone MODE MODE first-poll|-: EVENT, EVENT ..`.
"""

from __future__ import annotations

from collections import Counter
from dataclasses import dataclass, field

from network import model
from network.cells import KINDS, Any, Design, arrived, ended, put_off, wrong_in_any
from network.model import OUTCOMES, PHASES, RESOURCES, Request
from network.walks import Step

# The number that service_cases has for the first plan.
FIRST_PLAN = 3
ENDS = [*(f"end {outcome}" for outcome in OUTCOMES), "finish ok", "finish failed", "give-up-waiting"]
ARRIVALS = [
    f"arrive {kind} {accepts} {plan} {attributes}"
    for kind in KINDS
    for accepts in ("accepts", "refuses")
    for plan in (FIRST_PLAN, FIRST_PLAN + 1)
    for attributes in (1, 2)
]
EVENTS = [*ARRIVALS, *(f"put-off {kind}" for kind in KINDS), *ENDS, *(f"work {to}" for to in RESOURCES), "crash-broker"]
REPORTS = ["ready", "gone", "leaving", "polled"]


def name(line: str) -> str:
    """An event without its arguments, but for how something ends and what becomes of the resource."""
    word, _, rest = line.partition(" ")
    return f"{word} {rest.partition(' ')[0]}" if word == "arrive" else line


@dataclass
class Tally:
    """How often each came about."""

    phases: Counter[str] = field(default_factory=Counter)
    reports: Counter[str] = field(default_factory=Counter)
    applied: Counter[str] = field(default_factory=Counter)
    skipped: Counter[str] = field(default_factory=Counter)

    def missing(self) -> set[str]:
        """What never came about, of all that has to."""
        always = {name(line) for line in EVENTS if line.startswith(("arrive", "put-off", "crash"))}
        wanted = {phase for phase in PHASES if not self.phases[phase]}
        wanted |= {report for report in REPORTS if not self.reports[report]}
        wanted |= {name(line) for line in EVENTS if not self.applied[name(line)]}
        return wanted | {event for event in map(name, EVENTS) if event not in always and not self.skipped[event]}


class LoneBroker:
    """A broker that sells two plans, one of which may be none, and one instance."""

    def __init__(self, seen: Tally, modes: tuple[str, str], first_poll: bool) -> None:
        self.seen, self.design, self.cell = seen, Design(modes, first_poll), Any()
        self.begun = f"alone {' '.join(modes)} {'first-poll' if first_poll else '-'}"
        self.steps: list[Step] = []

    def after(self, line: str) -> Any | None:
        """What there is after the event; None if it doesn't apply."""
        word, _, rest = line.partition(" ")
        cell = self.cell
        if word == "arrive":
            kind, accepts, plan, attributes = rest.split(" ")
            request = Request(kind, accepts == "accepts", int(plan) - FIRST_PLAN, int(attributes))
            return arrived(self.design, cell, request)
        if word == "put-off":
            return put_off(cell, rest)
        if word == "work":
            return cell._replace(resource=rest) if rest in self.design.changes(cell.held, cell.resource) else None
        if word == "crash-broker":
            return cell
        found = [end for end in self.design.ends(cell.held, cell.resource) if end[0] == line]
        return ended(cell, found[0][1], found[0][2]) if found else None

    def happen(self, line: str) -> None:
        after = self.after(line)
        (self.seen.skipped if after is None else self.seen.applied)[name(line)] += 1
        self.cell = self.cell if after is None else after
        self.steps.append(Step(line, f"{'skipped' if after is None else 'applied'}: {self.told()}"))
        self.seen.phases[self.cell.held.row.phase if self.cell.held.row else "-"] += 1
        self.seen.reports.update(self.reports())
        wrong = wrong_in_any(self.design, self.cell)
        assert wrong is None, "\n".join([*(step.line for step in self.steps), wrong])

    def in_a_line(self) -> Step:
        """All that happened, in one line. The last line behind it has the last event once more."""
        what, _, left = self.steps[-1].wanted.partition(": ")
        told = [*(step.wanted for step in self.steps), f"again: {what} {left}"]
        return Step(f"{self.begun}: {', '.join(step.line for step in self.steps)}", "\n  ".join(told))

    def reports(self) -> list[str]:
        return [report for report in REPORTS if getattr(self.cell, report)]

    def told(self) -> str:
        """What there is, and what was reported."""
        row, work, tombstone, attributes = self.cell.held
        words = (row.phase if row else "-", work.kind if work else "-", "tombstone" if tombstone else "-")
        plans = [f"Some({part.plan + FIRST_PLAN})" if part else "None" for part in (row, work)]
        reports = ", ".join(f"{report}: {str(getattr(self.cell, report)).lower()}" for report in REPORTS)
        return f"{' '.join(words)}; {' '.join(plans)} {attributes}; {self.cell.resource}; Told {{ {reports} }}"

    def likely(self) -> list[str]:
        """Events that are likely to apply, each as often as it is likely."""
        made = model.is_made(self.cell.held)
        if made is not None:
            return [f"work {'whole' if made else 'absent'}", "end done", "end refused 400", "finish ok"] * 3 + EVENTS
        of_one = [line for line in ARRIVALS if line.endswith(f"accepts {FIRST_PLAN} 1")]
        return of_one * 3 + (["give-up-waiting"] if made is None and self.cell.held.row else []) + EVENTS
