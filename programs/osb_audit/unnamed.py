"""Which events the lines of version 0.3 are, whose drivers name none: the tables find it out."""
from __future__ import annotations

from osb_audit import rules
from osb_audit.rules import ENDS, Held, Recorded, Said


def change(held: Held, mode: str, after: Held, said: Said | None, is_request: bool) -> str | None:
    """The event that changes what a broker holds, or None if no end of the pending work leaves this. `said` is the
    answer to the request whose work ends.
    """
    if held.work != "-":
        found = [(how, end[1]) for how in ENDS for end in [rules.ended(held, mode, how)] if end and end[0] == after]
        ends = sorted(found, key=lambda end: end[1] != said)
        return f"end {ends[0][0]}" if ends else None
    if not is_request and held.phase == "waiting" and after == held._replace(phase="failed"):
        return "give-up-waiting"
    how = next((how for how in ("ok", "fail") if not is_request and rules.finished(held, how) == after), None)
    return f"finish {how}" if how else "arrive"


def steps(before: Recorded, after: Recorded) -> str | None:
    """The shortest list of events of the platform itself that leads from one record to the other, or None."""
    found = rules.steps(before, after)
    return None if found is None else " ".join(found)


def take(before: Recorded, answered: Recorded | None, after: Recorded) -> str:
    """Whether the platform has taken an answer, after which the record would be `answered`, or a timeout."""
    return "timeout" if answered != after == rules.stepped(before, "timeout") else "take"
