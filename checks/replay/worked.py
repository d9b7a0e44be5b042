"""The worked schedules of worked.txt, and the short form in which they and other schedules of these tests are written.

In that form a semicolon ends a line, and S, P, Q, R, I and J stand for ids; worked.txt says which.
"""

from __future__ import annotations

import json
import re
from collections.abc import Callable
from pathlib import Path
from typing import NamedTuple

SERVICE = "00000000-0000-0000-0000-0000000000a0"
SYNC = "00000000-0000-0000-0000-0000000000b1"
ASYNC = "00000000-0000-0000-0000-0000000000b2"
UNSOLD = "00000000-0000-0000-0000-0000000000b3"
ONE = "00000000-0000-0000-0000-000000000001"
TWO = "00000000-0000-0000-0000-000000000002"
IDS = {"S": SERVICE, "P": SYNC, "Q": ASYNC, "R": UNSOLD, "I": ONE, "J": TWO}
PLANS = "plan S P sync; plan S Q async; "
ESCAPES = {"n": b"\n", "r": b"\r", "t": b"\t"}


class WorkedExample(NamedTuple):
    """A schedule, the options that it is replayed with, and the report."""

    name: str
    options: list[str]
    schedule: bytes
    report: str


def with_ids(text: str) -> str:
    """The text with ids in place of their letters."""
    return re.sub(r"\b[SPQRIJ]\b", lambda found: IDS[found[0]], text)


def lines(text: str) -> str:
    """The lines of a text in the short form, each with its line feed."""
    return "".join(f"{line.strip()}\n" for line in with_ids(text).split(";") if line.strip())


def escaped(found: re.Match[bytes]) -> bytes:
    name = found[1].decode()
    return ESCAPES[name] if name in ESCAPES else bytes([int(name, 8)])


def whole(text: str) -> bytes:
    """The bytes of a text in which {9*x} stands for nine x, and \\n, \\r, \\t and \\ooo for what printf writes."""
    repeated = re.sub(r"\{([0-9]+)\*([^}]*)\}", lambda found: found[2] * int(found[1]), with_ids(text))
    return re.sub(rb"\\(n|r|t|[0-7]{1,3})", escaped, repeated.encode())


def schedule(text: str, plans: str = "") -> bytes:
    """The bytes of a schedule: of a whole input, which begins with the word whole, or of the plans and the lines."""
    if text.split(" ")[0] == "whole":
        return whole(text[len("whole") :].lstrip(" "))
    return lines(plans + text).encode()


def saved(ends: list[str], plan_of: Callable[[str], str]) -> str:
    """The saved record of the instances of a report."""
    parts = [line.split() for line in ends]
    rows = {name: {"plan": plan_of(name), "service": SERVICE, "state": state} for name, state, _ in parts}
    return json.dumps({"instances": rows, "version": 2}, separators=(",", ":")) + "\n"


def report(
    ends: list[str],
    applied: int,
    skipped: int,
    is_saved: bool = False,
    plan_of: Callable[[str], str] = lambda name: SYNC,
) -> str:
    """A report, of what each instance has in the end, as `ID STATE PHASE`. All are of the synchronous plan, if no
    function gives the plan of each.
    """
    text = "".join(f"{line}\n" for line in [*ends, f"applied {applied}", f"skipped {skipped}"])
    return text + (saved(ends, plan_of) if is_saved else "")


def read(line: str) -> WorkedExample:
    name, options, text, instances, counts = (part.strip() for part in line.split("|"))
    applied, skipped = map(int, counts.split())
    told = report(lines(instances).splitlines(), applied, skipped, "--saved" in options)
    return WorkedExample(name, options.split(), schedule(text, PLANS), told)


def worked() -> list[WorkedExample]:
    """The worked schedules, in their order."""
    text = (Path(__file__).parent / "worked.txt").read_text()
    return [read(line) for line in text.splitlines() if not line.startswith("#")]
