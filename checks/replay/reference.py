"""What `osb-replay trace` is to write, once more: from the tables of docs/, and by no code of the crates.

It takes schedules without a fault. The tables of both sides are those of `network.model`.
"""

from __future__ import annotations

from collections.abc import Iterator
from dataclasses import dataclass, field

from network import model
from network.model import DUE, Answer, Request, Row, error, state_after

HEADER = "line\tevent\tstep\tplatform\tbroker\tout\tanswer"
REMOVABLE = ("polling", "ready", "unsettled")

# The words for a body, where the trace has others than the model.
WORDS = {"empty": "", "error": "Other"}


@dataclass
class Cell:
    """All that there is of one instance."""

    plan: tuple[str, str] = ("", "")
    accepts: bool = False
    platform: str | None = None
    phase: str | None = None
    out: str | None = None
    travelling: Answer | None = None

    def columns(self) -> str:
        status, body = self.travelling or ("", "")
        answer = "-".join(filter(None, (str(status), WORDS.get(body, body)))) or "-"
        return "\t".join((self.platform or "none", self.phase or "none", self.out or "-", answer))

    def close(self, state: str) -> None:
        self.platform, self.out, self.travelling = state, None, None


@dataclass
class World:
    """The cells, and how each plan works."""

    plans: dict[tuple[str, str], str] = field(default_factory=dict)
    cells: dict[str, Cell] = field(default_factory=dict)

    def cell(self, instance: str) -> Cell:
        return self.cells.get(instance, Cell())


def handled(cell: Cell, mode: str | None, outcome: str) -> Answer:
    """The answer of the broker. The row's plan is the record's: no id is used again."""
    assert cell.out is not None
    if cell.out == "poll" and cell.phase is not None and outcome != "done":
        return error(500)
    row = None if cell.phase is None else Row(0, cell.phase)
    request = Request(cell.out, cell.accepts or cell.out != "provision")
    after, answer = model.handled(mode or "-", row, request, outcome)
    cell.phase = after.phase if after else None
    return answer


def timed_out(state: str) -> str:
    return "cleaning" if state == "wanted" else state


def why_skipped(cell: Cell, verb: str) -> str | None:
    """Why the event doesn't apply to the cell, or None where it does."""
    if verb == "create":
        return None if cell.platform is None else "id-used"
    if cell.platform is None:
        return "unknown"
    if verb in ("remove", "send", "expire"):
        able, why = {
            "remove": (cell.platform in REMOVABLE, "not-removable"),
            "send": (cell.platform in DUE, "nothing-due"),
            "expire": (cell.platform == "polling", "not-polling"),
        }[verb]
        return why if not able else None if cell.out is None else "busy"
    if verb in ("deliver", "timeout", "gateway"):
        return None if cell.out is not None else "nothing-out"
    if verb == "finish":
        return None if cell.phase in ("making", "deleting") else "nothing-running"
    return None if cell.travelling is not None else "nothing-travels"


def finished(phase: str, well: bool) -> str | None:
    if phase == "making":
        return "ready" if well else "failed"
    return None if well else "delete-failed"


def apply(world: World, cell: Cell, words: list[str]) -> None:
    """Changes the cell as the event does that applies to it."""
    verb, last = words[0], words[-1]
    assert cell.platform is not None
    if verb in ("remove", "expire"):
        cell.platform = "cleaning"
    elif verb == "send":
        cell.out = DUE[cell.platform]
    elif verb in ("deliver", "repeat"):
        answer = handled(cell, world.plans.get(cell.plan), last)
        cell.travelling = answer if verb == "deliver" else cell.travelling
    elif verb == "lose":
        cell.travelling = None
    elif verb == "garble":
        assert cell.travelling is not None
        cell.travelling = Answer(cell.travelling.status, "malformed")
    elif verb == "gateway":
        cell.travelling = Answer(int(last), "malformed")
    elif verb == "answer":
        assert cell.out is not None and cell.travelling is not None
        cell.close(state_after(cell.platform, cell.out, cell.travelling))
    elif verb == "timeout":
        cell.close(timed_out(cell.platform))
    elif verb == "finish":
        assert cell.phase is not None
        cell.phase = finished(cell.phase, last == "ok")


def step(world: World, words: list[str]) -> str:
    """Lets the event happen to the instance that it names, and says `applied`, or why it was skipped."""
    instance = words[1].lower()
    cell = world.cell(instance)
    why = why_skipped(cell, words[0])
    if why is not None:
        return why
    if words[0] == "create":
        plan = words[2].lower(), words[3].lower()
        world.cells[instance] = Cell(plan, words[4] == "yes", platform="wanted", out="provision")
    else:
        apply(world, cell, words)
    return "applied"


def restart(world: World) -> int:
    """Restarts the platform, and says how many instances that changed."""
    changed = [cell for cell in world.cells.values() if cell.out is not None]
    for cell in changed:
        assert cell.platform is not None
        cell.close(timed_out(cell.platform))
    return len(changed)


def line_of(world: World, number: str, words: list[str]) -> str:
    said = step(world, words)
    return "\t".join((number, " ".join(words), said, world.cell(words[1].lower()).columns()))


def rounds(world: World, instance: str) -> Iterator[str]:
    for number in (1, 2, 3):
        for event in ("timeout {}", "finish {} ok", "send {}", "deliver {} done", "answer {}"):
            yield line_of(world, f"round {number}", event.format(instance).split())


def trace(schedule: bytes, instance: str | None = None, settle: bool = False) -> Iterator[str]:
    """The lines of the trace, without their line feeds."""
    world = World()
    yield HEADER
    for number, line in enumerate(schedule.decode("ascii").split("\n"), 1):
        words = line.removesuffix("\r").replace("\t", " ").split(" ")
        words = [word for word in words if word]
        if not words or words[0].startswith("#"):
            continue
        if words[0] == "plan":
            world.plans[words[1].lower(), words[2].lower()] = words[3]
        elif words[0] == "restart":
            changed = restart(world)
            columns = "-\t-\t-\t-" if instance is None else world.cell(instance).columns()
            yield f"{number}\trestart\tapplied, {changed} changed\t{columns}"
        else:
            told = line_of(world, str(number), words)
            if instance in (None, words[1].lower()):
                yield told
    if settle:
        for created in sorted(world.cells):
            if instance in (None, created):
                yield from rounds(world, created)
