"""Updates at a broker that keeps the rules u and d, and any platform at all.

A platform may send any request at any time, number its Updates or not, and believe every answer. Of workers is assumed
what docs/premises.md assumes for the promises of a broker alone, that an update creates and deletes nothing, that a
creation that is reported complete has the settings that were asked for, and that a deletion that is reported to have
changed nothing has left those of before.
"""

from __future__ import annotations

from collections import deque
from collections.abc import Iterator
from itertools import product
from typing import NamedTuple

from binding.model import begins
from network import model as life
from network.model import BUSY, Answer, Held, Request, error
from update import model
from update.change import AVAILABLE, UNKNOWN, Design
from update.life import PLANS, Plan
from update.model import Holding, Update

# What can be left out, and what happens then.
PARTS = {
    "u": "an Update begins, whatever the broker holds of the instance",
    "d": "a Deprovision begins, though an update is under way",
    "busy": "an Update begins while another is under way",
    "work": "a crash of the broker forgets the pending work",
    "provision": "a Provision is compared with the settings of the first one",
    "poll": "a Poll is answered by the instance's table",
    "made": "a creation is reported complete, and the resource has other settings than were asked for",
    "unchanged": "a deletion is reported to have changed nothing, and the resource has other settings than before",
}
KEPT = 2
# An Update without a number, and one whose number is higher than the kept one, the same, or lower.
NUMBERS = {"unnumbered": 0, "higher": 3, "same": 2, "lower": 1}
DESIGNS = tuple(Design(("p", "q", "r"), mode) for mode in ("sync", "async", "both"))


class Cell(NamedTuple):
    """What the broker has reported, what it holds, and the resource."""

    # The settings that the instance was said to have, until a Deprovision arrives or the work of an Update begins; the
    # same while such work is pending; those of the last creation or update that was accepted.
    told: str | None = None
    spare: str | None = None
    accepted: str | None = None
    ready: bool = False
    gone: bool = False
    leaving: bool = False
    polled: bool = False
    instance: Held = Held()
    resource: str = "absent"
    held: Holding | None = None
    thing: str = UNKNOWN

    @property
    def available(self) -> bool:
        return model.is_available(self.instance)

    @property
    def row_phase(self) -> str | None:
        return self.instance.row.phase if self.instance.row else None

    @property
    def is_under_way(self) -> bool:
        return self.held is not None and self.held.phase in model.UNDER_WAY

    def hold(self, held: Holding) -> Cell:
        return self._replace(held=held._replace(number=0))

    @property
    def holding(self) -> Holding:
        """The updates of an instance that has a row or pending work."""
        assert self.held is not None
        return self.held


Steps = Iterator[tuple[str, Cell]]


# ---- what an answer reports


def reports_update(cell: Cell, answer: Answer, asked: str) -> Cell:
    if answer.status == 200:
        return cell._replace(told=asked)
    return cell._replace(accepted=asked) if answer.status == 202 else cell


def reports_provision(cell: Cell, answer: Answer, asked: str) -> Cell:
    if answer.status in (200, 201):
        return cell._replace(ready=True, told=asked)
    return cell._replace(accepted=asked) if answer.status == 202 else cell


def reports(cell: Cell, kind: str, answer: Answer, asked: str = "") -> Cell:
    """The cell once the broker has given this answer to a request of the instance itself."""
    if kind == "provision":
        return reports_provision(cell, answer, asked)
    if kind == "poll" and answer == (200, "succeeded") and not cell.leaving:
        return cell._replace(ready=True, told=cell.accepted or cell.told)
    if (
        kind == "deprovision"
        and answer.status in (200, 410)
        or kind == "poll"
        and cell.leaving
        and answer.status == 410
    ):
        return cell._replace(ready=False, gone=True)
    return cell._replace(leaving=True) if kind == "deprovision" and answer.status == 202 else cell


# ---- requests of the instance itself


def answer_of_change(design: Design, cell: Cell, plan: Plan, kind: str, asked: str) -> Answer | None:
    """The answer in the place of the instance's table, if there is one."""
    if kind == "provision" and design.has("provision") and cell.instance.row and not cell.instance.work:
        if asked != cell.holding.settings:
            return error(409)
    if not cell.available or cell.holding.phase == "settled":
        return None
    if kind == "poll" and design.has("poll"):
        return model.poll(cell.instance, cell.holding)
    if kind == "provision" and design.has("provision"):
        return BUSY[kind] if cell.is_under_way else error(500)
    begun = kind == "deprovision" and begins(plan.mode, cell.instance, Request(kind, True))
    return BUSY[kind] if begun and cell.is_under_way and design.has("d") else None


def request(design: Design, plan: Plan, cell: Cell, kind: str, asked: str = "") -> Cell:
    """A request of the instance itself comes. A Provision asks for these settings."""
    if kind == "deprovision":
        cell = cell._replace(ready=False, told=None, spare=None, accepted=None)
    if kind == "poll":
        cell = cell._replace(polled=True)
    answer = answer_of_change(design, cell, plan, kind, asked)
    if answer is not None:
        return reports(cell, kind, answer, asked)
    instance, given = life.begin(plan.mode, plan.first_poll, cell.instance, Request(kind, True))
    held = cell.held
    if instance.row is None and instance.work is None:
        held = None
    elif cell.instance.row is None and cell.instance.work is None:
        held = Holding(asked)
    cell = cell._replace(instance=instance, held=held)
    return reports(cell, kind, given, asked) if given else cell


# ---- Updates


def judged(design: Design, cell: Cell, to: str, number: int, allowed: str) -> tuple[str, Cell]:
    """What becomes of an Update that is judged, if the catalogue allows it so."""
    held, update = cell.holding._replace(number=KEPT), Update(to, number)
    if model.line(AVAILABLE, allowed, held, update) in (9, 10) and not design.has("busy"):
        held = Holding(held.settings, KEPT)
    after, begun = model.begin(AVAILABLE, allowed, held, update)
    if isinstance(begun, Answer):
        return f"{begun.status}", reports_update(cell, begun, to)
    return "work", cell.hold(after)._replace(told=None, spare=cell.told, accepted=None)


def updates(design: Design, cell: Cell, to: str, order: str) -> Steps:
    """An Update comes, by its number: the cells after it. It may be rejected for a reason that passes."""
    if cell.held is None or not cell.available and design.has("u"):
        return
    allowed = (design.mode_to(to), "rejected 400")
    yield from dict(judged(design, cell, to, NUMBERS[order], it) for it in allowed).items()


def of_update(design: Design, cell: Cell) -> Steps:
    """What the work and the operation of an update do, and how they end."""
    held = cell.holding
    assert held.to is not None
    for thing in sorted({held.settings, held.to, UNKNOWN} - {cell.thing}):
        resource = "part" if cell.resource == "absent" else cell.resource
        yield f"update work: {thing}", cell._replace(thing=thing, resource=resource)
    if held.phase == "updating":
        for ok in (True, False):
            finished = model.finish(held, ok)
            if finished and (not ok or cell.thing == held.to):
                yield f"update finish {'ok' if ok else 'failed'}", cell.hold(finished)
        return
    if not design.has("work"):
        yield "crash, and the work is forgotten", cell.hold(Holding(held.settings, 0, before(held)))
    for outcome in outcomes(design, cell):
        ended = model.end(design.mode_to(held.to), held, outcome)
        assert ended is not None
        after = cell.hold(ended[0])._replace(spare=None)
        if outcome == "refused 400" and held.phase == "pending":
            yield f"update ends {outcome}", after._replace(told=cell.spare)
        else:
            yield f"update ends {outcome}", reports_update(after, ended[1], held.to)


def before(held: Holding) -> str:
    return "settled" if held.phase == "pending" else "failed"


def outcomes(design: Design, cell: Cell) -> Iterator[str]:
    held = cell.holding
    assert held.to is not None
    if design.mode_to(held.to) == "async" or cell.thing == held.to:
        yield "done"
        yield "after"
    yield "failed"
    if held.phase == "mending":
        yield "before"
    elif cell.thing == held.settings:
        yield "before"
        yield "refused 400"


# ---- the instance's own work


def is_true(cell: Cell, outcome: str) -> bool:
    """Whether a deletion that changed nothing may be reported."""
    work = cell.instance.work
    if work is None or work.kind == "provision" or outcome != "before":
        return True
    return cell.resource == "whole" or cell.row_phase != "ready" and cell.resource != "absent"


def is_right(design: Design, cell: Cell, after: Held, made: bool | None) -> bool:
    """Whether the resource may have these settings, if the instance is available after a creation or a deletion."""
    if not model.is_available(after) or not design.has("made" if made else "unchanged"):
        return True
    return cell.thing == cell.holding.settings or not made and cell.holding.phase == "failed"


def of_instance(design: Design, plan: Plan, cell: Cell) -> Steps:
    """What the instance's own work and operations do, and how they end. They may leave any settings."""
    instance = cell.instance
    made = life.is_made(instance)
    if made or made is False and cell.resource != "absent":
        changes = ("absent", "part", "whole") if made else ("absent", "part", cell.resource)
        for to in changes[1:] if made and instance.work else changes:
            for thing in sorted({cell.holding.settings, cell.thing, UNKNOWN}):
                yield f"work: {to}, {thing}", cell._replace(resource=to, thing=thing)
    if instance.work:
        for outcome in ("done", "before", "after", "refused 400"):
            ended = life.end(plan.mode, instance, outcome)
            true = life.can_have_ended(plan.mode, instance, outcome, cell.resource) and is_true(cell, outcome)
            if ended and true and is_right(design, cell, ended[0], made):
                after = without_row(cell._replace(instance=ended[0]))
                yield f"end {outcome}", reports(after, instance.work.kind, ended[1], cell.holding.settings)
    for ok in (True, False):
        finished = life.finish(instance, ok)
        true = not ok or cell.resource == ("whole" if made else "absent")
        if finished and true and is_right(design, cell, finished, made):
            yield f"finish {'ok' if ok else 'failed'}", without_row(cell._replace(instance=finished))
    waited = life.give_up_waiting(instance)
    if waited:
        yield "give up waiting", cell._replace(instance=waited)


def without_row(cell: Cell) -> Cell:
    """Once there is no row, nothing is kept of the updates."""
    if cell.instance.row is not None:
        return cell
    return cell._replace(held=None, thing=UNKNOWN if cell.resource == "absent" else cell.thing)


# ---- everything


def steps(design: Design, plan: Plan, cell: Cell) -> Steps:
    for asked in design.settings[:2]:
        yield f"provision of {asked} arrives", request(design, plan, cell, "provision", asked)
    for kind in ("deprovision", "poll"):
        yield f"{kind} arrives", request(design, plan, cell, kind)
    for to, order in product(design.settings, NUMBERS):
        for how, after in updates(design, cell, to, order):
            yield f"update to {to} arrives, {order}: {how}", after
    if cell.held is not None and isinstance(model.fetch(cell.instance, cell.held), model.Found):
        yield "fetch arrives: 200", cell._replace(told=cell.held.settings)
    yield from of_instance(design, plan, cell)
    if cell.is_under_way:
        yield from of_update(design, cell)


def broken(design: Design, plan: Plan, cell: Cell) -> str | None:
    """What is broken of the promises of a broker, if something is."""
    if cell.told and (cell.resource, cell.thing) != ("whole", cell.told):
        return "reported to have settings that the resource hasn't"
    if cell.ready and cell.resource != "whole":
        return "reported ready, no Deprovision since, and it isn't whole"
    held = cell.instance.row or cell.instance.work or cell.is_under_way
    if cell.gone and (cell.resource != "absent" or held):
        return "reported gone, and something exists"
    if plan.first_poll and cell.resource != "absent" and not cell.polled:
        return "something exists, and nobody has polled"
    if cell.available and cell.holding.phase == "settled" and cell.thing != cell.holding.settings:
        return "the row has settings that the resource hasn't"
    there = cell.available and cell.resource == "whole"
    if cell.is_under_way and design.has("u") and design.has("d"):
        if cell.instance.work or life.is_made(cell.instance) is not None:
            return "work of the instance and of an update are there together"
        if not there:
            return "an update is under way of an instance that isn't available"
    return None


class Exploration(NamedTuple):
    cells: int
    steps: int
    broken: str | None


def explore(design: Design, plan: Plan) -> Exploration:
    """Steps everything that can come about, up to the first that is wrong."""
    seen, todo, count = {Cell()}, deque([Cell()]), 0
    while todo:
        cell = todo.popleft()
        why = broken(design, plan, cell)
        if why is not None:
            return Exploration(len(seen), count, f"{why}: {cell}")
        for _, after in steps(design, plan, cell):
            count += 1
            if after not in seen:
                seen.add(after)
                todo.append(after)
    return Exploration(len(seen), count, None)


def explore_all(designs: tuple[Design, ...] = DESIGNS, plans: tuple[Plan, ...] = PLANS) -> Exploration:
    """The same for each of these designs and plans, up to the first that is wrong."""
    cells = count = 0
    for plan, design in product(plans, designs):
        explored = explore(design, plan)
        if explored.broken is not None:
            return explored
        cells, count = cells + explored.cells, count + explored.steps
    return Exploration(cells, count, None)
