"""The events of a broker that updates an instance, for any platform: those of update.alone, by their names.

A cell is what the broker holds, the resource and its settings, and what the broker has reported.
"""

from __future__ import annotations

from functools import lru_cache
from typing import NamedTuple

from driver.update_model import Asked, Task, Terms
from network import model as life
from network.model import BUSY, Answer, Held, Request
from update import alone, model
from update.alone import Cell
from update.change import AVAILABLE, UNKNOWN, Design
from update.life import Plan
from update.model import Holding, Update

SETTINGS = ("p", "q")


class Event(NamedTuple):
    """What an event leaves, and the answer that it gives."""

    cell: Cell
    answer: Answer | None = None


def design_of(terms: Terms) -> Design:
    return Design(SETTINGS, terms.update_mode, frozenset({"u", "d"} - terms.rules))


def answered(design: Design, terms: Terms, cell: Cell, asked: Asked) -> Answer | None:
    """The answer to a request of the instance, or None if its work is due."""
    answer = alone.answer_of_change(design, cell, Plan(*terms.plan), asked.kind, asked.to) if cell.held else None
    if answer is not None:
        return answer
    return life.begin(terms.plan.mode, terms.plan.first_poll, cell.instance, Request(asked.kind, True))[1]


def arrive(terms: Terms, cell: Cell, asked: Asked) -> Event:
    design = design_of(terms)
    answer = answered(design, terms, cell, asked)
    if cell.held is not None:
        return Event(alone.request(design, Plan(*terms.plan), cell, asked.kind, asked.to), answer)
    # `alone` has a holding wherever it looks for one. Of an instance that isn't held, none counts.
    found = cell._replace(held=Holding(asked.to))
    after = alone.request(design, Plan(*terms.plan), found, asked.kind, asked.to)
    return Event(after if life_is_held(after) else after._replace(held=None), answer)


def life_is_held(cell: Cell) -> bool:
    return cell.instance.row is not None or cell.instance.work is not None


def put_off(cell: Cell, kind: str) -> Event:
    if kind == "deprovision":
        cell = cell._replace(ready=False, told=None, spare=None, accepted=None)
    if kind == "poll":
        cell = cell._replace(polled=True)
    return Event(alone.reports(cell, kind, BUSY[kind]), BUSY[kind])


def update(terms: Terms, cell: Cell, asked: Asked, allowed: str) -> Event:
    instance = cell.instance if "u" in terms.rules or cell.held is None else AVAILABLE
    held = cell.held or Holding(asked.to)
    change, begun = model.begin(instance, allowed, held, Update(asked.to, asked.number))
    after = cell._replace(held=change if cell.held else None)
    if isinstance(begun, Answer):
        return Event(alone.reports_update(after, begun, asked.to), begun)
    return Event(after._replace(told=None, spare=cell.told, accepted=None))


def end(terms: Terms, cell: Cell, outcome: str) -> Event | None:
    """The pending work of the instance ends."""
    work, plan = cell.instance.work, terms.plan
    ended = life.end(plan.mode, cell.instance, outcome)
    if work is None or ended is None or cell.held is None:
        return None
    is_true = life.can_have_ended(plan.mode, cell.instance, outcome, cell.resource) and alone.is_true(cell, outcome)
    if not is_true or not alone.is_right(design_of(terms), cell, ended[0], life.is_made(cell.instance)):
        return None
    after = alone.without_row(cell._replace(instance=ended[0]))
    return Event(alone.reports(after, work.kind, ended[1], cell.holding.settings), ended[1])


def finish(terms: Terms, cell: Cell, ok: bool) -> Event | None:
    """The operation of the instance ends."""
    made, finished = life.is_made(cell.instance), life.finish(cell.instance, ok)
    if finished is None or ok and cell.resource != ("whole" if made else "absent"):
        return None
    if not alone.is_right(design_of(terms), cell, finished, made):
        return None
    return Event(alone.without_row(cell._replace(instance=finished)))


def update_end(terms: Terms, cell: Cell, outcome: str) -> Event | None:
    if not cell.is_under_way or cell.holding.phase == "updating":
        return None
    if outcome not in alone.outcomes(design_of(terms), cell):
        return None
    ended = model.end(terms.update_mode, cell.holding, outcome)
    assert ended is not None
    after = cell._replace(held=ended[0], spare=None)
    if outcome == "refused 400" and cell.holding.phase == "pending":
        return Event(after._replace(told=cell.spare), ended[1])
    return Event(alone.reports_update(after, ended[1], cell.holding.to or ""), ended[1])


def update_finish(cell: Cell, ok: bool) -> Event | None:
    finished = model.finish(cell.holding, ok) if cell.held else None
    if finished is None or ok and cell.thing != cell.holding.to:
        return None
    return Event(cell._replace(held=finished))


@lru_cache(maxsize=None)
def happen(terms: Terms, effect: str, asked: Asked | None, cell: Cell) -> Event | None:
    """The event, or None if it doesn't apply. "" is no event."""
    if effect == "":
        return Event(cell)
    if effect == "give-up-waiting":
        waited = life.give_up_waiting(cell.instance)
        return waited and Event(cell._replace(instance=waited))
    if effect in ("arrive", "put-off") or effect.startswith("update, "):
        assert asked is not None
        if effect == "arrive":
            return arrive(terms, cell, asked)
        return (
            put_off(cell, asked.kind) if effect == "put-off" else update(terms, cell, asked, effect[len("update, ") :])
        )
    part, _, outcome = effect.removeprefix("update ").partition(" ")
    if effect.startswith("update "):
        return update_end(terms, cell, outcome) if part == "end" else update_finish(cell, outcome == "ok")
    return end(terms, cell, outcome) if part == "end" else finish(terms, cell, outcome == "ok")


# ---- the work


def as_if(cell: Cell, task: Task) -> Cell:
    """The cell as the worker of this task sees it, whatever the row has: its work goes on."""
    held = cell.held or Holding(task.to or SETTINGS[0])
    if task.part == "update":
        return cell._replace(held=held._replace(phase=task.kind, to=task.to))
    if task.is_pending:
        row = None if task.kind == "provision" else cell.instance.row or life.Row(0, "ready")
        return cell._replace(instance=Held(row, Request(task.kind, True)), held=held)
    return cell._replace(instance=Held(life.Row(0, task.kind)), held=held)


@lru_cache(maxsize=None)
def changes(task: Task, resource: str, thing: str, settings: str) -> list[tuple[str, str]]:
    """What the work may make of the resource and its settings. An update is meant to create and delete nothing: where
    nothing is, it leaves a part.
    """
    if task.part == "update":
        return [("part" if resource == "absent" else resource, it) for it in (*SETTINGS, UNKNOWN) if it != thing]
    if task.kind in ("provision", "making"):
        found = {(it, settings) for it in ("part", "whole")} | {("part", UNKNOWN)}
        found |= {("absent", UNKNOWN)} if task.kind == "making" else set()
    else:
        found = {("absent", UNKNOWN)} | ({("part", UNKNOWN)} if resource != "absent" else set())
    return sorted(found - {(resource, thing)})


def has_work(cell: Cell, task: Task) -> bool:
    """Whether the network lets the work of this task change the resource."""
    if task.part == "update":
        return cell.is_under_way
    return life.is_made(cell.instance) is (task.kind in ("provision", "making"))


@lru_cache(maxsize=None)
def outcomes(terms: Terms, cell: Cell, task: Task) -> list[str]:
    """The outcomes of the task that are true of the resource."""
    seen = as_if(cell, task)
    word = f"{'update ' if task.part == 'update' else ''}{'end' if task.is_pending else 'finish'}"
    names = model.OUTCOMES[:5] if task.is_pending else ("ok", "failed")
    return [name for name in names if happen(terms, f"{word} {name}", None, seen) is not None]
