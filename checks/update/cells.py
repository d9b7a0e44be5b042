"""Everything that can come about of an instance and a change of its settings, with both sides of this project.

    PYTHONPATH=checks python3 -m update.cells                    for each kind of plan and of updates, with two settings
    PYTHONPATH=checks python3 -m update.cells --settings p q r   with these settings; p0 p1 q0 have two parts
    PYTHONPATH=checks python3 -m update.cells --without truth    the shortest way to a broken promise without this part
    PYTHONPATH=checks python3 -m update.cells --plain previous   without numbers, and with these beside the standard
"""

from __future__ import annotations

import argparse
import sys
from collections import deque
from collections.abc import Collection, Iterator
from functools import lru_cache
from typing import NamedTuple

from network.model import is_made
from update import change as changes
from update import life as lives
from update.change import PARTS, PLAIN, Change, Design
from update.life import PLANS, Life, Plan
from update.model import Holding

MODES = ("sync", "async", "both")
NUMBERS = frozenset({"numbers", "kept", "once", "fetch"})
"""The parts that have to do with numbers."""

# What is promised.
LIFE_AGREES = "the instance is there if it is recorded ready, and nothing is there if it is gone"
RECORD_AGREES = "the resource and the row have the settings that are recorded as settled"
ROW_AGREES = "the resource has the settings of a settled row"
ANSWERS_OF_LIFE = "no Poll and no Provision of the instance is answered by the change"
UNDER_WAY_THERE = "an update is under way only of an instance that is available"
SETTLES = "rounds without a fault settle each pair"

REST = (None, "gone", "unsettled")


def is_there(life: Life) -> bool:
    return life.phase == "ready" and life.held.work is None


def broken(design: Design, life: Life, change: Change) -> str | None:
    """The promise that is broken, if one is."""
    record, held, there = change.record, change.held, is_there(life)
    if not life.agrees():
        return LIFE_AGREES
    settled = life.state == "ready" and life.out is None and record.state == "settled" and record.out is None
    if settled and (held, change.thing) != (Holding(record.settings), record.settings):
        return RECORD_AGREES
    if there and held.phase == "settled" and change.thing != held.settings:
        return ROW_AGREES
    asked = life.out is not None and life.out.kind != "deprovision"
    if asked and there and (change.is_under_way or held.phase == "failed"):
        return ANSWERS_OF_LIFE
    if change.is_under_way and not there and design.has("u") and design.has("d"):
        return UNDER_WAY_THERE
    return None


Pair = tuple[int, int]


class Exploration(NamedTuple):
    """All that came about, each with what it came from and by which event; the first that is wrong; and the steps."""

    came: dict[Pair, tuple[Pair, str] | None]
    wrong: Pair | None
    why: str | None
    steps: int


class World:
    """The pairs of a life and a change, by the numbers of each."""

    def __init__(self, plan: Plan, design: Design) -> None:
        self.plan, self.design = plan, design
        self.lives: list[Life] = []
        self.changes: list[Change] = []
        self.numbers: dict[Life | Change, int] = {}
        self.after_life = lru_cache(maxsize=None)(self.steps_of_life)
        self.after_change = lru_cache(maxsize=None)(self.steps_of_change)
        self.start = (self.of_life(Life()), self.of_change(changes.start(design)))

    def of_life(self, life: Life) -> int:
        if life not in self.numbers:
            self.numbers[life] = len(self.lives)
            self.lives.append(life)
        return self.numbers[life]

    def of_change(self, change: Change) -> int:
        if change not in self.numbers:
            self.numbers[change] = len(self.changes)
            self.changes.append(change)
        return self.numbers[change]

    def steps_of_life(self, number: int, may_delete: bool, may_remove: bool) -> list[tuple[str, int]]:
        life = self.lives[number]
        steps = lives.steps(self.plan, life, may_delete, may_remove)
        return [(event, self.of_life(after)) for event, after in steps if after != life]

    def steps_of_change(self, number: int, may_send: bool, there: bool) -> list[tuple[str, int]]:
        change = self.changes[number]
        steps = changes.steps(self.design, change, may_send, there)
        return [(event, self.of_change(after)) for event, after in steps if after != change]

    def may_send(self, life: Life) -> bool:
        if self.design.has("r"):
            return life.state == "ready" and life.out is None
        return life.state in ("ready", "cleaning")

    def steps(self, pair: Pair) -> Iterator[tuple[str, Pair]]:
        life, change = self.lives[pair[0]], self.changes[pair[1]]
        may_remove = change.record.out is None
        may_delete = not change.is_under_way or not self.design.has("d")
        if not self.design.has("names") and change.held.settings != change.record.settings:
            may_delete = False  # a Deprovision names the plan that the platform has recorded
        put_off = [step for step in self.after_life(pair[0], False, may_remove) if "arrives" in step[0]]
        for event, number in self.after_life(pair[0], may_delete, may_remove) + put_off:
            yield event, (number, self.change_beside(event, life, self.lives[number], pair[1]))
        for event, number in self.after_change(pair[1], self.may_send(life), is_there(life)):
            yield event, (pair[0], number)
        if change.is_under_way and not is_there(life) and life.resource != "whole":
            for to in {"part", "whole"} - {life.resource}:
                yield f"update work makes {to}", (self.of_life(life._replace(resource=to)), pair[1])

    def change_beside(self, event: str, before: Life, after: Life, number: int) -> int:
        """The change once its instance has stepped so."""
        change = self.changes[number]
        if event == "remove" and before.state == "ready" and self.design.has("r"):
            change = changes.ended(self.design, change)
        if after.phase is None and before.phase is not None and not change.is_under_way:
            change = changes.dead(change)
        return self.of_change(change)

    def broken(self, pair: Pair) -> str | None:
        return broken(self.design, self.lives[pair[0]], self.changes[pair[1]])

    def explore(self) -> Exploration:
        """Steps everything that can come about, up to the first that breaks a promise."""
        came: dict[Pair, tuple[Pair, str] | None] = {self.start: None}
        todo, count = deque([self.start]), 0
        while todo:
            pair = todo.popleft()
            why = self.broken(pair)
            if why is not None:
                return Exploration(came, pair, why, count)
            for event, after in self.steps(pair):
                count += 1
                if after not in came:
                    came[after] = (pair, event)
                    todo.append(after)
        return Exploration(came, None, None, count)

    # ---- rounds without a fault

    def take(self, pair: Pair, *events: str) -> Pair:
        """The pair after the first event whose name begins so, if there is one."""
        for wanted in events:
            for event, after in self.steps(pair):
                if event.startswith(wanted):
                    return after
        return pair

    def with_life(self, pair: Pair, life: Life) -> Pair:
        return self.of_life(life), pair[1]

    def with_change(self, pair: Pair, change: Change) -> Pair:
        return pair[0], self.of_change(change)

    def go_well(self, pair: Pair) -> Pair:
        """What goes on goes well."""
        life = self.lives[pair[0]]
        made = is_made(life.held)
        if made is not None:
            pair = self.with_life(pair, life._replace(resource="whole" if made else "absent"))
        pair = self.take(pair, "end done", "finish ok")
        for event in ("update ends done", "update finish ok"):
            change = self.changes[pair[1]]
            if change.is_under_way:
                pair = self.take(self.with_change(pair, change._replace(thing=change.goal)), event)
        return pair

    def arrive(self, pair: Pair) -> Pair:
        """What was sent arrives, and goes well."""
        life, change = self.lives[pair[0]], self.changes[pair[1]]
        if life.out:
            return self.go_well(self.take(pair, f"{life.out.kind} arrives"))
        for event, after in self.steps(pair) if change.record.out else ():
            rejected = event.endswith(("put off", *(f"line {number}" for number in range(12, 17))))
            if event.startswith(("update to", "update poll")) and "arrives" in event and not rejected:
                return self.go_well(after)
        return pair

    def round(self, pair: Pair, removing: bool) -> Pair:
        pair = self.take(self.take(pair, "timeout"), "update timeout")
        pair = self.go_well(self.go_well(pair))
        if removing:
            pair = self.take(pair, "remove")
        pair = self.arrive(self.take(pair, "send deprovision", "send poll", "send update to", "send update poll"))
        life, change = self.lives[pair[0]], self.changes[pair[1]]
        if life.out and len(life.answers) == 1:
            return self.take(pair, f"take {next(iter(life.answers))}")
        if change.record.out and change.answers:
            return self.take(pair, f"take update {sorted(change.answers, key=repr)[-1]}")
        return pair

    def rests(self, pair: Pair, removing: bool) -> bool:
        life, record = self.lives[pair[0]], self.changes[pair[1]].record
        if removing:
            return life.state in (None, "gone")
        return life.state in REST or life.state == "ready" and record.state in ("settled", "unsure") and not record.out

    def rounds(self, pairs: Collection[Pair], removing: bool = False) -> tuple[int, Pair | None]:
        """The most rounds that any takes until nothing is due; and the first of those that never get there."""
        known: dict[Pair, int] = {}
        for pair in pairs:
            at, path = pair, list[Pair]()
            while at not in known and not self.rests(at, removing):
                if len(path) > 12:
                    return 0, pair
                path.append(at)
                at = self.round(at, removing)
            known.setdefault(at, 0)
            for count, passed in enumerate(reversed(path), 1):
                known[passed] = known[at] + count
        return max(known.values()), None

    # ---- the way to one

    def way(self, explored: Exploration, pair: Pair) -> list[str]:
        """The events that lead there, each with what there is then."""
        way = []
        came = explored.came[pair]
        while came is not None:
            way.append(f"{came[1]} -> {self.told(pair)}")
            pair = came[0]
            came = explored.came[pair]
        return way[::-1]

    def told(self, pair: Pair) -> str:
        life, (record, held, thing, *_) = self.lives[pair[0]], self.changes[pair[1]]
        recorded = life.state or "nothing"
        if life.state == "ready":
            recorded += f" {record.state} {record.settings if record.state == 'settled' else f'to {record.to}'}"
        row = "no row" if life.phase is None else f"{life.phase}, {held.settings} {held.phase}"
        to = f" to {held.to}" if held.to else ""
        pending = f", pending {life.held.work.kind}" if life.held.work else ""
        return f"platform {recorded} | broker {row}{to}{pending} | resource {life.resource}, {thing}"


class Found(NamedTuple):
    """A broken promise, by the shortest way to it."""

    plan: Plan
    design: Design
    broken: str
    way: list[str]


def first_broken(designs: Collection[Design], plans: Collection[Plan] = PLANS, rounds: bool = False) -> Found | None:
    """The first broken promise of these designs; with `rounds`, also what never settles or is never removed."""
    for plan in plans:
        for design in designs:
            world = World(plan, design)
            explored = world.explore()
            wrong, why = explored.wrong, explored.why
            for removing in (False, True) if rounds and wrong is None else ():
                wrong = wrong or world.rounds(explored.came, removing)[1]
                why = SETTLES
            if wrong is not None:
                return Found(plan, design, why or SETTLES, world.way(explored, wrong))
    return None


# ---- the command


def tell(designs: Collection[Design]) -> None:
    pairs = steps = 0
    for plan in PLANS:
        for design in designs:
            world = World(plan, design)
            explored = world.explore()
            assert explored.wrong is None, world.way(explored, explored.wrong)
            settled, removed = (world.rounds(explored.came, removing) for removing in (False, True))
            assert settled[1] is None and removed[1] is None
            print(
                f"{plan.told()}; updates {design.mode}: {len(explored.came)} pairs of {len(world.lives)} lives and"
                f" {len(world.changes)} changes, {explored.steps} steps; settle in {settled[0]} rounds, are removed in"
                f" {removed[0]}",
                flush=True,
            )
            pairs, steps = pairs + len(explored.came), steps + explored.steps
    print(f"{pairs} pairs, {steps} steps")


def tell_way(found: Found | None) -> None:
    if found is None:
        print("no promise is broken")
        return
    print(f"{found.plan.told()}; updates {found.design.mode}: BROKEN: {found.broken}")
    for number, event in enumerate(found.way, 1):
        print(f"  {number}. {event}")


def main(arguments: list[str]) -> int:
    parser = argparse.ArgumentParser(prog="update.cells", description="See the module's first comment.")
    parser.add_argument("--settings", nargs="+", default=["p", "q"])
    parser.add_argument("--updates", nargs="+", choices=MODES, default=MODES)
    parser.add_argument("--without", nargs="+", choices=PARTS, default=[], metavar="PART", help=", ".join(PARTS))
    parser.add_argument("--plain", nargs="*", choices=PLAIN, metavar="PART", help=", ".join(PLAIN))
    options = parser.parse_args(arguments)
    without = frozenset(options.without) | (NUMBERS if options.plain is not None else frozenset())
    plain = frozenset(options.plain or ())
    designs = [Design(tuple(options.settings), mode, without, plain) for mode in options.updates]
    if options.without or options.plain is not None:
        tell_way(first_broken(designs, rounds=options.plain is None))
    else:
        tell(designs)
    return 0


if __name__ == "__main__":
    sys.exit(main(sys.argv[1:]))
