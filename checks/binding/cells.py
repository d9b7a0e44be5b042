"""Steps everything that can come about of an instance and its bindings, and finds the shortest way to a broken promise.

Two lives that differ only in their numbers are one cell. It has what is recorded and held, the resource, the request
that is out and those before it, the answers that may be taken, and the credentials up to renaming. A cell stands for
the first life that was found with it. What a life may do depends on what it sees of the others (model.Face), so what
comes of a cell is found once for each model.Permissions.

Run these at the top of the repository:

    PYTHONPATH=checks python3 -m binding.cells                     an instance and a binding, for all pairs of plans
    PYTHONPATH=checks python3 -m binding.cells --two               an instance and two bindings: about six minutes
    PYTHONPATH=checks python3 -m binding.cells --rules broker ..   the same if only these are kept: platform, broker,
                                                                   truthful
    PYTHONPATH=checks python3 -m binding.cells --without PART ..   the shortest way to a broken promise without these
                                                                   parts (model.PARTS)
"""

from __future__ import annotations

import argparse
import sys
import time
from collections import deque
from collections.abc import Collection, Iterator
from functools import lru_cache
from itertools import product
from typing import NamedTuple

from binding.model import (
    LIVES_AGREE,
    OF_THE_BROKER,
    PARTS,
    PROMISES,
    SETTLES,
    Binding,
    BoundInstance,
    Face,
    Life,
    Order,
    Permissions,
    Rules,
    broken,
    clone,
    new_binding,
    new_instance,
    of_binding,
    of_instance,
)
from network.model import PLAIN, Answer, Held, Request

INSTANCES = [Order("sync"), Order("async"), Order("async", first_poll=True)]
# A Bind that is rejected for good, and bindings that can't be fetched, besides.
BINDINGS = [*INSTANCES, Order("async", accepts=False), Order("-"), Order("async", retrievable=False)]
ORDERS = [*product(INSTANCES, BINDINGS), (Order("async", accepts=False), BINDINGS[0]), (Order("-"), BINDINGS[0])]
# Two numbers stand for all credentials: they are only compared.
CONTENTS = (1, 2)
AT_REST = {None, "ready", "gone", "unsettled"}


# ---- one life


class Cell(NamedTuple):
    """What counts of a life."""

    state: str | None
    out: Request | None
    old: frozenset[Request]
    # The answers to the request that is out, with the credentials beside each.
    answers: frozenset[tuple[str, Answer, int]]
    # The answers to Fetches, as long as one may be taken.
    fetched: frozenset[int]
    held: Held
    forgotten: bool
    # Whether the pending work is that of the request that is out.
    waits: bool
    # The request that has passed a rule, and whether it is out.
    passed: tuple[Request, bool] | None
    resource: str
    # Those that are recorded, of the row, and of the resource.
    credentials: tuple[int, int, int]


def cell_of(life: Life) -> Cell:
    out = life.attempt if life.out else 0
    any_attempt = "attempts" in life.without
    sent, passed = life.sent, life.passed
    cell = Cell(
        state=life.state,
        out=sent[out - 1] if out else None,
        old=frozenset(request for number, request in enumerate(sent, 1) if number != out),
        answers=frozenset(
            (sent[answer.attempt - 1].kind, answer.answer, beside(life, at))
            for at, answer in enumerate(life.given)
            if answer.attempt == out or any_attempt
        ),
        fetched=frozenset(),
        held=life.held,
        forgotten=False,
        waits=bool(out) and life.worker == out,
        passed=(sent[passed - 1], passed == out) if passed else None,
        resource=life.resource,
        credentials=(0, 0, 0),
    )
    return of_credentials(cell, life) if isinstance(life, Binding) else cell


def of_credentials(cell: Cell, life: Binding) -> Cell:
    """The cell with the credentials, numbered as they come."""
    fetched = life.fetched if life.state in ("wanted", "polling") else []
    names = {0: 0}
    given = sorted(answer[2] for answer in cell.answers)
    for number in (life.recorded, life.row, life.credentials, *given, *sorted(fetched)):
        names.setdefault(number, len(names))
    return cell._replace(
        answers=frozenset((kind, answer, names[number]) for kind, answer, number in cell.answers),
        fetched=frozenset(names[number] for number in fetched),
        forgotten=life.forgotten,
        credentials=(names[life.recorded], names[life.row], names[life.credentials]),
    )


def beside(life: Life, place: int) -> int:
    """The credentials beside an answer."""
    return life.beside[place] if isinstance(life, Binding) else 0


ANYWHERE = [event for event in PLAIN if event not in ("crash-platform", "work whole")]
ANYWHERE += ["gateway 500", "begin", "fetch", "forget", "drop"]


def takes(life: Life) -> Iterator[str]:
    """The answers that the platform may take, each once."""
    places = {(answer.attempt, answer.answer, beside(life, at)): at for at, answer in enumerate(life.given)}
    for (_, answer, _), place in places.items():
        yield f"take {place}"
        yield f"garbled {place}"
        if isinstance(life, Binding) and life.needs_fetch(answer):
            last = {answer: at for at, answer in enumerate(life.fetched)}
            yield from (f"take-fetched {place} {at}" for at in last.values())


def events(life: Life, contents: Collection[int]) -> Iterator[str]:
    """Every event that can make something else of the life, once for requests and answers that are alike."""
    yield from ANYWHERE
    current = life.attempt if life.out else 0
    numbers = {(request, number == current): number for number, request in enumerate(life.sent, 1)}
    yield from (f"arrive {number}" for number in numbers.values())
    if current:
        yield f"put-off {current}"
    yield from takes(life)
    yield from (f"work whole {content}" for content in contents) if isinstance(life, Binding) else ["work whole"]


class Lives:
    """The cells of one life by their numbers, each with a life, and what comes of it."""

    def __init__(self, start: Life, contents: Collection[int]) -> None:
        self.contents = contents
        self.numbers: dict[Cell, int] = {}
        self.lives: list[Life] = []
        self.faces: list[Face] = []
        self.agree: list[bool] = []
        self.known: dict[tuple[int, Permissions], list[tuple[str, int]]] = {}
        self.rounds: dict[tuple[int, Permissions, bool], int] = {}
        self.number(start)

    def number(self, life: Life) -> int:
        cell = cell_of(life)
        if cell not in self.numbers:
            self.numbers[cell] = len(self.lives)
            self.lives.append(life)
            self.faces.append(life.face)
            self.agree.append(life.agrees())
        return self.numbers[cell]

    def copy(self, number: int, allowed: Permissions) -> Life:
        life = clone(self.lives[number])
        life.allowed = allowed
        return life

    def after(self, number: int, allowed: Permissions) -> list[tuple[str, int]]:
        """The cells that come of this one, each with an event."""
        key = number, allowed
        if key not in self.known:
            found: dict[int, str] = {}
            for event in events(self.lives[number], self.contents):
                life = self.copy(number, allowed)
                if life.happen(event):
                    found.setdefault(self.number(life), event)
            self.known[key] = [(event, after) for after, event in found.items() if after != number]
        return self.known[key]

    def round(self, number: int, allowed: Permissions, removing: bool) -> int:
        key = number, allowed, removing
        if key not in self.rounds:
            life = self.copy(number, allowed)
            life.round(removing)
            self.rounds[key] = self.number(life)
        return self.rounds[key]


@lru_cache(maxsize=None)
def lives_of_instance(rules: Rules, order: Order) -> Lives:
    return Lives(new_instance(rules, order), ())


@lru_cache(maxsize=None)
def lives_of_binding(rules: Rules, order: Order, contents: tuple[int, ...]) -> Lives:
    return Lives(new_binding(rules, order), contents)


def forget_lives() -> None:
    """Frees the memory of what was found."""
    lives_of_instance.cache_clear()
    lives_of_binding.cache_clear()


# ---- an instance and its bindings, as the numbers of their cells

Numbers = tuple[int, ...]


class Exploration(NamedTuple):
    """All that came about, each with what it came from; the first that is wrong, and why; and the number of steps."""

    came: dict[Numbers, Numbers | None]
    wrong: Numbers | None
    why: frozenset[str]
    steps: int


class World:
    """All that can come about of an instance and its bindings."""

    def __init__(
        self, rules: Rules, instance: Order, binding: Order, count: int = 1, contents: tuple[int, ...] = CONTENTS
    ) -> None:
        self.rules, self.orders = rules, (instance, *[binding] * count)
        self.instances = lives_of_instance(rules, instance)
        self.bindings = lives_of_binding(rules, binding, contents)
        self.start: Numbers = (0,) * (count + 1)
        self.for_instance = lru_cache(maxsize=None)(lambda *faces: of_instance(rules, faces))
        self.for_binding = lru_cache(maxsize=None)(lambda face: of_binding(rules, face))
        self.between = lru_cache(maxsize=None)(broken)

    def of_instance(self, numbers: Numbers) -> Permissions:
        faces = self.bindings.faces
        return self.for_instance(*(faces[number] for number in numbers[1:]))

    def of_binding(self, instance: int) -> Permissions:
        return self.for_binding(self.instances.faces[instance])

    def after(self, numbers: Numbers) -> Iterator[Numbers]:
        instance, *bindings = numbers
        for _, reached in self.instances.after(instance, self.of_instance(numbers)):
            yield (reached, *bindings)
        allowed = self.of_binding(instance)
        for at, binding in enumerate(bindings):
            others = bindings[:at] + bindings[at + 1 :]
            for _, reached in self.bindings.after(binding, allowed):
                yield (instance, *sorted([*others, reached])) if others else (instance, reached)

    def broken(self, numbers: Numbers) -> frozenset[str]:
        instance, *bindings = numbers
        faces, agree = self.bindings.faces, self.bindings.agree
        found = frozenset[str]()
        for binding in bindings:
            found |= self.between(self.instances.faces[instance], faces[binding])
        if self.instances.agree[instance] and all(agree[number] for number in bindings):
            return found
        return found | {LIVES_AGREE}

    def explore(self, promises: Collection[str] = PROMISES) -> Exploration:
        """Steps everything that can come about, up to the first that breaks one of the promises."""
        came: dict[Numbers, Numbers | None] = {self.start: None}
        todo, steps = deque([self.start]), 0
        while todo:
            numbers = todo.popleft()
            why = self.broken(numbers).intersection(promises)
            if why:
                return Exploration(came, numbers, why, steps)
            for following in self.after(numbers):
                steps += 1
                if following not in came:
                    came[following] = numbers
                    todo.append(following)
        return Exploration(came, None, frozenset(), steps)

    # ---- rounds without a fault

    def round(self, numbers: Numbers, removing: bool) -> Numbers:
        instance = self.instances.round(numbers[0], self.of_instance(numbers), removing)
        allowed = self.of_binding(instance)
        return (instance, *(self.bindings.round(number, allowed, removing) for number in numbers[1:]))

    def rests(self, numbers: Numbers, removing: bool) -> bool:
        instance, *bindings = numbers
        states = {self.instances.lives[instance].state, *(self.bindings.lives[number].state for number in bindings)}
        return states <= ({None, "gone"} if removing else AT_REST)

    def rounds(self, came: Collection[Numbers], removing: bool = False) -> tuple[int, Numbers | None]:
        """The most rounds that any takes until nothing is due; and the first of those that never get there."""
        known: dict[Numbers, int] = {}
        for numbers in came:
            path: list[Numbers] = []
            at = numbers
            while at not in known and not self.rests(at, removing):
                if at in path:
                    return 0, numbers
                path.append(at)
                at = self.round(at, removing)
            known.setdefault(at, 0)
            for count, passed in enumerate(reversed(path), 1):
                known[passed] = known[at] + count
        return max(known.values()), None

    # ---- the way to one

    def way(self, came: dict[Numbers, Numbers | None], numbers: Numbers) -> list[str]:
        """The events that lead there, as lines for model.BoundInstance."""
        path = [numbers]
        while (before := came[path[-1]]) is not None:
            path.append(before)
        tied, way = BoundInstance(self.rules, *self.orders), []
        for target in reversed(path[:-1]):
            line, tied = self.step_to(tied, target)
            way.append(line)
        return way

    def step_to(self, tied: BoundInstance, target: Numbers) -> tuple[str, BoundInstance]:
        """An event that leads to these cells, and what there is then."""
        for at, life in enumerate(tied.lives):
            name = f"binding {at}" if at else "instance"
            for event in events(life, self.bindings.contents):
                after = tied.clone()
                if after.happen(f"{name} {event}") and self.numbers_of(after) == target:
                    return f"{name} {event}", after
        raise AssertionError(f"no event leads to {target}")

    def numbers_of(self, tied: BoundInstance) -> Numbers | None:
        """The numbers of the cells; None if one has none."""
        instance = self.instances.numbers.get(cell_of(tied.instance))
        found = [self.bindings.numbers.get(cell_of(life)) for life in tied.bindings]
        numbers = [number for number in found if number is not None]
        return None if instance is None or len(numbers) < len(found) else (instance, *sorted(numbers))


class Way(NamedTuple):
    """A shortest way to a broken promise: what is kept, the plans, the promise, and events for a BoundInstance."""

    rules: Rules
    instance: Order
    binding: Order
    broken: str
    events: tuple[str, ...]


def shortest_way(rules: Rules, instance: Order, binding: Order, promises: Collection[str]) -> Way | None:
    """The shortest way to what breaks one of these promises, or else to what never settles; None if there is none."""
    world = World(rules, instance, binding)
    explored = world.explore(promises)
    wrong, why = explored.wrong, [promise for promise in PROMISES if promise in explored.why]
    if wrong is None and SETTLES in promises:
        wrong, why = world.rounds(explored.came)[1], [SETTLES]
    if wrong is None:
        return None
    return Way(rules, instance, binding, why[0], tuple(world.way(explored.came, wrong)))


# ---- the command


def promised(rules: Rules) -> Collection[str]:
    """What is promised if these rules are kept."""
    if rules.platform:
        return (*PROMISES, SETTLES)
    return PROMISES if rules.truthful else OF_THE_BROKER


def told(world: World) -> tuple[str, int, int]:
    """What comes of it, in words; and how many there are, and how many steps."""
    started, promises = time.process_time(), promised(world.rules)
    explored = world.explore(promises)
    many = len(explored.came)
    words = f"{many} with {explored.steps} steps"
    if explored.wrong is not None:
        words += f": BROKEN: {', '.join(sorted(explored.why))}"
    else:
        words += f", of {len(world.instances.lives)} and {len(world.bindings.lives)} cells"
        for what, removing in (("settle", False), ("are removed", True)):
            rounds, never = world.rounds(explored.came, removing)
            words += f"; {what} in {rounds} rounds" if never is None else f"; {'' if removing else 'not all '}{what}"
    return f"{words}; {time.process_time() - started:.1f} s", many, explored.steps


def tell(rules: Rules, count: int) -> None:
    all_many = all_steps = 0
    for instance, binding in ORDERS:
        words, many, steps = told(World(rules, instance, binding, count, CONTENTS if count == 1 else CONTENTS[:1]))
        print(f"instance {instance.told()}, binding {binding.told()}: {words}", flush=True)
        all_many, all_steps = all_many + many, all_steps + steps
    print(f"{all_many} in all, {all_steps} steps")


def tell_way(rules: Rules) -> None:
    for instance, binding in ORDERS:
        way = shortest_way(rules, instance, binding, promised(rules))
        if way is not None:
            tied = BoundInstance(rules, instance, binding)
            print(f"instance {instance.told()}, binding {binding.told()}: BROKEN: {way.broken}")
            for line in way.events:
                tied.happen(line)
                print(f"  {line}  {tied.words()}")
            return
    print("no promise is broken")


def main(arguments: list[str]) -> int:
    parser = argparse.ArgumentParser(prog="binding.cells", description="See the module's first comment.")
    parser.add_argument("--two", action="store_true", help="an instance and two bindings")
    parser.add_argument(
        "--rules", nargs="+", choices=["platform", "broker", "truthful"], default=["platform", "broker"]
    )
    parser.add_argument("--without", nargs="+", choices=PARTS, default=[], metavar="PART", help=", ".join(PARTS))
    options = parser.parse_args(arguments)
    platform, broker, truthful = (rule in options.rules for rule in ("platform", "broker", "truthful"))
    rules = Rules(platform, broker, truthful, frozenset(options.without))
    if options.without:
        tell_way(rules)
    else:
        tell(rules, 2 if options.two else 1)
    return 0


if __name__ == "__main__":
    sys.exit(main(sys.argv[1:]))
