"""An instance and a binding at a broker that keeps rules a and b, and any platform at all.

An instance is that of network.cells.Any. The platform may forget what it has sent, send one id with many plans and
attributes, create and remove in any order, and believe every answer whenever the answer arrives. Of workers is assumed
what docs/premises.md assumes for the promises of a broker alone.
"""

from __future__ import annotations

from collections import deque
from collections.abc import Iterator
from functools import lru_cache
from typing import NamedTuple

from binding.cells import CONTENTS
from binding.model import begins, is_forgotten, is_held, is_there
from network import cells
from network.cells import KINDS, REQUESTS, Any, Design
from network.model import Answer, Held, Request, Row

# What can be left out. Design has more parts, which are left out of both lives.
PARTS = [
    "rule a",
    "rule a of plans",
    "rule a of waiting rows",
    "rule b",
    "rule b of waiting rows",
    "deleted tombstones",
    "true before",
]


class Broker(NamedTuple):
    """The modes of the two plans for instances and for bindings, the rule of the first Poll, and what is left out."""

    instances: tuple[str, str]
    bindings: tuple[str, str]
    first_poll: bool
    without: frozenset[str] = frozenset()

    def has(self, part: str) -> bool:
        return part not in self.without

    @property
    def of_instances(self) -> Design:
        return Design(self.instances, self.first_poll, self.without)

    @property
    def of_bindings(self) -> Design:
        return Design(self.bindings, self.first_poll, self.without)


class Bound(NamedTuple):
    """A binding at the broker, the credentials of its row and its resource, and those that were given.

    What was given counts until an Unbind arrives.
    """

    life: Any = Any()
    row: int = 0
    credentials: int = 0
    given: int = 0


class Both(NamedTuple):
    instance: Any = Any()
    binding: Bound = Bound()


def phase(held: Held) -> str | None:
    return held.row.phase if held.row else None


def gives(request: Request | None, answer: Answer | None) -> bool:
    """Whether an answer gives the credentials of the row."""
    return bool(request and answer and request.kind == "provision" and answer.status in (200, 201))


def becomes(cell: Bound, life: Any, kind: str | None = None, gives_row: bool = False) -> Bound:
    """The binding after an event, which is of a request of this kind if there is one."""
    row = 0
    if phase(life.held) == "ready":
        row = cell.row if phase(cell.life.held) == "ready" else cell.credentials
    given = row if gives_row else 0 if kind == "deprovision" else cell.given
    return Bound(life, row, cell.credentials, given)


# ---- what comes of each, by what it sees of the other


def seen_of_instance(held: Held) -> Held:
    """What a binding sees of its instance: a row that is ready without pending work, or the tombstone."""
    there = held.row is not None and is_there(held, held.row.plan)
    return Held(row=held.row if there else None, tombstone=held.tombstone)


def seen_of_binding(held: Held) -> Held:
    """What an instance sees of a binding: whether it is held, and whether its row is in `waiting`."""
    return Held(row=Row(0, "waiting" if phase(held) == "waiting" else "ready")) if is_held(held) else Held()


def may_begin(broker: Broker, held: Held, request: Request, instance: Held) -> bool:
    """Rule a: whether what the request begins of a binding may begin."""
    if request.kind != "provision" or not broker.has("rule a"):
        return True
    plan = instance.row.plan if instance.row and not broker.has("rule a of plans") else request.plan
    mode = broker.bindings[request.plan]
    if is_there(instance, plan) or broker.first_poll and mode == "async" and not broker.has("rule a of waiting rows"):
        return True
    return not begins(mode, held, request)


def arrived(broker: Broker, cell: Bound, request: Request, instance: Held) -> Bound:
    design, life = broker.of_bindings, cell.life
    forgotten = broker.has("deleted tombstones") and is_forgotten(instance, life.held)
    if forgotten and request.kind == "provision" or not may_begin(broker, life.held, request, instance):
        return becomes(cell, cells.put_off(life, request.kind), request.kind)
    _, answer = design.arrive(life.held, request)
    after = cells.arrived(design, life, request)
    return becomes(cell, after._replace(held=life.held) if forgotten else after, request.kind, gives(request, answer))


@lru_cache(maxsize=None)
def after_binding(broker: Broker, cell: Bound, instance: Held) -> tuple[Bound, ...]:
    design, life = broker.of_bindings, cell.life
    found = {arrived(broker, cell, request, instance) for request in REQUESTS}
    found |= {becomes(cell, cells.put_off(life, kind), kind) for kind in KINDS}
    if phase(life.held) == "ready" and life.held.work is None:
        found.add(cell._replace(given=cell.row))  # a Fetch
    for _, held, answer in design.ends(life.held, life.resource):
        work = life.held.work
        found.add(becomes(cell, cells.ended(life, held, answer), work.kind if work else None, gives(work, answer)))
    for to in design.changes(life.held, life.resource):
        for number in CONTENTS if to == "whole" else (0,):
            found.add(cell._replace(life=life._replace(resource=to), credentials=number))
    if instance.tombstone and life.held.tombstone:
        found.add(cell._replace(life=life._replace(held=Held())))
    return tuple(found - {cell})


@lru_cache(maxsize=None)
def after_instance(broker: Broker, cell: Any, binding: Held) -> tuple[Any, ...]:
    design = broker.of_instances
    held = is_held(binding) and broker.has("rule b")
    if phase(binding) == "waiting":
        held = held and broker.has("rule b of waiting rows")
    found = {cells.put_off(cell, kind) for kind in KINDS}
    for request in REQUESTS:
        if not (held and begins(design.modes[request.plan], cell.held, request)):
            found.add(cells.arrived(design, cell, request))
    found |= {cells.ended(cell, after, answer) for _, after, answer in design.ends(cell.held, cell.resource)}
    found |= {cell._replace(resource=to) for to in design.changes(cell.held, cell.resource)}
    return tuple(found - {cell})


def steps(broker: Broker, both: Both) -> Iterator[Both]:
    instance, binding = both
    for following in after_instance(broker, instance, seen_of_binding(binding.life.held)):
        yield Both(following, binding)
    for bound in after_binding(broker, binding, seen_of_instance(instance.held)):
        yield Both(instance, bound)


# ---- what is promised


def wrong(broker: Broker, both: Both) -> str | None:
    instance, (binding, row, credentials, given) = both
    own = cells.wrong_in_any(broker.of_instances, instance) or cells.wrong_in_any(broker.of_bindings, binding)
    if own:
        return own
    held, exists = binding.held.row or binding.held.work, binding.resource != "absent"
    if held and not is_there(instance.held, held.plan):
        return "a binding is held, and its instance isn't there"
    if exists and not (held and instance.resource == "whole"):
        return "something of a binding exists, and the binding isn't held, or its instance isn't whole"
    if instance.gone and (held or exists):
        return "an instance was reported gone, and has a binding"
    if given and (binding.resource, credentials) != ("whole", given):
        return "credentials were given, no Unbind has arrived since, and the resource doesn't have them"
    if phase(binding.held) == "ready" and not binding.held.work and row != credentials:
        return "a Fetch gives other credentials than those of the resource"
    return None


class Exploration(NamedTuple):
    many: int
    steps: int
    wrong: str | None


def explore(broker: Broker) -> Exploration:
    """Steps everything that can come about, up to the first that is wrong."""
    seen, todo, taken = {Both()}, deque([Both()]), 0
    while todo:
        both = todo.popleft()
        why = wrong(broker, both)
        if why is not None:
            return Exploration(len(seen), taken, f"{why}: {both}")
        for step in steps(broker, both):
            taken += 1
            if step not in seen:
                seen.add(step)
                todo.append(step)
    return Exploration(len(seen), taken, None)
