"""Drivers of a broker at an instance and at a binding of it, step by step.

Each of the two is a world of its own, with a row, a lock, a resource and a driver. Requests of any kind arrive at any
time, as from any platform. A transaction also reads the row of the other one, and begins something only if that lets
it. Credentials aren't modelled.
"""

from __future__ import annotations

from collections.abc import Iterator
from typing import NamedTuple

from driver import broker_world
from driver.broker_model import Task, Transaction
from driver.broker_world import Driver, World
from driver.events import Plan
from network import model
from network.model import Held, Request, Row

# The kinds of the requests. Each has an attempt of its own.
KINDS = ("provision", "deprovision", "poll")


class Life(broker_world.Design):
    """The steps of an instance, or of a binding, in which no part of the design is left out."""

    def __init__(self, plan: Plan) -> None:
        super().__init__(plan, len(KINDS), drivers=1, puts_off=False)
        self.start = World((Driver(),), sent=KINDS)
        # Whether the row of the other one lets something begin.
        self.permit = True
        self.known: dict[tuple[World, bool], list[tuple[str, World]]] = {}

    def after(self, world: World, permit: bool) -> list[tuple[str, World]]:
        """The steps of the world, if something may begin, or may not."""
        if (world, permit) not in self.known:
            self.permit = permit
            self.known[world, permit] = [(told(word), after) for word, after in self.steps(world)]
        return self.known[world, permit]

    def of_platform(self, world: World) -> broker_world.Steps:
        yield from ()

    def decide(self, world: World, driver: Driver, may_begin: bool = True) -> Transaction:
        return super().decide(world, driver, may_begin and (self.permit or not self.asks(world.request(driver))))

    def asks(self, request: Request | None) -> bool:
        """Whether the row of the other one counts for the request."""
        return True

    # ---- workers that are truthful also if the platform isn't known

    def at_work(self, world: World, at: int, driver: Driver) -> broker_world.Steps:
        """A deletion creates nothing."""
        is_deletion = model.is_made(world.row) is False
        for word, after in super().at_work(world, at, driver):
            if not is_deletion or model.RESOURCES.index(after.resource) <= model.RESOURCES.index(world.resource):
                yield word, after

    def outcomes(self, task: Task, resource: str) -> list[str]:
        """A deletion that changed nothing left all of it."""
        found = super().outcomes(task, resource)
        is_deletion = isinstance(task, Request) and task.kind == "deprovision"
        return [outcome for outcome in found if outcome != "before" or not is_deletion or resource == "whole"]


def told(word: str) -> str:
    """The words of a step of the only driver."""
    word = word.removeprefix("driver 1 ")
    for attempt, kind in enumerate(KINDS, 1):
        word = word.replace(f"for attempt {attempt}", f"for a {kind}")
    return word


class BindingLife(Life):
    """Only a Bind asks for the row of the instance."""

    def asks(self, request: Request | None) -> bool:
        return request is not None and request.kind == "provision"


class Both(NamedTuple):
    drivers: tuple[Driver, ...]
    instance: World
    binding: World
    wrong: str | None = None


Steps = Iterator[tuple[str, Both]]


class Design:
    """The steps of both in which no part of the design is left out."""

    life: type[Life] = Life
    binding_life: type[BindingLife] = BindingLife

    def __init__(self, instance: Plan, binding: Plan) -> None:
        self.instance, self.binding = self.life(instance), self.binding_life(binding)
        self.start = Both((), self.instance.start, self.binding.start)

    def steps(self, both: Both) -> Steps:
        for word, after in self.instance.after(both.instance, self.may_work(both.binding.row)):
            yield f"instance: {word}", Both((), after, both.binding, after.wrong)
        for word, after in self.binding.after(both.binding, self.may_bind(both.instance.row)):
            yield f"binding: {word}", Both((), both.instance, after, after.wrong)

    def may_work(self, binding: Held) -> bool:
        """Whether something of the instance may begin: no binding is held."""
        return binding.row is None and binding.work is None

    def may_bind(self, instance: Held) -> bool:
        """Whether something of the binding may begin: its instance is there, and nothing is pending."""
        return instance.row == Row(0, "ready") and instance.work is None


def broken(both: Both) -> str | None:
    """What the broker promises of an instance and its bindings, and isn't so."""
    instance, binding = both.instance, both.binding
    if binding.row.row is None and binding.row.work is None and binding.resource == "absent":
        return None
    if instance.row.row != Row(0, "ready") or instance.row.work is not None:
        return "a binding is held or exists, and its instance isn't there"
    if instance.resource != "whole":
        return "a binding is held or exists, and its instance doesn't exist, complete"
    return None
