"""Steps every world that can come about, and says what is wrong with a world."""

from __future__ import annotations

from collections.abc import Callable, Iterable
from dataclasses import dataclass
from typing import Any, Generic, Optional, Protocol, TypeVar

from network.model import Held, Row


class AnyWorld(Protocol):
    """A tuple whose first member has the drivers. Worlds that differ only in the order of their drivers are one."""

    @property
    def drivers(self) -> tuple[Any, ...]:
        """The drivers, which say nothing of their places."""

    @property
    def wrong(self) -> str | None:
        """Why the step to this world is wrong."""

    def __getitem__(self, members: slice, /) -> tuple[Any, ...]:
        """The members."""


World = TypeVar("World", bound=AnyWorld)
Design = TypeVar("Design")
# The parts by which two worlds differ.
Key = tuple[object, ...]
# The world before each world, and the step from there.
Came = dict[Key, Optional[tuple[Key, str]]]


@dataclass
class Exploration(Generic[World]):
    """The worlds that came about, the number of their steps, and the shortest way to a wrong world."""

    worlds: list[World]
    steps: int
    way: tuple[str, ...] = ()
    wrong: str | None = None


def explore(
    start: World, steps_of: Callable[[World], Iterable[tuple[str, World]]], judge: Callable[[World], str | None]
) -> Exploration[World]:
    """Steps every world that can come about, or stops at the first wrong one."""
    numbers: dict[object, int] = {}

    def key(world: World) -> Key:
        return (*sorted([numbers.setdefault(driver, len(numbers)) for driver in world.drivers]), *world[1:])

    worlds, steps = [start], 0
    came: Came = {key(start): None}
    for world in worlds:  # the loop appends to the list
        here = key(world)
        for word, after in steps_of(world):
            steps += 1
            there = key(after)
            if there in came:
                continue
            came[there] = here, word
            worlds.append(after)
            wrong = after.wrong or judge(after)
            if wrong is not None:
                return Exploration(worlds, steps, way_to(there, came), wrong)
    return Exploration(worlds, steps)


def way_to(key: Key, came: Came) -> tuple[str, ...]:
    way = []
    at = came[key]
    while at is not None:
        way.append(at[1])
        at = came[at[0]]
    return tuple(reversed(way))


def below(design: type[Design]) -> set[type[Design]]:
    """The designs that leave something out."""
    found = set(design.__subclasses__())
    return found.union(*(below(subclass) for subclass in found))


def disagreement(state: str | None, held: Held, resource: str) -> str | None:
    """What the platform records that isn't so."""
    row, work, _, _ = held
    if state == "ready" and (row != Row(0, "ready") or work is not None or resource != "whole"):
        return "recorded as ready, and it doesn't exist"
    if state in (None, "gone") and (row is not None or work is not None or resource != "absent"):
        return "recorded as gone or not at all, and something exists"
    return None
