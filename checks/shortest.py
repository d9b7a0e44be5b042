"""Makes a random story that shows a difference as short as it gets, as hypothesis does with what it draws."""

from __future__ import annotations

from collections.abc import Callable, Sequence
from typing import TypeVar

Part = TypeVar("Part")


def shortest(parts: Sequence[Part], shows: Callable[[Sequence[Part]], bool]) -> Sequence[Part]:
    """The parts of a story that are needed for a difference: without any one of them, it doesn't show."""
    size = max(len(parts) // 2, 1)
    while True:
        fewer = _without(parts, size, shows)
        if size == 1 and len(fewer) == len(parts):
            return parts
        parts, size = fewer, max(size // 2, 1)


def _without(parts: Sequence[Part], size: int, shows: Callable[[Sequence[Part]], bool]) -> Sequence[Part]:
    """Leaves out each run of so many parts without which the difference still shows."""
    at = 0
    while at < len(parts):
        fewer = [*parts[:at], *parts[at + size :]]
        if shows(fewer):
            parts = fewer
        else:
            at += size
    return parts
