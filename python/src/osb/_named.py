"""What the numbers of `osb.enums` have in common."""
from __future__ import annotations

import enum


class Named(enum.IntEnum):
    """Numbers that show by their names, as `cleaning-polling`."""

    meaning: str

    def __new__(cls, number: int, meaning: str = "") -> Named:
        made = int.__new__(cls, number)
        made._value_, made.meaning = number, meaning
        return made

    def __str__(self) -> str:
        return self.name.lower().replace("_", "-")

    def __format__(self, format_spec: str) -> str:
        return format(str(self), format_spec)
