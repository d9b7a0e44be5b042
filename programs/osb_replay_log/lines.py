"""What a line of a log is, as far as parting has to know it. Whether it has a fault, the proved program judges."""
from __future__ import annotations

import enum
from typing import Iterator

LONGEST = 512
"""The bytes that a line has at most, without its line feed."""

EVENTS = frozenset(b"create remove send deliver repeat lose garble gateway answer timeout expire finish".split())
"""The first words of an event of an instance."""

ID_SIZE = 36
"""The bytes of an id."""

_BLOCK = 1 << 20

_COMMENT = ord("#")


class Kind(enum.Enum):
    """What a line is that doesn't name an instance."""

    SILENT = "blank, or a comment"
    PLAN = "one that begins with `plan`"
    RESTART = "a restart"
    ODD = "none of these: after the first event, such a line has a fault, and so has one that is a plan's"


def name_in(line: bytes) -> bytes | None:
    """Which instance an event's line names, the same for each spelling of an id; None where it isn't an event's.

    What a schedule takes for an event of an instance has one; and two such lines have the same exactly where the
    instance is the same. Some other lines have one too: they have a fault, whatever they are replayed with.
    """
    words = line.split(None, 2)
    if len(words) > 1 and words[0] in EVENTS and len(words[1]) == ID_SIZE and len(line) <= LONGEST:
        return words[1].lower()
    return None


def kind_of(line: bytes) -> Kind:
    """What a line is in which `name_in` finds no instance."""
    if len(line) > LONGEST or not line.isascii():
        return Kind.ODD
    bare = (line[:-1] if line.endswith(b"\r") else line).strip(b" \t")
    if not bare or bare[0] == _COMMENT:
        return Kind.SILENT
    if bare == b"restart":
        return Kind.RESTART
    return Kind.PLAN if bare.replace(b"\t", b" ").split(b" ", 1)[0] == b"plan" else Kind.ODD


def is_head(line: bytes) -> bool:
    """Whether the line may stand before the first event, and be followed by plans."""
    return name_in(line) is None and kind_of(line) in (Kind.SILENT, Kind.PLAN)


def split(data: bytes) -> list[bytes]:
    """The lines of the data, without their line feeds: what follows the last one is a line too, if it is anything."""
    lines = data.split(b"\n")
    if not lines[-1]:
        lines.pop()
    return lines


def blocks(data: bytes) -> Iterator[list[bytes]]:
    """The lines of the data, some at a time: so not all of them are held beside it."""
    begin = 0
    while begin < len(data):
        end = data.find(b"\n", begin + _BLOCK) + 1 or len(data)
        yield split(data[begin:end])
        begin = end
