"""Splitting: a worker takes a stretch of a journal, and spools its lines by buckets, the lines of an instance to one.

In a bucket, each line has the number of its stretch and its own number there before it: `STRETCH:LINE:`.
"""
from __future__ import annotations

from dataclasses import dataclass, field
from itertools import chain
from typing import Iterator, NamedTuple
from zlib import crc32

from osb_audit.lines import HEAD, INSTANCE, OF_INSTANCES, OF_LOST, BadLine, check, is_torn, members_of, newer, plain
from osb_audit.tails import Tail
from osb_replay_log import spool
from osb_replay_log.faults import unwritten
from osb_replay_log.lines import blocks
from osb_replay_log.logs import Stretch, pieces
from osb_replay_log.spool import Room

LONGEST = 1 << 20
"""The bytes that a line has at most."""


class Splitting(NamedTuple):
    """What a worker is given: the number of the stretch, of the buckets, and where their lines go."""

    room: Room
    number: int
    stretch: Stretch
    buckets: int
    chunk: int


class Heading(NamedTuple):
    """A line of a process: `started`, `stopped` or `lost`, with the time of the line before it in its file."""

    line: int
    text: bytes
    event: str
    side: str
    process: str
    time: int
    before: int

    missing: int = 0
    """Of `lost`: how many lines are missing."""


@dataclass
class Split:
    """What came of a stretch: how many spool files there are, how many lines, and what isn't an instance's."""

    number: int
    pieces: int = 0
    lines: int = 0
    events: int = 0
    headings: list[Heading] = field(default_factory=list)
    tails: dict[bytes, Tail] = field(default_factory=dict)
    """What is left of each process that has written lines here."""
    torn: list[int] = field(default_factory=list)
    """The lines that were cut off: the last of a file, or one that a line `started` or `lost` follows."""
    ends_torn: bool = False
    """Whether its last line was cut off."""
    bad: tuple[int, str] | None = None
    """The first line that is no line of a journal, and why."""

    @property
    def begins_anew(self) -> bool:
        """Whether its first line is `started` or `lost`."""
        return bool(self.headings) and self.headings[0].line == 0 and self.headings[0].event in ("started", "lost")


class _Splitter:
    """Goes through the lines of a stretch."""

    def __init__(self, number: int, buckets: int) -> None:
        self.found, self.many, self.time = Split(number), buckets, 0
        self.buckets: list[list[bytes]] = []

    def split(self, lines: Iterator[list[bytes]]) -> None:
        """Adds each line to its bucket, in another spool file, up to the first that is no line of a journal."""
        self.buckets = [[] for _ in range(self.many)]
        for text in chain.from_iterable(lines):
            why = self._add(text)
            self.found.lines += 1
            if why is not None:
                self.found.bad = self.found.lines - 1, why
                return

    def _add(self, text: bytes) -> str | None:
        head = HEAD.match(text)
        if head is None or not text.endswith(b"}"):
            line = plain(text)
            head = HEAD.match(line) if line else None
            if line is None or head is None:
                return self._odd(text)
            text = line
        time, process, side, event = head.groups()
        if self.found.ends_torn:
            if event not in (b"started", b"lost"):
                return "the line before it is no line of a journal"
            self.found.ends_torn = False
        if event in OF_INSTANCES[side]:
            found = INSTANCE.search(text)
            if found is None:
                text = plain(text) or text
                found = INSTANCE.search(text)
            if found is None:
                return f"{event.decode()} names no instance"
            position = b"%d:%d:" % (self.found.number, self.found.lines)
            self.buckets[crc32(found[1]) % self.many].append(position + text)
            self.found.events += 1
            (self.found.tails.get(process) or self._tail(process, time)).add(event, text, found[1])
        elif newer(side, event):
            known = "it is of a newer version than this osb-audit"
            return f"a {side.decode()} has no event {event.decode()!r} here: {known}"
        else:
            why = self._head(text, event.decode(), side.decode(), process.decode(), int(time))
            if why is not None:
                return why
            if event == b"stopped":
                self._tail(process, time).stop()
            elif event == b"lost":
                self._tail(process, time).go_on()
        self.time = int(time)
        return None

    def _tail(self, process: bytes, time: bytes) -> Tail:
        tail = self.found.tails.get(process)
        if tail is None:
            tail = self.found.tails[process] = Tail(process.decode(), int(time))
        return tail

    def _odd(self, text: bytes) -> str | None:
        """A line that was cut off may stand at the end, or before a line `started` or `lost`."""
        if len(text.rstrip(b"\0")) > LONGEST:
            return f"it is longer than the {LONGEST:,} bytes of a line"
        if self.found.ends_torn or not is_torn(text):
            return "it is no line of a journal"
        self.found.ends_torn = True
        self.found.torn.append(self.found.lines)
        return None

    def _head(self, text: bytes, event: str, side: str, process: str, time: int) -> str | None:
        missing = 0
        if event == "lost":
            try:
                members = members_of(text)
                check(members, OF_LOST, f"lost of a {side}")
            except BadLine as error:
                return str(error)
            missing = members.get("count", 1)
        line = self.found.lines
        self.found.headings.append(Heading(line, text, event, side, process, time, self.time or time, missing))
        return None


def split(splitting: Splitting) -> Split:
    """Splits a stretch."""
    splitter = _Splitter(splitting.number, splitting.buckets)
    found = splitter.found
    try:
        for piece in pieces(splitting.stretch, splitting.chunk, LONGEST + 1):
            splitter.split(blocks(piece))
            spool.write(splitting.room, splitting.room.piece(splitting.number, found.pieces), splitter.buckets)
            found.pieces += 1
            if found.bad is not None:
                break
    except OSError as error:
        raise unwritten(splitting.room.folder, error) from error
    return found
