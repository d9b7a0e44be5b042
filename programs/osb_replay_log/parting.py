"""Parting: a worker takes a stretch of a log, and spools its lines by buckets: instances by a hash, restarts to all."""
from __future__ import annotations

import enum
from itertools import chain
from typing import Iterator, NamedTuple
from zlib import crc32

from osb_replay_log import spool
from osb_replay_log.faults import unwritten
from osb_replay_log.lines import EVENTS, ID_SIZE, LONGEST, Kind, blocks, kind_of
from osb_replay_log.logs import Stretch, pieces
from osb_replay_log.spool import Room

_RESTART = b"restart"
_MOST_COPIES = 1 << 20
"""How many restarts one spool file has, those of all buckets together, before another one is begun."""


class Parting(NamedTuple):
    """What a worker is given: the number of the stretch, of its buckets, and of the restarts that it may have."""

    room: Room
    number: int
    stretch: Stretch
    buckets: int
    chunk: int
    most: int


class Parted(NamedTuple):
    """The counts of spool files, lines of any kind, events and restarts; and whether an odd line ended it."""

    pieces: int
    lines: int
    events: int
    restarts: int
    is_odd: bool


class End(enum.Enum):
    """Where lines are left."""

    WHOLE = "there are no more"
    FULL = "there are so many restarts that the rest goes into another spool file"
    ODD = "the next one was odd"


def part(parting: Parting) -> Parted:
    """Parts the stretch. At an odd line it stops: with that the log has a fault, there or before. And it stops where it
    has more restarts than there may be.
    """
    count = lines = events = restarts = 0
    try:
        for piece in pieces(parting.stretch, parting.chunk):
            lines, rest, end = lines + piece.count(b"\n"), chain.from_iterable(blocks(piece)), End.FULL
            while end is End.FULL and restarts <= parting.most:
                buckets: list[list[bytes]] = [[] for _ in range(parting.buckets)]
                found, end = part_lines(rest, buckets)
                spool.write(parting.room, parting.room.piece(parting.number, count), buckets)
                count, restarts = count + 1, restarts + found
                events += sum(map(len, buckets)) - found * len(buckets)
            if end is not End.WHOLE:
                return Parted(count, lines, events, restarts, end is End.ODD)
    except OSError as error:
        raise unwritten(parting.room.folder, error) from error
    return Parted(count, lines, events, restarts, False)


def part_lines(lines: Iterator[bytes], buckets: list[list[bytes]]) -> tuple[int, End]:
    """Adds each line to its bucket, restarts to all. Returns how many restarts there are, and where it has stopped.

    It is `lines.name_in` and `kind_of`, once more for the first: so it takes about half a microsecond a line.
    """
    many, puts, restarts = len(buckets), [bucket.append for bucket in buckets], 0
    for line in lines:
        if not line:  # a log may have millions of blank lines
            continue
        words = line.split(None, 2)
        if len(words) > 1 and words[0] in EVENTS and len(words[1]) == ID_SIZE and len(line) <= LONGEST:
            puts[crc32(words[1].lower()) % many](line)
            continue
        kind = kind_of(line)
        if kind is Kind.RESTART:
            restarts += 1
            for put in puts:
                put(_RESTART)  # without its blanks, of which there may be hundreds
            if restarts * many >= _MOST_COPIES:
                return restarts, End.FULL
        elif kind is not Kind.SILENT:
            return restarts, End.ODD
    return restarts, End.WHOLE
