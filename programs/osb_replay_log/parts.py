"""Parts: a worker gathers a bucket from all pieces, splits it again where it is too large for one schedule, and has
each part of it replayed, or written.
"""
from __future__ import annotations

import os
import tempfile
from collections import Counter
from itertools import islice
from pathlib import Path
from typing import Iterable, Iterator, NamedTuple, Sequence

from osb_replay_log.faults import unwritten
from osb_replay_log.lines import name_in
from osb_replay_log.program import Program
from osb_replay_log.spool import Room, Share, shares


class Bucket(NamedTuple):
    """What a worker is given: a bucket's number, how many pieces each stretch has, and how many restarts all have."""

    room: Room
    number: int
    pieces: tuple[int, ...]
    plans: int
    restarts: int
    most: int
    """How many lines a part has at most."""
    is_needed: bool
    """Whether there is a part of it even where no event stands in it but restarts."""
    program: Program | None
    """None where parts are only written."""


class Faulty(NamedTuple):
    """A fault, and the line that has it: the one of so many, from 1, that name this instance."""

    name: bytes
    nth: int
    fault: str


class Large(NamedTuple):
    """An instance that has more lines than any part may have."""

    name: bytes
    lines: int


class Done(NamedTuple):
    """What came of it: the parts' files, of reports or schedules; the first fault of each part that has one; an
    instance that is too large; and how many events there are, without restarts.
    """

    files: tuple[str, ...] = ()
    faulty: tuple[Faulty, ...] = ()
    large: Large | None = None
    events: int = 0


class _Part:
    """The plans and the lines of a part, piece by piece, as often as they are gone through."""

    def __init__(self, plans: Path, found: Sequence[Share]) -> None:
        self._plans, self._shares = plans, found

    def __iter__(self) -> Iterator[bytes]:
        yield self._plans.read_bytes()
        for share in self._shares:
            if share.size:
                yield share.read()

    def lines(self) -> Iterator[bytes]:
        """Those behind the plans."""
        for share in self._shares:
            yield from share.read().split(b"\n")[:-1]


def finish(bucket: Bucket) -> Done:
    """Has the bucket's parts replayed, or written."""
    try:
        found = list(shares(bucket.room, bucket.pieces, bucket.number))
        lines = sum(share.lines for share in found)
        events = lines - bucket.restarts
        if not events and not bucket.is_needed:
            return Done()
        if bucket.plans + lines <= bucket.most:
            return _finish_parts(bucket, [found], events)
        with tempfile.TemporaryDirectory(prefix="split-", dir=bucket.room.folder) as folder:
            groups = split_again(found, bucket.most - bucket.plans - bucket.restarts)
            if isinstance(groups, Large):
                return Done(large=groups)
            return _finish_parts(bucket, _written(found, groups, bucket.room, Path(folder)), events)
    except OSError as error:
        raise unwritten(bucket.room.folder, error) from error


def _finish_parts(bucket: Bucket, parts: Iterable[Sequence[Share]], events: int) -> Done:
    files: list[str] = []
    faulty: list[Faulty] = []
    for number, found in enumerate(parts):
        part = _Part(bucket.room.file("plans"), found)
        new, path = bucket.room.begin(), bucket.room.file(f"part-{bucket.number:06}-{number:06}")
        if bucket.program is None:
            with open(new, "wb") as file:
                file.writelines(part)
        else:
            fault = bucket.program.run(part, new)
            if fault is not None:
                faulty.append(faulty_line(part.lines(), fault.line - bucket.plans, fault.name))
        os.replace(new, path)
        bucket.room.take()
        files.append(str(path))
    return Done(tuple(files), tuple(faulty), events=events)


def faulty_line(lines: Iterable[bytes], number: int, fault: str) -> Faulty:
    """Which line of a log is the part's line of this number, behind the plans."""
    names = [name_in(line) for line in islice(lines, number)]
    name = names[-1]
    assert name is not None  # a restart has no fault
    return Faulty(name, names.count(name), fault)


def split_again(found: Iterable[Share], most: int) -> dict[bytes, int] | Large:
    """Which of the bucket's instances go to which of its parts, so that each has so many lines at most."""
    counts: Counter[bytes] = Counter()
    for share in found:
        counts.update(name for name in map(name_in, share.read().split(b"\n")) if name is not None)
    groups: dict[bytes, int] = {}
    group = full = 0
    for name, count in counts.items():
        if count > most:
            return Large(name, count)
        if full + count > most:
            group, full = group + 1, 0
        groups[name], full = group, full + count
    return groups


def _written(found: Iterable[Share], groups: dict[bytes, int], room: Room, folder: Path) -> Iterator[list[Share]]:
    """The bucket's lines, parted by these groups: restarts to all."""
    many = max(groups.values()) + 1
    sizes = [0] * many
    for share in found:
        texts: list[list[bytes]] = [[] for _ in range(many)]
        for line in share.read().split(b"\n")[:-1]:
            name = name_in(line)
            for group in range(many) if name is None else (groups[name],):
                texts[group].append(line + b"\n")
        room.take(sum(len(line) for text in texts for line in text))
        for group, text in enumerate(texts):
            with open(folder / str(group), "ab") as file:
                file.writelines(text)
            sizes[group] += len(text)
    for group in range(many):
        path = folder / str(group)
        yield [Share(path, 0, path.stat().st_size, sizes[group])]
