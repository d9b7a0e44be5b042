"""Reports: what stands where in one, and many of them merged to that which one run of the whole would write."""
from __future__ import annotations

import os
from bisect import bisect_right
from typing import BinaryIO, Iterator, NamedTuple, Sequence

from osb_replay_log.faults import UNREAD, Unreplayed
from osb_replay_log.spool import Room

MOST_OPEN = 200
"""How many reports are merged at once."""
_BLOCK = 1 << 16
_RECORD, _RECORD_END = b'{"instances":{', b'},"version":2}'


class Bytes(NamedTuple):
    """Where something stands in a file."""

    path: str
    begin: int
    end: int


class Report(NamedTuple):
    """A report: its instances' lines, its counts, and the members of its saved record, where it has one."""

    lines: Bytes
    applied: int
    skipped: int
    members: Bytes
    has_record: bool


def report_in(path: str) -> Report:
    """Reads what stands at the end of a report. What isn't one, whole, is refused."""
    try:
        with open(path, "rb") as file:
            end = file.seek(0, os.SEEK_END)
            record = _line_before(file, end)
            has_record = _head(file, record, end).startswith(_RECORD)
            skipped = _line_before(file, record) if has_record else record
            applied = _line_before(file, skipped)
            counts = _head(file, applied, record if has_record else end).split(b"\n")
            if not _is_whole(file, counts, record, end if has_record else -1):
                raise Unreplayed(UNREAD, f"{path}: it isn't a complete report")
    except OSError as error:
        raise Unreplayed(UNREAD, f"{path}: read failed: {error.strerror}") from error
    begin, last = record + len(_RECORD), end - len(_RECORD_END) - 1
    members = Bytes(path, begin, max(begin, last - 1)) if has_record else Bytes(path, 0, 0)
    return Report(Bytes(path, 0, applied), int(counts[0][8:]), int(counts[1][8:]), members, has_record)


def _line_before(file: BinaryIO, end: int) -> int:
    """Where the line begins that ends there, with its line feed."""
    at = max(end - 1, 0)
    while at > 0:
        begin = max(0, at - _BLOCK)
        file.seek(begin)
        found = file.read(at - begin).rfind(b"\n")
        if found >= 0:
            return begin + found + 1
        at = begin
    return 0


def _head(file: BinaryIO, begin: int, end: int) -> bytes:
    file.seek(begin)
    return file.read(min(end - begin, 128))


def _is_whole(file: BinaryIO, counts: list[bytes], record: int, end: int) -> bool:
    """Whether both counts stand there, and the record, if there is one, is whole."""
    words = [(b"applied ", counts[0]), (b"skipped ", counts[1] if len(counts) == 3 else b"")]
    if not all(line.startswith(word) and line[len(word) :].isdigit() for word, line in words) or counts[2]:
        return False
    tail = _RECORD_END + b"\n"
    return end < 0 or (end - record >= len(_RECORD + tail) and _head(file, end - len(tail), end) == tail)


class _Run:
    """The items of one file, ascending, a block of them after the other."""

    def __init__(self, bytes_: Bytes, separator: bytes) -> None:
        self._file = open(bytes_.path, "rb")
        self._file.seek(bytes_.begin)
        self._left, self._separator, self._rest = bytes_.end - bytes_.begin, separator, b""
        self.items: list[bytes] = []
        self.fill()

    def fill(self) -> None:
        """Reads the next block where no item is left."""
        while not self.items and (self._left or self._rest):
            data = self._rest + self._file.read(min(_BLOCK, self._left))
            self._left -= len(data) - len(self._rest)
            self.items = data.split(self._separator)
            self._rest = self.items.pop() if self._left else b""
            if self.items and not self.items[-1] and not self._left:
                self.items.pop()

    def close(self) -> None:
        """Closes the file."""
        self._file.close()


def merged(parts: Sequence[Bytes], separator: bytes) -> Iterator[list[bytes]]:
    """The items of all parts, each of which ascends, ascending: block by block. At most a block of each is held, so a
    long list of parts is merged in steps.
    """
    runs: list[_Run] = []
    try:
        for part in parts:
            runs.append(_Run(part, separator))
        live = [run for run in runs if run.items]
        while live:
            bound = min(run.items[-1] for run in live)
            block: list[bytes] = []
            for run in live:
                count = bisect_right(run.items, bound)
                block += run.items[:count]
                del run.items[:count]
                run.fill()
            block.sort()
            yield block
            live = [run for run in live if run.items]
    finally:
        for run in runs:
            run.close()


def stepped(parts: Sequence[Bytes], separator: bytes, room: Room) -> list[Bytes]:
    """The same items in few enough files: too many are merged into some of this folder."""
    step = 0
    while len(parts) > MOST_OPEN:
        step, files = step + 1, []
        for at in range(0, len(parts), MOST_OPEN):
            path = room.file(f"merged-{separator.hex()}-{step}-{at}")
            with open(path, "wb") as file:
                first = True
                for block in merged(parts[at : at + MOST_OPEN], separator):
                    file.write((b"" if first else separator) + separator.join(block))
                    first = False
            room.take()
            files.append(Bytes(str(path), 0, path.stat().st_size))
        parts = files
    return list(parts)


def _ascending(last: bytes, block: Sequence[bytes], reports: Sequence[Report]) -> bytes:
    """The last id of a block of lines. One that is there twice, or stands behind a greater one, is refused."""
    ids = [line.partition(b" ")[0] for line in block]
    if ids[0] <= last or len(set(ids)) < len(ids):
        twice = ids[0] if ids[0] <= last else next(id for id, other in zip(ids, ids[1:]) if id == other)
        raise Unreplayed(
            UNREAD,
            f"{_last_with(twice, reports)}: it isn't of this log, or another report isn't: "
            f"instance {twice.decode(errors='backslashreplace')} is there twice, or in the wrong place",
        )
    return ids[-1]


def _last_with(name: bytes, reports: Sequence[Report]) -> str:
    for report in reversed(reports):
        for block in merged([report.lines], b"\n"):
            if any(line.partition(b" ")[0] == name for line in block):
                return report.lines.path
    return "a report"


def write(reports: Sequence[Report], restarts: int, is_saved: bool, room: Room, out: BinaryIO) -> None:
    """Writes the report of the whole. Each part has all restarts in it, which are counted once. If merging many reports
    needs more than the room may have, nothing is written.
    """
    lines = stepped([report.lines for report in reports], b"\n", room)
    members = stepped([report.members for report in reports], b"},", room) if is_saved else []
    last = b""
    for block in merged(lines, b"\n"):
        last = _ascending(last, block, reports)
        out.write(b"\n".join(block) + b"\n")
    applied = sum(report.applied for report in reports) - restarts * (len(reports) - 1)
    out.write(b"applied %d\nskipped %d\n" % (applied, sum(report.skipped for report in reports)))
    if is_saved:
        out.write(_RECORD)
        separator = b""
        for block in merged(members, b"},"):
            out.write(separator + b"},".join(block))
            separator = b"},"
        out.write((b"}" if separator else b"") + _RECORD_END + b"\n")
    out.flush()
