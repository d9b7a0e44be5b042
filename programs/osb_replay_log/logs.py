"""The files of a log, plain or gzip: they are cut into stretches, and a stretch is read as pieces of whole lines."""
from __future__ import annotations

import gzip
import os
import stat
import zlib
from typing import BinaryIO, Iterable, Iterator, NamedTuple, Sequence, cast

from osb_replay_log.faults import unread
from osb_replay_log.lines import LONGEST, blocks

_GZIP = b"\x1f\x8b"
_MARGIN = 2 * LONGEST
"""The bytes that are read of a line that goes on behind its piece: enough for its end, or to see that it is too long.
"""
_FAILURES = (OSError, EOFError, zlib.error)
_FREE = 64 << 20
"""The bytes that a gzip file may hold in any case."""
_MOST_TIMES = 100
"""How many times its own size a gzip file may hold besides. Logs and journals hold 5 to 50 times theirs. A file that
was made to keep its reader busy holds 1,000 times.
"""


class Log(NamedTuple):
    """A file, as it was found."""

    path: str
    size: int
    is_gzip: bool


class Stretch(NamedTuple):
    """Bytes of a file in which lines begin. A gzip file has one, of what it holds, with no end."""

    log: Log
    begin: int
    end: int
    is_whole: bool
    """Whether a line begins at the first of them; else none is sure to begin before the first line feed."""


def found(path: str) -> Log:
    """The file of this name. What isn't a file is refused, since a log may be read twice, and by several."""
    try:
        with open(path, "rb", opener=lambda name, flags: os.open(name, flags | os.O_NONBLOCK)) as file:
            about = os.fstat(file.fileno())
            if not stat.S_ISREG(about.st_mode):
                raise unread(path, "it isn't a file")
            return Log(os.path.abspath(path), about.st_size, file.read(len(_GZIP)) == _GZIP)
    except OSError as error:
        raise unread(path, error) from error


def stretches(log: Log, begin: int, chunk: int) -> list[Stretch]:
    """The file's, from a line's beginning on."""
    if log.is_gzip:
        return [Stretch(log, begin, -1, True)]
    begins = list(range(begin, log.size, chunk))
    return [Stretch(log, at, end, at == begin) for at, end in zip(begins, [*begins[1:], log.size])]


def pieces(stretch: Stretch, chunk: int, margin: int = _MARGIN) -> Iterator[bytes]:
    """The lines that begin in the stretch, in pieces of about so many bytes. Of a line that is too long not all need
    be there, but so much that it is too long still: so many bytes are read behind a piece.
    """
    log = stretch.log
    try:
        if log.is_gzip:
            with open(log.path, "rb") as packed, gzip.open(packed, "rb") as file:
                file.seek(stretch.begin)
                yield from _streamed(_unpacked(packed, cast(BinaryIO, file), chunk), margin)
        else:
            with open(log.path, "rb") as plain:
                yield _cut(plain, stretch, margin)
    except _FAILURES as error:
        raise unread(log.path, error) from error


def _cut(file: BinaryIO, stretch: Stretch, margin: int) -> bytes:
    """The bytes of the lines that begin in a stretch of a plain file."""
    first = stretch.begin if stretch.is_whole else stretch.begin - 1
    data = _read(file, first, min(stretch.end + margin, stretch.log.size))
    start = 0 if stretch.is_whole else data.find(b"\n") + 1
    until = stretch.end - first
    if start >= until or (start == 0 and not stretch.is_whole):
        return b""
    end = data.find(b"\n", until - 1) + 1
    return data[start:end] if end else data[start:]


def _read(file: BinaryIO, begin: int, end: int) -> bytes:
    file.seek(begin)
    data = file.read(end - begin)
    if len(data) < end - begin:
        raise EOFError("it has become shorter meanwhile")
    return data


def lines_of(stretch: Stretch, chunk: int) -> Iterator[list[bytes]]:
    """The lines that begin in the stretch, some at a time."""
    return (lines for piece in pieces(stretch, chunk) for lines in blocks(piece))


def _unpacked(packed: BinaryIO, file: BinaryIO, chunk: int) -> Iterator[bytes]:
    """What a gzip file holds, piece by piece, as long as it isn't far more than a log has."""
    while data := file.read(chunk):
        if file.tell() > _FREE + _MOST_TIMES * packed.tell():
            why = f"it holds more than {_MOST_TIMES} times its own size, as no log does"
            raise EOFError(f"{why}. If it is one, decompress it first")
        yield data


def _streamed(read: Iterator[bytes], margin: int) -> Iterator[bytes]:
    """The lines of what is read, piece by piece. What is carried on from one to the next is short."""
    carried = b""
    for data in read:
        end = data.rfind(b"\n") + 1
        if end:
            yield carried + data[:end]
            carried = data[end:][:margin]
        elif len(carried) < margin:
            carried = (carried + data)[:margin]
    if carried:
        yield carried


class Position(NamedTuple):
    """Where a line stands: the file, and the line's number in it."""

    path: str
    line: int


class Numbered(NamedTuple):
    """A line of a log."""

    log: int
    line: int
    text: bytes


def numbered(logs: Sequence[Log], chunk: int) -> Iterator[Numbered]:
    """All lines, in their order: at most a piece of them is held."""
    for number, log in enumerate(logs):
        line = 0
        for stretch in stretches(log, 0, chunk):
            for lines in lines_of(stretch, chunk):
                for text in lines:
                    line += 1
                    yield Numbered(number, line, text)


def from_paths(paths: Iterable[str]) -> list[Log]:
    """The files of these names, in this order."""
    return [found(path) for path in paths]
