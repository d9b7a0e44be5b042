"""The spool: a file for each piece of a log, in which its lines stand by buckets, and those of each in their order."""
from __future__ import annotations

import contextlib
import os
import tempfile
from pathlib import Path
from struct import Struct
from typing import Iterator, NamedTuple, Sequence

from osb_replay_log.faults import UNWRITTEN, Unreplayed

_ENTRY = Struct("<QQ")
"""Of each bucket, and of what follows the last one: where it begins, and the count of its lines."""


class Room(NamedTuple):
    """The folder in which workers leave what others go on with. A file has its name only once it is whole."""

    folder: str
    limit: int | None = None
    """How many bytes its files may have together."""

    def piece(self, stretch: int, piece: int) -> Path:
        """The spool file of a piece."""
        return Path(self.folder, f"piece-{stretch:08}-{piece:06}")

    def file(self, name: str) -> Path:
        """Another file, as a report."""
        return Path(self.folder, name)

    def begin(self) -> Path:
        """A new file, for what isn't whole yet: whoever does a thing again has another one."""
        handle, path = tempfile.mkstemp(prefix="new-", dir=self.folder)
        os.close(handle)
        return Path(path)

    def take(self, more: int = 0) -> None:
        """Raises `Unreplayed` if the files, and so many bytes more, are more than there may be."""
        if self.limit is not None and sum(_sizes(self.folder).values()) + more > self.limit:
            raise Unreplayed(
                UNWRITTEN,
                f"{self.folder}: the work directory needs more than the {self.limit:,} bytes that --room-limit allows. "
                "It was removed. Pass a larger limit, or leave the option out",
            )


def _sizes(folder: str) -> dict[int, int]:
    """The sizes of all files below the folder, each once even if a worker renames it meanwhile."""
    found: dict[int, int] = {}
    with contextlib.suppress(FileNotFoundError), os.scandir(folder) as entries:
        for entry in entries:
            with contextlib.suppress(FileNotFoundError):
                if entry.is_dir(follow_symlinks=False):
                    found.update(_sizes(entry.path))
                else:
                    found[entry.inode()] = entry.stat(follow_symlinks=False).st_size
    return found


def write(room: Room, path: Path, buckets: Sequence[list[bytes]]) -> None:
    """Writes the spool file of a piece."""
    texts = [b"".join((b"\n".join(lines), b"\n")) if lines else b"" for lines in buckets]
    offset, entries = _ENTRY.size * (len(buckets) + 1), []
    for lines, text in zip(buckets, texts):
        entries.append(_ENTRY.pack(offset, len(lines)))
        offset += len(text)
    entries.append(_ENTRY.pack(offset, 0))
    room.take(offset)
    new = room.begin()
    with open(new, "wb") as file:
        file.writelines(entries)
        file.writelines(texts)
    os.replace(new, path)


class Share(NamedTuple):
    """A bucket's part of one piece."""

    path: Path
    offset: int
    size: int
    lines: int

    def read(self) -> bytes:
        """Its lines, each with its line feed."""
        with open(self.path, "rb") as file:
            file.seek(self.offset)
            return file.read(self.size)


def shares(room: Room, pieces: Sequence[int], bucket: int) -> Iterator[Share]:
    """A bucket's parts of all pieces, in their order. `pieces`: how many each stretch has."""
    for stretch, count in enumerate(pieces):
        for piece in range(count):
            path = room.piece(stretch, piece)
            with open(path, "rb", buffering=0) as file:
                read = os.pread(file.fileno(), 2 * _ENTRY.size, bucket * _ENTRY.size)
            (begin, lines), (end, _) = _ENTRY.iter_unpack(read)
            yield Share(path, begin, end - begin, lines)
