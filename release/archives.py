"""Archives whose bytes depend on their content and the time of the release alone."""

from __future__ import annotations

import gzip
import io
import tarfile
from typing import NamedTuple

NOBODY = 65534


class Entry(NamedTuple):
    """A file or a folder of an archive."""

    name: str
    content: bytes | None
    """None: it is a folder."""
    mode: int
    owner: int = 0


def tar(entries: list[Entry], epoch: int) -> bytes:
    """A tar of the entries, in this order, with this time. It owns no name of a user."""
    made = io.BytesIO()
    with tarfile.open(fileobj=made, mode="w", format=tarfile.GNU_FORMAT) as archive:
        for entry in entries:
            about = tarfile.TarInfo(entry.name)
            about.type = tarfile.DIRTYPE if entry.content is None else tarfile.REGTYPE
            about.mode, about.mtime, about.uid, about.gid = entry.mode, epoch, entry.owner, entry.owner
            about.size = len(entry.content or b"")
            archive.addfile(about, io.BytesIO(entry.content or b""))
    return made.getvalue()


def compressed(content: bytes) -> bytes:
    """The content in gzip, without a name or a time."""
    return gzip.compress(content, 9, mtime=0)
