"""The work directory of osb-replay-log: how much is in it, and that no more is put there than --room-limit allows."""
from __future__ import annotations

import gzip
import io
import stat
from pathlib import Path
from typing import Callable

import pytest
from osb_replay_log import reports, spool
from osb_replay_log.faults import UNWRITTEN, Unreplayed
from osb_replay_log.logs import from_paths, stretches
from osb_replay_log.parting import Parting, part
from osb_replay_log.parts import Bucket, finish
from osb_replay_log.program import Program
from osb_replay_log.spool import Room

ID = b"00000000-0000-0000-0000-0000000000"
CHUNK = 1 << 16


def size(room: Path) -> int:
    return sum(path.stat().st_size for path in room.rglob("*") if path.is_file())


def is_full(done: Callable[[], object]) -> None:
    """It ends with the error that names the option."""
    with pytest.raises(Unreplayed, match="--room-limit allows") as raised:
        done()
    assert raised.value.status == UNWRITTEN


def test_all_files_count(tmp_path: Path) -> None:
    """Those of folders in it do too."""
    (tmp_path / "folder").mkdir()
    (tmp_path / "a").write_bytes(b"a" * 10)
    (tmp_path / "folder" / "b").write_bytes(b"b" * 20)
    room = Room(str(tmp_path), 40)
    room.take(10)
    is_full(lambda: room.take(11))
    Room(str(tmp_path)).take(1 << 60)


def test_a_spool_file_that_does_not_fit(tmp_path: Path) -> None:
    """It isn't written."""
    room = Room(str(tmp_path), 2000)
    spool.write(room, room.piece(0, 0), [[b"x" * 1000], []])
    before = {path.name: path.stat().st_size for path in tmp_path.iterdir()}
    is_full(lambda: spool.write(room, room.piece(0, 1), [[b"x" * 1000], []]))
    assert {path.name: path.stat().st_size for path in tmp_path.iterdir()} == before


@pytest.mark.parametrize("limit", [100_000, 1_000_000])
def test_gzip_that_becomes_very_long(tmp_path: Path, limit: int) -> None:
    """Its worker stops at the limit, long before it has read the 40 MB."""
    log, folder = tmp_path / "log.gz", tmp_path / "room"
    log.write_bytes(gzip.compress((b"send " + ID + b"01" + b" " * 400 + b"\n") * 90_000))
    folder.mkdir()
    (found,) = stretches(from_paths([str(log)])[0], 0, CHUNK)
    is_full(lambda: part(Parting(Room(str(folder), limit), 0, found, 2, CHUNK, 100_000)))
    assert limit - 2 * CHUNK < size(folder) <= limit


def test_long_restarts(tmp_path: Path) -> None:
    """A restart is in every bucket, but not its blanks."""
    log, folder = tmp_path / "log", tmp_path / "room"
    log.write_bytes((b"restart" + b" " * 500 + b"\n") * 1000)
    folder.mkdir()
    (found,) = stretches(from_paths([str(log)])[0], 0, 1 << 20)
    parted = part(Parting(Room(str(folder)), 0, found, 50, 1 << 20, 100_000))
    assert (parted.restarts, parted.events) == (1000, 0)
    assert size(folder) < 1000 * 50 * len("restart\n") + 2000


def bucket(folder: Path, limit: int, most: int, text: str | None) -> Bucket:
    """One of ten instances with ten events each; osb-replay is a shell script of this text."""
    room = Room(str(folder))
    lines = [b"send " + ID + b"%02d" % (number % 10) for number in range(100)]
    spool.write(room, room.piece(0, 0), [lines])
    room.file("plans").write_bytes(b"")
    program = None
    if text is not None:
        path = folder.parent / "program"
        path.write_text(f"#!/bin/sh\n{text}\n", encoding="utf-8")
        path.chmod(path.stat().st_mode | stat.S_IXUSR)
        program = Program(str(path), ())
    return Bucket(Room(str(folder), limit), 0, (1,), 0, 0, most, True, program)


@pytest.mark.parametrize(
    ("most", "text"),
    [(100, "cat >&2; head -c 5000 /dev/zero"), (100, None), (20, None)],
    ids=["a report", "a part", "parts of a bucket that is split again"],
)
def test_what_does_not_fit_beside_the_spool(tmp_path: Path, most: int, text: str | None) -> None:
    folder = tmp_path / "room"
    folder.mkdir()
    its = bucket(folder, 5000, most, text)
    assert size(folder) < 5000
    is_full(lambda: finish(its))
    assert len(finish(its._replace(room=Room(str(folder), 50_000))).files) == 100 // most


def test_a_bucket_that_does_not_fit_twice(tmp_path: Path) -> None:
    """It isn't split again: no part of it is replayed."""
    folder = tmp_path / "room"
    folder.mkdir()
    is_full(lambda: finish(bucket(folder, 5000, 20, f"touch {tmp_path}/ran; cat >&2")))
    assert not (tmp_path / "ran").exists()


@pytest.mark.parametrize("has_record", [False, True])
def test_merging_that_does_not_fit(tmp_path: Path, has_record: bool) -> None:
    """No report is written, not even its beginning."""
    paths = [tmp_path / f"{number:03}" for number in range(450)]
    for path in paths:
        record = f'{{"instances":{{"{path.name}":{{"plan":"p"}}}},"version":2}}\n' if has_record else ""
        path.write_text(f"{path.name} ready none\napplied 1\nskipped 0\n{record}", encoding="utf-8")
    (tmp_path / "room").mkdir()
    found = [reports.report_in(str(file)) for file in paths]
    out = io.BytesIO()
    lines = 450 * len("000 ready none\n")
    limit = lines + 100 if has_record else lines - 100
    is_full(lambda: reports.write(found, 0, has_record, Room(str(tmp_path / "room"), limit), out))
    assert out.getvalue() == b""
