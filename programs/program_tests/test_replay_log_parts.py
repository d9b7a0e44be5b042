"""What checks/replay_log can't see of osb-replay-log: memory for long lines, files that change, ends of the program."""
from __future__ import annotations

import gzip
import io
import random
import stat
from pathlib import Path
from typing import Callable

import pytest
from osb_replay_log import reports
from osb_replay_log.faults import Unreplayed
from osb_replay_log.logs import from_paths, lines_of, stretches
from osb_replay_log.parts import Faulty
from osb_replay_log.positions import first_fault
from osb_replay_log.program import Fault, Program
from osb_replay_log.spool import Room

pytestmark = pytest.mark.slow

ID = b"00000000-0000-0000-0000-00000000000a"
COUNTS = "applied 5\nskipped 2\n"


@pytest.fixture
def file(tmp_path: Path) -> Callable[[bytes], str]:
    """Writes a log, and returns its path."""

    def write(data: bytes) -> str:
        path = tmp_path / "log"
        path.write_bytes(data)
        return str(path)

    return write


def read(path: str, chunk: int) -> list[bytes]:
    (log,) = from_paths([path])
    return [line for stretch in stretches(log, 0, chunk) for lines in lines_of(stretch, chunk) for line in lines]


@pytest.mark.parametrize("pack", [bytes, gzip.compress])
@pytest.mark.parametrize("size", [513, 1024, 1025, 5000, 70_000])
def test_long_lines(file: Callable[[bytes], str], pack: Callable[[bytes], bytes], size: int) -> None:
    """Of a line that is too long so much is kept that it is too long; and the others are as they were."""
    path = file(pack(b"one\n" + b"x" * size + b"\ntwo\nthree"))
    for chunk in (1, 3, 500, 4096):
        lines = read(path, chunk)
        assert (lines[0], lines[2:], lines[1].strip(b"x")) == (b"one", [b"two", b"three"], b"")
        assert 512 < len(lines[1]) <= max(chunk + 1024, 1024)


def test_several_members(file: Callable[[bytes], str]) -> None:
    """Gzip files that were joined are one."""
    assert read(file(gzip.compress(b"a\nb") + gzip.compress(b"c\nd\n")), 100) == [b"a", b"bc", b"d"]


def test_a_log_that_changes(file: Callable[[bytes], str]) -> None:
    (log,) = from_paths([file(b"send\n" * 100)])
    path = file(b"send " + ID + b"\n")
    with pytest.raises(Unreplayed, match="it has become shorter"):
        list(lines_of(stretches(log, 0, 1000)[0], 1000))
    assert "has changed" in first_fault(from_paths([path]), [Faulty(ID, 2, "X")], str, 10).said


# ---- the program


def program(folder: Path, text: str) -> Program:
    path = folder / "program"
    path.write_text(f"#!/bin/sh\n{text}\n", encoding="utf-8")
    path.chmod(path.stat().st_mode | stat.S_IXUSR)
    return Program(str(path), ())


def test_ends(tmp_path: Path) -> None:
    """How the program ends is told apart; one that is killed is given the part again, for a while."""
    report, given = tmp_path / "report", [b"x\n" * 100_000] * 20
    faulty = program(tmp_path, "echo osb-replay: line 7: BadId >&2; exit 1")
    assert faulty.run(given, report) == Fault(7, "BadId")
    for text, status in (
        ("exit 3", 3),
        ("exit 4", 4),
        ("exit 5", 5),
        ("exit 1", 70),
        ("kill -9 $$", 70),
        ("echo osb-replay: line 7 >&2; exit 1", 70),
        ("exit 127", 70),
    ):
        with pytest.raises(Unreplayed) as raised:
            program(tmp_path, text).run(given, report)
        assert raised.value.status == status, text
    again = f"cd {tmp_path}; mkdir 1 2>/dev/null && kill -9 $$; mkdir 2 2>/dev/null && kill -9 $$; wc -l"
    assert program(tmp_path, again).run(given, report) is None
    assert report.read_text(encoding="utf-8").split() == ["2000000"]


# ---- reports


def report_of(path: Path, rows: dict[str, str], has_record: bool, counts: str = COUNTS) -> str:
    text = "".join(f"{name} {state} none\n" for name, state in sorted(rows.items())) + counts
    if has_record:
        members = (f'"{name}":{{"plan":"p","service":"s","state":"{state}"}}' for name, state in sorted(rows.items()))
        text += f'{{"instances":{{{",".join(members)}}},"version":2}}\n'
    path.write_text(text, encoding="utf-8")
    return str(path)


@pytest.mark.parametrize("has_record", [False, True])
def test_many_reports_are_merged_in_steps(tmp_path: Path, has_record: bool) -> None:
    """What comes out is what one report of all would be."""
    chance = random.Random(1)
    rows = {f"{chance.getrandbits(64):016x}": chance.choice(("ready", "cleaning-polling")) for _ in range(2000)}
    parts: list[dict[str, str]] = [{} for _ in range(450)]
    for name, state in rows.items():
        parts[chance.randrange(450)][name] = state
    paths = [report_of(tmp_path / str(at), part, has_record) for at, part in enumerate(parts)]
    out = io.BytesIO()
    reports.write([reports.report_in(path) for path in paths], 3, has_record, Room(str(tmp_path)), out)
    counts = f"applied {5 * 450 - 3 * 449}\nskipped {2 * 450}\n"
    assert out.getvalue() == Path(report_of(tmp_path / "whole", rows, has_record, counts)).read_bytes()


@pytest.mark.parametrize("has_record", [False, True])
def test_a_report_that_is_cut(tmp_path: Path, has_record: bool) -> None:
    """What is not all of a report is refused, wherever it is cut but before the saved record."""
    whole = Path(report_of(tmp_path / "whole", {"a": "ready", "b": "gone"}, has_record)).read_bytes()
    cut = tmp_path / "cut"
    for size in {*range(len(whole))} - {whole.find(b"{")}:
        cut.write_bytes(whole[:size])
        with pytest.raises(Unreplayed, match="isn't a complete report"):
            reports.report_in(str(cut))
