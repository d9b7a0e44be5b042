"""Compares what `osb-replay trace` writes with a reference in Python, replay/reference.py.

OSB_EXAMPLES=10 compares ten times as many schedules, drawn at random (checks/generated.py).
"""

from __future__ import annotations

import os
import select
import subprocess
import time
from pathlib import Path
from typing import IO

import pytest
from generated import examples
from hypothesis import given
from hypothesis import strategies as st
from replay.reference import HEADER, trace
from replay.running import EXAMPLES, Ran, run
from replay.schedules import instance, schedules
from replay.worked import ONE, worked

pytestmark = pytest.mark.slow

SCHEDULES = {path.name: path.read_bytes() for path in sorted(EXAMPLES.glob("*.schedule"))} | {
    case.name: case.schedule for case in worked()
}


def expected(schedule: bytes, one: str | None = None, settle: bool = False) -> str:
    return "".join(f"{line}\n" for line in trace(schedule, one, settle))


def compare(program: Path, schedule: bytes, one: str | None, settle: bool) -> None:
    options = [*(["--instance", one] if one else []), *(["--settle"] if settle else [])]
    assert run(program, "trace", *options, given=schedule) == Ran(0, expected(schedule, one, settle), "")


@pytest.mark.parametrize("settle", [False, True], ids=["", "settled"])
@pytest.mark.parametrize("one", [None, ONE], ids=["all", "one"])
@pytest.mark.parametrize("schedule", SCHEDULES.values(), ids=SCHEDULES)
def test_schedule(replay: Path, schedule: bytes, one: str | None, settle: bool) -> None:
    compare(replay, schedule, one, settle)


@examples(2500)
@given(schedule=schedules(), number=st.sampled_from([None, 1, 2, 3, 4]), settle=st.booleans())
def test_any_schedule(replay: Path, schedule: bytes, number: int | None, settle: bool) -> None:
    compare(replay, schedule, None if number is None else instance(number), settle)


# ---- when it writes


def next_lines(out: IO[bytes], count: int) -> list[str]:
    """The next lines of the pipe. Fails if they aren't there within a minute."""
    until, found = time.monotonic() + 60, b""
    while found.count(b"\n") < count:
        ready, _, _ = select.select([out], [], [], max(0.0, until - time.monotonic()))
        piece = os.read(out.fileno(), 4096) if ready else b""
        assert piece, f"{found!r} are no {count} lines"
        found += piece
    return found.decode().splitlines()


def test_each_line_is_written_before_the_next_is_read(replay: Path) -> None:
    with subprocess.Popen(
        [replay, "trace"], stdin=subprocess.PIPE, stdout=subprocess.PIPE, stderr=subprocess.PIPE, bufsize=0
    ) as process:
        assert process.stdin and process.stdout and process.stderr
        process.stdin.write(f"timeout {ONE}\n".encode())
        assert next_lines(process.stdout, 2) == [HEADER, f"1\ttimeout {ONE}\tunknown\tnone\tnone\t-\t-"]
        process.stdin.write(b"restart\n")
        assert next_lines(process.stdout, 1) == ["2\trestart\tapplied, 0 changed\t-\t-\t-\t-"]
        process.stdin.close()
        assert (process.stdout.read(), process.stderr.read()) == (b"", b"")
        assert process.wait(60) == 0


def test_the_lines_before_a_fault_stay(replay: Path) -> None:
    schedule = (EXAMPLES / "crash.schedule").read_bytes()
    line = schedule.count(b"\n") + 1
    told = run(replay, "trace", given=schedule + b"answer 1\nrestart\n")
    assert told == Ran(1, expected(schedule), f"osb-replay: line {line}: BadId\n")


@pytest.mark.parametrize(
    ("last", "told", "fault"),
    [
        (f"send {ONE}", f"2\tsend {ONE}\tunknown\tnone\tnone\t-\t-\n", None),
        ("# an end", "", None),
        (" \t", "", None),
        ("send 1", "", "line 2: BadId"),
    ],
    ids=["event", "comment", "blanks", "fault"],
)
def test_last_line_without_a_line_feed(replay: Path, last: str, told: str, fault: str | None) -> None:
    """The last line counts as any other does, also if no line feed ends it."""
    head = f"{HEADER}\n1\trestart\tapplied, 0 changed\t-\t-\t-\t-\n"
    ends = (1, f"osb-replay: {fault}\n") if fault else (0, "")
    assert run(replay, "trace", given=f"restart\n{last}") == Ran(ends[0], head + told, ends[1])


def test_id_in_capitals(replay: Path) -> None:
    one = "00000000-0000-0000-0000-00000000000A"
    told = run(replay, "trace", "--instance", one, given=f"send {one}\n")
    assert told == Ran(0, f"{HEADER}\n1\tsend {one}\tunknown\tnone\tnone\t-\t-\n", "")


def test_a_reader_that_goes_away(replay: Path, tmp_path: Path) -> None:
    (tmp_path / "in").write_text(f"send {ONE}\n" * 5000)
    with open(tmp_path / "in", "rb") as given, subprocess.Popen(
        [replay, "trace"], stdin=given, stdout=subprocess.PIPE, stderr=subprocess.PIPE
    ) as process:
        assert process.stdout and process.stderr
        assert os.read(process.stdout.fileno(), 1)
        process.stdout.close()
        assert process.stderr.read() == b"osb-replay: write failed\n"
        assert process.wait(60) == 4
