"""Input, output, standard error and memory that fail, and how much memory an input takes."""

from __future__ import annotations

import subprocess
from collections.abc import Callable
from pathlib import Path

import pytest
from replay.running import EXAMPLES, SECONDS, Ran, run
from replay.worked import ONE, SERVICE, SYNC, report

NO_MEMORY = Ran(5, "", "osb-replay: out of memory\n")
HEADER = "line\tevent\tstep\tplatform\tbroker\tout\tanswer\n"
NOTHING = report([], 0, 0)
COMMENTS = (b"#" * 512 + b"\n") * 100_000
SKIPPED = f"send {ONE}\n" * 100_000
CREATES = "".join(f"create 00000000-0000-0000-0000-{number:012} {SERVICE} {SYNC} no\n" for number in range(100_000))


def shell(program: Path, line: str) -> Ran:
    """Runs a line of bash in the folder of the examples. $0 is the program."""
    ran = subprocess.run(["bash", "-c", line, program], cwd=EXAMPLES, capture_output=True, check=False, timeout=SECONDS)
    return Ran(ran.returncode, ran.stdout.decode(), ran.stderr.decode())


# ---- input and output


@pytest.mark.parametrize("given", ["<.", "<&-"], ids=["folder", "closed"])
def test_input(replay: Path, given: str) -> None:
    assert shell(replay, f"$0 replay {given}") == Ran(3, "", "osb-replay: read failed\n")


OUTPUTS = {"full": "$0 {} >/dev/full", "closed": "$0 {} >&-", "nobody reads": "exec 3> >(:); wait $!; $0 {} >&3"}


@pytest.mark.parametrize("arguments", ["replay <first.schedule", "table", "--help", "replay --help"])
@pytest.mark.parametrize("line", OUTPUTS.values(), ids=OUTPUTS)
def test_output(replay: Path, line: str, arguments: str) -> None:
    """What can't be written is reported, whatever it is."""
    assert shell(replay, line.format(arguments)) == Ran(4, "", "osb-replay: write failed\n")


# ---- memory


def run_limited(program: Path, kilobytes: int, *arguments: str, given: bytes | str = b"") -> Ran:
    """Runs the program with so much address space. Its C library asks the system for no more than is wanted."""
    command = ["MALLOC_TOP_PAD_=0", "prlimit", f"--as={kilobytes * 1024}", str(program), *arguments]
    return run(Path("/usr/bin/env"), *command, given=given)


def least(fits: Callable[[int], bool]) -> int:
    """The least memory, to a page, in which this fits, and 64 kilobytes more."""
    small, limit = 0, 1 << 20
    while limit - small > 4:
        middle = (small + limit) // 8 * 4
        small, limit = (small, middle) if fits(middle) else (middle, limit)
    return limit + 64


@pytest.fixture(scope="module")
def little(replay: Path) -> int:
    """The memory in which an input without a byte is replayed, and little more."""
    return least(lambda kilobytes: run_limited(replay, kilobytes, "replay").out == NOTHING)


def test_memory_of_comments(replay: Path, little: int) -> None:
    assert run_limited(replay, little, "replay", given=COMMENTS) == Ran(0, NOTHING, "")


def test_memory_of_skipped_events(replay: Path, little: int) -> None:
    assert run_limited(replay, little, "replay", given=SKIPPED) == Ran(0, report([], 0, 100_000), "")


def test_memory_of_a_trace(replay: Path) -> None:
    enough = least(lambda kilobytes: run_limited(replay, kilobytes, "trace").out == HEADER)
    told = HEADER + "".join(f"{line}\tsend {ONE}\tunknown\tnone\tnone\t-\t-\n" for line in range(1, 100_001))
    assert run_limited(replay, enough, "trace", given=SKIPPED) == Ran(0, told, "")


def test_memory_of_many_instances(replay: Path, little: int) -> None:
    assert run_limited(replay, little, "replay", given=CREATES) == NO_MEMORY


def test_memory_of_arguments(replay: Path) -> None:
    """In the least memory in which the program starts at all, it can't have a copy of its long arguments."""
    arguments = ["replay", *["a" * 100_000] * 16]
    for limit in range(1280, 1 << 20, 256):
        ran = run_limited(replay, limit, *arguments)
        if 0 <= ran.status < 6:
            assert ran == NO_MEMORY
            return
    pytest.fail("the program starts with no memory that was tried")


# ---- standard error

FAILING = {
    1: "$0 replay <<<bogus",
    2: "$0 bogus",
    3: "$0 replay <.",
    4: "$0 replay <first.schedule >/dev/full",
    5: "MALLOC_TOP_PAD_=0 prlimit --as={bytes} $0 replay <{creates}",
}


@pytest.mark.parametrize("status", FAILING)
@pytest.mark.parametrize("error", ["2>/dev/full", "2>&-"], ids=["full", "closed"])
def test_standard_error(replay: Path, little: int, tmp_path: Path, status: int, error: str) -> None:
    """The status is the same if its line can't be written, and nothing is on standard output."""
    creates = tmp_path / "creates"
    creates.write_text(CREATES)
    line = FAILING[status].format(bytes=little * 1024, creates=creates)
    assert shell(replay, f"{line} {error}") == Ran(status, "", "")
