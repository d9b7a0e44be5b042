"""What `osb-replay network` does with an example: the trace of one instance, and what it can't read or write."""

from __future__ import annotations

from pathlib import Path

from replay.running import EXAMPLES, Ran, fault, run
from replay.worked import ONE

TWO = "00000000-0000-0000-0000-000000000002"
NETWORK = EXAMPLES / "network"
LOST_BIND = (NETWORK / "lost-bind.schedule").read_text()


def test_trace_of_an_instance(replay: Path) -> None:
    """An instance's trace has its events and its bindings', and no others."""
    trace = (NETWORK / "lost-bind.trace").read_text()
    header = trace.splitlines()[0]
    given = f"{LOST_BIND}send {TWO}\n"
    assert run(replay, "network", "--trace", "--instance", ONE, given=given) == Ran(0, trace, "")
    number = len(given.splitlines())
    other = f"{number}\tsend {TWO}\tskipped\tnone\t-\t-\tnone\t-\t-\tabsent\t-\t-\t0\t-"
    expected = Ran(0, f"{header}\n{other}\n", "")
    assert run(replay, "network", "--trace", "--instance", TWO, given=given) == expected


def test_too_many_lines(replay: Path) -> None:
    assert run(replay, "network", given="\n" * 100_000) == Ran(0, "applied 0\nskipped 0\n", "")
    assert run(replay, "network", given="\n" * 100_001) == fault(100_001, "TooManyLines")


def test_failed_read(replay: Path) -> None:
    """A folder can't be read."""
    ran = run(Path("/bin/sh"), "-c", 'exec "$0" network </', str(replay))
    assert ran == Ran(3, "", "osb-replay: read failed\n")


def test_failed_write(replay: Path) -> None:
    ran = run(Path("/bin/sh"), "-c", 'exec "$0" network >/dev/full', str(replay), given=LOST_BIND)
    assert ran == Ran(4, "", "osb-replay: write failed\n")
