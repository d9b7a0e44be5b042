"""The pictures of traces that tools/picture draws.

Those of docs/pictures/ are drawn again, and what is no trace is rejected.
"""

from __future__ import annotations

import subprocess
from pathlib import Path

import pytest
from network_replay import reference, schedules
from replay.running import EXAMPLES, TOP, Ran, run
from replay.worked import ONE, TWO

PICTURE = TOP / "tools" / "picture"
DRAWN = {"unanswered.svg", "crash.svg", "expired-polling.svg"}
NETWORK = EXAMPLES / "network" / "late-provision.schedule"
NETWORK_HEADER = f"{reference.HEADER}\n"
HELD = "applied\tnone\t-\t-\tnone\t-\t-\tabsent\t-\t-\t0\t-"
HEADER = "line\tevent\tstep\tplatform\tbroker\tout\tanswer\n"
SEND = f"1\tsend {ONE}\tunknown\tnone\tnone\t-\t-"
NOTHING = "nothing happens to an instance in this trace"
NO_TRACES = [
    ("", "line 1 isn't the header of a trace"),
    (HEADER, NOTHING),
    (f"{HEADER}1\trestart\tapplied, 0 changed\tnone\tnone\t-\t-\n", NOTHING),
    (f"{HEADER}1\trestart\tapplied\n", "line 2 is no line of a trace"),
    (f"{HEADER}1\tsend </title><script>\tunknown\tnone\tnone\t-\t-\n", "line 2 is no line of a trace"),
    (f"{HEADER}1\trestart\tapplied, 0 changed\t-\t-\t-\t-\n", "line 2 says nothing of an instance"),
    (f"{HEADER}{SEND}", "the last line doesn't end"),
    (f"{HEADER}{SEND}\n{SEND.replace(ONE, TWO)}\n", "the trace tells of 2 instances"),
    (NETWORK_HEADER, "the trace tells of 0 instances"),
    (f"{NETWORK_HEADER}1\tsend {ONE}\t{HELD}", "the last line doesn't end"),
    (f"{NETWORK_HEADER}1\tsend {ONE}\tapplied\n", "line 2 is no line of a trace"),
    (f"{NETWORK_HEADER}1\tsend {ONE}/<script>\t{HELD}\n", "line 2 is no line of a trace"),
    (f"{NETWORK_HEADER}1\tsend {ONE}\t{HELD}\n2\tsend {TWO}\t{HELD}\n", "the trace tells of 2 instances"),
]


@pytest.mark.parametrize("name", sorted(DRAWN))
def test_picture_of_the_documents(replay: Path, name: str) -> None:
    schedule = (EXAMPLES / name).with_suffix(".schedule")
    traced = run(replay, "trace", "--instance", ONE, given=schedule.read_bytes())
    assert run(PICTURE, given=traced.out) == Ran(0, (TOP / "docs" / "pictures" / name).read_text(), "")


def test_picture_of_a_network(replay: Path) -> None:
    """The picture of docs/audit.md, from the trace that the program writes."""
    traced = run(replay, "network", "--trace", "--instance", ONE, given=NETWORK.read_bytes())
    assert traced == Ran(*reference.trace(NETWORK.read_bytes(), ONE))
    assert run(PICTURE, given=traced.out) == Ran(0, (TOP / "docs" / "pictures" / "late-provision.svg").read_text(), "")


@pytest.mark.slow
def test_picture_of_each_event() -> None:
    """Each event of an instance and of a binding is drawn, applied or skipped."""
    for seed in range(12):
        traced = reference.trace(schedules.schedule(seed))[1]
        for instance in {line.split(" ")[1].split("/")[0].split("\t")[0] for line in traced.splitlines()[1:]}:
            one = reference.trace(schedules.schedule(seed), instance.lower())[1]
            ran = run(PICTURE, given=one)
            assert (ran.status, ran.err) == (0, ""), (seed, instance)
            events = [line.split("\t") for line in one.splitlines()[1:]]
            assert ran.out.count('class="skipped"') == 1 + sum(event[2] == "skipped" for event in events)
            assert ran.out.count('class="number"') == len(events)


@pytest.mark.parametrize(("text", "why"), NO_TRACES)
def test_no_trace(text: str, why: str) -> None:
    ran = run(PICTURE, given=text)
    assert (ran.status, ran.out) == (1, "")
    assert ran.err.startswith(f"picture: {why}")


@pytest.mark.parametrize("how", ["<&-", ">&-", ">/dev/full"])
def test_what_cannot_be_read_or_written(how: str) -> None:
    text = f"{HEADER}{SEND}\n".encode()
    ran = subprocess.run(["sh", "-c", f'"$0" {how}', PICTURE], input=text, capture_output=True, check=False)
    assert ran.returncode == 1
    assert ran.stderr.startswith(b"picture: ") and b"Traceback" not in ran.stderr
