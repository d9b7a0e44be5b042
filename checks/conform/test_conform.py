"""`osb-storm conform` as a user runs it: its report, its statuses, and what is left at the broker."""
from __future__ import annotations

import json
import re
import signal
import subprocess
from pathlib import Path

import commands
import pytest
from conform.login import ENVIRONMENT, WITH_SIGNALS
from conform.small_broker import SmallBroker
from ports import free_address
from waiting import until

pytestmark = pytest.mark.slow

# What docs/DECISIONS.md has a reason for: "A Bind is answered with 503 if its instance isn't available".
DECIDED = "async-bind-during-provision", "async-bind-during-update"


def conform(storm: Path, url: str, *arguments: str) -> subprocess.CompletedProcess[str]:
    return commands.ran([storm, "conform", "--url", url, "--poll-seconds", "0.01", *arguments], environment=ENVIRONMENT)


def excepted(*names: str) -> list[str]:
    return [argument for name in names for argument in ("--except", name)]


def test_broker_passes(storm: Path, served: str, tmp_path: Path) -> None:
    """The first bindable plan; all MUSTs pass. The table and the JSON have the same verdicts."""
    ran = conform(storm, served, *excepted(DECIDED[1]), "--json", str(tmp_path / "report.json"))
    assert ran.returncode == 0, ran.stdout + ran.stderr
    report = json.loads((tmp_path / "report.json").read_text())
    table = re.findall(r"^(pass|FAIL|not run) +(MUST|SHOULD|MAY) +(\S+)  ", ran.stdout, re.MULTILINE)
    assert table == [(case["verdict"], case["level"], case["name"]) for case in report["results"]]
    assert ("pass", "MUST", "bind-new") in table and ("pass", "MUST", "update-plan") in table
    assert report["plan"] == "at-once" and report["leftovers"] == []
    assert f"Each id begins with {report['prefix']}.\n" in ran.stdout


def test_decided_deviation(storm: Path, served: str) -> None:
    """The asynchronous plan fails a MUST about the Bind, or two. With --except they don't change the status."""
    arguments = "--service", "folder", "--plan", "by-worker"
    ran = conform(storm, served, *arguments)
    failed = re.findall(r"^FAIL +MUST +(\S+)", ran.stdout, re.MULTILINE)
    assert ran.returncode == 1 and DECIDED[0] in failed
    assert set(failed) <= set(DECIDED)
    assert conform(storm, served, *arguments, *excepted(*DECIDED)).returncode == 0


@pytest.mark.parametrize("number", [signal.SIGINT, signal.SIGTERM, signal.SIGHUP])
def test_signal(storm: Path, number: int) -> None:
    """After a signal no further case is tried, and everything that exists is deleted."""
    with SmallBroker(seconds=0.03).running() as small:
        line = [*WITH_SIGNALS, str(storm), "conform", "--url", small.url, "--poll-seconds", "0.01"]
        with subprocess.Popen(line, env=ENVIRONMENT, stdout=subprocess.PIPE, text=True) as process:
            until(lambda: len(small.instances) >= 3)
            process.send_signal(number)
            text, _ = process.communicate(timeout=120)
        assert process.returncode == 1
        assert "not every case was tried: the run was ended before\n" in text
        assert small.instances == set()


def test_leftovers(storm: Path) -> None:
    """What can't be deleted is listed with its id, and the status says so."""
    with SmallBroker(delete=500).running() as small:
        ran = conform(storm, small.url)
        listed = set(re.findall(r"^not deleted: instance (.*?): the deletion was answered with 500", ran.stdout, re.M))
        assert ran.returncode == 3
        plain = {id for id in small.instances if "%" not in id}
        assert plain and plain <= listed


def test_statuses(storm: Path) -> None:
    unused = f"http://{free_address()}"
    ran = conform(storm, unused)
    assert (ran.returncode, "osb-storm: the broker can't be reached: " in ran.stderr) == (69, True)
    with SmallBroker().running() as small:
        assert conform(storm, small.url).returncode == 1
        for wrong in (
            ["--plan", "small"],
            ["--service", "things", "--plan", "big"],
            ["--except", "x"],
            ["--instances", "0"],
        ):
            ran = conform(storm, small.url, *wrong)
            status = 2 if wrong[0] == "--instances" else 78
            assert (ran.returncode, ran.stderr.count("\n")) == (status, 1), wrong
        assert small.instances == set()
