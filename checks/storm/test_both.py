"""`osb-storm both` as a user runs it: what it finds of both programs, and of a broker that goes wrong at its starts."""
from __future__ import annotations

import json
import os
import signal
import subprocess
import time
from pathlib import Path

import commands
import pytest
from conform.auditing import audited
from conform.login import WITH_SIGNALS
from waiting import until

pytestmark = pytest.mark.slow

SHORT = "--seconds", "12", "--settle-seconds", "60", "--instances", "60", "--late-seconds", "3", "--seed", "1"


def command(storm: Path, broker: Path, platform: Path, *arguments: object) -> list[str]:
    line = storm, "both", "--broker-program", broker, "--platform-program", platform, *arguments
    return [str(word) for word in line]


def both(storm: Path, broker: Path, platform: Path, *arguments: str) -> subprocess.CompletedProcess[str]:
    return commands.ran(command(storm, broker, platform, *SHORT, *arguments), seconds=400)


def script(path: Path, text: str) -> Path:
    """A program of the shell."""
    path.write_text(f"#!/bin/bash\n{text}\n")
    path.chmod(0o700)
    return path


# The folder of the instances, which is beside the file of the catalogue.
_STATE = 'while [ "$1" != --state ]; do words+=("$1"); shift; done; instances=$2/instances; words+=("$@")\n'


@pytest.mark.long(30)
def test_nothing_lost(storm: Path, broker: Path, platform: Path, replay: Path, tmp_path: Path) -> None:
    """Both programs lose nothing, though they are killed and paused. Their journals are as the model says."""
    journal = tmp_path / "journal"
    files = "--json", str(tmp_path / "json"), "--html", str(tmp_path / "html"), "--journal", str(journal)
    ran = both(storm, broker, platform, *files)
    assert ran.returncode == 0, ran.stdout + ran.stderr
    report = json.loads((tmp_path / "json").read_text())
    assert (report["lost"], report["false_records"], report["not_converged"], report["broken"]) == ([], [], [], [])
    assert report["converged"] and report["instances"] >= 60 and report["bindings"] > 0 and report["requests"] > 100
    programs = report["programs"]
    assert min(programs["broker_kills"], programs["platform_kills"]) >= 2 and programs["odd"] == []
    assert "Storm of osb-broker and osb-platform" in (tmp_path / "html").read_text()
    report = audited(journal, replay)
    assert report["instances"] > 30, report  # of one that was withdrawn, nothing happened


@pytest.mark.long(10)
def test_calm(storm: Path, broker: Path, platform: Path, replay: Path, tmp_path: Path) -> None:
    """A calm storm has faults, kills nothing, and ends without having tried everything. The journals are as the model
    says.
    """
    journal, short = tmp_path / "journal", ("--seconds", "6", "--instances", "20", "--late-seconds", "1")
    files = "--json", str(tmp_path / "json"), "--journal", str(journal)
    ran = both(storm, broker, platform, *short, "--request-seconds", "0.5", "--calm", *files)
    assert ran.returncode == 0, ran.stdout + ran.stderr
    report = json.loads((tmp_path / "json").read_text())
    assert report["instances"] >= 20 and report["bindings"] > 0 and len(report["fault_list"]) > 10, ran.stdout
    programs = report["programs"]
    kinds = "broker_kills", "platform_kills", "broker_pauses", "platform_pauses", "untried", "odd"
    assert not any(programs[kind] for kind in kinds), programs
    assert audited(journal, replay)["instances"] >= 20


# Storms with a planted fault. All three faults are in what starts the broker, and no program breaks a rule. So an audit
# finds no difference, and judges each instance to its end.


@pytest.mark.long(20)
def test_false_records(storm: Path, broker: Path, platform: Path, replay: Path, tmp_path: Path) -> None:
    """A broker that loses its instances when it is started again leaves false records.

    The audit can't see it: it knows a resource by what the calls of the backend return, and nothing calls the backend
    for a resource that is ready. The next deletion finds the resource absent, which the model allows while work is
    pending.
    """
    loses = script(tmp_path / "loses", f'{_STATE}rm -rf "$instances"/*-*\nexec {broker} "${{words[@]}}"')
    journal, files = tmp_path / "journal", ("--json", str(tmp_path / "json"), "--fault-percent", "0")
    ran = both(storm, loses, platform, *files, "--journal", str(journal))
    assert ran.returncode == 1, ran.stdout + ran.stderr
    report = json.loads((tmp_path / "json").read_text())
    assert len(report["false_records"]) > 0
    assert f"FALSE RECORD: instance {report['false_records'][0]['number']} (" in ran.stdout
    assert audited(journal, replay)["instances"] > 30


@pytest.mark.long(20)
def test_lost(storm: Path, broker: Path, platform: Path, replay: Path, tmp_path: Path) -> None:
    """A broker that has deleted instances back when it is started again leaves them to nobody.

    The audit can't see it: after the deletion, there is a tombstone, and nothing calls the backend any more.
    """
    saved = tmp_path / "saved"
    saved.mkdir()
    text = f'mkdir -p "$instances"\ncp -rn "$instances"/*-* {saved}\ncp -rn {saved}/*-* "$instances"'
    keeps = script(tmp_path / "keeps", f'{_STATE}{text}\nexec {broker} "${{words[@]}}" 2>/dev/null')
    journal, files = tmp_path / "journal", ("--json", str(tmp_path / "json"), "--fault-percent", "0")
    ran = both(storm, keeps, platform, *files, "--journal", str(journal))
    assert ran.returncode == 1, ran.stdout + ran.stderr
    report = json.loads((tmp_path / "json").read_text())
    assert any("it exists, and its record says" in finding["what"] for finding in report["lost"])
    assert audited(journal, replay)["instances"] > 30


@pytest.mark.long(20)
def test_odd_end(storm: Path, broker: Path, platform: Path, replay: Path, tmp_path: Path) -> None:
    """An end of a program that nobody had a hand in is reported.

    The audit can't see it: the broker that ends has no journal yet, and every process may end at any time.
    """
    count, journal = tmp_path / "count", tmp_path / "journal"
    ends = script(tmp_path / "ends", f'echo x >>{count}\n[ $(wc -l <{count}) = 3 ] && exit 9\nexec {broker} "$@"')
    ran = both(storm, ends, platform, "--journal", str(journal))
    assert ran.returncode == 1, ran.stdout + ran.stderr
    assert f"\nODD: broker: {ends} has ended by itself: exit status 9\n" in ran.stdout
    assert audited(journal, replay)["instances"] > 30


def broken_off(tmp_path: Path) -> tuple[Path, dict[str, str]]:
    """The folder of the journals, and the environment of a storm that has all other files in a folder of its own."""
    (tmp_path / "storm").mkdir()
    return tmp_path / "journal", {**os.environ, "TMPDIR": str(tmp_path / "storm")}


@pytest.mark.parametrize("number", [signal.SIGINT, signal.SIGHUP])
def test_signal(storm: Path, broker: Path, platform: Path, replay: Path, tmp_path: Path, number: int) -> None:
    """After a signal both programs end, and nothing is left. Their journals are as the model says."""
    journal, environment = broken_off(tmp_path)
    line = [*WITH_SIGNALS, *command(storm, broker, platform, "--journal", journal)]
    with subprocess.Popen(line, env=environment, stdout=subprocess.PIPE, text=True) as process:
        time.sleep(4)
        process.send_signal(number)
        text, _ = process.communicate(timeout=60)
    assert process.returncode == 1 and "the run was ended before\n" in text
    assert list((tmp_path / "storm").iterdir()) == []
    assert subprocess.run(["pgrep", "-f", str(tmp_path)]).returncode == 1
    assert audited(journal, replay)["instances"] > 0


def test_killed(storm: Path, broker: Path, platform: Path, replay: Path, tmp_path: Path) -> None:
    """If osb-storm is killed, both programs end with it. Their journals are as the model says."""
    journal, environment = broken_off(tmp_path)

    def runs() -> bool:
        return subprocess.run(["pgrep", "-f", str(tmp_path)], stdout=subprocess.DEVNULL).returncode == 0

    def has_arrived() -> bool:
        return any('"arrived"' in file.read_text() for file in journal.glob("broker/*.jsonl"))

    line = command(storm, broker, platform, "--journal", journal)
    with subprocess.Popen(line, env=environment, stdout=subprocess.DEVNULL) as process:
        until(has_arrived)
        process.kill()
    until(lambda: not runs())
    assert audited(journal, replay)["instances"] > 0


def test_statuses(storm: Path, broker: Path, platform: Path, tmp_path: Path) -> None:
    ran = both(storm, broker, platform, "--crash-points")
    assert (ran.returncode, "was built without the tag crashpoints" in ran.stderr) == (78, True)
    for programs in (
        (tmp_path / "none", platform),
        (broker, tmp_path),
        (script(tmp_path / "ends", "exit 3"), platform),
    ):
        assert both(storm, *programs).returncode == 78, programs
    for wrong in (
        ["--instances", "0"],
        ["--calm", "--unruly"],
        ["--fault-percent", "101"],
        ["--faults", str(tmp_path / "none")],
    ):
        status = 2 if wrong[0] in ("--instances", "--fault-percent") else 78
        assert both(storm, broker, platform, *wrong).returncode == status, wrong
