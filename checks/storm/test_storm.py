"""Broker and platform agree at the end of a storm, and every record is true while it shows."""
from __future__ import annotations

import json
import os
import re
import shutil
import subprocess
from pathlib import Path

import commands
import pytest
from storm.build import TOP, build

pytestmark = [pytest.mark.alone, pytest.mark.slow, pytest.mark.usefixtures("packages")]

_LONGEST = 1800.0  # seconds for a storm, and for the audit of its journals
_DIFFERS = re.compile(r"^\d+ instances?, [0-9,]+ events, [1-9]\d* differences?", re.MULTILINE)
_AUDITED = re.compile(r"^(\d+) instances, [0-9,]+ events, 0 differences$", re.MULTILINE)


@pytest.fixture(scope="session")
def programs(packages: object, tmp_path_factory: pytest.TempPathFactory) -> list[str]:
    """The options that name both programs, built with their crash points and with what a storm changes in them."""
    folder = tmp_path_factory.mktemp("programs")
    return [
        word for name in ("broker", "platform") for word in (f"--{name}-program", str(build(f"osb-{name}", folder)))
    ]


def run(line: list[str], **variables: str) -> subprocess.CompletedProcess[str]:
    return commands.ran(line, environment={**os.environ, **variables}, seconds=_LONGEST)


def storming(storm: Path, replay: Path, programs: list[str], folder: Path, *arguments: str, unjudged: str = "0") -> str:
    """Run a storm, which succeeds, and return what osb-audit prints about its journals. It judges each instance to its
    end, except for so many percent. pytest shows the storm's seed and counts if it fails; `osb-storm both --seed`
    repeats the faults.
    """
    line = [str(storm), "both", *programs, *arguments, "--journal", str(folder)]
    print(" ".join(line))
    ran = run(line)
    print(ran.stdout[-20_000:], ran.stderr)
    assert ran.returncode == 0
    journals = str(folder / "broker"), str(folder / "platform")
    audited = run([str(TOP / "osb-audit"), "--unjudged", unjudged, *journals], OSB_REPLAY=str(replay))
    assert audited.returncode in (0, 1), audited.stdout + audited.stderr
    return audited.stdout


def assert_audited(audit: str) -> None:
    found = _AUDITED.search(audit)
    assert found is not None and int(found[1]) > 50, audit


@pytest.mark.long(90)
@pytest.mark.xdist_group("storm over files")
def test_over_files(storm: Path, replay: Path, programs: list[str], tmp_path: Path) -> None:
    """A minute over SQLite and folders, or longer, until each crash point was visited and each fault met a request."""
    counts = "--seconds", "60", "--instances", "200", "--workers", "2"
    assert_audited(storming(storm, replay, programs, tmp_path, *counts, "--crash-points"))


@pytest.mark.long(90)
@pytest.mark.xdist_group("storm over PostgreSQL")
@pytest.mark.postgres
def test_over_postgresql(storm: Path, replay: Path, programs: list[str], tmp_path: Path) -> None:
    """Half a minute or longer of three workers, and three brokers behind HAProxy. PostgreSQL is the store and the
    backend. Sessions end at random, and the server is killed once and paused once.
    """
    if not (shutil.which("initdb") or list(Path("/usr/lib/postgresql").glob("*/bin/initdb"))):
        pytest.skip("PostgreSQL isn't installed (Debian: apt-get install postgresql)")
    commands.needs("haproxy", path="/usr/sbin:/usr/local/sbin:/usr/bin")
    stores = "--store", "postgresql", "--backend", "postgresql", "--brokers", "3", "--haproxy", "--kill-database", "1"
    counts = "--seconds", "30", "--instances", "100", "--workers", "3", "--crash-points=some"
    assert_audited(storming(storm, replay, programs, tmp_path, *counts, *stores))


@pytest.mark.long(70)
@pytest.mark.xdist_group("storm without pending work")
def test_without_pending_work(storm: Path, replay: Path, programs: list[str], tmp_path: Path) -> None:
    """A storm of half a minute finds what a broker leaves behind that writes down its work only once it is done. The
    journals differ from the model.
    """
    counts = "--seconds", "30", "--instances", "150", "--settle-seconds", "20", "--crash-points=some"
    audit = storming(storm, replay, programs, tmp_path, *counts, "--without", "work")
    assert _DIFFERS.search(audit), audit


@pytest.mark.whole
@pytest.mark.long(40)
@pytest.mark.xdist_group("storm that is shrunk")
@pytest.mark.parametrize("part", ["available", "held", "busy", "platform", "both"])
def test_without_a_part(storm: Path, replay: Path, programs: list[str], tmp_path: Path, part: str) -> None:
    """A storm finds what a program leaves behind without a rule, or as it is usually written. The journals differ from
    the model.
    """
    counts = "--seconds", "15", "--instances", "100", "--settle-seconds", "20", "--crash-points=some", "--without", part
    audit = storming(storm, replay, programs, tmp_path, *counts, unjudged="100")
    assert _DIFFERS.search(audit), audit


@pytest.mark.long(60)
@pytest.mark.xdist_group("storm that is shrunk")
def test_minimize(storm: Path, replay: Path, programs: list[str], tmp_path: Path) -> None:
    """The list of faults is shrunk to the one that leaves an instance at a broker without tombstones. This fault leaves
    one again in a calm storm. The journals differ from the model.
    """
    given, shortest, report = tmp_path / "given", tmp_path / "shortest", tmp_path / "report"
    given.write_text("2.1 answer-late\n3.1 request-late\n3.2 answer-slow\n4.1 request-late\n4.2 answer-slow\n")
    times = "--seconds", "4", "--request-seconds", "1", "--late-seconds", "15", "--seed", "1", "--instances", "8"
    words = *times, "--without", "tombstones", "--json", str(report)
    shrinks = "--minimize", "--faults", str(given), "--faults-to", str(shortest)
    assert _DIFFERS.search(storming(storm, replay, programs, tmp_path / "first", *words, *shrinks))
    found = re.fullmatch(r"([34])\.1 request-late\n", shortest.read_text())
    assert found is not None, shortest.read_text()
    what = json.loads(report.read_text())
    assert what["minimal_fault_list"] == [found[0].strip()] and "is killed" not in json.dumps(
        what["minimal_lost"]
    ), what
    again = "--calm", "--faults", str(shortest)
    assert _DIFFERS.search(storming(storm, replay, programs, tmp_path / "again", *words, *again))
    what = json.loads(report.read_text())
    assert [finding["number"] for finding in what["lost"]] == [found[1]] and what["fault_list"] == [
        found[0].strip()
    ], what
    assert (what["programs"]["broker_kills"], what["programs"]["platform_pauses"]) == (0, 0)
