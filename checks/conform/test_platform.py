"""`osb-storm platform` as a user runs it: what it finds of osb-platform, and of a platform that forgets."""
from __future__ import annotations

import json
import re
import signal
import subprocess
import sys
from collections.abc import Iterator
from contextlib import contextmanager
from pathlib import Path

import commands
import pytest
from audit.running import Platform
from conform.auditing import audited
from conform.forgetful import Forgetful
from conform.login import ENVIRONMENT, WITH_SIGNALS
from waiting import until

pytestmark = pytest.mark.slow

SHORT = "--seconds", "4", "--request-seconds", "1", "--late-seconds", "1.5", "--operation-seconds", "0.5"
TOP = Path(__file__).resolve().parents[2]


@contextmanager
def storming(storm: Path, *arguments: str, **environment: str) -> Iterator[tuple[subprocess.Popen[str], int]]:
    """The program, and the port at which its broker listens. It is ended in the end, if it runs then."""
    line = [*WITH_SIGNALS, str(storm), "platform", "--listen", "127.0.0.1:0", *SHORT, *arguments]
    with commands.begun(line, {**ENVIRONMENT, **environment}) as process:
        try:
            assert process.stdout is not None
            first = process.stdout.readline()
            found = re.match(r"The broker listens at http://127\.0\.0\.1:(\d+) for the user platform\. ", first)
            assert found is not None, first
            yield process, int(found[1])
        finally:
            if process.poll() is None:
                process.terminate()  # it deletes its folder


@pytest.mark.long(15)
def test_platform_abandons_nothing(storm: Path, platform: Path, replay: Path, tmp_path: Path) -> None:
    """osb-platform abandons nothing, has nothing in vain, and breaks no rule. The journals of both sides are as the
    model says. The faults end two seconds after the last order, however long a busy machine takes for all of them.
    """
    journals, orders = tmp_path / "journals", ("create", "--service", "osb-storm", "--plan")
    store, key = tmp_path / "platform.sqlite", tmp_path / "platform.key"
    listed = f"{platform} --store {store} --key-file {key} list --state ready"
    words = "--list-command", f"{listed} | cut -f1", "--json", str(tmp_path / "json"), "--journal", str(journals)
    ordered = "--order-command", f"until [ -e {tmp_path}/ordered ]; do sleep 0.1; done; sleep 2", "--seconds", "150"
    with storming(storm, *words, *ordered, "--seed", "2") as (process, port):
        ours = Platform(platform, tmp_path, f"127.0.0.1:{port}", journals="journals/platform")
        with ours.working("--seconds", "1"):
            until(lambda: ours.run(*orders, "at-once") == 0)  # it has asked for the catalogue
            for plan in ("at-once", "by-worker", "bindings-by-worker") * 5:
                assert ours.run(*orders, plan) == 0
            until(lambda: len(ours.ids("--state", "ready")) >= 3, 60)
            for id in ours.ids("--state", "ready")[:3]:
                ours.run("bind", id)
            for id in ours.ids()[::2]:
                ours.run("remove", id, "--bindings")
            (tmp_path / "ordered").touch()
            text, errors = process.communicate(timeout=150)
    report = json.loads((tmp_path / "json").read_text())
    assert process.returncode == 0, text + errors
    assert (report["abandoned"], report["false_records"], report["broken"]) == ([], [], [])
    assert report["instances"] >= 16 and report["requests"] > 30 and len(report["fault_list"]) > 5
    assert report["settled"]
    audit = audited(journals, replay)
    assert audit["instances"] >= 16 and audit["events"] > 150 and "no journal" not in str(audit["notes"]), audit


def test_forgetful_platform(storm: Path, tmp_path: Path) -> None:
    """What a platform forgets is found, and is in all reports. The same list of faults has it found again."""
    (tmp_path / "faults").write_text("2.1 answer-lost\n4.1 request-lost\n")
    files = "--faults", str(tmp_path / "faults"), "--json", str(tmp_path / "json"), "--html", str(tmp_path / "html")
    lists = "--list-command", f"cat {tmp_path / 'list'}", "--faults-to", str(tmp_path / "again")
    for _ in range(2):
        with storming(storm, *files, *lists, "--settle-seconds", "1", "--seconds", "1") as (process, port):
            forgetful = Forgetful(port)
            has = [f"mine-{n}" for n in range(1, 6) if forgetful.create(f"mine-{n}")]
            assert has == ["mine-1", "mine-3", "mine-5"]
            (tmp_path / "list").write_text("".join(f"{id}\n" for id in has))
            text, errors = process.communicate(timeout=60)
        assert process.returncode == 1, text + errors
        report = json.loads((tmp_path / "json").read_text())
        assert re.findall(r"^ABANDONED: instance (\d+) \((.*?)\): it exists", text, re.M) == [("2", "mine-2")]
        assert [(finding["number"], finding["instance"]) for finding in report["abandoned"]] == [("2", "mine-2")]
        assert [(rule["name"], rule["number"], rule["count"], rule["numbers"]) for rule in report["broken"]] == [
            ("mitigates-provision", "2.1", 2, ["2.1", "4.1"])
        ]
        assert "mine-2" in (tmp_path / "html").read_text()
        assert (tmp_path / "again").read_text() == "2.1 answer-lost\n4.1 request-lost\n"


def ordering(count: int, folder: Path) -> tuple[str, ...]:
    """The order command of a forgetful platform that creates some instances, and the command that lists what it has."""
    orders = f"PYTHONPATH={TOP / 'checks'} {sys.executable} -m conform.forgetful {count} {folder / 'list'}"
    return "--order-command", orders, "--list-command", f"cat {folder / 'list'}"


def test_minimize(storm: Path, tmp_path: Path) -> None:
    """The list of faults is shrunk to the one that has the platform forget. With this list, an instance is abandoned
    again.
    """
    given, shortest = tmp_path / "faults", tmp_path / "shortest"
    given.write_text("1.1 answer-slow\n2.1 answer-lost\n3.1 request-lost\n4.1 request-slow\n")
    orders = *ordering(4, tmp_path), "--settle-seconds", "0.5", "--late-seconds", "0.2", "--seconds", "30"
    files = "--faults-to", str(shortest), "--json", str(tmp_path / "json"), "--html", str(tmp_path / "html")
    done = ran(storm, *orders, "--faults", str(given), *files, "--minimize")
    assert (done.returncode, done.stderr) == (1, ""), done.stdout + done.stderr
    report = json.loads((tmp_path / "json").read_text())
    assert [finding["number"] for finding in report["abandoned"] + report["minimal_lost"]] == ["2", "2"]
    assert report["minimal_fault_list"] == ["2.1 answer-lost"]
    assert shortest.read_text() == "2.1 answer-lost\n"
    found = f"\nThe shortest list of faults that still loses one ({report['minimize_runs']} runs):\n  2.1 answer-lost\n"
    assert (
        found in done.stdout and "The shortest list of faults that still loses one" in (tmp_path / "html").read_text()
    )
    again = ran(storm, *orders, "--faults", str(shortest))
    assert again.returncode == 1 and "\n1 abandoned, 0 false records, " in again.stdout, again.stdout + again.stderr
    given.write_text("1.1 answer-slow\n")
    done = ran(storm, *orders, "--faults", str(given), *files, "--minimize")
    assert done.returncode == 0 and "minimize_runs" not in json.loads((tmp_path / "json").read_text()), done.stdout


@pytest.mark.parametrize("number", [signal.SIGINT, signal.SIGTERM, signal.SIGHUP])
def test_signal_ends_the_orders(storm: Path, tmp_path: Path, number: int) -> None:
    """After a signal, the order command is killed with its children, and that is no failure."""
    name, orders, *lists = ordering(1, tmp_path)
    orders = f"{orders}; sleep 1000 & echo $! >{tmp_path / 'new'}; mv {tmp_path / 'new'} {tmp_path / 'pid'}; wait"
    with storming(storm, "--fault-percent", "0", "--seconds", "60", name, orders, *lists) as (process, _):
        until((tmp_path / "pid").exists)
        child = Path("/proc") / (tmp_path / "pid").read_text().strip() / "stat"
        until(lambda: " (sleep) " in child.read_text())
        process.send_signal(number)
        text, errors = process.communicate(timeout=120)
    assert (process.returncode, errors) == (1, "") and "the run was ended before\n" in text, text + errors
    until(lambda: not child.exists() or " (sleep) Z " in child.read_text())


def test_must(storm: Path) -> None:
    """A request that breaks a MUST changes the status. What exists is listed."""
    with storming(storm, "--fault-percent", "0", "--seconds", "1") as (process, port):
        assert not Forgetful(port, version="").create("mine")
        text, _ = process.communicate(timeout=60)
    assert process.returncode == 1
    assert "BREAKS THE STANDARD: version-header (MUST, section API Version Header), 1 request" in text
    with storming(storm, "--fault-percent", "0", "--seconds", "1") as (process, port):
        assert Forgetful(port).create("mine")
        text, _ = process.communicate(timeout=60)
    assert process.returncode == 0
    assert "EXISTS" in text and "instance 1 (mine): The platform's last request: 1.1 (PUT) got status 201" in text


@pytest.mark.parametrize("number", [signal.SIGINT, signal.SIGTERM, signal.SIGHUP])
def test_signal(storm: Path, tmp_path: Path, number: int) -> None:
    """After a signal the run ends, and nothing of the broker is left."""
    with storming(storm, "--fault-percent", "0", "--seconds", "60", TMPDIR=str(tmp_path)) as (process, port):
        assert Forgetful(port).create("mine")
        assert len(list(tmp_path.iterdir())) == 1
        process.send_signal(number)
        text, _ = process.communicate(timeout=120)
    assert process.returncode == 1 and "the run was ended before\n" in text
    assert list(tmp_path.iterdir()) == []


def ran(storm: Path, *arguments: str) -> subprocess.CompletedProcess[str]:
    return commands.ran([storm, "platform", "--listen", "127.0.0.1:0", *SHORT, *arguments], environment=ENVIRONMENT)


def test_statuses(storm: Path, tmp_path: Path) -> None:
    (tmp_path / "faults").write_text("1.1 restart-after\n")
    done = ran(storm, "--wait-seconds", "0.1")
    assert (done.returncode, "no request about an instance came within 100ms\n" in done.stdout) == (1, True)
    done = ran(storm, "--wait-seconds", "0.1", "--list-command", "exit 3")
    assert (done.returncode, "exit status 3" in done.stderr) == (70, True)
    for orders, status, errors in (
        ("echo one", 1, "osb-storm: the last lines that the order command has printed:\n  one\n"),
        (
            "echo one; echo two >&2; exit 3",
            70,
            "osb-storm: the last lines that the order command has printed:\n  one\n  two\n"
            "osb-storm: the order command has failed: exit status 3\n",
        ),
    ):
        done = ran(storm, "--order-command", orders)
        assert (done.returncode, done.stderr) == (status, errors), done.stderr
        assert "no request about an instance came until the order command ended\n" in done.stdout
    with storming(storm) as (_, port):
        assert ran(storm, "--listen", f"127.0.0.1:{port}").returncode == 78
    for wrong in (
        ["--faults", str(tmp_path / "faults")],
        ["--faults", str(tmp_path / "none")],
        ["--journal", str(tmp_path / "faults")],
        ["--list-bindings-command", "true"],
        ["--minimize"],
        ["--fault-percent", "101"],
        ["--user", "a:b"],
    ):
        done = ran(storm, *wrong)
        status = 2 if wrong[0] == "--fault-percent" else 78
        assert (done.returncode, done.stderr.count("\n")) == (status, 1), (wrong, done.stderr)
