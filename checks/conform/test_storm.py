"""`osb-storm broker` as a user runs it: its reports, its statuses, and what is left at the broker."""
from __future__ import annotations

import json
import re
import signal
import subprocess
import time
from pathlib import Path

import commands
import pytest
from conform.auditing import audited
from conform.login import ENVIRONMENT, WITH_SIGNALS
from conform.small_broker import SmallBroker
from conform.twice_broker import TwiceBroker
from ports import free_address
from waiting import until

pytestmark = pytest.mark.slow

SHORT = (
    *("--seconds", "4", "--instances", "20", "--fault-percent", "50", "--late-seconds", "0.8"),
    *("--request-seconds", "0.4", "--poll-seconds", "0.1", "--seed", "1"),
)


def command(storm: Path, url: str, *arguments: str) -> list[str]:
    return [str(storm), "broker", "--url", url, *SHORT, *arguments]


def begun(line: list[str], stderr: int | None = None) -> subprocess.Popen[str]:
    """Starts a storm whose output the test reads."""
    return commands.begun(line, ENVIRONMENT, stderr)


def ran(line: list[str]) -> subprocess.CompletedProcess[str]:
    return commands.ran(line, environment=ENVIRONMENT)


def test_broker_loses_nothing(storm: Path, served: str, replay: Path, tmp_path: Path) -> None:
    """osb-broker loses nothing, whether it creates at once or by a worker. Each request of both storms is in a journal,
    and the journals of both sides are as the model and the tables of updates say.
    """
    listed = f"ls {tmp_path / 'state' / 'instances'}"
    files = "--json", str(tmp_path / "json"), "--journal", str(tmp_path / "journals")
    for plan in ("at-once", "by-worker"):
        done = ran(command(storm, served, "--service", "folder", "--plan", plan, "--list-command", listed, *files))
        assert done.returncode == 0, done.stdout + done.stderr
        report = json.loads((tmp_path / "json").read_text())
        assert (report["lost"], report["false_records"], report["broken"], report["leftovers"]) == ([], [], [], [])
        assert report["converged"] and report["instances"] == 20 and report["bindings"] > 0 and report["requests"] > 40
        assert report["updates"] > 0
        assert f"Each id begins with {report['prefix']}. The seed is 1.\n" in done.stdout
    audit = audited(tmp_path / "journals", replay)
    assert audit["instances"] == 40 and audit["events"] > 400, audit
    assert not any("no journal" in note for note in audit["notes"]), audit


def settings_of(state: Path) -> str:
    """A command that prints the settings of the folders that were updated."""
    return f'cd {state}/instances/.settings && for id in *-*; do echo "$id $(cat "$id")"; done'


@pytest.mark.parametrize("without", [(), ("--without", "numbers")], ids=["numbers", "no numbers"])
def test_settings(storm: Path, served: str, tmp_path: Path, without: tuple[str, ...]) -> None:
    """Under faults, folders have the settings that osb-broker has reported. A command that prints others is found."""
    listed = "--list-command", f"ls {tmp_path / 'state' / 'instances'}"
    settings = settings_of(tmp_path / "state")
    wrong = f"({settings}) | sed '/^[0-9a-f]*-0000-/!s/.$/-/'"  # not of the instance that is tried without faults
    for text, status in (settings, 0), (wrong, 1):
        arguments = *listed, "--settings-command", text, "--json", str(tmp_path / "json"), *without
        done = ran(command(storm, served, "--service", "folder", "--plan", "by-worker", *arguments))
        assert done.returncode == status, done.stdout + done.stderr
        report = json.loads((tmp_path / "json").read_text())
        assert (report["lost"], report["false_records"], report["false_settings"]) == ([], [], [])
        assert report["updates"] > 5 and report["notes"] == []
        assert (report["half_updated"] != []) == (status == 1)
    assert re.search("^HALF UPDATED: instance .* has plan .*, which nobody has asked for$", done.stdout, re.MULTILINE)


def test_lost(storm: Path, tmp_path: Path) -> None:
    """What a broker creates twice is found, is in all reports, and is lost again with the shortest list of faults."""
    broker = TwiceBroker(tmp_path / "instances")
    with broker.running():
        arguments = "--list-command", broker.list_command, "--faults-to", str(tmp_path / "faults")
        files = "--json", str(tmp_path / "json"), "--html", str(tmp_path / "html"), "--minimize"
        done = ran(command(storm, broker.url, *arguments, *files))
        assert done.returncode == 1, done.stdout + done.stderr
        report = json.loads((tmp_path / "json").read_text())
        lost = re.findall(r"^LOST: instance (\d+) \((.*?)\): .*it exists twice", done.stdout, re.MULTILINE)
        assert lost == [(finding["number"], finding["instance"]) for finding in report["lost"]] != []
        assert [rule["name"] for rule in report["broken"]] == ["provision-repeated"]
        assert all(id in (tmp_path / "html").read_text() for _, id in lost)
        shortest = (tmp_path / "faults").read_text()
        assert re.fullmatch(r"\d+\.\d+ repeated\S*\n", shortest)
        assert report["minimal_fault_list"] == [shortest.strip()]
        again = ran(command(storm, broker.url, *arguments[:2], "--faults", str(tmp_path / "faults")))
        assert again.returncode == 1 and "1 lost, " in again.stdout
        assert list((tmp_path / "instances").iterdir()) == []


@pytest.mark.parametrize("number", [signal.SIGINT, signal.SIGTERM, signal.SIGHUP])
def test_signal(storm: Path, number: int) -> None:
    """After a signal, everything that exists is deleted."""
    with SmallBroker().running() as small:
        line = [*WITH_SIGNALS, *command(storm, small.url, "--seconds", "20", "--answer-seconds", "1")]
        with begun(line) as process:
            until(lambda: len(small.instances) >= 3)
            process.send_signal(number)
            text, _ = process.communicate(timeout=60)
        assert process.returncode == 1
        assert "the run was ended before\n" in text
        assert small.instances == set()


def test_signal_and_unanswered_creations(storm: Path) -> None:
    """After a signal, what exists is deleted long before the last moment at which an unanswered creation may arrive.
    The program says until when it waits, and a second signal ends that.
    """
    with SmallBroker().running() as small:
        line = command(storm, small.url, "--seconds", "20", "--answer-seconds", "120", "--fault-percent", "100")
        with begun(line, subprocess.PIPE) as process:
            until(lambda: len(small.instances) >= 5)
            process.send_signal(signal.SIGINT)
            until(lambda: not small.instances)
            assert process.stderr is not None
            waits = process.stderr.readline()
            process.send_signal(signal.SIGINT)
            text, _ = process.communicate(timeout=120)
    assert re.match(r"osb-storm: \d+ of \d+ .* are deleted\. Creations that weren't answered: [1-9]", waits), waits
    assert waits.endswith(" A second SIGINT or SIGTERM ends the deletions.\n"), waits
    assert process.returncode == 3
    assert set(re.findall("^not deleted: .*: (.*)", text, re.M)) == {"a creation that wasn't answered may still arrive"}


def test_closed_terminal(storm: Path) -> None:
    """A terminal that is closed sends SIGHUP more than once, and nobody reads the output any more. Everything is
    deleted all the same.
    """
    with SmallBroker(seconds=0.1).running() as small:
        line = [*WITH_SIGNALS, *command(storm, small.url, "--seconds", "20", "--answer-seconds", "1")]
        with begun(line, subprocess.PIPE) as process:
            assert process.stdout is not None and process.stderr is not None
            until(lambda: len(small.instances) >= 3)
            process.stdout.close()
            process.stderr.close()
            for _ in range(3):
                process.send_signal(signal.SIGHUP)
                time.sleep(0.2)
            process.wait(60)
        assert process.returncode == 1
        assert small.instances == set()


def test_nohup(storm: Path) -> None:
    """With nohup, the storm goes on after SIGHUP."""
    with SmallBroker().running() as small:
        line = ["nohup", *command(storm, small.url, "--seconds", "1", "--instances", "5")]
        with begun(line, subprocess.DEVNULL) as process:
            until(lambda: len(small.instances) >= 2)
            process.send_signal(signal.SIGHUP)
            text, _ = process.communicate(timeout=60)
        assert "the run was ended before\n" not in text and "converged" in text, text
        assert small.instances == set()


def test_hanging_command(storm: Path) -> None:
    """Two signals end the program although a command of the user's hangs, and a child of it keeps its output open."""
    with SmallBroker().running() as small:
        line = command(storm, small.url, "--list-command", "sleep 1000 | cat")
        with begun(line) as process:
            until(lambda: len(small.instances) == 1)
            for _ in range(2):
                process.send_signal(signal.SIGTERM)
                time.sleep(0.5)
            text, _ = process.communicate(timeout=120)
        assert process.returncode == 3
        assert [f"not deleted: instance {id}: the time for deletions was over\n" in text for id in small.instances] == [
            True
        ]


def test_endless_list(storm: Path) -> None:
    """A command that prints too much is killed before the storm, and the error says what it must print."""
    with SmallBroker().running() as small:
        done = ran(command(storm, small.url, "--list-command", "head -c 70000000 /dev/zero; sleep 1000"))
        assert (done.returncode, done.stderr.count("\n")) == (78, 1), done.stderr
        assert "the command of --list-command has failed: it printed more than " in done.stderr, done.stderr
        assert small.instances == set()


def test_leftovers(storm: Path) -> None:
    """What can't be deleted is listed with its id, and the status says so. Nothing is tried with faults then."""
    with SmallBroker(delete=500).running() as small:
        done = ran(command(storm, small.url))
        listed = re.findall(r"^not deleted: instance (.*?): the deletion was answered with 500", done.stdout, re.M)
        assert (done.returncode, set(listed)) == (3, small.instances) and len(listed) == 1


@pytest.mark.long(12)
def test_statuses(storm: Path, tmp_path: Path) -> None:
    unused = f"http://{free_address()}"
    done = ran(command(storm, unused))
    assert (done.returncode, "osb-storm: the broker can't be reached: " in done.stderr) == (69, True)
    (tmp_path / "faults").write_text("1.1 thunder\n")
    with SmallBroker().running() as small:
        for wrong in (
            ["--plan", "small"],
            ["--service", "things", "--plan", "big"],
            ["--instances", "1"],
            ["--faults", str(tmp_path / "faults")],
            ["--faults", str(tmp_path / "none")],
            ["--kill-command", "true"],
            ["--fault-percent", "101"],
            ["--journal", str(tmp_path / "faults")],
            ["--list-command", "ls /nonexistent"],
            ["--list-command", "true"],
            ["--without", "plans"],
        ):
            done = ran(command(storm, small.url, *wrong))
            status = 2 if wrong[0] in ("--instances", "--fault-percent", "--without") else 78
            assert (done.returncode, done.stderr.count("\n")) == (status, 1), (wrong, done.stderr)
        assert small.instances == set()
