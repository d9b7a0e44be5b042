"""The files of the reports of osb-storm: a wrong name ends the program before the run, and no report is lost later."""
from __future__ import annotations

import base64
import json
import re
import subprocess
from pathlib import Path

import commands
import pytest
from conform.login import ENVIRONMENT
from conform.small_broker import SmallBroker
from conform.twice_broker import TwiceBroker
from ports import free_address

pytestmark = pytest.mark.slow

SHORT = "--instances", "20", "--poll-seconds", "0.1", "--seed", "1"
"""With this seed, six instances stay to the end."""
OPTIONS = ["--json", "--html", "--faults-to"]
"""Each names the file of a report."""
TIMES = {"--seconds": 2, "--request-seconds": 1, "--late-seconds": 1.5}
REPEATED = "".join(f"{instance}.1 repeated\n" for instance in range(1, 21))
"""The faults: each creation reaches the broker twice."""


def ran(*line: object, seconds: float = 120) -> subprocess.CompletedProcess[str]:
    return commands.ran(line, environment=ENVIRONMENT, seconds=seconds)


@pytest.mark.parametrize("command", ["conform", "broker", "platform", "both"])
def test_names_are_tried_first(storm: Path, tmp_path: Path, command: str) -> None:
    """Nothing is sent or waited for, the status is 78, and no other file is left or changed."""
    kept, new = tmp_path / "kept", tmp_path / "new"
    kept.write_text("before")
    with SmallBroker().running() as small:
        own: dict[str, list[str]] = {"platform": ["--listen", "127.0.0.1:0"], "both": []}
        arguments = own.get(command, ["--url", small.url])
        for option in ["--json"] if command == "conform" else OPTIONS:
            for wrong in tmp_path / "none" / "file", tmp_path:
                others = [other for other in OPTIONS if other != option and command != "conform"]
                files = [word for pair in zip(others, (kept, new)) for word in pair]
                done = ran(storm, command, *arguments, option, wrong, *files, seconds=20)
                assert (done.returncode, done.stderr.count("\n"), done.stdout) == (78, 1, ""), done.stderr
                assert f"the report can't be written: open {wrong}: " in done.stderr
                assert kept.read_text() == "before" and not new.exists()
        assert small.instances == set()


def test_failed_run_changes_no_report(storm: Path, tmp_path: Path) -> None:
    """If there is nothing to report, an earlier report stays, and no empty one is left."""
    unused = f"http://{free_address()}"
    kept, new = tmp_path / "kept", tmp_path / "new"
    kept.write_text("before")
    for command, files in ("broker", ["--json", kept, "--html", new]), ("conform", ["--json", kept]):
        assert ran(storm, command, "--url", unused, *files).returncode == 69
        assert kept.read_text() == "before" and not new.exists()


def of_twice_broker(storm: Path, folder: Path, files: dict[str, Path]) -> subprocess.CompletedProcess[str]:
    """A storm with these files of reports, each of which has something longer before, unless nothing can be written. If
    the machine is so busy that no instance is left, which would exist twice, the next storm has more time.
    """
    for slower in 1, 5, 25:
        instances = folder / f"instances{slower}"
        broker, faults = TwiceBroker(instances), instances.with_suffix(".faults")
        faults.write_text(REPEATED)
        for file in files.values():
            if file != Path("/dev/full"):
                file.write_text("x" * 1_000_000)
        with broker.running():
            times = [word for option, seconds in TIMES.items() for word in (option, seconds * slower)]
            options = [*times, *(word for pair in files.items() for word in pair)]
            found = ("--list-command", broker.list_command, "--faults", faults)
            done = ran(storm, "broker", "--url", broker.url, *SHORT, *found, *options, seconds=600)
        if "it exists twice" in done.stdout:
            break
    return done


@pytest.mark.long(20)
def test_all_reports_are_written(storm: Path, tmp_path: Path) -> None:
    """A full disk costs one report. The others are written over longer ones, and what was found decides the status."""
    for full in OPTIONS:
        files = {option: tmp_path / f"report{option}" for option in OPTIONS}
        files[full] = Path("/dev/full")
        (tmp_path / full).mkdir()
        done = of_twice_broker(storm, tmp_path / full, files)
        assert (done.returncode, done.stderr.count("\n")) == (1, 1), done.stdout + done.stderr
        assert done.stderr.startswith("osb-storm: the report can't be written: write /dev/full: "), done.stderr
        assert "it exists twice" in done.stdout
        if full != "--json":
            assert json.loads(files["--json"].read_text())["lost"]
        if full != "--html":
            assert files["--html"].read_text().rstrip().endswith("</html>")
        if full != "--faults-to":
            assert re.fullmatch(r"(\d+\.\d+ [a-z-]+\n)+", files["--faults-to"].read_text())


@pytest.mark.parametrize("command", ["conform", "broker"])
def test_no_password(storm: Path, tmp_path: Path, command: str) -> None:
    """Neither the reports nor the errors have the login, even if the broker repeats it and nothing can be deleted."""
    login = base64.b64encode(b"platform:secret").decode()
    files = ["--json", tmp_path / "json"]
    with SmallBroker(delete=500, talks=True).running() as small:
        done = ran(storm, command, "--url", small.url, "--poll-seconds", "0.01", *files)
    assert done.returncode == 3, done.stdout + done.stderr
    text = done.stdout + done.stderr + ((tmp_path / "json").read_text() if command == "conform" else "")
    assert "who is Basic (left out)" in done.stdout and login not in text and "secret" not in text, text


def test_nothing_found_and_no_report(storm: Path, served: str) -> None:
    """If nothing was found, a report that can't be written is an error."""
    decided = "--except", "async-bind-during-update"
    done = ran(storm, "conform", "--url", served, "--poll-seconds", "0.01", *decided, "--json", "/dev/full")
    assert (done.returncode, done.stderr.count("\n")) == (70, 1), done.stderr
