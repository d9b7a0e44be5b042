"""What `make packages` installs, as whom, and how it ends; and that what is asked for beside it waits."""

from __future__ import annotations

import os
import shutil
import subprocess
from pathlib import Path

import pytest
from commands import ran

TOP = Path(__file__).resolve().parents[2]

pytestmark = pytest.mark.slow

FAILED = "E: Failed to fetch http://deb/wrk"


class Machine:
    """A folder with the Makefile and its list of packages. Scripts stand for Debian's tools and for the tests."""

    def __init__(self, top: Path) -> None:
        self.top = top
        self._calls = top / "calls"
        (top / "scripts").mkdir()
        for name in ("Makefile", "scripts/packages", "scripts/python.sh"):
            shutil.copy2(TOP / name, top / name)
        (top / "packages.txt").write_text("# What is used:\nmake wrk  # both\ng++ libc6-dev # not only C\n")
        self.script("check", f'echo check "$@" >>{self._calls}')
        self.script("bin/id", "echo 0")
        self.script("bin/sudo", f'echo sudo >>{self._calls}; exec "$@"')
        self.script("bin/dpkg-query", "echo installed make; echo config-files wrk; echo installed g++")
        self.apt_get()

    def script(self, name: str, text: str) -> None:
        path = self.top / name
        path.parent.mkdir(exist_ok=True)
        path.write_text(f"#!/bin/sh\n{text}\n")
        path.chmod(0o755)

    def apt_get(self, update: str = "exit 0", install: str = "exit 0") -> None:
        """An apt-get that does this. It notes that it ended."""
        calls = f'echo "$@" >>{self._calls}'
        self.script("bin/apt-get", f'sleep 0.2; {calls}; [ "$1" != update ] || {{ {update}; }}; {install}')

    def make(self, *goals: str) -> subprocess.CompletedProcess[str]:
        environment = {**os.environ, "PATH": f"{self.top}/bin:{os.environ['PATH']}"}
        for name in ("MAKEFLAGS", "MFLAGS"):
            environment.pop(name, None)
        return ran(["make", *goals], self.top, environment, seconds=100)

    def calls(self) -> list[str]:
        return self._calls.read_text().splitlines() if self._calls.exists() else []


@pytest.fixture
def machine(tmp_path: Path) -> Machine:
    return Machine(tmp_path)


INSTALLS = ["update -q", "install -y --no-install-recommends libc6-dev wrk -q"]


@pytest.mark.parametrize("goals", [("packages", "test"), ("test", "packages")])
def test_installs_first(machine: Machine, goals: tuple[str, ...]) -> None:
    """What isn't installed is, whatever the order of the goals, and only then the tests begin."""
    ran = machine.make(*goals)
    assert (ran.returncode, machine.calls()) == (0, [*INSTALLS, "check --tests"]), ran.stderr


def test_tests_alone_install_nothing(machine: Machine) -> None:
    assert (machine.make("test").returncode, machine.calls()) == (0, ["check --tests"])


def test_who_is_not_root_uses_sudo(machine: Machine) -> None:
    machine.script("bin/id", "echo 1000")
    assert machine.make("packages").returncode == 0
    assert machine.calls() == ["sudo", INSTALLS[0], "sudo", INSTALLS[1]]


def test_all_are_installed(machine: Machine) -> None:
    machine.script("bin/dpkg-query", "for package in make wrk g++ libc6-dev; do echo installed $package; done")
    assert (machine.make("packages").returncode, machine.calls()) == (0, [])


@pytest.mark.parametrize(
    ("update", "install", "status", "report"),
    [
        ("exit 100", "exit 0", 75, "the registry of Debian's packages doesn't answer"),
        ("exit 0", f"echo {FAILED}; exit 100", 75, "the registry of Debian's packages doesn't answer"),
        (f"echo {FAILED}; exit 0", "echo E: Unable to locate package wrk; exit 100", 75, "doesn't answer"),
        ("exit 0", "echo E: Unable to locate package wrk; exit 100", 78, "E: Unable to locate package wrk"),
        ("exit 0", "echo E: no space; exit 100", 70, "can't be installed, though the registry answers"),
    ],
)
def test_failures(machine: Machine, update: str, install: str, status: int, report: str) -> None:
    """The status says whose fault it is. The tests don't begin."""
    machine.apt_get(update, install)
    ran = machine.make("packages", "test")
    assert f"packages] Error {status}" in ran.stderr and report in ran.stderr
    assert "check --tests" not in machine.calls()
