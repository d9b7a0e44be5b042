"""When .ci/run fails: on a failure or a skip, but for the allowed ones; and what it does if the registry is silent."""

from __future__ import annotations

import os
import shutil
from pathlib import Path

import pytest
from commands import ran

TOP = Path(__file__).resolve().parents[2]

pytestmark = pytest.mark.slow

SLURM = "skipped: checks.docs.test_commands::test_log_by_slurm[docs/logs.md]: Slurm isn't installed, or doesn't run (x)"
KIT = (
    "skipped: prebuilt/x86_64-linux/libosb.a: it was built by another kit, kit 1, and this one is kit 2. "
    "Run make prebuilt under that kit"
)
SYSTEMD = "skipped: checks.release.test_installed::test_package: systemd doesn't run in a folder of this machine: why"
DEBIAN = "skipped: checks.release.test_installed::test_package: debootstrap can't make a Debian here: why"
MIRROR = (
    "skipped: checks.release.test_installed::test_package: "
    "/etc/apt names no mirror of Debian bookworm whose index was fetched"
)
CLOCK = "skipped: checks.storm.test_storm::test_minimize: it goes by the clock, and failed 3 times"
OTHER = "skipped: checks.page.test_page::test_paint: chromium isn't installed"
NAMED = "skipped: checks.page.test_page::test_sbatch: curl isn't installed"


class Runner:
    """.ci/run in a folder of its own, with scripts in the place of ./check and of Debian's tools."""

    def __init__(self, top: Path) -> None:
        self.top = top
        (top / ".ci").mkdir()
        (top / "bin").mkdir()
        (top / "scripts").mkdir()
        for name in (".ci/run", "scripts/packages", "packages.txt"):
            shutil.copy2(TOP / name, top / name)
        self.script("bin/id", "echo 0")
        self.script("bin/dpkg-query", "exit 0")
        self.script("bin/sleep", "exit 0")
        self.script("bin/apt-get", "exit 0")
        self.check()

    def script(self, name: str, text: str) -> None:
        (self.top / name).write_text(f"#!/bin/sh\n{text}\n")
        (self.top / name).chmod(0o755)

    def check(self, *skips: str, failed: int = 0, last: str | None = None, status: int | None = None) -> None:
        """A ./check that writes these skips and counts them."""
        last = f"9 passed, {failed} failed, {len(skips)} skipped" if last is None else last
        lines = ["skipped: in the midst of a test", "== all", *skips, last]
        status = int(failed > 0) if status is None else status
        self.script("check", f"cat <<'END'\n{chr(10).join(lines)}\nEND\nexit {status}")

    def run(self) -> tuple[int, str]:
        """The status, and what it and scripts/packages reported themselves."""
        environment = {**os.environ, "PATH": f"{self.top}/bin:{os.environ['PATH']}"}
        ended = ran([self.top / ".ci" / "run"], environment=environment, seconds=60, merged=True)
        lines = [line for line in ended.stdout.splitlines() if line.startswith(("ci: ", "packages: "))]
        return ended.returncode, "\n".join(lines)


@pytest.fixture
def runner(tmp_path: Path) -> Runner:
    return Runner(tmp_path)


@pytest.mark.parametrize(
    ("skips", "failed", "status", "report"),
    [
        ([], 0, 0, ""),
        ([SLURM, KIT], 0, 0, ""),
        ([SYSTEMD, DEBIAN, MIRROR, CLOCK], 0, 0, ""),
        ([SLURM, OTHER], 0, 1, "ci: these skips aren't allowed:"),
        ([NAMED], 0, 1, "ci: these skips aren't allowed:"),
        ([], 1, 1, ""),
    ],
)
def test_status(runner: Runner, skips: list[str], failed: int, status: int, report: str) -> None:
    runner.check(*skips, failed=failed)
    assert runner.run() == (status, report)


@pytest.mark.parametrize(
    ("last", "report"),
    [
        ("9 passed, 0 failed, 3 skipped", "./check counts 3 skipped, and names another number"),
        ("9 passed, 0 failed", "the last line of ./check has no counts"),
    ],
)
def test_counts_that_cannot_be_right_fail(runner: Runner, last: str, report: str) -> None:
    runner.check(SLURM, last=last)
    status, reported = runner.run()
    assert status == 1 and report in reported


def test_check_that_is_ended_fails(runner: Runner) -> None:
    runner.check(status=124)
    status, reported = runner.run()
    assert status != 0 and "was ended after 175 minutes" in reported


@pytest.mark.parametrize("call", ["update", "install"])
def test_registry_that_answers_at_the_third_attempt(runner: Runner, call: str) -> None:
    silent = """echo . >>"$0.calls"; [ "$(wc -l <"$0.calls")" -ge 3 ] || { echo silence; exit 100; }"""
    runner.script("bin/apt-get", f'[ "$1" = {call} ] || exit 0\n{silent}')
    runner.check(OTHER)
    status, reported = runner.run()
    assert status == 1 and reported.count("failed: silence") == 2 and "never answered" not in reported


def test_silent_registry_allows_skips_and_no_failure(runner: Runner) -> None:
    runner.script("bin/apt-get", "exit 100")
    runner.check(OTHER)
    status, reported = runner.run()
    assert status == 0 and "never answered: all skips are allowed in this run" in reported
    runner.check(OTHER, failed=1)
    assert runner.run()[0] == 1


def test_packages_that_cannot_be_fetched_allow_skips(runner: Runner) -> None:
    runner.script("bin/apt-get", '[ "$1" = update ] || { echo "E: Failed to fetch http://deb/wrk"; exit 100; }')
    runner.check(OTHER)
    status, reported = runner.run()
    assert status == 0 and "never answered: all skips are allowed in this run" in reported


def test_packages_that_cannot_be_installed_fail(runner: Runner) -> None:
    runner.script("bin/apt-get", '[ "$1" = update ] || { echo "E: dpkg returned an error code"; exit 100; }')
    status, reported = runner.run()
    assert status == 1 and reported.endswith("the packages can't be installed, though the registry answers")


def test_package_that_does_not_exist_fails(runner: Runner) -> None:
    runner.script("bin/apt-get", '[ "$1" = update ] || { echo "E: Unable to locate package wrk"; exit 100; }')
    status, reported = runner.run()
    assert status == 1 and reported.endswith("ci: there is no such package")
