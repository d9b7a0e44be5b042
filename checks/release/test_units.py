"""The units for systemd: how much they may do, and that systemd understands them."""

from __future__ import annotations

import http.client
import os
import re
import signal
import subprocess
import threading
from collections.abc import Iterator
from contextlib import contextmanager
from pathlib import Path

import pytest
from commands import needs, ran
from docs.pages import TOP
from ports import free_address
from waiting import until

pytestmark = pytest.mark.slow

UNITS = sorted((TOP / "release" / "systemd").glob("*.service"))
each = pytest.mark.parametrize("unit", UNITS, ids=[unit.name for unit in UNITS])


def analyze(*line: str | Path) -> subprocess.CompletedProcess[str]:
    needs("systemd-analyze")
    return ran(["systemd-analyze", "--no-pager", *line], merged=True)


@each
def test_exposure(unit: Path) -> None:
    """systemd counts how much a service may do, from 0 to 10. It is below 2."""
    ran = analyze("security", "--offline=yes", unit)
    found = re.search(r"Overall exposure level for (\S+): ([\d.]+)", ran.stdout)
    assert found is not None and found[1] == unit.name, ran.stdout
    assert 0 < float(found[2]) < 2.0


@each
def test_secrets_are_credentials(unit: Path) -> None:
    """No secret is in the environment or on the command line: systemd gives the service a copy of its file."""
    text = unit.read_text()
    assert re.search(r"^LoadCredential=\w+:/etc/osb/[a-z-]+$", text, re.MULTILINE)
    assert "PASSWORD=" not in text and "KEY=" not in text


def test_there_is_a_unit_for_each_program() -> None:
    assert [unit.stem for unit in UNITS] == ["osb-broker", "osb-platform"]


class Supervisor:
    """Runs the program of a unit, and starts it again by the unit's own rules (systemd.service(5), `Restart=`)."""

    def __init__(self, unit: Path, program: Path, options: str, state: Path) -> None:
        rules = dict(re.findall(r"^(Restart\w*|\w*ExitStatus|ExecStart)=(.*)$", unit.read_text(), re.MULTILINE))
        assert rules.pop("Restart") == "on-failure"  # which starts it again after any other status than 0, or a signal
        self._prevent = {int(status) for status in rules.pop("RestartPreventExitStatus").split()}
        line = rules.pop("ExecStart").replace("/usr/bin/osb-broker", str(program))
        assert set(rules) == {"RestartSec"}, rules  # no rule that this class doesn't know
        secret = state / "password"
        secret.write_text("secret\n")
        self._line = line.replace("${CREDENTIALS_DIRECTORY}", str(state)).replace("$OSB_BROKER_OPTIONS", options)
        self._environment = {**os.environ, "XDG_STATE_HOME": str(state)}
        self.statuses: list[int] = []
        self.process: subprocess.Popen[bytes] | None = None
        self._is_over = False

    def run(self) -> None:
        """Runs the program until it mustn't be started again."""
        while not self._is_over:
            # as systemd does, the process is named to the program itself
            line = f"SYSTEMD_EXEC_PID=$$ exec {self._line}"
            with subprocess.Popen(["sh", "-c", line], env=self._environment, stderr=subprocess.DEVNULL) as self.process:
                status = self.process.wait()
            self.statuses.append(status)
            if status == 0 or status in self._prevent:
                return

    @contextmanager
    def running(self) -> Iterator[None]:
        thread = threading.Thread(target=self.run)
        thread.start()
        try:
            yield
        finally:
            self._is_over = True
            if self.process is not None:
                self.process.kill()
            thread.join()


def served(address: str) -> bool:
    """Whether a broker answers there."""
    connection = http.client.HTTPConnection(address, timeout=60)
    try:
        connection.request("GET", "/healthz")
        return connection.getresponse().status == 200
    except OSError:
        return False
    finally:
        connection.close()


BROKER = TOP / "release" / "systemd" / "osb-broker.service"


@pytest.mark.parametrize("number", [signal.SIGABRT, signal.SIGQUIT, signal.SIGKILL, signal.SIGSEGV])
def test_a_crash_is_started_again(broker: Path, tmp_path: Path, number: signal.Signals) -> None:
    """Go's runtime ends a program with status 2 at each of these signals but SIGKILL, as after a panic. By the unit's
    rules, the broker comes back, and SIGTERM ends it for good.
    """
    address = free_address()
    supervisor = Supervisor(BROKER, broker, f"--listen {address}", tmp_path)
    with supervisor.running():
        for crashes in range(3):
            until(lambda: served(address))
            assert len(supervisor.statuses) == crashes and supervisor.process is not None
            supervisor.process.send_signal(number)
            until(lambda wanted=crashes + 1: len(supervisor.statuses) == wanted)  # type: ignore[misc]
        until(lambda: served(address))
        assert supervisor.process is not None
        supervisor.process.send_signal(signal.SIGTERM)
        until(lambda: len(supervisor.statuses) == 4)
    crashed = -number if number == signal.SIGKILL else 2
    assert supervisor.statuses == [crashed] * 3 + [0]


@pytest.mark.parametrize("options", ["--no-such-option", "--threads none", "--state /dev/null", "--existing"])
def test_a_mistake_is_not_started_again(broker: Path, tmp_path: Path, options: str) -> None:
    """An option that can't be parsed or used ends the unit for good."""
    supervisor = Supervisor(BROKER, broker, options, tmp_path)
    with supervisor.running():
        until(lambda: len(supervisor.statuses) > 0)
    assert supervisor.statuses == [78]


def test_both_units_have_the_same_rules() -> None:
    """What is started again is the same for both programs."""
    rules = [re.findall(r"^(?:Restart|StartLimit|SuccessExit).*$", unit.read_text(), re.MULTILINE) for unit in UNITS]
    assert rules[0] == rules[1] and len(rules[0]) == 4
