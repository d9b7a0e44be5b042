"""Runs the launcher osb-replay-log, and programs in the place of osb-replay that are slow or don't end."""

from __future__ import annotations

import importlib.util
import os
import signal
import subprocess
from pathlib import Path
from typing import NamedTuple

import pytest
from commands import printed, ran
from replay.running import TOP, Ran
from waiting import until

LAUNCHER = TOP / "osb-replay-log"
SECONDS = 120
SMALL = ["--part-lines", "600", "--chunk-bytes", "50000"]
needs_dask = pytest.mark.skipif(
    not all(map(importlib.util.find_spec, ["distributed", "cryptography"])),
    reason="Dask isn't installed with TLS (Debian: python3-distributed python3-cryptography)",
)
# In the place of osb-replay. Each run makes the next of the folders calls/1, calls/2 and so on. The first run is for
# the plans alone.
NUMBERED = """#!/usr/bin/env bash
n=1
until mkdir "{calls}/$n" 2>/dev/null; do n=$((n + 1)); done
"""
SLOW = NUMBERED + '[ $n -ne {killed} ] || kill -9 $PPID\n[ $n -eq 1 ] || sleep {seconds}\nexec "{program}" "$@"\n'
ENDLESS = NUMBERED + '[ $n -ne 1 ] || exec "{program}" "$@"\necho $$ >"{calls}/$n/pid"\necho written\nexec sleep 30\n'


class Logs(NamedTuple):
    """A log in two files, and in one, and its settled report with the saved record."""

    first: str
    second: str
    whole: str
    report: str

    @property
    def paths(self) -> list[str]:
        """Those of the two files."""
        return [self.first, self.second]


class Launcher:
    """The launcher, with a folder of its own: its work directory is `room` in it."""

    def __init__(self, folder: Path, program: Path) -> None:
        self.folder, self.program = folder, program
        self.room, self.calls = folder / "room", folder / "calls"
        self.room.mkdir()
        self.environment = {**os.environ, "OSB_REPLAY": str(program)}
        self.environment.pop("PYTHONSAFEPATH", None)

    def run(self, *arguments: str, environment: dict[str, str] | None = None) -> Ran:
        """Runs it with these arguments. It leaves nothing in its work directory."""
        return self.run_by([str(LAUNCHER)], *arguments, environment=environment)

    def run_by(self, command: list[str], *arguments: str, environment: dict[str, str] | None = None) -> Ran:
        """The same, by this command in the launcher's place."""
        ran = subprocess.run(
            [*command, *arguments],
            stdin=subprocess.DEVNULL,
            capture_output=True,
            env={**self.environment, **(environment or {})},
            check=False,
            timeout=SECONDS,
        )
        assert not [*self.room.iterdir()]
        return Ran(ran.returncode, ran.stdout.decode(), ran.stderr.decode())

    def begin(self, *arguments: str, environment: dict[str, str]) -> subprocess.Popen[bytes]:
        """Starts it in a session of its own."""
        return subprocess.Popen(
            [LAUNCHER, *arguments],
            stdin=subprocess.DEVNULL,
            stdout=subprocess.PIPE,
            stderr=subprocess.PIPE,
            env={**self.environment, **environment},
            start_new_session=True,
        )

    def instead(self, text: str, killed: int = 0, seconds: float = 0.0) -> str:
        """Writes a program in the place of osb-replay, of which the run of this number kills its worker."""
        self.calls.mkdir()
        path = self.folder / "instead"
        path.write_text(text.format(calls=self.calls, program=self.program, killed=killed, seconds=seconds))
        path.chmod(0o755)
        return str(path)


def fails(ran: Ran, status: int, message: str) -> None:
    """It ended with this status, reports this, and wrote nothing else."""
    assert ran.status == status, ran
    assert message in ran.err, ran
    assert ran.out == "", ran


def states(pid: int) -> list[str]:
    """The states of the processes of a session, without those that have ended and wait for their parent."""
    return [state for state in ran(["ps", "-o", "stat=", "-s", pid]).stdout.split() if not state.startswith("Z")]


def is_running(pid: int) -> bool:
    return ran(["ps", "-o", "stat=", "-p", pid]).stdout.strip()[:1] not in ("", "Z")


def parent(pid: int) -> int:
    return int(printed(["ps", "-o", "ppid=", "-p", pid]))


def terminate(process: subprocess.Popen[bytes]) -> Ran:
    """Ends it by SIGTERM, and waits until all processes of its session have ended."""
    process.send_signal(signal.SIGTERM)
    out, err = process.communicate(timeout=SECONDS)
    until(lambda: not states(process.pid), seconds=10)
    return Ran(process.returncode, out.decode(), err.decode())
