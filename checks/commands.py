"""Commands that tests run, and what has to be installed for them."""

from __future__ import annotations

import shutil
import subprocess
from collections.abc import Mapping, Sequence
from pathlib import Path

import pytest

PACKAGES = {
    "cc": "gcc libc6-dev",
    "go": "golang-go",
    "gofmt": "golang-go",
    "nsenter": "util-linux",
    "pg_virtualenv": "postgresql-common",
    "pkill": "procps",
    "psql": "postgresql",
    "systemd-analyze": "systemd",
    "unshare": "util-linux",
}
"""What Debian calls the package of a command, if the two names differ."""


def needs(*commands: str, packages: Mapping[str, str] = PACKAGES, path: str | None = None) -> None:
    """Skips the test unless each of these commands is installed."""
    for command in commands:
        if shutil.which(command, path=path) is None:
            pytest.skip(f"{command} isn't installed (Debian: {packages.get(command, command)})")


def ran(
    line: Sequence[object],
    folder: Path | None = None,
    environment: Mapping[str, str] | None = None,
    given: str = "",
    seconds: float = 600,
    merged: bool = False,
) -> subprocess.CompletedProcess[str]:
    """Runs a command to its end. `given`: its standard input; `merged`: whether its errors are part of its output."""
    return subprocess.run(
        [str(word) for word in line],
        cwd=folder,
        env=environment,
        input=given,
        stdout=subprocess.PIPE,
        stderr=subprocess.STDOUT if merged else subprocess.PIPE,
        text=True,
        timeout=seconds,
    )


def begun(
    line: Sequence[object], environment: Mapping[str, str] | None = None, errors: int | None = subprocess.PIPE
) -> subprocess.Popen[str]:
    """Starts a command whose output the test reads. `errors`: where its errors go."""
    nothing, read = subprocess.DEVNULL, subprocess.PIPE
    words = [str(word) for word in line]
    return subprocess.Popen(words, env=environment, stdin=nothing, stdout=read, stderr=errors, text=True)


def printed(
    line: Sequence[object], folder: Path | None = None, environment: Mapping[str, str] | None = None, given: str = ""
) -> str:
    """Runs a command that must succeed, and returns what it prints."""
    done = ran(line, folder, environment, given, seconds=1800)
    assert done.returncode == 0, f"status {done.returncode}: {line}\n{done.stdout}{done.stderr}"
    return done.stdout
