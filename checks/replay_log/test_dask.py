"""The program osb-replay-log with Dask: a scheduler that runs already, with TLS and without, and missing packages."""

from __future__ import annotations

import os
import shutil
import subprocess
import sys
from collections.abc import Callable, Iterator
from contextlib import ExitStack
from pathlib import Path

import pytest
from replay.running import Ran
from replay_log.launching import SMALL, Launcher, Logs, fails, needs_dask
from waiting import until

pytestmark = pytest.mark.slow

needs_openssl = pytest.mark.skipif(shutil.which("openssl") is None, reason="openssl isn't installed (Debian: openssl)")

# A scheduler and a worker, which don't know the package. With arguments they speak TLS alone, with these files.
ELSEWHERE = """
import asyncio, distributed, os, sys
its = {}
if sys.argv[1:]:
    ca, cert, key = sys.argv[1:]
    files = dict(tls_scheduler_cert=cert, tls_scheduler_key=key, tls_worker_cert=cert, tls_worker_key=key)
    its["security"] = distributed.Security(require_encryption=True, tls_ca_file=ca, **files)
    its["protocol"] = "tls"
async def main():
    async with distributed.Scheduler(host="127.0.0.1", port=0, dashboard=False, **its) as scheduler:
        async with distributed.Worker(scheduler.address, nthreads=1, local_directory=".", **its):
            open("address.new", "w").write(scheduler.address)
            os.rename("address.new", "address")
            await asyncio.sleep(100)
asyncio.run(main())
"""

Begin = Callable[..., str]


@pytest.fixture
def begin(tmp_path: Path) -> Iterator[Begin]:
    """Starts a scheduler and a worker, over TLS with these files, and returns the scheduler's address."""
    environment = {name: value for name, value in os.environ.items() if name != "PYTHONPATH"}
    with ExitStack() as stack:

        def begun(*files: Path) -> str:
            process = subprocess.Popen(
                [sys.executable, "-c", ELSEWHERE, *files],
                cwd=tmp_path,
                env=environment,
                stdout=subprocess.DEVNULL,
                stderr=subprocess.DEVNULL,
            )
            stack.enter_context(process)
            stack.callback(process.terminate)
            until((tmp_path / "address").exists)
            return (tmp_path / "address").read_text()

        yield begun


def elsewhere(launcher: Launcher, logs: Logs, *arguments: str | Path) -> Ran:
    where = [*map(str, arguments), "--room", str(launcher.room)]
    return launcher.run("replay", "--settle", "--saved", *where, *SMALL, *logs.paths)


@needs_dask
def test_a_scheduler_elsewhere(launcher: Launcher, logs: Logs, begin: Begin) -> None:
    assert elsewhere(launcher, logs, "--scheduler", begin()) == Ran(0, logs.report, "")


class Certificate:
    """A certificate that has signed itself, so it is its own authority, and its key."""

    def __init__(self, folder: Path, name: str) -> None:
        self.cert, self.key = folder / f"{name}.cert", folder / f"{name}.key"
        made = ["-newkey", "ec", "-pkeyopt", "ec_paramgen_curve:P-256", "-nodes", "-days", "2", "-subj", f"/CN={name}"]
        command = ["openssl", "req", "-x509", *made, "-keyout", str(self.key), "-out", str(self.cert)]
        subprocess.run(command, check=True, capture_output=True)

    @property
    def files(self) -> list[Path]:
        """Its authority, the certificate, and the key."""
        return [self.cert, self.cert, self.key]

    @property
    def options(self) -> list[str | Path]:
        """The program's options for these files."""
        ca, cert, key = self.files
        return ["--tls-ca", ca, "--tls-cert", cert, "--tls-key", key]


@needs_dask
@needs_openssl
def test_a_scheduler_with_tls(launcher: Launcher, logs: Logs, begin: Begin, tmp_path: Path) -> None:
    """It is reached with its authority's certificate alone, and no other scheduler is taken for it."""
    ours, other = Certificate(tmp_path, "ours"), Certificate(tmp_path, "other")
    address = begin(*ours.files)
    assert address.startswith("tls://")
    assert elsewhere(launcher, logs, "--scheduler", address, *ours.options) == Ran(0, logs.report, "")
    told = elsewhere(launcher, logs, "--scheduler", address, *other.options)
    fails(told, 70, f"osb-replay-log: the scheduler {address} can't be reached: ")


# ---- what isn't installed


def without(folder: Path, *modules: str) -> dict[str, str]:
    """An environment in which the modules aren't installed."""
    for module in modules:
        (folder / f"{module}.py").write_text('raise ImportError("not here")\n')
    return {"PYTHONPATH": str(folder)}


def test_without_dask(launcher: Launcher, logs: Logs, tmp_path: Path) -> None:
    arguments = ["replay", "--settle", "--saved", "--room", str(launcher.room), *SMALL]
    environment = without(tmp_path, "distributed")
    told = launcher.run(*arguments, *logs.paths, environment=environment)
    assert told == Ran(
        0,
        logs.report,
        "osb-replay-log: Dask isn't installed, so processes of this machine replay the parts. "
        "To use Dask: apt-get install python3-distributed\n",
    )
    told = launcher.run(*arguments, "--engine", "dask", *logs.paths, environment=environment)
    fails(told, 70, "osb-replay-log: Dask isn't installed. Run apt-get install python3-distributed\n")


@needs_dask
class TestWithoutCryptography:
    """Dask would run without TLS. With that, every account of the machine has its workers run programs."""

    def run(self, launcher: Launcher, logs: Logs, *arguments: str) -> Ran:
        environment = without(launcher.folder, "cryptography")
        where = ["--workers", "2", "--room", str(launcher.room), *SMALL]
        return launcher.run("replay", "--settle", "--saved", *arguments, *where, *logs.paths, environment=environment)

    def test_processes_are_used(self, launcher: Launcher, logs: Logs) -> None:
        told = self.run(launcher, logs)
        assert told == Ran(
            0,
            logs.report,
            "osb-replay-log: Dask would run without TLS, because python3-cryptography isn't installed, so processes of "
            "this machine replay the parts. To use Dask: apt-get install python3-cryptography\n",
        )

    def test_dask_is_rejected(self, launcher: Launcher, logs: Logs) -> None:
        """The error has both ways out: TLS, or no Dask; and how to go on without TLS."""
        told = self.run(launcher, logs, "--engine", "dask")
        fails(told, 70, "without TLS, because python3-cryptography isn't installed")
        for out in ("apt-get install python3-cryptography", "--engine processes", "--engine dask --insecure"):
            assert out in told.err

    @pytest.mark.alone  # Dask gives up a worker that a busy machine restarts too slowly
    def test_dask_is_used_if_insecure(self, launcher: Launcher, logs: Logs) -> None:
        assert self.run(launcher, logs, "--engine", "dask", "--insecure") == Ran(0, logs.report, "")
