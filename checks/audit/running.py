"""osb-broker and osb-platform, which write journals to the folder `journals`."""

from __future__ import annotations

import os
import subprocess
from collections.abc import Iterator
from contextlib import contextmanager
from pathlib import Path

from commands import printed, ran
from waiting import until

ENVIRONMENT = {**os.environ, "OSB_BROKER_PASSWORD": "secret", "OSB_PLATFORM_PASSWORD": "secret"}


@contextmanager
def serving(
    broker: Path, folder: Path, at: str, *more: str, log: str = "log", journals: str = "journals"
) -> Iterator[None]:
    """A broker that listens at an address."""
    words = "serve", "--state", str(folder / "state"), "--listen", at, "--journal", f"{folder}/{journals}/", *more
    with open(folder / log, "wb") as file:
        process = subprocess.Popen([broker, *words], env=ENVIRONMENT, stdin=subprocess.DEVNULL, stderr=file)
    try:
        until(lambda: '"event":"serving"' in (folder / log).read_text())
        yield
    finally:
        process.terminate()
        assert process.wait(60) == 0


class Platform:
    """A platform with one broker."""

    def __init__(
        self, program: Path, folder: Path, at: str, name: str = "platform", journals: str = "journals"
    ) -> None:
        self._program, self._log, self._broker = program, folder / f"{name}.log", ["--broker", f"http://{at}"]
        key = folder / f"{name}.key"
        key.touch(0o600)
        key.write_text(printed([program, "key"]))
        self.store = ["--store", str(folder / f"{name}.sqlite"), "--key-file", str(key)]
        self._journal = ["--journal", f"{folder}/{journals}/"]

    def once(self) -> None:
        """Sends what is due."""
        printed(self._line("run", "--once", *self._broker), environment=ENVIRONMENT)

    def create(self, *words: str) -> int:
        """Orders an instance. Returns the exit status."""
        return self.run("create", "--service", "folder", "--plan", "at-once", *words)

    def remove(self, instance: str, *words: str) -> int:
        """Has an instance deleted. Returns the exit status."""
        return self.run("remove", instance, *words)

    def ids(self, *words: str) -> list[str]:
        """The ids that `list` prints."""
        listed = printed([self._program, "list", *self.store, *words], environment=ENVIRONMENT)
        return [line.split("\t")[0] for line in listed.splitlines()]

    @contextmanager
    def working(self, *more: str) -> Iterator[None]:
        """A worker runs."""
        paces = "--first-pace", "0.1", "--longest-pace", "0.3", "--look-seconds", "0.1", "--seconds", "5"
        line = self._line("run", *self._broker, *paces, *more)
        with open(self._log, "wb") as log:
            process = subprocess.Popen(line, env=ENVIRONMENT, stdin=subprocess.DEVNULL, stdout=log, stderr=log)
        try:
            yield
        finally:
            process.terminate()
            assert process.wait(60) == 0

    def run(self, *words: str) -> int:
        """Runs a command that writes to the journal. Returns the exit status."""
        return ran(self._line(*words), environment=ENVIRONMENT).returncode

    def _line(self, *words: str) -> list[str]:
        return [str(self._program), *words, *self.store, *self._journal]
