"""The proved program, `osb-replay`: a part is given to it, and it writes the part's report, or tells a fault."""
from __future__ import annotations

import errno
import os
import re
import shutil
import subprocess
from contextlib import suppress
from functools import lru_cache
from pathlib import Path
from typing import IO, Iterable, NamedTuple

from osb_replay_log.faults import NO_MEMORY, UNABLE, UNREAD, UNWRITTEN, Unreplayed, reason

_TOP = Path(__file__).resolve().parents[2]
_FAULT = re.compile(rb"osb-replay: line (\d+): (\w+)\n")
_TRIES = 3
"""How often a part is given to it where it is killed, as where a machine has no memory left."""
_KNOWN = {3: (UNREAD, "read failed"), 4: (UNWRITTEN, "write failed"), 5: (NO_MEMORY, "out of memory")}


class Fault(NamedTuple):
    """The first faulty line of a part, and what is wrong with it."""

    line: int
    name: str


class Program(NamedTuple):
    """Where the program is, and the words that stand behind its command."""

    path: str
    words: tuple[str, ...]
    command: str = "replay"

    def run(self, given: Iterable[bytes], report: Path) -> Fault | None:
        """Has the schedule replayed once, and its report written. `given` is gone through from its beginning each time
        that the program is killed, so it has to be a list, or something else that can be.
        """
        for _ in range(_TRIES):
            status, said = self._once(given, report)
            if status >= 0:
                break
        told = _FAULT.fullmatch(said)
        if status == 1 and told:
            return Fault(int(told[1]), told[2].decode())
        if status in _KNOWN:
            raise Unreplayed(_KNOWN[status][0], f"osb-replay: {_KNOWN[status][1]}")
        if status != 0:
            raise Unreplayed(UNABLE, f"osb-replay ended with status {status}: {said.decode(errors='replace').strip()}")
        return None

    def _once(self, given: Iterable[bytes], report: Path) -> tuple[int, bytes]:
        with open(report, "wb") as out, self._begun(out) as ran:
            assert ran.stdin is not None and ran.stderr is not None
            try:
                _give(ran.stdin, given)
                said = ran.stderr.read()
            except BaseException:
                ran.kill()
                raise
        return ran.returncode, said

    def _begun(self, out: IO[bytes]) -> subprocess.Popen[bytes]:
        words = [*_with_its_caller(), self.path, self.command, *self.words]
        _can_be_run(self.path)
        try:
            return subprocess.Popen(words, stdin=subprocess.PIPE, stdout=out, stderr=subprocess.PIPE)
        except OSError as error:
            raise _not_run(self.path, error) from error


@lru_cache(maxsize=None)
def _with_its_caller() -> list[str]:
    """What a program is started by that is killed where the caller's thread ends: by setpriv of util-linux, where that
    is there.
    """
    words = [shutil.which("setpriv") or "", "--pdeathsig", "KILL"]
    try:
        subprocess.run([*words, "true"], stdin=subprocess.DEVNULL, stderr=subprocess.DEVNULL, check=True)
    except (OSError, subprocess.CalledProcessError):
        return []
    return words


def _can_be_run(path: str) -> None:
    """Refuses a file that can't be. One that goes meanwhile is told by how its run ends."""
    try:
        os.stat(path)
        if not (os.path.isfile(path) and os.access(path, os.X_OK)):
            raise PermissionError(errno.EACCES, os.strerror(errno.EACCES))
    except OSError as error:
        raise _not_run(path, error) from error


def _not_run(path: str, error: OSError) -> Unreplayed:
    return Unreplayed(UNABLE, f"{path}: it can't be run: {reason(error)}")


def _give(stdin: IO[bytes], given: Iterable[bytes]) -> None:
    """It reads no further than to a fault."""
    with suppress(BrokenPipeError):
        for piece in given:
            stdin.write(piece)
        stdin.flush()
    with suppress(BrokenPipeError):
        stdin.close()


def built() -> str:
    """The program's file: the one that OSB_REPLAY names, or the one for this checkout's sources, which is built if it
    must be.
    """
    named = os.environ.get("OSB_REPLAY")
    if named:
        _can_be_run(named)
        return os.path.abspath(named)
    where = _TOP / "scripts" / "where"
    try:
        found = subprocess.run([where, "replay"], stdin=subprocess.DEVNULL, stdout=subprocess.PIPE, check=False)
    except OSError as error:
        raise Unreplayed(UNABLE, f"{where} can't be run: {error}") from error
    if found.returncode != 0:
        raise Unreplayed(UNABLE, "there is no program osb-replay, and it can't be built")
    return os.fsdecode(found.stdout).removesuffix("\n")
