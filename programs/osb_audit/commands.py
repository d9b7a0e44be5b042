"""Audits journals: finds the programs, has the work done, and writes the report."""
from __future__ import annotations

import argparse
import os
import subprocess
import sys
import time
from contextlib import ExitStack, closing
from pathlib import Path
from typing import Callable, Iterable, Iterator, TypeVar

from osb_audit import words
from osb_replay_log import signals
from osb_replay_log.engines import Engine, Processes
from osb_replay_log.faults import NO_MEMORY, UNABLE, UNREAD, UNUSABLE, UNWRITTEN, Unreplayed, unwritten
from osb_replay_log.logs import Log
from osb_replay_log.program import Program, built
from osb_replay_log.progress import Progress
from osb_replay_log.rooms import new_room
from osb_replay_log.spool import Room
from osb_replay_log.starting import refuse

_TOP = Path(__file__).resolve().parents[2]
_CHUNK = 8 << 20
"""How many bytes of a journal a worker takes at once, at most."""
_SMALL = 4 << 20
"""Up to how many bytes are audited without workers, which take longer to start."""


_LIVE = 5.0
"""For how many seconds after the last line of a journal its program may go on."""
_REST = 0.2
"""The seconds after which all lines are written that were about to be written."""

Given = TypeVar("Given")
Result = TypeVar("Result")


class _Here:
    """An engine without workers."""

    @staticmethod
    def each(task: Callable[[Given], Result], given: Iterable[Given]) -> Iterator[Result]:
        """The results, one after the other."""
        return map(task, given)

    def close(self) -> None:
        """Does nothing."""


def run(given: list[str]) -> int:
    """Audits the journals that these arguments name, and returns the exit status."""
    asked = words.read(given)
    try:
        return _audit(asked)
    except Unreplayed as error:
        return refuse(words.PROGRAM, UNUSABLE if error.status == UNREAD else error.status, error.said)
    except MemoryError:
        return refuse(words.PROGRAM, NO_MEMORY, "out of memory")


def _audit(asked: argparse.Namespace) -> int:
    with signals.raised():
        _find_library()
        from osb_audit import reports, work

        logs, until = _logs(asked.journals)
        program, progress = Program(built(), ("--trace",), "network"), Progress()
    with ExitStack() as stack:
        folder = new_room(stack, words.PROGRAM, asked.room)
        os.chdir("/")  # workers look for modules in their current folder, before Python 3.11
        size = sum(log.size for log in logs)
        engine = stack.enter_context(closing(_engine(asked.jobs, size)))
        chunk = max(min(_CHUNK, size // (2 * asked.jobs)), 1 << 16)
        stack.callback(progress.end)
        with signals.raised():
            try:
                names = {log.path: name for log, name in logs.items()}
                its = work.Work(list(logs), names, program, Room(folder), chunk, progress, until)
                found = work.audit(its, engine)
            except OSError as error:
                raise unwritten(folder, error) from error
        progress.end()
        report = reports.Report(found, asked.unjudged)
        _write(report.json() if asked.json else report.text())
    return report.status()


def _logs(journals: list[str]) -> tuple[dict[Log, str], int | None]:
    """The files, and the time of the last lines that count, if their programs may go on."""
    from osb_audit.work import files_in

    began, logs = time.time(), files_in(journals)
    if all(os.stat(log.path).st_mtime < began - _LIVE for log in logs):
        return logs, None
    time.sleep(_REST)
    return files_in(journals), int(began * 1e6)


def _engine(jobs: int, size: int) -> Engine:
    if jobs > 1 and size > _SMALL:
        return Processes(jobs)
    return _Here()


def _find_library() -> None:
    """Has LIBOSB name the library for this checkout's sources, unless it names one already."""
    where = _TOP / "scripts" / "where"
    if "LIBOSB" not in os.environ and where.exists():
        found = subprocess.run([where, "library"], stdin=subprocess.DEVNULL, stdout=subprocess.PIPE, check=False)
        if found.returncode != 0:
            raise Unreplayed(UNABLE, "there is no library libosb.so, and it can't be built")
        os.environ["LIBOSB"] = os.path.join(os.fsdecode(found.stdout).removesuffix("\n"), "libosb.so")
    try:
        import osb
    except ImportError as error:
        raise Unreplayed(UNABLE, f"the package osb can't be loaded: {error}") from error
    assert osb.__name__ == "osb"


def _write(text: str) -> None:
    try:
        if sys.stdout is None:
            raise OSError("standard output is closed")
        sys.stdout.write(text)
        sys.stdout.flush()
    except OSError as error:
        raise Unreplayed(UNWRITTEN, "write failed") from error
