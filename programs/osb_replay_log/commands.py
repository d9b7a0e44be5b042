"""Replays a log of any length, or parts it for another engine and merges what came of the parts."""
from __future__ import annotations

import argparse
import os
import sys
from contextlib import ExitStack, closing

from osb_replay_log import divided, reports, schedulers, signals, words, work
from osb_replay_log.dask_engine import Dask, Missing
from osb_replay_log.engines import Engine, Processes
from osb_replay_log.faults import NO_MEMORY, UNABLE, UNREAD, UNUSABLE, UNWRITTEN, Unreplayed, unwritten
from osb_replay_log.logs import Log, from_paths
from osb_replay_log.program import Program, built
from osb_replay_log.progress import Progress
from osb_replay_log.rooms import new_room
from osb_replay_log.spool import Room
from osb_replay_log.starting import refuse


def run(given: list[str]) -> int:
    """Does what these words ask for, and gives the exit status."""
    asked = words.read(given)
    try:
        {"replay": _replay, "split": _split, "merge": _merge}[asked.command](asked)
        return 0
    except Unreplayed as error:
        return refuse(words.PROGRAM, error.status, error.said)
    except MemoryError:
        return refuse(words.PROGRAM, NO_MEMORY, "out of memory")


def _replay(asked: argparse.Namespace) -> None:
    _has_output()
    options = (*(["--settle"] if asked.settle else []), *(["--saved"] if asked.saved else []))
    with ExitStack() as stack:
        done, _, room = _work(asked, stack, options, asked.room, True)
        with signals.raised():
            found = [reports.report_in(file) for file in done.files]
            _write(found, done.restarts, asked.saved, room)


def _split(asked: argparse.Namespace) -> None:
    divided.begin(asked.parts)
    room = asked.room or asked.parts
    with ExitStack() as stack:
        try:
            if os.stat(room).st_dev != os.stat(asked.parts).st_dev:
                raise Unreplayed(UNUSABLE, f"{room}: pass a --room on the same file system as {asked.parts}")
            done, logs, _ = _work(asked, stack, (), room, False)
            divided.write(asked.parts, logs, done)
        except OSError as error:
            raise unwritten(asked.parts, error) from error


def _merge(asked: argparse.Namespace) -> None:
    _has_output()
    with ExitStack() as stack, signals.raised():
        its = divided.read(asked.parts)
        faulty = divided.faults(its)
        if faulty:
            raise work.fault_of(its.logs, faulty, Program(built(), ()), 16 << 20)
        found = [divided.report(its, number) for number in range(1, its.parts + 1)]
        for number, report in enumerate(found, 1):
            if asked.saved and not report.has_record:
                raise Unreplayed(UNREAD, f"{its.file(number, 'report')}: it has no saved record")
        room = new_room(stack, words.PROGRAM, asked.room) if its.parts > reports.MOST_OPEN else ""
        _write(found, its.restarts, asked.saved, Room(room))


def _has_output() -> None:
    if sys.stdout is None:
        raise Unreplayed(UNWRITTEN, "write failed")


def _hush() -> None:
    """Standard error is the program's alone from here on. Workers, and what sees to their locks, tell there at length
    of how they end; what a task raises comes otherwise.
    """
    sys.stderr = open(os.dup(2), "w", buffering=1, encoding=sys.stderr.encoding, errors="backslashreplace")
    with open(os.devnull, "wb") as nothing:
        os.dup2(nothing.fileno(), 2)


def _work(
    asked: argparse.Namespace, stack: ExitStack, options: tuple[str, ...], room: str | None, is_replayed: bool
) -> tuple[work.Outcome, tuple[Log, ...], Room]:
    logs = tuple(from_paths(asked.logs))
    with signals.raised():
        program, progress = Program(built(), options), Progress()
    folder = new_room(stack, words.PROGRAM, room)
    its = Room(folder, asked.room_limit)
    os.chdir("/")  # workers look for modules in their current folder, before Python 3.11
    _hush()
    engine = stack.enter_context(closing(_engine(asked, folder)))
    chunk = max(min(asked.chunk_bytes, sum(log.size for log in logs) // (2 * asked.workers)), 1)
    chunk = min(asked.chunk_bytes, max(chunk, 1 << 20))
    stack.callback(progress.end)
    with signals.raised():
        try:
            done = work.do(work.Work(logs, program, its, asked.part_lines, chunk, progress), engine, is_replayed)
        except OSError as error:
            raise unwritten(folder, error) from error
    progress.end()
    return done, logs, its


def _engine(asked: argparse.Namespace, folder: str) -> Engine:
    if asked.engine == "processes":
        return Processes(asked.workers)
    try:
        return Dask(schedulers.named(asked), asked.workers, folder, asked.insecure)
    except Missing as missing:
        install = f"apt-get install {missing.package}"
        if asked.engine == "dask" or asked.scheduler is not None:
            raise Unreplayed(UNABLE, f"{missing.what}. Run {install}{missing.otherwise}") from None
        print(
            f"{words.PROGRAM}: {missing.what}, so processes of this machine replay the parts. To use Dask: {install}",
            file=sys.stderr,
        )
        return Processes(asked.workers)


def _write(found: list[reports.Report], restarts: int, is_saved: bool, room: Room) -> None:
    try:
        with open(sys.stdout.fileno(), "wb", closefd=False) as out:
            reports.write(found, restarts, is_saved, room, out)
    except OSError as error:
        raise Unreplayed(UNWRITTEN, "write failed") from error
