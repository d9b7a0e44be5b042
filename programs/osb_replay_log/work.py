"""The work: a log's head is read, the rest of it parted by workers, and each part replayed, or written."""
from __future__ import annotations

import zlib
from pathlib import Path
from typing import Iterator, NamedTuple, Sequence

from osb_replay_log.engines import Engine
from osb_replay_log.faults import FAULTY, Unreplayed
from osb_replay_log.head import Head, body_of, head_of
from osb_replay_log.logs import Log, Stretch, lines_of
from osb_replay_log.parting import Parted, Parting, part
from osb_replay_log.parts import Bucket, Done, Faulty, finish
from osb_replay_log.positions import first_fault
from osb_replay_log.program import Program
from osb_replay_log.progress import Progress
from osb_replay_log.spool import Room

_MOST_BUCKETS = 4096
_SAMPLES, _FEW = 16, 1 << 16


class Work(NamedTuple):
    """What is replayed, by what, where, and in which portions."""

    logs: Sequence[Log]
    program: Program
    room: Room
    most: int
    """How many lines a part has at most."""
    chunk: int
    """How many bytes of a log a worker takes at once."""
    progress: Progress


class Outcome(NamedTuple):
    """The parts' files, and what merging has to know of the log."""

    files: list[str]
    plans: int
    restarts: int


def do(work: Work, engine: Engine, is_replayed: bool) -> Outcome:
    """Has the log parted, and each part replayed, or only written. A log with a fault is refused."""
    head = head_of(work.logs, work.most, work.chunk)
    _judge_head(work, head)
    work.room.file("plans").write_bytes(head.text())
    body = body_of(work.logs, head, work.chunk)
    many, estimate = estimated(body, work.most)
    parted = _part(work, engine, len(head.plans), body, many, estimate)
    done = _finish(work, engine, len(head.plans), parted, many, is_replayed)
    files = [file for bucket in done for file in bucket.files]
    return Outcome(files, len(head.plans), sum(split.restarts for split in parted))


def judge(program: Program, line: bytes) -> str | None:
    """Which fault the line has behind an event. No plan is needed for that: a late one is late, whatever it is."""
    fault = program.run([b"restart\n", line + b"\n"], Path("/dev/null"))
    return None if fault is None else fault.name


def estimated(body: Sequence[Stretch], most: int) -> tuple[int, int]:
    """The number of buckets, so that a bucket is about half a part, and how many lines a bucket may have."""
    if not body:
        return 1, 1
    found: list[bytes] = [line for sample in _samples(body) for line in next(lines_of(sample, _FEW), [])]
    text = b"\n".join(found) + b"\n"
    gain, length = len(text) / len(zlib.compress(text)), len(text) / max(len(found), 1)
    size = sum(stretch.log.size * gain if stretch.log.is_gzip else stretch.end - stretch.begin for stretch in body)
    lines = int(size / length) + 1
    return max(1, min(_MOST_BUCKETS, -(-2 * lines // most))), lines


def _samples(body: Sequence[Stretch]) -> Iterator[Stretch]:
    """Some bytes of some stretches: of a gzip file's, those at its beginning."""
    for stretch in body[:: -(-len(body) // _SAMPLES)]:
        begin, end = stretch.begin, stretch.end
        middle = begin if stretch.log.is_gzip else begin + max(0, end - begin - _FEW) // 2
        yield stretch._replace(begin=middle, end=min(end, middle + _FEW), is_whole=middle == begin and stretch.is_whole)


def _judge_head(work: Work, head: Head) -> None:
    fault = work.program.run([head.text()], work.room.file("head"))
    if fault is not None:
        position = head.positions[fault.line - 1]
        raise Unreplayed(FAULTY, f"{position.path}: line {position.line}: {fault.name}")


def _part(work: Work, engine: Engine, plans: int, body: Sequence[Stretch], many: int, estimate: int) -> list[Parted]:
    """What came of each stretch, in order, up to an odd line: what follows that line doesn't count.

    If there are more restarts before the line than a part takes, the log is rejected.
    """
    found: list[Parted | None] = [None] * len(body)
    until, lines, restarts = len(body), 0, 0

    def given() -> Iterator[Parting]:
        for number, stretch in enumerate(body):
            if number < until and restarts + plans <= work.most:
                yield Parting(work.room, number, stretch, many, work.chunk, work.most)

    work.progress.begin()
    for number, parted in engine.each(_numbered, given()):
        found[number] = parted
        if parted.is_odd:
            until = min(until, number + 1)
        lines, restarts = lines + parted.lines, restarts + parted.restarts
        work.progress.tell("split", lines, max(lines, estimate), False)
    return _counted(work, plans, [split for split in found[:until] if split is not None])


def _counted(work: Work, plans: int, parted: list[Parted]) -> list[Parted]:
    """The same, unless there are too many restarts."""
    restarts = sum(split.restarts for split in parted)
    if restarts + plans > work.most:
        raise Unreplayed(
            FAULTY,
            f"{work.logs[0].path}: the log has at least {restarts} restarts and {plans} plans. Each part has all of "
            f"them, and at most {work.most} lines",
        )
    return parted


def _numbered(parting: Parting) -> tuple[int, Parted]:
    return parting.number, part(parting)


def _finish(
    work: Work, engine: Engine, plans: int, parted: Sequence[Parted], many: int, is_replayed: bool
) -> list[Done]:
    """What came of each bucket. Where one has a fault, or an odd line was met, the log's first fault is raised."""
    events, restarts = sum(split.events for split in parted), sum(split.restarts for split in parted)
    counts = tuple(split.pieces for split in parted)
    program = work.program if is_replayed else None
    given = (
        Bucket(work.room, number, counts, plans, restarts, work.most, not events and not number, program)
        for number in range(many)
    )
    done: list[Done] = []
    replayed = 0
    work.progress.begin()
    for bucket in engine.each(finish, given):
        done.append(bucket)
        replayed += bucket.events
        work.progress.tell("replayed" if is_replayed else "written", replayed, events, True)
    for bucket in done:
        if bucket.large is not None:
            name = bucket.large.name.decode(errors="backslashreplace")
            raise Unreplayed(
                FAULTY,
                f"instance {name} has {bucket.large.lines} events: with {restarts} restarts and "
                f"{plans} plans, that is more than the {work.most} lines of a part",
            )
    faulty = [fault for bucket in done for fault in bucket.faulty]
    if faulty or any(split.is_odd for split in parted):
        raise fault_of(work.logs, faulty, work.program, work.chunk)
    return done


def fault_of(logs: Sequence[Log], found: Sequence[Faulty], program: Program, chunk: int) -> Unreplayed:
    """The log's first fault."""
    return first_fault(logs, found, lambda line: judge(program, line), chunk)
