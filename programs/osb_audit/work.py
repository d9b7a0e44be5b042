"""The work: journals are split by instance, and each instance is judged, both by workers."""
from __future__ import annotations

import os
import shlex
from collections import Counter
from itertools import accumulate
from typing import Iterator, Mapping, NamedTuple, Sequence
from zlib import crc32

from osb_audit import tails
from osb_audit.judging import LOST, NEVER, RECENT, Bucket, Difference, Gap, Judged, Looking, judge, look
from osb_audit.lines import BadLine, Position
from osb_audit.settings import Settings, names_events, settings_in
from osb_audit.splitting import Heading, Split, Splitting, split
from osb_audit.words import PROGRAM
from osb_replay_log.engines import Engine
from osb_replay_log.faults import UNUSABLE, Unreplayed, reason
from osb_replay_log.logs import Log, Stretch, found, stretches
from osb_replay_log.program import Program
from osb_replay_log.progress import Progress
from osb_replay_log.spool import Room

_BUCKET = 16 << 20
"""About how many bytes a bucket has."""
_MOST_BUCKETS = 4096
_ENDINGS = (".jsonl", ".jsonl.gz")


class Work(NamedTuple):
    """What is audited, by what, and where."""

    logs: Sequence[Log]
    names: Mapping[str, str]
    """What each file is called in the report, by its path."""
    program: Program
    room: Room
    chunk: int
    """How many bytes of a journal a worker takes at once."""
    progress: Progress
    until: int | None = None
    """The time of the last lines that count, if the programs go on while their journals are read."""


class Audited(NamedTuple):
    """What came of it. Positions are files with the numbers of lines, from 1."""

    judged: list[Judged]
    processes: Counter[str]
    """How many processes of each side there are."""
    lost: int
    torn: list[str]
    """The positions of lines that were cut off."""
    positions: Positions

    @property
    def differences(self) -> list[Difference]:
        """Those of all instances, by their ids."""
        return sorted(
            (difference for judged in self.judged for difference in judged.differences), key=lambda it: it.instance
        )


class Positions:
    """Which line of which file a line of a stretch is."""

    def __init__(self, body: Sequence[Stretch], splits: Sequence[Split], names: Mapping[str, str]) -> None:
        self._files = [names[stretch.log.path] for stretch in body]
        before = [0, *accumulate(split_.lines for split_ in splits)]
        firsts = {stretch.log.path: at for at, stretch in reversed(list(enumerate(body)))}
        self._before = [before[at] - before[firsts[stretch.log.path]] for at, stretch in enumerate(body)]

    def locate(self, position: Position) -> tuple[str, int]:
        """The file, and the number of the line in it."""
        return self._files[position.stretch], self._before[position.stretch] + position.line + 1


def files_in(paths: Sequence[str]) -> dict[Log, str]:
    """The files of these journals, each once, with the names by which the user knows them. A folder stands for all that
    end with .jsonl or .jsonl.gz in it, or with a number behind that. Raises `Unreplayed` if one can't be read, and if
    there is none in a folder.
    """
    logs: dict[str, tuple[Log, str]] = {}
    for path in paths:
        for name in _journals_in(path) if os.path.isdir(path) else [path]:
            log = found(name)._replace(path=os.path.realpath(name))
            logs.setdefault(log.path, (log, name))
    return dict(logs.values())


def _journals_in(folder: str) -> list[str]:
    names, folders = _scanned(folder)
    if names:
        return names
    why = f"{folder}: no file in it ends with .jsonl or .jsonl.gz"
    below = " ".join(shlex.quote(inner) for inner in folders if _has_journals(inner))
    if below:
        raise Unreplayed(UNUSABLE, f"{why}. Name its folders: {PROGRAM} {below}")
    raise Unreplayed(UNUSABLE, f"{why}: name the folder of --journal")


def _scanned(folder: str) -> tuple[list[str], list[str]]:
    """The paths of the journals in a folder, and of its folders."""
    try:
        with os.scandir(folder) as entries:
            found_here = sorted(entries, key=lambda it: it.path)
    except OSError as error:
        raise Unreplayed(UNUSABLE, f"{folder}: it can't be read: {reason(error)}") from error
    journals = [entry.path for entry in found_here if entry.is_file() and _is_journal(entry.name)]
    return journals, [entry.path for entry in found_here if entry.is_dir()]


def _has_journals(folder: str) -> bool:
    """Whether a folder has journals, as far as it can be read."""
    try:
        return bool(_scanned(folder)[0])
    except Unreplayed:
        return False


def _is_journal(name: str) -> bool:
    stem, _, last = name.rpartition(".")
    return name.endswith(_ENDINGS) or last.isdigit() and stem.endswith(_ENDINGS)


def audit(work: Work, engine: Engine) -> Audited:
    """Has the journals split and each instance judged. Raises `Unreplayed` if a journal can't be used."""
    body = [stretch for log in work.logs for stretch in stretches(log, 0, work.chunk)]
    many = max(1, min(_MOST_BUCKETS, -(-sum(_size(log) for log in work.logs) // _BUCKET)))
    splits = _split(work, engine, body, many)
    positions = Positions(body, splits, work.names)
    _check(body, splits, positions)
    _check_copies(splits, positions)
    headings = [heading for split_ in splits for heading in split_.headings]
    settings, naming = _settings(splits, positions)
    gaps = tuple(_gaps(headings, work.until))
    counts = tuple(split_.pieces for split_ in splits)
    buckets = [Bucket(work.room, number, counts, work.program, settings, gaps, naming) for number in range(many)]
    doubts = _doubts(engine, splits, buckets)
    given = (bucket._replace(doubts=doubts) for bucket in buckets)
    judged = _judge(work, engine, given, sum(split_.events for split_ in splits), positions)
    places = [Position(split_.number, line) for split_ in splits for line in split_.torn]
    torn = ["{}:{}".format(*positions.locate(place)) for place in places]
    return Audited(judged, _processes(headings), sum(heading.missing for heading in headings), torn, positions)


def _gaps(headings: Sequence[Heading], until: int | None) -> Iterator[Gap]:
    for heading in headings:
        if heading.event == "lost":
            yield Gap(heading.before, heading.time, LOST)
    if until is not None:
        yield Gap(until, NEVER, RECENT)


def _size(log: Log) -> int:
    return log.size * 8 if log.is_gzip else log.size


def _split(work: Work, engine: Engine, body: Sequence[Stretch], many: int) -> list[Split]:
    given = (Splitting(work.room, number, stretch, many, work.chunk) for number, stretch in enumerate(body))
    work.progress.begin()
    splits, lines = [], 0
    for split_ in engine.each(split, given):
        splits.append(split_)
        lines += split_.lines
        work.progress.tell("split", lines, lines, False)
    return sorted(splits, key=lambda it: it.number)


def _check(body: Sequence[Stretch], splits: Sequence[Split], positions: Positions) -> None:
    """Raises `Unreplayed` at the first line that is no line of a journal."""
    for split_ in splits:
        if split_.bad is not None:
            raise unusable(positions, Position(split_.number, split_.bad[0]), split_.bad[1])
    for one, other, stretch, following in zip(splits, splits[1:], body, body[1:]):
        is_within = stretch.log == following.log and other.lines > 0
        if is_within and one.ends_torn and not other.begins_anew:
            raise unusable(positions, Position(one.number, one.torn[-1]), "it is no line of a journal")


def _check_copies(splits: Sequence[Split], positions: Positions) -> None:
    """Raises `Unreplayed` if two lines `started` are the same: each process has a name of its own, and each file begins
    with a line of another time.
    """
    seen: dict[tuple[str, int], Position] = {}
    for split_ in splits:
        for heading in split_.headings:
            position = Position(split_.number, heading.line)
            first = (
                seen.setdefault((heading.process, heading.time), position) if heading.event == "started" else position
            )
            if first != position:
                (one, line), (other, again) = positions.locate(first), positions.locate(position)
                why = "one is a copy of the other. Name each journal once"
                raise Unreplayed(
                    UNUSABLE, f"{one}: line {line}: {other}, line {again} is the same line `started`: {why}"
                )


def unusable(positions: Positions, position: Position, why: str) -> Unreplayed:
    """A line that can't be used."""
    path, line = positions.locate(position)
    return Unreplayed(UNUSABLE, f"{path}: line {line}: {why}")


def _settings(splits: Sequence[Split], positions: Positions) -> tuple[dict[str, Settings], frozenset[str]]:
    """Those of the processes of brokers, and which processes name each event."""
    settings: dict[str, Settings] = {}
    naming = set()
    for split_ in splits:
        for heading in split_.headings:
            if heading.event != "started":
                continue
            try:
                if names_events(heading.text, heading.side):
                    naming.add(heading.process)
                if heading.side == "broker":
                    settings[heading.process] = settings_in(heading.text)
            except BadLine as error:
                raise unusable(positions, Position(split_.number, heading.line), str(error)) from error
    return settings, frozenset(naming)


def _processes(headings: Sequence[Heading]) -> Counter[str]:
    return Counter(side for side, _ in {(heading.side, heading.process) for heading in headings})


def _doubts(engine: Engine, splits: Sequence[Split], buckets: Sequence[Bucket]) -> tails.Doubts:
    """The changes of which no line of their process shows that they were committed, and what the lines of others show
    of them. Only claims show something of each other.
    """
    left = tails.joined(tail for split_ in splits for tail in split_.tails.values())
    unknown = tails.doubts(left, {})
    shown: dict[tails.Change, bool] = {}
    instances: dict[int, set[str]] = {}
    for tail in left:
        if len(tail.claims) > 1:
            for claim in tail.claims:
                instances.setdefault(crc32(claim.instance) % len(buckets), set()).add(claim.instance.decode())
    given = (Looking(buckets[at]._replace(doubts=unknown), frozenset(its)) for at, its in instances.items())
    for seen in engine.each(look, given):
        shown.update(seen)
    return tails.doubts(left, shown)


def _judge(work: Work, engine: Engine, buckets: Iterator[Bucket], lines: int, positions: Positions) -> list[Judged]:
    judged: list[Judged] = []
    done = 0
    work.progress.begin()
    for result in engine.each(judge, buckets):
        if result.bad is not None:
            raise unusable(positions, *result.bad)
        judged.append(result)
        done += result.lines
        work.progress.tell("judged", done, lines, True)
    return judged
