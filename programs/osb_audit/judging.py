"""Judging: a worker gathers a bucket, goes through the lines of each of its instances, has the proved program step the
events, and compares what the program traces with the journal.

Before that, a worker looks for what the lines of a bucket show of the last changes of killed processes.
"""
from __future__ import annotations

from collections import Counter
from dataclasses import dataclass, field
from itertools import chain, combinations, islice
from typing import Collection, Iterator, Mapping, NamedTuple, Sequence

from osb_audit.events import COLUMNS, STEP, Event, Stop, Story
from osb_audit.lines import INSTANCE, BadLine, Line, Position, read
from osb_audit.ordering import shown
from osb_audit.settings import Settings
from osb_audit.story import story
from osb_audit.tails import Change, Doubts
from osb_replay_log.faults import UNABLE, Unreplayed, unread, unwritten
from osb_replay_log.program import Program
from osb_replay_log.spool import Room, shares

TAB = "\t"
MOST = 99_000
"""How many lines one run of the program is given at most."""
FULL = 40_000
"""From how many lines on a run is begun."""
LOST = "lines were lost, because the journal couldn't be written"
RECENT = "it went on after the audit had begun"
UNSHOWN = "last changes of killed processes: judged as not committed, because nothing shows that they were"
NEVER = 1 << 63
"""A time behind all lines."""
_CHOICES = 14
"""How many choices are tried at most of the changes that weren't committed, besides all of them."""
TOO_MANY = f"it has more than {MOST:,} events"


class Gap(NamedTuple):
    """A time of which lines are missing."""

    begin: int
    end: int
    why: str


class Bucket(NamedTuple):
    """What a worker is given: a bucket's number, how many pieces each stretch has, and what all instances share."""

    room: Room
    number: int
    pieces: tuple[int, ...]
    program: Program
    settings: Mapping[str, Settings]
    gaps: tuple[Gap, ...]
    naming: frozenset[str]
    """The processes whose drivers name each event."""
    doubts: Doubts = {}


class Difference(NamedTuple):
    """The first difference of an instance."""

    instance: str
    position: Position
    event: str
    """The event of the model, or empty if none is known."""
    why: str
    model: str
    journal: str
    trace: tuple[str, ...]
    """The lines of the trace up to there."""


@dataclass
class Judged:
    """What came of a bucket."""

    instances: int = 0
    lines: int = 0
    events: int = 0
    differences: list[Difference] = field(default_factory=list)
    disagreements: list[tuple[str, str]] = field(default_factory=list)
    """The instance, and what both sides disagree about at the end."""
    unjudged: list[tuple[str, Position, str, bool]] = field(default_factory=list)
    """The instance, from where on, why, and whether nothing of it was judged."""
    notes: Counter[str] = field(default_factory=Counter)
    bad: tuple[Position, str] | None = None


class _Batch:
    """Stories that are judged by one run of the program."""

    def __init__(self, bucket: Bucket) -> None:
        self.bucket = bucket
        self.stories: list[Story] = []
        self.size = 0

    def add(self, story_: Story) -> None:
        self.stories.append(story_)
        self.size += len(story_.events)

    def judged(self) -> Iterator[tuple[Story, Difference | None]]:
        """Each story with its first difference, if it has one."""
        trace = self._trace() if self.size else iter(())
        for story_ in self.stories:
            lines = [next(trace) for _ in story_.events]
            yield story_, _difference(story_, lines)

    def _trace(self) -> Iterator[str]:
        """The lines of the trace, behind the header."""
        schedule = "".join(f"{event.text}\n" for story_ in self.stories for event in story_.events).encode()
        report = self.bucket.room.begin()
        fault = self.bucket.program.run([schedule], report)
        if fault is not None:
            line = schedule.split(b"\n")[fault.line - 1].decode(errors="replace")
            raise Unreplayed(UNABLE, f"osb-replay rejects a line of the audit: {fault.name}: {line}")
        lines = report.read_text().splitlines()
        report.unlink()
        if len(lines) != self.size + 1 or lines[0].split(TAB) != COLUMNS:
            raise Unreplayed(UNABLE, "osb-replay has written no trace of each event: it is of another version")
        return iter(lines[1:])


def _difference(story_: Story, lines: Sequence[str]) -> Difference | None:
    for at, (event, line) in enumerate(zip(story_.events, lines)):
        columns = line.split(TAB)
        for column, wanted in event.wanted:
            if columns[column] != wanted:
                return _of_event(story_, event, columns, lines[: at + 1])
    stop = story_.stop
    if stop is None or not stop.is_difference:
        return None
    return Difference(story_.instance, stop.position, "", stop.why, stop.model, stop.journal, _numbered(lines))


def _of_event(story_: Story, event: Event, columns: Sequence[str], lines: Sequence[str]) -> Difference:
    wrong = [(column, wanted) for column, wanted in event.wanted if columns[column] != wanted]
    if wrong[0][0] == STEP:
        wrong = wrong[:1]
        why = "the event can't happen here: the model skips it"
    else:
        why = "after the event, the model has something else than the journal"
    model = ", ".join(f"{COLUMNS[column]} {columns[column]}" for column, _ in wrong)
    journal = ", ".join(f"{COLUMNS[column]} {wanted}" for column, wanted in wrong)
    return Difference(story_.instance, event.position, event.text, why, model, journal, _numbered(lines))


def _numbered(lines: Sequence[str]) -> tuple[str, ...]:
    """The lines of a trace, numbered from 1: the program has traced other instances before them."""
    return tuple(f"{number}{TAB}{line.partition(TAB)[2]}" for number, line in enumerate(lines, 1))


# ---- a bucket


def judge(bucket: Bucket) -> Judged:
    """Judges the instances of a bucket."""
    try:
        return _Judge(bucket).judged()
    except OSError as error:
        raise unwritten(bucket.room.folder, error) from error


class _Judge:
    """The instances of a bucket, and what has come of them."""

    def __init__(self, bucket: Bucket) -> None:
        self.bucket, self.found = bucket, Judged()
        self.doubtful: dict[str, list[Line]] = {}
        """The lines of the instances of which something is unshown, until they are judged."""

    def judged(self) -> Judged:
        batch = _Batch(self.bucket)
        for instance, texts in sorted(_texts(self.bucket).items()):
            found = self._story(instance, texts)
            if found is None:
                break
            if batch.size + len(found.events) > MOST:
                self._take(batch)
                batch = _Batch(self.bucket)
            batch.add(found)
            if batch.size > FULL:
                self._take(batch)
                batch = _Batch(self.bucket)
        self._take(batch)
        return self.found

    def _story(self, instance: str, texts: list[bytes]) -> Story | None:
        """What the lines of an instance have come to; None if one of them can't be read."""
        lines = []
        for text in texts:
            position, rest = _read_position(text)
            try:
                lines.append(read(position, rest))
            except BadLine as error:
                self.found.bad = position, str(error)
                return None
        found = self._told(instance, lines)
        if found.unshown:
            self.doubtful[instance] = lines
        self.found.instances += 1
        self.found.lines += len(lines)
        return found

    def _told(self, instance: str, lines: list[Line], without: Collection[Change] = ()) -> Story:
        kept, why = _before_gaps(lines, self.bucket.gaps)
        found = Story(instance, [], None, [], {})
        if kept:
            found = story(instance, kept, self.bucket.settings, self.bucket.doubts, without, self.bucket.naming)
        if len(kept) < len(lines) and (found.stop is None or not found.stop.is_difference):
            first = min((line for line in lines if line not in set(kept)), key=lambda it: it.time)
            found = found._replace(stop=Stop(first.position, False, why), disagreements=[])
        if len(found.events) > MOST:
            stop = Stop(found.events[MOST].position, False, TOO_MANY)
            found = found._replace(events=found.events[:MOST], stop=stop, disagreements=[])
        return found

    def _take(self, batch: _Batch) -> None:
        for found, difference in batch.judged():
            if found.unshown and (difference is not None or found.disagreements):
                other = self._without(found, difference)
                found, difference = (other, None) if other is not None else (found, difference)
            its = self.found
            its.events += len(found.events)
            its.notes.update(found.notes)
            if difference is not None:
                its.differences.append(difference)
            elif found.stop is not None:
                its.unjudged.append((found.instance, found.stop.position, found.stop.why, not found.events))
            its.disagreements += [(found.instance, disagreement) for disagreement in found.disagreements]
        self.doubtful.clear()

    def _fits(self, instance: str, lines: list[Line]) -> bool:
        """Whether nothing differs in these lines."""
        batch = _Batch(self.bucket)
        batch.add(self._told(instance, lines))
        ((_, differs),) = batch.judged()
        return differs is None

    def _without(self, found: Story, difference: Difference | None) -> Story | None:
        """The story without some of the changes of which nothing shows that they were committed, if nothing differs
        then. A change that differs by itself stays: its process has made it, whether it was committed or not. But one
        may differ only because it is judged behind a request that hasn't seen it.
        """
        lines = self.doubtful[found.instance]
        end = next(
            (line.time for line in lines if difference is not None and line.position == difference.position), NEVER
        )
        fits = end < NEVER and self._fits(found.instance, [line for line in lines if line.time <= end])
        doubtful = [change for change, time in found.unshown.items() if time < end or time == end and fits]
        for without in _choices(doubtful):
            batch = _Batch(self.bucket)
            batch.add(self._told(found.instance, lines, without))
            ((other, differs),) = batch.judged()
            if differs is None and not other.disagreements and _is_as_far(other.stop, found.stop):
                return other._replace(notes={**other.notes, UNSHOWN: len(without)})
        return None


def _is_as_far(stop: Stop | None, before: Stop | None) -> bool:
    """Whether a story is judged as far as it was before."""
    return stop is None or stop == before or stop.why in (LOST, RECENT)


def _choices(doubtful: Sequence[Change]) -> Iterator[Collection[Change]]:
    """Which of these weren't committed, perhaps: as few as can be first, and in any case all."""
    choices = chain.from_iterable(combinations(doubtful, many) for many in range(1, len(doubtful)))
    yield from islice(choices, _CHOICES)
    if doubtful:
        yield doubtful


def _texts(bucket: Bucket, instances: Collection[str] | None = None) -> dict[str, list[bytes]]:
    """The lines of each instance, or of each of these."""
    found: dict[str, list[bytes]] = {}
    for share in shares(bucket.room, bucket.pieces, bucket.number):
        try:
            lines = share.read().split(b"\n")
        except OSError as error:
            raise unread(str(share.path), error) from error
        for line in lines[:-1]:
            instance = INSTANCE.search(line)
            assert instance is not None  # so it was split
            name = instance[1].decode()
            if instances is None or name in instances:
                found.setdefault(name, []).append(line)
    return found


def _read_position(text: bytes) -> tuple[Position, bytes]:
    """A line of a bucket, and its position."""
    stretch, number, rest = text.split(b":", 2)
    return Position(int(stretch), int(number)), rest


def _before_gaps(lines: list[Line], known: Sequence[Gap]) -> tuple[list[Line], str]:
    """The lines of an instance that come before the first gap in its life, and why there is one."""
    first, last = min(line.time for line in lines), max(line.time for line in lines)
    gaps = [gap for gap in known if first <= gap.end and last > gap.begin]
    if not gaps:
        return lines, ""
    gap = min(gaps)
    return [line for line in lines if line.time <= gap.begin], gap.why


# ---- what the lines of others show


class Looking(NamedTuple):
    """What a worker is given: a bucket, and its instances that killed processes have changed last."""

    bucket: Bucket
    instances: frozenset[str]


def look(looking: Looking) -> dict[Change, bool]:
    """Which of the last changes of killed processes were committed, as far as these instances show that."""
    bucket = looking.bucket
    found: dict[Change, bool] = {}
    for texts in _texts(bucket, looking.instances).values():
        try:
            lines = [read(*_read_position(text)) for text in texts]
        except BadLine:
            continue  # whoever judges the instance reports that
        found.update(shown(_before_gaps(lines, bucket.gaps)[0], bucket.doubts))
    return found
