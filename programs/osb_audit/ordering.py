"""The lines of an instance, in the order in which they happened, without the changes that were never committed."""
from __future__ import annotations

from bisect import bisect
from typing import Collection, Iterable, Iterator, Mapping, NamedTuple, Sequence

from osb_audit.lines import Line
from osb_audit.tails import Change, Doubts

Row = tuple[str, str]
"""A row of one side's store: the side, and the binding, or empty for the instance."""


def row_of(line: Line) -> Row:
    """The row that a change is of."""
    return line.side, line.key


class Counted(NamedTuple):
    """The lines that count, in their order, and the changes among them of which nothing shows that they do."""

    lines: list[Line]
    unshown: list[Line]


def ordered(lines: Iterable[Line], doubts: Doubts, without: Collection[Change] = ()) -> Counted:
    """The lines by their times, and the changes of a row also by what each has found.

    A change that was undone doesn't count. If nobody knows, because the store didn't say or the process was killed, the
    change counts if the next change of the row has found it, or if there is none and a request has seen it. If nothing
    shows whether the last change of a killed process was committed, it counts unless it is one of `without`.
    """
    left, undone = _left(lines)
    uncommitted = _uncommitted(left, undone, doubts, without)
    counted = [line for line in left if line not in uncommitted]
    unsure = (line for line in _last(counted) if line.change not in undone and doubts.get(line.change, True) is None)
    unshown = [line for line in unsure if line.before != line.after]
    return Counted(_postponed(_chained(counted), undone), unshown)


def _last(lines: Sequence[Line]) -> Iterator[Line]:
    """The last change of each row, and before it those of the same broker: one commit may have several."""
    last: dict[Row, str | None] = {}
    for line in reversed(lines):
        if line.event == "changed":
            row = row_of(line)
            if last.setdefault(row, line.process) == line.process:
                yield line
            if line.side == "platform" or last[row] != line.process:
                last[row] = None


def shown(lines: Iterable[Line], doubts: Doubts) -> Iterator[tuple[Change, bool]]:
    """The changes of which the lines of others show that they were committed, or that they weren't."""
    left, undone = _left(lines)
    uncommitted = _uncommitted(left, undone, doubts, ())
    following: dict[Row, Line] = {}
    for line in reversed([line for line in left if line.event == "changed"]):
        row, is_lost = row_of(line), line in uncommitted
        if line.change in doubts and line.change not in undone and line.before != line.after:
            follower = following.get(row)
            if follower is not None and follower.before == line.after and not is_lost:
                yield line.change, True
            elif is_lost and (follower is None or follower.change not in doubts and follower.before == line.before):
                yield line.change, False
        if not is_lost:
            following[row] = line


def _left(lines: Iterable[Line]) -> tuple[list[Line], frozenset[Change]]:
    """The lines by their times, without the changes that were surely undone, and the changes that others undo."""
    found = sorted(lines, key=lambda it: (it.time, it.position))
    undone = {line.change: bool(line.of.get("doubtful")) for line in found if line.event == "undone"}
    left = [
        line
        for line in found
        if line.event != "undone" and not (line.event == "changed" and undone.get(line.change) is False)
    ]
    return left, frozenset(undone)


def _uncommitted(
    lines: Sequence[Line], undone: frozenset[Change], doubts: Doubts, without: Collection[Change]
) -> set[Line]:
    """The changes that don't count, though nothing says that they were undone."""
    last: dict[tuple[str, Row], Line] = {}
    for line in lines:
        if not _is_silent(line, last.get((line.process, row_of(line)))):
            last[line.process, row_of(line)] = line
    seen = {pair for line in lines if line.event == "answered" and "saw" in line.of for pair in _seen(line)}
    changes = [line for line in lines if line.event == "changed"]
    known = {line for line in changes if line.change not in undone and doubts.get(line.change) is not None}
    unsure = {
        line
        for line in changes
        if line not in known
        and (line.change in undone or line.change in doubts or last[line.process, row_of(line)] is line)
    }
    found = {line for line in changes if line.change in without or line in known and not doubts[line.change]}
    following: dict[Row, Line] = {}  # the next change of each row that counts
    for line in reversed(changes):
        row = row_of(line)
        if line in unsure and _is_lost(line, following.get(row), line.change in undone, seen):
            found.add(line)
        elif line not in found:
            following[row] = line
    found |= _overtaken([line for line in changes if line not in found], doubts)
    return found | _made_before([line for line in changes if line not in found], unsure)


def _is_silent(line: Line, latest: Line | None) -> bool:
    """Whether a line doesn't show that the change before it is committed: a request has only arrived, or a broker has
    failed with another request than the one that made the change.
    """
    if line.event != "answered" or line.side != "broker" or "saw" in line.of:
        return line.event == "arrived"
    return line.of["status"] >= 500 and (latest is None or latest.visit != line.visit)


def _overtaken(changes: Sequence[Line], doubts: Doubts) -> set[Line]:
    """The last changes of killed platforms that have found what another change has found, too. Each record of a row is
    another one, so that the other was committed shows that these weren't.
    """
    found = {line for line in changes if line.side == "platform" and doubts.get(line.change, True) is None}
    if not found:
        return found
    others = {(row_of(line), line.before) for line in changes if line not in found and line.before != line.after}
    latest = {row_of(line): line for line in changes}
    return {line for line in found if latest[row_of(line)] is line and (row_of(line), line.before) in others}


def _is_lost(line: Line, following: Line | None, is_doubtful: bool, seen: set[tuple[Row, str]]) -> bool:
    """Whether a change of which nobody knows doesn't count: the next one hasn't found what it has left, or there is
    none, and no request has seen it.
    """
    if following is not None:
        return following.before != line.after
    return is_doubtful and (row_of(line), line.after) not in seen


def _made_before(changes: Sequence[Line], unsure: set[Line]) -> set[Line]:
    """The changes of which nobody knows, and that have left what another one had left already. The last change of a row
    isn't one of them.
    """
    texts: dict[Row, str] = {}
    latest = {row_of(line): line for line in changes}
    found: set[Line] = set()
    for line in changes:
        row, after = row_of(line), line.after
        if line in unsure and line is not latest[row] and texts.get(row) == after != line.before:
            found.add(line)
        texts[row] = after
    return found


def _chained(lines: list[Line]) -> list[Line]:
    """The same lines. If a change hasn't found what the change before has left, and one of another process has, that
    process comes first: the clocks of two processes may differ.
    """
    texts: dict[Row, str] = {}
    done: set[Line] = set()
    found: list[Line] = []

    def take(line: Line) -> None:
        done.add(line)
        found.append(line)
        if line.event == "changed":
            texts[row_of(line)] = line.after

    for at, line in enumerate(lines):
        if line in done:
            continue
        if line.event == "changed" and row_of(line) in texts and line.before != texts[row_of(line)]:
            earlier = _fitting(lines[at + 1 :], line, texts[row_of(line)], done)
            if earlier is not None:
                until = lines.index(earlier) + 1
                for other in lines[at + 1 : until]:
                    if other.process == earlier.process and other not in done:
                        take(other)
        take(line)
    return found


def _fitting(lines: Iterable[Line], line: Line, text: str, done: set[Line]) -> Line | None:
    """The first change of the same row by another process that has found this."""
    for other in lines:
        is_of_row = other.event == "changed" and row_of(other) == row_of(line)
        if is_of_row and other not in done and other.process != line.process and other.before == text:
            return other
    return None


def _postponed(lines: list[Line], undone: frozenset[Change]) -> list[Line]:
    """The same lines, with changes behind the arrival of a request that was decided on what was held before them.

    The line of a change is written before its commit. A request that arrives in between doesn't see the change. One
    commit may have several changes of a row, each of which has found what the one before has left. The requests that
    make them have all arrived before the first of these changes.
    """
    changes: dict[Row, list[int]] = {}
    arrived: dict[tuple[str, int], int] = {}
    moves: dict[int, int] = {}
    for at, line in enumerate(lines):
        if line.side == "broker" and line.event == "changed":
            changes.setdefault(row_of(line), []).append(at)
        elif line.event == "arrived" and line.visit is not None:
            arrived[line.visit] = at
    for at, line in enumerate(lines):
        if line.event == "answered" and "saw" in line.of and line.visit in arrived:
            begun = arrived[line.visit]
            for row, saw in _seen(line):
                late = _unseen(lines, changes.get(row, []), arrived, begun, at, saw)
                known = [lines[number] for number in late if lines[number].change not in undone]
                if not any(_is_committed(line, lines[begun]) for line in known):
                    moves.update((number, max(moves.get(number, 0), begun)) for number in late)
    return list(_moved(lines, moves)) if moves else lines


def _seen(line: Line) -> Iterator[tuple[Row, str]]:
    """The rows that a request was decided on, and what it has seen there."""
    if line.saw is not None:
        yield (line.side, line.key), line.saw
    if line.key and line.saw_instance is not None:
        yield (line.side, ""), line.saw_instance


def _unseen(
    lines: Sequence[Line],
    changes: Sequence[int],
    arrived: Mapping[tuple[str, int], int],
    begun: int,
    end: int,
    saw: str,
) -> Sequence[int]:
    """The changes before a request's arrival that the request hasn't seen, or none if it has seen another one."""
    behind = bisect(changes, begun)
    if behind == 0 or lines[changes[behind - 1]].after == saw:
        return ()
    if any(lines[number].after == saw for number in changes[behind : bisect(changes, end)]):
        return ()
    for first in range(behind - 1, -1, -1):
        at = changes[first]
        if lines[at].process != lines[changes[behind - 1]].process or _is_over(lines, arrived, at, begun):
            return ()
        if lines[at].before == saw:
            return changes[first:behind]
    return ()


def _is_committed(change: Line, arrival: Line) -> bool:
    """Whether a request has arrived after a change of the same process was committed, as its line says."""
    number: int = arrival.of.get("committed", 0)
    return change.process == arrival.process and change.of["change"] <= number


def _is_over(lines: Sequence[Line], arrived: Mapping[tuple[str, int], int], at: int, end: int) -> bool:
    """Whether a later line of the same process shows that a change is committed: one of the same request, or of a
    request that has arrived behind the change, and has changed the row again or seen what the change has left.
    """
    change = lines[at]
    row = row_of(change)
    for line in lines[at + 1 : end]:
        if line.visit is None or line.process != change.process:
            continue
        if line.visit == change.visit:
            return True
        if arrived.get(line.visit, -1) > at:
            if line.event == "changed" and row_of(line) == row:
                return True
            if line.event == "answered" and "saw" in line.of and (row, change.after) in _seen(line):
                return True
    return False


def _moved(lines: Sequence[Line], moves: dict[int, int]) -> Iterator[Line]:
    waiting: dict[int, list[Line]] = {}
    for at, line in enumerate(lines):
        if at in moves:
            waiting.setdefault(moves[at], []).append(line)
        else:
            yield line
        yield from waiting.pop(at, ())
