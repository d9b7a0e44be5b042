"""Where a fault stands in a log: a part tells it by the part's lines, so the log is read once more, for its first."""
from __future__ import annotations

from typing import Callable, Optional, Sequence

from osb_replay_log.faults import FAULTY, UNABLE, Unreplayed
from osb_replay_log.lines import LONGEST, Kind, is_head, kind_of, name_in
from osb_replay_log.logs import Log, numbered
from osb_replay_log.parts import Faulty

Judge = Callable[[bytes], Optional[str]]
"""Tells what fault a line has that stands behind an event."""


def first_fault(logs: Sequence[Log], found: Sequence[Faulty], judge: Judge, chunk: int) -> Unreplayed:
    """The log's first fault: one of those that parts have told, or that of the first odd line."""
    wanted: dict[bytes, tuple[int, str]] = {faulty.name: (faulty.nth, faulty.fault) for faulty in found}
    counts = dict.fromkeys(wanted, 0)
    is_behind = False
    for line in numbered(logs, chunk):
        name = name_in(line.text)
        is_behind = is_behind or not is_head(line.text)
        fault: str | None = None
        if name is None:
            if is_behind and kind_of(line.text) in (Kind.ODD, Kind.PLAN):
                fault = judge(line.text[: LONGEST + 1])
                if fault is None:
                    return Unreplayed(
                        UNABLE, f"{logs[line.log].path}: line {line.line}: osb-replay finds no fault in it"
                    )
        elif name in wanted:
            counts[name] += 1
            if counts[name] == wanted[name][0]:
                fault = wanted[name][1]
        if fault is not None:
            return Unreplayed(FAULTY, f"{logs[line.log].path}: line {line.line}: {fault}")
    return Unreplayed(UNABLE, "a part has a fault that isn't in the log: the log has changed during the replay")
