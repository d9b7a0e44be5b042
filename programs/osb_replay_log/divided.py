"""The folder of a log that is parted for another engine: its parts, what merging has to know, and the reports."""
from __future__ import annotations

import json
import os
import re
from pathlib import Path
from typing import NamedTuple, TypeVar

from osb_replay_log.faults import UNREAD, UNUSABLE, Unreplayed, reason
from osb_replay_log.lines import name_in
from osb_replay_log.logs import Log, found
from osb_replay_log.parts import Faulty, faulty_line
from osb_replay_log.reports import Report, report_in
from osb_replay_log.work import Outcome

Kind = TypeVar("Kind")

_NAME = "log.json"
_TOLD = re.compile(rb"^osb-replay: line (\d{1,9}): (\w+)$", re.MULTILINE)


class Divided(NamedTuple):
    """What is known of the log and its parts."""

    folder: str
    logs: tuple[Log, ...]
    plans: int
    restarts: int
    events: tuple[int, ...]
    """How many lines each part has that are neither plans nor comments: a report counts them all."""

    @property
    def parts(self) -> int:
        """How many there are."""
        return len(self.events)

    def file(self, number: int, ending: str) -> Path:
        """A part's file, from 1."""
        return Path(self.folder, f"part-{number:06}.{ending}")


def begin(folder: str) -> None:
    """Makes the folder. One with something in it is refused."""
    try:
        os.makedirs(folder, exist_ok=True)
        if os.listdir(folder):
            raise Unreplayed(UNUSABLE, f"{folder}: the folder isn't empty: pass a new one, or an empty one")
    except OSError as error:
        raise Unreplayed(UNUSABLE, f"{folder}: it can't be used: {reason(error)}") from error


def write(folder: str, logs: tuple[Log, ...], outcome: Outcome) -> Divided:
    """Gives the parts their names. That all are there is told by what is written last."""
    events: list[int] = []
    for number, path in enumerate(sorted(outcome.files), 1):
        events.append(_lines(path) - outcome.plans)
        os.replace(path, Path(folder, f"part-{number:06}.schedule"))
    divided = Divided(folder, logs, outcome.plans, outcome.restarts, tuple(events))
    new = Path(folder, f"{_NAME}.new")
    about = {
        "events": events,
        "logs": [{"gzip": log.is_gzip, "path": log.path, "size": log.size} for log in logs],
        "plans": divided.plans,
        "restarts": divided.restarts,
        "version": 1,
    }
    new.write_text(json.dumps(about) + "\n", encoding="utf-8")
    os.replace(new, Path(folder, _NAME))
    return divided


def _lines(path: str) -> int:
    with open(path, "rb") as file:
        return sum(block.count(b"\n") for block in iter(lambda: file.read(1 << 20), b""))


def read(folder: str) -> Divided:
    """What stands in such a folder."""
    path = Path(folder, _NAME)
    try:
        about = json.loads(path.read_bytes())
        if about["version"] != 1:
            raise ValueError("it is of another version")
        logs = tuple(Log(_a(str, log["path"]), _a(int, log["size"]), _a(bool, log["gzip"])) for log in about["logs"])
        events = tuple(_a(int, event) for event in about["events"])
        return Divided(folder, logs, _a(int, about["plans"]), _a(int, about["restarts"]), events)
    except (ValueError, KeyError, TypeError, RecursionError) as error:
        raise Unreplayed(UNREAD, f"{path}: it isn't what 'split' writes: {reason(error)}") from error
    except OSError as error:
        raise Unreplayed(UNREAD, f"{path}: read failed: {reason(error)}") from error


def _a(kind: type[Kind], value: object) -> Kind:
    """The value, which is of this kind."""
    if not isinstance(value, kind) or isinstance(value, bool) != (kind is bool):
        raise TypeError(f"{value!r} stands there")
    return value


def report(divided: Divided, number: int) -> Report:
    """A part's report. One of another log is refused, where it counts other lines."""
    path = str(divided.file(number, "report"))
    found_ = report_in(path)
    if found_.applied + found_.skipped != divided.events[number - 1]:
        raise Unreplayed(
            UNREAD,
            f"{path}: it isn't of this log: it counts {found_.applied + found_.skipped} events, "
            f"and its part has {divided.events[number - 1]}",
        )
    return found_


def faults(divided: Divided) -> list[Faulty]:
    """The faults that the parts' replays have told. Where there is one, the log has to be as it was."""
    told = [fault for fault in (_fault(divided, number) for number in range(1, divided.parts + 1)) if fault is not None]
    for log in divided.logs if told else ():
        if found(log.path) != log:
            raise Unreplayed(UNREAD, f"{log.path}: it has changed since it was split")
    return told


def _fault(divided: Divided, number: int) -> Faulty | None:
    said, schedule = divided.file(number, "err"), divided.file(number, "schedule")
    try:
        told = list(_TOLD.finditer(said.read_bytes())) if said.exists() else []
        if not told:
            return None
        number, fault = int(told[-1][1]) - divided.plans, told[-1][2].decode()
        lines = schedule.read_bytes().split(b"\n")[divided.plans : -1]
    except OSError as error:
        raise Unreplayed(UNREAD, f"{error.filename}: read failed: {reason(error)}") from error
    if not 0 < number <= len(lines) or name_in(lines[number - 1]) is None:
        raise Unreplayed(UNREAD, f"{said}: it isn't of this log: its part has no such line, or no event in it")
    return faulty_line(lines, number, fault)
