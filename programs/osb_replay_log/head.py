"""The head of a log: the lines before its first event, which are plans, comments and blanks."""
from __future__ import annotations

from typing import NamedTuple, Sequence

from osb_replay_log.faults import FAULTY, Unreplayed
from osb_replay_log.lines import Kind, is_head, kind_of
from osb_replay_log.logs import Log, Position, Stretch, lines_of, stretches


class Head(NamedTuple):
    """The plan lines, each with its position, and where the first line stands that is none of the head."""

    plans: tuple[bytes, ...]
    positions: tuple[Position, ...]
    log: int
    offset: int

    def text(self) -> bytes:
        """The plan lines, with which each part begins."""
        return b"".join(line + b"\n" for line in self.plans)


def head_of(logs: Sequence[Log], most: int, chunk: int) -> Head:
    """Reads the head. More plans than `most` are refused."""
    plans: list[bytes] = []
    positions: list[Position] = []
    for number, log in enumerate(logs):
        line = offset = 0
        for stretch in stretches(log, 0, chunk):
            for lines in lines_of(stretch, chunk):
                for text in lines:
                    if not text:  # a log may have millions of blank lines
                        line, offset = line + 1, offset + 1
                        continue
                    if not is_head(text):
                        return Head(tuple(plans), tuple(positions), number, offset)
                    line, offset = line + 1, offset + len(text) + 1
                    if kind_of(text) is Kind.PLAN:
                        plans.append(text)
                        positions.append(Position(log.path, line))
                    if len(plans) > most:
                        raise Unreplayed(FAULTY, f"{log.path}: it has more plans than the {most} lines of a part")
    return Head(tuple(plans), tuple(positions), len(logs), 0)


def body_of(logs: Sequence[Log], head: Head, chunk: int) -> list[Stretch]:
    """All that stands behind the head."""
    begins = [head.offset] + [0] * len(logs)
    return [stretch for log, begin in zip(logs[head.log :], begins) for stretch in stretches(log, begin, chunk)]
