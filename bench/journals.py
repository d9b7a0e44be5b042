"""Writes large journals, such as those of a broker and a platform that run for days: `python3 -m bench.journals`.

    PYTHONPATH=checks:. python3 -m bench.journals FOLDER LINES
    ./osb-audit FOLDER

Each instance has one of some lives, among them lives with lost answers and late requests. Only ids, times and numbers
differ between instances of one life.
"""
from __future__ import annotations

import argparse
import contextlib
import json
import re
from itertools import cycle
from pathlib import Path
from typing import IO, Iterator, NamedTuple

from audit.journals import BINDING, BOUND, CREATED, INSTANCE, REMOVED, Journal

_LIVES = {
    "created": CREATED,
    "removed": REMOVED,
    "bound": BOUND,
    "lost": CREATED.replace("P hear r1 201; P take 1 ready/1", "P lose r1; P take 1 cleaning/1")
    + """P claim cleaning/2/deprovision; P send r2 deprovision 2; B arrive 2 r2 deprovision
         B change 2 ready+deprovision; B look whole; B delete; B look absent; B change 2 tombstone; B answer 2 200
         B arrive 3 r1 provision; B answer 3 409 other-error saw=tombstone; P hear r2 200; P take 2 gone/2""",
}
_AT_ONCE = 100
"""How many instances are created side by side."""
_TIME = 1_700_000_000_000_000


class _Line(NamedTuple):
    """A line of a life: the process, and the text with places for a time, ids and numbers."""

    who: str
    parts: tuple[str, ...]


def _lines(story: str) -> list[_Line]:
    """The lines of a life, in their order."""
    journal = Journal().tell(story)
    found = []
    for who, texts in journal.lines.items():
        for text in texts[1:]:
            number = json.loads(text)["time"]
            found.append((number, _Line(who, tuple(re.split(r"(\x00\w+\x00)", _marked(text))))))
    return [line for _, line in sorted(found)]


def _marked(text: str) -> str:
    text = re.sub(r'"time":\d+', '"time":\x00time\x00', text)
    text = re.sub(r'"(visit|change)":(\d)', '"\\1":\x00number\x00\\2', text)
    text = re.sub(r'"request":"(\w+)"', '"request":"\\1-\x00number\x00"', text)
    return text.replace(BINDING, "\x00binding\x00").replace(INSTANCE, "\x00instance\x00")


def _heads(folder: Path) -> dict[str, str]:
    journal = Journal().tell(BOUND)
    return {who: texts[0] for who, texts in journal.lines.items()}


def write(folder: Path, lines: int) -> int:
    """Writes journals of at least so many lines into a new folder, and returns how many there are."""
    lives = cycle([_lines(life) for life in _LIVES.values()])
    written, first, time = 0, 1, _TIME
    with contextlib.ExitStack() as stack:
        folder.mkdir(parents=True)
        files: dict[str, IO[str]] = {}
        for who, head in _heads(folder).items():
            files[who] = stack.enter_context(open(folder / f"{who}.jsonl", "w", encoding="ascii"))
            files[who].write(f"{head}\n")
        while written < lines:
            some = [(number, next(lives)) for number in range(first, first + _AT_ONCE)]
            for line, text in _told(some, time):
                files[line.who].write(text)
                written += 1
                time += 10
            first += _AT_ONCE
    return written


def _told(some: list[tuple[int, list[_Line]]], time: int) -> Iterator[tuple[_Line, str]]:
    """The lines of some instances, one of each in turn."""
    for at in range(max(len(lines) for _, lines in some)):
        for number, lines in some:
            if at < len(lines):
                time += 10
                places = {
                    "\x00time\x00": str(time),
                    "\x00number\x00": str(number),
                    "\x00instance\x00": f"{number:08x}-0000-4000-8000-000000000001",
                    "\x00binding\x00": f"{number:08x}-0000-4000-8000-00000000000b",
                }
                yield lines[at], "".join(places.get(part, part) for part in lines[at].parts) + "\n"


def _main() -> None:
    parser = argparse.ArgumentParser("bench.journals", description="Writes large journals.", allow_abbrev=False)
    parser.add_argument("folder", type=Path, help="a new folder")
    parser.add_argument("lines", type=int, help="how many lines, at least")
    asked = parser.parse_args()
    print(f"{write(asked.folder, asked.lines):,} lines")


if __name__ == "__main__":
    _main()
