"""The changes of which no line of their process shows that they were committed: the process was killed behind them.

A process writes the line of a change before the commit, and a line `undone` if the commit fails. A worker of a platform
claims in one transaction after the other, and then sends the requests. So what it sends shows that the claim was
committed, and each claim before. Of other changes, the last lines of a process count, if no other line follows.
"""
from __future__ import annotations

import re
from dataclasses import dataclass, field
from typing import Iterable, Iterator, Mapping, NamedTuple, Optional, Sequence

Change = tuple[str, int]
"""What names a change: its process, and its number there."""
Doubts = Mapping[Change, Optional[bool]]
"""The changes of which no line of their process shows that they were committed, and whether they were, as far as the
lines of others show that.
"""

_NUMBER = re.compile(rb'[{,]"change":(\d{1,20})[,}]')
_BINDING = b'"binding":"'
_CLAIM = b'"cause":"claim"'


class Left(NamedTuple):
    """A change that may not be committed."""

    text: bytes
    instance: bytes
    run: int
    """Of claims: how many lines `undone` come before. Claims between which there is none are committed in order."""

    @property
    def number(self) -> int | None:
        """Its number in its process. If the line isn't as the programs write it, it has none, and counts."""
        found = _NUMBER.search(self.text)
        return int(found[1]) if found else None


@dataclass
class Tail:
    """What is left of a process at the end of a stretch of a journal."""

    process: str
    first: int
    """The time of its first line there."""
    claims: list[Left] = field(default_factory=list)
    others: list[Left] = field(default_factory=list)
    run: int = 0
    sent: set[bytes] = field(default_factory=set)
    """The rows of the requests that were sent there, up to the first one that was claimed there."""
    shows_claims: bool = False
    """Whether all claims of earlier stretches were committed."""
    shows_others: bool = False
    """Whether no other change of earlier stretches counts as one of the last lines."""

    def add(self, event: bytes, text: bytes, instance: bytes) -> None:
        """Takes in a line of an instance. It is called for each line, so it only keeps what it is given."""
        if event == b"changed":
            (self.claims if _CLAIM in text else self.others).append(Left(text, instance, self.run))
        elif event == b"undone":
            self.run += 1
        else:
            if event == b"sent" and (self.claims or not self.shows_claims):
                self._send(_row(text, instance))
            self.go_on()

    def go_on(self) -> None:
        """Takes in another line."""
        if self.others:
            self.others = []
        self.shows_others = True

    def stop(self) -> None:
        """Takes in the line `stopped`."""
        self.claims = []
        self.shows_claims = True
        self.go_on()

    def _send(self, row: bytes) -> None:
        for at in range(len(self.claims) - 1, -1, -1):
            if _row(self.claims[at].text, self.claims[at].instance) == row:
                del self.claims[: at + 1]
                self.shows_claims = True
                return
        if not self.shows_claims:
            self.sent.add(row)

    def join(self, following: Tail) -> None:
        """Takes in the next stretch of the same process."""
        for row in following.sent:
            self._send(row)
        if following.shows_claims:
            self.claims = []
        if following.shows_others:
            self.others = []
        self.claims += [claim._replace(run=claim.run + self.run) for claim in following.claims]
        self.others += following.others
        self.run += following.run


def _row(text: bytes, instance: bytes) -> bytes:
    """The ids of the instance and of the binding. No text of a journal has the name of a member in quotes."""
    at = text.find(_BINDING) + len(_BINDING)
    return instance + text[at : at + len(instance)] if at >= len(_BINDING) else instance


def joined(tails: Iterable[Tail]) -> list[Tail]:
    """Those of each process at the end of its journal."""
    found: dict[str, Tail] = {}
    for tail in sorted(tails, key=lambda it: it.first):
        if tail.process in found:
            found[tail.process].join(tail)
        else:
            found[tail.process] = tail
    return list(found.values())


def doubts(tails: Iterable[Tail], shown: Mapping[Change, bool]) -> dict[Change, bool | None]:
    """All of these changes. `shown`: whether a claim was committed, as far as the lines of its own row show that.

    A claim that was committed shows that all before it were. A claim that wasn't shows that none behind it was: the
    next claim begins once the transaction has ended, and behind a line `undone` if that failed.
    """
    found: dict[Change, bool | None] = {}
    for tail in tails:
        found.update((change, None) for change in _changes(tail.process, (*tail.claims, *tail.others)))
        for run in {claim.run for claim in tail.claims}:
            claims = _changes(tail.process, [claim for claim in tail.claims if claim.run == run])
            found.update(_in_order(list(claims), shown))
    return found


def _changes(process: str, left: Iterable[Left]) -> Iterator[Change]:
    for change in left:
        number = change.number
        if number is not None:
            yield process, number


def _in_order(claims: Sequence[Change], shown: Mapping[Change, bool]) -> Iterator[tuple[Change, bool | None]]:
    committed = max((at for at, claim in enumerate(claims) if shown.get(claim)), default=-1)
    is_lost = False
    for at, claim in enumerate(claims):
        is_lost = is_lost or at > committed and claim in shown
        yield claim, at <= committed or (False if is_lost else None)
