"""What is to be proved of a change between both sides: lines that every step keeps, from which the agreement follows.

    PYTHONPATH=checks python3 -m update.invariant        nothing leaves what the lines allow, and all of that agrees
    PYTHONPATH=checks python3 -m update.invariant row    the first change that does, if this line is left out

A change sees two things of the life of its instance: whether the instance is recorded `ready`, and whether it is
available. What is recorded `ready` is available, by the agreement of the instance.
"""

from __future__ import annotations

import random
import sys
from collections.abc import Callable, Collection, Iterator
from itertools import combinations, product
from typing import NamedTuple

from network.model import Answer, error
from update.change import EARLIER, ENDED, LATEST, UNKNOWN, UNSETTLED, Answered, Asked, Change, Design, ended, steps
from update.model import BUSY, DONE, Found, Holding, Record

SETTINGS = ("p", "q", "r")
REJECTED = error(400)


class Face(NamedTuple):
    """What a change sees of the life of its instance."""

    ready: bool
    there: bool


FACES = (Face(True, True), Face(False, True), Face(False, False))


# ---- the lines


def is_settled(change: Change, face: Face) -> bool:
    """Recorded as settled: the row is settled with these settings."""
    return change.record.state != "settled" or change.held == Holding(change.record.settings)


def has_row(change: Change, face: Face) -> bool:
    """A settled row of an available instance: the resource has its settings."""
    return change.held.phase != "settled" or not face.there or change.thing == change.held.settings


def is_one(change: Change, face: Face) -> bool:
    """Not mixed: the row has the settings of before or of `to`, and what is under way or may be judged is to `to`."""
    record, held = change.record, change.held
    if record.state not in UNSETTLED or record.mixed:
        return True
    same = all(to == record.to for to, _ in change.old)
    return same and held.settings in (record.settings, record.to) and held.to in (None, record.to)


def is_judged(change: Change, face: Face) -> bool:
    """The latest Update was judged: what is under way is to `to`, and no earlier one may still be judged."""
    record = change.record
    return record.state == ENDED or not change.judged or not change.old and change.held.to in (None, record.to)


def has_to(change: Change) -> bool:
    """The row is settled with what the latest Update asks for."""
    return change.held.phase == "settled" and change.held.settings == change.record.to


def is_done(change: Change, face: Face) -> bool:
    """200 to the Update that is out: it was judged, and the row is settled with `to`."""
    answered = change.record.out == "update" and DONE["sync"] in change.answers
    return not answered or change.judged and has_to(change)


def is_accepted(change: Change, face: Face) -> bool:
    """202 to the Update that is out, or polling: it was judged, and it runs, has failed, or is settled with `to`."""
    answered = change.record.out == "update" and DONE["async"] in change.answers
    if not answered and change.record.state != "polling":
        return True
    phase, to = change.held.phase, change.held.to
    return change.judged and (phase == "updating" and to == change.record.to or has_to(change) or phase == "failed")


def is_rejected(change: Change, face: Face) -> bool:
    """4xx to the Update that is out: it was judged, and the row is settled, not with `to`."""
    answered = change.record.out == "update" and REJECTED in change.answers
    return not answered or change.judged and change.held.phase == "settled" and not has_to(change)


def is_polled(change: Change, face: Face) -> bool:
    """`succeeded` to the Poll that is out: the row is settled with `to`."""
    return change.record.out != "poll" or Answer(200, "succeeded") not in change.answers or has_to(change)


def is_fetched(change: Change, face: Face) -> bool:
    """A Fetch that says that the latest Update was judged: the row is settled with the settings that it says."""
    if change.record.out != "fetch":
        return True
    found = [answer for answer in change.answers if isinstance(answer, Found) and answer.number == LATEST]
    return all(change.judged and change.held == Holding(answer.settings) for answer in found)


def is_other(change: Change, face: Face) -> bool:
    """Work that is pending over a settled row is to other settings than the row's."""
    return change.held.phase != "pending" or change.held.to != change.held.settings


def is_mine(change: Change, face: Face) -> bool:
    """Work that is to be answered is that of the Update that is out, which was judged."""
    record = change.record
    return not change.mine or record.out == "update" and change.judged and change.held.to == record.to


def is_ready(change: Change, face: Face) -> bool:
    """A change that isn't settled, or has something out, is of an instance that is recorded `ready`."""
    return face.ready or change.record.state not in UNSETTLED and change.record.out is None


def is_there(change: Change, face: Face) -> bool:
    """An update is under way only of an instance that is available."""
    return face.there or not change.is_under_way


Line = Callable[[Change, Face], bool]
LINES: dict[str, Line] = {
    "ready": is_ready,
    "there": is_there,
    "settled": is_settled,
    "row": has_row,
    "one": is_one,
    "judged": is_judged,
    "other": is_other,
    "200": is_done,
    "202": is_accepted,
    "400": is_rejected,
    "poll": is_polled,
    "fetch": is_fetched,
    "mine": is_mine,
}


def is_possible(change: Change, face: Face, lines: Collection[str]) -> bool:
    return all(LINES[line](change, face) for line in lines)


def agrees(change: Change, face: Face) -> bool:
    record = change.record
    settled = face.ready and record.state == "settled" and record.out is None
    return not settled or (change.held, change.thing) == (Holding(record.settings), record.settings)


# ---- every change that has the shape of one; by symmetry the recorded settings are the first

OUTS: dict[str | None, tuple[str, list[Answered | None]]] = {
    None: ("updating polling unsure", [None]),
    "update": ("updating", [None, DONE["sync"], DONE["async"], REJECTED, error(500), BUSY]),
    "poll": (
        "polling",
        [None, *(Answer(200, word) for word in ("in-progress", "succeeded", "failed")), error(410)],
    ),
    "fetch": (
        "updating unsure",
        [None, BUSY, *(Found(settings, number) for settings, number in product(SETTINGS, (LATEST, EARLIER)))],
    ),
}


class Side(NamedTuple):
    """What is recorded, sent and answered."""

    record: Record
    judged: bool
    old: frozenset[Asked]
    answer: Answered | None = None


def olds() -> list[frozenset[Asked]]:
    asked: list[Asked] = [(to, None) for to in SETTINGS]
    return [frozenset(it) for count in range(len(asked) + 1) for it in combinations(asked, count)]


def sides() -> Iterator[Side]:
    yield Side(Record("p"), True, frozenset())
    for old in olds():
        yield Side(Record("", state=ENDED), True, old)
    for state, to, mixed, judged, old in product(UNSETTLED, SETTINGS, (True, False), (True, False), olds()):
        for out, (states, answers) in OUTS.items():
            if state in states.split():
                record = Record("p", state=state, to=to, mixed=mixed, out=out)
                yield from (Side(record, judged, old, answer) for answer in answers)


def holdings() -> Iterator[tuple[Holding, bool]]:
    """What is held, and whether the pending work is to be answered."""
    for settings in SETTINGS:
        for phase in ("settled", "failed"):
            yield Holding(settings, 0, phase), False
        for phase, to, mine in product(("pending", "mending"), SETTINGS, (True, False)):
            yield Holding(settings, 0, phase, to), mine
        yield from ((Holding(settings, 0, "updating", to), False) for to in SETTINGS)


def candidates() -> Iterator[Change]:
    for side, (held, mine), thing in product(list(sides()), list(holdings()), (*SETTINGS, UNKNOWN)):
        answers = frozenset() if side.answer is None else frozenset({side.answer})
        yield Change(side.record, held, thing, None, side.judged, mine, side.old, answers)


# ---- what becomes of them


def after(change: Change, face: Face, mode: str) -> Iterator[tuple[str, Change, Face]]:
    """Every step of the change, and of what it sees of the life."""
    design = Design(SETTINGS, mode)
    for event, stepped in steps(design, change, face.ready, face.there):
        yield event, stepped, face
    if face.ready and change.record.out is None:
        yield "remove", ended(design, change), face._replace(ready=False)
    if face == (False, True) and not change.is_under_way:
        yield "the deletion begins", change, Face(False, False)
    if face == (False, False):
        yield "the deletion has failed", change, face


class Checked(NamedTuple):
    """What leaves the lines or doesn't agree, if something does; the changes with what they see; and the steps."""

    broken: str | None
    changes: int
    steps: int


def check(lines: Collection[str], share: random.Random | None = None, one_of: int = 1) -> Checked:
    """Steps every change that the lines allow, or one of so many by chance, up to the first that leaves them."""
    count = taken = 0
    for change in candidates():
        if share is not None and share.randrange(one_of):
            continue
        for face in FACES:
            if not is_possible(change, face, lines):
                continue
            count += 1
            if not agrees(change, face):
                return Checked(f"doesn't agree: {change}", count, taken)
            for mode in ("sync", "async"):
                for event, stepped, seen in after(change, face, mode):
                    taken += 1
                    if not is_possible(stepped, seen, lines):
                        left = [line for line in lines if not LINES[line](stepped, seen)]
                        return Checked(f"{event} breaks {left}: {change} -> {stepped}", count, taken)
    return Checked(None, count, taken)


def main(arguments: list[str]) -> int:
    checked = check([line for line in LINES if line not in arguments])
    print(
        checked.broken or f"{checked.changes} changes with what they see, {checked.steps} steps: none leaves the lines"
    )
    return 0


if __name__ == "__main__":
    sys.exit(main(sys.argv[1:]))
