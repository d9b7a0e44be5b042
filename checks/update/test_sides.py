"""osb_update_service and osb_update_sides make of each event what the model makes of it.

The program of the crate service_cases prints all that is recorded, held and there after each event of an instance, its
bindings and its updates. OSB_EXAMPLES=10 takes ten times as many walks, from a seed that is drawn at random and
printed.
"""

from __future__ import annotations

import os
import random
from collections import Counter

import pytest
from binding.cases import begun, rules_of, updated
from binding.cells import ORDERS
from binding.walks import MADE, Walk, has_rounds
from crate_programs import told_by
from network.model import error
from shortest import shortest
from update.change import EARLIER, LATEST, UNKNOWN, Answered, Change, Design, steps
from update.model import BUSY, OUTCOMES, PENDING, PHASES, STATES, Found, Record, is_surely_rejected
from update.sides import WAYS, Said, Updated

EXAMPLES = os.environ.get("OSB_EXAMPLES")
SEED = random.randrange(1_000_000) if EXAMPLES else 1
WALKS, EVENTS = 100 * int(EXAMPLES or 1), 150
SIDES = ("platform broker", "platform broker", "broker", "-")
SETTINGS = ("pab", "qab", "qxy", "pxb")
ALLOWED = ("sync",) * 4 + ("async",) * 4 + ("400", "422", "conflict")
ENDS = [f"end {mode} {outcome}" for mode in ("sync", "async") for outcome in OUTCOMES]
PLAIN = ["send", "fetch", "stop", "timeout", "crash", "work -", "finish ok", "finish failed", *ENDS]
ALWAYS = {"crash"}


def arrive(draw: random.Random, place: int) -> str:
    return f"arrive {place} {draw.choice(ALLOWED)} {'refuses' if draw.random() < 0.1 else 'accepts'}"


def anothers(draw: random.Random) -> str:
    status = draw.choice([200, 202, 400, 404, 422, 499, 500, 503, 65535])
    return f"anothers {status} {draw.choice(['malformed', 'empty', 'error'])}"


def any_update(draw: random.Random, now: Updated) -> str:
    """Any event of the updates, whether it applies or not. Places are as large as they get."""
    sent, given = (draw.choice([*range(count + 1), 2**64 - 1]) for count in (len(now.sent), len(now.given)))
    of_places = [arrive(draw, sent), f"put-off {sent}", f"take {given}", anothers(draw)]
    to = draw.choice(SETTINGS)
    return draw.choice([*of_places * 3, f"to {to}", f"work {to}", *PLAIN])


def of_platform(draw: random.Random, now: Updated) -> list[str]:
    record = now.record
    if record.out is None:
        choices = ["send"] * 4 + ["fetch", "stop"] if record.state != "settled" else []
        return choices + ["fetch"] * 2 * (record.state == "unsure") + [f"to {draw.choice(SETTINGS)}"]
    found = ["timeout", anothers(draw), *[arrive(draw, len(now.sent) - 1)] * 4]
    return found + [f"take {at}" for at, given in enumerate(now.given) if given.attempt == record.attempt] * 4


def of_broker(draw: random.Random, now: Updated) -> list[str]:
    """What becomes of what is under way."""
    if not now.is_under_way:
        return []
    works = [f"work {now.held.to}"] * 3 + [f"work {now.held.settings}", "work -"]
    return works + (
        ["end sync done", "end async done", *ENDS] if now.held.phase in PENDING else ["finish ok", "finish failed"]
    )


def next_event(draw: random.Random, walk: Walk, now: Updated) -> str:
    """An event that is likely to apply."""
    chance = draw.random()
    if chance < 0.12 or now.tied.instance.state != "ready" and chance < 0.6:
        line = walk.next()
        if not has_rounds(line):
            return f"{line} leaving {draw.choice([*SETTINGS, '-'])}" if draw.random() < 0.5 else line
    if chance > 0.9 or not now.is_ready:
        return f"update {any_update(draw, now)}"
    return f"update {draw.choice(of_platform(draw, now) + of_broker(draw, now))}"


def drawn(draw: random.Random, seen: Counter[str]) -> str:
    """A line with a walk. After each event, both sides agree."""
    sides, (instance, binding) = draw.choice(SIDES), draw.choice(ORDERS)
    walk, settings = Walk(draw, rules_of(sides), instance, binding), draw.choice(SETTINGS)
    now = Updated(walk.tied, settings)
    events = [f"instance {event}" for event in MADE.get((instance.mode, instance.first_poll), ())]
    for event in events:
        now.happen(event)
    while len(events) < EVENTS:
        events.append(next_event(draw, walk, now))
        applied = now.happen(events[-1])
        assert now.agrees() and not (sides == SIDES[0] and now.tied.broken()), events
        word = events[-1].removeprefix("update ").partition(" ")[0]
        if events[-1].startswith("update "):
            seen[f"{word} {'applied' if applied else 'skipped'}"] += 1
        seen.update([f"phase {now.held.phase}", f"state {now.record.state}", f"out {now.record.out}"])
    return f"{walk.begun.line.replace('service', 'updated', 1)}: {settings}: {', '.join(events)}"


def is_different(line: str) -> bool:
    step = updated(line)
    return told_by("service_cases")([line]) != f"{line}  {step.wanted}\n"


def compare(lines: list[str]) -> None:
    """The program writes what is wanted. If not, the fewest events are shown that lead to a difference."""
    for line in filter(is_different, lines):
        begun, _, events = line.rpartition(": ")
        few = shortest(events.split(", "), lambda it: bool(it) and is_different(f"{begun}: {', '.join(it)}"))
        line = f"{begun}: {', '.join(few)}"
        assert told_by("service_cases")([line]) == f"{line}  {updated(line).wanted}\n"


@pytest.mark.slow
def test_ways() -> None:
    compare([*WAYS.values()])


@pytest.mark.slow
def test_walks() -> None:
    print("seed", SEED)
    draw, seen = random.Random(SEED), Counter[str]()
    compare([drawn(draw, seen) for _ in range(WALKS)])
    words = ["to", "anothers", "arrive", "put-off", "take", *{event.partition(" ")[0] for event in PLAIN}]
    wanted = {
        f"{word} {what}" for word in words for what in ("applied", "skipped") if what == "applied" or word not in ALWAYS
    }
    wanted |= {f"phase {phase}" for phase in PHASES} | {f"state {state}" for state in STATES}
    assert not (wanted | {"out update", "out poll", "out fetch"}) - set(seen)


def test_what_is_left_of_the_ways() -> None:
    """What the last event leaves, worked out by hand: the record, the holding, and the resource."""
    left = [updated(way).wanted.rpartition("updates | ")[2] for way in WAYS.values()]
    assert left == [
        "qab 1 1 settled - - -; qab 1 settled -; qab",
        "pab 2 3 settled - - -; pab 2 settled -; pab",
        "qab 4 4 settled - - -; qab 4 settled -; qab",
        "pab 1 1 unsure qxb - -; qxb 1 settled -; qxb",
        "pay 2 4 settled - - -; pay 2 settled -; pay",
    ]


# ---- the walks are those of the design, which has no numbers


DESIGNS = [Design(SETTINGS, mode) for mode in ("sync", "async")]


def of_design(record: Record, said: Said) -> Answered | None:
    """The answer to what is out as the design has it; None if it is taken as a gateway's is."""
    if isinstance(said, Found):
        return said._replace(number=LATEST if said.number == record.number else EARLIER)
    if said == BUSY:
        return said if record.out == "update" else None
    return error(400) if is_surely_rejected(said) else said


def change_of(now: Updated, aims: dict[int, str]) -> Change:
    """The change as the design has it, by the settings that each Update was to lead to."""
    record, held = now.record, now.held
    names = {sent.attempt: sent.names for sent in now.sent if sent.kind == "update"}
    given = [of_design(record, it.said) for it in now.given if record.out and it.attempt == record.attempt]
    return Change(
        record._replace(number=0, attempt=0),
        held._replace(number=0),
        now.thing or UNKNOWN,
        None if record.state == "settled" else names[record.number],
        held.number == record.number,
        record.out == "update" and now.worker == record.attempt,
        frozenset((aims[it], names[it]) for it in names if it > held.number and it != record.number),
        frozenset(answer for answer in given if answer is not None),
    )


def covers(one: Change, other: Change) -> bool:
    """Whether they are the same, and the first allows all that the other does."""
    more = one.old >= other.old and one.answers >= other.answers
    return more and one == other._replace(old=one.old, answers=one.answers)


def is_of_design(now: Updated, event: str) -> bool:
    """The design has no Update to what is recorded as settled, and no work that leads elsewhere."""
    word, _, to = event.removeprefix("update ").partition(" ")
    if word == "to":
        return now.record.state != "settled" or to != now.record.settings
    return word != "work" or not event.startswith("update") or to in ("-", now.held.settings, now.held.to)


def count_of_design(line: str) -> int:
    """How many events happen while the instance is recorded `ready`. Each is a step of the design, or none."""
    orders, settings, events = line.removeprefix("updated ").rsplit(": ", 2)
    now, aims, count = Updated(begun(orders).tied, settings), dict[int, str](), 0
    found: set[Change] = set()
    for event in events.split(", "):
        if not is_of_design(now, event):
            continue
        now.happen(event)
        if not now.is_ready:
            continue
        aims.setdefault(now.record.number, now.record.to or "")
        wanted = change_of(now, aims)
        after = {it for change in found for design in DESIGNS for _, it in steps(design, change, True, True)}
        found = {it for it in found | after if covers(it, wanted)} if count else {wanted}
        assert found, (event, wanted)
        count += 1
    return count


@pytest.mark.slow
def test_walks_are_of_the_design() -> None:
    draw = random.Random(SEED)
    assert sum(count_of_design(drawn(draw, Counter())) for _ in range(WALKS // 4)) > 10 * WALKS
