"""What service_cases has to write of each line, by the model.

    PYTHONPATH=checks python3 -m binding.cases stdin
    PYTHONPATH=checks python3 -m binding.cases stdout

write the two files of crates/service_cases: the first of the ways of binding.ways line by line, each other one in one
line, a short walk, some lines without bindings, and some with updates. test_network.py compares all ways line by line,
that of checks/network all lines without bindings, and checks/update walks with updates. The lines are those of
network.cases, of update.sides and of binding.walks, and

    run SIDES: ORDER; ORDER ..: EVENT, EVENT ..

which begins anew and lets all of these events happen. Behind an event of a binding there is no MORE: the program
doesn't print what was sent and given of a binding.
"""

from __future__ import annotations

import random
import sys
from collections.abc import Iterable, Iterator
from itertools import islice
from pathlib import Path

from binding.cells import Way
from binding.model import Order, Rules
from binding.walks import MADE, RULES, Walk, services
from binding.ways import ALL
from network.cases import FORMS, in_a_line, of_crate
from network.walks import Step
from update import sides

FOLDER = Path(__file__).resolve().parent.parent.parent / "crates" / "service_cases"
# The walk in the files of the crate: credentials are fetched in it, and taken.
SEED, STEPS = 1424, 20
# A Bind that is accepted, and whose answer is taken: the platform gives up a binding that can't be fetched.
ACCEPTED = ("binding 1 create", "binding 1 arrive 1", "binding 1 end done", "binding 1 take 0")


# ---- the lines of a way


def lines_of(rules: Rules, way: Way) -> list[str]:
    """The events of a way, at a broker and a platform that satisfy these rules; rounds without a fault; and the same
    events at once.

    `begin` is the event of a broker that reads in one transaction and writes in another. There is none in the crate.
    """
    service = Walk(random.Random(0), rules, way.instance, way.binding).begun.line
    events = [event for event in way.events if not event.endswith(" begin")]
    run = f"run {service.removeprefix('service ')}: {', '.join(events)}"
    return [service, *events, "settle", "remove", run]


def of_ways() -> Iterator[list[str]]:
    """The lines of each way: with the rules of both sides, and with those of the sides that satisfy theirs in it."""
    for name, way in ALL.items():
        yield [f"# {name}", *lines_of(RULES, way)]
    for name, way in ALL.items():
        if not (way.rules.platform and way.rules.broker):
            own = RULES._replace(platform=way.rules.platform, broker=way.rules.broker)
            yield [f"# {name}: the rules of the sides that satisfy them in this way", *lines_of(own, way)]


def of_unfetched() -> Iterator[list[str]]:
    """The lines of a binding that can't be fetched, and has its rounds before it is created: it still can't be."""
    for rounds in ("settle 1", "remove 1"):
        service = Walk(random.Random(0), RULES, Order("sync"), Order("async", retrievable=False)).begun.line
        events = [f"instance {event}" for event in MADE["sync", False]]
        yield [f"# a binding that can't be fetched: {rounds}", service, *events, rounds, *ACCEPTED, rounds]


# ---- what is written of lines


def rules_of(sides: str) -> Rules:
    return RULES._replace(platform="platform" in sides, broker="broker" in sides)


def order_of(words: str) -> Order:
    mode, accepts, first_poll, *more = words.split(" ")
    return Order(mode, accepts == "accepts", first_poll == "first-poll", not more)


def begun(words: str) -> Walk:
    """What `SIDES: ORDER; ORDER ..` begins."""
    sides, _, orders = words.partition(": ")
    return Walk(random.Random(0), rules_of(sides), *map(order_of, orders.split("; ")))


def updated(line: str) -> Step:
    """An instance with its updates, and all that happens to it."""
    orders, settings, events = line.removeprefix("updated ").rsplit(": ", 2)
    return sides.in_a_line(line, sides.Updated(begun(orders).tied, settings), events.split(", "))


def steps_of(lines: Iterable[str]) -> Iterator[Step]:
    """Each line that isn't a comment, and what there is after it."""
    walk: Walk | None = None
    for line in lines:
        word, _, words = line.partition(" ")
        if word == "service":
            walk = begun(words)
            yield walk.begun
        elif word == "run":
            orders, _, events = words.rpartition(": ")
            walk = begun(orders)
            for event in events.split(", "):
                walk.happen(event)
            yield Step(line, f"new: {walk.tied.words()}")
        elif word in FORMS:
            yield in_a_line(line)
        elif word == "updated":
            yield updated(line)
        elif word != "#":
            assert walk is not None
            yield walk.happen(line)


def written(step: Step) -> str:
    wanted = step.wanted.partition(" # ")[0] if step.line.startswith("binding ") else step.wanted
    return f"{step.line}  {wanted}"


def written_of(lines: list[str]) -> Iterator[str]:
    """What service_cases writes of these lines."""
    steps = steps_of(lines)
    return (line if line.startswith("#") else written(next(steps)) for line in lines)


# ---- the files


def stdin() -> list[str]:
    first, *others = of_ways()
    told = [first, *([name, lines[-1]] for name, *lines in others), *of_unfetched()]
    walk = islice(services(random.Random(SEED), RULES), STEPS)
    lines = [line for lines in told for line in lines]
    lines += ["# a walk", *(step.line for _, step in walk), "# without bindings", *of_crate()]
    return [*lines, *(line for name, way in sides.WAYS.items() for line in (f"# {name}", way))]


def main(arguments: list[str]) -> int:
    if arguments not in (["stdin"], ["stdout"]):
        print("usage: binding.cases stdin|stdout", file=sys.stderr)
        return 2
    lines = stdin()
    print("\n".join(lines if arguments == ["stdin"] else written_of(lines)))
    return 0


if __name__ == "__main__":
    sys.exit(main(sys.argv[1:]))
