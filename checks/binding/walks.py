"""Random walks: events that happen to an instance and its bindings, and what there is after each, line by line.

    PYTHONPATH=checks python3 -m binding.walks SEED STEPS

The same seed gives the same lines. Each line is an event, two spaces, and what there is after it:

    EVENT  WHAT: LIFE | LIFE .. # MORE

The program of the crate service_cases reads all events but `drop`, and writes such lines, without MORE of a binding.

EVENT is one of these:

- `service SIDES: ORDER; ORDER ..` begins anew. SIDES are those that keep their rules: `platform`, `broker`, both, or
  `-`. The first ORDER is the instance's, the others are of bindings that nothing has happened to. An ORDER is the mode
  of the plan (`sync`, `async` or `-`), whether the Provision or the Bind `accepts` or `refuses` an asynchronous
  operation, and `first-poll` or `-`. For a binding that can't be fetched, `no-fetch` follows.
- `instance E` or `binding NUMBER E`: an event of one life. The bindings are numbered from 1.
- `settle`: three rounds without a fault, each of the instance and then of each binding. If the platform doesn't keep
  its rules, nothing happens.
- `remove`: three such rounds of the instance, three of each binding, in which it is removed, and then three of the
  instance, in which it is removed. If the platform doesn't keep its rules, nothing happens.
- `settle NUMBER` and `remove NUMBER`: three such rounds of one binding, whether it was created or not. If there is no
  binding with this number, or the platform doesn't keep its rules, nothing happens.

E is an event of checks/network, with Bind for Provision and Unbind for Deprovision, or one of a binding's own:

    create  send  expire  retry  remove  timeout        the platform's
    arrive N  put-off N                                 the request with this number, from 1
    take P  garbled P                                   the answer at this place among those of the life, from 0
    gateway STATUS
    end OUTCOME  end-unknown  finish ok  finish failed  give-up-waiting
    work absent  work part  work whole                  of an instance
    work absent  work part  work whole C                of a binding: the resource has the credentials C
    crash-broker  crash-platform                        of a life; a side that crashes does so in all lives
    fetch                                               a Fetch arrives
    take-fetched P F                                    the answer to a Poll, and that to a Fetch at the place F, from 0
    forget                                              the broker deletes the tombstone
    drop                                                the platform deletes the record

An OUTCOME is `done`, `before`, `after`, `refused 400` or `refused 422`.

WHAT is `new` after `service`, `settled` after `settle` and `removed` after `remove` if that happens, and else
`applied` or `skipped`. A request that a rule puts off is `applied`, and so is an answer that the platform gives up.
LIFE has parts, with a semicolon between them:

- what the platform records: `-`, or the state, the kind of the request that is out or `-`, and its number;
- what the broker holds: the phase, the kind of the pending work, and `tombstone`, or `-` for each that there isn't;
- the resource: `absent`, `part` or `whole`;
- of a binding, `credentials R C`: those that the platform records while it records `ready`, and those of a resource
  that is whole, each `-` if there are none.

MORE is of the life that the event names, after any other event there is none: how many requests were sent and answers
given; each new answer as `NUMBER: STATUS BODY`; and, of a binding, `NUMBER gives C` for credentials beside an answer,
and the credentials of the row.
"""

from __future__ import annotations

import random
import sys
from collections.abc import Iterator
from itertools import islice

from binding.cells import ORDERS
from binding.model import Binding, BoundInstance, Life, Order, Rules
from network.walks import Step, any_event, likely

# `osb_binding_network` deletes no records, and a round without a fault leaves the credentials.
RULES = Rules(without=frozenset(["deletion of records"]), renews=False)
# How an instance becomes ready, by the mode of its plan and the rule of the first Poll.
POLLED = ("take 0", "send", "arrive 2", "work whole", "finish ok", "arrive 2", "take 2")
MADE = {
    ("sync", False): ("create", "arrive 1", "work whole", "end done", "take 0"),
    ("async", False): ("create", "arrive 1", "end done", *POLLED),
    ("async", True): ("create", "arrive 1", *POLLED),
}


def three_rounds(tied: BoundInstance, life: Life, removing: bool) -> None:
    """An instance that was settled is gone after two removing rounds; a third changes nothing."""
    for number in range(3):
        tied.allow()
        life.round(removing)
        assert life is not tied.instance or not removing or number == 0 or life.state in (None, "gone")


def settle(tied: BoundInstance) -> None:
    for _ in range(3):
        tied.round()


def remove(tied: BoundInstance) -> None:
    """Five rounds are enough."""
    three_rounds(tied, tied.instance, False)
    for life in (*tied.bindings, tied.instance):
        three_rounds(tied, life, True)


ROUNDS = {"settle": settle, "remove": remove}


def has_rounds(line: str) -> bool:
    """Whether a line lets rounds without a fault pass."""
    return line.partition(" ")[0] in ROUNDS


DISTURBING = {"put-off", "crash-broker", "crash-platform", "timeout", "gateway", "garbled"}


def disturbs(life: Life, line: str) -> bool:
    """Whether an event keeps a life from going on, or comes late. An instance waits for its bindings."""
    word, _, argument = line.partition(" ")
    if word == "remove":
        return not isinstance(life, Binding)
    return word in DISTURBING or word == "arrive" and argument != str(life.attempt)


class Walk:
    """An instance and its bindings, and what is drawn for them."""

    def __init__(self, draw: random.Random, rules: Rules, *orders: Order) -> None:
        self.draw, self.orders, self.tied = draw, orders, BoundInstance(rules, *orders)
        sides = [side for side, kept in (("platform", rules.platform), ("broker", rules.broker)) if kept]
        line = f"service {' '.join(sides) or '-'}: {'; '.join(order.told() for order in orders)}"
        self.begun = Step(line, f"new: {self.tied.words()}")

    def happen(self, line: str) -> Step:
        if has_rounds(line):
            what = self.let_pass(line)
            return Step(line, f"{what}: {self.tied.words()}")
        life, _ = self.tied.named(line)
        given = len(life.given)
        what = "applied" if self.tied.happen(line) else "skipped"
        return Step(line, f"{what}: {self.tied.words()} # {'; '.join(life.more_words(given))}")

    def let_pass(self, line: str) -> str:
        """Lets the rounds of a line pass. Returns whether they do, as a word."""
        word, _, number = line.partition(" ")
        if not self.tied.rules.platform or number and int(number) > len(self.tied.bindings):
            return "skipped"
        if number:
            three_rounds(self.tied, self.tied.bindings[int(number) - 1], word == "remove")
        else:
            ROUNDS[word](self.tied)
        return f"{word}d"

    def is_over(self) -> bool:
        """Whether nothing is recorded any more but what is gone."""
        states = {binding.state for binding in self.tied.bindings}
        return self.tied.instance.state == "gone" and states <= {None, "gone"}

    # ---- what is drawn

    def next(self) -> str:
        """An event, which is likely to apply."""
        rounds = self.draw.random()
        if rounds < 0.01:
            return "remove" if self.draw.random() < 0.1 else "settle"
        if rounds < 0.02:
            return f"{self.draw.choice(list(ROUNDS))} {self.draw.randint(1, len(self.tied.bindings) + 1)}"
        self.tied.allow()
        some = self.draw.random() < 0.1
        found = []
        for at, life in enumerate(self.tied.lives):
            name = f"binding {at}" if at else "instance"
            found += [f"{name} {event}" for event in (self.any_of(life) if some else self.likely_of(life))]
        return self.draw.choice(found)

    def likely_of(self, life: Life) -> list[str]:
        if life.state is None and not life.allowed.create:
            return ["create"]
        found = [event for event in likely(life) if not disturbs(life, event) or self.draw.random() < 0.2]
        if isinstance(life, Binding):
            return [self.of_binding(life, event) for event in found] + self.more_of(life)
        return found

    def more_of(self, life: Binding) -> list[str]:
        """The events that only a binding has, as far as they are likely to apply."""
        found = ["fetch"] * 2 if life.phase == "ready" and life.held.work is None else []
        found += ["forget"] * 4 if life.allowed.forget and life.held.tombstone and not life.forgotten else []
        return found + (["drop"] * 4 if life.allowed.drop and life.state == "gone" else [])

    def any_of(self, life: Life) -> list[str]:
        found = any_event(life)
        if not isinstance(life, Binding):
            return found
        places = range(len(life.given) + 1)
        fetched = [f"take-fetched {place} {self.draw.randint(0, len(life.fetched))}" for place in places]
        drop = ["drop"] if self.tied.rules.has("deletion of records") else []
        return [self.of_binding(life, event) for event in found] + fetched + ["fetch", "forget", *drop]

    def of_binding(self, life: Binding, line: str) -> str:
        """The event with what only a binding has. The credentials are mostly new."""
        word, _, argument = line.partition(" ")
        if line == "work whole":
            is_old = life.chosen and self.draw.random() < 0.2
            return f"{line} {self.draw.randint(1, life.chosen) if is_old else life.chosen + 1}"
        place = int(argument) if word == "take" else len(life.given)
        if place < len(life.given) and life.needs_fetch(life.given[place].answer):
            return f"take-fetched {place} {len(life.fetched) - 1}" if life.fetched else "fetch"
        return line


def services(draw: random.Random, rules: Rules) -> Iterator[tuple[Walk, Step]]:
    """Walks without end, one after the other, step by step: each of an instance with one or two bindings."""
    while True:
        instance, binding = draw.choice(ORDERS)
        walk = Walk(draw, rules, instance, *[binding] * draw.choice([1, 1, 2]))
        yield walk, walk.begun
        if draw.random() < 0.7:
            for event in MADE.get((instance.mode, instance.first_poll), ()):
                yield walk, walk.happen(f"instance {event}")
        while draw.random() > (0.2 if walk.is_over() else 0.002):
            yield walk, walk.happen(walk.next())


def walk(seed: int, steps: int, rules: Rules = RULES) -> Iterator[Step]:
    """So many events that are drawn at random, and what there is after each."""
    return (step for _, step in islice(services(random.Random(seed), rules), steps))


def main(arguments: list[str]) -> int:
    if len(arguments) != 2:
        print("usage: binding.walks SEED STEPS", file=sys.stderr)
        return 2
    for step in walk(int(arguments[0]), int(arguments[1])):
        print(f"{step.line}  {step.wanted}")
    return 0


if __name__ == "__main__":
    sys.exit(main(sys.argv[1:]))
