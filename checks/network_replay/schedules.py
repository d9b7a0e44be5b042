"""Random schedules of `osb-replay network`, in which most events apply. The same seed gives the same schedule."""

from __future__ import annotations

import random
from collections.abc import Iterator

from binding.cells import ORDERS
from binding.model import Order, new_binding
from binding.walks import MADE, Walk, has_rounds
from network_replay.language import LONGEST_LINE, NUMBERS
from network_replay.reference import RULES

SERVICE = "00000000-0000-0000-0000-0000000000a0"
PLAN = "00000000-0000-0000-0000-0000000000b1"
# How a word of the models is spelled in the language.
SPELLED = {"garbled": "garble", "end-unknown": "end unknown", "finish failed": "finish fail"}
# The lines that have each fault. How they are written doesn't depend on the line.
LINES = {
    "NotAscii": ["# caf\u00e9"],
    "LineTooLong": ["#" * (LONGEST_LINE + 1)],
    "UnknownWord": ("Create {life}; deliver {life} done").split("; "),
    "WordCount": (
        "send; create {life} 1; arrive {life}; take {life} 1 2; instance {id} {id} {id} sync yes at-once; "
        "binding {binding} sync yes at-once"
    ).split("; "),
    "BadId": (
        "send 1; send {id}/; send {binding}/{id}; send /{id}; "
        "instance {binding} {id} {id} sync yes at-once both; instance {id} x {id} both yes at-once both; "
        "binding {id} sync yes at-once fetch; issue {id} 1; fetch {id}; forget {id}; take-fetched {id} x 0"
    ).split("; "),
    "BadChoice": (
        "instance {id} {id} {id} Sync yes at-once both; instance {id} {id} {id} never yes at-once both; "
        "instance {id} {id} {id} sync yes first both; instance {id} {id} {id} sync yes at-once neither; "
        "binding {binding} sync yes at-once maybe; binding {binding} sync yes at-once both; arrive {life} x; "
        "arrive {life} -1; arrive {life} +1; put-off {life} 18446744073709551616; take {life} 0x1; "
        "garble {life} 99999999999999999999999999; gateway {life} 499; gateway {life} 600; work {life} all; "
        "issue {binding} -; end {life} refused; end {life} ok; end {life} refused-401; finish {life} failed; "
        "crash {life} both; take-fetched {binding} 1 y"
    ).split("; "),
}
FAULTS = [(name, line.encode()) for name, lines in LINES.items() for line in lines]


def guid(number: int) -> str:
    return f"{number:08x}-0000-0000-0000-{number:012x}"


def words_of(order: Order) -> list[str]:
    mode = "none" if order.mode == "-" else order.mode
    return [mode, "yes" if order.accepts else "no", "first-poll" if order.first_poll else "at-once"]


def spelled(event: str, is_binding: bool) -> str:
    """An event of the models, in the words of the language, with {} for the life."""
    event = SPELLED.get(event, event)
    verb, _, rest = event.partition(" ")
    verb = SPELLED.get(verb, verb)
    if verb.startswith("crash-"):
        return f"crash {{}} {verb.removeprefix('crash-')}"
    if is_binding and rest.startswith("whole "):
        return f"issue {{}} {rest.removeprefix('whole ')}"
    if verb == "end":
        rest = rest.replace(" ", "-")
    return f"{verb} {{}} {rest}".rstrip()


class Instance:
    """An instance, its bindings, and what may happen to them next."""

    def __init__(self, draw: random.Random, number: int) -> None:
        rules = draw.choice(["both"] * 4 + ["platform", "broker", "none"])
        order, self.binding = draw.choice(ORDERS)
        self.draw, self.id = draw, guid(number)
        self.walk = Walk(draw, RULES[rules], order)
        self.first = f"instance {self.id} {SERVICE} {PLAN} {' '.join(words_of(order))} {rules}"
        self.made = list(MADE.get((order.mode, order.first_poll), ())) if draw.random() < 0.7 else []

    def life(self, number: int) -> str:
        return f"{self.id}/{guid(0xB000 + number)}" if number else self.id

    def take_in(self) -> str:
        """The line of one more binding."""
        tied = self.walk.tied
        tied.bindings.append(new_binding(tied.rules, self.binding))
        words = [*words_of(self.binding), "fetch" if self.binding.retrievable else "no-fetch"]
        return f"binding {self.life(len(tied.bindings))} {' '.join(words)}"

    def next(self) -> str:
        """The line of an event that is likely to apply, after it has happened to the model."""
        many = len(self.walk.tied.bindings)
        if not self.made and many < 3 and self.draw.random() < (0.02 if many else 0.3):
            return self.take_in()
        line = f"instance {self.made.pop(0)}" if self.made else self.walk.next()
        while has_rounds(line) or " gateway " in line and not 500 <= int(line.rpartition(" ")[2]) <= 599:
            line = self.walk.next()
        self.walk.tied.happen(line)
        whose, _, event = line.partition(" ")
        number, _, event = event.partition(" ") if whose == "binding" else ("0", "", event)
        return spelled(event, number != "0").format(self.life(int(number)))


def odd(draw: random.Random, instance: Instance) -> str:
    """A line that is skipped, or that has no meaning."""
    known = instance.life(draw.randint(0, len(instance.walk.tied.bindings)))
    unknown = draw.choice([guid(0xFFFF), f"{guid(0xFFFF)}/{guid(1)}", f"{instance.id}/{guid(0xFFFF)}"])
    again = [instance.first] + [f"binding {known} sync yes at-once no-fetch"] * ("/" in known)
    none = ["", " \t", "# a comment", "#", f"binding {guid(0xFFFF)}/{guid(1)} async no first-poll fetch"]
    events = [
        "send {}",
        "take {} 0",
        f"arrive {{}} {NUMBERS - 1}",
        "work {} whole",
        "crash {} broker",
        "gateway {} 502",
    ]
    numbers = [f"{verb} {known} {draw.choice([0, 7, NUMBERS - 1])}" for verb in ("arrive", "put-off", "take", "garble")]
    return draw.choice([*again, *none, *numbers, draw.choice(events).format(unknown)])


def respelled(draw: random.Random, line: str) -> str:
    """The same words in another way."""
    words = [word.upper() if "-0000-" in word and draw.random() < 0.5 else word for word in line.split(" ")]
    gap = draw.choice([" ", "  ", "\t", " \t "])
    return draw.choice(["", " ", "\t"]) + gap.join(words) + draw.choice(["", " ", "\r", "\t\r"])


def events(draw: random.Random, many: int) -> Iterator[str]:
    """The lines of one to three instances."""
    instances: list[Instance] = []
    for _ in range(many):
        if not instances or len(instances) < 3 and draw.random() < 0.02:
            instances.append(Instance(draw, draw.randint(0, 2**16) * 8 + len(instances)))
            yield instances[-1].first
        instance = draw.choice(instances)
        yield odd(draw, instance) if draw.random() < 0.04 else instance.next()


def filled(line: bytes, is_binding: bool) -> bytes:
    """A line of FAULTS with ids in their places."""
    binding = f"{guid(7)}/{guid(8)}"
    ids = {b"{id}": guid(7), b"{binding}": binding, b"{life}": binding if is_binding else guid(7)}
    for name, text in ids.items():
        line = line.replace(name, text.encode())
    return line


def faulty(draw: random.Random) -> bytes:
    """A line with a fault."""
    return filled(draw.choice(FAULTS)[1], draw.random() < 0.5)


def schedule(seed: int) -> bytes:
    """A schedule of at most 150 events. One in eight has a fault."""
    draw = random.Random(seed)
    many = draw.randint(1, 150)
    lines = [(respelled(draw, line) if draw.random() < 0.05 else line).encode() for line in events(draw, many)]
    if draw.random() < 0.125:
        lines.insert(draw.randint(0, len(lines)), faulty(draw))
    return b"\n".join(lines) + draw.choice([b"\n", b""])
