"""What service_cases writes of an instance without bindings, of many, and of a broker alone, by the models.

Its lines `life`, `many` and `alone` let many events happen; an order, and each event by itself, stand in lines of an
instance with a binding.
"""

from __future__ import annotations

from collections.abc import Callable, Iterator
from pathlib import Path

from crate_programs import told_by
from network.alone import LoneBroker
from network.alone import Tally as LoneTally
from network.model import Instance
from network.walks import Step, Tally, Walk

TellEach = Callable[[list[str]], list[str]]

LIVES = Path(__file__).parent / "lives.txt"
# A binding that nothing happens to, beside the instance: its order, and what there is of it.
ORDER, NOTHING = "- accepts -", " | -; - - -; absent; credentials - -"


# ---- many events in a line


def instance_of(order: str) -> Instance:
    mode, accepts, rule = order.split(" ")
    return Instance(mode, accepts == "accepts", rule == "first-poll")


def life(order: str, events: list[str]) -> str:
    instance = instance_of(order)
    for event in events:
        instance.happen(event)
    return instance.told(0)


def many(begun: str, events: list[str]) -> str:
    count, _, order = begun.partition(" ")
    instances = {str(number): instance_of(order) for number in range(1, int(count) + 1)}
    for event in events:
        number, _, happening = event.partition(" ")
        if number in instances:
            instances[number].happen(happening)
    return "\n  ".join(f"{number}: {instance.told(0)}" for number, instance in instances.items())


def alone(begun: str, events: list[str]) -> str:
    one, other, rule = begun.split(" ")
    broker = LoneBroker(LoneTally(), (one, other), rule == "first-poll")
    for event in events:
        broker.happen(event)
    return broker.in_a_line().wanted


FORMS = {"life": life, "many": many, "alone": alone}


def in_a_line(line: str) -> Step:
    """A line of one of these forms, and what stands behind it."""
    form, _, rest = line.partition(" ")
    begun, _, events = rest.partition(": ")
    return Step(line, FORMS[form](begun, events.split(", ")))


# ---- lives.txt


def lives() -> list[str]:
    return [line for line in LIVES.read_text().splitlines() if line and not line.startswith("#")]


def walks() -> Iterator[Walk]:
    """The lines `order`, each event by itself."""
    for line in lives():
        order, _, events = line.partition(": ")
        if order.startswith("order "):
            mode, accepts, rule = order.split(" ")[1:]
            walk = Walk(Tally(), mode, accepts == "accepts", rule == "first-poll")
            for event in events.split(", "):
                walk.happen(event)
            yield walk


def at_once() -> list[str]:
    """The other lines, and one for each order, whose events before the rounds happen at once."""
    return [line.replace("order ", "life ").partition(", settle")[0] for line in lives()]


def of_crate() -> list[str]:
    """Those of these lines that the crate runs: the shortest of each form."""
    return [min((line for line in at_once() if line.startswith(form)), key=len) for form in FORMS]


# ---- each event by itself


def teller() -> TellEach:
    """Tells what service_cases makes of each line of a walk."""
    tell = told_by("service_cases")

    def told(lines: list[str]) -> list[str]:
        asked = [asked_of(line) for line in lines]
        return [what_of(line, written) for line, written in zip(asked, tell(asked).splitlines())]

    return told


def asked_of(line: str) -> str:
    order = line.removeprefix("order ")
    return f"instance {line}" if order == line else f"service platform broker: {order}; {ORDER}"


def what_of(line: str, written: str) -> str:
    assert written.startswith(f"{line}  ")
    what, nothing, more = written.removeprefix(f"{line}  ").partition(NOTHING)
    assert nothing == NOTHING
    return what + (more or " # 0 sent, 0 given")
