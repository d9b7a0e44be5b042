"""What `osb-replay network` is to write, once more: over the models of checks/binding, and by no code of the crates."""

from __future__ import annotations

from collections.abc import Iterator
from dataclasses import dataclass, field

from binding.model import Binding, BoundInstance, Life, Order, Rules, new_binding
from network.model import Answer
from network_replay.language import Event, LineFault, read

COLUMNS = "line event step state out attempt phase work tombstone resource recorded credentials given answer"
HEADER = COLUMNS.replace(" ", "\t")
# `osb_binding_network` deletes no records, and a round without a fault leaves the credentials.
WITHOUT = frozenset(["deletion of records"])
RULES = {
    rules: Rules(rules in ("both", "platform"), rules in ("both", "broker"), without=WITHOUT, renews=False)
    for rules in ("both", "platform", "broker", "none")
}
BODIES = {"empty": "", "error": "-Other"}
# Of a life that was never taken in.
UNKNOWN = ["none", "-", "-", "none", "-", "-", "absent", "-", "-"]


def order_of(mode: str, accepts: str, poll: str, fetch: str = "fetch") -> Order:
    return Order("-" if mode == "none" else mode, accepts == "yes", poll == "first-poll", fetch == "fetch")


def model_event(event: Event) -> str:
    """The event as the models spell it."""
    verb, arguments = event.verb, " ".join(event.arguments)
    if verb == "issue" or (verb, arguments) == ("work", "whole") and event.binding:
        return f"work whole {arguments if verb == 'issue' else 0}"
    if verb == "end":
        return "end-unknown" if arguments == "unknown" else f"end {arguments.replace('-', ' ')}"
    if verb == "crash":
        return f"crash-{arguments}"
    if verb == "garble":
        return f"garbled {arguments}"
    if verb == "finish":
        return "finish ok" if arguments == "ok" else "finish failed"
    return f"{verb} {arguments}".rstrip()


def text_of(answer: Answer) -> str:
    return f"{answer.status}{BODIES.get(answer.body, f'-{answer.body}')}"


def columns_of(life: Life | None) -> list[str]:
    """What is recorded and held, the resource, and the credentials."""
    if life is None:
        return UNKNOWN
    forgotten = isinstance(life, Binding) and life.forgotten
    record = [life.state or "none", life.out or "-", "-" if life.state is None else str(life.attempt)]
    work = life.held.work.kind if life.held.work else "-"
    held = [life.phase or "none", work, "tombstone" if life.held.tombstone and not forgotten else "-"]
    recorded = str(life.recorded) if isinstance(life, Binding) and life.state == "ready" else "-"
    credentials = str(life.credentials) if isinstance(life, Binding) and life.resource == "whole" else "-"
    return [*record, *held, life.resource, recorded, credentials]


@dataclass
class Service:
    """An instance and its bindings, the bindings by their ids."""

    tied: BoundInstance
    places: dict[str, int] = field(default_factory=dict)

    def life(self, binding: str) -> Life | None:
        if not binding:
            return self.tied.instance
        return self.tied.bindings[self.places[binding]] if binding in self.places else None

    def take_in(self, event: Event) -> bool:
        if event.binding in self.places:
            return False
        self.places[event.binding] = len(self.tied.bindings)
        self.tied.bindings.append(new_binding(self.tied.rules, order_of(*event.arguments)))
        return True

    def step(self, event: Event) -> bool:
        life = self.life(event.binding)
        if life is None:
            return False
        self.tied.allow()
        return life.happen(model_event(event))

    def settle(self) -> None:
        """Three rounds without a fault of the instance, then of each binding. Nothing if the platform has no rules."""
        if not self.tied.rules.platform:
            return
        for life in (self.tied.instance, *(self.tied.bindings[self.places[place]] for place in sorted(self.places))):
            for _ in range(3):
                self.tied.allow()
                life.round()


@dataclass
class World:
    """All instances by their ids, and how many events applied and were skipped."""

    services: dict[str, Service] = field(default_factory=dict)
    applied: int = 0
    skipped: int = 0

    def life(self, event: Event) -> Life | None:
        service = self.services.get(event.instance)
        return service.life(event.binding) if service else None

    def _happen(self, event: Event) -> bool:
        service = self.services.get(event.instance)
        if event.verb == "instance":
            if service is None:
                *order, rules = event.arguments[2:]
                self.services[event.instance] = Service(BoundInstance(RULES[rules], order_of(*order)))
            return service is None
        if service is None:
            return False
        return service.take_in(event) if event.verb == "binding" else service.step(event)

    def step(self, event: Event) -> bool:
        """Lets the event happen. Returns whether it applied."""
        applied = self._happen(event)
        self.applied += applied
        self.skipped += not applied
        return applied

    def traced(self, event: Event) -> str:
        """Lets the event happen, and returns its line of the trace."""
        before = self.life(event)
        given = len(before.given) if before else 0
        step = "applied" if self.step(event) else "skipped"
        life = self.life(event)
        answers = life.given if life else []
        answer = text_of(answers[-1].answer) if len(answers) > given else "-"
        words = [str(event.line), " ".join(event.words), step, *columns_of(life), str(len(answers)), answer]
        return "\t".join(words)

    def report(self) -> Iterator[str]:
        for instance in sorted(self.services):
            service = self.services[instance]
            yield " ".join([instance, *columns_of(service.tied.instance)[:7]])
            for binding in sorted(service.places):
                yield " ".join([f"{instance}/{binding}", *columns_of(service.life(binding))])
        yield f"applied {self.applied}"
        yield f"skipped {self.skipped}"


def _whole(lines: list[str]) -> str:
    return "".join(f"{line}\n" for line in lines)


def report(schedule: bytes, settle: bool = False) -> tuple[int, str, str]:
    """The status, the report and the line on standard error."""
    world = World()
    try:
        for event in read(schedule):
            world.step(event)
    except LineFault as fault:
        return 1, "", f"osb-replay: {fault}\n"
    if settle:
        for service in world.services.values():
            service.settle()
    return 0, _whole(list(world.report())), ""


def trace(schedule: bytes, instance: str = "") -> tuple[int, str, str]:
    """The status, the trace, of one instance if it is named, and the line on standard error.

    All lines are read before any is traced. So of a schedule with a fault nothing is written.
    """
    world, lines = World(), [HEADER]
    try:
        for event in read(schedule):
            line = world.traced(event)
            if instance in ("", event.instance):
                lines.append(line)
    except LineFault as fault:
        return 1, "", f"osb-replay: {fault}\n"
    return 0, _whole(lines), ""
