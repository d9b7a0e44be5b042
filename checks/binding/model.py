"""A model of an instance and its bindings, at one platform and one broker.

A binding is one more life of the kind that network.model has. Bind is its Provision, Unbind its Deprovision, and a
Poll of its last operation its Poll. This module adds what ties the lives together, the credentials, and housekeeping.

The rules. An instance is there if its row is `ready`, with the plan of the binding, and no work is pending. A binding
is held if it has a row or pending work. Something begins if work is due, or if a Bind makes a row in `waiting`.

    a  broker    a Bind begins something only while its instance is there
    b  broker    a request of an instance begins something only while none of its bindings is held
    c  platform  a binding is created only while its instance is recorded `ready`, and an instance is removed only once
                 each of its bindings is recorded `gone` or has no record

A request that may not begin is put off: it is answered as if work were pending, and nothing changes.

Credentials. They are a number. The backend chooses one whenever it makes the resource of a binding whole. A row takes
the number of its resource when it becomes `ready`. A 200 or 201 to a Bind carries the number of the row, and so does
the 200 to a Fetch, which any row has that is `ready` without pending work. In `polling`, the platform takes the answer
`succeeded` to a Poll only together with the 200 to a Fetch. If a binding can't be fetched, the platform gives up a Bind
that is answered with 202. It records the credentials while it records `ready`.

Housekeeping. Once the instance has a tombstone, the broker may delete the tombstones of its bindings. It puts off
every Bind that comes then. Once the instance is recorded `gone`, the platform may delete the records of its bindings.
"""

from __future__ import annotations

import copy
from collections.abc import Iterable
from dataclasses import dataclass, field
from typing import Callable, ClassVar, NamedTuple, TypeVar

from network import model
from network.cells import Design
from network.model import BUSY, EVENTS, Answer, Held, Instance, Request, Row, is_made

# What can be left out, and what happens then. What is of no rule is left out of the binding alone.
PARTS = {
    "rule a": "a Bind begins, whatever the broker holds of the instance",
    "rule a of pending work": "rule a looks at the row of the instance alone",
    "rule a of waiting rows": "a Bind that makes a row in `waiting` isn't put off",
    "rule b": "a Deprovision begins, whatever the broker holds of the bindings",
    "rule b of pending work": "rule b doesn't look at pending work",
    "rule b of waiting rows": "rule b doesn't look at rows in `waiting`",
    "rule c of creation": "a binding is created, whatever is recorded of the instance",
    "rule c of removal": "an instance is removed, whatever is recorded of its bindings",
    "one transaction": "what a and b look at is read in one transaction, and the work is written in another",
    "deleted tombstones": "a Bind whose tombstone was deleted is taken for a new one",
    "deletion of tombstones": "the tombstones of bindings stay",
    "deletion of records": "the records of bindings stay",
    "tombstones": "a binding has no tombstone",
    "tombstone of a refusal": "a Bind that the backend refuses leaves no tombstone",
    "pending work": "a crash of the broker forgets the pending work of a binding",
    "busy": "a request of a binding with pending work is answered by the broker's table",
    "attempts": "the platform takes an answer to any request of the same kind",
    "stored credentials": "the credentials are made anew for each answer that repeats them",
}

# What is promised.
LIVES_AGREE = "each life agrees"
GONE_HAS_NONE = "an instance that is gone has no binding"
HAS_INSTANCE = "there is something of a binding only while its instance is there"
READY_HAS_INSTANCE = "a binding that is recorded ready has its instance there, whole"
WHOLE_INSTANCE = "there is something of a binding only while its instance is whole"
SETTLES = "rounds without a fault settle each life"
PROMISES = (LIVES_AGREE, GONE_HAS_NONE, HAS_INSTANCE, READY_HAS_INSTANCE, WHOLE_INSTANCE)
# What a broker that keeps a and b promises of a platform that doesn't keep c.
OF_THE_BROKER = PROMISES[:3]


class Order(NamedTuple):
    """How a plan works, whether the first request accepts an asynchronous operation, the rule of the first Poll, and
    whether a binding can be fetched.
    """

    mode: str
    accepts: bool = True
    first_poll: bool = False
    retrievable: bool = True

    def told(self) -> str:
        words = [self.mode, "accepts" if self.accepts else "refuses", "first-poll" if self.first_poll else "-"]
        return " ".join(words if self.retrievable else [*words, "no-fetch"])


class Rules(NamedTuple):
    """Which side keeps its rules, and which of PARTS are left out.

    With `truthful`, workers do what the promises of a broker alone assume (docs/premises.md): a deletion that changed
    nothing leaves a whole resource, or had no row that is `ready`; and a deletion makes nothing.
    """

    platform: bool = True
    broker: bool = True
    truthful: bool = False
    without: frozenset[str] = frozenset()
    # The answer to a Bind that is put off.
    refusal: Answer = BUSY["provision"]
    # Whether a round without a fault gives a resource new credentials. Otherwise the resource keeps its credentials,
    # or 0 for none.
    renews: bool = True

    def has(self, part: str) -> bool:
        if part.startswith("rule ") and not (self.platform if part.startswith("rule c") else self.broker):
            return False
        return part not in self.without


class Face(NamedTuple):
    """What the rules and the promises see of a life."""

    is_ready: bool
    is_gone: bool
    # No record, or gone.
    rests: bool
    held: bool
    row_ready: bool
    pending: bool
    waiting: bool
    tombstone: bool
    exists: bool
    whole: bool

    @property
    def there(self) -> bool:
        return self.row_ready and not self.pending


class Permissions(NamedTuple):
    """What the rules allow a life for now."""

    create: bool = True
    remove: bool = True
    begin: bool = True
    # Whether its tombstone, and its record, may be deleted.
    forget: bool = False
    drop: bool = False


def of_instance(rules: Rules, bindings: Iterable[Face]) -> Permissions:
    """What an instance is allowed, by what is seen of its bindings."""
    seen = list(bindings)
    held = [face for face in seen if face.held]
    if not rules.has("rule b of pending work"):
        held = [face for face in held if not face.pending]
    if not rules.has("rule b of waiting rows"):
        held = [face for face in held if not face.waiting]
    remove = not rules.has("rule c of removal") or all(face.rests for face in seen)
    return Permissions(remove=remove, begin=not rules.has("rule b") or not held)


def of_binding(rules: Rules, instance: Face) -> Permissions:
    """What a binding is allowed, by what is seen of its instance.

    Without c no record is deleted: the id could be used twice.
    """
    creation = rules.has("rule c of creation")
    there = instance.there if rules.has("rule a of pending work") else instance.row_ready
    return Permissions(
        create=not creation or instance.is_ready,
        begin=not rules.has("rule a") or there,
        forget=rules.has("deletion of tombstones") and instance.tombstone,
        drop=rules.has("deletion of records") and creation and instance.is_gone,
    )


# ---- what a broker holds


def begins(mode: str, held: Held, request: Request) -> bool:
    """Whether the request begins something: its work is due, or it makes a row in `waiting`."""
    if model.conflicts(held, request) or held.work is not None or held.tombstone and request.kind == "provision":
        return False
    waits = held.row is not None and held.row.phase == "waiting"
    return not waits and model.is_due(mode, held.row, request)


def is_held(held: Held) -> bool:
    return held.row is not None or held.work is not None


def is_there(held: Held, plan: int) -> bool:
    return held.row == Row(plan, "ready") and held.work is None


def is_forgotten(instance: Held, held: Held) -> bool:
    """Whether nothing is kept of a binding whose instance has ended."""
    return instance.tombstone and not held.tombstone and not is_held(held)


# ---- one life


@dataclass
class Life(Instance):
    """An instance that may have bindings. What the rules allow is set before each event."""

    # The kind that a rule is about.
    tied: ClassVar[str] = "deprovision"
    allowed: Permissions = Permissions()
    without: frozenset[str] = frozenset()
    truthful: bool = False
    # Without "one transaction": the number of the request that has passed the rule, and hasn't begun yet.
    passed: int | None = None

    @property
    def design(self) -> Design:
        return Design((self.mode, "-"), self.first_poll, self.without)

    @property
    def face(self) -> Face:
        return Face(
            is_ready=self.state == "ready",
            is_gone=self.state == "gone",
            rests=self.state in (None, "gone"),
            held=is_held(self.held),
            row_ready=self.phase == "ready",
            pending=self.held.work is not None,
            waiting=self.phase == "waiting",
            tombstone=self.held.tombstone,
            exists=self.resource != "absent",
            whole=self.resource == "whole",
        )

    def begins(self, request: Request) -> bool:
        held = self.held if "tombstones" not in self.without else self.held._replace(tombstone=False)
        return begins(self.mode, held, request)

    def is_put_off(self, request: Request) -> bool:
        return not self.allowed.begin and self.begins(request)

    def put_off_answer(self, kind: str) -> Answer:
        return BUSY[kind]

    def begin(self, request: Request) -> Answer | None:
        if self.is_put_off(request):
            return self.put_off_answer(request.kind)
        self.held, answer = self.design.arrive(self.held, request)
        return answer

    # ---- the events of network.model, as far as a rule or a part changes them

    def create(self, argument: str) -> bool:
        return self.allowed.create and super().create(argument)

    def remove(self, argument: str) -> bool:
        return self.allowed.remove and super().remove(argument)

    def arrive(self, number: str) -> bool:
        attempt = int(number)
        if "one transaction" in self.without and 1 <= attempt <= len(self.sent):
            request = self.sent[attempt - 1]
            if request.kind == self.tied and self.begins(request) and not self.is_put_off(request):
                self.passed = attempt
                return True
        return super().arrive(number)

    def given_to_out(self, place: str) -> Answer | None:
        given = self.given[int(place)] if int(place) < len(self.given) else None
        if given and self.out and "attempts" in self.without and self.sent[given.attempt - 1].kind == self.out:
            return given.answer
        return super().given_to_out(place)

    def end(self, outcome: str) -> bool:
        if self.truthful and not self.design.is_true(self.held, outcome, self.resource):
            return False
        if not super().end(outcome):
            return False
        if outcome.startswith("refused") and "tombstone of a refusal" in self.without:
            self.held = Held()
        return True

    def become(self, resource: str) -> bool:
        if self.truthful and resource not in self.design.changes(self.held, self.resource):
            return False
        return super().become(resource)

    def crash_broker(self, argument: str) -> bool:
        if "pending work" in self.without:
            self.held = self.held._replace(work=None)
        return super().crash_broker(argument)

    # ---- more events

    def begin_passed(self, _: str) -> bool:
        """The request that has passed the rule begins, if its work is still due."""
        number, self.passed = self.passed, None
        if number is None:
            return False
        if self.begins(self.sent[number - 1]):
            self.allowed = self.allowed._replace(begin=True)
            super().arrive(str(number))
        return True

    def happen(self, line: str) -> bool:
        word, _, argument = line.partition(" ")
        event: Callable[[str], bool] | None = getattr(self, (EVENTS | MORE)[word], None)
        return event is not None and event(argument)

    # ---- rounds without a fault

    def go_well(self, end: str) -> None:
        """What goes on goes well for the resource, and ends so."""
        made = is_made(self.held)
        if made is not None:
            self.happen(self.work_well(made))
        self.happen(end)

    def work_well(self, made: bool) -> str:
        return "work whole" if made else "work absent"

    def take_latest(self) -> None:
        self.happen(f"take {len(self.given) - 1}")

    def round(self, removing: bool = False) -> None:
        """Lets a round pass without a fault. With `removing`, the life is removed if it may be."""
        self.happen("timeout")
        if removing:
            self.happen("remove")
        self.go_well("end done")
        self.go_well("finish ok")
        if self.happen("send"):
            self.happen(f"arrive {self.attempt}")
            self.go_well("end done")
            self.take_latest()


@dataclass
class Binding(Life):
    """A binding. Credentials are numbers from 1; 0 stands for none."""

    tied: ClassVar[str] = "provision"
    retrievable: bool = True
    refusal: Answer = BUSY["provision"]
    renews: bool = True
    # Whether the broker has deleted the tombstone.
    forgotten: bool = False
    # The credentials that the platform records, of the row, and of the resource; and the highest ever chosen.
    recorded: int = 0
    row: int = 0
    credentials: int = 0
    chosen: int = 0
    # The credentials beside each answer of `given`, and those of each answer to a Fetch.
    beside: list[int] = field(default_factory=list)
    fetched: list[int] = field(default_factory=list)

    def is_put_off(self, request: Request) -> bool:
        if request.kind != "provision" or self.forgotten:
            return request.kind == "provision"
        waits = self.first_poll and self.mode == "async"
        return super().is_put_off(request) and not (waits and "rule a of waiting rows" in self.without)

    def put_off_answer(self, kind: str) -> Answer:
        return self.refusal if kind == "provision" else BUSY[kind]

    def choose(self, number: int) -> None:
        self.credentials, self.chosen = number, max(self.chosen, number)

    def make_anew(self) -> None:
        self.choose(self.chosen + 1)
        self.row = self.credentials

    def become(self, resource: str) -> bool:
        word, _, number = resource.partition(" ")
        if not super().become(word):
            return False
        self.choose(int(number) if word == "whole" else 0)
        return True

    def fetch(self, _: str) -> bool:
        """A Fetch arrives. It applies if it is answered with credentials."""
        if self.phase != "ready" or self.held.work is not None:
            return False
        if "stored credentials" in self.without:
            self.make_anew()
        self.fetched.append(self.row)
        return True

    def needs_fetch(self, answer: Answer) -> bool:
        return (self.state, self.out, answer) == ("polling", "poll", (200, "succeeded"))

    def take(self, place: str) -> bool:
        answer = self.given_to_out(place)
        if answer is None or self.needs_fetch(answer):
            return False
        if not self.retrievable and self.out == "provision" and answer.status == 202:
            return self.timeout("")
        if not self.answered(answer):
            return False
        self.recorded = self.beside[int(place)]
        return True

    def take_fetched(self, places: str) -> bool:
        """The platform takes the answer to a Poll at the first place with that to a Fetch at the second."""
        place, _, fetched = places.partition(" ")
        answer = self.given_to_out(place)
        if answer is None or not self.needs_fetch(answer) or int(fetched) >= len(self.fetched):
            return False
        self.answered(answer)
        self.recorded = self.fetched[int(fetched)]
        return True

    def forget(self, _: str) -> bool:
        """The broker deletes the tombstone."""
        if not self.allowed.forget or not self.held.tombstone:
            return False
        # Rule a reads the instance's tombstone, too.
        if self.without & {"deleted tombstones", "one transaction"}:
            self.held = Held()
        else:
            self.forgotten = True
        return True

    def drop(self, _: str) -> bool:
        """The platform deletes the record."""
        if not self.allowed.drop or self.state != "gone":
            return False
        self.state = None
        return True

    def happen(self, line: str) -> bool:
        phase, given = self.phase, len(self.given)
        applied = super().happen(line)
        self.note(phase, given)
        return applied

    def note(self, phase: str | None, given: int) -> None:
        """Keeps the credentials with the row, the new answers and the record."""
        if self.phase != "ready":
            self.row = 0
        elif phase != "ready":
            self.row = self.credentials
        for response in self.given[given:]:
            gives = self.sent[response.attempt - 1].kind == "provision" and response.answer.status in (200, 201)
            if gives and phase == "ready" and "stored credentials" in self.without:
                self.make_anew()
            self.beside.append(self.row if gives else 0)
        if self.state != "ready":
            self.recorded = 0

    def work_well(self, made: bool) -> str:
        return f"work whole {self.chosen + 1 if self.renews else self.credentials}" if made else "work absent"

    def take_latest(self) -> None:
        place = len(self.given) - 1
        if place >= 0 and self.needs_fetch(self.given[place].answer):
            self.happen("fetch")
            self.happen(f"take-fetched {place} {len(self.fetched) - 1}")
        else:
            super().take_latest()

    def agrees(self) -> bool:
        """As of an instance; and what is recorded as ready has the credentials of the row and of the resource."""
        if self.state == "ready" and not 0 < self.recorded == self.row == self.credentials:
            return False
        return super().agrees()

    def words(self) -> str:
        record, held, resource = super().words().split("; ")
        recorded = self.recorded if self.state == "ready" else "-"
        credentials = self.credentials if resource == "whole" else "-"
        held = "- - -" if self.forgotten else held
        return "; ".join([record, held, resource, f"credentials {recorded} {credentials}"])

    def more_words(self, given: int) -> list[str]:
        found = super().more_words(given)
        gives = [f"{answer.attempt} gives {beside}" for answer, beside in zip(self.given, self.beside)][given:]
        return [*found, *(text for text in gives if not text.endswith(" 0")), f"row {self.row or '-'}"]


# The method of each event that network.model doesn't have.
MORE = {"begin": "begin_passed", "fetch": "fetch", "take-fetched": "take_fetched", "forget": "forget", "drop": "drop"}

AnyLife = TypeVar("AnyLife", bound=Life)


def clone(life: AnyLife) -> AnyLife:
    other = copy.copy(life)
    for name, value in vars(life).items():
        if isinstance(value, list):
            setattr(other, name, list(value))
    return other


# ---- an instance and its bindings


def new_instance(rules: Rules, order: Order) -> Life:
    return Life(*order[:3], without=rules.without & {"one transaction"}, truthful=rules.truthful)


def new_binding(rules: Rules, order: Order) -> Binding:
    binding = Binding(*order[:3], without=rules.without, truthful=rules.truthful, refusal=rules.refusal)
    binding.retrievable, binding.renews = order.retrievable, rules.renews
    return binding


def broken(instance: Face, binding: Face) -> frozenset[str]:
    """The promises between an instance and a binding that are broken."""
    somewhere = binding.held or binding.exists
    checks = {
        GONE_HAS_NONE: somewhere and instance.rests,
        HAS_INSTANCE: somewhere and not instance.there,
        READY_HAS_INSTANCE: binding.is_ready and not (instance.there and instance.whole),
        WHOLE_INSTANCE: somewhere and not instance.whole,
    }
    return frozenset(promise for promise, check in checks.items() if check)


class BoundInstance:
    """An instance, and its bindings by their numbers from 1."""

    def __init__(self, rules: Rules, instance: Order, *bindings: Order) -> None:
        self.rules, self.instance = rules, new_instance(rules, instance)
        self.bindings = [new_binding(rules, order) for order in bindings]

    @property
    def lives(self) -> list[Life]:
        return [self.instance, *self.bindings]

    def clone(self) -> BoundInstance:
        other = copy.copy(self)
        other.instance, other.bindings = clone(self.instance), [clone(binding) for binding in self.bindings]
        return other

    def allow(self) -> None:
        """Sets what each life is allowed, by what there is of the others."""
        self.instance.allowed = of_instance(self.rules, [life.face for life in self.bindings])
        for binding in self.bindings:
            binding.allowed = of_binding(self.rules, self.instance.face)

    def named(self, line: str) -> tuple[Life, str]:
        """The life that a line names, and its event."""
        whose, _, event = line.partition(" ")
        if whose == "instance":
            return self.instance, event
        number, _, event = event.partition(" ")
        return self.bindings[int(number) - 1], event

    def happen(self, line: str) -> bool:
        """Lets the event of a line happen, `instance EVENT` or `binding NUMBER EVENT`. Returns whether it applies."""
        life, event = self.named(line)
        self.allow()
        return life.happen(event)

    def round(self, removing: bool = False) -> None:
        """A round without a fault of the instance, and then one of each binding."""
        for life in self.lives:
            self.allow()
            life.round(removing)

    def settles(self, rounds: int = 3, removing: bool = False) -> bool:
        """Whether nothing is due in any life after so many rounds without a fault. Nothing changes."""
        after = self.clone()
        for _ in range(rounds):
            after.round(removing)
        at_rest = {None, "gone"} if removing else {None, "ready", "gone", "unsettled"}
        return all(life.state in at_rest for life in after.lives)

    def broken(self) -> frozenset[str]:
        """The promises that are broken."""
        found = frozenset[str]().union(*(broken(self.instance.face, binding.face) for binding in self.bindings))
        return found if all(life.agrees() for life in self.lives) else found | {LIVES_AGREE}

    def words(self) -> str:
        """What there is of each life."""
        return " | ".join(life.words() for life in self.lives)
