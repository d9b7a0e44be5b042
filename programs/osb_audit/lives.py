"""What an audit knows of an instance or of a binding while it goes through the lines: what each side keeps, the
resource, and what the proved model will number.
"""
from __future__ import annotations

from dataclasses import dataclass, field
from typing import NamedTuple

from osb_audit.lines import Line
from osb_audit.rules import NO_TERMS, NOTHING, UNKNOWN, Held, Plan, Recorded, Said, Terms

VisitName = tuple[str, int]
"""A process, and the number of one of its visits."""


class Given(NamedTuple):
    """An answer that the model has given, and its position among all that it has given of a life."""

    position: int
    said: Said


class Sent(NamedTuple):
    """A request of a platform: the life, its number, or 0 of one that isn't numbered, its kind, and its plan."""

    key: str
    attempt: int
    kind: str
    plan: Plan | None


def plan_of(line: Line) -> Plan | None:
    """The plan that a line names, if it does."""
    service, plan = line.of.get("service"), line.of.get("plan")
    return (service, plan) if service and plan else None


@dataclass
class Visit:
    """A request at a broker."""

    arrived: Line
    answered: Line | None = None
    changes: int = 0
    """How many changes of its own life are still to come."""
    is_resolved: bool = False
    """Whether the model has answered it, or nothing more is asked of it."""
    has_found: bool = False
    """Whether the rows were once as its answer has seen them, since it has arrived."""
    attempt: int | None = None
    """The number of the request, once it is asked for."""
    may_conflict: bool = False
    """Whether its answer is right if it has other attributes than what was held, which an older journal doesn't say."""

    @property
    def key(self) -> str:
        """Its life."""
        return self.arrived.key

    @property
    def request(self) -> str:
        """The id of the request."""
        return str(self.arrived.of["request"])

    @property
    def kind(self) -> str:
        """What it asks for."""
        return str(self.arrived.of["kind"])

    @property
    def accepts(self) -> bool:
        """Whether it accepts an asynchronous operation."""
        return bool(self.arrived.of.get("accepts", False))

    @property
    def plan(self) -> Plan | None:
        """The plan that it names, if it does."""
        return plan_of(self.arrived)

    @property
    def attributes(self) -> str | None:
        """The digest of the attributes of a creation, or None if the journal is of an older version."""
        found = self.arrived.of.get("attributes")
        return str(found) if found else None

    @property
    def version(self) -> bytes:
        """The digest of the version that an Update or the creation of an instance names, or zeroes for none."""
        return bytes.fromhex(self.arrived.of.get("version", "")) or bytes(32)

    @property
    def said(self) -> Said | None:
        """What it was answered, or None if it never was."""
        return (self.answered.of["status"], self.answered.of["body"]) if self.answered else None

    @property
    def is_failed(self) -> bool:
        """Whether it was answered 5xx: then it is as if it had been lost, and a gateway had answered."""
        return self.answered is not None and 500 <= self.answered.of["status"] <= 599


@dataclass
class Life:
    """An instance, or a binding."""

    key: str
    name: str
    """As the language of schedules has it."""
    is_ordered: bool = False
    ordered: Plan | None = None
    """What was ordered, which the model has."""
    record: Recorded = UNKNOWN
    record_text: str = ""
    record_line: Line | None = None
    is_abandoned: bool = False
    is_others: bool = False
    """Whether another client has created it. The model doesn't have it: it is judged by the tables alone."""
    claimed: dict[int, str] = field(default_factory=dict)
    """The kind of each request that the record has had in flight, by its number."""
    taken: set[int] = field(default_factory=set)
    """The numbers of the requests whose answer or timeout was taken."""
    held: Held = NOTHING
    held_text: str = ""
    """With what is kept of updates behind it."""
    held_line: Line | None = None
    terms: Terms = NO_TERMS
    """Of what is held."""
    resource: str = "absent"
    credentials: int = 0
    """The number of those of the resource."""
    known: int = 0
    """The number of those that the resource has if it is found whole: a call that fails leaves them."""
    recorded: str = ""
    """The digest that the platform records."""
    numbers: dict[str, int] = field(default_factory=dict)
    """Of each digest of credentials."""
    given: dict[int, list[Given]] = field(default_factory=dict)
    """The answers to each request, by its number."""
    answers: int = 0
    """How many answers the model has given."""
    fetched: list[VisitName] = field(default_factory=list)
    """The visits whose Fetch was answered with credentials."""
    worker: VisitName | None = None
    """The visit that waits for the end of its work."""
    sender: str = ""
    """The process that has sent the request that is out."""

    @property
    def is_binding(self) -> bool:
        """Whether it is a binding."""
        return bool(self.key)

    @property
    def id(self) -> str:
        """That of the instance, or that of the binding alone."""
        return self.key or self.name

    @property
    def plan(self) -> Plan | None:
        """That of what is held."""
        return self.terms.plan

    def number_of(self, digest: str) -> int:
        """The number that stands for these credentials; 0 for none."""
        return self.numbers.setdefault(digest, len(self.numbers) + 1) if digest else 0

    def come(self, record: Recorded) -> None:
        """The platform has another record."""
        self.record = record
        if record.out != "-":
            self.claimed[record.attempt] = record.out

    def give(self, attempt: int, said: Said) -> None:
        """The model has answered the request of this number."""
        self.given.setdefault(attempt, []).append(Given(self.answers, said))
        self.answers += 1
