"""Requests and answers, what each side keeps of an instance, and the plans on sale: values, none of which changes."""
from __future__ import annotations

from dataclasses import dataclass

from osb.enums import Body, Kind, Phase, State
from osb.ids import Id


@dataclass(frozen=True)
class Request:
    """A request about an instance."""

    kind: Kind
    accepts_incomplete: bool
    """Whether the operation may be asynchronous."""
    id: Id
    service: Id
    plan: Id


@dataclass(frozen=True)
class Answer:
    """An answer: its HTTP status, from 0 to 65535, and what can be read of its body."""

    status: int
    body: Body

    def __post_init__(self) -> None:
        if self.status not in range(2**16):
            raise ValueError("the status of an answer is a number from 0 to 65535")


@dataclass(frozen=True)
class PlatformRow:
    """An instance as a saved record of version 0.2 or earlier names it (docs/saved-record.md)."""

    service: Id
    plan: Id
    state: State
    out: Kind | None
    """The kind of the request in flight, or None."""


@dataclass(frozen=True)
class Plan:
    """A plan on sale."""

    service: Id
    plan: Id
    is_asynchronous: bool
    """Whether its operations are only begun when the broker answers."""


@dataclass(frozen=True)
class Endpoints:
    """The endpoints that a broker serves besides those of Provision, Deprovision and Poll."""

    updating: bool = False
    """Updating an instance, which `plan_updateable` promises."""
    bindings: bool = False
    """Binding and unbinding, which `bindable` promises."""
    fetching_instances: bool = False
    """Fetching an instance, which `instances_retrievable` promises."""
    fetching_bindings: bool = False
    """Fetching a binding, which `bindings_retrievable` promises."""


@dataclass(frozen=True)
class BrokerRow:
    """What a broker holds of an instance."""

    service: Id
    plan: Id
    phase: Phase
