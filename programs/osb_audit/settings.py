"""What the lines `started` of brokers say: the plans, and the rules that an operator chooses."""
from __future__ import annotations

from typing import Mapping, NamedTuple

from osb_audit.lines import NAMES_EVENTS, OF_SOLD, OF_STARTED, BadLine, check, members_of
from osb_audit.rules import Plan


class Sold(NamedTuple):
    """How a plan is sold: how instances and bindings of it are created, and whether a binding can be fetched."""

    mode: str = "none"
    binding: str = "none"
    is_retrievable: bool = False
    is_fetchable: bool | None = None
    """Whether an instance can be fetched, or None if the journal is of a version that doesn't say so."""


class Settings(NamedTuple):
    """Those of a process of a broker, as far as the model has them."""

    first_poll: bool
    plans: Mapping[Plan, Sold]
    locks_can_be_lost: bool = True
    """Whether a lock may end while its worker goes on, as far as the journal says."""

    def sold(self, plan: Plan | None) -> Sold:
        """How the plan is sold, if it is."""
        return self.plans.get(plan, Sold()) if plan else Sold()


def names_events(text: bytes, side: str) -> bool:
    """Whether the line `started` of a process says that its drivers name each event. Version 0.3 says nothing. Raises
    `BadLine`.
    """
    members = members_of(text)
    check(members, NAMES_EVENTS, f"started of a {side}")
    return bool(members.get("names_events"))


def settings_in(text: bytes) -> Settings:
    """Reads the line `started` of a broker. Raises `BadLine`."""
    members = members_of(text)
    check({name: value for name, value in members.items() if value is not None}, OF_STARTED, "started of a broker")
    plans = {}
    for plan in members.get("plans") or ():
        if not isinstance(plan, dict) or any(name not in plan for name in ("service_number", "plan_number")):
            raise BadLine("a plan in started of a broker has no service_number or no plan_number")
        check(plan, OF_SOLD, "a plan in started of a broker")
        plans[plan["service_number"], plan["plan_number"]] = Sold(
            plan.get("mode", "none"),
            plan.get("binding", "none"),
            plan.get("retrievable", False),
            plan.get("instances_retrievable"),
        )
    lost = members.get("locks_can_be_lost")
    return Settings(members.get("first_poll") or False, plans, True if lost is None else lost)
