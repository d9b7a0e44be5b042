"""Goes through the lines of an instance, and finds the events of the proved model that they are.

broker_side and platform_side say which line is which event: the one that its driver names. This module has what both
need.
"""
from __future__ import annotations

from collections import Counter
from typing import Container, Mapping, Sequence

from osb_audit.events import STEP, Event, Stop, Story
from osb_audit.lines import Line
from osb_audit.lives import Life, Sent, Visit, VisitName, plan_of
from osb_audit.rules import Plan
from osb_audit.settings import Settings, Sold

NAMED = "the driver says that it is another event than the tables"
UNNAMED = "the line doesn't say which event its driver says that it is"


class Stopped(Exception):
    """Nothing of the instance is gone through any further."""

    def __init__(self, stop: Stop) -> None:
        super().__init__(stop.why)
        self.stop = stop


def differs(line: Line, why: str, model: str, journal: str) -> Stopped:
    """A difference that shows without the model."""
    return Stopped(Stop(line.position, True, why, model, journal))


def unjudged(line: Line, why: str) -> Stopped:
    """What can't be judged from this line on."""
    return Stopped(Stop(line.position, False, why))


class Known:
    """What there is of an instance: its lives, the requests, and the events so far."""

    def __init__(self, instance: str, lines: Sequence[Line], settings: Settings, naming: Container[str]) -> None:
        self.instance, self.lines, self.settings, self.naming = instance, lines, settings, naming
        self.lives: dict[str, Life] = {"": Life("", instance)}
        self.events: list[Event] = []
        self.notes: Counter[str] = Counter()
        self.visits: dict[VisitName, Visit] = {}
        self.sent: dict[str, Sent] = {}
        self.accepts: dict[str, bool] = {}
        self.requests: dict[tuple[str, int], list[str]] = {}
        self.answers: dict[str, Line] = {}
        self.heard: dict[str, Line] = {}
        self.fetches: dict[str, list[str]] = {}
        self.attributes: dict[tuple[str, str], str] = {}
        self.left: Stop | None = None
        """From where on the model doesn't judge it any more, and why. Brokers are judged by the tables alone then."""
        for line in lines:
            self._note(line)

    def _note(self, line: Line) -> None:
        """What has to be known of later lines."""
        if line.event == "arrived" and line.visit:
            self.visits[line.visit] = Visit(line)
            if "attributes" in line.of:
                self.attributes.setdefault((line.of["request"], line.key), line.of["attributes"])
        elif line.side == "broker" and line.event == "answered" and line.visit in self.visits:
            self.visits[line.visit].answered = line
        elif line.side == "broker" and line.event == "changed" and line.visit in self.visits:
            self.visits[line.visit].changes += line.key == self.visits[line.visit].key
        elif line.event == "sent":
            sent = Sent(line.key, line.of.get("attempt", 0), line.of["kind"], plan_of(line))
            self.sent[line.of["request"]] = sent
            if sent.kind == "provision":
                self.accepts.setdefault(line.key, bool(line.of.get("accepts")))
        elif line.side == "platform" and line.event == "answered":
            self.answers[line.of["request"]] = line

    def next_change(self, line: Line) -> Line | None:
        """The next change of the record of the same life, or None if there is none."""
        behind = iter(self.lines)
        any(other is line for other in behind)
        row = "platform", "changed", line.key
        return next((other for other in behind if (other.side, other.event, other.key) == row), None)

    # ---- what a driver names

    def name(self, line: Line, *allowed: str) -> str:
        """The event that a driver names in a line, one of those that are allowed there, or "" if its process names
        none, because it is of version 0.3.
        """
        name: str = line.of.get("effect", "")
        if not name and line.process in self.naming:
            raise differs(line, UNNAMED, "an event", "-")
        if name and name not in allowed:
            raise differs(line, NAMED, " or ".join(allowed) if len(allowed) < 3 else "one that changes it so", name)
        return name

    # ---- requests

    def request_of(self, visit: Visit) -> Sent | None:
        """What a platform has sent, or None if no journal of a platform has the request."""
        sent = self.sent.get(visit.request)
        return sent if sent and sent.key == visit.key and sent.kind == visit.kind else None

    def is_altered(self, visit: Visit) -> bool:
        """Whether it isn't the request that a platform has sent, although it has its id: it names another plan, or has
        other attributes than when it arrived first.
        """
        sent = self.request_of(visit)
        if sent is None:
            return False
        is_other = None not in (sent.plan, visit.plan) and sent.plan != visit.plan
        return is_other or visit.attributes not in (None, self.attributes.get((visit.request, visit.key)))

    def attempt(self, visit: Visit) -> int:
        """The number of the request, or 0 if the model doesn't have it."""
        if self.left is not None:
            return 0
        if visit.attempt is None:
            sent = self.request_of(visit)
            visit.attempt = sent.attempt if sent and not self.is_altered(visit) else 0
        return visit.attempt

    # ---- lives

    def life(self, key: str) -> Life:
        """The instance, or the binding with this id."""
        if key not in self.lives:
            self.lives[key] = Life(key, f"{self.instance}/{key}")
        return self.lives[key]

    @property
    def is_bound(self) -> bool:
        """Whether one of the bindings is held."""
        return any(life.held.is_held for life in self.lives.values() if life.is_binding)

    @property
    def is_bound_by_others(self) -> bool:
        """Whether a binding of another client is held, which the model doesn't have."""
        return any(life.held.is_held for life in self.lives.values() if life.is_others)

    def sold(self, plan: Plan | None) -> Sold:
        """How a plan is sold."""
        return self.settings.sold(plan)

    def mode(self, life: Life, plan: Plan | None) -> str:
        """How the plan creates such a life."""
        sold = self.sold(plan)
        return sold.binding if life.is_binding else sold.mode

    def leave(self, line: Line, why: str) -> None:
        """Has the model judge nothing from this line on."""
        if self.left is None:
            self.left = Stop(line.position, False, why)

    # ---- events

    def emit(self, line: Line, life: Life, words: str, *wanted: tuple[int, str]) -> None:
        """Has an event of a life happen, if the model has it. Its id comes behind the first word."""
        if life.is_others or self.left is not None:
            return
        verb, _, rest = words.partition(" ")
        text = f"{verb} {life.name} {rest}" if rest else f"{verb} {life.name}"
        self.events.append(Event(text, line.position, ((STEP, "applied"), *wanted)))

    def order(self, line: Line, life: Life, plan: Plan | None) -> None:
        """Takes a life in, once."""
        if life.is_ordered:
            return
        if life.is_others:
            raise unjudged(line, "a platform has ordered what another client had created")
        life.is_ordered, life.ordered = True, life.ordered or plan
        sold, accepts = self.sold(plan), "yes" if self.accepts.get(life.key, True) else "no"
        rule = "first-poll" if self.settings.first_poll else "at-once"
        if life.is_binding:
            self.order(line, self.lives[""], plan)
            fetch = "fetch" if sold.is_retrievable else "no-fetch"
            self.emit(line, life, f"binding {sold.binding} {accepts} {rule} {fetch}")
        elif plan:
            self.emit(line, life, f"instance {plan[0]} {plan[1]} {sold.mode} {accepts} {rule} both")

    # ---- the end

    def disagreements(self) -> list[str]:
        """What both sides disagree about at the end, as far as it is known."""
        found = []
        for key, life in sorted(self.lives.items()):
            if not (life.is_abandoned or self._is_foreign(key)):
                found += [f"{life.name}: {disagreement}" for disagreement in _disagreements(life)]
        return found

    def _is_foreign(self, key: str) -> bool:
        """Whether somebody has asked for it whose journal isn't there."""
        return any(visit.key == key and visit.request not in self.sent for visit in self.visits.values())

    def story(self, stop: Stop | None) -> Story:
        """What the lines have come to. A difference counts also where the model doesn't judge any more."""
        if self.left is not None and (stop is None or not stop.is_difference):
            stop = self.left
        ends = self.disagreements() if self.left is None and (stop is None or stop.is_difference) else []
        return Story(self.instance, self.events, stop, ends, dict(self.notes))


def _disagreements(life: Life) -> list[str]:
    state, held, found = life.record.state, life.held, []
    if state == "ready":
        if held.phase != "ready" or held.work != "-":
            found.append(f"the platform records ready, and the broker has the row {held.phase}, pending {held.work}")
        if life.resource != "whole":
            found.append(f"the platform records ready, and the resource is {life.resource}")
        if life.is_binding and life.resource == "whole" and life.number_of(life.recorded) != life.credentials:
            found.append("the platform records other credentials than the resource has")
    elif state in ("gone", "none"):
        word = "gone" if state == "gone" else "nothing"
        if held.is_held:
            found.append(f"the platform records {word}, and the broker has the row {held.phase}, pending {held.work}")
        if life.resource != "absent":
            found.append(f"the platform records {word}, and the resource is {life.resource}")
    return found


def settings_of(lines: Sequence[Line], known: Mapping[str, Settings]) -> Settings | str:
    """Those of the broker of an instance, or why they aren't known."""
    processes = {line.process for line in lines if line.side == "broker"}
    missing = sorted(process for process in processes if process not in known)
    if missing:
        return "the journal of a broker has no line `started`"
    found = [known[process] for process in sorted(processes)] or list(known.values())[:1]
    if any((settings.first_poll, settings.plans) != (found[0].first_poll, found[0].plans) for settings in found):
        return "the broker was restarted with other plans or another rule of the first Poll"
    lost = any(settings.locks_can_be_lost for settings in found)
    return found[0]._replace(locks_can_be_lost=lost) if found else "no journal of a broker was given"
