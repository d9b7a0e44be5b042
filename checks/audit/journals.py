"""Journals that are written by hand: a story is a list of short lines, each of which is a line of a journal.

The words of a line are split by spaces. B is the broker, P the platform. A second process of a side is B2 or P2. The
life is the instance, unless the line ends with `of binding`. A line that begins with a digit is about another instance,
whose id ends with this digit. `HELD` and `RECORD` are the short forms of held_text and record_text.

    P claim RECORD               changed, cause claim       B arrive VISIT REQUEST KIND    arrived
    P take ATTEMPT RECORD        changed, cause take        B change VISIT HELD            changed; VISIT 0 of none
    P command RECORD             changed, cause command     B look FOUND                   work, begun and ended
    P send REQUEST KIND ATTEMPT  sent                       B create, B delete             work, begun and ended
    P hear REQUEST STATUS BODY   answered                   B begin create|delete          work, begun alone
    P lose REQUEST               answered, lost             B end CALL RESULT              work, ended alone
    P abandon RECORD             changed, state abandoned   B credentials                  work, begun and ended
    P stop, B stop               stopped                    B answer VISIT STATUS BODY     answered

    B update VISIT UPDATES       changed: what is kept of updates alone
    B look-update FOUND          work, begun and ended      B do-update                    work, begun and ended

Of a look, `B begin look` and `B end look FOUND` are the two lines. `visit=VISIT` of a work names the request that it is
for. `UPDATES` is a short form of updates_text.

Each change has as `before` what the last change of its row has left, unless `from HELD` or `from RECORD` follows. A
word `!undone` or `!doubtful` behind a change has the line `undone` follow. Each word `@DIGEST` names credentials, and
`saw=HELD` what an answer was decided on. A change with `!returned` is one with which the id returns. The text `~`, and
nothing else, is a line of no journal.

What a line names is that of the story, unless one of these words follows: `plan=sync|async`, `service=other`,
`attributes=DIGIT` (the digest that consists of this digit; `attributes=-` of an arrival is none), `accepts=no`,
`state=STATE` (of a change at the platform; else it is that of the record). Of a change at the broker,
`work-plan=sync|async` and `work-id=other` are of the pending work alone. `committed=NUMBER` of an arrival is the last
change that was committed then. `P command - state=ordered` is a new order.

An Update names what these words say: `to=sync|async`, `size=DIGIT` (parameters), `version=DIGIT`, `number=NUMBER`. So
does a creation its version. What is kept of the updates of an instance stays while anything is held of the instance,
unless `kept=UPDATES` follows a change. `sees=UPDATES` is what an answer has seen of it besides `saw`, and
`sees-instance=HELD+UPDATES` what the answer to a request about a binding has seen of the instance.
`gives=SETTINGS/NUMBER` is what the Fetch of an instance is answered with.
"""

from __future__ import annotations

import json
from collections.abc import Mapping
from dataclasses import dataclass, field
from pathlib import Path
from typing import Any

INSTANCE = "00000000-0000-0000-0000-000000000001"
BINDING = "00000000-0000-0000-0000-00000000000b"
SERVICE = "00000000-0000-0000-0000-0000000000a0"
OTHER = "00000000-0000-0000-0000-0000000000ff"
PLANS = {"sync": "00000000-0000-0000-0000-0000000000b1", "async": "00000000-0000-0000-0000-0000000000b2"}
NAMED = tuple(
    "plan service attributes accepts work-plan work-id state visit committed effect to size version number kept sees "
    "sees-instance gives".split()
)
"""What a line may name in another way than its story does."""
METHODS = {"claim": "record", "command": "record", "abandon": "record", "credentials": "known", "look-update": "look"}
"""The methods of Journal for the verbs that have another name."""
EMPTY: Mapping[str, str] = {}


def compact(members: dict[str, Any]) -> str:
    return json.dumps(members, separators=(",", ":"), sort_keys=True)


def _but(members: dict[str, Any], name: str) -> dict[str, Any]:
    return {member: members[member] for member in members if member != name}


def ids_of(plan: str, named: Mapping[str, str]) -> dict[str, str]:
    """The service and the plan that a line names."""
    return {"service": OTHER if "service" in named else SERVICE, "plan": PLANS[named.get("plan", plan)]}


def held_text(form: str, plan: str, of: str, named: Mapping[str, str] = EMPTY) -> str:
    """The text of a holding (docs/instance.md). The form is `-` for none, `tombstone`, PHASE, `pending-KIND`, or
    PHASE+KIND for a row with pending work.
    """
    if form == "-":
        return ""
    ids = ids_of(plan, named)
    phase, _, kind = form.partition("+") if not form.startswith("pending-") else ("", "", form[len("pending-") :])
    is_row = phase not in ("", "tombstone")
    work = {"accepts_incomplete": "accepts" not in named, "id": OTHER if "work-id" in named else of, "kind": kind}
    work_ids = ids_of(plan, {**named, **({"plan": named["work-plan"]} if "work-plan" in named else {})})
    return compact(
        {
            "attributes": named.get("attributes", "0") * 64,
            "row": {"phase": phase, **ids} if is_row else None,
            "tombstone": phase == "tombstone",
            "version": 2,
            "work": {**work, **work_ids} if kind else None,
        }
    )


def record_text(form: str, plan: str, named: Mapping[str, str] = EMPTY) -> str:
    """The text of a record. The form is `-` for none, or STATE/ATTEMPT, or STATE/ATTEMPT/OUT."""
    if form == "-":
        return ""
    state, attempt, *out = form.split("/")
    ids = ids_of(plan, named)
    return compact({"attempt": int(attempt), "out": out[0] if out else None, **ids, "state": state, "version": 1})


def settings_of(form: str) -> dict[str, str]:
    """Settings. The form is PLAN, PLAN.DIGIT or PLAN.DIGIT.DIGIT: the digests of the parameters and of the version."""
    plan, parameters, version = (*form.split("."), "0", "0")[:3]
    return {"parameters": parameters * 64, "plan": PLANS[plan], "version": version * 64}


def fetched_of(form: str) -> dict[str, Any]:
    """What a line says of the answer to the Fetch of an instance. The form is SETTINGS/NUMBER."""
    settings, number = form.split("/")
    found: dict[str, Any] = settings_of(settings)
    if found["version"] == "0" * 64:
        del found["version"]
    return found | ({"number": int(number)} if number != "0" else {})


def updates_text(form: str) -> str:
    """The text of what is kept of updates. The form is `-` for none, or PHASE/NUMBER/SETTINGS, with /SETTINGS behind it
    to which the work or the operation leads.
    """
    if form == "-":
        return ""
    phase, number, settings, *to = form.split("/")
    goal = settings_of(to[0]) if to else None
    return compact({"number": int(number), "phase": phase, "settings": settings_of(settings), "to": goal, "version": 1})


def started(
    first_poll: bool = False,
    binding: str = "sync",
    retrievable: bool = True,
    locks_can_be_lost: bool = True,
    fetchable: bool | None = True,
) -> dict[str, Any]:
    """The members of the line `started` of a broker that sells a synchronous and an asynchronous plan."""
    plans = [
        {
            "service": SERVICE,
            "plan": plan,
            "service_number": SERVICE,
            "plan_number": plan,
            "mode": mode,
            "binding": binding,
            "retrievable": retrievable,
            **({} if fetchable is None else {"instances_retrievable": fetchable}),
        }
        for mode, plan in PLANS.items()
    ]
    rules = {"first_poll": first_poll, "wait_for_poll": 600, "ids_return_after": 0}
    return {"version": "test", **rules, "locks_can_be_lost": locks_can_be_lost, "plans": plans}


@dataclass
class Journal:
    """The lines of a story, by the process. Times count the lines."""

    plan: str = "sync"
    instance: str = INSTANCE
    of_broker: dict[str, Any] = field(default_factory=started)
    time: int = 1_700_000_000_000_000
    lines: dict[str, list[str]] = field(default_factory=dict)
    texts: dict[tuple[str, str, str], str] = field(default_factory=dict)
    kept: dict[str, str] = field(default_factory=dict)
    """What is kept of the updates of each instance."""
    changes: dict[str, int] = field(default_factory=dict)
    requests: dict[tuple[str, str], str] = field(default_factory=dict)
    named: dict[str, str] = field(default_factory=dict)
    """What the line that is being added names in another way."""
    names_events: bool = False
    """Whether the lines `started` say that drivers name each event. Those of version 0.3 don't."""

    def tell(self, story: str) -> Journal:
        """Adds the lines of a story, one in each line of the text, or parted by semicolons."""
        for line in story.replace("\n", ";").split(";"):
            if line.strip() == "~":
                self.lines["B"].append("no line of a journal")
            elif line.strip():
                self._tell(line.split())
        return self

    def _tell(self, words: list[str]) -> None:
        binding = BINDING if words[-2:] == ["of", "binding"] else ""
        words = words[:-2] if binding else words
        instance = f"{self.instance[:-1]}{words.pop(0)}" if words[0].isdigit() else self.instance
        self.named = dict(word.split("=", 1) for word in words if word.partition("=")[0] in NAMED)
        words = [word for word in words if word.partition("=")[0] not in NAMED]
        flags = [word for word in words if word.startswith(("!", "@", "saw="))]
        who, verb, *rest = [word for word in words if word not in flags]
        more: dict[str, Any] = {"instance": instance, **({"binding": binding} if binding else {})}
        digest = next((flag[1:] for flag in flags if flag.startswith("@")), "")
        more |= {"visit": int(self.named["visit"])} if "visit" in self.named else {}
        more |= {"effect": self.named["effect"].replace("_", " ")} if "effect" in self.named else {}
        more |= {"credentials": digest} if digest else {}
        more |= {"life": 1, "life_before": 0} if "!returned" in flags else {}
        if verb in ("create", "delete", "do-update"):
            call = verb.rpartition("-")[2]
            self._begin(who, verb, [call], _but(more, "credentials"))
            self._end(who, verb, [call, "done"], more)
            return
        saw = next((flag[4:] for flag in flags if flag.startswith("saw=")), None)
        of = binding or instance
        more |= {"saw": held_text(saw, self.plan, of, self.named)} if saw is not None else {}
        getattr(self, f"_{METHODS.get(verb, verb)}")(who, verb, rest, more)
        if "!undone" in flags or "!doubtful" in flags:
            doubtful = {"doubtful": True} if "!doubtful" in flags else {}
            self.write(who, "undone", {"change": self.changes[who], **self._key(more), **doubtful})

    def write(self, who: str, event: str, members: dict[str, Any]) -> None:
        """Adds a line of a process, after its line `started`."""
        side = {"B": "broker", "P": "platform"}[who[0]]
        head = {"process": f"{(ord(who[0]) << 8) + int(who[1:] or 1):016x}", "side": side}
        lines = self.lines.setdefault(who, [])
        if not lines and event != "started":
            begun = self.of_broker if side == "broker" else {"version": "test", "worker": "one"}
            self.write(who, "started", {**begun, **({"names_events": True} if self.names_events else {})})
        self.time += 1000
        lines.append(json.dumps({"time": self.time, **head, "event": event, **members}, separators=(",", ":")))

    @staticmethod
    def _key(more: dict[str, Any]) -> dict[str, Any]:
        return {kind: more[kind] for kind in ("instance", "binding") if kind in more}

    def _changed(self, who: str, more: dict[str, Any], after: str, before: str | None) -> None:
        row = (who[0], more["instance"], more.get("binding", ""))
        self.changes[who] = self.changes.get(who, 0) + 1
        found = self.texts.get(row, "") if before is None else before
        kept = self._keep(more["instance"], after) if who[0] == "B" and "binding" not in more else {}
        self.write(who, "changed", {"change": self.changes[who], **more, "before": found, "after": after, **kept})
        self.texts[row] = after

    def _keep(self, instance: str, after: str) -> dict[str, str]:
        """What a change says of what is kept of updates."""
        before = self.kept.get(instance, "")
        is_held = after and after != held_text("tombstone", self.plan, instance)
        left = updates_text(self.named["kept"]) if "kept" in self.named else before if is_held else ""
        self.kept[instance] = left
        return {name: text for name, text in (("updates_before", before), ("updates_after", left)) if text}

    # ---- the platform

    def _record(self, who: str, verb: str, rest: list[str], more: dict[str, Any]) -> None:
        before = record_text(rest[2], self.plan, self.named) if rest[1:2] == ["from"] else None
        is_abandoned = verb == "abandon"
        state = "abandoned" if is_abandoned else self.named.get("state", rest[0].partition("/")[0])
        more = {**more, "cause": "command" if is_abandoned else verb, "broker": "default", "state": state}
        more |= ids_of(self.plan, {})
        self._changed(who, more, record_text(rest[0], self.plan, self.named), before)

    def _take(self, who: str, verb: str, rest: list[str], more: dict[str, Any]) -> None:
        self._record(who, verb, rest[1:], {**more, "attempt": int(rest[0])})

    def _send(self, who: str, _: str, rest: list[str], more: dict[str, Any]) -> None:
        attempt = {"attempt": int(rest[2])} if rest[2:] and rest[2] != "0" else {}
        ids = ids_of(self.plan, self.named)
        self.write(who, "sent", {"request": rest[0], **more, "kind": rest[1], **attempt, "accepts": True, **ids})

    def _hear(self, who: str, _: str, rest: list[str], more: dict[str, Any]) -> None:
        said = {"status": int(rest[1]), "body": rest[2] if rest[2:] else "empty"}
        self.write(who, "answered", {"request": rest[0], **more, "kind": "provision", **said})

    def _lose(self, who: str, _: str, rest: list[str], more: dict[str, Any]) -> None:
        self.write(who, "answered", {"request": rest[0], **more, "kind": "provision", "lost": "it timed out"})

    # ---- the broker

    def _arrive(self, who: str, _: str, rest: list[str], more: dict[str, Any]) -> None:
        visit, request, kind = rest
        self.requests[who, visit] = request
        asks = {"kind": kind, "accepts": "accepts" not in self.named, **ids_of(self.plan, self.named)}
        asks |= {name: int(self.named[name]) for name in ("committed", "number") if name in self.named}
        asks |= {"version": self.named["version"] * 64} if "version" in self.named else {}
        asks |= {"parameters": self.named["size"] * 64} if "size" in self.named else {}
        if kind == "update":
            asks = _but(asks, "plan") | ({"plan": PLANS[self.named["to"]]} if "to" in self.named else {})
        attributes = self.named.get("attributes", "0")
        if kind == "provision" and attributes != "-":
            asks["attributes"] = attributes * 64
        self.write(who, "arrived", {"visit": int(visit), "request": request, **more, **asks})

    def _change(self, who: str, _: str, rest: list[str], more: dict[str, Any]) -> None:
        of = more.get("binding", more["instance"])
        before = held_text(rest[3], self.plan, of, self.named) if rest[2:3] == ["from"] else None
        visit = {"visit": int(rest[0])} if rest[0] != "0" else {}
        self._changed(who, {**visit, **more}, held_text(rest[1], self.plan, of, self.named), before)

    def _update(self, who: str, _: str, rest: list[str], more: dict[str, Any]) -> None:
        self.named["kept"] = rest[1]
        if rest[2:3] == ["from"]:
            self.kept[more["instance"]] = updates_text(rest[3])
        visit = {"visit": int(rest[0])} if rest[0] != "0" else {}
        self._changed(who, {**visit, **more}, self.texts.get((who[0], more["instance"], ""), ""), None)

    def _answer(self, who: str, _: str, rest: list[str], more: dict[str, Any]) -> None:
        more |= {"saw_updates": updates_text(self.named["sees"])} if "sees" in self.named else {}
        more |= fetched_of(self.named["gives"]) if "gives" in self.named else {}
        if "sees-instance" in self.named:
            held, _, kept = self.named["sees-instance"].partition("+")
            more["saw_instance"] = held_text(held, self.plan, more["instance"])
            more["saw_instance_updates"] = updates_text(kept or "-")
        said = {"status": int(rest[1]), "body": rest[2] if rest[2:] else "empty"}
        request = {"request": self.requests.get((who, rest[0]), "")}
        self.write(who, "answered", {"visit": int(rest[0]), **request, **more, **said})

    def _look(self, who: str, verb: str, rest: list[str], more: dict[str, Any]) -> None:
        self._begin(who, verb, [verb], more)
        self._end(who, verb, [verb, rest[0]], more)

    def _known(self, who: str, _: str, __: list[str], more: dict[str, Any]) -> None:
        self.write(who, "work", {**_but(more, "credentials"), "call": "credentials", "stage": "begun"})
        self.write(who, "work", {**more, "call": "credentials", "stage": "ended", "result": "done"})

    def _begin(self, who: str, _: str, rest: list[str], more: dict[str, Any]) -> None:
        self.write(who, "work", {**more, "call": rest[0], "stage": "begun"})

    def _end(self, who: str, _: str, rest: list[str], more: dict[str, Any]) -> None:
        how = {"found": rest[1], "result": "done"} if rest[0].startswith("look") else {"result": rest[1]}
        self.write(who, "work", {**more, "call": rest[0], "stage": "ended", **how})

    def _stop(self, who: str, _: str, __: list[str], ___: dict[str, Any]) -> None:
        self.write(who, "stopped", {})

    # ---- files

    def files(self, folder: Path) -> list[Path]:
        """Writes each process' lines to a file of its own."""
        made = []
        for who, lines in self.lines.items():
            path = folder / f"{ {'B': 'broker', 'P': 'platform'}[who[0]] }-{who}.jsonl"
            path.write_text("".join(f"{line}\n" for line in lines))
            made.append(path)
        return made


# ---- what most stories begin with, and go on with

SENT = "P claim wanted/1/provision; P send r1 provision 1; "
ASKED = f"{SENT}B arrive 1 r1 provision; "
PENDING = f"{ASKED}B change 1 pending-provision; "
POLLING = f"""{PENDING}B change 1 making; B answer 1 202; P hear r1 202; P take 1 polling/1
P claim polling/2/poll; P send r2 poll 2; """
"""An asynchronous plan: the instance is being made, and a Poll is out."""
CREATED = f"""{PENDING}B look absent; B create; B look whole; B change 1 ready
B answer 1 201; P hear r1 201; P take 1 ready/1
"""
REMOVE = "P claim cleaning/2/deprovision; P send r2 deprovision 2; "
GIVEN_UP = f"P lose r1; P take 1 cleaning/1; {REMOVE}"
EXPIRED = "P lose r2; P take 2 polling/2; P claim cleaning/3/deprovision; P send r3 deprovision 3; "
REMOVING = f"{CREATED}{REMOVE}B arrive 2 r2 deprovision; "
DELETING = f"{REMOVING}B change 2 ready+deprovision; "
BIND = f"{CREATED}P claim wanted/1/provision of binding; P send b1 provision 1 of binding; "
BOUND = f"""{BIND}
B arrive 2 b1 provision of binding; B change 2 pending-provision of binding; B look absent of binding
B create @c1 of binding; B look whole of binding; B change 2 ready @c1 of binding; B answer 2 201 of binding
P hear b1 201 @c1 of binding; P take 1 ready/1 @c1 of binding
"""
BOUND_BY_OTHERS = f"""{CREATED}
B arrive 5 x1 provision of binding; B change 5 pending-provision of binding; B look absent of binding
B create @c1 of binding; B look whole of binding; B change 5 ready @c1 of binding; B answer 5 201 of binding
"""
"""Another client creates the binding."""
REMOVED = f"""{DELETING}B look whole; B delete; B look absent; B change 2 tombstone
B answer 2 200; P hear r2 200; P take 2 gone/2
"""
