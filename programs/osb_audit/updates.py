"""What brokers do with the updates of an instance. `osb-replay network` has no updates, so each change of what is kept
of them, and each answer, is compared with the tables of the library.

An update creates and deletes nothing. So an instance goes on to be judged by the model, with what its updates change
for its other requests: nothing of it begins while an update is under way, and a request may name the plan of after.
"""
from __future__ import annotations

from typing import NamedTuple

from osb.enums import Mode, UpdatePhase
from osb.update import UpdateHolding
from osb_audit import update_rules
from osb_audit.calls import Worker, worker_of
from osb_audit.events import shown
from osb_audit.lines import ALLOWED, UPDATES, Line
from osb_audit.lives import Life, Visit, VisitName
from osb_audit.rules import Plan, Said
from osb_audit.walk import UNNAMED, Known, Stopped, differs

NO_UPDATE = "no Update makes this change of what is kept of updates"
OTHERWISE = "what is kept of updates changes otherwise than the tables"
ENDED = "no update is under way that can end so"
UNSEEN = "an update ends without a look of its worker that shows how"
IDLE = "an update is tried while none is under way"
OWN = "the work of an Update is ended by another request"
OF_INSTANCE = "what is kept of updates changes with the instance"
ANSWERED = "the answer isn't the tables'"
FETCHED = "the Fetch is answered with other settings than the instance has"
UNWRITTEN = "an Update is answered without the change that it makes"

_ARRIVALS = UPDATES[: len(ALLOWED)]
_NOTHING_DONE, _NOT_DONE = ("absent",), ("absent", "part")
_LOOKS = {
    "done": ("whole",),
    "after": ("whole",),
    "before": _NOTHING_DONE,
    "refused-400": _NOTHING_DONE,
    "refused-422": _NOTHING_DONE,
    "failed": _NOT_DONE,
    "ok": ("whole",),
    "fail": _NOT_DONE,
}
"""What the last look at an update has found that ends so: how much of it is done."""
_GONE: Said = (404, "other-error")
"""The answer to an Update of what isn't held."""


class Begun(NamedTuple):
    """What the tables make of an Update."""

    before: UpdateHolding
    """What is kept, or what stands for it."""
    after: UpdateHolding
    said: Said | None
    """The answer, or None if its work is pending then."""
    mode: Mode
    """How its work is done, if it is pending."""

    @property
    def is_same(self) -> bool:
        """Whether nothing changes."""
        return self.before == self.after


class Updates:
    """Goes through what brokers do with the updates of an instance."""

    def __init__(self, known: Known) -> None:
        self.known = known
        self.kept: UpdateHolding | None = None
        """What is kept of updates, or None until the first Update is judged."""
        self.waits: VisitName | None = None
        """The Update that waits for the end of its work."""
        self._mode = Mode.SYNC
        """How the update is done whose work is pending."""
        self._version: bytes | None = None
        """The digest of the version that the Provision has named, if its journal says so."""
        self._found: dict[Worker, str] = {}
        """What the last look of each worker has found, if no other call has followed."""
        self._workers: set[Worker] = set()
        """Those that have begun a call while an update was under way, and haven't ended it."""
        self._idle: dict[Worker, Line] = {}
        """Where each worker has begun to update while no update was under way."""

    @property
    def phase(self) -> UpdatePhase:
        """How far the latest update has come."""
        return self.kept.phase if self.kept else UpdatePhase.SETTLED

    @property
    def is_under_way(self) -> bool:
        """Whether the work of an Update is pending, or its operation runs."""
        return self.kept is not None and self.kept.is_under_way

    @property
    def _life(self) -> Life:
        return self.known.lives[""]

    # ---- other requests

    def plan_of(self, visit: Visit, life: Life) -> Plan | None:
        """The plan that a request names, as the tables see it. Once an Update was judged, any plan of the service
        stands for that with which the instance was created, and for that of the binding. A new binding has to name the
        plan that the instance has now.
        """
        plan, first = visit.plan, self._life.plan
        if self.kept is None or plan is None or first is None or plan[0] != first[0]:
            return plan
        if self.known.sold(plan).mode == "none":
            return plan
        if life.is_binding and life.held.is_held:
            return life.plan
        return first if not life.is_binding or self._has(plan) else plan

    def is_current(self, visit: Visit, life: Life) -> bool:
        """Of an instance, whether a creation asks for the settings that it has. Of a binding, whether one may be
        created: no update is under way, and the instance has the plan that the request names.
        """
        if self.kept is None or visit.kind != "provision":
            return True
        if life.is_binding:
            return not self.is_under_way and self._has(visit.plan)
        settings = self.kept.settings
        digests = visit.attributes, visit.version
        return self._has(visit.plan) and digests == (settings.parameters.hex(), settings.version)

    def _has(self, plan: Plan | None) -> bool:
        return self.kept is not None and plan is not None and plan[1] == str(self.kept.settings.plan)

    def fetched(self, visit: Visit) -> Said | None:
        """The answer to a Fetch of the instance, or None if its journal doesn't say whether it can be fetched."""
        life, named = self._life, visit.arrived.of
        is_fetchable = self.known.sold(life.plan).is_fetchable
        if life.held.phase == "none" or life.plan is None or is_fetchable is False:
            return 404, "other-error"
        if is_fetchable is None:
            return None
        service, plan = named.get("service"), named.get("plan")
        is_sold = not plan or (life.plan[0], plan) in self.known.settings.plans
        if service not in (None, life.plan[0]) or not is_sold:
            return 400, "other-error"
        return update_rules.fetched(life.held, self.phase)

    def check_fetched(self, visit: Visit) -> None:
        """Raises `Stopped` if the Fetch of the instance was answered with other settings than it has, as far as the
        answer has them. Version 0.3 doesn't say with which.
        """
        assert visit.answered is not None
        of, life = visit.answered.of, self._life
        if "plan" not in of or life.plan is None:
            return
        version = bytes.fromhex(of.get("version", "")) or bytes(32)
        if self._version is not None:
            version = self._version
        kept = self.kept or update_rules.provisioned(life.plan[1], life.terms.attributes, version)
        plan, parameters = str(kept.settings.plan), kept.settings.parameters.hex()
        named = kept.settings.version.hex() if kept.settings.version != bytes(32) else ""
        found = of["plan"], of.get("parameters", parameters), of.get("version", ""), of.get("number", 0)
        wanted = plan, parameters, named, kept.number
        if found != wanted:
            raise differs(visit.answered, FETCHED, _settings_words(*wanted), _settings_words(*found))

    # ---- an Update

    def provision(self, visit: Visit) -> None:
        """Takes in the creation of the instance that begins."""
        self._version = visit.version if visit.arrived.process in self.known.naming else None

    def _begun(self, visit: Visit, allowed: str, version: bytes) -> Begun | None:
        """What the tables make of an Update now, or None if there is no instance. `version` is that of the Provision,
        and counts if nothing is kept yet.
        """
        life, of = self._life, visit.arrived.of
        if life.plan is None:
            return None
        kept = self.kept or update_rules.provisioned(life.plan[1], life.terms.attributes, version)
        change = update_rules.change_of(of.get("plan", ""), of.get("parameters", ""), of.get("version", ""))
        is_same, number = of.get("service") == life.plan[0], of.get("number", 0)
        return Begun(kept, *update_rules.begun(life.held, kept, allowed, change, number, visit.accepts, is_same))

    def is_answered(self, visit: Visit) -> bool:
        """Whether an Update that changes nothing is answered now as it was answered."""
        assert visit.answered is not None
        if visit.is_failed and "effect" not in visit.answered.of:
            return False
        allowed = self._name(visit.answered, *_ARRIVALS).partition(" ")[2]
        versions = {bytes(32), visit.version} if self._version is None else {self._version}
        begun = [self._begun(visit, allowed, version) for version in versions]
        return any(visit.said == (_GONE if it is None else it.said) and (it is None or it.is_same) for it in begun)

    def answer_otherwise(self, visit: Visit, line: Line) -> Stopped:
        """The difference that an Update was answered otherwise than the tables have it."""
        assert visit.answered is not None and visit.said is not None
        allowed = visit.answered.of.get("effect", "").partition(" ")[2]
        begun = self._begun(visit, allowed, self._version or bytes(32))
        said = _GONE if begun is None else begun.said
        if said == visit.said:
            return differs(line, UNWRITTEN, "a change", "no change")
        return differs(line, ANSWERED, shown(said) if said else "-", shown(visit.said))

    def _name(self, line: Line, *allowed: str) -> str:
        """The event that a driver names. Each program that updates instances names them."""
        name = self.known.name(line, *allowed)
        if not name:
            raise differs(line, UNNAMED, "an event", "-")
        return name

    def answer_pending(self, visit: Visit, line: Line) -> None:
        """An Update is answered whose work is pending: nobody knows how it has ended, or its process stops."""
        if not visit.is_failed and visit.said is not None:
            raise differs(line, "it is answered while its work is pending", "no answer yet", shown(visit.said))
        self.waits = None

    # ---- changes

    def is_change(self, line: Line) -> bool:
        """Whether a change is one of what is kept of updates, and not of the instance."""
        return not line.key and line.of["before"] == line.of["after"] and line.before != line.after

    def change(self, line: Line, visit: Visit | None) -> None:
        """Goes through a change of what is kept of updates."""
        verb, _, how = self._name(line, *UPDATES).partition(" ")
        after = update_rules.updates_in(line.of.get("updates_after", ""))
        if verb == "update":
            self._begin(line, visit, how, after)
        elif verb == "end-update":
            self._end(line, visit, how, after)
        else:
            self._finish(line, visit, how, after)
        self.kept = after
        self._found.pop(worker_of(line), None)
        self._workers.discard(worker_of(line))

    def keep(self, line: Line, is_held: bool) -> None:
        """Goes through a change of the instance, with which what is kept of updates ends, if nothing is held then."""
        after = update_rules.updates_in(line.of.get("updates_after", ""))
        left = self.kept if is_held else None
        if after != left:
            raise differs(line, OF_INSTANCE, left.to_text() if left else "-", after.to_text() if after else "-")
        self.kept = after

    def _begin(self, line: Line, visit: Visit | None, allowed: str, after: UpdateHolding | None) -> None:
        if visit is None or visit.kind != "update":
            raise differs(line, NO_UPDATE, "no change", _words(line))
        version = after.settings.version if self._version is None and after is not None else self._version
        begun = self._begun(visit, allowed, version or bytes(32))
        self._compare(line, begun.after if begun else None, after)
        assert begun is not None
        if begun.said is None:
            self.waits, self._mode = line.visit, begun.mode
        else:
            self._answer(visit, begun.said)

    def _end(self, line: Line, visit: Visit | None, how: str, after: UpdateHolding | None) -> None:
        ended = update_rules.ended(self.kept, self._mode, how) if self.kept else None
        if ended is None:
            raise differs(line, ENDED, str(self.phase), f"end-update {how}")
        self._compare(line, ended[0], after)
        if self._mode is Mode.SYNC or how != "done":  # else it is an operation that begins
            self._check_look(line, how)
        if visit is not None:
            if line.visit != self.waits:
                raise differs(line, OWN, "no change", _words(line))
            self._answer(visit, ended[1])
        self.waits = None

    def _finish(self, line: Line, visit: Visit | None, how: str, after: UpdateHolding | None) -> None:
        left = update_rules.finished(self.kept, how) if self.kept else None
        if left is None or visit is not None:
            raise differs(line, ENDED, str(self.phase), f"finish-update {how}")
        self._compare(line, left, after)
        self._check_look(line, how)

    @staticmethod
    def _compare(line: Line, left: UpdateHolding | None, after: UpdateHolding | None) -> None:
        if left is None or left != after:
            raise differs(
                line, OTHERWISE, left.to_text() if left else "no change", line.of.get("updates_after", "") or "-"
            )

    def _check_look(self, line: Line, how: str) -> None:
        """Whoever ends an update has looked last, and has found what it says."""
        found = self._found.get(worker_of(line), "-")
        if found not in _LOOKS[how]:
            raise differs(line, UNSEEN, " or ".join(_LOOKS[how]), found)

    @staticmethod
    def _answer(visit: Visit, said: Said) -> None:
        """An Update is answered so, unless its broker fails."""
        visit.is_resolved = True
        if visit.answered is not None and visit.said is not None and visit.said != said and not visit.is_failed:
            raise differs(visit.answered, ANSWERED, shown(said), shown(visit.said))

    # ---- calls of the backend

    def call(self, line: Line) -> None:
        """Goes through a line of a call for an update. One that is tried while no update is under way, and succeeds,
        is a difference, unless its worker had begun before and may have lost its lock since.
        """
        worker, is_look = worker_of(line), line.of["call"] == "look-update"
        is_done = line.of.get("result") == "done"
        if line.of["stage"] == "begun":
            self._begin_call(line, worker, is_look)
        elif is_look and is_done:
            self._found[worker] = line.of["found"]
        elif not is_look:
            begun = self._idle.pop(worker, None)
            if begun is not None and is_done:
                raise differs(begun, IDLE, "no call", "update")

    def _begin_call(self, line: Line, worker: Worker, is_look: bool) -> None:
        self._found.pop(worker, None)
        if self.is_under_way:
            self._workers.add(worker)
        elif not is_look and not (worker in self._workers and self.known.settings.locks_can_be_lost):
            self._idle[worker] = line


def _settings_words(plan: str, parameters: str, version: str, number: int) -> str:
    return f"plan {plan}, parameters {parameters}, version {version or '-'}, number {number}"


def _words(line: Line) -> str:
    return f"{line.of.get('updates_before') or '-'} -> {line.of.get('updates_after') or '-'}"
