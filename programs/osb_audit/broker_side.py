"""Which events the lines of a broker are."""
from __future__ import annotations

from osb_audit import naming, rules, unnamed, update_rules
from osb_audit.calls import OF_UPDATES, Calls
from osb_audit.events import ANSWER, CREDENTIALS, PHASE, TOMBSTONE, WORK, Wanted, shown
from osb_audit.lines import CHANGES, Line
from osb_audit.lives import Life, Visit
from osb_audit.rules import NOTHING, Asked, Held, Said
from osb_audit.updates import ANSWERED, Updates
from osb_audit.walk import NAMED, Known, differs, unjudged

FAILED = "requests that a broker answered 5xx and didn't carry out: judged as lost, and as answered by a gateway"
FOREIGN = "requests that no journal of a platform has: judged by the tables alone"
ALTERED = "requests that have the id of a platform's request, and aren't that one: judged by the tables alone"
UNCOMPARED = "answers 409 to creations: not judged, because the journal is of a version that doesn't write attributes"
BOUND_BY_OTHERS = "another client has a binding of it, which keeps it from being deleted"
UNRECORDED = "requests that no record has, such as last deletions and osb-storm's own: judged by the tables alone"


class BrokerSide:
    """Goes through the lines of brokers."""

    def __init__(self, known: Known) -> None:
        self.known = known
        self.open: list[Visit] = []
        self.calls = Calls(known)
        self.updates = Updates(known)

    def step(self, line: Line) -> None:
        """Goes through a line."""
        {"arrived": self._arrived, "changed": self._changed, "work": self._work, "answered": self._answered}[
            line.event
        ](line)

    def _work(self, line: Line) -> None:
        self.calls.step(line)
        if line.of["call"] in OF_UPDATES:
            self.updates.call(line)

    # ---- requests

    def _arrived(self, line: Line) -> None:
        visit = self._visit(line)
        if visit is not None:
            self.open.append(visit)
            self._resolve(visit, line)

    def _visit(self, line: Line) -> Visit | None:
        return self.known.visits.get(line.visit) if line.visit else None

    def _asked(self, visit: Visit, life: Life) -> Asked:
        plan = self.updates.plan_of(visit, life) or life.plan
        is_same = life.plan is None or plan == life.plan
        is_alike = life.plan is None or visit.attributes in (None, life.terms.attributes)
        mode, rule = self.known.mode(life, plan), self.known.settings.first_poll
        if self.updates.kept is None:
            return Asked(visit.kind, visit.accepts, mode, rule, is_same, is_alike)
        is_updated = not life.is_binding
        is_current, row_mode = self.updates.is_current(visit, life), self.known.mode(life, life.plan)
        return Asked(
            visit.kind, visit.accepts, mode, rule, is_same, is_alike or is_updated, is_current, row_mode, is_updated
        )

    def _begun(self, visit: Visit, life: Life) -> tuple[Held, Said | None]:
        """What the tables make of the request now."""
        return self._begun_as(self._asked(visit, life), life)

    def _begun_as(self, asked: Asked, life: Life) -> tuple[Held, Said | None]:
        if asked.is_updated:
            return update_rules.instance_begun(life.held, asked, self.known.is_bound, self.updates.phase)
        instance = self.known.lives[""].held if life.is_binding else None
        if instance is not None and not asked.is_current:
            instance = NOTHING
        return rules.begun(life.held, asked, self.known.is_bound, instance)

    def _is_put_off(self, visit: Visit, life: Life) -> bool:
        """Whether a request is put off because of a binding, or of a binding's instance."""
        asked = self._asked(visit, life)._replace(is_updated=False)
        return rules.begun(life.held, asked, False, None)[1] != self._begun_as(asked, life)[1]

    def _event_of(self, visit: Visit, life: Life) -> str:
        """What a request that changes nothing is to the model, which has no updates: a request that they keep from
        beginning is put off, and one that they answer is nothing.
        """
        if self.updates.kept is None:
            return "arrive"
        asked = self._asked(visit, life)
        of_model = self._begun_as(asked._replace(is_current=True, is_updated=False), life)
        if of_model == self._begun_as(asked, life):
            return "arrive"
        return "put-off" if of_model[1] is None else ""

    def _may_conflict(self, visit: Visit, life: Life) -> bool:
        """Whether a creation is answered now as one with other attributes would be, and its own aren't known."""
        if visit.kind != "provision" or visit.attributes is not None or life.plan is None:
            return False
        return self._begun_as(self._asked(visit, life)._replace(is_alike=False), life) == (life.held, visit.said)

    def _resolve(self, visit: Visit, line: Line) -> bool:
        """Has a request arrive that changes nothing, if it is answered now as it was answered."""
        life = self.known.life(visit.key)
        if visit.is_resolved or visit.changes or visit.said is None or life.worker == visit.arrived.visit:
            return visit.is_resolved
        if not self._has_seen(visit, life) or self.updates.waits == visit.arrived.visit:
            return False
        visit.has_found = True
        if visit.kind == "update":
            return self._resolve_update(visit)
        if visit.kind == "fetch":
            return self._resolve_fetch(visit, life, line)
        after, said = self._begun(visit, life)
        if after == life.held and said == visit.said:
            assert visit.answered is not None
            name = "put-off" if self._is_put_off(visit, life) else "arrive"
            if "saw" in visit.answered.of and not visit.is_failed or "effect" in visit.answered.of:
                self.known.name(visit.answered, name)
            if self.known.attempt(visit) and self._meets_others(visit, life):
                raise unjudged(line, BOUND_BY_OTHERS)
            self._close(visit)
            self._arrive(visit, life, line, said, event=self._event_of(visit, life))
        elif self._may_conflict(visit, life):
            visit.may_conflict = True
        return visit.is_resolved

    def _has_seen(self, visit: Visit, life: Life) -> bool:
        """Whether a request was decided on what is held now, as far as its answer says."""
        assert visit.answered is not None
        if visit.answered.saw not in (None, life.held_text):
            return False
        return not life.is_binding or visit.answered.saw_instance in (None, "", self.known.lives[""].held_text)

    def _resolve_update(self, visit: Visit) -> bool:
        if self.updates.is_answered(visit):
            self._close(visit)
            self._note_unknown(visit)
        return visit.is_resolved

    def _resolve_fetch(self, visit: Visit, life: Life, line: Line) -> bool:
        said = self._fetched(visit, life)
        if said is None or said == visit.said:
            self._close(visit)
            if not life.is_binding:
                self.updates.check_fetched(visit)
            if life.is_binding and said is not None and said[0] == 200:
                self._fetch(visit, life, line)
        return visit.is_resolved

    def _fetched(self, visit: Visit, life: Life) -> Said | None:
        """The answer of the tables to a Fetch, or None if it isn't judged."""
        if not life.is_binding:
            return self.updates.fetched(visit)
        said = rules.fetched(life.held)
        return (404, "other-error") if said[0] == 200 and not self.known.sold(life.plan).is_retrievable else said

    def _fetch(self, visit: Visit, life: Life, line: Line) -> None:
        if life.is_ordered and visit.arrived.visit:
            self.known.emit(line, life, "fetch")
            life.fetched.append(visit.arrived.visit)

    def _arrive(
        self, visit: Visit, life: Life, line: Line, said: Said, *wanted: tuple[int, str], event: str = "arrive"
    ) -> None:
        """A request arrives and is answered at once."""
        attempt = self.known.attempt(visit)
        if not attempt:
            self._check_said(visit, said)
            self._note_unknown(visit)
            return
        if not event:
            return
        if visit.said is not None and (not visit.is_failed or visit.said == said):
            wanted += ((ANSWER, shown(visit.said)),)
        self.known.emit(line, life, f"{event} {attempt}", *wanted)
        life.give(attempt, said)

    @staticmethod
    def _check_said(visit: Visit, said: Said) -> None:
        """A request is answered so, unless its broker fails."""
        if visit.answered is not None and visit.said is not None and visit.said != said and not visit.is_failed:
            raise differs(visit.answered, ANSWERED, shown(said), shown(visit.said))

    def _note_unknown(self, visit: Visit) -> None:
        """The model doesn't have the request."""
        if self.known.left is not None:
            return
        if self.known.is_altered(visit):
            self.known.notes[ALTERED] += 1
        else:
            self.known.notes[UNRECORDED if visit.request in self.known.sent else FOREIGN] += 1

    def _close(self, visit: Visit) -> None:
        visit.is_resolved = True
        self.open = [other for other in self.open if other is not visit]

    def _answered(self, line: Line) -> None:
        visit = self._visit(line)
        if visit is None:
            raise unjudged(line, "a broker's answer to a request whose line `arrived` isn't there")
        life = self.known.life(visit.key)
        if visit.is_resolved or self._resolve(visit, line):
            return
        if self.updates.waits == visit.arrived.visit:
            self.updates.answer_pending(visit, line)
        elif life.worker == visit.arrived.visit:
            self._answer_pending(visit, life, line)
        elif visit.is_failed and not visit.changes:
            self.known.notes[FAILED] += 1
        elif visit.may_conflict:
            self.known.notes[UNCOMPARED] += 1
        else:
            self._answer_otherwise(visit, life, line)
        self._close(visit)

    def _answer_pending(self, visit: Visit, life: Life, line: Line) -> None:
        """A request is answered whose work is pending."""
        assert visit.said is not None
        if not visit.is_failed:
            raise differs(line, "it is answered while its work is pending", "no answer yet", shown(visit.said))
        if visit.said[0] == 500:
            self.known.emit(line, life, "end unknown", (ANSWER, shown((500, "other-error"))))
            life.give(self.known.attempt(visit), (500, "other-error"))
        else:
            self.known.emit(line, life, "crash broker")
            self.known.notes[FAILED] += 1
        life.worker = None

    def _answer_otherwise(self, visit: Visit, life: Life, line: Line) -> None:
        """A request is answered in another way than the tables have it."""
        assert visit.said is not None
        if visit.changes:
            raise differs(line, "it is answered before its change is written", "no such answer yet", shown(visit.said))
        if not visit.has_found:
            why = "the request was decided on a row that there never was while it was carried out"
            raise differs(line, why, life.held_text or "-", line.saw or "-")
        if visit.kind == "update":
            raise self.updates.answer_otherwise(visit, line)
        attempt, is_fetch = self.known.attempt(visit), visit.kind == "fetch"
        said = self._fetched(visit, life) if is_fetch else self._begun(visit, life)[1]
        if not attempt or is_fetch or self.updates.kept is not None:
            raise differs(line, ANSWERED, shown(said) if said else "-", shown(visit.said))
        self.known.emit(line, life, f"arrive {attempt}", (ANSWER, shown(visit.said)))
        life.give(attempt, visit.said)

    # ---- changes

    def _changed(self, line: Line) -> None:
        life, visit = self.known.life(line.key), self._visit(line)
        self.calls.flush(line, life)
        self._check_chain(line, life)
        if visit is not None and visit.key != line.key:
            raise unjudged(line, "the broker has deleted a binding by itself whose creation had failed")
        if "life_before" in line.of:
            raise unjudged(line, "the id has returned (--ids-return-after)")
        if visit is not None:
            self._check_visit(line, life, visit)
            visit.changes -= 1
        if self.updates.is_change(line):
            self.updates.change(line, visit)
            self._note_updated(visit)
        else:
            self._change(line, life, visit)
        life.held_text, life.held_line = line.after, line
        self.calls.go_on(line, life)
        for other in list(self.open):
            self._resolve(other, line)

    def _note_updated(self, visit: Visit | None) -> None:
        """What is kept of updates has changed, perhaps by an Update that is answered then."""
        if visit is not None and visit.is_resolved:
            self._close(visit)
            self._note_unknown(visit)

    def _change(self, line: Line, life: Life, visit: Visit | None) -> None:
        """What is held has changed."""
        if visit is not None and visit.kind in ("fetch", "update"):
            raise differs(line, f"{visit.kind} changes what is held", "no change", self._words(line))
        after, terms = rules.held_in(line.of["after"])
        asked = self.updates.plan_of(visit, life) if visit is not None else None
        naming.check_held(line, life, visit, asked, after, terms)
        self._note_crash(line, life)
        event = self._event(line, life, visit, after)
        if event == "arrive" and visit is not None and self.updates.kept is not None:
            self._check_by_tables(line, life, visit, after)
        if event.startswith("end "):
            self._end(line, life, visit, after, event)
        elif event != "arrive":
            self._go_on(line, life, after, event)
        elif after.work != "-":
            self._begin(line, life, visit, after, terms.plan)
        else:
            self._change_at_once(line, life, visit, after)
        if not life.is_binding:
            self._keep_updates(line, life, visit, after)
        life.held, life.terms = after, terms

    def _keep_updates(self, line: Line, life: Life, visit: Visit | None, after: Held) -> None:
        """The instance has changed, and what is kept of its updates hasn't, unless the instance has ended."""
        self.updates.keep(line, after.is_held)
        if visit is not None and visit.kind == "provision" and not life.held.is_held:
            self.updates.provision(visit)

    def _check_chain(self, line: Line, life: Life) -> None:
        if line.before == life.held_text:
            return
        if life.held_line is None:
            raise unjudged(line, "the journal of the broker begins in the middle of its life")
        raise differs(line, "the row isn't as its last change has left it", life.held_text or "-", line.before or "-")

    def _check_visit(self, line: Line, life: Life, visit: Visit) -> None:
        """A request changes a row before it is answered, and ends no work but that of its own kind."""
        if visit.answered is not None and visit.answered.time < line.time:
            raise differs(line, "a request changes the row that was answered before", "no change", self._words(line))
        if life.held.work not in ("-", visit.kind):
            why = f"a {visit.kind} ends the pending work of a {life.held.work}"
            raise differs(line, why, "no change", self._words(line))

    def _note_crash(self, line: Line, life: Life) -> None:
        """The process of the request that waits has ended, if it never answers and another process goes on."""
        if life.worker is None or line.visit == life.worker:
            return
        if self.known.visits[life.worker].answered is None:
            self.known.emit(line, life, "crash broker")
            life.worker = None

    def _event(self, line: Line, life: Life, visit: Visit | None, after: Held) -> str:
        """The event that a change is."""
        name: str | None = self.known.name(line, *CHANGES)
        if not name:
            said, mode = self._said_at_end(life, visit), self.known.mode(life, life.plan)
            name = unnamed.change(life.held, mode, after, said, visit is not None)
        if name is None or (self._is_by_tables(life) and name != "arrive" and self._left(life, name) != after):
            raise differs(line, "no end of the pending work leaves this", "another row", self._words(line))
        if visit is not None and not name.startswith(("arrive", "end ")):
            raise differs(line, NAMED, "arrive", name)
        return name

    def _left(self, life: Life, event: str) -> Held | None:
        """What an event leaves of a life that the model doesn't have."""
        verb, _, how = event.partition(" ")
        if verb == "end":
            ended = rules.ended(life.held, self.known.mode(life, life.plan), how)
            return ended and ended[0]
        if verb == "finish":
            return rules.finished(life.held, how)
        return life.held._replace(phase="failed") if life.held.phase == "waiting" else None

    @staticmethod
    def _said_at_end(life: Life, visit: Visit | None) -> Said | None:
        """What a request is answered that ends its own work, if the answer counts."""
        if visit is None or visit.arrived.visit != life.worker or visit.is_failed:
            return None
        return visit.said

    @staticmethod
    def _after(after: Held) -> Wanted:
        return (PHASE, after.phase), (WORK, after.work), (TOMBSTONE, "tombstone" if after.tombstone else "-")

    def _number(self, line: Line, life: Life, visit: Visit | None, after: Held) -> int:
        """The number of the request that makes a change."""
        if visit is None:
            raise differs(line, "no request and no end of work makes this change", "no change", self._words(line))
        naming.check_request(line, self.known, visit)
        attempt = self.known.attempt(visit)
        if not attempt:
            self._check_by_tables(line, life, visit, after)
            if self.known.left is None:
                self._leave_to_others(line, life, visit)
        elif self._meets_others(visit, life):
            self._check_by_tables(line, life, visit, after)
            raise unjudged(line, BOUND_BY_OTHERS)
        return attempt

    def _leave_to_others(self, line: Line, life: Life, visit: Visit) -> None:
        """The model doesn't have the request. It can do without a binding that no platform has ordered."""
        if not life.is_binding or life.is_ordered:
            whose = "record" if visit.request in self.known.sent else "journal of a platform"
            self.known.leave(line, f"a request has changed it that no {whose} has")
        else:
            life.is_others = True

    def _is_by_tables(self, life: Life) -> bool:
        """Whether the tables alone judge it, since the model doesn't have it."""
        return life.is_others or self.known.left is not None

    def _meets_others(self, visit: Visit, life: Life) -> bool:
        """Whether a request of an instance is put off because of a binding that the model doesn't have."""
        return not life.is_binding and self.known.is_bound_by_others and self._is_put_off(visit, life)

    def _check_by_tables(self, line: Line, life: Life, visit: Visit, after: Held) -> None:
        """What a request changes is compared with the tables alone."""
        wanted, _ = self._begun(visit, life)
        if wanted != after:
            expected = f"{wanted.phase}, {wanted.work}, {'tombstone' if wanted.tombstone else '-'}"
            raise differs(line, "a request changes the row otherwise than the tables", expected, self._words(line))

    @staticmethod
    def _words(line: Line) -> str:
        return f"{line.before or '-'} -> {line.after or '-'}"

    def _begin(self, line: Line, life: Life, visit: Visit | None, after: Held, plan: rules.Plan | None) -> None:
        attempt = self._number(line, life, visit, after)
        if attempt:
            self.known.order(line, life, plan)
        self.known.emit(line, life, f"arrive {attempt}", *self._after(after), (ANSWER, "-"))
        life.worker = line.visit

    def _go_on(self, line: Line, life: Life, after: Held, event: str) -> None:
        """An operation ends, or a row has waited for too long."""
        self.calls.settle(line, life, rules.left(life.held.phase, event.partition(" ")[2]))
        self.known.emit(line, life, event, *self._after(after), *self._credentials(line, life, after))

    def _change_at_once(self, line: Line, life: Life, visit: Visit | None, after: Held) -> None:
        self._number(line, life, visit, after)
        assert visit is not None
        _, said = self._begun(visit, life)
        self._close(visit)
        self._arrive(visit, life, line, said or visit.said or (0, "malformed"), *self._after(after))

    @staticmethod
    def _credentials(line: Line, life: Life, after: Held) -> Wanted:
        """The row that is ready has the credentials of the resource."""
        if not life.is_binding or after.phase != "ready":
            return ()
        return ((CREDENTIALS, str(life.number_of(line.of.get("credentials", "")))),)

    def _end(self, line: Line, life: Life, visit: Visit | None, after: Held, event: str) -> None:
        waits = self.known.visits[life.worker] if life.worker else None
        said, outcome = self._said_at_end(life, visit), event.partition(" ")[2]
        ended = rules.ended(life.held, self.known.mode(life, life.plan), outcome)
        if ended is None:
            raise differs(line, "no work is pending that can end so", life.held.work, event)
        wanted = ((ANSWER, shown(said)),) if said is not None else ()
        credentials = self._credentials(line, life, after)
        self.calls.settle(line, life, rules.left(life.held.work, outcome))
        self.known.emit(line, life, event, *self._after(after), *wanted, *credentials)
        life.worker = None
        if waits is None:
            return
        if said is not None and self._is_by_tables(life):
            self._check_said(waits, ended[1])
        life.give(self.known.attempt(waits), ended[1])
        if waits is visit:
            self._close(waits)
        # Otherwise another process has done its work: it is as if the request arrived again.
