"""Which events the lines of a platform are."""
from __future__ import annotations

from typing import Sequence

from osb_audit import naming, rules, unnamed
from osb_audit.events import ATTEMPT, OUT, RECORDED, STATE, Wanted, shown
from osb_audit.lines import STEPS, Line
from osb_audit.lives import Life, plan_of
from osb_audit.rules import Recorded, Said
from osb_audit.walk import Known, differs, unjudged

DROPPED = "answers that came and that the platform took for none"
BRIDGED = "changes of a record that no journal has, and that a platform may have made"
NOT_GIVEN = "answers below 500 that no broker gave: judged as those of a gateway, by which nothing is known"
LATE = "requests that were sent after another claim had given them up: judged as delayed"
STATES = "the state of the change isn't that of its record"
NOT_COME = "the platform takes an answer that has not come"
BEGUN = "the journal of the platform begins in the middle of its life"
UPDATED = "its platform updates it, and what a platform records of updates isn't judged"


class PlatformSide:
    """Goes through the lines of platforms."""

    def __init__(self, known: Known) -> None:
        self.known = known
        self.left: set[str] = set()
        """The requests that were sent so far."""
        self.polls: dict[str, int] = {}
        """The number of the request that was in flight when a Fetch was sent."""

    def step(self, line: Line) -> None:
        """Goes through a line."""
        {"changed": self._changed, "sent": self._sent, "answered": self._answered}[line.event](line)

    # ---- requests

    def _sent(self, line: Line) -> None:
        self.left.add(line.of["request"])
        if line.of["kind"] == "fetch":
            self.known.fetches.setdefault(line.key, []).append(line.of["request"])
            self.polls[line.of["request"]] = self.known.life(line.key).record.attempt
        elif line.of.get("attempt"):
            if line.of["kind"] == "update":
                self.known.leave(line, UPDATED)
                return
            life = self.known.life(line.key)
            self._check_out(line, life)
            naming.check_sent(line, self.known.sent[line.of["request"]], life)
            self.known.requests.setdefault((line.key, line.of["attempt"]), []).append(line.of["request"])

    def _check_out(self, line: Line, life: Life) -> None:
        """A request is sent once the record has it in flight, and not after its answer was taken."""
        kind, attempt = line.of["kind"], line.of["attempt"]
        if (life.record.out, life.record.attempt) == (kind, attempt):
            return
        following = self.known.next_change(line)
        if life.record_line is None and (following is None or following.of["before"]):
            raise unjudged(line, BEGUN)
        found = following.of["before"] if following is not None else ""
        read, _ = rules.recorded_in(found)
        if (read.out, read.attempt) == (kind, attempt):
            self._bridge(line, life, found)  # no journal has the claim
            return
        if life.claimed.get(attempt) == kind and attempt not in life.taken:
            # Its worker was paused between its last look at the clock and this line, or the clocks of two workers
            # differ. In the model, it has left with the claim and is delayed.
            self.known.notes[LATE] += 1
            return
        raise differs(
            line,
            "a request is sent that the record doesn't have in flight",
            f"{life.record.out} {life.record.columns[2]}",
            f"{kind} {attempt}",
        )

    def _answered(self, line: Line) -> None:
        request = line.of["request"]
        if request in self.known.sent and request not in self.left:
            raise differs(line, "a request is answered before it is sent", "no answer yet", _words(line))
        self.known.heard[request] = line

    # ---- changes of the record

    def _changed(self, line: Line) -> None:
        life = self.known.life(line.key)
        life.is_abandoned = life.is_abandoned or line.of.get("state") == "abandoned"
        _check_state(line)
        if line.of["before"] != life.record_text:
            self._bridge(line, life, line.of["before"])
        if line.of["before"] != line.of["after"]:
            before, (after, plan) = life.record, rules.recorded_in(line.of["after"])
            naming.check_record(line, self.known, life, plan)
            self.known.order(line, life, plan)
            if line.of["cause"] == "take" and before.out != "-":
                self._take(line, life, after)
            else:
                self._step(line, life, after, self._steps(line, before, after))
            life.come(after)
            life.recorded = line.of.get("credentials", life.recorded)
        elif not life.is_ordered:
            life.ordered = plan_of(line)
        life.record_text, life.record_line = line.of["after"], line

    def _bridge(self, line: Line, life: Life, text: str) -> None:
        """The record isn't as its last change has left it. A process without a journal may have changed it."""
        if life.record_line is None:
            raise unjudged(line, BEGUN)
        read, plan = rules.recorded_in(text)
        events = rules.steps(life.record, read)
        if not events or plan != rules.recorded_in(life.record_text)[1]:
            why = "the record isn't as its last change has left it"
            raise differs(line, why, life.record_text or "-", text or "-")
        self.known.notes[BRIDGED] += 1
        self._step(line, life, read, events)
        life.come(read)
        life.record_text = text

    @staticmethod
    def _after(line: Line, life: Life, after: Recorded) -> Wanted:
        state, out, attempt = after.columns
        wanted: Wanted = ((STATE, state), (OUT, out), (ATTEMPT, attempt))
        if life.is_binding and after.state == "ready":
            wanted += ((RECORDED, str(life.number_of(line.of.get("credentials", life.recorded)))),)
        return wanted

    def _steps(self, line: Line, before: Recorded, after: Recorded) -> Sequence[str] | None:
        """The events of the platform itself that lead to a record, or None if there are none."""
        name = self.known.name(line, *STEPS) or unnamed.steps(before, after)
        return None if name is None else name.split()

    def _step(self, line: Line, life: Life, after: Recorded, events: Sequence[str] | None) -> None:
        """The platform goes on by itself."""
        if events is None:
            raise differs(
                line,
                "no events of the platform lead to this record",
                " ".join(life.record.columns),
                " ".join(after.columns),
            )
        if "remove" in events and not life.is_binding and self._has_abandoned():
            raise unjudged(line, "an instance is removed one of whose bindings an operator has abandoned")
        if events and events[0] == "timeout" and life.sender not in ("", line.process):
            self.known.emit(line, life, "crash platform")
        for event in events[:-1]:
            self.known.emit(line, life, event)
        for event in events[-1:]:
            self.known.emit(line, life, event, *self._after(line, life, after))
        life.sender = line.process if after.out != "-" else ""

    def _has_abandoned(self) -> bool:
        return any(life.is_abandoned for life in self.known.lives.values() if life.is_binding)

    # ---- answers

    def _take(self, line: Line, life: Life, after: Recorded) -> None:
        """The platform takes an answer, or none."""
        attempt = line.of.get("attempt", life.record.attempt)
        requests = self.known.requests.get((life.key, attempt), [])
        fetches = self.known.fetches.get(life.key, ())[-1:]
        self._check_heard(line, [*requests, *(fetch for fetch in fetches if self.polls[fetch] == attempt)])
        heard = [self.known.heard[request] for request in requests if request in self.known.heard]
        said = _said(heard[-1]) if heard else None
        name = self.known.name(line, "take", "timeout")
        event = self._event(line, life, attempt, said, after)
        if name == "take" and event == "timeout" and self._effect(life, said) != after:
            raise differs(line, NOT_COME, event, name)
        if (name or unnamed.take(life.record, self._effect(life, said), after)) == "timeout" != event:
            self.known.notes[DROPPED] += 1
            event = "timeout"
        self.known.emit(line, life, event, *self._after(line, life, after))
        life.sender = ""
        life.taken.add(attempt)

    def _check_heard(self, line: Line, requests: Sequence[str]) -> None:
        """A process takes an answer, or a timeout, once its exchange is over."""
        for request in requests:
            answer = self.known.answers.get(request)
            if answer is not None and answer.process == line.process and request not in self.known.heard:
                raise differs(line, NOT_COME, "-", _words(answer))

    def _effect(self, life: Life, said: Said | None) -> Recorded | None:
        if said is None:
            return None
        return rules.taken(life.record, said, life.is_binding, self._is_retrievable(life))

    def _is_retrievable(self, life: Life) -> bool:
        plan = rules.recorded_in(life.record_text)[1]
        return self.known.sold(plan).is_retrievable

    def _event(self, line: Line, life: Life, attempt: int, said: Said | None, after: Recorded) -> str:
        if said is None:
            return self._unheard(line, life, attempt, after)
        if life.is_binding and (life.record.state, life.record.out, said) == ("polling", "poll", (200, "succeeded")):
            return self._fetched(life, attempt, said)
        given = [answer.position for answer in life.given.get(attempt, ()) if answer.said == said]
        if given:
            return f"take {given[-1]}"
        status = [answer.position for answer in life.given.get(attempt, ()) if answer.said[0] == said[0]]
        if said[1] == "malformed" and status:
            return f"garble {status[-1]}"
        if 500 <= said[0] <= 599:
            return f"gateway {said[0]}"
        if after == rules.stepped(life.record, "timeout"):
            self.known.notes[NOT_GIVEN] += 1
            return "timeout"
        return self._not_given(line, life, attempt, said)

    @staticmethod
    def _unheard(line: Line, life: Life, attempt: int, after: Recorded) -> str:
        """No answer to this request has come. If the record shows that one was taken, it is one that is still on its
        way, or that to another request.
        """
        if after == rules.stepped(life.record, "timeout"):
            return "timeout"
        for number in sorted(life.given, key=lambda it: it != attempt):
            for given in life.given[number]:
                if rules.taken(life.record, given.said, life.is_binding, True) == after:
                    if number == attempt:
                        raise differs(line, NOT_COME, "-", shown(given.said))
                    return f"take {given.position}"
        return "timeout"

    def _fetched(self, life: Life, attempt: int, said: Said) -> str:
        """The answer to a Poll counts together with that to the Fetch that followed it."""
        fetches = self.known.fetches.get(life.key, [])
        heard = self.known.heard.get(fetches[-1]) if fetches else None
        polls = [answer.position for answer in life.given.get(attempt, ()) if answer.said == said]
        positions = [at for at, visit in enumerate(life.fetched) if self.known.visits[visit].request in fetches[-1:]]
        if heard is None or heard.of.get("status") != 200 or "lost" in heard.of or not polls or not positions:
            return "timeout"
        return f"take-fetched {polls[-1]} {positions[-1]}"

    def _not_given(self, line: Line, life: Life, attempt: int, said: Said) -> str:
        """No broker has given this answer to this request."""
        requests = self.known.requests[life.key, attempt]
        visits = [visit for visit in self.known.visits.values() if visit.request in requests]
        if not visits:
            raise unjudged(line, "the platform took an answer to a request that no journal of a broker has")
        if any(visit.may_conflict and visit.said == said for visit in visits):
            raise unjudged(line, "the platform took a 409 that isn't judged: the broker's journal has no attributes")
        given = [shown(visit.said) for visit in visits if visit.said and not self.known.is_altered(visit)]
        raise differs(
            line, "the platform took an answer that no broker has given", ", ".join(given) or "-", shown(said)
        )


def _check_state(line: Line) -> None:
    """The state is that of the record. Without a record, an order is new or withdrawn. An operator can abandon what is
    recorded.
    """
    state, (record, _) = line.of.get("state"), rules.recorded_in(line.of["after"])
    states = ("ordered", "withdrawn") if record == rules.UNKNOWN else (record.state, "abandoned")
    if state is not None and state not in states:
        raise differs(line, STATES, f"state {' or '.join(states)}", f"state {state}")


def _words(line: Line) -> str:
    """The answer of a line, to be shown."""
    said = _said(line)
    return shown(said) if said is not None else "lost"


def _said(line: Line) -> Said | None:
    """What came back, or None if nothing that counts did."""
    if "lost" in line.of:
        return None
    return line.of["status"], line.of.get("body", "malformed")  # only the answer to what has no attempt has none
