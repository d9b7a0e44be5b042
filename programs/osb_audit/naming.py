"""What requests, rows, pending work and records name besides the ids: the service, the plan and the attributes.

The model has one service and one plan of each instance, and what is held has those and the attributes of the request
that began it, as long as it is held. So a trace shows none of them, and they are compared here.
"""
from __future__ import annotations

from osb_audit.lines import Line
from osb_audit.lives import Life, Sent, Visit, plan_of
from osb_audit.rules import NO_ATTRIBUTES, Held, Plan, Terms
from osb_audit.walk import Known, Stopped, differs

ALTERED = "the request has another service or plan than the one that the platform has sent"
BEGUN = "what is held has another service, plan or attributes than the request that began it"
KEPT = "what is held has another service, plan or attributes than before"
WORK = "the pending work isn't that of its request"
ENDED = "there are attributes without a row and without pending work"
RECORDED = "the record has another service or plan than the order"
OF_INSTANCE = "the binding has another service or plan than its instance"
SENT = "the request has another service or plan than the record"

_WORDS = "service", "plan", "attributes", "id", "accepts_incomplete"


def _differs(line: Line, why: str, model: tuple[object, ...], journal: tuple[object, ...]) -> Stopped:
    """A difference between parts, in the order of _WORDS. Only those that differ are reported."""
    wrong = [(word, *its) for word, *its in zip(_WORDS, model, journal) if its[0] != its[1]]
    return differs(
        line,
        why,
        ", ".join(f"{word} {wanted}" for word, wanted, _ in wrong),
        ", ".join(f"{word} {found}" for word, _, found in wrong),
    )


def _parts(plan: Plan | None, *more: object) -> tuple[object, ...]:
    return (*(plan or ("-", "-")), *more)


# ---- a broker


def check_held(line: Line, life: Life, visit: Visit | None, asked: Plan | None, after: Held, terms: Terms) -> None:
    """Raises `Stopped` if what is held after a change isn't what was held before, or what the request asks for that
    began it. `asked` is the plan that the request names, as the tables see it.
    """
    if not after.is_held:
        if terms.attributes != NO_ATTRIBUTES:
            raise _differs(line, ENDED, _parts(None, NO_ATTRIBUTES), _parts(None, terms.attributes))
        return
    why, plan, attributes = KEPT, life.terms.plan, life.terms.attributes
    if plan is None:  # nothing was held
        if visit is None:
            return  # nothing begins without a request: that is reported
        why, plan, attributes = BEGUN, asked or terms.plan, visit.attributes or terms.attributes
    if plan != terms.plan or attributes != terms.attributes:
        raise _differs(line, why, _parts(plan, attributes), _parts(terms.plan, terms.attributes))
    if after.work != "-":
        _check_work(line, life, visit, asked, after, terms)


def _check_work(line: Line, life: Life, visit: Visit | None, asked: Plan | None, after: Held, terms: Terms) -> None:
    """The pending work is the request that began it: about the same life, with the plan of the row."""
    is_begun = visit is not None and life.held.work == "-"
    plan, accepts = terms.plan, after.accepts
    if visit is not None and is_begun:
        plan, accepts = asked or plan, visit.accepts
    if plan != terms.work_plan or life.id != terms.work_id or accepts != after.accepts:
        wanted = _parts(plan, terms.attributes, life.id, accepts)
        raise _differs(line, WORK, wanted, _parts(terms.work_plan, terms.attributes, terms.work_id, after.accepts))


def check_request(line: Line, known: Known, visit: Visit) -> None:
    """Raises `Stopped` if a request that changes something names another plan than the platform has sent."""
    sent = known.request_of(visit)
    if sent is not None and None not in (sent.plan, visit.plan) and sent.plan != visit.plan:
        raise _differs(line, ALTERED, _parts(sent.plan), _parts(visit.plan))


# ---- a platform


def check_record(line: Line, known: Known, life: Life, plan: Plan | None) -> None:
    """Raises `Stopped` if a record hasn't the plan of its order, or that of a binding the plan of its instance."""
    of_instance = known.lives[""].ordered if life.is_binding else None
    for why, wanted in ((RECORDED, plan_of(line)), (RECORDED, life.ordered), (OF_INSTANCE, of_instance)):
        if wanted is not None and wanted != plan and plan is not None:
            raise _differs(line, why, _parts(wanted), _parts(plan))


def check_sent(line: Line, sent: Sent, life: Life) -> None:
    """Raises `Stopped` if a request hasn't the plan of the record."""
    if sent.attempt and None not in (sent.plan, life.ordered) and sent.plan != life.ordered:
        raise _differs(line, SENT, _parts(life.ordered), _parts(sent.plan))
