"""The tables of updates, line by line, and what they keep whatever comes."""

from __future__ import annotations

from itertools import product

import pytest
from network.model import Answer, Held, Request, Row, error
from update import model
from update.model import ALLOWED, BUSY, CONFLICT, DONE, LAST, OUTCOMES, Found, Holding, Record, Sent, Update, Work

READY = Held(Row(0, "ready"))
INSTANCES = [
    Held(),
    Held(tombstone=True),
    Held(work=Request("provision", True)),
    *(Held(Row(0, phase)) for phase in ("waiting", "making", "ready", "failed", "deleting", "delete-failed")),
    Held(Row(0, "ready"), Request("deprovision", True)),
]
HOLDINGS = [
    Holding("pab", number, phase, to)
    for number in (0, 5)
    for phase in model.PHASES
    for to in (("qab", "pab") if phase in model.UNDER_WAY else (None,))
]
UPDATES = [
    Update(names, number, accepts, service)
    for names in ("q..", "p..", "...", ".x.", "qab")
    for number in (0, 4, 5, 6)
    for accepts in (True, False)
    for service in (0, 1)
]
CELLS = list(product(INSTANCES, ALLOWED, HOLDINGS, UPDATES))

SETTLED, PENDING = Holding("pab", 5), Holding("pab", 5, "pending", "qab")
RUNNING, FAILED = Holding("pab", 5, "updating", "qab"), Holding("pab", 5, "failed")
NEW, AGAIN, OLD, PLAIN = (Update("q..", number) for number in (6, 5, 4, 0))

# A cell of each line: the instance, what the catalogue has, the holding and the Update; the answer; the holding after.
LINES = {
    1: (Held(tombstone=True), "sync", SETTLED, NEW, error(404), SETTLED),
    2: (Held(Row(0, "ready"), Request("deprovision", True)), "sync", SETTLED, NEW, BUSY, SETTLED),
    3: (READY, "sync", SETTLED, NEW._replace(service=1), error(400), SETTLED),
    4: (READY, "sync", SETTLED, OLD, error(409), SETTLED),
    5: (READY, "sync", PENDING, AGAIN, BUSY, PENDING),
    6: (READY, "async", RUNNING, AGAIN, Answer(202, "empty"), RUNNING),
    7: (READY, "sync", SETTLED, Update("p..", 5), Answer(200, "empty"), SETTLED),
    8: (READY, "sync", FAILED, AGAIN, error(500), FAILED),
    9: (READY, "async", RUNNING, PLAIN, Answer(202, "empty"), RUNNING),
    10: (READY, "async", RUNNING, NEW, BUSY, RUNNING),
    11: (READY, "rejected 400", SETTLED, Update("...", 6), Answer(200, "empty"), Holding("pab", 6)),
    12: (READY, "rejected 400", SETTLED, NEW, error(400), Holding("pab", 6)),
    13: (READY, "rejected 422", SETTLED, NEW, error(422), Holding("pab", 6)),
    14: (READY, "conflict", SETTLED, NEW, error(422, "MaintenanceInfoConflict"), Holding("pab", 6)),
    15: (READY, "async", SETTLED, NEW._replace(accepts=False), error(422, "AsyncRequired"), Holding("pab", 6)),
    16: (READY, "conflict", FAILED, NEW, error(500), Holding("pab", 6, "failed")),
    17: (READY, "async", FAILED, NEW, Work("async", "qab"), Holding("pab", 6, "mending", "qab")),
}


@pytest.mark.parametrize("line", LINES)
def test_line(line: int) -> None:
    instance, allowed, holding, update, begun, after = LINES[line]
    assert model.line(instance, allowed, holding, update) == line
    assert model.begin(instance, allowed, holding, update) == (after, begun)


def test_every_line_is_reached() -> None:
    assert {model.line(*cell) for cell in CELLS} == set(LINES)


def test_what_no_update_changes() -> None:
    """Whatever comes: the settings stay, no number falls, and what isn't newer changes nothing. A rejection leaves the
    phase. Work begins only of an instance that is available, with the service of the row, while none is under way.
    """
    for instance, allowed, holding, update in CELLS:
        after, begun = model.begin(instance, allowed, holding, update)
        assert after.settings == holding.settings and after.number >= holding.number
        if 0 < update.number <= holding.number:
            assert after == holding
        if isinstance(begun, Answer):
            assert (after.phase, after.to) == (holding.phase, holding.to)
            assert begun.status in (200, 202, 400, 404, 409, 422, 500)
        else:
            assert instance == READY and update.service == 0 and allowed in ("sync", "async")
            assert holding.phase in ("settled", "failed") and after.phase in model.PENDING and after.to == begun.to


def test_a_failed_update_is_not_rejected() -> None:
    """Only what says nothing of the settings has a 4xx: no instance, another service, an old number, to try again."""
    for instance, allowed, update in product(INSTANCES, ALLOWED, UPDATES):
        _, begun = model.begin(instance, allowed, FAILED, update)
        if isinstance(begun, Answer) and 400 <= begun.status <= 499 and begun != BUSY:
            assert instance.row is None or update.service == 1 or update.number == 4


def test_what_an_update_names() -> None:
    for settings, to in product(("pab", "qab", "qxy"), repeat=2):
        assert model.with_change(settings, model.change_to(settings, to, False)) == to
        assert all(model.with_change(any, model.change_to(settings, to, True)) == to for any in ("pab", "zzz"))
    assert model.change_to("pab", "qab", False) == "q.."


# ---- the work and the operation of an Update end

MENDING = Holding("pab", 5, "mending", "qab")
ENDS = {
    ("sync", PENDING): {
        "done": (Holding("qab", 5), 200),
        "after": (Holding("qab", 5), 500),
        "before": (SETTLED, 500),
        "refused 400": (SETTLED, 400),
        "refused 422": (SETTLED, 422),
        "failed": (FAILED, 500),
    },
    ("async", PENDING): {"done": (RUNNING, 202), "after": (RUNNING, 500), "before": (SETTLED, 500)},
    ("sync", MENDING): {
        "done": (Holding("qab", 5), 200),
        "before": (FAILED, 500),
        "refused 400": (FAILED, 500),
        "failed": (FAILED, 500),
    },
    ("async", MENDING): {"done": (RUNNING, 202), "refused 422": (FAILED, 500)},
}


@pytest.mark.parametrize(("mode", "holding"), ENDS)
def test_end(mode: str, holding: Holding) -> None:
    for outcome, (after, status) in ENDS[mode, holding].items():
        ended = model.end(mode, holding, outcome)
        assert ended is not None and (ended[0], ended[1].status) == (after, status), outcome


def test_what_has_no_end() -> None:
    for holding, mode, outcome in product(HOLDINGS, ("sync", "async"), OUTCOMES):
        assert (model.end(mode, holding, outcome) is not None) == (holding.phase in model.PENDING)
        assert (model.finish(holding, True) is not None) == (holding.phase == "updating")


def test_finish() -> None:
    assert model.finish(RUNNING, True) == Holding("qab", 5)
    assert model.finish(RUNNING, False) == FAILED


REPORTED = {
    SETTLED: ("succeeded", Found("pab", 5)),
    PENDING: ("in-progress", BUSY),
    RUNNING: ("in-progress", BUSY),
    FAILED: ("failed", BUSY),
    MENDING: ("in-progress", BUSY),
}


@pytest.mark.parametrize("holding", REPORTED)
def test_poll_and_fetch(holding: Holding) -> None:
    word, found = REPORTED[holding]
    assert model.poll(READY, holding) == (200, word) and model.fetch(READY, holding) == found
    for instance in INSTANCES:
        if instance != READY:
            assert model.poll(instance, holding) is None and model.fetch(instance, holding) == error(404)


# ---- the platform

IDLE = {
    "settled": Record("pab", 2, 3),
    "updating": Record("pab", 2, 3, "updating", "qab"),
    "polling": Record("pab", 2, 3, "polling", "qab"),
    "unsure": Record("pab", 2, 3, "unsure", "qab"),
}
MIXED = {name: record._replace(mixed=name != "settled") for name, record in IDLE.items()}
NOW_SETTLED = Record("qab", 2, 3)


def out(record: Record, kind: str) -> Record:
    return record._replace(out=kind)


def test_update() -> None:
    """Its number is the next attempt. All is named if another Update may have been done."""
    first = model.update(IDLE["settled"], True, "qab")
    assert first == (Record("pab", 4, 4, "updating", "qab", False, "update"), Sent("update", 4, "q.."))
    for state in ("updating", "unsure"):
        same = model.update(IDLE[state], True, "qab")
        other = model.update(IDLE[state], True, "pab")
        assert same == (Record("pab", 4, 4, "updating", "qab", False, "update"), Sent("update", 4, "q.."))
        assert other == (Record("pab", 4, 4, "updating", "pab", True, "update"), Sent("update", 4, "pab"))
        assert model.update(MIXED[state], True, "qab") != same
    assert model.update(IDLE["polling"], True, "qab") == "NotNow"
    assert model.update(IDLE["settled"], False, "qab") == "NotReady"
    assert model.update(out(IDLE["updating"], "update"), True, "qab") == "Busy"
    assert model.update(Record("pab", 1, LAST), True, "qab") == "AttemptsUsedUp"


def test_send() -> None:
    again = model.send(MIXED["updating"])
    assert again == (Record("pab", 4, 4, "updating", "qab", True, "update"), Sent("update", 4, "qab"))
    assert model.send(IDLE["polling"]) == (
        Record("pab", 2, 4, "polling", "qab", False, "poll"),
        Sent("poll", 4, "p"),
    )
    assert model.send(IDLE["settled"]) == model.send(IDLE["unsure"]) == "NothingDue"
    assert model.send(out(IDLE["polling"], "poll")) == "Busy"
    assert model.send(IDLE["polling"]._replace(attempt=LAST)) == "AttemptsUsedUp"


def test_fetch() -> None:
    for state in ("updating", "unsure"):
        sent = model.fetch_sent(IDLE[state])
        assert sent == (IDLE[state]._replace(attempt=4, out="fetch"), Sent("fetch", 4))
        asked = out(IDLE[state], "fetch")
        assert model.fetched(asked, 3, Found("xyz", 2)) == Record("xyz", 2, 3)
        for reported in (None, Found("xyz", 1), Found("xyz", 0)):
            assert model.fetched(asked, 3, reported) == IDLE[state]
        assert model.fetched(asked, 2, None) == "NotOut" == model.answer(asked, 3, DONE["sync"])
    assert model.fetch_sent(IDLE["settled"]) == model.fetch_sent(IDLE["polling"]) == "NothingDue"
    assert model.fetched(out(IDLE["updating"], "update"), 3, None) == "NotOut"


def test_stop() -> None:
    for state, record in IDLE.items():
        under_way = state in ("updating", "polling")
        assert model.stop(record) == (record._replace(state="unsure") if under_way else "NothingDue")
    assert model.stop(out(IDLE["polling"], "poll")) == "Busy"


ANSWERS = [Answer(status, body) for status in range(200, 600) for body in ("empty", "malformed", "error")]
ANSWERS += [BUSY, CONFLICT, *(Answer(200, word) for word in ("in-progress", "succeeded", "failed"))]


def test_answer_to_an_update() -> None:
    for answer, records in product(ANSWERS, (IDLE, MIXED)):
        asked = out(records["updating"], "update")
        after = model.answer(asked, 3, answer)
        if answer == (200, "empty"):
            assert after == NOW_SETTLED
        elif answer == (202, "empty"):
            assert after == records["polling"]
        elif answer != BUSY and answer.body in ("error", "empty", CONFLICT.body) and is_a_rejection(answer.status):
            assert after == (IDLE["settled"] if records is IDLE else records["unsure"])
        else:
            assert after == records["updating"]
        assert model.answer(asked, 2, answer) == "NotOut"


def is_a_rejection(status: int) -> bool:
    """Whether no gateway, proxy or server answers so of itself."""
    return 400 <= status <= 499 and status not in (401, 403, 404, 405, 407, 408, 412, 413, 414, 415, 429, 431)


def test_answer_to_a_poll() -> None:
    for answer in ANSWERS:
        after = model.answer(out(MIXED["polling"], "poll"), 3, answer)
        words = {(200, "succeeded"): NOW_SETTLED, (200, "failed"): MIXED["unsure"]}
        assert after == words.get(answer, MIXED["polling"])


def test_timeout() -> None:
    for state, kind in (("updating", "update"), ("polling", "poll"), ("unsure", "fetch"), ("updating", "fetch")):
        assert model.timeout(out(IDLE[state], kind), 3) == IDLE[state]
        assert model.timeout(out(IDLE[state], kind), 4) == "NotOut" == model.timeout(IDLE[state], 3)
