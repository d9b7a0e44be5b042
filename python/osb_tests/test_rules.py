"""A table of docs/platform.md, line by line, worked out by hand. Those of docs/broker.md are in api/cases.txt.

A holding handles every Poll as if its work were done, so the rule for one whose work fails isn't there either: it is in
checks/replay/worked.txt, and for another plan than the row's in crates/library_cases.
"""
from __future__ import annotations

from osb import Answer, Body, Kind, Record, State
from osb_tests.support import ONE, SERVICE, SYNC

BODIES = {str(body): body for body in Body} | {
    "error": Body.OTHER_ERROR,
    "AsyncRequired": Body.ASYNC_REQUIRED,
    "ConcurrencyError": Body.CONCURRENCY_ERROR,
}

# An answer to a Provision, the state after it, and whether the platform cleans up.
PROVISIONS = """
100 empty cleaning mitigated
200 empty ready
200 malformed unsettled
201 empty ready
201 malformed cleaning mitigated
202 empty polling
202 malformed cleaning mitigated
204 empty cleaning mitigated
302 empty cleaning mitigated
400 error gone
408 error unsettled
409 error unsettled
422 AsyncRequired gone
422 ConcurrencyError unsettled
422 error unsettled
422 malformed unsettled
429 error gone
500 error cleaning mitigated
503 error cleaning mitigated
600 empty cleaning mitigated
200 succeeded unsettled
201 error cleaning mitigated
"""


def test_the_answer_to_a_provision() -> None:
    """What becomes of its record, and whether a Deprovision is due then."""
    wanted, _ = Record.create(ONE, SERVICE, SYNC, True)
    for status, body, state, *cleans in map(str.split, PROVISIONS.strip().splitlines()):
        after = wanted.answer(1, Answer(int(status), BODIES[body]))
        cleans_up = after.state == State.CLEANING and after.send(ONE)[1].kind == Kind.DEPROVISION
        assert (str(after.state), cleans_up) == (state, bool(cleans)), (status, body)
