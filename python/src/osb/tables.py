"""Two of the platform's tables, which take any answer (docs/platform.md). A `Record` applies all of them itself."""
from __future__ import annotations

from osb._crossing import answer_to
from osb._lib import lib
from osb.enums import State
from osb.messages import Answer


def decide_deprovision(answer: Answer) -> State:
    """The record of a cleaning instance after the answer to its Deprovision."""
    return State(lib.osb_decide_deprovision(answer_to(answer)))


def decide_poll(state: State, answer: Answer) -> State:
    """The record of an instance in this state after the answer to its Poll: a state that isn't polled stays."""
    return State(lib.osb_decide_poll(State(state).value, answer_to(answer)))
