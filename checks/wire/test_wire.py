"""Compares what libosb reads of answers and requests with Python's json and urllib.

The library is asked through the package osb. Each test takes texts that hypothesis makes; those of the tests of
neighbours take a few of them, and every text that differs in one byte, or is cut short.

OSB_EXAMPLES=10 compares ten times as many, drawn at random (checks/generated.py).
"""

from __future__ import annotations

import json

import osb
import pytest
from generated import examples
from hypothesis import given
from hypothesis import strategies as st
from osb import wire
from wire import model
from wire.cases import asked as asked_of
from wire.cases import read_answer
from wire.texts import (
    BODY,
    IN_BODY,
    IN_PROVISION,
    IN_TARGET,
    KINDS,
    STATUSES,
    WHOLE_BODY,
    WHOLE_REQUESTS,
    Asked,
    neighbours,
    requests,
)

# The package osb has loaded the library.
pytestmark = [pytest.mark.slow, pytest.mark.usefixtures("library")]


def read_request(asked: Asked) -> str:
    try:
        read = wire.receive_request(asked.method, asked.target, asked.body, asked.longest)
    except osb.Refusal as refusal:
        return f"{refusal.http_status} {json.loads(refusal.body)['description']}"
    return asked_of(read.asked)


@examples(1000)
@given(kind=st.sampled_from(KINDS), status=st.sampled_from(STATUSES), body=BODY)
def test_answers(kind: str, status: int, body: bytes) -> None:
    assert read_answer(kind, status, body) == model.answer(kind, status, body)


@examples(60)
@given(kind=st.sampled_from(KINDS), status=st.sampled_from(STATUSES), whole=WHOLE_BODY)
def test_neighbours_of_answers(kind: str, status: int, whole: bytes) -> None:
    for body in neighbours(whole, IN_BODY):
        assert read_answer(kind, status, body) == model.answer(kind, status, body), body


@examples(600)
@given(asked=requests())
def test_requests(asked: Asked) -> None:
    assert read_request(asked) == model.asked(*asked)


@examples(15)
@given(asked=WHOLE_REQUESTS)
def test_neighbours_of_requests(asked: Asked) -> None:
    changed = [asked._replace(target=target) for target in neighbours(asked.target, IN_TARGET)]
    if asked.body:
        changed += [asked._replace(body=body) for body in neighbours(asked.body, IN_PROVISION)]
    for message in changed:
        assert read_request(message) == model.asked(*message), message
