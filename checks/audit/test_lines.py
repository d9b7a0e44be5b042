"""What the lines of a journal may have as members: anything else is an error that names the line."""

from __future__ import annotations

import json
from typing import Any

import pytest
from audit.journals import BOUND, INSTANCE, Journal
from osb_audit.lines import MEMBERS, BadLine, Line, Position, read
from osb_audit.rules import NoText, held_in, recorded_in
from osb_audit.settings import settings_in
from osb_audit.story import story

pytestmark = pytest.mark.usefixtures("library")

WRONG: dict[str, Any] = {
    "null": None,
    "a truth": True,
    "a number": 7,
    "a negative number": -1,
    "a great number": 10**30,
    "a fraction": 200.5,
    "no text": "",
    "a text": "x",
    "a list": [],
    "an object": {"a": []},
}


UPDATED = """B arrive 7 u1 update to=async size=5 version=7 number=3
B update 7 pending/3/sync/async.5.7 effect=update_sync; B look-update whole visit=7
B update 7 settled/3/async.5.7 effect=end-update_done; B answer 7 200; B arrive 8 f2 fetch
B answer 8 200 saw=ready sees=settled/3/async.5.7 gives=async.5.7/3
B arrive 9 u2 update; B answer 9 200 saw=ready sees=settled/3/async.5.7 effect=update_sync
"""


def texts() -> list[tuple[str, dict[str, Any]]]:
    """The process and the members of each line of a story."""
    journal = Journal().tell(BOUND + UPDATED + "P send f1 fetch 0 of binding; P lose f1 of binding")
    journal.write("B", "undone", {"instance": INSTANCE, "change": 99, "doubtful": True})
    return [(who, json.loads(line)) for who, lines in journal.lines.items() for line in lines]


def story_of(journal: list[dict[str, Any]]) -> None:
    lines: list[Line] = []
    settings = {}
    for number, members in enumerate(journal):
        text = json.dumps(members).encode()
        if members["event"] != "started":
            lines.append(read(Position(0, number), text))
        elif members["side"] == "broker":
            settings[members["process"]] = settings_in(text)
    story(INSTANCE, lines, settings, {})


@pytest.mark.parametrize("name", WRONG)
def test_members_of_other_types(name: str) -> None:
    """A story with one wrong member is gone through, or the line is rejected: nothing else is raised."""
    journal = [members for _, members in texts()]
    rejected = passed = 0
    for at, members in enumerate(journal):
        for member in members:
            if member in ("time", "process", "side", "event"):
                continue
            try:
                story_of([*journal[:at], {**members, member: WRONG[name]}, *journal[at + 1 :]])
                passed += 1
            except BadLine as error:
                assert f"{member} of " in str(error), error
                rejected += 1
    assert rejected > 100, (rejected, passed)


def test_known_members_have_a_type() -> None:
    """Each member that the story has is known, and none is taken as a list."""
    for _, members in texts():
        if members["event"] == "started":
            continue
        known = MEMBERS[members["side"], members["event"]]
        assert set(members) - {"side", "event"} <= set(known), members
        read(Position(0, 0), json.dumps(members).encode())
        for member in set(known) & set(members):
            with pytest.raises(BadLine, match=f"{member} of {members['event']} of a {members['side']} has to be "):
                read(Position(0, 0), json.dumps({**members, member: []}).encode())


@pytest.mark.parametrize("name", WRONG)
def test_texts_of_other_types(name: str) -> None:
    """The texts of holdings and records are checked in the same way."""
    ids = {"service": INSTANCE, "plan": INSTANCE}
    record = {"attempt": 1, "out": "poll", **ids, "state": "polling"}
    work = {"accepts_incomplete": True, "id": INSTANCE, "kind": "provision", **ids}
    row = {"phase": "making", **ids}
    holding = {"attributes": "0" * 64, "row": row, "tombstone": False, "work": work}
    recorded_in(json.dumps(record))
    held_in(json.dumps(holding))
    wrong = WRONG[name]
    for member in record:
        if (member, name) in (("attempt", "a number"), ("out", "null")):
            continue
        with pytest.raises(NoText):
            recorded_in(json.dumps({**record, member: wrong}))
    others: list[dict[str, Any]] = [{**holding, "row": {**row, key: wrong}} for key in row]
    others += [
        {**holding, "work": {**work, key: wrong}} for key in work if not (key == "id" and isinstance(wrong, str))
    ]
    others += [{**holding, key: wrong} for key in holding if not (key == "attributes" and isinstance(wrong, str))]
    for other in others:
        if other["tombstone"] is True or other["row"] is None or other["work"] is None:
            continue  # these are texts of other holdings
        if name == "a truth" and other == holding:
            continue  # of `accepts_incomplete`
        with pytest.raises(NoText):
            held_in(json.dumps(other))
