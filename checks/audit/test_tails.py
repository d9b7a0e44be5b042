"""What a process wrote down last before it was killed: which of it counts as committed, and what is found all the same.

Most stories have two instances. A worker claims a step of both in one transaction, and is killed. Then another worker
deletes one of them, which can't be if the claim of its binding was committed.
"""

from __future__ import annotations

from pathlib import Path
from typing import NamedTuple

import pytest
from audit.conftest import Audit
from audit.journals import CREATED, EXPIRED, GIVEN_UP, INSTANCE, POLLING, REMOVE, SENT, Journal
from osb_audit.judging import UNSHOWN
from osb_audit.splitting import Splitting, split
from osb_audit.tails import Doubts, doubts, joined
from osb_replay_log.logs import found as log_at
from osb_replay_log.logs import stretches
from osb_replay_log.spool import Room

OTHER = f"{INSTANCE[:-1]}2"


def of_other(story: str) -> str:
    """The same story, about the other instance."""
    return "".join(f"2 {statement.strip()}; " for statement in story.replace("\n", ";").split(";") if statement.strip())


READY = f"{CREATED}; {of_other(CREATED)}; P9 command - state=ordered of binding; P9 stop; "
BATCH = "P claim wanted/1/provision of binding; 2 P claim cleaning/2/deprovision; "
DELETED = """P2 claim cleaning/2/deprovision; P2 send r2 deprovision 2; B arrive 3 r2 deprovision
    B change 3 ready+deprovision; B look whole; B delete; B look absent; B change 3 tombstone; B answer 3 200
    P2 hear r2 200; P2 take 2 gone/2; """
CLAIMED_AGAIN = "2 P2 claim cleaning/2/deprovision from ready/1; 2 P2 send q2 deprovision 2; "
TAKEN_OVER = "2 P2 take 2 cleaning/2 from cleaning/2/deprovision; "
DELETED_BESIDE = f"remove {INSTANCE}"


class Tail(NamedTuple):
    """A story, the event of its difference, or empty for none, and how many changes nothing shows."""

    story: str
    event: str = ""
    unshown: int = 0
    plan: str = "sync"


TAILS = {
    "nothing shows a commit": Tail(f"{READY}{BATCH}{DELETED}", unshown=1),
    "a batch whose last change wasn't committed": Tail(f"{READY}{BATCH}{CLAIMED_AGAIN}{DELETED}", unshown=1),
    "a batch whose first change wasn't committed": Tail(
        f"{READY}2 P claim cleaning/2/deprovision; P claim wanted/1/provision of binding; {CLAIMED_AGAIN}{DELETED}"
    ),
    "a batch that was committed": Tail(f"{READY}{BATCH}{TAKEN_OVER}{DELETED}", DELETED_BESIDE),
    "a batch that was committed in part": Tail(
        f"{READY}{BATCH}{TAKEN_OVER}P2 claim wanted/1/provision from - of binding; P2 send b1 provision 1 of binding",
        f"{INSTANCE}: the record isn't as its last change has left it",
    ),
    "a change that another worker has found": Tail(
        f"{READY}{BATCH}P2 take 1 cleaning/1 from wanted/1/provision of binding; {DELETED}", DELETED_BESIDE
    ),
    "a process that has stopped": Tail(f"{READY}{BATCH}P stop; {DELETED}", DELETED_BESIDE),
    "a request of the batch": Tail(f"{READY}{BATCH}2 P send q2 deprovision 2; {DELETED}", DELETED_BESIDE),
    "a request of a later batch": Tail(
        f"{READY}P claim wanted/1/provision of binding; 3 P claim wanted/1/provision; 3 P send s1 provision 1; "
        f"2 P claim cleaning/2/deprovision; {DELETED}",
        DELETED_BESIDE,
    ),
    "a request of an earlier batch": Tail(
        f"{READY}3 P claim wanted/1/provision; {BATCH}3 P send s1 provision 1; 3 P lose s1; {DELETED}", unshown=1
    ),
    "a batch that is being undone": Tail(
        f"{READY}P claim wanted/1/provision of binding; 2 P claim cleaning/2/deprovision !doubtful; {DELETED}",
        unshown=1,
    ),
    "a change that others had overtaken": Tail(
        f"{READY}{CLAIMED_AGAIN}2 P2 lose q2; 2 P2 take 2 cleaning/2; 2 P claim cleaning/2/deprovision from ready/1; "
        "2 P2 claim cleaning/3/deprovision from cleaning/2"
    ),
    "a change that others had overtaken, and that nothing follows": Tail(
        f"{READY}{CLAIMED_AGAIN}2 P2 lose q2; 2 P2 take 2 cleaning/2; 2 P claim cleaning/2/deprovision from ready/1"
    ),
    "a request that others didn't overtake": Tail(
        f"{READY}{CLAIMED_AGAIN}2 P2 lose q2; 2 P2 take 2 cleaning/2; 2 P claim cleaning/2/deprovision from ready/1; "
        "P stop",
        f"{OTHER}: the record isn't as its last change has left it",
    ),
    "a change that is wrong itself": Tail(
        READY + "P claim wanted/1/provision from ready/1", f"{INSTANCE}: no events of the platform lead to this record"
    ),
    "a change that another broker's request hasn't found, once the instance has ended": Tail(
        f"{READY}P2 claim cleaning/2/deprovision; P2 send r2 deprovision 2; B arrive 3 r2 deprovision; "
        "B change 3 ready+deprovision; B look whole; B delete; B arrive 4 x1 deprovision of binding; "
        "B change 4 tombstone of binding; B2 look absent; B2 change 0 tombstone from ready+deprovision; "
        "B2 arrive 1 x2 deprovision of binding; B2 answer 1 410 other-error saw=- of binding",
        unshown=1,
    ),
    "a change that is wrong, and that another broker's request hasn't found": Tail(
        f"{READY}P2 claim cleaning/2/deprovision; P2 send r2 deprovision 2; B arrive 3 r2 deprovision; "
        "B change 3 ready+deprovision; B look whole; B delete; B look absent; B change 3 tombstone; B answer 3 200; "
        "B arrive 4 x1 deprovision of binding; B change 4 tombstone of binding; "
        "B2 arrive 1 x2 deprovision of binding; B2 answer 1 410 other-error saw=- of binding",
        f"{INSTANCE}: a request changes the row otherwise than the tables",
    ),
    "several changes of a broker": Tail(
        f"{POLLING}{EXPIRED}B create; B look whole; B arrive 3 r3 deprovision; B change 0 ready; "
        "B change 3 ready+deprovision; B2 look whole; B2 change 0 ready from making",
        plan="async",
    ),
    "an answer before its change": Tail(
        f"{SENT}{GIVEN_UP}B arrive 1 r2 deprovision; B answer 1 410 other-error; B change 1 tombstone",
        f"{INSTANCE}: it is answered before its change is written",
    ),
    "an answer that is taken wrongly": Tail(f"{READY}{REMOVE}P lose r2; P take 2 gone/2", f"timeout {INSTANCE}"),
}


@pytest.mark.parametrize("name", TAILS)
def test_tail(audit: Audit, name: str) -> None:
    tail = TAILS[name]
    ran = audit(Journal(tail.plan).tell(tail.story))
    found = [
        difference["event"] or f"{difference['instance']}: {difference['why']}"
        for difference in ran.report["differences"]
    ]
    assert found == ([tail.event] if tail.event else []), ran
    assert ran.report["notes"].get(UNSHOWN, 0) == tail.unshown, ran


# ---- a process whose lines are in several stretches


def doubts_of(files: list[Path], folder: Path, chunk: int) -> list[Doubts]:
    """The changes that may not be committed, and what is known of all if one of them is committed, or isn't."""
    body = [stretch for path in files for stretch in stretches(log_at(str(path)), 0, chunk)]
    given = [Splitting(Room(str(folder)), number, stretch, 1, chunk) for number, stretch in enumerate(body)]
    tails = joined(tail for splitting in given for tail in split(splitting).tails.values())
    known = doubts(tails, {})
    return [known, *(doubts(tails, {change: is_committed}) for change in known for is_committed in (False, True))]


@pytest.mark.parametrize("name", TAILS)
def test_stretches(tmp_path: Path, name: str) -> None:
    """Each stretch is read by itself, and together they say the same."""
    files = sorted(Journal().tell(TAILS[name].story).files(tmp_path))
    whole = doubts_of(files, tmp_path, 1 << 20)
    for chunk in 300, 700, 1500, 4000:
        assert doubts_of(files, tmp_path, chunk) == whole, chunk


def test_claims_in_order(tmp_path: Path) -> None:
    """What one claim shows of the others, before and behind a line that undoes one."""
    claims = "".join(f"{number} P claim wanted/1/provision; " for number in range(2, 6))
    story = f"P claim wanted/1/provision; {claims}6 P claim wanted/1/provision !doubtful; 7 P claim wanted/1/provision"
    files = Journal().tell(story).files(tmp_path)
    body = stretches(log_at(str(files[0])), 0, 1 << 20)
    tails = joined(split(Splitting(Room(str(tmp_path)), 0, body[0], 1, 1 << 20)).tails.values())
    process = tails[0].process
    found = doubts(tails, {(process, 2): True, (process, 4): False})
    assert list(found.values()) == [True, True, None, False, False, False, None]
    found = doubts(tails, {(process, 2): False, (process, 4): True})
    assert list(found.values()) == [True, True, True, True, None, None, None]
