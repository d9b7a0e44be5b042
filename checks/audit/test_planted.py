"""osb-audit finds a slip in the real osb-broker and osb-platform: each is planted into a copy of the source, and a
platform has one instance created. The audit has to name the first line of the journal that is wrong.
"""

from __future__ import annotations

import base64
import http.client
import json
import shlex
from contextlib import closing
from pathlib import Path
from typing import Any, NamedTuple

import commands
import pytest
from audit.conftest import TOP, Audit, Ran
from audit.journals import INSTANCE
from audit.running import ENVIRONMENT, Platform, serving
from building import SHIPPED, building
from osb_audit.calls import TOGETHER
from osb_audit.updates import ANSWERED, IDLE, UNSEEN
from osb_audit.walk import UNNAMED
from ports import free_address

pytestmark = pytest.mark.slow

SOURCE = "broker/executor.go"
"""The file of the broker that carries out the order of writes."""
BUILT = TOP / "out" / "gopath" / "src" / "pippinterm"
"""The folder of the sources, under the name by which scripts/go builds them."""


class Slip(NamedTuple):
    """What stands in the source, what is planted in its place, and the difference that has to be found: the members of
    the wrong line, and parts of the report.
    """

    right: str
    wrong: str
    line: dict[str, Any]
    event: str
    why: str
    model: str
    journal: str


TRANSACT = "\t\tdefault:\n\t\t\tat, err = s.transact(ctx, at, c)\n"
STEP = "\t\tit, next, err = s.step(d, snapshot, c)\n"
SLIPS = {
    "an answer before the commit": Slip(
        TRANSACT,
        """
        case osb.StageEnd:
            late, beside := at, *c
            go func() {
                wait, cancel := context.WithTimeout(context.Background(), 3600e9)
                defer cancel()
                <-wait.Done()
                _, _ = s.transact(ctx, late, &beside)
            }()
            held := c.entry.Holding
            row := osb.Reading{
                Holding: held, Number: at.instance.Number(), ID: c.key.ID(), RowMode: s.modeOf(c.key, rowOf(held)),
            }
            early, err := at.instance.Read(osb.UpdateReading{Reading: row})
            c.response = Response{Answer: early.Committed().Answer()}
            return err
        """
        + TRANSACT,
        {"side": "broker", "event": "answered", "status": 201},
        "",
        "it is answered while its work is pending",
        "no answer yet",
        "201",
    ),
    "work before the commit": Slip(
        STEP,
        STEP
        + """
        for early := it.Committed(); err == nil && early.Stage() == osb.StageWork; {
            early, err = s.work(ctx, early, c)
        }
        """,
        {"side": "broker", "event": "work", "call": "create", "stage": "begun"},
        "work I part",
        "the event can't happen here: the model skips it",
        "step skipped",
        "step applied",
    ),
    "other attributes than the request's": Slip(
        STEP,
        "\t\tif c.visit != nil {\n\t\t\tc.visit.Attributes[0] = 5\n\t\t}\n" + STEP,
        {"side": "broker", "event": "changed", "before": ""},
        "",
        "what is held has another service, plan or attributes than the request that began it",
        f"attributes {'0' * 64}",
        f"attributes 05{'0' * 62}",
    ),
    "end twice": Slip(
        TRANSACT,
        """
        case osb.StageEnd:
            entry := c.entry
            if at, err = s.transact(ctx, at, c); err == nil {
                err = s.change(ctx, c.key, func(Snapshot) (*Entry, error) {
                    mode := s.modeOf(c.key, rowOf(entry.Holding))
                    entry.Holding, _, err = entry.Holding.End(mode, osb.OutcomeBefore)
                    return &entry, err
                })
            }
        """
        + TRANSACT,
        {"side": "broker", "event": "changed", "after": ""},
        "",
        UNNAMED,
        "an event",
        "-",
    ),
}


EARLY = SLIPS["an answer before the commit"]
SOON = EARLY.wrong.replace("3600e9", "1e8").replace("s.transact(ctx, late", "s.transact(context.Background(), late")
IN_STORM = {
    "an answer before the commit": (EARLY._replace(wrong=SOON), (0,)),  # else the platform couldn't delete anything
    "work before the commit": (SLIPS["work before the commit"], (0,)),
    "end twice": (SLIPS["end twice"], (0, 1)),
}
"""Slips that are planted in a storm, and the statuses that the storm may end with. No instance is lost by the first two
unless the broker is killed. By the third, each is, and the storm may find one that is recorded as ready.
"""


EAGER = Slip(
    '\t\tcrash.At("claim-next")\n',
    """
        if made.send != nil {
            early, id := made.send.out, osb.ID{}
            if id, err = newID(); err != nil {
                return nil, err
            }
            early.RequestID, early.Until = id.String(), until
            e.client.Exchange(ctx, early)
        }
    """,
    {"side": "platform", "event": "sent", "kind": "provision", "attempt": 1},
    "",
    "a request is sent that the record doesn't have in flight",
    "- -",
    "provision 1",
)
"""A platform that sends before it commits. If the commit then fails, nobody knows of the request."""


READ = "func (s store) Read(ctx context.Context, key broker.Key) (broker.Snapshot, error) {\n"
STALE = Slip(
    READ + "\tsnapshot, err := s.Store.Read(ctx, key)\n",
    """
    var (
        staleTurn sync.Mutex
        stale     = map[broker.Key]broker.Snapshot{}
    )

    """
    + READ
    + """
        snapshot, err := s.Store.Read(ctx, key)
        if err == nil && visitOf(ctx) != 0 {
            staleTurn.Lock()
            before, isKnown := stale[key]
            stale[key] = snapshot
            staleTurn.Unlock()
            if isKnown {
                snapshot = before
            }
        }
    """,
    {"event": "answered"},
    "",
    "the request was decided on a row that there never was while it was carried out",
    "",
    "",
)
"""Each Poll is answered by what the one before it should have been answered by."""
UNLOCKED = Slip(
    "\tisLocked, err := try(file, bytes)\n\tif err != nil || !isLocked {\n",
    "\tif _, err = try(file, bytes); err != nil {\n",
    {"event": "work", "stage": "begun"},
    "",
    TOGETHER,
    "",
    "",
)
"""Whoever asks for a lock has it."""


def built(slip: Slip, folder: Path, program: str = "osb-broker", file: str = SOURCE) -> Path:
    """The program with this slip in a file of its source."""
    source = (TOP / "go" / file).read_text()
    assert source.count(slip.right) == 1, f"{file} has changed: plant the slip at another place"
    planted = folder / Path(file).name
    planted.write_text(source.replace(slip.right, slip.wrong))
    (folder / "overlay").write_text(json.dumps({"Replace": {str(BUILT / file): str(planted)}}))
    words = "-trimpath", "-ldflags=-w", "-tags", SHIPPED, "-overlay", str(folder / "overlay")
    line = [str(TOP / "scripts" / "go"), "build", *words, "-o", str(folder / program), f"./cmd/{program}"]
    with building():
        commands.printed(line)
    return folder / program


@pytest.mark.long(10)
@pytest.mark.parametrize("name", IN_STORM)
def test_planted_in_storm(audit: Audit, storm: Path, tmp_path: Path, name: str) -> None:
    """The journals of `osb-storm broker` show each slip, whatever the storm finds, and nothing else first."""
    at, (slip, statuses) = free_address(), IN_STORM[name]
    with serving(built(slip, tmp_path), tmp_path, at):
        words = "--url", f"http://{at}", "--journal", str(tmp_path / "journals"), "--instances", "6", "--seconds", "2"
        line = [str(storm), "broker", *words, "--request-seconds", "2", "--late-seconds", "3", "--seed", "1"]
        done = commands.ran(line, environment=ENVIRONMENT)
    assert done.returncode in statuses, done.stdout + done.stderr
    ran = audit(tmp_path / "journals", tmp_path / "journals" / "platform")
    assert ran.status == 1, ran
    found = [
        (difference["event"].replace(difference["instance"], "I"), difference["why"])
        for difference in ran.report["differences"]
    ]
    assert len(found) > 1 and set(found) == {(slip.event, slip.why)}, ran


def created(broker: Path, platform: Path, folder: Path, *options: str, of: str = "folder at-once") -> None:
    """Has the platform create an instance at the broker."""
    at, (service, plan) = free_address(), of.split()
    with serving(broker, folder, at, *options):
        shop = Platform(platform, folder, at)
        shop.once()  # it asks for the catalogue
        assert shop.create("--service", service, "--plan", plan) == 0
        shop.once()


def assert_found(ran: Ran, slip: Slip | None) -> None:
    """The audit has found the slip, and nothing else."""
    if slip is None:
        assert (ran.status, ran.report["instances"], ran.report["unjudged"], ran.err) == (0, 1, [], ""), ran
        return
    assert (ran.status, len(ran.report["differences"]), ran.err) == (1, 1, ""), ran
    found = ran.report["differences"][0]
    line = json.loads(Path(found["file"]).read_text().splitlines()[found["line"] - 1])
    assert {name: line[name] for name in slip.line} == slip.line, line
    assert (found["event"].replace(found["instance"], "I"), found["why"]) == (slip.event, slip.why), found
    assert not slip.model or (found["model"], found["journal"]) == (slip.model, slip.journal), found


@pytest.mark.long(10)
@pytest.mark.parametrize("name", [None, *SLIPS])
def test_planted(audit: Audit, broker: Path, platform: Path, tmp_path: Path, name: str | None) -> None:
    slip = SLIPS[name] if name else None
    created(built(slip, tmp_path) if slip else broker, platform, tmp_path)
    assert_found(audit(tmp_path / "journals"), slip)


@pytest.mark.long(15)
def test_planted_stale_answers(audit: Audit, platform: Path, tmp_path: Path) -> None:
    """The first Poll of a deletion is answered as the last one of the creation."""
    at = free_address()
    with serving(built(STALE, tmp_path, file="broker/journal/store.go"), tmp_path, at):
        shop = Platform(platform, tmp_path, at)
        shop.once()  # it asks for the catalogue
        with shop.working():
            assert shop.create("--plan", "by-worker", "--id", "one", "--wait=60") == 0
            assert shop.remove("one", "--wait=60") == 0
    assert_found(audit(tmp_path / "journals"), STALE)


UPDATE_SLIPS = {
    "an update that counts as done before it is": (
        "broker/worker.go",
        Slip(
            "\t\tthere, settings = Whole, c.before\n",
            "\t\tthere, settings = Whole, c.to\n",
            {"side": "broker", "event": "changed", "effect": "end-update done"},
            "",
            UNSEEN,
            "whole",
            "absent",
        ),
    ),
    "an update before its commit": (
        SOURCE,
        Slip(
            STEP,
            STEP
            + """
            for early := it.Committed(); err == nil && early.IsUpdate() && early.Stage() == osb.StageWork; {
                early, err = s.work(ctx, early, c)
            }
            """,
            {"side": "broker", "event": "work", "call": "update", "stage": "begun"},
            "",
            IDLE,
            "no call",
            "update",
        ),
    ),
    "an update that is done, and is answered as one that goes on": (
        "broker/service.go",
        Slip(
            "\tdone, answer := c.done, it.Committed().Answer()\n",
            """
            done, answer := c.done, it.Committed().Answer()
            if answer.Status == http.StatusOK {
                answer.Status = http.StatusAccepted
            }
            """,
            {"side": "broker", "event": "answered", "status": 202},
            "",
            ANSWERED,
            "200",
            "202",
        ),
    ),
}
UPDATEABLE = {
    "id": "s",
    "name": "folder",
    "description": "A folder",
    "bindable": True,
    "plan_updateable": True,
    "instances_retrievable": True,
    "plans": [
        {"id": "now", "name": "now", "description": "at once"},
        {"id": "later", "name": "later", "description": "updates later", "x-osb-asynchronous-updates": True},
    ],
}
ASKS = (
    ("PATCH", "", {"parameters": {"label": "a"}, "x-osb-update": 2}),
    ("PATCH", "", {"parameters": {"label": "a"}, "x-osb-update": 2}),
    ("PATCH", "", {"parameters": {"label": "b"}, "x-osb-update": 1}),
    ("PATCH", "", {"plan_id": "none", "x-osb-update": 3}),
    ("GET", "", None),
    ("PATCH", "?accepts_incomplete=true", {"plan_id": "later"}),
    ("GET", "/last_operation", None),
)
"""What another client sends: an update, that again, one with an older number, one that the catalogue rejects, a Fetch,
an update that goes on, and a Poll.
"""


def answered(at: str, method: str, path: str, members: dict[str, Any] | None) -> int:
    """The status of the answer to a request about the instance."""
    login = base64.b64encode(b"platform:secret").decode()
    headers = {"Authorization": f"Basic {login}", "X-Broker-API-Version": "2.17"}
    body = None if members is None else json.dumps({"service_id": "s", **members})
    with closing(http.client.HTTPConnection(at, timeout=60)) as connection:
        connection.request(method, f"/v2/service_instances/{INSTANCE}{path}", body, headers)
        return connection.getresponse().status


def updated(broker: Path, platform: Path, folder: Path) -> list[int]:
    """Has the platform create an instance, and another client update it. Returns the statuses of the answers."""
    at, catalogue = free_address(), folder / "catalogue.json"
    catalogue.write_text(json.dumps({"services": [UPDATEABLE]}))
    with serving(broker, folder, at, "--catalog", str(catalogue)):
        shop = Platform(platform, folder, at)
        shop.once()  # it asks for the catalogue
        assert shop.create("--plan", "now", "--id", INSTANCE) == 0
        shop.once()
        return [answered(at, *asks) for asks in ASKS]


@pytest.mark.long(10)
@pytest.mark.parametrize("name", [None, *UPDATE_SLIPS])
def test_planted_in_updates(audit: Audit, broker: Path, platform: Path, tmp_path: Path, name: str | None) -> None:
    file, slip = UPDATE_SLIPS[name] if name else ("", None)
    statuses = updated(built(slip, tmp_path, file=file) if slip else broker, platform, tmp_path)
    assert slip or statuses == [200, 200, 409, 400, 200, 202, 200], statuses
    assert_found(audit(tmp_path / "journals"), slip)


SLOW = """#!/bin/sh
[ "$1" != create ] || sleep 3
exec {} "$@"
"""


@pytest.mark.long(15)
@pytest.mark.parametrize("is_planted", [True, False])
def test_planted_without_locks(audit: Audit, broker: Path, platform: Path, tmp_path: Path, is_planted: bool) -> None:
    """A sweep goes on with work that a request is at."""
    sells = tmp_path / "sells"
    sells.write_text(SLOW.format(shlex.quote(str(TOP / "examples" / "broker" / "databases"))))
    sells.chmod(0o755)
    sold = "--backend", f"command:{sells}", "--catalog", str(TOP / "examples" / "broker" / "own-catalogue.json")
    program = built(UNLOCKED, tmp_path, file="internal/filelock/locks.go") if is_planted else broker
    created(program, platform, tmp_path, *sold, "--sweep-seconds", "0.1", of="database now")
    assert_found(audit(tmp_path / "journals"), UNLOCKED if is_planted else None)


@pytest.mark.long(10)
def test_planted_in_platform(audit: Audit, broker: Path, tmp_path: Path) -> None:
    """Each request is sent once before its claim is committed, and once after it."""
    created(broker, built(EAGER, tmp_path, "osb-platform", "platform/executor.go"), tmp_path)
    assert_found(audit(tmp_path / "journals"), EAGER)
