"""The calls that neither C nor osb-replay makes, at far more than usual.

The programs of the crates library_cases and service_cases make them. What each line leaves is compared with the models,
or follows from the line.
"""

from __future__ import annotations

import json
import random
import uuid
from typing import Any

import pytest
from binding.cases import begun, updated, written_of
from binding.model import Order
from binding.walks import MADE, RULES, Walk
from crate_programs import told_by
from network.cases import in_a_line, teller
from network.walks import Tally
from network.walks import Walk as Life
from update.sides import BEGUN
from update.sides import MADE as AVAILABLE
from update.texts import compact
from update_wire.cases import of_line, told, word

pytestmark = pytest.mark.slow


def after(line: str, told: str) -> str:
    """What a program prints for one line."""
    assert told.startswith(f"{line}  ")
    return told.removeprefix(f"{line}  ").rstrip("\n")


# ---- an instance with many bindings

BINDINGS = 1_500
ANSWERS = FETCHES = 1_500
BOUND = ("create", "arrive 1", "work whole 7", "end done", "take 0")


def lines_of(bindings: int) -> list[str]:
    """An instance that is ready, with so many bindings, of which the first is ready. It is given an answer to each
    repeated Bind and to each Fetch. Then the first is removed by itself, and last everything at once.
    """
    orders = [Order("sync")] * (bindings + 1)
    service = Walk(random.Random(0), RULES, *orders).begun.line
    happening = [f"instance {event}" for event in MADE["sync", False]]
    happening += [f"binding 1 {event}" for event in (*BOUND, *["arrive 1"] * ANSWERS, *["fetch"] * FETCHES)]
    run = f"run {service.removeprefix('service ')}: {', '.join(happening)}"
    return [run, "settle 1", "remove 1", "settle", "remove"]


def test_1500_bindings_answers_and_fetches() -> None:
    """All bindings but the first fare as the second does, in the model of two."""
    tell = told_by("service_cases")
    told = tell(lines_of(BINDINGS)).splitlines()
    wanted = list(written_of(lines_of(2)))
    assert len(told) == len(wanted)
    for line, few, all_told in zip(lines_of(BINDINGS), wanted, told):
        _, _, left = few.rpartition("  ")
        *front, last = left.split(" | ")
        assert after(line, all_told) == " | ".join([*front, *[last] * (BINDINGS - 1)])


def test_the_model_begins_with_all_bindings() -> None:
    """The lines above are lines that the model reads."""
    first = lines_of(3)[0].removeprefix("run ").rpartition(": ")[0]
    assert len(begun(first).tied.bindings) == 3


# ---- many instances of osb_network

COUNT = 20_000
# How many events of an instance are in a list.
LIST = 2_000


def compare(begun: str, events: list[str]) -> None:
    """The program writes behind a line with all of these events what the model says."""
    line = f"{begun}: {', '.join(events)}"
    assert after(line, told_by("service_cases")([line])) == in_a_line(line).wanted


def test_many_instances_and_answers() -> None:
    """`Network::order` and `step`, and `run`: a Provision whose work goes on arrives again and again."""
    arrivals = ["arrive 1"] * (COUNT + 1)
    created = [f"{number} create" for number in range(1, COUNT + 1)]
    compare(f"many {COUNT} sync accepts -", created + [f"1 {event}" for event in arrivals])
    compare("life sync accepts -", ["create", *arrivals])


def test_a_list_of_many_events() -> None:
    """`Network::steps`: the same at each of three instances."""
    events = [f"{number} {event}" for number in (1, 2, 3) for event in ("create", *["arrive 1"] * LIST)]
    compare("many 3 sync accepts -", events)


def test_rounds_of_an_instance_with_many_answers() -> None:
    """`Instance::step` and `settle`: the platform takes none of the answers, gives the Provision up and cleans up."""
    walk = Life(Tally(), "sync", True, False)
    for event in ("create", *["arrive 1"] * LIST, "timeout", "settle"):
        walk.happen(event)
    told = teller()([step.line for step in walk.steps])
    assert told == [step.wanted for step in walk.steps]


# ---- a broker alone


def test_many_events_at_a_broker_alone() -> None:
    """`run_any` and `AnyPlatform::step`, also at many crashes."""
    busy = ["put-off provision", "crash-broker"] * LIST
    compare("alone sync - -", ["arrive provision refuses 3 1", *busy, "work whole", "end done", *busy])


# ---- an instance with its updates


def test_many_requests_and_answers_of_updates() -> None:
    """`UpdatedInstance::step`, `Updates::step`, and both `run`: many Updates, one of which comes again and again."""
    events = ["update to qab", "update timeout"] * LIST + ["update arrive 0 sync accepts"] * LIST
    line = f"{BEGUN}: {AVAILABLE}, {', '.join(events)}"
    assert after(line, told_by("service_cases")([line])) == updated(line).wanted


# ---- instances of one broker and one platform


def test_one_run_of_many_creates() -> None:
    """`run` of osb_world, and `World::ids`."""
    assert told_by("library_cases")([f"world {COUNT}"]) == f"world {COUNT}  {COUNT} Wanted\n"


def test_many_instances_of_a_platform() -> None:
    """`Platform::create`, `ids`, `save` and `load`."""
    tell = told_by("library_cases")
    numbers = range(1, 3_001)
    recorded = f"recorded  [{', '.join(str(uuid.UUID(int=number)) for number in numbers)}]\n"
    made = [f"create {number} accepts" for number in numbers]
    text = tell(["new", *made, "recorded", "save"]).partition(recorded)[2].removeprefix("save  ").rstrip("\n")
    saved = json.loads(text)["instances"]
    assert [uuid.UUID(name).int for name in saved] == [*numbers]
    assert {row["state"] for row in saved.values()} == {"wanted"}
    assert tell([f"load {text}", "recorded"]).endswith(f"\n{recorded}")


@pytest.mark.parametrize("text", ["[" * 1_000_000, '{"a":' * 200_000], ids=["arrays", "objects"])
def test_texts_that_nest_without_an_end(text: str) -> None:
    """`load` needs no deeper stack for them."""
    assert after(f"load {text}", told_by("library_cases")([f"load {text}"])) == "NotJson"


# ---- texts of updates

BLANKS = " " * 2_000_000
LAST = 2**64 - 1
LARGEST = {"parameters": "f" * 64, "plan": "ffffffff-ffff-ffff-ffff-ffffffffffff", "version": "f" * 64}


def test_texts_of_updates() -> None:
    """`read_holding` and `read_record` of many blanks, `write_holding` and `write_record` of the largest numbers."""
    settings = {"number": LAST, "settings": LARGEST, "to": LARGEST, "version": 1}
    holding = compact({**settings, "phase": "mending"})
    record = compact({**settings, "attempt": LAST, "mixed": True, "out": "update", "state": "updating"})
    for call, text in (("update holding", holding), ("update record", record)):
        line = f"{call} {BLANKS}{text}{BLANKS}"
        assert after(line, told_by("library_cases")([line])) == text


# ---- requests

LENGTH = 2_000_000
MEMBERS: dict[str, Any] = {f"member {number}": number for number in range(100)}
GUID = "00000000-0000-0000-0000-0000000000{}"
PLACES = {"organization_guid": "o", "space_guid": "s"}


def body_of(parameters: str, service: str, plan: str, places: dict[str, str]) -> str:
    """The body of a request with a hundred further members, and with parameters that are JSON already."""
    members = MEMBERS | {"service_id": service, "plan_id": plan, "parameters": None} | places
    text = json.dumps(members, separators=(",", ":"), sort_keys=True)
    return text.replace('"parameters":null', f'"parameters":{parameters}')


def parameters_of(depth: int, length: int) -> str:
    return f'{"[" * depth}"{"a" * length}"{"]" * depth}'


def test_a_long_request() -> None:
    """`write_request` and `write_binding_request`."""
    told = told_by("library_cases")([f"bind 0 {LENGTH}", f"provision 0 {LENGTH}"]).splitlines()
    parameters = parameters_of(0, LENGTH)
    assert after(f"bind 0 {LENGTH}", told[0]) == f"read {body_of(parameters, 's', 'p', {})}"
    assert after(f"provision 0 {LENGTH}", told[1]) == f"read {body_of(parameters, 's', 'p', PLACES)}"


def test_a_long_request_of_guids() -> None:
    """`write_target`, `asked_operation` and `write_body`."""
    letters = "a" * LENGTH
    _, target, operation, body = told_by("library_cases")([f"provision 0 {LENGTH}"]).splitlines()
    assert target.endswith(f"&accepts_incomplete=true&operation={letters}")
    assert operation == f"  {letters}"
    assert body == "  " + body_of(parameters_of(0, LENGTH), GUID.format("a0"), GUID.format("b1"), PLACES)


@pytest.mark.parametrize(("depth", "what"), [(126, "read"), (127, "400"), (10_000, "400")])
def test_a_deep_request(depth: int, what: str) -> None:
    """What a broker can't read any more is written all the same, whole."""
    line = f"bind {depth} 1"
    wanted = f"{what} {body_of(parameters_of(depth, 1), 's', 'p', {})}"
    assert after(line, told_by("library_cases")([line])) == wanted


# ---- updates and Fetches on the wire

LETTERS = "a" * LENGTH
OBJECT = f'{{"a":"{LETTERS}"}}'


def compare_updates(*lines: str) -> None:
    """The program writes behind each line of a call what the model says."""
    for line in lines:
        assert told_by("library_cases")([f"update-wire {line}"]) == f"{told(of_line(f'update-wire {line}'))}\n"


def test_a_long_update_and_a_long_fetch() -> None:
    """`write_update` and `write_fetch`, `read_update_request` and `update_parts`."""
    texts = f'"parameters":{OBJECT},"context":{OBJECT},"previous_values":{OBJECT}'
    body = word(f'{{"service_id":"s","plan_id":"p",{texts},"maintenance_info":{{"version":"{LETTERS}"}}}}')
    query = word(f"service_id={'s' * 255}&plan_id={'p' * 255}{'&x=1' * 100_000}")
    compare_updates(
        f"update {word(LETTERS)} accepts 5 i s p {word(OBJECT)} {word(LETTERS)} {word(OBJECT)}",
        f"fetch {word(LETTERS)} {'i' * 255} {'s' * 255} {'p' * 255}",
        f"request PATCH {5 * LENGTH} '' /v2/service_instances/i {body}",
        f"request GET 0 '' /v2/service_instances/i?{query} ''",
        f"parts 5 {body}",
    )


def test_long_answers_to_an_update_and_a_fetch() -> None:
    """`read_update_answer`, `write_success` and `write_failure`, `write_fetched` and `read_fetched`."""
    texts = f'"parameters":{OBJECT},"metadata":{OBJECT},"dashboard_url":"{LETTERS}"'
    body = word(f'{{"service_id":"{LETTERS}","plan_id":"p",{texts},"x-osb-update":5}}')
    error = word(f'{{"error":"{LETTERS}"}}')
    compare_updates(
        f"answer 422 {error}",
        f"success 202 {'o' * 10_000} {word(LETTERS)} {word(OBJECT)}",
        f"failure 500 error {word(LETTERS)} true true",
        f"write-fetched 5 s p {word(OBJECT)} {word(LETTERS)} {word(LETTERS)} {word(OBJECT)}",
        f"fetched 200 {body}",
    )


def test_updates_of_a_catalogue_of_2000_plans() -> None:
    """`plan_updates`, `numbers_updates`, `update_flags_are_sound` and `served_updates`."""
    plans = [
        {"id": f"p{number}", "maintenance_info": {"version": "v" * 1_000}, "maximum_polling_duration": number}
        for number in range(2_000)
    ]
    document = word(json.dumps({"services": [{"id": "s", "plans": plans}], "x-osb-updates": True}))
    compare_updates(f"plan s p1999 {document}", *(f"{call} {document}" for call in ("numbers", "sound", "served")))
