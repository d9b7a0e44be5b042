"""osb-replay takes as many lines as a schedule may have, and far more instances, bindings and answers than is usual.

An out-of-memory error of a call ends the program with status 5. So a call that gives up at a large value fails here.
"""

from __future__ import annotations

from collections.abc import Iterator
from pathlib import Path

import pytest
from network_replay import reference as network
from network_replay.schedules import PLAN, SERVICE, guid
from replay.reference import trace
from replay.running import Ran, run
from replay_log.expected import by_reference

pytestmark = pytest.mark.slow

# ---- schedules of one broker and one platform

INSTANCES = 33_000


def schedule() -> list[str]:
    """Instances that are created, in no order of their ids, and a restart. No id comes twice: 7,919 is odd, and an id's
    number is taken modulo a power of two.
    """
    ids = [guid(number * 7_919 % 65_536 + 1) for number in range(INSTANCES)]
    created = [f"create {instance} {SERVICE} {PLAN} no" for instance in ids]
    delivered = [f"deliver {instance} done" for instance in ids]
    return [f"plan {SERVICE} {PLAN} sync", *created, *delivered, *(f"answer {id}" for id in ids[::2]), "restart"]


def whole(lines: list[str]) -> bytes:
    return "".join(f"{line}\n" for line in lines).encode()


@pytest.mark.parametrize("options", [[], ["--saved"], ["--settle"]], ids=" ".join)
def test_33000_instances(replay: Path, options: list[str]) -> None:
    lines = schedule()
    wanted = by_reference([line.encode() for line in lines], options).report
    assert run(replay, "replay", *options, given=whole(lines)) == Ran(0, wanted, "")


def test_a_trace_of_33000_instances(replay: Path) -> None:
    """The rounds of one instance follow the lines."""
    given, one = whole(schedule()), guid(1)
    assert run(replay, "trace", given=given) == Ran(0, whole(list(trace(given))).decode(), "")
    wanted = whole(list(trace(given, one, settle=True))).decode()
    assert run(replay, "trace", "--settle", "--instance", one, given=given) == Ran(0, wanted, "")


def test_99000_plans(replay: Path) -> None:
    """An instance of the last of them is created."""
    plans = [guid(number) for number in range(1, 99_001)]
    lines = [*(f"plan {SERVICE} {plan} sync" for plan in plans), f"create {guid(1)} {SERVICE} {plans[-1]} no"]
    wanted = by_reference([line.encode() for line in lines], ["--saved"]).report
    assert plans[-1] in wanted
    assert run(replay, "replay", "--saved", given=whole(lines)) == Ran(0, wanted, "")


# ---- schedules of a network


def created(instance: str) -> Iterator[str]:
    yield f"instance {instance} {SERVICE} {PLAN} sync yes at-once both"
    yield f"create {instance}"
    yield f"arrive {instance} 1"


def test_30000_instances_of_a_network(replay: Path) -> None:
    """90,000 events, all of which apply, of 7 MB."""
    given = whole([line for number in range(1, 30_001) for line in created(guid(number))])
    assert network.report(given)[1].endswith("applied 90000\nskipped 0\n")
    assert run(replay, "network", given=given) == Ran(*network.report(given))
    assert run(replay, "network", "--settle", given=given) == Ran(*network.report(given, settle=True))
    assert run(replay, "network", "--trace", given=given) == Ran(*network.trace(given))


MADE = ("create {}", "arrive {} 1", "work {} whole", "end {} done", "take {} 0")
BINDINGS = 3_000
FETCHES = ANSWERS = 3_000


def service(bindings: int) -> bytes:
    """An instance that is ready, so many bindings that are created, and more events of the first: it is made, and each
    answer to a repeated Bind and to a Fetch is given.
    """
    one = guid(1)
    lives = [f"{one}/{guid(number)}" for number in range(1, bindings + 1)]
    lines = [f"instance {one} {SERVICE} {PLAN} sync yes at-once both", *(event.format(one) for event in MADE)]
    lines += [f"binding {life} sync yes at-once fetch" for life in lives]
    lines += [f"create {life}" for life in lives]
    first = ["arrive {} 1", "issue {} 7", "end {} done", *["arrive {} 1"] * ANSWERS, *["fetch {}"] * FETCHES]
    return whole([*lines, *(event.format(lives[0]) for event in first)])


def grown(report: tuple[int, str, str]) -> Ran:
    """The report of a service with two bindings as that of one with all of them: they fare as the second does. It was
    taken in and created by two events.
    """
    status, out, err = report
    lines = out.splitlines(True)
    second = next(line for line in lines if f"/{guid(2)} " in line)
    at = lines.index(second) + 1
    more = [second.replace(f"/{guid(2)} ", f"/{guid(number)} ") for number in range(3, BINDINGS + 1)]
    applied = int(lines[-2].split(" ")[1]) + 2 * (BINDINGS - 2)
    return Ran(status, "".join([*lines[:at], *more, f"applied {applied}\n", lines[-1]]), err)


@pytest.mark.parametrize("settle", [False, True], ids=["as it is", "--settle"])
def test_3000_bindings_answers_and_fetches(replay: Path, settle: bool) -> None:
    options = ["--settle"] if settle else []
    wanted = grown(network.report(service(2), settle=settle))
    assert run(replay, "network", *options, given=service(BINDINGS)) == wanted
