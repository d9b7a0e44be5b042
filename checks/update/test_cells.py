"""Steps everything that can come about of an instance and its updates, and finds what breaks without a part.

In ./check --anew, each kind of plan and of updates is stepped; otherwise one, by a seed that is drawn and printed. Each
line of the invariant is left out then, and otherwise those that break soon.
"""

from __future__ import annotations

import os
import random

import pytest
from update import alone, invariant
from update.cells import LIFE_AGREES, MODES, NUMBERS, RECORD_AGREES, ROW_AGREES, SETTLES, World, first_broken
from update.change import PARTS, Design
from update.life import PLANS, Plan
from whole import ANEW

SEED = random.randrange(1_000_000) if os.environ.get("OSB_EXAMPLES") else 1

ALL = [(plan, mode) for plan in PLANS for mode in MODES]
# The pairs of all kinds of plans and of updates, with two settings, and the steps.
PAIRS, STEPS = 174_492, 1_532_070
SYNC = Plan("sync")


def check_all(plan: Plan, mode: str) -> tuple[int, int]:
    """The numbers of pairs and of steps. No promise is broken, and three rounds settle each pair, or remove it."""
    world = World(plan, Design(mode=mode))
    explored = world.explore()
    assert explored.wrong is None, world.way(explored, explored.wrong)
    for removing in (False, True):
        rounds, never = world.rounds(explored.came, removing)
        assert never is None and rounds <= 3
    return len(explored.came), explored.steps


@pytest.mark.slow
def test_synchronous_updates() -> None:
    assert check_all(SYNC, "sync") == (11_636, 92_240)


@pytest.mark.slow
@pytest.mark.long(100 if ANEW else 20)
def test_updates() -> None:
    """All kinds of plans and of updates in ./check --anew, and one of them otherwise."""
    print("seed", SEED)
    if not ANEW:
        check_all(*random.Random(SEED).choice(ALL[1:]))
        return
    found = [check_all(plan, mode) for plan, mode in ALL]
    assert (sum(pairs for pairs, _ in found), sum(steps for _, steps in found)) == (PAIRS, STEPS)


# ---- what happens without a part

TWO, THREE, IN_PARTS = ("p", "q"), ("p", "q", "r"), ("p0", "p1", "q0")
# The promise that is broken by the shortest way, how many events that has, and the settings that there are.
WITHOUT = {
    "u": (LIFE_AGREES, 15, TWO),
    "d": (LIFE_AGREES, 15, TWO),
    "numbers": (RECORD_AGREES, 9, THREE),
    "kept": (RECORD_AGREES, 9, THREE),
    "once": (RECORD_AGREES, 9, THREE),
    "busy": (RECORD_AGREES, 11, THREE),
    "truth": (RECORD_AGREES, 12, THREE),
    "work": (ROW_AGREES, 9, THREE),
    "parts": (RECORD_AGREES, 13, IN_PARTS),
    "attempts": (RECORD_AGREES, 11, THREE),
    "concurrency": (RECORD_AGREES, 9, THREE),
    "mixed": (RECORD_AGREES, 13, THREE),
    "gateway": (RECORD_AGREES, 8, THREE),
    "fetch": (RECORD_AGREES, 11, THREE),
}


@pytest.mark.parametrize("part", WITHOUT)
def test_without_a_part(part: str) -> None:
    promise, length, settings = WITHOUT[part]
    found = first_broken([Design(settings, without=frozenset({part}))], [SYNC])
    assert found is not None and (found.broken, len(found.way)) == (promise, length), found


@pytest.mark.slow
def test_without_names() -> None:
    """An update never ends, or an instance is never removed."""
    found = first_broken([Design(without=frozenset({"names"}))], [SYNC], rounds=True)
    assert found is not None and found.broken == SETTLES


def test_every_part_is_left_out() -> None:
    """Without r all agree: the rule keeps the cells few."""
    assert {*WITHOUT, "names", "r"} == set(PARTS)


# A broker and a platform without numbers, by what they have beside the standard: how updates work, and how many events
# the shortest way to a broken promise has.
PLAIN: dict[tuple[str, ...], tuple[str, int]] = {
    (): ("sync", 9),
    ("no refusal",): ("sync", 11),
    ("previous",): ("sync", 9),
    ("previous", "no refusal"): ("sync", 11),
    ("no refusal", "no return", "no change of mind"): ("sync", 14),
    ("previous", "no refusal", "no return"): ("async", 19),
}


@pytest.mark.parametrize("plain", PLAIN, ids=str)
def test_without_numbers(plain: tuple[str, ...]) -> None:
    mode, length = PLAIN[plain]
    found = first_broken([Design(THREE, mode, NUMBERS, frozenset(plain))], [SYNC])
    assert found is not None and (found.broken, len(found.way)) == (RECORD_AGREES, length), found


@pytest.mark.parametrize("plain", [("previous", "no refusal", "no return"), ("in order",)], ids=str)
def test_what_agrees_without_numbers(plain: tuple[str, ...]) -> None:
    explored = World(SYNC, Design(TWO, "sync", NUMBERS, frozenset(plain))).explore()
    assert explored.wrong is None and explored.came


# ---- a broker alone, and any platform


@pytest.mark.slow
def test_any_platform() -> None:
    assert alone.explore_all() == (9_151, 135_728, None)


@pytest.mark.parametrize("part", alone.PARTS)
def test_any_platform_without_a_part(part: str) -> None:
    designs = tuple(design._replace(without=frozenset({part})) for design in alone.DESIGNS)
    assert alone.explore_all(designs).broken is not None


# ---- the lines that are to be proved


@pytest.mark.slow
def test_invariant() -> None:
    share = None if ANEW else random.Random(SEED)
    checked = invariant.check(list(invariant.LINES), share, 20)
    assert checked.broken is None
    assert checked.changes > 1_000 if share else checked[1:] == (48_354, 1_179_820)


# The lines `ready` and `there` tie the change to the life: without them all agree. What breaks without one of the last
# four takes up to 20 s to find.
NEEDED = ["settled", "row", "judged", "other", "200", "fetch", "mine", *(["one", "202", "400", "poll"] if ANEW else [])]


@pytest.mark.slow
@pytest.mark.long(20)
@pytest.mark.parametrize("line", NEEDED)
def test_line_that_is_needed(line: str) -> None:
    assert invariant.check([name for name in invariant.LINES if name != line]).broken is not None
