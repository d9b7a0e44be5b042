"""The packages of Go around the library: gofmt, go vet, staticcheck, their tests, and each run of the broker's network
beside the proved model. In ./check the tests run with the race detector.
"""
from __future__ import annotations

import re
import subprocess
from pathlib import Path

import pytest
from crate_programs import told_by
from go.toolchain import TOP, Packages
from go.unreached import LIST, PACKAGES, ROOT, Profile, differences
from whole import WHOLE

pytestmark = pytest.mark.slow

SEEDS = 500 if WHOLE else 100
"""So many runs over a network."""

FEW_SEEDS = 16
"""So many runs with a store in PostgreSQL."""

RACE_SEEDS = 60
"""So many runs with the race detector."""

MANY_SEEDS = 40_000
"""So many schedules by chance of each side, in some minutes."""

FURTHER: dict[str, list[str]] = {"plain": [], "both": ["crashpoints", "storm"], "pages": ["pages"]}
"""Combinations of the build tags that change the packages. Each source is in one of them. The tests of crash points and
of the storm build the packages with each tag alone. With `pages` a program writes its manual pages.
"""

TAGS = pytest.mark.parametrize("tags", [" ".join(tags) for tags in FURTHER.values()], ids=list(FURTHER))


def test_tags() -> None:
    """Each source needs one build tag, or the absence of one, so that a combination has it."""
    sources = [path.read_text(encoding="utf-8") for path in (TOP / "go").rglob("*.go")]
    lines = {line for source in sources for line in re.findall(r"^//go:build (.*)$", source, re.MULTILINE)}
    wanted = {tag for tags in FURTHER.values() for tag in tags}
    assert {line.removeprefix("!") for line in lines} - {"linux"} == wanted
    for line in lines - {"linux", "!linux"}:
        assert any((line.removeprefix("!") in tags) != line.startswith("!") for tags in FURTHER.values())


@pytest.mark.whole
@pytest.mark.long(50)
@pytest.mark.xdist_group("vet")
@TAGS
def test_vet(packages: Packages, tags: str) -> None:
    assert packages.look("vet", *changed_by(tags), tags=tags) == ""


@pytest.mark.whole
@pytest.mark.long(100)
@pytest.mark.xdist_group("staticcheck")
@TAGS
def test_staticcheck(packages: Packages, staticcheck: str, tags: str) -> None:
    assert packages.look(staticcheck, *changed_by(tags), tags=tags) == ""


def changed_by(tags: str) -> list[str]:
    """The packages whose sources depend on these build tags: all, if there are none."""
    return packages_with("*.go", *tags.split()) if tags else ["./..."]


def packages_with(sources: str, *tags: str) -> list[str]:
    """The packages with a source of this name that needs one of the build tags, or its absence."""
    line = re.compile(rf"^//go:build !?({'|'.join(tags)})$", re.MULTILINE)
    found = [path for path in (TOP / "go").rglob(sources) if line.search(path.read_text(encoding="utf-8"))]
    return sorted({f"./{path.parent.relative_to(TOP / 'go')}" for path in found})


@pytest.mark.whole
def test_format() -> None:
    assert subprocess.run(["gofmt", "-l", TOP / "go"], capture_output=True, text=True, check=True).stdout == ""


BROKER = "pippinterm/broker"

SIDES = "broker", "platform"
"""The packages that have an executor, and schedules of it."""

SCHEDULES = "TestEverySchedule", "TestRandomSchedules"
"""Their tests whose schedules are stepped in the proved model."""

CRASHES = "crashpoints"
"""The build tag of a program that can be killed at each crash point."""

ALONE = "pippinterm/broker/backend/postgres"
"""The package whose tests fill the server's table of locks, so that no other tests may use that server meanwhile."""

BY_THE_CLOCK = "pippinterm/storm/run", "pippinterm/storm/run/platform"
"""The packages whose tests are storms of a few seconds, in which a busy machine loses requests by itself."""

TIMED = "pippinterm/storm/fault", "pippinterm/platform/client", "pippinterm/internal/httpserver"
"""The packages whose tests are about how long something takes."""


LISTED = [f"{ROOT}{package}" for package in PACKAGES]
"""The packages of whose statements a list has those that no test runs."""


@pytest.mark.long(150)
@pytest.mark.postgres
def test_tests(packages: Packages) -> None:
    """The tests of each package that no other test has."""
    these = [package for package in but_osb(packages) if package not in (*LISTED, *BY_THE_CLOCK, *TIMED)]
    packages.test(*these, race=True)


@pytest.mark.long(150)
@pytest.mark.postgres
def test_tests_that_reach_all(packages: Packages, tmp_path: Path) -> None:
    """The tests of the packages in which each statement is run by a test of the package, or listed with a reason."""
    reaches_all(packages, tmp_path, *(package for package in LISTED if package != ALONE))


def reaches_all(packages: Packages, folder: Path, *these: str) -> None:
    packages.profile(*these, profile=folder / "profile", race=True)
    profile = Profile([(folder / "profile").read_text(encoding="utf-8")], TOP / "go")
    assert profile.packages == {package.removeprefix(ROOT) for package in these}
    wrong = differences(profile, LIST.read_text(encoding="utf-8"))
    assert wrong == [], "\n".join(["", *wrong])


@pytest.mark.alone
@pytest.mark.long(40)
@pytest.mark.xdist_group("storms")
def test_storms(packages: Packages) -> None:
    """The tests that are storms."""
    packages.test(*BY_THE_CLOCK, race=True)


@pytest.mark.alone
@pytest.mark.long(30)
@pytest.mark.xdist_group("storms")
def test_tests_of_times(packages: Packages) -> None:
    """The tests of the packages that are about times."""
    packages.test(*TIMED, race=True)


@pytest.mark.long(60)
@pytest.mark.postgres
def test_tests_that_fill_a_server(packages: Packages, tmp_path: Path) -> None:
    """The tests of broker/backend/postgres. Each process of pytest has a server of its own."""
    reaches_all(packages, tmp_path, ALONE)


def but_osb(packages: Packages) -> list[str]:
    return [package for package in packages.all() if package != "pippinterm/osb"]


@pytest.mark.long(120)
def test_crashes(packages: Packages, tmp_path: Path) -> None:
    """The broker is killed at each crash point, over a network that does its worst, and both executors go through every
    schedule. After each event the platform's records, the broker's holdings and the resources are what the proved model
    says. The other packages that have tests of their crash points run these too.
    """
    these = packages_with("*_test.go", CRASHES)
    packages.test(*these, tags=CRASHES, WALKS=str(tmp_path), SEEDS=str(SEEDS), OSB_TEST_POSTGRESQL="")
    counts = compared(tmp_path)
    assert set(counts) == {"broker.TestAnyNetwork", *(f"{side}.{test}" for side in SIDES for test in SCHEDULES)}
    assert counts["broker.TestAnyNetwork"] > 20 * SEEDS
    assert all(counts[f"{side}.TestEverySchedule"] > 10_000 for side in SIDES)
    assert all(counts[f"{side}.TestRandomSchedules"] > 5 * SEEDS for side in SIDES)


@pytest.mark.whole
@pytest.mark.skipif(not WHOLE, reason="OSB_WHOLE isn't set")
@pytest.mark.long(200)
def test_random_schedules(packages: Packages, tmp_path: Path) -> None:
    """Schedules of both executors by chance, for some minutes, with the comparison of test_crashes."""
    random = ("-run", "^TestRandomSchedules$")
    these = [f"pippinterm/{side}" for side in SIDES]
    packages.test(*these, tags=CRASHES, options=random, WALKS=str(tmp_path), SEEDS=str(MANY_SEEDS))
    counts = compared(tmp_path)
    assert all(counts[f"{side}.TestRandomSchedules"] > 2 * MANY_SEEDS for side in SIDES)


@pytest.mark.whole
@pytest.mark.skipif(not WHOLE, reason="OSB_WHOLE isn't set")
@pytest.mark.long(15)
def test_crashes_with_the_race_detector(packages: Packages) -> None:
    """The broker is killed over the network, with the race detector."""
    network = ("-run", "^TestAnyNetwork$")
    packages.test(BROKER, tags=CRASHES, options=network, race=True, SEEDS=str(RACE_SEEDS), OSB_TEST_POSTGRESQL="")


@pytest.mark.postgres
def test_crashes_over_postgresql(packages: Packages, tmp_path: Path) -> None:
    """The same, of a broker whose store and locks are PostgreSQL's."""
    network = ("-run", "TestAnyNetworkOverPostgreSQL")
    packages.test(BROKER, tags=CRASHES, options=network, WALKS=str(tmp_path), SEEDS=str(FEW_SEEDS))
    assert compared(tmp_path)["broker.TestAnyNetworkOverPostgreSQL"] > 20 * FEW_SEEDS


def compared(walks: Path) -> dict[str, int]:
    """How many events each file in the folder has. After each, all is as the proved model says."""
    return {walk.name: events_of(walk) for walk in walks.iterdir()}


def events_of(walk: Path) -> int:
    steps = [line.partition("  ") for line in walk.read_text(encoding="ascii").splitlines()]
    told = told_by("service_cases")([event for event, _, _ in steps]).splitlines()
    assert len(told) == len(steps)
    for told_line, (event, _, wanted) in zip(told, steps):
        assert told_line.partition(" # ")[0] == f"{event}  {wanted}", walk.name
    return len(steps)
