"""The ledger of the proofs: which line fits, what a run does again, and what it writes."""

from __future__ import annotations

import hashlib
import sys
from collections.abc import Callable
from pathlib import Path

import pytest

TOP = Path(__file__).resolve().parents[2]
sys.path.insert(0, str(TOP / "scripts"))

import ledger  # noqa: E402

KIT = "kit 1\n"
ROWS = "# Two crates.\nlow: serde_json\nhigh: low uuid\n"


@pytest.fixture
def top(tmp_path: Path) -> Path:
    """Two crates, of which `high` stands on `low`, each with a mutant."""
    (tmp_path / "crates.txt").write_text(ROWS)
    (tmp_path / "HANDLES").write_text("Handles allowed: none.\n")
    for name in ("low", "high"):
        write(tmp_path, f"crates/{name}/src/lib.rt", "fn step() {}\n")
        write(tmp_path, f"crates/{name}/must-fail/wrong.edit", "file: src/lib.rt\nold: {}\nnew: { }\n")
    return tmp_path


def write(top: Path, name: str, text: str) -> None:
    (top / name).parent.mkdir(parents=True, exist_ok=True)
    (top / name).write_text(text)


ALL = {"low", "low/wrong.edit", "high", "high/wrong.edit"}


@pytest.mark.parametrize(
    ("change", "stale"),
    [
        (lambda top: write(top, "crates/low/src/lib.rt", "fn step() -> u8 { 1 }\n"), ALL),
        (lambda top: write(top, "crates/low/proofs/step/Answers.antt", "more\n"), ALL),
        (lambda top: write(top, "crates/high/specs/Lib.antt", "more\n"), {"high", "high/wrong.edit"}),
        (lambda top: write(top, "crates/high/stdin", "a case\n"), {"high", "high/wrong.edit"}),
        (lambda top: write(top, "crates/low/must-fail/wrong.edit", "file: src/lib.rt\n"), {"low/wrong.edit"}),
        (lambda top: write(top, "crates.txt", ROWS.replace("uuid", "hex")), {"high", "high/wrong.edit"}),
        (lambda top: write(top, "crates.txt", ROWS.replace("serde_json", "json")), ALL),
        (lambda top: write(top, "HANDLES", "Handles allowed: Threads.\n"), ALL),
        (lambda top: write(top, "crates/low/out/build.log", "proved\n"), set()),
        (lambda top: write(top, "crates.txt", ROWS.replace("Two", "2")), set()),
        (lambda top: (top / "crates/low/src/lib.rt").rename(top / "crates/low/src/main.rt"), ALL),
    ],
)
def test_a_line_fits_as_long_as_nothing_that_it_depends_on_changes(
    top: Path, change: Callable[[Path], object], stale: set[str]
) -> None:
    before = ledger.lines_now(top, KIT)
    assert set(before) == ALL
    change(top)
    after = ledger.lines_now(top, KIT)
    got = {name for name in before if after[name] != before[name]}
    assert got == stale
    new = ledger.plan(after, before, ledger.rows_of(top), "a commit")
    assert new.names - new.chosen == stale


def test_another_kit_proves_everything_anew(top: Path) -> None:
    now = ledger.lines_now(top, "kit 2\n")
    plan = ledger.plan(now, ledger.lines_now(top, KIT), ledger.rows_of(top), "a commit")
    assert plan.names == ALL and not plan.chosen


def test_a_new_mutant_is_tried(top: Path) -> None:
    before = ledger.lines_now(top, KIT)
    write(top, "crates/high/must-fail/new.edit", "file: src/lib.rt\nold: {}\nnew: { }\n")
    plan = ledger.plan(ledger.lines_now(top, KIT), before, ledger.rows_of(top), "a commit")
    assert plan.names - plan.chosen == {"high/new.edit"}


def test_a_line_of_another_result_does_not_fit(top: Path) -> None:
    now = ledger.lines_now(top, KIT)
    false = {**now, "low": ledger.Line(now["low"].digest, ledger.REFUSED)}
    plan = ledger.plan(now, false, ledger.rows_of(top), "a commit")
    assert "low" in plan.names - plan.chosen


def repository(crates: int, mutants: int, stacked: bool) -> tuple[set[str], ledger.Rows]:
    """So many crates with so many mutants each. If they are stacked, each stands on all before it."""
    rows = {f"crate{n}": ("", [f"crate{below}" for below in range(n if stacked else 0)]) for n in range(crates)}
    return set(rows) | {f"{crate}/{m}.edit" for crate in rows for m in range(mutants)}, rows


@pytest.mark.parametrize(("crates", "mutants"), [(1, 0), (40, 0), (40, 5), (9, 30)])
def test_a_tenth_is_chosen_in_whole_crates(crates: int, mutants: int) -> None:
    every, rows = repository(crates, mutants, stacked=False)
    for number in range(50):
        chosen = ledger.choose(every, rows, f"commit {number}")
        assert len(every) / 10 <= len(chosen) < len(every) / 10 + 1 + mutants
        assert {unit for unit in every if ledger.crate_of(unit) in {ledger.crate_of(name) for name in chosen}} == chosen


def test_a_crate_is_chosen_with_those_below_it() -> None:
    """Without their mutants. What stands on more is chosen less often."""
    every, rows = repository(20, 1, stacked=True)
    chosen = [ledger.choose(every, rows, f"commit {number}") for number in range(400)]
    for names in chosen:
        highest = max(int(name[5:]) for name in names if not ledger.is_mutant(name))
        assert names >= {f"crate{n}" for n in range(highest + 1)}
    low, high = (sum(f"crate{n}/0.edit" in names for names in chosen) for n in (1, 19))
    assert low > 3 * high > 0


def test_each_line_is_chosen_by_some_commits() -> None:
    every, rows = repository(20, 2, stacked=False)
    chosen = [ledger.choose(every, rows, hashlib.sha1(b"%d" % number).hexdigest()) for number in range(400)]
    assert set().union(*chosen) == every
    assert ledger.choose(every, rows, "a commit") == ledger.choose(every, rows, "a commit")


def test_without_a_commit_everything_is_done(top: Path) -> None:
    now = ledger.lines_now(top, KIT)
    assert ledger.plan(now, now, ledger.rows_of(top), "").names == ALL


def test_lines_are_read_as_they_were_written(top: Path) -> None:
    now = ledger.lines_now(top, KIT)
    assert ledger.read(top) == {}
    ledger.add(top, {name: now[name] for name in ("high/wrong.edit", "low")})
    assert ledger.read(top) == {name: now[name] for name in ("high/wrong.edit", "low")}
    ledger.add(top, now)
    assert ledger.read(top) == now
    order = [line.split()[0] for line in (top / ledger.FILE).read_text().splitlines() if not line.startswith("#")]
    assert order == ["low", "low/wrong.edit", "high", "high/wrong.edit"]


def test_what_no_longer_exists_goes(top: Path) -> None:
    ledger.add(top, ledger.lines_now(top, KIT))
    (top / "crates/low/must-fail/wrong.edit").unlink()
    ledger.add(top, {})
    assert set(ledger.read(top)) == ALL - {"low/wrong.edit"}


def test_prebuilt_files_are_lines_too(top: Path) -> None:
    write(top, "prebuilt/pdp11-unix/MANIFEST", "# What they are.\nosb-replay 11 22 kit 1\nlibosb.a 33 44 kit 1\n")
    found = ledger.prebuilt_now(top)
    assert set(found) == {"prebuilt/pdp11-unix/osb-replay", "prebuilt/pdp11-unix/libosb.a"}
    ledger.add(top, found)
    assert ledger.read(top) == found
    write(top, "prebuilt/pdp11-unix/MANIFEST", "osb-replay 11 22 kit 1\nlibosb.a 33 45 kit 1\n")
    changed = {name for name, line in ledger.prebuilt_now(top).items() if found[name] != line}
    assert changed == {"prebuilt/pdp11-unix/libosb.a"}


@pytest.mark.parametrize("line", ["low", "low 12 proved", f"low {'a' * 64} good", f"low {'a' * 64} proved more"])
def test_a_line_in_another_form_is_an_error(top: Path, line: str) -> None:
    write(top, ledger.FILE, f"# The ledger.\n{line}\n")
    with pytest.raises(ValueError, match=f"{ledger.FILE}:2: "):
        ledger.read(top)


def test_a_second_line_of_a_name_is_an_error(top: Path) -> None:
    write(top, ledger.FILE, f"low {'a' * 64} proved\n" * 2)
    with pytest.raises(ValueError, match=f"{ledger.FILE}:2: "):
        ledger.read(top)


def test_the_ledger_of_this_repository_can_be_read() -> None:
    assert set(ledger.read(TOP)) <= {*ledger.lines_now(TOP, KIT), *ledger.prebuilt_now(TOP)}
