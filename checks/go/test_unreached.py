"""The list of statements that no test runs: what is new, what is gone, and what moves."""
from __future__ import annotations

from pathlib import Path

import pytest
from go.unreached import ALL, LIST, PACKAGES, Profile, Statement, differences, reasons

SOURCE = """\
package vault

func (v *Vault) open(text string) error {
    if text == "" {
        return errEmpty // nothing is sealed so
    }
    key, err := v.key()
    if err != nil {
        return err
    }
    return key.open(text)
}

func never() error {
    if true {
        return nil
    }
    return errEmpty
}
""".replace(
    "    ", "\t"
)

BLOCKS = {"3.43,4.16": 1, "4.16,6.3": 0, "7.2,8.16": 1, "8.16,10.3": 0, "11.2,11.23": 1}
"""The blocks of open, as `go test` writes them, and how often each was run."""

NEVER = {"14.20,15.10": 0, "15.10,17.3": 0, "18.2,18.17": 0}

EMPTY = 'platform/vault Vault.open: func (v *Vault) open(text string) error { | if text == "" | return errEmpty'
FAILED = "platform/vault Vault.open: key, err := v.key() | if err != nil | return err"
NEVER_RUN = f"platform/vault never: {ALL}"
LISTED = f"# The key is always there.\n{FAILED}\n\n# Nobody calls it.\n{NEVER_RUN}\n{EMPTY}\n"


def profiled(folder: Path, ran: dict[str, int], source: str = SOURCE, name: str = "platform/vault/vault.go") -> Profile:
    path = folder / name
    path.parent.mkdir(parents=True, exist_ok=True)
    path.write_text(source, encoding="utf-8")
    return Profile(["mode: set", *(f"pippinterm/{name}:{block} 1 {count}" for block, count in ran.items())], folder)


def test_statements(tmp_path: Path) -> None:
    """A statement has the function and the two lines before it, without comments. A function has one if none is run."""
    found = profiled(tmp_path, {**BLOCKS, **NEVER})
    assert sorted(map(str, found.unreached.elements())) == sorted([EMPTY, FAILED, NEVER_RUN])
    assert found.packages == {"platform/vault"}
    assert differences(found, LISTED) == []


def test_moves(tmp_path: Path) -> None:
    """Blank lines, comments, and another file of the package change nothing."""
    moved = {f"{int(at.split('.')[0]) + 2}.{at.split('.', 1)[1]}": count for at, count in {**BLOCKS, **NEVER}.items()}
    ends = {}
    for at, count in moved.items():
        first, last = at.split(",")
        line, column = last.split(".")
        ends[f"{first},{int(line) + 2}.{column}"] = count
    source = SOURCE.replace("package vault\n", "// A comment.\npackage vault\n\n")
    assert differences(profiled(tmp_path, ends, source, "platform/vault/other.go"), LISTED) == []


def test_new_statements(tmp_path: Path) -> None:
    """A statement that isn't listed is named, also if it is there more often than it is listed."""
    found = profiled(tmp_path, {**BLOCKS, **NEVER})
    assert [FAILED in difference for difference in differences(found, LISTED.replace(FAILED, ""))] == [True]
    found.unreached[next(statement for statement in found.unreached if str(statement) == EMPTY)] += 1
    assert [EMPTY in difference for difference in differences(found, LISTED)] == [True]


def test_statements_that_are_run(tmp_path: Path) -> None:
    """A statement that is run by now, or is gone, is named, unless it is run sometimes."""
    found = profiled(tmp_path, {**BLOCKS, **NEVER, "4.16,6.3": 3})
    assert [EMPTY in difference for difference in differences(found, LISTED)] == [True]
    assert differences(found, LISTED.replace("Nobody", "sometimes: nobody")) == []
    assert (
        differences(profiled(tmp_path, {"3.43,4.16": 1, **BLOCKS}), LISTED.replace("Nobody", "sometimes: nobody")) == []
    )


def test_other_packages(tmp_path: Path) -> None:
    """A profile says nothing of packages that it hasn't. A package that isn't looked at has no place in the list."""
    found = profiled(tmp_path, {**BLOCKS, **NEVER})
    assert differences(found, f"{LISTED}broker Tie: all of it\n") == []
    other = f"{LISTED}storm/conform Run: all of it\n"
    assert ["storm/conform" in difference for difference in differences(found, other)] == [True]


@pytest.mark.parametrize("text", [FAILED, "# A reason\nno statement", f"# One\n{FAILED}\n# Another\n{FAILED}"])
def test_lists_without_reasons(text: str) -> None:
    with pytest.raises(AssertionError, match=LIST.name):
        reasons(text)


def test_list() -> None:
    """The list itself can be read, and each reason has statements."""
    text = LIST.read_text(encoding="utf-8")
    known = reasons(text)
    assert {statement.package for statement in known} <= set(PACKAGES)
    said = [line.removeprefix("# ").strip() for line in text.splitlines() if line.startswith("# ")]
    assert sorted(said) == sorted({reason for _, reason in known.values()})
    assert all(isinstance(statement, Statement) for statement in known)
