"""api/table.py: its generated files are current, the proved crates say the same, and both packages call all of it."""
from __future__ import annotations

import re
from pathlib import Path
from typing import Mapping

import pytest
from table import crates

from api.generate import CALLS, STRUCTS, files
from api.model import Enum
from api.table import INTERFACE, REMOVED, REMOVED_CALLS, STATUS, VERSION

TOP = Path(__file__).resolve().parents[2]


def compare(table: Mapping[str, object], other: Mapping[str, object]) -> None:
    """Fails with a line for each name that doesn't have the same in both."""
    wrong = [
        f"{name}: api/table.py has {table.get(name, 'nothing')}; crates/ has {other.get(name, 'nothing')}"
        for name in sorted({*table, *other})
        if table.get(name) != other.get(name)
    ]
    assert not wrong, "\n".join(wrong)


def test_the_generated_files_are_current() -> None:
    stale = [path for path, text in files().items() if (TOP / path).read_text(encoding="utf-8") != text]
    assert not stale, f"{', '.join(stale)}: api/table.py says something else. Run make generate"


def test_the_crates_have_the_numbers() -> None:
    enums = [part for part in INTERFACE if isinstance(part, Enum)]
    table = {f"{enum.front}{value.name}": value.number for enum in enums for value in enum.values}
    table["OSB_VERSION"] = VERSION[0] * 10000 + VERSION[1] * 100 + VERSION[2]
    compare(table, crates.numbers())


def test_the_crates_have_the_structs() -> None:
    """Each member, in its place, so that the struct of C has the layout of `#[repr(C)]`."""
    table = {name: "; ".join(f"{of.c_type} {of.name}" for of in struct.variables) for name, struct in STRUCTS.items()}
    compare(table, crates.structs())


def test_the_crates_have_the_calls() -> None:
    """What each gives and takes, and the statuses of its contract, in their order."""
    table = {}
    for call in CALLS:
        parameters = ", ".join(parameter.c_type for parameter in call.parameters)
        table[call.name] = f"{call.given} ({parameters}): {', '.join(name for name, _ in call.statuses(STATUS))}"
    compare(table, crates.exports())


def test_each_number_has_one_meaning() -> None:
    for enum in (part for part in INTERFACE if isinstance(part, Enum)):
        for column in zip(*((value.number, value.name, value.means) for value in enum.values)):
            assert len(column) == len(set(column)), enum.name
    assert not {value.number for value in STATUS.values} & set(REMOVED), "a status that was removed had this number"


def test_no_call_has_the_name_of_one_that_is_gone() -> None:
    assert not {call.name for call in CALLS} & set(REMOVED_CALLS)


@pytest.mark.parametrize(
    ("folder", "call"),
    [("go/osb", r"(?:\bC\.|\breturn |= )(osb_\w+)\("), ("python/src/osb", r"\blib(?:rary)?\.(osb_\w+)[(,]")],
    ids=["go", "python"],
)
def test_each_package_calls_each_export(folder: str, call: str) -> None:
    sources = "".join(path.read_text(encoding="utf-8") for path in (TOP / folder).glob("*.*") if path.is_file())
    assert set(re.findall(call, sources)) == {exported.name for exported in CALLS}
