"""Each public call that may report that memory ran out has a test with a large value."""

from __future__ import annotations

import json
import os
import re
import subprocess
import sys
from collections import Counter
from pathlib import Path

import pytest
from large.calls import CRATES, TOP, calls, errors
from large.table import LARGE, LIBRARY, NEVER

NAMED = [name for names in LARGE.values() for name in names.split()]


def test_each_call_is_in_the_table() -> None:
    """A new call needs a large case. If a call is gone or has another name, so must its entry."""
    wanted = calls()
    listed = {*NAMED, *NEVER}
    assert sorted(wanted - listed) == [], "no test makes these calls with a large value"
    assert sorted(listed - wanted) == [], "no public call has these names"
    assert [name for name, count in Counter([*NAMED, *NEVER]).items() if count > 1] == []


def test_the_tests_exist() -> None:
    for test in LARGE:
        file, _, name = test.partition("::")
        assert re.search(rf"^ *def {name}\(", (TOP / file).read_text(encoding="utf-8"), re.MULTILINE), test


@pytest.mark.slow
def test_the_tests_of_the_library_make_their_calls(tmp_path: Path) -> None:
    made = tmp_path / "made"
    line = [sys.executable, "-m", "pytest", "-q", "-p", "large.recording", LIBRARY.removesuffix("::")]
    environment = {**os.environ, "PYTHONPATH": "checks", "OSB_RECORDED": str(made)}
    ran = subprocess.run(line, cwd=TOP, env=environment, stdin=subprocess.DEVNULL, capture_output=True, text=True)
    assert ran.returncode == 0, ran.stdout + ran.stderr
    found = json.loads(made.read_text())
    for test, names in LARGE.items():
        if test.startswith(LIBRARY):
            wanted = {name for name in names.split() if "::" not in name}
            assert wanted - {*found[test.removeprefix(LIBRARY)]} == set(), test


def test_the_other_calls_have_their_clause() -> None:
    for call, clause in NEVER.items():
        crate, *_, name = call.split("::")
        text = "\n".join(file.read_text(encoding="utf-8") for file in (CRATES / crate / "src").glob("*.rt"))
        contract = re.search(rf"^pub fn {name}\b.*?^\{{", text, re.DOTALL | re.MULTILINE)
        assert contract and f"ensures {clause} " in contract[0], call


def test_what_is_derived() -> None:
    """Of each form that the sources have: a fault with a case of its own, one within another, a method, a call of a
    module, one from C, and errors of the kit.
    """
    assert {"Memory", "TextFault", "Refusal", "BindingRefusal", "DocumentFault", "AllocError", "Status"} <= errors()
    assert {
        "osb_message::Rows::insert",
        "osb_wire::read_request",
        "osb_wire::json_body::read_value",
        "osb_wire::provision_writing::put_text",
        "osb_wire::catalogue_document",
        "osb_binding_wire::read_binding_request",
        "osb_schedule::replay",
        "osb_write_binding_target",
    } <= calls()
    assert not [call for call in calls() if call.startswith(("osb_api_version", "osb_network::Parts"))]
