"""The lines of library_cases for updates on the wire say what the model says: no program is needed."""

from __future__ import annotations

from update_wire.cases import CALLS, call_of, lines_of, of_line, told


def test_stdout() -> None:
    assert [told(of_line(line)) for line in lines_of("stdin")] == lines_of("stdout")


def test_what_the_files_have() -> None:
    """Each call."""
    assert {*map(call_of, lines_of("stdin"))} == {*CALLS}
