"""The lines of service_cases say what the model says: no program is needed."""

from __future__ import annotations

from binding.cases import FOLDER, of_unfetched, stdin, written_of

# The events that an instance by itself doesn't have, and rounds without a fault.
EVENTS = {"settle", "remove", "settle 1", "remove 1", "binding fetch", "binding take-fetched", "binding forget"}


def lines_of(name: str) -> list[str]:
    return (FOLDER / name).read_text().splitlines()


def applied(line: str) -> str:
    """Whose event applied, and its word; empty if none did."""
    event, _, what = line.partition("  ")
    if not what.startswith(("applied", "settled", "removed")):
        return ""
    whose, *words = event.split(" ")
    return " ".join([whose, *(words[1:2] if whose == "binding" else words[:1])])


def test_written() -> None:
    assert "\n".join(written_of(lines_of("stdin"))).splitlines() == lines_of("stdout")


def test_stdin() -> None:
    assert stdin() == lines_of("stdin")


def test_a_binding_that_cant_be_fetched_is_given_up() -> None:
    """Also after rounds that it has before it is created."""
    for _, *lines in of_unfetched():
        taken = next(line for line in written_of(lines) if line.startswith("binding 1 take 0"))
        assert taken.partition(" | ")[2].startswith("cleaning - 1; making")


def test_events() -> None:
    assert not EVENTS - {applied(line) for line in lines_of("stdout")}
