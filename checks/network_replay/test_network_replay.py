"""Compares `osb-replay network` with the reference: its report, also with --settle, and its trace.

OSB_EXAMPLES=4 compares four times as many schedules.
"""

from __future__ import annotations

import os
from collections import Counter
from pathlib import Path

import pytest
from network_replay.language import FIELDS, MOST_LINES, LineFault, read
from network_replay.reference import HEADER, report, trace
from network_replay.schedules import FAULTS, filled, guid, schedule
from replay.running import Ran, run
from shortest import shortest
from whole import ANEW, WHOLE

SCHEDULES = (10_000 if ANEW else 2000 if WHOLE else 1000) * max(int(os.environ.get("OSB_EXAMPLES", "0")), 1)
CHUNK = 125
ID, OTHER = guid(1), guid(2)


# ---- the reference, by schedules worked out by hand: of the instances L and M, and of B, a binding of L

WORKED = {
    "synchronous": (
        "instance L sync no at-once both; create L; arrive L 1; work L whole; end L done; take L 0",
        ["L ready - 1 ready - - whole"],
        (6, 0),
    ),
    "late Provision": (
        "instance L sync no at-once both; create L; timeout L; send L; arrive L 2; take L 0; arrive L 1",
        ["L gone - 2 none - tombstone absent"],
        (7, 0),
    ),
    "first Poll": (
        "instance L async yes first-poll both; create L; arrive L 1; take L 0; send L",
        ["L polling poll 2 waiting - - absent"],
        (5, 0),
    ),
    "binding": (
        "instance L sync no at-once both; create L; arrive L 1; work L whole; end L done; take L 0; "
        "binding B sync no at-once fetch; create B; arrive B 1; issue B 7; end B done; take B 0; remove L",
        ["L ready - 1 ready - - whole", "B ready - 1 ready - - whole 7 7"],
        (12, 1),
    ),
    "pending work": (
        "instance L sync no at-once both; create L; arrive L 1; crash L broker; work L part; end L unknown; send M",
        ["L wanted provision 1 none provision - part"],
        (5, 2),
    ),
    "no rules": (
        "instance M none no at-once none; instance L sync no at-once both; create M; arrive M 1; take M 0",
        ["L none - - none - - absent", "M gone - 1 none - - absent"],
        (5, 0),
    ),
}


def with_ids(text: str) -> str:
    """The text with ids in place of L, B and M; an order of an instance gets a service and a plan."""
    words = {"L": ID, "B": f"{ID}/{guid(3)}", "M": OTHER}
    lines = [[words.get(word, word) for word in line.split()] for line in text.split(";")]
    orders = [[*line[:2], guid(8), guid(9), *line[2:]] if line[0] == "instance" else line for line in lines]
    return "".join(f"{' '.join(line)}\n" for line in orders)


@pytest.mark.parametrize("name", WORKED)
def test_worked(name: str) -> None:
    text, lives, (applied, skipped) = WORKED[name]
    wanted = with_ids("; ".join([*lives, f"applied {applied}", f"skipped {skipped}"]))
    assert report(with_ids(text).encode()) == (0, wanted, "")


def test_worked_trace() -> None:
    text = "instance L async yes at-once both; create L; arrive L 1; end L done; put-off L 1; take L 0; send M"
    ends = [
        "applied none - - none - - absent - - 0 -",
        "applied wanted provision 1 none - - absent - - 0 -",
        "applied wanted provision 1 none provision - absent - - 0 -",
        "applied wanted provision 1 making - - absent - - 1 202",
        "applied wanted provision 1 making - - absent - - 2 503-Other",
        "applied polling - 1 making - - absent - - 2 -",
        "skipped none - - none - - absent - - 0 -",
    ]
    lines = with_ids(text).splitlines()
    told = [f"{at}\t{line}\t" + "\t".join(end.split()) for at, (line, end) in enumerate(zip(lines, ends), 1)]
    assert trace(with_ids(text).encode())[1].splitlines() == [HEADER, *told]
    only = trace(with_ids(text).encode(), OTHER)[1].splitlines()
    assert only == [HEADER, told[-1]]


def test_settled() -> None:
    text = with_ids("instance L sync no at-once both; create L; arrive L 1; work L whole; end L done")
    assert report(text.encode(), settle=True)[1].startswith(f"{ID} gone - 2 none - tombstone absent\n")


@pytest.mark.parametrize("is_binding", [False, True], ids=["instance", "binding"])
@pytest.mark.parametrize(("name", "line"), FAULTS, ids=[f"{name} {line[:40]!r}" for name, line in FAULTS])
def test_fault(name: str, line: bytes, is_binding: bool) -> None:
    with pytest.raises(LineFault, match=f"^line 2: {name}$"):
        list(read(b"# a comment\n" + filled(line, is_binding)))


def test_too_many_lines() -> None:
    assert not list(read(b"\n" * MOST_LINES))
    with pytest.raises(LineFault, match="line 100001: TooManyLines"):
        list(read(b"\n" * (MOST_LINES + 1)))


@pytest.mark.slow
def test_everything_comes_about() -> None:
    """The schedules have each event of an instance and of a binding, applied and skipped, and each fault."""
    seen: Counter[tuple[str, bool, str]] = Counter()
    faults: Counter[str] = Counter()
    for seed in range(300):
        _, lines, fault = trace(schedule(seed))
        faults[fault.rpartition(" ")[2].strip()] += 1
        for line in lines.splitlines()[1:]:
            _, event, step, *_ = line.split("\t")
            verb, life, *_ = event.split(" ")
            seen[verb, "/" in life, step] += 1
    of_bindings = {"binding", "fetch", "forget", "issue", "take-fetched"}
    wanted = {(verb, True, step) for verb in FIELDS if verb != "instance" for step in ("applied", "skipped")}
    wanted |= {(verb, False, step) for verb in FIELDS if verb not in of_bindings for step in ("applied", "skipped")}
    assert not wanted - set(seen)
    assert set(faults) == {"", *(name for name, _ in FAULTS)}


# ---- the program


def compare(program: Path, text: bytes) -> None:
    assert run(program, "network", given=text) == Ran(*report(text))
    assert run(program, "network", "--settle", given=text) == Ran(*report(text, settle=True))
    assert run(program, "network", "--trace", given=text) == Ran(*trace(text))


@pytest.mark.slow
@pytest.mark.parametrize("name", WORKED)
def test_program_on_worked(replay: Path, name: str) -> None:
    compare(replay, with_ids(WORKED[name][0]).encode())


@pytest.mark.slow
@pytest.mark.parametrize("options", [[], ["--settle"], ["--trace"]], ids=" ".join)
@pytest.mark.parametrize("is_binding", [False, True], ids=["instance", "binding"])
def test_program_on_faults(replay: Path, is_binding: bool, options: list[str]) -> None:
    """The first faulty line is named, and nothing is written."""
    front = with_ids(WORKED["synchronous"][0]).encode() + b"\r\n"
    for name, line in FAULTS:
        wanted = Ran(1, "", f"osb-replay: line {front.count(10) + 1}: {name}\n")
        assert run(replay, "network", *options, given=front + filled(line, is_binding) + b"\nbogus\n") == wanted, line


@pytest.mark.slow
@pytest.mark.parametrize("first", range(0, SCHEDULES, CHUNK))
def test_program_on_random_schedules(replay: Path, first: int) -> None:
    for seed in range(first, first + CHUNK):
        text = schedule(seed)
        instance = guid(int(text[9:17], 16)) if seed % 3 == 0 and text.startswith(b"instance ") else ""
        if differences(replay, text, instance):
            lines = shortest(text.splitlines(True), lambda it: bool(differences(replay, b"".join(it), instance)))
            found = differences(replay, b"".join(lines), instance)
            pytest.fail("\n".join([f"seed {seed}:", *(line.decode().rstrip() for line in lines), *found]))


def differences(program: Path, text: bytes, instance: str) -> list[str]:
    """What the program does otherwise than the reference, with each option."""
    traced = ["--trace", "--instance", instance] if instance else ["--trace"]
    wanted = {(): report(text), ("--settle",): report(text, settle=True), tuple(traced): trace(text, instance)}
    ran = {options: run(program, "network", *options, given=text) for options in wanted}
    return [
        f"{options}: {ran[options]}, not {expected}"
        for options, expected in wanted.items()
        if ran[options] != Ran(*expected)
    ]


class TestDifference:
    """A program that is wrong about one event is shown by the shortest schedule that has the event."""

    def test_shortest_schedule(self, replay: Path, tmp_path: Path) -> None:
        program, given = tmp_path / "wrong", tmp_path / "given"
        wrong = f"cat >{given}; ! grep -q '^send' {given} || exit 9; exec {replay} \"$@\" <{given}"
        program.write_text(f"#!/bin/sh\n{wrong}\n")
        program.chmod(0o755)
        with pytest.raises(pytest.fail.Exception) as failed:
            test_program_on_random_schedules(program, 0)
        seed, line, *found = str(failed.value).splitlines()
        assert seed.startswith("seed ") and line.startswith("send ") and all(line.startswith("(") for line in found)
