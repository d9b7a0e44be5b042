"""Refuses each allocation in turn, and fails each read and each write in turn (docs/reliability.md).

So it is done with the calls of the libraries that neither C nor osb-replay makes, which the program of the crate
refusal_cases makes and tells of, and with osb-replay on every worked schedule.
"""

from __future__ import annotations

import os
import re
import shutil
import subprocess
from collections.abc import Callable
from pathlib import Path
from typing import NamedTuple

import pytest
from crate_programs import program_of
from replay.reference import trace
from replay.refusing import Refuser, Trial, calls, refused_call
from replay.running import EXAMPLES, TOP, Ran, fault, run
from replay.worked import ONE, PLANS, WorkedExample, lines, report, schedule, whole, worked

pytestmark = pytest.mark.slow

TABLE = (TOP / "docs" / "reliability.md").read_text(encoding="utf-8").partition("| part | what is called |\n")[2]
PARTS = re.findall(r"^\| `([a-z0-9-]+)` \|", TABLE, re.MULTILINE)
FAILURES = ["error", "interrupted", "nothing"]
CUT = {"CUT_READS": 1, "CUT_WRITES": 1}

# Runs a program with these arguments and input.
Refusing = Callable[..., Refuser]


@pytest.fixture(scope="session")
def shared(tmp_path_factory: pytest.TempPathFactory) -> Path:
    """refuse.c, compiled."""
    compiler = os.environ.get("CC") or shutil.which("cc") or shutil.which("gcc") or shutil.which("clang")
    if compiler is None:
        pytest.skip("there is no C compiler (Debian: gcc, libc6-dev)")
    made = tmp_path_factory.mktemp("refuse") / "refuse.so"
    flags = ["-shared", "-fPIC", "-O1", "-Wall", "-Wextra", "-Werror"]
    subprocess.run([compiler, *flags, "-o", made, TOP / "checks" / "refuse.c"], check=True)
    return made


@pytest.fixture
def refusing(shared: Path, replay: Path, tmp_path: Path) -> Refusing:
    """Makes what runs osb-replay."""
    return lambda *arguments, given=b"": Refuser(shared, tmp_path, replay, *arguments, given=given)


# ---- the library calls


@pytest.fixture
def refusal_cases() -> Path:
    return program_of("refusal_cases")


def test_parts(refusal_cases: Path) -> None:
    assert run(refusal_cases, "parts").out.split() == PARTS


@pytest.mark.parametrize("part", PARTS)
def test_part(shared: Path, refusal_cases: Path, tmp_path: Path, part: str) -> None:
    """Each allocation of each call of the part, alone and with all that follow it in the call."""
    refuser = Refuser(shared, tmp_path, refusal_cases, part)
    clean = refuser.run(TOLD_CALLS=1)
    told = calls(clean.out)
    assert clean.ran.status == 0 and told
    assert "Memory" not in [call.returned for call in told]
    takers = [call.name for call in told if call.takes_memory]
    assert len(set(takers)) == len(takers), "a call is known by its name"
    refused = set()
    for number in range(1, clean.counts.allocations + 1):
        for on in (1, 0):
            tried = refuser.run(TOLD_CALLS=1, REFUSE=number, REFUSE_ON=on)
            assert tried.ran.status == 0 and tried.counts.refusals, (number, on)
            refused.add(refused_call(calls(tried.out), told))
    assert refused == set(takers)


# ---- the program


class Case(NamedTuple):
    """A run of the program: its arguments, its input, and how it ends where nothing fails."""

    name: str
    arguments: list[str]
    given: bytes
    expected: Ran


def of_worked(example: WorkedExample) -> Case:
    return Case(example.name, ["replay", *example.options], example.schedule, Ran(0, example.report, ""))


def sixteen() -> Case:
    """Enough instances for every collection to grow more than once, created in no order. A request times out while the
    list of messages is full.
    """
    ids = [f"00000000-0000-0000-0000-{number:012}" for number in (*range(16, 8, -1), *range(1, 9))]
    text = lines(PLANS) + "".join(lines(f"create {id} S P no") for id in ids) + f"timeout {ids[0]}\nrestart\n"
    ends = [f"{instance} cleaning none" for instance in sorted(ids)]
    return Case("sixteen instances", ["replay"], text.encode(), Ran(0, report(ends, 18, 0), ""))


def of_network(name: str, suffix: str, *options: str) -> Case:
    """A schedule of examples/network/, and what stands beside it."""
    path = EXAMPLES / "network" / f"{name}.schedule"
    expected = Ran(0, path.with_suffix(suffix).read_text(), "")
    return Case(f"network {name}{suffix}", ["network", *options], path.read_bytes(), expected)


FAULTS = [
    (3, "LineTooLong", "whole plan S P sync\\nplan S Q async\\n{513*#}\\n"),
    (3, "LatePlan", "plan S P sync; restart; plan S Q async"),
    (2, "BadId", "plan S P sync; send 00000000-0000-0000-0000-00000000001"),
    (2, "DuplicatePlan", "plan S P sync; plan S P async"),
    (2, "WordCount", "create I S P no; restart now"),
    (2, "UnknownWord", "create I S P no; Restart"),
    (3, "BadChoice", "create I S P no; deliver I done; deliver I maybe"),
    (1, "NotAscii", "whole # \\303\\n"),
    (100_001, "TooManyLines", "whole {100001*\\n}"),
]
CASES = [
    *map(of_worked, worked()),
    sixteen(),
    *(Case(f"{name}: {text}", ["replay"], schedule(text), fault(line, name)) for line, name, text in FAULTS),
    of_network("lost-bind", ".report"),
    of_network("lost-bind", ".trace", "--trace"),
    of_network("unanswered-bind", ".settled", "--settle"),
    Case("network with a fault", ["network"], f"create {ONE}\nsend 1\n".encode(), fault(2, "BadId")),
]
WORDS = ["replay", "replay --saved", "replay --settle", "trace", f"trace --settle --instance {ONE}"]
WORDS += ["network", "network --settle", f"network --trace --instance {ONE}"]


def named(cases: list[Case]) -> list[str]:
    return [case.name for case in cases]


def begins_whole(tried: Trial, expected: Ran) -> bool:
    """Whether it wrote a beginning of what it writes where nothing fails."""
    return expected.out.startswith(tried.out)


def check_allocations(refuser: Refuser, first: int, last: int) -> None:
    """Each of these is refused, alone and with all that follow it: the program says so, and writes nothing else."""
    for number in range(first, last + 1):
        for on in (1, 0):
            tried = refuser.run(REFUSE=number, REFUSE_ON=on)
            assert tried.counts.refusals and tried.ends(5, "out of memory") and not tried.out, (number, on, tried)


def check_reads(refuser: Refuser, clean: Trial, expected: Ran, cut: dict[str, int], writes: bool = False) -> None:
    """Each read is failed. A trace keeps what it has written before."""
    for number in range(1, clean.counts.reads + 1):
        for how in ("error", "interrupted"):
            tried = refuser.run(FAIL_READ=number, FAILURE=how, **cut)
            assert tried.ends(3, "read failed") and tried.counts.reads == number, (number, how, tried)
            assert begins_whole(tried, expected) and (writes or not tried.out), (number, how, tried)


def check_writes(
    refuser: Refuser, clean: Trial, expected: Ran, cut: dict[str, int], failures: list[str] | None = None
) -> None:
    """Each write is failed. What was written before stays."""
    for number in range(1, clean.counts.writes + 1):
        for how in failures or FAILURES:
            tried = refuser.run(FAIL_WRITE=number, FAILURE=how, **cut)
            assert tried.ends(4, "write failed") and tried.counts.writes == number, (number, how, tried)
            assert begins_whole(tried, expected), (number, how, tried)


def is_whole(tried: Trial, expected: Ran) -> bool:
    """Whether it ended as where nothing fails, and wrote nothing before the input had ended."""
    return tried.ran == expected and tried.counts.early_writes == 0


@pytest.mark.parametrize("arguments", WORDS)
def test_before_the_first_read(refusing: Refusing, arguments: str) -> None:
    refuser = refusing(*arguments.split())
    early = refuser.run().counts.early_allocations
    assert early > 0
    check_allocations(refuser, 1, early)
    assert refuser.run(REFUSE=early, REFUSE_ON=1).counts.reads == 0


@pytest.mark.parametrize("case", CASES, ids=named(CASES))
def test_program(refusing: Refusing, case: Case) -> None:
    refuser = refusing(*case.arguments, given=case.given)
    clean = refuser.run()
    assert is_whole(clean, case.expected)
    assert clean.counts.largest_read <= 4096
    if case.expected.status == 0:
        assert clean.counts.reads == -(-len(case.given) // 4096) + 1
        assert clean.counts.writes == 1
        assert clean.counts.allocations > clean.counts.early_allocations
    check_allocations(refuser, clean.counts.early_allocations + 1, clean.counts.allocations)
    check_reads(refuser, clean, case.expected, {})
    check_writes(refuser, clean, case.expected, {})
    for cut in CUT:
        assert is_whole(refuser.run(**{cut: 1}), case.expected)
    # The allocations before the first read are refused in test_before_the_first_read.
    assert refusing(*case.arguments).run().counts.early_allocations == clean.counts.early_allocations


FIRST = CASES[0]


def test_in_pieces_of_one_byte(refusing: Refusing) -> None:
    refuser = refusing(*FIRST.arguments, given=FIRST.given)
    clean = refuser.run(**CUT)
    assert is_whole(clean, FIRST.expected)
    assert clean.counts.reads == len(FIRST.given) + 1
    assert clean.counts.writes == len(FIRST.expected.out)
    check_reads(refuser, clean, FIRST.expected, CUT)
    check_writes(refuser, clean, FIRST.expected, CUT)


# ---- traces


class Trace(NamedTuple):
    """A trace, and how many lines of it are there at least where its last allocation is refused."""

    case: Case
    least: int


def traces() -> list[Trace]:
    """A schedule with restarts, one instance of it, the same with a fault, lines that fill the buffer twice, and a last
    line that no line feed ends.

    The second restart takes memory, after the header and seven events, of which four are of I or restarts; the list of
    those to be settled does, after all events; of the 300 lines the first alone; and the unfinished last line does,
    after the header and two events.
    """
    told = lines(
        PLANS + "create I S P no; deliver I done; restart; send I; create J S Q yes; deliver J done; lose J;"
        "restart; send J"
    )
    many = lines(PLANS + "create I S P no") + lines("lose I") * 300
    faulty = told + lines("answer I maybe")
    unfinished = lines(PLANS + "create I S P no; deliver I done") + "restart"
    wrong = f"osb-replay: line {faulty.count(chr(10))}: WordCount\n"
    one = ["trace", "--settle", "--instance", ONE]
    return [
        Trace(Case("with restarts", ["trace"], told.encode(), Ran(0, traced(told), "")), 8),
        Trace(Case("one instance, settled", one, told.encode(), Ran(0, traced(told, ONE, True), "")), 6),
        Trace(Case("with a fault", ["trace"], faulty.encode(), Ran(1, traced(told), wrong)), 8),
        Trace(Case("300 lines", ["trace"], many.encode(), Ran(0, traced(many), "")), 1),
        Trace(Case("an unfinished last line", ["trace"], unfinished.encode(), Ran(0, traced(unfinished), "")), 3),
    ]


def traced(text: str, instance: str | None = None, settle: bool = False) -> str:
    return "".join(f"{line}\n" for line in trace(text.encode(), instance, settle))


TRACES = traces()


def check_traced_allocations(refuser: Refuser, clean: Trial, expected: Ran) -> int:
    """Each allocation from the first read on is refused: no line is lost that was written before.

    Returns how many lines are written if the last of them is refused.
    """
    written = 1
    for number in range(clean.counts.early_allocations + 1, clean.counts.allocations + 1):
        for on in (1, 0):
            tried = refuser.run(REFUSE=number, REFUSE_ON=on)
            assert tried.counts.refusals and tried.ends(5, "out of memory"), (number, on, tried)
            assert begins_whole(tried, expected) and tried.out.endswith("\n"), (number, on, tried)
            assert tried.out.count("\n") >= written, (number, on, tried)
            written = tried.out.count("\n")
    return written


@pytest.mark.parametrize("example", TRACES, ids=[example.case.name for example in TRACES])
def test_trace(refusing: Refusing, example: Trace) -> None:
    case = example.case
    refuser = refusing(*case.arguments, given=case.given)
    clean = refuser.run()
    assert clean.ran == case.expected
    assert clean.counts.largest_read <= 4096
    assert clean.counts.allocations > clean.counts.early_allocations
    assert check_traced_allocations(refuser, clean, case.expected) >= example.least
    check_reads(refuser, clean, case.expected, {}, writes=True)
    check_writes(refuser, clean, case.expected, {})
    for cut in CUT:
        assert refuser.run(**{cut: 1}).ran == case.expected


# ---- arguments that read no schedule

UNREAD = ["table", "--help", "replay --help", "trace --help", "", "bogus", "replay --setle", "trace --instance 1"]


@pytest.mark.parametrize("arguments", UNREAD, ids=lambda it: it or "none")
def test_arguments(replay: Path, refusing: Refusing, arguments: str) -> None:
    """Where one allocation alone is refused, `clap` may go on without it, and the message is then the same.

    Help is written by the standard library, which tries an interrupted write again.
    """
    refuser = refusing(*arguments.split())
    expected = run(replay, *arguments.split())
    clean = refuser.run()
    assert clean.ran == expected
    refused = 0
    for number in range(1, clean.counts.allocations + 1):
        for on in (1, 0):
            tried = refuser.run(REFUSE=number, REFUSE_ON=on)
            assert tried.counts.refusals
            if tried.ends(5, "out of memory") and not tried.out:
                refused += 1
            else:
                assert expected.status == 2 and not on and tried.ran == expected, (number, on, tried)
    assert refused
    check_writes(refuser, clean, expected, {}, FAILURES if arguments == "table" else ["error", "nothing"])


def test_table_in_pieces_of_one_byte(replay: Path, refusing: Refusing) -> None:
    refuser = refusing("table")
    expected, clean = run(replay, "table"), refuser.run(CUT_WRITES=1)
    assert clean.ran == expected
    assert clean.counts.writes == len(expected.out)
    check_writes(refuser, clean, expected, {"CUT_WRITES": 1})


# ---- memory that doesn't grow

LONG = {
    "100,000 empty lines": b"\n" * 100_000,
    "100,000 skipped events": f"send {ONE}\n".encode() * 100_000,
    "51,300,000 bytes of comments": (b"#" * 512 + b"\n") * 100_000,
}


@pytest.mark.parametrize("given", LONG.values(), ids=LONG)
def test_as_many_allocations_as_for_nothing(refusing: Refusing, given: bytes) -> None:
    for_nothing = refusing("replay").run()
    tried = refusing("replay", given=given).run()
    assert (for_nothing.ran.status, tried.ran.status) == (0, 0)
    assert tried.counts.allocations == for_nothing.counts.allocations
    assert tried.counts.largest_read <= 4096


# ---- nothing misused, nothing lost

VALGRIND = ["-q", "--error-exitcode=99", "--leak-check=full", "--show-leak-kinds=all", "--errors-for-leak-kinds=all"]
MISUSED = {"UnknownWord": "bogus", "BadChoice": "deliver I maybe", "LatePlan": "plan S R sync"}


@pytest.mark.skipif(shutil.which("valgrind") is None, reason="valgrind isn't installed (Debian: valgrind)")
@pytest.mark.parametrize(("name", "text"), MISUSED.items(), ids=MISUSED)
def test_valgrind(replay: Path, name: str, text: str) -> None:
    """valgrind ends with a status of its own if it finds a fault, and may warn before the program's line."""
    given = FIRST.given + whole(text) + b"\n"
    ran = run(Path("/usr/bin/env"), "valgrind", *VALGRIND, str(replay), "replay", given=given)
    assert (ran.status, ran.out) == (1, "")
    assert ran.err.splitlines()[-1] == f"osb-replay: line {given.count(10)}: {name}"
