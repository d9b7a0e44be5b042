"""The command line of osb-replay: options, the table, help, and what is rejected, with its status and message."""

from __future__ import annotations

import subprocess
from pathlib import Path

import pytest
from replay.running import EXAMPLES, TOP, Ran, fault, run
from replay.worked import ONE, lines, report

SCHEDULE = (EXAMPLES / "first.schedule").read_text()
FIRST = (EXAMPLES / "first.report").read_text()
NETWORK_SCHEDULE = (EXAMPLES / "network" / "lost-bind.schedule").read_text()

# ---- options

CREATED = lines("plan S P sync; create I S P no; deliver I done")
WANTED = report([f"{ONE} wanted ready"], 2, 0)
GONE = report([f"{ONE} gone none"], 2, 0)
OPTIONS = {
    "": WANTED,
    "--settle": GONE,
    "--saved": report([f"{ONE} wanted ready"], 2, 0, is_saved=True),
    "--saved --settle": report([f"{ONE} gone none"], 2, 0, is_saved=True),
    "--settle --": GONE,
}


@pytest.mark.parametrize(("options", "expected"), OPTIONS.items(), ids=OPTIONS)
def test_options(replay: Path, options: str, expected: str) -> None:
    assert run(replay, "replay", *options.split(), given=CREATED) == Ran(0, expected, "")


def test_options_and_a_fault(replay: Path) -> None:
    assert run(replay, "replay", "--settle", "--saved", given="bogus\n") == fault(1, "UnknownWord")


@pytest.mark.usefixtures("replay")
def test_launcher_through_a_link(tmp_path: Path) -> None:
    """The launcher ./osb-replay finds the program from any folder, through a link of another name."""
    (tmp_path / "linked").symlink_to(TOP / "osb-replay")
    with open(EXAMPLES / "first.schedule", "rb") as given:
        ran = subprocess.run(["./linked", "replay"], cwd=tmp_path, stdin=given, capture_output=True, check=False)
    assert Ran(ran.returncode, ran.stdout.decode(), ran.stderr.decode()) == Ran(0, FIRST, "")


# ---- the orphan mitigation table. docs/platform.md has it, which is compared with what the program prints.


def test_table_by_another_name_and_without_input(replay: Path) -> None:
    expected = run(replay, "table")
    assert (expected.status, expected.out.count("\n"), expected.err) == (0, 21, "")
    ran = subprocess.run(["bash", "-c", 'exec -a table "$0" table <&-', replay], capture_output=True, check=False)
    assert Ran(ran.returncode, ran.stdout.decode(), ran.stderr.decode()) == expected


def test_table_reads_no_input(replay: Path, tmp_path: Path) -> None:
    (tmp_path / "in").write_text("bogus\n")
    with open(tmp_path / "in", "rb", buffering=0) as given:
        subprocess.run([replay, "table"], stdin=given, stdout=subprocess.DEVNULL, check=True)
        assert given.read() == b"bogus\n"


# ---- help. docs/command-line.md has all of its text, which is compared with what the program prints.


@pytest.mark.parametrize(
    ("arguments", "line"),
    [
        ("--help", "  replay   Reads a schedule"),
        ("-h", "  replay   Reads a schedule"),
        ("replay --help", "  deliver INSTANCE done|before|after"),
        ("replay --saved -h", "  deliver INSTANCE done|before|after"),
        ("trace --help", "  answer    the answer that travels then"),
        ("network --help", "  issue ID/BINDING N      the resource becomes whole"),
        ("table --help", "The table has a line 'ANSWER STATE MITIGATED'"),
    ],
)
def test_help(replay: Path, arguments: str, line: str) -> None:
    ran = run(replay, *arguments.split())
    assert (ran.status, ran.err) == (0, "")
    assert any(printed.startswith(line) for printed in ran.out.splitlines())


@pytest.mark.parametrize("command", ["", "replay", "trace", "network", "table"])
def test_help_command(replay: Path, command: str) -> None:
    """`help COMMAND` prints what `COMMAND --help` does."""
    expected = run(replay, *command.split(), "--help")
    assert expected.status == 0
    assert run(replay, "help", *command.split()) == expected


# ---- what is rejected

REPLAY = "osb-replay replay [--settle] [--saved] < SCHEDULE"
TRACE = "osb-replay trace [--instance ID] [--settle] < SCHEDULE"
NETWORK = "osb-replay network [--settle | --trace [--instance ID]] < SCHEDULE"
ALL = f"{REPLAY}\n       {TRACE}\n       {NETWORK}\n       osb-replay table"
NO_COMMAND = (
    "'osb-replay' requires a subcommand but one was not provided\n  [subcommands: replay, trace, network, table, help]"
)
REJECTED: list[tuple[list[str], str, str]] = [
    ([], NO_COMMAND, ALL),
    (["--"], NO_COMMAND, ALL),
    (["bogus"], "unrecognized subcommand 'bogus'", ALL),
    ([""], "unrecognized subcommand ''", ALL),
    (["Replay"], "unrecognized subcommand 'Replay'\n\n  tip: a similar subcommand exists: 'replay'", ALL),
    (["tabl"], "unrecognized subcommand 'tabl'\n\n  tip: a similar subcommand exists: 'table'", ALL),
    (
        ["--", "replay"],
        "unexpected argument 'replay' found\n\n"
        "  tip: subcommand 'replay' exists; to use it, remove the '--' before it",
        ALL,
    ),
    (["--settle"], "unexpected argument '--settle' found", ALL),
    (["--settle", "replay"], "unexpected argument '--settle' found\n\n  tip: 'replay --settle' exists", ALL),
    (["--version"], "unexpected argument '--version' found", ALL),
    (["-V"], "unexpected argument '-V' found", ALL),
    (["replay", "--version"], "unexpected argument '--version' found", REPLAY),
    (["replay", "--fast"], "unexpected argument '--fast' found", REPLAY),
    (
        ["replay", "--setle"],
        "unexpected argument '--setle' found\n\n  tip: a similar argument exists: '--settle'",
        REPLAY,
    ),
    (["replay", "--save"], "unexpected argument '--save' found\n\n  tip: a similar argument exists: '--saved'", REPLAY),
    (["replay", "--settle=yes"], "unexpected value 'yes' for '--settle' found; no more were expected", REPLAY),
    (["replay", "--settle", "--settle"], "the argument '--settle' cannot be used multiple times", REPLAY),
    (["replay", "--saved", "--settle", "--saved"], "the argument '--saved' cannot be used multiple times", REPLAY),
    (["replay", "first.schedule"], "unexpected argument 'first.schedule' found", REPLAY),
    (["replay", "--", "--settle"], "unexpected argument '--settle' found", REPLAY),
    (["replay", "table"], "unexpected argument 'table' found", REPLAY),
    (["trace", "--saved"], "unexpected argument '--saved' found", TRACE),
    (["trace", "first.schedule"], "unexpected argument 'first.schedule' found", TRACE),
    (["trace", "--settle", "--settle"], "the argument '--settle' cannot be used multiple times", TRACE),
    (["network", "--saved"], "unexpected argument '--saved' found", NETWORK),
    (["network", "first.schedule"], "unexpected argument 'first.schedule' found", NETWORK),
    (["network", "--trace", "--trace"], "the argument '--trace' cannot be used multiple times", NETWORK),
    (["table", "--saved"], "unexpected argument '--saved' found", "osb-replay table"),
    (["table", "table"], "unexpected argument 'table' found", "osb-replay table"),
]


def rejected(reason: str, more: str = "For more information, try '--help'.") -> Ran:
    """Status 2, nothing on standard output, and the reason on standard error."""
    return Ran(2, "", f"error: {reason}\n\n{more}\n")


@pytest.mark.parametrize(
    ("arguments", "reason", "usage"), REJECTED, ids=[" ".join(case[0]) or repr(case[0]) for case in REJECTED]
)
def test_rejected(replay: Path, arguments: list[str], reason: str, usage: str) -> None:
    assert run(replay, *arguments, given=SCHEDULE) == rejected(f"{reason}\n\nUsage: {usage}")


def test_long_words(replay: Path) -> None:
    """A word of 100,000 letters, and 10,000 words."""
    word, many = "a" * 100_000, ["--settle"] * 10_000
    wanted = rejected(f"unrecognized subcommand '{word}'\n\nUsage: {ALL}")
    assert run(replay, word, given=SCHEDULE) == wanted
    wanted = rejected(f"unexpected argument '{word}' found\n\nUsage: {REPLAY}")
    assert run(replay, "replay", word, given=SCHEDULE) == wanted
    wanted = rejected(f"the argument '--settle' cannot be used multiple times\n\nUsage: {REPLAY}")
    assert run(replay, "replay", *many, given=SCHEDULE) == wanted


@pytest.mark.parametrize(
    "instance",
    [
        "1",
        "",
        "00000000-0000-0000-0000-00000000000g",
        "00000000000000000000000000000001",
        "{00000000-0000-0000-0000-000000000001}",
    ],
)
def test_no_instance(replay: Path, instance: str) -> None:
    reason = "what stands after '--instance' is no GUID, as 00000000-0000-0000-0000-000000000001 is one"
    expected = rejected(reason, "For more information, try 'osb-replay trace --help'.")
    assert run(replay, "trace", "--settle", "--instance", instance, given=SCHEDULE) == expected


@pytest.mark.parametrize(
    "options",
    [["--settle", "--trace"], ["--instance", ONE], ["--settle", "--instance", ONE], ["--trace", "--instance", "1"]],
    ids=" ".join,
)
def test_network_options_that_do_not_fit(replay: Path, options: list[str]) -> None:
    reason = "'--instance' needs '--trace' and a GUID, and '--settle' doesn't go with '--trace'"
    expected = rejected(reason, "For more information, try 'osb-replay network --help'.")
    assert run(replay, "network", *options, given=NETWORK_SCHEDULE) == expected


def test_instance_is_missing(replay: Path) -> None:
    expected = rejected("a value is required for '--instance <ID>' but none was supplied")
    assert run(replay, "trace", "--instance", given=SCHEDULE) == expected


@pytest.mark.parametrize(
    "arguments", [b"replay\xff", b"replay --settle\xc3", b"table \xed\xa0\x80", b"--help \xff"], ids=ascii
)
def test_not_utf8(replay: Path, arguments: bytes) -> None:
    expected = rejected("a word of the command line isn't UTF-8", "For more information, try 'osb-replay --help'.")
    assert run(replay, *arguments.split(), given=SCHEDULE) == expected
