"""The statements of Go that no test of their own package runs, by function and text.

    PYTHONPATH=checks python3 -m go.unreached PROFILE..

prints where unreached.txt differs from profiles of `go test -coverprofile`. That file has the statements that stay,
each with the reason. A statement is named by its package, its function, and its text with the two lines that lead to
it: so a move changes nothing.
"""
from __future__ import annotations

import re
import sys
from collections import Counter, defaultdict
from collections.abc import Iterable
from pathlib import Path
from typing import NamedTuple

TOP = Path(__file__).resolve().parents[2]
LIST = Path(__file__).resolve().parent / "unreached.txt"

ROOT = "pippinterm/"
PACKAGES = (
    *(f"broker{name}" for name in ("", "/journal", "/postgres", "/sealed", "/sqlite")),
    *(f"broker/backend/{name}" for name in ("command", "folders", "postgres")),
    *(f"platform{name}" for name in ("", "/journal", "/postgres", "/sqlite", "/vault")),
    *(f"internal/{name}" for name in ("filelock", "pg", "sqlitefile", "vault")),
)
"""The broker, the platform, their stores, backends and locks, and the vaults."""

BLOCK = re.compile(r"(\S+):(\d+)\.(\d+),(\d+)\.(\d+) \d+ (\d+)")
"""A block of statements in a profile: the file, where it begins and ends, and how often it was run."""

FUNCTION = re.compile(r"func (?:\((?:\w+ )?\*?(\w+)(?:\[[^]]*\])?\) )?(\w+)")

ALL = "all of it"
"""The text of a function of which no statement is run."""

SOMETIMES = "sometimes: "
"""How the reason of statements begins that the tests run in some runs."""


class Statement(NamedTuple):
    """A block of statements: the package, the function, and the text."""

    package: str
    function: str
    text: str

    def __str__(self) -> str:
        return f"{self.package} {self.function}: {self.text}"


class Profile:
    """What the tests of some packages have run of PACKAGES."""

    def __init__(self, texts: Iterable[str], sources: Path) -> None:
        """Reads profiles. The sources are those of all packages."""
        self._sources, self._files = sources, dict[str, list[str]]()
        ran: Counter[str] = Counter()
        for line in (row for text in texts for row in text.splitlines() if row.startswith(ROOT)):
            place, _, times = line.rpartition(" ")
            ran[place] += int(times)
        blocks: defaultdict[tuple[str, str], list[tuple[str, bool]]] = defaultdict(list)
        for place, count in ran.items():
            package, function, text = self._statement(place)
            if package in PACKAGES:
                blocks[package, function].append((text, count > 0))
        self.packages = {package for package, _ in blocks}
        self.unreached: Counter[Statement] = Counter()
        for (package, function), these in blocks.items():
            left = [text for text, is_run in these if not is_run]
            if len(left) == len(these):
                left = [ALL]
            self.unreached.update(Statement(package, function, text) for text in left)

    def _statement(self, place: str) -> Statement:
        block = BLOCK.fullmatch(f"{place} 0")
        assert block is not None, place
        name = block[1].removeprefix(ROOT)
        if name not in self._files:
            self._files[name] = (self._sources / name).read_text(encoding="utf-8").splitlines()
        lines, (first, column, last, end) = self._files[name], (int(block[n]) for n in range(2, 6))
        return Statement(name.rpartition("/")[0], function_of(lines, first), text_of(lines, first, column, last, end))


def function_of(lines: list[str], first: int) -> str:
    """The function in which a line is, with its type. gofmt begins each function at the begin of a line."""
    for line in reversed(lines[:first]):
        if found := FUNCTION.match(line):
            return ".".join(group for group in found.groups() if group)
    return "-"


def text_of(lines: list[str], first: int, column: int, last: int, end: int) -> str:
    """The text of a block, after the line in which it begins and the one before. Blanks and comments don't count."""
    inside = lines[first - 1 : last]
    inside[-1] = inside[-1][: end - 1]
    before = [inside[0][: column - 1], *reversed(lines[: first - 1])][:2]
    inside[0] = inside[0][column - 1 :]
    text = " ".join(line for line in map(bare, inside) if line).removeprefix("{").removesuffix("}").strip()
    return " | ".join([*(line for line in map(bare, reversed(before)) if line), text])


def bare(line: str) -> str:
    """A line without blanks at its ends, and without a comment."""
    return re.sub(r"(^|\s)//.*", "", line).strip()


def reasons(text: str) -> dict[Statement, tuple[int, str]]:
    """How often a list has each statement, and why. After a line `# REASON` there are its statements, one a line. A
    line that begins with `##` is a comment.
    """
    found: dict[Statement, tuple[int, str]] = {}
    reason = ""
    for number, line in enumerate(text.splitlines(), 1):
        if line.startswith("# "):
            reason = line.removeprefix("# ").strip()
        elif line.strip() and not line.startswith("##"):
            parts = re.fullmatch(r"(\S+) (\S+): (.+)", line)
            assert parts is not None and reason, f"{LIST.name}:{number}: no statement, or none with a reason: {line}"
            statement = Statement(*parts.groups())
            assert (
                found.get(statement, (0, reason))[1] == reason
            ), f"{LIST.name}:{number}: it has two reasons: {statement}"
            found[statement] = found.get(statement, (0, reason))[0] + 1, reason
    return found


def differences(profile: Profile, text: str) -> list[str]:
    """What is wrong in a list, as to the packages of a profile."""
    known = reasons(text)
    wrong = [
        f"no test of its package runs this. Write one, or add it to {LIST.name} with a reason: {statement}"
        for statement, count in sorted(profile.unreached.items())
        for _ in range(count - known.get(statement, (0, ""))[0])
    ]
    for statement, (count, reason) in sorted(known.items()):
        if statement.package not in PACKAGES:
            wrong.append(f"its package isn't looked at. Remove it from {LIST.name}: {statement}")
        elif statement.package in profile.packages and not reason.startswith(SOMETIMES):
            wrong += [f"a test runs this now, or it is gone. Remove it from {LIST.name}: {statement}"] * (
                count - profile.unreached[statement]
            )
    return wrong


def main() -> None:
    profile = Profile([Path(path).read_text(encoding="utf-8") for path in sys.argv[1:]], TOP / "go")
    print(*differences(profile, LIST.read_text(encoding="utf-8")), sep="\n")


if __name__ == "__main__":
    main()
