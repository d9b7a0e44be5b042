"""The executors: the only files that carry out what a driver says. They know nothing of what is held or recorded."""
from __future__ import annotations

import re

import pytest
from go.toolchain import TOP

LONGEST = 150
"""Lines that an executor may have."""

CALLS = {
    "broker": {
        r"\bs\.(tryLock|lock|change)\(|\bcalls\.(look|settle|create|delete|change)\(": {"executor.go"},
        r"\b(at|d)\.(locked|looked|synced|called)\(|\bit\.Unsure\(": {"executor.go"},
        r"\.(Locked|Looked|Synced|Called)\(": {"driver.go"},
        r"\bstore\.Change\(|\blocks\.Lock\(": {"service.go"},
        r"\b(gate\.tryLock|locks\.TryLock)\(": {"locks.go", "service.go"},
        r"\bbackend\.(Look|Create|Delete|Update|Sync|Credentials)\w*\(": {"worker.go"},
    },
    "platform": {
        r"\be\.(ask|fetch)\(|\.transaction\.(Committed|Unsure|Failed)\(\)": {"executor.go"},
        r"(?<!\.)\btransaction\.Unsure\(": {"answer.go"},
        r"\bdriver\.(Lost|Answered|Fetched)\(": {"exchange.go"},
        r"\bstore\.(Claim|Change)\(": {"executor.go", "orders.go"},
        r"\bclient\.Exchange\(": {"exchange.go"},
    },
}
"""The calls of an executor, and those that reach the locks, the transactions, the backend and the brokers: where each
stands."""

MEMBERS = (
    "Holding|Record|State|Phase|Row|Attempt|Kind|Removal|Number|Worker|Lease|Due|InFlight"
    "|IsUnfinished|IsHeld|HasTombstone|IsSent|IsGone"
)
KNOWS = rf"\.({MEMBERS})\b|\bosb\.(State|Phase|Work|Kind|Body|Mode)\w*"
"""What an executor doesn't look at."""


def sources(package: str) -> dict[str, str]:
    """The files of a package but its tests, without comments."""
    folder = TOP / "go" / package
    files = [path for path in folder.glob("*.go") if not path.name.endswith("_test.go")]
    return {path.name: re.sub(r"//.*", "", path.read_text(encoding="utf-8")) for path in files}


def found(pattern: str, text: str) -> list[str]:
    return [match[0] for match in re.finditer(pattern, text)]


@pytest.mark.parametrize("package", sorted(CALLS))
def test_executor(package: str) -> None:
    files = sources(package)
    executor = files["executor.go"]
    assert executor.count("\n") <= LONGEST
    assert found(KNOWS, executor) == []
    for pattern, where in CALLS[package].items():
        assert {name for name, text in files.items() if found(pattern, text)} == where


@pytest.mark.parametrize(
    "line",
    [
        "if snapshot.Entry.Record.InFlight() != osb.KindNone {",
        "if entry.State == Ready {",
        "if c.isEnded = entry.IsUnfinished(); c.isEnded {",
        "if snapshot.Worker != number {",
    ],
)
def test_finds_what_is_known(line: str) -> None:
    assert found(KNOWS, line) != []


@pytest.mark.parametrize(
    ("package", "line", "where"),
    [
        ("broker", "lock, err := s.tryLock(ctx, key)", {"executor.go"}),
        ("broker", "err = s.store.Change(ctx, key, step)", {"service.go"}),
        ("broker", "err = s.worker.backend.DeleteBinding(ctx, request)", {"worker.go"}),
        ("platform", "err := r.store.Change(ctx, key, step)", {"executor.go", "orders.go"}),
        ("platform", "in := e.client.Exchange(ctx, out)", {"exchange.go"}),
        ("platform", "s.driver = transaction.Unsure()", {"answer.go"}),
        ("platform", "s.driver, err = s.driver.Answered(answer, false)", {"exchange.go"}),
    ],
)
def test_finds_calls(package: str, line: str, where: set[str]) -> None:
    assert [files for pattern, files in CALLS[package].items() if found(pattern, line)] == [where]
