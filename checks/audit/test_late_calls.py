"""A broker that was paused, and has lost its lock, writes a line late. Wherever its call begins and ends, the audit
finds nothing if the call has found what was there meanwhile, and finds the call if nothing like that was there.
"""

from __future__ import annotations

import json
from collections.abc import Iterator
from itertools import combinations, combinations_with_replacement
from pathlib import Path
from typing import Any, NamedTuple

import pytest
from audit.conftest import audited
from audit.journals import Journal

pytestmark = pytest.mark.slow

# An instance is created, a deletion fails, and another one succeeds.
STORY = """P claim wanted/1/provision; P send r1 provision 1; B arrive 1 r1 provision; B change 1 pending-provision
    B begin look visit=1; B end look absent visit=1; B begin create visit=1; B end create done visit=1
    B begin look visit=1; B end look whole visit=1; B change 1 ready; B answer 1 201; P hear r1 201; P take 1 ready/1
    P claim cleaning/2/deprovision; P send r2 deprovision 2; B arrive 2 r2 deprovision; B change 2 ready+deprovision
    B begin look visit=2; B end look whole visit=2; B begin delete visit=2; B end delete failed visit=2
    B begin look visit=2; B end look whole visit=2; B change 2 ready; B answer 2 500 other-error
    P hear r2 500 other-error; P take 2 cleaning/2; P claim cleaning/3/deprovision; P send r3 deprovision 3
    B arrive 3 r3 deprovision; B change 3 ready+deprovision; B begin look visit=3; B end look whole visit=3
    B begin delete visit=3; B end delete done visit=3; B begin look visit=3; B end look absent visit=3
    B change 3 tombstone; B answer 3 200; P hear r3 200; P take 3 gone/3"""
# Before that, if it is a binding: its instance is created.
OF_INSTANCE = """P claim wanted/1/provision; P send i1 provision 1; B arrive 9 i1 provision
    B change 9 pending-provision; B create visit=9; B look whole visit=9; B change 9 ready; B answer 9 201
    P hear i1 201; P take 1 ready/1; """
CREDENTIALS = "create done", "change 1 ready", "change 2 ready", "change 3 ready", "hear r1", "take 1"
"""What the statements have that name the credentials of a binding. They are the same after the deletion that fails."""


def statements(is_binding: bool) -> list[str]:
    """Those of the story."""
    found = [statement.strip() for statement in STORY.replace("\n", ";").split(";") if statement.strip()]
    if is_binding:
        found = [f"{text} @c1" if any(word in text for word in CREDENTIALS) else text for text in found]
        found = [f"{text} of binding" for text in found]
    return found


class Moment(NamedTuple):
    """What is so behind a statement."""

    resource: str
    is_pending: bool
    perhaps: tuple[str, ...]
    """What the resource may be besides, while a call goes on."""


def moments(story: list[str]) -> list[Moment]:
    """Behind each statement."""
    found, now = [], Moment("absent", False, ())
    for event in story:
        words = event.split()
        if words[1] == "begin" and words[2] in ("create", "delete"):
            now = now._replace(
                resource="part", perhaps=(now.resource, {"create": "whole", "delete": "absent"}[words[2]])
            )
        elif words[1] == "end" and words[2] in ("create", "delete"):
            done = {"create": "whole", "delete": "absent"}[words[2]]
            now = now._replace(resource=done if words[3] == "done" else now.resource, perhaps=())
        elif words[1:3] == ["end", "look"]:
            now = now._replace(resource=words[3])
        elif words[1] == "change":
            now = now._replace(is_pending="pending" in words[3] or "+" in words[3])
        found.append(now)
    return found


class Variant(NamedTuple):
    """A story with lines of a worker that is late, and whether the audit has to find it; None if it may."""

    story: list[str]
    is_found: bool | None


def with_lines(story: list[str], lines: list[tuple[int, str]]) -> list[str]:
    """The story, with each of these lines behind the statement of its number."""
    behind: dict[int, list[str]] = {}
    for at, line in lines:
        behind.setdefault(at, []).append(line)
    return [line for at, statement in enumerate(story) for line in (statement, *behind.get(at, ()))]


def looks(story: list[str], of: str) -> Iterator[Variant]:
    """A look that begins and ends at any moment, and finds anything."""
    their = moments(story)
    for begin, end in list(combinations(range(3, len(story)), 2))[::3]:
        meanwhile = {moment.resource for moment in their[begin : end + 1]}
        for found in ("absent", "part", "whole"):
            lines = [(begin, f"B9 begin look{of}"), (end, f"B9 end look {found}{of}")]
            is_found: bool | None = False
            if found not in meanwhile:
                is_found = None if their[end].is_pending or found in their[begin].perhaps else True
            yield Variant(with_lines(story, lines), is_found)


def failing(story: list[str], of: str) -> Iterator[Variant]:
    """A worker that has looked while work was pending, and whose call fails at any later moment."""
    their = moments(story)
    pending = [at for at, moment in enumerate(their) if moment.is_pending]
    for looked in pending[::3]:
        for begin, end in list(combinations_with_replacement(range(looked, len(story)), 2))[::5]:
            for call in ("create", "delete"):
                lines = [(looked, f"B9 begin look{of}"), (looked, f"B9 end look {their[looked].resource}{of}")]
                lines += [(begin, f"B9 begin {call}{of}"), (end, f"B9 end {call} failed{of}")]
                yield Variant(with_lines(story, lines), False)


VARIANTS = {
    f"{name} of {'a binding' if is_binding else 'an instance'}": (is_binding, make)
    for is_binding in (False, True)
    for name, make in {"looks": looks, "calls that fail": failing}.items()
}


def report_of(variants: list[Variant], is_binding: bool, folder: Path) -> dict[str, Any]:
    """What osb-audit reports of all of these, each of an instance of its own."""
    lines: dict[str, list[str]] = {}
    for number, variant in enumerate(variants):
        journal = Journal(
            instance=f"00000000-0000-0000-0000-{number:012}", time=1_700_000_000_000_000 + number * 1_000_000
        )
        journal.tell(OF_INSTANCE if is_binding else "").tell("; ".join(variant.story))
        for who, texts in journal.lines.items():
            lines.setdefault(who, texts[:1]).extend(texts[1:])
    for who, texts in lines.items():
        (folder / f"{who}.jsonl").write_text("".join(f"{text}\n" for text in texts))
    ran = audited("--json", "--jobs", "2", str(folder))
    assert ran.err == "" and ran.report["instances"] == len(variants), ran
    return ran.report


@pytest.mark.long(10)
@pytest.mark.parametrize("name", VARIANTS)
def test_late_calls(replay: Path, library: Path, tmp_path: Path, name: str) -> None:
    is_binding, make = VARIANTS[name]
    variants = list(make(statements(is_binding), " of binding" if is_binding else ""))
    assert len(variants) > 500 and (make is failing or sum(variant.is_found is True for variant in variants) > 100)
    report = report_of(variants, is_binding, tmp_path)
    found = {int(difference["instance"][-12:]): difference for difference in report["differences"]}
    false = {at: difference for at, difference in found.items() if variants[at].is_found is False}
    missed = [at for at, variant in enumerate(variants) if variant.is_found is True and at not in found]
    some = next(iter(false), missed[0] if missed else 0)
    assert not false and not missed and not report["unjudged"], (
        f"{len(false)} found falsely, {len(missed)} missed, of {len(variants)}. For example:\n"
        + "\n".join(variants[some].story)
        + json.dumps(found.get(some), indent=1)
    )
