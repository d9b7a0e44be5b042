"""The public calls of the crates that may report that memory ran out, as they stand in the crates' sources."""

from __future__ import annotations

import re
from collections.abc import Iterator
from pathlib import Path
from typing import NamedTuple

TOP = Path(__file__).resolve().parents[2]
CRATES = TOP / "crates"
# The error of the kit that says so.
OF_THE_KIT = "AllocError"

ENUM = re.compile(r"^pub enum (\w+)[^{]*\{(.*?)^\}", re.DOTALL | re.MULTILINE)
# A case without anything, or one that has another error.
CASE = re.compile(r"^    (\w+)(?: = \d+)?,$|^    \w+\((\w+)\),$", re.MULTILINE)
# Up to the body: what it takes, what it returns, and its contract.
CALL = re.compile(r'^( *)pub (extern "C" )?fn (\w+)(.*?)^\1\{', re.DOTALL | re.MULTILINE)
CLAUSES = re.compile(r"^\s*(?:ensures|requires|where)\b", re.MULTILINE)
# The error of what is returned.
ERROR = re.compile(r"-> Result<.*,\s*(?:\w+::)*(\w+)\s*,?\s*>\s*\Z", re.DOTALL)
OWNER = re.compile(r"^impl(?:<[^>]*>)? (\w+)")
USED = re.compile(r"^pub use (\w+)::(?:\{([^}]*)\}|(\w+));", re.MULTILINE)


class VisibleNames(NamedTuple):
    """What callers of a crate see: whole modules, and names of the others."""

    modules: set[str]
    names: set[str]


def _text(file: Path) -> str:
    """A source without its comments."""
    return re.sub(r"^\s*//.*\n", "", file.read_text(encoding="utf-8"), flags=re.MULTILINE)


def libraries() -> list[str]:
    """The crates that are libraries, lowest first."""
    lines = (TOP / "crates.txt").read_text(encoding="utf-8").splitlines()
    names = [re.split(r"[ :]", line)[0] for line in lines if line and not line.startswith("#")]
    return [name for name in names if (CRATES / name / "src" / "lib.rt").exists()]


def _files(crate: str) -> list[Path]:
    return sorted((CRATES / crate / "src").rglob("*.rt"))


def errors() -> set[str]:
    """The errors that may say that memory ran out: one of their cases does, or has an error that may."""
    enums = [name for crate in libraries() for file in _files(crate) for name in ENUM.findall(_text(file))]
    found, before = {"Memory", OF_THE_KIT}, 0
    while before < len(found):
        before = len(found)
        found |= {name for name, body in enums if any(found & set(case) for case in CASE.findall(body))}
    return found


def _shown(crate: str) -> VisibleNames:
    lib = _text(CRATES / crate / "src" / "lib.rt")
    names = {name for _, some, one in USED.findall(lib) for name in re.findall(r"\w+", some or one)}
    return VisibleNames(set(re.findall(r"^pub mod (\w+);", lib, re.MULTILINE)), names)


def _owner(text: str, at: int) -> str:
    """The type whose method begins at a place, or an empty text."""
    owner = ""
    for line in text[:at].splitlines():
        begun = OWNER.match(line)
        owner = begun[1] if begun else "" if line == "}" else owner
    return owner


def _name(crate: str, module: str, owner: str, name: str, shown: VisibleNames) -> str:
    """How a caller names a call, or an empty text if no caller can."""
    if (owner or name) in shown.names:
        return "::".join(filter(None, (crate, owner, name)))
    return "::".join(filter(None, (crate, module, owner, name))) if module in shown.modules else ""


def _calls_of(crate: str, of_memory: set[str]) -> Iterator[str]:
    shown = _shown(crate)
    for file in _files(crate):
        text = _text(file)
        for found in CALL.finditer(text):
            _, from_c, name, rest = found.groups()
            if from_c:
                if "Status.Memory" in rest:
                    yield name
                continue
            error = ERROR.search(CLAUSES.split(rest)[0])
            if error and error[1] in of_memory:
                yield _name(crate, file.stem, _owner(text, found.start()), name, shown)


def calls() -> set[str]:
    """Every public call that may report that memory ran out: of a library its path, and of C its name."""
    of_memory = errors()
    return {call for crate in libraries() for call in _calls_of(crate, of_memory) if call}
