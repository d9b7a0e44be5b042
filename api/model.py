"""What api/table.py is written in: enums, structs and calls, under sections."""
from __future__ import annotations

import re
from dataclasses import dataclass
from typing import NamedTuple, Union

_DECLARED = re.compile(r"(const )?((?:struct |enum )?\w+) (\*?)(\w+)(?:\[(\d+)\])?")
_NAMED = re.compile(r"OSB_(\w+)(?: to OSB_(\w+))?(?: \(([\w ,]+)\))?")


class Value(NamedTuple):
    """A number with a name, which is written without its front: BUSY is OSB_BUSY, POLL of `kind` is OSB_KIND_POLL."""

    number: int
    name: str
    means: str
    packages: str = ""
    """The meaning in Go and Python, if the words differ from those of C."""

    @property
    def words(self) -> str:
        """The meaning in Go and Python."""
        return self.packages or self.means


class Enum:
    """The numbers of `enum osb_NAME`; `what` is what one of them is, as in "A Kind is ..".

    `comment` stands above it in the header, and `go` behind the sentence in Go. A value named NONE is None in Python.
    """

    def __init__(self, name: str, what: str, *values: Value, comment: str = "", go: str = "") -> None:
        self.name, self.what, self.values, self.comment, self.go = name, what, values, comment, go
        self.front = "OSB_" if name == "status" else f"OSB_{name.upper()}_"


@dataclass(frozen=True)
class Variable:
    """A parameter, or a member of a struct."""

    name: str
    type: str
    """The type in C without `const`, pointer and length. An enum crosses as a byte."""
    const: bool
    pointer: bool
    length: int
    """How many there are of an array, or 0."""
    go: str

    @classmethod
    def of(cls, declared: str, go: str = "") -> Variable:
        """Reads a declaration of C."""
        found = _DECLARED.fullmatch(declared)
        if found is None:
            raise ValueError(f"{declared} isn't declared as a parameter or a member")
        return cls(found[4], found[2], bool(found[1]), bool(found[3]), int(found[5] or 0), go or found[4])

    @property
    def plain(self) -> str:
        """The type that crosses."""
        return "uint8_t" if self.type.startswith("enum ") else self.type

    @property
    def c_type(self) -> str:
        """The whole type, as in "const uint8_t *" and "uint8_t [32]"."""
        array = f" [{self.length}]" if self.length else ""
        return f"{'const ' * self.const}{self.plain}{' *' * self.pointer}{array}"


class Member(NamedTuple):
    """One or several members of a type: "struct osb_id service, plan", "uint8_t digest[32]".

    "enum osb_kind kind" is a byte with a number of that enum. `go` is the name in Go, if that isn't the one of C.
    """

    declared: str
    comment: str = ""
    go: str = ""


class Struct:
    """`struct osb_NAME`. If it is private, the members of the struct in Go aren't exported.

    If it has lengths, they are those of texts in a buffer, and Go's own code takes the texts: it has no function in Go.
    """

    def __init__(
        self, name: str, *members: Member, comment: str = "", is_private: bool = False, has_lengths: bool = False
    ) -> None:
        self.name, self.members, self.comment = name, members, comment
        self.is_private, self.has_lengths = is_private, has_lengths
        self.variables: list[Variable] = []
        for declared, _, go in members:
            first, *others = declared.split(", ")
            kind = first.rpartition(" ")[0]
            self.variables += [Variable.of(text, go) for text in (first, *(f"{kind} {other}" for other in others))]


class Call:
    """A function: "uint32_t osb_version()". One without a comment shares that of the call before it.

    `returns` names the statuses in their order: "OSB_DONE, OSB_NOT_UTF8 (prefix or operation), OSB_MEMORY.".
    """

    def __init__(self, declared: str, comment: str = "", returns: str = "") -> None:
        front, _, taken = declared[:-1].partition("(")
        self.given, self.name = front.split()
        self.declared, self.comment, self.returns = declared, comment, returns
        self.parameters = [Variable.of(text) for text in taken.split(", ") if text]

    def statuses(self, enum: Enum) -> list[tuple[str, str]]:
        """The name of each status that it returns, in their order, with what stands in parentheses behind it."""
        names = [value.name for value in enum.values]
        return [
            (name, about)
            for first, last, about in _NAMED.findall(self.returns)
            for name in names[names.index(first) : names.index(last or first) + 1]
        ]


class Section(NamedTuple):
    """A heading of the header, and what is said below it."""

    text: str


Part = Union[Section, Enum, Struct, Call]
