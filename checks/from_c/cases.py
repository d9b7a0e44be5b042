"""Writes the cases of api/cases.txt as C, for suite.c: each call in each case, and again with too short a buffer.

The value of a struct is a dictionary here. A member that is missing in it is zero.
"""
from __future__ import annotations

import hashlib
import itertools
import re
from collections.abc import Callable, Iterator
from pathlib import Path
from typing import Any

import api.cases
from api.cases import PLANS, SERVICE, Case, cases
from api.generate import CALLS, ENUMS, STRUCTS
from api.model import Variable

NAMED = {call.name: call for call in CALLS}
NUMBERS = {f"{enum.name} {value.name}": f"{enum.front}{value.name}" for enum in ENUMS for value in enum.values}
GUID = re.compile(rb"[0-9a-f]{8}(?:-[0-9a-f]{4}){3}-[0-9a-f]{12}")
# A longer text is an array: C99 promises string literals of 4,095 bytes, and CALL makes a literal of the whole call.
LONGEST = 500
# What a call writes to, by the type that it points to, if the member of `out` hasn't the name of the struct.
WRITTEN = {"uint64_t": "seconds", "bool": "retrievable", "uint8_t": "allowed"}
# What a call changes, by the column that has it: it is written before the call, if the case has it.
CHANGED = {
    "struct osb_record": "record",
    "struct osb_holding": "holding",
    "struct osb_update_holding": "update_holding",
    "struct osb_driver": "driver",
    "struct osb_update_driver": "update_driver",
    "struct osb_platform_driver": "driver",
}
# The struct with the lengths of the texts that a call writes one after the other.
LENGTHS = {
    "read_details": "details",
    "receive_request": "received",
    "receive_binding_request": "binding_received",
    "receive_update_request": "update_received",
    "plan_updates": "plan_updates",
}
# The flags of such structs that don't say whether there is a text.
FLAGS = "instance_usable update_repeatable is_sold updateable retrievable asynchronous".split()

Value = dict[str, Any]


# ---- values


def record_of(cell: bytes) -> Value:
    held = api.cases.record(cell)
    return {"service": SERVICE, "plan": PLANS["sync"], "attempt": held.attempt, "state": held.state, "out": held.out}


def request_of(request: api.cases.Request) -> Value:
    return {**request._asdict(), "service": SERVICE}


def holding_of(cell: bytes) -> Value:
    """What doesn't count in it is zeroes."""
    held = api.cases.holding(cell)
    row = {"service": SERVICE, "plan": held.row[1], "phase": held.row[0]} if held.row else {}
    flags = {"has_row": bool(held.row), "has_work": bool(held.work), "has_tombstone": held.has_tombstone}
    return {"row": row, "work": request_of(held.work) if held.work else {}, **flags, "attributes": held.attributes}


def answer_of(cell: bytes) -> Value:
    return dict(zip(("status", "body"), cell.decode().split()))


def begun_of(cell: bytes) -> Value:
    return {"answer": answer_of(cell), "work": "none"} if b" " in cell else {"work": cell.decode()}


def driver_of(of: api.cases.Driver) -> Value:
    """What doesn't count in it is zeroes."""
    return {
        **of._asdict(),
        "task": request_of(of.task) if of.task else {},
        "is_pending": of.task is not None,
        "answer": answer_of(of.answer) if of.answer else {},
        "has_answer": of.stage == "end" and of.answer is not None,
    }


def update_driver_of(cell: bytes) -> Value:
    """What doesn't count in it is zeroes."""
    of = api.cases.update_driver(cell)
    driver = driver_of(of.driver)
    return {
        **of._asdict(),
        "driver": {**driver, "is_pending": of.is_pending} if of.is_update else driver,
        "to": of.to._asdict() if of.to else {},
        "before": of.before._asdict() if of.before else {},
        "has_before": of.before is not None,
    }


def platform_driver_of(cell: bytes) -> Value:
    """What doesn't count in it is zeroes."""
    of = api.cases.platform_driver(cell)
    return {
        **of._asdict(),
        "request": request_of(of.request) if of.request else {},
        "answer": answer_of(of.answer) if of.answer else {},
        "has_answer": of.stage == "take" and of.answer is not None,
    }


def change_of(of: api.cases.Settings) -> Value:
    """What doesn't count in it is zeroes."""
    return {**of._asdict(), **{f"has_{name}": value is not None for name, value in of._asdict().items()}}


def update_of(cell: bytes) -> Value:
    of = api.cases.update(cell)
    return {**of._asdict(), "change": change_of(of.change)}


def update_holding_of(cell: bytes) -> Value:
    """What doesn't count in it is zeroes."""
    held = api.cases.update_holding(cell)
    return {**held._asdict(), "settings": held.settings._asdict(), "to": held.to._asdict() if held.to else {}}


def update_begun_of(cell: bytes) -> Value:
    """What doesn't count in it is zeroes."""
    if cell == b"conflict":
        return {"is_maintenance_conflict": True}
    if cell[:1].isdigit():
        return {"answer": answer_of(cell)}
    mode, to = cell.split()
    return {"mode": mode.decode(), "to": api.cases.settings(to)._asdict(), "has_work": True}


def update_fetched_of(cell: bytes) -> Value:
    """What doesn't count in it is zeroes."""
    found, *words = cell.split()
    if found != b"found":
        return {"answer": answer_of(cell)}
    return {"number": int(words[0]), "settings": api.cases.settings(words[1])._asdict(), "is_found": True}


def some_record_of(name: str, cell: bytes) -> Value:
    """A record as a member of a struct, and whether there is one."""
    return {f"has_{name}": cell != b"none", name: {} if cell == b"none" else record_of(cell)}


# The structs of which cells have the words.
OF_CELLS: dict[str, Callable[[bytes], Value]] = {
    "record": record_of,
    "holding": holding_of,
    "request": lambda cell: request_of(api.cases.request(cell)),
    "answer": answer_of,
    "begun": begun_of,
    "driver": lambda cell: driver_of(api.cases.driver(cell)),
    "update_driver": update_driver_of,
    "platform_driver": platform_driver_of,
    "settings": lambda cell: api.cases.settings(cell)._asdict(),
    "change": lambda cell: change_of(api.cases.settings(cell)),
    "update": update_of,
    "update_holding": update_holding_of,
    "update_begun": update_begun_of,
    "update_fetched": update_fetched_of,
}


# ---- values in C


def flag(value: object) -> str:
    return "true" if value in (b"yes", True) else "false"


def halves(text: bytes | None) -> list[str]:
    """Those of an id's number."""
    if text is None:
        return ["0", "0"]
    digits = text.replace(b"-", b"").decode() if GUID.fullmatch(text) else hashlib.sha256(text).hexdigest()
    return [f"UINT64_C(0x{digits[:16]})", f"UINT64_C(0x{digits[16:32]})"]


def number_in(enum: str, word: str) -> str:
    """A name, or a number, in C."""
    return word if word.isdigit() else NUMBERS[f"{enum} {word.upper().replace('-', '_')}"]


def text_of(value: bytes) -> str:
    plain = "".join(chr(code) if 32 <= code < 127 and code not in b'"\\?' else f"\\{code:03o}" for code in value)
    return f'(const uint8_t *)"{plain}"'


def plain(kind: str, value: Any) -> str:
    """A value that is no array and no struct."""
    if kind == "bool":
        return flag(value)
    if kind.startswith("enum "):
        return "0" if value is None else number_in(kind.partition("_")[2], value)
    return f"UINT64_C({value or 0})"


def literal(kind: str, value: Any, length: int = 0) -> str:
    """The value of this type, as an initializer."""
    if not length and kind not in STRUCTS:
        return plain(kind, value)
    if length:
        parts = [str(number) for number in value or bytes(length)]
    elif kind == "struct osb_id":
        parts = halves(value)
    else:
        parts = [literal(of.type, (value or {}).get(of.name), of.length) for of in STRUCTS[kind].variables]
    return f"{{{', '.join(parts)}}}"


def same(place: str, kind: str, value: Any, length: int = 0) -> Iterator[str]:
    """That what stands at a place has this value."""
    if length:
        yield f"memcmp({place}, {text_of(value or bytes(length))}, {length}) == 0"
    elif kind == "struct osb_id":
        yield " && ".join(f"{place}.{name} == {half}" for name, half in zip(("high", "low"), halves(value)))
    elif kind in STRUCTS:
        for variable in STRUCTS[kind].variables:
            yield from same(
                f"{place}.{variable.name}", variable.type, (value or {}).get(variable.name), variable.length
            )
    else:
        yield f"{place} == {plain(kind, value)}"


class CaseText:
    """The C of one case: its constants, and then its calls with what is so after each."""

    def __init__(self, case: Case) -> None:
        self.case, self.given, self.gives = case, case.given, case.gives
        self.call = NAMED[f"osb_{case.call}"]
        self.constants: list[str] = []
        self.names = (f"c{number}" for number in itertools.count())

    def constant(self, kind: str, value: str, array: str = "") -> str:
        name = next(self.names)
        self.constants.append(f"static const {kind} {name}{array} = {value};")
        return name

    def text(self, value: bytes) -> str:
        """A text, and how long it is."""
        if len(value) > LONGEST:
            name = self.constant("uint8_t", literal("uint8_t", value, len(value)), "[]")
            return f"{name}, sizeof {name}"
        return f"{text_of(value)}, {len(value)}"

    def cell(self, name: str) -> bytes:
        return self.given[name] or b""

    def word(self, name: str) -> str:
        """The word of an enum."""
        return ((self.gives if name in self.gives else self.given)[name] or b"").decode()

    # ---- what the call is given

    def value(self, name: str, kind: str) -> Value:
        """The value of a struct that the call is given for a parameter."""
        own = kind.replace("struct osb_", "")
        words = name if name in self.given and own != "update_holding" else CHANGED.get(kind, "")
        if own in OF_CELLS and words in self.given:
            return OF_CELLS[own](self.cell(words))
        if own == "answer":
            return {"status": self.cell("status").decode(), "body": self.word("body")}
        if own == "platform_row":
            return {"service": SERVICE, "plan": PLANS["sync"], "state": self.word("state"), "out": self.word("out")}
        if own == "platform_reading":
            return self.platform_reading()
        if own == "reading":
            return self.reading()
        if own == "update_reading":
            return self.update_reading()
        if own == "endpoints":
            return dict.fromkeys(self.cell("serves").decode().split(), True)
        accepts = self.given.get("accepts", b"yes") == b"yes"
        names = ("id", "service", "plan") if own == "asked" else ("id", "service_id", "plan_id")
        ids = {member.replace("_id", ""): self.given[member] for member in names}
        has = {f"has_{name}": ids[name] is not None for name in ("service", "plan")} if own == "asked" else {}
        return {"kind": self.word("kind"), "accepts_incomplete": accepts, **has, **ids}

    def reading(self) -> Value:
        flags = {name: self.given.get(name) == b"yes" for name in ("first_poll", "may_begin", "may_give_up")}
        modes = {name: self.word(name) for name in ("row_mode", "mode")}
        digests = {"number": self.digest("number", 16), "attributes": self.digest("attributes", 32)}
        holding, request = (OF_CELLS[name](self.cell(name)) for name in ("holding", "request"))
        return {"holding": holding, "request": request, "id": self.cell("id"), **digests, **modes, **flags}

    def update_reading(self) -> Value:
        """An Update that is missing isn't asked for."""
        is_update = self.given["update"] is not None
        return {
            "reading": self.reading(),
            "change": update_holding_of(self.cell("update_holding")),
            "update": update_of(self.cell("update")) if is_update else {},
            **{name: self.digest(name, 32) for name in ("parameters", "version")},
            **{name: self.word(name) for name in ("update_mode", "allowed")},
            "is_update": is_update,
        }

    def platform_reading(self) -> Value:
        """The plan of an instance is the records'. A binding's is its instance's, whatever the reading has."""
        is_binding = api.cases.platform_driver(self.cell("driver")).is_binding
        return {
            **some_record_of("record", self.cell("record")),
            **some_record_of("instance", self.cell("instance")),
            "id": api.cases.BINDING if is_binding else api.cases.INSTANCE,
            "service": SERVICE,
            "plan": PLANS["async" if is_binding else "sync"],
            "number": api.cases.digest(self.cell("number"))[:16],
            "all_gone": self.cell("all_gone"),
            **api.cases.wishes(self.cell("wishes"))._asdict(),
            "accepts_incomplete": self.cell("accepts"),
            "retrievable": self.cell("retrievable"),
        }

    def argument(self, param: Variable) -> str:
        """What the call is given for a parameter. The length of a text stands beside it."""
        if param.name == "buffer":
            return "INTO"
        if param.name == "plans":
            return "out.plans, PLANS, &out.needed"
        if param.name in ("digest", "platform"):
            return f"{'&' * (param.name == 'platform')}out.{param.name}"
        if param.name in ("attributes", "number") and param.length:
            digest = self.digest(param.name, param.length)
            return self.constant("uint8_t", literal("uint8_t", digest, param.length), f"[{param.length}]")
        if param.plain == "uint8_t" and param.pointer and param.const:
            return self.text(self.cell(param.name))
        if param.pointer and not param.const:
            return f"&out.{WRITTEN.get(param.type) or param.type.replace('struct osb_', '')}"
        if param.type == "struct osb_id":
            held = f"held_{param.name}"
            return self.constant(param.type, literal(param.type, self.cell(held if held in self.given else param.name)))
        if param.type in STRUCTS:
            return "&" * param.pointer + self.constant(
                param.type, literal(param.type, self.value(param.name, param.type))
            )
        if param.type == "bool":
            if param.name in self.given:
                return flag(self.given[param.name])
            counts = {"has_held": "held_service"}.get(param.name, param.name.replace("has_", ""))
            return flag(self.given[counts] is not None)
        if param.name in ("kind", "state", "mode", "outcome", "there", "allowed", "otherwise"):
            enum = {"otherwise": "mode"}.get(param.name, param.name)
            enum = "update_outcome" if self.call.name == "osb_update_end" and enum == "outcome" else enum
            return number_in(enum, self.word(param.name))
        if param.type == "uint64_t":
            return f"UINT64_C({self.word(param.name)})"
        return f"OSB_{self.word(param.name)}" if param.name == "refusal" else self.word(param.name)

    def digest(self, name: str, length: int) -> bytes:
        return api.cases.digest(self.given[name])[:length]

    def arguments(self) -> list[str]:
        taken = (
            param for param in self.call.parameters if not re.search(r"(^|_)(length|bytes|needed|places)$", param.name)
        )
        return [self.argument(parameter) for parameter in taken]

    # ---- what the call gives

    def joined(self) -> bytes | None:
        """The text that the call writes, or None if it writes none."""
        if self.case.call == "originating_identity" and self.gives:
            return (self.gives["platform"] or b"") + (self.gives["object"] or b"")
        if self.case.call in LENGTHS and self.gives:
            variables = STRUCTS[f"struct osb_{LENGTHS[self.case.call]}"].variables
            return b"".join(self.gives[variable.name] or b"" for variable in variables if variable.type == "size_t")
        return self.gives.get("text")

    def plans(self) -> list[list[bytes]]:
        return [plan.split(b" ") for plan in (self.gives["plans"] or b"").split(b", ") if plan]

    def returned(self) -> str:
        """What the call returns."""
        if self.call.given == "uint32_t":
            return f"OSB_{self.case.status}"
        if self.call.given == "void":
            return "0"
        (result,) = self.gives
        if self.call.given == "bool":
            return flag(self.gives[result])
        word = self.word(result)
        enum = {"work": "work", "names": "target"}.get(result, "state")
        return number_in(enum, word) if self.call.given == "uint8_t" else word

    def values(self) -> Iterator[tuple[str, Any]]:
        """The members of `out` that the call writes, each with its value."""
        gives, call = self.gives, self.case.call
        if call.startswith("platform_driver_"):
            yield from self.platform_values()
            return
        if call.startswith("update_driver_"):
            yield from self.update_driver_values()
            return
        if call in LENGTHS:
            lengths = {name: len(text or b"") for name, text in gives.items()}
            flags = {name: gives.get(name) == b"yes" for name in FLAGS}
            has = {f"has_{name}": text is not None for name, text in gives.items()}
            yield LENGTHS[call], {**lengths, **flags, **has, "longest_poll": int(gives.get("longest_poll") or 0)}
        if call == "read_answer":
            yield "answer", {"status": self.word("status"), "body": self.word("read")}
        if call == "asked_request":
            ids = {"id": self.cell("id"), "service": gives["service_id"], "plan": gives["plan_id"]}
            yield "request", {"kind": self.word("kind"), "accepts_incomplete": self.given["accepts"] == b"yes", **ids}
        if call == "receive_update_request":
            yield "update_asked", self.update_asked()
        elif call.startswith("receive_"):
            ids = {"id": gives["binding" if "binding" in gives else "instance"]}
            ids |= {"service": gives["service"], "plan": gives["plan"]}
            has = {f"has_{name}": gives[name] is not None for name in ("service", "plan")}
            asked = {"kind": self.word("kind"), "accepts_incomplete": gives["accepts"] == b"yes", **has, **ids}
            if "is_fetch" in gives:
                is_fetch = gives["is_fetch"] == b"yes"
                yield "binding_asked", {"is_fetch": is_fetch, "instance": gives["instance"], "asked": asked}
            else:
                yield "asked", asked
        if "committed" in gives:
            yield "transaction", self.transaction()
            return
        yield from ((name, of(gives[name] or b"")) for name, of in OF_CELLS.items() if name in gives)
        yield from ((name, gives[name]) for name in ("id", "retrievable") if name in gives and call not in LENGTHS)
        yield from (("retrievable", gives[name]) for name in ("numbers", "sound") if name in gives)
        if "seconds" in gives:
            yield "seconds", self.word("seconds")

    def update_asked(self) -> Value:
        """What doesn't count in it is zeroes."""
        gives = self.gives
        ids = {name: gives[name] for name in ("service", "plan")}
        if gives["is_fetch"] == b"yes":
            has = {f"has_{name}": text is not None for name, text in ids.items()}
            return {"is_fetch": True, "id": gives["instance"], **ids, **has}
        digests = [gives[name] and bytes.fromhex(self.word(name)) for name in ("parameters_digest", "version_digest")]
        change = change_of(api.cases.Settings(ids["plan"], *digests))
        update = {"service": ids["service"], "change": change, "number": self.word("update_number")}
        return {"id": gives["instance"], "update": {**update, "accepts_incomplete": gives["accepts"]}}

    def update_driver_values(self) -> Iterator[tuple[str, Value]]:
        """The same of a call of a driver of an instance that can be updated."""
        if "update_driver" in self.gives:
            yield "update_driver", update_driver_of(self.gives["update_driver"] or b"")
        if "update_committed" in self.gives:
            yield "update_transaction", self.update_transaction()

    def transaction(self) -> Value:
        drivers = {name: OF_CELLS["driver"](self.gives[name] or b"") for name in ("committed", "unsure")}
        return {**self.row_and_event(), **drivers}

    def update_transaction(self) -> Value:
        drivers = {name: update_driver_of(self.gives[f"update_{name}"] or b"") for name in ("committed", "unsure")}
        change = update_holding_of(self.gives["update_holding"] or b"")
        return {**self.row_and_event(), **drivers, "change": change, "writes_change": self.gives["writes_change"]}

    def row_and_event(self) -> Value:
        """What a transaction of a broker's driver has beside its drivers."""
        effect, *words = self.word("effect").split()
        number = api.cases.digest(self.gives["number"])[:16]
        row = {"holding": holding_of(self.gives["holding"] or b""), "number": number}
        outcomes = {"end": "outcome", "end-update": "update_outcome"}
        outcome = {outcomes[effect]: words[0]} if effect in outcomes else {}
        flags = {"ok": words == ["ok"], "writes": self.gives["writes"] == b"yes"}
        return {**row, "effect": effect, **outcome, **flags}

    def platform_values(self) -> Iterator[tuple[str, Value]]:
        """The same of a call of a platform's driver."""
        if "driver" in self.gives:
            yield "platform_driver", platform_driver_of(self.gives["driver"] or b"")
        if "committed" in self.gives:
            yield "platform_transaction", self.platform_transaction()

    def platform_transaction(self) -> Value:
        did = self.word("effects").replace("-", "_").split()
        drivers = {name: platform_driver_of(self.gives[name] or b"") for name in ("committed", "unsure", "failed")}
        return {
            **some_record_of("record", self.gives["record"] or b""),
            "number": api.cases.digest(self.gives["number"])[:16],
            **drivers,
            "cleans_up": next((name for name in did if f"clean_up {name.upper()}" in NUMBERS), "none"),
            "writes": self.gives["writes"],
            **dict.fromkeys(did, True),
        }

    def then(self) -> Iterator[str]:
        """What is so after the call."""
        text = self.joined()
        if text is not None:
            yield f"is_written({self.text(text)})"
        for name, value in self.values():
            kind = {short: of for of, short in WRITTEN.items()}.get(name, f"struct osb_{name}")
            yield from same(f"out.{name}", kind, value)
        if self.case.call == "originating_identity":
            yield f"out.platform == {len(self.gives['platform'] or b'')}"
        if "allowed" in self.gives:
            yield f"out.allowed == {number_in('allowed', self.word('allowed'))}"
        if "digest" in self.gives:
            yield from same("out.digest", "uint8_t", bytes.fromhex(self.word("digest")), 32)
        if "error" in self.gives and self.case.call not in LENGTHS:
            yield f'ends_with("\\"error\\":\\"{self.word("error")}\\"}}")'
        if "plans" in self.gives:
            yield from self.then_plans()

    def then_plans(self) -> Iterator[str]:
        yield f"out.needed == {len(self.plans())}"
        for at, (service, plan, mode) in enumerate(self.plans()):
            value = {"service": service, "plan": plan, "is_asynchronous": mode == b"async"}
            yield from same(f"out.plans[{at}]", "struct osb_plan", value)
        yield f"memcmp(out.plans + {len(self.plans())}, before.plans + {len(self.plans())}, sizeof out.plans[0]) == 0"

    def lines(self) -> Iterator[str]:
        taken = ", ".join(self.arguments())
        call = f"{self.call.name}({taken})"
        calls = [
            f"{self.argument(of)[1:]} = {self.constant(of.type, literal(of.type, self.value(of.name, of.type)))};"
            for of in self.call.parameters
            if of.type in CHANGED and not of.const and CHANGED[of.type] in self.given
        ]
        calls += [f"CALL({self.returned()}, {f'({call}, 0)' if self.call.given == 'void' else call});"]
        calls += [f"THEN({value});" for value in (self.then() if self.case.status == "DONE" else ())]
        length = len(self.plans()) if "plans" in self.gives else len(self.joined() or b"")
        if length:
            less = taken.replace("INTO", f"out.text, {length - 1}, &out.needed").replace("PLANS", str(length - 1))
            calls += [f"CALL(OSB_TOO_SMALL, {self.call.name}({less}));", f"THEN(out.needed == {length});"]
        source = f'source = "api/cases.txt, line {self.case.line}";'
        yield from ("    {", *(f"        {line}" for line in [*self.constants, source, *calls]), "    }")


def write(to: Path) -> None:
    """Writes a function for each call, and call_cases, which calls all of them."""
    lines: list[str] = []
    functions = []
    for call, found in itertools.groupby(cases(), lambda case: case.call):
        functions.append(f"case_{call}")
        lines += [f"static void case_{call}(void)", "{"]
        lines += [line for case in found for line in CaseText(case).lines()]
        lines += ["}", ""]
    lines += ["static void call_cases(void)", "{", *(f"    {function}();" for function in functions), "}", ""]
    to.write_text("\n".join(lines), encoding="ascii")
