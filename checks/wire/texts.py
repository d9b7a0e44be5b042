"""Bodies and targets: whole ones, and such with bytes that are missing, added or replaced."""

from __future__ import annotations

import json
import random
import urllib.parse
from collections.abc import Iterator, Sequence
from typing import NamedTuple

from hypothesis import strategies as st

KINDS = ["provision", "deprovision", "poll"]
STATUSES = [*[200] * 20, *[201, 202, 422] * 8, 199, 203, 204, 399, *range(400, 434), 499, 500, 502, 503, 600]
VALUES = [
    '"state"',
    '"error"',
    '"succeeded"',
    '"failed"',
    '"in progress"',
    '"AsyncRequired"',
    '"ConcurrencyError"',
    '"x"',
    "1",
    "-0",
    "1e5",
    "1e400",
    "123456789012345678901",
    "0.1",
    "true",
    "null",
    "{}",
    "[]",
    "[1,2]",
    '{"state":"failed"}',
    '"\\u0061"',
    '"st\\u0061te"',
    '"\\ud800"',
    '"\\ud83d\\ude00"',
    '"é"',
    '"\\n"',
    '"\\u0001\\b\\\\\\"\\/\\u007f"',
    "1.50",
    "0.1E+2",
    "false",
    "NaN",
    "01",
    '""',
]
# A body with one of these isn't taken.
ODD = ["1e400", '"\\ud800"', "NaN", "01"]
NAMES = [
    '"state"',
    '"error"',
    '"st\\u0061te"',
    '"description"',
    '"a"',
    '"err\\u006fr"',
    '""',
    '"é"',
    '"\\uffff"',
    '"\\ud83d\\ude00"',
]
# The bytes that are added to a body, to a target, and to the body of a Provision.
IN_BODY = b'{}[]",:\\ \x00\xff\xc3a1-.eE\r'
IN_TARGET = b"/?&=%+-0aZ\xff\xc3\xa9"
IN_PROVISION = b'{}[]",:\\ "a0-'
BYTE_ORDER_MARK = b"\xef\xbb\xbf"


# ---- edits


def edited(whole: bytes, edits: list[tuple[str, int, int]]) -> bytes:
    """The bytes after each edit: a byte is deleted, inserted or replaced."""
    made = bytearray(whole)
    for what, place, byte in edits:
        at = place % (len(made) + 1)
        if what == "insert":
            made.insert(at, byte)
        elif at < len(made):
            made[at : at + 1] = bytes([byte] if what == "replace" else [])
    return bytes(made)


def edits(of: bytes) -> st.SearchStrategy[list[tuple[str, int, int]]]:
    """None, one or two edits."""
    kind = st.sampled_from(["delete", "insert", "replace"])
    return st.lists(st.tuples(kind, st.integers(0, 400), st.sampled_from([*of])), max_size=2)


def variants(whole: bytes, of: bytes, seed: int, many: int) -> list[bytes]:
    """The bytes themselves, and others with one edit to three, which the seed chooses."""
    chance = random.Random(seed)
    made = [whole]
    while len(made) < many:
        changes = [
            (chance.choice(["delete", "insert", "replace"]), chance.randrange(len(whole) + 1), chance.choice(of))
            for _ in range(chance.choice([1, 1, 1, 2, 3]))
        ]
        made.append(edited(whole, changes))
    return made


def neighbours(whole: bytes, of: bytes) -> Iterator[bytes]:
    """The bytes themselves, each beginning of them, and what each edit of one byte makes of them."""
    yield whole
    for at in range(len(whole)):
        yield whole[:at]
        yield whole[:at] + whole[at + 1 :]
        for byte in of:
            yield whole[:at] + bytes([byte]) + whole[at + 1 :]
    for at in range(len(whole) + 1):
        for byte in of:
            yield whole[:at] + bytes([byte]) + whole[at:]


# ---- bodies of answers


# A name, a colon and a value, as they are written.
Member = tuple[str, str, str]


def joined(pairs: Sequence[Member], comma: str) -> str:
    return "{" + comma.join("".join(pair) for pair in pairs) + "}"


def objects(values: st.SearchStrategy[str]) -> st.SearchStrategy[str]:
    pair = st.tuples(st.sampled_from(NAMES), st.sampled_from([":", " : ", "\t:"]), st.sampled_from(VALUES[:8]) | values)
    return st.builds(joined, st.lists(pair, max_size=4), st.sampled_from([",", " ,", ", "]))


def nested(values: st.SearchStrategy[str]) -> st.SearchStrategy[str]:
    arrays = st.lists(values, max_size=2).map(lambda them: "[" + ",".join(them) + "]")
    return arrays | objects(values)


VALUE = st.recursive(st.sampled_from(VALUES), nested, max_leaves=6)
SOUND_VALUE = st.recursive(st.sampled_from([value for value in VALUES if value not in ODD]), nested, max_leaves=6)
OBJECT = objects(VALUE)
WHOLE_BODY = st.one_of(OBJECT, OBJECT, OBJECT, VALUE).map(str.encode)
MARK = st.sampled_from([b""] * 30 + [BYTE_ORDER_MARK])
BODY = st.builds(lambda mark, whole, changes: bytes(mark + edited(whole, changes)), MARK, WHOLE_BODY, edits(IN_BODY))


# ---- requests


def cased(number: int, mask: int) -> str:
    """A GUID, of which the digits that the mask has are capitals."""
    digits = "".join(digit.upper() if mask >> at & 1 else digit for at, digit in enumerate(f"{number:032x}"))
    return "-".join((digits[:8], digits[8:12], digits[12:16], digits[16:20], digits[20:]))


GUIDS = st.builds(cased, st.integers(0, 2**128 - 1), st.sampled_from([0, 0, 2**32 - 1, 0xA5A5A5A5]))
# Texts that are ids, and some that are none: empty, a dot segment, one byte too long.
NAMES_OF_IDS = st.sampled_from(
    [
        "postgres-small",
        "a b",
        "a/b",
        "a%b?c",
        "~é",
        "\U0001f600",
        "x" * 255,
        "é" * 127 + "x",
        ".",
        "..",
        "...",
        "",
        "x" * 256,
    ]
)
IDS = GUIDS | GUIDS | NAMES_OF_IDS | st.text(st.characters(blacklist_categories=["Cs"]), max_size=6)


def quoted(text: str) -> str:
    """The text with escapes for all that a target can't carry."""
    return urllib.parse.quote(text, safe="")


def escaped(text: str, places: set[int]) -> str:
    return "".join(f"%{ord(c):02X}" if at in places else c for at, c in enumerate(text))


PLACES = st.sets(st.integers(0, 40), max_size=3)
EQUALS = st.sampled_from(["="] * 20 + ["==", "=%20", "=+"])
FURTHER = st.sampled_from(["", "x=1", "operation=a%20b", "operation=", "y", "%zz=1", "%ff=2", "service_id"])


@st.composite
def parameters(draw: st.DrawFn, name: str) -> list[str]:
    """The parameter of this name: mostly once, at times never or twice."""
    values = IDS.map(quoted) if name != "accepts_incomplete" else st.sampled_from(["true", "false"] * 5 + ["True", ""])
    return [
        escaped(name, draw(PLACES)) + draw(EQUALS) + escaped(draw(values), draw(PLACES))
        for _ in range(draw(st.sampled_from([1] * 12 + [0, 2])))
    ]


@st.composite
def queries(draw: st.DrawFn) -> str:
    made = [part for name in ("service_id", "plan_id", "accepts_incomplete") for part in draw(parameters(name))]
    made += draw(st.lists(FURTHER, max_size=2))
    return draw(st.sampled_from(["&"] * 20 + ["&&", ";"])).join(draw(st.permutations(made)))


class Asked(NamedTuple):
    """A request as HTTP has it, and the longest body that is read."""

    method: str
    target: bytes
    body: bytes
    longest: int


VERSIONS = st.sampled_from(
    ['{"version":"1.0"}', '{"version":"2.0"}', '{"version":2}', '{"version":"1.0","version":"2.0"}']
)


def members(
    names: Sequence[str], values: st.SearchStrategy[str], least: int, most: int
) -> st.SearchStrategy[list[Member]]:
    """So many members of these names, each as often as it may be."""
    return st.lists(
        st.tuples(st.sampled_from([json.dumps(name) for name in names]), st.sampled_from([":", " : "]), values),
        min_size=least,
        max_size=most,
    )


IN_PROVISIONS = members(
    ["parameters", "parameters", "context", "maintenance_info", "vendor", "space_guid"], SOUND_VALUE | VERSIONS, 1, 4
)


@st.composite
def bodies(draw: st.DrawFn, names: str, further: st.SearchStrategy[list[Member]], sound: int) -> bytes:
    """The body of a request with these texts, of which one is seldom wrong, and with further members."""
    made = {name: draw(IDS) for name in names.split()}
    if draw(st.sampled_from([False] * sound + [True])):
        made[draw(st.sampled_from([*made]))] = draw(st.sampled_from(["", "x"]))
    escapes = draw(st.booleans())
    pairs = [(json.dumps(name), ":", json.dumps(text, ensure_ascii=escapes)) for name, text in made.items()]
    pairs += draw(further)
    return joined(draw(st.permutations(pairs)), draw(st.sampled_from([",", " ,", ", "]))).encode()


PROVISIONS = bodies("service_id plan_id organization_guid space_guid", IN_PROVISIONS, 4)
FRONTS = ["/v2"] * 12 + ["//v2", "///v2", "http://host:80/v2", "HTTPS://host/v2", "https://host//v2"]
INSTANCE = "/service_instances/{}"


@st.composite
def requests_at(
    draw: st.DrawFn, path: str, methods: Sequence[tuple[str, str]], strange: str, puts: st.SearchStrategy[bytes]
) -> Asked:
    """A request, mostly of a method that its target has. `methods`: each with the end of its path."""
    of, usual = draw(st.sampled_from(methods))
    method = draw(st.sampled_from([of] * 14 + ["GET", "PUT", "DELETE", "POST", "put"]))
    end = draw(st.sampled_from([usual] * 14 + ["", "/", "/last_operation", strange]))
    query = draw(st.sampled_from(["?"] * 15 + [""]))
    place = path.format(*(quoted(draw(IDS)) for _ in range(path.count("{}"))))
    target = f"{draw(st.sampled_from(FRONTS))}{place}{end}{query}{draw(queries()) if query else ''}".encode()
    body = draw(puts) if method in ("PUT", "PATCH") else b""
    return Asked(method, target, body, draw(st.sampled_from([10_000] * 15 + [200])))


OF_INSTANCES = [("GET", "/last_operation"), ("PUT", ""), ("DELETE", "")]
WHOLE_REQUESTS = requests_at(INSTANCE, OF_INSTANCES, "/service_bindings/1", PROVISIONS)


@st.composite
def requests(draw: st.DrawFn) -> Asked:
    """A request, half of whose targets and bodies are broken."""
    method, target, body, longest = draw(WHOLE_REQUESTS)
    body = edited(body, draw(edits(IN_PROVISION))) if body else body
    return Asked(method, edited(target, draw(edits(IN_TARGET))), body, longest)
