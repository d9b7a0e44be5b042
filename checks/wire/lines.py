"""Lines at random, some at once: what a call is asked of a whole text, and of others with an edit or two."""

from __future__ import annotations

import base64
import json

from hypothesis import strategies as st
from wire import texts
from wire.model import FLAGS, number_of
from wire.texts import IDS, IN_BODY, IN_PROVISION, IN_TARGET, SOUND_VALUE, joined, members, variants

# How many lines there are at once.
AT_ONCE = 20
IN_HEADER = b"A=+/ -_b"
NAMED_IDS = IDS.filter(lambda text: number_of(text) is not None)
# The last but one is the number of the one before it.
FEW_IDS = ["s", "t", "postgres", "a942b37c-cfaf-5a81-3b14-32caa209a43b", "00000000-0000-0000-0000-00000000000A"]
SEEDS = st.integers(0, 2**32 - 1)
ANY_TEXT = st.characters(blacklist_categories=["Cs"])
Lines = st.SearchStrategy[list[str]]


def hexed(text: bytes | str) -> str:
    return f"hex:{(text.encode() if isinstance(text, str) else text).hex()}"


def some(line: st.SearchStrategy[str]) -> Lines:
    """Lines of which each is drawn by itself."""
    return st.lists(line, min_size=AT_ONCE, max_size=AT_ONCE)


def changed(calls: list[str], wholes: st.SearchStrategy[bytes], of: bytes) -> Lines:
    """Lines of one of these calls, with the variants of a text."""
    return st.builds(
        lambda call, whole, seed: [f"{call} {hexed(variant)}" for variant in variants(whole, of, seed, AT_ONCE)],
        st.sampled_from(calls),
        wholes,
        SEEDS,
    )


# ---- requests


def changed_request(asked: texts.Asked, seed: int, prefix: str) -> list[str]:
    """Lines with the variants of the target, or of the body."""
    method, target, body, longest = asked
    if prefix != "-":
        target = target.replace(b"/v2", b"/broker/v2", 1)
    pairs = [(variant, body) for variant in variants(target, IN_TARGET, seed, AT_ONCE)]
    if body and seed % 2 == 0:
        pairs = [(target, variant) for variant in variants(body, IN_PROVISION, seed, AT_ONCE)]
    return [f"request {prefix} {longest} {method} {hexed(one)} {hexed(other)}" for one, other in pairs]


def changed_requests(wholes: st.SearchStrategy[texts.Asked]) -> Lines:
    return st.builds(changed_request, wholes, SEEDS, st.sampled_from(["-"] * 5 + ["/broker"]))


REQUESTS = changed_requests(texts.WHOLE_REQUESTS)
NUMBERS = some(st.builds(lambda text: f"id {hexed(text)}", IDS))
KINDS = st.sampled_from(["provision", "deprovision", "poll"])
SENT = some(
    st.builds(lambda kind, *ids: " ".join(["named", kind, *map(hexed, ids)]), KINDS, NAMED_IDS, NAMED_IDS, NAMED_IDS)
)

# ---- bodies

PARTS = changed(["member parameters", "member context", "digest"], texts.PROVISIONS, IN_PROVISION)
PARAMETERS = changed(["parameters"], SOUND_VALUE.map(str.encode), IN_BODY)
CONFLICTS = changed(
    ["conflict 1.0", "conflict 2.0", "conflict -"],
    members(
        ["maintenance_info", "maintenance_info", "vendor"], texts.VERSIONS | texts.VERSIONS | SOUND_VALUE, 1, 3
    ).map(lambda pairs: joined(pairs, ",").encode()),
    IN_BODY,
)

# ---- answers

SAID = st.sampled_from(['"No quota is left."', '"\\u00e9\\n"', "true", "false", '{"labels":{"b":1.0,"a":"é"}}'])
SAYING = members(
    ["description", "error", "dashboard_url", "operation", "metadata", "instance_usable", "update_repeatable"],
    SAID | SAID | SOUND_VALUE,
    3,
    9,
).map(lambda pairs: joined(pairs, ",").encode())
DETAILS = changed(["details"], SAYING, IN_BODY)
WORDS = ["error"] * 4 + ["AsyncRequired", "ConcurrencyError", "failed", "failed", "succeeded", "in-progress", "empty"]


DESCRIPTIONS = st.one_of(
    st.text(ANY_TEXT, max_size=30), st.builds(str.__mul__, st.sampled_from("aé\U0001f600\n"), st.integers(990, 1010))
)
ANSWERS = some(
    st.builds(
        lambda status, word, said: f"answer {status} {word} {hexed(said)}",
        st.sampled_from([200, 202, 400, 404, 409, 410, 422, 500, 503, 599]),
        st.sampled_from(WORDS),
        DESCRIPTIONS,
    )
)

# ---- headers

OBJECTS = st.sampled_from(['{"user_id":"x"}'] * 4 + ["{}", '{"a":"é"}', "[]", '{"a":1e999}', '{"a":', '{"a":1,"a":{}}'])
PLATFORMS = st.sampled_from(["cloudfoundry", "kubernetes"] * 2 + ["", "a_b"])
BLANKS = st.sampled_from([" "] * 8 + ["", "  ", "\t"])
IDENTITIES = changed(
    ["identity"],
    st.builds(
        lambda platform, blank, text: f"{platform}{blank}{base64.b64encode(text.encode()).decode()}".encode(),
        PLATFORMS,
        BLANKS,
        OBJECTS,
    ),
    IN_HEADER,
)
REQUEST_IDENTITIES = some(st.builds(lambda text: f"request-identity {hexed(text)}", st.text(ANY_TEXT, max_size=5)))

# ---- catalogues


@st.composite
def entries(draw: st.DrawFn, plans: bool, name: str) -> dict[str, object]:
    """A service or a plan, of which a member may be missing or of another type."""
    made: dict[str, object] = {"id": draw(st.sampled_from(FEW_IDS) | NAMED_IDS), "name": name, "description": "d"}
    for flag in [*FLAGS][: 2 if plans else 4]:
        if draw(st.sampled_from([True] + [False] * 4)) or flag == "bindable" and not plans:
            made[flag] = draw(st.sampled_from([False] * 6 + [True, "x"]))
    if plans and draw(st.booleans()):
        made[draw(st.sampled_from(["asynchronous", "x-osb-asynchronous"]))] = draw(
            st.sampled_from([True, False] * 4 + [1, None])
        )
    if plans and draw(st.booleans()):
        made["maintenance_info"] = draw(st.sampled_from([{"version": "1.0"}, {"version": 1}, "1.0"]))
    if draw(st.sampled_from([True] + [False] * 9)):
        name = draw(st.sampled_from([*made]))
        made[name] = draw(st.sampled_from(["", 1, None]))
        if made[name] is None:
            del made[name]
    return made


@st.composite
def documents(draw: st.DrawFn) -> bytes:
    services = []
    for at in range(draw(st.sampled_from([1, 1, 2, 3, 0]))):
        service = draw(entries(False, draw(st.sampled_from([f"s{at}"] * 8 + ["s0"]))))
        many = draw(st.sampled_from([1, 1, 2, 2, 3, 0]))
        service["plans"] = [draw(entries(True, draw(st.sampled_from([f"p{at}"] * 8 + ["p0"])))) for at in range(many)]
        if draw(st.integers(0, 30)) == 30:
            service["plans"] = draw(st.sampled_from([{}, "x", [1]]))
        services.append(service)
    made: dict[str, object] = {"services": services, "x": 1.5}
    if draw(st.booleans()):
        made["x-osb-tombstones"] = draw(st.sampled_from([True, False, 1]))
    return json.dumps(made, ensure_ascii=draw(st.booleans())).encode()


ENDPOINTS = ["-", "b", "ub", "bi", "uif", "ubif", "ubif"]
KEPT = changed([f"document {letters}" for letters in ENDPOINTS], documents(), IN_PROVISION)
OF_DOCUMENTS = changed(["plans", "served", "version s s", "version postgres t"], documents(), IN_PROVISION)
CATALOGUES = [
    "/v2",
    "/v2",
    "//v2",
    "/broker/v2",
    "//broker/v2",
    "http://host/v2",
    "HTTPS://host/broker/v2",
    "http://v2",
]
TARGETS = st.builds(
    lambda front, end, places: texts.escaped(f"{front}/catalog{end}", places).encode(),
    st.sampled_from(CATALOGUES),
    st.sampled_from(["", "", "/", "?x=/", "/?", "//", "/x", "ue"]),
    st.just(set()) | texts.PLACES,
)
ASKS = changed(["asks -", "asks /broker"], TARGETS, IN_TARGET)

# Each with how many examples of some lines are compared.
LINES: dict[str, tuple[Lines, int]] = {
    "requests": (REQUESTS, 50),
    "ids": (NUMBERS, 20),
    "written requests": (SENT, 20),
    "parts": (PARTS, 50),
    "parameters": (PARAMETERS, 50),
    "conflicts": (CONFLICTS, 20),
    "details": (DETAILS, 50),
    "descriptions": (ANSWERS, 20),
    "identities": (IDENTITIES, 50),
    "identities of requests": (REQUEST_IDENTITIES, 10),
    "catalogues": (KEPT, 50),
    "plans, versions and served catalogues": (OF_DOCUMENTS, 50),
    "targets of catalogues": (ASKS, 20),
}
