"""Lines at random, some at once: what a call is asked of a whole text, and of others with an edit or two."""

from __future__ import annotations

import json
from collections.abc import Callable

from hypothesis import strategies as st
from update_wire.cases import FRONT, word
from wire import texts
from wire.lines import ANY_TEXT, AT_ONCE, DESCRIPTIONS, NAMED_IDS, SAYING, SEEDS, WORDS
from wire.texts import (
    IDS,
    IN_BODY,
    IN_PROVISION,
    IN_TARGET,
    SOUND_VALUE,
    STATUSES,
    VERSIONS,
    WHOLE_BODY,
    bodies,
    variants,
)

Lines = st.SearchStrategy[list[str]]

NUMBERS = st.sampled_from(["1", "5", str(2**64 - 1)] * 8 + ["0", str(2**64), "-0", "1.0", "1e0", '"5"', "null"])
NO_PARAMETERS = st.sampled_from(["{}", "null", "{ }"])
EMPTY_VERSION = st.just('{"version":""}')

Values = dict[str, st.SearchStrategy[str]]
# What may stand under each name of a body.
IN_UPDATES: Values = {
    "context": SOUND_VALUE,
    "maintenance_info": st.one_of(VERSIONS, VERSIONS, EMPTY_VERSION, SOUND_VALUE),
    "parameters": SOUND_VALUE | NO_PARAMETERS,
    "previous_values": SOUND_VALUE,
    "x-osb-update": NUMBERS,
}
IN_FETCHED: Values = {
    "dashboard_url": st.just('"http://host"') | SOUND_VALUE,
    "maintenance_info": IN_UPDATES["maintenance_info"],
    "metadata": SOUND_VALUE,
    "parameters": IN_UPDATES["parameters"],
    "x-osb-update": NUMBERS,
}


@st.composite
def named(draw: st.DrawFn, values: Values) -> list[texts.Member]:
    """Most members of these names, and seldom one of them twice."""
    names = [name for name in values if draw(st.sampled_from([True, True, False]))]
    names += draw(st.sampled_from([[]] * 5 + [[name] for name in values]))
    return [(json.dumps(name), draw(st.sampled_from([":", " : "])), draw(values[name])) for name in names]


UPDATES = bodies("service_id plan_id", named(IN_UPDATES), 8) | bodies("service_id", named(IN_UPDATES), 8)
FETCHED = st.one_of(*[bodies("service_id plan_id", named(IN_FETCHED), 8)] * 4, WHOLE_BODY)


def changed(calls: list[str], wholes: st.SearchStrategy[bytes], of: bytes) -> Lines:
    """Lines of one of these calls, with the variants of a text as the last argument."""
    return st.builds(
        lambda call, whole, seed: [f"{FRONT}{call} {word(variant)}" for variant in variants(whole, of, seed, AT_ONCE)],
        st.sampled_from(calls),
        wholes,
        SEEDS,
    )


def some(line: st.SearchStrategy[str]) -> Lines:
    """Lines of which each is drawn by itself."""
    return st.lists(line.map(FRONT.__add__), min_size=AT_ONCE, max_size=AT_ONCE)


def whole(calls: list[str], wholes: st.SearchStrategy[bytes]) -> Lines:
    """Lines of these calls, each with a text of its own as the last argument."""
    return some(st.builds(lambda call, text: f"{call} {word(text)}", st.sampled_from(calls), wholes))


# ---- requests


def changed_request(asked: texts.Asked, seed: int, prefix: str) -> list[str]:
    """Lines with the variants of the target, or of the body."""
    method, target, body, longest = asked
    target = target.replace(b"/v2", f"{prefix}/v2".encode(), 1)
    pairs = [(variant, body) for variant in variants(target, IN_TARGET, seed, AT_ONCE)]
    if body and seed % 3:
        pairs = [(target, variant) for variant in variants(body, IN_PROVISION, seed, AT_ONCE)]
    return [f"{FRONT}request {method} {longest} {word(prefix)} {word(one)} {word(other)}" for one, other in pairs]


def request(asked: texts.Asked) -> str:
    return " ".join(["request", asked.method, str(asked.longest), "''", word(asked.target), word(asked.body)])


METHODS = [("PATCH", ""), ("PATCH", ""), ("GET", "")]
WHOLE_REQUESTS = texts.requests_at(texts.INSTANCE, METHODS, "/service_bindings/1", UPDATES)
REQUESTS = st.builds(changed_request, WHOLE_REQUESTS, SEEDS, st.sampled_from([""] * 5 + ["/broker"]))
OF_PARTS = ["parts 0", "parts 5"]


# ---- what is written

GIVEN_TEXTS = st.none() | st.text(ANY_TEXT, max_size=6)
JSON_TEXTS = st.one_of(st.none(), SOUND_VALUE, SOUND_VALUE, NO_PARAMETERS, st.sampled_from(["", "{", "[1,]", "1e400"]))
FEW_NUMBERS = st.sampled_from([0, 0, 1, 5, 2**64 - 1])
PREFIXES = st.sampled_from(["", "", "/broker", "/é b"])
MOSTLY_IDS = st.one_of(*[NAMED_IDS] * 7, IDS)


def line_of(call: str) -> Callable[..., str]:
    """A line of a call, with these arguments as words."""
    return lambda *arguments: " ".join([call, *(told(argument) for argument in arguments)])


def told(argument: object) -> str:
    if isinstance(argument, bool):
        return str(argument).lower()
    return word(argument) if argument is None or isinstance(argument, str) else str(argument)


ACCEPTS = st.sampled_from(["accepts", "refuses"])
SENT = some(
    st.builds(
        line_of("update"),
        *(PREFIXES, ACCEPTS, FEW_NUMBERS, MOSTLY_IDS, MOSTLY_IDS, st.none() | MOSTLY_IDS),
        *(JSON_TEXTS, GIVEN_TEXTS, JSON_TEXTS),
    )
)
FETCHES = some(st.builds(line_of("fetch"), PREFIXES, MOSTLY_IDS, MOSTLY_IDS, MOSTLY_IDS))
TOLD = some(
    st.builds(
        line_of("write-fetched"),
        *(FEW_NUMBERS, NAMED_IDS, NAMED_IDS),
        *(JSON_TEXTS, GIVEN_TEXTS, GIVEN_TEXTS, JSON_TEXTS),
    )
)
OPERATIONS = GIVEN_TEXTS | st.builds(str.__mul__, st.sampled_from("aé"), st.integers(9_999, 10_001))
SUCCESSES = some(
    st.builds(line_of("success"), st.sampled_from([200, 201, 202, 202, 204]), OPERATIONS, GIVEN_TEXTS, JSON_TEXTS)
)
FLAGS = st.sampled_from([None, True, False])
FAILURES = some(
    st.builds(
        line_of("failure"),
        *(st.sampled_from([200, 400, 409, 422, 500, 503, 599]), st.sampled_from([*WORDS, "malformed"])),
        *(st.none() | DESCRIPTIONS, FLAGS, FLAGS),
    )
)
DIGESTS = some(st.builds(line_of("digest"), st.text(ANY_TEXT, max_size=80)))


# ---- what is read of answers

ANSWERS = st.builds(
    lambda status, lines: [line.replace(" answer ", f" answer {status} ", 1) for line in lines],
    st.sampled_from([200, 202, 400, 409, 422, 422, 500]) | st.sampled_from(STATUSES),
    changed(["answer"], SAYING | WHOLE_BODY, IN_BODY),
)
OF_REPORTS = ["fetched 200"] * 6 + ["fetched 201", "fetched 404"]


# ---- catalogues

SERVICES, PLANS, MODES = ["s", "t"], ["p", "q", "r"], ["sync", "async"]
SAYS: list[object] = [True, True, False]
ODD: list[object] = [1, "true", None]
LONGEST: list[object] = [0, 60, 2**64 - 1] * 3 + [2**64, -1, 1.5, "60", None]


@st.composite
def flagged(draw: st.DrawFn, text: str, values: dict[str, list[object]]) -> dict[str, object]:
    """A service or a plan, of which a member may be missing."""
    made: dict[str, object] = {"id": draw(st.sampled_from([text] * 20 + ["", 1]))}
    for name, some_values in values.items():
        if draw(st.booleans()):
            made[name] = draw(st.sampled_from(some_values))
    return made


IN_SERVICES: dict[str, list[object]] = {
    "plan_updateable": SAYS * 4 + ODD,
    "instances_retrievable": SAYS * 4 + ODD,
}
IN_PLANS: dict[str, list[object]] = {
    "plan_updateable": SAYS * 4 + ODD,
    "x-osb-asynchronous-updates": SAYS * 4 + ODD,
    "maximum_polling_duration": LONGEST,
    "maintenance_info": [{"version": "1.0"}, {"version": "2.0"}, {"version": ""}, {"version": 1}, "1.0"],
}


OF_SERVICES: list[list[str]] = [["s"], ["s"], ["s", "t"], ["s", "s"], ["t", "s"], []]
OF_A_SERVICE: list[list[str]] = [["p", "q"], ["p", "q", "r"], ["q", "p", "p"], ["p"], []]


@st.composite
def documents(draw: st.DrawFn) -> bytes:
    services = []
    for text in draw(st.sampled_from(OF_SERVICES)):
        service = draw(flagged(text, IN_SERVICES))
        plans = draw(st.sampled_from(OF_A_SERVICE))
        service["plans"] = [draw(flagged(plan, IN_PLANS)) for plan in plans]
        if draw(st.integers(0, 30)) == 30:
            service["plans"] = draw(st.sampled_from([{}, "x", [1]]))
        services.append(service)
    made: dict[str, object] = {"services": services, "x": 1.5}
    if draw(st.booleans()):
        made["x-osb-updates"] = draw(st.sampled_from([*SAYS, *ODD]))
    return json.dumps(made).encode()


OF_DOCUMENTS = ["numbers", "sound", "sound", "served"]
OF_DOCUMENTS += [f"plan {service} {plan}" for service in SERVICES for plan in PLANS]
ASKED = ["s p q"] * 6 + [f"s {held} {asked}" for held in PLANS for asked in PLANS]
OF_PLANS = [f"allowed {plans} {version} {mode}" for plans in ASKED for version in ("-", "1.0") for mode in MODES]

# Each with how many examples of some lines are compared.
LINES: dict[str, tuple[Lines, int]] = {
    "requests": (some(WHOLE_REQUESTS.map(request)), 30),
    "changed requests": (REQUESTS, 50),
    "parts": (whole(OF_PARTS, UPDATES), 10),
    "changed parts": (changed(OF_PARTS, UPDATES | WHOLE_BODY, IN_PROVISION), 20),
    "written Updates": (SENT, 20),
    "written Fetches": (FETCHES, 10),
    "changed answers": (ANSWERS, 30),
    "written successes": (SUCCESSES, 10),
    "written failures": (FAILURES, 10),
    "reports of settings": (whole(OF_REPORTS, FETCHED), 20),
    "changed reports": (changed(OF_REPORTS, FETCHED, IN_BODY), 30),
    "written reports": (TOLD, 20),
    "digests of versions": (DIGESTS, 5),
    "documents": (whole(OF_DOCUMENTS, documents()), 20),
    "changed documents": (changed(OF_DOCUMENTS, documents(), IN_PROVISION), 20),
    "Updates that are allowed": (whole(OF_PLANS, documents()), 30),
}
