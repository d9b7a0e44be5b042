"""Lines at random, some at once: what a call is asked of a whole text, and of others with an edit or two."""

from __future__ import annotations

import json

from hypothesis import strategies as st
from wire import texts
from wire.lines import AT_ONCE, KINDS, NAMED_IDS, SEEDS, Lines, changed, changed_requests, hexed, some
from wire.texts import IN_BODY, IN_PROVISION, SOUND_VALUE, STATUSES, WHOLE_BODY, bodies, joined, members, variants

APPS = st.sampled_from(['{"app_guid":"a"}', '{"app_guid":""}', '{"app_guid":1}', '{"route":"r"}', '"a"', "[]"])
IN_BINDS = members(
    ["bind_resource", "parameters", "context", "predecessor_binding_id", "app_guid", "vendor"], SOUND_VALUE | APPS, 1, 5
)
# The ids of the services and of the plans of a catalogue.
SERVICES, PLANS = ["s", "t"], ["p", "q", "r"]

BINDS = bodies("service_id plan_id", IN_BINDS, 8)
METHODS = [("PUT", ""), ("DELETE", ""), ("GET", "/last_operation"), ("GET", ""), ("PUT", "")]
REQUESTS = changed_requests(texts.requests_at(f"{texts.INSTANCE}/service_bindings/{{}}", METHODS, "/x", BINDS))
SENT = some(
    st.builds(lambda kind, *ids: " ".join(["named", kind, *map(hexed, ids)]), KINDS, *[NAMED_IDS for _ in range(4)])
)

# ---- bodies

APPS_NAMED = changed(["app"], BINDS, IN_PROVISION)
OBJECTS = members(
    ["credentials", "syslog_drain_url", "route_service_url", "volume_mounts", "endpoints", "metadata"],
    SOUND_VALUE,
    1,
    5,
).map(lambda pairs: joined(pairs, ",").encode())
ANSWERS = st.builds(
    lambda kind, status, lines: [f"answer {kind} {status} {line.partition(' ')[2]}" for line in lines],
    st.sampled_from(["provision"] * 3 + ["deprovision", "poll"]),
    st.sampled_from([200, 201, 202, 204, 400, 409, 422, 500]) | st.sampled_from(STATUSES),
    changed(["stored"], OBJECTS | WHOLE_BODY, IN_BODY),
)
FETCHED = changed(["fetched 200", "fetched 200", "fetched 201", "fetched 404"], OBJECTS | WHOLE_BODY, IN_BODY)


@st.composite
def stored(draw: st.DrawFn) -> list[str]:
    """Lines of texts that a broker has stored."""
    wholes = variants(draw(OBJECTS | WHOLE_BODY), b'{}[]",:\\ 01-.eE', draw(SEEDS), AT_ONCE)
    return [f"stored {hexed(whole)}" for whole in wholes]


# ---- catalogues


@st.composite
def flagged(draw: st.DrawFn, names: list[str], text: str) -> dict[str, object]:
    """A service or a plan, of which a flag may be missing or of another type."""
    made: dict[str, object] = {"id": draw(st.sampled_from([text] * 30 + ["", 1]))}
    for name in names:
        if draw(st.sampled_from([True, True, False])):
            made[name] = draw(st.sampled_from([True, True, True, False] * 8 + [1]))
    return made


@st.composite
def documents(draw: st.DrawFn) -> bytes:
    flags = ["bindable", "x-osb-asynchronous-bindings"]
    services = []
    for text in SERVICES[: draw(st.sampled_from([1, 2, 2, 0]))]:
        service = draw(flagged([*flags, "bindings_retrievable"], text))
        many = draw(st.sampled_from([1, 2, 3, 3, 0]))
        texts = [draw(st.sampled_from([plan] * 12 + ["p"])) for plan in PLANS[:many]]
        service["plans"] = [draw(flagged(flags, content)) for content in texts]
        if draw(st.integers(0, 30)) == 30:
            service["plans"] = draw(st.sampled_from([{}, "x", [1]]))
        services.append(service)
    return json.dumps({"services": services, "x": 1.5}).encode()


OF_DOCUMENTS = changed(
    [f"modes {service} {plan}" for service in SERVICES for plan in PLANS] + ["retrievable s", "retrievable t"],
    documents(),
    IN_PROVISION,
)

# Each with how many examples of some lines are compared.
LINES: dict[str, tuple[Lines, int]] = {
    "requests": (REQUESTS, 50),
    "written requests": (SENT, 20),
    "applications": (APPS_NAMED, 50),
    "answers": (ANSWERS, 50),
    "fetched bindings": (FETCHED, 30),
    "stored bindings": (stored(), 20),
    "modes of binding": (OF_DOCUMENTS, 50),
}
