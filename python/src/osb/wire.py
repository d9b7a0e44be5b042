"""Requests and answers as HTTP and JSON have them (docs/wire.md). No connection is opened, and no HTTP is written.

Every body is JSON (`CONTENT_TYPE`), and a platform names `API_VERSION` in the header X-Broker-API-Version. Each call
may raise MEMORY.
"""
from __future__ import annotations

import ctypes as c
from dataclasses import dataclass

from osb._catalogues import catalogue_plans, check_catalogue, maintenance_conflict, plan_version, served_catalogue
from osb._crossing import answer_from, answer_to, id_from, id_to, longest_to, request_from, request_to, status_to
from osb._header import TARGET_NONE, CAnswer, CAsked, CDetails, CId, CReceived, CRequest
from osb._lib import lib
from osb._texts import texts_of, utf8, with_lengths, written
from osb.enums import Kind, Status, Target
from osb.errors import Refusal, check, found, text_of
from osb.ids import Id
from osb.messages import Answer, Request

CONTENT_TYPE = "application/json"
API_VERSION = "2.17"

__all__ = [
    "API_VERSION",
    "Asked",
    "CONTENT_TYPE",
    "Details",
    "Names",
    "OriginatingIdentity",
    "Parts",
    "Received",
    "Refusal",
    "api_version",
    "attributes_digest",
    "basic_auth",
    "catalogue_plans",
    "check_catalogue",
    "maintenance_conflict",
    "member_text",
    "originating_identity",
    "parameters_digest",
    "plan_version",
    "read_answer",
    "read_details",
    "read_target",
    "receive_request",
    "request_identity",
    "retry_after",
    "served_catalogue",
    "write_answer",
    "write_method",
    "write_named_body",
    "write_named_target",
]

# ---- The platform's side.


def read_answer(kind: Kind, status: int, body: bytes) -> Answer | None:
    """What a platform takes from a response to a request of the kind, from its status and all of its body. None where
    it isn't surely the broker's: a timeout is taken in its place.
    """
    answer = CAnswer()
    done = lib.osb_read_answer(Kind(kind).value, status_to(status), body, len(body), answer)
    if done == Status.NO_ANSWER:
        return None
    check(done)
    return answer_from(answer)


@dataclass(frozen=True)
class Details:
    """What the body of an answer says besides the answer.

    Each is None if the body has no member of that name and type.
    """

    description: str | None = None
    """The reason, for a person."""
    error: str | None = None
    """The code of an error, the standard's or the broker's own."""
    dashboard_url: str | None = None
    """Where the instance is managed."""
    operation: str | None = None
    """What the broker calls its operation, if that has at most 10,000 characters. A platform sends it in its Polls."""
    metadata: str | None = None
    """JSON, in the form of `Parts`."""
    instance_usable: bool | None = None
    """Whether the instance can be used after an update or a deletion that failed."""
    update_repeatable: bool | None = None
    """Whether an update that failed may be sent again."""


def read_details(body: bytes) -> Details:
    """What the body of an answer says besides the answer, to any request and with any status (sections Provisioning,
    Polling Last Operation for Service Instances, Deprovisioning and Service Broker Errors). A body that is no object
    says nothing.
    """
    read = CDetails()
    text = text_of(lib.osb_read_details, body, len(body), read)
    description, error, dashboard_url, operation, metadata = texts_of(
        text, read, "description", "error", "dashboard_url", "operation", "metadata"
    )
    return Details(
        description,
        error,
        dashboard_url,
        operation,
        metadata,
        bool(read.instance_usable) if read.has_instance_usable else None,
        bool(read.update_repeatable) if read.has_update_repeatable else None,
    )


def write_method(kind: Kind) -> str:
    """The method of a request of the kind: PUT, GET or DELETE."""
    return text_of(lib.osb_write_method, Kind(kind).value).decode()


@dataclass(frozen=True)
class Names:
    """The texts of a request's ids, as the platform and the catalogue have them.

    Each is any string of 1 to 255 bytes of UTF-8, and `Id.of_text` is its number.
    """

    instance: str
    service: str
    plan: str


def write_named_target(request: Request, names: Names, operation: str | None = None, prefix: str = "") -> str:
    """The target of a request: the path, which begins with the prefix (what the broker's URL has before /v2, with no
    `?`), and the query. The texts of the ids are escaped as a path and a query need it (sections Provisioning, Polling
    Last Operation for Service Instances and Deprovisioning). Each text must be that of the request's id, so no other
    instance is asked for. The operation is the broker's; give one to a Poll alone. Raises NOT_UTF8, NOT_INSTANCE_TEXT,
    NOT_SERVICE_TEXT, NOT_PLAN_TEXT; an instance named `.` or `..` is NOT_INSTANCE_TEXT too, since HTTP clients resolve
    such a path.
    """
    front, given, named = with_lengths(prefix), request_to(request), with_lengths(operation or "")
    texts = with_lengths(names.instance, names.service, names.plan)
    return text_of(lib.osb_write_named_target, *front, given, *texts, operation is not None, *named).decode()


def write_named_body(kind: Kind, names: Names, organization: str, space: str, further: str = "{}") -> bytes:
    """The body of a request of the kind with the texts of its ids: of a Provision an object of the service, the plan,
    the organization and the space, neither of which may be empty, and the members of `further`, the text of an object,
    as context, parameters or maintenance_info; else an empty text (section Provisioning). It doesn't compare the texts
    with a request: `write_named_target` does. Raises NOT_UTF8, NOT_JSON, NOT_AN_OBJECT.
    """
    number, texts = Kind(kind).value, with_lengths(names.service, names.plan, organization, space, further)
    return text_of(lib.osb_write_named_body, number, *texts)


def retry_after(value: str) -> int | None:
    """The seconds that a broker names in the header Retry-After, or None."""
    given, seconds = utf8(value), c.c_uint64(0)
    status = lib.osb_retry_after(given, len(given), seconds)
    if status == Status.NO_SECONDS:
        return None
    check(status)
    return seconds.value


# ---- The broker's side.


@dataclass(frozen=True)
class Asked:
    """What a request asks of a broker. Only a Poll may lack service and plan."""

    kind: Kind
    accepts_incomplete: bool
    id: Id
    service: Id | None
    plan: Id | None

    def request(self, held: tuple[Id, Id] | None) -> Request:
        """The request for a broker, with the service and the plan that are held, or None: they stand in the place of
        those that a Poll lacks. Raises BAD_ASKED where this is nothing that `receive_request` gives.
        """
        nothing = Id(0, 0)
        asked = CAsked(
            Kind(self.kind).value,
            bool(self.accepts_incomplete),
            self.service is not None,
            self.plan is not None,
            id_to(self.id),
            id_to(self.service or nothing),
            id_to(self.plan or nothing),
        )
        service, plan = held or (nothing, nothing)
        request = CRequest()
        check(lib.osb_asked_request(asked, held is not None, id_to(service), id_to(plan), request))
        return request_from(request)


@dataclass(frozen=True)
class Parts:
    """The parts of a Provision's body: JSON with no spaces, numbers as they are written, and members in their order.

    What stands inside isn't judged. Each is None if the body doesn't have it.
    """

    parameters: str | None = None
    context: str | None = None
    maintenance_info: str | None = None
    others: str | None = None
    """The object of all other members but `service_id` and `plan_id`: `organization_guid` and `space_guid` are among
    them. Every Provision has it.
    """


@dataclass(frozen=True)
class Received:
    """What a broker takes from a request."""

    asked: Asked
    """What is asked, with the number of each id."""
    instance: str
    """The text of the instance's id, as the path has it, decoded."""
    service: str | None
    """The text of the service's id. Only a Poll may lack it."""
    plan: str | None
    """The text of the plan's id. Only a Poll may lack it."""
    parts: Parts
    """The parts of a Provision's body. Other requests have none."""


def read_target(target: bytes, prefix: str = "") -> Target | None:
    """What a target names, whatever the method is and the ids are: so a broker knows which call reads the request. None
    if it is nothing that a broker serves, or if the prefix isn't UTF-8. The forms of the path are those of
    `receive_request`.
    """
    named = lib.osb_read_target(*with_lengths(prefix), target, len(target))
    return None if named == TARGET_NONE else Target(named)


def receive_request(method: str, target: bytes, body: bytes, longest_body: int, prefix: str = "") -> Received:
    """Reads what a request asks of a broker, from its method, its target (path and query, as the request line has them)
    and all of its body, with the texts of its ids and the parts of a Provision's body (sections Provisioning, Polling
    Last Operation for Service Instances and Deprovisioning). A body of more than `longest_body` bytes is refused
    unread. Raises `Refusal`, the first that fits in the order of docs/wire.md, NOT_UTF8, and ValueError if
    `longest_body` is below 0 or above `sys.maxsize`.
    """
    texts = [*with_lengths(prefix), longest_to(longest_body), *with_lengths(method)]
    asked, lengths = CAsked(), CReceived()
    text = text_of(lib.osb_receive_request, *texts, target, len(target), body, len(body), asked, lengths)
    instance, rest = text[: lengths.instance].decode(), text[lengths.instance :]
    service, plan, *parts = texts_of(
        rest, lengths, "service", "plan", "parameters", "context", "maintenance_info", "others"
    )
    return Received(asked_from(asked), instance, service, plan, Parts(*parts))


def member_text(body: bytes, name: str) -> str | None:
    """The JSON that stands under a name in the object that a body is, in the form of `Parts`. None where the body is no
    object of JSON, or has no such member. Of a name that stands twice the last counts. Raises NOT_UTF8 (name).
    """
    key = utf8(name)
    return found(Status.NO_MEMBER, lib.osb_member_text, body, len(body), key, len(key))


def attributes_digest(body: bytes) -> bytes:
    """The digest of what the body of a Provision asks for, 32 bytes, for `Holding.begin`: that of its parameters, or
    `osb.NO_ATTRIBUTES` if it has none. By it a broker tells whether a second Provision of an id is the same (section
    Provisioning). Context, organization and space don't count, which is this project's choice.
    """
    digest = c.create_string_buffer(32)
    check(lib.osb_attributes_digest(body, len(body), digest))
    return digest.raw


def parameters_digest(parameters: bytes) -> bytes:
    """The digest of the JSON of parameters, 32 bytes: the SHA-256 of the same JSON with no spaces, each number as it is
    written, and the members of each object in ascending order of their names. `{}` and `null` have `osb.NO_ATTRIBUTES`.
    All of this is this project's choice. Raises NOT_JSON.
    """
    digest = c.create_string_buffer(32)
    check(lib.osb_parameters_digest(parameters, len(parameters), digest))
    return digest.raw


def write_answer(answer: Answer, operation: str | None = None, description: str | None = None) -> bytes:
    """The body of an answer. The operation is written in a 202 alone. The description, for a person, is written for an
    error, in place of the usual sentence, and for a last operation that failed (sections Polling Last Operation for
    Service Instances and Service Broker Errors); of one with more than 1,000 characters the first 1,000, which is this
    project's choice. Raises NOT_UTF8.
    """
    given, named = answer_to(answer), (operation is not None, *with_lengths(operation or ""))
    told = (description is not None, *with_lengths(description or ""))
    return text_of(lib.osb_write_told_answer, given, *named, *told)


def api_version(value: str | None) -> None:
    """Judges the version that a platform names in the header X-Broker-API-Version, None where a request has no such
    header: 2.x, whichever. Raises `Refusal` of every other.
    """
    given = utf8(value or "")
    check(lib.osb_api_version(value is not None, given, len(given)))


def basic_auth(value: str | None, user: str, password: str) -> bool:
    """Whether the header Authorization, None where a request has no such header, names this user and this password, by
    HTTP's Basic scheme. An empty user with an empty password is never accepted. Raises NOT_UTF8.
    """
    if value is None:
        return False
    status = lib.osb_basic_auth(*with_lengths(value, user, password))
    if status == Status.UNAUTHORIZED:
        return False
    check(status)
    return True


@dataclass(frozen=True)
class OriginatingIdentity:
    """The user behind a request."""

    platform: str
    """The platform, such as `cloudfoundry` or `kubernetes`."""
    object: str
    """An object of JSON as it came. Its members are the platform's."""


def originating_identity(value: str) -> OriginatingIdentity | None:
    """The user that a platform names in the header X-Broker-API-Originating-Identity: the platform, a blank, and an
    object of JSON in padded base64 (section Originating Identity). None of every other value. Raises NOT_UTF8.
    """
    given, platform = utf8(value), c.c_size_t(0)
    status, text = written(lib.osb_originating_identity, given, len(given), platform)
    if status == Status.NO_IDENTITY:
        return None
    check(status)
    return OriginatingIdentity(text[: platform.value].decode(), text[platform.value :].decode())


def request_identity(value: str) -> str | None:
    """The text by which a platform names a request in the header X-Broker-API-Request-Identity, which a broker returns
    in the same header of its answer (section Request Identity). None where it is empty or has an ASCII control
    character, which is this project's choice. Raises NOT_UTF8.
    """
    given = utf8(value)
    status = lib.osb_request_identity(given, len(given))
    if status == Status.NO_IDENTITY:
        return None
    check(status)
    return value


def asked_from(asked: CAsked) -> Asked:
    """What is asked, as it crossed."""
    return Asked(
        Kind(asked.kind),
        bool(asked.accepts_incomplete),
        id_from(asked.id),
        _id_if(asked.has_service, asked.service),
        _id_if(asked.has_plan, asked.plan),
    )


def _id_if(is_there: bool, id: CId) -> Id | None:
    return id_from(id) if is_there else None
