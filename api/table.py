"""The interface of libosb: what include/osb.h, the Go package and the Python package have from one place.

After an edit run `make generate`. api/model.py says what each part is, and api/generate.py what becomes of it. The
crates have the same numbers, structs and exports by hand, since they are proved: checks/table compares both.
"""
from __future__ import annotations

from api.model import Call, Enum, Member, Part, Section, Struct, Value

VERSION = (0, 3, 0)

INTRODUCTION = """
The life of a service instance under the Open Service Broker API 2.17, for a platform and for a broker: what each
keeps of one instance, as a value for a row of a database, and what both send, as HTTP and JSON have it. The library
behind this header is proved; docs/c.md says what that means, and how to build and link it. C99 or later, and C++.

What the caller is responsible for. The library checks none of it, and the proofs assume all of it.

- No pointer is null, not even a pointer to a buffer, a text or a list of length 0. Each pointer is aligned for its
  type, and points to as much as its length says. Nothing that a call writes to overlaps anything else that the
  call is given.
- Everything is initialized before the call, also what is only written to: each member of a struct and each number
  (`= {0}` does), and all of a buffer (as calloc sets it). A bool is 0 or 1.
- A struct or buffer that a running call was given is used by that call alone. Calls on different structs are
  independent, and any number of threads may make them at once.
- No call is made from a signal handler, or in the forked child of a process with threads.
- malloc, realloc and free are one allocator's, and blocks are aligned as C requires.
- There is enough stack. How much a call takes isn't proved; in the tests 128 KiB are enough for each.

What the library is responsible for. A call that returns another status than OSB_DONE has changed nothing, but for
what its comment names. No call prints, ends the process or keeps a pointer that it was given. No call waits, except
within malloc, realloc and free.

A text that a call writes goes to the front of a buffer, `bytes` long, with no NUL after it, and the text's length
goes to *needed. If the buffer is too short, the call returns OSB_TOO_SMALL, writes *needed all the same, and leaves
the buffer as before: so a call with 0 bytes asks for the length. What is behind the text in the buffer is as before.
If the call returns anything else, neither is written.
"""

REMOVED = (2, 3, 4, 5, 8, 12, 23, 35)
"""The numbers of statuses that are gone. They are never used again."""

REMOVED_CALLS = """
    osb_asked_operation osb_asks_for_catalogue osb_decide_provision osb_decide_restart osb_decide_timeout
    osb_mitigates osb_read_binding_request osb_read_operation osb_read_request osb_well_formed osb_write_answer
    osb_write_body osb_write_target
""".split()
"""The names of calls that are gone. No other call ever has one of them. CHANGELOG.md has what to call instead."""

STATUS = Enum(
    "status",
    "what became of a call",
    Value(0, "DONE", "it was done"),
    Value(1, "MEMORY", "out of memory: an allocation failed"),
    Value(6, "BUSY", "a request is in flight"),
    Value(7, "NOTHING_DUE", "in ready, gone and unsettled no request is due"),
    Value(
        9, "NOT_POLLING", "none is in flight, and the state isn't polling; to send a deletion again: cleaning-polling"
    ),
    Value(10, "NOT_REMOVABLE", "none is in flight, and the state isn't polling, ready or unsettled"),
    Value(11, "NOTHING_RUNNING", "the instance is neither being made nor being deleted"),
    Value(13, "PLAN_TWICE", "two of the plans have the same service and plan"),
    Value(14, "BAD_KIND", "the number stands for no kind of request"),
    Value(15, "BAD_OUTCOME", "the number stands for no outcome"),
    Value(16, "NOT_AN_ID", "the text is no id's"),
    Value(17, "TOO_SMALL", "the buffer is shorter than what goes into it"),
    Value(18, "NOT_UTF8", "the text isn't UTF-8"),
    Value(19, "NOT_JSON", "the text has no reading as JSON"),
    Value(20, "NOT_AN_OBJECT", "the value isn't an object"),
    Value(21, "BAD_VERSION", "the version in the text isn't that of its format"),
    Value(22, "BAD_OUTER", "the members of the object aren't those of its format"),
    Value(24, "BAD_MEMBER", "some member isn't what its format has there"),
    Value(25, "BAD_RECORD", "the struct is no record that a call gives", packages="no call gives such a record"),
    Value(26, "BAD_HOLDING", "the struct is no holding that a call gives", packages="no call gives such a holding"),
    Value(27, "BAD_ROW", "the struct is no platform's row that a call gives", packages="no call gives such a row"),
    Value(28, "BAD_ASKED", "the struct is nothing asked that a call gives", packages="no call gives such an Asked"),
    Value(29, "BAD_MODE", "the number stands for no mode"),
    Value(30, "ATTEMPTS_USED_UP", "the latest request has the greatest number, 2^64 - 1"),
    Value(31, "NOT_IN_FLIGHT", "no request is in flight, or one of another number"),
    Value(32, "NOTHING_BEGUN", "no work is pending"),
    Value(33, "IMPOSSIBLE", "each member is one of its kind, and together they can't come about"),
    Value(34, "NO_ANSWER", "the response isn't surely the broker's: a timeout takes its place"),
    Value(36, "NO_SECONDS", "the value is no number of seconds"),
    Value(37, "UNAUTHORIZED", "the value doesn't name this user and this password"),
    Value(38, "NOT_REFUSED", "the status is no refusal"),
    Value(39, "REFUSED_TARGET", "refused with 404: there is no such target"),
    Value(40, "REFUSED_METHOD", "refused with 405: the target has no such method"),
    Value(41, "REFUSED_VERSION", "refused with 412: the version isn't 2.x, or none is named"),
    Value(42, "REFUSED_LENGTH", "refused with 413: the body is too long"),
    Value(
        43,
        "REFUSED_INSTANCE",
        "refused with 400: the instance's id isn't UTF-8 of 1 to 255 bytes, or no path can carry it",
    ),
    Value(44, "REFUSED_REPEATED", "refused with 400: a parameter of the query stands twice"),
    Value(
        45, "REFUSED_SERVICE", "refused with 400: service_id is needed and missing, or isn't a string of 1 to 255 bytes"
    ),
    Value(46, "REFUSED_PLAN", "refused with 400: plan_id is needed and missing, or isn't a string of 1 to 255 bytes"),
    Value(47, "REFUSED_ACCEPTS_INCOMPLETE", "refused with 400: accepts_incomplete is neither true nor false"),
    Value(48, "REFUSED_BODY", "refused with 400: the body isn't UTF-8, isn't JSON, or is no object"),
    Value(49, "REFUSED_ORGANIZATION", "refused with 400: organization_guid is missing, no string, or empty"),
    Value(50, "REFUSED_SPACE", "refused with 400: space_guid is missing, no string, or empty"),
    Value(51, "NO_SERVICES", "the document has no list services"),
    Value(52, "BAD_SERVICE", "the id of a service is missing, or isn't a string of 1 to 255 bytes"),
    Value(53, "NO_PLANS", "a service has no list plans"),
    Value(54, "BAD_PLAN", "the id of a plan is missing, or isn't a string of 1 to 255 bytes"),
    Value(55, "BAD_PLAN_MODE", "the member x-osb-asynchronous of a plan is neither true nor false"),
    Value(56, "NOT_A_PROVISION", "only the pending work of a Provision can be refused"),
    Value(57, "NOT_WAITING", "the row doesn't wait for its first Poll"),
    Value(58, "NOT_INSTANCE_TEXT", "the text isn't that of the request's instance, or no path can carry it"),
    Value(59, "NOT_SERVICE_TEXT", "the text isn't that of the request's service"),
    Value(60, "NOT_PLAN_TEXT", "the text isn't that of the request's plan"),
    Value(61, "NO_MEMBER", "the text is no object of JSON, or the object has no such member"),
    Value(62, "NO_IDENTITY", "the value of the header names nobody"),
    Value(63, "NO_PLAN_VERSION", "the document has no maintenance_info.version of the plan"),
    Value(64, "REFUSED_MAINTENANCE", "refused with 422: the request names another maintenance_info.version"),
    Value(65, "NO_NAME", "the name of a service or of a plan is missing, no string, or empty"),
    Value(66, "NAME_TWICE", "two services, or two plans of a service, have one name"),
    Value(67, "NO_DESCRIPTION", "the description of a service or of a plan is missing, no string, or empty"),
    Value(68, "NOT_A_BOOLEAN", "a flag of the catalogue is neither true nor false"),
    Value(69, "NO_BINDABLE", "a service doesn't say whether it is bindable"),
    Value(70, "NO_PLAN", "a service has no plan"),
    Value(71, "BINDABLE_UNSERVED", "bindings aren't served, and bindable is true"),
    Value(72, "UPDATE_UNSERVED", "updating isn't served, and plan_updateable is true"),
    Value(73, "INSTANCES_UNSERVED", "fetching an instance isn't served, and instances_retrievable is true"),
    Value(74, "BINDINGS_UNSERVED", "fetching a binding isn't served, and bindings_retrievable is true"),
    Value(75, "SAME_NUMBER", "two ids of the document have one number"),
    Value(76, "NOT_READY", "the instance isn't recorded ready, so no binding of it is created"),
    Value(77, "BOUND", "a binding of the instance isn't gone, so the instance isn't removed"),
    Value(
        78,
        "REFUSED_BINDING",
        "refused with 400: the binding's id isn't UTF-8 of 1 to 255 bytes, or no path can carry it",
    ),
    Value(79, "REFUSED_APP", "refused with 422: the Bind names no application, and its plan needs one"),
    Value(80, "NOT_BINDING_TEXT", "the text isn't that of the request's binding, or no path can carry it"),
    Value(81, "NO_BINDING", "the response has no object of the binding"),
    Value(82, "NOT_RETRIEVABLE", "a plan binds asynchronously, and its service isn't bindings_retrievable"),
    Value(83, "BAD_DRIVER", "the struct is no driver that a call gives", packages="no call gives such a driver"),
    Value(84, "WRONG_STAGE", "the driver is at a stage that asks for no such report"),
    Value(85, "BAD_THERE", "the number stands for nothing that a look finds"),
    Value(86, "MISFIT", "the row doesn't fit its plan, or its pending work is of another id"),
    Value(87, "BAD_ALLOWED", "the number stands for nothing that a catalogue allows of an Update"),
    Value(88, "NOTHING_UPDATING", "no operation of an Update runs"),
    Value(89, "NOT_AVAILABLE", "the instance has no row that is ready, or work of it is pending"),
    Value(90, "REFUSED_NUMBER", "refused with 400: x-osb-update isn't an integer from 1 to 2^64 - 1"),
)

EXACTLY = {
    "TOO_SMALL": "the buffer, or the list of plans, is shorter than `needed`",
    "NOT_AN_ID": "for `osb_id_from_text`, the text is no GUID; for `osb_id_of_text`, it is empty or longer than 255 "
    "bytes",
    "NOT_JSON": "the text has no reading as JSON; for `osb_parameters_digest`, `osb_catalogue_plans`, "
    "`osb_catalogue_check` and `osb_binding_modes` also if it isn't UTF-8",
    "NOT_AN_OBJECT": "the value isn't an object; for `osb_served_catalogue`, `osb_served_updates` and "
    "`osb_write_binding` also if the text isn't UTF-8 or has no reading as JSON",
    "BAD_VERSION": "the version in the text isn't that of its format; of these, the first that fits comes "
    "([which](instance.md#the-texts))",
    "BAD_RECORD": "the record can't come about ([which can](instance.md#what-a-platform-keeps-record)), or a number "
    "in it stands for nothing",
    "BAD_HOLDING": "the holding can't come about ([which can](instance.md#what-a-broker-keeps-holding)), or a number "
    "in it that counts stands for nothing; of a holding of updates, the phase stands for nothing",
    "BAD_DRIVER": "the driver can't come about, its number is zeroes, or a number in it that counts stands for "
    "nothing; for `osb_driver_new`, `osb_update_driver_new` and `osb_platform_driver_new`, the number is zeroes",
    "BAD_ROW": "the row isn't `wanted` with its Provision in flight, nor any other state with nothing in flight or "
    "what is due there",
    "BAD_ASKED": "the kind stands for none, or it is a Provision or a Deprovision and service or plan is missing",
    "IMPOSSIBLE": "each member of the text is one of its kind, and together they can't come about "
    "([which](instance.md#the-texts))",
    "NO_ANSWER": "the response isn't surely the broker's ([which](wire.md#what-a-platform-takes-from-a-response))",
    "NO_SECONDS": "the value isn't a number in decimal digits below 2^64",
    "REFUSED_INSTANCE": "refused with 400: the id of the instance isn't UTF-8 of 1 to 255 bytes, or is `.` or `..`",
    "NOT_REFUSED": "the status is none of 39 to 50, 64 and `OSB_MEMORY`; for `osb_binding_refusal_body`, none of 39 to "
    "50, 78, 79 and `OSB_MEMORY`; for `osb_update_refusal_body`, none of 39 to 50, 64, 90 and `OSB_MEMORY`; for "
    "`osb_driver_called` and `osb_update_driver_called`, none of 0, 400 and 422",
    "BAD_PLAN_MODE": "`x-osb-asynchronous` of a plan, or `asynchronous` if the plan lacks it, is neither `true` nor "
    "`false`",
    "NOT_INSTANCE_TEXT": "the text of the instance hasn't the number of the request's instance, or is `.` or `..`",
    "NOT_SERVICE_TEXT": "the text of the service hasn't the number of the request's service",
    "NOT_PLAN_TEXT": "the text of the plan hasn't the number of the request's plan",
    "NO_IDENTITY": "the value isn't the header's ([which](wire.md#what-a-broker-takes))",
    "NO_PLAN_VERSION": "the document is no catalogue, it has no such plan of the service, or the plan has no string "
    "`maintenance_info.version`",
    "REFUSED_MAINTENANCE": "refused with 422: both the plan and the request name a `maintenance_info.version`, and the "
    "two differ",
    "SAME_NUMBER": "two different ids of services, or of plans, have one number",
    "REFUSED_BINDING": "refused with 400: the id of the binding isn't UTF-8 of 1 to 255 bytes, or is `.` or `..`",
    "NOT_BINDING_TEXT": "the text of the binding hasn't the number of the request's binding, or is `.` or `..`",
    "NO_BINDING": "the response isn't a 200 or a 201 to a Bind, or a 200 to a Fetch, or its body is no object of JSON",
}
"""When a call returns a status, for docs/c.md, if that takes more words than the meaning of the status."""

BUFFER = "uint8_t *buffer, size_t bytes, size_t *needed"
"""What a text is written to."""

INTERFACE: list[Part] = [
    Call(
        "uint32_t osb_version()",
        """The version of the library, as OSB_VERSION has it. A program that is linked to a shared library compares.""",
    ),
    Section(
        """Statuses: what became of a call. Each has one meaning. No number ever changes, and none is used again: 2, 3,
        4, 5, 8, 12, 23 and 35 were statuses of calls that are gone.

        The comment of a call names OSB_DONE, and then, in their order, the statuses that it returns if it isn't done.
        If several of them fit, the call returns the first. But if an allocation failed, OSB_MEMORY may come in place of
        every status that the text or the list itself decides: OSB_PLAN_TWICE, OSB_TOO_SMALL, OSB_NOT_JSON to
        OSB_BAD_MEMBER, OSB_IMPOSSIBLE, OSB_NO_ANSWER, OSB_UNAUTHORIZED, OSB_REFUSED_REPEATED to OSB_BAD_PLAN_MODE,
        OSB_NO_MEMBER to OSB_SAME_NUMBER, OSB_REFUSED_APP, OSB_NO_BINDING, OSB_NOT_RETRIEVABLE and
        OSB_REFUSED_NUMBER."""
    ),
    STATUS,
    Section(
        """Ids. The id of an instance, a service or a plan is any text of 1 to 255 bytes of UTF-8, and the calls know it
        by a number of 128 bits. A GUID in lower case is its own number. Any other text has the first 128 bits of its
        SHA-256 (docs/wire.md)."""
    ),
    Struct(
        "id",
        Member("uint64_t high, low"),
        comment="The halves of the number of an id: as a GUID it has its first 16 digits in high.",
    ),
    Call(
        "uint32_t osb_id_of_text(const uint8_t *text, size_t length, struct osb_id *id)",
        """Writes the number of an id to *id, given its text as a request or a catalogue has it. The standard compares
        ids byte by byte, so a GUID with a digit in upper case is another id than the same in lower case. The numbers
        and the greatest length are this project's choice.""",
        "OSB_DONE, OSB_NOT_UTF8, OSB_NOT_AN_ID for an empty text and for one of more than 255 bytes; if it isn't done, "
        "*id is as before.",
    ),
    Call(
        "uint32_t osb_id_from_text(const uint8_t *text, size_t length, struct osb_id *id)",
        """Reads a GUID, 36 bytes in either case, as 12345678-9abc-def0-1234-56789abcdef0: the number that its digits
        write. That is the text's own number only in lower case; for the id in a request or a catalogue call
        osb_id_of_text.""",
        "OSB_DONE, or OSB_NOT_AN_ID for every other text; *id is then as before.",
    ),
    Call(
        "void osb_id_to_text(struct osb_id id, uint8_t text[36])",
        """Writes the number of an id as a GUID in lower case: 36 bytes, and no NUL after them. It is the id's text only
        if that text is a GUID in lower case.""",
    ),
    Section("Requests and answers."),
    Enum(
        "kind",
        "what a request asks for",
        Value(0, "PROVISION", "PUT on the instance"),
        Value(1, "POLL", "GET on its last operation"),
        Value(2, "DEPROVISION", "DELETE on the instance"),
        Value(255, "NONE", "no request"),
    ),
    Struct(
        "request",
        Member("enum osb_kind kind", "an enum osb_kind"),
        Member("bool accepts_incomplete", "whether the operation may be asynchronous"),
        Member("struct osb_id id, service, plan"),
    ),
    Enum(
        "body",
        "what can be read of an answer's body",
        Value(0, "MALFORMED", "it can't be read"),
        Value(1, "EMPTY", "it can be read, and says none of the following"),
        Value(2, "IN_PROGRESS", '"state": "in progress"'),
        Value(3, "SUCCEEDED", '"state": "succeeded"'),
        Value(4, "FAILED", '"state": "failed"'),
        Value(5, "ASYNC_REQUIRED", '"error": "AsyncRequired"'),
        Value(6, "CONCURRENCY_ERROR", '"error": "ConcurrencyError"'),
        Value(7, "OTHER_ERROR", "any other error"),
        comment="What can be read of an answer's body. Each number that isn't here is OSB_BODY_MALFORMED too.",
        go="Each number without a name is BodyMalformed too.",
    ),
    Struct(
        "answer",
        Member("uint16_t status", "the HTTP status, any number"),
        Member("enum osb_body body", "an enum osb_body"),
    ),
    Section(
        """Two of the platform's tables, which take any answer. The calls on a struct osb_record apply all of them
        themselves."""
    ),
    Enum(
        "state",
        "what a platform records of an instance",
        Value(0, "WANTED", "a Provision was sent, and nothing is known yet"),
        Value(1, "POLLING", "the broker makes the instance"),
        Value(2, "READY", "the instance is there, complete"),
        Value(3, "CLEANING", "the instance is to be deleted, or may be an orphan"),
        Value(4, "CLEANING_POLLING", "the broker deletes the instance"),
        Value(5, "GONE", "there is no such instance"),
        Value(6, "UNSETTLED", "the Provision failed, and an operator has to look"),
        Value(255, "NONE", "the number that was given stands for no state"),
    ),
    Call(
        "uint8_t osb_decide_deprovision(struct osb_answer answer)",
        "The record of an instance in the state cleaning after the answer to its Deprovision.",
    ),
    Call(
        "uint8_t osb_decide_poll(uint8_t state, struct osb_answer answer)",
        """The record of an instance in this state after the answer to its Poll: a state that isn't polled stays.
        OSB_STATE_NONE where the number stands for no state.""",
    ),
    Section(
        """One instance as a value, for a row of a database. A platform keeps a struct osb_record of each instance, and
        a broker keeps a struct osb_holding. They own nothing, and may be copied and compared. Their calls take no
        memory, except those of the texts. docs/instance.md says what is written to the database, and when.

        A call rejects a struct that no call gives: one with a number that stands for nothing, a wanted record without
        its Provision in flight, a row beside a tombstone, and the like."""
    ),
    Struct(
        "record",
        Member("struct osb_id service, plan"),
        Member("uint64_t attempt", "the number of the latest request, and 0 before the first"),
        Member("enum osb_state state", "an enum osb_state"),
        Member("enum osb_kind out", "the enum osb_kind of the request in flight, or OSB_KIND_NONE", go="in_flight"),
        comment="What a platform records of an instance.",
        is_private=True,
    ),
    Call(
        "void osb_record_create(struct osb_id id, struct osb_id service, struct osb_id plan, bool accepts_incomplete, "
        "struct osb_record *record, struct osb_request *request)",
        """A new instance, wanted, and its Provision, which is then in flight with the number 1 (record->attempt). The
        record is written to the database under the id, before the request is sent, and never deleted; the database has
        to refuse an id that is there.""",
    ),
    Struct(
        "platform_row",
        Member("struct osb_id service, plan"),
        Member("enum osb_state state", "an enum osb_state"),
        Member("enum osb_kind out", "the enum osb_kind of the request in flight, or OSB_KIND_NONE", go="in_flight"),
        comment="""An entry of a saved record, the file that a platform of a version before 0.3.0 kept
        (docs/saved-record.md).""",
    ),
    Call(
        "uint32_t osb_record_from_row(const struct osb_platform_row *row, struct osb_record *record)",
        """The first record of an instance from its entry in a saved record, as after a restart: wanted becomes
        cleaning, nothing is in flight, and the attempt is 0. Call it once for each instance, when a platform moves to a
        database.""",
        "OSB_DONE, OSB_BAD_ROW.",
    ),
    Call(
        "uint32_t osb_record_send(struct osb_record *record, struct osb_id id, struct osb_request *request)",
        """Gives the request that is due, which is then in flight with the next number (record->attempt). `id` is that
        of osb_record_create, the key of the record's row.""",
        "OSB_DONE, OSB_BAD_RECORD, OSB_BUSY, OSB_NOTHING_DUE, OSB_ATTEMPTS_USED_UP.",
    ),
    Call(
        "uint32_t osb_record_answer(struct osb_record *record, uint64_t attempt, struct osb_answer answer)",
        """Takes the answer to the request of this number: the state becomes what the table of its kind gives, and
        nothing is in flight.""",
        "OSB_DONE, OSB_BAD_RECORD, OSB_NOT_IN_FLIGHT.",
    ),
    Call(
        "uint32_t osb_record_timeout(struct osb_record *record, uint64_t attempt)",
        """Gives up the request of this number: wanted becomes cleaning, every other state stays, and nothing is in
        flight. So is done with what was in flight when a platform crashed.""",
        "OSB_DONE, OSB_BAD_RECORD, OSB_NOT_IN_FLIGHT.",
    ),
    Call(
        "uint32_t osb_record_expire(struct osb_record *record)",
        "Gives up polling, as the maximum polling duration has passed: polling becomes cleaning.",
        "OSB_DONE, OSB_BAD_RECORD, OSB_BUSY, OSB_NOT_POLLING.",
    ),
    Call(
        "uint32_t osb_record_retry(struct osb_record *record)",
        """Sends a deletion again, for one whose maximum polling duration has passed, or that the broker never ends:
        cleaning-polling becomes cleaning.""",
        "OSB_DONE, OSB_BAD_RECORD, OSB_BUSY, OSB_NOT_POLLING.",
    ),
    Call(
        "uint32_t osb_record_remove(struct osb_record *record)",
        "Has the instance deleted, as an operator asks: polling, ready and unsettled become cleaning.",
        "OSB_DONE, OSB_BAD_RECORD, OSB_BUSY, OSB_NOT_REMOVABLE.",
    ),
    Call(
        "uint32_t osb_record_remove_if(struct osb_record *record, bool all_gone)",
        """Has an instance deleted that may have bindings, as osb_record_remove does. all_gone is whether each recorded
        binding of the instance is gone (osb_record_is_gone), read in the transaction that writes the record, with the
        record locked. The call waits for no binding and removes none: do that first.""",
        "OSB_DONE, OSB_BAD_RECORD, OSB_BUSY, OSB_NOT_REMOVABLE, OSB_BOUND.",
    ),
    Call(
        "bool osb_record_is_ready(const struct osb_record *record)",
        """Whether the record is one that a call gives, and ready is recorded. A binding of an instance is created only
        then.""",
    ),
    Call(
        "bool osb_record_is_gone(const struct osb_record *record)",
        """Whether the record is one that a call gives, and gone is recorded. An instance is removed only once this is
        so of each of its bindings.""",
    ),
    Call(
        f"uint32_t osb_record_to_text(const struct osb_record *record, {BUFFER})",
        "Writes the text of the record, for a column of a database (docs/instance.md).",
        "OSB_DONE, OSB_BAD_RECORD, OSB_TOO_SMALL, OSB_MEMORY.",
    ),
    Call(
        "uint32_t osb_record_from_text(const uint8_t *text, size_t length, struct osb_record *record)",
        "Reads the text of a record. What osb_record_to_text wrote gives OSB_DONE or OSB_MEMORY.",
        "OSB_DONE, OSB_NOT_UTF8, OSB_NOT_JSON, OSB_NOT_AN_OBJECT, OSB_BAD_VERSION, OSB_BAD_OUTER, OSB_BAD_MEMBER, "
        "OSB_IMPOSSIBLE, OSB_MEMORY.",
    ),
    Struct(
        "plan",
        Member("struct osb_id service, plan"),
        Member("bool is_asynchronous", "whether its operations are only begun when the broker answers"),
        comment="A plan on sale.",
    ),
    Enum(
        "mode",
        "how a plan works",
        Value(0, "SYNC", "an instance is made or deleted before the broker answers"),
        Value(1, "ASYNC", "the broker answers at once and works on"),
        Value(255, "NONE", "the plan isn't on sale"),
        comment="How the plan of a request works. It is looked up in the catalogue by the request's service and plan.",
    ),
    Enum(
        "work",
        "the work that a request means",
        Value(0, "NONE", "none is due"),
        Value(1, "MAKE", "the instance is made, complete, before the answer"),
        Value(2, "START_MAKING", "its making is started, and goes on after the answer"),
        Value(3, "DELETE", "the instance is deleted before the answer"),
        Value(4, "START_DELETING", "its deletion is started, and goes on after the answer"),
        comment="The work that a request means.",
    ),
    Enum(
        "outcome",
        "how the work behind a request went",
        Value(0, "DONE", "it is done, or at an asynchronous plan started"),
        Value(1, "BEFORE", "it failed, and all is as it was: nothing was made, or nothing was deleted"),
        Value(2, "AFTER", "it failed, and yet all of it was done: the whole resource exists, or nothing is left"),
        Value(3, "REFUSED_400", "the backend refuses a Provision, answered with 400, and nothing of it exists"),
        Value(4, "REFUSED_422", "the same, answered with 422"),
        comment="""How the work behind a request goes. It counts where the work would be done at all. Work that is half
        done is none of these. Undo a creation and say BEFORE, or finish it and say DONE; finish a deletion, since it
        creates nothing; or say nothing until it is known.""",
        go="""Work that is half done is none of these: undo a creation and return OutcomeBefore, or finish it and
        return OutcomeDone; finish a deletion; or return an error. If nobody knows how it went, return an error
        too.""",
    ),
    Enum(
        "phase",
        "what a broker holds of an instance",
        Value(0, "MAKING", "it is being made"),
        Value(1, "READY", "it exists, complete"),
        Value(2, "FAILED", "it could not be made"),
        Value(3, "DELETING", "it is being deleted"),
        Value(4, "DELETE_FAILED", "it could not be deleted"),
        Value(5, "WAITING", "its making begins with the first Poll"),
    ),
    Struct(
        "broker_row",
        Member("struct osb_id service, plan"),
        Member("enum osb_phase phase", "an enum osb_phase"),
        comment="The row of an instance that a broker holds.",
    ),
    Struct(
        "holding",
        Member("struct osb_broker_row row", "it counts if has_row is true"),
        Member("struct osb_request work", "the request whose work is pending; it counts if has_work is true"),
        Member("bool has_row, has_work"),
        Member("bool has_tombstone", "whether the instance has ended: none with this id is ever made again"),
        Member("uint8_t attributes[32]", "the digest of the attributes of row and work, zeroes for none"),
        comment="""What a broker holds of an instance. One of zeroes holds nothing: an id that no request has come for
        has that. In what a call gives, members that don't count are zeroes, here, in struct osb_begun and in struct
        osb_asked: two holdings that calls gave are the same exactly if each member is.""",
        is_private=True,
    ),
    Struct(
        "begun",
        Member("struct osb_answer answer", "the answer to send, where the work is OSB_WORK_NONE"),
        Member("enum osb_work work", "an enum osb_work: what is due and pending"),
        comment="What comes of a request at once.",
    ),
    Call(
        "bool osb_holding_fits(const struct osb_holding *holding, uint8_t mode)",
        """Whether the holding is one that a call gives, the number a mode's, and the holding can come about at a plan
        of the mode. A program asks when it takes a holding from its database: at another mode osb_holding_end would
        forget what was made.""",
    ),
    Call(
        "uint32_t osb_holding_begin(struct osb_holding *holding, uint8_t mode, bool first_poll, "
        "const struct osb_request *request, const uint8_t attributes[32], struct osb_begun *begun)",
        """Begins with a request to this instance: answers it, or makes its work pending. The mode is that of the
        request's plan. With first_poll, an asynchronous plan's instance is made only once it was polled: its Provision
        leaves a row in OSB_PHASE_WAITING, and its first Poll one in OSB_PHASE_MAKING, whose operation runs from then
        on. The attributes are the digest of what a Provision asks for, as osb_attributes_digest writes it: a Provision
        of the same service and plan with others is answered with 409. If the holding changed, it is written to the
        database before the work begins or the answer is sent.""",
        "OSB_DONE, OSB_BAD_HOLDING, OSB_BAD_MODE, OSB_BAD_KIND.",
    ),
    Call(
        "uint32_t osb_holding_begin_if(struct osb_holding *holding, uint8_t mode, bool first_poll, "
        "const struct osb_request *request, const uint8_t attributes[32], bool may_begin, struct osb_begun *begun)",
        """Begins with a request as osb_holding_begin does, but if may_begin is false, nothing begins: a request whose
        work would be due is answered as if work were pending, and nothing changes. For an instance that may have
        bindings, may_begin is whether osb_holding_is_held is false of each of them, read in the transaction that writes
        the holding. A Deprovision is then answered with 422.""",
        "OSB_DONE, OSB_BAD_HOLDING, OSB_BAD_MODE, OSB_BAD_KIND.",
    ),
    Call(
        "bool osb_holding_is_held(const struct osb_holding *holding)",
        """Whether there is a row, or work is pending. True also if the holding is none that a call gives, so that
        nothing begins then. While a binding is held, the deletion of its instance doesn't begin.""",
    ),
    Call(
        "bool osb_holding_is_there(const struct osb_holding *holding, struct osb_id service, struct osb_id plan)",
        """Whether the holding is one that a call gives, its row is ready, with this service and plan, and no work is
        pending. osb_binding_begin asks this of the instance's holding.""",
    ),
    Call(
        "uint32_t osb_holding_end(struct osb_holding *holding, uint8_t mode, uint8_t outcome, "
        "struct osb_answer *answer)",
        """Ends the pending work with this outcome, and returns the answer to its request. The mode is that of the
        pending request's plan, and has to fit. A refusal leaves the tombstone. The holding is written to the database
        before the answer is sent.""",
        "OSB_DONE, OSB_BAD_HOLDING, OSB_BAD_MODE, OSB_BAD_OUTCOME, OSB_NOTHING_BEGUN, OSB_NOT_A_PROVISION.",
    ),
    Call(
        "uint32_t osb_holding_finish(struct osb_holding *holding, bool ok)",
        """Ends the operation that runs on the instance, which succeeded (ok) or failed. An instance that is being made
        is ready then, or has failed; one that is being deleted is gone and leaves the tombstone, or could not be
        deleted.""",
        "OSB_DONE, OSB_BAD_HOLDING, OSB_NOTHING_RUNNING.",
    ),
    Call(
        "uint32_t osb_holding_give_up_waiting(struct osb_holding *holding)",
        """Gives up an instance that has waited too long for its first Poll: it has failed then, and nothing of it was
        made.""",
        "OSB_DONE, OSB_BAD_HOLDING, OSB_NOT_WAITING.",
    ),
    Call(
        "uint8_t osb_work_of(uint8_t kind, uint8_t mode)",
        """The work that a request of the kind means at a plan of the mode: what a broker that starts again asks of
        pending work. OSB_WORK_NONE of a Poll, at OSB_MODE_NONE, and where a number stands for nothing.""",
    ),
    Call(
        f"uint32_t osb_holding_to_text(const struct osb_holding *holding, {BUFFER})",
        "Writes the text of the holding, for a column of a database (docs/instance.md).",
        "OSB_DONE, OSB_BAD_HOLDING, OSB_TOO_SMALL, OSB_MEMORY.",
    ),
    Call(
        "uint32_t osb_holding_from_text(const uint8_t *text, size_t length, struct osb_holding *holding)",
        "Reads the text of a holding. What osb_holding_to_text wrote gives OSB_DONE or OSB_MEMORY.",
        "OSB_DONE, OSB_NOT_UTF8, OSB_NOT_JSON, OSB_NOT_AN_OBJECT, OSB_BAD_VERSION, OSB_BAD_OUTER, OSB_BAD_MEMBER, "
        "OSB_IMPOSSIBLE, OSB_MEMORY.",
    ),
    Section(
        """Service bindings as values. A platform keeps a struct osb_record of each binding, and a broker keeps a struct
        osb_holding, beside those of the instance. The key in the database is the pair of the instance's id and the
        binding's, which is used once and never again. A Bind is an OSB_KIND_PROVISION, an Unbind an
        OSB_KIND_DEPROVISION, and the Poll of a binding's last operation an OSB_KIND_POLL. The id of a request is the
        binding's, and the mode is that of binding at the plan: OSB_MODE_NONE if the plan isn't bindable. Every call on
        a record or a holding serves for a binding too, but osb_record_create, osb_record_answer, osb_holding_begin and
        the four calls with texts have those below in their place.

        Credentials stand in a column of their own. Write them in the transaction in which the row or the record becomes
        ready, and never again.

        Three rules tie a binding to its instance. A broker begins a Bind only while the instance is there
        (osb_binding_begin), and the deletion of an instance only while it holds none of its bindings
        (osb_holding_begin_if). A platform creates a binding only while it records the instance ready
        (osb_binding_create), and removes an instance only once it records each of its bindings gone
        (osb_record_remove_if). Read what a rule looks at in the transaction that writes the result, locked."""
    ),
    Call(
        "uint32_t osb_binding_create(const struct osb_record *instance, struct osb_id binding, "
        "bool accepts_incomplete, struct osb_record *record, struct osb_request *request)",
        """A new binding of the instance, wanted, with the instance's service and plan, and its Bind, which is then in
        flight with the number 1 (record->attempt). The request's id is the binding's. Accept an asynchronous operation
        only if the broker serves the Fetch of a binding (bindings_retrievable). The record is written to the database
        before the request is sent.""",
        "OSB_DONE, OSB_BAD_RECORD (the instance's), OSB_NOT_READY.",
    ),
    Call(
        "uint32_t osb_binding_answer(struct osb_record *record, uint64_t attempt, struct osb_answer answer, "
        "bool retrievable)",
        """Takes the answer to the request of this number, as osb_record_answer does. But if the binding can't be
        fetched (retrievable is false), a 202 to a Bind is cleaned up: its credentials could never be had.

        If a Poll says succeeded in polling, send a Fetch first. Call this once the Fetch was answered 200 with an
        object, and otherwise osb_record_timeout for the Poll. A platform writes the credentials in the transaction in
        which the record becomes ready, and forgets them once it leaves ready.""",
        "OSB_DONE, OSB_BAD_RECORD, OSB_NOT_IN_FLIGHT.",
    ),
    Call(
        f"uint32_t osb_binding_record_to_text(const struct osb_record *record, {BUFFER})",
        """Writes the text of a binding's record, for a column of a database: that of osb_record_to_text, with a version
        of its own (docs/binding.md).""",
        "OSB_DONE, OSB_BAD_RECORD, OSB_TOO_SMALL, OSB_MEMORY.",
    ),
    Call(
        "uint32_t osb_binding_record_from_text(const uint8_t *text, size_t length, struct osb_record *record)",
        "Reads the text of a binding's record. What osb_binding_record_to_text wrote gives OSB_DONE or OSB_MEMORY.",
        "OSB_DONE, OSB_NOT_UTF8, OSB_NOT_JSON, OSB_NOT_AN_OBJECT, OSB_BAD_VERSION, OSB_BAD_OUTER, OSB_BAD_MEMBER, "
        "OSB_IMPOSSIBLE, OSB_MEMORY.",
    ),
    Call(
        f"uint32_t osb_binding_holding_to_text(const struct osb_holding *holding, {BUFFER})",
        """Writes the text of a binding's holding, for a column of a database: that of osb_holding_to_text, with a
        version of its own (docs/binding.md).""",
        "OSB_DONE, OSB_BAD_HOLDING, OSB_TOO_SMALL, OSB_MEMORY.",
    ),
    Call(
        "uint32_t osb_binding_holding_from_text(const uint8_t *text, size_t length, struct osb_holding *holding)",
        "Reads the text of a binding's holding. What osb_binding_holding_to_text wrote gives OSB_DONE or OSB_MEMORY.",
        "OSB_DONE, OSB_NOT_UTF8, OSB_NOT_JSON, OSB_NOT_AN_OBJECT, OSB_BAD_VERSION, OSB_BAD_OUTER, OSB_BAD_MEMBER, "
        "OSB_IMPOSSIBLE, OSB_MEMORY.",
    ),
    Call(
        "uint32_t osb_binding_begin(struct osb_holding *holding, const struct osb_holding *instance, uint8_t mode, "
        "bool first_poll, const struct osb_request *request, const uint8_t attributes[32], struct osb_begun *begun)",
        """Begins with a request to this binding, as osb_holding_begin does for an instance, with two differences.
        `instance` is the holding of the binding's instance, read and locked in the transaction that writes this one.

        - If the instance isn't there (osb_holding_is_there), no Bind begins: one whose work would be due is answered
          with 503, and nothing changes.
        - If the instance has a tombstone, and nothing is kept of the binding, nothing changes: every Bind is answered
          with 503, and an Unbind with 410. So the tombstones of bindings may be deleted once their instance has one.

        If the holding changed, it is written to the database before the work begins or the answer is sent. A broker
        stores the credentials beside the holding, in the transaction in which the row becomes ready, and never
        again.""",
        "OSB_DONE, OSB_BAD_HOLDING (holding or instance), OSB_BAD_MODE, OSB_BAD_KIND.",
    ),
    Call(
        "uint32_t osb_binding_fetch(const struct osb_holding *holding, struct osb_answer *answer)",
        """The answer to a Fetch of this binding: 200 if the row is ready and no work is pending, and else 404. Send a
        200 with the credentials that are stored beside the holding.""",
        "OSB_DONE, OSB_BAD_HOLDING.",
    ),
    Section(
        """The updates of an instance, at its broker. A broker keeps a struct osb_update_holding of each instance beside
        the holding of the instance, from the first Update on. It owns nothing, and may be copied and compared. Any
        settings, number and phase make one. No call but the two of the texts takes memory.

        An instance has settings: its plan, the digest of its parameters and that of the version of its maintenance.
        What goes into the digests is the broker's choice. An Update names some of them, and what it doesn't name stays.
        An Update of a platform of this project has a number, and a broker judges no Update that isn't newer than the
        newest one that it has judged. An Update without a number, whose number is 0 here, is judged as it comes.

        An update is under way if the work of an Update is pending or its operation runs. The instance is available if
        its row is ready and no work of it is pending. Two rules tie both together: no Update begins unless the instance
        is available (osb_update_begin), and no deletion of the instance begins while an update is under way
        (osb_update_begin_instance). Read both holdings, locked, in the transaction that writes one of them."""
    ),
    Struct(
        "settings",
        Member("struct osb_id plan", "plan_id"),
        Member("uint8_t parameters[32]", "the digest of the parameters"),
        Member("uint8_t version[32]", "the digest of maintenance_info.version"),
        comment="What an instance is set to.",
    ),
    Struct(
        "change",
        Member("struct osb_id plan", "it counts if has_plan is true"),
        Member("uint8_t parameters[32]", "they count if has_parameters is true"),
        Member("uint8_t version[32]", "it counts if has_version is true"),
        Member("bool has_plan, has_parameters, has_version"),
        comment="The settings that an Update names. What it doesn't name stays.",
    ),
    Struct(
        "update",
        Member("struct osb_id service", "service_id"),
        Member("struct osb_change change", "the settings that it names"),
        Member("uint64_t number", "its number among the Updates of the instance, from 1, or 0 if it has none"),
        Member("bool accepts_incomplete", "whether the operation may be asynchronous"),
        comment="An Update (PATCH on the instance).",
    ),
    Enum(
        "allowed",
        "whether the catalogue lets an Update be done",
        Value(0, "SYNC", "it is done before the answer"),
        Value(1, "ASYNC", "it is started before the answer, and goes on"),
        Value(2, "REJECTED_400", "the plan that is asked for isn't on sale: it is answered with 400"),
        Value(3, "REJECTED_422", "the plan that the instance has can't be changed: it is answered with 422"),
        Value(4, "MAINTENANCE_CONFLICT", "the catalogue has another maintenance_info.version of the plan"),
        comment="""Whether the catalogue lets an Update be done, by the settings that the instance has and those that
        are asked for.""",
    ),
    Enum(
        "update_phase",
        "how far the latest update of an instance has come",
        Value(0, "SETTLED", "the resource has the settings that are held"),
        Value(1, "PENDING", "it has them, and the work of an Update is pending"),
        Value(2, "UPDATING", "the operation of an Update runs"),
        Value(3, "FAILED", "the latest update has failed, and nobody knows which settings the resource has"),
        Value(4, "MENDING", "nobody knows that, and the work of an Update is pending"),
    ),
    Enum(
        "update_outcome",
        "how the pending work of an Update went",
        Value(0, "DONE", "it is done, or if the mode is asynchronous started"),
        Value(1, "BEFORE", "it failed, and the resource is as it was"),
        Value(2, "AFTER", "it failed, and yet all of it was done, or it was started"),
        Value(3, "REFUSED_400", "the backend rejects the Update with 400, and the resource is as it was"),
        Value(4, "REFUSED_422", "the backend rejects the Update with 422, and the resource is as it was"),
        Value(5, "FAILED", "it failed, and nobody knows which settings the resource has"),
        comment="""How the pending work of an Update goes. Work that is half done is none of these. Undo it and say
        BEFORE, finish it and say DONE, or say nothing until it is known.""",
    ),
    Struct(
        "update_holding",
        Member("struct osb_settings settings", "those of the Provision, or of the last update that has succeeded"),
        Member("struct osb_settings to", "those to which the work or the operation leads, which count if there is one"),
        Member("uint64_t number", "the greatest number of an Update that was judged, or 0"),
        Member("enum osb_update_phase phase", "an enum osb_update_phase"),
        comment="""What a broker holds of the updates of an instance. In what a call gives, members that don't count are
        zeroes, here, in struct osb_update_begun and in struct osb_update_fetched: two holdings that calls gave are the
        same exactly if each member is.""",
        is_private=True,
    ),
    Struct(
        "update_begun",
        Member("struct osb_settings to", "the settings to which the work leads, if has_work is true"),
        Member("struct osb_answer answer", "the answer to send, if both flags are false"),
        Member("enum osb_mode mode", "an enum osb_mode: how the work is done, if has_work is true"),
        Member("bool has_work", "whether work is due and pending"),
        Member("bool is_maintenance_conflict", "whether the answer is 422 with the error MaintenanceInfoConflict"),
        comment="What comes of an Update at once.",
    ),
    Struct(
        "update_fetched",
        Member("struct osb_settings settings", "the settings to report, if is_found is true"),
        Member("uint64_t number", "the number that is held, if is_found is true"),
        Member("struct osb_answer answer", "the answer to send, if is_found is false"),
        Member("bool is_found", "whether the answer is 200, with the settings and the number"),
        comment="What comes of a Fetch of an instance.",
    ),
    Call(
        "void osb_update_asked_for(const struct osb_settings *settings, const struct osb_change *change, "
        "struct osb_settings *asked)",
        """The settings that an Update asks for which comes for an instance with these: what the change names, and else
        what there was.""",
    ),
    Call(
        "void osb_update_new(const struct osb_settings *settings, struct osb_update_holding *holding)",
        """The holding of an instance of which no Update was judged, with the settings of its Provision. Its phase is
        OSB_UPDATE_PHASE_SETTLED, and its number is 0.""",
    ),
    Call(
        "bool osb_update_is_under_way(const struct osb_update_holding *holding)",
        """Whether the work of an Update is pending, or its operation runs. True also if the holding is none that a call
        gives, so that nothing begins then.""",
    ),
    Call(
        "uint32_t osb_update_begin(struct osb_update_holding *holding, const struct osb_holding *instance, "
        "uint8_t allowed, const struct osb_update *update, struct osb_update_begun *begun)",
        """Begins with an Update: answers it, or makes its work pending. `instance` is the holding of the instance.
        `allowed` is what the catalogue has for the settings that the Update asks for (osb_update_asked_for, with those
        that the holding has). The first line that fits:

        - The instance has neither a row nor pending work: 404, and nothing changes.
        - The instance isn't available: 422 ConcurrencyError, and nothing changes.
        - The row has another service: 400, and nothing changes.
        - The Update has a number that is lower than the one that is held: 409, and nothing changes.
        - It has the number that is held: 422 ConcurrencyError if its work is pending, 202 if the operation to the
          settings that are asked for runs, 200 if the resource has them, else 500; nothing changes.
        - It has no number, and the operation to the settings that are asked for runs: 202, and nothing changes.
        - An update is under way: 422 ConcurrencyError, and nothing changes.
        - The resource has the settings that are asked for: 200.
        - The catalogue rejects it: 400 or 422, or 422 MaintenanceInfoConflict.
        - It has to be asynchronous, and doesn't accept that: 422 AsyncRequired.
        - Its work is due and pending.

        In the last four lines the Update is judged, and its number is held. If the latest update has failed, nobody
        knows which settings the resource has. Then the first of these four never fits, and what the next two reject is
        answered with 500, since a rejection says that the resource has the settings of before. If the holding changed,
        write it to the database before the work begins or the answer is sent.""",
        "OSB_DONE, OSB_BAD_HOLDING (holding or instance), OSB_BAD_ALLOWED.",
    ),
    Call(
        "uint32_t osb_update_end(struct osb_update_holding *holding, uint8_t mode, uint8_t outcome, "
        "struct osb_answer *answer)",
        """Ends the pending work of an Update with this outcome, an enum osb_update_outcome, and returns the answer to
        the Update. The mode is that of the struct osb_update_begun. The number stays. The holding is written to the
        database before the answer is sent.""",
        "OSB_DONE, OSB_BAD_HOLDING, OSB_BAD_MODE (OSB_MODE_NONE too), OSB_BAD_OUTCOME, OSB_NOTHING_BEGUN.",
    ),
    Call(
        "uint32_t osb_update_finish(struct osb_update_holding *holding, bool ok)",
        """Ends the operation of an Update, which succeeded (ok) or failed. If it succeeded, the holding is settled with
        the settings of the operation, and else it is failed. The holding is written to the database before a Poll is
        answered by it.""",
        "OSB_DONE, OSB_BAD_HOLDING, OSB_NOTHING_UPDATING.",
    ),
    Call(
        "uint32_t osb_update_poll(const struct osb_update_holding *holding, const struct osb_holding *instance, "
        "struct osb_answer *answer)",
        """The answer to a Poll of an instance that is available: 200, in progress while an update is under way,
        succeeded if the holding is settled, failed if the latest update has failed. If the instance isn't available,
        osb_holding_begin answers.""",
        "OSB_DONE, OSB_BAD_HOLDING (holding or instance), OSB_NOT_AVAILABLE.",
    ),
    Call(
        "uint32_t osb_update_fetch(const struct osb_update_holding *holding, const struct osb_holding *instance, "
        "struct osb_update_fetched *fetched)",
        """What comes of a Fetch of the instance that its service and plan allow: 200 with the settings and the number
        that is held, if the instance is available and the holding is settled; 422 ConcurrencyError if the instance is
        available and the holding isn't settled; else 404.""",
        "OSB_DONE, OSB_BAD_HOLDING (holding or instance).",
    ),
    Call(
        "uint32_t osb_update_begin_instance(const struct osb_update_holding *holding, struct osb_holding *instance, "
        "uint8_t mode, bool first_poll, const struct osb_request *request, const uint8_t attributes[32], "
        "bool any_held, struct osb_begun *begun)",
        """Begins with a request to an instance of which an update may be under way, as osb_holding_begin_if does.
        any_held is whether osb_holding_is_held is true of a binding of the instance. If it is, or while an update is
        under way, nothing begins: a Deprovision whose work would be due is answered with 422 ConcurrencyError, and
        nothing changes. Only `instance` is written. If the instance has a row, compare the settings that a Provision
        asks for first, and answer it without this call if docs/c.md says so: the table of the instance doesn't know
        what an update has left.""",
        "OSB_DONE, OSB_BAD_HOLDING (holding or instance), OSB_BAD_MODE, OSB_BAD_KIND.",
    ),
    Call(
        f"uint32_t osb_update_holding_to_text(const struct osb_update_holding *holding, {BUFFER})",
        """Writes the text of a holding of updates, for a column of a database that is null until the first Update.""",
        "OSB_DONE, OSB_BAD_HOLDING, OSB_TOO_SMALL, OSB_MEMORY.",
    ),
    Call(
        "uint32_t osb_update_holding_from_text(const uint8_t *text, size_t length, "
        "struct osb_update_holding *holding)",
        "Reads the text of a holding of updates. What osb_update_holding_to_text wrote gives OSB_DONE or OSB_MEMORY.",
        "OSB_DONE, OSB_NOT_UTF8, OSB_NOT_JSON, OSB_NOT_AN_OBJECT, OSB_BAD_VERSION, OSB_BAD_OUTER, OSB_BAD_MEMBER, "
        "OSB_MEMORY.",
    ),
    Section(
        """What a broker does next. A driver is the way of one request through a broker, or of one take-up, which goes
        on with what a dead worker has left. A driver says the one action that the program carries out next, and the
        program reports what came of it. So the program decides nothing, and branches on no state of an instance. A
        driver owns nothing, and no call takes memory. The program takes the lock of the key, if it is free, and begins
        the driver. It passes to every transaction what it has read and locked in it, writes what the call returns
        before it commits, and goes on only as the commit went."""
    ),
    Enum(
        "stage",
        "the action that the program carries out next for a driver",
        Value(1, "BEGIN", "run the first transaction"),
        Value(2, "AWAIT_LOCK", "wait for the lock of the key, and report it by osb_driver_locked"),
        Value(3, "WORK", "make the call of the backend, under the lock, and report it"),
        Value(4, "END", "run the last transaction of pending work"),
        Value(5, "FINISH", "run the last transaction of an operation"),
        Value(6, "UNSURE", "read the row in a transaction, since nobody knows what was committed"),
        Value(7, "ANSWER", "free the lock, and send the answer"),
        Value(8, "DONE", "free the lock; if a request isn't answered yet, answer 500 or 503"),
    ),
    Enum(
        "call",
        "the call of the backend that the program makes next for a driver at WORK",
        Value(0, "NONE", "nobody knows how the work ended: step the driver no more"),
        Value(1, "LOOK", "return what exists, and report it by osb_driver_looked"),
        Value(2, "SYNC", "write to disk what exists, and report that by osb_driver_synced"),
        Value(3, "CREATE", "create the resource, and report that by osb_driver_called"),
        Value(4, "DELETE", "delete the resource, and report that by osb_driver_called"),
        Value(5, "UPDATE", "change the settings of the resource, and report that by osb_update_driver_called"),
    ),
    Enum(
        "look",
        "a look of a worker",
        Value(0, "FIRST", "before anything is done"),
        Value(1, "AGAIN", "all was there at first, or nothing, and that is on disk now"),
        Value(2, "TRIED", "after the creation or the deletion"),
        Value(3, "UNDONE", "after a part that was created is deleted"),
    ),
    Enum(
        "there",
        "what a look finds",
        Value(0, "ABSENT", "nothing"),
        Value(1, "PART", "something that can't be used"),
        Value(2, "WHOLE", "all of it"),
    ),
    Enum(
        "effect",
        "the event that a transaction is, once it is committed",
        Value(0, "NOTHING", "no event"),
        Value(1, "ARRIVE", "the request arrives"),
        Value(2, "PUT_OFF", "the request is answered as if work were pending"),
        Value(3, "END", "the pending work ends, with the outcome of the struct"),
        Value(4, "FINISH", "the operation ends: it succeeded if ok is true"),
        Value(5, "GIVE_UP_WAITING", "the instance has waited too long for its first Poll"),
        Value(6, "UPDATE", "the Update arrives"),
        Value(7, "END_UPDATE", "the pending work of an Update ends, with update_outcome"),
        Value(8, "FINISH_UPDATE", "an operation of an Update ends: succeeded if ok is true"),
    ),
    Struct(
        "driver",
        Member("uint8_t number[16]", "the driver's own number, never zeroes"),
        Member("struct osb_request task", "at WORK, if is_pending is true: the request whose work is pending"),
        Member("struct osb_answer answer", "at ANSWER the answer; at END, if has_answer is true, an earlier try's"),
        Member("uint16_t rejection", "at WORK: the status with which the backend has rejected the creation, or 0"),
        Member("enum osb_stage stage", "an enum osb_stage"),
        Member("enum osb_outcome outcome", "at END: an enum osb_outcome"),
        Member("enum osb_call call", "at WORK: an enum osb_call"),
        Member("enum osb_look look", "at WORK, if the call is a look or a sync: an enum osb_look, its own or the next"),
        Member("bool is_request", "whether it answers a request; if not, it is of a take-up"),
        Member("bool is_locked", "at BEGIN: whether it has the lock"),
        Member("bool is_pending", "at WORK: whether the work is pending; if not, it is the operation that runs"),
        Member("bool creates", "at WORK: whether the work is a creation; if not, it is a deletion"),
        Member("bool has_answer", "at END: whether nobody knows if an earlier try was committed"),
        Member("bool ok", "at FINISH: whether the operation succeeded"),
        comment="A driver. In what a call gives, members that don't count are zeroes.",
        is_private=True,
    ),
    Struct(
        "reading",
        Member("struct osb_holding holding", "of the row"),
        Member("struct osb_request request", "the request, which counts only at its first transaction"),
        Member("struct osb_id id", "of the row: the instance's, or the binding's"),
        Member("uint8_t number[16]", "of the row, and zeroes if it has none"),
        Member("uint8_t attributes[32]", "the digest of the request's attributes"),
        Member("enum osb_mode row_mode", "an enum osb_mode: of the plan of the row, or else of the pending work"),
        Member("enum osb_mode mode", "an enum osb_mode: of the request's plan"),
        Member("bool first_poll", "the rule of the first Poll"),
        Member("bool may_begin", "whether something may begin, which doesn't count for a binding"),
        Member("bool may_give_up", "whether the row has waited too long for its first Poll"),
        comment="""What a transaction is given. The holding and the number are those of the row, read and locked in the
        transaction. request, attributes, mode, first_poll and may_begin are those of osb_holding_begin_if. They count
        only at the first transaction of a request, and are zeroes for a take-up.""",
    ),
    Struct(
        "transaction",
        Member("struct osb_holding holding", "the row has to have it"),
        Member("uint8_t number[16]", "the row has to have it"),
        Member("struct osb_driver committed", "the driver once the commit has returned"),
        Member("struct osb_driver unsure", "the driver if nobody knows whether the transaction was committed"),
        Member("enum osb_effect effect", "an enum osb_effect"),
        Member("enum osb_outcome outcome", "of OSB_EFFECT_END: an enum osb_outcome"),
        Member("bool ok", "of OSB_EFFECT_FINISH: whether the operation succeeded"),
        Member("bool writes", "whether the holding and the number have to be written: one of them changed"),
        comment="What a transaction comes to.",
        is_private=True,
    ),
    Call(
        "uint32_t osb_driver_new(const uint8_t number[16], bool is_request, bool has_lock, struct osb_driver *driver)",
        """Begins a driver, of a request (is_request) or of a take-up, once the program has taken the lock of its key,
        if that was free: has_lock is whether it was. A lock of which nobody knows isn't had. The number is the driver's
        own: no other driver ever has it, so draw 128 random bits.""",
        "OSB_DONE, OSB_BAD_DRIVER.",
    ),
    Call(
        "uint32_t osb_driver_locked(struct osb_driver *driver, bool has_lock)",
        """Reports, at OSB_STAGE_AWAIT_LOCK, whether the driver has the lock of its key after it has waited. A lock of
        which nobody knows isn't had.""",
        "OSB_DONE, OSB_BAD_DRIVER, OSB_WRONG_STAGE.",
    ),
    Call(
        "uint32_t osb_driver_looked(struct osb_driver *driver, uint8_t there)",
        """Reports what a look has found (OSB_CALL_LOOK): an enum osb_there. A look that shows how the work has ended
        moves the driver on, to OSB_STAGE_END or OSB_STAGE_FINISH. If a look or a sync has failed, nobody knows how the
        work ended: report nothing, and step the driver no more.""",
        "OSB_DONE, OSB_BAD_DRIVER, OSB_BAD_THERE, OSB_WRONG_STAGE.",
    ),
    Call(
        "uint32_t osb_driver_synced(struct osb_driver *driver)",
        """Reports that what exists is on disk (OSB_CALL_SYNC).""",
        "OSB_DONE, OSB_BAD_DRIVER, OSB_WRONG_STAGE.",
    ),
    Call(
        "uint32_t osb_driver_called(struct osb_driver *driver, bool ok, uint16_t rejection)",
        """Reports that the creation or the deletion has returned (OSB_CALL_CREATE, OSB_CALL_DELETE), and whether
        without an error (ok). rejection is 400 or 422 if the backend has rejected the creation with that status, and
        else 0.""",
        "OSB_DONE, OSB_BAD_DRIVER, OSB_NOT_REFUSED, OSB_WRONG_STAGE.",
    ),
    Call(
        "uint32_t osb_driver_read(const struct osb_driver *driver, const struct osb_reading *reading, "
        "struct osb_transaction *transaction)",
        """The transaction of an instance's driver, at OSB_STAGE_BEGIN, OSB_STAGE_END, OSB_STAGE_FINISH and
        OSB_STAGE_UNSURE. If transaction->writes is true, write its holding and its number to the row. Once the commit
        has returned, go on with transaction->committed. If nobody knows whether the transaction was committed, go on
        with transaction->unsure. Work that only starts an operation needs no call of the backend: the driver is at
        OSB_STAGE_END then, with OSB_OUTCOME_DONE. A row that doesn't fit is left alone (OSB_MISFIT).""",
        "OSB_DONE, OSB_BAD_DRIVER, OSB_BAD_HOLDING, OSB_BAD_MODE, OSB_BAD_KIND, OSB_WRONG_STAGE, OSB_MISFIT.",
    ),
    Call(
        "uint32_t osb_binding_driver_read(const struct osb_driver *driver, const struct osb_reading *reading, "
        "const struct osb_holding *instance, struct osb_transaction *transaction)",
        """The transaction of a binding's driver, as osb_driver_read is that of an instance's. `instance` is the holding
        of the binding's instance, read and locked in this transaction. The modes are those of binding. What may begin
        is what osb_binding_begin lets begin. If the instance has a tombstone, and nothing is kept of the binding,
        nothing is written.""",
        "OSB_DONE, OSB_BAD_DRIVER, OSB_BAD_HOLDING (instance or reading->holding), OSB_BAD_MODE, OSB_BAD_KIND, "
        "OSB_WRONG_STAGE, OSB_MISFIT.",
    ),
    Section(
        """What a broker does next at an instance that can be updated. One driver serves the requests of the instance
        and its Updates, so that one lock and one number of the row serve both. It serves every instance, also one that
        was never updated. The stages and the calls of the backend are those of struct osb_driver, and the program
        carries them out in the same way. Bindings have struct osb_driver.

        A row that keeps nothing of updates is passed with the holding of updates that osb_update_new gives for the
        settings of its Provision, or without a row for those that the Provision asks for. If writes_change of the
        transaction is false, such a row goes on to keep nothing of updates."""
    ),
    Struct(
        "update_driver",
        Member("struct osb_driver driver", "as a driver of the instance; at an update, the members that fit"),
        Member("struct osb_settings to", "at WORK of an update: the settings to which it leads"),
        Member("struct osb_settings before", "at WORK of an update, if has_before is true: the settings of the row"),
        Member("enum osb_update_outcome outcome", "at END of an update: an enum osb_update_outcome"),
        Member("bool is_update", "whether the stage is one of an update"),
        Member("bool has_before", "at WORK of an update: whether somebody knows the settings of the row"),
        comment="""A driver of an instance that can be updated. In what a call gives, members that don't count are
        zeroes. If is_update is true, the work of WORK, END and FINISH is that of an Update, and at ANSWER the answer is
        422 with the error MaintenanceInfoConflict.""",
        is_private=True,
    ),
    Struct(
        "update_reading",
        Member("struct osb_reading reading", "of the instance"),
        Member("struct osb_update_holding change", "of the row"),
        Member("struct osb_update update", "the Update, which counts only at its first transaction"),
        Member("uint8_t parameters[32]", "the digest of the parameters that a Provision asks for"),
        Member("uint8_t version[32]", "the digest of the maintenance_info.version that a Provision asks for"),
        Member("enum osb_mode update_mode", "an enum osb_mode: of the Update whose work is pending"),
        Member("enum osb_allowed allowed", "an enum osb_allowed: what the catalogue has for the Update"),
        Member("bool is_update", "whether an Update is asked for, and not reading.request"),
        comment="""What a transaction is given. The holding of the instance, that of its updates and the number are
        those of the row, read and locked in the transaction. update, parameters, version, allowed and is_update count
        only at the first transaction of a request, and are zeroes for a take-up.""",
    ),
    Struct(
        "update_transaction",
        Member("struct osb_holding holding", "the row has to have it"),
        Member("struct osb_update_holding change", "the row has to have it"),
        Member("uint8_t number[16]", "the row has to have it"),
        Member("struct osb_update_driver committed", "the driver once the commit has returned"),
        Member("struct osb_update_driver unsure", "the driver if nobody knows whether the transaction was committed"),
        Member("enum osb_effect effect", "an enum osb_effect"),
        Member("enum osb_outcome outcome", "of OSB_EFFECT_END: an enum osb_outcome"),
        Member("enum osb_update_outcome update_outcome", "of OSB_EFFECT_END_UPDATE: an enum osb_update_outcome"),
        Member("bool ok", "of both FINISH: whether the operation succeeded"),
        Member("bool writes", "whether these three have to be written: one changed"),
        Member("bool writes_change", "whether the holding of the updates changed"),
        comment="What a transaction comes to.",
        is_private=True,
    ),
    Call(
        "uint32_t osb_update_driver_new(const uint8_t number[16], bool is_request, bool has_lock, "
        "struct osb_update_driver *driver)",
        """Begins a driver, of a request or an Update (is_request) or of a take-up, as osb_driver_new does.""",
        "OSB_DONE, OSB_BAD_DRIVER.",
    ),
    Call(
        "uint32_t osb_update_driver_locked(struct osb_update_driver *driver, bool has_lock)",
        """Reports, at OSB_STAGE_AWAIT_LOCK, whether the driver has the lock of its key after it has waited. A lock of
        which nobody knows isn't had.""",
        "OSB_DONE, OSB_BAD_DRIVER, OSB_WRONG_STAGE.",
    ),
    Call(
        "uint32_t osb_update_driver_looked(struct osb_update_driver *driver, uint8_t there, "
        "const struct osb_settings *settings)",
        """Reports what a look has found (OSB_CALL_LOOK): an enum osb_there, and the settings of the resource, which
        count only at an update, if the resource is whole. If the settings are between, report OSB_THERE_PART. A look
        that shows how the work has ended moves the driver on, to OSB_STAGE_END or OSB_STAGE_FINISH. If a look or a sync
        has failed, nobody knows how the work ended: report nothing, and step the driver no more.""",
        "OSB_DONE, OSB_BAD_DRIVER, OSB_BAD_THERE, OSB_WRONG_STAGE.",
    ),
    Call(
        "uint32_t osb_update_driver_synced(struct osb_update_driver *driver)",
        """Reports that what exists is on disk, with its settings (OSB_CALL_SYNC).""",
        "OSB_DONE, OSB_BAD_DRIVER, OSB_WRONG_STAGE.",
    ),
    Call(
        "uint32_t osb_update_driver_called(struct osb_update_driver *driver, bool ok, uint16_t rejection)",
        """Reports that the creation, the deletion or the update has returned (OSB_CALL_CREATE, OSB_CALL_DELETE,
        OSB_CALL_UPDATE), and whether without an error (ok). rejection is 400 or 422 if the backend has rejected the
        creation or the update with that status, and else 0.""",
        "OSB_DONE, OSB_BAD_DRIVER, OSB_NOT_REFUSED, OSB_WRONG_STAGE.",
    ),
    Call(
        "uint32_t osb_update_driver_read(const struct osb_update_driver *driver, "
        "const struct osb_update_reading *reading, struct osb_update_transaction *transaction)",
        """The transaction of a driver at OSB_STAGE_BEGIN, OSB_STAGE_END, OSB_STAGE_FINISH and OSB_STAGE_UNSURE, as
        osb_driver_read is that of an instance's driver. If transaction->writes is true, write both holdings and the
        number to the row. A driver that an Update begins does its work as `allowed` says, and any other one as
        update_mode says. A row that doesn't fit is left alone (OSB_MISFIT).""",
        "OSB_DONE, OSB_BAD_DRIVER, OSB_BAD_HOLDING (reading->reading.holding or reading->change), OSB_BAD_MODE "
        "(OSB_MODE_NONE as update_mode too), OSB_BAD_KIND, OSB_BAD_ALLOWED, OSB_WRONG_STAGE, OSB_MISFIT.",
    ),
    Section(
        """What a platform does next. A driver is the way of one request of a platform, of an instance or of a binding,
        from its record to its answer. A driver says the one action that the program carries out next, and the program
        reports what came of it. A driver owns nothing, and no call takes memory. The program passes to every
        transaction what it has read and locked in it, writes what the call returns before it commits, and goes on only
        as the commit went."""
    ),
    Enum(
        "platform_stage",
        "the action that the program carries out next for a platform's driver",
        Value(0, "CLAIM", "run the first transaction"),
        Value(1, "SEND", "send the request, and report it by osb_platform_driver_answered"),
        Value(2, "FETCH", "send a Fetch of the binding, and report it by osb_platform_driver_fetched"),
        Value(3, "TAKE", "run the last transaction"),
        Value(4, "UNSURE", "run the last transaction, since nobody knows whether the first was committed"),
        Value(5, "DONE", "nothing is left to do"),
    ),
    Enum(
        "clean_up",
        "a way to clean an instance or a binding up",
        Value(0, "NONE", "it isn't cleaned up"),
        Value(1, "EXPIRE", "polling has taken too long: osb_record_expire"),
        Value(2, "RETRY", "a deletion has been polled for too long: osb_record_retry"),
        Value(3, "REMOVE", "an operator asks for it: osb_record_remove, of an instance osb_record_remove_if"),
    ),
    Struct(
        "platform_driver",
        Member("uint8_t number[16]", "the driver's own number, never zeroes"),
        Member("uint64_t attempt", "at SEND, FETCH, TAKE and UNSURE: the number of the request"),
        Member("struct osb_request request", "at SEND: the request to send; that of a binding has the binding's id"),
        Member("struct osb_answer answer", "at FETCH, and at TAKE if has_answer is true: the answer"),
        Member("enum osb_platform_stage stage", "an enum osb_platform_stage"),
        Member("bool is_binding", "whether it is of a binding; if not, it is of an instance"),
        Member("bool has_answer", "at TAKE: whether there is an answer; if not, the request is given up"),
        Member("bool has_credentials", "at TAKE, of a binding: whether its credentials came, and are sealed"),
        Member("bool fetches", "at SEND: whether an answer that the binding is ready is taken only with a Fetch's"),
        comment="A driver of a platform. In what a call gives, members that don't count are zeroes.",
        is_private=True,
    ),
    Struct(
        "platform_reading",
        Member("struct osb_record record", "the row's, if has_record is true"),
        Member("struct osb_record instance", "that of a binding's instance, if has_instance is true"),
        Member("struct osb_id id", "the key of the row: the id of the instance, or that of the binding"),
        Member("struct osb_id service, plan", "those with which an instance is created"),
        Member("uint8_t number[16]", "the row's: the number of the driver that last claimed it, or zeroes"),
        Member("enum osb_clean_up clean_up", "the wish to clean up, an enum osb_clean_up; any other number is none"),
        Member("bool has_record", "whether the row has a record"),
        Member("bool has_instance", "of a binding: whether its instance has a record"),
        Member("bool all_gone", "of an instance: whether each recorded binding of it is gone"),
        Member("bool create", "the wish to create it, if it isn't recorded"),
        Member("bool send", "the wish to send the request that is due"),
        Member("bool accepts_incomplete", "whether an asynchronous creation is accepted"),
        Member("bool retrievable", "of a binding: whether the broker serves its Fetch", go="is_retrievable"),
        comment="""What a transaction of a driver of a platform is given: what the program has read and locked in it,
        and what it wishes. At TAKE and UNSURE only record, has_record, number and retrievable count.""",
    ),
    Struct(
        "platform_transaction",
        Member("struct osb_record record", "what the row has to have, if has_record is true"),
        Member("uint8_t number[16]", "the number that the row has to have"),
        Member("struct osb_platform_driver committed", "the driver once the commit has returned"),
        Member("struct osb_platform_driver unsure", "the driver if nobody knows whether it was committed"),
        Member("struct osb_platform_driver failed", "the driver if it wasn't committed"),
        Member("enum osb_clean_up cleans_up", "an enum osb_clean_up: how the record was cleaned up"),
        Member("bool has_record", "whether there is a record"),
        Member("bool writes", "whether the record or the number has to be written: one of them changed"),
        Member("bool times_out", "whether a request in flight was given up"),
        Member("bool sends", "whether a request is in flight by this transaction"),
        Member("bool takes", "whether an answer was taken"),
        comment="What a transaction of a driver of a platform comes to.",
        is_private=True,
    ),
    Call(
        "uint32_t osb_platform_driver_new(const uint8_t number[16], bool is_binding, "
        "struct osb_platform_driver *driver)",
        """Begins a driver of a platform, of a binding (is_binding) or of an instance. The number is the driver's own:
        no other driver ever has it, so draw 128 random bits.""",
        "OSB_DONE, OSB_BAD_DRIVER.",
    ),
    Call(
        "uint32_t osb_platform_driver_read(const struct osb_platform_driver *driver, "
        "const struct osb_platform_reading *reading, struct osb_platform_transaction *transaction)",
        """The transaction of a driver of a platform, at OSB_PLATFORM_STAGE_CLAIM, OSB_PLATFORM_STAGE_TAKE and
        OSB_PLATFORM_STAGE_UNSURE. If transaction->writes is true, write its record and its number. Once the commit has
        returned, go on with transaction->committed. If nobody knows whether it was committed, go on with
        transaction->unsure, and if it wasn't, with transaction->failed.

        - CLAIM gives up a request in flight, whose sender is gone. Then it cleans up as is wished, and sends the
          request that is due if that is wished, as far as the record allows it. An instance is removed only if all_gone
          is true. Without a record it creates one if that is wished, of a binding only if its instance is recorded
          ready.
        - TAKE takes the answer to the request, if that is in flight. The answer counts as lost if it promises
          credentials of a binding that can't be fetched, or if it would make a binding ready and has_credentials of the
          driver is false. A request whose answer is lost is given up.
        - UNSURE gives up the request, if it is in flight and the row has the driver's number.""",
        "OSB_DONE, OSB_BAD_DRIVER, OSB_BAD_RECORD (the row's or the instance's), OSB_WRONG_STAGE.",
    ),
    Call(
        "uint32_t osb_platform_driver_answered(struct osb_platform_driver *driver, bool has_answer, "
        "struct osb_answer answer, bool has_credentials)",
        """Reports what came of the request of OSB_PLATFORM_STAGE_SEND. has_answer is false if no answer came in time,
        or none that is surely the broker's; the answer doesn't count then. has_credentials is whether the answer had an
        object of the binding, and it is sealed.""",
        "OSB_DONE, OSB_BAD_DRIVER, OSB_WRONG_STAGE.",
    ),
    Call(
        "uint32_t osb_platform_driver_fetched(struct osb_platform_driver *driver, bool has_credentials)",
        """Reports what came of the Fetch of OSB_PLATFORM_STAGE_FETCH: whether it was answered with an object of the
        binding, and that is sealed.""",
        "OSB_DONE, OSB_BAD_DRIVER, OSB_WRONG_STAGE.",
    ),
    Section(
        """Requests and answers as HTTP and JSON have them (docs/wire.md). No connection is opened, and no HTTP is
        written: methods, targets, statuses and bodies go into an HTTP library and come out of one. Every body is JSON
        (Content-Type: application/json); a platform names the version 2.17 in the header X-Broker-API-Version."""
    ),
    Call(
        "uint32_t osb_read_answer(uint8_t kind, uint16_t status, const uint8_t *body, size_t length, "
        "struct osb_answer *answer)",
        """What a platform takes from a response to a request of the kind, from its status and all of its body. Where
        the response isn't surely the broker's, a timeout is taken in its place (OSB_NO_ANSWER).""",
        "OSB_DONE, OSB_BAD_KIND, OSB_NO_ANSWER, OSB_MEMORY.",
    ),
    Struct(
        "details",
        Member("bool has_description, has_error, has_dashboard_url, has_operation, has_metadata"),
        Member("bool has_instance_usable, instance_usable, has_update_repeatable, update_repeatable"),
        Member("size_t description, error, dashboard_url, operation, metadata", "the length of each text"),
        comment="""What the body of an answer says besides the answer. A member counts if its has_ is true, and is false
        or 0 otherwise. The texts stand in a buffer one after the other, in this order.""",
        has_lengths=True,
    ),
    Call(
        f"uint32_t osb_read_details(const uint8_t *body, size_t length, struct osb_details *details, {BUFFER})",
        """Reads what the body of an answer says besides the answer, to any request and with any status: the strings
        description (for a person), error, dashboard_url and operation (of at most 10,000 characters), the text of
        metadata, and the booleans instance_usable and update_repeatable. A body that is no object says nothing. The
        texts go to the buffer one after the other, and the length of all to *needed.""",
        "OSB_DONE, OSB_TOO_SMALL, OSB_MEMORY.",
    ),
    Call(
        f"uint32_t osb_write_method(uint8_t kind, {BUFFER})",
        "Writes the method of a request of the kind: PUT, GET or DELETE.",
        "OSB_DONE, OSB_BAD_KIND, OSB_TOO_SMALL.",
    ),
    Call(
        "uint32_t osb_write_named_target(const uint8_t *prefix, size_t prefix_length, "
        "const struct osb_request *request, const uint8_t *instance, size_t instance_length, const uint8_t *service, "
        "size_t service_length, const uint8_t *plan, size_t plan_length, bool has_operation, const uint8_t *operation, "
        f"size_t operation_length, {BUFFER})",
        """Writes the target of a request: the path, which begins with the prefix (empty, or what the broker's URL has
        before /v2, with no `?`, `#`, blank or line end: it is written as it stands), and the query. The texts of the
        ids are escaped as a path and a query need it. Each text must be that of the request's id, so no other instance
        is asked for. The operation counts if has_operation is true, and is the broker's; give one to a Poll alone.""",
        "OSB_DONE, OSB_NOT_UTF8 (prefix, any text, or an operation that counts), OSB_BAD_KIND, OSB_NOT_INSTANCE_TEXT, "
        "OSB_NOT_SERVICE_TEXT, OSB_NOT_PLAN_TEXT, OSB_TOO_SMALL, OSB_MEMORY.",
    ),
    Call(
        "uint32_t osb_write_named_body(uint8_t kind, const uint8_t *service, size_t service_length, "
        "const uint8_t *plan, size_t plan_length, const uint8_t *organization, size_t organization_length, "
        f"const uint8_t *space, size_t space_length, const uint8_t *further, size_t further_length, {BUFFER})",
        """Writes the body of a request of the kind: of a Provision an object of the texts of the service and the plan,
        the organization and the space, neither of which may be empty, and the members of `further`, the text of an
        object ({} for none), as context, parameters or maintenance_info; else an empty text. osb_write_named_target
        says whether the texts are the request's.""",
        "OSB_DONE, OSB_NOT_UTF8 (any text), OSB_BAD_KIND, OSB_NOT_JSON (further), OSB_NOT_AN_OBJECT (further), "
        "OSB_TOO_SMALL, OSB_MEMORY.",
    ),
    Struct(
        "asked",
        Member("enum osb_kind kind", "an enum osb_kind"),
        Member("bool accepts_incomplete", "whether the operation may be asynchronous"),
        Member("bool has_service, has_plan", "whether it names them; only a Poll may lack them"),
        Member("struct osb_id id, service, plan"),
        comment="""What a request asks of a broker. The service counts where has_service is true, and the plan where
        has_plan is; else osb_receive_request writes zeroes.""",
    ),
    Struct(
        "received",
        Member("bool has_service, has_plan", "whether the request names them; only a Poll may lack them"),
        Member("bool has_parameters, has_context, has_maintenance_info", "whether the body of a Provision has them"),
        Member("bool has_others", "true for a Provision alone"),
        Member("size_t instance, service, plan", "the length of the text of each id"),
        Member("size_t parameters, context, maintenance_info, others", "the length of each part"),
        comment="""The texts of a request, which stand in a buffer one after the other: those of the ids and of the
        parts of a Provision's body, in this order. A text that isn't there has the length 0.""",
        has_lengths=True,
    ),
    Call(
        "uint32_t osb_receive_request(const uint8_t *prefix, size_t prefix_length, size_t longest_body, "
        "const uint8_t *method, size_t method_length, const uint8_t *target, size_t target_length, "
        "const uint8_t *body, size_t body_length, struct osb_asked *asked, struct osb_received *received, "
        f"{BUFFER})",
        """Reads what a request asks of a broker, from its method, its target (path and query, as the request line has
        them) and all of its body, with the texts of its ids and the parts of a Provision's body: parameters, context,
        maintenance_info, and others, the object of all other members but service_id and plan_id. A body of more than
        longest_body bytes is refused unread. A part is JSON with no spaces, numbers as they are written, and members in
        their order. The texts go to the buffer one after the other, in the order of struct osb_received, and the length
        of all to *needed.""",
        "OSB_DONE, OSB_NOT_UTF8 (prefix or method), OSB_REFUSED_TARGET, OSB_REFUSED_METHOD, OSB_REFUSED_INSTANCE, "
        "OSB_REFUSED_LENGTH, and the first of OSB_REFUSED_REPEATED to OSB_REFUSED_SPACE in the order of docs/wire.md, "
        "OSB_TOO_SMALL, OSB_MEMORY.",
    ),
    Call(
        "uint32_t osb_member_text(const uint8_t *body, size_t length, const uint8_t *name, size_t name_length, "
        f"{BUFFER})",
        """Writes the JSON that stands under a name in the object that a body is, with no spaces, numbers as they are
        written, and members in their order. Of a name that stands twice the last counts.""",
        "OSB_DONE, OSB_NOT_UTF8 (name), OSB_NO_MEMBER, OSB_TOO_SMALL, OSB_MEMORY.",
    ),
    Call(
        "uint32_t osb_attributes_digest(const uint8_t *body, size_t length, uint8_t digest[32])",
        """Writes the digest for osb_holding_begin of what the body of a Provision asks for: that of its parameters, or
        32 zeroes if it has none. Context, organization and space don't count (this project's choice).""",
        "OSB_DONE, OSB_MEMORY; if it isn't done, the digest is as before.",
    ),
    Call(
        "uint32_t osb_parameters_digest(const uint8_t *parameters, size_t length, uint8_t digest[32])",
        """Writes the digest of the JSON of parameters: the SHA-256 of the same JSON with no spaces, each number as it
        is written, and the members of each object in ascending order of their names. {} and null have 32 zeroes. All of
        this is this project's choice.""",
        "OSB_DONE, OSB_NOT_JSON, OSB_MEMORY; if it isn't done, the digest is as before.",
    ),
    Call(
        "uint32_t osb_asked_request(const struct osb_asked *asked, bool has_held, struct osb_id service, "
        "struct osb_id plan, struct osb_request *request)",
        """The request for a broker, with the service and the plan that are held, which count where has_held is true:
        they stand in the place of those that a Poll lacks.""",
        "OSB_DONE, OSB_BAD_ASKED.",
    ),
    Call(
        "uint32_t osb_write_told_answer(struct osb_answer answer, bool has_operation, const uint8_t *operation, "
        "size_t operation_length, bool has_description, const uint8_t *description, size_t description_length, "
        f"{BUFFER})",
        """Writes the body of an answer. The operation counts if has_operation is true, and is written in a 202 alone.
        The description, for a person, counts if has_description is true, and is written for an error, in place of the
        usual sentence, and for a last operation that failed; of one with more than 1,000 characters the first 1,000
        (this project's choice).""",
        "OSB_DONE, OSB_NOT_UTF8 (an operation or a description that counts), OSB_TOO_SMALL, OSB_MEMORY.",
    ),
    Call(
        "uint16_t osb_refusal_status(uint32_t refusal)",
        """The HTTP status of a refusal, OSB_REFUSED_TARGET to OSB_REFUSED_SPACE and OSB_REFUSED_MAINTENANCE, and 503 of
        OSB_MEMORY; 0 of every other number.""",
    ),
    Call(
        f"uint32_t osb_refusal_body(uint32_t refusal, {BUFFER})",
        "Writes the body of a refusal. It takes no memory, so that want of it can be told.",
        "OSB_DONE, OSB_NOT_REFUSED, OSB_TOO_SMALL.",
    ),
    Call(
        "uint32_t osb_api_version(bool has_value, const uint8_t *value, size_t length)",
        """Judges the version that a platform names in the header X-Broker-API-Version: 2.x, whichever. The value counts
        where has_value is true; a request without the header has none.""",
        "OSB_DONE, OSB_REFUSED_VERSION.",
    ),
    Call(
        "uint32_t osb_basic_auth(const uint8_t *value, size_t length, const uint8_t *user, size_t user_length, "
        "const uint8_t *password, size_t password_length)",
        """Judges whether the header Authorization names this user and this password, by HTTP's Basic scheme. The user
        must have no colon, since another user and password would read the same. An empty user with an empty password is
        never accepted (this project's choice). Either of them alone may be empty. The time that it takes doesn't tell
        where they differ, as the code is written.""",
        "OSB_DONE, OSB_NOT_UTF8 (any of the three), OSB_UNAUTHORIZED, OSB_MEMORY.",
    ),
    Call(
        f"uint32_t osb_originating_identity(const uint8_t *value, size_t length, size_t *platform, {BUFFER})",
        """Reads the header X-Broker-API-Originating-Identity: the platform, a blank, and an object of JSON in padded
        base64. The name of the platform and then the text of the object go to the buffer, the length of the name to
        *platform, and the length of both to *needed.""",
        "OSB_DONE, OSB_NOT_UTF8, OSB_NO_IDENTITY, OSB_TOO_SMALL (*platform is then written too), OSB_MEMORY.",
    ),
    Call(
        "uint32_t osb_request_identity(const uint8_t *value, size_t length)",
        """Judges the header X-Broker-API-Request-Identity. If it is done, the broker returns the value in the same
        header of its answer. A value that is empty or has an ASCII control character names nobody (this project's
        choice).""",
        "OSB_DONE, OSB_NOT_UTF8, OSB_NO_IDENTITY.",
    ),
    Call(
        "uint32_t osb_retry_after(const uint8_t *value, size_t length, uint64_t *seconds)",
        "Reads the seconds that a broker names in the header Retry-After.",
        "OSB_DONE, OSB_NO_SECONDS.",
    ),
    Call(
        "uint32_t osb_catalogue_plans(const uint8_t *document, size_t length, struct osb_plan *plans, size_t places, "
        "size_t *needed)",
        """Reads the plans that a catalogue's document names, as a broker answers it to GET /v2/catalog; a plan is
        asynchronous where its member `x-osb-asynchronous` is true, or `asynchronous` if it lacks that. They go to the
        front of `plans`, which has `places`, in ascending order of service and plan, and how many they are to *needed.
        What is behind them is as before.""",
        "OSB_DONE, OSB_NOT_JSON, OSB_NO_SERVICES, and the first of OSB_BAD_SERVICE, OSB_NO_PLANS, OSB_BAD_PLAN, "
        "OSB_BAD_PLAN_MODE and OSB_PLAN_TWICE in the document's order, OSB_TOO_SMALL (*needed is then written, "
        "and the places are as before), OSB_MEMORY.",
    ),
    Struct(
        "endpoints",
        Member("bool updating", "of an instance, which plan_updateable promises"),
        Member("bool bindings", "which bindable promises"),
        Member("bool fetching_instances", "which instances_retrievable promises"),
        Member("bool fetching_bindings", "which bindings_retrievable promises"),
        comment="The endpoints that a broker serves besides those of Provision, Deprovision and Poll.",
    ),
    Call(
        "uint32_t osb_catalogue_check(const uint8_t *document, size_t length, const struct osb_endpoints *serves)",
        """Judges whether a broker that serves these endpoints can have the document as its catalogue (section Catalog
        Management): the plans as osb_catalogue_plans reads them, and then the names, descriptions and flags of services
        and plans, and the numbers of their ids (docs/wire.md has the table).""",
        "OSB_DONE, OSB_NOT_JSON, OSB_NO_SERVICES, and the first of OSB_BAD_SERVICE, OSB_NO_PLANS, OSB_BAD_PLAN, "
        "OSB_BAD_PLAN_MODE and OSB_PLAN_TWICE in the document's order, and then the first of OSB_NO_NAME to "
        "OSB_BINDINGS_UNSERVED in the document's order, OSB_SAME_NUMBER, OSB_MEMORY.",
    ),
    Call(
        f"uint32_t osb_served_catalogue(const uint8_t *document, size_t length, {BUFFER})",
        """Writes the document that a broker serves as its catalogue: the object that is given, with no spaces, and with
        the member x-osb-tombstones, which is true. A platform with this library learns from it that the broker never
        creates an id again (this project's choice).""",
        "OSB_DONE, OSB_NOT_AN_OBJECT, OSB_TOO_SMALL, OSB_MEMORY.",
    ),
    Call(
        "uint32_t osb_plan_version(const uint8_t *document, size_t length, struct osb_id service, struct osb_id plan, "
        f"{BUFFER})",
        """Writes the maintenance_info.version that a catalogue's document has of a plan of a service (section Catalog
        Management).""",
        "OSB_DONE, OSB_NO_PLAN_VERSION, OSB_TOO_SMALL, OSB_MEMORY.",
    ),
    Call(
        "uint32_t osb_maintenance_conflict(bool has_version, const uint8_t *version, size_t version_length, "
        "const uint8_t *body, size_t body_length)",
        """Judges whether the body of a Provision names another maintenance_info.version than the plan has, which is
        osb_plan_version's and counts where has_version is true. If so, osb_refusal_status and osb_refusal_body give the
        answer (section Maintenance Info Object). A plan or a request without a version conflicts with nothing.""",
        "OSB_DONE, OSB_NOT_UTF8 (a version that counts), OSB_REFUSED_MAINTENANCE, OSB_MEMORY.",
    ),
    Section(
        """Requests and answers of service bindings as HTTP and JSON have them (docs/binding.md). These calls serve for
        bindings too: osb_write_method (a Fetch has the method of a Poll), osb_read_answer for a Bind, an Unbind and a
        Poll, osb_read_details, osb_asked_request, osb_write_told_answer and osb_member_text."""
    ),
    Enum(
        "target",
        "what the target of a request names",
        Value(0, "NONE", "nothing that a broker serves"),
        Value(1, "CATALOGUE", "the catalogue"),
        Value(2, "INSTANCE", "an instance"),
        Value(3, "INSTANCE_OPERATION", "the last operation of an instance"),
        Value(4, "BINDING", "a binding"),
        Value(5, "BINDING_OPERATION", "the last operation of a binding"),
    ),
    Call(
        "uint8_t osb_read_target(const uint8_t *prefix, size_t prefix_length, const uint8_t *target, "
        "size_t target_length)",
        """What a target names, an enum osb_target, whatever the method is and the ids are: so a broker knows which call
        reads the request. The path begins with the prefix, or stands for such a path as in osb_receive_request.
        OSB_TARGET_NONE if osb_receive_request and osb_receive_binding_request return OSB_REFUSED_TARGET, and if the
        prefix isn't UTF-8.""",
    ),
    Struct(
        "binding_asked",
        Member("bool is_fetch", "whether it is a Fetch, which asks for the binding itself"),
        Member("struct osb_id instance"),
        Member("struct osb_asked asked", "the request, under the binding's id"),
        comment="""What a request asks of a binding. A Bind is an OSB_KIND_PROVISION, an Unbind an OSB_KIND_DEPROVISION.
        A Fetch has the kind OSB_KIND_POLL, and may lack its service and its plan as a Poll may. Unless is_fetch is
        true, osb_asked_request makes of `asked` the request for osb_binding_begin.""",
    ),
    Struct(
        "binding_received",
        Member("bool has_service, has_plan", "only a Poll and a Fetch may lack them"),
        Member("bool has_bind_resource, has_parameters, has_context", "whether the body of a Bind has them"),
        Member("bool has_predecessor_binding_id", "whether the body of a Bind has it"),
        Member("size_t instance, binding, service, plan", "the length of the text of each id"),
        Member("size_t bind_resource, parameters, context", "the length of each part"),
        Member("size_t predecessor_binding_id", "the length of this part, with its quotes"),
        comment="""The texts of a request of a binding, which stand in a buffer one after the other: those of the ids
        and of the parts of a Bind's body, in this order. A text that isn't there has the length 0.""",
        has_lengths=True,
    ),
    Call(
        "uint32_t osb_receive_binding_request(const uint8_t *prefix, size_t prefix_length, size_t longest_body, "
        "const uint8_t *method, size_t method_length, const uint8_t *target, size_t target_length, "
        "const uint8_t *body, size_t body_length, struct osb_binding_asked *asked, "
        f"struct osb_binding_received *received, {BUFFER})",
        """Reads what a request asks of a binding, as osb_receive_request does of an instance: a Bind, an Unbind, a Poll
        of a binding's last operation, or a Fetch. The parts of a Bind's body are bind_resource, parameters, context and
        predecessor_binding_id. The texts go to the buffer one after the other, in the order of struct
        osb_binding_received, and the length of all to *needed.""",
        "OSB_DONE, OSB_NOT_UTF8 (prefix or method), OSB_REFUSED_TARGET, OSB_REFUSED_METHOD, OSB_REFUSED_INSTANCE, "
        "OSB_REFUSED_BINDING, OSB_REFUSED_LENGTH, and the first of OSB_REFUSED_REPEATED to OSB_REFUSED_BODY in the "
        "order of docs/binding.md, OSB_TOO_SMALL, OSB_MEMORY.",
    ),
    Call(
        "uint16_t osb_binding_refusal_status(uint32_t refusal)",
        """The HTTP status of a refusal of a request of a binding, OSB_REFUSED_TARGET to OSB_REFUSED_SPACE,
        OSB_REFUSED_BINDING and OSB_REFUSED_APP, and 503 of OSB_MEMORY; 0 of every other number.""",
    ),
    Call(
        f"uint32_t osb_binding_refusal_body(uint32_t refusal, {BUFFER})",
        "Writes the body of a refusal of a request of a binding. It takes no memory, so that want of it can be told.",
        "OSB_DONE, OSB_NOT_REFUSED, OSB_TOO_SMALL.",
    ),
    Call(
        "uint32_t osb_requires_app(bool needs_app, const uint8_t *body, size_t length)",
        """Judges whether the body of a Bind lacks the application that its plan needs: a string app_guid that isn't
        empty, of bind_resource or of the body itself. If so, osb_binding_refusal_status and osb_binding_refusal_body
        give the answer (sections Binding and Service Broker Errors).""",
        "OSB_DONE, OSB_REFUSED_APP, OSB_MEMORY.",
    ),
    Call(
        "uint32_t osb_write_binding_target(const uint8_t *prefix, size_t prefix_length, "
        "const struct osb_request *request, struct osb_id instance_id, const uint8_t *instance, "
        "size_t instance_length, const uint8_t *binding, size_t binding_length, const uint8_t *service, "
        "size_t service_length, const uint8_t *plan, size_t plan_length, bool is_fetch, bool has_operation, "
        f"const uint8_t *operation, size_t operation_length, {BUFFER})",
        """Writes the target of a request of a binding with the texts of its ids, escaped as a path and a query need it.
        The request's id is the binding's. Each text must be that of the request's id, or of instance_id, so no other
        binding is asked for. With is_fetch it is the target of a Fetch of the request's binding, whose kind,
        accepts_incomplete and operation count for nothing. The rest is as in osb_write_named_target.""",
        "OSB_DONE, OSB_NOT_UTF8 (prefix, any text, or an operation that counts), OSB_BAD_KIND, OSB_NOT_INSTANCE_TEXT, "
        "OSB_NOT_BINDING_TEXT, OSB_NOT_SERVICE_TEXT, OSB_NOT_PLAN_TEXT, OSB_TOO_SMALL, OSB_MEMORY.",
    ),
    Call(
        "uint32_t osb_write_binding_body(uint8_t kind, const uint8_t *service, size_t service_length, "
        f"const uint8_t *plan, size_t plan_length, const uint8_t *further, size_t further_length, {BUFFER})",
        """Writes the body of a request of a binding: of a Bind an object of the texts of the service and the plan, and
        the members of `further`, the text of an object ({} for none), as bind_resource, parameters, context or
        predecessor_binding_id; else an empty text. osb_write_binding_target says whether the texts are the request's.
       """,
        "OSB_DONE, OSB_NOT_UTF8 (any text), OSB_BAD_KIND, OSB_NOT_JSON (further), OSB_NOT_AN_OBJECT (further), "
        "OSB_TOO_SMALL, OSB_MEMORY.",
    ),
    Call(
        "uint32_t osb_write_binding(const uint8_t *object, size_t length)",
        """Judges the object of a binding, with its credentials, that a broker has stored. If it is done, the text as it
        stands is the body of a 200 or a 201 to a Bind, and of a 200 to a Fetch.""",
        "OSB_DONE, OSB_NOT_AN_OBJECT, OSB_MEMORY.",
    ),
    Call(
        "uint32_t osb_read_binding(bool is_fetch, uint8_t kind, uint16_t status, const uint8_t *body, size_t length)",
        """Judges whether a response has the object of the binding. If it is done, that is the whole body as it stands:
        of a 200 or a 201 to a Bind, or of a 200 to a Fetch. The kind is that of the request, and counts if is_fetch is
        false. What stands in the object isn't judged.""",
        "OSB_DONE, OSB_BAD_KIND (unless is_fetch), OSB_NO_BINDING, OSB_MEMORY.",
    ),
    Call(
        "uint32_t osb_binding_modes(const uint8_t *document, size_t length, struct osb_plan *plans, size_t places, "
        "size_t *needed)",
        """Reads how the plans that a catalogue's document names bind, as osb_catalogue_plans reads how they work. A
        plan that isn't bindable is left out. A plan binds asynchronously if its own `x-osb-asynchronous-bindings` is
        true, or else that of its service; the service must then be bindings_retrievable. A plan's own `bindable` counts
        before that of its service.""",
        "OSB_DONE, OSB_NOT_JSON, OSB_NO_SERVICES, and the first of OSB_BAD_SERVICE, OSB_NO_PLANS, OSB_BAD_PLAN, "
        "OSB_PLAN_TWICE, OSB_NOT_A_BOOLEAN and OSB_NOT_RETRIEVABLE in the document's order, OSB_TOO_SMALL (*needed is "
        "then written, and the places are as before), OSB_MEMORY.",
    ),
    Call(
        "uint32_t osb_bindings_retrievable(const uint8_t *document, size_t length, struct osb_id service, "
        "bool *retrievable)",
        """Writes to *retrievable whether a catalogue's document says by bindings_retrievable of a service that its
        bindings can be fetched: false if the service isn't in it, or doesn't say so. osb_binding_answer asks for it.
       """,
        "OSB_DONE, OSB_MEMORY; *retrievable is then as before.",
    ),
    Section(
        """Updates and Fetches of an instance as HTTP and JSON have them (docs/wire.md). These calls serve for updates
        too: osb_read_answer for an Update, as for a Provision (OSB_KIND_PROVISION), osb_read_details,
        osb_write_told_answer, osb_parameters_digest and osb_member_text. A target that osb_read_target takes for an
        instance is that of an Update or a Fetch if the method is PATCH or GET."""
    ),
    Struct(
        "update_asked",
        Member("bool is_fetch", "whether it is a Fetch, which asks for the instance itself"),
        Member("bool has_service, has_plan", "whether it is a Fetch that names them"),
        Member("struct osb_id id", "the instance"),
        Member("struct osb_id service, plan", "those of a Fetch, if it names them"),
        Member("struct osb_update update", "the Update, if is_fetch is false: osb_update_begin takes it"),
        comment="""What a request asks of an instance that exists: an Update or a Fetch. What doesn't count in it is
        zeroes, if a call writes it.""",
    ),
    Struct(
        "update_received",
        Member("bool has_service, has_plan", "either may lack its plan, and a Fetch its service"),
        Member("bool has_parameters, has_version", "whether an Update names them"),
        Member("bool has_context, has_previous_values", "whether the body of an Update has them"),
        Member("size_t instance, service, plan", "the length of the text of each id"),
        Member("size_t parameters, version, context, previous_values", "the length of each part"),
        comment="""The texts of an Update or a Fetch, which stand in a buffer one after the other: those of the ids and
        of the parts of an Update's body, in this order. The version is that of maintenance_info, without quotes. A text
        that isn't there has the length 0.""",
        has_lengths=True,
    ),
    Call(
        "uint32_t osb_receive_update_request(const uint8_t *prefix, size_t prefix_length, size_t longest_body, "
        "const uint8_t *method, size_t method_length, const uint8_t *target, size_t target_length, "
        "const uint8_t *body, size_t body_length, struct osb_update_asked *asked, "
        f"struct osb_update_received *received, {BUFFER})",
        """Reads what an Update (PATCH) or a Fetch (GET) asks of an instance, as osb_receive_request reads other
        requests. The number of an Update stands in its body under x-osb-update. Without a number, parameters that are
        {} or null aren't named. The parts of an Update's body are the parameters and the version that it names, context
        and previous_values. The texts go to the buffer one after the other, in the order of struct osb_update_received,
        and the length of all to *needed.""",
        "OSB_DONE, OSB_NOT_UTF8 (prefix or method), OSB_REFUSED_TARGET, OSB_REFUSED_METHOD, OSB_REFUSED_INSTANCE, "
        "OSB_REFUSED_LENGTH, and the first of OSB_REFUSED_REPEATED to OSB_REFUSED_BODY and OSB_REFUSED_NUMBER in the "
        "order of docs/wire.md, OSB_TOO_SMALL, OSB_MEMORY.",
    ),
    Call(
        "uint16_t osb_update_refusal_status(uint32_t refusal)",
        """The HTTP status of a refusal of an Update or a Fetch, OSB_REFUSED_TARGET to OSB_REFUSED_SPACE,
        OSB_REFUSED_MAINTENANCE and OSB_REFUSED_NUMBER, and 503 of OSB_MEMORY; 0 of every other number.""",
    ),
    Call(
        f"uint32_t osb_update_refusal_body(uint32_t refusal, {BUFFER})",
        "Writes the body of a refusal of an Update or a Fetch. It takes no memory, so that want of it can be told.",
        "OSB_DONE, OSB_NOT_REFUSED, OSB_TOO_SMALL.",
    ),
    Call(
        "uint32_t osb_write_success(uint16_t status, bool has_operation, const uint8_t *operation, "
        "size_t operation_length, bool has_dashboard_url, const uint8_t *dashboard_url, size_t dashboard_url_length, "
        f"bool has_metadata, const uint8_t *metadata, size_t metadata_length, {BUFFER})",
        """Writes the body of a 200, a 201 or a 202 to an Update or a Provision: an object of operation, dashboard_url
        and metadata, each if its has_ is true. The operation is written in a 202 alone, and counts for none if it has
        more than 10,000 characters. The metadata is the text of an object, and counts for none if it isn't.""",
        "OSB_DONE, OSB_NOT_UTF8 (a text that counts), OSB_TOO_SMALL, OSB_MEMORY.",
    ),
    Call(
        "uint32_t osb_write_failure(struct osb_answer answer, bool has_description, const uint8_t *description, "
        f"size_t description_length, bool has_usable, bool usable, bool has_repeatable, bool repeatable, {BUFFER})",
        """Writes the body of an answer to an Update that failed, or to a Poll of one: what osb_write_told_answer writes
        with no operation, with instance_usable and update_repeatable, each if its has_ is true.""",
        "OSB_DONE, OSB_NOT_UTF8 (a description that counts), OSB_TOO_SMALL, OSB_MEMORY.",
    ),
    Call(
        "uint32_t osb_write_fetched(const uint8_t *service, size_t service_length, const uint8_t *plan, "
        "size_t plan_length, bool has_parameters, const uint8_t *parameters, size_t parameters_length, "
        "bool has_version, const uint8_t *version, size_t version_length, bool has_dashboard_url, "
        "const uint8_t *dashboard_url, size_t dashboard_url_length, bool has_metadata, const uint8_t *metadata, "
        f"size_t metadata_length, uint64_t number, {BUFFER})",
        """Writes the body of a 200 to a Fetch of an instance: an object of the texts of its ids, and of the parameters,
        the version of maintenance_info, dashboard_url and metadata, each if its has_ is true, and of the number that
        osb_update_fetch gave, unless it is 0. Parameters and metadata are texts of JSON, and are left out if they
        aren't. If there are none, pass {}: from an answer without parameters a platform takes no settings.""",
        "OSB_DONE, OSB_NOT_UTF8 (the text of an id, or a text that counts), OSB_TOO_SMALL, OSB_MEMORY.",
    ),
    Struct(
        "plan_updates",
        Member("bool is_sold", "whether the catalogue sells the plan"),
        Member("bool updateable", "whether an instance of the plan can be changed to another plan"),
        Member("bool retrievable", "whether instances of the service can be fetched"),
        Member("bool has_asynchronous, asynchronous", "whether updates to the plan are asynchronous"),
        Member("bool has_version, has_longest_poll"),
        Member("uint64_t longest_poll", "maximum_polling_duration, in seconds"),
        Member("size_t version", "the length of maintenance_info.version"),
        comment="""What a catalogue says of a plan's updates. A member counts if its has_ is true, and is false or 0
        otherwise. If the plan isn't sold, all members are false or 0.""",
        has_lengths=True,
    ),
    Call(
        "uint32_t osb_plan_updates(const uint8_t *document, size_t length, struct osb_id service, struct osb_id plan, "
        f"struct osb_plan_updates *updates, {BUFFER})",
        """Reads what a catalogue's document says of the updates of a plan of a service: plan_updateable of the plan, or
        else of its service, instances_retrievable, x-osb-asynchronous-updates, maintenance_info.version and
        maximum_polling_duration. The text of the version goes to the buffer, and its length, or 0, to *needed.""",
        "OSB_DONE, also if the plan isn't sold, OSB_TOO_SMALL, OSB_MEMORY.",
    ),
    Call(
        "uint32_t osb_numbers_updates(const uint8_t *document, size_t length, bool *numbers)",
        """Writes to *numbers whether a catalogue's document says by x-osb-updates that its broker orders Updates by
        their numbers. To such a broker a platform sends numbers (this project's choice).""",
        "OSB_DONE, OSB_MEMORY; *numbers is then as before.",
    ),
    Call(
        "uint32_t osb_update_flags_are_sound(const uint8_t *document, size_t length, bool *sound)",
        """Writes to *sound whether what a catalogue's document says of updates has the types that it must have:
        x-osb-updates, and of each plan x-osb-asynchronous-updates, is true or false, and maximum_polling_duration of
        each plan is an integer from 0 to 2^64 - 1, each if it is there. A broker doesn't start with a document that
        fails it. osb_catalogue_check judges plan_updateable and instances_retrievable.""",
        "OSB_DONE, OSB_MEMORY; *sound is then as before.",
    ),
    Call(
        f"uint32_t osb_served_updates(const uint8_t *document, size_t length, {BUFFER})",
        """Writes the document that a broker serves which orders Updates by their numbers: the object that is given,
        with no spaces, and with the member x-osb-updates, which is true. Give it what osb_served_catalogue wrote.""",
        "OSB_DONE, OSB_NOT_AN_OBJECT, OSB_TOO_SMALL, OSB_MEMORY.",
    ),
    Call(
        "uint32_t osb_update_allowed(const uint8_t *document, size_t length, struct osb_id service, "
        "struct osb_id held, struct osb_id asked, bool has_version, const uint8_t *version, size_t version_length, "
        "uint8_t otherwise, uint8_t *allowed)",
        """Writes to *allowed whether a catalogue's document lets an Update be done, an enum osb_allowed, for
        osb_update_begin. `held` is the plan that the instance has, and `asked` the one that the Update asks for, which
        is the same if it names none. The version that the Update names counts if has_version is true. `otherwise` is
        the enum osb_mode of the plan that is asked for. The first line that fits:

        - The plan that is asked for isn't sold: OSB_ALLOWED_REJECTED_400.
        - The plan changes, and the one that is held isn't plan_updateable or isn't sold: OSB_ALLOWED_REJECTED_422.
        - The plan that is asked for has a version, and the Update names another: OSB_ALLOWED_MAINTENANCE_CONFLICT. For
          its answer give OSB_REFUSED_MAINTENANCE to osb_update_refusal_status and osb_update_refusal_body.
        - x-osb-asynchronous-updates of the plan that is asked for says how: OSB_ALLOWED_ASYNC or OSB_ALLOWED_SYNC.
        - As `otherwise` says.""",
        "OSB_DONE, OSB_NOT_UTF8 (a version that counts), OSB_BAD_MODE (OSB_MODE_NONE too), OSB_MEMORY; *allowed is "
        "then as before.",
    ),
    Call(
        "uint32_t osb_version_digest(const uint8_t *version, size_t length, uint8_t digest[32])",
        """Writes the digest of a version of maintenance_info, for struct osb_settings and struct osb_change: the
        SHA-256 of its text, and 32 zeroes, for none, of an empty text (this project's choice).""",
        "OSB_DONE, OSB_NOT_UTF8; the digest is then as before.",
    ),
]
