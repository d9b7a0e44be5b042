"""The cases of api/cases.txt by this package."""
from __future__ import annotations

import json
import re
from typing import Any, Callable

import osb
import pytest
from osb import (
    Answer,
    Change,
    Driver,
    Found,
    Holding,
    Id,
    Kind,
    MaintenanceConflict,
    OsbError,
    PlatformDriver,
    Record,
    Refusal,
    Request,
    Settings,
    State,
    Status,
    Update,
    UpdateDriver,
    UpdateHolding,
    UpdateWork,
    binding_wire,
    update_wire,
    wire,
)
from osb._lib import lib
from osb._texts import written
from osb.tables import decide_deprovision, decide_poll
from osb_tests.support import SERVICE, SYNC, hashed

import api.cases
from api.cases import Case, Cells, cases, digest

GUID = re.compile(r"[0-9a-f]{8}(?:-[0-9a-f]{4}){3}-[0-9a-f]{12}")


class Given:
    """What a call is given, by the names of its columns."""

    def __init__(self, cells: Cells) -> None:
        self.cells = cells

    def bytes(self, name: str) -> bytes:
        value = self.cells[name]
        assert value is not None, name
        return value

    def text(self, name: str) -> str:
        """Bytes that aren't UTF-8 become surrogates, which the package passes on as bytes that aren't UTF-8 either."""
        return self.bytes(name).decode("utf-8", "surrogateescape")

    def optional(self, name: str) -> str | None:
        return None if self.cells[name] is None else self.text(name)

    def texts(self, *names: str) -> list[str]:
        return [self.text(name) for name in names]

    def number(self, name: str) -> int:
        return int(self.bytes(name))

    def flag(self, name: str) -> bool:
        return self.bytes(name) == b"yes"

    def id(self, name: str) -> Id:
        return id_of(self.bytes(name))

    def id_if(self, name: str) -> Id | None:
        return None if self.cells[name] is None else self.id(name)

    def kind(self) -> Kind:
        return Kind(named(Kind, self.text("kind")))

    def mode(self) -> Any:
        return named(osb.Mode, self.text("mode"))

    def answer(self) -> Answer:
        return Answer(self.number("status"), named(osb.Body, self.text("body")))

    def request(self) -> Request:
        accepts = self.flag("accepts") if "accepts" in self.cells else True
        return Request(self.kind(), accepts, self.id("id"), self.id("service_id"), self.id("plan_id"))

    def record(self) -> Record:
        return record_of(self.bytes("record"))

    def holding(self, name: str = "holding") -> Holding:
        return holding_of(self.bytes(name))

    def update_holding(self) -> UpdateHolding:
        return update_holding_of(self.bytes("update_holding"))

    def driver(self) -> Any:
        return driver_of(self.bytes("driver"))

    def update_driver(self) -> UpdateDriver:
        return update_driver_of(self.bytes("update_driver"))

    def record_if(self, name: str) -> Record | None:
        return record_if(self.bytes(name))

    def reading(self) -> osb.Reading:
        mode, request = self.asked()
        row = self.id("id"), named(osb.Mode, self.text("row_mode")), number_of(self.bytes("number"))
        may_begin, may_give_up = self.cells.get("may_begin") == b"yes", self.flag("may_give_up")
        rules = self.flag("first_poll"), digest(self.cells["attributes"])
        return osb.Reading(self.holding(), *row, request, mode, *rules, may_begin, may_give_up)

    def update_reading(self) -> osb.UpdateReading:
        return osb.UpdateReading(
            self.reading(),
            self.update_holding(),
            named(osb.Mode, self.text("update_mode")),
            None if self.cells["update"] is None else update_of(self.bytes("update")),
            named(osb.Allowed, self.text("allowed")),
            digest(self.cells["parameters"]),
            digest(self.cells["version"]),
        )

    def asked(self) -> tuple[Any, Request]:
        """The mode and the request that begins."""
        return self.mode(), request_of(api.cases.request(self.bytes("request")))

    def rules(self) -> dict[str, Any]:
        return {"first_poll": self.flag("first_poll"), "attributes": digest(self.cells["attributes"])}

    def refusal(self) -> Status:
        return Status[self.text("refusal")]


def named(enum: Any, word: str) -> Any:
    """The number with this name, or None for `none`. A number that has no name is a ValueError."""
    if word == "none":
        return None
    return enum(int(word)) if word.isdigit() else enum[word.upper().replace("-", "_")]


def record_of(cell: bytes) -> Record:
    record = api.cases.record(cell)
    return Record(SERVICE, SYNC, record.attempt, named(State, record.state), named(Kind, record.out))


def request_of(of: api.cases.Request) -> Request:
    return Request(named(Kind, of.kind), of.accepts_incomplete, id_of(of.id), SERVICE, id_of(of.plan))


def holding_of(cell: bytes) -> Holding:
    holding = api.cases.holding(cell)
    row = osb.BrokerRow(SERVICE, id_of(holding.row[1]), named(osb.Phase, holding.row[0])) if holding.row else None
    return Holding(row, request_of(holding.work) if holding.work else None, holding.has_tombstone, holding.attributes)


def settings_of(of: api.cases.Settings) -> Settings:
    assert of.plan and of.parameters and of.version
    return Settings(id_of(of.plan), of.parameters, of.version)


def settings_in(cell: bytes) -> Settings:
    return settings_of(api.cases.settings(cell))


def change_of(of: api.cases.Settings) -> Change:
    return Change(id_of(of.plan) if of.plan else None, of.parameters, of.version)


def update_of(cell: bytes) -> Update:
    of = api.cases.update(cell)
    return Update(id_of(of.service), change_of(of.change), of.number, of.accepts_incomplete)


def update_holding_of(cell: bytes) -> UpdateHolding:
    of = api.cases.update_holding(cell)
    phase, to = named(osb.UpdatePhase, of.phase), settings_of(of.to) if of.to else None
    return UpdateHolding(settings_of(of.settings), of.number, phase, to)


def update_begun_of(cell: bytes) -> Answer | UpdateWork | MaintenanceConflict:
    if cell == b"conflict":
        return MaintenanceConflict()
    if cell[:1].isdigit():
        return answer_of(cell)
    mode, to = cell.split()
    return UpdateWork(named(osb.Mode, mode.decode()), settings_in(to))


def update_fetched_of(cell: bytes) -> Answer | Found:
    found, *words = cell.split()
    return Found(settings_in(words[1]), int(words[0])) if found == b"found" else answer_of(cell)


def answer_of(cell: bytes) -> Answer:
    status, body = cell.decode().split()
    return Answer(int(status), named(osb.Body, body))


def number_of(cell: bytes) -> bytes:
    return digest(cell)[:16]


def record_if(cell: bytes) -> Record | None:
    return None if cell == b"none" else record_of(cell)


def platform_driver_of(cell: bytes) -> PlatformDriver:
    driver = api.cases.platform_driver(cell)
    return PlatformDriver(
        driver.number,
        named(osb.PlatformStage, driver.stage),
        driver.is_binding,
        driver.attempt,
        request_of(driver.request) if driver.request else None,
        driver.fetches,
        answer_of(driver.answer) if driver.answer else None,
        driver.has_credentials,
    )


def driver_of(cell: bytes) -> Driver | PlatformDriver:
    if api.cases.is_of_platform(cell):
        return platform_driver_of(cell)
    return instance_driver_of(api.cases.driver(cell))


def instance_driver_of(of: api.cases.Driver) -> Driver:
    return Driver(
        number=of.number,
        stage=named(osb.Stage, of.stage),
        is_request=of.is_request,
        is_locked=of.is_locked,
        task=request_of(of.task) if of.task else None,
        call=named(osb.Call, of.call or "none"),
        creates=of.creates,
        look=named(osb.Look, of.look or "none"),
        rejection=of.rejection,
        outcome=named(osb.Outcome, of.outcome) if of.outcome else None,
        answer=answer_of(of.answer) if of.answer else None,
        ok=of.ok,
    )


def update_driver_of(cell: bytes) -> UpdateDriver:
    of = api.cases.update_driver(cell)
    return UpdateDriver(
        instance_driver_of(of.driver),
        of.is_update,
        of.is_pending,
        settings_of(of.to) if of.to else None,
        settings_of(of.before) if of.before else None,
        named(osb.UpdateOutcome, of.outcome) if of.outcome else None,
    )


def effect_of(cell: bytes) -> tuple[Any, Any, bool]:
    effect, *words = cell.decode().split()
    outcomes: dict[str, Any] = {"end": osb.Outcome, "end-update": osb.UpdateOutcome}
    outcome = named(outcomes[effect], words[0]) if effect in outcomes else None
    return named(osb.Effect, effect), outcome, words == ["ok"]


# What the words of a column mean.
VALUES: dict[str, Callable[[bytes], Any]] = {
    "record": lambda cell: record_if(cell) or cell,
    "request": lambda cell: request_of(api.cases.request(cell)),
    "holding": holding_of,
    "answer": answer_of,
    "begun": lambda cell: answer_of(cell) if b" " in cell else named(osb.Work, cell.decode()),
    "settings": settings_in,
    "update_holding": update_holding_of,
    "update_begun": update_begun_of,
    "update_fetched": update_fetched_of,
    "driver": driver_of,
    "committed": driver_of,
    "unsure": driver_of,
    "failed": driver_of,
    "update_driver": update_driver_of,
    "update_committed": update_driver_of,
    "update_unsure": update_driver_of,
    "number": number_of,
    "effect": effect_of,
}


def id_of(text: bytes) -> Id:
    return Id.of(text.decode()) if GUID.fullmatch(text.decode()) else hashed(text.decode())


def plans(found: list[osb.Plan]) -> str:
    return ", ".join(f"{plan.service} {plan.plan} {'async' if plan.is_asynchronous else 'sync'}" for plan in found)


def error(body: bytes) -> str:
    """The code of an error, whose body has a description too, and nothing else."""
    object = json.loads(body)
    assert set(object) == {"description", "error"} and object["description"]
    return str(object["error"])


def read_details(of: Given) -> list[Any]:
    return list(vars(wire.read_details(of.bytes("body"))).values())


def write_named_target(of: Given) -> str:
    names = wire.Names(*of.texts("instance", "service", "plan"))
    return wire.write_named_target(of.request(), names, of.optional("operation"), of.text("prefix"))


def write_named_body(of: Given) -> bytes:
    names = wire.Names("", *of.texts("service", "plan"))
    return wire.write_named_body(of.kind(), names, *of.texts("organization", "space", "further"))


def receiving(of: Given) -> tuple[str, bytes, bytes, int, str]:
    return (of.text("method"), of.bytes("target"), of.bytes("body"), of.number("longest_body"), of.text("prefix"))


def asked(request: wire.Asked, id: str, service: str | None, plan: str | None) -> list[Any]:
    """The kind, and whether the operation may be asynchronous. The numbers of the ids are those of their texts."""
    numbers = [None if text is None else id_of(text.encode()) for text in (id, service, plan)]
    assert [request.id, request.service, request.plan] == numbers
    return [request.kind, request.accepts_incomplete]


def receive_request(of: Given) -> list[Any]:
    read = wire.receive_request(*receiving(of))
    found = asked(read.asked, read.instance, read.service, read.plan)
    return [*found, read.instance, read.service, read.plan, *vars(read.parts).values()]


def asked_request(of: Given) -> list[Any]:
    held = of.id_if("held_service"), of.id_if("held_plan")
    request = wire.Asked(of.kind(), of.flag("accepts"), of.id("id"), of.id_if("service"), of.id_if("plan"))
    made = request.request((held[0], held[1]) if held[0] and held[1] else None)
    assert (made.kind, made.accepts_incomplete, made.id) == (request.kind, request.accepts_incomplete, request.id)
    return [made.service, made.plan]


def write_told_answer(of: Given) -> bytes:
    return wire.write_answer(of.answer(), of.optional("operation"), of.optional("description"))


def refusal_status(of: Given) -> int:
    try:
        return Refusal(of.refusal()).http_status
    except OsbError:  # no refusal
        return 0


def refusal_body(call: Callable[..., int], of: Given) -> str:
    status, body = written(call, of.refusal())
    if status != Status.DONE:
        raise OsbError(status)
    return error(body)


def originating_identity(of: Given) -> list[Any] | None:
    found = wire.originating_identity(of.text("value"))
    return None if found is None else [found.platform, found.object]


def request_identity(of: Given) -> list[Any] | None:
    found = wire.request_identity(of.text("value"))
    assert found in (None, of.text("value"))
    return None if found is None else []


def check_catalogue(of: Given) -> None:
    wire.check_catalogue(of.bytes("document"), osb.Endpoints(**{name: True for name in of.text("serves").split()}))


def write_binding_target(of: Given) -> str:
    names = binding_wire.BindingNames(*of.texts("instance", "binding", "service", "plan"))
    to = of.request(), of.id("instance_id"), names
    if of.flag("is_fetch"):
        return binding_wire.write_fetch_target(*to, of.text("prefix"))
    return binding_wire.write_binding_target(*to, of.optional("operation"), of.text("prefix"))


def write_binding_body(of: Given) -> bytes:
    names = binding_wire.BindingNames("", "", *of.texts("service", "plan"))
    return binding_wire.write_binding_body(of.kind(), names, of.text("further"))


def receive_binding_request(of: Given) -> list[Any]:
    read = binding_wire.receive_binding_request(*receiving(of))
    assert read.asked.instance == id_of(read.instance.encode())
    found = asked(read.asked.asked, read.binding, read.service, read.plan)
    texts = read.instance, read.binding, read.service, read.plan
    return [read.asked.is_fetch, *found, *texts, *vars(read.parts).values()]


def read_binding(of: Given) -> list[Any] | None:
    """The object is the whole body."""
    body, status = of.bytes("body"), of.number("status")
    is_fetch = of.flag("is_fetch")
    found = binding_wire.read_fetched(status, body) if is_fetch else binding_wire.read_binding(of.kind(), status, body)
    assert found in (None, body)
    return None if found is None else []


def receive_update_request(of: Given) -> list[Any]:
    read = update_wire.receive_update_request(*receiving(of))
    texts, found = (read.instance, read.service, read.plan), read.asked
    plan = found.plan if isinstance(found, update_wire.Fetch) else found.change.plan
    assert [read.id, found.service, plan] == [None if text is None else id_of(text.encode()) for text in texts]
    if isinstance(found, update_wire.Fetch):
        return [True, False, 0, None, None, *texts, *vars(read.parts).values()]
    digests = [digest and digest.hex() for digest in (found.change.parameters, found.change.version)]
    return [False, found.accepts_incomplete, found.number, *digests, *texts, *vars(read.parts).values()]


def write_failure(of: Given) -> bytes:
    usable, repeatable = (None if of.cells[name] is None else of.flag(name) for name in ("usable", "repeatable"))
    return update_wire.write_failure(of.answer(), of.optional("description"), usable, repeatable)


def write_fetched(of: Given) -> bytes:
    return update_wire.write_fetched(
        of.text("service"),
        of.text("plan"),
        of.number("number"),
        parameters=of.optional("parameters"),
        version=of.optional("version"),
        dashboard_url=of.optional("dashboard_url"),
        metadata=of.optional("metadata"),
    )


def plan_updates(of: Given) -> list[Any]:
    found = update_wire.plan_updates(of.bytes("document"), of.id("service"), of.id("plan"))
    return [False, False, False, None, None, None] if found is None else [True, *vars(found).values()]


def update_allowed(of: Given) -> osb.Allowed:
    ids = of.id("service"), of.id("held"), of.id("asked")
    otherwise = named(osb.Mode, of.text("otherwise"))
    return update_wire.update_allowed(of.bytes("document"), *ids, of.optional("version"), otherwise)


def record_from_row(of: Given) -> Record:
    state, out = (named(enum, of.text(name)) for enum, name in ((State, "state"), (Kind, "out")))
    return Record.from_platform_row(osb.PlatformRow(SERVICE, SYNC, state, out))


def transaction(of: osb.Transaction) -> list[Any]:
    return [of.holding, of.number, of.writes, of.committed, of.unsure, (of.effect, of.outcome, of.ok)]


def update_begin(of: Given) -> tuple[UpdateHolding, Any]:
    allowed = named(osb.Allowed, of.text("allowed"))
    return of.update_holding().begin(of.holding("instance"), allowed, update_of(of.bytes("update")))


def update_begin_instance(of: Given) -> tuple[Holding, Any]:
    any_held = of.flag("any_held")
    return of.update_holding().begin_instance(of.holding(), *of.asked(), any_held=any_held, **of.rules())


def driver_new(of: Given) -> Driver:
    return Driver.new(number_of(of.bytes("number")), is_request=of.flag("is_request"), has_lock=of.flag("has_lock"))


def update_driver_read(of: Given) -> list[Any]:
    found = of.update_driver().read(of.update_reading())
    effect = found.effect, found.outcome if found.update_outcome is None else found.update_outcome, found.ok
    row = found.holding, found.change, found.number
    return [*row, found.writes, found.writes_change, found.committed, found.unsure, effect]


def binding_driver_read(of: Given) -> list[Any]:
    return transaction(of.driver().read_binding(of.reading(), of.holding("instance")))


def platform_driver_answered(of: Given) -> PlatformDriver:
    answer = None if of.cells["answer"] is None else answer_of(of.bytes("answer"))
    driver: PlatformDriver = of.driver()
    return driver.answered(answer, has_credentials=of.flag("has_credentials"))


def platform_driver_read(of: Given) -> list[Any]:
    """The plan of an instance is the records'. A binding's is its instance's, whatever the reading has."""
    driver, wishes = of.driver(), api.cases.wishes(of.bytes("wishes"))
    reading = osb.PlatformReading(
        id_of(api.cases.BINDING if driver.is_binding else api.cases.INSTANCE),
        record=of.record_if("record"),
        number=number_of(of.bytes("number")),
        instance=of.record_if("instance"),
        all_gone=of.flag("all_gone"),
        service=SERVICE,
        plan=id_of(api.cases.PLANS["async"]) if driver.is_binding else SYNC,
        accepts_incomplete=of.flag("accepts"),
        retrievable=of.flag("retrievable"),
        create=wishes.create,
        clean_up=named(osb.CleanUp, wishes.clean_up),
        send=wishes.send,
    )
    found = driver.read(reading)
    did = {
        "times-out": found.times_out,
        str(found.cleans_up): found.cleans_up,
        "sends": found.sends,
        "takes": found.takes,
    }
    effects = " ".join(name for name, is_so in did.items() if is_so) or "none"
    drivers = found.committed, found.unsure, found.failed
    return [found.record or b"none", found.number, found.writes, *drivers, effects]


CALLS: dict[str, Callable[[Given], Any]] = {
    "id_of_text": lambda of: Id.of_text(of.text("text")),
    "id_from_text": lambda of: Id.of(of.text("text")),
    "decide_deprovision": lambda of: decide_deprovision(of.answer()),
    "decide_poll": lambda of: decide_poll(named(State, of.text("state")), of.answer()),
    "read_answer": lambda of: getattr(wire.read_answer(of.kind(), of.number("status"), of.bytes("body")), "body", None),
    "read_details": read_details,
    "retry_after": lambda of: wire.retry_after(of.text("value")),
    "write_method": lambda of: wire.write_method(of.kind()),
    "write_named_target": write_named_target,
    "write_named_body": write_named_body,
    "receive_request": receive_request,
    "asked_request": asked_request,
    "member_text": lambda of: wire.member_text(of.bytes("body"), of.text("name")),
    "parameters_digest": lambda of: wire.parameters_digest(of.bytes("parameters")).hex(),
    "attributes_digest": lambda of: wire.attributes_digest(of.bytes("body")).hex(),
    "write_told_answer": write_told_answer,
    "refusal_status": refusal_status,
    "refusal_body": lambda of: error(Refusal(of.refusal()).body),
    "api_version": lambda of: wire.api_version(of.optional("value")),
    "basic_auth": lambda of: [] if wire.basic_auth(*of.texts("value", "user", "password")) else None,
    "originating_identity": originating_identity,
    "request_identity": request_identity,
    "catalogue_plans": lambda of: plans(wire.catalogue_plans(of.bytes("document"))),
    "catalogue_check": check_catalogue,
    "served_catalogue": lambda of: wire.served_catalogue(of.bytes("document")),
    "read_target": lambda of: str(wire.read_target(of.bytes("target"), of.text("prefix")) or "none"),
    "plan_version": lambda of: wire.plan_version(of.bytes("document"), of.id("service"), of.id("plan")),
    "maintenance_conflict": lambda of: wire.maintenance_conflict(of.optional("version"), of.bytes("body")),
    "write_binding_target": write_binding_target,
    "write_binding_body": write_binding_body,
    "receive_binding_request": receive_binding_request,
    "binding_refusal_status": lambda of: int(lib.osb_binding_refusal_status(of.refusal())),
    "binding_refusal_body": lambda of: refusal_body(lib.osb_binding_refusal_body, of),
    "requires_app": lambda of: binding_wire.requires_app(of.flag("needs_app"), of.bytes("body")),
    "write_binding": lambda of: binding_wire.check_binding(of.bytes("object")),
    "read_binding": read_binding,
    "binding_modes": lambda of: plans(binding_wire.binding_modes(of.bytes("document"))),
    "bindings_retrievable": lambda of: binding_wire.bindings_retrievable(of.bytes("document"), of.id("service")),
    "record_create": lambda of: Record.create(
        of.id("id"), of.id("service"), of.id("plan"), of.flag("accepts_incomplete")
    ),
    "record_from_row": record_from_row,
    "record_send": lambda of: of.record().send(of.id("id")),
    "record_answer": lambda of: of.record().answer(of.number("attempt"), of.answer()),
    "record_timeout": lambda of: of.record().timeout(of.number("attempt")),
    "record_expire": lambda of: of.record().expire(),
    "record_retry": lambda of: of.record().retry(),
    "record_remove": lambda of: of.record().remove(),
    "record_remove_if": lambda of: of.record().remove_if(of.flag("all_gone")),
    "record_is_ready": lambda of: of.record().is_ready,
    "record_is_gone": lambda of: of.record().is_gone,
    "record_to_text": lambda of: of.record().to_text(),
    "record_from_text": lambda of: Record.from_text(of.text("text")),
    "receive_update_request": receive_update_request,
    "update_refusal_status": lambda of: int(lib.osb_update_refusal_status(of.refusal())),
    "update_refusal_body": lambda of: refusal_body(lib.osb_update_refusal_body, of),
    "write_success": lambda of: update_wire.write_success(
        of.number("status"), *(of.optional(name) for name in ("operation", "dashboard_url", "metadata"))
    ),
    "write_failure": write_failure,
    "write_fetched": write_fetched,
    "plan_updates": plan_updates,
    "numbers_updates": lambda of: update_wire.numbers_updates(of.bytes("document")),
    "update_flags_are_sound": lambda of: update_wire.update_flags_are_sound(of.bytes("document")),
    "served_updates": lambda of: update_wire.served_updates(of.bytes("document")),
    "update_allowed": update_allowed,
    "version_digest": lambda of: update_wire.version_digest(of.text("version")).hex(),
    "binding_create": lambda of: of.record().create_binding(of.id("binding"), of.flag("accepts_incomplete")),
    "binding_answer": lambda of: of.record().answer_binding(
        of.number("attempt"), of.answer(), retrievable=of.flag("retrievable")
    ),
    "binding_record_to_text": lambda of: of.record().to_binding_text(),
    "binding_record_from_text": lambda of: Record.from_binding_text(of.text("text")),
    "work_of": lambda of: str(osb.work_of(of.kind(), of.mode()) or "none"),
    "holding_fits": lambda of: of.holding().fits(of.mode()),
    "holding_begin": lambda of: of.holding().begin(*of.asked(), **of.rules()),
    "holding_begin_if": lambda of: of.holding().begin_if(*of.asked(), may_begin=of.flag("may_begin"), **of.rules()),
    "holding_end": lambda of: of.holding().end(of.mode(), named(osb.Outcome, of.text("outcome"))),
    "holding_finish": lambda of: of.holding().finish(of.flag("ok")),
    "holding_give_up_waiting": lambda of: of.holding().give_up_waiting(),
    "holding_is_held": lambda of: of.holding().is_held,
    "holding_is_there": lambda of: of.holding().is_there(of.id("service"), of.id("plan")),
    "holding_to_text": lambda of: of.holding().to_text(),
    "holding_from_text": lambda of: Holding.from_text(of.text("text")),
    "binding_begin": lambda of: of.holding().begin_binding(of.holding("instance"), *of.asked(), **of.rules()),
    "binding_fetch": lambda of: of.holding().fetch(),
    "binding_holding_to_text": lambda of: of.holding().to_binding_text(),
    "binding_holding_from_text": lambda of: Holding.from_binding_text(of.text("text")),
    "update_asked_for": lambda of: settings_in(of.bytes("settings")).asked_for(
        change_of(api.cases.settings(of.bytes("change")))
    ),
    "update_new": lambda of: UpdateHolding.new(settings_in(of.bytes("settings"))),
    "update_is_under_way": lambda of: of.update_holding().is_under_way,
    "update_begin": update_begin,
    "update_end": lambda of: of.update_holding().end(of.mode(), named(osb.UpdateOutcome, of.text("outcome"))),
    "update_finish": lambda of: of.update_holding().finish(of.flag("ok")),
    "update_poll": lambda of: of.update_holding().poll(of.holding("instance")),
    "update_fetch": lambda of: of.update_holding().fetch(of.holding("instance")),
    "update_begin_instance": update_begin_instance,
    "update_holding_to_text": lambda of: of.update_holding().to_text(),
    "update_holding_from_text": lambda of: UpdateHolding.from_text(of.text("text")),
    "driver_new": driver_new,
    "driver_locked": lambda of: of.driver().locked(of.flag("has_lock")),
    "driver_looked": lambda of: of.driver().looked(named(osb.There, of.text("there"))),
    "driver_synced": lambda of: of.driver().synced(),
    "driver_called": lambda of: of.driver().called(of.flag("ok"), of.number("rejection")),
    "driver_read": lambda of: transaction(of.driver().read(of.reading())),
    "binding_driver_read": binding_driver_read,
    "update_driver_new": lambda of: UpdateDriver.new(
        number_of(of.bytes("number")), is_request=of.flag("is_request"), has_lock=of.flag("has_lock")
    ),
    "update_driver_locked": lambda of: of.update_driver().locked(of.flag("has_lock")),
    "update_driver_looked": lambda of: of.update_driver().looked(
        named(osb.There, of.text("there")), settings_in(of.bytes("settings"))
    ),
    "update_driver_synced": lambda of: of.update_driver().synced(),
    "update_driver_called": lambda of: of.update_driver().called(of.flag("ok"), of.number("rejection")),
    "update_driver_read": update_driver_read,
    "platform_driver_new": lambda of: PlatformDriver.new(
        number_of(of.bytes("number")), is_binding=of.flag("is_binding")
    ),
    "platform_driver_answered": platform_driver_answered,
    "platform_driver_fetched": lambda of: of.driver().fetched(of.flag("has_credentials")),
    "platform_driver_read": platform_driver_read,
}
# The columns that may have a number instead of a name.
NUMBERED = (
    *("kind", "state", "mode", "row_mode", "outcome", "there", "record", "request", "wishes", "driver"),
    *("allowed", "update_holding", "otherwise", "update_mode", "update_driver"),
)
NUMBER = re.compile(rb"\d"), re.compile(rb"\d|.* \d+(:| |$)")
"""A number at the front of a cell, and one among the words of a driver."""
# The status for which a call of this package returns None or False.
NOTHING = {
    "read_answer": "NO_ANSWER",
    "retry_after": "NO_SECONDS",
    "member_text": "NO_MEMBER",
    "basic_auth": "UNAUTHORIZED",
    "originating_identity": "NO_IDENTITY",
    "request_identity": "NO_IDENTITY",
    "plan_version": "NO_PLAN_VERSION",
    "read_binding": "NO_BINDING",
}


COMPARED = (
    *(bytes, tuple, Record, Holding, Request, Answer, Driver, UpdateDriver, PlatformDriver, osb.Work),
    *(Settings, UpdateHolding, UpdateWork, MaintenanceConflict, Found),
)
"""The types of results that a column has as they are."""


def said(value: Any) -> Any:
    """A result as a cell has it, or the value of which a cell has the words."""
    if value is None or isinstance(value, COMPARED):
        return value
    return ("yes" if value else "no").encode() if isinstance(value, bool) else str(value).encode()


def wanted(case: Case) -> list[Any]:
    """The results that a case wants. Where the package has a number or plans, the numbers of the texts."""
    values: list[Any] = []
    for name, value in case.gives.items():
        if name in VALUES and value is not None:
            values.append(VALUES[name](value))
            continue
        if name in ("id", "service_id", "plan_id") and value is not None:
            value = str(id_of(value)).encode()
        if name == "plans" and value:
            rows = [plan.split(b" ") for plan in value.split(b", ")]
            value = ", ".join(f"{id_of(of)} {id_of(plan)} {mode.decode()}" for of, plan, mode in rows).encode()
        values.append(value)
    return values


@pytest.mark.parametrize("call", CALLS)
def test_a_call(call: str) -> None:
    found = [case for case in cases() if case.call == call]
    assert found
    for case in found:
        check(case)


def check(case: Case) -> None:
    of = Given(case.given)
    if any(NUMBER[name.endswith("driver")].match(case.given.get(name) or b"") for name in NUMBERED):
        with pytest.raises(ValueError):  # the enums don't take a number that has no name
            CALLS[case.call](of)
        return
    try:
        result = CALLS[case.call](of)
    except OsbError as raised:
        assert raised.status.name == case.status, case
        assert not isinstance(raised, Refusal) or raised.http_status >= 400
        return
    if result is None and case.call in NOTHING:
        assert case.status == NOTHING[case.call], case
        return
    results = list(result) if isinstance(result, (list, tuple)) else [] if result is None else [result]
    assert (case.status, list(map(said, results))) == ("DONE", wanted(case)), case


def test_each_case_has_its_call() -> None:
    assert {case.call for case in cases()} == set(CALLS)
