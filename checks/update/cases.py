"""What library_cases has to write of each line that begins with `update`, by the model.

    PYTHONPATH=checks python3 -m update.cases stdin
    PYTHONPATH=checks python3 -m update.cases stdout

write these lines of the two files of crates/library_cases: a cell of each line of the table of `begin`, and some lines
of each call. test_crate.py compares all cells. The files `updates.rt` and `update_*.rt` of the crate describe them.
"""

from __future__ import annotations

import random
import sys
from collections.abc import Iterable, Iterator
from functools import lru_cache
from itertools import product
from pathlib import Path

from binding.model import begins
from network import model as instances
from network.model import BUSY, Answer, Held, Request, Row
from network.walks import Step
from update import model, texts
from update.model import ALLOWED, LAST, OUTCOMES, PHASES, SERVICE, UNDER_WAY, Found, Holding, Record, Sent, Update, Work

FOLDER = Path(__file__).resolve().parent.parent.parent / "crates" / "library_cases"
# Of each call, so many lines are in the files of the crate, chosen by this seed.
SEED, FEW = 1, 6

# ---- what there is

MODES, ACCEPTS = ("sync", "async"), (True, False)
OWN, OTHERS = "pab", ("qxy", "pab")
NAMES = ("q..", "p..", "...", ".xb", "qxy")
NUMBERS = (0, 4, 5, 6)

ROWS = [None, *(Row(0, phase) for phase in instances.PHASES[1:])]
# Work that is due at a row; a row in `waiting` has none.
WORKS = [
    Held(row, request, attributes=1)
    for row in ROWS
    for request in (Request("provision", True), Request("deprovision", True))
    if begins("sync", Held(row), request)
]
INSTANCES = [Held(), Held(tombstone=True), *(Held(row, attributes=1) for row in ROWS[1:]), *WORKS]
READY = Held(Row(0, "ready"), attributes=1)
REQUESTS = [
    Request(kind, accepts, attributes=attributes)
    for kind in ("provision", "poll", "deprovision")
    for accepts in ACCEPTS
    for attributes in (1, 2)
]

HOLDINGS = [
    Holding(OWN, number, phase, to)
    for number in (0, 5)
    for phase in PHASES
    for to in (OTHERS if phase in UNDER_WAY else (None,))
]
UPDATES = [Update(*parts) for parts in product(NAMES, NUMBERS, ACCEPTS, (SERVICE, SERVICE + 1))]

# The states of an instance of which nothing is out, and of a record.
RECORDED = [state for state in instances.STATES if state not in ("-", "wanted")]
STATES = [("settled", None, False), *product(model.STATES[1:], OTHERS, (False, True))]
OUTS = (None, "update", "poll", "fetch")
# The attempt to which every answer comes, and those beside it.
ANSWERED = 3
ATTEMPTS = (0, ANSWERED, LAST)
RECORDS = [
    Record(OWN, 2, attempt, state, to, mixed, out)
    for attempt in ATTEMPTS
    for state, to, mixed in STATES
    for out in OUTS
]
# The statuses beside each bound of the tables, and some of gateways.
STATUSES = [199, 200, 201, 202, 203, 299, 399, *range(400, 434), 451, 499, 500, 503]
BODIES = ["malformed", "empty", "in-progress", "succeeded", "failed", "error", "AsyncRequired", "ConcurrencyError"]
REPORTED = [None, *(Found("xyz", number) for number in (0, 1, 2, 3))]

# ---- words


def of_holding(holding: Holding) -> str:
    return f"{holding.settings} {holding.number} {holding.phase} {holding.to or '-'}"


def of_record(record: Record) -> str:
    aim = f"{record.to or '-'} {'mixed' if record.mixed else '-'}"
    return f"{record.settings} {record.number} {record.attempt} {record.state} {aim} {record.out or '-'}"


def of_instance(held: Held) -> str:
    phase = held.row.phase if held.row else "-"
    return f"{phase} {held.work.kind if held.work else '-'} {'tombstone' if held.tombstone else '-'}"


def of_answer(answer: Answer) -> str:
    return f"{answer.status} {answer.body}"


def accepting(accepts: bool) -> str:
    return "accepts" if accepts else "refuses"


def of_sent(sent: tuple[Record, Sent] | str) -> str:
    """The record and the request, or why none is sent."""
    if isinstance(sent, str):
        return sent
    record, request = sent
    return " ".join(filter(None, (of_record(record), "sent", str(request.attempt), request.kind, request.names)))


def of_after(after: Record | str) -> str:
    return after if isinstance(after, str) else of_record(after)


# ---- the broker

WORDS = {"sync": ("make", "delete"), "async": ("start-making", "start-deleting")}


def begin(instance: Held, allowed: str, holding: Holding, update: Update) -> Step:
    service = 7 if update.service == SERVICE else 8
    named = f"{accepting(update.accepts)} {service} {update.names} {update.number}"
    line = f"update begin {allowed.removeprefix('rejected ')} {named} {of_instance(instance)} {of_holding(holding)}"
    after, begun = model.begin(instance, allowed, holding, update)
    what = f"work {begun.mode} {begun.to}" if isinstance(begun, Work) else of_answer(begun)
    return Step(line, f"{of_holding(after)} | {what}")


def end(mode: str, outcome: str, holding: Holding) -> Step:
    line = f"update end {mode} {outcome.removeprefix('refused ')} {of_holding(holding)}"
    ended = model.end(mode, holding, outcome)
    return Step(line, f"{of_holding(ended[0])} | {of_answer(ended[1])}" if ended else "NothingPending")


def finish(ok: bool, holding: Holding) -> Step:
    finished = model.finish(holding, ok)
    line = f"update finish {'ok' if ok else 'failed'} {of_holding(holding)}"
    return Step(line, of_holding(finished) if finished else "NothingUpdating")


def poll(instance: Held, holding: Holding) -> Step:
    polled = model.poll(instance, holding)
    return Step(f"update poll {of_instance(instance)} {of_holding(holding)}", of_answer(polled) if polled else "-")


def fetch(instance: Held, holding: Holding) -> Step:
    found = model.fetch(instance, holding)
    what = of_answer(found) if isinstance(found, Answer) else f"{found.settings} {found.number}"
    return Step(f"update fetch {of_instance(instance)} {of_holding(holding)}", what)


def begin_instance(mode: str, first_poll: bool, request: Request, held: bool, instance: Held, holding: Holding) -> Step:
    """A request of the instance: nothing begins while an update is under way, or a binding is held."""
    rule = "first-poll" if first_poll else "-"
    asked = f"{request.kind} {accepting(request.accepts)} {request.attributes} {'held' if held else '-'}"
    line = f"update begin-instance {mode} {rule} {asked} {of_instance(instance)} {of_holding(holding)}"
    if (held or holding.phase in UNDER_WAY) and begins(mode, instance, request):
        return Step(line, f"{of_instance(instance)} | {of_answer(BUSY[request.kind])}")
    after, answer = instances.begin(mode, first_poll, instance, request)
    work = f"work {WORDS[mode][request.kind == 'deprovision']}"
    return Step(line, f"{of_instance(after)} | {of_answer(answer) if answer else work}")


# ---- the platform


def update(state: str, to: str, record: Record) -> Step:
    return Step(f"update update {state} {to} {of_record(record)}", of_sent(model.update(record, state == "ready", to)))


def answer(attempt: int, given: Answer, record: Record) -> Step:
    line = f"update answer {attempt} {of_answer(given)} {of_record(record)}"
    return Step(line, of_after(model.answer(record, attempt, given)))


def fetched(attempt: int, reported: Found | None, record: Record) -> Step:
    what = f"{reported.settings} {reported.number}" if reported else "- -"
    return Step(
        f"update fetched {attempt} {what} {of_record(record)}", of_after(model.fetched(record, attempt, reported))
    )


def timeout(attempt: int, record: Record) -> Step:
    return Step(f"update timeout {attempt} {of_record(record)}", of_after(model.timeout(record, attempt)))


def by_itself(record: Record) -> Iterator[Step]:
    """The calls that take nothing but the record."""
    words = of_record(record)
    yield Step(f"update send {words}", of_sent(model.send(record)))
    yield Step(f"update send-fetch {words}", of_sent(model.fetch_sent(record)))
    yield Step(f"update stop {words}", of_after(model.stop(record)))
    yield Step(f"update can-be {words}", "true" if model.can_be(record) else "false")


# ---- settings


def new(settings: str) -> Step:
    return Step(f"update new {settings}", f"{of_holding(Holding(settings))} | {of_record(Record(settings))}")


def change_to(settings: str, to: str, everything: bool) -> Step:
    line = f"update change-to {settings} {to} {'all' if everything else '-'}"
    return Step(line, model.change_to(settings, to, everything))


# ---- all of them


def of_begin() -> Iterator[Step]:
    yield from (begin(*cell) for cell in product(INSTANCES, ALLOWED, HOLDINGS, UPDATES))


def of_broker() -> Iterator[Step]:
    yield from (end(*cell) for cell in product(MODES, OUTCOMES, HOLDINGS))
    yield from (finish(*cell) for cell in product((True, False), HOLDINGS))
    yield from (poll(*cell) for cell in product(INSTANCES, HOLDINGS))
    yield from (fetch(*cell) for cell in product(INSTANCES, HOLDINGS))


def of_instances() -> Iterator[Step]:
    """The plan of a row in `waiting`, `making` or `deleting` is asynchronous."""
    for mode, instance in product(MODES, INSTANCES):
        if mode == "async" or instance.row is None or instance.row.phase not in ("waiting", "making", "deleting"):
            cells = product((True, False), REQUESTS, (True, False), HOLDINGS)
            yield from (begin_instance(mode, rule, asked, held, instance, own) for rule, asked, held, own in cells)


def of_platform() -> Iterator[Step]:
    for record in RECORDS:
        yield from by_itself(record)
        yield from (update(state, to, record) for state in RECORDED for to in (OWN, "qxy", "qab"))
        for attempt in (record.attempt, record.attempt - 1 if record.attempt else 1):
            yield timeout(attempt, record)
            yield from (fetched(attempt, reported, record) for reported in REPORTED)
            if attempt != ANSWERED:
                yield answer(attempt, Answer(200, "empty"), record)


def of_answers() -> Iterator[Step]:
    given = [Answer(*parts) for parts in product(STATUSES, BODIES)]
    yield from (answer(ANSWERED, one, record) for record in RECORDS if record.attempt == ANSWERED for one in given)


def of_settings() -> Iterator[Step]:
    words = ["".join(parts) for parts in product("pq", "ab", "ab")]
    yield from map(new, words)
    yield from (change_to(*cell) for cell in product(words, words, (True, False)))


PARTS = {
    "begin": of_begin,
    "broker": of_broker,
    "instances": of_instances,
    "platform": of_platform,
    "answers": of_answers,
    "settings": of_settings,
}


# ---- by chance


def some_settings(chance: random.Random) -> str:
    return "".join(chance.choice(letters) for letters in ("pqr", "abc", "xyz"))


def some_names(chance: random.Random) -> str:
    return "".join(chance.choice((letter, ".")) for letter in some_settings(chance))


def some_number(chance: random.Random) -> int:
    return chance.choice((0, 1, 2, 3, chance.randrange(2**64), 2**63, LAST - 1, LAST))


def some_holding(chance: random.Random) -> Holding:
    phase = chance.choice(PHASES)
    to = some_settings(chance) if phase in UNDER_WAY else None
    return Holding(some_settings(chance), some_number(chance), phase, to)


def some_record(chance: random.Random) -> Record:
    state = chance.choice(model.STATES)
    aim = (None, False) if state == "settled" else (some_settings(chance), chance.random() < 0.5)
    return Record(some_settings(chance), some_number(chance), some_number(chance), state, *aim, chance.choice(OUTS))


def near(chance: random.Random, number: int) -> int:
    """The number, or one beside it or anywhere."""
    return chance.choice((number, number, min(number + 1, LAST), max(number - 1, 0), some_number(chance)))


def some_step(chance: random.Random) -> Step:
    holding, record = some_holding(chance), some_record(chance)
    asked = near(chance, record.attempt)
    given = Answer(chance.choice(STATUSES), chance.choice(BODIES))
    reported = Found(some_settings(chance), near(chance, record.number))
    updating = Update(some_names(chance), near(chance, holding.number), chance.random() < 0.5)
    steps = [
        begin(READY, chance.choice(ALLOWED), holding, updating),
        end(chance.choice(MODES), chance.choice(OUTCOMES), holding),
        finish(chance.random() < 0.5, holding),
        fetch(READY, holding),
        update("ready", some_settings(chance), record),
        answer(asked, given, record),
        fetched(asked, reported, record),
        timeout(asked, record),
        *by_itself(record),
        texts.of_holding(of_holding(holding), holding),
        texts.of_record(of_record(record), record),
    ]
    return chance.choice(steps)


# ---- the files


def of_lines() -> list[Step]:
    """The first cell of each line of the table of `begin`."""
    first: dict[int, Step] = {}
    for cell in product(INSTANCES, ALLOWED, HOLDINGS, UPDATES):
        number = model.line(*cell)
        if number not in first:
            first[number] = begin(*cell)
            if len(first) == 17:
                break
    return [first[number] for number in sorted(first)]


def call_of(step: Step) -> str:
    return step.line.split(" ", 2)[1]


def few(chance: random.Random, steps: Iterable[Step]) -> Iterator[Step]:
    """Some steps of each call."""
    by_call: dict[str, list[Step]] = {}
    for step in steps:
        by_call.setdefault(call_of(step), []).append(step)
    for of_call in by_call.values():
        yield from chance.sample(of_call, min(FEW, len(of_call)))


@lru_cache(maxsize=None)
def of_files() -> tuple[Step, ...]:
    chance = random.Random(SEED)
    others = (step for name, part in PARTS.items() if name != "begin" for step in part())
    written = [texts.of_holding(of_holding(holding), holding) for holding in HOLDINGS]
    written += [texts.of_record(of_record(record), record) for record in RECORDS]
    return (*of_lines(), *few(chance, others), *few(chance, written), *texts.of_faults())


def main(arguments: list[str]) -> int:
    if arguments not in (["stdin"], ["stdout"]):
        print("usage: update.cases stdin|stdout", file=sys.stderr)
        return 2
    for step in of_files():
        print(step.line if arguments == ["stdin"] else f"{step.line}  {step.wanted}")
    return 0


if __name__ == "__main__":
    sys.exit(main(sys.argv[1:]))
