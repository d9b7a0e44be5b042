"""Draws the trace of an instance and its bindings over any network: what `osb-replay network --trace` writes.

Requests that come late or twice are dashed. Bars show how long a request is out and how long work is pending.
"""

from __future__ import annotations

import re
from collections.abc import Iterator
from dataclasses import dataclass, field
from typing import NamedTuple

from drawing import ID, NoTrace, arrow, band, cross, mark, sheet, text

COLUMNS = "line event step state out attempt phase work tombstone resource recorded credentials given answer"
HEADER = COLUMNS.replace(" ", "\t")
WIDTH, TOP, ROW, LINE, PLATFORM, BROKER, RESOURCE = 1010, 96, 36, 44, 250, 620, 850
MIDDLE = (PLATFORM + BROKER) // 2
BARS = ".bar { stroke: #0969da; stroke-width: 5; stroke-opacity: .35 }"


class Line(NamedTuple):
    """A line of a trace."""

    number: str
    event: str
    step: str
    state: str
    out: str
    attempt: str
    phase: str
    work: str
    tombstone: str
    resource: str
    recorded: str
    credentials: str
    given: str
    answer: str

    @property
    def verb(self) -> str:
        return self.event.split()[0]

    @property
    def life(self) -> str:
        return self.event.split()[1].lower()

    @property
    def arguments(self) -> list[str]:
        return self.event.split()[2:]

    @property
    def held(self) -> str:
        return "tombstone" if self.tombstone != "-" else self.phase


@dataclass
class Life:
    """What was drawn of an instance or of a binding so far."""

    name: str
    place: int
    before: Line | None = None
    sent: list[str] = field(default_factory=list)
    given: list[str] = field(default_factory=list)
    arrived: set[str] = field(default_factory=set)
    shown: list[str] = field(default_factory=lambda: ["none", "none", "absent"])

    def label(self, words: str) -> str:
        return f"{self.name}: {words}" if self.name else words


def read_trace(trace: str) -> tuple[str, list[Line]]:
    """The instance that a trace tells of, and its lines."""
    rest = trace.split("\n")[1:]
    if not rest or rest.pop():
        raise NoTrace("the last line doesn't end")
    rows = [line.split("\t") for line in rest]
    for number, row in enumerate(rows, 2):
        if len(row) != len(Line._fields) or not re.fullmatch(f"[a-z-]+ {ID}(/{ID})?( .*)?", row[1]):
            raise NoTrace(f"line {number} is no line of a trace: {rest[number - 2]!r}")
    lines = [Line(*row) for row in rows]
    ids = {line.life.partition("/")[0] for line in lines}
    if len(ids) != 1:
        raise NoTrace(f"the trace tells of {len(ids)} instances, and a picture shows one: trace it with --instance ID")
    return ids.pop(), lines


# ---- the events


def requested(life: Life, number: str) -> str:
    """The kind of a request of a life, and its number."""
    at = int(number)
    return f"{life.sent[at - 1]} {number}" if 1 <= at <= len(life.sent) else f"request {number}"


def answer_at(life: Life, place: str) -> str:
    return life.given[int(place)] if int(place) < len(life.given) else "an answer"


def arrival(life: Life, line: Line, y: float) -> list[str]:
    """A request arrives. It is dashed if the platform doesn't wait for its answer any more, or if it arrives again."""
    number = line.arguments[0]
    is_late = life.before is None or life.before.out == "-" or life.before.attempt != number
    is_again = number in life.arrived
    life.arrived.add(number)
    words = [requested(life, number), *(["late"] if is_late else []), *(["again"] if is_again else [])]
    words += ["put off"] if line.verb == "put-off" else []
    label = ", ".join(words) + (f": {line.answer}" if line.answer != "-" else "")
    return crossing(life, label, PLATFORM, BROKER, y, "way again" if is_late or is_again else "way")


def crossing(life: Life, label: str, start: int, end: int, y: float, kind: str) -> list[str]:
    """An arrow with its label."""
    is_bad = kind == "broken"
    above = text((start + end) // 2, y - 7, life.label(label), "middle", "bad" if is_bad else "")
    return [arrow(start, end, y, kind), cross(start, y) if is_bad and start == MIDDLE else "", above]


def here(life: Life, label: str, x: int, y: float) -> list[str]:
    """A mark at one side, with its label between the two sides."""
    anchor, gap = ("start", 14) if x == PLATFORM else ("end", -14)
    return [mark(x, y), text(x + gap, y + 4, life.label(label), anchor)]


def drawn(life: Life, line: Line, y: float) -> list[str]:
    """The arrow or mark of an event that applied, and its label."""
    verb, words = line.verb, line.arguments
    if verb in ("arrive", "put-off"):
        return arrival(life, line, y)
    if verb in ("take", "take-fetched"):
        label = answer_at(life, words[0]) + (" and credentials" if verb == "take-fetched" else "")
        return crossing(life, label, BROKER, PLATFORM, y, "way")
    if verb == "garble":
        return crossing(life, f"garbled: {answer_at(life, words[0])}", BROKER, PLATFORM, y, "broken")
    if verb == "gateway":
        return crossing(life, f"gateway: {words[0]}", MIDDLE, PLATFORM, y, "broken")
    if verb == "fetch":
        return crossing(life, "Fetch", PLATFORM, BROKER, y, "way")
    if verb in ("work", "issue"):
        return [arrow(BROKER, RESOURCE, y, "way")]
    if verb == "crash":
        x = PLATFORM if words == ["platform"] else BROKER
        place = x - 8 if x == PLATFORM else x - 142
        return [band(place, y), *here(life, "crash", x, y)]
    if verb in ("end", "finish", "give-up-waiting", "forget"):
        answer = f": {line.answer}" if line.answer != "-" else ""
        return here(life, f"{' '.join([verb, *words])}{answer}", BROKER, y)
    if verb in ("create", "send"):
        life.sent.append(line.out)
        return here(life, f"{verb}: {line.out} {line.attempt}", PLATFORM, y)
    if verb in ("instance", "binding"):
        return [text(MIDDLE, y + 4, life.label(f"{verb}, {words[-4] if verb == 'instance' else words[0]}"), "middle")]
    return here(life, verb, PLATFORM, y)


def states(life: Life, line: Line, y: float) -> list[str]:
    """What both sides have, and the resource, as far as that is new."""
    found, places = [], ((PLATFORM - 16, "end"), (BROKER + 16, "start"), (RESOURCE + 16, "start"))
    for at, ((x, anchor), word) in enumerate(zip(places, (line.state, line.held, line.resource))):
        if word != life.shown[at]:
            found.append(text(x, y + 4, life.label(word), anchor))
            life.shown[at] = word
    return found


def bars(life: Life, lines: list[tuple[int, Line]], end: int) -> Iterator[str]:
    """How long a request of a life is out, at the platform, and how long work of it is pending, at the broker.

    The lines are those of the life, each with its place in the picture.
    """
    for x, column in ((PLATFORM - 5 - 6 * life.place, "out"), (BROKER + 5 + 6 * life.place, "work")):
        begun = -1
        for at, line in lines:
            is_on = getattr(line, column) != "-"
            if is_on and begun < 0:
                begun = at
            elif not is_on and begun >= 0:
                yield bar(x, begun, at)
                begun = -1
        if begun >= 0:
            yield bar(x, begun, end)


def bar(x: int, begun: int, end: int) -> str:
    return f'<line class="bar" x1="{x}" y1="{TOP + ROW * begun + 8}" x2="{x}" y2="{TOP + ROW * end + 8}"/>'


def legend(y: float) -> list[str]:
    parts, x = [], 22
    for kind, words in (("way", "on its way"), ("way again", "late, or again"), ("broken", "garbled, or a gateway's")):
        parts += [arrow(x, x + 34, y, kind), text(x + 42, y + 4, words, kind="legend")]
        x += 60 + 8 * len(words)
    parts += [mark(x + 6, y), text(x + 18, y + 4, "at one side", kind="legend"), band(22, y + 28)]
    parts += [text(36, y + 32, "a crash", kind="legend"), text(196, y + 32, "skipped", kind="skipped")]
    parts += [f'<line class="bar" x1="290" y1="{y + 16:g}" x2="290" y2="{y + 40:g}"/>']
    return [*parts, text(302, y + 32, "a request is out, or work is pending", kind="legend")]


def told(instance: str, lines: list[Line]) -> str:
    """The picture in words, for who can't see it."""
    events = (
        f"{line.number}: {line.event.lower().replace(instance, 'it')}, {line.step}; platform {line.state}, "
        f"broker {line.held}, pending {line.work}, resource {line.resource}, answer {line.answer}"
        for line in lines
    )
    return f"What happens to the instance {instance} and its bindings, line by line. {'. '.join(events)}."


def picture(instance: str, lines: list[Line]) -> str:
    height, bottom = TOP + ROW * len(lines) + 88, TOP + ROW * len(lines) + 12
    sides = ((PLATFORM, "platform"), (BROKER, "broker"), (RESOURCE, "resource"))
    parts = [f"<style>{BARS}</style>", text(LINE, 30, f"Instance {instance}", kind="title")]
    parts += [text(x, 62, side, "middle", "side") for x, side in sides]
    parts += [f'<line class="life" x1="{x}" y1="72" x2="{x}" y2="{bottom}"/>' for x, _ in sides]
    lives = {life: Life(f"binding {at}" if at else "", at) for at, life in enumerate(in_order(instance, lines))}
    for key, life in lives.items():
        parts += bars(life, [numbered for numbered in enumerate(lines) if numbered[1].life == key], len(lines))
    for place, line in enumerate(lines):
        life, y = lives[line.life], TOP + ROW * place + 8.0
        parts.append(text(LINE + 30, y + 4, line.number, "end", "number"))
        if line.step == "applied":
            parts += [*drawn(life, line, y), *states(life, line, y)]
        else:
            parts.append(text(MIDDLE, y + 4, life.label(f"{line.verb}: {line.step}"), "middle", "skipped"))
        life.given += [line.answer] if line.answer != "-" else []
        life.before = line
    return sheet(f"Instance {instance}", told(instance, lines), (WIDTH, height), [*parts, *legend(height - 52)])


def in_order(instance: str, lines: list[Line]) -> list[str]:
    """The instance, and its bindings in the order in which they appear."""
    return list(dict.fromkeys([instance, *(line.life for line in lines)]))
