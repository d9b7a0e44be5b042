"""Logs: schedules of many instances with restarts, with or without a fault, in one file or several, plain or gzip."""

from __future__ import annotations

import functools
import gzip
import random
from collections import Counter
from pathlib import Path
from typing import NamedTuple

from hypothesis import strategies as st
from replay.schedules import HEAD, OTHERS, PLANS, lines, some
from replay.worked import SERVICE

_EVENTS = b"create remove send deliver repeat lose garble gateway answer timeout expire finish".split()


class Log(NamedTuple):
    """A log: its lines, and how they are spread over files."""

    lines: list[bytes]
    cuts: list[int]
    """After how many lines each file but the last ends."""
    is_ended: bool
    """Whether a line feed is at each file's end."""
    are_gzip: list[bool]
    """Whether the files are compressed, in turn."""

    def whole(self) -> bytes:
        """The log as one schedule: a file's end is a line's end."""
        return b"".join(line + b"\n" for line in self.lines)

    def files(self) -> list[list[bytes]]:
        """The lines of each file."""
        return [self.lines[begin:end] for begin, end in zip([0, *self.cuts], [*self.cuts, len(self.lines)])]

    def write(self, folder: Path) -> list[str]:
        """Writes the files, and returns their paths."""
        paths = []
        for number, its in enumerate(self.files()):
            # An empty last line is none without its line feed.
            ends = bool(its) and (self.is_ended or not its[-1])
            data = b"\n".join(its) + (b"\n" if ends else b"")
            is_gzip = self.are_gzip[number % len(self.are_gzip)]
            path = folder / f"{number}.log{'.gz' if is_gzip else ''}"
            path.write_bytes(gzip.compress(data, 1) if is_gzip else data)
            paths.append(str(path))
        return paths

    def position(self, paths: list[str], line: int) -> str:
        """How a line of the whole is named."""
        for path, its in zip(paths, self.files()):
            if line <= len(its):
                return f"{path}: line {line}"
            line -= len(its)
        raise IndexError

    def needed(self) -> int:
        """The fewest lines that a part may have at most: those of one instance, with all plans and restarts."""
        words = [line.split() for line in self.lines if len(line) <= 512]
        all_have = sum(word[0] in (b"plan", b"restart") for word in words if word)
        named = Counter(
            word[1].lower() for word in words if len(word) > 1 and word[0] in _EVENTS and len(word[1]) == 36
        )
        return all_have + max(named.values(), default=0)


def names(many: int, step: int) -> list[str]:
    """So many ids: small ones in turn, or any."""
    digits = [f"{number * step % 2**128:032x}" for number in range(1, many + 1)]
    return ["-".join((digit[:8], digit[8:12], digit[12:16], digit[16:20], digit[20:])) for digit in digits]


# Steps from one id to the next; the others go through all ids in no order.
STEPS = [1, 0x9E3779B97F4A7C15F39CC0605CEDC835, 0x1000000000000000000000000000001]


@functools.lru_cache(maxsize=20)
def encoded(many: int, step: int) -> list[bytes]:
    return [line.encode() for line in lines(names(many, step))]


# Lines that have a fault wherever they are behind an event, or nearly one.
FAULTY = (
    "Restart|restart # now|send 1|send|finish {one} maybe|gateway {one} 499|plan {service} {plan} sync|"
    "plan {service} {one} async|plan|plan {one}|# caf\xc3\xa9|send {one} caf\xc3\xa9|create {one} {service} {plan}|"
    "send 1 2|create {one} 1 {plan} no|create {one} {service} {plan} No|\x0crestart|\x0c# no comment|send\r{one}|"
    "restart\r\r|send {one}\r\r|send {short}|send {short}g|update {one}|send\x0b{one}|\xff|\x00|send {one}\x00|\r\r|"
    "plan\x0b{service} {plan} sync|answer {one} {one}"
)


def faulty(one: str, plan: str) -> list[bytes]:
    """Those of FAULTY of this instance and this plan, and long lines."""
    return [
        *FAULTY.format(one=one, short=one[:-1], service=SERVICE, plan=plan).encode("latin-1").split(b"|"),
        *(b"#" * length for length in (512, 513, 514, 1000, 5000)),
        f"send {one}{' ' * 500}".encode(),
        b"x" * 4000,
        *(b"send " + b"x" * length for length in (36, 37, 507, 508, 5000)),
        *(f"send {one} {'x' * length}".encode() for length in (470, 471, 472, 5000)),
        *(b"send " + b"x" * length + b" done" for length in (400, 502, 503, 3000)),
        b"x" * 36 + b" " + one.encode(),
    ]


@st.composite
def spread(draw: st.DrawFn, its: list[bytes]) -> Log:
    """The lines in one file, or in up to four: some may be empty."""
    cuts = sorted(draw(st.lists(st.integers(0, len(its)), max_size=3)))
    is_ended = draw(st.sampled_from([True, True, False]))
    return Log(its, cuts, is_ended, draw(st.sampled_from([[False], [True], [False, True], [True, False, False]])))


@st.composite
def heads(draw: st.DrawFn, wrong: list[bytes]) -> list[bytes]:
    """What is before the first event: mostly the plans alone."""
    head = [line.encode() for line in HEAD]
    what = draw(st.sampled_from(["plans"] * 7 + ["none", "other", "fault"]))
    if what == "other":
        head.insert(draw(st.integers(0, len(head))), draw(st.sampled_from(OTHERS)).encode())
    elif what == "fault" and wrong:
        head.insert(draw(st.integers(0, len(head))), draw(st.sampled_from([*head, *wrong])))
    return [] if what == "none" else head


@st.composite
def small_logs(draw: st.DrawFn) -> Log:
    """A log of at most 80 events, of which half have lines with a fault."""
    many, step = draw(st.sampled_from([1, 3, 10, 40])), draw(st.sampled_from(STEPS))
    body = draw(some(encoded(many, step), 80))
    its = names(many, step)
    wrong = faulty(draw(st.sampled_from(its)), draw(st.sampled_from([*PLANS.values()])))
    is_faulty = draw(st.booleans())
    for _ in range(draw(st.sampled_from([1, 1, 2, 5])) if is_faulty else 0):
        body.insert(draw(st.integers(0, len(body))), draw(st.sampled_from(wrong)))
    return draw(spread(draw(heads(wrong if is_faulty else [])) + body))


def large_log(seed: int, fewest: int, most: int) -> Log:
    """A log of so many lines. What happens to 40 instances happens to many, one after another or side by side."""
    chance = random.Random(seed)
    # A restart takes as long as there are instances.
    pattern = [line for line in chance.choices(encoded(40, 1), k=200) if line.strip() != b"restart"] + [b"restart"]
    size, step = chance.randint(fewest, most), chance.choice(STEPS)
    times = size // len(pattern) + 1
    firsts = [name.encode() for name in names(40, 1)]
    others = [name.encode() for name in names(40 * times, step)]

    def again(line: bytes, time: int) -> bytes:
        words = line.split()
        if len(words) < 2 or words[0] == b"#":
            return line
        its = others[40 * time + firsts.index(words[1].lower())]
        return line.replace(words[1], its.upper() if words[1].isupper() else its)

    if chance.random() < 0.5:
        body = [again(line, time) for line in pattern for time in range(times)]
    else:
        body = [again(line, time) for time in range(times) for line in pattern]
    restarts = [at for at, line in enumerate(body) if line.strip() == b"restart"]
    for at in restarts[20:]:
        body[at] = b"# a restart less"
    lines = [line.encode() for line in HEAD] + body[:size]
    cuts = sorted(chance.randint(0, len(lines)) for _ in range(chance.choice((0, 1, 3))))
    return Log(lines, cuts, chance.random() < 0.7, [False, False, True])


def large_logs(first: int, fewest: int, most: int) -> st.SearchStrategy[Log]:
    """Such logs, made from a number, so that even the first is large. These don't shrink; `small_logs` does."""
    return st.integers(first, first + 999).map(lambda seed: large_log(seed, fewest, most))
