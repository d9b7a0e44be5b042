"""What is to come of a log: by one run of the program, or, if it is longer than a schedule, by the reference."""

from __future__ import annotations

from pathlib import Path
from typing import NamedTuple

from replay.reference import World, restart, rounds, step
from replay.running import run
from replay.worked import report
from replay_log.logs import Log


class Came(NamedTuple):
    """What came of a log: the status, the report, and the message."""

    status: int
    report: str
    said: str


def by_program(program: Path, log: Log, paths: list[str], options: list[str]) -> Came:
    """What one run says of the whole, with the file and the line of a fault."""
    ran = run(program, "replay", *options, given=log.whole())
    said = ran.err
    if ran.status == 1:
        line, _, fault = said.removeprefix("osb-replay: line ").rstrip("\n").partition(": ")
        said = f"{log.position(paths, int(line))}: {fault}"
    return Came(ran.status, ran.out, said)


def by_reference(lines: list[bytes], options: list[str]) -> Came:
    """What the reference says of a log without a fault. All of its instances are of one service."""
    world, counts = World(), {"applied": 0, "skipped": 0}
    for words in (line.decode().split() for line in lines):
        if not words or words[0].startswith("#"):
            continue
        if words[0] == "plan":
            world.plans[words[1].lower(), words[2].lower()] = words[3]
        elif words[0] == "restart":
            restart(world)
            counts["applied"] += 1
        else:
            counts["applied" if step(world, words) == "applied" else "skipped"] += 1
    if "--settle" in options:
        for instance in world.cells:
            for _ in rounds(world, instance):
                pass
    ends = [f"{name} {cell.platform} {cell.phase or 'none'}" for name, cell in sorted(world.cells.items())]
    told = report(ends, **counts, is_saved="--saved" in options, plan_of=lambda name: world.cells[name].plan[1])
    return Came(0, told, "")
