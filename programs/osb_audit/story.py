"""What the lines of one instance have come to."""
from __future__ import annotations

from typing import Collection, Container, Mapping, Sequence

from osb_audit.broker_side import BrokerSide
from osb_audit.events import Stop, Story
from osb_audit.lines import Line
from osb_audit.ordering import ordered
from osb_audit.platform_side import PlatformSide
from osb_audit.rules import NoText
from osb_audit.settings import Settings
from osb_audit.tails import Change, Doubts
from osb_audit.walk import Known, Stopped, settings_of


def story(
    instance: str,
    lines: Sequence[Line],
    settings: Mapping[str, Settings],
    doubts: Doubts,
    without: Collection[Change] = (),
    naming: Container[str] = (),
) -> Story:
    """Goes through the lines of an instance. Settings are those of each process of a broker. `without`: the changes
    that don't count, among those of which nothing shows whether they were committed. `naming`: the processes whose
    drivers name each event.
    """
    found, unshown = ordered(lines, doubts, without)
    of_broker = settings_of(found, settings)
    if isinstance(of_broker, str):
        return Story(instance, [], Stop(lines[0].position, False, of_broker), [], {})
    known = Known(instance, found, of_broker, naming)
    broker, platform = BrokerSide(known), PlatformSide(known)
    stop = None
    for line in found:
        try:
            if line.side == "broker":
                broker.step(line)
            elif known.left is None:
                platform.step(line)
        except Stopped as stopped:
            stop = stopped.stop
        except NoText as error:
            stop = Stop(line.position, True, str(error), "a text of the library", "another one")
        if stop is not None:
            break
    return known.story(stop)._replace(unshown={claim.change: claim.time for claim in unshown})
