"""The channels of one server come to another one.

Channels only grow by it: what is taken out of a channel of the one, or a channel that is
dropped there, stays with the other. At each moment a channel that nobody else changes
holds a prefix of a list that the source had.
"""

from __future__ import annotations

from typing import Dict, List, NamedTuple

from .exchange import Exchanged, Place, exchange
from .wire import Refused, Session

LONGEST = 3600.0  # seconds between two rounds, however many faults there were


class Round(NamedTuple):
    """What came to either side, by channels, and what was refused."""

    gave: Dict[str, int]  # how many changes came to the target
    took: Dict[str, int]  # and to the source
    refused: List[str]


def go_round(source: Session, target: Session, take: bool) -> Round:
    """Gives the target what it lacks of each channel of the source; unless it only takes, the
    source gets what it lacks too."""
    found = Round({}, {}, [])
    for channel in sorted(source.channels()):
        done = _one(source, target, channel, not take, found.refused)
        _count(found.gave, channel, done.gave)
        _count(found.took, channel, done.took)
    if not take:
        for channel in sorted(set(target.channels()) - set(source.channels())):
            _count(found.took, channel, _one(target, source, channel, False, found.refused).gave)
    return found


def _one(one: Session, other: Session, channel: str, take: bool, refused: List[str]) -> Exchanged:
    try:
        return exchange(Place(one, channel), Place(other, channel), take=take)
    except Refused as refusal:  # the other channels go on
        refused.append(f"{channel}: {refusal}")
        return Exchanged([], [])


def _count(into: Dict[str, int], channel: str, names: List[str]) -> None:
    if names:
        into[channel] = len(names)


def behind(source: Session, target: Session) -> Dict[str, int]:
    """How many changes of each channel of the source the target lacks."""
    there = target.channels()
    return {
        channel: len(set(source.log(channel)) - set(target.log(channel) if channel in there else ()))
        for channel in source.channels()
    }


def pause(every: float, faults: int) -> float:
    """The seconds to the next round behind so many rounds that each had a fault."""
    return min(every * 2.0 ** min(faults, 60), max(every, LONGEST))
