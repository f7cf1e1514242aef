"""Two channels come to hold the same changes, over two sessions.

What one lacks is read from the other by `get`, tested by its name, and given by
`put` and `apply`, in the order of the other's list, in which needs come first.
So each channel holds at every moment its own changes and a prefix of that list,
and another exchange goes on where one was cut.
"""

from __future__ import annotations

from typing import Callable, List, NamedTuple, Optional, Sequence

from .say import Progress
from .text import Change
from .wire import WINDOW, Refused, Session


class Place(NamedTuple):
    """A channel of a repository, and a session with it."""

    session: Session
    channel: str


class Exchanged(NamedTuple):
    """The names of the changes that came and went, in the order in which they did."""

    took: List[str]
    gave: List[str]


def exchange(
    mine: Place,
    other: Place,
    take: bool = True,
    give: bool = True,
    seen: Optional[Callable[[Change], None]] = None,
) -> Exchanged:
    """Gives each of two channels what it lacks of the other one.

    Where the other channel is not there it is made, if something is to be
    given. `seen` is told each change that was read.
    """
    held = mine.session.log(mine.channel)
    try:
        theirs = other.session.log(other.channel)
    except Refused as refusal:
        if refusal.reason != "channel" or not give:
            raise
        other.session.ask("new", other.channel)
        theirs = []
    took = _lacking(theirs, held) if take else []
    gave = _lacking(held, theirs) if give else []
    _carry(other, mine, took, "changes taken", seen)
    _carry(mine, other, gave, "changes given", seen)
    return Exchanged(took, gave)


def _lacking(there: Sequence[str], here: Sequence[str]) -> List[str]:
    have = set(here)
    return [name for name in there if name not in have]


def _carry(
    source: Place,
    target: Place,
    names: Sequence[str],
    what: str,
    seen: Optional[Callable[[Change], None]],
) -> None:
    progress = Progress(what, len(names))
    for first in range(0, len(names), WINDOW):
        changes = source.session.get(names[first : first + WINDOW])
        for change in changes:
            if seen:
                seen(change)
        texts = [(change.name, change.text) for change in changes]
        target.session.put_and_apply(target.channel, texts)
        progress(first + len(changes))
    progress.end()
