"""Two channels beside each other: what either has alone, and what both together would print."""

from __future__ import annotations

from typing import List, NamedTuple

from ..commands.look import compare_views
from ..conflicts import Conflict
from ..differences import Difference
from .shelf import Held, Shelf
from .source import JOIN


class Beside(NamedTuple):
    """Two channels and their union."""

    one: Held
    other: Held
    both: Held
    one_alone: List[str]  # the changes that the other lacks, the last one first
    other_alone: List[str]
    common: int
    fresh: List[Conflict]  # of the union, and of neither channel
    to_one: List[Difference]  # what the union makes of the files of each
    to_other: List[Difference]


def beside(shelf: Shelf, one: str, other: str) -> Beside:
    """Compares two channels, each as it stands now."""
    logs = shelf.source.logs([one, other, one + JOIN + other])
    first, second, both = (
        shelf.put(name, log) for name, log in zip((one, other, one + JOIN + other), logs)
    )
    known = {row.key for held in (first, second) for row in held.conflicts}
    return Beside(
        first,
        second,
        both,
        [name for name in reversed(first.names) if name not in second.place],
        [name for name in reversed(second.names) if name not in first.place],
        len(first.names) + len(second.names) - len(both.names),
        [row for row in both.conflicts if row.key not in known],
        compare_views(first.view, both.view),
        compare_views(second.view, both.view),
    )
