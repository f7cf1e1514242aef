"""Conflicts of a text resolved by rule: one change's side taken, or sides that are equal."""

from __future__ import annotations

from typing import Callable, List, NamedTuple, Optional

from .conflicts import Side, sides_of
from .graph import Graph
from .marked import Block, Marked
from .standing import standing

Choice = Callable[[Block, List[Side]], Optional[bytes]]  # None leaves a conflict as it is


class Resolved(NamedTuple):
    """A text with some conflicts resolved, and how many were and were not."""

    text: bytes
    settled: int
    left: int


class Segment(NamedTuple):
    """A part of a text: one conflict that stands in it, with its block, or what is between two."""

    data: bytes  # of a conflict that was resolved what it became
    block: Optional[Block] = None
    settled: bool = False


def segments(graph: Graph, marked: Marked, text: bytes, choice: Choice) -> List[Segment]:
    """The parts of a text that was made of a marked text, with the conflicts that are chosen."""
    found: List[Segment] = []
    at = 0
    for stop in standing(marked, text):
        block = marked.blocks[stop.block]
        found.append(Segment(text[at : stop.start]))
        chosen = choice(block, sides_of(graph, marked, block))
        if chosen is None:
            found.append(Segment(text[stop.start : stop.end], block))
        else:
            found.append(Segment(chosen, block, True))
        at = stop.end
    return [*found, Segment(text[at:])]


def resolve(graph: Graph, marked: Marked, text: bytes, choice: Choice) -> Resolved:
    """Resolves the conflicts that stand in a text that was made of a marked text."""
    parts = segments(graph, marked, text, choice)
    settled = sum(part.settled for part in parts)
    left = sum(part.block is not None and not part.settled for part in parts)
    return Resolved(b"".join(part.data for part in parts), settled, left)


def take(name: str) -> Choice:
    """The side for which a change speaks; of a cycle or tangle all that is by it.

    A change that replaced text deletes the old text and works on it: it speaks
    for the deletion.
    """

    def choice(block: Block, sides: List[Side]) -> Optional[bytes]:
        chosen = [side for side in sides if name in side.changes]
        if block.kind == "zombie":
            chosen = chosen[:1]
        return b"".join(side.text for side in chosen) if chosen else None

    return choice


def same(block: Block, sides: List[Side]) -> Optional[bytes]:
    """What all sides say, where they say the same."""
    if block.kind == "sides" and len({side.text for side in sides}) == 1:
        return sides[0].text
    return None
