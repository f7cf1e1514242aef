"""What is found in a channel by words: in messages, authors and names."""

from __future__ import annotations

from typing import List, NamedTuple

from ..tree import Entry
from .letters import decode
from .shelf import Held

SHORTEST = 6  # digits by which a change is found by its name


class Found(NamedTuple):
    """The changes and the paths in which all words stand, the last change first."""

    changes: List[str]
    entries: List[Entry]


def search(held: Held, query: str) -> Found:
    """Looks for all words of a query, in any case of their letters."""
    words = query.casefold().split()
    if not words:
        return Found([], [])

    def has(*texts: bytes) -> bool:
        there = [decode(text).casefold() for text in texts]
        return all(any(word in text for text in there) for word in words)

    def named(name: str) -> bool:
        return len(words) == 1 and len(words[0]) >= SHORTEST and name.startswith(words[0])

    changes = [
        name
        for name in reversed(held.names)
        if named(name) or has(held.changes[name].message, held.changes[name].author)
    ]
    return Found(changes, [entry for entry in held.view.entries if has(entry.path)])
