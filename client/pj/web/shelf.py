"""The channels of a repository as sets of changes, each worked out once while it stays the same."""

from __future__ import annotations

from collections import defaultdict
from typing import Dict, List, Optional, Sequence

from ..conflicts import Conflict, conflicts
from ..text import Change
from ..view import View
from .source import Source, check_needs

MOST = 16  # channels whose sets are kept; the one that was seen longest ago goes first


class Held:
    """A channel as it stands: its changes in order, and what its print says."""

    def __init__(self, name: str, names: Sequence[str], changes: Sequence[Change]):
        self.name = name
        self.names: List[str] = []
        self.place: Dict[str, int] = {}  # of each change in the order, from 0
        self.view = View()
        self._needed_by: Dict[str, List[str]] = defaultdict(list)
        self._conflicts: Optional[List[Conflict]] = None
        self.extend(names, changes)

    def extend(self, names: Sequence[str], changes: Sequence[Change]) -> None:
        """Further changes come to the end."""
        for name, change in zip(names, changes):
            self.place[name] = len(self.names)
            self.names.append(name)
            self.view.add(change)
            for need in change.needs:
                self._needed_by[need].append(name)
        self._conflicts = None

    @property
    def changes(self) -> Dict[str, Change]:
        """The changes by name."""
        return self.view.graph.changes

    @property
    def conflicts(self) -> List[Conflict]:
        """All conflicts of the channel, by path and line."""
        if self._conflicts is None:
            self._conflicts = conflicts(self.view)
        return self._conflicts

    @property
    def conflicts_are_known(self) -> bool:
        """Whether the conflicts were worked out already."""
        return self._conflicts is not None

    def needed_by(self, name: str) -> List[str]:
        """The changes of the channel that need one."""
        return self._needed_by.get(name, [])


class Shelf:
    """The channels that were seen lately."""

    def __init__(self, source: Source):
        self.source = source
        self._held: Dict[str, Held] = {}

    def channel(self, name: str) -> Held:
        """A channel as it stands now; `NoChannel` where it is not there."""
        return self.put(name, self.source.log(name))

    def put(self, name: str, names: Sequence[str]) -> Held:
        """A channel that has this log."""
        held = self._held.pop(name, None)
        count = len(held.names) if held is not None else 0
        if held is None or list(names[:count]) != held.names:
            held, count = Held(name, [], []), 0
        fresh = names[count:]
        changes = self.source.changes(fresh)
        check_needs(names, self.source.changes(names) if fresh else [], self.source.title)
        if fresh:
            held.extend(fresh, changes)
        self._held[name] = held  # now the last one
        while len(self._held) > MOST:
            del self._held[next(iter(self._held))]
        return held

    def has(self, name: str, names: Sequence[str]) -> bool:
        """Whether a channel with this log is worked out already."""
        held = self._held.get(name)
        return held is not None and held.names == list(names) and held.conflicts_are_known
