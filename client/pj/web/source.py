"""A repository that pages are made of, and what is kept of it between two pages.

A session is opened for a page and closed behind it, so that a page holds no lock
of a folder or of a repository. The log of a channel is asked each time; the text
of a change is asked once.
"""

from __future__ import annotations

import os
from contextlib import contextmanager
from typing import Callable, Dict, Iterator, List, Optional, Sequence, Tuple

from ..addresses import FORMS, is_address
from ..folder import NoFolder, WorkingFolder
from ..say import Stop
from ..text import Change
from ..wire import Connection, Lost, Refused, Session
from ..workspace import open_kept, open_repository
from .cache import TextCache

JOIN = "+"  # stands between the names of two channels, and in none
Stamp = Optional[Tuple[int, int]]  # when a file was last written, and its size


class NoChannel(Exception):
    """The repository has no channel of this name."""


class Source:
    """A repository: how it is reached, what its channels hold, and the texts of its changes."""

    def __init__(
        self,
        title: str,
        start: Callable[[], Session],
        cache: TextCache,
        folder: Optional[WorkingFolder] = None,
        kept: Optional[bytes] = None,
    ):
        self.title, self.folder, self.kept = title, folder, kept
        self._start, self._cache = start, cache
        self._changes: Dict[str, Change] = {}
        self._stamp: Stamp = None
        self._counts: Optional[Dict[str, int]] = None  # both as they were at the stamp
        self._logs: Dict[str, List[str]] = {}

    @contextmanager
    def session(self) -> Iterator[Session]:
        """A session, closed behind its use."""
        session = self._start()
        try:
            yield session
        finally:
            session.close()

    def channels(self) -> Dict[str, int]:
        """How many changes each channel has."""
        self._see()
        if self._counts is None:
            with self.session() as session:
                counts = session.channels()
            if self.kept is None:
                return counts
            self._counts = counts
        return dict(self._counts)

    def log(self, channel: str) -> List[str]:
        """The names of the changes of a channel, needs first; of two that are joined by `JOIN`
        those of the first, and then what the second has besides."""
        return self.logs([channel])[0]

    def logs(self, channels: Sequence[str]) -> List[List[str]]:
        """The same of several channels, in one session."""
        self._see()
        parts = [part for channel in channels for part in channel.split(JOIN)]
        found = {part: self._logs[part] for part in parts if part in self._logs}
        lacking = [part for part in dict.fromkeys(parts) if part not in found]
        if lacking:
            with self.session() as session:
                for part in lacking:
                    found[part] = _log(session, part)
        if self.kept is not None:
            self._logs.update(found)
        return [_union([found[part] for part in channel.split(JOIN)]) for channel in channels]

    def _see(self) -> None:
        """Forgets what a kept repository had, where its file was written since."""
        if self.kept is None:
            return
        stamp = _stamp(self.kept)
        if stamp is None or stamp != self._stamp:
            self._stamp, self._counts, self._logs = stamp, None, {}

    def changes(self, names: Sequence[str]) -> List[Change]:
        """The changes of these names."""
        lacking = []
        for name in names:
            if name not in self._changes:
                change = self._near(name)
                if change is None:
                    lacking.append(name)
                else:
                    self._changes[name] = change
        if lacking:
            with self.session() as session:
                for change in session.get(lacking):
                    self._changes[change.name] = change
                    self._cache.save(change)
        return [self._changes[name] for name in names]

    def _near(self, name: str) -> Optional[Change]:
        """A change of the cache of the folder, or of the reader's own."""
        change = self.folder.change(name) if self.folder is not None else None
        return change or self._cache.change(name)


def _log(session: Session, channel: str) -> List[str]:
    try:
        return session.log(channel)
    except Refused as refusal:
        if refusal.reason == "channel":
            raise NoChannel(channel) from None
        raise


def _union(logs: Sequence[List[str]]) -> List[str]:
    """What stands in any of the logs, each name where it first comes."""
    if len(logs) == 1:
        return list(logs[0])
    return list(dict.fromkeys(name for log in logs for name in log))


def _stamp(path: bytes) -> Stamp:
    try:
        found = os.stat(path)
    except OSError:
        return None
    return (found.st_mtime_ns, found.st_size)


def find(word: Optional[str]) -> Source:
    """The repository that a person means: that of the folder here, or of a folder, an address or
    the file of a kept repository."""
    if word is None or os.path.isdir(word):
        try:
            folder = WorkingFolder.find(os.fsencode(word or os.getcwd()))
        except NoFolder as fault:
            raise Stop(
                str(fault) or f"{word or 'this'} is no working folder, nor is one above it",
                f"name an address ({FORMS}), or a kept repository",
            ) from None
        return of_folder(folder)
    if is_address(word):
        return Source(word, lambda: Connection(word), TextCache())
    if os.path.isfile(word):
        path = os.fsencode(os.path.abspath(word))
        return Source(os.path.basename(word), lambda: open_kept(path), TextCache(), kept=path)
    raise Stop(f"{word} is no folder, no file and no address")


def of_folder(folder: WorkingFolder) -> Source:
    """The repository of a working folder."""
    title = folder.config.address or os.path.basename(os.fsdecode(folder.root)) or "/"
    kept = None if folder.config.address else folder.repository
    return Source(title, lambda: open_repository(folder), TextCache(), folder, kept)


def check_needs(names: Sequence[str], changes: Sequence[Change], title: str) -> None:
    """Refuses a log in which a change stands before its need; no server lists changes so."""
    have = set()
    for name, change in zip(names, changes):
        if not have.issuperset(change.needs):
            raise Lost(f"{title} lists a change before its need", "take the changes from elsewhere")
        have.add(name)
