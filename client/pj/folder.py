"""What a working folder keeps in `.pj`.

  config     the channel, the address of a server or none, and the origin
  shown      the names of the changes from which the files were written
  changes/   the texts of changes by name, a cache
  told       what was told with `pj move` and `pj keep`, of the set that is shown
  known      the names that the channel had when it was last asked, a cache
  pending    a record that is on its way to the server
  plan, new/ files that are being written (module `update`)
  restored/  what stood in files that `pj restore` took back
  lock       held by the one command that works
  repository the journal of a repository of its own

The folder shows one set of changes. It is what the edits of its user stand on,
whatever the channel holds by now.
"""

from __future__ import annotations

import configparser
import fcntl
import json
import os
from hashlib import sha256
from types import TracebackType
from typing import (
    Any, Dict, FrozenSet, Iterable, List, Mapping, NamedTuple, Optional, Sequence, Type,
)

from . import disk
from .text import Change, Malformed


class NoFolder(Exception):
    """No working folder is here."""


class Busy(Exception):
    """Another command works on the folder."""


class Config(NamedTuple):
    """Where a folder belongs."""

    channel: str
    address: Optional[str] = None  # None: the folder has a repository of its own
    origin: Optional[str] = None  # the server with which it exchanges
    origin_channel: Optional[str] = None


class Pending(NamedTuple):
    """Changes that are to be put and applied, and the set on which they stand."""

    channel: str
    base: str  # the digest of the names that were shown
    names: List[str]
    plan: Dict[str, Any]  # how the folder comes to show them, when they are applied


def decode(path: bytes) -> str:
    """A path as a string, of which `encode` makes the path again."""
    return path.decode("utf-8", "surrogateescape")


def encode(path: str) -> bytes:
    """The path of a string by `decode`."""
    return path.encode("utf-8", "surrogateescape")


def digest(names: Iterable[str]) -> str:
    """A short word for a set of names."""
    return sha256("\n".join(sorted(names)).encode()).hexdigest()


class WorkingFolder:
    """A folder with its `.pj`."""

    def __init__(self, root: bytes):
        self.root = root
        self.own = os.path.join(root, disk.OWN)
        self.config = self._read_config()
        self._shown = self._read_lines(b"shown")

    @classmethod
    def find(cls, start: bytes) -> "WorkingFolder":
        """The working folder that a directory is in."""
        here = os.path.abspath(start)
        while not os.path.isfile(os.path.join(here, disk.OWN, b"config")):
            if os.path.dirname(here) == here:
                raise NoFolder
            here = os.path.dirname(here)
        return cls(here)

    @classmethod
    def make(cls, root: bytes, config: Config) -> "WorkingFolder":
        """A new one, which shows no change; the directory may be there."""
        own = os.path.join(root, disk.OWN)
        disk.make_dir(own)
        disk.save(os.path.join(own, b"config"), _spell_config(config))
        return cls(os.path.abspath(root))

    def path(self, *names: bytes) -> bytes:
        """The full path of something in `.pj`."""
        return os.path.join(self.own, *names)

    @property
    def repository(self) -> bytes:
        """The file of the folder's own repository."""
        return self.path(b"repository")

    def _read(self, name: bytes) -> Optional[bytes]:
        try:
            with open(self.path(name), "rb") as file:
                return file.read()
        except FileNotFoundError:
            return None

    def _read_lines(self, name: bytes) -> List[str]:
        return (self._read(name) or b"").decode().split()

    def _forget(self, name: bytes) -> None:
        if os.path.exists(self.path(name)):
            disk.remove(self.path(name))

    # The config.

    def _read_config(self) -> Config:
        parser = configparser.ConfigParser(interpolation=None)
        try:
            parser.read_string((self._read(b"config") or b"").decode())
            return Config(
                parser.get("folder", "channel"),
                parser.get("folder", "address", fallback=None),
                parser.get("origin", "address", fallback=None),
                parser.get("origin", "channel", fallback=None),
            )
        except (configparser.Error, UnicodeDecodeError) as fault:
            raise NoFolder(f"{decode(self.path(b'config'))} cannot be read: {fault}") from None

    def save_config(self, config: Config) -> None:
        """Keeps a config."""
        if config != self.config:
            disk.save(self.path(b"config"), _spell_config(config))
            self.config = config

    # What is shown, and what was told of it.

    @property
    def shown(self) -> List[str]:
        """The names of the changes that the files show, in an order in which needs come first."""
        return list(self._shown)

    def save_shown(self, names: Sequence[str]) -> None:
        """Keeps what the files show now."""
        if list(names) != self._shown:
            disk.save(self.path(b"shown"), "".join(name + "\n" for name in names).encode())
            self._shown = list(names)

    def _told(self) -> Dict[str, Any]:
        """What was told of the set that is shown; of any other set it means nothing."""
        data = self._read(b"told")
        told = json.loads(data) if data else {}
        return told if told.get("of") == digest(self._shown) else {}

    @property
    def moves(self) -> Dict[bytes, bytes]:
        """The moves that were told: the path that the set shows, and the path now."""
        return {encode(old): encode(new) for old, new in self._told().get("moves", {}).items()}

    @property
    def keeps(self) -> FrozenSet[bytes]:
        """The paths whose names are to be kept."""
        return frozenset(map(encode, self._told().get("keeps", [])))

    def save_told(
        self,
        moves: Mapping[bytes, bytes],
        keeps: Iterable[bytes],
        of: Optional[Sequence[str]] = None,
    ) -> None:
        """Keeps what is told of the set that is shown, or of the set `of` that is about to be."""
        if not moves and not keeps:
            self._forget(b"told")
            return
        told = spell_told(moves, keeps)
        told["of"] = digest(self._shown if of is None else of)
        disk.save(self.path(b"told"), json.dumps(told).encode())

    # What the channel had, and a record on its way.

    @property
    def known(self) -> Optional[List[str]]:
        """The names that the channel had when it was last asked."""
        lines = self._read_lines(b"known")
        return lines[1:] if lines and lines[0] == self.config.channel else None

    def save_known(self, names: Sequence[str]) -> None:
        """Keeps what the channel has."""
        if self.known != list(names):
            lines = [self.config.channel, *names]
            disk.save(self.path(b"known"), "".join(line + "\n" for line in lines).encode())

    @property
    def pending(self) -> Optional[Pending]:
        """The record that was begun and not ended."""
        data = self._read(b"pending")
        return Pending(**json.loads(data)) if data else None

    def save_pending(self, pending: Optional[Pending]) -> None:
        """Keeps a record that begins; None where it has ended."""
        if pending is None:
            self._forget(b"pending")
        else:
            disk.save(self.path(b"pending"), json.dumps(pending._asdict()).encode())

    # The cache of texts.

    def _place(self, name: str) -> bytes:
        return self.path(b"changes", name[:2].encode(), name[2:].encode())

    def change(self, name: str) -> Optional[Change]:
        """A change of the cache; None where it is not there, or its file is not whole."""
        try:
            with open(self._place(name), "rb") as file:
                change = Change(file.read())
        except (OSError, Malformed):
            return None
        return change if change.name == name else None

    def has_change(self, name: str) -> bool:
        """Whether the cache has a file for a change."""
        return os.path.exists(self._place(name))

    def save_change(self, change: Change) -> None:
        """Puts a change into the cache."""
        place = self._place(change.name)
        if not os.path.exists(place):
            if not os.path.isdir(os.path.dirname(place)):
                disk.make_dir(os.path.dirname(place))
            disk.save(place, change.text)

    def names_like(self, start: str) -> List[str]:
        """The names in the cache that begin so; the start has two digits or more."""
        try:
            rest = os.listdir(self.path(b"changes", start[:2].encode()))
        except FileNotFoundError:
            return []
        names = (start[:2] + name.decode() for name in rest)
        return [name for name in names if len(name) == 64 and name.startswith(start)]

    def lock(self) -> "Lock":
        """Keeps other commands away, from `with` to its end."""
        return Lock(self.path(b"lock"))


def spell_told(moves: Mapping[bytes, bytes], keeps: Iterable[bytes]) -> Dict[str, Any]:
    """What was told, as it is kept."""
    return {
        "moves": {decode(old): decode(new) for old, new in moves.items()},
        "keeps": sorted(map(decode, keeps)),
    }


def _spell_config(config: Config) -> bytes:
    lines = ["[folder]", f"channel = {config.channel}"]
    if config.address:
        lines.append(f"address = {config.address}")
    if config.origin:
        lines += ["", "[origin]", f"address = {config.origin}"]
        lines.append(f"channel = {config.origin_channel or config.channel}")
    return "".join(line + "\n" for line in lines).encode()


class Lock:
    """The lock of a folder, which the system lets go when the process ends, however it ends."""

    def __init__(self, path: bytes):
        self._file = os.open(path, os.O_RDWR | os.O_CREAT | os.O_CLOEXEC, 0o666)

    def __enter__(self) -> "Lock":
        try:
            fcntl.flock(self._file, fcntl.LOCK_EX | fcntl.LOCK_NB)
        except OSError:
            os.close(self._file)
            raise Busy from None
        return self

    def __exit__(
        self,
        kind: Optional[Type[BaseException]],
        value: Optional[BaseException],
        trace: Optional[TracebackType],
    ) -> None:
        os.close(self._file)
