"""A working folder at work: its repository, its changes, and what its files say beside them."""

from __future__ import annotations

import os
import shutil
import subprocess
import time
from types import TracebackType
from typing import Dict, Iterable, List, NamedTuple, Optional, Sequence, Tuple, Type

from . import disk, update
from .conflicts import Conflict, conflicts
from .folder import Config, WorkingFolder, digest
from .paths import Folder, spoken
from .say import Progress, Stop, many
from .text import About, Change, MESSAGE, TIME, short
from .view import View
from .wire import Child, Connection, Lost, Refused, Session

SHORTEST = 6  # digits by which a change may be called
REPOSITORY_OF_ITS_OWN = "its own repository"
FAULT = 8  # the status of `pijuld keep` where its file cannot be used, or is held by another
TRIES, PAUSE = 12, 0.25  # how often a file that is held is tried, and the seconds between


class Written(NamedTuple):
    """What came of writing a folder."""

    paths: List[bytes]
    conflicts: List[Conflict]  # those that were not there before


class Workspace:
    """A working folder that a command works on, from `with` to its end.

    The session with the repository begins when it is first needed. What a
    command that was stopped left over is ended before anything else.
    """

    def __init__(self, folder: WorkingFolder):
        self.folder = folder
        self._session: Optional[Session] = None
        self._changes: Dict[str, Change] = {}
        self._view: Optional[View] = None
        self._scan: Optional[disk.Scan] = None

    def __enter__(self) -> "Workspace":
        return self

    def __exit__(
        self,
        kind: Optional[Type[BaseException]],
        value: Optional[BaseException],
        trace: Optional[TracebackType],
    ) -> None:
        if self._session is not None:
            self._session.close()

    # The repository.

    @property
    def channel(self) -> str:
        """The channel of the folder."""
        return self.folder.config.channel

    @property
    def where(self) -> str:
        """The repository, for people."""
        return self.folder.config.address or REPOSITORY_OF_ITS_OWN

    @property
    def session(self) -> Session:
        """The session with the repository of the folder."""
        if self._session is None:
            self._session = open_repository(self.folder)
        return self._session

    def log(self) -> List[str]:
        """The names of the changes that the channel holds now."""
        try:
            names = self.session.log(self.channel)
        except Refused as refusal:
            if refusal.reason == "channel":
                raise Stop(
                    f"{self.where} has no channel {self.channel}",
                    "pj channels lists those that are there; pj switch NAME goes to one of them",
                ) from None
            raise
        self.folder.save_known(names)
        return names

    def take_record(self) -> bool:
        """Ends a record that is on its way, if there is one; whether there was."""
        pending = self.folder.pending
        if pending is None:
            return False
        changes = [self.folder.change(name) for name in pending.names]
        texts = [(change.name, change.text) for change in changes if change is not None]
        if len(texts) < len(changes):
            self.folder.save_pending(None)  # it was stopped before its texts were kept
            return False
        try:
            progress = Progress("changes sent", len(texts))
            self.session.put_and_apply(pending.channel, texts, progress)
            progress.end()
        except Refused as refusal:
            self.folder.save_pending(None)
            raise Stop(
                f"the record cannot be ended: {refusal}",
                "the files are as they were: pj pull, and record again",
            ) from None
        if digest(self.folder.shown) == pending.base:
            update.begin(self.folder, pending.plan)
        self.folder.save_pending(None)
        update.go_on(self.folder)
        return True

    # Changes.

    def changes(self, names: Iterable[str]) -> List[Change]:
        """The changes of these names, from the cache or else the repository."""
        wanted = list(names)
        lacking = []
        progress = Progress("changes read", len(wanted))
        for count, name in enumerate(wanted):
            progress(count)
            if name not in self._changes:
                change = self.folder.change(name)
                if change is None:
                    lacking.append(name)
                else:
                    self._changes[name] = change
        progress.end()
        if lacking:
            progress = Progress("changes fetched", len(lacking))
            for change in self.session.get(lacking, progress):
                self.keep(change)
            progress.end()
        return [self._changes[name] for name in wanted]

    def keep(self, change: Change) -> None:
        """Puts a change into the cache."""
        self._changes[change.name] = change
        self.folder.save_change(change)

    def view(self, names: Iterable[str]) -> View:
        """A new view of a set of changes, in which needs come first."""
        changes = self.changes(names)
        have = set()
        for change in changes:
            for need in change.needs:
                if need not in have:
                    raise Lost(
                        f"{self.where} lists {short(change.name)} before {short(need)}, its need",
                        "no server lists changes so; take them from another one",
                    )
            have.add(change.name)
        return View(changes)

    @property
    def shown(self) -> View:
        """The view of what the files show; it is not to be changed."""
        if self._view is None:
            self._view = self.view(self.folder.shown)
        return self._view

    def now_shows(self, view: View) -> None:
        """The files were written from this view."""
        self._view, self._scan = view, None

    def named(self, start: str) -> str:
        """The change that a person calls by its name or by a prefix of it."""
        word = start.lower()
        if len(word) < SHORTEST or len(word) > 64 or not set(word) <= set("0123456789abcdef"):
            raise Stop(
                f"{start} is no name of a change: give at least {SHORTEST} of its digits",
                "pj log lists the changes",
            )
        found = set(self.folder.names_like(word))
        found |= {name for name in self.folder.known or () if name.startswith(word)}
        if not found:
            found = {name for name in self.log() if name.startswith(word)}
        if not found:
            raise Stop(f"no change {start} is here", "pj log lists the changes of the channel")
        if len(found) > 1:
            raise Stop(
                f"{many(len(found), 'change')} begin with {start}: "
                + ", ".join(name[: len(word) + 6] for name in sorted(found)[:8]),
                "give more digits",
            )
        return found.pop()

    def about(self, message: str, author: Optional[str]) -> About:
        """What a new change says of itself."""
        text = message.replace("\n", " ").strip().encode("utf-8", "surrogateescape")
        who = author_of(author).encode("utf-8", "surrogateescape")
        if len(text) > MESSAGE:
            raise Stop(f"the message has {len(text):,} bytes, and may have {MESSAGE:,}", status=2)
        now = os.environ.get("SOURCE_DATE_EPOCH", "")  # as builds that can be made again set it
        return About(text, who, min(int(now) if now.isdigit() else int(time.time()), TIME))

    # Files.

    @property
    def scan(self) -> disk.Scan:
        """The files of the folder as they stand."""
        if self._scan is None:
            self._scan = disk.scan(self.folder.root)
        return self._scan

    def relative(self, path: bytes) -> str:
        """A path of the folder, seen from where the user stands."""
        full = os.path.join(self.folder.root, path)
        try:
            here = os.getcwdb()
        except FileNotFoundError:  # the folder where the user stood is gone
            here = self.folder.root
        return spoken(os.path.relpath(full, here))

    def path_of(self, word: str) -> bytes:
        """The path in the folder that a user means by a word."""
        full = os.path.join(os.getcwdb(), os.fsencode(word))
        full = os.path.normpath(full)
        real = os.path.join(os.path.realpath(os.path.dirname(full)), os.path.basename(full))
        for tried in (full, real):
            if tried == self.folder.root:
                return b""
            if tried.startswith(self.folder.root.rstrip(b"/") + b"/"):
                return tried[len(self.folder.root.rstrip(b"/")) + 1 :]
        root = os.fsdecode(self.folder.root)
        raise Stop(f"{word} is not in the folder {root}", "give a path within it", status=2)

    def blocked(self, new: Folder) -> List[bytes]:
        """The paths with unrecorded edits that keep the folder from showing this."""
        return update.blocked(self.scan, self.shown.folder, new)

    def write(self, names: Sequence[str], config: Optional[Config] = None) -> Written:
        """Makes the folder show a set of changes, or raises `Edited` and leaves it as it is."""
        return self.write_view(self.view(names), names, config)

    def write_view(
        self, view: View, names: Sequence[str], config: Optional[Config] = None
    ) -> Written:
        """The same of a set whose view is there."""
        old = self.shown
        moves, keeps = self._still_told(view)
        goal = update.Goal(names, config or self.folder.config, moves, keeps)
        paths = update.write(self.folder, self.scan, old.folder, view.folder, goal)
        before = {conflict.key for conflict in conflicts(old)}
        self.now_shows(view)
        fresh = [conflict for conflict in conflicts(view) if conflict.key not in before]
        return Written(paths, fresh)

    def _still_told(self, view: View) -> Tuple[Dict[bytes, bytes], List[bytes]]:
        """What was told of the set that is shown and means the same of another one."""
        there = {(entry.path, entry.inode) for entry in view.entries}
        stays = {entry.path for entry in self.shown.entries if (entry.path, entry.inode) in there}
        moves = {old: new for old, new in self.folder.moves.items() if old in stays}
        return moves, [path for path in self.folder.keeps if path in stays]


def refuse_edited(workspace: Workspace, paths: Sequence[bytes], *hints: str) -> Stop:
    """What to say where unrecorded edits stand where files are to be written."""
    shown = [f"  {workspace.relative(path)}" for path in paths[:20]]
    if len(paths) > 20:
        shown.append(f"  and {len(paths) - 20:,} more")
    return Stop("these have edits that are not recorded:", *shown, *hints)


def open_repository(folder: WorkingFolder) -> Session:
    """A session with the repository of a folder."""
    if folder.config.address:
        return Connection(folder.config.address)
    return open_kept(folder.repository)


def open_kept(path: bytes) -> Session:
    """A session with a repository that is kept in a file.

    Where another process has the file, as a page of `pj web` has for a moment, it waits.
    """
    for left in reversed(range(TRIES)):
        child = Child([find_program(), "keep", os.fsdecode(path)])
        try:
            child.channels()
            return child
        except Lost as lost:
            child.close()
            if child.status == 2:
                raise Stop(
                    "this pijuld cannot keep a repository in a file: it has no command `keep`",
                    "give a folder a server's address: pj clone --thin ADDRESS CHANNEL FOLDER",
                ) from None
            may_be_held = child.status == FAULT and os.access(path, os.R_OK | os.W_OK)
            if not (left and may_be_held):
                raise lost
        _pause()
    raise AssertionError  # the last try returns, or raises


def _pause() -> None:
    time.sleep(PAUSE)


def find_program() -> str:
    """The program `pijuld`: that of `PIJULD`, the one built or installed with this client, or of the
    path."""
    named = os.environ.get("PIJULD")
    if named:
        return named
    top = os.path.dirname(os.path.dirname(os.path.dirname(os.path.abspath(__file__))))
    above, name = os.path.split(os.path.dirname(top))
    with_it = [os.path.join(top, "crates", "pijuld", "out", "pijuld")]
    if name == "share":  # tools/install has put both below one prefix
        with_it.append(os.path.join(above, "bin", "pijuld"))
    for program in with_it:
        if os.access(program, os.X_OK):
            return program
    found = shutil.which("pijuld")
    if found:
        return found
    raise Stop(
        "the program pijuld is not built",
        f"{os.path.join(top, 'pijuld')} --version builds it; or name one with PIJULD",
    )


def author_of(given: Optional[str]) -> str:
    """Who records: as it was given, `PJ_AUTHOR`, or the name and address that git has."""
    author = given or os.environ.get("PJ_AUTHOR")
    if not author:
        name, mail = _git_config("user.name"), _git_config("user.email")
        author = f"{name} <{mail}>" if name and mail else name or mail
    if not author:
        raise Stop(
            "who records this?",
            "give --author NAME, set PJ_AUTHOR, or set user.name and user.email of git",
            status=2,
        )
    author = author.replace("\n", " ")
    if len(author.encode("utf-8", "surrogateescape")) > MESSAGE:
        raise Stop(f"the author has more than {MESSAGE:,} bytes", status=2)
    return author


def _git_config(key: str) -> str:
    try:
        done = subprocess.run(
            ["git", "config", key], stdout=subprocess.PIPE, stderr=subprocess.DEVNULL, check=False
        )
    except OSError:
        return ""
    return done.stdout.decode(errors="replace").strip()


def told_line(change: Change) -> str:
    """A change in one line."""
    return f"{short(change.name)}  {change.by}  {change.title}"
