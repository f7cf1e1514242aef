"""The commits of a git repository made changes, by the programs of git alone.

Each commit becomes one change (more at the limits of a text): the difference of
its tree to the set of its parent, made as a record makes it. By first parents
the commits are one row. With the graph each commit has a set of its own, that
of its parents and its own change on top, so that a merge of git is a union with
one change that makes its tree of it.

Which changes a commit became is kept in `.pj/imported`; so an import goes on
where it was stopped.
"""

from __future__ import annotations

import json
import os
import subprocess
from typing import Dict, Iterator, List, NamedTuple, Optional, Sequence, Set, Tuple

from . import disk
from .paths import Folder, Node, above, base_of, parent_of, spoken
from .record import Mismatch, Recorded, Refusal, Told, record
from .say import Progress, Stop, many, note
from .text import MESSAGE, TIME, About, Change, is_file_name
from .view import Unshowable, View
from .workspace import Workspace
from .writer import Unattainable

BATCH = 64  # changes that are sent together
FORMAT = "%H%n%P%n%at%n%an <%ae>%n%s"
GONE = "000000"  # the mode of a file that a tree lacks
MODES = {"100644": False, "100664": False, "100755": True}  # of files; whether executable


class GitFault(Exception):
    """A program of git that failed; the message is its last line."""


class Commit(NamedTuple):
    """A commit as git tells it."""

    name: str
    parents: List[str]
    about: About


class Repository:
    """A git repository, read by its programs."""

    def __init__(self, path: str):
        self.path = path
        self._last = ""  # the commit of whose tree these are the files
        self._files: Folder = {}
        self._told: Set[Tuple[str, bytes]] = set()  # what was left out, by mode and path
        self._reader: Optional["subprocess.Popen[bytes]"] = None

    def _git(self, *words: str) -> bytes:
        try:
            done = subprocess.run(
                ["git", "-C", self.path, "-c", "i18n.logOutputEncoding=UTF-8", *words],
                stdin=subprocess.DEVNULL, stdout=subprocess.PIPE, stderr=subprocess.PIPE,
                check=False,
            )
        except OSError as fault:
            raise GitFault(f"git cannot be started: {fault}") from None
        if done.returncode:
            lines = done.stderr.decode(errors="replace").strip().splitlines()
            raise GitFault(lines[-1] if lines else f"git {words[0]} failed")
        return done.stdout

    def commits(self, revision: str, graph: bool) -> List[Commit]:
        """The commits up to a revision, parents first."""
        only = [] if graph else ["--first-parent"]
        body = self._git(
            "log", "-z", "--reverse", "--topo-order", *only, "--format=" + FORMAT,
            "--end-of-options", revision, "--",
        )
        found = []
        for row in body.split(b"\0"):
            if row:
                name, parents, time, author, subject = row.split(b"\n", 4)
                seconds = min(max(int(time), 0), TIME)
                about = About(subject[:MESSAGE].replace(b"\n", b" "), author[:MESSAGE], seconds)
                above_ = parents.decode().split()
                found.append(Commit(name.decode(), above_ if graph else above_[:1], about))
        return found

    def tree(self, commit: str) -> Folder:
        """The files of a commit, with the directories that they are in.

        What it has in common with the tree that was asked for before is not read again.
        """
        for mode, blob, path in self._differing(commit):
            if mode != GONE and self._has_form(mode, path):
                self._files[path] = Node("file", MODES[mode], self._read(blob))
            else:
                self._files.pop(path, None)
        self._last = commit
        found = dict(self._files)
        paths = {parent_of(path) for path in found} - {b""}
        while paths:
            found.update(dict.fromkeys(paths, Node("dir")))
            paths = {parent_of(path) for path in paths} - found.keys() - {b""}
        return found

    def _differing(self, commit: str) -> Iterator[Tuple[str, str, bytes]]:
        """The mode, object and path of each file in which a commit differs from the last one."""
        before = self._last or self._git("hash-object", "-t", "tree", os.devnull).decode().strip()
        body = self._git("diff-tree", "-r", "-z", "--no-renames", before, commit)
        words = body.split(b"\0")
        for head, path in zip(words[::2], words[1::2]):
            _, mode, _, blob, _ = head.decode().split(" ")
            yield mode, blob, path

    def _has_form(self, mode: str, path: bytes) -> bool:
        """Whether a change can have it; what it cannot is told."""
        names = [base_of(path), *map(base_of, above(path))]
        why = ""
        if mode not in MODES:
            why = "a link" if mode == "120000" else "a repository within"
        elif not all(map(is_file_name, names)):
            why = "its name has a newline, or more than 255 bytes"
        elif any(map(disk.is_reserved, names)):
            why = "its name is reserved for pj"
        if why and (mode, path) not in self._told:
            self._told.add((mode, path))
            note(f"left out: {spoken(path)} ({why})")
        return not why

    def _read(self, blob: str) -> bytes:
        if self._reader is None:
            self._reader = subprocess.Popen(
                ["git", "-C", self.path, "cat-file", "--batch"],
                stdin=subprocess.PIPE, stdout=subprocess.PIPE,
            )
        assert self._reader.stdin and self._reader.stdout
        self._reader.stdin.write(blob.encode() + b"\n")
        self._reader.stdin.flush()
        words = self._reader.stdout.readline().split()
        if len(words) != 3:
            raise GitFault(f"git has no object {blob}")
        return self._reader.stdout.read(int(words[2]) + 1)[:-1]

    def close(self) -> None:
        """Ends the reader of objects."""
        if self._reader is not None:
            assert self._reader.stdin and self._reader.stdout
            self._reader.stdin.close()
            self._reader.stdout.close()
            self._reader.wait()


class Made:
    """Which changes each commit became, as `.pj/imported` keeps it."""

    def __init__(self, workspace: Workspace, graph: bool):
        self.path = workspace.folder.path(b"imported")
        self.graph = graph
        self.by_commit: Dict[str, List[str]] = {}
        if os.path.exists(self.path):
            with open(self.path, "rb") as file:
                kept = json.loads(file.read())
            if kept["graph"] != graph:
                raise Stop(
                    f"this folder has an import {'by first parents' if graph else 'with --graph'}",
                    "go on with that, or import into another folder (pj clone --thin)",
                )
            self.by_commit = kept["commits"]

    def save(self) -> None:
        """Keeps what was made so far."""
        kept = {"graph": self.graph, "commits": self.by_commit}
        disk.save(self.path, json.dumps(kept).encode())


def import_git(workspace: Workspace, path: str, revision: str, graph: bool) -> Tuple[int, int]:
    """Makes changes of the commits that were not imported yet, and applies them to the channel.

    How many commits and changes there were.
    """
    repository = Repository(path)
    try:
        commits = repository.commits(revision, graph)
        return _Import(workspace, repository, commits, Made(workspace, graph)).run()
    except GitFault as fault:
        raise Stop(f"git: {fault}", "give the path of a git repository, and --rev REV") from None
    finally:
        repository.close()


class _Import:
    """One import at work: a set of changes for each commit, and one running view."""

    def __init__(
        self, workspace: Workspace, repository: Repository, commits: Sequence[Commit], made: Made
    ):
        self.workspace, self.repository, self.commits, self.made = (
            workspace, repository, commits, made,
        )
        self.sets: Dict[str, List[str]] = {}  # by commit, needs first
        self.uses: Dict[str, int] = {}  # how many commits still need the set of a commit
        for commit in commits:
            for parent in commit.parents:
                self.uses[parent] = self.uses.get(parent, 0) + 1
        self.view, self.view_of = View(), ""  # the view of the set of this commit
        self.waiting: List[Change] = []

    def run(self) -> Tuple[int, int]:
        """Imports what is left."""
        todo = [commit for commit in self.commits if commit.name not in self.made.by_commit]
        progress = Progress("commits imported", len(todo))
        count = changes = 0
        for commit in self.commits:
            names = self.made.by_commit.get(commit.name)
            base = self._base(commit)
            if names is None:
                done = self._record(commit, base)
                names = [change.name for change in done.changes]
                self.made.by_commit[commit.name] = names
                self.view, self.view_of = done.view, commit.name
                self.waiting += done.changes
                count, changes = count + 1, changes + len(names)
                progress(count)
                if len(self.waiting) >= BATCH:
                    self._send()
            self.sets[commit.name] = base + names
            self._forget(commit)
        self._send()
        progress.end()
        return count, changes

    def _base(self, commit: Commit) -> List[str]:
        """The union of the sets of the parents that are among the commits."""
        parents = [parent for parent in commit.parents if parent in self.sets]
        if not parents:
            return []
        found = list(self.sets[parents[0]])
        for parent in parents[1:]:
            have = set(found)
            found += [name for name in self.sets[parent] if name not in have]
        return found

    def _forget(self, commit: Commit) -> None:
        """Lets go of sets that no later commit stands on."""
        for parent in commit.parents:
            self.uses[parent] -= 1
            if not self.uses[parent]:
                self.sets.pop(parent, None)

    def _views(self, commit: Commit, base: Sequence[str]) -> Iterator[View]:
        """The running view where it is that of the base, and then new ones."""
        if len(commit.parents) <= 1 and self.view_of == "".join(commit.parents):
            yield self.view
        while True:
            yield self.workspace.view(base)

    def _record(self, commit: Commit, base: Sequence[str]) -> Recorded:
        folder = self.repository.tree(commit.name)
        views = self._views(commit, base)
        told = Told(keep=frozenset(folder), with_markers=True, apart=True)
        try:
            done = record(lambda: next(views), folder, commit.about, told)
        except (Refusal, Mismatch, Unattainable, Unshowable) as fault:
            self._send()
            raise Stop(
                f"commit {commit.name[:12]} cannot be imported: {fault}",
                "what was imported before it stays; --rev names a commit to end at",
            ) from None
        for change in done.changes:
            self.workspace.keep(change)
        return done

    def _send(self) -> None:
        """Puts and applies what was made, and then keeps that it was."""
        texts = [(change.name, change.text) for change in self.waiting]
        self.workspace.session.put_and_apply(self.workspace.channel, texts)
        self.waiting = []
        self.made.save()


def told_end(commits: int, changes: int) -> str:
    """One line on an import."""
    return f"{many(commits, 'commit')} imported, as {many(changes, 'change')}"
