"""A folder made changes: names, then texts; and the print that must come of them."""

from __future__ import annotations

from collections import Counter, defaultdict
from typing import (
    Callable, Dict, FrozenSet, Iterable, List, Mapping, NamedTuple, Set, Tuple,
)

from .edit import FileEdit
from .graph import NameRow
from .match import Matcher
from .paths import Node, base_of, parent_of, spoken
from .standing import HalfResolved
from .text import ROOT, About, Change, Point, is_file_name
from .tree import Entry
from .view import View
from .writer import Limits, Writer

WIDE = 16384  # live vertices of a file that a server prints; beyond, it prints nothing at all
RENEW = 1000  # users of a file at which its next edit makes it a new file (docs/CLIENT.md)
Triple = Tuple[Point, bytes, Point]  # parent, name and child


class Refusal(Exception):
    """What stands in the folder cannot be recorded as it is; the message names the path."""


class Mismatch(Exception):
    """The changes made would not print as the folder; `files` are the inodes that differ."""

    def __init__(self, why: str, files: Iterable[Point] = ()):
        super().__init__(why)
        self.files = frozenset(files)


class Told(NamedTuple):
    """What the user said of the folder, as the files do not say it."""

    moves: Mapping[bytes, bytes] = {}  # old path to new path
    keep: FrozenSet[bytes] = frozenset()  # paths, old or new, whose names are to be alive
    leave: bool = False  # conflicts may be left in texts
    with_markers: bool = False  # lines that look like marker lines are text
    apart: bool = False  # where one file has two names and two texts, it becomes two files


class Recorded(NamedTuple):
    """What a record comes to."""

    changes: List[Change]  # to be put and applied in this order
    view: View  # the set with them
    whole: int  # how many files were replaced whole, because their edit printed otherwise


def record(
    make_view: Callable[[], View],
    folder: Mapping[bytes, Node],
    about: About,
    told: Told = Told(),
    limits: Limits = Limits(),
) -> Recorded:
    """The changes that make the print of a set of changes the folder.

    `make_view` gives the view of the set; the changes are added to it. It is
    called again where a file has to be replaced whole. In which order the set
    and the folder come is nothing to the changes.
    """
    whole: FrozenSet[Point] = frozenset()
    while True:
        try:
            return _Work(Writer(make_view(), about, limits), folder, told, whole).done()
        except Mismatch as found:
            if not found.files - whole:
                raise
            whole |= found.files


class _Work:
    """One record: what is wanted is found, written, and compared with what it comes to."""

    def __init__(
        self, writer: Writer, folder: Mapping[bytes, Node], told: Told, whole: FrozenSet[Point]
    ):
        self.writer, self.view, self.graph = writer, writer.view, writer.graph
        self.folder, self.told, self.whole = dict(sorted(folder.items())), told, whole
        self.entries = self.view.entries
        self.found = Matcher(self.entries, self.folder, self.view.text, told.moves).found
        shown = self.view.folder
        self.same = {path for path, node in folder.items() if shown.get(path) == node}
        self.inode: Dict[bytes, Point] = {b"": ROOT}
        self.touched: Set[Point] = set()  # files that are edited, directories that get a name
        self.wanted: Dict[Triple, bytes] = {}  # the names that are wanted, with their paths
        self.loose: Dict[Point, bytes] = {}  # orphans and what is adrift, which stay so
        self.rows: Dict[Triple, Entry] = {
            (entry.parent, entry.name, entry.inode): entry
            for entry in self.view.tree.entries
            if entry.parent is not None
        }
        for path, entry in self.found.items():
            if entry is not None:
                self.inode[path] = entry.inode
        self.edits = self._edits()
        self._renew()
        self._add_names()
        self._revive_names()
        self._drop_names()
        self._write_texts()
        self.writer.flush()

    def _stays(self, path: bytes, entry: Entry) -> bool:
        """Whether what the set prints at a path stays there as it is."""
        return entry.path == path and path in self.same

    # Which file becomes which text.

    def _edits(self) -> Dict[Point, bytes]:
        """The new text of each file that stays and whose text changes."""
        if self.told.apart:
            self._part()
        having: Dict[Point, Dict[bytes, bytes]] = {}
        for path, entry in self.found.items():
            if entry is None or entry.kind != "file" or self._stays(path, entry):
                continue
            data = self.folder[path].data
            if data != self.view.text(entry.inode):
                paths = having.setdefault(entry.inode, {})
                paths[data] = min(path, paths.get(data, path))
        for inode, contents in having.items():
            if len(contents) > 1:
                first, second = map(spoken, sorted(contents.values())[:2])
                raise Refusal(
                    f"{first} and {second} are one file with two names, edited differently;"
                    " give both the same text, or delete one of them"
                )
            self.touched.add(inode)
        return {inode: next(iter(contents)) for inode, contents in having.items()}

    def _part(self) -> None:
        """Leaves one of several texts to a file, and makes the paths with another one new files."""
        paths = Counter(entry.inode for entry in self.found.values() if entry is not None)
        texts: Dict[Point, bytes] = {}
        for path in sorted(self.found) if max(paths.values(), default=1) > 1 else ():
            entry = self.found[path]
            if entry is not None and entry.kind == "file":
                data = self.folder[path].data
                if texts.setdefault(entry.inode, data) != data:
                    self.found[path] = None
                    del self.inode[path]

    def _renew(self) -> None:
        """Makes an edited file that very many changes have used a new file.

        A deletion of its name must list each of them, and a change can list
        1,280; beyond that it could never again be moved or deleted cleanly.
        """
        for inode in [i for i in self.edits if len(self.graph.users.get(i, ())) >= RENEW]:
            paths = [path for path, entry in self.found.items() if entry and entry.inode == inode]
            if len(paths) == 1:
                self.found[paths[0]] = None
                del self.inode[paths[0]], self.edits[inode]

    # Names.

    def _add_names(self) -> None:
        """New directories and files, parents first, each file with its text; further names."""
        for path in sorted(self.folder):
            node, entry = self.folder[path], self.found[path]
            parent = self._parent(path)
            if entry is None:
                self._make(path, node, parent)
            elif entry.parent is None and path == entry.path:
                self.loose[entry.inode] = path
            elif self._stays(path, entry) and parent == entry.parent:
                self.wanted[parent, entry.name, entry.inode] = path
            else:
                stays = parent == entry.parent and base_of(path) == base_of(entry.path)
                name = entry.name if stays else self._new_name(path)
                triple = (parent, name, entry.inode)
                self.wanted[triple] = path
                there = self.rows.get(triple)
                if there is None or self._other_bit(there, node):
                    self.writer.name(parent, entry.inode, name, node.executable)
                    self.touched.add(parent)
        self._no_new_twins()

    def _make(self, path: bytes, node: Node, parent: Point) -> None:
        word = "dir" if node.kind == "dir" else "file+x" if node.executable else "file"
        _, inode = self.writer.make(word, parent, self._new_name(path))
        self.inode[path] = inode
        self.touched.add(parent)
        self.wanted[parent, base_of(path), inode] = path
        if node.data:
            self.writer.insert(inode, [inode], [], node.data)

    @staticmethod
    def _new_name(path: bytes) -> bytes:
        """The name that a path is to have."""
        name = base_of(path)
        if not is_file_name(name):
            raise Refusal(
                f"{spoken(path)} has a name that no change can give: it has a newline, or more than"
                " 255 bytes; give it another name"
            )
        return name

    def _parent(self, path: bytes) -> Point:
        above = parent_of(path)
        if above not in self.inode:
            raise Refusal(f"{spoken(path)} has no directory above it")
        return self.inode[above]

    @staticmethod
    def _other_bit(entry: Entry, node: Node) -> bool:
        """Whether the executable bit of a file was changed."""
        return node.kind == "file" and entry.executable != node.executable

    def _no_new_twins(self) -> None:
        """Two things with one name stay where they were so before, and are not made."""
        count = Counter((parent, name) for parent, name, _ in self.wanted)
        if len(count) == len(self.wanted):
            return
        by_name: Dict[Tuple[Point, bytes], List[bytes]] = defaultdict(list)
        for triple, path in self.wanted.items():
            by_name[triple[:2]].append(path)
        for triple, path in self.wanted.items():
            if count[triple[:2]] > 1:
                entry = self.found[path]
                stood = triple in self.rows and entry and base_of(path) == base_of(entry.path)
                if not stood:
                    other = min(p for p in by_name[triple[:2]] if p != path)
                    raise Refusal(
                        f"{spoken(path)} and {spoken(other)} would have one name;"
                        " rename one of them, or delete it"
                    )

    def _revive_names(self) -> None:
        """Names in conflict are made alive where that was told, or the work says so."""
        for triple, path in self.wanted.items():
            there = self.rows.get(triple)
            if there and there.word == "zombie" and not self._other_bit(there, self.folder[path]):
                entry = self.found[path]
                told = entry is not None and bool({path, entry.path} & self.told.keep)
                if told or triple[2] in self.touched:
                    for row in there.rows:
                        self._overrule("revive", row)

    def _drop_names(self) -> None:
        """Names that are not wanted are deleted, and those with another executable bit."""
        for triple, entry in self.rows.items():
            path = self.wanted.get(triple)
            if path is None or self._other_bit(entry, self.folder[path]):
                for row in entry.rows:
                    self._overrule("delete", row)

    def _overrule(self, word: str, row: NameRow) -> None:
        owner, at = row.at
        self.writer.overrule(word, owner, at, at + 1, self.graph.surviving(row.at))

    # Texts.

    def _write_texts(self) -> None:
        """The edits, and the deletion of the text of files that are gone."""
        for inode, data in self.edits.items():
            edit = FileEdit(self.writer, inode)
            if inode in self.whole:
                edit.replace(data)
                continue
            try:
                edit.become(data, self.told.leave, self.told.with_markers)
            except HalfResolved as half:
                self._refuse_half(inode, half)
        stay = {entry.inode for entry in self.found.values() if entry is not None}
        for entry in self.entries:
            if entry.kind == "file" and not entry.again and entry.inode not in stay:
                FileEdit(self.writer, entry.inode).delete()

    def _refuse_half(self, inode: Point, half: HalfResolved) -> None:
        path = min(path for path, e in self.found.items() if e is not None and e.inode == inode)
        if half.whole:
            hint = "resolve it, or record with --leave"
        else:
            hint = (
                "take away all of its marker lines, or put them all back;"
                " --with-markers takes them as text"
            )
        raise Refusal(f"{spoken(path)}, {half}; {hint}") from None

    # What must come of it.

    def done(self) -> Recorded:
        """Compares what the set prints now with what is wanted."""
        graph, real = self.graph, self.writer.real
        fresh = {real(self.inode[path]) for path, entry in self.found.items() if entry is None}
        wide = {inode for inode in {*fresh, *self.edits} if len(graph.live(inode)) > WIDE}
        if wide:
            raise Mismatch("a server would not print a file of so many pieces", wide)
        wanted = {(real(a), name, real(c)): path for (a, name, c), path in self.wanted.items()}
        folder, entries = self.view.printed(set(wanted))
        wrong: Set[Point] = set()
        for entry in entries:
            if entry.parent is None:
                path = self.loose.pop(entry.inode, None)
            else:
                path = wanted.pop((entry.parent, entry.name, entry.inode), None)
            if path is None:
                raise Mismatch(f"{spoken(entry.path)} would stand there ({entry.word})")
            want, have = self.folder[path], folder[entry.path]
            if want == have and entry.inode not in self.edits:
                continue
            if want.kind != have.kind or want.executable != have.executable:
                raise Mismatch(f"{spoken(path)} would be another kind of file")
            data = self.edits.get(entry.inode, want.data)
            if data != have.data and not (self.told.leave and renumbered(data, have.data)):
                wrong.add(entry.inode)
        if wrong:
            raise Mismatch("texts would differ", wrong)
        missing = [*wanted.values(), *self.loose.values()]
        if missing:
            raise Mismatch(f"{spoken(min(missing))} would not stand there")
        return Recorded(self.writer.parts, self.view, len(self.whole))


def renumbered(one: bytes, other: bytes) -> bool:
    """Whether two texts differ at most in the numbers of their marker lines."""

    def plain(data: bytes) -> List[bytes]:
        rows = []
        for line in data.split(b"\n"):
            head, _, tail = line.partition(b" ")
            if head in (b">>>>>>>", b"=======", b"<<<<<<<"):
                line = head + b" " + tail.partition(b" ")[2]
            rows.append(line)
        return rows

    return plain(one) == plain(other)
