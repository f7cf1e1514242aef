"""The pages of a repository: what each of them shows.

A page is made under one lock of this program, since the sets of changes are
shared by all pages. No lock of the repository is held meanwhile.
"""

from __future__ import annotations

import threading
import time
from functools import partial
from itertools import groupby
from typing import Any, Dict, List, NamedTuple, Optional, Sequence, Set

from jinja2 import Environment, PackageLoader, StrictUndefined
from markupsafe import Markup

from ..conflicts import HINTS, Conflict
from ..edit import is_binary
from ..paths import base_of, spoken
from ..say import many
from ..text import ROOT, Change, Point, short
from ..tree import Entry
from . import colours, drawing, filetext, letters, told
from .differences import differences
from .links import Links
from .names import Names
from .search import search
from .shelf import Held, Shelf
from .source import JOIN, Source
from .union import beside

PAGE = 50  # changes on a page
PART = 2000  # lines of a file on a page; a conflict is never parted
SIDE = 40  # lines of a side on the page of all conflicts
PATIENCE = 2.0  # seconds in which the first page works out conflicts that nobody asked for yet


# What the templates call, beside what each page is given.
WORDS: Dict[str, Any] = {
    "JOIN": JOIN, "HINTS": HINTS,
    "author": letters.author, "base_of": base_of, "code": letters.line,
    "excerpt": drawing.excerpt, "inline": letters.inline, "is_replaced": told.is_replaced,
    "letters": letters.letters, "many": many, "plain": letters.plain, "sentence": told.sentence,
    "short": short, "side_title": told.side_title, "spoken": spoken, "title": letters.title,
    "words": letters.decode,
}


class Nothing(Exception):
    """There is no such page; the message says what is not there."""


class Row(NamedTuple):
    """A channel on the first page."""

    name: str
    count: int
    conflicts: Optional[int]  # None where they are not worked out yet
    last: Optional[Change]


class Place(NamedTuple):
    """Where a conflict of a file stands: the part of the file, its number and its line."""

    part: int
    id: int
    number: int


class Text(NamedTuple):
    """A file, or a part of it, as its page shows it."""

    items: Sequence[filetext.Item]
    drawn: Dict[int, Markup]  # the letters of each line, by its number
    found: List[Place]  # the conflicts of the whole file
    count: int  # its lines
    part: int
    parts: int


class Group(NamedTuple):
    """The conflicts of one path."""

    path: bytes
    inode: Point
    is_file: bool
    others: List[Conflict]  # that are none of its text
    texts: List[filetext.Conflict]
    drawn: Dict[int, Markup]


class Site:
    """The pages of one repository; those of one channel as files, where `only` names it."""

    def __init__(self, source: Source, only: str = ""):
        self.source, self.only = source, only
        self.shelf = Shelf(source)
        self.lock = threading.RLock()
        self.editing = False  # whether conflicts are resolved on these pages too
        self._names: Dict[str, "tuple[int, Names]"] = {}
        self._templates = Environment(
            loader=PackageLoader(__package__), autoescape=True, trim_blocks=True,
            lstrip_blocks=True, undefined=StrictUndefined,
        )
        self._templates.globals.update(site=self, **WORDS)

    def render(self, template: str, path: str, **words: Any) -> str:
        """A page at a path, by its template."""
        return self._templates.get_template(template).render(to=self.links(path), **words)

    def links(self, path: str) -> Links:
        """The links of the page at a path."""
        return Links(path, bool(self.only))

    def names(self, held: Held) -> Names:
        """The paths of a channel."""
        known = self._names.get(held.name)
        if known is None or known[0] != len(held.names) or known[1].graph is not held.view.graph:
            known = (len(held.names), Names(held.view))
            self._names[held.name] = known
        return known[1]

    # The pages, each at its path.

    def home(self, path: str) -> str:
        """The channels."""
        counts = self.source.channels()
        names = [self.only] if self.only else list(counts)
        logs = self.source.logs(names[:PAGE])
        end = time.monotonic() + PATIENCE
        rows = []
        for name, log in zip(names, logs):
            last = self.source.changes(log[-1:])[0] if log else None
            found = None
            if self.shelf.has(name, log) or time.monotonic() < end:
                found = len(self.shelf.put(name, log).conflicts)
            rows.append(Row(name, len(log), found, last))
        rows += [Row(name, counts[name], None, None) for name in names[PAGE:]]
        return self.render("home.html", path, rows=rows)

    def changes(self, path: str, channel: str, page: int) -> str:
        """The changes of a channel, the last one first."""
        held = self.shelf.channel(channel)
        pages = max(1, -(-len(held.names) // PAGE))
        if not 1 <= page <= pages:
            raise Nothing(f"{channel} has {many(pages, 'page')} of changes")
        names = held.names[::-1][(page - 1) * PAGE : page * PAGE]
        pager = partial(self.links(path).changes, channel)
        return self.render(
            "changes.html", path, held=held, names=names, page=page, pages=pages, pager=pager
        )

    def change(self, path: str, channel: str, word: str) -> str:
        """One change as differences."""
        held = self.shelf.channel(channel)
        change = self.change_of(held, word)
        rows = differences(held.view, self.names(held), change)
        known = [name for name in change.knows if name in held.changes]
        return self.render("change.html", path, held=held, change=change, rows=rows, known=known)

    def files(self, path: str, channel: str) -> str:
        """The files of a channel as a tree."""
        held = self.shelf.channel(channel)
        counts: Dict[bytes, int] = {}
        for row in held.conflicts:
            counts[row.path] = counts.get(row.path, 0) + 1
        tree = _tree(held.view.entries)
        return self.render("files.html", path, held=held, tree=tree, counts=counts)

    def file(self, path: str, channel: str, word: str, part: int = 1) -> str:
        """A file with the change of each line, and its conflicts."""
        held = self.shelf.channel(channel)
        entry = self.entry_of(held, word)
        text = self.text_of(held, entry, part)
        rows = [row for row in held.conflicts if row.inode == entry.inode and not row.line]
        pager = partial(self.links(path).file, channel, entry.inode)
        return self.render(
            "file.html", path, held=held, entry=entry, text=text, rows=rows, pager=pager
        )

    def text_of(self, held: Held, entry: Entry, part: int) -> Optional[Text]:
        """The text of a file; None where it is none."""
        if is_binary(held.view.text(entry.inode)):
            return None
        items = filetext.read(held.view.marked(entry.inode), held.place)
        parts = _parts(items)
        if not 1 <= part <= len(parts):
            raise Nothing(f"the file has {many(len(parts), 'part')}")
        drawn = _drawn(entry.path, parts[part - 1])
        found = [
            Place(number, item.id, item.number)
            for number, some in enumerate(parts, 1)
            for item in some
            if isinstance(item, filetext.Conflict)
        ]
        count = sum(1 for _ in filetext.lines(items))
        return Text(parts[part - 1], drawn, found, count, part, len(parts))

    def conflicts(self, path: str, channel: str, page: int = 1) -> str:
        """All conflicts of a channel, set apart as what they are."""
        held = self.shelf.channel(channel)
        pages = max(1, -(-len(held.conflicts) // PAGE))
        if not 1 <= page <= pages:
            raise Nothing(f"{channel} has {many(pages, 'page')} of conflicts")
        groups = self.groups(held, held.conflicts[(page - 1) * PAGE : page * PAGE])
        pager = partial(self.links(path).conflicts, channel)
        return self.render(
            "conflicts.html", path, held=held, groups=groups, page=page, pages=pages, pager=pager
        )

    def graph(self, path: str, channel: str, word: str, conflict: int = 0) -> str:
        """The graph of a file, or of one of its conflicts."""
        held = self.shelf.channel(channel)
        entry = self.entry_of(held, word)
        marked = held.view.marked(entry.inode)
        chosen: Optional[Set[int]] = None
        if conflict:
            blocks = [block for block in marked.blocks if block.kind != "plain"]
            items = filetext.read(marked, held.place)
            ids = [item.id for item in items if isinstance(item, filetext.Conflict)]
            if conflict not in ids:
                raise Nothing(f"the file has no conflict {conflict}")
            chosen = set(blocks[ids.index(conflict)].vertices)
        link = partial(self.links(path).change, channel)
        drawn = drawing.draw(held.view, marked, link, chosen)
        return self.render(
            "graph.html", path, held=held, entry=entry, conflict=conflict, drawn=drawn
        )

    def compare(self, path: str, channel: str, other: str) -> str:
        """Two channels beside each other, and what both together would print."""
        found = beside(self.shelf, channel, other)
        groups = self.groups(found.both, found.fresh[:PAGE])
        in_conflict = {row.path for row in found.both.conflicts}
        return self.render(
            "compare.html", path, found=found, groups=groups, in_conflict=in_conflict, most=PAGE
        )

    def choose(self, path: str, one: str, other: str) -> str:
        """Asks which two channels are to stand beside each other."""
        names = list(self.source.channels())
        return self.render("choose.html", path, names=names, one=one, other=other)

    def search(self, path: str, channel: str, query: str, page: int) -> str:
        """The changes and files of a channel in which all words of a query stand."""
        held = self.shelf.channel(channel)
        found = search(held, query)
        pages = max(1, -(-max(map(len, found)) // PAGE))
        if not 1 <= page <= pages:
            raise Nothing(f"{many(pages, 'page')} of this was found")
        some = slice((page - 1) * PAGE, page * PAGE)
        pager = partial(self.links(path).search, channel, query)
        return self.render(
            "search.html", path, held=held, query=query, found=found, some=some, page=page,
            pages=pages, pager=pager,
        )

    def groups(self, held: Held, rows: Sequence[Conflict]) -> List[Group]:
        """Some conflicts of a channel by their paths, with their texts."""
        found: List[Group] = []
        for key, some in groupby(rows, lambda row: (row.path, row.inode)):
            path, inode = key
            of_path = list(some)
            lines = {row.line for row in of_path if row.line}
            texts: List[filetext.Conflict] = []
            if lines:
                items = filetext.read(held.view.marked(inode), held.place)
                texts = [
                    filetext.shortened(item, SIDE)
                    for item in items
                    if isinstance(item, filetext.Conflict) and item.number in lines
                ]
            others = [row for row in of_path if not row.line]
            is_file = held.view.graph.inodes[inode] == "file"
            found.append(Group(path, inode, is_file, others, texts, _drawn(path, texts)))
        return found

    # What a word of an address means.

    def change_of(self, held: Held, word: str) -> Change:
        """The change of a channel that an address names, by its name or a prefix of it."""
        if word in held.changes:
            return held.changes[word]
        found = [name for name in held.names if len(word) >= 6 and name.startswith(word)]
        if len(found) != 1:
            raise Nothing(f"{held.name} has no change {word}, or several that begin so")
        return held.changes[found[0]]

    def inode_of(self, held: Held, word: str) -> Point:
        """The file that an address names, whether the channel still shows it or not."""
        inode = read_point(word)
        if held.view.graph.inodes.get(inode) != "file":
            raise Nothing(f"{held.name} has no such file")
        return inode

    def entry_of(self, held: Held, word: str) -> Entry:
        """The entry of the print that an address names."""
        entry = self.names(held).entries.get(self.inode_of(held, word))
        if entry is None:
            raise Nothing(f"{held.name} had this file, and shows it no more")
        return entry


def read_point(word: str) -> Point:
    """The point that an address spells; that of the root where it spells none."""
    name, _, offset = word.partition(".")
    return (name, int(offset)) if offset.isdecimal() and len(offset) < 12 else ROOT


def _drawn(path: bytes, items: Sequence[filetext.Item]) -> Dict[int, Markup]:
    """The letters of the lines of some items, by the numbers of the lines."""
    rows = list(filetext.lines(items))
    letters_of = colours.coloured(path, [row.data for row in rows])
    return {row.number: drawn for row, drawn in zip(rows, letters_of)}


def date(change: Change) -> str:
    """When a change was made, by its author's clock."""
    return time.strftime("%Y-%m-%d %H:%M", time.gmtime(change.time))


def stamp(change: Change) -> str:
    """The same for programs."""
    return time.strftime("%Y-%m-%dT%H:%M:%SZ", time.gmtime(change.time))


def runs(items: Sequence[filetext.Item]) -> List[List[filetext.Item]]:
    """The items with lines of one change that follow each other together."""
    found: List[List[filetext.Item]] = []
    for item in items:
        last = found[-1][-1] if found else None
        if (
            isinstance(item, filetext.Line)
            and isinstance(last, filetext.Line)
            and item.change == last.change
        ):
            found[-1].append(item)
        else:
            found.append([item])
    return found


def is_line(item: filetext.Item) -> bool:
    """Whether an item of a file is a line, and no conflict."""
    return isinstance(item, filetext.Line)


WORDS.update(date=date, stamp=stamp, runs=runs, is_line=is_line)


def _parts(items: Sequence[filetext.Item]) -> List[List[filetext.Item]]:
    """The items in parts of about `PART` lines; there is one at least."""
    found: List[List[filetext.Item]] = [[]]
    count = 0
    for item in items:
        if count >= PART:
            found.append([])
            count = 0
        found[-1].append(item)
        count += sum(1 for _ in filetext.lines([item]))
    return found


class Branch(NamedTuple):
    """An entry of a print with what is in it."""

    entry: Entry
    inner: "List[Branch]"


def _tree(entries: Sequence[Entry]) -> List[Branch]:
    """The entries as a tree; they stand in the order of the walk."""
    top: List[Branch] = []
    inside: Dict[bytes, List[Branch]] = {}
    for entry in entries:
        branch = Branch(entry, [])
        inside.get(entry.path.rpartition(b"/")[0], top).append(branch)
        if entry.kind == "dir":
            inside[entry.path] = branch.inner
    return top
