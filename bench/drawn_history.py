"""A drawn history of a source tree, as texts of changes and as a stream for `git fast-import`.

A tree has some 300 files in folders, of lines that look like code. A first part of the commits makes
the files, a few at a time; every commit edits some others: it takes out a few lines that stand side by
side, and puts as many others or a few more or fewer in their place. Lines are never moved, and no
file is deleted or renamed. All is drawn by one seed.

Each commit is one change. It refers to lines by the changes that made them, so its needs are those of
the lines that it touches. It knows besides who put text behind a line that it takes out, so that no
deletion is contested. Written from docs/FORMATS.md alone.
"""
from __future__ import annotations

import hashlib
import random
from typing import Dict, Iterator, List, NamedTuple, Optional, Tuple

WORDS = ("let", "mut", "fn", "pub", "struct", "impl", "match", "return", "for", "while", "if", "else", "value", "index",
         "count", "name", "list", "table", "channel", "change", "record", "reply", "error", "state", "next", "first")
MOST_EDITS = 5  # files that one commit edits
MOST_HUNKS = 4  # places of a file that one commit edits
MOST_LINES = 12  # lines that one hunk takes out, or puts in


class Line(NamedTuple):
    """A line of a file: the number of the change that made it, its first position there, and its bytes."""

    change: int
    start: int
    content: bytes

    @property
    def last(self) -> "Tuple[int, int]":
        """The change and the position of its last byte."""
        return self.change, self.start + len(self.content) - 1


class File:
    """A file of the tree, with the change and the position of its inode."""

    def __init__(self, path: str, change: int, inode: int, lines: List[Line]):
        self.path, self.change, self.inode, self.lines = path, change, inode, lines

    def content(self) -> bytes:
        return b"".join(line.content for line in self.lines)


class Commit(NamedTuple):
    """A commit: the text of its change, and the files that it leaves anew."""

    text: bytes
    files: Dict[str, bytes]


class Hunks:
    """The hunks of a change that is being made. References are resolved once all needs are known."""

    def __init__(self, number: int):
        self.number, self.position = number, 0
        self.hunks: List[Tuple[str, Tuple[object, ...], bytes]] = []
        self.needs: "set[int]" = set()
        self.known: "set[int]" = set()

    def at(self, place: "Tuple[int, int]") -> "Tuple[int, int]":
        """A reference to a position of a change, which is then a need."""
        if place[0] != self.number:
            self.needs.add(place[0])
        return place

    def make(self, verb: str, within: "Optional[Tuple[int, int]]", name: str) -> int:
        """A file or a folder; gives the position of its inode."""
        parent = "root" if within is None else self.at(within)
        self.hunks.append((verb + " {} " + name, (parent,), b""))
        self.position += 2
        return self.position - 1

    def insert(self, inode: "Tuple[int, int]", up: "Tuple[int, int]", down: "Optional[Tuple[int, int]]", contents: List[bytes]) -> List[Line]:
        """Lines behind one position and before another; gives them as lines of the file."""
        content = b"".join(contents)
        down_word = "-" if down is None else "{}"
        places = (self.at(inode), self.at(up)) + (() if down is None else (self.at(down),))
        self.hunks.append(("insert {} after {} before " + f"{down_word} {len(content)}", places, content + b"\n"))
        lines = []
        for each in contents:
            lines.append(Line(self.number, self.position, each))
            self.position += len(each)
        return lines

    def delete(self, lines: List[Line]) -> None:
        """The lines go, in one hunk for each run of bytes of one change."""
        run: "List[int]" = []
        for line in lines:
            if run and run[0] == line.change and run[2] == line.start:
                run[2] += len(line.content)
            else:
                self._delete_run(run)
                run = [line.change, line.start, line.start + len(line.content)]
        self._delete_run(run)

    def _delete_run(self, run: "List[int]") -> None:
        if run:
            self.needs.add(run[0])
            self.hunks.append((f"delete {{}}-{run[2]} by {{by}}", ((run[0], run[1]),), b""))

    def text(self, names: List[str]) -> bytes:
        """The text of the change, by the names of those before it."""
        needs = sorted((names[it], it) for it in self.needs)
        number = {it: at + 1 for at, (_, it) in enumerate(needs)}
        number[self.number] = 0

        def spelled(place: object) -> str:
            return place if isinstance(place, str) else "%d.%d" % (number[place[0]], place[1])  # type: ignore[index]

        parts = [b"pijul change 2\nmessage commit %d\nauthor ann\ntime %d\n" % (self.number, self.number + 1)]
        parts += [b"needs %s\n" % name.encode() for name, _ in needs]
        parts += [b"knows %s\n" % name.encode() for name in sorted(names[it] for it in self.known - self.needs - {self.number})]
        for form, places, content in self.hunks:
            owner = number[places[0][0]] if form.startswith("delete") else 0  # type: ignore[index]
            parts.append(form.format(*map(spelled, places), by=owner).encode() + b"\n" + content)
        return b"".join([*parts, b"end\n"])


class History:
    """The history of a seed: so many commits, files, and bytes in all texts, more or less."""

    def __init__(self, seed: int, commits: int, files: int, size: int):
        self.draw = random.Random(seed)
        self.commits, self.to_make = commits, files
        self.lines = max(size // files // 60, 4)  # lines of a file, in the middle
        self.files: List[File] = []
        self.folders: Dict[str, Tuple[int, int]] = {}
        self.names: List[str] = []
        # by the change and the first position of a line, which changes put text behind it
        self.behind: Dict[Tuple[int, int], "set[int]"] = {}

    def line(self) -> bytes:
        words = self.draw.choices(WORDS, k=self.draw.randint(2, 9))
        return b"    " * self.draw.randint(0, 4) + " ".join(words).encode() + b" %d;\n" % self.draw.getrandbits(30)

    def new_lines(self, count: int) -> List[bytes]:
        return [self.line() for _ in range(count)]

    def make_file(self, hunks: Hunks) -> File:
        """A new file, with its folder where that is new too."""
        number = len(self.files)
        folder = f"part{number % 20}"
        if folder not in self.folders:
            self.folders[folder] = (hunks.number, hunks.make("dir", None, folder))
        inode = (hunks.number, hunks.make("file", self.folders[folder], f"file{number}.rs"))
        count = max(int(self.draw.lognormvariate(0, 0.8) * self.lines), 4)
        made = File(f"{folder}/file{number}.rs", *inode, hunks.insert(inode, inode, None, self.new_lines(count)))
        self.files.append(made)
        return made

    def edit(self, hunks: Hunks, file: File) -> None:
        """Some places of a file are edited, the last first, so that the lines before keep their numbers."""
        places = sorted(self.draw.sample(range(len(file.lines)), min(self.draw.randint(1, MOST_HUNKS), len(file.lines))))
        end = len(file.lines)
        for start in reversed(places):
            stop = min(start + self.draw.randint(0, MOST_LINES), end)
            gone, inode = file.lines[start:stop], (file.change, file.inode)
            up = file.lines[start - 1].last if start else inode
            down = file.lines[stop] if stop < len(file.lines) else None
            new = self.new_lines(self.draw.randint(0 if gone else 1, MOST_LINES))
            lines = hunks.insert(inode, up, (down.change, down.start) if down else None, new) if new else []
            if new and start:
                self.behind.setdefault(file.lines[start - 1][:2], set()).add(hunks.number)
            hunks.delete(gone)
            for line in gone:
                hunks.known |= self.behind.get(line[:2], set())
            file.lines[start:stop] = lines
            end = max(start - 1, 0)  # a line stays between two places, which one of them refers to

    def drawn(self) -> Iterator[Commit]:
        """The commits, the first one first."""
        making = max(self.commits // 3, 1)
        for number in range(self.commits):
            hunks = Hunks(number)
            older = list(self.files)
            due = self.to_make * min(number + 1, making) // making - len(self.files)
            changed = [self.make_file(hunks) for _ in range(due)]
            for file in self.draw.sample(older, min(self.draw.randint(1, MOST_EDITS), len(older))):
                self.edit(hunks, file)
                changed.append(file)
            text = hunks.text(self.names)
            self.names.append(hashlib.sha256(text).hexdigest())
            yield Commit(text, {file.path: file.content() for file in changed})

    def tree(self) -> Dict[str, bytes]:
        """The files as they are now."""
        return {file.path: file.content() for file in self.files}


def stream(commits: List[Commit]) -> bytes:
    """The same history for `git fast-import`."""
    parts = []
    for number, commit in enumerate(commits):
        said = b"commit %d" % number
        parts.append(b"commit refs/heads/main\nmark :%d\ncommitter ann <ann@example.org> %d +0000\ndata %d\n%s\n" % (number + 1, number + 1, len(said), said))
        for path, content in commit.files.items():
            parts.append(b"M 100644 inline %s\ndata %d\n%s\n" % (path.encode(), len(content), content))
    return b"".join(parts)
