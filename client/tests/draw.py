"""What drawn people do to their folders: edits, moves, and resolutions of conflicts."""

from __future__ import annotations

from random import Random
from typing import Dict, List, Optional, Set

import support  # noqa: F401  (finds the package)
from pj.lines import split
from pj.marked import Mark, Marked
from pj.paths import Folder, Node, base_of, join, parent_of
from pj.view import View

NAMES = [b"a", b"b", b"c.txt", b"d.txt", b"n\xff\xfe", b"with space", b"e"]
DIRS = [b"p", b"q", b"r s"]
SPREAD, DENSE = [40, 14, 6, 10, 5, 3, 2, 4, 3, 12], [60, 2, 0, 1, 0, 0, 0, 0, 1, 1]
SHARED = b"shared.txt"  # a file whose regions have one writer each


class Person:
    def __init__(self, name: str, number: int, draw: Random):
        self.name, self.number, self.draw = name, number, draw
        self.folder: Folder = {}
        self.told: Dict[bytes, bytes] = {}
        self.count = 0
        self.dense = False  # few files, many conflicts

    def line(self) -> bytes:
        if self.draw.random() < 0.3:
            return self.draw.choice([b"x\n", b"\n", b"{\n", b"}\n", b"same\r\n", b">>>>>>> 1\n"])
        self.count += 1
        return b"%s %d\n" % (self.name.encode(), self.count)

    def text(self, most: int = 8) -> bytes:
        lines = [self.line() for _ in range(self.draw.randrange(most + 1))]
        data = b"".join(lines)
        if data and self.draw.random() < 0.15:
            data = data[:-1]
        if self.draw.random() < 0.04:
            data += bytes([0, self.draw.randrange(256), 10])
        return data

    # Edits.

    def dirs(self) -> List[bytes]:
        return [b"", *(p for p, n in self.folder.items() if n.kind == "dir")]

    def files(self, held: Set[bytes]) -> List[bytes]:
        rows = sorted(self.folder.items())
        return [p for p, n in rows if n.kind == "file" and p not in held and p != SHARED]

    def free(self, parent: bytes, names: List[bytes]) -> Optional[bytes]:
        rows = [join(parent, name) for name in names if join(parent, name) not in self.folder]
        return self.draw.choice(rows) if rows else None

    def edit(self, held: Set[bytes]) -> None:
        """One drawn edit; `held` are paths in conflict, which edits leave alone."""
        draw, folder = self.draw, self.folder
        kind = draw.choices(
            ["text", "new", "gone", "move", "dir", "dirmove", "dirgone", "exec", "write", "shared"],
            DENSE if self.dense else SPREAD,
        )[0]
        files = self.files(held)
        if kind == "shared" and SHARED in folder and SHARED not in held:
            self.shared()
        elif kind == "new" or not files:
            path = self.free(draw.choice(sorted(self.dirs())), NAMES)
            if path:
                folder[path] = Node("file", draw.random() < 0.1, self.text())
        elif kind == "text":
            path = draw.choice(files)
            folder[path] = folder[path]._replace(data=self.changed(folder[path].data))
        elif kind == "write":
            path = draw.choice(files)
            folder[path] = folder[path]._replace(data=self.text())
        elif kind == "gone":
            del folder[draw.choice(files)]
        elif kind == "exec":
            path = draw.choice(files)
            folder[path] = folder[path]._replace(executable=not folder[path].executable)
        elif kind == "move":
            old = draw.choice(files)
            new = self.free(draw.choice(sorted(self.dirs())), NAMES)
            if new:
                self.move(old, new)
                if draw.random() < 0.3:
                    folder[new] = folder[new]._replace(data=self.changed(folder[new].data))
        elif kind == "dir":
            path = self.free(draw.choice(sorted(self.dirs())), DIRS)
            if path and path.count(b"/") < 4:
                folder[path] = Node("dir")
        elif kind in ("dirmove", "dirgone"):
            dirs = [p for p in sorted(self.dirs()) if p and not self.under(p) & held]
            if dirs:
                old = draw.choice(dirs)
                if kind == "dirgone":
                    self.remove(old)
                else:
                    within = self.under(old)
                    into = [p for p in sorted(self.dirs()) if p not in within]
                    new = self.free(draw.choice(into), DIRS)
                    if new:
                        self.move(old, new)

    def under(self, path: bytes) -> Set[bytes]:
        return {p for p in self.folder if p == path or p.startswith(path + b"/")}

    def remove(self, path: bytes) -> None:
        for p in self.under(path):
            del self.folder[p]

    def move(self, old: bytes, new: bytes, tell: Optional[bool] = None) -> None:
        paths = sorted(self.under(old))
        nodes = [(new + p[len(old) :], self.folder.pop(p)) for p in paths]
        self.folder.update(nodes)
        if self.draw.random() < 0.4 if tell is None else tell:
            self.tell(old, new)

    def tell(self, old: bytes, new: bytes) -> None:
        for a, b in list(self.told.items()):
            if b == old or b.startswith(old + b"/"):
                self.told[a] = new + b[len(old) :]
        if old not in self.told.values() and old not in self.told:
            self.told.setdefault(old, new)

    def changed(self, data: bytes) -> bytes:
        draw, lines = self.draw, split(data)
        for _ in range(draw.randrange(1, 4)):
            at = draw.randrange(len(lines) + 1)
            stop = min(len(lines), at + draw.randrange(4))
            kind = draw.randrange(4)
            if kind == 0:
                lines[at:at] = [self.line() for _ in range(draw.randrange(1, 4))]
            elif kind == 1:
                del lines[at:stop]
            elif kind == 2:
                lines[at:stop] = [self.line() for _ in range(draw.randrange(1, 4))]
            else:
                taken = lines[at:stop]
                del lines[at:stop]
                to = draw.randrange(len(lines) + 1)
                lines[to:to] = taken
        data = b"".join(lines)
        if data.endswith(b"\n") and draw.random() < 0.08:
            data = data[:-1]
        return data

    # The file of regions.

    @staticmethod
    def first_shared() -> bytes:
        rows = [b"-- %d --\nr%d a\nr%d b\nr%d c\n" % (k, k, k, k) for k in range(3)]
        return b"".join(rows) + b"-- end --\n"

    @staticmethod
    def regions(data: bytes) -> List[bytes]:
        found = []
        for k in range(3):
            mark = b"-- %d --\n" % k
            stop = b"-- %d --\n" % (k + 1) if k < 2 else b"-- end --\n"
            found.append(data[data.index(mark) + len(mark) : data.index(stop)])
        return found

    def shared(self) -> None:
        try:
            rows = self.regions(self.folder[SHARED].data)
        except ValueError:  # an inverse took a line between two regions away
            return
        lines = split(rows[self.number])
        at = self.draw.randrange(len(lines) + 1)
        stop = min(len(lines), at + self.draw.randrange(3))
        self.count += 1
        new = [b"%s region %d\n" % (self.name.encode(), self.count)] * self.draw.randrange(3)
        lines[at:stop] = new
        rows[self.number] = b"".join(lines)
        data = b"".join(b"-- %d --\n" % k + row for k, row in enumerate(rows)) + b"-- end --\n"
        self.folder[SHARED] = Node("file", False, data)


class Conflicts:
    """What of a set of changes is in conflict."""

    def __init__(self, view: View):
        self.entries = view.entries
        self.marked = {e.inode: view.marked(e.inode) for e in self.entries if e.kind == "file"}
        files = [e for e in self.entries if e.kind == "file"]
        self.texts = [e for e in files if not self.marked[e.inode].clean]
        self.zombies = [e for e in self.entries if e.word == "zombie"]
        self.again = [e for e in self.entries if e.again]
        self.loose = [e for e in self.entries if e.parent is None]
        named = [e for e in self.entries if e.parent is not None]
        self.twins = [e for e in named if base_of(e.path) != e.name]

    @property
    def kinds(self) -> Dict[str, int]:
        rows = {"zombie name": self.zombies, "same": self.again}
        rows.update({"loose": self.loose, "twin": self.twins})
        found = {kind: len(found) for kind, found in rows.items() if found}
        for e in self.texts:
            for block in self.marked[e.inode].blocks:
                if block.kind != "plain":
                    found["text " + block.kind] = found.get("text " + block.kind, 0) + 1
        return found

    def paths(self) -> Set[bytes]:
        rows = [*self.texts, *self.zombies, *self.again, *self.loose, *self.twins]
        inodes = {e.inode for e in rows}
        return {e.path for e in self.entries if e.inode in inodes or e.path.startswith(b"~")}


def resolved(person: Person, marked: Marked, leave: bool = False) -> bytes:
    """A drawn part of the lines of each conflict, in a drawn order of its sides.

    With `leave` half of the conflicts are left, and lines come between them.
    """
    draw, out = person.draw, []
    for block in marked.blocks:
        if leave and draw.random() < 0.2 and (not out or out[-1].endswith(b"\n")):
            out.append(person.line())
        if block.kind == "plain" or leave and draw.random() < 0.5:
            out.append(block.data)
            continue
        sides: List[List[bytes]] = [[]]
        for token in block.tokens:
            if isinstance(token, Mark):
                sides.append([])
            else:
                sides[-1].append(token.data)
        if draw.random() < (0.7 if person.dense else 0.3):
            draw.shuffle(sides)
        how = draw.randrange(2, 4) if person.dense else draw.randrange(4)
        lines = [line for side in sides for line in split(b"".join(side))]
        if how == 0:
            lines = split(b"".join(draw.choice(sides)))
        elif how == 1:
            lines = [line for line in lines if draw.random() < 0.5]
        elif how == 2 and draw.random() < 0.3:
            lines.append(person.line())
        keep = 0 if leave else 0.5
        lines = [x if x.endswith(b"\n") or draw.random() < keep else x + b"\n" for x in lines]
        out.append(b"".join(lines))
    return b"".join(out)


def resolve(person: Person, found: Conflicts, leave: bool = False) -> Set[bytes]:
    """Resolves all that is in conflict, as drawn; the paths whose names are kept."""
    draw, folder, keep = person.draw, person.folder, set()
    texts = {e.inode: resolved(person, found.marked[e.inode], leave) for e in found.texts}
    for e in found.entries:
        if e.inode in texts and e.path in folder:
            folder[e.path] = folder[e.path]._replace(data=texts[e.inode])
    for e in found.zombies:
        if e.path in folder:
            if draw.random() < 0.6:
                keep.add(e.path)
            else:
                person.remove(e.path)
    for inode in sorted({e.inode for e in found.again}):
        paths = [e.path for e in found.entries if e.inode == inode and e.path in folder]
        kind = found.entries[0].kind if not paths else folder[paths[0]].kind
        stay = draw.choice(paths) if kind == "file" and paths else paths[:1]
        for path in paths:
            if path != stay and [path] != stay and path in folder:
                person.remove(path)
    for e in found.twins:
        if e.path in folder:
            if draw.random() < 0.3 and e.kind == "file":
                person.remove(e.path)
            else:
                person.count += 1
                name = b"twin %s %d" % (person.name.encode(), person.count)
                person.move(e.path, join(parent_of(e.path), name), True)
    for e in found.loose:
        if e.path in folder:
            if draw.random() < 0.4:
                person.remove(e.path)
            else:
                person.count += 1
                person.move(e.path, b"found %s %d" % (person.name.encode(), person.count), True)
    return keep
