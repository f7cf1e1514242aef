#!/usr/bin/env python3
"""The large run by its definition, apart from the program's code.

usage: large_run.py scripts NUMBER CHANGES SESSIONS FOLDER
       large_run.py digests NUMBER CHANGES SESSIONS
       large_run.py lines <LINES
       large_run.py summary NUMBER CHANGES SESSIONS
       large_run.py session NUMBER CHANGES
       large_run.py replies NUMBER CHANGES <REPLIES

`scripts` writes the scripts to FOLDER/prelude, FOLDER/session-S and FOLDER/closing. `digests` writes a line for each of them:
its name, its length and its SHA-256. `lines` does so for each line `NUMBER CHANGES SESSIONS`, as the program `test_formats` does for
`scripts`. `summary` writes what the program writes: the print of each channel is worked out from the
set of its changes alone. `session` writes the requests of a large run with one session as one script, and `replies` the summary
by the replies to it, or the first reply that is a refusal.
"""

import hashlib
import os
import sys
from collections import namedtuple

LIVE = 16384
MOST_CHANGES, MOST_SESSIONS = 16384, 8
FILES = 8
LINES = 8

Insertion = namedtuple("Insertion", "file owner up downs size")  # into a file, behind a point, before points
Deletion = namedtuple("Deletion", "start end")
Change = namedtuple("Change", "number line text name hunk")


def name_of(text):
    return hashlib.sha256(text).hexdigest()


def text_of(number, needs, hunks):
    lines = ["pijul change 1", f"message {number}", "author load", f"time {number}"]
    lines += [f"needs {need}" for need in needs]
    return "".join(line + "\n" for line in lines).encode() + b"".join(hunks) + b"end\n"


def file_bytes(file):
    return b"".join(b"f%d l%d .\n" % (file, line) for line in range(LINES))


def change_zero():
    hunks = []
    for file in range(FILES):
        inode = 66 * file + 1
        hunks.append(f"file root f{file}\n".encode())
        hunks.append(f"insert 0.{inode} after 0.{inode} before - 64\n".encode() + file_bytes(file) + b"\n")
    return text_of(0, [], hunks)


class Generator:
    def __init__(self, number):
        self.x = number

    def draw(self, k):
        self.x = (6364136223846793005 * self.x + 1442695040888963407) % 2**64
        return self.x // 2**33 % k


def changes_of(number, count):
    """The changes after change 0, in their order."""
    zero = name_of(change_zero())
    generator = Generator(number)
    last = {}  # by line: the last change that inserted, and its file
    made = []
    for i in range(1, count):
        line = (i - 1) % LINES
        a = generator.draw(8)
        b = generator.draw(64)
        c = generator.draw(4)
        inserted = b"%07d\n" % i
        if c == 0:
            start = 66 * a + 2 + 8 * (b // 8)
            needs = [zero]
            hunk = f"delete 1.{start}-{start + 8} by 1\n".encode()
            meaning = Deletion(start, start + 8)
        elif c == 3 and line in last:
            before, file = last[line]
            needs = sorted([zero, before])
            places = {need: k + 1 for k, need in enumerate(needs)}
            head = f"insert {places[zero]}.{66 * file + 1} after {places[before]}.7 before - 8\n"
            hunk = head.encode() + inserted + b"\n"
            meaning = Insertion(file, None, (before, 7), [], 8)
        else:
            file = a
            at = 66 * a + 2 + b
            needs = [zero]
            down = "-" if b == 63 else f"1.{at + 1}"
            hunk = f"insert 1.{66 * a + 1} after 1.{at} before {down} 8\n".encode() + inserted + b"\n"
            meaning = Insertion(file, None, (zero, at), [] if b == 63 else [(zero, at + 1)], 8)
        text = text_of(i, needs, [hunk])
        name = name_of(text)
        if isinstance(meaning, Insertion):
            last[line] = (name, meaning.file)
            meaning = meaning._replace(owner=name)
        made.append(Change(i, line, text, name, meaning))
    return made


# ---- the scripts


def put(text):
    return b"put %d\n" % len(text) + text + b"\n"


def scripts(number, count, sessions):
    zero = change_zero()
    lines = [f"put {len(zero)}\n".encode() + zero + b"\n", f"apply main {name_of(zero)}\n".encode()]
    lines += [f"fork main l{line}\n".encode() for line in range(LINES)]
    made = {"prelude": b"".join(lines) + b"quit\n"}
    parts = [[] for _ in range(sessions)]
    for change in changes_of(number, count):
        part = parts[change.line % sessions]
        part.append(put(change.text))
        part.append(f"apply l{change.line} {change.name}\n".encode())
        part.append(f"apply main {change.name}\n".encode())
        if change.number % 15 == 0:
            part.append(f"unrecord l{change.line} {change.name}\n".encode())
            part.append(f"apply l{change.line} {change.name}\n".encode())
    for session, part in enumerate(parts):
        made[f"session-{session}"] = b"".join(part) + b"quit\n"
    made["closing"] = b"".join(f"print l{line}\n".encode() for line in range(LINES)) + b"print main\nquit\n"
    return made


# ---- the print of a set: the eight files of change 0 stand under the root with alive names, and nothing names or deletes a name


class File:
    """The vertices of one file and what leads from each to which, over a set of changes."""

    def __init__(self, file, zero, changes):
        inside = [c for c in changes if isinstance(c.hunk, Insertion) and c.hunk.file == file]
        deletions = [c for c in changes if isinstance(c.hunk, Deletion) and (c.hunk.start - 2) // 66 == file]
        self.inode = (zero, 66 * file + 1)
        first = 66 * file + 2
        blocks = {zero: (first, first + 64, file_bytes(file))}
        cuts = {zero: {first, first + 64}}
        for c in inside:
            blocks[c.name] = (0, 8, b"%07d\n" % c.number)
            cuts[c.name] = {0, 8}
        for c in inside:
            owner, up = c.hunk.up
            cuts[owner].add(up + 1)
            for owner, down in c.hunk.downs:
                cuts[owner].add(down)
        for c in deletions:
            cuts[zero] |= {c.hunk.start, c.hunk.end}
        ups = [c.hunk.up for c in inside]
        contested = [any(o == zero and d.hunk.start <= at < d.hunk.end for o, at in ups) for d in deletions]

        self.vertices = []  # (change, start, end, bytes, status)
        for owner, (start, end, content) in blocks.items():
            ends = sorted(cuts[owner])
            for a, b in zip(ends, ends[1:]):
                status = "alive"
                if owner == zero:
                    over = [k for k, d in enumerate(deletions) if d.hunk.start <= a < d.hunk.end]
                    if over:
                        status = "zombie" if any(contested[k] for k in over) else "dead"
                self.vertices.append((owner, a, b, content[a - start : b - start], status))
        self.vertices.sort(key=lambda v: (v[0], v[1]))
        by_first = {(v[0], v[1]): k for k, v in enumerate(self.vertices)}
        by_last = {(v[0], v[2] - 1): k for k, v in enumerate(self.vertices)}
        self.next = [set() for _ in self.vertices]
        for k, v in enumerate(self.vertices):
            after = by_first.get((v[0], v[2]))
            if after is not None:
                self.next[k].add(after)
        for c in inside:
            self.next[by_last[c.hunk.up]].add(by_first[(c.name, 0)])
            for down in c.hunk.downs:
                self.next[by_last[(c.name, 7)]].add(by_first[down])
        self.live = [k for k, v in enumerate(self.vertices) if v[4] != "dead"]

    def reached(self, k):
        seen, todo = set(), list(self.next[k])
        while todo:
            at = todo.pop()
            if at not in seen:
                seen.add(at)
                todo += self.next[at]
        return seen


def linked(members, links):
    """The sets that the links join, by rising least member."""
    sets, left = [], set(members)
    for first in sorted(members):
        if first not in left:
            continue
        part, todo = set(), [first]
        left.discard(first)
        while todo:
            at = todo.pop()
            part.add(at)
            for other in [o for o in left if links(at, o)]:
                left.discard(other)
                todo.append(other)
        sets.append(part)
    return sets


def lay(members, before, depth):
    if not members:
        return ("series", [])
    if len(members) == 1:
        return ("one", next(iter(members)))
    if depth < 64:
        related = lambda a, b: b in before[a] or a in before[b]
        sets = linked(members, lambda a, b: not related(a, b))
        if len(sets) > 1:
            places = {min(s): sum(1 for t in sets if min(s) in before[min(t)]) for s in sets}
            sets = sorted(sets, key=lambda s: places[min(s)])
            return ("series", [lay(s, before, depth + 1) for s in sets])
        sets = linked(members, related)
        if len(sets) > 1:
            return ("sides", [lay(s, before, depth + 1) for s in sets])
    order, left = [], set(members)
    while left:
        free = min(a for a in left if not any(a in before[b] for b in left))
        order.append(free)
        left.discard(free)
    return ("tangle", order)


class Marked:
    def __init__(self, file):
        self.file = file
        self.bytes = bytearray()
        self.count = 0
        self.run = None

    def marker(self, line):
        if self.bytes and self.bytes[-1] != 10:
            self.bytes.append(10)
        self.bytes += line.encode() + b"\n"

    def close(self):
        if self.run is not None:
            self.marker(f"<<<<<<< {self.run}")
            self.run = None

    def vertex(self, k):
        status = self.file.vertices[k][4]
        if status == "alive":
            self.close()
        elif self.run is None:
            self.count += 1
            self.marker(f">>>>>>> {self.count} zombie")
            self.run = self.count
        self.bytes += self.file.vertices[k][3]

    def apart(self, word, members, write):
        self.close()
        self.count += 1
        k = self.count
        self.marker(f">>>>>>> {k}{word}")
        for index, member in enumerate(members):
            if index:
                self.close()
                self.marker(f"======= {k}")
            write(member)
        self.close()
        self.marker(f"<<<<<<< {k}")

    def layout(self, layout, classes):
        kind, members = layout
        if kind == "one":
            self.one(classes[members])
        elif kind == "series":
            for member in members:
                self.layout(member, classes)
        elif kind == "sides":
            self.apart("", members, lambda member: self.layout(member, classes))
        else:
            self.apart(" tangle", members, lambda member: self.one(classes[member]))

    def one(self, vertices):
        if len(vertices) == 1:
            self.vertex(vertices[0])
        else:
            self.apart(" cycle", vertices, self.vertex)


def file_text(file):
    reached = {k: file.reached(k) & set(file.live) for k in file.live}
    # classes are numbered by their least vertex, and vertices by their first points
    least = {k: min([k] + [o for o in reached[k] if k in reached[o]]) for k in file.live}
    classes = {}
    for k in file.live:
        classes.setdefault(least[k], []).append(k)
    before = {c: {least[o] for k in members for o in reached[k]} - {c} for c, members in classes.items()}
    marked = Marked(file)
    marked.layout(lay(set(classes), before, 0), classes)
    marked.close()
    return bytes(marked.bytes)


def print_line(zero, changes):
    """The digest of the print of change 0 and these changes, or its first wide file."""
    body = b""
    for number in range(FILES):
        file = File(number, zero, changes)
        if len(file.live) > LIVE:
            return f"wide {zero}.{66 * number + 1}"
        text = file_text(file)
        body += f"file alive {len(text)} f{number}\n".encode() + text + b"\n"
    return hashlib.sha256(body).hexdigest()


def summary(number, count, sessions):
    zero = name_of(change_zero())
    changes = changes_of(number, count)
    print(f"sessions {sessions}")
    print(f"changes {count}")
    for line in range(LINES):
        mine = [c for c in changes if c.line == line]
        print(f"channel l{line} {1 + len(mine)} {print_line(zero, mine)}")
    print(f"channel main {1 + len(changes)} {print_line(zero, changes)}")


def bodies(replies):
    """The bodies of the last replies, those of the prints; every other reply has to be an `ok`."""
    at, found = 0, []
    while at < len(replies):
        end = replies.index(b"\n", at)
        words = replies[at:end].split(b" ")
        at = end + 1
        if words[0] == b"no" and words[2] == b"wide":
            found.append(b" ".join(words[2:]).decode())
        elif words[0] != b"ok":
            sys.exit(b" ".join(words).decode())
        elif len(words) == 3 and words[2].isdigit() and len(words[2]) < 64:
            size = int(words[2])
            found.append(hashlib.sha256(replies[at : at + size]).hexdigest())
            at += size + 1
    return found


def told(number, count, replies):
    """The summary of a large run with one session, by its replies."""
    found = bodies(replies)
    counts = [1] * LINES
    for change in changes_of(number, count):
        counts[change.line] += 1
    print("sessions 1")
    print(f"changes {count}")
    for line in range(LINES):
        print(f"channel l{line} {counts[line]} {found[line]}")
    print(f"channel main {count} {found[LINES]}")


def digests(number, count, sessions):
    """Prints the name, the length and the digest of each script."""
    for name, content in scripts(number, count, sessions).items():
        print(name, len(content), hashlib.sha256(content).hexdigest())


def lines():
    """The digests of the large runs that standard input has, one a line. One that is out of bounds has none."""
    for line in sys.stdin:
        number, count, sessions = map(int, line.split())
        if 1 <= count <= MOST_CHANGES and 1 <= sessions <= MOST_SESSIONS:
            digests(number, count, sessions)


def main(words):
    if words == ["lines"]:
        lines()
        return
    command, number, count = words[0], int(words[1]), int(words[2])
    if command == "session":
        made = scripts(number, count, 1)
        parts = [made[name].removesuffix(b"quit\n") for name in ("prelude", "session-0")] + [made["closing"]]
        sys.stdout.buffer.write(b"".join(parts))
        return
    if command == "replies":
        told(number, count, sys.stdin.buffer.read())
        return
    sessions = int(words[3])
    if command == "scripts":
        for name, content in scripts(number, count, sessions).items():
            with open(os.path.join(words[4], name), "wb") as out:
                out.write(content)
    elif command == "digests":
        digests(number, count, sessions)
    else:
        summary(number, count, sessions)


if __name__ == "__main__":
    main(sys.argv[1:])
