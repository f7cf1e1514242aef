#!/usr/bin/env python3
"""The tables of lists of changes, by the definitions alone.

    python3 tests/table_rows.py lines >crates/test_tables/data/lists
    python3 tests/table_rows.py <crates/test_tables/data/lists

The first writes the lines that the program `test_tables` plays as `lists`: worked lists, and histories that a fixed sequence of random numbers
draws. Where a worked list has a value beside a line, it was worked by hand, and the lines are only written if the answers have it.
The second answers such lines. It was written from docs/MODEL.md and docs/FORMATS.md: nothing is kept but the list, and each answer is
worked out anew from all hunks of all its changes. Whether a context holds is not asked: in each list here it does.

| Line | Answer |
|---|---|
| `row TITLE` | the line; a new list begins, which has no change |
| `text LENGTH`, a newline and so many bytes | one more change, numbered from 0 as they come; `no` where the bytes are no text of one |
| `with CHANGE` | the change comes to the list; `no` where it is there, or a need is not, or its context does not hold |
| `without CHANGE` | the change goes; `no` where it is not there, or one that is there needs it |
| `share` | the tables get a second owner, and are kept as they are |
| `back` | the list and its tables are again those that were shared last |
| `cuts` | each point before which cuts stand, with their count, and `end` |
| `vertex CHANGE POSITION` | the vertex that has the position, or `none` |
| `vertices CHANGE` | the vertices of its text, and `end` |
| `rows` | the rows of edges by source and `end`, and then by target and `end` |
| `surviving CHANGE POSITION` | the surviving versions, in order, and `end` |
| `status CHANGE POSITION` | the status |
| `missing CHANGE` | its least need that is not there, or `none` |
| `pairs` | each need with each change of the list that has it, and `end` |
| `holders CHANGE` | each change of the list that needs it, in order, and `end`, and then the least of them or `none` |
| `graph` | `agrees`: the graph and the print are those of a plain channel, and the look-ups of the tables show that graph (the program compares; here it is always the answer) |

A change is told by its number, and answers have the first eight digits of its name. What begins with no such word ends the input.
"""
import io
import random
import sys

from contests import Change, Lines, World, counts, insertion, name_of, text_of
from reader import answer

WORLDS, HISTORIES = 10, 3  # sets of changes that are drawn, and histories of each
LONG, CHANGES = 2, 30  # sets that are larger, and their changes
BLOCK, FOLDER, ORDER = range(3)
ROOT = ()  # before each point


def place(change, reference):
    found = change.place(reference)
    return ROOT if found == "root" else found


def places(change, references):
    return [] if references == "-" else [place(change, reference) for reference in references.split(",")]


def span(change, parts):
    """The owner, the start and the end of a range, and the names under `by`."""
    number, _, ends = parts[0].partition(".")
    start, end = map(int, ends.split("-"))
    return change.owner(int(number)), start, end, [change.owner(int(by)) for by in parts[2].split(",")]


def after(point):
    return [] if point == ROOT else [(point[0], point[1] + 1)]


def at(point):
    return [] if point == ROOT else [point]


def hunk_cuts(change, word, parts):
    """The points before which a hunk cuts."""
    if word == "insert":
        ups = [point for up in places(change, parts[2]) for point in after(up)]
        return ups + [point for down in places(change, parts[4]) for point in at(down)]
    if word == "order":
        return after(place(change, parts[1])) + at(place(change, parts[2]))
    if word in ("delete", "revive"):
        owner, start, end, _ = span(change, parts)
        return [(owner, start), (owner, end)]
    return []


def hunk_rows(change, word, first, parts):
    """The rows that a hunk gives by itself: source, target, label, introducer."""
    own = lambda offset: (change.name, offset)
    if word in ("file", "file+x", "dir", "name", "name+x"):
        child = place(change, parts[1]) if word.startswith("name") else own(first + 1)
        rows = [(place(change, parts[0]), own(first), FOLDER), (own(first), child, FOLDER)]
    elif word == "insert":
        last = first + int(parts[5]) - 1
        rows = [(up, own(first), BLOCK) for up in places(change, parts[2])]
        rows += [(own(last), down, ORDER) for down in places(change, parts[4])]
    elif word == "order":
        rows = [(place(change, parts[1]), place(change, parts[2]), ORDER)]
    else:
        rows = []
    return [(*row, change.name) for row in rows if row[1] != ROOT]


class Listed:
    """A list of changes, by name."""

    def __init__(self, held=()):
        self.held = dict(held)

    def hunks(self):
        for change in self.held.values():
            for number, (word, first, parts) in enumerate(change.hunks):
                yield change, number, word, first, parts

    # ---- text

    def cuts(self):
        return [point for change, _, word, _, parts in self.hunks() for point in hunk_cuts(change, word, parts)]

    def blocks(self):
        return [(change.name, first, first + int(parts[5])) for change, _, word, first, parts in self.hunks() if word == "insert"]

    def vertices(self):
        """The runs of blocks between cuts: change, start, end."""
        cuts = set(self.cuts())
        found = []
        for name, first, past in self.blocks():
            starts = [first, *(offset for offset in range(first + 1, past) if (name, offset) in cuts)]
            found += [(name, start, end) for start, end in zip(starts, [*starts[1:], past])]
        return sorted(found)

    def rows(self):
        found = {row for change, _, word, first, parts in self.hunks() for row in hunk_rows(change, word, first, parts)}
        for name, start, _ in self.vertices():
            if (name, start) not in {(owner, first) for owner, first, _ in self.blocks()}:
                found.add(((name, start - 1), (name, start), BLOCK, name))
        return found

    # ---- versions

    def survivors(self, point):
        """Whether the owner's version survives, and the others that do: change, hunk, word."""
        covering = []
        for change, number, word, _, parts in self.hunks():
            if word in ("delete", "revive"):
                owner, start, end, by = span(change, parts)
                if owner == point[0] and start <= point[1] < end:
                    covering.append((change.name, number, word, by))
        named = {name for *_, by in covering for name in by}
        return point[0] not in named, sorted(hunk[:3] for hunk in covering if hunk[0] not in named)

    def status(self, point):
        owner, others = self.survivors(point)
        contested = counts(self.held)
        deleted = [hunk for hunk in others if hunk[2] == "delete"]
        if not deleted:
            return "alive"
        if owner or len(deleted) < len(others) or any(hunk[:2] in contested for hunk in deleted):
            return "zombie"
        return "dead"

    # ---- needs

    def pairs(self):
        return sorted((need, change.name) for change in self.held.values() for need in change.needs)

    def holders(self, name):
        return [holder for need, holder in self.pairs() if need == name]


# ---- the answers


def point_text(point):
    return "root" if point == ROOT else f"{point[0][:8]}.{point[1]}"


def row_line(row):
    source, target, label, introducer = row
    return f"row {point_text(source)} {point_text(target)} {('block', 'folder', 'order')[label]} {introducer[:8]}"


class Player:
    def __init__(self):
        self.changes, self.list, self.shared = [], Listed(), Listed()

    def text(self, text):
        if answer(text)[1]:
            return ["no"]
        self.changes.append(Change(text))
        return ["ok"]

    def whole(self, word):
        """What is asked of the list as a whole."""
        if word == "share":
            self.shared = Listed(self.list.held)
        elif word == "back":
            self.list = Listed(self.shared.held)
        elif word == "cuts":
            cuts = self.list.cuts()
            return [*(f"cut {point_text(cut)} {cuts.count(cut)}" for cut in sorted(set(cuts))), "end"]
        elif word == "graph":
            return ["agrees"]
        elif word == "pairs":
            return [*(f"pair {need[:8]} {holder[:8]}" for need, holder in self.list.pairs()), "end"]
        else:
            rows = self.list.rows()
            by_target = sorted(rows, key=lambda row: (row[1], row[0], row[2:]))
            return [*map(row_line, sorted(rows)), "end", *map(row_line, by_target), "end"]
        return ["ok"]

    def of_point(self, word, point):
        if word == "status":
            return [self.list.status(point)]
        if word == "vertex":
            found = [(start, end) for name, start, end in self.list.vertices() if name == point[0] and start <= point[1] < end]
            return [f"range {found[0][0]} {found[0][1]}" if found else "none"]
        owner, others = self.list.survivors(point)
        return [*(["owner"] if owner else []), *(f"{word}d {name[:8]} {number}" for name, number, word in others), "end"]

    def of_change(self, word, change):
        held = self.list.held
        if word in ("with", "without"):
            comes = word == "with"
            ready = all(need in held for need in change.needs) if comes else not self.list.holders(change.name)
            if (change.name in held) == comes or not ready:
                return ["no"]
            if comes:
                held[change.name] = change
            else:
                del held[change.name]
            return ["ok"]
        if word == "vertices":
            return [*(f"range {start} {end}" for name, start, end in self.list.vertices() if name == change.name), "end"]
        found = lambda names: f"change {names[0][:8]}" if names else "none"
        if word == "missing":
            return [found(sorted(need for need in change.needs if need not in held))]
        holders = self.list.holders(change.name)
        return [*(f"change {holder[:8]}" for holder in holders), "end", found(holders)]

    def answer(self, word, numbers):
        if not numbers:
            return self.whole(word)
        if numbers[0] >= len(self.changes):
            return ["no"]
        change = self.changes[numbers[0]]
        if word in ("vertex", "surviving", "status"):
            return self.of_point(word, (change.name, numbers[1]))
        return self.of_change(word, change)


def answers(stream):
    """The answer to each line, as lines."""
    player = Player()
    while line := stream.readline():
        word, _, rest = line.decode().rstrip("\n").partition(" ")
        if word == "row":
            player.list = Listed()
            yield [f"row {rest}"]
        elif word == "text":
            yield player.text(stream.read(int(rest)))
            stream.readline()
        else:
            yield player.answer(word, [int(number) for number in rest.split()])


# ---- the lines


class Rows(Lines):
    """Lines, of which some have a value that was worked by hand."""

    def __init__(self):
        super().__init__()
        self.values = {}  # by the number of the answer
        self.asked = 0

    def line(self, line):
        self.asked += 1
        super().line(line)

    def number(self, text):
        self.asked += text not in self.numbers
        return super().number(text)

    def ask(self, word, text=None, offset=None, value=None):
        parts = [word, *([] if text is None else [str(self.number(text))]), *([] if offset is None else [str(offset)])]
        if value is not None:
            self.values[self.asked] = value
        self.line(" ".join(parts))

    def begin(self, title, *texts):
        """A list that is empty, beside changes that are told of."""
        for text in texts:
            self.number(text)
        self.line(f"row {title}")

    def change(self, word, text, value="ok"):
        self.ask(word, text, value=[value])

    def whole(self, *texts):
        """All that the tables have, with the vertices and the holders of these changes."""
        for word in ("cuts", "rows", "pairs"):
            self.ask(word)
        for text in texts:
            self.ask("vertices", text)
            self.ask("holders", text)
            self.ask("missing", text)

    def points(self, text, offsets):
        for offset in offsets:
            for word in ("vertex", "surviving", "status"):
                self.ask(word, text, offset)


def short(text):
    return name_of(text)[:8]


def worked(rows):
    a = text_of("A", {}, ["file root a.txt", insertion("0.1", "0.1", text="one\ntw")])
    b = text_of("B", {"a": a}, [insertion("a.1", "a.5", "a.6", "BBB\n")])
    d, e = (text_of(message, {"a": a}, ["delete a.2-8 by a"]) for message in "DE")
    m = text_of("M", {"a": a}, [insertion("a.1", "a.3", "a.4", "X")])
    r = text_of("R", {"a": a, "d": d}, ["delete a.2-8 by d"], knows=[m])
    s = text_of("S2", {"a": a, "d": d}, ["revive a.2-8 by d"], version=2)
    samples = [a, b, d, e, m, r, s]

    rows.begin("an insertion cuts the text of another one, and no more when it is gone", a, m)
    rows.change("with", a)
    rows.ask("vertex", a, 5, ["range 2 8"])
    rows.ask("cuts", value=[f"cut {short(a)}.2 1", "end"])
    rows.whole(a, m)
    rows.change("with", m)
    rows.ask("vertex", a, 5, ["range 4 8"])
    rows.ask("vertex", a, 3, ["range 2 4"])
    rows.ask("vertex", m, 0, ["range 0 1"])
    rows.ask("vertex", a, 1, ["none"])
    rows.ask("vertex", a, 8, ["none"])
    rows.ask("cuts", value=[f"cut {short(a)}.2 1", f"cut {short(a)}.4 2", "end"])
    rows.whole(a, m)
    rows.change("with", m, "no")
    rows.change("without", a, "no")
    rows.change("without", m)
    rows.ask("vertex", a, 5, ["range 2 8"])
    rows.ask("cuts", value=[f"cut {short(a)}.2 1", "end"])
    rows.whole(a, m)
    rows.change("without", a)
    rows.ask("rows", value=["end", "end"])
    rows.ask("cuts", value=["end"])
    rows.ask("pairs", value=["end"])

    rows.begin("the row inside a block comes with the first cut and goes with the last", a, b, m, d)
    rows.change("with", a)
    out = [(f"row root {short(a)}.0", "folder"), (f"row {short(a)}.0 {short(a)}.1", "folder"), (f"row {short(a)}.1 {short(a)}.2", "block")]
    own = [f"{ends} {label} {short(a)}" for ends, label in out]
    rows.ask("rows", value=[*own, "end", *own, "end"])
    rows.change("with", m)
    inner = f"row {short(a)}.3 {short(a)}.4 block {short(a)}"
    up, down = f"row {short(a)}.3 {short(m)}.0 block {short(m)}", f"row {short(m)}.0 {short(a)}.4 order {short(m)}"
    assert name_of(m) < name_of(a)
    rows.ask("rows", value=[own[0], down, own[1], own[2], up, inner, "end", up, own[0], own[1], own[2], down, inner, "end"])
    rows.change("with", d)
    rows.ask("cuts", value=[f"cut {short(a)}.2 2", f"cut {short(a)}.4 2", f"cut {short(a)}.8 1", "end"])
    rows.change("without", m)
    rows.ask("rows", value=[*own, "end", *own, "end"])
    rows.whole(a, m, d)

    rows.begin("a cut that two changes make stays while one of them does", *samples)
    other = text_of("M again", {"a": a}, [insertion("a.1", "a.3", "a.5", "Y")])
    for text in (a, m, other):
        rows.change("with", text)
        rows.whole(a, m, other)
    rows.ask("cuts", value=[f"cut {short(a)}.2 1", f"cut {short(a)}.4 3", f"cut {short(a)}.5 1", "end"])
    rows.ask("vertices", a, value=["range 2 4", "range 4 5", "range 5 8", "end"])
    rows.change("without", m)
    rows.ask("cuts", value=[f"cut {short(a)}.2 1", f"cut {short(a)}.4 1", f"cut {short(a)}.5 1", "end"])
    rows.ask("vertices", a, value=["range 2 4", "range 4 5", "range 5 8", "end"])
    rows.change("without", other)
    rows.ask("vertices", a, value=["range 2 8", "end"])
    rows.whole(a, m, other)

    rows.begin("two deletions of one text, and each alone", *samples)
    for text in (a, d, e):
        rows.change("with", text)
    assert name_of(d) < name_of(e)
    rows.ask("surviving", a, 3, [f"deleted {short(d)} 0", f"deleted {short(e)} 0", "end"])
    rows.ask("status", a, 3, ["dead"])
    rows.ask("surviving", a, 1, ["owner", "end"])
    rows.ask("surviving", a, 8, ["owner", "end"])
    rows.whole(a, d, e)
    rows.points(a, range(9))
    rows.change("without", d)
    rows.ask("surviving", a, 3, [f"deleted {short(e)} 0", "end"])
    rows.change("without", e)
    rows.ask("surviving", a, 3, ["owner", "end"])
    rows.ask("status", a, 3, ["alive"])

    rows.begin("a revival of the one deletion that there is", *samples)
    for text in (a, d):
        rows.change("with", text)
    rows.ask("status", a, 3, ["dead"])
    rows.change("with", s)
    rows.ask("surviving", a, 3, [f"revived {short(s)} 0", "end"])
    rows.ask("status", a, 3, ["alive"])
    rows.whole(a, d, s)

    assert name_of(e) < name_of(s)
    for first, second in ((e, s), (s, e)):
        rows.begin("a deletion beside a revival of another one leaves a zombie, in either order", *samples)
        for text in (a, d, first, second):
            rows.change("with", text)
        rows.ask("surviving", a, 3, [f"deleted {short(e)} 0", f"revived {short(s)} 0", "end"])
        rows.ask("status", a, 3, ["zombie"])
        rows.points(a, range(9))
        rows.whole(a, d, e, s)
        rows.change("without", s)
        rows.ask("surviving", a, 3, [f"deleted {short(d)} 0", f"deleted {short(e)} 0", "end"])
        rows.ask("status", a, 3, ["dead"])

    rows.begin("who inserts under a deletion leaves a zombie, until one deletes who knows of both", *samples)
    for text in (a, d, m):
        rows.change("with", text)
    rows.ask("status", a, 3, ["zombie"])
    rows.change("with", r)
    rows.ask("surviving", a, 3, [f"deleted {short(r)} 0", "end"])
    rows.ask("status", a, 3, ["dead"])
    rows.whole(a, d, m, r)
    rows.change("without", d, "no")
    rows.change("without", r)
    rows.ask("status", a, 3, ["zombie"])
    rows.change("without", m)
    rows.ask("status", a, 3, ["dead"])

    rows.begin("what a change needs, and who needs it", *samples)
    rows.ask("missing", b, value=[f"change {short(a)}"])
    rows.change("with", b, "no")
    rows.change("with", a)
    rows.ask("missing", b, value=["none"])
    rows.ask("missing", s, value=[f"change {short(d)}"])
    rows.ask("holders", a, value=["end", "none"])
    rows.change("with", s, "no")
    for text in (d, s, r):
        rows.change("with", text)
    rows.ask("holders", d, value=[f"change {short(r)}", f"change {short(s)}", "end", f"change {short(r)}"])
    rows.ask("pairs", value=[*(f"pair {short(a)} {holder}" for holder in (short(r), short(d), short(s))), *(f"pair {short(d)} {holder}" for holder in (short(r), short(s))), "end"])
    rows.change("without", r)
    rows.ask("holders", d, value=[f"change {short(s)}", "end", f"change {short(s)}"])
    rows.ask("holders", a, value=[f"change {short(d)}", f"change {short(s)}", "end", f"change {short(d)}"])

    rows.begin("tables with a second owner stay as they were", *samples)
    rows.change("with", a)
    rows.ask("share")
    rows.change("with", m)
    rows.change("with", d)
    rows.whole(a, m, d)
    rows.ask("back")
    rows.ask("vertex", a, 5, ["range 2 8"])
    rows.ask("surviving", a, 5, ["owner", "end"])
    rows.ask("holders", a, value=["end", "none"])
    rows.whole(a, m, d)
    rows.change("without", a)
    rows.ask("back")
    rows.whole(a, m, d)

    # positions: 0 and 1 a directory, 2 and 3 a file, 4 to 11 its text, 12 and 13 a file of the directory
    p = text_of("P", {}, ["dir root d", "file root f", insertion("0.3", "0.3", text="abcdefgh"), "file 0.1 g"])
    on = {"p": p}
    some = lambda message, *hunks, **more: text_of(message, on, hunks, **more)
    several = [
        some("names", "name root p.3 n", "name p.1 p.13 n"),
        some("moves", "delete p.2-3 by p", "name p.1 p.3 f"),
        some("two ups and two downs", insertion("p.3", "p.5,p.7", "p.8,p.11", "xy")),
        some("orders", "order p.3 p.6 p.8", "order p.3 p.10 p.4"),
        some("at both ends", insertion("p.3", "p.3", "p.4", "u"), insertion("p.3", "p.11", text="v")),
        some("two blocks", insertion("p.3", "p.4", text="one"), insertion("p.13", "p.13", text="two")),
        some("each byte", "delete p.4-5 by p", "delete p.5-6 by p", "delete p.11-12 by p"),
    ]
    rows.begin("names, orders, and blocks with many ups and downs", p, *several)
    for text in (p, *several):
        rows.change("with", text)
        rows.whole(p, text)
    rows.points(p, (0, 2, 4, 5, 6, 8, 11, 12))
    for text in several:
        rows.change("without", text)
        rows.whole(p, text)

    base = some("deletes", "delete p.4-8 by p", "delete p.8-12 by p")
    back = text_of("revives a part", {"p": p, "b": base}, ["revive p.6-10 by b"], version=2)
    again = text_of("deletes again", {"p": p, "b": base, "r": back}, ["delete p.7-9 by r"])
    apart = some("deletes apart", "delete p.5-11 by p")
    rows.begin("deletions of a revival, part by part", p, base, back, again, apart)
    for text in (p, base, back, again, apart):
        rows.change("with", text)
        rows.points(p, range(3, 13))
        rows.whole(p, text)
    for text in (again, back, base, apart):
        rows.change("without", text)
        rows.points(p, range(3, 13))


class History:
    """A worked history, whose graphs are those of a plain channel."""

    def __init__(self, rows, title, *texts):
        self.rows = rows
        rows.begin(title, *texts)
        for text in texts:
            self.step("with", text)

    def step(self, word, text):
        self.rows.change(word, text)
        self.rows.ask("graph", value=["agrees"])

    def status(self, text, values):
        """The statuses of some positions of a change."""
        for offset, value in values.items():
            self.rows.ask("status", text, offset, [value])

    def vertices(self, text, *ranges):
        self.rows.ask("vertices", text, value=[*(f"range {start} {end}" for start, end in ranges), "end"])


def channels(rows):
    """Worked histories of channels: what a print of each shows says the statuses."""
    a = text_of("A", {}, ["file root a.txt", insertion("0.1", "0.1", text="one\ntw")])
    on = {"a": a}
    b, c = (text_of(message, on, [insertion("a.1", "a.5", "a.6", message * 3 + "\n")]) for message in "BC")
    d, e = (text_of(message, on, ["delete a.2-8 by a"]) for message in "DE")
    m = text_of("M", on, [insertion("a.1", "a.3", "a.4", "X")])
    r = text_of("R", {"a": a, "d": d}, ["delete a.2-8 by d"], knows=[m])
    s = text_of("S2", {"a": a, "d": d}, ["revive a.2-8 by d"], version=2)
    between = {"a": a, "b": b, "c": c}
    p, q = (text_of(message, between, [f"order a.1 {ends}"]) for message, ends in (("P", "b.3 c.0"), ("Q", "c.3 b.0")))

    history = History(rows, "an insertion comes and goes", a, m)
    history.vertices(a, (2, 4), (4, 8))
    history.vertices(m, (0, 1))
    history.status(a, {0: "alive", 1: "alive", 2: "alive", 7: "alive"})
    history.step("without", m)
    history.vertices(a, (2, 8))
    history.vertices(m)

    history = History(rows, "two insertions at one place, of which each goes", a, b, c)
    history.vertices(a, (2, 6), (6, 8))
    history.step("without", b)
    history.vertices(a, (2, 6), (6, 8))
    history.vertices(c, (0, 4))
    history.step("without", c)
    history.vertices(a, (2, 8))

    history = History(rows, "two insertions in one order, and then in a cycle", a, c, b, p)
    history.step("with", q)
    history.vertices(b, (0, 4))
    history.vertices(c, (0, 4))
    history.status(b, {0: "alive", 3: "alive"})

    history = History(rows, "a deletion comes and goes", a, d)
    history.vertices(a, (2, 8))
    history.status(a, {0: "alive", 1: "alive", 2: "dead", 7: "dead"})
    history.step("without", d)
    history.status(a, {0: "alive", 2: "alive", 7: "alive"})

    for title, first, second in (("after", d, m), ("before", m, d)):
        history = History(rows, f"an insertion {title} a deletion of the text around it", a, first, second)
        history.vertices(a, (2, 4), (4, 8))
        history.status(a, {2: "zombie", 3: "zombie", 4: "zombie", 7: "zombie"})
        history.status(m, {0: "alive"})
        history.step("without", d)
        history.status(a, {2: "alive", 4: "alive"})
        history.step("with", d)
        history.step("without", m)
        history.vertices(a, (2, 8))
        history.status(a, {2: "dead", 7: "dead"})

    history = History(rows, "one who knows of both deletes again", a, d, m, r)
    history.status(a, {2: "dead", 4: "dead"})
    history.status(m, {0: "alive"})

    history = History(rows, "two deletions, of which one goes and then the other", a, d, e)
    history.step("without", d)
    history.status(a, {2: "dead"})
    history.step("without", e)
    history.status(a, {2: "alive"})

    history = History(rows, "a revival", a, d, s)
    history.status(a, {2: "alive", 7: "alive"})
    for first, second in ((e, s), (s, e)):
        history = History(rows, "a revival and another deletion, in either order", a, d, first, second)
        history.status(a, {2: "zombie", 7: "zombie"})
        history.step("without", s)
        history.status(a, {2: "dead", 7: "dead"})
    own = text_of("RA", on, ["revive a.2-8 by a"], version=2)
    history = History(rows, "a revival of what nobody deleted", a, own)
    history.status(a, {2: "alive"})
    rows.ask("surviving", a, 2, [f"revived {short(own)} 0", "end"])

    n = text_of("N", {}, ["file root n.txt", *(insertion("0.1", ups, text=text) for ups, text in (("0.1", "a\n"), ("0.1", "b\n"), ("0.3,0.5", "c\n"), ("0.5", "d\n")))])
    history = History(rows, "a tangle of four lines", n)
    history.vertices(n, (2, 4), (4, 6), (6, 8), (8, 10))

    g = text_of("G", {}, ["dir root d", "file 0.1 f", insertion("0.3", "0.3", text="x\n")])
    h = text_of("H", {"g": g}, ["delete g.0-1 by g", "delete g.2-3 by g", "delete g.4-6 by g"])
    j = text_of("J", {"g": g}, [insertion("g.3", "g.5", text="y\n")])
    for first, second in ((h, j), (j, h)):
        history = History(rows, "a directory and its file are deleted beside one who writes in the file", g, first, second)
        history.status(g, {0: "dead", 1: "alive", 2: "zombie", 3: "alive", 4: "zombie", 5: "zombie"})
        history.status(j, {0: "alive"})

    t, u = (text_of(message, {}, ["file root n"]) for message in "TU")
    history = History(rows, "two files of one name", t, u)
    history.status(t, {0: "alive", 1: "alive"})
    history.status(u, {0: "alive"})

    v = text_of("V", {}, ["dir root p", "dir root q"])
    w = text_of("W", {"v": v}, ["delete v.0-1 by v", "name v.3 v.1 p"])
    into_p = lambda message, **more: text_of(message, {"v": v}, ["delete v.2-3 by v", "name v.1 v.3 q"], **more)
    y, knowing = into_p("Y"), into_p("Y2", knows=[w])
    history = History(rows, "two directories, each moved into the other", v, w, y)
    history.status(v, {0: "zombie", 2: "zombie"})
    history.status(w, {0: "alive"})
    history.status(y, {0: "alive"})
    history = History(rows, "two directories, moved by one who knows of the other", v, w, knowing)
    history.status(v, {0: "dead", 2: "dead"})
    history.status(knowing, {0: "alive"})
    history.step("without", w)
    history.status(v, {0: "alive", 2: "dead"})

    k = text_of("K", {}, ["file root README.md", insertion("0.1", "0.1", text="# Demo\n"), "dir root src", "file 0.10 main.rs", insertion("0.12", "0.12", text="fn main() {}\n")])
    history = History(rows, "two files, one of them in a directory", k)
    history.vertices(k, (2, 9), (13, 26))
    x = text_of("X1", {}, ["file+x root run.sh"], version=2)
    history = History(rows, "an executable file", x)
    history.status(x, {0: "alive"})
    history.vertices(x)


def drawn(rows):
    draw = random.Random(27)
    for number in range(WORLDS):
        world = World(draw, f"tables {number}")
        for history in range(HISTORIES):
            rows.begin(f"drawn tables {history} of world {number}", *world.texts)
            for step, (word, text) in enumerate(world.history()):
                rows.change(word, text)
                other = draw.choice(world.texts)
                rows.whole(other) if step % 4 == 3 else rows.ask("cuts")
                rows.points(world.texts[0], draw.sample(range(18), 2))
                rows.points(other, [draw.randrange(4)])


def comes_and_goes(draw, texts):
    """Steps in an order that is drawn until all changes are there, some of which go and come again, and until all have gone."""
    needs = {text: Change(text).needs for text in texts}
    held, leaving = {}, False
    while held or not leaving:
        comes = [text for text in texts if name_of(text) not in held and all(need in held for need in needs[text])]
        goes = [text for name, text in held.items() if not any(name in needs[other] for other in held.values())]
        leaving = leaving or not comes
        if leaving or goes and draw.random() < 0.15:
            text = draw.choice(goes)
            del held[name_of(text)]
            yield "without", text
        else:
            text = draw.choice(comes)
            held[name_of(text)] = text
            yield "with", text


def long(rows):
    draw = random.Random(30)
    for number in range(LONG):
        world = World(draw, f"long {number}", CHANGES)
        rows.begin(f"a drawn history of {CHANGES} changes, in which all come and all go: {number}", *world.texts)
        for word, text in comes_and_goes(draw, world.texts):
            rows.change(word, text)
            rows.ask("graph", value=["agrees"])
            rows.points(world.texts[0], [draw.randrange(18)])
            rows.ask("vertices", draw.choice(world.texts))
        for word in ("cuts", "rows", "pairs"):
            rows.ask(word, value=["end", "end"] if word == "rows" else ["end"])


def main(words):
    if words != ["lines"]:
        sys.stdout.writelines(line + "\n" for told in answers(sys.stdin.buffer) for line in told)
        return
    rows = Rows()
    worked(rows)
    channels(rows)
    drawn(rows)
    long(rows)
    lines = b"".join(rows.out)
    told = list(answers(io.BytesIO(lines)))
    for number, value in rows.values.items():
        assert told[number] == value, (number, told[number], value)
    sys.stdout.buffer.write(lines)


if __name__ == "__main__":
    main(sys.argv[1:])
