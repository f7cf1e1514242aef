#!/usr/bin/env python3
"""An independent table of contests, by the definition alone.

    python3 tests/contests.py lines >crates/test_tables/data/contests
    python3 tests/contests.py <crates/test_tables/data/contests

The first writes the lines that the program `test_tables` plays as `contests`: worked histories, a large run, and histories that a fixed sequence
of random numbers draws. The second answers such lines. It was written from docs/MODEL.md, docs/FORMATS.md and the head of that
program, and shares no code with it: after each step each hunk of each change that is held is asked of each other change.
"""
import hashlib
import random
import re
import sys

from large_run import change_zero, changes_of
from reader import answer

LARGE = (7, 200)  # the number and the changes of the large run
WORLDS, HISTORIES = 36, 8  # sets of changes that are drawn, and histories of each


# ---- what a change says


class Change:
    def __init__(self, text):
        self.name = hashlib.sha256(text).hexdigest()
        self.needs, self.knows = [], []
        self.hunks = []  # its word, its first position, and the rest of its line
        at = first = 0
        while True:
            end = text.index(b"\n", at)
            word, _, rest = text[at:end].decode("latin1").partition(" ")
            at = end + 1
            if word == "needs":
                self.needs.append(rest)
            elif word == "knows":
                self.knows.append(rest)
            elif word == "end":
                return
            elif word not in ("pijul", "message", "author", "time"):
                parts = rest.split(" ")
                self.hunks.append((word, first, parts))
                if word in ("file", "file+x", "dir"):
                    first += 2
                elif word in ("name", "name+x"):
                    first += 1
                elif word == "insert":
                    first += int(parts[5])
                    at += int(parts[5]) + 1

    def owner(self, number):
        return self.name if number == 0 else self.needs[number - 1]

    def place(self, reference):
        """The change and the position that a reference names, or `root`."""
        if reference == "root":
            return "root"
        owner, offset = reference.split(".")
        return self.owner(int(owner)), int(offset)

    def deleted(self, offset):
        """What a deletion deletes that begins at this position: `text`, or the child of a name."""
        for word, first, parts in self.hunks:
            if word in ("file", "file+x", "dir") and offset == first:
                return self.name, first + 1
            if word in ("name", "name+x") and offset == first:
                return self.place(parts[1])
            if word == "insert" and first <= offset < first + int(parts[5]):
                return "text"
        return None

    def lists(self, name):
        return name in self.needs or name in self.knows

    def inserts_after(self, owner, start, end):
        ups = [self.place(up) for word, _, parts in self.hunks if word == "insert" for up in parts[2].split(",")]
        return any(up != "root" and up[0] == owner and start <= up[1] < end for up in ups)

    def builds_on(self, child):
        return any(self.place(parts[0]) == child for word, _, parts in self.hunks if word not in ("delete", "revive"))


def is_contested_by(held, deleter, parts, other):
    """Another change contests a deletion, which `parts` says, in a set of changes by name."""
    number, _, span = parts[0].partition(".")
    start, end = map(int, span.split("-"))
    owner = held.get(deleter.owner(int(number)))
    if owner is None or other.name == deleter.name or other.lists(deleter.name) or deleter.lists(other.name):
        return False
    deleted = owner.deleted(start)
    if deleted == "text":
        return other.inserts_after(owner.name, start, end)
    return deleted is not None and other.builds_on(deleted)


def counts(held):
    """How many changes contest each contested hunk."""
    found = {}
    for change in held.values():
        for number, (word, _, parts) in enumerate(change.hunks):
            if word == "delete":
                count = sum(is_contested_by(held, change, parts, other) for other in held.values())
                if count:
                    found[change.name, number] = count
    return found


# ---- the answers


class Table:
    def __init__(self):
        self.changes, self.held = [], {}

    def text(self, text):
        if answer(text)[1]:
            return "no"
        self.changes.append(Change(text))
        return "ok"

    def is_needed(self, change):
        return any(change.name in other.needs for other in self.held.values())

    def answer(self, word, numbers):
        if word == "counts":
            told = sorted(counts(self.held).items())
            return "".join(f"{name[:8]}.{hunk}x{count} " for (name, hunk), count in told) + "end"
        if numbers[0] >= len(self.changes):
            return "no"
        change = self.changes[numbers[0]]
        if word == "contested":
            return "yes" if change.name in self.held and (change.name, numbers[1]) in counts(self.held) else "no"
        if self.is_needed(change) or (change.name in self.held) != (word == "without"):
            return "no"
        if word == "with":
            self.held[change.name] = change
        elif word == "without":
            del self.held[change.name]
        return "ok"


def answers(stream):
    table = Table()
    while line := stream.readline():
        word, _, rest = line.decode().rstrip("\n").partition(" ")
        if word == "row":
            table.held = {}
            yield f"row {rest}"
        elif word == "text":
            yield table.text(stream.read(int(rest)))
            stream.readline()
        else:
            yield table.answer(word, [int(number) for number in rest.split()])


# ---- the lines


def name_of(text):
    return hashlib.sha256(text).hexdigest()


def text_of(message, needs, hunks, knows=(), version=1):
    """The text of a change. `needs` has a letter for the text of each need, which stands in the hunks for its number."""
    names = sorted(name_of(text) for text in needs.values())
    numbers = {letter: names.index(name_of(text)) + 1 for letter, text in needs.items()}

    def rising(references):
        if references == "-":
            return references
        order = lambda reference: (reference != "root", *map(int, reference.removeprefix("root").split(".") if reference != "root" else ()))
        return ",".join(sorted(references.split(","), key=order))

    def spelled(hunk):
        line, newline, content = hunk.partition("\n")
        line = re.sub(r"\b([a-z])\.(?=\d)", lambda m: f"{numbers[m[1]]}.", line)
        line = re.sub(r"(?<= by )[a-z,]+$", lambda m: ",".join(map(str, sorted(numbers[letter] for letter in m[0].split(",")))), line)
        if line.startswith("insert "):
            parts = line.split(" ")
            parts[3], parts[5] = rising(parts[3]), rising(parts[5])
            line = " ".join(parts)
        return line + newline + content

    lines = [f"pijul change {version}", f"message {message}", "author ann", "time 1"]
    lines += [f"needs {name}" for name in names]
    lines += [f"knows {name}" for name in sorted({name_of(text) for text in knows} - set(names))]
    return "".join(line + "\n" for line in [*lines, *map(spelled, hunks), "end"]).encode()


def insertion(file, ups, downs="-", text="x"):
    return f"insert {file} after {ups} before {downs} {len(text)}\n{text}"


class Lines:
    """Lines, with the texts of the changes that were told of."""

    def __init__(self):
        self.numbers = {}
        self.out = []

    def line(self, line):
        self.out.append(line.encode() + b"\n")

    def number(self, text):
        """The number of the change with this text, which is told of if it is new."""
        if text not in self.numbers:
            self.numbers[text] = len(self.numbers)
            self.out += [b"text %d\n" % len(text), text, b"\n"]
        return self.numbers[text]

    def step(self, word, text):
        self.line(f"{word} {self.number(text)}")
        self.line("counts")

    def row(self, title, comes, goes=()):
        """A history in which these changes come, and then those go."""
        for text in comes:
            self.number(text)
        self.line(f"row {title}")
        for text in comes:
            self.step("with", text)
        for text in goes:
            self.step("without", text)


def worked(lines):
    a = text_of("A", {}, ["file root a.txt", insertion("0.1", "0.1", text="one\ntw")])
    d, e = (text_of(message, {"a": a}, ["delete a.2-8 by a"]) for message in "DE")
    m = text_of("M", {"a": a}, [insertion("a.1", "a.3", "a.4", "X")])
    r = text_of("R", {"a": a, "d": d}, ["delete a.2-8 by d"], knows=[m])
    lines.row("a deletion, then one who inserts in its range, then one who knows of both", [a, d, m, r], [r, m, d, a])
    lines.row("the deletion comes last", [a, m, e, d, r], [m, e, r])
    lines.row("what is not told of, or comes twice, or is needed", [d, a, d, m], [m, a, a, d, m])
    for line in ("with 1000", "without 1000", "try 1000"):
        lines.line(line)
    lines.row("a change that is tried is not held", [a, d])
    for line in (f"try {lines.number(m)}", "counts", f"contested {lines.number(d)} 0", f"try {lines.number(d)}", f"try {lines.number(a)}"):
        lines.line(line)
    lines.step("with", m)
    for line in (f"contested {lines.number(d)} 0", f"contested {lines.number(d)} 1", f"contested {lines.number(m)} 0"):
        lines.line(line)

    # positions: 0 and 1 a directory, 2 and 3 a file, 4 to 11 its text, 12 and 13 a file of the directory
    p = text_of("P", {}, ["dir root d", "file root f", insertion("0.3", "0.3", text="abcdefgh"), "file 0.1 g"])
    on = {"p": p}
    some = lambda message, *hunks, **more: text_of(message, on, hunks, **more)
    names = some("names", "delete p.0-1 by p", "delete p.2-3 by p", "delete p.12-13 by p")
    builders = [
        some("a file", "file p.1 x"),
        some("a directory", "dir p.1 x"),
        some("a name", "name p.1 p.3 x"),
        some("an insertion", insertion("p.3", "p.4")),
        some("an order", "order p.3 p.4 p.6"),
    ]
    others = [some("another name", "name root p.3 x"), some("a deletion", "delete p.4-6 by p"), some("the other file", insertion("p.13", "p.13"))]
    lines.row("a name is contested by what builds on its child", [p, names, *builders, *others], [*others, *builders])
    lines.row("the names go last", [p, *builders, *others, names], [names])
    q = some("Q", "name root p.3 q", "name+x root p.13 r", version=2)
    second = text_of("second names", {"p": p, "q": q}, ["delete q.0-1 by q", "delete q.1-2 by q"])
    lines.row("a name that `name` makes", [p, q, second, *builders, *others], [builders[3], others[2]])
    own = text_of("a name of an own child", on, ["file root n", "name p.1 0.1 m"])
    lines.row("a name of a child that its own change makes", [p, own, text_of("deletes both", {"p": p, "o": own}, ["delete o.0-1 by o", "delete o.2-3 by o"]),
              text_of("inserts", {"o": own}, [insertion("o.1", "o.1")]), text_of("inserts more", {"p": p, "o": own}, [insertion("o.1", "o.1", text="y")])])

    gone = some("gone", "delete p.4-8 by p")
    knows = some("knows of it", insertion("p.3", "p.5"), knows=[gone])
    needs = text_of("needs it", {"p": p, "g": gone}, [insertion("p.3", "p.5")])
    far = text_of("needs what knows of it", {"p": p, "k": knows}, [insertion("p.3", "p.5")])
    stranger = some("a stranger", insertion("p.3", "p.5"))
    knowing = some("a deletion that knows of a stranger", "delete p.4-8 by p", knows=[stranger])
    needing = text_of("a deletion that needs a stranger", {"p": p, "s": stranger}, ["delete p.4-8 by p"])
    lines.row("who knows of whom", [p, gone, knows, needs, far, stranger, knowing, needing], [needing, knowing, far, knows])

    back = text_of("back", {"p": p, "g": gone}, ["revive p.4-8 by g"], version=2)
    again = text_of("gone again", {"p": p, "b": back}, ["delete p.4-8 by b"])
    lines.row("a revival over a contested range", [p, gone, stranger, back, again], [stranger])
    lines.row("a revival comes first", [p, gone, back, again, stranger, knows], [again, back])

    parts = some("parts", "delete p.4-8 by p", "delete p.8-10 by p", "delete p.10-12 by p")
    ups = [
        some("two ups", insertion("p.3", "p.5,p.6")),
        some("two insertions", insertion("p.3", "p.5"), insertion("p.3", "p.7", text="y"), insertion("p.3", "p.9", text="z")),
        some("behind the last", insertion("p.3", "p.7")),
        some("behind the end", insertion("p.3", "p.8")),
        some("behind the first", insertion("p.3", "p.4")),
        some("behind the inode", insertion("p.3", "p.3", "p.4")),
        some("before bytes", insertion("p.3", "p.3", "p.5,p.6")),
        some("deletes and inserts", "delete p.5-7 by p", insertion("p.3", "p.5")),
        some("inserts and deletes", insertion("p.3", "p.6"), "delete p.4-12 by p"),
    ]
    lines.row("ups in ranges and at their ends", [p, parts, *ups], ups)
    lines.row("ups before the ranges", [p, *ups, parts], [parts])

    long = text_of("long", {}, ["file root l", insertion("0.1", "0.1", text="0123456789" * 9)])
    spans = [(2, 92), (3, 4), (3, 5), (4, 40), (5, 37), (17, 50), (18, 20), (33, 34), (33, 66), (34, 92), (50, 51), (51, 80), (79, 92), (2, 3)]
    ranges = [text_of(f"from {start} to {end}", {"l": long}, [f"delete l.{start}-{end} by l"]) for start, end in spans]
    many = text_of("many ups", {"l": long}, [insertion("l.1", ",".join(f"l.{at}" for at in range(2, 66)))])
    few = text_of("few ups", {"l": long}, [insertion("l.1", f"l.{at}", text=str(at)) for at in (3, 4, 33, 50, 91)])
    lines.row("ranges of all lengths, and many ups", [long, *ranges, many, few], [few, many])
    lines.row("many ups first", [long, few, many, *ranges], ranges[::2])


def large(lines):
    number, count = LARGE
    zero, changes = change_zero(), changes_of(number, count)
    lines.row(f"the large run {number} {count}", [zero, *(change.text for change in changes)])
    needed = {change.hunk.up[0] for change in changes if getattr(change.hunk, "up", None)}
    for change in reversed(changes):
        if change.number % 3 == 0 and change.name not in needed:
            lines.step("without", change.text)
    for channel in range(8):
        lines.row(f"channel l{channel} of it", [zero])
        for change in changes:
            if change.line == channel:
                lines.step("with", change.text)
                if change.number % 15 == 0:
                    lines.step("without", change.text)
                    lines.step("with", change.text)


class World:
    """Changes that are drawn, each of which may follow those before it that it needs."""

    def __init__(self, draw, message, changes=None):
        self.draw = draw
        first = text_of(message, {}, ["dir root d", "file root f", insertion("0.3", "0.3", text="abcdefgh"), "file 0.1 g", insertion("0.13", "0.13", text="ijkl")])
        self.texts = [first]
        # by file, the change of each byte or the inode, and its position; names and directories likewise; ranges that are deleted or revived
        self.files = {(first, 3): [(first, at) for at in range(3, 12)], (first, 13): [(first, at) for at in range(13, 18)]}
        self.blocks = [(first, 4, 12), (first, 14, 18)]
        self.names = [(first, 0), (first, 2), (first, 12)]
        self.parents = [(first, 1)]
        self.ranges = []
        for number in range(changes - 1 if changes else draw.randrange(8, 13)):
            self.change(f"{message} {number}")

    def change(self, message):
        """One more change, of one to three hunks."""
        draw, self.needs, self.version = self.draw, {}, 1
        hunks, ranges, made, later = [], [], 0, []
        for _ in range(draw.choice((1, 1, 1, 2, 3))):
            kind = draw.choice("iiiidddddnnfo")
            if kind == "i":
                text = "xyz"[: draw.randrange(1, 4)]
                file, ups, downs = self.between()
                hunks.append(insertion(file, ups, downs, text))
                later.append((self.at, made, made + len(text)))
                made += len(text)
            elif kind == "d":
                hunk = self.range(ranges)
                hunks += [hunk] if hunk else []
            elif kind == "o":
                file = draw.choice(sorted(self.files))
                if len(self.files[file]) > 2:
                    source, target = draw.sample(self.files[file][1:], 2)
                    hunks.append(f"order {self.reference(file)} {self.reference(source)} {self.reference(target)}")
            else:
                parent = self.reference(draw.choice(self.parents)) if draw.random() < 0.7 else "root"
                if kind == "n":
                    child = draw.choice([*self.parents, *sorted(self.files)])
                    hunks.append(f"name {parent} {self.reference(child)} n")
                    later.append(("name", made, made + 1))
                    made += 1
                else:
                    hunks.append(f"{draw.choice(('file', 'dir'))} {parent} n")
                    later.append((hunks[-1].split(" ")[0], made, made + 2))
                    made += 2
        knows = [text for text in self.texts if draw.random() < 0.2]
        text = text_of(message, self.needs, hunks, knows, self.version)
        self.texts.append(text)
        self.ranges += [(text, *found) for found in ranges]
        for what, start, end in later:
            if what in ("name", "file", "dir"):
                self.names.append((text, start))
            if what == "file":
                self.files[text, start + 1] = [(text, start + 1)]
            elif what == "dir":
                self.parents.append((text, start + 1))
            elif what != "name":
                self.files[what] += [(text, at) for at in range(start, end)]
                self.blocks.append((text, start, end))

    def letter(self, text):
        for letter, other in self.needs.items():
            if other == text:
                return letter
        letter = "abcdefghijklmnopqrstuvwxyz"[len(self.needs)]
        self.needs[letter] = text
        return letter

    def reference(self, point):
        return f"{self.letter(point[0])}.{point[1]}"

    def between(self):
        """A file, and what an insertion stands behind and before."""
        self.at = self.draw.choice(sorted(self.files))
        points = self.files[self.at]
        ups = self.draw.sample(points, min(len(points), self.draw.choice((1, 1, 1, 2))))
        downs = self.draw.sample(points[1:], min(len(points) - 1, self.draw.choice((0, 0, 1, 2))))
        return self.reference(self.at), ",".join(map(self.reference, ups)), ",".join(map(self.reference, downs)) or "-"

    def range(self, ranges):
        """A deletion or a revival of a range that has no position of the other ranges of the change."""
        draw = self.draw
        kind = draw.randrange(3)
        if kind == 0 and self.ranges:
            text, owner, start, end = draw.choice(self.ranges)
            by, word = text, draw.choice(("delete", "revive"))
        elif kind == 1:
            owner, start = draw.choice(self.names)
            end, by, word = start + 1, owner, "delete"
        else:
            owner, first, past = draw.choice(self.blocks)
            start = draw.randrange(first, past)
            end, by, word = draw.randrange(start + 1, past + 1), owner, "delete"
        if any(owner == other and start < past and first < end for other, first, past in ranges):
            return None
        if word == "revive":
            self.version = 2
        ranges.append((owner, start, end))
        return f"{word} {self.letter(owner)}.{start}-{end} by {self.letter(by)}"

    def history(self):
        """Each step of a history: a change that may come, or one that may go."""
        changes = {name_of(text): Change(text) for text in self.texts}
        held = {}
        for _ in range(len(self.texts) + 6):
            needed = {need for name in held for need in changes[name].needs}
            comes = [name for name in changes if name not in held and all(need in held for need in changes[name].needs)]
            goes = [name for name in held if name not in needed]
            if comes and (not goes or self.draw.random() < 0.75):
                name = self.draw.choice(comes)
                held[name] = changes[name]
                yield "with", self.texts[list(changes).index(name)]
            else:
                name = self.draw.choice(goes)
                del held[name]
                yield "without", self.texts[list(changes).index(name)]


def drawn(lines):
    draw = random.Random(28)
    for number in range(WORLDS):
        world = World(draw, f"world {number}")
        for history in range(HISTORIES):
            lines.row(f"drawn history {history} of world {number}", [])
            for word, text in world.history():
                lines.step(word, text)


def main(words):
    if words == ["lines"]:
        lines = Lines()
        worked(lines)
        large(lines)
        drawn(lines)
        sys.stdout.buffer.write(b"".join(lines.out))
    else:
        sys.stdout.writelines(line + "\n" for line in answers(sys.stdin.buffer))


if __name__ == "__main__":
    main(sys.argv[1:])
