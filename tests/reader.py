#!/usr/bin/env python3
"""An independent reader of the text of a change.

It was written from docs/FORMATS.md alone and shares no code with the program.
`reader.py FILE` prints what `pijuld show < FILE` must print; the exit status
is that of the program (0, or 1 where the text is malformed).
"""
import hashlib
import sys

LIMIT = {1: 1_048_576, 2: 16_777_216}
WORDS = {1: {"file", "dir", "name", "insert", "order", "delete"}}
WORDS[2] = WORDS[1] | {"file+x", "name+x", "revive"}


class Malformed(Exception):
    pass


def demand(condition):
    if not condition:
        raise Malformed


def number(text):
    demand(text.isdigit() and text.isascii() and (text == b"0" or text[:1] != b"0"))
    demand(len(text) <= 10 and int(text) < 2**32)
    return int(text)


def rising(items):
    return all(a < b for a, b in zip(items, items[1:]))


class Reader:
    def __init__(self, data):
        self.data = data
        self.at = 0

    def line(self):
        end = self.data.find(b"\n", self.at)
        demand(end >= 0)
        line = self.data[self.at:end]
        self.at = end + 1
        return line

    def titled(self, title):
        line = self.line()
        demand(line.startswith(title + b" "))
        return line[len(title) + 1:]

    def short(self, title):
        text = self.titled(title)
        demand(len(text) <= 1000)
        return text

    def names(self, title, most):
        names = []
        while self.data.startswith(title + b" ", self.at):
            name = self.titled(title)
            demand(len(name) == 64 and all(c in b"0123456789abcdef" for c in name))
            names.append(name)
        demand(len(names) <= most and rising(names))
        return names


def reference(text, needs, first):
    if text == b"root":
        return (-1, 0)
    parts = text.split(b".")
    demand(len(parts) == 2)
    owner, offset = number(parts[0]), number(parts[1])
    demand(owner <= needs and (owner > 0 or offset < first))
    return (owner, offset)


def references(text, needs, first):
    refs = [reference(part, needs, first) for part in text.split(b",")]
    demand(len(refs) <= 64 and rising(refs))
    return refs


def file_name(name):
    demand(1 <= len(name) <= 255 and name not in (b".", b".."))
    demand(not any(c in name for c in (0, 10, 47)))


def deletion(rest, needs):
    parts = rest.split(b" ")
    demand(len(parts) == 3 and parts[1] == b"by")
    owner, dot, span = parts[0].partition(b".")
    start, dash, end = span.partition(b"-")
    demand(dot and dash)
    owner, start, end = number(owner), number(start), number(end)
    demand(1 <= owner <= needs and start < end)
    by = [number(part) for part in parts[2].split(b",")]
    demand(len(by) <= 64 and rising(by) and all(1 <= k <= needs for k in by))
    return owner, start, end


def hunk(reader, version, needs, first, deleted):
    """Reads one hunk; gives its word and how many positions it takes."""
    line = reader.line()
    word, space, rest = line.partition(b" ")
    demand(space and word.decode("latin1") in WORDS[version])
    if word in (b"file", b"file+x", b"dir"):
        ref, space, name = rest.partition(b" ")
        demand(space)
        reference(ref, needs, first)
        file_name(name)
        return word, 2
    if word in (b"name", b"name+x"):
        parent, space, rest = rest.partition(b" ")
        child, second, name = rest.partition(b" ")
        demand(space and second)
        reference(parent, needs, first)
        reference(child, needs, first)
        file_name(name)
        return word, 1
    if word == b"insert":
        parts = rest.split(b" ")
        demand(len(parts) == 6 and parts[1] == b"after" and parts[3] == b"before")
        reference(parts[0], needs, first)
        references(parts[2], needs, first)
        if parts[4] != b"-":
            references(parts[4], needs, first)
        length = number(parts[5])
        demand(length >= 1)
        demand(reader.data[reader.at + length:reader.at + length + 1] == b"\n")
        reader.at += length + 1
        return word, length
    if word == b"order":
        parts = rest.split(b" ")
        demand(len(parts) == 3)
        for part in parts:
            reference(part, needs, first)
        return word, 0
    owner, start, end = deletion(rest, needs)
    demand(all(o != owner or end <= s or e <= start for o, s, e in deleted))
    deleted.append((owner, start, end))
    return word, 0


def show(data):
    reader = Reader(data)
    first_line = reader.line()
    demand(first_line in (b"pijul change 1", b"pijul change 2"))
    version = int(first_line[-1:])
    demand(len(data) <= LIMIT[version])
    reader.short(b"message")
    reader.short(b"author")
    number(reader.titled(b"time"))
    needs = reader.names(b"needs", 256)
    knows = reader.names(b"knows", 1024)
    demand(not set(needs) & set(knows))
    lines = ["change " + hashlib.sha256(data).hexdigest()]
    place, deleted = 0, []
    while not data.startswith(b"end\n", reader.at):
        demand(len(lines) <= 4096)
        word, count = hunk(reader, version, len(needs), place, deleted)
        lines.append(f"{len(lines) - 1} {word.decode()} {place}-{place + count}")
        place += count
    demand(reader.at + 4 == len(data))
    return "".join(line + "\n" for line in lines)


def answer(data):
    try:
        return show(data), 0
    except Malformed:
        return "malformed\n", 1


if __name__ == "__main__":
    with open(sys.argv[1], "rb") as file:
        text, status = answer(file.read())
    sys.stdout.write(text)
    sys.exit(status)
