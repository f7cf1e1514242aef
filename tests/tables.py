#!/usr/bin/env python3
"""An independent table of cuts, rows of edges, needs and versions, by plain lists.

`tables.py < LINES` prints what the program `test_tables` must print for
`operations`. It was written from docs/MODEL.md and the heads of the modules
that play them, and shares no code with it: each list is searched from its first
item to its last.
"""
import hashlib
import sys


def take(numbers, count):
    taken, numbers[:count] = numbers[:count], []
    return taken


class Cuts:
    def __init__(self):
        self.cuts = []    # a point for each cut
        self.blocks = []  # change, start, end

    def block(self, change, at):
        for block in self.blocks:
            if block[0] == change and block[1] <= at < block[2]:
                return block
        return None

    def begins(self, change, at):
        """A vertex begins there."""
        block = self.block(change, at)
        return block is not None and (block[1] == at or (change, at) in self.cuts)

    def vertex(self, change, at):
        block = self.block(change, at)
        if block is None:
            return "none"
        start, end = at, at + 1
        while not self.begins(change, start):
            start -= 1
        while end < block[2] and not self.begins(change, end):
            end += 1
        return f"range {start} {end}"

    def answer(self, word, numbers):
        change, at = take(numbers, 2)
        if word == "block":
            length = numbers[0]
            fits = 0 < length <= 64 and at <= 1_000_000
            if not fits or any(self.block(change, other) for other in range(at, at + length)):
                return ["no"]
            self.blocks.append((change, at, at + length))
            return ["ok"]
        if word == "unblock":
            block = self.block(change, at)
            if block is None or block[1] != at:
                return ["no"]
            self.blocks.remove(block)
            return ["ok"]
        if word == "add":
            self.cuts.append((change, at))
            return ["ok"]
        if word == "remove":
            if (change, at) not in self.cuts:
                return ["no"]
            self.cuts.remove((change, at))
            return ["ok"]
        if word == "count":
            return [f"count {self.cuts.count((change, at))}"]
        if word == "vertex":
            return [self.vertex(change, at)]
        starts = [other for block in self.blocks if block[0] == change for other in range(block[1], block[2])
                  if other >= at and self.begins(change, other)]
        return [self.vertex(change, min(starts)) if starts else "none"]


class Edges:
    def __init__(self):
        self.rows = []  # source, target, label, introducer

    @staticmethod
    def line(row):
        source, target, label, introducer = row
        return " ".join(str(part) for part in ("row", *source, *target, label, introducer))

    def answer(self, word, numbers):
        kind, change, at = take(numbers, 3)
        source = () if kind == 0 else (change, at)  # the root is before each point
        target = tuple(take(numbers, 2))
        row = (source, target, *numbers)
        if word == "with":
            if row not in self.rows:
                self.rows.append(row)
            return ["ok"]
        if word == "without":
            if row in self.rows:
                self.rows.remove(row)
            return ["ok"]
        if word == "has":
            return ["yes" if row in self.rows else "no"]
        if word == "out":
            found = sorted(other for other in self.rows if other[0] == source)
            later = [other for other in found if other > row]
        else:
            found = sorted((other for other in self.rows if other[1] == target), key=lambda r: (r[1], r[0], r[2:]))
            later = [other for other in found if (other[0], other[2:]) > (row[0], row[2:])]
        return [*map(self.line, found), "end", *map(self.line, later), "end"]


class Needs:
    def __init__(self):
        self.changes = []  # name, needs
        self.held = []

    def text(self, body):
        needs = []
        for line in body.decode().split("\n"):
            if line.startswith("needs "):
                needs.append(line.split(" ")[1])
        self.changes.append((hashlib.sha256(body).hexdigest(), needs))
        return ["ok"]

    def answer(self, word, numbers):
        if numbers[0] >= len(self.changes):
            return ["no"]
        change = self.changes[numbers[0]]
        if word == "with":
            if change not in self.held:
                self.held.append(change)
            return ["ok"]
        if word == "without":
            if change in self.held:
                self.held.remove(change)
            return ["ok"]
        if word == "missing":
            names = [name for name, _ in self.held]
            missing = sorted(need for need in change[1] if need not in names)
            return [missing[0][:8] if missing else "none"]
        holders = sorted(name for name, needs in self.held if change[0] in needs)
        first = holders[0][:8] if holders else "none"
        return [*(name[:8] for name in holders), "end", first]


class Versions:
    def __init__(self):
        self.hunks = []  # change, number, owner, start, end, alive, by

    def covering(self, change, at):
        return [hunk for hunk in self.hunks if hunk[2] == change and hunk[3] <= at < hunk[4]]

    def answer(self, word, numbers):
        change, number = take(numbers, 2)
        there = [hunk for hunk in self.hunks if hunk[:2] == (change, number)]
        if word == "add":
            owner, start, end, alive, _ = take(numbers, 5)
            if there or start >= end:
                return ["no"]
            self.hunks.append((change, number, owner, start, end, alive, tuple(numbers)))
            return ["ok"]
        if word == "remove":
            for hunk in there:
                self.hunks.remove(hunk)
            return ["ok"]
        covering = self.covering(change, number)
        named = [name for hunk in covering for name in hunk[6]]
        left = sorted(hunk for hunk in covering if hunk[0] not in named)
        owner = change not in named
        if word == "surviving":
            words = {1: "revived", 0: "deleted"}
            return [*(["owner"] if owner else []), *(f"{words[h[5]]} {h[0]} {h[1]}" for h in left), "end"]
        revived = any(hunk[5] for hunk in left)
        deleted = any(not hunk[5] for hunk in left)
        contested = any(not hunk[5] and hunk[1] % 2 for hunk in left)
        if not deleted:
            status = "alive"
        elif owner or revived or contested:
            status = "zombie"
        else:
            status = "dead"
        kinds = [("owner", owner), ("revived", revived), ("deleted", deleted), ("contested", contested)]
        return [" ".join([*(kind for kind, there in kinds if there), status])]


def answers(stream):
    tables = {"c": Cuts(), "e": Edges(), "d": Needs(), "v": Versions()}
    while line := stream.readline():
        words = line.decode().split()
        numbers = [int(number) for number in words[1:]]
        if words[0] == "dtext":
            yield from tables["d"].text(stream.read(numbers[0]))
            stream.readline()
        else:
            yield from tables[words[0][0]].answer(words[0][1:], numbers)


if __name__ == "__main__":
    sys.stdout.writelines(line + "\n" for line in answers(sys.stdin.buffer))
