#!/usr/bin/env python3
"""Draws the operations that the program `test_tables` plays.

`table_operations.py SEED COUNT > LINES` writes so many operations, of which a
quarter are on each table, by a fixed sequence of random numbers. Names, points
and hunks are few, so that operations often meet. `crates/test_tables/data/operations`
has those of `table_operations.py 1 10000`, and its `stdout` begins with what
tables.py answers to them.
"""
import hashlib
import random
import sys

CHANGES = 24


def cut(draw):
    change, at = draw.randrange(1, 4), draw.randrange(40)
    word = draw.choice(["block", "unblock", "add", "add", "add", "remove", "remove", "count", "vertex", "vertex", "next"])
    length = f" {draw.choice((0, 1, 2, 3, 8, 20))}" if word == "block" else ""
    return f"c{word} {change} {at}{length}"


def edge(draw):
    word = draw.choice(["with"] * 3 + ["without"] * 3 + ["has"] * 6 + ["out", "into"])
    source = draw.choice(["0 0 0", f"1 {draw.randrange(1, 3)} {draw.randrange(3)}"])
    target = f"{draw.randrange(1, 3)} {draw.randrange(3)}"
    return f"e{word} {source} {target} {draw.randrange(3)} {draw.randrange(1, 4)}"


def need(draw):
    word = draw.choice(["with", "with", "without", "missing", "holders"])
    return f"d{word} {draw.randrange(CHANGES + 1)}"


def version(draw, hunks):
    """`hunks` has the ranges that are there; those of one change have no position in common, as in each change."""
    word = draw.choice(["add", "add", "remove", "surviving", "status"])
    change, number = draw.randrange(3, 9), draw.randrange(6)
    if word == "remove":
        hunks.pop((change, number), None)
        return f"vremove {change} {number}"
    owner, start = draw.randrange(1, 3), draw.randrange(24)
    if word != "add":
        return f"v{word} {owner} {start}"
    end = start + draw.choice((0, 1, 1, 2, 3, 5, 8, 13))
    for (other, _), (_, first, past) in hunks.items():
        if other == change and first < end and start < past:
            return f"vstatus {owner} {start}"
    if start < end:
        hunks.setdefault((change, number), (owner, start, end))
    by = [draw.choice((owner, draw.randrange(1, 12))) for _ in range(draw.choice((1, 1, 1, 2, 3)))]
    names = " ".join(map(str, by))
    return f"vadd {change} {number} {owner} {start} {end} {draw.randrange(2)} {len(by)} {names}"


def texts(draw):
    """The texts of changes, each of which needs some of those before it."""
    names = []
    for number in range(CHANGES):
        needs = sorted(draw.sample(names, min(len(names), draw.randrange(4))))
        needing = "".join(f"needs {need}\n" for need in needs)
        body = f"pijul change 1\nmessage {number}\nauthor ann\ntime 1\n{needing}file root f{number}\nend\n"
        names.append(hashlib.sha256(body.encode()).hexdigest())
        yield f"dtext {len(body)}\n{body}\n"


def lines(seed, count):
    draw = random.Random(seed)
    hunks = {}
    yield from texts(draw)
    for number in range(count - CHANGES):
        kind = number % 4
        line = version(draw, hunks) if kind == 3 else (cut, edge, need)[kind](draw)
        yield line + "\n"


if __name__ == "__main__":
    sys.stdout.writelines(lines(*map(int, sys.argv[1:])))
