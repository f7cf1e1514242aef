#!/usr/bin/env python3
"""Asks the dearest requests that the formats allow, and measures each: its seconds, and the most memory of the program.

    dearest.py PROGRAM [--write] [WORD ..]

Each is asked of a session of `PROGRAM one` of its own, behind requests that make it dear and are not measured; the memory is
that of both. Each reply has to be the right one, which is worked out from docs/FORMATS.md alone. `--write` puts the table
into docs/SECURITY.md. With words it asks only what has them in its title. All together takes some minutes. The status is 1
where a reply is wrong, or where one takes more than SECONDS or MEMORY.
"""
from __future__ import annotations

import os
import subprocess
import sys
import threading
import time
from typing import Callable, Iterator, List, NamedTuple, Tuple

from forks import name_of, put, text

SECONDS, MEMORY = 30, 4 << 30
DOCUMENT = os.path.join(os.path.dirname(os.path.abspath(__file__)), "..", "docs", "SECURITY.md")
BEGIN, END = "<!-- dearest: written by tests/dearest.py -->\n", "<!-- end of dearest -->\n"
HUNKS, NEEDS, LIST, LIVE, CHANGES = 4_096, 256, 64, 16_384, 65_536  # limits of the formats and of the program
LISTED, PULLED, AROUND = 4_096, 256, (1_024, 2_048)  # what takes more memory the more there is, with no limit of its own


class Dear(NamedTuple):
    """A request behind others, and what its reply has to be behind `ok` or `no` and the place."""

    title: str
    before: Callable[[], Iterator[bytes]]
    request: Callable[[], bytes]
    is_right: Callable[[bytes], bool]


def applied(changes: List[bytes]) -> Iterator[bytes]:
    for change in changes:
        yield put(change)
        yield named(b"apply main", change)


def named(words: bytes, change: bytes) -> bytes:
    return b"%s %s\n" % (words, name_of(change).encode())


# ---- prints of as many live vertices as may be


def cycle() -> List[bytes]:
    """A file whose bytes are each before the next one, and the last before the first."""
    first = text([], [b"file root a", b"insert 0.1 after 0.1 before - %d" % LIVE, b"x" * LIVE])
    orders = [b"order 1.1 1.%d 1.%d" % (2 + at, 2 + (at + 1) % LIVE) for at in range(LIVE)]
    return [first] + [text([name_of(first)], orders[at:at + HUNKS]) for at in range(0, LIVE, HUNKS)]


def antichain() -> List[bytes]:
    """A file of insertions of which none is before another."""
    first = text([], [b"file root a", *[b"insert 0.1 after 0.1 before - 1\nx"] * (HUNKS - 1)])
    more = [text([name_of(first)], [b"insert 1.1 after 1.1 before - 1\n" + letter] * HUNKS) for letter in (b"y", b"z", b"w")]
    last = text([name_of(first)], [b"insert 1.1 after 1.1 before - 1\nv"])
    return [first, *more, last]


def between(head: bytes, members: List[bytes]) -> bytes:
    """A file of a marker with these members."""
    body = b">>>>>>> 1%s\n" % head + b"\n======= 1\n".join(members) + b"\n<<<<<<< 1\n"
    return b"file alive %d a\n%s\n" % (len(body), body)


def sides() -> bytes:
    """The members come by their first points, so by the names of their changes."""
    changes = antichain()
    first, *others = sorted(changes, key=name_of)
    counts = {change: change.count(b"insert") for change in changes}
    letters = {change: change[-len(b"x\nend\n"):][:1] for change in changes}
    return between(b"", [letters[change] for change in (first, *others) for _ in range(counts[change])])


# ---- long texts


def wide_lists(breaks: bool) -> List[bytes]:
    """A change of as many hunks as may be, each with two lists as long as may be, on which the last hunk has no context.

    The lists name the last hunks of a change that has as many hunks as may be.
    """
    size = HUNKS - 1
    first = text([], [b"file root a", *[b"insert 0.1 after 0.1 before - 1\nx"] * size])
    ups = b",".join(b"1.%d" % (2 + at) for at in range(size - 2 * LIST, size - LIST))
    downs = b",".join(b"1.%d" % (2 + at) for at in range(size - LIST, size))
    hunk = b"insert 1.1 after %s before %s 1\ny" % (ups, downs)
    last = b"insert 1.1 after 1.%d before - 1\ny" % (2 + size) if breaks else hunk
    return [first, version_2(text([name_of(first)], [*[hunk] * (HUNKS - 1), last]))]


def version_2(change: bytes) -> bytes:
    return change.replace(b"pijul change 1", b"pijul change 2", 1)


def every_need() -> List[bytes]:
    """A change with as many needs as may be; its hunks name as many of them as the lists of a hunk may have, all in turn."""
    first = text([], [b"file root a", b"insert 0.1 after 0.1 before - 1", b"x"])
    needs = [text([name_of(first)], [b"insert 1.1 after 1.1 before - 3\n%03d" % number]) for number in range(NEEDS - 1)]
    listed = sorted(name_of(change) for change in [first, *needs])
    at = listed.index(name_of(first)) + 1
    numbers = [number for number in range(1, NEEDS + 1) if number != at]
    hunks = []
    for hunk in range(HUNKS):
        begin = hunk * 7 % (len(numbers) - 2 * LIST)
        ups = b",".join(b"%d.0" % number for number in numbers[begin:begin + LIST])
        downs = b",".join(b"%d.0" % number for number in numbers[begin + LIST:begin + 2 * LIST])
        hunks.append(b"insert %d.1 after %s before %s 1\ny" % (at, ups, downs))
    return [first, *needs, version_2(text(listed, hunks))]


# ---- long lists


def files(count: int) -> List[bytes]:
    """Changes that each make a file of one byte."""
    return [text([], [b"file root f%d" % number, b"insert 0.1 after 0.1 before - 1\nx"]) for number in range(count)]


def deleted_name(count: int) -> List[bytes]:
    """A change with a file, and so many that each delete its name."""
    first = text([], [b"file root a"])
    deletion = text([name_of(first)], [b"delete 1.0-1 by 1"])
    return [first] + [deletion.replace(b"message forks", b"message %d" % number, 1) for number in range(count)]


def name_deleted() -> Iterator[bytes]:
    return applied(deleted_name(CHANGES - 1))


def pulled(changes: int, channels: int) -> Iterator[bytes]:
    """So many changes on `main`, which all of so many channels but the last have pulled."""
    yield from applied(files(changes))
    for number in range(channels):
        yield b"new c%d\n" % number
    for number in range(channels - 1):
        yield b"pull c%d main\n" % number


def across(count: int) -> List[bytes]:
    """A byte behind so many insertions and before as many, of which none is before another; and the deletion of that byte.

    The deletion needs all the others, so none contests it. Each pair of live text around the byte is an edge then.
    """
    first = text([], [b"file root a", b"insert 0.1 after 0.1 before - 1\nx"])
    hunks = [b"insert 1.1 after 1.1 before 1.2 1\ny"] * count + [b"insert 1.1 after 1.2 before - 1\nz"] * count
    changes = [first] + [text([name_of(first)], hunks[at:at + HUNKS]) for at in range(0, len(hunks), HUNKS)]
    needs = sorted(map(name_of, changes))
    at = needs.index(name_of(first)) + 1
    return [*changes, text(needs, [b"delete %d.2-3 by %d" % (at, at)])]


def before_last(changes: List[bytes]) -> Iterator[bytes]:
    """All are applied but the last, which is stored."""
    yield from applied(changes[:-1])
    yield put(changes[-1])


def body(wanted: Callable[[], bytes]) -> Callable[[bytes], bool]:
    """Whether a reply has this body."""
    return lambda reply: reply.partition(b"\n")[2] == wanted() + b"\n"


def lines(count: int) -> Callable[[bytes], bool]:
    """Whether a reply has a body of so many lines."""
    return lambda reply: reply.startswith(b"ok ") and reply.count(b"\n") == count + 2


def line(end: bytes) -> Callable[[bytes], bool]:
    """Whether a reply is a line that ends so."""
    return lambda reply: reply.endswith(end) and reply.count(b"\n") == 1


def accepted(reply: bytes) -> bool:
    return reply.startswith(b"ok ") and len(reply.split()) == 2


def all_cases() -> Iterator[Dear]:
    yield Dear("`print` of 16,384 live vertices in one cycle", lambda: applied(cycle()), lambda: b"print main\n",
               body(lambda: between(b" cycle", [b"x"] * LIVE)))
    yield Dear("`print` of 16,384 live vertices of which none is before another", lambda: applied(antichain()),
               lambda: b"print main\n", body(sides))
    for breaks, end in ((True, b" context %d\n" % (HUNKS - 1)), (False, b"")):
        yield Dear("`apply` of 4,096 hunks with 128 references each" + (", of which the last has no context" if breaks else ""),
                   lambda b=breaks: before_last(wide_lists(b)),
                   lambda b=breaks: named(b"apply main", wide_lists(b)[1]), line(end) if breaks else accepted)
    yield Dear("`apply` of 4,096 hunks that each name 128 of 256 needs",
               lambda: before_last(every_need()),
               lambda: named(b"apply main", every_need()[-1]), accepted)
    yield Dear("`print` of it", lambda: applied(every_need()), lambda: b"print main\n",
               lambda reply: reply.startswith(b"ok ") and reply.count(b"y") == HUNKS)
    yield Dear("`unrecord` of it", lambda: applied(every_need()), lambda: named(b"unrecord main", every_need()[-1]), accepted)
    yield Dear("`graph` of 65,536 changes", lambda: applied(files(CHANGES)), lambda: b"graph main\n", lines(6 * CHANGES))
    yield Dear("`print` of 65,536 changes", lambda: applied(files(CHANGES)), lambda: b"print main\n", lines(2 * CHANGES))
    yield Dear("`uproot` of a change that 65,535 others need", name_deleted,
               lambda: named(b"uproot main", deleted_name(0)[0]), accepted)
    yield Dear("`print` of a name that 65,535 changes delete", name_deleted, lambda: b"print main\n", body(lambda: b""))
    yield Dear("`graph` of a name that 65,535 changes delete", name_deleted, lambda: b"graph main\n", lines(4))
    yield Dear("`unrecord` of one of 65,535 deletions of a name", name_deleted,
               lambda: named(b"unrecord main", deleted_name(1)[1]), accepted)
    yield Dear("`pull` of 65,536 changes into an empty channel", lambda: pulled(CHANGES, 1), lambda: b"pull c0 main\n", accepted)
    yield Dear("`pull` of 4,096 changes into the last of 256 channels", lambda: pulled(LISTED, PULLED),
               lambda: b"pull c%d main\n" % (PULLED - 1), accepted)
    for count in AROUND:
        yield Dear(f"`apply` of a deletion between {count:,} live vertices and {count:,} others",
                   lambda n=count: before_last(across(n)), lambda n=count: named(b"apply main", across(n)[-1]), accepted)
    yield Dear("`print` behind it", lambda: applied(across(AROUND[-1])), lambda: b"print main\n", body(two_rows))


def two_rows() -> bytes:
    """Insertions of which none is before another, and behind them as many."""
    rows = (b">>>>>>> %d\n" % number + (b"\n======= %d\n" % number).join([letter] * AROUND[-1]) + b"\n<<<<<<< %d\n" % number
            for number, letter in ((1, b"y"), (2, b"z")))
    printed = b"".join(rows)
    return b"file alive %d a\n%s\n" % (len(printed), printed)


# ---- the measuring


def reply_to(request: bytes, stream) -> bytes:
    """The whole reply to a request."""
    reply = stream.readline()
    words = reply.split(b" ")
    if words[0] == b"ok" and request.split()[0] in (b"print", b"graph", b"log", b"get"):
        reply += stream.read(int(words[2]) + 1)
    assert reply.endswith(b"\n"), f"the session ended at {reply[:200]!r}"
    return reply


def peak(process: int) -> int:
    """The most bytes of memory that the process had."""
    with open(f"/proc/{process}/status", encoding="ascii") as lines_of:
        return next(int(one.split()[1]) * 1024 for one in lines_of if one.startswith("VmHWM"))


def measured(program: str, case: Dear) -> Tuple[float, int]:
    """The seconds of the request, and the most memory."""
    before = list(case.before())
    run = subprocess.Popen([program, "one"], stdin=subprocess.PIPE, stdout=subprocess.PIPE)
    try:
        writer = threading.Thread(target=lambda: (run.stdin.writelines(before), run.stdin.flush()))
        writer.start()
        for request in before:
            reply = reply_to(request, run.stdout)
            assert reply.startswith(b"ok "), (request[:200], reply)
        writer.join()
        request = case.request()
        began = time.monotonic()
        run.stdin.write(request)
        run.stdin.flush()
        reply = reply_to(request, run.stdout)
        took, most = time.monotonic() - began, peak(run.pid)
        assert case.is_right(reply), f"{case.title}: {reply[:300]!r}"
    finally:
        run.kill()
        run.communicate()
    return took, most


def main(words: List[str]) -> int:
    program, *words = words
    asked = [word for word in words if word != "--write"]
    rows, bad = ["| Request | Seconds | Memory, MB |\n", "|---|---|---|\n"], 0
    print("".join(rows), end="", flush=True)
    for case in all_cases():
        if any(word not in case.title for word in asked):
            continue
        took, most = measured(program, case)
        rows.append(f"| {case.title} | {took:.1f} | {most / 1e6:,.0f} |\n")
        print(rows[-1], end="", flush=True)
        bad += took > SECONDS or most > MEMORY
    if "--write" in words:
        with open(DOCUMENT, encoding="utf-8") as file:
            front, _, rest = file.read().partition(BEGIN)
        with open(DOCUMENT, "w", encoding="utf-8") as file:
            file.write(front + BEGIN + "".join(rows) + END + rest.partition(END)[2])
    return bad != 0


if __name__ == "__main__":
    sys.exit(main(sys.argv[1:]))
