"""Prints files of 16,385 and of 16,384 live vertices, shares the channel of the second 3,000 times, and prints uneven files.

    wide.py PROGRAM SHARES

A file has 16,385 bytes, and four changes order them, each byte before the next, so that each of them is a vertex. With
one order less the last two bytes are one vertex, and the file is not wide. That channel is forked SHARES times; then its
last change is taken out of the last fork, which has one change less, and no other channel is changed. Copies of the
edges in place of shares would need more than twenty gigabytes. Files of 1 to 6,000 bytes, each byte a vertex, are more
than one thread is given, and have to be printed whole and in their order. Written from docs/FORMATS.md alone.
"""

import resource
import subprocess
import sys

from forks import name_of, put, replies, text

BYTES = 16385
HUNKS = 4096
MEMORY = 2 << 30


def file_of_bytes():
    return text([], [b"file root a.txt", b"insert 0.1 after 0.1 before - %d" % BYTES, b"x" * BYTES])


def order(first, number, hunks):
    """So many orders of the bytes of the file, from the byte number HUNKS on for each change before."""
    lines = [b"order 1.1 1.%d 1.%d" % (2 + at, 3 + at) for at in range(number * HUNKS, number * HUNKS + hunks)]
    return text([name_of(first)], lines)


def channel(last):
    first = file_of_bytes()
    return [first] + [order(first, number, HUNKS) for number in range(3)] + [order(first, 3, last)]


def play(program, session):
    done = subprocess.run([program, "one"], input=b"".join(session) + b"quit\n", stdout=subprocess.PIPE, check=True)
    return done.stdout


def stored(changes):
    return [put(change) for change in changes] + [b"apply main %s\n" % name_of(change).encode() for change in changes]


def is_wide(program):
    changes = channel(HUNKS)
    *_, last = play(program, stored(changes) + [b"print main\n"]).splitlines()
    expected = b"no 10 wide %s.1" % name_of(changes[0]).encode()
    assert last == expected, last


def is_shared(program, shares):
    changes = channel(HUNKS - 1)
    session = stored(changes) + [b"print main\n"]
    session += [b"fork main c%d\n" % number for number in range(shares)]
    session.append(b"unrecord c%d %s\n" % (shares - 1, name_of(changes[-1]).encode()))
    session += [b"log main\n", b"log c%d\n" % (shares - 1)]
    answers = list(replies(play(program, session)))
    assert len(answers) == len(session), (len(answers), len(session))
    assert all(word == b"ok" for word, _ in answers)
    printed, *logs = [body for _, body in answers if body]
    assert printed == b"file alive %d a.txt\n" % BYTES + b"x" * BYTES + b"\n", printed[:80]
    names = [name_of(change).encode() + b"\n" for change in changes]
    assert logs == [b"".join(names), b"".join(names[:-1])], "a log has not its changes"
    most = resource.getrusage(resource.RUSAGE_CHILDREN).ru_maxrss * 1024
    assert most < MEMORY, f"{most} bytes"


def uneven_files():
    """A change with files of such lengths, the changes that order the bytes of each, and what a print of them is."""
    hunks, orders, printed, at = [], [], b"", 0
    for number, length in enumerate((5000, 1, 3, 4000, 2, 6000, 10, 1200)):
        words = bytes(ord("a") + (number + byte) % 26 for byte in range(length))
        hunks += [b"file root f%d" % number, b"insert 0.%d after 0.%d before - %d" % (at + 1, at + 1, length), words]
        orders += [b"order 1.%d 1.%d 1.%d" % (at + 1, at + 2 + byte, at + 3 + byte) for byte in range(length - 1)]
        printed += b"file alive %d f%d\n" % (length, number) + words + b"\n"
        at += length + 2
    first = text([], hunks)
    return [first] + [text([name_of(first)], orders[begin:begin + HUNKS]) for begin in range(0, len(orders), HUNKS)], printed


def is_in_order(program):
    changes, expected = uneven_files()
    *_, (word, printed) = replies(play(program, stored(changes) + [b"print main\n"]))
    assert (word, printed) == (b"ok", expected), printed[:80]


def main():
    program, shares = sys.argv[1], int(sys.argv[2])
    is_wide(program)
    is_shared(program, shares)
    is_in_order(program)
    print(f"{shares} shares of {BYTES - 1} vertices")


if __name__ == "__main__":
    main()
