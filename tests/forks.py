"""Forks a channel a thousand times, changes the last fork, and looks at all of them.

    forks.py PROGRAM CHANGES FORKS

One session of `PROGRAM one`: CHANGES changes on `main`, FORKS forks of it, and one more change on the last fork. Then
the graph of each channel has to be that of `main` before it was forked, but for the last fork, where the graph has the
vertex of that one more change. Written from docs/FORMATS.md alone.
"""

import hashlib
import subprocess
import sys


def text(needs, hunks):
    lines = [b"pijul change 1", b"message forks", b"author ann", b"time 1"]
    lines += [b"needs " + need.encode() for need in sorted(needs)]
    return b"".join(line + b"\n" for line in lines + hunks + [b"end"])


def name_of(change):
    return hashlib.sha256(change).hexdigest()


def insertion(file, after, offset, line):
    """The line, behind that offset of a change and before nothing."""
    needs = sorted({file, after})
    place = {need: number + 1 for number, need in enumerate(needs)}
    head = f"insert {place[file]}.1 after {place[after]}.{offset} before - {len(line)}".encode()
    return text(needs, [head, line])


def changes(count):
    """A file of one line, and then a line behind the last one, each by a change of its own."""
    first = text([], [b"file root a.txt", b"insert 0.1 after 0.1 before - 7", b"line 0\n"])
    made, last, offset = [first], name_of(first), 8
    for number in range(1, count):
        line = f"line {number}\n".encode()
        made.append(insertion(name_of(first), last, offset, line))
        last, offset = name_of(made[-1]), len(line) - 1
    return made


def put(change):
    return b"put %d\n" % len(change) + change + b"\n"


def replies(out):
    """The first line of each reply without its place, with its body."""
    at = 0
    while at < len(out):
        end = out.index(b"\n", at)
        words = out[at:end].split(b" ")
        at, body = end + 1, b""
        if words[0] == b"ok" and len(words) == 3 and words[2].isdigit() and len(words[2]) < 64:
            body = out[at : at + int(words[2])]
            at += len(body) + 1
        yield words[0], body


def main():
    program, count, forks = sys.argv[1], int(sys.argv[2]), int(sys.argv[3])
    *common, more = changes(count + 1)
    session = [put(change) for change in common + [more]]
    session += [b"apply main %s\n" % name_of(change).encode() for change in common]
    session.append(b"graph main\n")
    session += [b"fork main fork%d\n" % number for number in range(1, forks + 1)]
    session.append(b"apply fork%d %s\n" % (forks, name_of(more).encode()))
    session.append(b"graph main\n")
    session += [b"graph fork%d\n" % number for number in range(1, forks + 1)]
    session.append(b"quit\n")
    done = subprocess.run([program, "one"], input=b"".join(session), stdout=subprocess.PIPE, check=True)
    answers = list(replies(done.stdout))
    assert len(answers) == len(session) - 1, (len(answers), len(session))
    assert all(word == b"ok" for word, _ in answers)
    before, *after = [body for _, body in answers if body]
    vertices = [line.split(b" ")[1].split(b".")[0].decode() for line in before.splitlines() if line.startswith(b"vertex ")]
    assert set(vertices) == {name_of(change) for change in common}, "the graph has not the vertices of its changes"
    assert len(after) == forks + 1
    assert all(graph == before for graph in after[:-1]), "a channel has another graph than before"
    vertex = b"vertex %s.0-%d text alive\n" % (name_of(more).encode(), len(f"line {count}\n"))
    assert vertex in after[-1] and vertex not in before, "the last fork has not the change that was applied to it"
    print(f"{forks} forks of {count} changes")


if __name__ == "__main__":
    main()
