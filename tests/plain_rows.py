"""Plays the worked examples of the plain channel on a repository, whose channels have tables.

    plain_rows.py PROGRAM FOLDER FILE ..

`FOLDER/data/FILE` has rows, each a session of requests, and `FOLDER/stdout` the replies to those of all files, which come from
outside; what stands there before the first row belongs to none. A session of `PROGRAM one` for each row has to reply the same. A
session knows no `walk`, `sizes` and `length`, which are left out, and no `live`, so a row that has it is left out whole.
"""

import subprocess
import sys

LEFT_OUT = (b"walk", b"sizes", b"length")


def requests(text):
    """Each row of requests: its title, and the requests with their bodies."""
    rows, at = [], 0
    while at < len(text):
        end = text.index(b"\n", at)
        words = text[at:end].split(b" ")
        at, first = end + 1, at
        if words[0] == b"put":
            at += int(words[1]) + 1
        if words[0] == b"row":
            rows.append((b" ".join(words[1:]), []))
        elif words[0] != b"quit":
            rows[-1][1].append(text[first:at])
    return rows


def replies(text):
    """Each row of replies: its title, and the replies with their bodies."""
    rows, at = [], text.index(b"\nrow ") + 1
    while at < len(text):
        end = text.index(b"\n", at)
        words = text[at:end].split(b" ")
        at, first = end + 1, at
        if words[0] == b"ok" and len(words) == 3 and words[2].isdigit() and len(words[2]) < 64:
            at += int(words[2]) + 1
        if words[0] == b"row":
            rows.append((b" ".join(words[1:]), []))
        else:
            rows[-1][1].append(text[first:at])
    return rows


def read(path):
    with open(path, "rb") as file:
        return file.read()


def played(program, row):
    """What a session replies to the requests."""
    done = subprocess.run([program, "one"], input=b"".join(row) + b"quit\n", stdout=subprocess.PIPE, check=True)
    return done.stdout


def main():
    program, folder, *files = sys.argv[1:]
    asked = [row for file in files for row in requests(read(f"{folder}/data/{file}"))]
    answered = replies(read(f"{folder}/stdout"))
    assert [title for title, _ in asked] == [title for title, _ in answered]
    count = 0
    for (title, row), (_, wanted) in zip(asked, answered):
        if any(request.startswith(b"live ") for request in row):
            continue
        kept = [not request.split(b" ")[0].strip() in LEFT_OUT for request in row]
        assert len(row) == len(wanted), title
        out = played(program, [request for request, stays in zip(row, kept) if stays])
        told = b"".join(reply for reply, stays in zip(wanted, kept) if stays)
        assert out == told, f"{title.decode()}: {out!r} and not {told!r}"
        count += 1
    assert count >= 99, count
    print(f"{count} rows")


main()
