#!/usr/bin/env python3
"""An independent model of a repository that is kept in a file.

    keep.py PROGRAM [SEED]

It was written from docs/FORMATS.md and docs/MODEL.md alone and shares no code with the program. The bytes of the file are read
by `disk.py`, the strings by `requests.py`, and answered by the repository of `judged.py`, whose changes are those of a pool.
`restored` says which repository a file has, or which of its entries is foreign; `kept` says what a session over the file
writes, how it ends, and what the file then is.

Alone it tries the model: on worked examples, on each front of a file that is appended to, and beside `PROGRAM one`, which is
asked for what drawn files store. An entry that the model calls foreign has to be one that the program refuses.
"""
from __future__ import annotations

import random
import subprocess
import sys
from typing import Iterable, Iterator, List, NamedTuple, Optional, Tuple

import disk
import judged
import requests
from judged import A, A_NAME, Known, Repository

DONE, JOURNAL, SESSION = 0, 7, 6
PASS_OF_RESTORING, PASS_OF_SESSION = 1, 2
KNOWN_A = Known(A, A_NAME, b"a.txt", b"one\ntw", None, (), True)


class Restored(NamedTuple):
    """What the entries of a file make, up to the first that is foreign."""

    repository: Repository
    strings: List[bytes]  # those that were accepted
    foreign: Optional[int]  # the entry that is no accepted request, from 1; 0 where the header is another; None where all are


class Kept(NamedTuple):
    """What a session over a file leaves."""

    status: int
    replies: bytes
    file: bytes


# ---- the model


def is_request(string: bytes) -> bool:
    """Whether the string is one request that has a reply."""
    line, count = requests.first(string)
    return count == len(string) and count > 0 and line != "quit"


def is_accepted(repository: Repository, request: bytes, number: int, call: int) -> bool:
    """Answers the request, and says whether it was entered."""
    before = repository.place
    repository.answer(request, number, call)
    return repository.place > before


def restored(file: bytes, known: Iterable[Known]) -> Restored:
    """The repository that the file has. Its entries are calls 1, 2 and so on of pass 1."""
    repository = Repository(known)
    strings, ending = disk.reading(file)
    if ending == "foreign":
        return Restored(repository, [], 0)
    for entry, string in enumerate(strings, 1):
        if not is_request(string) or not is_accepted(repository, string, PASS_OF_RESTORING, entry):
            return Restored(repository, strings[:entry - 1], entry)
    return Restored(repository, strings, len(strings) + 1 if ending == "broken" else None)


def appended(file: bytes, strings: List[bytes]) -> bytes:
    """The file after it was opened and these strings were appended."""
    return disk.appended(file, strings)


def answered(repository: Repository, sent: bytes) -> Iterator[Tuple[bytes, bytes, bool]]:
    """Each request of a session of pass 2, its reply, and whether it was entered."""
    for call, request in enumerate(judged.asked(sent)[0], 1):
        before = repository.place
        reply = repository.answer(request, PASS_OF_SESSION, call)
        yield request, reply, repository.place > before


def kept(file: bytes, known: Iterable[Known], sent: bytes) -> Kept:
    """What a session leaves that sends these bytes. The store does not fail."""
    found = restored(file, known)
    if found.foreign is not None:
        return Kept(JOURNAL, b"", file)
    told = list(answered(found.repository, sent))
    ending = judged.asked(sent)[1]
    status = DONE if ending in ("quit", "idle") else SESSION
    new = [request for request, _, entered in told if entered]
    return Kept(status, b"".join(reply for _, reply, _ in told), appended(file, new))


# ---- worked examples

ROW = b"put 102\n%s\napply main %s\nquit\n" % (A, A_NAME)
ROW_REPLIES = b"ok 1 %s\nok 2\n" % A_NAME
ROW_FILE = (b"pijulj1\n" + b"\1" + (111).to_bytes(8, "big") + b"put 102\n%s\n" % A
            + b"\1" + (76).to_bytes(8, "big") + b"apply main %s\n" % A_NAME + b"\0")
PRINT = b"print main\nquit\n"
PRINTED = b"ok 2 26\nfile alive 6 a.txt\none\ntw\n\n"
EMPTY = b"pijulj1\n\0"
NONE = b"ok 0 0\n\n"


def changed(file: bytes, at: int, byte: int) -> bytes:
    return file[:at] + bytes([byte]) + file[at + 1:]


# a file, what is sent, and what comes of it
WORKED: List[Tuple[bytes, bytes, Kept]] = [
    (b"", ROW, Kept(DONE, ROW_REPLIES, ROW_FILE)),
    (b"123456789", ROW, Kept(DONE, ROW_REPLIES, ROW_FILE)),
    (b"", b"", Kept(DONE, b"", EMPTY)),
    (ROW_FILE, PRINT, Kept(DONE, PRINTED, ROW_FILE)),
    (ROW_FILE, b"journal\n", Kept(DONE, b"ok 2 157\n1 1 1 put %s\n2 1 2 apply main %s\n\n" % (A_NAME, A_NAME),
                                  ROW_FILE)),
    # a refused request and one that is there already are not stored
    (ROW_FILE, b"new main\napply main %s\nprint main\nquit\n" % A_NAME,
     Kept(DONE, b"no 2 taken\nok 2 already\n" + PRINTED, ROW_FILE)),
    (ROW_FILE, b"new c\nfoo", Kept(SESSION, b"ok 3\n", ROW_FILE[:-1] + b"\1" + (6).to_bytes(8, "big") + b"new c\n\0")),
    # another header, a file that is cut, and a first gate that is closed: what stands behind it is not looked at
    (changed(ROW_FILE, 0, ord("P")), PRINT, Kept(JOURNAL, b"", changed(ROW_FILE, 0, ord("P")))),
    (ROW_FILE[:100], PRINT, Kept(JOURNAL, b"", ROW_FILE[:100])),
    (changed(ROW_FILE, 8, 0), PRINT, Kept(DONE, NONE, changed(ROW_FILE, 8, 0))),
    (changed(ROW_FILE, 128, 0), PRINT, Kept(DONE, b"ok 1 0\n\n", changed(ROW_FILE, 128, 0))),
    (changed(ROW_FILE, 8, 255), PRINT, Kept(DONE, PRINTED, changed(ROW_FILE, 8, 255))),
    (b"another program's file\n", PRINT, Kept(JOURNAL, b"", b"another program's file\n")),
    (b"1234567890", PRINT, Kept(JOURNAL, b"", b"1234567890")),
]


def try_worked() -> None:
    """The model gives what the worked examples give."""
    assert len(ROW_FILE) == 214
    for file, sent, wanted in WORKED:
        found = kept(file, [KNOWN_A], sent)
        assert found == wanted, f"{file!r} with {sent!r} gives {found} and not {wanted}"
    foreign = [b"quit\n", b"log main\n", b"new main\n", b"new c", b"new c\nnew d\n", b"fork d c\n", b"get %s\n" % A_NAME]
    for string in foreign:
        file = appended(ROW_FILE, [b"new b\n", string, b"new e\n"])
        found = restored(file, [KNOWN_A])
        assert (found.foreign, len(found.strings)) == (4, 3), f"{string!r}: {found}"


# ---- drawn files


def drawn_request(draw: random.Random, known: List[Known]) -> bytes:
    """A request that may be entered, or now and then one that only asks."""
    one, number = draw.choice(known), draw.randrange(4)
    other = b"main" if draw.randrange(3) == 0 else b"c%d" % draw.randrange(4)
    kind = draw.randrange(16)
    if kind < 5:
        return b"put %d\n%s\n" % (len(one.text), one.text)
    if kind < 10:
        return b"apply %s %s\n" % (other, one.name)
    if kind < 12:
        return b"%s %s %s\n" % (draw.choice([b"unrecord", b"uproot"]), other, one.name)
    if kind < 14:
        return draw.choice([b"new c%d\n" % number, b"fork %s c%d\n" % (other, number), b"drop c%d\n" % number])
    return draw.choice([b"pull %s main\n" % other, b"log main\n", b"print main\n"])


def drawn_requests(draw: random.Random, known: List[Known], count: int) -> List[bytes]:
    """Requests, in which each change is stored before the others are asked for."""
    return [drawn_request(draw, known) for _ in range(count)]


def accepted(known: List[Known], asked: List[bytes]) -> List[bytes]:
    """Those that a new repository accepts, one after the other."""
    repository = Repository(known)
    return [request for call, request in enumerate(asked, 1) if is_accepted(repository, request, 1, call)]


def try_fronts(draw: random.Random) -> None:
    """Each front of a list that is accepted is restored, and goes on as the whole list does."""
    known = judged.pool(draw.randrange(1 << 30), 8)
    asked = drawn_requests(draw, known, 80)
    strings = accepted(known, asked)
    assert len(strings) >= 10, "too few requests are accepted"
    whole = appended(b"", strings)
    for count in range(len(strings) + 1):
        front = appended(b"", strings[:count])
        found = restored(front, known)
        assert (found.strings, found.foreign) == (strings[:count], None)
        rest = kept(front, known, b"".join(strings[count:]))
        assert (rest.status, rest.file) == (DONE, whole), "a front goes on in another way"


def told_by(program: str, sent: bytes) -> bytes:
    """What `one` writes."""
    run = subprocess.run([program, "one"], input=sent, stdout=subprocess.PIPE, timeout=120, check=True)
    return run.stdout


def try_beside(program: str, draw: random.Random) -> int:
    """What a drawn file stores is accepted by `one`, up to the entry that the model calls foreign. Says whether there was one."""
    known = judged.pool(draw.randrange(1 << 30), 8)
    asked = drawn_requests(draw, known, 60)
    strings = accepted(known, asked)
    if draw.randrange(2):
        strings.insert(draw.randrange(len(strings) + 1), draw.choice(asked))
    found = restored(appended(b"", strings), known)
    session = b"".join(found.strings) + b"journal\nlog main\nprint main\ngraph main\nchannels\n"
    came = told_by(program, session)
    entered = [reply for reply in came.splitlines()[:len(found.strings)]]
    assert all(reply.startswith(b"ok ") and b" already" not in reply for reply in entered), "an entry is not accepted"
    asking = b"".join(reply for _, reply, _ in answered(found.repository, b"journal\nlog main\nprint main\ngraph main\nchannels\n"))
    assert came.endswith(asking), f"the program says of the restored repository\n{came!r}\nand not\n{asking!r}"
    if found.foreign is None:
        return 0
    with_it = told_by(program, session + strings[found.foreign - 1])
    reply = with_it[len(came):].partition(b"\n")[0].split(b" ")
    is_read = not strings[found.foreign - 1].startswith(judged.WRITES)
    assert reply[0] == b"no" or reply[2:3] == [b"already"] or is_read, f"the program accepts a foreign entry: {reply}"
    return 1


def main() -> int:
    if len(sys.argv) < 2:
        print(__doc__, file=sys.stderr)
        return 2
    draw = random.Random(int(sys.argv[2]) if len(sys.argv) > 2 else 1)
    try_worked()
    for _ in range(10):
        try_fronts(draw)
    foreign = sum(try_beside(sys.argv[1], draw) for _ in range(100))
    assert foreign >= 10, "hardly a file was foreign"
    print(f"{len(WORKED)} worked examples, and 100 drawn files, {foreign} of them foreign, are restored as `one` answers them")
    return 0


if __name__ == "__main__":
    sys.exit(main())
