#!/usr/bin/env python3
"""An independent reader of replies.

It was written from docs/FORMATS.md and docs/MODEL.md alone and shares no code
with the program. `replies.py < CASES` prints what the program `test_formats`
must print for `replies`: a case is a line with its length and what is due, in
order (`log`, `get`, `apply`, `put HEX`), the bytes, and a newline. `replies.py
cases` prints the cases.

The reader follows all spellings of a reply at once, byte by byte: bytes are
strange as soon as they lead along none of them.
"""
import hashlib
import random
import sys
from typing import Iterator, List, NamedTuple, Optional, Tuple

LONGEST_TEXT = 16_777_216
HEX = b"0123456789abcdef"
PLACE = ("number", 2**64 - 1)
NAME = ("name",)
REASONS = {
    "log": [[b"channel"]],
    "get": [[b"change"]],
    "put": [[b"malformed"], [b"clash"], [b"full store"], [b"full journal"]],
    "apply": [[b"channel"], [b"change"], [b"full journal"], [b"needs ", NAME], [b"context ", ("number", 2**32 - 1)]],
}


class Due(NamedTuple):
    """A request whose reply is due; a `put` has the name of its text."""
    verb: str
    name: bytes = b""

    def word(self) -> bytes:
        return self.verb.encode() + (b" " + self.name if self.name else b"")


def spellings(due: Due) -> List[list]:
    """How each reply to the request is spelled, a part behind the other."""
    told = {
        "log": [[b"ok ", PLACE, b" ", ("body", 2**64 - 1)]],
        "get": [[b"ok ", PLACE, b" ", ("body", LONGEST_TEXT)]],
        "put": [[b"ok ", PLACE, b" " + due.name + b"\n"], [b"ok ", PLACE, b" already " + due.name + b"\n"]],
        "apply": [[b"ok ", PLACE, b"\n"], [b"ok ", PLACE, b" already\n"]],
    }[due.verb]
    refused = [[b"no ", PLACE, b" "] + reason + [b"\n"] for reason in REASONS[due.verb]]
    return told + refused + [[b"no memory\n"]]


class Place(NamedTuple):
    """Where one is on a spelling: the part, what stands of it, and of a body how many bytes are to come."""
    spelling: tuple
    part: int
    seen: bytes
    wanted: Optional[int] = None

    def next_part(self) -> "Place":
        return Place(self.spelling, self.part + 1, b"")

    def is_end(self) -> bool:
        return self.part == len(self.spelling)


def is_number(digits: bytes, most: int) -> bool:
    return digits.isdigit() and (digits == b"0" or digits[:1] != b"0") and int(digits) <= most


def step(place: Place, byte: bytes) -> Optional[Place]:
    """Where one is a byte later, or None where the spelling goes on otherwise."""
    part, seen = place.spelling[place.part], place.seen + byte
    if isinstance(part, bytes):
        if not part.startswith(seen):
            return None
        return place.next_part() if seen == part else place._replace(seen=seen)
    if part == NAME:
        if byte not in [HEX[at:at + 1] for at in range(16)]:
            return None
        return place.next_part() if len(seen) == 64 else place._replace(seen=seen)
    if part[0] == "number":
        if is_number(seen, part[1]):
            return place._replace(seen=seen)
        return step(place.next_part(), byte) if place.seen and not byte.isdigit() else None
    return step_of_body(place, part[1], byte)


def step_of_body(place: Place, most: int, byte: bytes) -> Optional[Place]:
    """The length, a newline, so many bytes, and a newline. A greater length is a number like others until its newline."""
    if place.wanted is None:
        if byte == b"\n" and place.seen:
            return place._replace(seen=b"", wanted=int(place.seen)) if int(place.seen) <= most else None
        seen = place.seen + byte
        return place._replace(seen=seen) if is_number(seen, 2**64 - 1) else None
    if place.wanted > 0:
        return place._replace(wanted=place.wanted - 1)
    return place.next_part() if byte == b"\n" else None


def first(due: Due, data: bytes) -> Tuple[str, int]:
    """What the first reply is, `whole`, `more` or `strange`, and how many bytes it has or after how many it is strange."""
    places = [Place(tuple(spelling), 0, b"") for spelling in spellings(due)]
    for at in range(len(data)):
        places = [place for place in (step(place, data[at:at + 1]) for place in places) if place is not None]
        if not places:
            return "strange", at + 1
        if any(place.is_end() for place in places):
            return "whole", at + 1
    return "more", 0


def lines_of(due: Due, reply: bytes) -> str:
    """The lines of a whole reply."""
    line, _, behind = reply.partition(b"\n")
    if due.verb in ("log", "get") and line.startswith(b"ok "):
        return "%s\n%s\n" % (line.decode(), hashlib.sha256(behind[:-1]).hexdigest())
    return line.decode() + "\n"


def read(all_due: List[Due], data: bytes) -> str:
    """What the program must print for a case."""
    said, at = "", 0
    for due in all_due:
        kind, count = first(due, data[at:])
        if kind == "more":
            return said + "more\n\n"
        if kind == "strange":
            return said + "strange %d\n\n" % (at + count)
        said += lines_of(due, data[at:at + count])
        at += count
    return said + "done\n\n"


def framed(all_due: List[Due], data: bytes) -> bytes:
    return b"%d %s\n%s\n" % (len(data), b" ".join(due.word() for due in all_due), data)


def cases(stream: bytes) -> Iterator[Tuple[List[Due], bytes]]:
    at = 0
    while at < len(stream):
        end = stream.index(b"\n", at)
        words = stream[at:end].split(b" ")
        count, words = int(words[0]), words[1:]
        all_due = []
        while words:
            verb = words.pop(0).decode()
            all_due.append(Due(verb, words.pop(0)) if verb == "put" else Due(verb))
        yield all_due, stream[end + 1:end + 1 + count]
        at = end + 2 + count


TEXT = b"pijul change 1\nmessage A\nauthor ann\ntime 1\nfile root a.txt\ninsert 0.1 after 0.1 before - 6\none\ntw\nend\n"
OTHER = b"pijul change 1\nmessage empty\nauthor ann\ntime 1\nend\n"
A, B = (hashlib.sha256(text).hexdigest().encode() for text in (TEXT, OTHER))
LOG, GET, PUT, APPLY = Due("log"), Due("get"), Due("put", A), Due("apply")


def body(place: int, data: bytes) -> bytes:
    return b"ok %d %d\n%s\n" % (place, len(data), data)


# replies of each kind
REPLIES = [
    (LOG, body(7, A + b"\n" + B + b"\n")), (LOG, body(0, b"")), (LOG, b"no 3 channel\n"),
    (GET, body(12, TEXT)), (GET, body(2**64 - 1, b"\0\n\xff")), (GET, b"no 0 change\n"),
    (PUT, b"ok 1 %s\n" % A), (PUT, b"ok 10 already %s\n" % A), (PUT, b"no 0 malformed\n"), (PUT, b"no 20 clash\n"),
    (PUT, b"no 4 full store\n"), (PUT, b"no 4 full journal\n"), (PUT, b"no memory\n"),
    (APPLY, b"ok 18446744073709551615\n"), (APPLY, b"ok 2 already\n"), (APPLY, b"no 2 channel\n"), (APPLY, b"no 2 change\n"),
    (APPLY, b"no 2 full journal\n"), (APPLY, b"no 2 needs %s\n" % B), (APPLY, b"no 2 context 4294967295\n"),
]
# bytes at the bounds of numbers, names, lengths and bodies
BOUNDS = [
    (LOG, b"ok 18446744073709551616 0\n\n"), (LOG, b"ok 99999999999999999999 0\n\n"), (LOG, b"ok 01 0\n\n"), (LOG, b"ok 00 0\n\n"),
    (LOG, b"ok 1 00\n\n"), (LOG, b"ok 1 01\nx\n"), (LOG, b"ok 1 3\nab\n"), (LOG, b"ok 1 1\nab\n"), (LOG, b"ok 1 2\nab"),
    (LOG, b"ok 1 2\nabc"), (LOG, b"ok 1 2\nab\r\n"), (LOG, b"ok 1 18446744073709551615\nabc"), (LOG, b"ok 1 18446744073709551616\n"),
    (LOG, b"ok  1 0\n\n"), (LOG, b"ok 1  0\n\n"), (LOG, b"ok 1 0 \n\n"), (LOG, b"ok 1 \n"), (LOG, b"ok  0\n\n"), (LOG, b"ok 1\n"),
    (LOG, b"ok 1 already\n"), (LOG, b"ok 1 16777217\nabc"), (LOG, b"ok 1 -1\n"), (LOG, b"ok 1 0x1\n"), (LOG, b""),
    (GET, b"ok 1 16777215\n"), (GET, b"ok 1 16777216\nabc"), (GET, b"ok 1 16777217"), (GET, b"ok 1 16777217\n"),
    (GET, b"ok 1 18446744073709551615"), (GET, b"ok 1 18446744073709551615\n"), (GET, b"ok 1 18446744073709551616"),
    (GET, b"ok 1 99999999999999999999999"), (GET, b"ok 1 016777216\n"), (GET, b"no 1 channel\n"), (GET, b"no 01 change\n"),
    (PUT, b"ok 1 %s\n" % B), (PUT, b"ok 1 already %s\n" % B), (PUT, b"ok 1 %s\n" % A.upper()), (PUT, b"ok 1 %s" % A),
    (PUT, b"ok 1 %s \n" % A), (PUT, b"ok 1 %s\n" % A[1:]), (PUT, b"ok 1 %s0\n" % A), (PUT, b"ok 1 already\n"), (PUT, b"ok 1\n"),
    (PUT, b"ok 1 already %s\n" % A[:-1]), (PUT, b"no 1 fullstore\n"), (PUT, b"no 1 full  store\n"), (PUT, b"no 1 full channels\n"),
    (APPLY, b"ok 18446744073709551616\n"), (APPLY, b"ok 1 \n"), (APPLY, b"ok 1 already \n"), (APPLY, b"ok 1 Already\n"),
    (APPLY, b"ok 1 0\n\n"), (APPLY, b"ok\n"), (APPLY, b"ok \n"), (APPLY, b"OK 1\n"), (APPLY, b"ok 007\n"),
    (APPLY, b"no 1 context 4294967296\n"), (APPLY, b"no 1 context 01\n"), (APPLY, b"no 1 context 0\n"), (APPLY, b"no 1 context \n"),
    (APPLY, b"no 1 needs %s\n" % B.upper()), (APPLY, b"no 1 needs %s\n" % B[:-1]), (APPLY, b"no 1 needs %s0\n" % B),
    (APPLY, b"no 1 needs\n"), (APPLY, b"no 1 held %s\n" % B), (APPLY, b"no 1 absent\n"), (APPLY, b"no 1 inverse 1\n"),
    (APPLY, b"no 1 wide %s.0\n" % B), (APPLY, b"no memory"), (APPLY, b"no memory \n"), (APPLY, b"no 1 memory\n"), (APPLY, b"\n"),
    (APPLY, b"x" * 161), (APPLY, b"ok 1" + b"0" * 160), (APPLY, b" ok 1\n"), (APPLY, b"ok 1\r\n"), (APPLY, b"quit\n"),
]


def changed(data: bytes, draw: random.Random) -> bytes:
    """With one byte changed, one more, or one less."""
    at = draw.randrange(len(data))
    byte = bytes([draw.choice(b"\0\n\r 09.Aagz\xff")])
    return data[:at] + draw.choice((byte + data[at + 1:], byte + data[at:], data[at + 1:]))


def made() -> Iterator[Tuple[List[Due], bytes]]:
    for due in LOG, GET, PUT, APPLY:
        for _, data in REPLIES:
            yield [due], data
    for due, data in BOUNDS:
        yield [due], data
    for due, data in REPLIES:
        if data not in (body(0, b""), b"no 4 full journal\n", b"no 2 full journal\n"):
            for at in range(len(data)):
                yield [due], data[:at]
    draw = random.Random(20261202)
    for _ in range(260):
        due, data = draw.choice(REPLIES)
        yield [due], changed(data, draw)
    for _ in range(80):
        chosen = [draw.choice(REPLIES) for _ in range(draw.randrange(2, 6))]
        data = b"".join(data for _, data in chosen)
        if draw.randrange(2):
            data = changed(data, draw)
        yield [due for due, _ in chosen], data + draw.choice((b"", b"", b"ok", b"\n", b"no memory\n"))


def main() -> None:
    if sys.argv[1:] == ["cases"]:
        sys.stdout.buffer.write(b"".join(framed(all_due, data) for all_due, data in made()))
        return
    for all_due, data in cases(sys.stdin.buffer.read()):
        sys.stdout.write(read(all_due, data))


if __name__ == "__main__":
    main()
