#!/usr/bin/env python3
"""An independent reader of requests.

It was written from docs/FORMATS.md alone and shares no code with the program.
`requests.py < CASES` prints what the program `test_formats` must print for
`requests`: a case is its length on a line, the bytes, and a newline.
"""
import hashlib
import sys

LONGEST = 16_777_216
CHANNEL = frozenset(b"abcdefghijklmnopqrstuvwxyzABCDEFGHIJKLMNOPQRSTUVWXYZ0123456789.-_")
HEX = frozenset(b"0123456789abcdef")
DIGITS = frozenset(b"0123456789")
# what stands behind each verb: a length, a change or a channel
VERBS = {b"put": "n", b"get": "h", b"inverse": "h", b"new": "c", b"fork": "cc", b"drop": "c", b"apply": "ch",
         b"unrecord": "ch", b"uproot": "ch", b"pull": "cc", b"graph": "c", b"print": "c", b"log": "c",
         b"channels": "", b"journal": "", b"quit": ""}
PART, BAD = "part", "bad"


def is_whole(kind, word):
    if kind == "c":
        return 1 <= len(word) <= 64 and CHANNEL.issuperset(word)
    if kind == "h":
        return len(word) == 64 and HEX.issuperset(word)
    return is_length(word)


def may_grow(kind, word):
    if kind == "c":
        return len(word) <= 64 and CHANNEL.issuperset(word)
    if kind == "h":
        return len(word) <= 64 and HEX.issuperset(word)
    return word == b"" or is_length(word)


def is_length(word):
    if not word or len(word) > 8 or not DIGITS.issuperset(word):
        return False
    return (word == b"0" or word[:1] != b"0") and int(word) <= LONGEST


def cut_line(words):
    """What a line without its newline is."""
    if len(words) == 1:
        return PART if any(verb.startswith(words[0]) for verb in VERBS) else BAD
    kinds = VERBS.get(words[0])
    if kinds is None or len(words) - 1 > len(kinds):
        return BAD
    if not all(is_whole(kind, word) for kind, word in zip(kinds, words[1:-1])):
        return BAD
    return PART if may_grow(kinds[len(words) - 2], words[-1]) else BAD


def first(data):
    """The line that says what the first request is, and its length; or PART or BAD, and 0."""
    end = data.find(b"\n", 0, 200)
    if end < 0:
        return (cut_line(data.split(b" ")) if len(data) < 200 else BAD), 0
    words = data[:end].split(b" ")
    kinds = VERBS.get(words[0])
    if kinds is None or len(words) - 1 != len(kinds):
        return BAD, 0
    if not all(is_whole(kind, word) for kind, word in zip(kinds, words[1:])):
        return BAD, 0
    if words[0] != b"put":
        return data[:end].decode(), end + 1
    count = int(words[1])
    text = data[end + 1:end + 1 + count]
    closing = data[end + 1 + count:end + 2 + count]
    if closing == b"":
        return PART, 0
    if closing != b"\n":
        return BAD, 0
    return "put %d %s" % (count, hashlib.sha256(text).hexdigest()), end + 2 + count


def fewest_bad(data):
    """After how many bytes no request could come any more; once it is so, it stays so."""
    low, high = 0, len(data)
    while low < high:
        middle = (low + high) // 2
        if first(data[:middle])[0] == BAD:
            high = middle
        else:
            low = middle + 1
    return low


def read(data):
    """The lines that the program must print for a case."""
    lines = []
    at = 0
    while True:
        if at == len(data):
            lines.append("idle")
            break
        line, count = first(data[at:])
        if line == PART:
            lines.append("more")
            break
        if line == BAD:
            lines.append("bad %d" % (at + fewest_bad(data[at:])))
            break
        lines.append(line)
        at += count
        if line == "quit":
            break
    return "".join(line + "\n" for line in lines) + "\n"


def framed(case):
    return b"%d\n%s\n" % (len(case), case)


def cases(stream):
    at = 0
    while at < len(stream):
        end = stream.index(b"\n", at)
        count = int(stream[at:end])
        yield stream[end + 1:end + 1 + count]
        at = end + 2 + count


def main():
    for case in cases(sys.stdin.buffer.read()):
        sys.stdout.write(read(case))


if __name__ == "__main__":
    main()
