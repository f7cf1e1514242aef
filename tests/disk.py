#!/usr/bin/env python3
"""An independent log over disks that stop and tear.

It was written from docs/FORMATS.md alone and shares no code with the program.
`disk.py < CASES` prints what the program `test_formats` must print for `disk`;
the header of crates/test_formats/src/disk.rt says what the cases are. `disk.py
cases` prints the cases.
"""
import sys

HEADER = b"pijulj1\n"
MOST = 16_777_230
NEXT = b"\xab\xcd"


class Stopped(Exception):
    pass


def reading(file):
    """The strings that a file stores, and how the reading ends."""
    if len(file) <= 9:
        return [], "end"
    if file[:8] != HEADER:
        return [], "foreign"
    strings, at = [], 8
    while True:
        if at >= len(file):
            return strings, "broken"
        if file[at] == 0:
            return strings, "end"
        size = int.from_bytes(file[at + 1:at + 9], "big")
        if len(file) < at + 9 or not 1 <= size <= MOST or at + 9 + size > len(file):
            return strings, "broken"
        strings.append(file[at + 9:at + 9 + size])
        at += 9 + size


class Disk:
    """A disk that stops after so many calls. `tear` is None, or how much is
    kept of a write that is the call after which it stops, and a filler."""

    def __init__(self, file, calls=None, tear=None):
        self.bytes, self.synced, self.calls, self.tear = file, file, calls, tear

    def spend(self):
        if self.calls is not None:
            if self.calls == 0:
                raise Stopped
            self.calls -= 1

    def read_call(self):
        self.spend()

    def put(self, at, data):
        self.bytes = self.bytes[:at] + data + self.bytes[at + len(data):]

    def write(self, at, data):
        try:
            self.spend()
        except Stopped:
            if self.tear is not None and not self.torn:
                kept, filler = self.tear
                torn = data[:kept]
                if filler is not None:
                    torn += bytes([filler]) * (len(data) - len(torn))
                self.put(at, torn)
                self.torn = True
            raise
        self.put(at, data)

    torn = False

    def sync(self):
        self.spend()
        self.synced = self.bytes


def run(disk, strings):
    """Opens, reads and appends: how many strings were acknowledged."""
    count = 0
    try:
        disk.sync()
        disk.read_call()
        if len(disk.bytes) <= 9:
            disk.write(0, HEADER + b"\0")
            disk.sync()
        else:
            disk.read_call()
            if disk.bytes[:8] != HEADER:
                return 0
        stored, end = reading(disk.bytes)
        for _ in stored:
            for _ in range(3):
                disk.read_call()
        disk.read_call()
        disk.read_call()
        if end != "end":
            return 0
        at = 8 + sum(9 + len(string) for string in stored)
        for string in strings:
            disk.write(at + 1, len(string).to_bytes(8, "big") + string + b"\0")
            disk.sync()
            disk.write(at, b"\1")
            disk.sync()
            at += 9 + len(string)
            count += 1
    except Stopped:
        pass
    return count


def appended(file, strings):
    disk = Disk(file)
    run(disk, strings)
    return disk.bytes


def spelled(file):
    strings, end = reading(file)
    words = [string.hex() if len(string) <= 8 else str(len(string)) for string in strings]
    return " ".join(words + [end])


def stops(file, strings):
    for calls in range(1000):
        disk = Disk(file, calls)
        count = run(disk, strings)
        yield f"{calls} calls, {count} acknowledged"
        for name, left in ("synced", disk.synced), ("whole", disk.bytes):
            yield f"  {name} {spelled(left)}, then {spelled(appended(left, [NEXT]))}"
        if count == len(strings):
            return


def tears(file, strings):
    before = reading(file)
    after = reading(appended(file, strings))
    for calls in range(1000):
        tally = [0, 0, 0]
        done = False
        for kept in range(16):
            for filler in (None, 0, 1, 255):
                disk = Disk(file, max(calls - 1, 0), (kept, filler))
                if calls == 0:
                    disk.torn = True
                done = run(disk, strings) == len(strings)
                now = reading(disk.bytes)
                goes_on = reading(appended(disk.bytes, [NEXT])) == (now[0] + [NEXT], "end")
                if now == before and goes_on:
                    tally[0] += 1
                elif now == after and goes_on:
                    tally[1] += 1
                else:
                    tally[2] += 1
        yield "%d calls, %d before, %d after, %d other" % (calls, *tally)
        if done:
            return


def answer(line):
    kind, first, *rest = line.split(" ")
    file = b"" if first == "none" else bytes.fromhex(first)
    strings = [bytes.fromhex(word) for word in rest]
    yield kind
    if kind == "read":
        yield spelled(file)
    elif kind == "append":
        file = appended(file, strings)
        yield f"{len(file)} bytes: {spelled(file)}"
    elif kind == "stop":
        yield from stops(file, strings)
    elif kind == "tear":
        yield from tears(file, strings)
    yield ""


def stored(*strings, behind=b"\0"):
    """A file of these strings, spelled by hand."""
    return HEADER + b"".join(b"\1" + len(s).to_bytes(8, "big") + s for s in strings) + behind


def cases():
    first = bytes(range(1, 112))
    second = bytes(range(100, 176))
    whole = stored(first, second)
    stale = stored(b"old", behind=b"\0" + stored(b"torn", b"away", behind=b"\0")[8:] + b"\1\1\1")

    def say(kind, file, *strings):
        print(" ".join([kind, file.hex() or "none", *(s.hex() for s in strings)]))

    say("append", b"", first, second)
    say("append", whole, b"more")
    say("append", stale, b"new", b"newer")
    say("read", whole)
    say("read", b"q" + whole[1:])
    say("read", whole[:7] + b"\r" + whole[8:])
    say("read", whole[:100])
    say("read", whole[:-1])
    say("read", whole[:8] + b"\0" + whole[9:])
    say("read", whole[:8] + b"\2" + whole[9:])
    say("read", stale)
    for file in b"", b"q", HEADER, HEADER + b"\1", b"123456789", b"1234567890", HEADER + b"\0\1", HEADER + b"\1\0":
        say("read", file)
    for size in 0, 1, 3, 4, 5, 16_777_230, 16_777_231, 2**56, 2**63, 2**64 - 1:
        say("read", HEADER + b"\1" + size.to_bytes(8, "big") + b"abc\0")
    say("read", HEADER + b"\1" + (1).to_bytes(8, "little") + b"abc\0")
    say("stop", b"", b"a", b"bb")
    say("stop", b"garbage", b"a")
    say("stop", whole, b"ccc")
    say("stop", stale, b"dddd", b"e")
    say("tear", b"", b"abc")
    say("tear", b"garbage", b"abc")
    say("tear", stored(b"old"), b"abc")
    say("tear", stale, b"abcd")


def main():
    if sys.argv[1:] == ["cases"]:
        cases()
        return
    for line in sys.stdin.read().splitlines():
        for said in answer(line):
            print(said)


if __name__ == "__main__":
    main()
