#!/usr/bin/env python3
"""Compares the decoder of requests with the independent reader.

`requests_differential.py PROGRAM COUNT` takes the requests of the program
`test_formats`, makes others of them, and compares what PROGRAM writes with
requests.py: each prefix of three sessions, each byte of three sessions changed
to twelve values, COUNT mutated sessions by a fixed sequence of random numbers,
and lengths and names at their bounds. PROGRAM itself reads each case in pieces
of 1, 2, 3, 7 and 4,096 bytes and whole. The exit status is 0 where all answers
agree.
"""
import os
import random
import subprocess
import sys

import requests

HERE = os.path.dirname(os.path.abspath(__file__))
BYTES = b"\x00\n\r -.,/019:AZaz\xff"
VALUES = b"\x00\n\r 09.Aagz\xff"
PIECES = [b"0", b"00", b"16777216", b"16777217", b"9" * 40, b"a" * 64, b"a" * 65, b"A" * 64, b" ", b"  ", b"\n",
          b"put 0\n\n", b"put 1\n\n\n", b"put 3\nabc\n", b"channels\n", b"journal\n", b"quit\n", b"quit",
          b"fork main a\n", b"pull a main\n", b"drop a\n", b"log main\n", b"graph main\n", b"print main\n",
          b"get " + b"f" * 64 + b"\n", b"inverse " + b"0" * 64 + b"\n", b"apply main " + b"a" * 64 + b"\n",
          b"unrecord main " + b"a" * 64 + b"\n", b"uproot main " + b"a" * 64 + b"\n", b"new " + b"x" * 64 + b"\n"]


def mutate(case, draw):
    for _ in range(draw.choice((1, 1, 2, 3))):
        at = draw.randrange(len(case) + 1)
        kind = draw.randrange(5)
        if kind == 0:
            case = case[:at]
        elif kind == 1:
            case = case[:at] + bytes([draw.choice(BYTES)]) + case[at + 1:]
        elif kind == 2:
            case = case[:at] + draw.choice(PIECES) + case[at:]
        elif kind == 3:
            case = case[:at] + case[at + draw.randrange(1, 4):]
        else:
            lines = case.split(b"\n")
            lines.insert(draw.randrange(len(lines)), draw.choice(PIECES).strip(b"\n"))
            case = b"\n".join(lines)
    return case


def bounds():
    for length in (16_777_215, 16_777_216, 16_777_217):
        yield b"put %d\n" % length
        yield b"put %d" % length
    long = b"\n" * 16_777_216
    yield b"put 16777216\n" + long + b"\nquit\n"
    yield b"put 16777216\n" + long + b"x"
    for count in (63, 64, 65):
        for end in (b"", b"\n", b" ", b" b\n"):
            yield b"new " + b"n" * count + end
            yield b"fork " + b"n" * count + end
            yield b"get " + b"a" * count + end
    yield b"a" * 1_000_000
    yield b"put " + b"1" * 1_000_000
    yield b"channels\n" * 2_000


def verbs(session):
    """How many kinds of requests a session has."""
    return len({line.split(" ")[0] for line in requests.read(session).split("\n")})


def made(count):
    with open(HERE + "/../crates/test_formats/data/requests", "rb") as file:
        sessions = list(requests.cases(file.read()))
    yield from bounds()
    for session in sorted(sessions, key=verbs)[-3:]:
        for at in range(len(session) + 1):
            yield session[:at]
        for at in range(len(session)):
            for value in VALUES:
                yield session[:at] + bytes([value]) + session[at + 1:]
    draw = random.Random(20261127)
    for _ in range(count):
        yield mutate(draw.choice(sessions), draw)


def main():
    program, count = sys.argv[1], int(sys.argv[2])
    cases = list(made(count))
    stream = b"".join(requests.framed(case) for case in cases)
    done = subprocess.run([program, "requests", "/dev/stdin"], input=stream, stdout=subprocess.PIPE, check=True)
    wanted = [requests.read(case) for case in cases]
    if done.stdout.decode() == "".join(wanted):
        print("%d cases agree" % len(cases))
        return 0
    for case, want, got in zip(cases, wanted, done.stdout.decode().split("\n\n")):
        if want != got + "\n\n":
            print("case %r\nwanted %r\ngot %r" % (case[:300], want[:300], got[:300]))
            return 1
    print("there are more or fewer answers than cases")
    return 1


if __name__ == "__main__":
    sys.exit(main())
